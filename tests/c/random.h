/*
 * Repeatable random numbers, for the C programs of this folder.
 */
#ifndef RANDOM_H
#define RANDOM_H

#include <stddef.h>
#include <stdint.h>

static uint64_t seed = 88172645463325252U;

/* xorshift64 */
static inline uint32_t random32(void)
{
    seed ^= seed << 13;
    seed ^= seed >> 7;
    seed ^= seed << 17;
    return (uint32_t)(seed >> 16);
}

static inline void fill_words(uint32_t *words, size_t n)
{
    for (size_t i = 0; i < n; i++)
        words[i] = random32();
}

static inline void fill_bytes(uint8_t *bytes, size_t n)
{
    for (size_t i = 0; i < n; i++)
        bytes[i] = (uint8_t)(random32() & 0xFFU);
}

#endif
