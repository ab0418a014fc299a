/*
 * A gearbox maker puts a digest of his program into a register of his own
 * (EXTEND_PCR) and reads the register back.
 *
 *   ./archive
 *   gcc -std=c11 @tests/c/flags examples/gearbox.c target/staticlib/libwaggleloft.a -o target/gearbox
 *   target/gearbox [REGISTER]       4 if left out; a register outside 4 to 30 is refused with number 12
 */
#include <stdio.h>
#include <stdlib.h>
#include <string.h>

#include "waggleloft.h"

static uint32_t image[WAGGLELOFT_IMAGE_WORDS];
static uint32_t work[WAGGLELOFT_WORK_WORDS];

/* A request: checksum 4, register 4, digest 48. */
#define REQUEST_BYTES 56

static void put_number(uint8_t *bytes, uint32_t number)
{
    for (int i = 0; i < 4; i++)
        bytes[i] = (uint8_t)(number >> (8 * i) & 0xFFU);
}

/* Makes all stores of the work in hand, if its opening gave 0. */
static void run(const char *what, uint32_t number)
{
    while (number == WAGGLELOFT_OK && waggleloft_left(work, WAGGLELOFT_WORK_WORDS) > 0)
        number = waggleloft_store(work, WAGGLELOFT_WORK_WORDS, image, WAGGLELOFT_IMAGE_WORDS);
    if (number != WAGGLELOFT_OK) {
        printf("%s was refused with number %lu\n", what, (unsigned long)number);
        exit(1);
    }
}

/* A unit of the workshop, for this example. */
static void boot_cold(void)
{
    uint8_t runtime[48], manifest[48], secret[48];
    uint32_t outcome;
    memset(runtime, 0x11, sizeof runtime);
    memset(manifest, 0x33, sizeof manifest);
    memset(secret, 0x22, sizeof secret);
    run("the cold boot", waggleloft_open_cold_boot(image, WAGGLELOFT_IMAGE_WORDS, runtime, 48, manifest, 48, secret, 48, work,
                                                   WAGGLELOFT_WORK_WORDS, &outcome));
    memset(work, 0, sizeof work);
}

static void extend(uint32_t pcr, const uint8_t digest[WAGGLELOFT_SHA384_BYTES])
{
    const uint8_t nothing[1] = {0};
    uint8_t request[REQUEST_BYTES];
    put_number(request + 4, pcr);
    memcpy(request + 8, digest, WAGGLELOFT_SHA384_BYTES);
    put_number(request, waggleloft_checksum(WAGGLELOFT_EXTEND_PCR, request + 4, REQUEST_BYTES - 4));
    run("the extension", waggleloft_open_request(image, WAGGLELOFT_IMAGE_WORDS, WAGGLELOFT_EXTEND_PCR, request, sizeof request, 1,
                                                 nothing, 0, false, nothing, 0, work, WAGGLELOFT_WORK_WORDS));
}

/* A register is twelve words of the image, a word's lowest byte first. */
static void print_register(uint32_t pcr)
{
    printf("PCR%lu ", (unsigned long)pcr);
    for (uint32_t i = 0; i < WAGGLELOFT_SHA384_BYTES; i++)
        printf("%02lx", (unsigned long)(image[16 + 12 * pcr + i / 4] >> (8 * (i % 4)) & 0xFFU));
    printf("\n");
}

int main(int argc, char **argv)
{
    char *end = NULL;
    unsigned long pcr = argc == 2 ? strtoul(argv[1], &end, 0) : WAGGLELOFT_EXTEND_FIRST;
    if (argc > 2 || (end != NULL && (end == argv[1] || *end != '\0')) || pcr > UINT32_MAX) {
        fprintf(stderr, "usage: gearbox [REGISTER]\n");
        return 2;
    }
    uint8_t digest[WAGGLELOFT_SHA384_BYTES];
    (void)waggleloft_sha384((const uint8_t *)"shifts gears", 12, digest, sizeof digest);
    boot_cold();
    extend((uint32_t)pcr, digest);
    print_register((uint32_t)pcr);
    return 0;
}
