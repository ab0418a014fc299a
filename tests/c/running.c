/*
 * Calls the running digest of include/waggleloft.h from C: published digests,
 * every cut of small messages, every refusal, counts bent by hand, and damaged
 * states. Which number a call has to give is worked out here from the bytes of
 * the state. State and buffer stand between guard bytes; a call that is refused
 * must leave all of them. Prints a line for each check that failed and, last,
 * 'N passed, M failed'.
 */
#include "waggleloft.h"

#include "check.h"
#include "published.h"
#include "random.h"

#include <stdio.h>
#include <stdlib.h>
#include <string.h>

#define STATE WAGGLELOFT_SHA384_STATE_BYTES
#define DIGEST WAGGLELOFT_SHA384_BYTES
#define LONGEST WAGGLELOFT_SHA384_LONGEST

/* Where the counts, lowest byte first, and the block stand in a state's bytes: docs/REFERENCE.md, section 11. */
enum { TOTAL_IN = 0, WAITING_IN = 8, BLOCK_IN = 16 };

/* The largest total, 2^32 - 1. */
static const uint64_t FULL = UINT64_C(4294967295);

/* One byte more than the longest slice, all the letter a. */
static uint8_t letters[LONGEST + 1];

/* ---- lent buffers ---- */

#define GUARD 32

/* A buffer of len bytes between guards, and what all of it held before the last call. */
struct lent {
    size_t len;
    uint8_t *bytes, *all, *before;
};

static uint8_t *allocated(size_t n)
{
    uint8_t *bytes = malloc(n);
    if (bytes == NULL) {
        printf("no memory\n");
        exit(1);
    }
    return bytes;
}

static struct lent lend(size_t len)
{
    struct lent l = {len, NULL, allocated(len + 2 * GUARD), allocated(len + 2 * GUARD)};
    l.bytes = l.all + GUARD;
    fill_bytes(l.all, len + 2 * GUARD);
    return l;
}

static void take_back(struct lent *l)
{
    free(l->all);
    free(l->before);
}

static void remember(struct lent *l) { memcpy(l->before, l->all, l->len + 2 * GUARD); }

/* Whether the buffer and its guards are as they were, but for the buffer's first n bytes. */
static bool same_but(const struct lent *l, size_t n)
{
    return memcmp(l->all, l->before, GUARD) == 0 && memcmp(l->bytes + n, l->before + GUARD + n, l->len - n + GUARD) == 0;
}

static bool same(const struct lent *l) { return same_but(l, 0); }

/* ---- what a call has to give ---- */

static uint64_t count_in(const struct lent *state, size_t at)
{
    uint64_t n = 0;
    for (size_t i = 8; i > 0; i--)
        n = n << 8 | state->bytes[at + i - 1];
    return n;
}

static void set_count(struct lent *state, size_t at, uint64_t n)
{
    for (size_t i = 0; i < 8; i++)
        state->bytes[at + i] = (uint8_t)(n >> (8 * i) & 0xFFU);
}

static bool agrees(const struct lent *state)
{
    uint64_t total = count_in(state, TOTAL_IN);
    return count_in(state, WAITING_IN) == total % 128 && total <= FULL;
}

static uint32_t feed_number(const struct lent *state, size_t slice_len)
{
    if (state->len != STATE)
        return 28;
    if (!agrees(state))
        return 27;
    if (slice_len > 65535)
        return 10;
    return count_in(state, TOTAL_IN) + slice_len > FULL ? 16 : 0;
}

static uint32_t finish_number(const struct lent *state, size_t buffer_len)
{
    if (state->len != STATE)
        return 28;
    if (!agrees(state))
        return 27;
    return buffer_len < 48 ? 8 : 0;
}

/* ---- calls that are looked at ---- */

/* Begins; whether the state was written, and nothing else. */
static bool begin(struct lent *state)
{
    remember(state);
    return waggleloft_sha384_begin(state->bytes, state->len) == WAGGLELOFT_OK && same_but(state, STATE) &&
           count_in(state, TOTAL_IN) == 0 && count_in(state, WAITING_IN) == 0;
}

/* Feeds a slice; whether number, counts and what stays are as they have to be. */
static bool feed(struct lent *state, const uint8_t *slice, size_t n)
{
    uint32_t number = feed_number(state, n);
    uint64_t total = state->len == STATE ? count_in(state, TOTAL_IN) + n : 0;
    remember(state);
    if (waggleloft_sha384_feed(state->bytes, state->len, slice, n) != number)
        return false;
    if (number != WAGGLELOFT_OK)
        return same(state);
    return same_but(state, STATE) && count_in(state, TOTAL_IN) == total && count_in(state, WAITING_IN) == total % 128;
}

/* Finishes into a buffer; whether number and what stays are as they have to be. */
static bool finish(struct lent *state, struct lent *buffer)
{
    uint32_t number = finish_number(state, buffer->len);
    remember(state);
    remember(buffer);
    return waggleloft_sha384_finish(state->bytes, state->len, buffer->bytes, buffer->len) == number && same(state) &&
           same_but(buffer, number == WAGGLELOFT_OK ? DIGEST : 0);
}

/* Whether a state finishes with the digest, given in hexadecimal digits. */
static bool comes_to(struct lent *state, const char *digits)
{
    struct lent buffer = lend(DIGEST);
    char found[2 * DIGEST + 1];
    bool holds = finish(state, &buffer);
    for (size_t i = 0; i < DIGEST; i++)
        (void)snprintf(found + 2 * i, 3, "%02x", (unsigned)buffer.bytes[i]);
    take_back(&buffer);
    return holds && strcmp(found, digits) == 0;
}

/* Whether a state finishes with the digest that waggleloft_sha384 gives of a message. */
static bool comes_to_whole(struct lent *state, const uint8_t *message, size_t n)
{
    struct lent buffer = lend(DIGEST);
    uint8_t whole[DIGEST];
    bool holds = finish(state, &buffer) && waggleloft_sha384(message, n, whole, DIGEST) == WAGGLELOFT_OK &&
                 memcmp(buffer.bytes, whole, DIGEST) == 0;
    take_back(&buffer);
    return holds;
}

/* Feeds n bytes in slices of one size, each from its own place in the message. */
static bool feed_all(struct lent *state, const uint8_t *message, size_t n, size_t slice)
{
    bool all = true;
    for (size_t at = 0; at < n; at += slice)
        all = feed(state, message + at, n - at < slice ? n - at : slice) && all;
    return all;
}

/* ---- digests ---- */

static void check_names(void)
{
    check(WAGGLELOFT_LONG_TOTAL == 16 && WAGGLELOFT_WRONG_COUNTS == 27 && WAGGLELOFT_WRONG_STATE == 28, "numbers of a running digest");
    check(WAGGLELOFT_SHA384_TOTAL_LONGEST == FULL, "the largest total is 2^32 - 1");
    check(waggleloft_sha384_state_bytes() == STATE && STATE == 208, "the archive's bytes of a state are the header's");
}

/* A published message in slices of every size. */
static bool published(const char *message, const char *digits)
{
    struct lent state = lend(STATE);
    size_t n = strlen(message);
    bool all = true;
    for (size_t slice = 1; slice <= n + 1; slice++) {
        all = begin(&state) && feed_all(&state, (const uint8_t *)message, n, slice) && all;
        all = comes_to(&state, digits) && all;
    }
    take_back(&state);
    return all;
}

/* The published message of one million letters a. */
static bool million(size_t slice)
{
    struct lent state = lend(STATE);
    size_t left = 1000000;
    bool all = begin(&state);
    for (; left > slice; left -= slice)
        all = feed(&state, letters, slice) && all;
    all = feed(&state, letters, left) && comes_to(&state, MILLION_DIGEST) && all;
    take_back(&state);
    return all;
}

static void check_published(void)
{
    static const size_t slices[] = {64, 127, 128, 129, 1000, 4096, 65408, LONGEST};
    bool all = true;
    check(published("", EMPTY_DIGEST), "no bytes");
    check(published("abc", ABC_DIGEST), "abc in slices of every size");
    check(published(TWO_BLOCKS, TWO_BLOCKS_DIGEST), "the message of 112 bytes in slices of every size");
    for (size_t i = 0; i < sizeof slices / sizeof *slices; i++)
        all = million(slices[i]) && all;
    check(all, "one million letters in slices of eight sizes");
}

/* A message cut in two; the same state as in one slice, and the same digest as in one piece. */
static bool cut_holds(struct lent *state, struct lent *whole, const uint8_t *message, size_t n, size_t cut)
{
    bool all = begin(state) && feed(state, message, cut) && feed(state, message + cut, n - cut);
    return memcmp(state->bytes, whole->bytes, STATE) == 0 && comes_to_whole(state, message, n) && all;
}

static void check_cuts(void)
{
    struct lent state = lend(STATE), whole = lend(STATE);
    uint8_t *message = allocated(300);
    bool all = true;
    fill_bytes(message, 300);
    for (size_t n = 0; n <= 300; n++) {
        all = begin(&whole) && feed(&whole, message, n) && all;
        for (size_t cut = 0; cut <= n; cut++)
            all = cut_holds(&state, &whole, message, n, cut) && all;
    }
    check(all, "messages of up to 300 bytes, cut anywhere");
    free(message);
    take_back(&state);
    take_back(&whole);
}

/* Slices of random lengths, some empty. */
static void check_slices(void)
{
    struct lent state = lend(STATE);
    uint8_t *message = allocated(LONGEST);
    bool all = true;
    fill_bytes(message, LONGEST);
    for (int i = 0; i < 50; i++) {
        size_t fed = 0, most = i % 2 == 0 ? 300 : 10000;
        all = begin(&state) && all;
        while (fed < LONGEST) {
            size_t n = random32() % 4 == 0 ? 0 : random32() % most;
            n = n < LONGEST - fed ? n : LONGEST - fed;
            all = feed(&state, message + fed, n) && all;
            fed += n;
        }
        all = comes_to_whole(&state, message, LONGEST) && all;
    }
    check(all, "slices of random lengths, empty ones among them");
    free(message);
    take_back(&state);
}

/* A finish after every slice leaves the state: it can be made again, and feeding goes on. */
static void check_going_on(void)
{
    struct lent state = lend(STATE);
    bool all = begin(&state) && comes_to(&state, EMPTY_DIGEST) && comes_to(&state, EMPTY_DIGEST);
    for (size_t n = 0; n + 7 <= 700; n += 7) {
        all = feed(&state, letters, 7) && all;
        all = comes_to_whole(&state, letters, n + 7) && comes_to_whole(&state, letters, n + 7) && all;
    }
    check(all, "a finish can be made again, and feeding goes on");
    all = begin(&state) && comes_to(&state, EMPTY_DIGEST) && all;
    check(all, "a begin forgets what was fed");
    take_back(&state);
}

/* Slice, state and buffer without guards, so that valgrind sees a byte too many that is only read. */
static void check_exact(void)
{
    uint8_t *state = allocated(STATE), *buffer = allocated(DIGEST);
    bool all = true;
    for (size_t n = 1; n <= 300; n++) {
        uint8_t *slice = allocated(n);
        memset(slice, 'a', n);
        all = waggleloft_sha384_begin(state, STATE) == WAGGLELOFT_OK && all;
        for (int i = 0; i < 3; i++)
            all = waggleloft_sha384_feed(state, STATE, slice, n) == WAGGLELOFT_OK && all;
        all = waggleloft_sha384_finish(state, STATE, buffer, DIGEST) == WAGGLELOFT_OK && all;
        free(slice);
    }
    check(all, "slices, states and buffers that end with their memory");
    free(state);
    free(buffer);
}

/* ---- refusals ---- */

/* States of other lengths get 28 from all three, before any other number. */
static bool length_refused(size_t len)
{
    struct lent state = lend(len), buffer = lend(47);
    bool all = true;
    for (int full = 0; full < 2; full++) {
        memset(state.bytes, full == 1 ? 0xFF : 0, len);
        remember(&state);
        all = waggleloft_sha384_begin(state.bytes, len) == WAGGLELOFT_WRONG_STATE && same(&state) && all;
        all = feed(&state, letters, 3) && feed(&state, letters, LONGEST + 1) && finish(&state, &buffer) && all;
    }
    take_back(&state);
    take_back(&buffer);
    return all;
}

static void check_lengths(void)
{
    bool all = true;
    for (size_t len = 0; len <= 300; len++)
        all = (len == STATE || length_refused(len)) && all;
    check(all, "states of every other length get 28, and nothing is written");
}

static void check_buffers(void)
{
    struct lent state = lend(STATE);
    bool all = begin(&state) && feed(&state, letters, 200);
    for (size_t len = 0; len <= 64; len++) {
        struct lent buffer = lend(len);
        all = finish(&state, &buffer) && all;
        take_back(&buffer);
    }
    check(all, "buffers of every length: 8 below 48 bytes, and bytes past 48 stay");
    take_back(&state);
}

/* A state with these counts, after some bytes. */
static void bend(struct lent *state, uint64_t total, uint64_t waiting)
{
    if (!begin(state) || !feed(state, letters, 300))
        check(false, "a state to be bent");
    set_count(state, TOTAL_IN, total);
    set_count(state, WAITING_IN, waiting);
}

/* With these counts, whether feeding n bytes gives the number, as worked out here too. */
static bool bent_feed(uint64_t total, uint64_t waiting, size_t n, uint32_t number)
{
    struct lent state = lend(STATE);
    bend(&state, total, waiting);
    bool holds = feed_number(&state, n) == number && feed(&state, letters, n);
    take_back(&state);
    return holds;
}

/* The same of finishing into n bytes. */
static bool bent_finish(uint64_t total, uint64_t waiting, size_t n, uint32_t number)
{
    struct lent state = lend(STATE), buffer = lend(n);
    bend(&state, total, waiting);
    bool holds = finish_number(&state, n) == number && finish(&state, &buffer);
    take_back(&state);
    take_back(&buffer);
    return holds;
}

/* Counts that get 27 from feed and finish, whatever else is wrong. */
static bool wrong_counts(uint64_t total, uint64_t waiting)
{
    return bent_feed(total, waiting, 0, 27) && bent_feed(total, waiting, 1, 27) && bent_feed(total, waiting, LONGEST + 1, 27) &&
           bent_finish(total, waiting, 48, 27) && bent_finish(total, waiting, 0, 27);
}

static void check_counts(void)
{
    check(wrong_counts(128, 128), "a whole block that waits: 27");
    check(wrong_counts(FULL + 1, 0), "a total of 2^32: 27");
    check(wrong_counts(129, 0) && wrong_counts(128, 1) && wrong_counts(0, 128) && wrong_counts(255, 128), "counts that disagree: 27");
    check(wrong_counts(0, UINT64_C(1) << 32) && wrong_counts(5, UINT64_MAX) && wrong_counts(5, 5 + (UINT64_C(1) << 56)), "many that wait: 27");
    check(wrong_counts(UINT64_MAX, 127) && wrong_counts(UINT64_C(1) << 63, 0) && wrong_counts(FULL + 128, 127), "totals of more than 32 bits: 27");
}

static void check_totals(void)
{
    check(bent_feed(FULL, 127, 0, 0) && bent_finish(FULL, 127, 48, 0), "an empty slice at the largest total");
    check(bent_feed(FULL, 127, 1, 16), "one byte more: 16");
    check(bent_feed(FULL - 1, 126, 1, 0) && bent_feed(FULL - 1, 126, 2, 16), "up to the largest total and no further");
    check(bent_feed(FULL - LONGEST, (FULL - LONGEST) % 128, LONGEST, 0) &&
              bent_feed(FULL - LONGEST + 1, (FULL - LONGEST + 1) % 128, LONGEST, 16),
          "the longest slice up to the largest total and no further");
}

static void check_order(void)
{
    check(bent_feed(0, 0, LONGEST, 0) && bent_feed(0, 0, LONGEST + 1, 10), "a slice longer than 65,535 bytes: 10");
    check(bent_feed(FULL, 127, LONGEST + 1, 10), "10 comes before 16");
    check(bent_feed(FULL, 0, LONGEST + 1, 27), "27 comes before 10 and 16");
    check(bent_finish(1, 1, 47, 8) && bent_finish(1, 0, 47, 27), "27 comes before 8");
}

/* A refused slice leaves the state, and feeding goes on. */
static void check_refused_slice(void)
{
    struct lent state = lend(STATE);
    bool all = begin(&state) && feed(&state, letters, 200) && feed(&state, letters, LONGEST + 1) && feed(&state, letters, 100);
    check(all && comes_to_whole(&state, letters, 300), "a refused slice does not count");
    take_back(&state);
}

/* ---- damaged states ---- */

/* Feeds and a finish of whatever the state's bytes are. */
static bool damaged_holds(struct lent *state, struct lent *buffer)
{
    size_t n = random32() % 8 == 0 ? LONGEST - random32() % 4 : random32() % 400;
    return finish(state, buffer) && feed(state, letters, n) && finish(state, buffer);
}

/* What stands behind the bytes that wait is not looked at. */
static void check_behind(void)
{
    struct lent state = lend(STATE);
    bool all = true;
    for (size_t n = 0; n <= 300; n++) {
        all = begin(&state) && feed(&state, letters, n) && all;
        fill_bytes(state.bytes + BLOCK_IN + n % 128, 128 - n % 128);
        all = comes_to_whole(&state, letters, n) && feed(&state, letters, 1) && comes_to_whole(&state, letters, n + 1) && all;
    }
    check(all, "bytes of the block behind those that wait do not count");
    take_back(&state);
}

static void check_random_bytes(void)
{
    struct lent state = lend(STATE), buffer = lend(64);
    bool all = true;
    for (int i = 0; i < 20000; i++) {
        fill_bytes(state.bytes, STATE);
        all = damaged_holds(&state, &buffer) && all;
    }
    check(all, "states of random bytes");
    take_back(&state);
    take_back(&buffer);
}

/* Random bytes whose counts agree, most of the time. */
static void check_random_counts(void)
{
    static const uint64_t totals[] = {0, 1, 127, 128, 129, 255, 65535, 65536, 0x7FFFFFFF, 0xFFFF0000, 0xFFFFFF80, 0xFFFFFFFE,
                                      0xFFFFFFFF, UINT64_C(0x100000000), UINT64_C(0x10000007F), UINT64_MAX};
    struct lent state = lend(STATE), buffer = lend(64);
    bool all = true;
    for (int i = 0; i < 50000; i++) {
        uint64_t total = totals[random32() % (sizeof totals / sizeof *totals)];
        fill_bytes(state.bytes, STATE);
        set_count(&state, TOTAL_IN, total);
        set_count(&state, WAITING_IN, random32() % 8 == 0 ? random32() % 130 : total % 128);
        all = damaged_holds(&state, &buffer) && all;
    }
    check(all, "random bytes with counts at and past their bounds");
    take_back(&state);
    take_back(&buffer);
}

static void check_damaged_bits(void)
{
    struct lent state = lend(STATE), buffer = lend(64);
    bool all = true;
    for (size_t bit = 0; bit < 8 * STATE; bit++) {
        bend(&state, 300, 300 % 128);
        state.bytes[bit / 8] = (uint8_t)(state.bytes[bit / 8] ^ 1U << bit % 8);
        all = damaged_holds(&state, &buffer) && all;
    }
    check(all, "a state with one bit damaged");
    take_back(&state);
    take_back(&buffer);
}

int main(void)
{
    memset(letters, 'a', sizeof letters);
    check_names();
    check_published();
    check_cuts();
    check_slices();
    check_going_on();
    check_exact();
    check_lengths();
    check_buffers();
    check_counts();
    check_totals();
    check_order();
    check_refused_slice();
    check_behind();
    check_random_bytes();
    check_random_counts();
    check_damaged_bits();
    return conclude();
}
