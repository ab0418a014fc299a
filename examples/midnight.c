/*
 * The buyer's midnight: a cold boot, a new measurement (stash) whose power is
 * cut after a number of stores, and the restart, which is an update boot. Says
 * in plain words what the buyer then has, and prints the list: of each
 * measurement type, digest and svn. The same C calls are a unit's firmware.
 *
 *   ./archive
 *   gcc -std=c11 @tests/c/flags examples/midnight.c target/staticlib/libwaggleloft.a -o target/midnight
 *   target/midnight STORES       0 to 54: the stores that are made before the power is cut
 */
#include <stdio.h>
#include <stdlib.h>
#include <string.h>

#include "waggleloft.h"

/* The unit: its memory, which outlives a cut, and the work in hand, which does not. */
static uint32_t image[WAGGLELOFT_IMAGE_WORDS];
static uint32_t work[WAGGLELOFT_WORK_WORDS];

#define REQUEST_BYTES 60
#define ATTESTATION_WORD 1
#define SECRET_WORD 4
#define SECRET_WORDS 12

/* Stores of a stash: the mark twice, PCR31, the new node, the handle of the one before it. */
#define STASH_STORES (2 + 12 + WAGGLELOFT_NODE_WORDS + 5)

static void refused(const char *what, uint32_t number)
{
    fprintf(stderr, "%s was refused with number %lu\n", what, (unsigned long)number);
    exit(1);
}

/* Makes at most `most` stores of the work in hand; hands back how many were made. */
static size_t run(size_t most)
{
    size_t made = 0;
    while (made < most && waggleloft_left(work, WAGGLELOFT_WORK_WORDS) > 0) {
        uint32_t number = waggleloft_store(work, WAGGLELOFT_WORK_WORDS, image, WAGGLELOFT_IMAGE_WORDS);
        if (number != WAGGLELOFT_OK)
            refused("a store", number);
        made++;
    }
    return made;
}

static void put_number(uint8_t *bytes, uint32_t number)
{
    for (int i = 0; i < 4; i++)
        bytes[i] = (uint8_t)(number >> (8 * i) & 0xFFU);
}

/* The stash of a program's digest and svn: checksum, type 4, digest 48, svn 4. */
static void open_stash(const uint8_t digest[WAGGLELOFT_SHA384_BYTES], uint32_t svn)
{
    const uint8_t nothing[1] = {0};
    uint8_t request[REQUEST_BYTES];
    memcpy(request + 4, "HOUR", 4);
    memcpy(request + 8, digest, WAGGLELOFT_SHA384_BYTES);
    put_number(request + 8 + WAGGLELOFT_SHA384_BYTES, svn);
    put_number(request, waggleloft_checksum(WAGGLELOFT_STASH_MEASUREMENT, request + 4, REQUEST_BYTES - 4));
    uint32_t number = waggleloft_open_request(image, WAGGLELOFT_IMAGE_WORDS, WAGGLELOFT_STASH_MEASUREMENT, request,
                                              sizeof request, 1, nothing, 0, false, nothing, 0, work, WAGGLELOFT_WORK_WORDS);
    if (number != WAGGLELOFT_OK)
        refused("the stash", number);
}

/* An answer begins with its checksum, made with the command code taken as zero. */
static bool checksum_fine(const uint8_t *answer, size_t len)
{
    uint8_t sum[4];
    put_number(sum, waggleloft_checksum(0, answer + 4, len - 4));
    return memcmp(answer, sum, sizeof sum) == 0;
}

static void take_answer(void)
{
    uint8_t answer[WAGGLELOFT_ANSWER_LONGEST];
    size_t written = 0;
    uint32_t number = waggleloft_answer(work, WAGGLELOFT_WORK_WORDS, answer, sizeof answer, &written);
    if (number == WAGGLELOFT_OK)
        printf("The unit had its answer of %zu bytes ready, its checksum %s.\n", written,
               checksum_fine(answer, written) ? "fine" : "wrong");
    else if (number == WAGGLELOFT_STORES_LEFT)
        printf("The unit had no answer yet (number %lu: stores left).\n", (unsigned long)number);
    else
        refused("the answer", number);
}

/* Whether any of the words is not zero. */
static bool any(const uint32_t *words, size_t n)
{
    for (size_t i = 0; i < n; i++)
        if (words[i] != 0)
            return true;
    return false;
}

/* A node's first word. */
static const uint32_t *node(size_t index) { return image + WAGGLELOFT_NODES_AT + WAGGLELOFT_NODE_WORDS * index; }

/* Whether a node is used: one of the list's measurements, or its root. */
static bool used(size_t index) { return (node(index)[0] & 0xFFFFU) == 1; }

static size_t used_nodes(void)
{
    size_t count = 0;
    for (size_t i = 0; i < WAGGLELOFT_NODES; i++)
        count += used(i) ? 1 : 0;
    return count;
}

/* Byte i of the words, a word's lowest byte first. */
static unsigned byte(const uint32_t *words, size_t i) { return (unsigned)(words[i / 4] >> (8 * (i % 4)) & 0xFFU); }

/* A line for each used node: its type, the first bytes of its digest, its svn. */
static void print_list(void)
{
    for (size_t i = 0; i < WAGGLELOFT_NODES; i++) {
        if (!used(i))
            continue;
        printf("  node %zu  ", i);
        for (size_t k = 0; k < 4; k++)
            printf("%c", (char)byte(node(i) + WAGGLELOFT_NODE_TYPE, k));
        printf("  ");
        for (size_t k = 0; k < 6; k++)
            printf("%02x", byte(node(i) + WAGGLELOFT_NODE_CURRENT, k));
        printf("..  svn %lu\n", (unsigned long)node(i)[WAGGLELOFT_NODE_SVN]);
    }
}

static void tell_buyer(uint32_t outcome, size_t before)
{
    if (outcome == WAGGLELOFT_DISABLED) {
        printf("The unit found a work that was cut: attestation is %s and the secret is %s, until "
               "a cold boot starts a new list. You are shown no list, so none with a hole in it.\n",
               image[ATTESTATION_WORD] == 1 ? "on" : "off", any(image + SECRET_WORD, SECRET_WORDS) ? "kept" : "erased");
        return;
    }
    printf("The list:\n");
    print_list();
    printf("Attestation is %s. The new measurement is %s the list, and all earlier ones are.\n",
           image[ATTESTATION_WORD] == 1 ? "on" : "off", used_nodes() > before ? "in" : "not in");
}

static size_t argument(int argc, char **argv)
{
    char *end = NULL;
    long n = argc == 2 ? strtol(argv[1], &end, 10) : -1;
    if (n < 0 || n > STASH_STORES || end == argv[1] || *end != '\0') {
        fprintf(stderr, "usage: midnight STORES, 0 to %d: the stores that are made before the power is cut\n", STASH_STORES);
        exit(2);
    }
    return (size_t)n;
}

int main(int argc, char **argv)
{
    size_t cut = argument(argc, argv);
    uint8_t runtime[WAGGLELOFT_SHA384_BYTES], manifest[WAGGLELOFT_SHA384_BYTES], secret[WAGGLELOFT_SHA384_BYTES];
    uint8_t program[WAGGLELOFT_SHA384_BYTES];
    uint32_t outcome = WAGGLELOFT_KEPT, number;
    memset(secret, 0x5A, sizeof secret);
    (void)waggleloft_sha384((const uint8_t *)"the runtime", 11, runtime, sizeof runtime);
    (void)waggleloft_sha384((const uint8_t *)"its manifest", 12, manifest, sizeof manifest);
    (void)waggleloft_sha384((const uint8_t *)"counts hours", 12, program, sizeof program);

    number = waggleloft_open_cold_boot(image, WAGGLELOFT_IMAGE_WORDS, runtime, sizeof runtime, manifest, sizeof manifest,
                                       secret, sizeof secret, work, WAGGLELOFT_WORK_WORDS, &outcome);
    if (number != WAGGLELOFT_OK)
        refused("the cold boot", number);
    printf("Cold boot: %zu stores.\n", run(SIZE_MAX));

    size_t before = used_nodes();
    open_stash(program, 300);
    size_t all = waggleloft_left(work, WAGGLELOFT_WORK_WORDS);
    printf("A new measurement: the power is cut after store %zu of %zu.\n", run(cut), all);
    take_answer();
    memset(work, 0, sizeof work);

    number = waggleloft_open_update_boot(image, WAGGLELOFT_IMAGE_WORDS, runtime, sizeof runtime, manifest, sizeof manifest,
                                         secret, sizeof secret, true, work, WAGGLELOFT_WORK_WORDS, &outcome);
    if (number != WAGGLELOFT_OK)
        refused("the update boot", number);
    printf("Restart (update boot): %zu stores.\n", run(SIZE_MAX));
    tell_buyer(outcome, before);
    return 0;
}
