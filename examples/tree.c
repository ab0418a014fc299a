/*
 * A part that comes and goes: below the root a child of its own is derived, with a
 * handle that nobody else knows; it is extended when the part changes, its handle
 * is changed, and at last it is destroyed. The nodes are printed after each step.
 *
 *   ./archive
 *   gcc -std=c11 @tests/c/flags examples/tree.c target/staticlib/libwaggleloft.a -o target/tree && target/tree
 */
#include <stdio.h>
#include <stdlib.h>
#include <string.h>

#include "waggleloft.h"

static uint32_t image[WAGGLELOFT_IMAGE_WORDS];
static uint32_t work[WAGGLELOFT_WORK_WORDS];

/* The root is caller 0's, and so is whatever caller 0 derives. */
#define CALLER 0

typedef uint8_t handle_t[WAGGLELOFT_HANDLE_BYTES];

static void fail(const char *what, uint32_t number)
{
    fprintf(stderr, "%s: number %lu\n", what, (unsigned long)number);
    exit(1);
}

/* Makes all stores of the work in hand, if its opening gave 0; how many. */
static size_t run(const char *what, uint32_t number)
{
    size_t stores = 0;
    for (; number == WAGGLELOFT_OK && waggleloft_left(work, WAGGLELOFT_WORK_WORDS) > 0; stores++)
        number = waggleloft_store(work, WAGGLELOFT_WORK_WORDS, image, WAGGLELOFT_IMAGE_WORDS);
    if (number != WAGGLELOFT_OK)
        fail(what, number);
    return stores;
}

static void boot_cold(void)
{
    uint8_t runtime[48], manifest[48], secret[48];
    uint32_t outcome;
    memset(runtime, 0x11, sizeof runtime);
    memset(manifest, 0x33, sizeof manifest);
    memset(secret, 0x22, sizeof secret);
    (void)run("the cold boot", waggleloft_open_cold_boot(image, WAGGLELOFT_IMAGE_WORDS, runtime, 48, manifest, 48, secret, 48, work,
                                                         WAGGLELOFT_WORK_WORDS, &outcome));
    memset(work, 0, sizeof work);
}

/* A fresh handle: random bytes, so that it was never one before and nobody guesses it. */
static void make_fresh(handle_t fresh)
{
    FILE *source = fopen("/dev/urandom", "rb");
    if (source == NULL || fread(fresh, 1, WAGGLELOFT_HANDLE_BYTES, source) != WAGGLELOFT_HANDLE_BYTES) {
        perror("the random source");
        exit(1);
    }
    (void)fclose(source);
}

/* ---- requests ---- */

/* A request: checksum 4, size 4, data. */
static uint8_t request[8 + WAGGLELOFT_DPE_DATA_LONGEST];
static size_t request_len;

static void put_number(uint8_t *bytes, uint32_t number)
{
    for (int i = 0; i < 4; i++)
        bytes[i] = (uint8_t)(number >> (8 * i) & 0xFFU);
}

static void append(const void *bytes, size_t len)
{
    memcpy(request + request_len, bytes, len);
    request_len += len;
}

static void append_byte(uint32_t byte) { request[request_len++] = (uint8_t)byte; }

/* A number of the data: groups of seven bits, the lowest first. */
static void append_number(uint32_t number)
{
    for (; number > 0x7F; number >>= 7)
        append_byte((number & 0x7FU) | 0x80U);
    append_byte(number);
}

static void append_digest(const char *program)
{
    uint8_t digest[WAGGLELOFT_SHA384_BYTES];
    (void)waggleloft_sha384((const uint8_t *)program, strlen(program), digest, sizeof digest);
    append(digest, sizeof digest);
}

/* A command about the node with that handle; what else it takes is appended. */
static void begin(uint32_t command, const handle_t handle)
{
    request_len = 8;
    append_byte(command);
    append(handle, WAGGLELOFT_HANDLE_BYTES);
}

/* The dpe result in bytes 8 to 11 of the answer. */
static unsigned long dpe_result(void)
{
    uint8_t answer[WAGGLELOFT_ANSWER_LONGEST];
    size_t written = 0;
    uint32_t number = waggleloft_answer(work, WAGGLELOFT_WORK_WORDS, answer, sizeof answer, &written);
    if (number != WAGGLELOFT_OK || written != 12)
        fail("the answer", number);
    return answer[8] | (unsigned long)answer[9] << 8 | (unsigned long)answer[10] << 16 | (unsigned long)answer[11] << 24;
}

/* Sends the request with a fresh handle of so many bytes, and says what came of it. */
static void send(const char *what, const uint8_t *fresh, size_t fresh_len)
{
    put_number(request + 4, (uint32_t)(request_len - 8));
    put_number(request, waggleloft_checksum(WAGGLELOFT_INVOKE_DPE_COMMAND, request + 4, request_len - 4));
    size_t stores = run(what, waggleloft_open_request(image, WAGGLELOFT_IMAGE_WORDS, WAGGLELOFT_INVOKE_DPE_COMMAND, request, request_len,
                                                      CALLER, request, 0, false, fresh, fresh_len, work, WAGGLELOFT_WORK_WORDS));
    printf("%s: %zu stores, dpe result %lu\n", what, stores, dpe_result());
}

/* ---- the nodes ---- */

/* Byte i of the words, a word's lowest byte first. */
static unsigned byte(const uint32_t *words, size_t i) { return (unsigned)(words[i / 4] >> (8 * (i % 4)) & 0xFFU); }

/* Whether every byte of the node's handle is that one. */
static bool handle_is(const uint32_t *node, unsigned expected)
{
    for (size_t i = 0; i < WAGGLELOFT_HANDLE_BYTES; i++)
        if (byte(node + WAGGLELOFT_NODE_HANDLE, i) != expected)
            return false;
    return true;
}

static const char *handle_of(const uint32_t *node)
{
    return handle_is(node, 0) ? "the default handle" : handle_is(node, 0xFF) ? "retired" : "a handle of its own";
}

/* A line for each used node: what it hangs on, its type, the first bytes of its digest, its handle. */
static void print_nodes(void)
{
    for (size_t i = 0; i < WAGGLELOFT_NODES; i++) {
        const uint32_t *node = image + WAGGLELOFT_NODES_AT + WAGGLELOFT_NODE_WORDS * i;
        if ((node[0] & 0xFFFFU) != 1)
            continue;
        printf("  node %zu", i);
        if (node[0] >> 16 != 0xFF)
            printf(" below node %lu", (unsigned long)(node[0] >> 16));
        printf("  ");
        for (size_t k = 0; k < 4; k++)
            printf("%c", (char)byte(node + WAGGLELOFT_NODE_TYPE, k));
        printf("  ");
        for (size_t k = 0; k < 6; k++)
            printf("%02x", byte(node + WAGGLELOFT_NODE_CURRENT, k));
        printf("..  %s\n", handle_of(node));
    }
}

int main(void)
{
    static const handle_t root = {0};
    static const uint8_t nothing[1] = {0};
    handle_t first, second;
    boot_cold();
    print_nodes();

    make_fresh(first);
    begin(WAGGLELOFT_TREE_DERIVE, root);
    append_number(1);                     /* retain: the root keeps its handle */
    append_number(UINT32_C(0x52554F48)); /* HOUR, the first letter lowest */
    append_digest("counts hours");
    send("derive", first, sizeof first);
    print_nodes();

    begin(WAGGLELOFT_TREE_EXTEND, first);
    append_digest("counts hours better");
    send("extend", nothing, 0);
    print_nodes();

    make_fresh(second);
    begin(WAGGLELOFT_TREE_ROTATE, first);
    send("rotate", second, sizeof second);
    begin(WAGGLELOFT_TREE_DESTROY, first);
    send("destroy by the old handle", nothing, 0);
    print_nodes();

    begin(WAGGLELOFT_TREE_DESTROY, second);
    send("destroy", nothing, 0);
    print_nodes();
    return 0;
}
