/*
 * Compares the numbers of include/waggleloft.h, and what its digest and its
 * checksum hand back, with known values. Prints a line for each check that failed
 * and, last, 'N passed, M failed'.
 */
#include "waggleloft.h"

#include "check.h"
#include "published.h"

#include <stdio.h>
#include <stdlib.h>
#include <string.h>

/* Byte i of a buffer before a call. */
#define FILL(i) ((uint8_t)(0xA5U ^ (unsigned)(i)))

/* The longest buffer that is tried. */
#define BUFFER_MAX 64

/* Bytes after the buffer that have to stay too. */
#define GUARD 16

/* One byte more than the longest message, all zero. */
static const uint8_t zeros[WAGGLELOFT_SHA384_LONGEST + 1];

/* The digest of 65,535 zero bytes, as GNU sha384sum prints it. */
static const char LONGEST_DIGEST[] =
    "fb84751f2668518c8702d240049653ec4ca9eeed10228d32"
    "05b03fd104caf0e11e158d8bf2d260d390b6ded2fa190b72";

struct call {
    uint32_t number;
    uint8_t buffer[BUFFER_MAX + GUARD];
};

/* A call with a buffer of buffer_len bytes that held FILL. */
static struct call digest(const void *message, size_t message_len,
                          size_t buffer_len)
{
    struct call call;
    for (size_t i = 0; i < sizeof call.buffer; i++) {
        call.buffer[i] = FILL(i);
    }
    call.number =
        waggleloft_sha384(message, message_len, call.buffer, buffer_len);
    return call;
}

/* Whether the buffer holds FILL from byte `from` on. */
static int untouched_from(const struct call *call, size_t from)
{
    for (size_t i = from; i < sizeof call->buffer; i++) {
        if (call->buffer[i] != FILL(i)) {
            return 0;
        }
    }
    return 1;
}

/* Whether the buffer begins with the digest given in hexadecimal digits. */
static int begins_with(const struct call *call, const char *digits)
{
    char found[2 * WAGGLELOFT_SHA384_BYTES + 1];
    for (size_t i = 0; i < WAGGLELOFT_SHA384_BYTES; i++) {
        (void)snprintf(found + 2 * i, 3, "%02x", (unsigned)call->buffer[i]);
    }
    return strcmp(found, digits) == 0;
}

/* Checks a call that hands back the digest. */
static void written(const char *name, const void *message, size_t message_len,
                    size_t buffer_len, const char *digits)
{
    struct call call = digest(message, message_len, buffer_len);
    check(call.number == WAGGLELOFT_OK && begins_with(&call, digits) &&
              untouched_from(&call, WAGGLELOFT_SHA384_BYTES),
          name);
}

/* Checks a call that is refused with that number. */
static void refused(const char *name, size_t message_len, size_t buffer_len,
                    uint32_t number)
{
    struct call call = digest(zeros, message_len, buffer_len);
    check(call.number == number && untouched_from(&call, 0), name);
}

static void check_digests(void)
{
    written("digest of the empty message", "", 0, 48, EMPTY_DIGEST);
    written("digest of abc", "abc", 3, 48, ABC_DIGEST);
    written("digest of the message of 112 bytes", TWO_BLOCKS,
            strlen(TWO_BLOCKS), 48, TWO_BLOCKS_DIGEST);
    written("digest of the longest message", zeros, WAGGLELOFT_SHA384_LONGEST,
            48, LONGEST_DIGEST);
}

static void check_buffers(void)
{
    refused("buffer of 0 bytes", 3, 0, WAGGLELOFT_SHORT_BUFFER);
    refused("buffer of 47 bytes", 3, 47, WAGGLELOFT_SHORT_BUFFER);
    written("buffer of 49 bytes", "abc", 3, 49, ABC_DIGEST);
    written("buffer of 64 bytes", "abc", 3, 64, ABC_DIGEST);
}

static void check_refusals(void)
{
    const size_t too_long = WAGGLELOFT_SHA384_LONGEST + 1;
    refused("message too long", too_long, 48, WAGGLELOFT_LONG_MESSAGE);
    refused("message too long, buffer of 64 bytes", too_long, 64,
            WAGGLELOFT_LONG_MESSAGE);
    refused("message too long, buffer of 47 bytes", too_long, 47,
            WAGGLELOFT_LONG_MESSAGE);
    refused("message too long, buffer of 0 bytes", too_long, 0,
            WAGGLELOFT_LONG_MESSAGE);
}

/* Every number of the header that has a meaning of its own, as the papers give it. */
static void check_names(void)
{
    static const struct {
        const char *name;
        uint64_t found, expected;
    } names[] = {
        {"words of an image", WAGGLELOFT_IMAGE_WORDS, 1520},
        {"nodes", WAGGLELOFT_NODES, 32},
        {"the nodes' first word", WAGGLELOFT_NODES_AT, 400},
        {"words of a node", WAGGLELOFT_NODE_WORDS, 35},
        {"the nodes fill the image", WAGGLELOFT_NODES_AT + WAGGLELOFT_NODES * WAGGLELOFT_NODE_WORDS, WAGGLELOFT_IMAGE_WORDS},
        {"a node's handle", WAGGLELOFT_NODE_HANDLE, 2},
        {"a node's current measurement", WAGGLELOFT_NODE_CURRENT, 8},
        {"a node's type", WAGGLELOFT_NODE_TYPE, 32},
        {"a node's locality", WAGGLELOFT_NODE_LOCALITY, 33},
        {"a node's svn", WAGGLELOFT_NODE_SVN, 34},
        {"the longest answer", WAGGLELOFT_ANSWER_LONGEST, 104},
        {"the longest entry", WAGGLELOFT_ENTRY_LONGEST, 104},
        {"bytes of a handle", WAGGLELOFT_HANDLE_BYTES, 20},
        {"the longest data", WAGGLELOFT_DPE_DATA_LONGEST, 1024},
        {"bytes of a digest", WAGGLELOFT_SHA384_BYTES, 48},
        {"the longest message", WAGGLELOFT_SHA384_LONGEST, 65535},
        {"the most bytes of all slices", WAGGLELOFT_SHA384_TOTAL_LONGEST, 4294967295},
        {"success", WAGGLELOFT_OK, 0},
        {"wrong image", WAGGLELOFT_WRONG_IMAGE, 1},
        {"unfinished", WAGGLELOFT_UNFINISHED, 2},
        {"unknown code", WAGGLELOFT_UNKNOWN_CODE, 3},
        {"wrong length", WAGGLELOFT_WRONG_LENGTH, 4},
        {"wrong handoff table", WAGGLELOFT_WRONG_HANDOFF, 5},
        {"wrong input", WAGGLELOFT_WRONG_INPUT, 6},
        {"stores left", WAGGLELOFT_STORES_LEFT, 7},
        {"short buffer", WAGGLELOFT_SHORT_BUFFER, 8},
        {"no store left", WAGGLELOFT_NO_STORE_LEFT, 9},
        {"long message", WAGGLELOFT_LONG_MESSAGE, 10},
        {"not well formed", WAGGLELOFT_NOT_WELL_FORMED, 11},
        {"wrong register", WAGGLELOFT_WRONG_REGISTER, 12},
        {"attestation off", WAGGLELOFT_ATTESTATION_OFF, 13},
        {"long total", WAGGLELOFT_LONG_TOTAL, 16},
        {"wrong counts", WAGGLELOFT_WRONG_COUNTS, 27},
        {"bad checksum", WAGGLELOFT_BAD_CHECKSUM, 0x4243484B},
        {"bad signature", WAGGLELOFT_BAD_SIGNATURE, 0x42534947},
        {"outcome cold", WAGGLELOFT_COLD, 0},
        {"outcome kept", WAGGLELOFT_KEPT, 1},
        {"outcome updated", WAGGLELOFT_UPDATED, 2},
        {"outcome disabled", WAGGLELOFT_DISABLED, 3},
        {"stash measurement", WAGGLELOFT_STASH_MEASUREMENT, 0x4D454153},
        {"disable attestation", WAGGLELOFT_DISABLE_ATTESTATION, 0x4453424C},
        {"identity key", WAGGLELOFT_IDENTITY_KEY, 0x49444549},
        {"verify signature", WAGGLELOFT_VERIFY_SIGNATURE, 0x53494756},
        {"extend a register", WAGGLELOFT_EXTEND_PCR, 0x50435245},
        {"the first register to extend", WAGGLELOFT_EXTEND_FIRST, 4},
        {"the last register to extend", WAGGLELOFT_EXTEND_LAST, 30},
        {"a command to the tree", WAGGLELOFT_INVOKE_DPE_COMMAND, 0x44504543},
        {"derive", WAGGLELOFT_TREE_DERIVE, 1},
        {"extend", WAGGLELOFT_TREE_EXTEND, 2},
        {"rotate", WAGGLELOFT_TREE_ROTATE, 3},
        {"destroy", WAGGLELOFT_TREE_DESTROY, 4},
        {"dpe result: done", WAGGLELOFT_DPE_DONE, 0},
        {"dpe result: no free node", WAGGLELOFT_DPE_NO_FREE_NODE, 1},
        {"dpe result: off", WAGGLELOFT_DPE_OFF, 2},
        {"dpe result: no holder", WAGGLELOFT_DPE_NO_HOLDER, 3},
        {"dpe result: wrong data", WAGGLELOFT_DPE_WRONG_DATA, 5},
        {"dpe result: unknown handle", WAGGLELOFT_DPE_UNKNOWN_HANDLE, 6},
        {"dpe result: other caller", WAGGLELOFT_DPE_OTHER_CALLER, 7},
        {"dpe result: wrong fresh handle", WAGGLELOFT_DPE_WRONG_FRESH, 8},
        {"dpe result: the root", WAGGLELOFT_DPE_ROOT, 9},
        {"dpe result: has children", WAGGLELOFT_DPE_HAS_CHILDREN, 10},
    };
    for (size_t i = 0; i < sizeof names / sizeof *names; i++) {
        check(names[i].found == names[i].expected, names[i].name);
    }
}

static void check_checksums(void)
{
    static const uint8_t ff[2] = {0xFF, 0xFF};
    static const uint8_t register_4[52] = {4};
    check(waggleloft_checksum(WAGGLELOFT_DISABLE_ATTESTATION, zeros, 0) ==
              UINT32_C(0xFFFFFEDB),
          "checksum of disable attestation");
    check(waggleloft_checksum(WAGGLELOFT_IDENTITY_KEY, zeros, 0) ==
              UINT32_C(0xFFFFFEE5),
          "checksum of identity key");
    check(waggleloft_checksum(WAGGLELOFT_STASH_MEASUREMENT, zeros, 56) ==
              UINT32_C(0xFFFFFEDA),
          "checksum of stash with 56 zero bytes");
    /* 0x50 + 0x43 + 0x52 + 0x45 + 4 is 0x12E. */
    check(waggleloft_checksum(WAGGLELOFT_EXTEND_PCR, register_4, 52) ==
              UINT32_C(0xFFFFFED2),
          "checksum of an extension of register 4 by 48 zero bytes");
    /* 0x44 + 0x50 + 0x45 + 0x43 is 0x11C. */
    check(waggleloft_checksum(WAGGLELOFT_INVOKE_DPE_COMMAND, zeros, 4) ==
              UINT32_C(0xFFFFFEE4),
          "checksum of a command to the tree without data");
    check(waggleloft_checksum(0, zeros, 0) == 0,
          "checksum of code 0 without bytes");
    check(waggleloft_checksum(1, ff, sizeof ff) == UINT32_C(0xFFFFFE01),
          "checksum of code 1 and two bytes");
}

int main(void)
{
    check_names();
    check_digests();
    check_buffers();
    check_refusals();
    check_checksums();
    return conclude();
}
