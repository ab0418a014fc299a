/*
 * How deep each function of the archive goes into the stack: it is called on a
 * stack of its own that was painted before, and what is painted no more is
 * counted, the call's own return address and memcpy's share among it. What the
 * caller takes, stack arguments included, is measured by the same call of a
 * function that returns at once, and does not count.
 */
#define _GNU_SOURCE
#include "waggleloft.h"

#include <stdio.h>
#include <string.h>
#include <ucontext.h>

#define STACK 65536
#define PAINT 0xA5

static _Alignas(64) unsigned char stack[STACK];
static ucontext_t caller, callee;
static void (*called)(void);

/* Returns at once, whatever it is called with. */
void at_once(void);
__asm__(".text\nat_once: ret\n");

/* The function of the archive that is measured, or at_once, called as what it is. */
static void (*measured)(void);
#define CALL(function) ((__typeof__(&function))measured)

static uint32_t image[WAGGLELOFT_IMAGE_WORDS], work[WAGGLELOFT_WORK_WORDS], outcome;
static uint8_t runtime[48], manifest[48], secret[48], request[196], handoff[2048], buffer[WAGGLELOFT_ANSWER_LONGEST], message[65535];
static uint8_t state[WAGGLELOFT_SHA384_STATE_BYTES], whole[WAGGLELOFT_SHA384_BYTES];
static uint8_t fresh[WAGGLELOFT_HANDLE_BYTES];
static uint32_t code;
static size_t request_len, written;

/* The first slice of a running digest leaves its bytes waiting; the second fills their block and leaves a rest. */
#define SHORT_SLICE 100
#define LONG_SLICE 1000

static void trampoline(void) { called(); }

static size_t touched(void (*function)(void))
{
    size_t clean = 0;
    called = function;
    memset(stack, PAINT, sizeof stack);
    getcontext(&callee);
    callee.uc_stack.ss_sp = stack;
    callee.uc_stack.ss_size = sizeof stack;
    callee.uc_link = &caller;
    makecontext(&callee, trampoline, 0);
    swapcontext(&caller, &callee);
    while (clean < sizeof stack && stack[clean] == PAINT)
        clean++;
    return sizeof stack - clean;
}

static void cold_boot(void) { CALL(waggleloft_open_cold_boot)(image, WAGGLELOFT_IMAGE_WORDS, runtime, 48, manifest, 48, secret, 48, work, WAGGLELOFT_WORK_WORDS, &outcome); }
static void update_boot(void) { CALL(waggleloft_open_update_boot)(image, WAGGLELOFT_IMAGE_WORDS, runtime, 48, manifest, 48, secret, 48, true, work, WAGGLELOFT_WORK_WORDS, &outcome); }
static void open_request(void) { CALL(waggleloft_open_request)(image, WAGGLELOFT_IMAGE_WORDS, code, request, request_len, 1, handoff, 2048, true, fresh, sizeof fresh, work, WAGGLELOFT_WORK_WORDS); }
static void store(void) { CALL(waggleloft_store)(work, WAGGLELOFT_WORK_WORDS, image, WAGGLELOFT_IMAGE_WORDS); }
static void left(void) { CALL(waggleloft_left)(work, WAGGLELOFT_WORK_WORDS); }
static void answer(void) { CALL(waggleloft_answer)(work, WAGGLELOFT_WORK_WORDS, buffer, sizeof buffer, &written); }
static void entry(void) { CALL(waggleloft_entry)(work, WAGGLELOFT_WORK_WORDS, buffer, sizeof buffer, &written); }
static void sha384(void) { CALL(waggleloft_sha384)(message, sizeof message, buffer, sizeof buffer); }
static void begin(void) { CALL(waggleloft_sha384_begin)(state, sizeof state); }
static void feed_short(void) { CALL(waggleloft_sha384_feed)(state, sizeof state, message, SHORT_SLICE); }
static void feed_long(void) { CALL(waggleloft_sha384_feed)(state, sizeof state, message + SHORT_SLICE, LONG_SLICE); }
static void finish(void) { CALL(waggleloft_sha384_finish)(state, sizeof state, buffer, sizeof buffer); }
static void checksum(void) { CALL(waggleloft_checksum)(1, message, sizeof message); }

static void show(const char *name, size_t deepest) { printf("%6zu  %s\n", deepest, name); }

/* The depth of a function in a call, its return address included. */
static size_t depth_of(void (*function)(void), void (*caller_of)(void))
{
    size_t without;
    measured = at_once;
    without = touched(caller_of) - sizeof(void *);
    measured = function;
    return touched(caller_of) - without;
}
#define DEPTH(function, caller_of) depth_of((void (*)(void))function, caller_of)

/* Runs the work in hand to its end; the deepest of its stores. */
static size_t deepest_store(void)
{
    size_t deepest = 0;
    while (waggleloft_left(work, WAGGLELOFT_WORK_WORDS) > 0) {
        size_t one = DEPTH(waggleloft_store, store);
        deepest = one > deepest ? one : deepest;
    }
    return deepest;
}

/* The opening of a request of a command, of so many bytes. */
static void show_request(const char *name, uint32_t its_code, size_t len)
{
    code = its_code;
    request_len = len;
    uint32_t sum = waggleloft_checksum(code, request + 4, len - 4);
    memcpy(request, &sum, 4);
    show(name, DEPTH(waggleloft_open_request, open_request));
}

/* The opening of a command to the tree about the node with that handle, with so many zero bytes behind, and its stores. */
static void show_tree(const char *opening, const char *stores, uint8_t command, const uint8_t *handle, uint32_t more)
{
    uint32_t size = 1 + WAGGLELOFT_HANDLE_BYTES + more;
    memset(request, 0, sizeof request);
    memcpy(request + 4, &size, sizeof size);
    request[8] = command;
    memcpy(request + 9, handle, WAGGLELOFT_HANDLE_BYTES);
    show_request(opening, WAGGLELOFT_INVOKE_DPE_COMMAND, 8 + size);
    show(stores, deepest_store());
}

/* Below the node of the stash a child, which is extended and rotated, and destroyed together with that node. */
static void show_trees(void)
{
    static const uint8_t stashed[WAGGLELOFT_HANDLE_BYTES];
    uint8_t old[WAGGLELOFT_HANDLE_BYTES];
    fresh[0] = 1;
    show_tree("waggleloft_open_request, a derive", "waggleloft_store, of a derive", WAGGLELOFT_TREE_DERIVE, stashed, 2 + 48);
    show_tree("waggleloft_open_request, an extend", "waggleloft_store, of an extend", WAGGLELOFT_TREE_EXTEND, fresh, 48);
    memcpy(old, fresh, sizeof old);
    fresh[0] = 2;
    show_tree("waggleloft_open_request, a rotate", "waggleloft_store, of a rotate", WAGGLELOFT_TREE_ROTATE, old, 0);
    show("waggleloft_entry, of a rotate", DEPTH(waggleloft_entry, entry));
    show_tree("waggleloft_open_request, a destroy", "waggleloft_store, of a destroy", WAGGLELOFT_TREE_DESTROY, fresh, 0);
}

/* The running digest of two slices; whether it came to the digest of both in one piece. */
static bool show_running(void)
{
    show("waggleloft_sha384_begin", DEPTH(waggleloft_sha384_begin, begin));
    show("waggleloft_sha384_feed, a slice that waits", DEPTH(waggleloft_sha384_feed, feed_short));
    show("waggleloft_sha384_feed, a slice that fills the block and leaves a rest", DEPTH(waggleloft_sha384_feed, feed_long));
    show("waggleloft_sha384_finish", DEPTH(waggleloft_sha384_finish, finish));
    return waggleloft_sha384(message, SHORT_SLICE + LONG_SLICE, whole, sizeof whole) == WAGGLELOFT_OK &&
           memcmp(buffer, whole, sizeof whole) == 0;
}

int main(void)
{
    static const uint32_t marker = 0x54484643, pcr = WAGGLELOFT_EXTEND_FIRST;
    memset(runtime, 1, sizeof runtime);
    memset(manifest, 3, sizeof manifest);
    memset(secret, 2, sizeof secret);
    memcpy(handoff, &marker, sizeof marker);
    handoff[4] = 1;
    show("waggleloft_open_cold_boot", DEPTH(waggleloft_open_cold_boot, cold_boot));
    show("waggleloft_store, of a cold boot", deepest_store());
    show_request("waggleloft_open_request, a stash", WAGGLELOFT_STASH_MEASUREMENT, 60);
    show("waggleloft_store, of a stash", deepest_store());
    show("waggleloft_entry, of a stash", DEPTH(waggleloft_entry, entry));
    memcpy(request + 4, &pcr, sizeof pcr);
    show_request("waggleloft_open_request, an extension", WAGGLELOFT_EXTEND_PCR, 56);
    show("waggleloft_store, of an extension", deepest_store());
    show_trees();
    show("waggleloft_open_update_boot", DEPTH(waggleloft_open_update_boot, update_boot));
    show("waggleloft_store, of an update", deepest_store());
    show("waggleloft_entry, of 97 bytes", DEPTH(waggleloft_entry, entry));
    show_request("waggleloft_open_request, the identity key", WAGGLELOFT_IDENTITY_KEY, 4);
    show("waggleloft_answer, of 104 bytes", DEPTH(waggleloft_answer, answer));
    show("waggleloft_left", DEPTH(waggleloft_left, left));
    show("waggleloft_sha384, of 65,535 bytes", DEPTH(waggleloft_sha384, sha384));
    show("waggleloft_checksum", DEPTH(waggleloft_checksum, checksum));
    return show_running() && written == WAGGLELOFT_ANSWER_LONGEST ? 0 : 1;
}
