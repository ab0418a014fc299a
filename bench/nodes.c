/*
 * Opens one update boot and one stash on an image with a number of its nodes
 * used, laid out in an order, so that their instructions can be counted.
 *
 *   nodes ORDER USED       ORDER: rising, falling, star or live
 *
 * Rising: each node's parent is the one before it, as stashes lay them out.
 * Falling: the root has the highest index, each parent is the one behind it.
 * Star: the root is node 0, and every other node's parent. In these the last node
 * holds the default handle, and all others are retired. Live: as rising, but every
 * node has a handle of its own, alike in all but the last word. The last line has
 * the update's outcome and the stash's dpe result.
 */
#include "waggleloft.h"

#include <stdio.h>
#include <stdlib.h>
#include <string.h>

static uint32_t image[WAGGLELOFT_IMAGE_WORDS], work[WAGGLELOFT_WORK_WORDS], outcome;
static uint32_t root[WAGGLELOFT_NODE_WORDS];
static const uint8_t digest[48] = {1}, secret[48] = {2};
static uint8_t request[60], answer[WAGGLELOFT_ANSWER_LONGEST];

#define HANDLE WAGGLELOFT_NODE_HANDLE
#define HANDLE_WORDS (WAGGLELOFT_HANDLE_BYTES / 4)
#define ROOT_PARENT 0xFFU

static void fine(uint32_t number)
{
    if (number == WAGGLELOFT_OK)
        return;
    printf("refused with %lu\n", (unsigned long)number);
    exit(1);
}

static uint32_t *node(size_t index) { return image + WAGGLELOFT_NODES_AT + WAGGLELOFT_NODE_WORDS * index; }

static void cold_boot(void)
{
    fine(waggleloft_open_cold_boot(image, WAGGLELOFT_IMAGE_WORDS, digest, 48, digest, 48, secret, 48, work, WAGGLELOFT_WORK_WORDS, &outcome));
    while (waggleloft_left(work, WAGGLELOFT_WORK_WORDS) > 0)
        fine(waggleloft_store(work, WAGGLELOFT_WORK_WORDS, image, WAGGLELOFT_IMAGE_WORDS));
    memcpy(root, node(0), sizeof root);
    memset(node(0), 0, sizeof root);
}

/* A used node: the root as the boot made it, or a bare one; all but the last are retired. */
static void put(size_t index, size_t parent, bool is_root, bool last)
{
    uint32_t *words = node(index);
    if (is_root)
        memcpy(words, root, sizeof root);
    words[0] = (is_root ? ROOT_PARENT : (uint32_t)parent) << 16 | 1U;
    memset(words + HANDLE, last ? 0 : 0xFF, HANDLE_WORDS * sizeof *words);
}

static void lay_out(const char *order, size_t used)
{
    for (size_t k = 0; k < used; k++) {
        bool last = k == used - 1;
        bool live = strcmp(order, "live") == 0;
        if (live || strcmp(order, "rising") == 0)
            put(k, k - 1, k == 0, last || live);
        else if (strcmp(order, "falling") == 0)
            put(used - 1 - k, used - k, k == 0, last);
        else
            put(k, 0, k == 0, last);
        if (live)
            node(k)[HANDLE + HANDLE_WORDS - 1] = (uint32_t)(used - 1 - k);
    }
}

static void open_update(void) { fine(waggleloft_open_update_boot(image, WAGGLELOFT_IMAGE_WORDS, digest, 48, digest, 48, secret, 48, true, work, WAGGLELOFT_WORK_WORDS, &outcome)); }

static void open_stash(void)
{
    uint32_t sum = waggleloft_checksum(WAGGLELOFT_STASH_MEASUREMENT, request + 4, sizeof request - 4);
    for (int i = 0; i < 4; i++)
        request[i] = (uint8_t)(sum >> (8 * i) & 0xFFU);
    fine(waggleloft_open_request(image, WAGGLELOFT_IMAGE_WORDS, WAGGLELOFT_STASH_MEASUREMENT, request, sizeof request, 1, request, 0, false, request, 0, work, WAGGLELOFT_WORK_WORDS));
    while (waggleloft_left(work, WAGGLELOFT_WORK_WORDS) > 0)
        fine(waggleloft_store(work, WAGGLELOFT_WORK_WORDS, image, WAGGLELOFT_IMAGE_WORDS));
    size_t written = 0;
    fine(waggleloft_answer(work, WAGGLELOFT_WORK_WORDS, answer, sizeof answer, &written));
}

int main(int count, char **arguments)
{
    if (count != 3)
        return 2;
    cold_boot();
    lay_out(arguments[1], (size_t)strtoul(arguments[2], NULL, 10));
    open_update();
    uint32_t updated = outcome;
    open_stash();
    printf("outcome %lu, dpe result %u\n", (unsigned long)updated, answer[8]);
    return 0;
}
