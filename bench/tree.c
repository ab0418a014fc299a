/*
 * One command to the tree on an image with a number of its nodes used, so that the
 * instructions of its opening and of its stores can be counted: those within
 * `measured`.
 *
 *   tree COMMAND USED       COMMAND: derive, replace (a derive without retain), extend,
 *                           rotate or destroy; USED: from 1 on, the root among them
 *
 * Below the root each node hangs on the one before, which it has retired; the command
 * is about the last. The last line has its stores and its dpe result.
 */
#include "waggleloft.h"

#include <stdio.h>
#include <stdlib.h>
#include <string.h>

static uint32_t image[WAGGLELOFT_IMAGE_WORDS], work[WAGGLELOFT_WORK_WORDS], outcome;
static const uint8_t digest[48] = {1}, secret[48] = {2};
static uint8_t request[8 + 1 + WAGGLELOFT_HANDLE_BYTES + 2 + 48], answer[WAGGLELOFT_ANSWER_LONGEST];
static uint8_t handle[WAGGLELOFT_HANDLE_BYTES], fresh[WAGGLELOFT_HANDLE_BYTES];
static size_t request_len, stores;

static void fine(uint32_t number)
{
    if (number == WAGGLELOFT_OK)
        return;
    printf("refused with %lu\n", (unsigned long)number);
    exit(1);
}

static void run(void)
{
    for (stores = 0; waggleloft_left(work, WAGGLELOFT_WORK_WORDS) > 0; stores++)
        fine(waggleloft_store(work, WAGGLELOFT_WORK_WORDS, image, WAGGLELOFT_IMAGE_WORDS));
}

static void put_number(uint8_t *bytes, uint32_t number)
{
    for (int i = 0; i < 4; i++)
        bytes[i] = (uint8_t)(number >> (8 * i) & 0xFFU);
}

/* A command about the node with the handle, with so many bytes behind; `retain` is a derive's. */
static void prepare(uint8_t command, uint8_t retain, size_t more)
{
    request_len = 8 + 1 + sizeof handle + more;
    request[8] = command;
    memcpy(request + 9, handle, sizeof handle);
    memset(request + 9 + sizeof handle, 0, more);
    if (command == WAGGLELOFT_TREE_DERIVE)
        request[9 + sizeof handle] = retain;
    put_number(request + 4, (uint32_t)(request_len - 8));
    put_number(request, waggleloft_checksum(WAGGLELOFT_INVOKE_DPE_COMMAND, request + 4, request_len - 4));
    fresh[0]++;
    fresh[1] = 1;
}

static void open_it(void)
{
    fine(waggleloft_open_request(image, WAGGLELOFT_IMAGE_WORDS, WAGGLELOFT_INVOKE_DPE_COMMAND, request, request_len, 0, request, 0, false,
                                 fresh, sizeof fresh, work, WAGGLELOFT_WORK_WORDS));
}

static void derive(uint8_t retain) { prepare(WAGGLELOFT_TREE_DERIVE, retain, 2 + 48); }

__attribute__((noinline)) void measured(void);
void measured(void)
{
    open_it();
    run();
}

int main(int count, char **arguments)
{
    if (count != 3)
        return 2;
    const char *command = arguments[1];
    size_t used = (size_t)strtoul(arguments[2], NULL, 10), written = 0;
    fine(waggleloft_open_cold_boot(image, WAGGLELOFT_IMAGE_WORDS, digest, 48, digest, 48, secret, 48, work, WAGGLELOFT_WORK_WORDS, &outcome));
    run();
    for (size_t k = 1; k < used; k++) {
        derive(0);
        open_it();
        run();
        memcpy(handle, fresh, sizeof handle);
    }
    if (strcmp(command, "derive") == 0)
        derive(1);
    else if (strcmp(command, "replace") == 0)
        derive(0);
    else if (strcmp(command, "extend") == 0)
        prepare(WAGGLELOFT_TREE_EXTEND, 0, 48);
    else if (strcmp(command, "rotate") == 0)
        prepare(WAGGLELOFT_TREE_ROTATE, 0, 0);
    else
        prepare(WAGGLELOFT_TREE_DESTROY, 0, 0);
    measured();
    fine(waggleloft_answer(work, WAGGLELOFT_WORK_WORDS, answer, sizeof answer, &written));
    printf("%zu stores, dpe result %u\n", stores, answer[8]);
    return 0;
}
