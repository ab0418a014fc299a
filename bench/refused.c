/*
 * Asks once for the digest of the longest message, into a buffer of a byte too
 * few, so that the instructions of the refusal can be counted. The last line has
 * its number.
 */
#include "waggleloft.h"

#include <stdio.h>

static uint8_t message[WAGGLELOFT_SHA384_LONGEST], buffer[WAGGLELOFT_SHA384_BYTES - 1];

int main(void)
{
    printf("%lu\n", (unsigned long)waggleloft_sha384(message, sizeof message, buffer, sizeof buffer));
    return 0;
}
