/*
 * The digest of an image that comes in pieces, as an updater takes it: begin,
 * feed every slice as it arrives, finish. Here the slices are reads of a file,
 * or of standard input.
 *
 *   ./archive
 *   gcc -std=c11 @tests/c/flags examples/pieces.c target/staticlib/libwaggleloft.a -o target/pieces
 *   target/pieces FILE       or, from standard input: target/pieces
 */
#include <stdio.h>

#include "waggleloft.h"

/* A slice is what a packet or a page of flash brings: up to WAGGLELOFT_SHA384_LONGEST bytes, and they may differ. */
#define SLICE 4096

/* Measures all that the stream brings; the core's number. Whether a read failed, ferror tells. */
static uint32_t measure(FILE *from, uint8_t digest[WAGGLELOFT_SHA384_BYTES])
{
    uint8_t state[WAGGLELOFT_SHA384_STATE_BYTES], slice[SLICE];
    size_t n;
    uint32_t number = waggleloft_sha384_begin(state, sizeof state);
    while (number == WAGGLELOFT_OK && (n = fread(slice, 1, sizeof slice, from)) > 0)
        number = waggleloft_sha384_feed(state, sizeof state, slice, n);
    if (number == WAGGLELOFT_OK)
        number = waggleloft_sha384_finish(state, sizeof state, digest, WAGGLELOFT_SHA384_BYTES);
    return number;
}

int main(int argc, char **argv)
{
    uint8_t digest[WAGGLELOFT_SHA384_BYTES];
    FILE *from = argc == 2 ? fopen(argv[1], "rb") : stdin;
    if (argc > 2) {
        fprintf(stderr, "usage: pieces [FILE]\n");
        return 2;
    }
    if (from == NULL) {
        perror(argv[1]);
        return 1;
    }
    uint32_t number = measure(from, digest);
    if (ferror(from)) {
        perror("the input cannot be read");
        return 1;
    }
    if (number != WAGGLELOFT_OK) {
        fprintf(stderr, "refused with number %lu\n", (unsigned long)number);
        return 1;
    }
    for (size_t i = 0; i < sizeof digest; i++)
        printf("%02x", digest[i]);
    printf("\n");
    return from == stdin || fclose(from) == 0 ? 0 : 1;
}
