/*
 * A unit that keeps a journal, and what an inspector then gets: the image, saved
 * without the device secret, and the journal. After the last store of each work its
 * entry is taken and written out, before the next work is opened.
 *
 *   ./archive
 *   gcc -std=c11 @tests/c/flags examples/journal.c target/staticlib/libwaggleloft.a -o target/journal
 *   target/journal IMAGE JOURNAL && ./inspect IMAGE JOURNAL
 */
#include <stdio.h>
#include <stdlib.h>
#include <string.h>

#include "waggleloft.h"

static uint32_t image[WAGGLELOFT_IMAGE_WORDS];
static uint32_t work[WAGGLELOFT_WORK_WORDS];
static FILE *journal;

static const uint8_t secret[48] = {0x5A};
static const uint8_t nothing[1] = {0};

static void fail(const char *what, uint32_t number)
{
    fprintf(stderr, "%s: number %lu\n", what, (unsigned long)number);
    exit(1);
}

/* Writes the work's entry to the journal; a work with nothing to store has one of no bytes. */
static void append_entry(void)
{
    uint8_t entry[WAGGLELOFT_ENTRY_LONGEST];
    size_t written = 0;
    uint32_t number = waggleloft_entry(work, WAGGLELOFT_WORK_WORDS, entry, sizeof entry, &written);
    if (number != WAGGLELOFT_OK)
        fail("the entry", number);
    if (fwrite(entry, 1, written, journal) != written || fflush(journal) != 0) {
        perror("the journal");
        exit(1);
    }
}

/* A work whose opening gave that number: all its stores, and then its entry. */
static void run(const char *what, uint32_t number)
{
    while (number == WAGGLELOFT_OK && waggleloft_left(work, WAGGLELOFT_WORK_WORDS) > 0)
        number = waggleloft_store(work, WAGGLELOFT_WORK_WORDS, image, WAGGLELOFT_IMAGE_WORDS);
    if (number != WAGGLELOFT_OK)
        fail(what, number);
    append_entry();
    memset(work, 0, sizeof work);
}

static void measure(const char *text, uint8_t digest[WAGGLELOFT_SHA384_BYTES])
{
    (void)waggleloft_sha384((const uint8_t *)text, strlen(text), digest, WAGGLELOFT_SHA384_BYTES);
}

static void boot(bool cold, const char *program, const char *manifest_text)
{
    uint8_t runtime[48], manifest[48];
    uint32_t outcome;
    measure(program, runtime);
    measure(manifest_text, manifest);
    if (cold)
        run("the cold boot", waggleloft_open_cold_boot(image, WAGGLELOFT_IMAGE_WORDS, runtime, 48, manifest, 48, secret, 48, work,
                                                       WAGGLELOFT_WORK_WORDS, &outcome));
    else
        run("the update", waggleloft_open_update_boot(image, WAGGLELOFT_IMAGE_WORDS, runtime, 48, manifest, 48, secret, 48, true,
                                                      work, WAGGLELOFT_WORK_WORDS, &outcome));
}

static void put_number(uint8_t *bytes, uint32_t number)
{
    for (int i = 0; i < 4; i++)
        bytes[i] = (uint8_t)(number >> (8 * i) & 0xFFU);
}

/* A request whose bytes stand from the fifth on. */
static void send(const char *what, uint32_t code, uint8_t *request, size_t len)
{
    put_number(request, waggleloft_checksum(code, request + 4, len - 4));
    run(what, waggleloft_open_request(image, WAGGLELOFT_IMAGE_WORDS, code, request, len, 1, nothing, 0, false, nothing, 0, work,
                                      WAGGLELOFT_WORK_WORDS));
}

static void stash(const char *type, const char *program, uint32_t svn)
{
    uint8_t request[60];
    memcpy(request + 4, type, 4);
    measure(program, request + 8);
    put_number(request + 56, svn);
    send("the stash", WAGGLELOFT_STASH_MEASUREMENT, request, sizeof request);
}

static void extend(uint32_t pcr, const char *program)
{
    uint8_t request[56];
    put_number(request + 4, pcr);
    measure(program, request + 8);
    send("the extension", WAGGLELOFT_EXTEND_PCR, request, sizeof request);
}

/* The image's words, lowest byte first; in place of the secret, words 4 to 15, zeros. */
static bool save_image(const char *name)
{
    FILE *file = fopen(name, "wb");
    bool fine = file != NULL;
    for (size_t i = 0; fine && i < WAGGLELOFT_IMAGE_WORDS; i++) {
        uint8_t bytes[4];
        put_number(bytes, i >= 4 && i < 16 ? 0 : image[i]);
        fine = fwrite(bytes, 1, sizeof bytes, file) == sizeof bytes;
    }
    return file != NULL && fclose(file) == 0 && fine;
}

int main(int argc, char **argv)
{
    if (argc != 3) {
        fprintf(stderr, "usage: journal IMAGE JOURNAL\n");
        return 2;
    }
    journal = fopen(argv[2], "wb");
    if (journal == NULL) {
        perror(argv[2]);
        return 1;
    }
    boot(true, "the runtime", "its manifest");
    stash("HOUR", "counts hours", 300);
    extend(4, "shifts gears");
    boot(false, "the next runtime", "its manifest too");
    stash("REST", "counts rest", 1);
    if (fclose(journal) != 0 || !save_image(argv[1])) {
        perror("the files");
        return 1;
    }
    return 0;
}
