/*
 * What boot code does with the core: a digest and a mailbox checksum.
 *
 *   ./archive
 *   gcc -std=c11 @tests/c/flags examples/boot.c target/staticlib/libwaggleloft.a -o target/boot && target/boot
 */
#include <stdio.h>

#include "waggleloft.h"

int main(void)
{
    const uint8_t program[] = {'a', 'b', 'c'};
    const uint8_t none[1] = {0};
    uint8_t digest[WAGGLELOFT_SHA384_BYTES];

    uint32_t number = waggleloft_sha384(program, sizeof program, digest, sizeof digest);
    if (number != WAGGLELOFT_OK) {
        printf("refused with %lu\n", (unsigned long)number);
        return 1;
    }
    for (size_t i = 0; i < sizeof digest; i++)
        printf("%02x", digest[i]);
    printf("\n");

    /* "Disable attestation" has no arguments: its checksum covers the code alone. */
    printf("%08lX\n", (unsigned long)waggleloft_checksum(UINT32_C(0x4453424C), none, 0));
    return 0;
}
