/*
 * Published digests (FIPS 180-4's examples and NIST's vectors), for the C
 * programs of this folder.
 */
#ifndef PUBLISHED_H
#define PUBLISHED_H

#define TWO_BLOCKS \
    "abcdefghbcdefghicdefghijdefghijkefghijklfghijklmghijklmn" \
    "hijklmnoijklmnopjklmnopqklmnopqrlmnopqrsmnopqrstnopqrstu"

#define EMPTY_DIGEST \
    "38b060a751ac96384cd9327eb1b1e36a21fdb71114be0743" \
    "4c0cc7bf63f6e1da274edebfe76f65fbd51ad2f14898b95b"
#define ABC_DIGEST \
    "cb00753f45a35e8bb5a03d699ac65007272c32ab0eded163" \
    "1a8b605a43ff5bed8086072ba1e7cc2358baeca134c825a7"
#define TWO_BLOCKS_DIGEST \
    "09330c33f71147e83d192fc782cd1b4753111b173b3b05d2" \
    "2fa08086e3b0f712fcc7c71a557e2db966c3e9fa91746039"

/* Of one million letters a. */
#define MILLION_DIGEST \
    "9d0e1809716474cb086e834e310a4a1ced149e9c00f24852" \
    "7972cec5704c2a5b07b8b3dc38ecc4ebae97ddd87f3d8985"

#endif /* PUBLISHED_H */
