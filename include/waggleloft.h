/*
 * Waggleloft measurement core: the unit's engine for C and C++.
 *
 * All functions are in the archive libwaggleloft.a. The unit's memory is an
 * image of WAGGLELOFT_IMAGE_WORDS words that the caller holds. An opening (of a
 * boot or of a mailbox request) reads the image and prepares a work; the work
 * is then run one store at a time; at the end its answer and its journal entry
 * are taken. Between two stores anything may happen, a loss of power too: that
 * is what the works are made for.
 *
 *     uint32_t work[WAGGLELOFT_WORK_WORDS], outcome;
 *     if (waggleloft_open_update_boot(image, WAGGLELOFT_IMAGE_WORDS, runtime, 48, manifest, 48,
 *                                     secret, 48, true, work, WAGGLELOFT_WORK_WORDS,
 *                                     &outcome) == WAGGLELOFT_OK)
 *         while (waggleloft_left(work, WAGGLELOFT_WORK_WORDS) > 0)
 *             waggleloft_store(work, WAGGLELOFT_WORK_WORDS, image, WAGGLELOFT_IMAGE_WORDS);
 *
 * The caller's duties, for every function:
 *   - each pointer is valid for the length that is passed beside it, or for
 *     the one object that it names, and is aligned for its type;
 *   - no pointer is null, even where its length is 0;
 *   - what a function writes overlaps nothing else that is passed to it.
 * Nothing else is asked. Every length, every content and every number has a
 * defined result, also the words of a work that no opening made and the bytes
 * of a state that no begin made; and a call that hands back another number than
 * WAGGLELOFT_OK has written nothing.
 *
 * Platform: x86-64, any processor, with the System V calling convention; the
 * archive is built for nothing else. It needs memcpy and memset, uses SSE2
 * registers, expects the stack aligned to 16 bytes at a call, and uses the 128
 * bytes below the stack pointer (the red zone): an interrupt that comes on the
 * same stack must leave them alone, and must keep the SSE registers. The deepest
 * stack is below 5,800 bytes, of a request's opening; below 1,500 of the digest,
 * below 1,700 of the running digest, and 136 bytes of a store (bench/stack works
 * out each). No function allocates, keeps state, has a global variable, waits or
 * throws, so several threads may call them at the same time on different
 * buffers.
 */
#ifndef WAGGLELOFT_H
#define WAGGLELOFT_H

#include <stdbool.h>
#include <stddef.h>
#include <stdint.h>

#define WAGGLELOFT_VERSION_MAJOR 0
#define WAGGLELOFT_VERSION_MINOR 1
#define WAGGLELOFT_VERSION_PATCH 0
#define WAGGLELOFT_VERSION "0.1.0"

#ifdef __cplusplus
extern "C" {
#endif

/* ---- Sizes ---- */

/*
 * Words of the unit's image. The number may grow with a later version; an image
 * of another length is refused with WAGGLELOFT_WRONG_IMAGE. One of an earlier
 * version, of 1,216 or 1,240 words, is refused so and not carried over.
 */
#define WAGGLELOFT_IMAGE_WORDS 1520

/*
 * Words of a work: every length of a work that is passed below is this one.
 * What they hold is the core's business (a boot's hold the device secret:
 * overwrite them once the work has run). The number may grow with a later
 * version; waggleloft_work_words() is the archive's own.
 */
#define WAGGLELOFT_WORK_WORDS 130

/* The longest answer, in bytes: a buffer of so many bytes takes every answer. */
#define WAGGLELOFT_ANSWER_LONGEST 104

/* The longest journal entry, in bytes: a buffer of so many bytes takes every entry. */
#define WAGGLELOFT_ENTRY_LONGEST 104

/* Bytes of a node's handle, and the most bytes of the data of INVOKE_DPE_COMMAND. */
#define WAGGLELOFT_HANDLE_BYTES 20
#define WAGGLELOFT_DPE_DATA_LONGEST 1024

/* Bytes of a SHA-384 digest, and of each of a boot's inputs: runtime, manifest, secret. */
#define WAGGLELOFT_SHA384_BYTES 48

/*
 * The longest message, in bytes, that waggleloft_sha384 takes, and the longest
 * slice of a running digest.
 */
#define WAGGLELOFT_SHA384_LONGEST 65535

/*
 * Bytes of a running digest's state: every length of a state that is passed
 * below is this one. What they hold is the core's business. The number may
 * change with a later version; waggleloft_sha384_state_bytes() is the archive's
 * own.
 */
#define WAGGLELOFT_SHA384_STATE_BYTES 208

/* The most bytes that a running digest takes, all slices together: 2^32 - 1. */
#define WAGGLELOFT_SHA384_TOTAL_LONGEST UINT64_C(0xFFFFFFFF)

/* The sizes that the archive was built with, to compare with the macros. */
size_t waggleloft_work_words(void);
size_t waggleloft_image_words(void);
size_t waggleloft_sha384_state_bytes(void);

/* ---- Numbers that the functions hand back ---- */

#define WAGGLELOFT_OK UINT32_C(0)               /* accepted, stored or written */
#define WAGGLELOFT_WRONG_IMAGE UINT32_C(1)      /* the image is not WAGGLELOFT_IMAGE_WORDS words */
#define WAGGLELOFT_UNFINISHED UINT32_C(2)       /* the image's flow mark is not 1: a boot is needed */
#define WAGGLELOFT_UNKNOWN_CODE UINT32_C(3)     /* no command has this code */
#define WAGGLELOFT_WRONG_LENGTH UINT32_C(4)     /* the request is not as long as its command's */
#define WAGGLELOFT_WRONG_HANDOFF UINT32_C(5)    /* the handoff table is wrong (identity key) */
#define WAGGLELOFT_WRONG_INPUT UINT32_C(6)      /* a boot's input not 48 bytes, or its secret all zero */
#define WAGGLELOFT_STORES_LEFT UINT32_C(7)      /* no answer and no entry before the last store */
#define WAGGLELOFT_SHORT_BUFFER UINT32_C(8)     /* buffer shorter than the answer, or than 48 bytes */
#define WAGGLELOFT_NO_STORE_LEFT UINT32_C(9)    /* the work has no store left */
#define WAGGLELOFT_LONG_MESSAGE UINT32_C(10)    /* message or slice longer than 65,535 bytes */
#define WAGGLELOFT_NOT_WELL_FORMED UINT32_C(11) /* the image's nodes are not well formed (stash, tree) */
#define WAGGLELOFT_WRONG_REGISTER UINT32_C(12)  /* the register is none of PCR4 to PCR30 (extend) */
#define WAGGLELOFT_ATTESTATION_OFF UINT32_C(13) /* attestation is off (extend) */
#define WAGGLELOFT_LONG_TOTAL UINT32_C(16)      /* all slices together would pass 2^32 - 1 bytes */
#define WAGGLELOFT_SHORT_FOR_ENTRY UINT32_C(23) /* buffer shorter than the journal entry */
#define WAGGLELOFT_WRONG_COUNTS UINT32_C(27)    /* the state's counts disagree, or its total is too large */
#define WAGGLELOFT_WRONG_WORK UINT32_C(28)      /* the work is not WAGGLELOFT_WORK_WORDS words */
#define WAGGLELOFT_WRONG_STATE UINT32_C(28)     /* the state is not WAGGLELOFT_SHA384_STATE_BYTES bytes */
#define WAGGLELOFT_BAD_CHECKSUM UINT32_C(0x4243484B)  /* the request's checksum is wrong */
#define WAGGLELOFT_BAD_SIGNATURE UINT32_C(0x42534947) /* the verdict on a signature is no (verify) */

/* ---- Numbers of the program replay, which reads a journal ---- */

#define WAGGLELOFT_UNKNOWN_KIND UINT32_C(20)     /* an entry's kind is not listed */
#define WAGGLELOFT_WRONG_NUMBER UINT32_C(21)     /* a number of an entry is too long or too large */
#define WAGGLELOFT_CUT_ENTRY UINT32_C(22)        /* the journal ends inside an entry */
#define WAGGLELOFT_IMPOSSIBLE_ENTRY UINT32_C(24) /* the unit could not have counted this entry there */

/* ---- What a boot comes to ---- */

#define WAGGLELOFT_COLD UINT32_C(0)     /* a cold boot: all is measured anew */
#define WAGGLELOFT_KEPT UINT32_C(1)     /* an update boot that keeps all: nothing to store */
#define WAGGLELOFT_UPDATED UINT32_C(2)  /* an update boot that counts the new program */
#define WAGGLELOFT_DISABLED UINT32_C(3) /* something was amiss: attestation goes off */

/* ---- Command codes of the mailbox ---- */

/*
 * Adds a measurement to the list: a free node takes it, below the node that holds
 * the default handle, and that handle with it. The request is 60 bytes: checksum
 * 4, type 4, digest 48, svn 4 (the program's security version number, lowest byte
 * first). The answer is 12 bytes: checksum, status and dpe result, 4 each. It may
 * be declined with WAGGLELOFT_DPE_OFF, WAGGLELOFT_DPE_NO_HOLDER or
 * WAGGLELOFT_DPE_NO_FREE_NODE, the first that applies.
 */
#define WAGGLELOFT_STASH_MEASUREMENT UINT32_C(0x4D454153)

#define WAGGLELOFT_DISABLE_ATTESTATION UINT32_C(0x4453424C)
#define WAGGLELOFT_IDENTITY_KEY UINT32_C(0x49444549)
#define WAGGLELOFT_VERIFY_SIGNATURE UINT32_C(0x53494756)

/*
 * Extends a register by a digest: it takes SHA-384 of its old 48 bytes and the
 * digest joined. The request is 56 bytes: checksum 4, the register's number 4
 * (lowest byte first), digest 48. The answer is 8 bytes: checksum and status.
 */
#define WAGGLELOFT_EXTEND_PCR UINT32_C(0x50435245)

/*
 * The first and the last register that EXTEND_PCR extends. PCR r is the twelve
 * words of the image from word 16 + 12 * r on, a word's lowest byte first.
 */
#define WAGGLELOFT_EXTEND_FIRST UINT32_C(4)
#define WAGGLELOFT_EXTEND_LAST UINT32_C(30)

/*
 * INVOKE_DPE_COMMAND: a command to the tree of nodes. The request is checksum 4,
 * the size of its data 4 (lowest byte first, at most WAGGLELOFT_DPE_DATA_LONGEST),
 * and exactly so many bytes of data. The data is one of the four commands below,
 * in one byte, and what it takes, with nothing behind it. The answer is 12 bytes
 * as a stash's.
 */
#define WAGGLELOFT_INVOKE_DPE_COMMAND UINT32_C(0x44504543)

/* ---- Commands to the tree ---- */

/*
 * The first byte of the data; behind it each has the 20 bytes of the handle of
 * the node that it is about. All zero is the default handle. Retain and type are
 * numbers in groups of seven bits, the lowest first, the top bit set where
 * another group follows, in the shortest form.
 *
 *   DERIVE   retain (1 or 0), type, digest 48: a free node becomes the child of
 *            this one, with the fresh handle, the digest and svn 0. With retain 0
 *            the handle of this node is retired: no command names it any more.
 *            37 stores, 42 with retain 0
 *   EXTEND   digest 48: the digest replaces the node's measurement and extends
 *            its cumulative one. 26 stores
 *   ROTATE   the node gets the fresh handle in place of its own. 7 stores
 *   DESTROY  the node is free again, and so is upwards each retired node that is
 *            left without a child, but never the root. 2 stores and 35 for each
 *            node that is freed
 */
#define WAGGLELOFT_TREE_DERIVE 1
#define WAGGLELOFT_TREE_EXTEND 2
#define WAGGLELOFT_TREE_ROTATE 3
#define WAGGLELOFT_TREE_DESTROY 4

/* ---- Dpe results ---- */

/*
 * What the answer of a stash or of a command to the tree says in its bytes 8 to
 * 11. All but WAGGLELOFT_DPE_DONE decline: nothing was stored. A command to the
 * tree gets the first that applies in this order, refusal
 * WAGGLELOFT_NOT_WELL_FORMED right after WAGGLELOFT_DPE_OFF: 2, 5, 6, 7, 8, 1, 9,
 * 10.
 */
#define WAGGLELOFT_DPE_DONE UINT32_C(0)           /* served */
#define WAGGLELOFT_DPE_NO_FREE_NODE UINT32_C(1)   /* all nodes are used (stash, derive) */
#define WAGGLELOFT_DPE_OFF UINT32_C(2)            /* attestation is off */
#define WAGGLELOFT_DPE_NO_HOLDER UINT32_C(3)      /* no node holds the default handle (stash) */
#define WAGGLELOFT_DPE_WRONG_DATA UINT32_C(5)     /* the data is not exactly one command */
#define WAGGLELOFT_DPE_UNKNOWN_HANDLE UINT32_C(6) /* no node holds the handle, or it is the retired one */
#define WAGGLELOFT_DPE_OTHER_CALLER UINT32_C(7)   /* the caller's number is not the node's */
#define WAGGLELOFT_DPE_WRONG_FRESH UINT32_C(8)    /* the fresh handle is not 20 bytes, is all 0 or 0xFF, or is in use */
#define WAGGLELOFT_DPE_ROOT UINT32_C(9)           /* the root is neither extended nor destroyed */
#define WAGGLELOFT_DPE_HAS_CHILDREN UINT32_C(10)  /* a node with children is not destroyed */

/* ---- The list of measurements ---- */

/*
 * The list is the used nodes of the image. Read it where no work is under way and
 * attestation, word 1 of the image, is 1. Node i is the WAGGLELOFT_NODE_WORDS words
 * from word WAGGLELOFT_NODES_AT + WAGGLELOFT_NODE_WORDS * i on. A free node is all
 * zero. Of a used one the low half of its first word is 1, and the high half is
 * the index of the node that it hangs on; 0xFF of the root, which stands for the
 * runtime.
 */
#define WAGGLELOFT_NODES 32
#define WAGGLELOFT_NODES_AT 400
#define WAGGLELOFT_NODE_WORDS 35

/*
 * Words within a node: the handle (five words, a word's lowest byte first; all
 * zero is the default handle, all 0xFF a retired one), the measured digest
 * (twelve words likewise), and one each the type, the caller's number (locality)
 * and the svn, as the request gave them. The root's digest is PCR3's, its svn is
 * 0, and so is a derived child's.
 */
#define WAGGLELOFT_NODE_HANDLE 2
#define WAGGLELOFT_NODE_CURRENT 8
#define WAGGLELOFT_NODE_TYPE 32
#define WAGGLELOFT_NODE_LOCALITY 33
#define WAGGLELOFT_NODE_SVN 34

/* ---- Openings ---- */

/*
 * A boot's inputs, 48 bytes each: runtime, the SHA-384 digest of the code of the
 * runtime that starts; manifest, that of its firmware manifest; secret, the
 * device secret. PCR2 and PCR3 are extended by runtime, then by manifest. The
 * two digests have the same length and type: exchanging them is not refused,
 * and gives other registers. A digest may have any content, all zero too, and
 * the two may be equal.
 */

/*
 * Opens a cold boot on an image with any content: every word of it is stored
 * anew.
 *
 * Handed back, the first that applies:
 *   WAGGLELOFT_WRONG_WORK   work_len is not WAGGLELOFT_WORK_WORDS
 *   WAGGLELOFT_WRONG_IMAGE  image_len is not WAGGLELOFT_IMAGE_WORDS
 *   WAGGLELOFT_WRONG_INPUT  runtime_len, manifest_len or secret_len is not 48, or the secret is all
 *                           zero
 *   WAGGLELOFT_OK           otherwise: work is the boot's work, and *outcome is WAGGLELOFT_COLD
 *
 * The image is only read. If the boot is refused, work and *outcome stay as
 * they were: a work in hand may go on.
 */
uint32_t waggleloft_open_cold_boot(const uint32_t *image, size_t image_len,
                                   const uint8_t *runtime, size_t runtime_len,
                                   const uint8_t *manifest, size_t manifest_len,
                                   const uint8_t *secret, size_t secret_len,
                                   uint32_t *work, size_t work_len,
                                   uint32_t *outcome);

/*
 * Opens an update boot, as every restart with the image kept is one. verdict
 * is the ROM's: whether the new program may count. The numbers are those of a
 * cold boot, whatever the boot would come to; *outcome is WAGGLELOFT_KEPT,
 * WAGGLELOFT_UPDATED or WAGGLELOFT_DISABLED, the last if a work was cut,
 * attestation is off or the image is damaged.
 */
uint32_t waggleloft_open_update_boot(const uint32_t *image, size_t image_len,
                                     const uint8_t *runtime, size_t runtime_len,
                                     const uint8_t *manifest, size_t manifest_len,
                                     const uint8_t *secret, size_t secret_len,
                                     bool verdict, uint32_t *work,
                                     size_t work_len, uint32_t *outcome);

/*
 * Opens a mailbox request: a command code, its request bytes (the first four
 * are the checksum, lowest byte first), the caller's number, the handoff table
 * (2,048 bytes, for the identity key; any bytes otherwise), the verdict on a
 * signature (for verify; ignored otherwise) and a fresh handle
 * (WAGGLELOFT_HANDLE_BYTES bytes that were never a handle before, from a random
 * source, for derive and rotate; any bytes otherwise, of length 0 too).
 *
 * Handed back, the first that applies: WAGGLELOFT_WRONG_WORK,
 * WAGGLELOFT_WRONG_IMAGE, WAGGLELOFT_UNFINISHED, WAGGLELOFT_UNKNOWN_CODE,
 * WAGGLELOFT_WRONG_LENGTH, WAGGLELOFT_BAD_CHECKSUM; then the command's own:
 * WAGGLELOFT_WRONG_HANDOFF, WAGGLELOFT_BAD_SIGNATURE,
 * WAGGLELOFT_NOT_WELL_FORMED, or WAGGLELOFT_WRONG_REGISTER before
 * WAGGLELOFT_ATTESTATION_OFF; otherwise WAGGLELOFT_OK, and work is the
 * request's work. A stash or a command to the tree that is declined is accepted
 * as a request: its work has nothing to store, and its answer says why. An
 * extension of a register is never declined: with attestation off it is refused.
 *
 * The image is only read. If the request is refused, work stays as it was.
 */
uint32_t waggleloft_open_request(const uint32_t *image, size_t image_len,
                                 uint32_t code,
                                 const uint8_t *bytes, size_t bytes_len,
                                 uint32_t caller,
                                 const uint8_t *handoff, size_t handoff_len,
                                 bool verdict,
                                 const uint8_t *fresh, size_t fresh_len,
                                 uint32_t *work, size_t work_len);

/* ---- A work ---- */

/*
 * The stores that are left of a work; 0 of a work whose words are damaged, and
 * of one that is not WAGGLELOFT_WORK_WORDS words.
 */
size_t waggleloft_left(const uint32_t *work, size_t work_len);

/*
 * Makes the next store: one word of the image takes one value, and the work is
 * one store on. The image must be the one that the work was opened on, with
 * nothing written to it since but the work's own stores.
 *
 * Handed back, the first that applies:
 *   WAGGLELOFT_WRONG_WORK     work_len is not WAGGLELOFT_WORK_WORDS
 *   WAGGLELOFT_WRONG_IMAGE    image_len is not WAGGLELOFT_IMAGE_WORDS
 *   WAGGLELOFT_NO_STORE_LEFT  no store is left, or the work's words are damaged
 *   WAGGLELOFT_OK             otherwise
 *
 * If the store is refused, work and image stay as they were.
 */
uint32_t waggleloft_store(uint32_t *work, size_t work_len, uint32_t *image,
                          size_t image_len);

/*
 * Takes the answer of a work, after its last store, into the front of the
 * buffer. A boot's answer has no bytes; a request's is at most
 * WAGGLELOFT_ANSWER_LONGEST bytes and may be taken any number of times. It
 * begins with its checksum, lowest byte first, made with the command code taken
 * as zero: waggleloft_checksum(0, buffer + 4, *written - 4).
 *
 * Handed back, the first that applies:
 *   WAGGLELOFT_WRONG_WORK    work_len is not WAGGLELOFT_WORK_WORDS
 *   WAGGLELOFT_STORES_LEFT   stores are left, or the work's words are damaged
 *   WAGGLELOFT_SHORT_BUFFER  buffer_len is less than the answer's length
 *   WAGGLELOFT_OK            otherwise: *written is the answer's length, and bytes of the buffer
 *                            past it stay
 *
 * If it is refused, buffer and *written stay as they were.
 */
uint32_t waggleloft_answer(const uint32_t *work, size_t work_len,
                           uint8_t *buffer, size_t buffer_len, size_t *written);

/*
 * Takes the journal entry of a work, after its last store, into the front of
 * the buffer, any number of times. Entries joined in the order of their works
 * are the unit's journal, which an inspector replays beside a saved image. An
 * entry is at most WAGGLELOFT_ENTRY_LONGEST bytes; that of a work with nothing
 * to store has none. It holds a boot's two digests, a stash's type, digest, svn
 * and caller, an extension's register and digest, or the data of a command to the
 * tree with the fresh handle, if it took one, and the caller; never the secret.
 *
 * Handed back, the first that applies:
 *   WAGGLELOFT_WRONG_WORK       work_len is not WAGGLELOFT_WORK_WORDS
 *   WAGGLELOFT_STORES_LEFT      stores are left, or the work's words are damaged
 *   WAGGLELOFT_SHORT_FOR_ENTRY  buffer_len is less than the entry's length
 *   WAGGLELOFT_OK               otherwise: *written is the entry's length, and bytes of the buffer
 *                               past it stay
 *
 * If it is refused, buffer and *written stay as they were.
 */
uint32_t waggleloft_entry(const uint32_t *work, size_t work_len,
                          uint8_t *buffer, size_t buffer_len, size_t *written);

/* ---- Digest and checksum ---- */

/*
 * SHA-384 (FIPS 180-4) of the message_len bytes at message.
 *
 * The first of these that applies decides the result:
 *   WAGGLELOFT_LONG_MESSAGE  message_len > WAGGLELOFT_SHA384_LONGEST
 *   WAGGLELOFT_SHORT_BUFFER  buffer_len < WAGGLELOFT_SHA384_BYTES
 *   WAGGLELOFT_OK            otherwise
 *
 * With WAGGLELOFT_OK the first 48 bytes of the buffer are the digest, in the
 * order in which FIPS 180-4 writes it, and every later byte of the buffer
 * stays. With any other result no byte of the buffer is written.
 */
uint32_t waggleloft_sha384(const uint8_t *message, size_t message_len,
                           uint8_t *buffer, size_t buffer_len);

/*
 * A running digest: SHA-384 of bytes that come in slices, such as an update that
 * is too long for waggleloft_sha384. Begin once, feed each slice in its order,
 * finish. The digest is that of all accepted bytes in their order: into which
 * slices they came makes no difference, and a slice may be empty.
 *
 *     uint8_t state[WAGGLELOFT_SHA384_STATE_BYTES], digest[WAGGLELOFT_SHA384_BYTES];
 *     waggleloft_sha384_begin(state, sizeof state);
 *     while ((n = next_slice(slice)) > 0)
 *         if (waggleloft_sha384_feed(state, sizeof state, slice, n) != WAGGLELOFT_OK)
 *             return false;
 *     return waggleloft_sha384_finish(state, sizeof state, digest, sizeof digest) == WAGGLELOFT_OK;
 *
 * The state is the caller's: it may be copied, and kept for as long as the
 * archive stays the same. Any WAGGLELOFT_SHA384_STATE_BYTES bytes are a state:
 * damaged ones lead to WAGGLELOFT_WRONG_COUNTS or to a wrong digest, and to
 * nothing worse. Guard a state as you guard the bytes that it stands for.
 */

/*
 * Begins: state is that of no bytes, whatever it held.
 *
 * Handed back, the first that applies:
 *   WAGGLELOFT_WRONG_STATE  state_len is not WAGGLELOFT_SHA384_STATE_BYTES; state stays as it was
 *   WAGGLELOFT_OK           otherwise
 */
uint32_t waggleloft_sha384_begin(uint8_t *state, size_t state_len);

/*
 * Feeds the slice_len bytes at slice, which may be none.
 *
 * Handed back, the first that applies:
 *   WAGGLELOFT_WRONG_STATE   state_len is not WAGGLELOFT_SHA384_STATE_BYTES
 *   WAGGLELOFT_WRONG_COUNTS  the counts in the state disagree, or its total is above
 *                            WAGGLELOFT_SHA384_TOTAL_LONGEST, which no feeding leads to
 *   WAGGLELOFT_LONG_MESSAGE  slice_len > WAGGLELOFT_SHA384_LONGEST
 *   WAGGLELOFT_LONG_TOTAL    the total would be above WAGGLELOFT_SHA384_TOTAL_LONGEST
 *   WAGGLELOFT_OK            otherwise
 *
 * If the slice is refused, state stays as it was, and the slice is not in the
 * digest.
 */
uint32_t waggleloft_sha384_feed(uint8_t *state, size_t state_len,
                                const uint8_t *slice, size_t slice_len);

/*
 * The digest of all bytes fed so far, into the first 48 bytes of the buffer;
 * every later byte of it stays. The state is only read: it may be finished
 * again, and feeding may go on.
 *
 * Handed back, the first that applies:
 *   WAGGLELOFT_WRONG_STATE   state_len is not WAGGLELOFT_SHA384_STATE_BYTES
 *   WAGGLELOFT_WRONG_COUNTS  as of a feed
 *   WAGGLELOFT_SHORT_BUFFER  buffer_len < WAGGLELOFT_SHA384_BYTES
 *   WAGGLELOFT_OK            otherwise
 *
 * With any other result than WAGGLELOFT_OK no byte of the buffer is written.
 */
uint32_t waggleloft_sha384_finish(const uint8_t *state, size_t state_len,
                                  uint8_t *buffer, size_t buffer_len);

/*
 * The mailbox checksum of a command code and the bytes after the checksum
 * field: zero minus the sum of the code's four bytes and of all bytes_len
 * bytes, modulo 2^32. Any length is taken and nothing is ever refused. A
 * request's checksum takes its own code, an answer's the code 0.
 */
uint32_t waggleloft_checksum(uint32_t code, const uint8_t *bytes,
                             size_t bytes_len);

#ifdef __cplusplus
}
#endif

#endif /* WAGGLELOFT_H */
