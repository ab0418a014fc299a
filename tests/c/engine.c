/*
 * Calls the engine of include/waggleloft.h from C: every store of every kind of work,
 * every cut of a request's, every refusal, what a boot, a stash and an extension
 * measure, the nodes' svn, lists of every node, commands to the tree, journal entries
 * of every kind of work, works of other lengths, and works with damaged words. What a
 * store has to do is computed here from a table of the kinds of work (KINDS), not
 * asked of the engine. Every buffer is on the heap with its exact length, so that
 * valgrind sees a byte too many. Prints a line for each check that failed and, last,
 * 'N passed, M failed'.
 */
#include "waggleloft.h"

#include "check.h"
#include "random.h"

#include <stdio.h>
#include <stdlib.h>
#include <string.h>

#define IMAGE WAGGLELOFT_IMAGE_WORDS
#define WORK WAGGLELOFT_WORK_WORDS
#define DIGEST WAGGLELOFT_SHA384_BYTES
#define LONGEST WAGGLELOFT_ANSWER_LONGEST
#define ENTRY WAGGLELOFT_ENTRY_LONGEST

#define NODES WAGGLELOFT_NODES
#define NODE_WORDS WAGGLELOFT_NODE_WORDS

/* Where each field of a work stands in its words: docs/DECISIONS.md, "C and Rust". */
enum { KIND_IN = 0, FIRST_IN = 1, SECOND_IN = 3, POSITION_IN = 5, LENGTH_IN = 7, REGISTER_IN = 9, JOURNEY_IN = 21, NODE_IN = 33,
       SECRET_IN = NODE_IN + NODE_WORDS, ANSWER_IN = SECRET_IN + 12, INPUTS_IN = ANSWER_IN + LONGEST / 4 };

/* Words of the image: a register's first, and a node's. */
#define PCR(number) (16 + 12 * (number))
#define NODE(index) (WAGGLELOFT_NODES_AT + NODE_WORDS * (index))

/* Words of a node. */
enum { HANDLE = WAGGLELOFT_NODE_HANDLE, CURRENT = WAGGLELOFT_NODE_CURRENT, CUMULATIVE = 20, TYPE = WAGGLELOFT_NODE_TYPE,
       LOCALITY = WAGGLELOFT_NODE_LOCALITY, SVN = WAGGLELOFT_NODE_SVN };

/* The first word of a used node that hangs on that one; the root names no node. */
#define USED_ON(parent) ((uint32_t)(parent) << 16 | 1)
#define NO_PARENT 0xFF

/* Stores of each kind of work, as the papers give them. */
enum { DISABLING_STORES = 15, STASH_STORES = 54, UPDATE_STORES = 62, COLD_STORES = 1521, EXTENSION_STORES = 14,
       RETAINING_STORES = 37, RETIRING_STORES = 42, EXTEND_STORES = 26, ROTATE_STORES = 7 };
#define DESTROY_STORES(freed) (2 + 35 * (freed))

/* ---- the kinds of work ---- */

/*
 * A run of stores: how many; the first word of it, to which comes `each` times the work's number at `by`
 * (0: no number of it); where its values stand in the work (0: each is `value`). A run that frees is so long for each
 * of the nodes that the work's first number counts; the node's words are their indices.
 */
struct run {
    uint64_t stores, at, each;
    size_t by, from;
    uint32_t value;
    bool frees;
};

/* What a number of the work may be. */
struct bounds {
    uint64_t least, most;
};

/* A kind of work: its stores, what its two numbers may be, how it is opened on a unit that is on, its runs. A destroy is opened on one node. */
struct kind {
    const char *name;
    size_t stores;
    struct bounds first, second;
    bool (*open)(void);
    struct run runs[12];
};

static bool open_kept(void), open_disabling(void), open_stash(void), open_update(void), open_cold(void), open_extension(void),
    open_derive(void), open_replace(void), open_extend(void), open_rotate(void), open_destroy(void);

#define ANY {0, UINT64_MAX}
#define A_NODE {0, NODES - 1}
#define SAME(stores, at, value) {stores, at, 0, 0, 0, value, false}
#define COPY(stores, at, from) {stores, at, 0, 0, from, 0, false}
#define INTO(stores, word, by) {stores, NODE(0) + (word), NODE_WORDS, by, NODE_IN + (word), 0, false}
#define RETIRE(by) {5, NODE(0) + HANDLE, NODE_WORDS, by, 0, UINT32_MAX, false}
#define FREE {NODE_WORDS, NODE(0), 0, 0, 0, 0, true}
#define BEGIN SAME(1, 0, 0)
#define END SAME(1, 0, 1)

/* The one place that knows the kinds, each at its number. */
enum { NOTHING, DISABLING, STASH, UPDATE, COLD, EXTENSION, DERIVE, REPLACE, EXTEND, ROTATE, DESTROY, NO_KIND };
static const struct kind KINDS[NO_KIND] = {
    [NOTHING] = {"a kept boot", 0, ANY, ANY, open_kept, {SAME(0, 0, 0)}},
    [DISABLING] = {"a disabling", DISABLING_STORES, ANY, ANY, open_disabling, {BEGIN, SAME(1, 1, 0), SAME(12, 4, 0), END}},
    [STASH] = {"a stash", STASH_STORES, A_NODE, A_NODE, open_stash,
               {BEGIN, COPY(12, PCR(31), REGISTER_IN), INTO(NODE_WORDS, 0, FIRST_IN),
                RETIRE(SECOND_IN), END}},
    [UPDATE] = {"an update", UPDATE_STORES, A_NODE, ANY, open_update,
                {BEGIN, COPY(12, PCR(2), REGISTER_IN), COPY(12, PCR(3), JOURNEY_IN), COPY(12, 4, SECRET_IN),
                 INTO(12, CURRENT, FIRST_IN), INTO(12, CUMULATIVE, FIRST_IN), END}},
    [COLD] = {"a cold boot", COLD_STORES, ANY, ANY, open_cold,
              {BEGIN, SAME(1, 1, 1), SAME(2, 2, 0), COPY(12, 4, SECRET_IN), SAME(24, PCR(0), 0), COPY(12, PCR(2), REGISTER_IN),
               COPY(12, PCR(3), JOURNEY_IN), SAME(336, PCR(4), 0), COPY(NODE_WORDS, NODE(0), NODE_IN),
               SAME(NODE_WORDS * (NODES - 1), NODE(1), 0), END}},
    [EXTENSION] = {"an extension", EXTENSION_STORES, {4, 30}, ANY, open_extension,
                   {BEGIN, {12, PCR(0), 12, FIRST_IN, REGISTER_IN, 0, false}, END}},
    [DERIVE] = {"a derive", RETAINING_STORES, A_NODE, ANY, open_derive, {BEGIN, INTO(NODE_WORDS, 0, FIRST_IN), END}},
    [REPLACE] = {"a derive without retain", RETIRING_STORES, A_NODE, A_NODE, open_replace,
                 {BEGIN, INTO(NODE_WORDS, 0, FIRST_IN), RETIRE(SECOND_IN), END}},
    [EXTEND] = {"an extend", EXTEND_STORES, A_NODE, ANY, open_extend, {BEGIN, INTO(24, CURRENT, FIRST_IN), END}},
    [ROTATE] = {"a rotate", ROTATE_STORES, A_NODE, ANY, open_rotate, {BEGIN, INTO(5, HANDLE, FIRST_IN), END}},
    [DESTROY] = {"a destroy", DESTROY_STORES(1), {0, NODES}, ANY, open_destroy, {BEGIN, FREE, END}},
};

/* Every kind, in an order in which one can be opened after the other; the disabling last, as it switches off. */
static const uint32_t ORDER[NO_KIND] = {COLD, STASH, EXTENSION, DERIVE, EXTEND, ROTATE, DESTROY, REPLACE, UPDATE, NOTHING, DISABLING};

/* The works of requests that leave attestation on: the answer's bytes, and a word that stays until the work has counted. */
#define EXTENDED 17
static const struct {
    uint32_t kind;
    size_t answer, shown;
} ANSWERED[] = {{STASH, 12, NODE(1)}, {EXTENSION, 8, PCR(EXTENDED)}, {DERIVE, 12, NODE(1)}, {EXTEND, 12, NODE(1) + CURRENT},
                {ROTATE, 12, NODE(1) + HANDLE + 4}, {DESTROY, 12, NODE(1)}, {REPLACE, 12, NODE(2)}};

/* Each command's code and its request's bytes; of one to the tree, those of a rotate. */
static const struct {
    uint32_t code;
    size_t len;
} COMMANDS[] = {{WAGGLELOFT_STASH_MEASUREMENT, 60}, {WAGGLELOFT_DISABLE_ATTESTATION, 4}, {WAGGLELOFT_IDENTITY_KEY, 4},
                {WAGGLELOFT_VERIFY_SIGNATURE, 196}, {WAGGLELOFT_EXTEND_PCR, 56}, {WAGGLELOFT_INVOKE_DPE_COMMAND, 29}};
#define LONGEST_REQUEST (8 + WAGGLELOFT_DPE_DATA_LONGEST + 1)

#define COUNT(array) (sizeof(array) / sizeof *(array))

/* ---- buffers ---- */

/* A buffer of n elements; one of 0 elements has an address too. */
static void *lent(size_t n, size_t size)
{
    void *buffer = calloc(n > 0 ? n : 1, size);
    if (buffer == NULL) {
        printf("no memory\n");
        exit(1);
    }
    return buffer;
}

/* ---- a unit: its image and the work in hand, with copies to compare with ---- */

static uint32_t *image, *image_before, *work, *work_before;
static uint8_t *runtime, *manifest, *secret, *request, *buffer, *buffer_before, *none;
static uint32_t caller = 7;

/* The fresh handle that is lent with a request. */
static uint8_t *lent_handle;
static size_t lent_len;

static void remember(void)
{
    memcpy(image_before, image, IMAGE * sizeof *image);
    memcpy(work_before, work, WORK * sizeof *work);
    memcpy(buffer_before, buffer, LONGEST);
}

static bool image_same(void) { return memcmp(image, image_before, IMAGE * sizeof *image) == 0; }
static bool work_same(void) { return memcmp(work, work_before, WORK * sizeof *work) == 0; }
static bool buffer_same(void) { return memcmp(buffer, buffer_before, LONGEST) == 0; }

static uint32_t cold_boot(uint32_t *outcome)
{
    return waggleloft_open_cold_boot(image, IMAGE, runtime, DIGEST, manifest, DIGEST, secret, DIGEST, work, WORK, outcome);
}

static uint32_t update_boot(bool verdict, uint32_t *outcome)
{
    return waggleloft_open_update_boot(image, IMAGE, runtime, DIGEST, manifest, DIGEST, secret, DIGEST, verdict, work, WORK, outcome);
}

/* A number into four bytes of the request, lowest first. */
static void put_number(size_t at, uint32_t number)
{
    for (size_t i = 0; i < 4; i++)
        request[at + i] = (uint8_t)(number >> (8 * i) & 0xFFU);
}

static void set_checksum(uint32_t code, size_t len) { put_number(0, waggleloft_checksum(code, request + 4, len - 4)); }

/* Opens a request of the first `len` bytes as they are; behind them zeros where there are no more. */
static uint32_t ask_as_is(uint32_t code, size_t len, const uint8_t *handoff, size_t handoff_len, bool verdict)
{
    uint8_t *bytes = lent(len, 1);
    memcpy(bytes, request, len < LONGEST_REQUEST ? len : LONGEST_REQUEST);
    uint32_t number = waggleloft_open_request(image, IMAGE, code, bytes, len, caller, handoff, handoff_len, verdict, lent_handle, lent_len,
                                              work, WORK);
    free(bytes);
    return number;
}

static uint32_t ask_with(uint32_t code, size_t len, const uint8_t *handoff, size_t handoff_len, bool verdict)
{
    set_checksum(code, len);
    return ask_as_is(code, len, handoff, handoff_len, verdict);
}

static uint32_t ask(uint32_t code, size_t len) { return ask_with(code, len, none, 0, false); }

static bool request_refused(uint32_t code, size_t len, uint32_t number)
{
    remember();
    return ask_as_is(code, len, none, 0, false) == number && image_same() && work_same();
}

/* Extends a register by the digest that stands in the request. */
static uint32_t extend(uint32_t number)
{
    put_number(4, number);
    return ask(WAGGLELOFT_EXTEND_PCR, 56);
}

/* The fresh handles so far, since the cold boot. */
static uint32_t handles;

static size_t run(size_t most)
{
    size_t made = 0;
    while (made < most && waggleloft_store(work, WORK, image, IMAGE) == WAGGLELOFT_OK)
        made++;
    return made;
}

/* A unit after its cold boot; its fresh handles begin anew. */
static void fresh(void)
{
    uint32_t outcome = 99;
    handles = 0;
    if (cold_boot(&outcome) != WAGGLELOFT_OK || run(SIZE_MAX) != KINDS[COLD].stores)
        check(false, "a cold boot runs");
}

/* The openings of each kind; whether they were accepted. */
static bool boots(uint32_t number, uint32_t outcome, uint32_t expected) { return number == WAGGLELOFT_OK && outcome == expected; }

static bool open_cold(void)
{
    uint32_t outcome = 99, number = cold_boot(&outcome);
    return boots(number, outcome, WAGGLELOFT_COLD);
}

static bool open_update(void)
{
    uint32_t outcome = 99, number = update_boot(true, &outcome);
    return boots(number, outcome, WAGGLELOFT_UPDATED);
}

static bool open_kept(void)
{
    uint32_t outcome = 99, number = update_boot(false, &outcome);
    return boots(number, outcome, WAGGLELOFT_KEPT);
}

static bool open_stash(void) { return ask(WAGGLELOFT_STASH_MEASUREMENT, 60) == WAGGLELOFT_OK; }
static bool open_disabling(void) { return ask(WAGGLELOFT_DISABLE_ATTESTATION, 4) == WAGGLELOFT_OK; }
static bool open_extension(void) { return extend(EXTENDED) == WAGGLELOFT_OK; }

/* ---- commands to the tree ---- */

#define HANDLE_LEN WAGGLELOFT_HANDLE_BYTES
static const uint8_t DEFAULT[HANDLE_LEN] = {0};
static const uint8_t RETIRED[HANDLE_LEN] = {0xFF, 0xFF, 0xFF, 0xFF, 0xFF, 0xFF, 0xFF, 0xFF, 0xFF, 0xFF,
                                            0xFF, 0xFF, 0xFF, 0xFF, 0xFF, 0xFF, 0xFF, 0xFF, 0xFF, 0xFF};

/* The handle of the child that was derived last. */
static uint8_t child[HANDLE_LEN];

/* The bytes of the request, of a command to the tree. */
static size_t request_len;

static void append(const void *bytes, size_t len)
{
    memcpy(request + request_len, bytes, len);
    request_len += len;
}

static void append_byte(uint32_t byte) { request[request_len++] = (uint8_t)(byte & 0xFFU); }

/* Groups of seven bits, the lowest first. */
static void append_number(uint32_t number)
{
    for (; number > 0x7F; number >>= 7)
        append_byte((number & 0x7FU) | 0x80U);
    append_byte(number);
}

/* Begins a command about the node with that handle. */
static void command(uint32_t number, const uint8_t *handle)
{
    request_len = 8;
    append_byte(number);
    append(handle, HANDLE_LEN);
}

static void append_digest(uint8_t byte)
{
    memset(request + request_len, byte, DIGEST);
    request_len += DIGEST;
}

static void derive_of(const uint8_t *handle, uint32_t retain, uint32_t type, uint8_t byte)
{
    command(WAGGLELOFT_TREE_DERIVE, handle);
    append_number(retain);
    append_number(type);
    append_digest(byte);
}

static void extend_of(const uint8_t *handle, uint8_t byte)
{
    command(WAGGLELOFT_TREE_EXTEND, handle);
    append_digest(byte);
}

/* Lends these bytes as the fresh handle. */
static void lend(const uint8_t *bytes, size_t len)
{
    free(lent_handle);
    lent_handle = lent(len, 1);
    lent_len = len;
    memcpy(lent_handle, bytes, len);
}

static void lend_nothing(void) { lend(none, 0); }

/* Lends a handle that no node has had since the cold boot. */
static void lend_fresh(void)
{
    uint8_t handle[HANDLE_LEN];
    memset(handle, 0xA5, sizeof handle);
    handles++;
    handle[HANDLE_LEN - 1] = (uint8_t)(handles & 0xFFU);
    lend(handle, sizeof handle);
}

/* Opens the command that stands in the request. */
static uint32_t invoke(void)
{
    put_number(4, (uint32_t)(request_len - 8));
    return ask(WAGGLELOFT_INVOKE_DPE_COMMAND, request_len);
}

/* The node that holds a handle; NODES if none does. */
static uint32_t holder_of(const uint8_t *handle)
{
    for (uint32_t i = 0; i < NODES; i++)
        if ((image[NODE(i)] & 0xFFFF) == 1 && memcmp(image + NODE(i) + HANDLE, handle, HANDLE_LEN) == 0)
            return i;
    return NODES;
}

/* Opens the command on behalf of the caller whose node has that handle. */
static bool invoke_by(const uint8_t *handle)
{
    uint32_t index = holder_of(handle), before = caller;
    if (index == NODES)
        return false;
    caller = image[NODE(index) + LOCALITY];
    bool opened = invoke() == WAGGLELOFT_OK;
    caller = before;
    return opened;
}

/* And its fresh handle is the child's from then on. */
static bool invoke_with_fresh(const uint8_t *handle)
{
    lend_fresh();
    bool opened = invoke_by(handle);
    memcpy(child, lent_handle, HANDLE_LEN);
    return opened;
}

static bool open_derive(void)
{
    derive_of(DEFAULT, 1, UINT32_C(0x52554F48), 0x66);
    return invoke_with_fresh(DEFAULT);
}

/* There is a child: the last one, or else one more. */
static bool with_child(void) { return holder_of(child) != NODES || (open_derive() && run(SIZE_MAX) == RETAINING_STORES); }

static bool open_replace(void)
{
    uint8_t parent[HANDLE_LEN];
    bool there = with_child();
    memcpy(parent, child, HANDLE_LEN);
    derive_of(parent, 0, 300, 0x77);
    return there && invoke_with_fresh(parent);
}

static bool open_extend(void)
{
    bool there = with_child();
    extend_of(child, 0x88);
    lend_nothing();
    return there && invoke_by(child);
}

static bool open_rotate(void)
{
    uint8_t old[HANDLE_LEN];
    bool there = with_child();
    memcpy(old, child, HANDLE_LEN);
    command(WAGGLELOFT_TREE_ROTATE, old);
    return there && invoke_with_fresh(old);
}

static bool open_destroy(void)
{
    bool there = with_child();
    command(WAGGLELOFT_TREE_DESTROY, child);
    lend_nothing();
    return there && invoke_by(child);
}

/* ---- what a store has to do, from the table of kinds ---- */

static uint64_t two(size_t at) { return work_before[at] + ((uint64_t)work_before[at + 1] << 32); }

static bool within(struct bounds bounds, uint64_t number) { return bounds.least <= number && number <= bounds.most; }

static uint64_t stores_of(const struct run *run) { return run->frees ? run->stores * two(FIRST_IN) : run->stores; }

/* All stores of the work, whose numbers are within their bounds. */
static uint64_t stores_in_all(void)
{
    uint64_t sum = 0;
    for (size_t i = 0; i < COUNT(KINDS[0].runs); i++)
        sum += stores_of(&KINDS[work_before[KIND_IN]].runs[i]);
    return sum;
}

/* No index of a destroy, of those that count, is beyond the nodes. */
static bool freed_within(void)
{
    for (uint64_t i = 0; work_before[KIND_IN] == DESTROY && i < two(FIRST_IN); i++)
        if (work_before[NODE_IN + i] >= NODES)
            return false;
    return true;
}

static bool well_shaped(void)
{
    uint32_t kind = work_before[KIND_IN];
    return kind < NO_KIND && within(KINDS[kind].first, two(FIRST_IN)) && within(KINDS[kind].second, two(SECOND_IN)) && freed_within() &&
           two(LENGTH_IN) <= LONGEST && two(POSITION_IN) <= stores_in_all();
}

static uint64_t left(void) { return well_shaped() ? stores_in_all() - two(POSITION_IN) : 0; }

/* Makes the store in image_before and work_before. */
static void expected_store(void)
{
    uint64_t k = two(POSITION_IN), moved = k + 1;
    const struct run *run = KINDS[work_before[KIND_IN]].runs;
    for (; k >= stores_of(run); run++)
        k -= stores_of(run);
    uint64_t at = run->at + (run->by != 0 ? run->each * two(run->by) : 0);
    if (run->frees)
        image_before[NODE(work_before[NODE_IN + k / NODE_WORDS]) + k % NODE_WORDS] = 0;
    else
        image_before[at + k] = run->from != 0 ? work_before[run->from + k] : run->value;
    work_before[POSITION_IN] = (uint32_t)(moved & UINT32_MAX);
    work_before[POSITION_IN + 1] = (uint32_t)(moved >> 32);
}

/* One store of the work in hand, whatever its words, does what it has to do. */
static bool store_holds(void)
{
    remember();
    uint64_t stores = left();
    bool same_left = waggleloft_left(work, WORK) == stores;
    if (stores > 0)
        expected_store();
    uint32_t number = waggleloft_store(work, WORK, image, IMAGE);
    return same_left && number == (stores > 0 ? WAGGLELOFT_OK : WAGGLELOFT_NO_STORE_LEFT) && image_same() && work_same();
}

/* ---- the checks ---- */

static void check_sizes(void)
{
    check(waggleloft_work_words() == WORK, "the archive's words of a work are the header's");
    check(waggleloft_image_words() == IMAGE, "the archive's words of an image are the header's");
}

/* A check whose name tells the kind of work too. */
static void check_kind(bool holds, const char *what, uint32_t kind)
{
    char name[80];
    (void)snprintf(name, sizeof name, "%s %s", what, KINDS[kind].name);
    check(holds, name);
}

/* The runs of every kind make its stores, so that a store's run is always found. */
static void check_table(void)
{
    for (uint32_t kind = 0; kind < NO_KIND; kind++) {
        uint64_t sum = 0;
        for (size_t i = 0; i < COUNT(KINDS[kind].runs); i++)
            sum += KINDS[kind].runs[i].stores;
        check_kind(sum == KINDS[kind].stores, "the runs of", kind);
    }
}

static bool erased(void)
{
    for (size_t i = 4; i < 16; i++)
        if (image[i] != 0)
            return false;
    return true;
}

/* A work cut after `cut` stores, then an update boot: on and whole, or off with the secret erased. */
static bool cut_holds(size_t which, size_t cut)
{
    uint32_t outcome = 99;
    size_t written = 99, all = KINDS[ANSWERED[which].kind].stores;
    fresh();
    if (!KINDS[ANSWERED[which].kind].open() || waggleloft_left(work, WORK) != all)
        return false;
    uint32_t uncounted = image[ANSWERED[which].shown];
    if (run(cut) != cut)
        return false;
    uint32_t answered = waggleloft_answer(work, WORK, buffer, LONGEST, &written);
    if (cut == all ? answered != WAGGLELOFT_OK || written != ANSWERED[which].answer
                   : answered != WAGGLELOFT_STORES_LEFT || written != 99)
        return false;
    if (update_boot(true, &outcome) != WAGGLELOFT_OK)
        return false;
    bool on = cut == 0 || cut == all;
    size_t stores = run(SIZE_MAX);
    bool counted = image[ANSWERED[which].shown] != uncounted;
    return on ? outcome == WAGGLELOFT_UPDATED && stores == KINDS[UPDATE].stores && image[1] == 1 && !erased() && counted == (cut == all)
              : outcome == WAGGLELOFT_DISABLED && stores == KINDS[DISABLING].stores && image[1] == 0 && erased();
}

static void check_cuts(void)
{
    for (size_t i = 0; i < COUNT(ANSWERED); i++) {
        bool all = true;
        for (size_t cut = 0; cut <= KINDS[ANSWERED[i].kind].stores; cut++)
            all = cut_holds(i, cut) && all;
        check_kind(all, "every cut of", ANSWERED[i].kind);
    }
}

/* Every store of every kind of work, one work after the other. */
static void check_stores(void)
{
    fill_words(image, IMAGE);
    for (size_t k = 0; k < NO_KIND; k++) {
        bool all = KINDS[ORDER[k]].open() && work[KIND_IN] == ORDER[k];
        for (size_t i = 0; i <= KINDS[ORDER[k]].stores; i++)
            all = store_holds() && all;
        check_kind(all, "every store of", ORDER[k]);
    }
}

/* An answer refused leaves all; an answer given is in the front of the buffer. */
static bool answer_holds(size_t len, uint32_t number, size_t length)
{
    size_t written = 99;
    uint8_t *out = lent(len, 1), *before = lent(len, 1);
    fill_bytes(out, len);
    memcpy(before, out, len);
    remember();
    bool holds = waggleloft_answer(work, WORK, out, len, &written) == number && work_same();
    if (number == WAGGLELOFT_OK)
        holds = holds && written == length && memcmp(out + length, before + length, len - length) == 0;
    else
        holds = holds && written == 99 && memcmp(out, before, len) == 0;
    free(out);
    free(before);
    return holds;
}

static void check_answers(void)
{
    fresh();
    check(answer_holds(0, WAGGLELOFT_OK, 0), "a boot's answer has no bytes");
    for (size_t i = 0; i < COUNT(ANSWERED); i++) {
        size_t answer = ANSWERED[i].answer;
        bool all = KINDS[ANSWERED[i].kind].open();
        for (size_t len = 0; len <= 20; len++)
            all = answer_holds(len, WAGGLELOFT_STORES_LEFT, 0) && all;
        run(SIZE_MAX);
        for (size_t len = 0; len <= 20; len++)
            all = answer_holds(len, len < answer ? WAGGLELOFT_SHORT_BUFFER : WAGGLELOFT_OK, answer) && all;
        check_kind(all, "buffers of every length for the answer of", ANSWERED[i].kind);
    }
}

/* All stores of the work in hand are made, and its answer is exactly these bytes. */
static bool answers(const uint8_t *expected, size_t len)
{
    size_t written = 0;
    run(SIZE_MAX);
    fill_bytes(buffer, LONGEST);
    return waggleloft_answer(work, WORK, buffer, LONGEST, &written) == WAGGLELOFT_OK && written == len &&
           memcmp(buffer, expected, len) == 0;
}

/* Each command's answer whole, worked out by hand: checksum (0 minus the sum of the body), status 0, body. */
static void check_answer_bytes(void)
{
    const uint8_t zeros[12] = {0};
    const uint8_t off[12] = {0xFE, 0xFF, 0xFF, 0xFF, 0, 0, 0, 0, 2};
    uint8_t handoff[2048] = {'C', 'F', 'H', 'T', 1}, key[LONGEST] = {0x70, 0xFF, 0xFF, 0xFF};
    memset(handoff + 304, 1, 48); /* X: 48 in all */
    memset(handoff + 352, 2, 48); /* Y: 96, so 0x90 with X */
    memcpy(key + 8, handoff + 304, 96);
    fresh();
    check(open_stash() && answers(zeros, 12), "an accepted stash's answer");
    check(open_derive() && answers(zeros, 12) && open_extend() && answers(zeros, 12) && open_rotate() && answers(zeros, 12) &&
              open_destroy() && answers(zeros, 12), "the answer of each command to the tree");
    check(open_extension() && answers(zeros, 8), "an extension's answer");
    check(ask_with(WAGGLELOFT_IDENTITY_KEY, 4, handoff, sizeof handoff, false) == WAGGLELOFT_OK && answers(key, LONGEST),
          "an identity key's answer");
    check(ask_with(WAGGLELOFT_VERIFY_SIGNATURE, 196, none, 0, true) == WAGGLELOFT_OK && answers(zeros, 8),
          "a signature's answer");
    check(open_disabling() && answers(zeros, 8), "a disable command's answer");
    check(open_stash() && answers(off, 12), "card 4: the answer of a stash while off");
}

/* A work of that many words: its own number, before a boot's inputs are looked at, and nothing is written. */
static bool work_refused(size_t len)
{
    uint32_t outcome = 99;
    size_t written = 99;
    uint32_t *words = lent(len, sizeof *words), *before = lent(len, sizeof *before);
    memcpy(words, work, (len < WORK ? len : WORK) * sizeof *words);
    memcpy(before, words, len * sizeof *words);
    remember();
    bool all = waggleloft_left(words, len) == 0;
    all = all && waggleloft_store(words, len, image, IMAGE) == WAGGLELOFT_WRONG_WORK;
    all = all && waggleloft_answer(words, len, buffer, LONGEST, &written) == WAGGLELOFT_WRONG_WORK;
    all = all && waggleloft_entry(words, len, buffer, LONGEST, &written) == WAGGLELOFT_WRONG_WORK;
    all = all && waggleloft_open_cold_boot(image, IMAGE, runtime, DIGEST, none, 0, secret, DIGEST, words, len, &outcome) == WAGGLELOFT_WRONG_WORK;
    all = all && waggleloft_open_update_boot(image, IMAGE, runtime, DIGEST, none, 0, secret, DIGEST, true, words, len, &outcome) == WAGGLELOFT_WRONG_WORK;
    all = all && waggleloft_open_request(image, IMAGE, WAGGLELOFT_DISABLE_ATTESTATION, request, 4, 7, none, 0, false, none, 0, words, len) == WAGGLELOFT_WRONG_WORK;
    all = all && image_same() && buffer_same() && outcome == 99 && written == 99 && memcmp(words, before, len * sizeof *words) == 0;
    free(words);
    free(before);
    return all;
}

static void check_work_lengths(void)
{
    bool all = true;
    fresh();
    for (size_t len = 0; len <= 2 * WORK; len++)
        if (len != WORK)
            all = work_refused(len) && all;
    check(all, "works of every other length get 28, and nothing is written");
    check(work_refused(105), "a work from before the nodes had an svn, of 105 words, gets 28");
    check(work_refused(106), "a work from before there was a journal, of 106 words, gets 28");
}

/*
 * An image of that many words, the unit's as far as they go: 1, before a boot's inputs are looked at, and nothing is
 * written.
 */
static bool image_refused(size_t len)
{
    uint32_t outcome = 99;
    uint32_t *words = lent(len, sizeof *words), *before = lent(len, sizeof *before);
    memcpy(words, image, (len < IMAGE ? len : IMAGE) * sizeof *words);
    memcpy(before, words, len * sizeof *words);
    remember();
    bool all = waggleloft_store(work, WORK, words, len) == WAGGLELOFT_WRONG_IMAGE;
    all = all && waggleloft_open_cold_boot(words, len, runtime, DIGEST, none, 0, secret, DIGEST, work, WORK, &outcome) == WAGGLELOFT_WRONG_IMAGE;
    all = all && waggleloft_open_update_boot(words, len, runtime, DIGEST, none, 0, secret, DIGEST, true, work, WORK, &outcome) == WAGGLELOFT_WRONG_IMAGE;
    all = all && waggleloft_open_request(words, len, WAGGLELOFT_DISABLE_ATTESTATION, request, 4, 7, none, 0, false, none, 0, work, WORK) == WAGGLELOFT_WRONG_IMAGE;
    all = all && work_same() && outcome == 99 && memcmp(words, before, len * sizeof *words) == 0;
    free(words);
    free(before);
    return all;
}

static void check_image_lengths(void)
{
    static const size_t lengths[] = {0, 1, 2, 399, IMAGE - NODE_WORDS, IMAGE + NODE_WORDS, 2 * IMAGE};
    fresh();
    bool all = open_stash();
    for (size_t i = 0; i < COUNT(lengths); i++)
        all = image_refused(lengths[i]) && all;
    check(all, "images of other lengths get 1, and nothing is written");
    check(image_refused(IMAGE - 1) && image_refused(IMAGE + 1), "card 6: images of one word less and one more get 1");
    check(image_refused(1216), "an image from before the nodes had an svn, of 1,216 words, gets 1");
    check(image_refused(1240), "an image of 24 nodes, of 1,240 words, gets 1");
}

/* ---- a boot's inputs ---- */

/* A cold boot and an update boot of each verdict with inputs of these lengths: all get 6, and nothing is written. */
static bool boots_refused(size_t runtime_len, size_t manifest_len, size_t secret_len, bool zero_secret)
{
    uint32_t outcome = 99;
    uint8_t *r = lent(runtime_len, 1), *m = lent(manifest_len, 1), *s = lent(secret_len, 1);
    if (!zero_secret)
        memset(s, 0x22, secret_len);
    remember();
    bool holds = waggleloft_open_cold_boot(image, IMAGE, r, runtime_len, m, manifest_len, s, secret_len, work, WORK, &outcome) == WAGGLELOFT_WRONG_INPUT;
    for (int verdict = 0; verdict <= 1; verdict++)
        holds = waggleloft_open_update_boot(image, IMAGE, r, runtime_len, m, manifest_len, s, secret_len, verdict == 1, work, WORK, &outcome) ==
                    WAGGLELOFT_WRONG_INPUT && holds;
    free(r);
    free(m);
    free(s);
    return holds && image_same() && work_same() && outcome == 99;
}

/* Each input of every other length up to 60, 0, 47 and 49 among them, and a secret of zeros. */
static bool wrong_inputs_refused(void)
{
    bool all = boots_refused(DIGEST, DIGEST, DIGEST, true);
    for (size_t len = 0; len <= 60; len++)
        if (len != DIGEST)
            all = boots_refused(len, DIGEST, DIGEST, false) && boots_refused(DIGEST, len, DIGEST, false) &&
                  boots_refused(DIGEST, DIGEST, len, false) && all;
    return all;
}

/* Whether an update boot with right inputs would come to that; the work in hand stays. */
static bool would(bool verdict, uint32_t expected)
{
    uint32_t outcome = 99;
    remember();
    bool holds = update_boot(verdict, &outcome) == WAGGLELOFT_OK && outcome == expected;
    memcpy(work, work_before, WORK * sizeof *work);
    return holds;
}

static void check_refused_boots(void)
{
    fresh();
    check(would(true, WAGGLELOFT_UPDATED) && would(false, WAGGLELOFT_KEPT) && wrong_inputs_refused(),
          "wrong inputs get 6 where a boot would update or be kept");
    check(open_stash() && run(20) == 20, "a stash is under way");
    check(would(true, WAGGLELOFT_DISABLED) && would(false, WAGGLELOFT_DISABLED) && wrong_inputs_refused(),
          "wrong inputs get 6 where a boot would disable, and leave the work in hand");
    check(run(SIZE_MAX) == KINDS[STASH].stores - 20, "which goes on");
}

/* A cold boot and an update with these digests run to their end. */
static bool boots_run(const uint8_t *r, const uint8_t *m)
{
    uint32_t outcome = 99;
    return waggleloft_open_cold_boot(image, IMAGE, r, DIGEST, m, DIGEST, secret, DIGEST, work, WORK, &outcome) == WAGGLELOFT_OK &&
           outcome == WAGGLELOFT_COLD && run(SIZE_MAX) == KINDS[COLD].stores &&
           waggleloft_open_update_boot(image, IMAGE, r, DIGEST, m, DIGEST, secret, DIGEST, true, work, WORK, &outcome) == WAGGLELOFT_OK &&
           outcome == WAGGLELOFT_UPDATED && run(SIZE_MAX) == KINDS[UPDATE].stores;
}

static void check_accepted_boots(void)
{
    uint8_t *zeros = lent(DIGEST, 1), *same = lent(DIGEST, 1);
    memcpy(same, runtime, DIGEST);
    check(boots_run(runtime, zeros), "a manifest digest of zeros");
    check(boots_run(zeros, manifest), "a runtime digest of zeros");
    check(boots_run(zeros, zeros), "both of zeros");
    check(boots_run(runtime, same), "a manifest digest equal to the runtime's");
    free(zeros);
    free(same);
}

/*
 * What boots and extensions measure, from GNU sha384sum:
 *
 *     x48() { printf "%.0s$1" $(seq 48); }
 *     extend() { printf %b "$(sed 's/../\\x&/g' <<<"$1$2")" | sha384sum | cut -d' ' -f1; }
 *     zero=$(x48 00)
 *     COLD_PCR=$(extend "$(extend "$zero" "$(x48 11)")" "$(x48 33)")
 *     COLD_CUMULATIVE=$(extend "$zero" "$COLD_PCR")
 *     EXCHANGED_PCR=$(extend "$(extend "$zero" "$(x48 33)")" "$(x48 11)")
 *     UPDATE_PCR2=$(extend "$(extend "$zero" "$(x48 44)")" "$(x48 55)")
 *     UPDATE_PCR3=$(extend "$(extend "$COLD_PCR" "$(x48 44)")" "$(x48 55)")
 *     UPDATE_CUMULATIVE=$(extend "$COLD_CUMULATIVE" "$UPDATE_PCR3")
 *     EXTENDED_ONCE=$(extend "$zero" "$(x48 66)")
 *     EXTENDED_TWICE=$(extend "$EXTENDED_ONCE" "$(x48 77)")
 *
 * and on an image with another history, whose boot measured the runtime alone:
 *
 *     ALONE_PCR=$(extend "$zero" "$(x48 11)")
 *     ALONE_CUMULATIVE=$(extend "$zero" "$ALONE_PCR")
 *     ALONE_UPDATE_PCR3=$(extend "$(extend "$ALONE_PCR" "$(x48 44)")" "$(x48 55)")
 *     ALONE_UPDATE_CUMULATIVE=$(extend "$ALONE_CUMULATIVE" "$ALONE_UPDATE_PCR3")
 */
#define COLD_PCR \
    "7c20878ab486f86b065344e2e6d2382b2cad84955ea5ecfd" \
    "80b5f91ea9c0cc701431809b9907e1ff24efe3a603c6f486"
#define COLD_CUMULATIVE \
    "e9e5bcc8b76d66c67a65087b5bdb351f485f25260f8c3497" \
    "9ea178005024936e115d5107b73e36e9dcdbf0510bc6927b"
#define EXCHANGED_PCR \
    "80394e3ceb0d1fa5fe0f097f5b4757223523dabb8a7e2b0e" \
    "5ea334528452c0543f30e98138cda5e050ead6bb9e3c5c8b"
#define UPDATE_PCR2 \
    "04e178743c81f17d3bacb3f99066cf683ae664bde5e87694" \
    "0c7891ef4d75660877033a2022e72d5c1bbed68cb96a8092"
#define UPDATE_PCR3 \
    "577b7580f2ba97a41cb242a79c2de62cc97aae54a9a4f243" \
    "755c8eaf5cf57b9e9e22c388e503cffe1b06e061907e221a"
#define UPDATE_CUMULATIVE \
    "0e4d7d59faa9d4d50dfba67ac56466f1edec54f8c7aa2dd5" \
    "1318b221a41e0386b9c870c2ee7478c44752a27ef9ea411b"
#define EXTENDED_ONCE \
    "698aa835f229bcdf213933d7c8e1c2fa58c51fd9aa0680eb" \
    "63bc13d039dee5e8d41f7fd033da6f8079cc1c9c5da2c49b"
#define EXTENDED_TWICE \
    "f91a2bdf761107e2b2787ce2d9fa2fcc279d1808535bca1e" \
    "97f9091dc5efa489227946767b530c118c2179665438164d"
#define ALONE_PCR \
    "c7304e0aec48bbbc703c099b425485b7a60e19b6a83630b0" \
    "fb558ce2f02ec41e4cdf205335b4b613b3537ad83eb62262"
#define ALONE_CUMULATIVE \
    "90e12f80ae975da76b38a0aea79c903914e2d1dc98a6aa06" \
    "b79e2b97a0bdae3c8130e1795c45d28396a92f234b2c0050"
#define ALONE_UPDATE_PCR3 \
    "cbc44656c3615d68e8a06432dc8aa7430c7465424a7bf33f" \
    "b90db6e943e383ac943ec33e18eebe648e1ad241a6d48fbe"
#define ALONE_UPDATE_CUMULATIVE \
    "b9d77c2cfe30f50a923689b73b22b622e9ddbaf1d615d4ce" \
    "43d351fe1e2f0f5db53adbd534e9483e71a9fcd20026c6e0"

/* Whether the twelve words of the image from `at` on are that digest: a word's lowest byte first. */
static bool holds_digest(size_t at, const char *hex)
{
    char found[2 * DIGEST + 1];
    for (size_t i = 0; i < DIGEST; i++)
        (void)snprintf(found + 2 * i, 3, "%02x", (unsigned)(image[at + i / 4] >> (8 * (i % 4)) & 0xFFU));
    return strcmp(found, hex) == 0;
}

/* Puts a digest there. */
static void put_digest(size_t at, const char *hex)
{
    char byte[3] = {0};
    memset(image + at, 0, DIGEST);
    for (size_t i = 0; i < DIGEST; i++) {
        memcpy(byte, hex + 2 * i, 2);
        image[at + i / 4] |= (uint32_t)strtoul(byte, NULL, 16) << (8 * (i % 4));
    }
}

/* PCR2, PCR3, and current and cumulative of the root, which is node 0. */
static bool measured(const char *pcr2, const char *pcr3, const char *cumulative)
{
    return holds_digest(PCR(2), pcr2) && holds_digest(PCR(3), pcr3) && holds_digest(NODE(0) + CURRENT, pcr3) &&
           holds_digest(NODE(0) + CUMULATIVE, cumulative);
}

/* A boot whose digests are 48 times these bytes, run to its end. */
static bool boot_of(bool cold, uint8_t runtime_byte, uint8_t manifest_byte)
{
    uint32_t outcome = 99;
    memset(runtime, runtime_byte, DIGEST);
    memset(manifest, manifest_byte, DIGEST);
    return (cold ? cold_boot(&outcome) : update_boot(true, &outcome)) == WAGGLELOFT_OK &&
           run(SIZE_MAX) == KINDS[cold ? COLD : UPDATE].stores;
}

static void check_measured_boots(void)
{
    fill_words(image, IMAGE);
    check(boot_of(true, 0x11, 0x33) && measured(COLD_PCR, COLD_PCR, COLD_CUMULATIVE),
          "a cold boot measures runtime, then manifest");
    check(boot_of(false, 0x44, 0x55) && measured(UPDATE_PCR2, UPDATE_PCR3, UPDATE_CUMULATIVE),
          "an update measures runtime, then manifest: PCR2 from zero, PCR3 from its old value");
    check(boot_of(true, 0x33, 0x11) && holds_digest(PCR(2), EXCHANGED_PCR) && holds_digest(PCR(3), EXCHANGED_PCR),
          "exchanged digests are accepted and give other registers");
    put_digest(PCR(2), ALONE_PCR);
    put_digest(PCR(3), ALONE_PCR);
    put_digest(NODE(0) + CURRENT, ALONE_PCR);
    put_digest(NODE(0) + CUMULATIVE, ALONE_CUMULATIVE);
    check(boot_of(false, 0x44, 0x55) && measured(UPDATE_PCR2, ALONE_UPDATE_PCR3, ALONE_UPDATE_CUMULATIVE),
          "an update goes on from PCR3 and the root, whatever they were extended by");
    fill_bytes(runtime, DIGEST);
    fill_bytes(manifest, DIGEST);
}

/* ---- lists ---- */

static void set_digest(uint8_t byte) { memset(request + 8, byte, DIGEST); }

/* What the stash of node i asks for: type and svn of its own; the digest is 48 times the byte i. */
#define TYPE_OF(i) (UINT32_C(0x41424300) + (i))
#define SVN_OF(i) (UINT32_C(0x01020304) * (i))

/* A cold boot and stashes until so many nodes are used: a chain, each node hanging on the one before. */
static bool filled(uint32_t nodes)
{
    bool all = true;
    fresh();
    for (uint32_t i = 1; i < nodes; i++) {
        put_number(4, TYPE_OF(i));
        set_digest((uint8_t)i);
        put_number(56, SVN_OF(i));
        all = open_stash() && run(SIZE_MAX) == STASH_STORES && all;
    }
    return all;
}

/* ---- extensions ---- */

/*
 * An extension of the register by 48 times that byte, run to its end: it then is that digest, and all else as before.
 * The register is overwritten after the opening, which has prepared the value.
 */
static bool extends_to(uint32_t number, uint8_t byte, const char *hex)
{
    set_digest(byte);
    remember();
    bool holds = extend(number) == WAGGLELOFT_OK && image_same();
    put_digest(PCR(number), hex);
    remember();
    memset(image + PCR(number), 0xEE, DIGEST);
    return holds && run(SIZE_MAX) == KINDS[EXTENSION].stores && image_same();
}

/* An extension is refused with that number, and nothing is written. */
static bool extend_refused(uint32_t register_number, uint32_t number)
{
    remember();
    return extend(register_number) == number && image_same() && work_same();
}

static const uint32_t NO_REGISTERS[] = {0, 1, 2, 3, 31, 32, 36, 0xFF, 0x104, 0x11E, 0x10004, 0x4000000, 0x80000004, UINT32_MAX};

static bool others_refused(void)
{
    bool all = true;
    for (size_t i = 0; i < COUNT(NO_REGISTERS); i++)
        all = extend_refused(NO_REGISTERS[i], WAGGLELOFT_WRONG_REGISTER) && all;
    return all;
}

static void check_extensions(void)
{
    bool all = true;
    for (uint32_t number = 4; number <= 30; number++) {
        fresh();
        all = extends_to(number, 0x66, EXTENDED_ONCE) && extends_to(number, 0x77, EXTENDED_TWICE) && all;
        all = open_update() && run(SIZE_MAX) == KINDS[UPDATE].stores && holds_digest(PCR(number), EXTENDED_TWICE) && all;
        all = open_stash() && run(SIZE_MAX) == KINDS[STASH].stores && holds_digest(PCR(number), EXTENDED_TWICE) && all;
    }
    check(all, "registers 4 to 30 are extended by the digest, and kept by an update and a stash");
    check(image[PCR(30)] != 0 && open_cold() && run(SIZE_MAX) == KINDS[COLD].stores && image[PCR(30)] == 0,
          "a register is zero after a cold boot");
    check(others_refused(), "every other register gets 12");
}

/* Attestation is off by any value but 1: 12 is told before 13. */
static void check_extensions_off(void)
{
    static const uint32_t off[] = {0, 2, 0x101, 0x80000001, UINT32_MAX};
    bool all = true;
    fresh();
    for (size_t i = 0; i < COUNT(off); i++) {
        image[1] = off[i];
        for (uint32_t number = 4; number <= 30; number++)
            all = extend_refused(number, WAGGLELOFT_ATTESTATION_OFF) && all;
        all = others_refused() && all;
    }
    check(all, "with attestation off registers 4 to 30 get 13, every other one 12");
    fresh();
    check(open_disabling() && run(SIZE_MAX) == KINDS[DISABLING].stores && extend_refused(4, WAGGLELOFT_ATTESTATION_OFF),
          "13 after a disable command");
}

/* A request with every fault; they are mended one after the other, and each time the next is told. */
static void check_order_of_extension(void)
{
    uint32_t code = 0;
    size_t len = 55, words = IMAGE - 1;
    bool all = true;
    fresh();
    put_number(4, 31);
    put_number(0, waggleloft_checksum(WAGGLELOFT_EXTEND_PCR, request + 4, 52) + 1);
    image[0] = 2;
    image[1] = 0;
    image[NODE(0)] = UINT32_MAX;
    static const uint32_t order[] = {WAGGLELOFT_WRONG_IMAGE, WAGGLELOFT_UNFINISHED, WAGGLELOFT_UNKNOWN_CODE, WAGGLELOFT_WRONG_LENGTH,
                                     WAGGLELOFT_BAD_CHECKSUM, WAGGLELOFT_WRONG_REGISTER, WAGGLELOFT_ATTESTATION_OFF, WAGGLELOFT_OK};
    for (size_t i = 0; i < COUNT(order); i++) {
        uint8_t *bytes = lent(len, 1);
        memcpy(bytes, request, len);
        remember();
        all = all && waggleloft_open_request(image, words, code, bytes, len, 7, none, 0, false, none, 0, work, WORK) == order[i];
        all = all && image_same() && work_same() == (order[i] != WAGGLELOFT_OK);
        free(bytes);
        switch (order[i]) {
        case WAGGLELOFT_WRONG_IMAGE: words = IMAGE; break;
        case WAGGLELOFT_UNFINISHED: image[0] = 1; break;
        case WAGGLELOFT_UNKNOWN_CODE: code = WAGGLELOFT_EXTEND_PCR; break;
        case WAGGLELOFT_WRONG_LENGTH: len = 56; break;
        case WAGGLELOFT_BAD_CHECKSUM: set_checksum(code, len); break;
        case WAGGLELOFT_WRONG_REGISTER: put_number(4, 4); set_checksum(code, len); break;
        default: image[1] = 1; break;
        }
    }
    check(all, "the order of an extension's refusals: 1, 2, 3, 4, checksum, 12, 13");
}

/* The nodes are not looked at. */
static void check_extensions_and_nodes(void)
{
    bool all = true;
    fresh();
    for (uint32_t i = 0; i < 50; i++) {
        fill_words(image + NODE(0), i == 0 ? 1 : IMAGE - NODE(0));
        memset(image + PCR(4), 0, DIGEST);
        all = ask(WAGGLELOFT_STASH_MEASUREMENT, 60) == WAGGLELOFT_NOT_WELL_FORMED && extends_to(4, 0x66, EXTENDED_ONCE) && all;
    }
    check(all, "an extension on nodes that are not well formed");
    check(filled(NODES) && extends_to(4, 0x66, EXTENDED_ONCE) && extends_to(30, 0x66, EXTENDED_ONCE), "an extension with all nodes used");
}

/* The words of an extension's work just opened. */
static void check_words_of_extension(void)
{
    fresh();
    set_digest(0x66);
    put_digest(PCR(5), EXTENDED_ONCE);
    remember();
    memset(work_before, 0, WORK * sizeof *work);
    work_before[KIND_IN] = EXTENSION;
    work_before[FIRST_IN] = 4;
    work_before[LENGTH_IN] = 8;
    memcpy(work_before + REGISTER_IN, image + PCR(5), DIGEST);
    memset(work_before + INPUTS_IN, 0x66, DIGEST);
    check(extend(4) == WAGGLELOFT_OK && work_same(), "the words of an extension: kind 5, its register, its value, its answer, its digest");
}

/* The work in hand has no store left, no answer and no entry, and its refused calls write nothing. */
static bool damaged(void)
{
    size_t written = 99;
    remember();
    return waggleloft_left(work, WORK) == 0 && waggleloft_store(work, WORK, image, IMAGE) == WAGGLELOFT_NO_STORE_LEFT &&
           waggleloft_answer(work, WORK, buffer, LONGEST, &written) == WAGGLELOFT_STORES_LEFT &&
           waggleloft_entry(work, WORK, buffer, LONGEST, &written) == WAGGLELOFT_STORES_LEFT && written == 99 && image_same() &&
           work_same() && buffer_same();
}

/* An extension of register 17 in hand, `made` of its stores made. */
static bool extension_at(size_t made)
{
    fresh();
    set_digest(0x66);
    return open_extension() && run(made) == made;
}

/* Its register is moved there: what was made stays, and the rest goes to the other register. */
static bool moved_within(size_t made, uint32_t number)
{
    bool holds = extension_at(made);
    uint32_t *value = lent(12, sizeof *value);
    memcpy(value, work + REGISTER_IN, DIGEST);
    remember();
    work[FIRST_IN] = number;
    size_t there = made == 0 ? 0 : made - 1 < 12 ? made - 1 : 12;
    memcpy(image_before + PCR(number) + there, value + there, (12 - there) * sizeof *value);
    image_before[0] = 1;
    holds = holds && run(SIZE_MAX) == KINDS[EXTENSION].stores - made && image_same() && answer_holds(8, WAGGLELOFT_OK, 8);
    free(value);
    return holds;
}

static bool moved_outside(size_t made, uint64_t number)
{
    bool holds = extension_at(made);
    work[FIRST_IN] = (uint32_t)(number & UINT32_MAX);
    work[FIRST_IN + 1] = (uint32_t)(number >> 32);
    return holds && damaged();
}

/* Before the first store, after each, and after the last. */
static void check_moved_registers(void)
{
    static const uint32_t within_registers[] = {4, 5, 16, 17, 18, 23, 24, 29, 30};
    static const uint64_t outside[] = {0, 3, 31, 32, 0x104, UINT32_MAX, UINT64_C(0x100000004), UINT64_C(0x10000001E),
                                       UINT64_C(0x8000000000000004), UINT64_MAX};
    bool all = true;
    for (size_t made = 0; made <= KINDS[EXTENSION].stores; made++)
        for (size_t i = 0; i < COUNT(within_registers); i++)
            all = moved_within(made, within_registers[i]) && all;
    check(all, "an extension whose register is moved within 4 to 30 stores its value there");
    all = true;
    for (size_t made = 0; made <= KINDS[EXTENSION].stores; made++)
        for (size_t i = 0; i < COUNT(outside); i++)
            all = moved_outside(made, outside[i]) && all;
    check(all, "an extension whose register is moved outside has 0 left, 9 and 7");
}

/* Numbers that no kind has. */
static void check_no_kinds(void)
{
    static const uint32_t kinds[] = {NO_KIND, NO_KIND + 1, 0xFF, 0x105, 0x80000005, UINT32_MAX};
    static const size_t made[] = {0, 7, 14};
    bool all = true;
    for (size_t i = 0; i < COUNT(kinds); i++) {
        for (size_t k = 0; k < COUNT(made); k++) {
            all = extension_at(made[k]) && all;
            work[KIND_IN] = kinds[i];
            all = damaged() && all;
        }
    }
    check(all, "11 and above are no kinds: 0 left, 9 and 7");
}

/* ---- the svn of a node ---- */

/* A stash of type "HOUR", 48 times 0x66 and that svn. */
static bool open_svn(uint32_t svn)
{
    memcpy(request + 4, "HOUR", 4);
    set_digest(0x66);
    put_number(56, svn);
    return open_stash();
}

static bool stashes(uint32_t svn) { return open_svn(svn) && run(SIZE_MAX) == STASH_STORES; }

/* What that stash makes of an image just booted: PCR31, node 1 below the root, and the root's handle. */
static void put_stashed(uint32_t svn)
{
    uint32_t *node = image + NODE(1);
    put_digest(PCR(31), EXTENDED_ONCE);
    memset(node, 0, NODE_WORDS * sizeof *node);
    node[0] = 1;
    memset(node + CURRENT, 0x66, DIGEST);
    put_digest(NODE(1) + CUMULATIVE, EXTENDED_ONCE);
    node[TYPE] = 0x52554F48; /* "HOUR", the first byte lowest */
    node[LOCALITY] = 7;
    node[SVN] = svn;
    memset(image + NODE(0) + HANDLE, 0xFF, 20);
}

/* A stash run to its end: its words are overwritten after the opening, which has prepared the values. */
static bool stash_holds(uint32_t svn)
{
    fresh();
    bool holds = open_svn(svn);
    put_stashed(svn);
    remember();
    memset(image + PCR(31), 0xEE, DIGEST);
    memset(image + NODE(1), 0xEE, NODE_WORDS * sizeof *image);
    memset(image + NODE(0) + HANDLE, 0xEE, 20);
    return holds && run(SIZE_MAX) == STASH_STORES && image_same();
}

static void check_stashed_svn(void)
{
    fill_words(image, IMAGE);
    fresh();
    check(image[NODE(0) + SVN] == 0, "the root's svn after a cold boot");
    check(stash_holds(0x04030201) && image[NODE(1) + SVN] == 0x04030201, "every word of a stash's node, the svn its last");
    check(stash_holds(0) && stash_holds(UINT32_MAX), "an svn may be any number");
}

/* The words of a stash's work just opened. */
static void check_words_of_stash(void)
{
    fresh();
    remember();
    put_stashed(0x04030201);
    memset(work_before, 0, WORK * sizeof *work);
    work_before[KIND_IN] = STASH;
    work_before[FIRST_IN] = 1;
    work_before[LENGTH_IN] = 12;
    memcpy(work_before + REGISTER_IN, image + PCR(31), DIGEST);
    memcpy(work_before + NODE_IN, image + NODE(1), NODE_WORDS * sizeof *image);
    memset(work_before + INPUTS_IN, 0x66, DIGEST);
    memcpy(image, image_before, IMAGE * sizeof *image);
    check(open_svn(0x04030201) && work_same(), "the words of a stash: kind 2, node and old holder, PCR31, the node, its answer, its digest");
}

/* The nodes are not well formed: a stash gets 11, and an update boot of either verdict would disable. */
static bool malformed(void)
{
    remember();
    return ask(WAGGLELOFT_STASH_MEASUREMENT, 60) == WAGGLELOFT_NOT_WELL_FORMED && image_same() && work_same() &&
           would(true, WAGGLELOFT_DISABLED) && would(false, WAGGLELOFT_DISABLED);
}

/* An update boot switches attestation off. */
static bool switches_off(void)
{
    uint32_t outcome = 99;
    return update_boot(true, &outcome) == WAGGLELOFT_OK && outcome == WAGGLELOFT_DISABLED && run(SIZE_MAX) == DISABLING_STORES &&
           image[1] == 0 && erased();
}

/* A free node with one word that is not zero. */
static bool free_word_holds(uint32_t index, uint32_t word, uint32_t value)
{
    image[NODE(index) + word] = value;
    bool holds = malformed();
    image[NODE(index) + word] = 0;
    return holds;
}

static void check_free_svn(void)
{
    static const uint32_t values[] = {1, 0x01000000, UINT32_MAX};
    bool svns = true, others = true;
    fresh();
    for (uint32_t index = 1; index < NODES; index++) {
        for (size_t i = 0; i < COUNT(values); i++)
            svns = free_word_holds(index, SVN, values[i]) && svns;
        for (uint32_t word = 1; word < NODE_WORDS; word++)
            others = free_word_holds(index, word, 1) && others;
    }
    check(svns, "a free node with an svn is not well formed");
    check(others, "a free node is zero in every word");
    image[NODE(NODES - 1) + SVN] = 1;
    check(switches_off(), "and an update boot switches attestation off");
}

/* Of a used node any svn is fine, the root's too; an update leaves it. */
static void check_used_svn(void)
{
    static const uint32_t svns[] = {0, 1, 0x4D4A5452, 0x80000000, UINT32_MAX};
    bool all = true;
    for (size_t i = 0; i < COUNT(svns); i++) {
        fresh();
        all = stashes(5) && all;
        image[NODE(0) + SVN] = svns[i];
        image[NODE(1) + SVN] = ~svns[i];
        all = open_update() && run(SIZE_MAX) == UPDATE_STORES && stashes(6) && all;
        all = image[NODE(0) + SVN] == svns[i] && image[NODE(1) + SVN] == ~svns[i] && image[NODE(2) + SVN] == 6 && all;
    }
    check(all, "a used node may have any svn, and an update leaves the root's");
    check(open_cold() && run(SIZE_MAX) == COLD_STORES && image[NODE(0) + SVN] == 0, "a cold boot does not");
}

/* A stash cut after so many stores, then an update boot; what it comes to. */
static uint32_t outcome_of_cut(size_t cut)
{
    uint32_t outcome = 99;
    fresh();
    bool holds = open_svn(0x04030201) && run(cut) == cut && update_boot(true, &outcome) == WAGGLELOFT_OK;
    run(SIZE_MAX);
    return holds ? outcome : 99;
}

static void check_cut_svn(void)
{
    check(outcome_of_cut(1) == WAGGLELOFT_DISABLED && image[1] == 0, "card 12: off after store 1");
    check(outcome_of_cut(STASH_STORES - 1) == WAGGLELOFT_DISABLED && image[1] == 0, "card 12: off after store 53");
    check(outcome_of_cut(STASH_STORES) == WAGGLELOFT_UPDATED && image[1] == 1 && image[NODE(1) + SVN] == 0x04030201,
          "card 12: on after store 54, with the svn in the list");
}

/* ---- lists of every node ---- */

/* No node is free: a stash is declined with 1, and nothing is stored. */
static bool full(void)
{
    const uint8_t declined[12] = {0xFF, 0xFF, 0xFF, 0xFF, 0, 0, 0, 0, 1};
    remember();
    return open_stash() && waggleloft_left(work, WORK) == 0 && answers(declined, sizeof declined) && image_same();
}

static void check_last_node(void)
{
    bool one_free = filled(NODES - 1) && image[NODE(NODES - 1)] == 0;
    check(one_free && open_stash() && run(SIZE_MAX) == STASH_STORES && image[NODE(NODES - 1)] == USED_ON(NODES - 2),
          "card 9: with one node free a stash takes it, the last node");
    check(full(), "card 9: with none free a stash is declined with 1, and nothing is stored");
}

/* What a reader finds at node i of a filled list. */
static bool legible(uint32_t i)
{
    const uint32_t *node = image + NODE(i);
    bool all = node[0] == USED_ON(i - 1) && node[TYPE] == TYPE_OF(i) && node[LOCALITY] == 7 && node[SVN] == SVN_OF(i);
    for (size_t k = 0; k < 12; k++)
        all = all && node[CURRENT + k] == UINT32_C(0x01010101) * i;
    return all;
}

/* The longest way to the root: a chain through every node is well formed, and an update leaves it. */
static void check_longest_chain(void)
{
    bool all = filled(NODES) && would(false, WAGGLELOFT_KEPT) && open_update() && run(SIZE_MAX) == UPDATE_STORES && full();
    check(all, "a chain through every node is kept and updated");
    all = image[NODE(0)] == USED_ON(NO_PARENT) && image[NODE(0) + SVN] == 0;
    for (uint32_t i = 1; i < NODES; i++)
        all = legible(i) && all;
    check(all, "every node has its parent, type, digest, caller's number and svn, also after an update");
}

/* Every node changes its place, node 0 with the last and so on; the parents name the new places. */
static void mirror(void)
{
    remember();
    for (uint32_t i = 0; i < NODES; i++) {
        const uint32_t *from = image_before + NODE(NODES - 1 - i);
        uint32_t parent = from[0] >> 16;
        memcpy(image + NODE(i), from, NODE_WORDS * sizeof *from);
        if ((from[0] & 0xFFFF) == 1 && parent != NO_PARENT)
            image[NODE(i)] = USED_ON(NODES - 1 - parent);
    }
}

/* A work on the mirrored list makes the mirror of what it makes on the list itself. */
static bool mirrored(uint32_t nodes, uint32_t kind)
{
    uint32_t *expected = lent(IMAGE, sizeof *expected);
    bool holds = filled(nodes) && KINDS[kind].open() && run(SIZE_MAX) == KINDS[kind].stores;
    mirror();
    memcpy(expected, image, IMAGE * sizeof *image);
    holds = filled(nodes) && holds;
    mirror();
    holds = holds && KINDS[kind].open() && run(SIZE_MAX) == KINDS[kind].stores && memcmp(image, expected, IMAGE * sizeof *image) == 0;
    free(expected);
    return holds;
}

static void check_mirrored(void)
{
    check(mirrored(NODES, UPDATE) && image[NODE(NODES - 1)] == USED_ON(NO_PARENT) && image[NODE(0)] == USED_ON(1) &&
              work[FIRST_IN] == NODES - 1 && full(),
          "the root at the last node, each parent the next higher: an update renews the root there");
    check(mirrored(NODES - 1, STASH) && image[NODE(0)] == USED_ON(1), "and a stash takes node 0, the free one");
    check(mirrored(NODES - 1, DERIVE) && image[NODE(0)] == USED_ON(1) && work[FIRST_IN] == 0, "so does a derive");
    check(mirrored(NODES - 1, EXTEND) && work[FIRST_IN] == 0 && mirrored(NODES - 1, ROTATE) && work[FIRST_IN] == 0 &&
              mirrored(NODES - 1, DESTROY) && work[NODE_IN] == 0 && image[NODE(0)] == 0,
          "where it is extended, rotated and destroyed");
}

/* Node `index` of the list in hand hangs on `parent`: not well formed; then it is as before. */
static bool malformed_on(uint32_t index, uint32_t parent)
{
    uint32_t before = image[NODE(index)];
    image[NODE(index)] = USED_ON(parent);
    bool holds = malformed();
    image[NODE(index)] = before;
    return holds;
}

/* With every node used, and with one free. */
static void check_wrong_ways(void)
{
    static const uint32_t parents[] = {NODES, NODES + 1, NO_PARENT - 1, NO_PARENT, NO_PARENT + 1, 0x1FF, 0x8000, 0xFFFF};
    bool cycles = true, past = true;
    for (uint32_t nodes = NODES - 1; nodes <= NODES; nodes++) {
        past = filled(nodes) && past;
        for (uint32_t index = 1; index < nodes; index++) {
            cycles = malformed_on(index, nodes - 1) && cycles;
            for (size_t i = 0; i < COUNT(parents); i++)
                past = malformed_on(index, parents[i]) && past;
        }
    }
    check(cycles, "a cycle of the last nodes, of each length from 1 on, is not well formed");
    check(past, "nor is a parent past the last node, at any node");
    check(filled(NODES - 1) && malformed_on(NODES - 2, NODES - 1), "nor is one that is free");
    image[NODE(NODES - 3)] = USED_ON(NODES - 2);
    check(switches_off(), "an update boot on a cycle switches attestation off");
    bool all = filled(NODES);
    image[NODE(NODES - 1)] = USED_ON(NODES);
    check(all && switches_off(), "and so on a parent past the last node");
}

/* ---- the tree ---- */

/* All stores of a command on behalf of the caller whose node has that handle; SIZE_MAX if it is not opened. */
static size_t served(const uint8_t *handle) { return invoke_by(handle) ? run(SIZE_MAX) : SIZE_MAX; }

/* The command that stands in the request is declined with that dpe result, and nothing is stored. */
static bool declined(uint32_t result)
{
    uint8_t expected[12] = {0};
    expected[8] = (uint8_t)result;
    for (size_t i = 0; i < 4; i++)
        expected[i] = (uint8_t)((0 - result) >> (8 * i) & 0xFFU);
    remember();
    return invoke() == WAGGLELOFT_OK && waggleloft_left(work, WORK) == 0 && answers(expected, sizeof expected) && image_same();
}

/* The words of a work just opened that has the node's words and the inputs alone. */
static void expect_words(uint32_t kind, uint32_t first, uint32_t second, const uint32_t *node, uint8_t digest, const uint8_t *handle)
{
    memset(work_before, 0, WORK * sizeof *work);
    work_before[KIND_IN] = kind;
    work_before[FIRST_IN] = first;
    work_before[SECOND_IN] = second;
    work_before[LENGTH_IN] = 12;
    memcpy(work_before + NODE_IN, node, NODE_WORDS * sizeof *node);
    memset(work_before + INPUTS_IN, digest, DIGEST);
    memcpy(work_before + INPUTS_IN + DIGEST / 4, handle, HANDLE_LEN);
    memcpy(work_before + INPUTS_IN + (DIGEST + HANDLE_LEN) / 4, lent_handle, lent_len);
}

/* A node below the root, with svn 0, derived by caller 0. */
static void derived_node(uint32_t *node, const uint8_t *handle, uint32_t type, uint8_t byte, const char *cumulative)
{
    remember();
    put_digest(0, cumulative);
    memset(node, 0, NODE_WORDS * sizeof *node);
    node[0] = USED_ON(0);
    memcpy(node + HANDLE, handle, HANDLE_LEN);
    memset(node + CURRENT, byte, DIGEST);
    memcpy(node + CUMULATIVE, image, DIGEST);
    node[TYPE] = type;
    memcpy(image, image_before, IMAGE * sizeof *image);
}

static void check_words_of_tree(void)
{
    uint32_t node[NODE_WORDS] = {0}, other[NODE_WORDS] = {0};
    uint8_t first[HANDLE_LEN];
    fresh();
    for (uint32_t retain = 0; retain <= 1; retain++) {
        derive_of(DEFAULT, retain, 300, 0x66);
        bool opened = invoke_with_fresh(DEFAULT);
        derived_node(node, child, 300, 0x66, EXTENDED_ONCE);
        expect_words(retain == 1 ? DERIVE : REPLACE, 1, 0, node, 0x66, DEFAULT);
        check(opened && work_same(), retain == 1 ? "the words of a derive: kind 6, its node, the child, digest and handles"
                                                 : "the words of a derive without retain: kind 7");
    }
    check(open_derive() && run(SIZE_MAX) == RETAINING_STORES, "a child");
    memcpy(first, child, HANDLE_LEN);
    extend_of(first, 0x77);
    lend_nothing();
    bool opened = invoke_by(first);
    derived_node(other, DEFAULT, 0, 0x77, EXTENDED_TWICE);
    other[0] = 0;
    expect_words(EXTEND, 1, 0, other, 0x77, first);
    check(opened && work_same(), "the words of an extend: kind 8, its node, both measurements");
    opened = open_rotate();
    memset(node, 0, sizeof node);
    memcpy(node + HANDLE, child, HANDLE_LEN);
    expect_words(ROTATE, 1, 0, node, 0, first);
    check(opened && work_same(), "the words of a rotate: kind 9, its node, the fresh handle");
    memcpy(child, first, HANDLE_LEN);
    opened = open_destroy();
    memset(node, 0, sizeof node);
    node[0] = 1;
    expect_words(DESTROY, 1, 0, node, 0, first);
    check(opened && work_same(), "the words of a destroy: kind 10, how many nodes it frees, their indices");
}

/* What each command makes of the nodes, worked out by hand; PCR31 stays. */
static void check_tree_nodes(void)
{
    uint32_t node[NODE_WORDS];
    uint8_t first[HANDLE_LEN];
    fresh();
    derive_of(DEFAULT, 1, 300, 0x66);
    bool all = invoke_with_fresh(DEFAULT);
    memcpy(first, child, HANDLE_LEN);
    derived_node(node, first, 300, 0x66, EXTENDED_ONCE);
    remember();
    memcpy(image_before + NODE(1), node, sizeof node);
    check(all && run(SIZE_MAX) == RETAINING_STORES && image_same(), "a derive stores the child alone");
    extend_of(first, 0x77);
    derived_node(node, first, 300, 0x77, EXTENDED_TWICE);
    all = invoke_by(first);
    remember();
    memcpy(image_before + NODE(1), node, sizeof node);
    check(all && run(SIZE_MAX) == EXTEND_STORES && image_same(), "an extend its two measurements");
    all = open_rotate();
    remember();
    memcpy(image_before + NODE(1) + HANDLE, child, HANDLE_LEN);
    check(all && run(SIZE_MAX) == ROTATE_STORES && image_same(), "a rotate its handle");
    command(WAGGLELOFT_TREE_DESTROY, first);
    caller = 0;
    check(declined(WAGGLELOFT_DPE_UNKNOWN_HANDLE), "and the old handle is nobody's");
    caller = 7;
    all = open_destroy();
    remember();
    memset(image_before + NODE(1), 0, sizeof node);
    check(all && run(SIZE_MAX) == DESTROY_STORES(1) && image_same(), "a destroy frees it");
    all = open_replace();
    remember();
    check(all && run(SIZE_MAX) == RETIRING_STORES && memcmp(image + NODE(1) + HANDLE, RETIRED, HANDLE_LEN) == 0 &&
              image[NODE(2)] == USED_ON(1) && memcmp(image + PCR(31), image_before + PCR(31), DIGEST) == 0,
          "a derive without retain retires the parent's handle, and PCR31 stays");
}

/* A cold boot and so many nodes below the root, each derived without retain below the one before. */
static bool chained(uint32_t children)
{
    bool all = true;
    fresh();
    memcpy(child, DEFAULT, HANDLE_LEN);
    for (uint32_t i = 0; i < children; i++)
        all = open_replace() && run(SIZE_MAX) == RETIRING_STORES && all;
    return all;
}

/* Destroying the end of a chain of every length: every store, from the end upwards; all but the root is free. */
static void check_destroyed_chains(void)
{
    bool all = true;
    for (uint32_t children = 1; children < NODES; children++) {
        all = chained(children) && open_destroy() && waggleloft_left(work, WORK) == DESTROY_STORES(children) && all;
        for (uint32_t i = 0; i < children; i++)
            all = work[NODE_IN + i] == children - i && all;
        for (size_t i = 0; i <= DESTROY_STORES(children); i++)
            all = store_holds() && all;
        for (size_t at = NODE(1); at < IMAGE; at++)
            all = image[at] == 0 && all;
        all = would(true, WAGGLELOFT_UPDATED) && all;
    }
    check(all, "a destroy frees a chain of every length, upwards, but not the root");
    uint8_t no_holder[12] = {0xFD, 0xFF, 0xFF, 0xFF, 0, 0, 0, 0, WAGGLELOFT_DPE_NO_HOLDER};
    check(open_stash() && answers(no_holder, sizeof no_holder), "and no handle is live: a stash gets 3");
    caller = 0;
    command(WAGGLELOFT_TREE_ROTATE, RETIRED);
    check(declined(WAGGLELOFT_DPE_UNKNOWN_HANDLE), "and a command 6");
    caller = 7;
}

/* Cuts of the longest destroy, of 31 nodes: each of its first and last stores, and some between. */
static void check_cut_chain(void)
{
    bool all = true;
    for (size_t cut = 0; cut <= DESTROY_STORES(NODES - 1); cut += cut < 40 || cut > DESTROY_STORES(NODES - 1) - 40 ? 1 : 13) {
        bool on = cut == 0 || cut == DESTROY_STORES(NODES - 1);
        all = chained(NODES - 1) && open_destroy() && run(cut) == cut && all;
        all = would(true, on ? WAGGLELOFT_UPDATED : WAGGLELOFT_DISABLED) && all;
        if (cut > DESTROY_STORES(NODES - 1) - 13 && cut < DESTROY_STORES(NODES - 1) - 1)
            all = switches_off() && all;
    }
    check(all, "cuts of a destroy of 31 nodes");
}

/* It stops at a node that is live and at one with another child; freed nodes serve again, the lowest first. */
static void check_stopped_destroys(void)
{
    uint8_t live[HANDLE_LEN], other[HANDLE_LEN];
    bool all = chained(2);
    memcpy(live, child, HANDLE_LEN);
    derive_of(live, 1, 1, 0x66);
    all = invoke_with_fresh(live) && run(SIZE_MAX) == RETAINING_STORES && all;
    check(all && open_destroy() && run(SIZE_MAX) == DESTROY_STORES(1) && image[NODE(2)] == USED_ON(1), "a destroy stops at a live node");
    derive_of(live, 1, 1, 0x66);
    all = invoke_with_fresh(live) && run(SIZE_MAX) == RETAINING_STORES && image[NODE(3)] == USED_ON(2);
    memcpy(other, child, HANDLE_LEN);
    derive_of(live, 0, 1, 0x66);
    all = invoke_with_fresh(live) && run(SIZE_MAX) == RETIRING_STORES && image[NODE(4)] == USED_ON(2) && all;
    command(WAGGLELOFT_TREE_DESTROY, other);
    check(all && served(other) == DESTROY_STORES(1) && image[NODE(2)] == USED_ON(1), "and at one with another child");
    check(open_destroy() && run(SIZE_MAX) == DESTROY_STORES(3) && image[NODE(1)] == 0 && image[NODE(4)] == 0 && image[NODE(0)] == USED_ON(NO_PARENT),
          "but the last one takes them along");
}

/* A cold boot and so many children of the root. */
static bool starred(uint32_t children)
{
    bool all = true;
    fresh();
    for (uint32_t i = 0; i < children; i++)
        all = open_derive() && run(SIZE_MAX) == RETAINING_STORES && all;
    return all;
}

static void check_reuse(void)
{
    static const uint32_t freed[] = {20, 5, 31}, lowest[] = {5, 20, 31};
    uint8_t handle[HANDLE_LEN];
    bool all = starred(NODES - 1);
    caller = 0;
    derive_of(DEFAULT, 1, 1, 0x66);
    lend_fresh();
    check(all && declined(WAGGLELOFT_DPE_NO_FREE_NODE), "a derive with all nodes used gets 1");
    for (size_t i = 0; i < COUNT(freed); i++) {
        memcpy(handle, image + NODE(freed[i]) + HANDLE, HANDLE_LEN);
        command(WAGGLELOFT_TREE_DESTROY, handle);
        all = served(handle) == DESTROY_STORES(1) && image[NODE(freed[i])] == 0 && all;
    }
    for (size_t i = 0; i < COUNT(lowest); i++)
        all = open_derive() && work[FIRST_IN] == lowest[i] && run(SIZE_MAX) == RETAINING_STORES && all;
    check(all && would(true, WAGGLELOFT_UPDATED), "freed nodes serve again, the lowest first");
    caller = 7;
}

/* A request with every fault; they are mended one after the other, and each time the next is told. */
static void check_order_of_declines(void)
{
    uint8_t unknown[HANDLE_LEN];
    bool all = starred(NODES - 1);
    memset(unknown, 0x11, sizeof unknown);
    uint32_t on = image[1], parent = image[NODE(31)];
    image[1] = 0;
    image[NODE(31)] = USED_ON(31);
    derive_of(unknown, 1, 1, 0x66);
    append_byte(0);
    lend_nothing();
    all = declined(WAGGLELOFT_DPE_OFF) && all;
    image[1] = on;
    remember();
    all = invoke() == WAGGLELOFT_NOT_WELL_FORMED && image_same() && work_same() && all;
    image[NODE(31)] = parent;
    all = declined(WAGGLELOFT_DPE_WRONG_DATA) && all;
    derive_of(unknown, 1, 1, 0x66);
    all = declined(WAGGLELOFT_DPE_UNKNOWN_HANDLE) && all;
    derive_of(child, 1, 1, 0x66);
    all = declined(WAGGLELOFT_DPE_OTHER_CALLER) && all;
    caller = 0;
    all = declined(WAGGLELOFT_DPE_WRONG_FRESH) && all;
    lend_fresh();
    all = declined(WAGGLELOFT_DPE_NO_FREE_NODE) && all;
    check(all, "the order of declines: 2, refusal 11, 5, 6, 7, 8, 1");
    command(WAGGLELOFT_TREE_DESTROY, DEFAULT);
    all = declined(WAGGLELOFT_DPE_ROOT);
    extend_of(DEFAULT, 0x66);
    check(declined(WAGGLELOFT_DPE_ROOT) && all, "the root is neither extended nor destroyed, with children or without");
    fresh();
    all = declined(WAGGLELOFT_DPE_ROOT);
    command(WAGGLELOFT_TREE_DESTROY, DEFAULT);
    check(declined(WAGGLELOFT_DPE_ROOT) && all, "nor a root alone");
    all = starred(1);
    derive_of(child, 1, 1, 0x66);
    lend_fresh();
    all = served(child) == RETAINING_STORES && all;
    command(WAGGLELOFT_TREE_DESTROY, child);
    check(all && declined(WAGGLELOFT_DPE_HAS_CHILDREN), "a node with children is not destroyed");
    caller = 7;
}

/* A derive and a rotate with that fresh handle get 8. */
static bool fresh_declined(const uint8_t *bytes, size_t len)
{
    lend(bytes, len);
    derive_of(child, 1, 1, 0x66);
    bool all = declined(WAGGLELOFT_DPE_WRONG_FRESH);
    command(WAGGLELOFT_TREE_ROTATE, child);
    return declined(WAGGLELOFT_DPE_WRONG_FRESH) && all;
}

static void check_fresh_handles(void)
{
    uint8_t bytes[64], used[HANDLE_LEN];
    bool all = starred(2);
    caller = 0;
    memcpy(used, image + NODE(1) + HANDLE, HANDLE_LEN);
    memset(bytes, 0x99, sizeof bytes);
    for (size_t len = 0; len <= sizeof bytes; len++)
        all = (len == HANDLE_LEN || fresh_declined(bytes, len)) && all;
    check(all, "a fresh handle of every other length gets 8");
    check(fresh_declined(DEFAULT, HANDLE_LEN) && fresh_declined(RETIRED, HANDLE_LEN), "so do the default and the retired one");
    check(fresh_declined(used, HANDLE_LEN) && fresh_declined(child, HANDLE_LEN), "and one that is in use, by another node or by this one");
    all = true;
    for (size_t len = 0; len <= sizeof bytes; len++) {
        all = starred(1) && all;
        lend(bytes, len);
        extend_of(child, 0x66);
        all = served(child) == EXTEND_STORES && all;
        lend(len == HANDLE_LEN ? RETIRED : bytes, len);
        command(WAGGLELOFT_TREE_DESTROY, child);
        all = served(child) == DESTROY_STORES(1) && all;
    }
    check(all, "an extend and a destroy take any");
    all = starred(1);
    for (size_t at = 0; at < HANDLE_LEN; at++) {
        /* One byte away from the default handle, from the retired one and from the one in use. */
        for (size_t k = 0; k < 3; k++) {
            memcpy(bytes, k == 0 ? DEFAULT : k == 1 ? RETIRED : child, HANDLE_LEN);
            bytes[at] ^= 0x10;
            lend(bytes, HANDLE_LEN);
            derive_of(DEFAULT, 1, 1, 0x66);
            all = served(DEFAULT) == RETAINING_STORES && all;
            command(WAGGLELOFT_TREE_DESTROY, bytes);
            all = served(bytes) == DESTROY_STORES(1) && all;
        }
    }
    check(all, "one byte makes another handle");
    caller = 7;
}

/* The data of a derive with these bytes as its numbers gets 5. */
static bool numbers_declined(const char *numbers, size_t len)
{
    command(WAGGLELOFT_TREE_DERIVE, child);
    append(numbers, len);
    append_digest(0x66);
    return declined(WAGGLELOFT_DPE_WRONG_DATA);
}

static void check_malformed_data(void)
{
    bool (*const opens[])(void) = {open_derive, open_extend, open_rotate, open_destroy};
    uint8_t first[HANDLE_LEN];
    bool all = starred(1), commands = true;
    memcpy(first, child, HANDLE_LEN);
    for (size_t i = 0; i < COUNT(opens); i++) {
        all = opens[i]() && all;
        memcpy(child, first, HANDLE_LEN);
        size_t whole = request_len;
        caller = 0;
        for (request_len = 8; request_len < whole; request_len++)
            all = declined(WAGGLELOFT_DPE_WRONG_DATA) && all;
        append_byte(0);
        all = declined(WAGGLELOFT_DPE_WRONG_DATA) && all;
        request_len = whole;
        for (uint32_t number = 0; number <= 0xFF; number++) {
            request[8] = (uint8_t)number;
            commands = ((number >= 1 && number <= 4) || declined(WAGGLELOFT_DPE_WRONG_DATA)) && commands;
        }
        caller = 7;
    }
    caller = 0;
    check(all, "data that is cut short anywhere, and a byte too many, get 5");
    check(commands, "so do commands other than 1 to 4");
    check(numbers_declined("\2\7", 2) && numbers_declined("\x80\1\7", 3), "so does a retain above 1");
    check(numbers_declined("\x81\0\7", 3) && numbers_declined("\1\x87\0", 3), "so does a number in a longer form");
    check(numbers_declined("\1\xFF\xFF\xFF\xFF\x10", 6) && numbers_declined("\1\xFF\xFF\xFF\xFF\x8F\0", 7), "so does one of more than 32 bits");
    command(WAGGLELOFT_TREE_DERIVE, child);
    append("\1\xFF\xFF\xFF\xFF\x0F", 6);
    append_digest(0x66);
    lend_fresh();
    check(served(child) == RETAINING_STORES && image[NODE(2) + TYPE] == UINT32_MAX, "the largest type does not");
    caller = 7;
}

/* The size and the request's length: 4, before the checksum. */
static bool size_refused(uint32_t size, size_t len)
{
    put_number(4, size);
    return request_refused(WAGGLELOFT_INVOKE_DPE_COMMAND, len, WAGGLELOFT_WRONG_LENGTH);
}

static void check_sizes_of_data(void)
{
    bool all = true;
    fresh();
    for (uint32_t size = 0; size <= 40; size++)
        for (size_t len = 0; len <= 60; len++)
            all = (len == 8 + size || size_refused(size, len)) && all;
    check(all, "a request of another length than 8 and its data gets 4");
    check(size_refused(1025, 1033) && size_refused(0x10000, 8) && size_refused(UINT32_MAX, 7) && size_refused(0x80000000, 8),
          "so does one with a size above 1,024, also of that length");
    caller = 0;
    request_len = 8 + WAGGLELOFT_DPE_DATA_LONGEST;
    all = declined(WAGGLELOFT_DPE_WRONG_DATA);
    request_len = 8;
    check(declined(WAGGLELOFT_DPE_WRONG_DATA) && all, "1,024 bytes and none are data, and malformed");
    caller = 7;
}

/* The node's caller alone may name it. */
static void check_callers(void)
{
    static const uint32_t others[] = {1, 7, 0x100, 0x1000000, UINT32_MAX};
    bool (*const opens[])(void) = {open_derive, open_extend, open_rotate, open_destroy};
    bool all = starred(1);
    for (size_t i = 0; i < COUNT(opens); i++) {
        fresh();
        all = opens[i]() && all;
        for (size_t k = 0; k < COUNT(others); k++) {
            caller = others[k];
            all = declined(WAGGLELOFT_DPE_OTHER_CALLER) && all;
        }
        caller = 7;
    }
    check(all, "a command of another caller than the node's gets 7");
    fresh();
    caller = 300;
    all = open_stash() && run(SIZE_MAX) == STASH_STORES && open_derive() && run(SIZE_MAX) == RETAINING_STORES;
    check(all && image[NODE(2)] == USED_ON(1) && image[NODE(2) + LOCALITY] == 300, "a child is its parent's caller's");
    caller = 7;
}

/* Handles other than the retired one are pairwise different, or the nodes are not well formed. */
static void check_live_handles(void)
{
    bool all = true;
    for (uint32_t i = 0; i < NODES; i++) {
        all = starred(NODES - 1) && would(true, WAGGLELOFT_UPDATED) && all;
        uint32_t other = (i * 7 + 3) % NODES == i ? (i + 1) % NODES : (i * 7 + 3) % NODES;
        memcpy(image + NODE(i) + HANDLE, image + NODE(other) + HANDLE, HANDLE_LEN);
        all = malformed() && all;
        memset(image + NODE(i) + HANDLE, 0xFF, HANDLE_LEN);
        memset(image + NODE(other) + HANDLE, 0xFF, HANDLE_LEN);
        all = would(true, WAGGLELOFT_UPDATED) && would(false, WAGGLELOFT_KEPT) && all;
    }
    check(all, "two nodes with one handle are not well formed, two retired ones are");
    all = starred(2);
    memset(image + NODE(2) + HANDLE, 0, HANDLE_LEN);
    check(all && malformed() && switches_off(), "nor are two with the default handle, and an update boot switches attestation off");
    fresh();
    memset(image + NODE(0) + HANDLE, 0xFF, HANDLE_LEN);
    check(would(true, WAGGLELOFT_UPDATED) && would(false, WAGGLELOFT_KEPT), "no live handle at all is well formed");
}

/* A destroy whose number of nodes or whose indices are bent: what counts decides, at every store. */
static bool bent_destroy(size_t made, uint32_t count, size_t at, uint32_t index, bool fine)
{
    bool all = chained(3) && open_destroy() && run(made) == made;
    work[FIRST_IN] = count;
    work[NODE_IN + at] = index;
    if (!fine)
        return damaged() && all;
    all = waggleloft_left(work, WORK) == DESTROY_STORES(count) - made && all;
    while (all && waggleloft_left(work, WORK) > 0)
        all = store_holds();
    return all && image[0] == 1 && answer_holds(12, WAGGLELOFT_OK, 12);
}

static void check_bent_destroys(void)
{
    bool fine = true, wrong = true;
    for (size_t made = 0; made <= DESTROY_STORES(3); made += made < 3 || made > 100 ? 1 : 11) {
        fine = bent_destroy(made, 4, 30, 0, true) && bent_destroy(made, NODES, 31, 31, true) && bent_destroy(made, 3, 1, 3, true) &&
               bent_destroy(made, 3, 3, NODES, true) && bent_destroy(made, 3, 31, UINT32_MAX, true) && fine;
        wrong = bent_destroy(made, NODES + 1, 0, 3, false) && bent_destroy(made, UINT32_MAX, 0, 3, false) &&
                bent_destroy(made, 3, 0, NODES, false) && bent_destroy(made, 3, 2, UINT32_MAX, false) &&
                bent_destroy(made, 5, 4, NODES, false) && wrong;
    }
    check(fine, "a destroy with other indices, with more nodes, and with any words behind those that count");
    check(wrong, "one of more nodes than there are, or with an index beyond them: 0 left, 9 and 7");
    check(bent_destroy(0, 0, 0, UINT32_MAX, true), "one of no nodes makes 2 stores");
    bool all = chained(3) && open_destroy();
    work[FIRST_IN + 1] = 1;
    check(all && damaged(), "one of 2^32 and 3 nodes: 0 left, 9 and 7");
}

/* ---- journal entries ---- */

/* The bytes of an entry that are expected. */
struct entry {
    uint8_t bytes[ENTRY];
    size_t len;
};

static void put_byte(struct entry *entry, uint8_t byte) { entry->bytes[entry->len++] = byte; }

static void put_bytes(struct entry *entry, const void *bytes, size_t len)
{
    memcpy(entry->bytes + entry->len, bytes, len);
    entry->len += len;
}

/* Groups of seven bits, the lowest first. */
static void put_groups(struct entry *entry, uint32_t number)
{
    for (; number > 0x7F; number >>= 7)
        put_byte(entry, (uint8_t)(number & 0x7FU) | 0x80U);
    put_byte(entry, (uint8_t)number);
}

/* The number in four bytes of the request. */
static uint32_t asked(size_t at)
{
    return request[at] | (uint32_t)request[at + 1] << 8 | (uint32_t)request[at + 2] << 16 | (uint32_t)request[at + 3] << 24;
}

static struct entry boot_entry(uint8_t kind)
{
    struct entry entry = {.len = 0};
    put_byte(&entry, kind);
    put_bytes(&entry, runtime, DIGEST);
    put_bytes(&entry, manifest, DIGEST);
    return entry;
}

static struct entry stash_entry(void)
{
    struct entry entry = {.len = 0};
    put_byte(&entry, 4);
    put_groups(&entry, asked(4));
    put_bytes(&entry, request + 8, DIGEST);
    put_groups(&entry, asked(56));
    put_groups(&entry, caller);
    return entry;
}

static struct entry extension_entry(uint32_t number)
{
    struct entry entry = {.len = 0};
    put_byte(&entry, 5);
    put_groups(&entry, number);
    put_bytes(&entry, request + 8, DIGEST);
    return entry;
}

/* A command to the tree: the data behind its first byte, the fresh handle if any, the caller, whose node it made or named. */
static struct entry tree_entry(uint8_t kind, bool with_fresh, uint32_t its_caller)
{
    struct entry entry = {.len = 0};
    put_byte(&entry, kind);
    put_bytes(&entry, request + 9, request_len - 9);
    if (with_fresh)
        put_bytes(&entry, lent_handle, lent_len);
    put_groups(&entry, its_caller);
    return entry;
}

/* The entry of each kind's work as its opening was asked for it. */
static struct entry entry_asked(uint32_t kind)
{
    struct entry entry = {.len = 0};
    switch (kind) {
    case COLD: return boot_entry(1);
    case UPDATE: return boot_entry(2);
    case STASH: return stash_entry();
    case EXTENSION: return extension_entry(EXTENDED);
    case DERIVE:
    case REPLACE: return tree_entry(6, true, work[NODE_IN + LOCALITY]);
    case EXTEND: return tree_entry(7, false, work[NODE_IN + LOCALITY]);
    case ROTATE: return tree_entry(8, true, work[NODE_IN + LOCALITY]);
    case DESTROY: return tree_entry(9, false, work[NODE_IN + LOCALITY]);
    case DISABLING: put_byte(&entry, 3); return entry;
    default: return entry;
    }
}

/* The entry that the words of a finished work have: its kind's, by the fields that stand in work_before. */
static struct entry entry_in_words(void)
{
    const uint32_t *node = work_before + NODE_IN, *inputs = work_before + INPUTS_IN;
    const uint32_t *handle = inputs + DIGEST / 4, *lent_then = handle + HANDLE_LEN / 4;
    struct entry entry = {.len = 0};
    switch (work_before[KIND_IN]) {
    case COLD: put_byte(&entry, 1); put_bytes(&entry, inputs, 2 * DIGEST); break;
    case UPDATE: put_byte(&entry, 2); put_bytes(&entry, inputs, 2 * DIGEST); break;
    case DISABLING: put_byte(&entry, 3); break;
    case STASH:
        put_byte(&entry, 4);
        put_groups(&entry, node[TYPE]);
        put_bytes(&entry, inputs, DIGEST);
        put_groups(&entry, node[SVN]);
        put_groups(&entry, node[LOCALITY]);
        break;
    case EXTENSION: put_byte(&entry, 5); put_groups(&entry, work_before[FIRST_IN]); put_bytes(&entry, inputs, DIGEST); break;
    case DERIVE:
    case REPLACE:
        put_byte(&entry, 6);
        put_bytes(&entry, handle, HANDLE_LEN);
        put_groups(&entry, work_before[KIND_IN] == DERIVE ? 1 : 0);
        put_groups(&entry, node[TYPE]);
        put_bytes(&entry, inputs, DIGEST);
        put_bytes(&entry, lent_then, HANDLE_LEN);
        break;
    case EXTEND: put_byte(&entry, 7); put_bytes(&entry, handle, HANDLE_LEN); put_bytes(&entry, inputs, DIGEST); break;
    case ROTATE: put_byte(&entry, 8); put_bytes(&entry, handle, HANDLE_LEN); put_bytes(&entry, lent_then, HANDLE_LEN); break;
    case DESTROY: put_byte(&entry, 9); put_bytes(&entry, handle, HANDLE_LEN); break;
    default: break;
    }
    if (work_before[KIND_IN] >= DERIVE)
        put_groups(&entry, node[LOCALITY]);
    return entry;
}

/* An entry refused leaves all; one that is given is in the front of a buffer of that length. */
static bool entry_holds(size_t len, uint32_t number, const struct entry *expected)
{
    size_t written = 99;
    uint8_t *out = lent(len, 1), *before = lent(len, 1);
    fill_bytes(out, len);
    memcpy(before, out, len);
    remember();
    bool holds = waggleloft_entry(work, WORK, out, len, &written) == number && work_same() && image_same();
    if (number == WAGGLELOFT_OK)
        holds = holds && written == expected->len && memcmp(out, expected->bytes, written) == 0 &&
                memcmp(out + written, before + written, len - written) == 0;
    else
        holds = holds && written == 99 && memcmp(out, before, len) == 0;
    free(out);
    free(before);
    return holds;
}

/* The finished work in hand has that entry: buffers of every length, and once more. */
static bool entry_is(const struct entry *expected)
{
    bool all = true;
    for (size_t len = 0; len <= ENTRY + 3; len++)
        all = entry_holds(len, len < expected->len ? WAGGLELOFT_SHORT_FOR_ENTRY : WAGGLELOFT_OK, expected) && all;
    return entry_holds(expected->len, WAGGLELOFT_OK, expected) && all;
}

/* Every kind of work, one after the other: 7 before its last store, whatever the buffer, then its entry. */
static void check_entries(void)
{
    fill_words(image, IMAGE);
    fill_bytes(request, LONGEST_REQUEST);
    for (size_t k = 0; k < NO_KIND; k++) {
        bool all = KINDS[ORDER[k]].open();
        struct entry entry = entry_asked(ORDER[k]);
        for (size_t made = 0; made < KINDS[ORDER[k]].stores; made++) {
            all = entry_holds(0, WAGGLELOFT_STORES_LEFT, &entry) && entry_holds(ENTRY, WAGGLELOFT_STORES_LEFT, &entry) && all;
            all = run(1) == 1 && all;
        }
        check_kind(all && entry_is(&entry), "the entry of", ORDER[k]);
    }
}

/* What has nothing to store has an entry of no bytes, in any buffer. */
static void check_no_entries(void)
{
    uint8_t handoff[2048] = {'C', 'F', 'H', 'T', 1};
    const struct entry nothing = {.len = 0};
    fresh();
    check(open_kept() && entry_is(&nothing), "no entry of a kept boot");
    check(ask_with(WAGGLELOFT_IDENTITY_KEY, 4, handoff, sizeof handoff, false) == WAGGLELOFT_OK && entry_is(&nothing), "nor of an identity key");
    check(ask_with(WAGGLELOFT_VERIFY_SIGNATURE, 196, none, 0, true) == WAGGLELOFT_OK && entry_is(&nothing), "nor of a fine signature");
    check(filled(NODES) && open_stash() && entry_is(&nothing), "nor of a stash that is declined for want of a node");
    check(open_disabling() && run(SIZE_MAX) == DISABLING_STORES && open_stash() && entry_is(&nothing), "nor of one that is declined while off");
}

/* A disabling has one entry, whether a command or a boot began it. */
static void check_entry_of_disabling(void)
{
    const struct entry disabling = {{3}, 1};
    uint32_t outcome = 99;
    fresh();
    check(open_disabling() && run(SIZE_MAX) == DISABLING_STORES && entry_is(&disabling), "the entry of a disable command");
    fresh();
    bool torn = open_stash() && run(20) == 20;
    check(torn && update_boot(true, &outcome) == WAGGLELOFT_OK && outcome == WAGGLELOFT_DISABLED && run(SIZE_MAX) == DISABLING_STORES &&
              entry_is(&disabling),
          "the entry of a boot that disables");
}

/* Type, svn and caller at the borders of a number's groups. */
static void check_numbers_of_entries(void)
{
    static const uint32_t numbers[] = {0, 1, 0x7F, 0x80, 300, 0x3FFF, 0x4000, 0x1FFFFF, 0x200000, 0xFFFFFFF, 0x10000000, UINT32_MAX};
    bool all = true;
    for (size_t i = 0; i < COUNT(numbers); i++) {
        for (size_t field = 0; field < 3; field++) {
            fresh();
            put_number(4, field == 0 ? numbers[i] : 5);
            put_number(56, field == 1 ? numbers[i] : 6);
            caller = field == 2 ? numbers[i] : 7;
            struct entry entry = stash_entry();
            all = open_stash() && run(SIZE_MAX) == STASH_STORES && entry_is(&entry) && all;
        }
    }
    check(all, "type, svn and caller of an entry, at every length of a number");
    caller = 300;
    put_number(56, 0x4000);
    fresh();
    struct entry entry = stash_entry();
    check(open_stash() && run(SIZE_MAX) == STASH_STORES && entry_is(&entry) && memcmp(entry.bytes + entry.len - 5, "\x80\x80\x01\xAC\x02", 5) == 0,
          "svn 0x4000 is 80 80 01, caller 300 is AC 02, in this order");
    caller = 7;
}

/* Type and caller of a derive at the borders of a number's groups; retain is 0 or 1, so the longest has 100 bytes. */
static void check_numbers_of_tree_entries(void)
{
    static const uint32_t numbers[] = {0, 0x7F, 0x80, 300, 0x3FFF, 0x4000, 0x1FFFFF, 0x200000, 0xFFFFFFF, 0x10000000, UINT32_MAX};
    bool all = true;
    size_t longest = 0;
    for (size_t i = 0; i < COUNT(numbers); i++) {
        for (uint32_t retain = 0; retain <= 1; retain++) {
            fresh();
            caller = numbers[i];
            all = open_stash() && run(SIZE_MAX) == STASH_STORES && all;
            derive_of(DEFAULT, retain, numbers[COUNT(numbers) - 1 - i], 0x66);
            all = invoke_with_fresh(DEFAULT) && run(SIZE_MAX) > 0 && all;
            struct entry entry = tree_entry(6, true, caller);
            all = entry_is(&entry) && all;
            longest = entry.len > longest ? entry.len : longest;
        }
    }
    check(all, "type and caller of a derive's entry, at every length of a number");
    derive_of(child, 1, UINT32_MAX, 0x66);
    all = invoke_with_fresh(child) && run(SIZE_MAX) == RETAINING_STORES;
    struct entry entry = tree_entry(6, true, caller);
    check(all && entry_is(&entry) && entry.len == 100 && longest < 100 && boot_entry(1).len == 97 && ENTRY == 104, "the longest entry of a unit has 100 bytes");
    caller = 7;
}

/* Registers 4 to 30; one that is moved within them is told as it stands, one outside leaves no entry. */
static void check_registers_of_entries(void)
{
    bool all = true;
    for (uint32_t number = 4; number <= 30; number++) {
        struct entry entry = extension_entry(number);
        fresh();
        all = extend(number) == WAGGLELOFT_OK && run(SIZE_MAX) == EXTENSION_STORES && entry_is(&entry) && all;
    }
    check(all, "the entry of an extension of registers 4 to 30");
    all = open_extension() && run(SIZE_MAX) == EXTENSION_STORES;
    work[FIRST_IN] = 30;
    struct entry moved = extension_entry(30);
    check(all && entry_is(&moved), "a register that is moved within 4 to 30 is told as it stands");
    work[FIRST_IN] = 31;
    check(entry_holds(ENTRY, WAGGLELOFT_STORES_LEFT, &moved) && entry_holds(0, WAGGLELOFT_STORES_LEFT, &moved), "outside there is no entry");
}

/* An entry taken before the first store: of a copy, whose stores go to another image. */
static void check_entries_beforehand(void)
{
    uint32_t *scratch = lent(IMAGE, sizeof *scratch), *copy = lent(WORK, sizeof *copy);
    fresh();
    for (size_t k = 0; k < NO_KIND; k++) {
        uint8_t entry[ENTRY];
        size_t written = 0;
        bool all = KINDS[ORDER[k]].open();
        struct entry expected = entry_asked(ORDER[k]);
        memcpy(copy, work, WORK * sizeof *work);
        remember();
        fill_words(scratch, IMAGE);
        while (waggleloft_store(copy, WORK, scratch, IMAGE) == WAGGLELOFT_OK)
            continue;
        all = all && waggleloft_entry(copy, WORK, entry, ENTRY, &written) == WAGGLELOFT_OK && written == expected.len &&
              memcmp(entry, expected.bytes, written) == 0 && work_same() && image_same();
        check_kind(all && run(SIZE_MAX) == KINDS[ORDER[k]].stores && entry_is(&expected), "an entry beforehand of", ORDER[k]);
    }
    free(scratch);
    free(copy);
}

/* An entry of a boot that only its digests decide. */
static bool secret_untold(bool (*open)(void), uint8_t kind)
{
    bool all = true;
    for (int i = 0; i < 2; i++) {
        fill_bytes(secret, DIGEST);
        struct entry entry = boot_entry(kind);
        all = open() && run(SIZE_MAX) > 0 && entry_is(&entry) && all;
        for (size_t at = 0; at + 4 <= entry.len; at++)
            for (size_t from = 0; from + 4 <= DIGEST; from++)
                all = memcmp(entry.bytes + at, secret + from, 4) != 0 && all;
    }
    return all;
}

static void check_secret_of_entries(void)
{
    check(secret_untold(open_cold, 1), "the entry of a cold boot tells nothing of the secret");
    check(secret_untold(open_update, 2), "nor does that of an update");
}

/* ---- refused requests and damaged works ---- */

static uint32_t reversed(uint32_t code) { return code >> 24 | (code >> 8 & 0xFF00U) | (code & 0xFF00U) << 8 | code << 24; }

static void check_refused_requests(void)
{
    bool all = true;
    fresh();
    fill_words(work, WORK);
    for (size_t i = 0; i < COUNT(COMMANDS); i++) {
        uint32_t code = COMMANDS[i].code;
        size_t right = COMMANDS[i].len;
        if (code == WAGGLELOFT_INVOKE_DPE_COMMAND)
            put_number(4, (uint32_t)(right - 8));
        for (size_t len = 0; len <= 200; len++)
            if (len != right)
                all = request_refused(code, len, WAGGLELOFT_WRONG_LENGTH) && all;
        const uint32_t near[] = {code - 1, code + 1, code ^ 0x80000000U, reversed(code)};
        for (size_t k = 0; k < COUNT(near); k++)
            all = request_refused(near[k], right, WAGGLELOFT_UNKNOWN_CODE) && all;
        set_checksum(code, right);
        request[right == 4 ? 0 : right - 1] ^= 1;
        all = request_refused(code, right, WAGGLELOFT_BAD_CHECKSUM) && all;
    }
    for (uint32_t i = 0; i < 1000; i++)
        all = request_refused(i == 0 ? 0 : random32() & 0xFFFFFFU, i % 64, WAGGLELOFT_UNKNOWN_CODE) && all;
    check(all, "a refused request leaves the words of a work, whatever they are");
    remember();
    check(ask(WAGGLELOFT_IDENTITY_KEY, 4) == WAGGLELOFT_WRONG_HANDOFF && work_same(), "no handoff table");
    check(ask(WAGGLELOFT_VERIFY_SIGNATURE, 196) == WAGGLELOFT_BAD_SIGNATURE && work_same(), "a verdict that is no");
    for (size_t i = 0; i < COUNT(ANSWERED); i++) {
        fresh();
        all = KINDS[ANSWERED[i].kind].open() && run(1) == 1;
        for (size_t k = 0; k < COUNT(COMMANDS); k++)
            all = request_refused(COMMANDS[k].code, COMMANDS[k].len, WAGGLELOFT_UNFINISHED) && all;
        check_kind(all, "no request in the middle of", ANSWERED[i].kind);
    }
    image[0] = 1;
    image[NODE(0)] = 0xFFFFFFFF;
    remember();
    check(ask(WAGGLELOFT_STASH_MEASUREMENT, 60) == WAGGLELOFT_NOT_WELL_FORMED && work_same(), "nodes that are not well formed");
}

/* The answer of a work of any words, told in work_before; `finished` if it is well shaped with no store left. */
static bool damaged_answer_holds(bool finished)
{
    size_t written = 99;
    uint64_t length = two(LENGTH_IN);
    uint32_t number = waggleloft_answer(work, WORK, buffer, LONGEST, &written);
    if (!finished)
        return number == WAGGLELOFT_STORES_LEFT && written == 99 && buffer_same() && work_same();
    return number == WAGGLELOFT_OK && written == length && work_same() &&
           memcmp(buffer, &work_before[ANSWER_IN], length) == 0 && memcmp(buffer + length, buffer_before + length, LONGEST - length) == 0;
}

/* Works of any words: what a store does, what is left, an answer and an entry. */
static bool damaged_holds(void)
{
    struct entry entry = {.len = 0};
    if (!store_holds())
        return false;
    remember();
    bool finished = well_shaped() && left() == 0;
    if (!damaged_answer_holds(finished))
        return false;
    if (finished)
        entry = entry_in_words();
    return entry_holds(ENTRY, finished ? WAGGLELOFT_OK : WAGGLELOFT_STORES_LEFT, &entry);
}

/* A number, one below and one above. */
#define AROUND(number) (number) - 1, number, (number) + 1

static void check_damaged_works(void)
{
    static const uint32_t values[] = {0, 1, 2, 3, 4, 5, 6, 7, 8, 9, 10, 11, AROUND(EXTENSION_STORES), AROUND(DISABLING_STORES),
                                      AROUND(EXTEND_STORES), 30, AROUND(NODES), AROUND(RETAINING_STORES), AROUND(RETIRING_STORES),
                                      AROUND(STASH_STORES), AROUND(UPDATE_STORES), AROUND(DESTROY_STORES(2)), AROUND(LONGEST),
                                      AROUND(DESTROY_STORES(NODES)), AROUND(COLD_STORES), 0x7FFFFFFF, 0x80000000, 0xFFFFFFFF};
    bool all = true;
    fill_words(image, IMAGE);
    for (int i = 0; i < 20000; i++) {
        fill_words(work, WORK);
        all = damaged_holds() && all;
    }
    check(all, "works of random words");
    all = true;
    for (int i = 0; i < 200000; i++) {
        fill_words(work, WORK);
        for (size_t at = 0; at < REGISTER_IN; at++)
            work[at] = at % 2 == 0 && at > 0 && random32() % 8 != 0 ? 0 : values[random32() % COUNT(values)];
        /* Mostly indices, which a destroy looks at. */
        for (size_t at = NODE_IN; i % 2 == 0 && at < NODE_IN + NODES; at++)
            work[at] = random32() % (i % 4 == 0 ? NODES : NODES + 1);
        all = damaged_holds() && all;
    }
    check(all, "works with numbers at and past their bounds");
    for (size_t which = 0; which < COUNT(ANSWERED); which++) {
        all = true;
        for (size_t at = 0; at < REGISTER_IN; at++) {
            for (size_t i = 0; i < COUNT(values); i++) {
                fresh();
                all = KINDS[ANSWERED[which].kind].open() && all;
                work[at] = values[i];
                all = damaged_holds() && all;
            }
        }
        check_kind(all, "one word damaged of", ANSWERED[which].kind);
    }
}

int main(void)
{
    image = lent(IMAGE, sizeof *image);
    image_before = lent(IMAGE, sizeof *image);
    work = lent(WORK, sizeof *work);
    work_before = lent(WORK, sizeof *work);
    runtime = lent(DIGEST, 1);
    manifest = lent(DIGEST, 1);
    secret = lent(DIGEST, 1);
    request = lent(LONGEST_REQUEST, 1);
    buffer = lent(LONGEST, 1);
    buffer_before = lent(LONGEST, 1);
    none = lent(0, 1);
    lend_nothing();
    fill_words(work, WORK);
    fill_bytes(runtime, DIGEST);
    fill_bytes(manifest, DIGEST);
    fill_bytes(secret, DIGEST);
    fill_bytes(request, LONGEST_REQUEST);

    check_sizes();
    check_table();
    check_stores();
    check_cuts();
    check_answers();
    check_answer_bytes();
    check_work_lengths();
    check_image_lengths();
    check_refused_boots();
    check_accepted_boots();
    check_measured_boots();
    check_extensions();
    check_extensions_off();
    check_order_of_extension();
    check_extensions_and_nodes();
    check_words_of_extension();
    check_moved_registers();
    check_no_kinds();
    check_stashed_svn();
    check_words_of_stash();
    check_free_svn();
    check_used_svn();
    check_cut_svn();
    check_last_node();
    check_longest_chain();
    check_mirrored();
    check_wrong_ways();
    check_words_of_tree();
    check_tree_nodes();
    check_destroyed_chains();
    check_cut_chain();
    check_stopped_destroys();
    check_reuse();
    check_order_of_declines();
    check_fresh_handles();
    check_malformed_data();
    check_sizes_of_data();
    check_callers();
    check_live_handles();
    check_bent_destroys();
    check_entries();
    check_no_entries();
    check_entry_of_disabling();
    check_numbers_of_entries();
    check_numbers_of_tree_entries();
    check_registers_of_entries();
    check_entries_beforehand();
    check_secret_of_entries();
    check_refused_requests();
    check_damaged_works();

    free(image);
    free(image_before);
    free(work);
    free(work_before);
    free(runtime);
    free(manifest);
    free(secret);
    free(request);
    free(buffer);
    free(buffer_before);
    free(none);
    free(lent_handle);
    return conclude();
}
