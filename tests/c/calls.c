// Makes every call of include/iset.h on the examples of document 01 and on bad input. Each call
// prints one line: its name, the number that it returned and, if that is 0, the answer. After every
// call it is tested that nothing changed that may not: nothing at all if the call was refused, and
// never a place past what was lent. Such a change is printed at the line's end.
#include <inttypes.h>
#include <stdio.h>
#include <stdlib.h>
#include <string.h>

#include "iset.h"

#define WORDS 64
#define BYTES 2
#define LIST 16
#define PLACES 66
#define FILL UINT64_C(777)

// What is lent, with the lengths that a call is told. Each array has places past the greatest
// length told.
struct lent {
    uint64_t nodes[WORDS], list[LIST], out[PLACES], answer[12];
    uint8_t colours[BYTES];
    size_t words, bytes, items, places, room;
    uint64_t count, root;
    uint32_t version;
};

static struct lent now, before;

static void fill(uint64_t *a, size_t n) {
    for (size_t i = 0; i < n; i++) a[i] = FILL;
}

static void lend(size_t words, size_t bytes) {
    memset(&now, 0, sizeof now);
    now.words = words;
    now.bytes = bytes;
    now.places = 64;
    now.root = ISET_U;
}

static void begin(size_t room) {
    now.room = room;
    fill(now.answer, 12);
    before = now;
}

static int differ(const uint64_t *a, const uint64_t *b, size_t from, size_t to) {
    return memcmp(a + from, b + from, (to - from) * sizeof *a) != 0;
}

// The line of a call that returned `no` and may write `numbers` numbers and `slots` slots, and
// where `stores` is set the store.
static void line(const char *name, uint64_t no, size_t numbers, size_t slots, int stores) {
    int done = no == 0;
    printf("%s: %" PRIu64, name, no);
    for (size_t i = 0; done && i < numbers; i++) printf(" %" PRIu64, now.answer[i]);
    if (differ(now.answer, before.answer, done ? numbers : 0, 12)) printf(" ANSWER CHANGED");
    if (differ(now.out, before.out, done ? slots : 0, PLACES)) printf(" OUTPUT CHANGED");
    if (differ(now.nodes, before.nodes, done && stores ? now.words : 0, WORDS)) printf(" NODES CHANGED");
    if (memcmp(now.list, before.list, sizeof now.list)) printf(" LIST CHANGED");
    size_t from = done && stores ? now.bytes : 0;
    if (memcmp(now.colours + from, before.colours + from, BYTES - from)) printf(" COLOURS CHANGED");
}

static void check(const char *name) {
    begin(0);
    line(name, iset_check(now.count, now.root, now.nodes, now.words, now.colours, now.bytes), 0, 0, 0);
    printf("\n");
}

static void build_in(const char *name, const uint64_t *list, size_t items, size_t room) {
    memcpy(now.list, list, items * sizeof *list);
    now.items = items;
    begin(room);
    uint64_t no = iset_build(now.version, now.nodes, now.words, now.colours, now.bytes, now.list, items, now.answer, room);
    line(name, no, ISET_BUILD_ANSWER, 0, 1);
    if (no == 0) {
        now.count = now.answer[0];
        now.root = now.answer[1];
        now.version = (uint32_t)now.answer[2];
        printf(" colours %d", now.colours[0]);
    }
    printf("\n");
}

static void build(const char *name, const uint64_t *list, size_t items) {
    build_in(name, list, items, ISET_BUILD_ANSWER);
}

static void remove_in(const char *name, uint64_t slot, size_t room) {
    begin(room);
    uint64_t no = iset_remove(now.count, now.root, now.version, now.nodes, now.words, now.colours, now.bytes, slot, now.answer, room);
    line(name, no, ISET_REMOVE_ANSWER, 0, 1);
    if (no == 0) {
        now.count = now.answer[1];
        now.root = now.answer[2];
        now.version = (uint32_t)now.answer[10];
        printf(" colours %d", now.colours[0]);
    }
    printf("\n");
}

static void remove_slot(const char *name, uint64_t slot) {
    remove_in(name, slot, ISET_REMOVE_ANSWER);
}

// An insertion moves no old entry, and leaves the slots past the new one.
static void insert_in(const char *name, uint64_t start, uint64_t end, uint64_t value, size_t room) {
    begin(room);
    uint64_t no = iset_insert(now.count, now.root, now.version, now.nodes, now.words, now.colours, now.bytes, start, end, value, now.answer, room);
    line(name, no, ISET_INSERT_ANSWER, 0, 1);
    if (no == 0) {
        now.count = now.answer[0];
        now.root = now.answer[1];
        now.version = (uint32_t)now.answer[4];
        printf(" colours %d", now.colours[0]);
        for (size_t i = 0; i < before.count; i++)
            if (differ(now.nodes, before.nodes, i * 8, i * 8 + 3)) printf(" ENTRY MOVED");
        if (differ(now.nodes, before.nodes, now.count * 8, WORDS)) printf(" NODES PAST CHANGED");
    }
    printf("\n");
}

static void insert(const char *name, uint64_t start, uint64_t end, uint64_t value) {
    insert_in(name, start, end, value, ISET_INSERT_ANSWER);
}

// The slots that an unloading emptied have links that lead nowhere, and 0 in their other words.
static void unload_in(const char *name, uint64_t lo_kind, uint64_t lo, uint64_t hi_kind, uint64_t hi, size_t room) {
    static const uint64_t none[8] = {0, 0, 0, 0, 0, ISET_U, ISET_U, ISET_U};
    begin(room);
    uint64_t no = iset_unload(now.count, now.root, now.version, now.nodes, now.words, now.colours, now.bytes, lo_kind, lo, hi_kind, hi, now.answer, room);
    line(name, no, ISET_UNLOAD_ANSWER, 0, 1);
    if (no == 0) {
        now.count = now.answer[0];
        now.root = now.answer[1];
        now.version = (uint32_t)now.answer[2];
        if (before.count - now.count != now.answer[3]) printf(" ANOTHER NUMBER WENT");
        if (now.answer[3] == 0 && (differ(now.nodes, before.nodes, 0, WORDS) || now.colours[0] != before.colours[0])) printf(" STORE CHANGED");
        for (size_t i = now.count; i < before.count; i++)
            if (differ(now.nodes + 8 * i, none, 0, 8)) printf(" SLOT NOT EMPTIED");
        printf(" colours %d", now.colours[0]);
    }
    printf("\n");
}

static void unload(const char *name, uint64_t lo_kind, uint64_t lo, uint64_t hi_kind, uint64_t hi) {
    unload_in(name, lo_kind, lo, hi_kind, hi, ISET_UNLOAD_ANSWER);
}

// The plan goes to the output. A refused planner writes nothing.
static void propose(const char *name) {
    fill(now.out, PLACES);
    begin(0);
    uint64_t no = iset_propose(now.count, now.root, now.nodes, now.words, now.colours, now.bytes, now.out, now.places);
    line(name, no, 0, no == 0 ? (size_t)now.count : 0, 0);
    for (size_t i = 0; no == 0 && i < now.count; i++) printf(" %" PRIu64, now.out[i]);
    printf("\n");
}

// A plan is the list. After it every entry is in the slot that the plan gives it, and the plan,
// which `line` compares, is as it was.
static void renumber_in(const char *name, const uint64_t *plan, size_t items, size_t room) {
    memset(now.list, 0, sizeof now.list);
    memcpy(now.list, plan, items * sizeof *plan);
    begin(room);
    uint64_t no = iset_renumber(now.count, now.root, now.version, now.nodes, now.words, now.colours, now.bytes, now.list, items, now.answer, room);
    line(name, no, ISET_RENUMBER_ANSWER, 0, 1);
    if (no == 0) {
        now.count = now.answer[0];
        now.root = now.answer[1];
        now.version = (uint32_t)now.answer[2];
        printf(" colours %d", now.colours[0]);
        for (size_t i = 0; i < now.count; i++)
            if (differ(now.nodes + 8 * plan[i], before.nodes + 8 * i, 0, 5)) printf(" ENTRY LOST");
        if (differ(now.nodes, before.nodes, now.count * 8, WORDS)) printf(" NODES PAST CHANGED");
    }
    printf("\n");
}

static void renumber(const char *name, const uint64_t *plan, size_t items) {
    renumber_in(name, plan, items, ISET_RENUMBER_ANSWER);
}

// Reading through a ticket.
static void read_in(const char *name, uint64_t slot, uint32_t taken, size_t room) {
    begin(room);
    uint64_t no = iset_read(now.count, now.root, now.version, now.nodes, now.words, now.colours, now.bytes, slot, taken, now.answer, room);
    line(name, no, ISET_READ_ANSWER, 0, 0);
    printf("\n");
}

static void read_slot(const char *name, uint64_t slot, uint32_t taken) {
    read_in(name, slot, taken, ISET_READ_ANSWER);
}

// A query: exact, by start and end; or a range, by two bounds. A cursor. A limit.
struct query {
    int exact;
    uint64_t lo_kind, lo, hi_kind, hi;
};

static uint64_t cursor[3], limit;

static struct query range(uint64_t lo_kind, uint64_t lo, uint64_t hi_kind, uint64_t hi) {
    struct query q = {0, lo_kind, lo, hi_kind, hi};
    return q;
}

static struct query exact(uint64_t start, uint64_t end) {
    struct query q = {1, 0, start, 0, end};
    return q;
}

static void fresh_in(const char *name, struct query q, size_t room) {
    begin(room);
    uint64_t no = q.exact
        ? iset_fresh_exact(now.count, now.root, now.nodes, now.words, now.colours, now.bytes, q.lo, q.hi, now.answer, room)
        : iset_fresh(now.count, now.root, now.answer, room);
    line(name, no, ISET_FRESH_ANSWER, 0, 0);
    if (no == 0) memcpy(cursor, now.answer, sizeof cursor);
    printf("\n");
}

static void fresh(const char *name, struct query q) {
    fresh_in(name, q, ISET_FRESH_ANSWER);
}

static void step_in(const char *name, struct query q, size_t room) {
    begin(room);
    uint64_t no = q.exact
        ? iset_step_exact(now.count, now.root, now.nodes, now.words, now.colours, now.bytes, q.lo, q.hi, cursor[0], cursor[1], cursor[2],
            now.answer, room)
        : iset_step(now.count, now.root, now.nodes, now.words, now.colours, now.bytes, q.lo_kind, q.lo, q.hi_kind, q.hi, cursor[0],
            cursor[1], cursor[2], now.answer, room);
    line(name, no, ISET_STEP_ANSWER, 0, 0);
    if (no == 0) memcpy(cursor, now.answer + 1, sizeof cursor);
    printf("\n");
}

static void step(const char *name, struct query q) {
    step_in(name, q, ISET_STEP_ANSWER);
}

static void drain_in(const char *name, struct query q, size_t room) {
    fill(now.out, PLACES);
    begin(room);
    uint64_t no = q.exact
        ? iset_drain_exact(now.count, now.root, now.nodes, now.words, now.colours, now.bytes, q.lo, q.hi, cursor[0], cursor[1], cursor[2],
            limit, now.out, now.places, now.answer, room)
        : iset_drain(now.count, now.root, now.nodes, now.words, now.colours, now.bytes, q.lo_kind, q.lo, q.hi_kind, q.hi, cursor[0],
            cursor[1], cursor[2], limit, now.out, now.places, now.answer, room);
    line(name, no, ISET_DRAIN_ANSWER, no == 0 ? (size_t)now.answer[0] : 0, 0);
    if (no == 0) {
        memcpy(cursor, now.answer + 2, sizeof cursor);
        printf(" slots");
        for (uint64_t i = 0; i < now.answer[0]; i++) printf(" %" PRIu64, now.out[i]);
    }
    printf("\n");
}

static void drain(const char *name, struct query q) {
    drain_in(name, q, ISET_DRAIN_ANSWER);
}

// A lookup that finds all hits at once: the fast one writes the slots that a drain from the fresh
// cursor writes, as many as there are places; the plain one too, if there is a place for each
// entry.
static uint64_t at_once(int fast, struct query q, size_t room) {
#define STORE now.count, now.root, now.nodes, now.words, now.colours, now.bytes
#define TO now.out, now.places, now.answer, room
    if (q.exact) return fast ? iset_find_all_exact(STORE, q.lo, q.hi, TO) : iset_plain_exact(STORE, q.lo, q.hi, TO);
    return fast ? iset_find_all(STORE, q.lo_kind, q.lo, q.hi_kind, q.hi, TO) : iset_plain(STORE, q.lo_kind, q.lo, q.hi_kind, q.hi, TO);
}

static void at_once_in(int fast, const char *name, struct query q, size_t room) {
    fill(now.out, PLACES);
    begin(room);
    uint64_t no = at_once(fast, q, room);
    size_t slots = no != 0 ? 0 : now.answer[0] < now.places ? (size_t)now.answer[0] : now.places;
    line(name, no, 2, slots, 0);
    if (no == 0) printf(" slots");
    for (size_t i = 0; i < slots; i++) printf(" %" PRIu64, now.out[i]);
    printf("\n");
}

static void plain_in(const char *name, struct query q, size_t room) { at_once_in(0, name, q, room); }
static void plain(const char *name, struct query q) { plain_in(name, q, ISET_PLAIN_ANSWER); }
static void find_all_in(const char *name, struct query q, size_t room) { at_once_in(1, name, q, room); }
static void find_all(const char *name, struct query q) { find_all_in(name, q, ISET_FIND_ALL_ANSWER); }

static const uint64_t LIST_A[15] = {10, 20, 1, 10, 30, 2, 25, 40, 3, 40, 50, 4, 45, 60, 5};
static const uint64_t LIST_B[9] = {5, 9, 1, 5, 9, 2, 5, 9, 3};

static void store_a(void) {
    lend(40, 1);
    now.count = 5;
    now.root = 2;
    memcpy(now.list, LIST_A, sizeof LIST_A);
    begin(ISET_BUILD_ANSWER);
    if (iset_build(0, now.nodes, 40, now.colours, 1, now.list, 15, now.answer, ISET_BUILD_ANSWER) != 0) abort();
    now.version = 1;
}

static void links(const char *name, uint64_t slot) {
    const uint64_t *node = now.nodes + slot * ISET_NODE_WORDS;
    printf("%s: left %" PRIu64 " right %" PRIu64 " parent %" PRIu64 "\n", name, node[ISET_LEFT], node[ISET_RIGHT], node[ISET_PARENT]);
}

static void built_and_removed(void) {
    lend(40, 1);
    check("no entries");
    build("A build", LIST_A, 15);
    check("A check");
    links("A slot 2", 2);
    links("A slot 1", 1);
    links("A slot 4", 4);
    store_a(), remove_slot("A remove 0", 0), check("check");
    store_a(), remove_slot("A remove 1", 1), check("check");
    store_a(), remove_slot("A remove 2", 2), check("check");
    store_a(), remove_slot("A remove 4", 4), check("check"), links("slot 2", 2);
    store_a(), remove_slot("A remove 5", 5), remove_slot("A remove U", ISET_U);
    lend(24, 1);
    build("B build", LIST_B, 9);
    remove_slot("B remove 0", 0);
    remove_slot("then remove 1", 1);
    remove_slot("then remove 0", 0);
    remove_slot("then remove 0", 0);
}

// Store A with room for a sixth entry.
static void store_a_wide(void) {
    store_a();
    now.words = 48;
}

static void ordered(void) {
    struct query all = range(ISET_UNBOUNDED, 0, ISET_UNBOUNDED, 0);
    limit = 0;
    check("check"), fresh("fresh", all), drain("all drain", all);
}

static void inserted(void) {
    lend(40, 1);
    for (size_t i = 0; i < 15; i += 3) insert("grown insert", LIST_A[i], LIST_A[i + 1], LIST_A[i + 2]);
    ordered(), links("slot 1", 1), links("slot 3", 3);
    lend(40, 1);
    for (size_t i = 15; i > 0; i -= 3) insert("grown from the end insert", LIST_A[i - 3], LIST_A[i - 2], LIST_A[i - 1]);
    ordered();
    store_a_wide(), insert("A insert [30, 35)", 30, 35, 6), ordered(), links("slot 5", 5);
    store_a_wide(), insert("A insert [0, 2^64 - 1)", 0, UINT64_MAX, 6), ordered();
    store_a_wide(), insert("A insert an equal of slot 0", 10, 20, 6), ordered();
    lend(40, 1);
    build("B build", LIST_B, 9);
    insert("B insert an equal", 5, 9, 4), insert("and one more", 5, 9, 5), ordered();
    store_a(), remove_slot("A remove 0", 0), insert("in its room insert", 10, 20, 6), ordered(), insert("then insert", 10, 20, 7);
}

static void refused_insertions(void) {
    store_a(), insert("count at capacity", 30, 35, 6), now.root = 5, insert("broken too", 35, 30, 6);
    store_a_wide(), now.words = 47, insert("47 words", 30, 35, 6);
    store_a_wide(), now.bytes = 0, insert("no colours", 30, 35, 6);
    store_a(), now.count = 6, insert("count above capacity", 30, 35, 6), now.count = UINT64_MAX, insert("count 2^64 - 1", 30, 35, 6);
    store_a_wide(), now.root = 5, insert("root 5", 30, 35, 6), insert("an empty interval too", 30, 30, 6);
    store_a_wide(), now.colours[0] = 13, insert("a red root", 30, 35, 6);
    store_a_wide(), insert("an empty interval", 30, 30, 6), insert("one that ends before its start", 30, 29, 6);
    insert_in("a short answer", 30, 35, 6, ISET_INSERT_ANSWER - 1);
    insert_in("and an empty interval", 30, 30, 6, ISET_INSERT_ANSWER - 1), insert_in("no answer", 30, 35, 6, 0);
    ordered();
}

static void tickets(void) {
    uint64_t here = UINT64_C(1) << 32;
    store_a();
    for (uint64_t slot = 0; slot < 5; slot++) read_slot("A read", slot, 1);
    read_slot("distance 1", 2, 0), read_slot("distance 2^32 - 1", 2, 2), read_slot("slot 5", 5, 1), read_slot("slot 5, stale", 5, 0);
    read_slot("slot U", ISET_U, 1), read_slot("slot 2^32 + 2", here + 2, 1), read_slot("slot 2^64 - 1", UINT64_MAX, 1);
    read_in("a short answer", 2, 1, ISET_READ_ANSWER - 1), read_in("a short answer, stale", 2, 0, ISET_READ_ANSWER - 1), read_in("no answer", 2, 1, 0);
    remove_slot("A remove 9", 9), read_slot("after a refusal", 2, 1);
    remove_slot("A remove 1", 1), read_slot("after a removal", 2, 1), read_slot("anew", 2, 2), read_slot("slot 4", 4, 2), read_slot("slot 4, stale", 4, 1);
    insert("insert", 12, 13, 6), read_slot("after an insertion", 2, 2), read_slot("anew", 4, 3);
    build("build", LIST_B, 9), read_slot("after a build", 2, 3), read_slot("anew", 2, 4);
    store_a(), now.version = UINT32_MAX, remove_slot("at the top, remove 4", 4), read_slot("round", 2, UINT32_MAX), read_slot("anew", 2, 0);
    store_a(), now.root = 1, read_slot("root 1", 2, 1), read_slot("root 1, stale", 2, 0), now.count = 6, read_slot("count 6, stale", 2, 0);
    lend(40, 1), read_slot("no entries", 0, 0), read_slot("no entries, stale", 0, 1);
    store_a(), remove_slot("one copy, remove 1", 1), read_slot("its slot 0", 0, 2);
    store_a(), remove_slot("another, remove 2", 2), read_slot("its slot 0", 0, 2);
}

static void unloaded(void) {
    store_a(), unload("A unload [20, 25)", ISET_INCLUDED, 20, ISET_EXCLUDED, 25), ordered();
    store_a(), unload("A unload (20, 25]", ISET_EXCLUDED, 20, ISET_INCLUDED, 25), ordered();
    store_a(), unload("A unload [45, 45]", ISET_INCLUDED, 45, ISET_INCLUDED, 45), ordered();
    store_a(), unload("A unload [0, 11)", ISET_INCLUDED, 0, ISET_EXCLUDED, 11), ordered();
    store_a(), unload("A unload [55, 70)", ISET_INCLUDED, 55, ISET_EXCLUDED, 70), ordered();
    store_a(), unload("A unload all", ISET_UNBOUNDED, 0, ISET_UNBOUNDED, 0), check("check"), unload("and again", ISET_UNBOUNDED, 0, ISET_UNBOUNDED, 0);
    insert("then insert", 10, 20, 6), ordered();
    store_a(), unload("[60, 70), which only touches", ISET_INCLUDED, 60, ISET_EXCLUDED, 70), read_slot("a ticket of before", 2, 1);
    unload("(7, 8]", ISET_EXCLUDED, 7, ISET_INCLUDED, 8), read_slot("a ticket of before", 2, 1);
    unload("[25, 26)", ISET_INCLUDED, 25, ISET_EXCLUDED, 26), read_slot("a ticket of before", 2, 1), read_slot("anew", 2, 3);
    lend(40, 1), unload("no entries", ISET_UNBOUNDED, 0, ISET_UNBOUNDED, 0);
    lend(24, 1), build("B build", LIST_B, 9), unload("B unload [8, 8]", ISET_INCLUDED, 8, ISET_INCLUDED, 8), check("check");
    store_a(), now.version = UINT32_MAX, unload("at the top, [20, 25)", ISET_INCLUDED, 20, ISET_EXCLUDED, 25), read_slot("round", 1, UINT32_MAX), read_slot("anew", 1, 0);
    store_a(), now.version = UINT32_MAX - 2, unload("near the top, all", ISET_UNBOUNDED, 0, ISET_UNBOUNDED, 0);
}

static void refused_unloadings(void) {
    store_a(), unload("3 to 1", ISET_INCLUDED, 3, ISET_INCLUDED, 1), unload("[7, 7)", ISET_INCLUDED, 7, ISET_EXCLUDED, 7);
    unload("a lower kind 3", 3, 0, ISET_UNBOUNDED, 0), unload("an upper kind 2^64 - 1", ISET_UNBOUNDED, 0, UINT64_MAX, 0);
    unload_in("a short answer, a kind 3", 3, 0, ISET_UNBOUNDED, 0, ISET_UNLOAD_ANSWER - 1), unload_in("no answer", ISET_UNBOUNDED, 0, ISET_UNBOUNDED, 0, 0);
    now.root = 1, unload("root 1, 3 to 1", ISET_INCLUDED, 3, ISET_INCLUDED, 1), unload("root 1, a kind 3", 3, 0, ISET_UNBOUNDED, 0);
    now.count = 6, unload("count 6, root 1, 3 to 1", ISET_INCLUDED, 3, ISET_INCLUDED, 1), now.count = UINT64_MAX, unload("count 2^64 - 1", ISET_UNBOUNDED, 0, ISET_UNBOUNDED, 0);
    store_a(), now.colours[0] = 13, unload("a red root", ISET_UNBOUNDED, 0, ISET_UNBOUNDED, 0);
    store_a(), now.words = 39, unload("39 words", ISET_UNBOUNDED, 0, ISET_UNBOUNDED, 0);
    store_a(), ordered();
}

// Store A with its slots scattered: the entry of slot 0 was removed, and added again.
static void scattered(void) {
    store_a(), remove_slot("A remove 0", 0), insert("and insert it", 10, 20, 6);
}

static void tidied(void) {
    static const uint64_t turned[5] = {4, 3, 2, 1, 0}, shifted[5] = {1, 2, 3, 4, 0}, still[5] = {0, 1, 2, 3, 4};
    uint64_t plan[5];
    scattered(), propose("propose"), read_slot("a ticket of before", 1, 3);
    memcpy(plan, now.out, sizeof plan);
    renumber("renumber", plan, 5), ordered(), read_slot("a ticket of before", 1, 3), read_slot("anew", 1, 4);
    propose("propose again"), renumber("renumber by that", now.out, 5), ordered();
    store_a(), renumber("A turned round", turned, 5), ordered(), propose("propose"), links("slot 2", 2);
    store_a(), renumber("A shifted by one", shifted, 5), ordered(), propose("propose");
    store_a(), renumber("A as it is", still, 5), ordered();
    store_a(), now.version = UINT32_MAX, renumber("at the top", turned, 5), read_slot("round", 2, UINT32_MAX), read_slot("anew", 2, 0);
    lend(40, 1), propose("no entries, propose"), now.places = 0, propose("no places"), renumber("no entries, renumber", plan, 0);
    lend(24, 1), build("B build", LIST_B, 9), propose("B propose"), renumber("B renumber", shifted + 3, 0), renumber("B renumber", turned + 2, 3), ordered();
}

static void refused_plans(void) {
    static const uint64_t good[6] = {4, 3, 2, 1, 0, 5}, twice[5] = {0, 1, 2, 2, 4}, high[5] = {0, 1, 2, 3, 5}, none[5] = {0, 1, ISET_U, 3, 4};
    static const uint64_t far[5] = {0, (UINT64_C(1) << 32) + 1, 2, 3, 4}, top[5] = {UINT64_MAX, 1, 2, 3, 4}, same[5] = {0, 0, 0, 0, 0};
    store_a(), renumber("a slot twice", twice, 5), renumber("a slot at the count", high, 5), renumber("U", none, 5), renumber("2^32 + 1", far, 5);
    renumber("2^64 - 1", top, 5), renumber("all the same", same, 5), renumber("one short", good, 4), renumber("one long", good, 6), renumber("no plan", good, 0);
    renumber_in("a short answer", good, 5, ISET_RENUMBER_ANSWER - 1), renumber_in("a short answer, a bad plan", twice, 5, 0);
    now.places = 4, propose("4 places"), now.places = 5, propose("5 places");
    now.root = 1, renumber("root 1, a bad plan", twice, 5), renumber("root 1", good, 5), now.places = 4, propose("root 1, 4 places");
    now.count = 6, renumber("count 6, root 1, a bad plan", twice, 5), propose("count 6, root 1, 4 places");
    store_a(), now.colours[0] = 13, renumber("a red root", good, 5), propose("a red root");
    store_a(), now.words = 39, renumber("39 words", good, 5), propose("39 words");
    store_a(), ordered();
}

static void looked_up(void) {
    struct query some = range(ISET_INCLUDED, 20, ISET_EXCLUDED, 25), all = range(ISET_UNBOUNDED, 0, ISET_UNBOUNDED, 0);
    store_a();
    fresh("A fresh", some), step("[20, 25) step", some), step("step", some), step("step", some);
    fresh("A fresh", some), step("[60, 70) step", range(ISET_INCLUDED, 60, ISET_EXCLUDED, 70));
    limit = 0;
    fresh("A fresh", some), drain("(20, 25] drain", range(ISET_EXCLUDED, 20, ISET_INCLUDED, 25));
    fresh("A fresh", all), drain("all drain", all);
    limit = 2;
    fresh("A fresh", all), drain("all drain 2", all), drain("drain 2", all), drain("drain 2", all), drain("drain 2", all);
    fresh("A fresh", some), step("(7, 7] step", range(ISET_EXCLUDED, 7, ISET_INCLUDED, 7));
    step("[7, 7] step", range(ISET_INCLUDED, 7, ISET_INCLUDED, 7));
    lend(24, 1);
    build("B build", LIST_B, 9);
    limit = 0;
    fresh("B fresh exact", exact(5, 9)), drain("[5, 9) drain", exact(5, 9));
    fresh("B fresh exact", exact(5, 9)), step("[5, 9) step", exact(5, 9));
    fresh("B fresh exact", exact(5, 8)), step("[5, 8) step", exact(5, 8)), drain("drain", exact(5, 8));
}

static void looked_up_plainly(void) {
    struct query some = range(ISET_INCLUDED, 20, ISET_EXCLUDED, 25), all = range(ISET_UNBOUNDED, 0, ISET_UNBOUNDED, 0);
    lend(40, 1);
    plain("no entries plain", all), now.places = 0, plain("no places", all), plain("no places, exact", exact(5, 9));
    store_a();
    plain("[20, 25) plain", some), plain("(20, 25] plain", range(ISET_EXCLUDED, 20, ISET_INCLUDED, 25)), plain("all plain", all);
    plain("[60, 70) plain", range(ISET_INCLUDED, 60, ISET_EXCLUDED, 70)), plain("[25, 40) plain", exact(25, 40)), plain("[25, 41) plain", exact(25, 41));
    now.places = 5, plain("5 places", all), now.places = 4, plain("4 places", all), plain("and one hit", exact(25, 40));
    plain("3 to 1, 4 places", range(ISET_INCLUDED, 3, ISET_INCLUDED, 1)), plain("an empty interval, 4 places", exact(9, 9));
    plain("a kind 3, 4 places", range(3, 0, ISET_UNBOUNDED, 0)), plain_in("a short answer, a kind 3", range(3, 0, ISET_UNBOUNDED, 0), 1);
    plain_in("a short answer, exact", exact(25, 40), 1), now.root = 1, plain("root 1, 3 to 1", range(ISET_INCLUDED, 3, ISET_INCLUDED, 1));
    now.count = 6, plain("count 6", all), plain("count 6, exact", exact(9, 9));
    lend(24, 1);
    build("B build", LIST_B, 9);
    plain("[5, 9) plain", exact(5, 9)), plain("[5, 8) plain", exact(5, 8)), plain("[7, 7] plain", range(ISET_INCLUDED, 7, ISET_INCLUDED, 7));
}

static void found_all(void) {
    struct query some = range(ISET_INCLUDED, 20, ISET_EXCLUDED, 25), all = range(ISET_UNBOUNDED, 0, ISET_UNBOUNDED, 0);
    lend(40, 1);
    find_all("no entries find_all", all), now.places = 0, find_all("no places", all), find_all("no places, exact", exact(5, 9));
    store_a();
    find_all("[20, 25) find_all", some), find_all("(20, 25] find_all", range(ISET_EXCLUDED, 20, ISET_INCLUDED, 25)), find_all("all find_all", all);
    find_all("[60, 70) find_all", range(ISET_INCLUDED, 60, ISET_EXCLUDED, 70)), find_all("[0, 10) find_all", range(ISET_INCLUDED, 0, ISET_EXCLUDED, 10));
    find_all("[47, 47] find_all", range(ISET_INCLUDED, 47, ISET_INCLUDED, 47));
    find_all("[25, 40) find_all", exact(25, 40)), find_all("[25, 41) find_all", exact(25, 41));
    now.places = 3, find_all("3 places", all), now.places = 0, find_all("no places", all), find_all("and one hit", exact(25, 40));
    find_all("3 to 1", range(ISET_INCLUDED, 3, ISET_INCLUDED, 1)), find_all("an empty interval", exact(9, 9));
    find_all("a kind 3", range(3, 0, ISET_UNBOUNDED, 0)), find_all_in("a short answer, a kind 3", range(3, 0, ISET_UNBOUNDED, 0), 1);
    find_all_in("a short answer, exact", exact(25, 40), 1), now.root = 1, find_all("root 1, 3 to 1", range(ISET_INCLUDED, 3, ISET_INCLUDED, 1));
    now.count = 6, find_all("count 6", all), find_all("count 6, exact", exact(9, 9));
    lend(24, 1);
    build("B build", LIST_B, 9);
    find_all("[5, 9) find_all", exact(5, 9)), find_all("[5, 8) find_all", exact(5, 8)), find_all("[9, 9] find_all", range(ISET_INCLUDED, 9, ISET_INCLUDED, 9));
}

static void bad_stores(void) {
    store_a(), now.words = 39, check("39 words"), remove_slot("remove", 0);
    store_a(), now.bytes = 0, check("no colours");
    store_a(), now.count = 6, check("count 6"), fresh("fresh exact", exact(10, 20));
    store_a(), now.count = UINT64_MAX, check("count 2^64 - 1");
    store_a(), now.root = 5, check("root 5"), remove_slot("remove", 0), fresh("fresh exact", exact(10, 20));
    store_a(), now.count = 0, check("count 0 root 2");
    store_a(), now.nodes[22] += UINT64_C(1) << 32, check("a link past 2^32");
    store_a(), now.colours[0] = 13, check("a red root");
    begin(ISET_BUILD_ANSWER);
    printf("NULL check: %" PRIu64, iset_check(0, ISET_U, NULL, 0, NULL, 0));
    printf(", with an entry: %" PRIu64, iset_check(1, 0, NULL, 0, NULL, 0));
    uint64_t no = iset_build(0, NULL, 0, NULL, 0, NULL, 0, now.answer, ISET_BUILD_ANSWER);
    printf(", build: %" PRIu64 " %" PRIu64 " %" PRIu64, no, now.answer[0], now.answer[1]);
    printf(", insert: %" PRIu64, iset_insert(0, ISET_U, 0, NULL, 0, NULL, 0, 1, 2, 3, now.answer, ISET_INSERT_ANSWER));
    printf(", with no answer: %" PRIu64, iset_insert(0, ISET_U, 0, NULL, 0, NULL, 0, 1, 2, 3, NULL, 0));
    printf(", answer: %" PRIu64 "\n", iset_fresh(0, ISET_U, NULL, 0));
}

static void bad_lists(void) {
    uint64_t falls[9] = {5, 9, 1, 4, 9, 2, 7, 7, 3};
    lend(16, 1);
    build("4 numbers", LIST_A, 4);
    build("three entries in two slots", LIST_A, 9);
    lend(40, 1);
    build("an empty interval after a fall", falls, 9);
    build("a fall", falls, 6);
    build("no entries", falls, 0);
}

static void bad_queries(void) {
    struct query all = range(ISET_UNBOUNDED, 3, ISET_UNBOUNDED, 1);
    store_a();
    fresh("fresh exact of an empty interval", exact(9, 9));
    fresh("fresh", all), step("unbounded, 3 to 1", all);
    fresh("fresh", all), step("3 to 1", range(ISET_INCLUDED, 3, ISET_INCLUDED, 1)), drain("drain", range(ISET_INCLUDED, 3, ISET_INCLUDED, 1));
    step("exact of an empty interval", exact(9, 9)), drain("drain", exact(9, 8));
    step("a kind 3", range(3, 0, ISET_UNBOUNDED, 0)), drain("drain", range(ISET_UNBOUNDED, 0, UINT64_MAX, 0));
    cursor[1] = 2, step("a cursor of no form", all), drain("drain", all);
    step("an overlap cursor, exact", exact(10, 20));
    now.count = 6, step("a kind 3, count 6", range(3, 0, 0, 0)), step("count 6", all);
    store_a(), fresh("fresh", all);
    limit = 65, drain("limit 65", all), limit = 0, now.places = 63, drain("limit 0, 63 places", all);
    store_a(), fresh("fresh", all), now.places = 2, drain("limit 0, 2 places", all), drain("limit 0, 2 places", all);
    now.places = 0, drain("limit 0, no place", all), now.places = 3;
    store_a(), fresh("fresh", all);
    limit = 4, now.places = 3, drain("limit 4, 3 places", all), limit = 3, drain("limit 3", all);
}

// An answer that is one place too short, in calls that would be refused for another reason too, and
// in calls that would not.
static void short_answers(void) {
    struct query all = range(ISET_UNBOUNDED, 0, ISET_UNBOUNDED, 0);
    store_a();
    limit = 0;
    fresh("fresh", all);
    build_in("build", LIST_A, 15, ISET_BUILD_ANSWER - 1), build_in("of 4 numbers", LIST_A, 4, 0);
    remove_in("remove", 0, ISET_REMOVE_ANSWER - 1), remove_in("of no slot", 5, ISET_REMOVE_ANSWER - 1);
    fresh_in("fresh", all, 2), fresh_in("exact", exact(10, 20), 2);
    step_in("step", all, 4), step_in("of a kind 3", range(3, 0, 0, 0), 4), step_in("exact", exact(10, 20), 4);
    drain_in("drain", all, 4), drain_in("of a kind 3", range(3, 0, 0, 0), 4), drain_in("exact", exact(10, 20), 4);
    check("check");
}

// 65,535 entries fit, 65,536 give NoRoom, by a build and by an insertion.
static void most(void) {
    size_t n = 65536;
    uint64_t *nodes = calloc(n * 8, sizeof *nodes), *list = malloc(n * 3 * sizeof *list), answer[ISET_REMOVE_ANSWER];
    uint8_t *colours = calloc(n / 8, 1);
    if (!nodes || !list || !colours) abort();
    for (size_t i = 0; i < n; i++) list[i * 3] = i * 2, list[i * 3 + 1] = i * 2 + 1, list[i * 3 + 2] = i;
    printf("65536 entries: %" PRIu64, iset_build(0, nodes, n * 8, colours, n / 8, list, n * 3, answer, ISET_REMOVE_ANSWER));
    uint64_t no = iset_build(0, nodes, n * 8, colours, n / 8, list, n * 3 - 3, answer, ISET_REMOVE_ANSWER);
    printf(", 65535: %" PRIu64 " %" PRIu64 " %" PRIu64, no, answer[0], answer[1]);
    printf(", check: %" PRIu64, iset_check(answer[0], answer[1], nodes, n * 8, colours, n / 8));
    printf(", insert: %" PRIu64, iset_insert(answer[0], answer[1], 1, nodes, n * 8, colours, n / 8, 1, 2, 3, answer, ISET_REMOVE_ANSWER));
    printf(", remove: %" PRIu64, iset_remove(answer[0], answer[1], 1, nodes, n * 8, colours, n / 8, 7, answer, ISET_REMOVE_ANSWER));
    no = iset_insert(answer[1], answer[2], 2, nodes, n * 8, colours, n / 8, 1, 2, 3, answer, ISET_REMOVE_ANSWER);
    printf(", insert: %" PRIu64 " %" PRIu64 " %" PRIu64 " %" PRIu64, no, answer[0], answer[1], answer[2]);
    printf(", check: %" PRIu64 "\n", iset_check(answer[0], answer[1], nodes, n * 8, colours, n / 8));
    free(nodes);
    free(list);
    free(colours);
}

int main(void) {
    built_and_removed();
    inserted();
    refused_insertions();
    tickets();
    unloaded();
    refused_unloadings();
    tidied();
    refused_plans();
    looked_up();
    looked_up_plainly();
    found_all();
    bad_stores();
    bad_lists();
    bad_queries();
    short_answers();
    most();
    return 0;
}
