// The calls of include/iset_disjoint.h. First cases with a name: each line is the numbers that a
// call returned and answered. Whatever is not as it should be is printed at the line's end. Then
// maps by chance beside a list of ranges: insertions, removals and point lookups must do what the
// list says, and the opened calls, and the wrappers of include/iset_map.h, must return, answer and
// leave what the others do.
#include <inttypes.h>
#include <stdio.h>
#include <stdlib.h>
#include <string.h>

#include "chance.h"
#include "iset_map.h"

#define MOST 64
#define FILL UINT64_C(777777)

static uint64_t nodes[ISET_NODES_LEN(MOST)], words[ISET_NODES_LEN(MOST)], opened_nodes[ISET_NODES_LEN(MOST)];
static uint8_t colours[ISET_COLOURS_LEN(MOST)], bits[ISET_COLOURS_LEN(MOST)], opened_colours[ISET_COLOURS_LEN(MOST)];
static uint64_t count, root = ISET_U, answer[ISET_REMOVE_ANSWER + 1];
static uint32_t version;
static size_t room = MOST;

#define ARRAYS nodes, ISET_NODES_LEN(room), colours, ISET_COLOURS_LEN(MOST)
#define OPENED opened_nodes, ISET_NODES_LEN(room), opened_colours, ISET_COLOURS_LEN(MOST)
#define MAP count, root, version

static void lend(void) {
    for (size_t i = 0; i < ISET_REMOVE_ANSWER + 1; i++) answer[i] = FILL;
    memcpy(words, nodes, sizeof nodes);
    memcpy(bits, colours, sizeof colours);
}

// Prints a call's number and the first places of its answer if it wrote one. The places past them
// must be as they were, and so must the two arrays after a refusal.
static uint64_t told(const char *name, uint64_t no, size_t places, int written) {
    printf("%s: %" PRIu64, name, no);
    for (size_t i = 0; i < (written ? places : 0); i++) printf(" %" PRIu64, answer[i]);
    for (size_t i = written ? places : 0; i < ISET_REMOVE_ANSWER + 1; i++)
        if (answer[i] != FILL) printf(" ANSWER CHANGED");
    if (no != ISET_OK && (memcmp(words, nodes, sizeof nodes) || memcmp(bits, colours, sizeof colours)))
        printf(" MEMORY CHANGED");
    printf("\n");
    return no;
}

static void check(const char *name) { lend(), told(name, iset_disjoint_check(count, root, ARRAYS), 0, 0); }

static void point(const char *name, uint64_t address) {
    lend();
    uint64_t no = iset_disjoint_point(count, root, ARRAYS, address, answer, 2);
    told(name, no, 2, no == ISET_OK);
}

static void insert_into(const char *name, uint64_t start, uint64_t end, size_t places) {
    lend();
    uint64_t no = iset_disjoint_insert(MAP, ARRAYS, start, end, start + end, answer, places);
    told(name, no, 5, no == ISET_OK || no == ISET_OVERLAP);
    if (no == ISET_OVERLAP && (answer[0] != count || answer[1] != root || answer[3] != 0 || answer[4] != version))
        printf("ANOTHER MAP THAN THE GIVEN ONE\n");
    if (no == ISET_OK) count = answer[0], root = answer[1], version = (uint32_t)answer[4];
}

static void insert(const char *name, uint64_t start, uint64_t end) { insert_into(name, start, end, 5); }

static void take(const char *name, uint64_t slot) {
    lend();
    uint64_t no = iset_disjoint_remove(MAP, ARRAYS, slot, answer, 11);
    told(name, no, 11, no == ISET_OK);
    if (no == ISET_OK) count = answer[1], root = answer[2], version = (uint32_t)answer[10];
}

static void build(const uint64_t *list, size_t len) {
    room = MOST;
    uint64_t no = iset_build(version, ARRAYS, list, len, answer, 3);
    if (no) printf("build: %" PRIu64 "\n", no);
    count = answer[0], root = answer[1], version = (uint32_t)answer[2];
}

static void cases(void) {
    static const uint64_t a[15] = {10, 20, 1, 10, 30, 2, 25, 40, 3, 40, 50, 4, 45, 60, 5};
    static const uint64_t three[9] = {0, 5, 1, 5, 9, 2, 9, 12, 3}, gaps[9] = {10, 20, 1, 30, 40, 2, 50, 60, 3};
    check("the map of no entries"), point("an address in it", 7), take("slot 0 of it", 0);
    build(a, 15);
    check("store A"), point("A", 26), insert("A, [70, 80)", 70, 80), insert("A, [5, 5)", 5, 5), take("A, slot 0", 0);
    build(three, 9);
    check("three that touch");
    point("0", 0), point("4", 4), point("5", 5), point("8", 8), point("9", 9), point("11", 11), point("12", 12), point("2^64 - 1", UINT64_MAX);
    build(gaps, 9);
    insert("inside the second", 32, 33), insert("around the first", 5, 25), insert("equal to the third", 50, 60);
    insert("over two", 15, 35), insert("over all", 0, 100), insert("in a gap and into the third", 45, 51);
    insert("start at end", 20, 20), insert("start past end", 25, 21), insert("start past end, over all", 60, 10);
    insert_into("a short answer", 15, 35, 4);
    room = 3;
    insert("full, over two", 15, 35), insert("full, in a gap", 20, 30), insert("full, start at end", 20, 20);
    nodes[8 * root + ISET_HULL_END] ^= 1, check("a hull"), point("a hull", 1), insert("full, a hull", 15, 35), take("a hull", 0);
    nodes[8 * root + ISET_HULL_END] ^= 1, room = 2;
    check("no room"), point("no room", 1), insert("no room", 15, 35), take("no room", 0);
    room = MOST;
    insert("fills the gap", 20, 30), check("then"), insert("to the greatest address", 60, UINT64_MAX), check("then");
    take("slot 1", 1), check("then"), take("U", ISET_U), take("slot 9", 9);
    point("the end of the greatest", UINT64_MAX), point("below it", UINT64_MAX - 1);
}

// By chance: `list` has the ranges of the map by slot.
static uint64_t list[MOST][2];
static unsigned long calls, refusals, overlaps;

static void fail(const char *what) {
    printf("disjoint: %s\n", what);
    exit(1);
}

// The opened call on a copy of the arrays has done the same.
static void same(const char *what, uint64_t no, uint64_t opened_no, const uint64_t *opened_answer) {
    calls++, refusals += no != 0, overlaps += no == ISET_OVERLAP;
    if (no != opened_no || memcmp(answer, opened_answer, sizeof answer)) fail(what);
    if (memcmp(nodes, opened_nodes, sizeof nodes) || memcmp(colours, opened_colours, sizeof colours)) fail(what);
    if (no && (memcmp(words, nodes, sizeof nodes) || memcmp(bits, colours, sizeof colours))) fail("a refusal changed the memory");
}

static int meets(uint64_t slot, uint64_t start, uint64_t end) { return list[slot][0] < end && start < list[slot][1]; }

// Both wrappers of a call on copies of the arrays: what they return, the map and the answer's
// numbers.
static void wrapped(const char *what, int kind, uint64_t no, uint64_t a, uint64_t b, uint64_t c) {
    for (int open = 0; open < 2; open++) {
        memcpy(opened_nodes, words, sizeof words);
        memcpy(opened_colours, bits, sizeof bits);
        iset_map map = {count, root, version};
        iset_memory memory = {OPENED};
        iset_entry entry = {a, b, c};
        iset_spot spot = {0, 0};
        iset_inserted in = {0, 0};
        iset_removed out = {0, 0, {{0, 0}, {0, 0}, {0, 0}}, 0};
        uint64_t got = kind == 0 ? (open ? iset_map_open_disjoint_insert : iset_map_disjoint_insert)(&map, memory, entry, &in)
            : kind == 1 ? (open ? iset_map_open_disjoint_remove : iset_map_disjoint_remove)(&map, memory, a, &out)
                        : (open ? iset_map_open_disjoint_point : iset_map_disjoint_point)(map, memory, a, &spot);
        if (got != no || memcmp(nodes, opened_nodes, sizeof nodes) || memcmp(colours, opened_colours, sizeof colours)) fail(what);
        if (map.version != version + (kind < 2 && no == ISET_OK)) fail(what);
        if (kind == 0 && (no == ISET_OK || no == ISET_OVERLAP ? in.slot != answer[2] || map.root != answer[1] : in.slot != ISET_U)) fail(what);
        if (kind == 1 && (no ? out.slot != ISET_U : out.value != answer[0] || map.count != answer[1])) fail(what);
        if (kind == 2 && (spot.slot != answer[0] || spot.entered != answer[1])) fail(what);
    }
}

// Before a call of each kind: the arrays and two answers.
static uint64_t opened_answer[ISET_REMOVE_ANSWER + 1];

static void begin(void) {
    lend();
    memcpy(opened_answer, answer, sizeof answer);
    memcpy(opened_nodes, nodes, sizeof nodes);
    memcpy(opened_colours, colours, sizeof colours);
}

static void chance_insert(void) {
    uint64_t start = any(400), end = start + any(12), met = ISET_U;
    begin();
    uint64_t no = iset_disjoint_insert(MAP, ARRAYS, start, end, 7, answer, 5);
    same("insert", no, iset_open_disjoint_insert(MAP, OPENED, start, end, 7, opened_answer, 5), opened_answer);
    wrapped("an insertion's wrapper", 0, no, start, end, 7);
    for (uint64_t i = 0; i < count && start < end; i++)
        if (meets(i, start, end) && (met == ISET_U || list[i][0] < list[met][0])) met = i;
    uint64_t want = start >= end ? ISET_BAD_INTERVAL : met != ISET_U ? ISET_OVERLAP : count == room ? ISET_NO_ROOM : ISET_OK;
    if (no != want || (no == ISET_OVERLAP && answer[2] != met)) fail("another refusal than the list's");
    if (no) return;
    if (answer[0] != count + 1 || answer[2] != count || answer[4] != version + 1) fail("the answer of an insertion");
    list[count][0] = start, list[count][1] = end;
    count = answer[0], root = answer[1], version = (uint32_t)answer[4];
}

static void chance_remove(void) {
    uint64_t slot = any(count + 2), after[MOST][2];
    begin();
    uint64_t no = iset_disjoint_remove(MAP, ARRAYS, slot, answer, 11);
    same("remove", no, iset_open_disjoint_remove(MAP, OPENED, slot, opened_answer, 11), opened_answer);
    wrapped("a removal's wrapper", 1, no, slot, 0, 0);
    if (no != (slot < count ? ISET_OK : ISET_NO_SUCH)) fail("another refusal than the list's");
    if (no) return;
    for (uint64_t i = 0; i < count; i++) {
        uint64_t to = iset_slot_after(answer, slot, i);
        if (to != ISET_U) memcpy(after[to], list[i], sizeof *list);
    }
    count = answer[1], root = answer[2], version = (uint32_t)answer[10];
    memcpy(list, after, count * sizeof *list);
}

static void chance_point(void) {
    uint64_t address = any(420), slot = ISET_U;
    begin();
    uint64_t no = iset_disjoint_point(count, root, ARRAYS, address, answer, 2);
    same("point", no, iset_open_disjoint_point(count, root, OPENED, address, opened_answer, 2), opened_answer);
    wrapped("a point lookup's wrapper", 2, no, address, 0, 0);
    for (uint64_t i = 0; i < count; i++)
        if (meets(i, address, address + 1)) slot = i;
    if (no || answer[0] != slot || answer[1] > 12) fail("another entry than the list's");
    uint64_t drained[5], out[2];
    if (iset_drain(count, root, ARRAYS, ISET_INCLUDED, address, ISET_INCLUDED, address, root, 1, 0, 2, out, 2, drained, 5)) fail("drain");
    if (drained[0] != (slot != ISET_U) || (drained[0] == 1 && out[0] != slot)) fail("another entry than the drain's");
}

int main(void) {
    cases();
    for (int round = 0; round < 60; round++) {
        count = 0, root = ISET_U, room = 1 + any(MOST);
        for (int i = 0; i < 200; i++) {
            if (any(3)) chance_insert();
            else chance_remove();
            chance_point();
            if (iset_map_disjoint_check((iset_map){count, root, version}, iset_memory_of(ARRAYS))) fail("the map is not disjoint");
        }
    }
    printf("disjoint: %lu calls as the list says, %lu of them refused, %lu with an overlap\n", calls, refusals, overlaps);
    return 0;
}
