/* A small host: it builds a map, looks up a range, removes an entry, carries the slots that it kept
 * over the removal, inserts an entry, and reads through a ticket. To build and run it on x86-64:
 *
 *     ./archive
 *     gcc -std=c99 -I include examples/host.c target/staticlib/libiset.a -o host && ./host
 *
 * It prints the lines of examples/host.expected. examples/host_map.c is the same host with the
 * structs of include/iset_map.h. */
#include <inttypes.h>
#include <stdio.h>

#include "iset.h"

#define ENTRIES 8

/* The memory that is lent to every call, and the map in it. */
static uint64_t nodes[ISET_NODES_LEN(ENTRIES)];
static uint8_t colours[ISET_COLOURS_LEN(ENTRIES)];
static uint64_t count, root = ISET_U;
static uint32_t version;

#define MEMORY nodes, ISET_NODES_LEN(ENTRIES), colours, ISET_COLOURS_LEN(ENTRIES)

/* Whether a call went well. Any number but ISET_OK is a refusal. */
static int went_well(uint64_t no) {
    if (no != ISET_OK) printf("refused: %s (%" PRIu64 ")\n", iset_refusal_name(no), no);
    return no == ISET_OK;
}

static int build(void) {
    static const uint64_t list[] = {10, 20, 1, 10, 30, 2, 25, 40, 3, 40, 50, 4, 45, 60, 5};
    uint64_t answer[ISET_BUILD_ANSWER];
    if (!went_well(iset_build(version, MEMORY, list, sizeof list / sizeof *list, answer,
            ISET_BUILD_ANSWER)))
        return 0;
    count = answer[ISET_BUILT_COUNT];
    root = answer[ISET_BUILT_ROOT];
    version = (uint32_t)answer[ISET_BUILT_VERSION];
    printf("built %" PRIu64 " entries\n", count);
    return 1;
}

/* Prints the entries that intersect the range from start up to and without end. The output has two
 * places: if there are more hits, the cursor says where to go on. */
static int look_up(uint64_t start, uint64_t end) {
    uint64_t cursor[ISET_FRESH_ANSWER], out[2], answer[ISET_DRAIN_ANSWER];
    printf("the entries that intersect [%" PRIu64 ", %" PRIu64 "):\n", start, end);
    if (!went_well(iset_fresh(count, root, cursor, ISET_FRESH_ANSWER))) return 0;
    while (cursor[ISET_FRESH_SLOT] != ISET_U) {
        if (!went_well(iset_drain(count, root, MEMORY, ISET_INCLUDED, start, ISET_EXCLUDED, end,
                cursor[ISET_FRESH_SLOT], cursor[ISET_FRESH_LEVELS], cursor[ISET_FRESH_BITS], 0, out,
                2, answer, ISET_DRAIN_ANSWER)))
            return 0;
        for (uint64_t i = 0; i < answer[ISET_DRAINED_HITS]; i++) {
            const uint64_t *node = nodes + out[i] * ISET_NODE_WORDS;
            printf("  slot %" PRIu64 ": [%" PRIu64 ", %" PRIu64 ") value %" PRIu64 "\n", out[i],
                node[ISET_START], node[ISET_END], node[ISET_VALUE]);
        }
        cursor[ISET_FRESH_SLOT] = answer[ISET_DRAINED_NEXT_SLOT];
        cursor[ISET_FRESH_LEVELS] = answer[ISET_DRAINED_NEXT_LEVELS];
        cursor[ISET_FRESH_BITS] = answer[ISET_DRAINED_NEXT_BITS];
    }
    return 1;
}

/* Removes the entry of a slot, and updates the slots that the host kept: ISET_U for the removed
 * entry. */
static int remove_slot(uint64_t slot, uint64_t *kept, size_t kept_len) {
    uint64_t answer[ISET_REMOVE_ANSWER];
    if (!went_well(iset_remove(count, root, version, MEMORY, slot, answer, ISET_REMOVE_ANSWER)))
        return 0;
    count = answer[ISET_REMOVED_COUNT];
    root = answer[ISET_REMOVED_ROOT];
    version = (uint32_t)answer[ISET_REMOVED_VERSION];
    printf("removed value %" PRIu64 " from slot %" PRIu64 "\n", answer[ISET_REMOVED_VALUE], slot);
    for (size_t i = 0; i < kept_len; i++) {
        uint64_t after = iset_slot_after(answer, slot, kept[i]);
        if (after == ISET_U) printf("  slot %" PRIu64 " was removed\n", kept[i]);
        else printf("  slot %" PRIu64 " is slot %" PRIu64 " now\n", kept[i], after);
        kept[i] = after;
    }
    return 1;
}

static int insert(uint64_t start, uint64_t end, uint64_t value) {
    uint64_t answer[ISET_INSERT_ANSWER];
    if (!went_well(
            iset_insert(count, root, version, MEMORY, start, end, value, answer,
                ISET_INSERT_ANSWER)))
        return 0;
    count = answer[ISET_INSERTED_COUNT];
    root = answer[ISET_INSERTED_ROOT];
    version = (uint32_t)answer[ISET_INSERTED_VERSION];
    printf("inserted value %" PRIu64 " in slot %" PRIu64 "\n", value, answer[ISET_INSERTED_SLOT]);
    return 1;
}

/* Reads the entry of a slot, if the map is still as it was at version `taken`. */
static int read_slot(uint64_t slot, uint32_t taken) {
    uint64_t answer[ISET_READ_ANSWER];
    if (!went_well(
            iset_read(count, root, version, MEMORY, slot, taken, answer, ISET_READ_ANSWER)))
        return 0;
    printf("read value %" PRIu64 " in slot %" PRIu64 "\n", answer[ISET_READ_VALUE], slot);
    return 1;
}

int main(void) {
    uint64_t kept[] = {0, 1, 2, 4};
    if (!build() || !look_up(20, 45)) return 1;
    /* A ticket for slot 1: it can be read until the next change. */
    uint32_t taken = version;
    if (!read_slot(1, taken) || !remove_slot(1, kept, 4) || read_slot(1, taken)) return 1;
    if (!insert(30, 35, 6) || !look_up(20, 45)) return 1;
    /* There is no slot 9: the call is refused, and changes nothing. */
    return remove_slot(9, kept, 4) ? 1 : 0;
}
