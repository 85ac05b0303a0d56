/* The host of examples/host.c with the structs of include/iset_map.h. It builds the map, so the
 * store needs no check, and nobody else writes the memory: it makes the opened calls of
 * include/iset_open.h. To build and run it on x86-64:
 *
 *     ./archive
 *     gcc -std=c99 -I include examples/host_map.c target/staticlib/libiset.a \
 *         target/staticlib/libiset_open.a -o host_map && ./host_map
 * */
#include <inttypes.h>
#include <stdio.h>

#include "iset_map.h"

#define ENTRIES 8

/* Whether a call went well. Any number but ISET_OK is a refusal. */
static int went_well(uint64_t no) {
    if (no != ISET_OK) printf("refused: %s (%" PRIu64 ")\n", iset_refusal_name(no), no);
    return no == ISET_OK;
}

static int look_up(iset_map map, iset_memory memory, uint64_t start, uint64_t end) {
    uint64_t out[2];
    iset_cursor cursor;
    iset_drained drained;
    iset_entry entry;
    printf("the entries that intersect [%" PRIu64 ", %" PRIu64 "):\n", start, end);
    if (!went_well(iset_map_fresh(map, &cursor))) return 0;
    for (; cursor.slot != ISET_U; cursor = drained.next) {
        if (!went_well(iset_map_open_drain(
                map, memory, iset_range_from(start, end), cursor, 0, out, 2, &drained)))
            return 0;
        for (uint64_t i = 0; i < drained.hits; i++) {
            if (!went_well(iset_map_get(map, memory, out[i], &entry))) return 0;
            printf("  slot %" PRIu64 ": [%" PRIu64 ", %" PRIu64 ") value %" PRIu64 "\n", out[i],
                entry.start, entry.end, entry.value);
        }
    }
    return 1;
}

static int remove_slot(
    iset_map *map, iset_memory memory, uint64_t slot, uint64_t *kept, size_t kept_len) {
    iset_removed removed;
    if (!went_well(iset_map_open_remove(map, memory, slot, &removed))) return 0;
    printf("removed value %" PRIu64 " from slot %" PRIu64 "\n", removed.value, slot);
    for (size_t i = 0; i < kept_len; i++) {
        uint64_t after = iset_map_slot_after(&removed, kept[i]);
        if (after == ISET_U) printf("  slot %" PRIu64 " was removed\n", kept[i]);
        else printf("  slot %" PRIu64 " is slot %" PRIu64 " now\n", kept[i], after);
        kept[i] = after;
    }
    return 1;
}

static int read_ticket(iset_map map, iset_memory memory, iset_ticket ticket) {
    iset_entry entry;
    if (!went_well(iset_map_open_read(map, memory, ticket, &entry))) return 0;
    printf("read value %" PRIu64 " in slot %" PRIu64 "\n", entry.value, ticket.slot);
    return 1;
}

int main(void) {
    static const iset_entry list[] = {
        {10, 20, 1}, {10, 30, 2}, {25, 40, 3}, {40, 50, 4}, {45, 60, 5}};
    static uint64_t nodes[ISET_NODES_LEN(ENTRIES)];
    static uint8_t colours[ISET_COLOURS_LEN(ENTRIES)];
    uint64_t kept[] = {0, 1, 2, 4};
    iset_memory memory = iset_memory_of(
        nodes, ISET_NODES_LEN(ENTRIES), colours, ISET_COLOURS_LEN(ENTRIES));
    iset_entry entry = {30, 35, 6};
    iset_map map = iset_map_none();
    iset_inserted inserted;

    if (!went_well(iset_map_build(&map, memory, list, sizeof list / sizeof *list))) return 1;
    printf("built %" PRIu64 " entries\n", map.count);
    if (!look_up(map, memory, 20, 45)) return 1;
    /* A ticket for slot 1: it can be read until the next change. */
    iset_ticket ticket = iset_map_ticket(map, 1);
    if (!read_ticket(map, memory, ticket) || !remove_slot(&map, memory, 1, kept, 4)) return 1;
    if (read_ticket(map, memory, ticket)) return 1;
    if (!went_well(iset_map_open_insert(&map, memory, entry, &inserted))) return 1;
    printf("inserted value %" PRIu64 " in slot %" PRIu64 "\n", entry.value, inserted.slot);
    if (!look_up(map, memory, 20, 45)) return 1;
    /* There is no slot 9: the call is refused, and changes nothing. */
    return remove_slot(&map, memory, 9, kept, 4) ? 1 : 0;
}
