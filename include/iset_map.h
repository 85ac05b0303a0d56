/* The calls of iset.h, iset_open.h and iset_disjoint.h with structs: one for each thing that those
 * take or answer as single numbers. All of it is static inline code over those calls.
 *
 * A wrapper takes the arguments of its call in its call's order, with a struct for a map, for the
 * two arrays, for a range and for a cursor. It returns the call's number: ISET_OK, or a refusal. It
 * writes the answer through its last pointer, and after a change the new map through `map`. After a
 * refusal the map is as it was, and the answer is empty: its slots are ISET_U, its other numbers 0.
 * No pointer to a struct may be NULL.
 *
 * iset_map_NAME makes the public call iset_NAME, which checks the store; link libiset.a.
 * iset_map_open_NAME makes the opened call iset_open_NAME, which does not check: iset_open.h says
 * who may use it. For these link libiset_open.a too. A host that uses none of them does not need
 * it. iset_map_at and iset_map_open_at make the calls find_all for one address.
 *
 * iset_map_disjoint_NAME and iset_map_open_disjoint_NAME make the calls of iset_disjoint.h; for
 * these link libiset_disjoint.a. An insertion that they refuse with OVERLAP has the slot that is
 * named in its answer.
 *
 * An example is examples/host_map.c. */
#ifndef ISET_MAP_H
#define ISET_MAP_H

#include "iset.h"
#include "iset_disjoint.h"
#include "iset_open.h"

#ifdef __cplusplus
extern "C" {
#endif

/* A map: its number of entries, the slot of its root, and how often it was changed, modulo 2^32. */
typedef struct iset_map {
    uint64_t count, root;
    uint32_t version;
} iset_map;

/* A slot with the version that the map had when the ticket was taken. */
typedef struct iset_ticket {
    uint64_t slot;
    uint32_t version;
} iset_ticket;

/* The two lent arrays. Only builds, removals, insertions, unloadings, renumberings and readings of
 * an image write them. */
typedef struct iset_memory {
    uint64_t *nodes;
    size_t nodes_len;
    uint8_t *colours;
    size_t colours_len;
} iset_memory;

/* A range of addresses, from start up to and without end, and its value. */
typedef struct iset_entry {
    uint64_t start, end, value;
} iset_entry;

/* One end of a range: its kind, of enum iset_bound_kind, and its address. */
typedef struct iset_bound {
    uint64_t kind, at;
} iset_bound;

/* A range to look for. */
typedef struct iset_range {
    iset_bound lo, hi;
} iset_range;

/* The place of a lookup. At the end its slot is ISET_U. */
typedef struct iset_cursor {
    uint64_t slot, levels, bits;
} iset_cursor;

/* An entry that changed slot; ISET_U twice if there is none. */
typedef struct iset_move {
    uint64_t old_slot, new_slot;
} iset_move;

/* The answer of a removal: the slot that was removed and its value, the entries that moved by
 * rising old slot, and how many of the hulls that were worked out changed. */
typedef struct iset_removed {
    uint64_t slot, value;
    iset_move moved[3];
    uint64_t reach;
} iset_removed;

/* The answer of an insertion: the new entry's slot, and how many of the hulls that were worked out
 * changed. */
typedef struct iset_inserted {
    uint64_t slot, reach;
} iset_inserted;

/* The answer of a step: the slot of the hit, ISET_U at the end; the cursor of the next step; the
 * number of nodes entered. */
typedef struct iset_stepped {
    uint64_t slot;
    iset_cursor next;
    uint64_t entered;
} iset_stepped;

/* The answer of a drain: the number of slots written, the number of nodes entered, and the cursor
 * of the next drain. */
typedef struct iset_drained {
    uint64_t hits, entered;
    iset_cursor next;
} iset_drained;

/* The answer of a lookup that finds all hits at once: the number of hits, and the number of nodes
 * entered. */
typedef struct iset_tally {
    uint64_t hits, entered;
} iset_tally;

/* The answer of a point lookup in a disjoint map: the slot of the entry that holds the address,
 * ISET_U if there is none; the number of nodes entered. */
typedef struct iset_spot {
    uint64_t slot, entered;
} iset_spot;

/* The map of no entries. */
static inline iset_map iset_map_none(void) {
    iset_map map = {0, ISET_U, 0};
    return map;
}

/* The two arrays by their pointers and lengths, which count elements. */
static inline iset_memory iset_memory_of(
    uint64_t *nodes, size_t nodes_len, uint8_t *colours, size_t colours_len) {
    iset_memory memory = {nodes, nodes_len, colours, colours_len};
    return memory;
}

static inline iset_bound iset_included(uint64_t at) {
    iset_bound bound = {ISET_INCLUDED, at};
    return bound;
}

static inline iset_bound iset_excluded(uint64_t at) {
    iset_bound bound = {ISET_EXCLUDED, at};
    return bound;
}

static inline iset_bound iset_unbounded(void) {
    iset_bound bound = {ISET_UNBOUNDED, 0};
    return bound;
}

static inline iset_range iset_range_of(iset_bound lo, iset_bound hi) {
    iset_range range = {lo, hi};
    return range;
}

/* From start up to and without end. */
static inline iset_range iset_range_from(uint64_t start, uint64_t end) {
    return iset_range_of(iset_included(start), iset_excluded(end));
}

/* One address: the entries that hold it intersect this range. */
static inline iset_range iset_range_at(uint64_t address) {
    return iset_range_of(iset_included(address), iset_included(address));
}

/* Every entry intersects this range. */
static inline iset_range iset_range_all(void) {
    return iset_range_of(iset_unbounded(), iset_unbounded());
}

/* Reads the entry of a slot.
 * Refusals: NO_SUCH, NO_ROOM if the array of nodes does not hold the slot. */
static inline uint64_t iset_map_get(
    iset_map map, iset_memory memory, uint64_t slot, iset_entry *entry) {
    const uint64_t *words;
    entry->start = entry->end = entry->value = 0;
    if (slot >= map.count) return ISET_NO_SUCH;
    if (slot >= memory.nodes_len / ISET_NODE_WORDS) return ISET_NO_ROOM;
    words = memory.nodes + slot * ISET_NODE_WORDS;
    entry->start = words[ISET_START];
    entry->end = words[ISET_END];
    entry->value = words[ISET_VALUE];
    return ISET_OK;
}

/* A ticket for a slot. The slot is tested when the ticket is used. */
static inline iset_ticket iset_map_ticket(iset_map map, uint64_t slot) {
    iset_ticket ticket = {slot, map.version};
    return ticket;
}

/* What the wrappers share. First the arguments of a call, without and with the version. */
#define ISET_LENT_(map, memory) \
    (map).count, (map).root, (memory).nodes, (memory).nodes_len, (memory).colours, \
        (memory).colours_len
#define ISET_DATED_(map, memory) \
    (map).count, (map).root, (map).version, (memory).nodes, (memory).nodes_len, \
        (memory).colours, (memory).colours_len
#define ISET_RANGE_(range) (range).lo.kind, (range).lo.at, (range).hi.kind, (range).hi.at
#define ISET_CURSOR_(cursor) (cursor).slot, (cursor).levels, (cursor).bits

/* Then the empty answers. A refused call leaves them. */
#define ISET_NOT_REMOVED_(map) \
    { 0, (map).count, (map).root, ISET_U, ISET_U, ISET_U, ISET_U, ISET_U, ISET_U, 0, \
        (map).version }
#define ISET_NOT_INSERTED_(map) \
    { (map).count, (map).root, ISET_U, 0, (map).version }
#define ISET_NOT_UNLOADED_(map) \
    { (map).count, (map).root, (map).version, 0 }
#define ISET_NOT_RENUMBERED_(map) \
    { (map).count, (map).root, (map).version }
#define ISET_ENDED_ \
    { ISET_U, 0, 0 }
#define ISET_NO_STEP_ \
    { ISET_U, ISET_U, 0, 0, 0 }
#define ISET_NO_HITS_ \
    { 0, 0, ISET_U, 0, 0 }

/* Then the structs of the answers. */

static inline iset_map iset_map_(uint64_t count, uint64_t root, uint64_t version) {
    iset_map map = {count, root, (uint32_t)version};
    return map;
}

static inline iset_entry iset_entry_(const uint64_t *answer) {
    iset_entry entry = {answer[ISET_READ_START], answer[ISET_READ_END], answer[ISET_READ_VALUE]};
    return entry;
}

static inline iset_cursor iset_cursor_(const uint64_t *numbers) {
    iset_cursor cursor = {numbers[0], numbers[1], numbers[2]};
    return cursor;
}

static inline iset_removed iset_removed_(uint64_t slot, const uint64_t *answer) {
    const uint64_t *moves = answer + ISET_REMOVED_MOVES;
    iset_removed removed = {slot, answer[ISET_REMOVED_VALUE],
        {{moves[0], moves[1]}, {moves[2], moves[3]}, {moves[4], moves[5]}},
        answer[ISET_REMOVED_REACH]};
    return removed;
}

static inline iset_inserted iset_inserted_(const uint64_t *answer) {
    iset_inserted inserted = {answer[ISET_INSERTED_SLOT], answer[ISET_INSERTED_REACH]};
    return inserted;
}

static inline iset_stepped iset_stepped_(const uint64_t *answer) {
    iset_stepped stepped = {answer[ISET_STEP_HIT], iset_cursor_(answer + ISET_STEP_NEXT_SLOT),
        answer[ISET_STEP_ENTERED]};
    return stepped;
}

static inline iset_drained iset_drained_(const uint64_t *answer) {
    iset_drained drained = {answer[ISET_DRAINED_HITS], answer[ISET_DRAINED_ENTERED],
        iset_cursor_(answer + ISET_DRAINED_NEXT_SLOT)};
    return drained;
}

static inline iset_tally iset_tally_(const uint64_t *answer) {
    iset_tally tally = {answer[ISET_PLAIN_HITS], answer[ISET_PLAIN_ENTERED]};
    return tally;
}

/* The public calls. */

static inline uint64_t iset_map_check(iset_map map, iset_memory memory) {
    return iset_check(ISET_LENT_(map, memory));
}

/* `list` has `entries` entries, sorted by start, then end. BAD_LIST is never returned. `map` is the
 * map that the new one takes the place of: its version is read. Begin with iset_map_none. */
static inline uint64_t iset_map_build(iset_map *map, iset_memory memory, const iset_entry *list,
    size_t entries) {
    uint64_t answer[ISET_BUILD_ANSWER] = {0, ISET_U, 0};
    uint64_t no = iset_build(map->version, memory.nodes, memory.nodes_len, memory.colours,
        memory.colours_len, (const uint64_t *)list, entries * 3, answer, ISET_BUILD_ANSWER);
    if (no == ISET_OK)
        *map = iset_map_(
            answer[ISET_BUILT_COUNT], answer[ISET_BUILT_ROOT], answer[ISET_BUILT_VERSION]);
    return no;
}

static inline uint64_t iset_map_remove(iset_map *map, iset_memory memory, uint64_t slot,
    iset_removed *removed) {
    uint64_t answer[ISET_REMOVE_ANSWER] = ISET_NOT_REMOVED_(*map);
    uint64_t no = iset_remove(ISET_DATED_(*map, memory), slot, answer, ISET_REMOVE_ANSWER);
    *map = iset_map_(
        answer[ISET_REMOVED_COUNT], answer[ISET_REMOVED_ROOT], answer[ISET_REMOVED_VERSION]);
    *removed = iset_removed_(no == ISET_OK ? slot : ISET_U, answer);
    return no;
}

/* The slot after a removal of the entry that had slot `kept` before it; ISET_U if it is the removed
 * one. */
static inline uint64_t iset_map_slot_after(const iset_removed *removed, uint64_t kept) {
    const iset_move *moved = removed->moved;
    const uint64_t answer[ISET_REMOVE_ANSWER] = {0, 0, 0, moved[0].old_slot, moved[0].new_slot,
        moved[1].old_slot, moved[1].new_slot, moved[2].old_slot, moved[2].new_slot, 0, 0};
    return iset_slot_after(answer, removed->slot, kept);
}

static inline uint64_t iset_map_insert(iset_map *map, iset_memory memory, iset_entry entry,
    iset_inserted *inserted) {
    uint64_t answer[ISET_INSERT_ANSWER] = ISET_NOT_INSERTED_(*map);
    uint64_t no = iset_insert(ISET_DATED_(*map, memory), entry.start, entry.end, entry.value, answer,
        ISET_INSERT_ANSWER);
    *map = iset_map_(
        answer[ISET_INSERTED_COUNT], answer[ISET_INSERTED_ROOT], answer[ISET_INSERTED_VERSION]);
    *inserted = iset_inserted_(answer);
    return no;
}

/* Removes the entries that intersect a range, and sets how many went: see iset_unload. */
static inline uint64_t iset_map_unload(iset_map *map, iset_memory memory, iset_range range,
    uint64_t *gone) {
    uint64_t answer[ISET_UNLOAD_ANSWER] = ISET_NOT_UNLOADED_(*map);
    uint64_t no = iset_unload(ISET_DATED_(*map, memory), ISET_RANGE_(range), answer,
        ISET_UNLOAD_ANSWER);
    *map = iset_map_(
        answer[ISET_UNLOADED_COUNT], answer[ISET_UNLOADED_ROOT], answer[ISET_UNLOADED_VERSION]);
    *gone = answer[ISET_UNLOADED_GONE];
    return no;
}

/* Writes a plan that numbers the slots in the order of the entries: see iset_propose. */
static inline uint64_t iset_map_propose(iset_map map, iset_memory memory, uint64_t *out,
    size_t out_len) {
    return iset_propose(ISET_LENT_(map, memory), out, out_len);
}

/* Renumbers the slots by a plan, whose length is the count: see iset_renumber. */
static inline uint64_t iset_map_renumber(iset_map *map, iset_memory memory,
    const uint64_t *plan, size_t plan_len) {
    uint64_t answer[ISET_RENUMBER_ANSWER] = ISET_NOT_RENUMBERED_(*map);
    uint64_t no = iset_renumber(ISET_DATED_(*map, memory), plan, plan_len, answer,
        ISET_RENUMBER_ANSWER);
    *map = iset_map_(answer[ISET_RENUMBERED_COUNT], answer[ISET_RENUMBERED_ROOT],
        answer[ISET_RENUMBERED_VERSION]);
    return no;
}

/* Reads the entry of a ticket: see iset_read. */
static inline uint64_t iset_map_read(iset_map map, iset_memory memory, iset_ticket ticket,
    iset_entry *entry) {
    uint64_t answer[ISET_READ_ANSWER] = {0, 0, 0};
    uint64_t no = iset_read(ISET_DATED_(map, memory), ticket.slot, ticket.version, answer,
        ISET_READ_ANSWER);
    *entry = iset_entry_(answer);
    return no;
}

/* Writes the map as an image, and sets its length: see iset_write_image. */
static inline uint64_t iset_map_write_image(iset_map map, iset_memory memory, uint8_t *out,
    size_t out_len, size_t *length) {
    uint64_t answer[ISET_WRITE_IMAGE_ANSWER] = {0};
    uint64_t no = iset_write_image(ISET_LENT_(map, memory), out, out_len, answer,
        ISET_WRITE_IMAGE_ANSWER);
    *length = (size_t)answer[ISET_WRITTEN_LENGTH];
    return no;
}

/* Reads the map of an image in the place of the map: see iset_read_image. Serves the opened calls
 * too. If it is refused, the map is as it was. */
static inline uint64_t iset_map_read_image(iset_map *map, iset_memory memory, const uint8_t *image,
    size_t image_len) {
    uint64_t answer[ISET_READ_IMAGE_ANSWER] = {0, ISET_U, 0};
    uint64_t no = iset_read_image(map->version, memory.nodes, memory.nodes_len, memory.colours,
        memory.colours_len, image, image_len, answer, ISET_READ_IMAGE_ANSWER);
    if (no == ISET_OK)
        *map = iset_map_(
            answer[ISET_LOADED_COUNT], answer[ISET_LOADED_ROOT], answer[ISET_LOADED_VERSION]);
    return no;
}

/* Serves the opened calls too. */
static inline uint64_t iset_map_fresh(iset_map map, iset_cursor *cursor) {
    uint64_t answer[ISET_FRESH_ANSWER] = ISET_ENDED_;
    uint64_t no = iset_fresh(map.count, map.root, answer, ISET_FRESH_ANSWER);
    *cursor = iset_cursor_(answer);
    return no;
}

static inline uint64_t iset_map_fresh_exact(iset_map map, iset_memory memory, uint64_t start,
    uint64_t end, iset_cursor *cursor) {
    uint64_t answer[ISET_FRESH_ANSWER] = ISET_ENDED_;
    uint64_t no = iset_fresh_exact(ISET_LENT_(map, memory), start, end, answer, ISET_FRESH_ANSWER);
    *cursor = iset_cursor_(answer);
    return no;
}

static inline uint64_t iset_map_step(iset_map map, iset_memory memory, iset_range range,
    iset_cursor from, iset_stepped *stepped) {
    uint64_t answer[ISET_STEP_ANSWER] = ISET_NO_STEP_;
    uint64_t no = iset_step(ISET_LENT_(map, memory), ISET_RANGE_(range), ISET_CURSOR_(from), answer,
        ISET_STEP_ANSWER);
    *stepped = iset_stepped_(answer);
    return no;
}

static inline uint64_t iset_map_step_exact(iset_map map, iset_memory memory, uint64_t start,
    uint64_t end, iset_cursor from, iset_stepped *stepped) {
    uint64_t answer[ISET_STEP_ANSWER] = ISET_NO_STEP_;
    uint64_t no = iset_step_exact(ISET_LENT_(map, memory), start, end, ISET_CURSOR_(from), answer,
        ISET_STEP_ANSWER);
    *stepped = iset_stepped_(answer);
    return no;
}

static inline uint64_t iset_map_drain(iset_map map, iset_memory memory, iset_range range,
    iset_cursor from, uint64_t limit, uint64_t *out, size_t out_len, iset_drained *drained) {
    uint64_t answer[ISET_DRAIN_ANSWER] = ISET_NO_HITS_;
    uint64_t no = iset_drain(ISET_LENT_(map, memory), ISET_RANGE_(range), ISET_CURSOR_(from), limit,
        out, out_len, answer, ISET_DRAIN_ANSWER);
    *drained = iset_drained_(answer);
    return no;
}

static inline uint64_t iset_map_drain_exact(iset_map map, iset_memory memory, uint64_t start,
    uint64_t end, iset_cursor from, uint64_t limit, uint64_t *out, size_t out_len,
    iset_drained *drained) {
    uint64_t answer[ISET_DRAIN_ANSWER] = ISET_NO_HITS_;
    uint64_t no = iset_drain_exact(ISET_LENT_(map, memory), start, end, ISET_CURSOR_(from), limit,
        out, out_len, answer, ISET_DRAIN_ANSWER);
    *drained = iset_drained_(answer);
    return no;
}

static inline uint64_t iset_map_plain(iset_map map, iset_memory memory, iset_range range,
    uint64_t *out, size_t out_len, iset_tally *tally) {
    uint64_t answer[ISET_PLAIN_ANSWER] = {0, 0};
    uint64_t no = iset_plain(ISET_LENT_(map, memory), ISET_RANGE_(range), out, out_len, answer,
        ISET_PLAIN_ANSWER);
    *tally = iset_tally_(answer);
    return no;
}

static inline uint64_t iset_map_plain_exact(iset_map map, iset_memory memory, uint64_t start,
    uint64_t end, uint64_t *out, size_t out_len, iset_tally *tally) {
    uint64_t answer[ISET_PLAIN_ANSWER] = {0, 0};
    uint64_t no = iset_plain_exact(ISET_LENT_(map, memory), start, end, out, out_len, answer,
        ISET_PLAIN_ANSWER);
    *tally = iset_tally_(answer);
    return no;
}

static inline uint64_t iset_map_find_all(iset_map map, iset_memory memory, iset_range range,
    uint64_t *out, size_t out_len, iset_tally *tally) {
    uint64_t answer[ISET_FIND_ALL_ANSWER] = {0, 0};
    uint64_t no = iset_find_all(ISET_LENT_(map, memory), ISET_RANGE_(range), out, out_len, answer,
        ISET_FIND_ALL_ANSWER);
    *tally = iset_tally_(answer);
    return no;
}

static inline uint64_t iset_map_find_all_exact(iset_map map, iset_memory memory, uint64_t start,
    uint64_t end, uint64_t *out, size_t out_len, iset_tally *tally) {
    uint64_t answer[ISET_FIND_ALL_ANSWER] = {0, 0};
    uint64_t no = iset_find_all_exact(ISET_LENT_(map, memory), start, end, out, out_len, answer,
        ISET_FIND_ALL_ANSWER);
    *tally = iset_tally_(answer);
    return no;
}

/* Finds the entries that hold an address. */
static inline uint64_t iset_map_at(iset_map map, iset_memory memory, uint64_t address,
    uint64_t *out, size_t out_len, iset_tally *tally) {
    return iset_map_find_all(map, memory, iset_range_at(address), out, out_len, tally);
}

/* The opened calls. */

static inline uint64_t iset_map_open_remove(iset_map *map, iset_memory memory, uint64_t slot,
    iset_removed *removed) {
    uint64_t answer[ISET_REMOVE_ANSWER] = ISET_NOT_REMOVED_(*map);
    uint64_t no = iset_open_remove(ISET_DATED_(*map, memory), slot, answer, ISET_REMOVE_ANSWER);
    *map = iset_map_(
        answer[ISET_REMOVED_COUNT], answer[ISET_REMOVED_ROOT], answer[ISET_REMOVED_VERSION]);
    *removed = iset_removed_(no == ISET_OK ? slot : ISET_U, answer);
    return no;
}

static inline uint64_t iset_map_open_insert(iset_map *map, iset_memory memory, iset_entry entry,
    iset_inserted *inserted) {
    uint64_t answer[ISET_INSERT_ANSWER] = ISET_NOT_INSERTED_(*map);
    uint64_t no = iset_open_insert(ISET_DATED_(*map, memory), entry.start, entry.end, entry.value,
        answer, ISET_INSERT_ANSWER);
    *map = iset_map_(
        answer[ISET_INSERTED_COUNT], answer[ISET_INSERTED_ROOT], answer[ISET_INSERTED_VERSION]);
    *inserted = iset_inserted_(answer);
    return no;
}

static inline uint64_t iset_map_open_unload(iset_map *map, iset_memory memory, iset_range range,
    uint64_t *gone) {
    uint64_t answer[ISET_UNLOAD_ANSWER] = ISET_NOT_UNLOADED_(*map);
    uint64_t no = iset_open_unload(ISET_DATED_(*map, memory), ISET_RANGE_(range), answer,
        ISET_UNLOAD_ANSWER);
    *map = iset_map_(
        answer[ISET_UNLOADED_COUNT], answer[ISET_UNLOADED_ROOT], answer[ISET_UNLOADED_VERSION]);
    *gone = answer[ISET_UNLOADED_GONE];
    return no;
}

static inline uint64_t iset_map_open_propose(iset_map map, iset_memory memory, uint64_t *out,
    size_t out_len) {
    return iset_open_propose(ISET_LENT_(map, memory), out, out_len);
}

static inline uint64_t iset_map_open_renumber(iset_map *map, iset_memory memory,
    const uint64_t *plan, size_t plan_len) {
    uint64_t answer[ISET_RENUMBER_ANSWER] = ISET_NOT_RENUMBERED_(*map);
    uint64_t no = iset_open_renumber(ISET_DATED_(*map, memory), plan, plan_len, answer,
        ISET_RENUMBER_ANSWER);
    *map = iset_map_(answer[ISET_RENUMBERED_COUNT], answer[ISET_RENUMBERED_ROOT],
        answer[ISET_RENUMBERED_VERSION]);
    return no;
}

static inline uint64_t iset_map_open_read(iset_map map, iset_memory memory, iset_ticket ticket,
    iset_entry *entry) {
    uint64_t answer[ISET_READ_ANSWER] = {0, 0, 0};
    uint64_t no = iset_open_read(ISET_DATED_(map, memory), ticket.slot, ticket.version, answer,
        ISET_READ_ANSWER);
    *entry = iset_entry_(answer);
    return no;
}

static inline uint64_t iset_map_open_write_image(iset_map map, iset_memory memory, uint8_t *out,
    size_t out_len, size_t *length) {
    uint64_t answer[ISET_WRITE_IMAGE_ANSWER] = {0};
    uint64_t no = iset_open_write_image(ISET_LENT_(map, memory), out, out_len, answer,
        ISET_WRITE_IMAGE_ANSWER);
    *length = (size_t)answer[ISET_WRITTEN_LENGTH];
    return no;
}

static inline uint64_t iset_map_open_fresh_exact(iset_map map, iset_memory memory, uint64_t start,
    uint64_t end, iset_cursor *cursor) {
    uint64_t answer[ISET_FRESH_ANSWER] = ISET_ENDED_;
    uint64_t no = iset_open_fresh_exact(ISET_LENT_(map, memory), start, end, answer,
        ISET_FRESH_ANSWER);
    *cursor = iset_cursor_(answer);
    return no;
}

static inline uint64_t iset_map_open_step(iset_map map, iset_memory memory, iset_range range,
    iset_cursor from, iset_stepped *stepped) {
    uint64_t answer[ISET_STEP_ANSWER] = ISET_NO_STEP_;
    uint64_t no = iset_open_step(ISET_LENT_(map, memory), ISET_RANGE_(range), ISET_CURSOR_(from),
        answer, ISET_STEP_ANSWER);
    *stepped = iset_stepped_(answer);
    return no;
}

static inline uint64_t iset_map_open_step_exact(iset_map map, iset_memory memory, uint64_t start,
    uint64_t end, iset_cursor from, iset_stepped *stepped) {
    uint64_t answer[ISET_STEP_ANSWER] = ISET_NO_STEP_;
    uint64_t no = iset_open_step_exact(ISET_LENT_(map, memory), start, end, ISET_CURSOR_(from),
        answer, ISET_STEP_ANSWER);
    *stepped = iset_stepped_(answer);
    return no;
}

static inline uint64_t iset_map_open_drain(iset_map map, iset_memory memory, iset_range range,
    iset_cursor from, uint64_t limit, uint64_t *out, size_t out_len, iset_drained *drained) {
    uint64_t answer[ISET_DRAIN_ANSWER] = ISET_NO_HITS_;
    uint64_t no = iset_open_drain(ISET_LENT_(map, memory), ISET_RANGE_(range), ISET_CURSOR_(from),
        limit, out, out_len, answer, ISET_DRAIN_ANSWER);
    *drained = iset_drained_(answer);
    return no;
}

static inline uint64_t iset_map_open_drain_exact(iset_map map, iset_memory memory, uint64_t start,
    uint64_t end, iset_cursor from, uint64_t limit, uint64_t *out, size_t out_len,
    iset_drained *drained) {
    uint64_t answer[ISET_DRAIN_ANSWER] = ISET_NO_HITS_;
    uint64_t no = iset_open_drain_exact(ISET_LENT_(map, memory), start, end, ISET_CURSOR_(from),
        limit, out, out_len, answer, ISET_DRAIN_ANSWER);
    *drained = iset_drained_(answer);
    return no;
}

static inline uint64_t iset_map_open_plain(iset_map map, iset_memory memory, iset_range range,
    uint64_t *out, size_t out_len, iset_tally *tally) {
    uint64_t answer[ISET_PLAIN_ANSWER] = {0, 0};
    uint64_t no = iset_open_plain(ISET_LENT_(map, memory), ISET_RANGE_(range), out, out_len, answer,
        ISET_PLAIN_ANSWER);
    *tally = iset_tally_(answer);
    return no;
}

static inline uint64_t iset_map_open_plain_exact(iset_map map, iset_memory memory, uint64_t start,
    uint64_t end, uint64_t *out, size_t out_len, iset_tally *tally) {
    uint64_t answer[ISET_PLAIN_ANSWER] = {0, 0};
    uint64_t no = iset_open_plain_exact(ISET_LENT_(map, memory), start, end, out, out_len, answer,
        ISET_PLAIN_ANSWER);
    *tally = iset_tally_(answer);
    return no;
}

static inline uint64_t iset_map_open_find_all(iset_map map, iset_memory memory, iset_range range,
    uint64_t *out, size_t out_len, iset_tally *tally) {
    uint64_t answer[ISET_FIND_ALL_ANSWER] = {0, 0};
    uint64_t no = iset_open_find_all(ISET_LENT_(map, memory), ISET_RANGE_(range), out, out_len,
        answer, ISET_FIND_ALL_ANSWER);
    *tally = iset_tally_(answer);
    return no;
}

static inline uint64_t iset_map_open_find_all_exact(iset_map map, iset_memory memory,
    uint64_t start, uint64_t end, uint64_t *out, size_t out_len, iset_tally *tally) {
    uint64_t answer[ISET_FIND_ALL_ANSWER] = {0, 0};
    uint64_t no = iset_open_find_all_exact(ISET_LENT_(map, memory), start, end, out, out_len,
        answer, ISET_FIND_ALL_ANSWER);
    *tally = iset_tally_(answer);
    return no;
}

/* Finds the entries that hold an address. */
static inline uint64_t iset_map_open_at(iset_map map, iset_memory memory, uint64_t address,
    uint64_t *out, size_t out_len, iset_tally *tally) {
    return iset_map_open_find_all(map, memory, iset_range_at(address), out, out_len, tally);
}

/* The calls of disjoint maps, and their opened forms. */

static inline uint64_t iset_map_disjoint_check(iset_map map, iset_memory memory) {
    return iset_disjoint_check(ISET_LENT_(map, memory));
}

static inline uint64_t iset_map_disjoint_point(iset_map map, iset_memory memory,
    uint64_t address, iset_spot *spot) {
    uint64_t answer[ISET_POINT_ANSWER] = {ISET_U, 0};
    uint64_t no = iset_disjoint_point(ISET_LENT_(map, memory), address, answer, ISET_POINT_ANSWER);
    spot->slot = answer[ISET_POINT_SLOT];
    spot->entered = answer[ISET_POINT_ENTERED];
    return no;
}

static inline uint64_t iset_map_disjoint_insert(iset_map *map, iset_memory memory,
    iset_entry entry, iset_inserted *inserted) {
    uint64_t answer[ISET_INSERT_ANSWER] = ISET_NOT_INSERTED_(*map);
    uint64_t no = iset_disjoint_insert(ISET_DATED_(*map, memory), entry.start, entry.end,
        entry.value, answer, ISET_INSERT_ANSWER);
    *map = iset_map_(
        answer[ISET_INSERTED_COUNT], answer[ISET_INSERTED_ROOT], answer[ISET_INSERTED_VERSION]);
    *inserted = iset_inserted_(answer);
    return no;
}

static inline uint64_t iset_map_disjoint_remove(iset_map *map, iset_memory memory, uint64_t slot,
    iset_removed *removed) {
    uint64_t answer[ISET_REMOVE_ANSWER] = ISET_NOT_REMOVED_(*map);
    uint64_t no = iset_disjoint_remove(ISET_DATED_(*map, memory), slot, answer,
        ISET_REMOVE_ANSWER);
    *map = iset_map_(
        answer[ISET_REMOVED_COUNT], answer[ISET_REMOVED_ROOT], answer[ISET_REMOVED_VERSION]);
    *removed = iset_removed_(no == ISET_OK ? slot : ISET_U, answer);
    return no;
}

static inline uint64_t iset_map_open_disjoint_point(iset_map map, iset_memory memory,
    uint64_t address, iset_spot *spot) {
    uint64_t answer[ISET_POINT_ANSWER] = {ISET_U, 0};
    uint64_t no = iset_open_disjoint_point(ISET_LENT_(map, memory), address, answer, ISET_POINT_ANSWER);
    spot->slot = answer[ISET_POINT_SLOT];
    spot->entered = answer[ISET_POINT_ENTERED];
    return no;
}

static inline uint64_t iset_map_open_disjoint_insert(iset_map *map, iset_memory memory,
    iset_entry entry, iset_inserted *inserted) {
    uint64_t answer[ISET_INSERT_ANSWER] = ISET_NOT_INSERTED_(*map);
    uint64_t no = iset_open_disjoint_insert(ISET_DATED_(*map, memory), entry.start, entry.end,
        entry.value, answer, ISET_INSERT_ANSWER);
    *map = iset_map_(
        answer[ISET_INSERTED_COUNT], answer[ISET_INSERTED_ROOT], answer[ISET_INSERTED_VERSION]);
    *inserted = iset_inserted_(answer);
    return no;
}

static inline uint64_t iset_map_open_disjoint_remove(iset_map *map, iset_memory memory, uint64_t slot,
    iset_removed *removed) {
    uint64_t answer[ISET_REMOVE_ANSWER] = ISET_NOT_REMOVED_(*map);
    uint64_t no = iset_open_disjoint_remove(ISET_DATED_(*map, memory), slot, answer,
        ISET_REMOVE_ANSWER);
    *map = iset_map_(
        answer[ISET_REMOVED_COUNT], answer[ISET_REMOVED_ROOT], answer[ISET_REMOVED_VERSION]);
    *removed = iset_removed_(no == ISET_OK ? slot : ISET_U, answer);
    return no;
}

#undef ISET_LENT_
#undef ISET_DATED_
#undef ISET_RANGE_
#undef ISET_CURSOR_
#undef ISET_NOT_REMOVED_
#undef ISET_NOT_INSERTED_
#undef ISET_NOT_UNLOADED_
#undef ISET_NOT_RENUMBERED_
#undef ISET_ENDED_
#undef ISET_NO_STEP_
#undef ISET_NO_HITS_

#ifdef __cplusplus
}
#endif

#endif
