/* The structs of include/iset_map.h beside the calls of include/iset.h. Three copies of a store go
 * through the same random changes and lookups: the first by the calls themselves, the second by the
 * wrappers of the public calls, the third by those of the opened calls. Numbers, answers and stores
 * must be equal each time. A refused call must leave the map unchanged, and an empty answer. Then
 * the names of the refusals and the sizes are tested. The file is C99 and C++. */
#include <inttypes.h>
#include <stdio.h>
#include <stdlib.h>
#include <string.h>

#include "chance.h"
#include "iset_map.h"

#define SLOTS 40
#define U ISET_U

struct copy {
    uint64_t nodes[ISET_NODES_LEN(SLOTS)], out[SLOTS];
    uint8_t colours[ISET_COLOURS_LEN(SLOTS)];
    iset_memory memory;
    iset_map map;
};

/* What a wrapper returned, and its answer as the numbers of include/iset.h. */
struct reply {
    uint64_t no, numbers[ISET_REMOVE_ANSWER];
};

enum { RAW, PUBLIC, OPENED, COPIES };

static struct copy copies[COPIES];
static struct reply replies[COPIES];
static unsigned long calls, refusals;

#define MAP(k) copies[k].map
#define MEMORY(k) copies[k].memory
#define OUT(k) copies[k].out
#define LENT \
    MAP(RAW).count, MAP(RAW).root, MEMORY(RAW).nodes, MEMORY(RAW).nodes_len, MEMORY(RAW).colours, \
        MEMORY(RAW).colours_len
#define DATED \
    MAP(RAW).count, MAP(RAW).root, MAP(RAW).version, MEMORY(RAW).nodes, MEMORY(RAW).nodes_len, \
        MEMORY(RAW).colours, MEMORY(RAW).colours_len
#define ANSWER replies[RAW].numbers

static void fail(const char *what) {
    printf("maps: %s\n", what);
    exit(1);
}

/* Every number of a reply is set: a wrapper's by put, the calls' own by an empty answer first. */
static void put(struct reply *reply, uint64_t no, size_t n, const uint64_t *numbers) {
    memset(reply, 0, sizeof *reply);
    reply->no = no;
    memcpy(reply->numbers, numbers, n * sizeof *numbers);
}

static void empty(size_t n, const uint64_t *numbers) {
    put(&replies[RAW], 0, n, numbers);
    for (int k = 0; k < COPIES; k++) memset(OUT(k), 7, sizeof OUT(k));
}

static void equal(const char *what) {
    calls++;
    refusals += replies[RAW].no != ISET_OK;
    for (int k = PUBLIC; k < COPIES; k++)
        if (memcmp(&replies[k], &replies[RAW], sizeof replies[k]) ||
            memcmp(copies[k].nodes, copies[RAW].nodes, sizeof copies[k].nodes) ||
            memcmp(copies[k].colours, copies[RAW].colours, sizeof copies[k].colours) ||
            memcmp(OUT(k), OUT(RAW), sizeof OUT(k)))
            fail(what);
}

/* The slots of kept entries after a removal, by both functions. */
static void carried(uint64_t removed, const iset_removed *answer) {
    for (uint64_t slot = 0; slot <= MAP(RAW).count; slot++)
        if (iset_map_slot_after(answer, slot) != iset_slot_after(ANSWER, removed, slot))
            fail("slot_after");
}

static void remove_one(void) {
    uint64_t slot = any(MAP(RAW).count + 2), none[] = {0, 0, 0, U, U, U, U, U, U, 0, 0};
    none[1] = MAP(RAW).count, none[2] = MAP(RAW).root, none[10] = MAP(RAW).version;
    empty(ISET_REMOVE_ANSWER, none);
    replies[RAW].no = iset_remove(DATED, slot, ANSWER, ISET_REMOVE_ANSWER);
    for (int k = PUBLIC; k < COPIES; k++) {
        iset_removed r;
        uint64_t no = k == PUBLIC ? iset_map_remove(&MAP(k), MEMORY(k), slot, &r)
                                  : iset_map_open_remove(&MAP(k), MEMORY(k), slot, &r);
        uint64_t numbers[] = {r.value, MAP(k).count, MAP(k).root, r.moved[0].old_slot,
            r.moved[0].new_slot, r.moved[1].old_slot, r.moved[1].new_slot, r.moved[2].old_slot,
            r.moved[2].new_slot, r.reach, MAP(k).version};
        put(&replies[k], no, ISET_REMOVE_ANSWER, numbers);
        if (r.slot != (no == ISET_OK ? slot : U)) fail("the slot that was removed");
        if (no == ISET_OK) carried(slot, &r);
    }
    equal("remove");
    MAP(RAW).count = ANSWER[1], MAP(RAW).root = ANSWER[2];
    MAP(RAW).version = (uint32_t)ANSWER[10];
}

static void insert(void) {
    uint64_t start = any(100), end = start + any(12), value = any(1000), none[] = {0, 0, U, 0, 0};
    iset_entry entry = {start, end, value};
    none[0] = MAP(RAW).count, none[1] = MAP(RAW).root, none[4] = MAP(RAW).version;
    empty(ISET_INSERT_ANSWER, none);
    replies[RAW].no = iset_insert(DATED, start, end, value, ANSWER, ISET_INSERT_ANSWER);
    for (int k = PUBLIC; k < COPIES; k++) {
        iset_inserted r;
        iset_entry read;
        uint64_t no = k == PUBLIC ? iset_map_insert(&MAP(k), MEMORY(k), entry, &r)
                                  : iset_map_open_insert(&MAP(k), MEMORY(k), entry, &r);
        uint64_t numbers[] = {MAP(k).count, MAP(k).root, r.slot, r.reach, MAP(k).version};
        put(&replies[k], no, ISET_INSERT_ANSWER, numbers);
        if (no != ISET_OK) continue;
        if (iset_map_get(MAP(k), MEMORY(k), r.slot, &read) != ISET_OK || read.start != start ||
            read.end != end || read.value != value)
            fail("the entry read");
    }
    equal("insert");
    MAP(RAW).count = ANSWER[0], MAP(RAW).root = ANSWER[1];
    MAP(RAW).version = (uint32_t)ANSWER[4];
}

/* A ticket of this map or of the one before it, mostly for a slot that is there. */
static void read_one(void) {
    static const uint64_t none[] = {0, 0, 0};
    iset_ticket ticket = iset_map_ticket(MAP(PUBLIC), any(MAP(RAW).count + 2));
    ticket.version -= (uint32_t)(any(3) == 0);
    empty(ISET_READ_ANSWER, none);
    replies[RAW].no = iset_read(DATED, ticket.slot, ticket.version, ANSWER, ISET_READ_ANSWER);
    for (int k = PUBLIC; k < COPIES; k++) {
        iset_entry e;
        uint64_t no = k == PUBLIC ? iset_map_read(MAP(k), MEMORY(k), ticket, &e)
                                  : iset_map_open_read(MAP(k), MEMORY(k), ticket, &e);
        uint64_t numbers[] = {e.start, e.end, e.value};
        put(&replies[k], no, ISET_READ_ANSWER, numbers);
    }
    equal("read");
}

static iset_bound any_bound(uint64_t at) {
    switch (any(9)) {
    case 0: return iset_unbounded();
    case 1: case 2: case 3: return iset_included(at);
    case 4: {
        iset_bound bad = {3, 0};
        return bad;
    }
    default: return iset_excluded(at);
    }
}

static iset_range any_range(void) {
    uint64_t lo = any(100), hi = lo + any(30);
    switch (any(6)) {
    case 0: return iset_range_at(lo);
    case 1: return iset_range_all();
    case 2: return iset_range_from(lo, hi);
    default: return iset_range_of(any_bound(lo), any_bound(hi));
    }
}

#define BOUNDS(r) r.lo.kind, r.lo.at, r.hi.kind, r.hi.at
#define PLACE(c) c.slot, c.levels, c.bits

/* One address or any range, so that mostly few go. */
static void unload(void) {
    iset_range range = any(3) ? iset_range_at(any(100)) : any_range();
    uint64_t none[] = {0, 0, 0, 0};
    none[0] = MAP(RAW).count, none[1] = MAP(RAW).root, none[2] = MAP(RAW).version;
    empty(ISET_UNLOAD_ANSWER, none);
    replies[RAW].no = iset_unload(DATED, BOUNDS(range), ANSWER, ISET_UNLOAD_ANSWER);
    for (int k = PUBLIC; k < COPIES; k++) {
        uint64_t gone = 7;
        uint64_t no = k == PUBLIC ? iset_map_unload(&MAP(k), MEMORY(k), range, &gone)
                                  : iset_map_open_unload(&MAP(k), MEMORY(k), range, &gone);
        uint64_t numbers[] = {MAP(k).count, MAP(k).root, MAP(k).version, gone};
        put(&replies[k], no, ISET_UNLOAD_ANSWER, numbers);
    }
    equal("unload");
    MAP(RAW).count = ANSWER[0], MAP(RAW).root = ANSWER[1];
    MAP(RAW).version = (uint32_t)ANSWER[2];
}

/* The planner's plan, or one that is too short or names a slot twice. */
static void renumber(void) {
    uint64_t none[] = {0, 0, 0}, plan[SLOTS + 1], many = MAP(RAW).count, places = any(5) ? SLOTS : any(10);
    static const uint64_t nothing[] = {0};
    empty(1, nothing);
    replies[RAW].no = iset_propose(LENT, OUT(RAW), places);
    put(&replies[PUBLIC], iset_map_propose(MAP(1), MEMORY(1), OUT(1), places), 1, nothing);
    put(&replies[OPENED], iset_map_open_propose(MAP(2), MEMORY(2), OUT(2), places), 1, nothing);
    equal("propose");
    memcpy(plan, OUT(RAW), sizeof OUT(RAW));
    if (many > 1 && any(4) == 0) plan[0] = plan[1];
    if (any(6) == 0) many++, plan[many - 1] = many - 1;
    none[0] = MAP(RAW).count, none[1] = MAP(RAW).root, none[2] = MAP(RAW).version;
    empty(ISET_RENUMBER_ANSWER, none);
    replies[RAW].no = iset_renumber(DATED, plan, many, ANSWER, ISET_RENUMBER_ANSWER);
    for (int k = PUBLIC; k < COPIES; k++) {
        uint64_t no = k == PUBLIC ? iset_map_renumber(&MAP(k), MEMORY(k), plan, many)
                                  : iset_map_open_renumber(&MAP(k), MEMORY(k), plan, many);
        uint64_t numbers[] = {MAP(k).count, MAP(k).root, MAP(k).version};
        put(&replies[k], no, ISET_RENUMBER_ANSWER, numbers);
    }
    equal("renumber");
    MAP(RAW).count = ANSWER[0], MAP(RAW).root = ANSWER[1];
    MAP(RAW).version = (uint32_t)ANSWER[2];
}

static void put_step(int k, uint64_t no, const iset_stepped *s) {
    uint64_t numbers[] = {s->slot, PLACE(s->next), s->entered};
    put(&replies[k], no, ISET_STEP_ANSWER, numbers);
}

static void put_drain(int k, uint64_t no, const iset_drained *d) {
    uint64_t numbers[] = {d->hits, d->entered, PLACE(d->next)};
    put(&replies[k], no, ISET_DRAIN_ANSWER, numbers);
}

static void put_tally(int k, uint64_t no, const iset_tally *t) {
    uint64_t numbers[] = {t->hits, t->entered};
    put(&replies[k], no, ISET_PLAIN_ANSWER, numbers);
}

static const uint64_t NO_STEP[] = {U, U, 0, 0, 0}, NO_HITS[] = {0, 0, U, 0, 0}, ENDED[] = {U, 0, 0};

static iset_cursor fresh(void) {
    iset_cursor c = {0, 0, 0};
    empty(ISET_FRESH_ANSWER, ENDED);
    replies[RAW].no = iset_fresh(MAP(RAW).count, MAP(RAW).root, ANSWER, ISET_FRESH_ANSWER);
    for (int k = PUBLIC; k < COPIES; k++) {
        uint64_t no = iset_map_fresh(MAP(k), &c), numbers[] = {PLACE(c)};
        put(&replies[k], no, ISET_FRESH_ANSWER, numbers);
    }
    equal("fresh");
    return c;
}

static void overlaps(void) {
    iset_range range = any_range();
    iset_cursor from = fresh();
    uint64_t limit = any(6), places = any(10);
    if (any(8) == 0) from.levels ^= 3;
    iset_stepped s;
    iset_drained d;
    iset_tally t;
    empty(ISET_STEP_ANSWER, NO_STEP);
    replies[RAW].no = iset_step(LENT, BOUNDS(range), PLACE(from), ANSWER, ISET_STEP_ANSWER);
    put_step(PUBLIC, iset_map_step(MAP(1), MEMORY(1), range, from, &s), &s);
    put_step(OPENED, iset_map_open_step(MAP(2), MEMORY(2), range, from, &s), &s);
    equal("step");
    empty(ISET_DRAIN_ANSWER, NO_HITS);
    replies[RAW].no = iset_drain(
        LENT, BOUNDS(range), PLACE(from), limit, OUT(RAW), places, ANSWER, ISET_DRAIN_ANSWER);
    uint64_t no = iset_map_drain(MAP(1), MEMORY(1), range, from, limit, OUT(1), places, &d);
    put_drain(PUBLIC, no, &d);
    no = iset_map_open_drain(MAP(2), MEMORY(2), range, from, limit, OUT(2), places, &d);
    put_drain(OPENED, no, &d);
    equal("drain");
    places = any(4) ? SLOTS : places;
    empty(ISET_PLAIN_ANSWER, NO_HITS);
    replies[RAW].no = iset_plain(LENT, BOUNDS(range), OUT(RAW), places, ANSWER, ISET_PLAIN_ANSWER);
    put_tally(PUBLIC, iset_map_plain(MAP(1), MEMORY(1), range, OUT(1), places, &t), &t);
    put_tally(OPENED, iset_map_open_plain(MAP(2), MEMORY(2), range, OUT(2), places, &t), &t);
    equal("plain");
    places = any(10);
    empty(ISET_FIND_ALL_ANSWER, NO_HITS);
    replies[RAW].no =
        iset_find_all(LENT, BOUNDS(range), OUT(RAW), places, ANSWER, ISET_FIND_ALL_ANSWER);
    put_tally(PUBLIC, iset_map_find_all(MAP(1), MEMORY(1), range, OUT(1), places, &t), &t);
    put_tally(OPENED, iset_map_open_find_all(MAP(2), MEMORY(2), range, OUT(2), places, &t), &t);
    equal("find_all");
}

/* The entries at an address. */
static void at(void) {
    uint64_t address = any(100), places = any(10);
    iset_range range = iset_range_at(address);
    iset_tally t;
    empty(ISET_FIND_ALL_ANSWER, NO_HITS);
    replies[RAW].no =
        iset_find_all(LENT, BOUNDS(range), OUT(RAW), places, ANSWER, ISET_FIND_ALL_ANSWER);
    put_tally(PUBLIC, iset_map_at(MAP(1), MEMORY(1), address, OUT(1), places, &t), &t);
    put_tally(OPENED, iset_map_open_at(MAP(2), MEMORY(2), address, OUT(2), places, &t), &t);
    equal("at");
}

static void exacts(void) {
    uint64_t start = any(100), end = start + any(12), limit = any(6), places = any(10), no;
    if (MAP(RAW).count > 0 && any(2)) {
        uint64_t slot = any(MAP(RAW).count);
        start = copies[RAW].nodes[8 * slot], end = copies[RAW].nodes[8 * slot + 1];
    }
    iset_cursor from = {0, 0, 0};
    iset_stepped s;
    iset_drained d;
    iset_tally t;
    empty(ISET_FRESH_ANSWER, ENDED);
    replies[RAW].no = iset_fresh_exact(LENT, start, end, ANSWER, ISET_FRESH_ANSWER);
    for (int k = PUBLIC; k < COPIES; k++) {
        no = k == PUBLIC ? iset_map_fresh_exact(MAP(k), MEMORY(k), start, end, &from)
                         : iset_map_open_fresh_exact(MAP(k), MEMORY(k), start, end, &from);
        uint64_t numbers[] = {PLACE(from)};
        put(&replies[k], no, ISET_FRESH_ANSWER, numbers);
    }
    equal("fresh_exact");
    empty(ISET_STEP_ANSWER, NO_STEP);
    replies[RAW].no = iset_step_exact(LENT, start, end, PLACE(from), ANSWER, ISET_STEP_ANSWER);
    put_step(PUBLIC, iset_map_step_exact(MAP(1), MEMORY(1), start, end, from, &s), &s);
    put_step(OPENED, iset_map_open_step_exact(MAP(2), MEMORY(2), start, end, from, &s), &s);
    equal("step_exact");
    empty(ISET_DRAIN_ANSWER, NO_HITS);
    replies[RAW].no = iset_drain_exact(
        LENT, start, end, PLACE(from), limit, OUT(RAW), places, ANSWER, ISET_DRAIN_ANSWER);
    no = iset_map_drain_exact(MAP(1), MEMORY(1), start, end, from, limit, OUT(1), places, &d);
    put_drain(PUBLIC, no, &d);
    no = iset_map_open_drain_exact(MAP(2), MEMORY(2), start, end, from, limit, OUT(2), places, &d);
    put_drain(OPENED, no, &d);
    equal("drain_exact");
    places = any(4) ? SLOTS : places;
    empty(ISET_PLAIN_ANSWER, NO_HITS);
    replies[RAW].no =
        iset_plain_exact(LENT, start, end, OUT(RAW), places, ANSWER, ISET_PLAIN_ANSWER);
    put_tally(PUBLIC, iset_map_plain_exact(MAP(1), MEMORY(1), start, end, OUT(1), places, &t), &t);
    no = iset_map_open_plain_exact(MAP(2), MEMORY(2), start, end, OUT(2), places, &t);
    put_tally(OPENED, no, &t);
    equal("plain_exact");
    places = any(10);
    empty(ISET_FIND_ALL_ANSWER, NO_HITS);
    replies[RAW].no =
        iset_find_all_exact(LENT, start, end, OUT(RAW), places, ANSWER, ISET_FIND_ALL_ANSWER);
    no = iset_map_find_all_exact(MAP(1), MEMORY(1), start, end, OUT(1), places, &t);
    put_tally(PUBLIC, no, &t);
    no = iset_map_open_find_all_exact(MAP(2), MEMORY(2), start, end, OUT(2), places, &t);
    put_tally(OPENED, no, &t);
    equal("find_all_exact");
}

/* A list by chance, sorted or not, and what is refused leaves the map. */
static void build(void) {
    iset_entry list[5];
    uint64_t start = 0, entries = any(6), answer[ISET_BUILD_ANSWER] = {0, U, 0};
    uint32_t version = (uint32_t)any(2) * UINT32_MAX;
    answer[2] = version;
    for (uint64_t i = 0; i < entries; i++) {
        start = any(8) ? start + 1 + any(9) : 0;
        list[i].start = start, list[i].end = start + any(12), list[i].value = i;
    }
    empty(ISET_BUILD_ANSWER, answer);
    replies[RAW].no = iset_build(version, MEMORY(RAW).nodes, MEMORY(RAW).nodes_len,
        MEMORY(RAW).colours, MEMORY(RAW).colours_len, &list->start, entries * 3, ANSWER, ISET_BUILD_ANSWER);
    for (int k = PUBLIC; k < COPIES; k++) {
        MAP(k) = iset_map_none();
        MAP(k).version = version;
        uint64_t no = iset_map_build(&MAP(k), MEMORY(k), list, entries);
        uint64_t numbers[] = {MAP(k).count, MAP(k).root, MAP(k).version};
        put(&replies[k], no, ISET_BUILD_ANSWER, numbers);
    }
    equal("build");
    MAP(RAW).count = ANSWER[0], MAP(RAW).root = ANSWER[1];
    MAP(RAW).version = (uint32_t)ANSWER[2];
}

static void start(void) {
    for (int k = 0; k < COPIES; k++) {
        memset(&copies[k], 0, sizeof copies[k]);
        MEMORY(k) = iset_memory_of(copies[k].nodes, ISET_NODES_LEN(SLOTS), copies[k].colours,
            ISET_COLOURS_LEN(SLOTS));
        MAP(k) = iset_map_none();
    }
    build();
}

static void tell(uint64_t no) { printf(" %" PRIu64, no); }

/* On a store with a red root the public calls return BROKEN, and the opened ones do not check. */
static void faces(void) {
    iset_entry list[] = {{1, 2, 0}, {3, 4, 0}, {5, 6, 0}}, entry = {7, 8, 0};
    iset_range all = iset_range_all();
    iset_cursor c = {1, 1, 0}, e;
    iset_removed removed;
    iset_inserted inserted;
    iset_stepped s;
    iset_drained d;
    iset_tally t;
    uint64_t gone, plan[] = {2, 0, 1};
    start();
    for (int k = PUBLIC; k < COPIES; k++) {
        if (iset_map_build(&MAP(k), MEMORY(k), list, 3) != ISET_OK) fail("build");
        copies[k].colours[0] |= 1 << MAP(k).root;
    }
    printf("a red root, public:");
    tell(iset_map_check(MAP(1), MEMORY(1)));
    tell(iset_map_step(MAP(1), MEMORY(1), all, c, &s));
    tell(iset_map_step_exact(MAP(1), MEMORY(1), 3, 4, c, &s));
    tell(iset_map_drain(MAP(1), MEMORY(1), all, c, 0, OUT(1), SLOTS, &d));
    tell(iset_map_drain_exact(MAP(1), MEMORY(1), 3, 4, c, 0, OUT(1), SLOTS, &d));
    tell(iset_map_plain(MAP(1), MEMORY(1), all, OUT(1), SLOTS, &t));
    tell(iset_map_plain_exact(MAP(1), MEMORY(1), 3, 4, OUT(1), SLOTS, &t));
    tell(iset_map_find_all(MAP(1), MEMORY(1), all, OUT(1), SLOTS, &t));
    tell(iset_map_find_all_exact(MAP(1), MEMORY(1), 3, 4, OUT(1), SLOTS, &t));
    tell(iset_map_at(MAP(1), MEMORY(1), 3, OUT(1), SLOTS, &t));
    tell(iset_map_fresh_exact(MAP(1), MEMORY(1), 3, 4, &e));
    tell(iset_map_read(MAP(1), MEMORY(1), iset_map_ticket(MAP(1), 0), &entry));
    tell(iset_map_insert(&MAP(1), MEMORY(1), entry, &inserted));
    tell(iset_map_remove(&MAP(1), MEMORY(1), 0, &removed));
    tell(iset_map_propose(MAP(1), MEMORY(1), OUT(1), SLOTS));
    tell(iset_map_renumber(&MAP(1), MEMORY(1), plan, 3));
    tell(iset_map_unload(&MAP(1), MEMORY(1), all, &gone));
    printf(", opened:");
    tell(iset_map_open_step(MAP(2), MEMORY(2), all, c, &s));
    tell(iset_map_open_drain(MAP(2), MEMORY(2), all, c, 0, OUT(2), SLOTS, &d));
    tell(iset_map_open_plain(MAP(2), MEMORY(2), all, OUT(2), SLOTS, &t));
    tell(iset_map_open_plain_exact(MAP(2), MEMORY(2), 3, 4, OUT(2), SLOTS, &t));
    tell(iset_map_open_find_all(MAP(2), MEMORY(2), all, OUT(2), SLOTS, &t));
    tell(iset_map_open_find_all_exact(MAP(2), MEMORY(2), 3, 4, OUT(2), SLOTS, &t));
    tell(iset_map_open_at(MAP(2), MEMORY(2), 3, OUT(2), SLOTS, &t));
    tell(iset_map_open_fresh_exact(MAP(2), MEMORY(2), 3, 4, &e));
    tell(iset_map_open_step_exact(MAP(2), MEMORY(2), 3, 4, e, &s));
    tell(iset_map_open_drain_exact(MAP(2), MEMORY(2), 3, 4, e, 0, OUT(2), SLOTS, &d));
    tell(iset_map_open_read(MAP(2), MEMORY(2), iset_map_ticket(MAP(2), 0), &entry));
    tell(iset_map_open_insert(&MAP(2), MEMORY(2), entry, &inserted));
    tell(iset_map_open_remove(&MAP(2), MEMORY(2), 0, &removed));
    tell(iset_map_open_propose(MAP(2), MEMORY(2), OUT(2), SLOTS));
    tell(iset_map_open_renumber(&MAP(2), MEMORY(2), plan, 3));
    tell(iset_map_open_unload(&MAP(2), MEMORY(2), all, &gone));
    printf("\n");
}

static void read_refused(void) {
    iset_entry entry;
    iset_memory memory = MEMORY(RAW);
    iset_map map = {SLOTS, 0, 0};
    memory.nodes_len = ISET_NODES_LEN(SLOTS) - 1;
    printf("get: %" PRIu64, iset_map_get(map, memory, SLOTS - 2, &entry));
    printf(" %" PRIu64, iset_map_get(map, memory, SLOTS - 1, &entry));
    printf(" %" PRIu64, iset_map_get(map, memory, SLOTS, &entry));
    printf(", empty: %" PRIu64 " %" PRIu64 " %" PRIu64 "\n", entry.start, entry.end, entry.value);
}

int main(void) {
    for (int round = 0; round < 60; round++) {
        start();
        for (int k = 0; k < 80; k++) {
            if (any(5) < 3) insert();
            else if (any(5)) remove_one();
            else if (any(2)) unload();
            else renumber();
            overlaps();
            exacts();
            at();
            read_one();
        }
        for (int k = 0; k < COPIES; k++)
            if (iset_map_check(MAP(k), MEMORY(k)) != ISET_OK) fail("check");
    }
    printf("maps: %lu calls as their wrappers, %lu of them refused\n", calls, refusals);
    faces();
    read_refused();
    for (uint64_t no = 0; no < 104; no = no == 16 ? 100 : no + 1)
        printf("%" PRIu64 ": %s\n", no, iset_refusal_name(no));
    printf("%" PRIu64 ": %s\n", UINT64_MAX, iset_refusal_name(UINT64_MAX));
    for (int n = 0; n < 20; n += 1 + 6 * (n % 2))
        printf("%d entries: %zu words, %zu bytes\n", n, ISET_NODES_LEN(n), ISET_COLOURS_LEN(n));
    printf("version %s, %d %d %d\n", ISET_VERSION, ISET_VERSION_MAJOR, ISET_VERSION_MINOR,
        ISET_VERSION_PATCH);
    return 0;
}
