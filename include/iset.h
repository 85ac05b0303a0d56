/* The interval map of loaded code, for C99 and C++: ranges of addresses, each with a value, in a
 * red-black tree inside memory that the caller lends. Nothing is allocated, and nothing is kept
 * between calls.
 *
 * A whole host is examples/host.c. To build it on x86-64:
 *
 *     ./archive
 *     gcc -std=c99 -I include examples/host.c target/staticlib/libiset.a -o host
 *
 * `./archive` proves the library and writes libiset.a. include/iset_map.h has the same calls with
 * structs instead of single numbers. include/iset_image.h looks an address up in a saved map.
 *
 * A map is its count, its root and its version, three numbers that are passed by value. Each change
 * answers the new ones. The entries are in two lent arrays:
 *   nodes     eight words a slot, see enum iset_word
 *   colours   one bit a slot: bit i is bit i % 8 of byte i / 8, and 1 is red
 * A map holds at most the least of nodes_len / 8, colours_len * 8 and 65535 entries, in slots 0 to
 * count - 1. An entry's range begins at its start and ends before its end. The map of no entries
 * has count 0, root ISET_U and version 0.
 *
 * Each call returns ISET_OK or a refusal, see enum iset_refusal. Treat every number but ISET_OK as
 * a refusal, also one that this header does not list: later versions of the library add some.
 *
 * After ISET_OK the answer's numbers are at the front of `answer`, in the order given beside each
 * call, and the places past them are unchanged. After a refusal nothing lent has changed, `answer`
 * included. Every call takes any numbers and any contents, and tests all of them itself. The test
 * of the store takes a time that grows with the count. The refusals of a call are listed in their
 * order: if several apply, the first of them is returned. A host that keeps its arrays to itself
 * may check once and then use the calls of iset_open.h.
 *
 * The caller must ensure two things. Each pointer refers to at least as many elements as its length
 * says. An array that a call writes overlaps no other argument, and nothing else uses it during the
 * call. An array of length 0 may have any pointer, NULL included.
 *
 * A slot stays valid until the next removal, unloading or renumbering. The removal lists the
 * entries that moved: update the slots you kept with iset_slot_after, or look them up again. An
 * unloading lists none: look them up again. The plan of a renumbering has the new slot of each. An
 * insertion moves no entry: every slot stays valid. A cursor that is used after a change is tested
 * against the new store.
 *
 * The version goes up by one at each build, removal, insertion, renumbering and reading of an image
 * that is not refused, and at an unloading by the number of entries that went; after 4294967295
 * comes 0. A slot together with the version that the map has then is a ticket.
 * iset_read reads the entry of a ticket's slot, and refuses the ticket as stale if the map has
 * changed since: at least once and fewer than 4,294,967,296 times. After exactly that many changes
 * the ticket can pass. This holds if each change is made to the newest map, and none to an older
 * copy. docs/MANUAL.md has examples. */
#ifndef ISET_H
#define ISET_H

#include <stddef.h>
#include <stdint.h>

/* The version of the library that this header belongs to. */
#define ISET_VERSION_MAJOR 0
#define ISET_VERSION_MINOR 5
#define ISET_VERSION_PATCH 0
#define ISET_VERSION "0.5.0"

/* No slot: the root of the map of no entries, a link that leads nowhere, the slot of an ended
 * cursor, an unused move. */
#define ISET_U UINT64_C(4294967295)

#define ISET_NODE_WORDS 8
#define ISET_MOST_ENTRIES 65535

/* How many words and how many bytes the arrays need for n entries. */
#define ISET_NODES_LEN(n) ((size_t)(n) * ISET_NODE_WORDS)
#define ISET_COLOURS_LEN(n) (((size_t)(n) + 7) / 8)

/* How much stack iset_renumber and its other forms take at most, in bytes. */
#define ISET_RENUMBER_STACK 24576

/* How many bytes the image of a map of n entries has. */
#define ISET_IMAGE_LEN(n) (44 + (size_t)(n) * 36 + ISET_COLOURS_LEN(n))

/* The words of a slot: word w of slot s is nodes[s * ISET_NODE_WORDS + w]. Links are slots, or
 * ISET_U. The hull is the least range that holds the ranges of the entry and of all below it. */
enum iset_word {
    ISET_START = 0,
    ISET_END = 1,
    ISET_VALUE = 2,
    ISET_HULL_START = 3,
    ISET_HULL_END = 4,
    ISET_LEFT = 5,
    ISET_RIGHT = 6,
    ISET_PARENT = 7
};

/* What a call returns. */
enum iset_refusal {
    ISET_OK = 0,
    ISET_NO_ROOM = 1,         /* the arrays do not hold the count, the entries to build, or, for an
                                 insertion, one more entry */
    ISET_BROKEN = 2,          /* the store does not pass the check */
    ISET_NO_SUCH = 3,         /* the slot is not below the count */
    ISET_BAD_RANGE = 4,       /* neither bound is Unbounded, and lo > hi, or lo == hi unless both
                                 are Included; of a call by a rule, see iset_ruled.h too */
    ISET_BAD_INTERVAL = 5,    /* a given interval has start >= end */
    ISET_NOT_SORTED = 6,      /* the list to build is not sorted by start, then end */
    ISET_BAD_CURSOR = 7,      /* no lookup of this query in this store has this cursor */
    ISET_BAD_LIST = 8,        /* the list's length is not a multiple of 3 */
    ISET_SHORT_OUTPUT = 9,    /* the drain's limit is above the output's length, or the output of a
                                 plain lookup, of a plan or of an image is too short */
    ISET_BAD_BIT = 10,        /* of bit vectors and stacks; none of these calls returns it */
    ISET_STALE = 11,          /* the map has changed since the ticket was taken */
    ISET_BAD_IMAGE = 12,      /* the bytes have not the layout or the length of an image */
    ISET_OVERLAP = 13,        /* a stored entry intersects the new one (iset_disjoint.h) */
    ISET_NOT_DISJOINT = 14,   /* two entries intersect (iset_disjoint.h) */
    ISET_BAD_PLAN = 15,       /* the plan does not name each slot below the count once */
    /* Later refusals of the map are numbered from 16. These two belong to the calls from C: */
    ISET_SHORT_ANSWER = 101,  /* `answer` has fewer places than the answer has numbers */
    ISET_BAD_BOUND = 102      /* a bound's kind is not 0, 1 or 2 */
};

/* The kinds of a bound. The number of an Unbounded bound is ignored. */
enum iset_bound_kind { ISET_INCLUDED = 0, ISET_EXCLUDED = 1, ISET_UNBOUNDED = 2 };

/* How many numbers an answer has. */
enum iset_answer {
    ISET_BUILD_ANSWER = 3,
    ISET_REMOVE_ANSWER = 11,
    ISET_INSERT_ANSWER = 5,
    ISET_UNLOAD_ANSWER = 4,
    ISET_RENUMBER_ANSWER = 3,
    ISET_READ_ANSWER = 3,
    ISET_WRITE_IMAGE_ANSWER = 1,
    ISET_READ_IMAGE_ANSWER = 3,
    ISET_FRESH_ANSWER = 3,
    ISET_STEP_ANSWER = 5,
    ISET_DRAIN_ANSWER = 5,
    ISET_PLAIN_ANSWER = 2,
    ISET_FIND_ALL_ANSWER = 2
};

/* The places of each answer. */
enum iset_build_place { ISET_BUILT_COUNT = 0, ISET_BUILT_ROOT = 1, ISET_BUILT_VERSION = 2 };
enum iset_write_image_place { ISET_WRITTEN_LENGTH = 0 };
enum iset_read_image_place {
    ISET_LOADED_COUNT = 0,
    ISET_LOADED_ROOT = 1,
    ISET_LOADED_VERSION = 2
};
enum iset_remove_place {
    ISET_REMOVED_VALUE = 0,
    ISET_REMOVED_COUNT = 1,
    ISET_REMOVED_ROOT = 2,
    ISET_REMOVED_MOVES = 3, /* old slot, new slot, three times: places 3 to 8 */
    ISET_REMOVED_REACH = 9,
    ISET_REMOVED_VERSION = 10
};
enum iset_insert_place {
    ISET_INSERTED_COUNT = 0,
    ISET_INSERTED_ROOT = 1,
    ISET_INSERTED_SLOT = 2,
    ISET_INSERTED_REACH = 3,
    ISET_INSERTED_VERSION = 4
};
enum iset_unload_place {
    ISET_UNLOADED_COUNT = 0,
    ISET_UNLOADED_ROOT = 1,
    ISET_UNLOADED_VERSION = 2,
    ISET_UNLOADED_GONE = 3
};
enum iset_renumber_place {
    ISET_RENUMBERED_COUNT = 0,
    ISET_RENUMBERED_ROOT = 1,
    ISET_RENUMBERED_VERSION = 2
};
enum iset_read_place { ISET_READ_START = 0, ISET_READ_END = 1, ISET_READ_VALUE = 2 };
enum iset_fresh_place { ISET_FRESH_SLOT = 0, ISET_FRESH_LEVELS = 1, ISET_FRESH_BITS = 2 };
enum iset_step_place {
    ISET_STEP_HIT = 0,
    ISET_STEP_NEXT_SLOT = 1,
    ISET_STEP_NEXT_LEVELS = 2,
    ISET_STEP_NEXT_BITS = 3,
    ISET_STEP_ENTERED = 4
};
enum iset_drain_place {
    ISET_DRAINED_HITS = 0,
    ISET_DRAINED_ENTERED = 1,
    ISET_DRAINED_NEXT_SLOT = 2,
    ISET_DRAINED_NEXT_LEVELS = 3,
    ISET_DRAINED_NEXT_BITS = 4
};
enum iset_plain_place { ISET_PLAIN_HITS = 0, ISET_PLAIN_ENTERED = 1 };
enum iset_find_all_place { ISET_FOUND_HITS = 0, ISET_FOUND_ENTERED = 1 };

#ifdef __cplusplus
extern "C" {
#endif

/* What a number that a call returned means, in words. */
static inline const char *iset_refusal_name(uint64_t no) {
    switch (no) {
    case ISET_OK: return "no refusal";
    case ISET_NO_ROOM: return "not enough room in the memory";
    case ISET_BROKEN: return "the store does not pass the check";
    case ISET_NO_SUCH: return "no entry in that slot";
    case ISET_BAD_RANGE: return "the bounds are not in order";
    case ISET_BAD_INTERVAL: return "the interval does not end after its start";
    case ISET_NOT_SORTED: return "the list is not sorted";
    case ISET_BAD_CURSOR: return "the cursor does not belong to this lookup";
    case ISET_BAD_LIST: return "the list's length is not a multiple of 3";
    case ISET_SHORT_OUTPUT: return "the output is too short";
    case ISET_BAD_BIT: return "no such bit";
    case ISET_STALE: return "the map has changed since the ticket was taken";
    case ISET_BAD_IMAGE: return "the bytes are not laid out as an image";
    case ISET_OVERLAP: return "a stored entry intersects the new one";
    case ISET_NOT_DISJOINT: return "two entries intersect";
    case ISET_BAD_PLAN: return "the plan does not name each slot once";
    case ISET_SHORT_ANSWER: return "the answer is too short";
    case ISET_BAD_BOUND: return "a bound's kind is not 0, 1 or 2";
    default: return "unknown refusal";
    }
}

/* Checks the store: ISET_OK if it passes.
 * Refusals: NO_ROOM, BROKEN. */
uint64_t iset_check(uint64_t count, uint64_t root, const uint64_t *nodes, size_t nodes_len,
    const uint8_t *colours, size_t colours_len);

/* Builds the map of a sorted list of triples start, end, value. Entry k goes to slot k. Slots and
 * colour bits past the entries are unchanged. `version` is that of the map that the new one takes
 * the place of, and 0 if there was none.
 * Answer: count, root, version.
 * Refusals: SHORT_ANSWER, BAD_LIST, NO_ROOM, BAD_INTERVAL, NOT_SORTED. */
uint64_t iset_build(uint32_t version, uint64_t *nodes, size_t nodes_len, uint8_t *colours,
    size_t colours_len, const uint64_t *list, size_t list_len, uint64_t *answer,
    size_t answer_len);

/* Removes the entry of a slot. Up to three other entries change slot. Afterwards the slot that is
 * the new count is empty: its left, right and parent words are ISET_U, its other words 0.
 * Answer: the removed value, count, root; then three moves, each an old slot and a new slot, by
 * rising old slot, an unused one ISET_U twice; then the reach: how many of the hulls that the
 * removal worked out changed, at either end; then the version.
 * Refusals: SHORT_ANSWER, NO_ROOM, BROKEN, NO_SUCH. */
uint64_t iset_remove(uint64_t count, uint64_t root, uint32_t version, uint64_t *nodes,
    size_t nodes_len, uint8_t *colours, size_t colours_len, uint64_t slot, uint64_t *answer,
    size_t answer_len);

/* Returns the slot that an entry has after a removal, if it had slot `kept` before; ISET_U if it is
 * the removed entry. `answer` has the ISET_REMOVE_ANSWER numbers of that removal, which was not
 * refused, and `removed` is the slot that was removed. Call it for every slot that you kept. It
 * refuses nothing: what it returns is a slot. */
uint64_t iset_slot_after(const uint64_t *answer, uint64_t removed, uint64_t kept);

/* Adds one entry, in slot count. No other entry changes slot. The new entry comes after the entries
 * that are equal to it, and these stay.
 * Answer: count, root, the new entry's slot, which is the count before; then the reach: how many of
 * the hulls that the insertion worked out changed; then the version.
 * Refusals: SHORT_ANSWER, NO_ROOM if the arrays hold no more entries than the count, BROKEN,
 * BAD_INTERVAL. */
uint64_t iset_insert(uint64_t count, uint64_t root, uint32_t version, uint64_t *nodes,
    size_t nodes_len, uint8_t *colours, size_t colours_len, uint64_t start, uint64_t end,
    uint64_t value, uint64_t *answer, size_t answer_len);

/* Unloads a range: removes the first entry that intersects it, in the order of the entries, over
 * and over, until none is left. What intersects a range is said at iset_step. The other entries
 * keep their order, and may change slot. The slots from the new count up to the old one are empty,
 * as a removal leaves them. The version goes up by as many as went: if none did, nothing has
 * changed, and tickets can still be read. The check is made once, at the beginning.
 * Answer: count, root, version, how many entries went.
 * Refusals: SHORT_ANSWER, BAD_BOUND, NO_ROOM, BROKEN, BAD_RANGE. */
uint64_t iset_unload(uint64_t count, uint64_t root, uint32_t version, uint64_t *nodes,
    size_t nodes_len, uint8_t *colours, size_t colours_len, uint64_t lo_kind, uint64_t lo,
    uint64_t hi_kind, uint64_t hi, uint64_t *answer, size_t answer_len);

/* Proposes a plan that numbers the slots in the order of the entries: out[slot] is the place of
 * that slot's entry in this order, counted from 0. The plan is the first `count` places of `out`;
 * places past them are unchanged. Nothing moves. Hand the plan on to iset_renumber, with `count`
 * for its length. If it names every slot as it is, the map is tidy.
 * What it returns is all: there is no answer.
 * Refusals: NO_ROOM, BROKEN, SHORT_OUTPUT if `out` has fewer places than the count. */
uint64_t iset_propose(uint64_t count, uint64_t root, const uint64_t *nodes, size_t nodes_len,
    const uint8_t *colours, size_t colours_len, uint64_t *out, size_t out_len);

/* Renumbers the slots by a plan, that of iset_propose or any other: the entry of slot s moves to
 * slot plan[s], with its colour and its links. The order of the entries and the shape of the tree
 * stay. A plan has exactly `count` numbers, and each slot below the count is one of them. It is
 * only read. Slots and colour bits from the count up are unchanged. The version goes up by one,
 * also if nothing moves. The test of the plan takes 8 KiB of stack, and the whole call, with the
 * check, at most ISET_RENUMBER_STACK bytes.
 * Answer: count, root, version.
 * Refusals: SHORT_ANSWER, NO_ROOM, BROKEN, BAD_PLAN. */
uint64_t iset_renumber(uint64_t count, uint64_t root, uint32_t version, uint64_t *nodes,
    size_t nodes_len, uint8_t *colours, size_t colours_len, const uint64_t *plan,
    size_t plan_len, uint64_t *answer, size_t answer_len);

/* Reads the entry of a slot through a ticket: the slot, and the version that the map had when the
 * ticket was taken.
 * Answer: start, end, value.
 * Refusals: SHORT_ANSWER, NO_ROOM, BROKEN, STALE if `taken` is not the map's version, NO_SUCH. */
uint64_t iset_read(uint64_t count, uint64_t root, uint32_t version, const uint64_t *nodes,
    size_t nodes_len, const uint8_t *colours, size_t colours_len, uint64_t slot, uint32_t taken,
    uint64_t *answer, size_t answer_len);

/* Writes a map as an image, to save it or to send it: its count, root, entries, links and colours,
 * without pointers, in bytes that docs/IMAGE.md describes. The image has ISET_IMAGE_LEN(count)
 * bytes. It is at the front of `out`, and the bytes past it are unchanged. The version is not in
 * it.
 * Answer: the image's length.
 * Refusals: SHORT_ANSWER, NO_ROOM, BROKEN, SHORT_OUTPUT. */
uint64_t iset_write_image(uint64_t count, uint64_t root, const uint64_t *nodes, size_t nodes_len,
    const uint8_t *colours, size_t colours_len, uint8_t *out, size_t out_len, uint64_t *answer,
    size_t answer_len);

/* Reads the map of an image: the map that was written, in the same slots. `image_len` is the
 * image's length, not that of a longer buffer. The image may come from anywhere: it is tested as a
 * whole before anything is written. Slots and colour bits past the entries are unchanged. `version`
 * is that of the map that the new one takes the place of, and 0 if there was none.
 * Answer: count, root, version.
 * Refusals: SHORT_ANSWER, BAD_IMAGE, NO_ROOM if the arrays do not hold the image's entries, BROKEN
 * if the store in the image does not pass the check. */
uint64_t iset_read_image(uint32_t version, uint64_t *nodes, size_t nodes_len, uint8_t *colours,
    size_t colours_len, const uint8_t *image, size_t image_len, uint64_t *answer,
    size_t answer_len);

/* Gives the cursor at which a lookup of the entries that intersect a range begins. The map is
 * tested when the cursor is used.
 * Answer: the cursor's slot, levels, bits.
 * Refusals: SHORT_ANSWER. */
uint64_t iset_fresh(uint64_t count, uint64_t root, uint64_t *answer, size_t answer_len);

/* Gives the cursor at which a lookup of the entries equal to an interval begins: at the highest of
 * them in the tree; its slot is ISET_U if there is none.
 * Answer: the cursor's slot, levels, bits.
 * Refusals: SHORT_ANSWER, NO_ROOM, BROKEN, BAD_INTERVAL. */
uint64_t iset_fresh_exact(uint64_t count, uint64_t root, const uint64_t *nodes, size_t nodes_len,
    const uint8_t *colours, size_t colours_len, uint64_t start, uint64_t end,
    uint64_t *answer, size_t answer_len);

/* Finds the next entry after a cursor that intersects a range. Entries come in their order: by
 * start, then end, equal ones in the order in which they were added. An entry intersects the range
 * if it ends after lo, whether lo is Included or Excluded, and starts before hi, or at hi if hi is
 * Included. An Unbounded bound asks nothing.
 * Answer: the entry's slot, ISET_U at the end; the next cursor's slot, levels, bits; the number of
 * nodes that this call entered.
 * Refusals: SHORT_ANSWER, BAD_BOUND, NO_ROOM, BROKEN, BAD_RANGE, BAD_CURSOR. */
uint64_t iset_step(uint64_t count, uint64_t root, const uint64_t *nodes, size_t nodes_len,
    const uint8_t *colours, size_t colours_len, uint64_t lo_kind, uint64_t lo, uint64_t hi_kind,
    uint64_t hi, uint64_t slot, uint64_t levels, uint64_t bits,
    uint64_t *answer, size_t answer_len);

/* Finds the next entry after a cursor that is equal to an interval.
 * Answer: as of iset_step.
 * Refusals: SHORT_ANSWER, NO_ROOM, BROKEN, BAD_INTERVAL, BAD_CURSOR. */
uint64_t iset_step_exact(uint64_t count, uint64_t root, const uint64_t *nodes, size_t nodes_len,
    const uint8_t *colours, size_t colours_len, uint64_t start, uint64_t end, uint64_t slot,
    uint64_t levels, uint64_t bits, uint64_t *answer, size_t answer_len);

/* Steps until the end, or until `limit` slots are written to `out`. A limit of 0 means `out_len`:
 * as many as fit. Places of `out` past the slots are unchanged. If the next cursor's slot is not
 * ISET_U there may be more hits: call again with that cursor. A host that shows one screen of 64
 * passes 64 itself.
 * Answer: the number of slots written, the number of nodes entered, the next cursor's slot, levels,
 * bits. At the end that slot is ISET_U.
 * Refusals: those of iset_step, then SHORT_OUTPUT. */
uint64_t iset_drain(uint64_t count, uint64_t root, const uint64_t *nodes, size_t nodes_len,
    const uint8_t *colours, size_t colours_len, uint64_t lo_kind, uint64_t lo, uint64_t hi_kind,
    uint64_t hi, uint64_t slot, uint64_t levels, uint64_t bits, uint64_t limit,
    uint64_t *out, size_t out_len, uint64_t *answer, size_t answer_len);

/* The same for the entries that are equal to an interval.
 * Answer: as of iset_drain.
 * Refusals: those of iset_step_exact, then SHORT_OUTPUT. */
uint64_t iset_drain_exact(uint64_t count, uint64_t root, const uint64_t *nodes, size_t nodes_len,
    const uint8_t *colours, size_t colours_len, uint64_t start, uint64_t end, uint64_t slot,
    uint64_t levels, uint64_t bits, uint64_t limit,
    uint64_t *out, size_t out_len, uint64_t *answer, size_t answer_len);

/* Finds all entries that intersect a range, without pruning: it visits every entry in order and
 * tests each. It writes to `out` the slots that iset_drain writes from the fresh cursor to the end.
 * `out` has a place for every entry; places past the slots are unchanged.
 * Answer: the number of slots written, the number of entries visited, which is the count.
 * Refusals: SHORT_ANSWER, BAD_BOUND, NO_ROOM, BROKEN, BAD_RANGE, SHORT_OUTPUT. */
uint64_t iset_plain(uint64_t count, uint64_t root, const uint64_t *nodes, size_t nodes_len,
    const uint8_t *colours, size_t colours_len, uint64_t lo_kind, uint64_t lo, uint64_t hi_kind,
    uint64_t hi, uint64_t *out, size_t out_len, uint64_t *answer, size_t answer_len);

/* The same for the entries that are equal to an interval.
 * Answer: as of iset_plain.
 * Refusals: SHORT_ANSWER, NO_ROOM, BROKEN, BAD_INTERVAL, SHORT_OUTPUT. */
uint64_t iset_plain_exact(uint64_t count, uint64_t root, const uint64_t *nodes, size_t nodes_len,
    const uint8_t *colours, size_t colours_len, uint64_t start, uint64_t end,
    uint64_t *out, size_t out_len, uint64_t *answer, size_t answer_len);

/* Finds all entries that intersect a range, at once: it tests both ends of a hull before it enters
 * a node, so it enters no node that iset_drain does not enter. It writes to `out` the slots that
 * iset_drain writes from the fresh cursor to the end, the first `out_len` of them. Places past the
 * slots are unchanged. If there are more hits than places, call again with that many places, or
 * drain. A lookup of one address is the range from it to itself, both bounds Included.
 * Answer: the number of hits, those that `out` has no place for included; the number of nodes
 * entered.
 * Refusals: SHORT_ANSWER, BAD_BOUND, NO_ROOM, BROKEN, BAD_RANGE. */
uint64_t iset_find_all(uint64_t count, uint64_t root, const uint64_t *nodes, size_t nodes_len,
    const uint8_t *colours, size_t colours_len, uint64_t lo_kind, uint64_t lo, uint64_t hi_kind,
    uint64_t hi, uint64_t *out, size_t out_len, uint64_t *answer, size_t answer_len);

/* The same for the entries that are equal to an interval.
 * Answer: as of iset_find_all.
 * Refusals: SHORT_ANSWER, NO_ROOM, BROKEN, BAD_INTERVAL. */
uint64_t iset_find_all_exact(uint64_t count, uint64_t root, const uint64_t *nodes,
    size_t nodes_len, const uint8_t *colours, size_t colours_len, uint64_t start, uint64_t end,
    uint64_t *out, size_t out_len, uint64_t *answer, size_t answer_len);

#ifdef __cplusplus
}
#endif

#endif
