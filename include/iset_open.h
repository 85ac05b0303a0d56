/* The calls of iset.h without the check of the store, for a host that keeps its arrays to itself.
 *
 * These calls may be used if three things hold. The store passed iset_check once, or iset_build
 * or iset_read_image made it, or it is the map of no entries. Since then nobody has written its two
 * arrays but these calls and those of iset.h. The count and the root passed in are those of the
 * last answer, and so is the version.
 *
 * Then each call returns, answers and leaves exactly what the call of iset.h does that has its name
 * without `open_`, and the store still passes the check. Otherwise answers may be wrong and a call
 * may take long. Even then every call ends, and none reads or writes outside the arrays.
 *
 * The calls of iset.h check the whole store each time. These do not: the time of an insertion, a
 * removal and a step grows with the height of the tree, that of an unloading with the height for
 * each entry that goes, that of a drain and of iset_open_find_all with the nodes that they enter,
 * that of a plain lookup, a plan and a renumbering with the count. A step or a drain that continues
 * from a cursor tests that cursor first, one link a level: to fetch many slots, ask for 64 at a
 * time.
 *
 * Arguments, answers, refusals and their order are those of iset.h, except that these calls never
 * return ISET_BROKEN. Link libiset_open.a beside libiset.a; `./archive` writes both:
 *
 *     gcc -std=c99 -I include host.c target/staticlib/libiset.a target/staticlib/libiset_open.a */
#ifndef ISET_OPEN_H
#define ISET_OPEN_H

#include "iset.h"

#ifdef __cplusplus
extern "C" {
#endif

/* Refusals: SHORT_ANSWER, NO_ROOM, NO_SUCH. */
uint64_t iset_open_remove(uint64_t count, uint64_t root, uint32_t version, uint64_t *nodes,
    size_t nodes_len, uint8_t *colours, size_t colours_len, uint64_t slot, uint64_t *answer,
    size_t answer_len);

/* Refusals: SHORT_ANSWER, NO_ROOM, BAD_INTERVAL. */
uint64_t iset_open_insert(uint64_t count, uint64_t root, uint32_t version, uint64_t *nodes,
    size_t nodes_len, uint8_t *colours, size_t colours_len, uint64_t start, uint64_t end,
    uint64_t value, uint64_t *answer, size_t answer_len);

/* Refusals: SHORT_ANSWER, BAD_BOUND, NO_ROOM, BAD_RANGE. */
uint64_t iset_open_unload(uint64_t count, uint64_t root, uint32_t version, uint64_t *nodes,
    size_t nodes_len, uint8_t *colours, size_t colours_len, uint64_t lo_kind, uint64_t lo,
    uint64_t hi_kind, uint64_t hi, uint64_t *answer, size_t answer_len);

/* Refusals: NO_ROOM, SHORT_OUTPUT. */
uint64_t iset_open_propose(uint64_t count, uint64_t root, const uint64_t *nodes, size_t nodes_len,
    const uint8_t *colours, size_t colours_len, uint64_t *out, size_t out_len);

/* It takes 8 KiB of stack, as iset_renumber does.
 * Refusals: SHORT_ANSWER, NO_ROOM, BAD_PLAN. */
uint64_t iset_open_renumber(uint64_t count, uint64_t root, uint32_t version, uint64_t *nodes,
    size_t nodes_len, uint8_t *colours, size_t colours_len, const uint64_t *plan,
    size_t plan_len, uint64_t *answer, size_t answer_len);

/* Refusals: SHORT_ANSWER, NO_ROOM, STALE, NO_SUCH. */
uint64_t iset_open_read(uint64_t count, uint64_t root, uint32_t version, const uint64_t *nodes,
    size_t nodes_len, const uint8_t *colours, size_t colours_len, uint64_t slot, uint32_t taken,
    uint64_t *answer, size_t answer_len);

/* Refusals: SHORT_ANSWER, NO_ROOM, SHORT_OUTPUT. iset_read_image tests the image and not the store,
 * so it serves both. */
uint64_t iset_open_write_image(uint64_t count, uint64_t root, const uint64_t *nodes,
    size_t nodes_len, const uint8_t *colours, size_t colours_len, uint8_t *out, size_t out_len,
    uint64_t *answer, size_t answer_len);

/* iset_fresh checks nothing, so it serves both. */

/* Refusals: SHORT_ANSWER, NO_ROOM, BAD_INTERVAL. */
uint64_t iset_open_fresh_exact(uint64_t count, uint64_t root, const uint64_t *nodes,
    size_t nodes_len, const uint8_t *colours, size_t colours_len, uint64_t start, uint64_t end,
    uint64_t *answer, size_t answer_len);

/* Refusals: SHORT_ANSWER, BAD_BOUND, NO_ROOM, BAD_RANGE, BAD_CURSOR. */
uint64_t iset_open_step(uint64_t count, uint64_t root, const uint64_t *nodes, size_t nodes_len,
    const uint8_t *colours, size_t colours_len, uint64_t lo_kind, uint64_t lo, uint64_t hi_kind,
    uint64_t hi, uint64_t slot, uint64_t levels, uint64_t bits,
    uint64_t *answer, size_t answer_len);

/* Refusals: SHORT_ANSWER, NO_ROOM, BAD_INTERVAL, BAD_CURSOR. */
uint64_t iset_open_step_exact(uint64_t count, uint64_t root, const uint64_t *nodes,
    size_t nodes_len, const uint8_t *colours, size_t colours_len, uint64_t start, uint64_t end,
    uint64_t slot, uint64_t levels, uint64_t bits, uint64_t *answer, size_t answer_len);

/* Refusals: those of iset_open_step, then SHORT_OUTPUT. */
uint64_t iset_open_drain(uint64_t count, uint64_t root, const uint64_t *nodes, size_t nodes_len,
    const uint8_t *colours, size_t colours_len, uint64_t lo_kind, uint64_t lo, uint64_t hi_kind,
    uint64_t hi, uint64_t slot, uint64_t levels, uint64_t bits, uint64_t limit,
    uint64_t *out, size_t out_len, uint64_t *answer, size_t answer_len);

/* Refusals: those of iset_open_step_exact, then SHORT_OUTPUT. */
uint64_t iset_open_drain_exact(uint64_t count, uint64_t root, const uint64_t *nodes,
    size_t nodes_len, const uint8_t *colours, size_t colours_len, uint64_t start, uint64_t end,
    uint64_t slot, uint64_t levels, uint64_t bits, uint64_t limit,
    uint64_t *out, size_t out_len, uint64_t *answer, size_t answer_len);

/* Refusals: SHORT_ANSWER, BAD_BOUND, NO_ROOM, BAD_RANGE, SHORT_OUTPUT. */
uint64_t iset_open_plain(uint64_t count, uint64_t root, const uint64_t *nodes, size_t nodes_len,
    const uint8_t *colours, size_t colours_len, uint64_t lo_kind, uint64_t lo, uint64_t hi_kind,
    uint64_t hi, uint64_t *out, size_t out_len, uint64_t *answer, size_t answer_len);

/* Refusals: SHORT_ANSWER, NO_ROOM, BAD_INTERVAL, SHORT_OUTPUT. */
uint64_t iset_open_plain_exact(uint64_t count, uint64_t root, const uint64_t *nodes,
    size_t nodes_len, const uint8_t *colours, size_t colours_len, uint64_t start, uint64_t end,
    uint64_t *out, size_t out_len, uint64_t *answer, size_t answer_len);

/* Refusals: SHORT_ANSWER, BAD_BOUND, NO_ROOM, BAD_RANGE. */
uint64_t iset_open_find_all(uint64_t count, uint64_t root, const uint64_t *nodes, size_t nodes_len,
    const uint8_t *colours, size_t colours_len, uint64_t lo_kind, uint64_t lo, uint64_t hi_kind,
    uint64_t hi, uint64_t *out, size_t out_len, uint64_t *answer, size_t answer_len);

/* Refusals: SHORT_ANSWER, NO_ROOM, BAD_INTERVAL. */
uint64_t iset_open_find_all_exact(uint64_t count, uint64_t root, const uint64_t *nodes,
    size_t nodes_len, const uint8_t *colours, size_t colours_len, uint64_t start, uint64_t end,
    uint64_t *out, size_t out_len, uint64_t *answer, size_t answer_len);

#ifdef __cplusplus
}
#endif

#endif
