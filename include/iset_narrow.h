/* The calls of iset.h, iset_open.h, iset_ruled.h and iset_disjoint.h for nodes of six words, which
 * take three quarters of the memory. A link takes 16 bits, and a node's three links are one word.
 *
 *   nodes     six words a slot: start, end, value, hull start, hull end, links
 *   links     the left link in the lowest 16 bits, then the right link, then the parent link; the
 *             top 16 bits are 0. 65535 is an undefined link, where eight words have ISET_U.
 *   colours   one bit a slot, as in iset.h
 *
 * A map holds at most the least of nodes_len / 6, colours_len * 8 and 65535 entries. So every slot
 * fits a link, and none is 65535. The map of no entries has count 0, root ISET_U and version 0.
 *
 * Each call has the name of a call of those headers, with `narrow_` after `iset_`. Arguments,
 * answers, refusals and their order are the same; only the words of the nodes differ. Slots, roots
 * and cursors in arguments and answers are the numbers that they are there, and ISET_U is no slot.
 * BROKEN is also returned if the top 16 bits of a link word below the count are not 0. In the slots
 * from the count up they may be anything, and stay until the slot is written. After a removal the
 * slot that is the new count is empty: its link word is ISET_NARROW_NO_LINKS, its other words 0. So
 * are the slots that an unloading empties.
 *
 * An image is the same of both layouts: a map that is saved from one loads into the other, and the
 * calls of iset_image.h read it. iset_fresh and iset_slot_after see no nodes, so they serve both
 * layouts. What iset_open.h and iset_disjoint.h say about who may use the opened calls holds here
 * too.
 *
 * These calls are in an archive of their own. It has the code for six words alone, and libiset.a
 * has that for eight. In one archive with both layouts each access to a node would test which
 * layout it has, and calls would be slower. A host that needs both layouts links both archives. The
 * words do not say which layout they have: pass them to the calls of one layout only.
 *
 * Link libiset_narrow.a beside libiset.a, which has iset_fresh and iset_slot_after; `./archive`
 * writes both:
 *
 *     gcc -std=c99 -I include host.c target/staticlib/libiset.a target/staticlib/libiset_narrow.a
 */
#ifndef ISET_NARROW_H
#define ISET_NARROW_H

#include "iset.h"
#include "iset_disjoint.h"
#include "iset_ruled.h"

#define ISET_NARROW_NODE_WORDS 6

/* How many words the nodes of n entries need. */
#define ISET_NARROW_NODES_LEN(n) ((size_t)(n) * ISET_NARROW_NODE_WORDS)

/* The words of a slot: word w of slot s is nodes[s * ISET_NARROW_NODE_WORDS + w]. The first five
 * are as in enum iset_word. */
enum iset_narrow_word {
    ISET_NARROW_START = 0,
    ISET_NARROW_END = 1,
    ISET_NARROW_VALUE = 2,
    ISET_NARROW_HULL_START = 3,
    ISET_NARROW_HULL_END = 4,
    ISET_NARROW_LINKS = 5
};

/* A link that leads nowhere, and the link word with three of them. */
#define ISET_NARROW_U 65535
#define ISET_NARROW_NO_LINKS UINT64_C(281474976710655)

/* The three links of a link word. */
#define ISET_NARROW_LEFT(links) ((uint64_t)(links) & 65535)
#define ISET_NARROW_RIGHT(links) ((uint64_t)(links) >> 16 & 65535)
#define ISET_NARROW_PARENT(links) ((uint64_t)(links) >> 32 & 65535)

#ifdef __cplusplus
extern "C" {
#endif

/* The calls of iset.h. */

/* As iset_check.
 * Refusals: NO_ROOM, BROKEN. */
uint64_t iset_narrow_check(uint64_t count, uint64_t root, const uint64_t *nodes, size_t nodes_len,
    const uint8_t *colours, size_t colours_len);

/* As iset_build.
 * Answer: count, root, version.
 * Refusals: SHORT_ANSWER, BAD_LIST, NO_ROOM, BAD_INTERVAL, NOT_SORTED. */
uint64_t iset_narrow_build(uint32_t version, uint64_t *nodes, size_t nodes_len, uint8_t *colours,
    size_t colours_len, const uint64_t *list, size_t list_len, uint64_t *answer, size_t answer_len);

/* As iset_remove.
 * Answer: the removed value, count, root; then three moves, each an old slot and a new slot, by
 * rising old slot, an unused one ISET_U twice; then the reach: how many of the hulls that the
 * removal worked out changed, at either end; then the version.
 * Refusals: SHORT_ANSWER, NO_ROOM, BROKEN, NO_SUCH. */
uint64_t iset_narrow_remove(uint64_t count, uint64_t root, uint32_t version, uint64_t *nodes,
    size_t nodes_len, uint8_t *colours, size_t colours_len, uint64_t slot, uint64_t *answer,
    size_t answer_len);

/* As iset_insert.
 * Answer: count, root, the new entry's slot, which is the count before; then the reach: how many
 * of the hulls that the insertion worked out changed; then the version.
 * Refusals: SHORT_ANSWER, NO_ROOM if the arrays hold no more entries than the count, BROKEN,
 * BAD_INTERVAL. */
uint64_t iset_narrow_insert(uint64_t count, uint64_t root, uint32_t version, uint64_t *nodes,
    size_t nodes_len, uint8_t *colours, size_t colours_len, uint64_t start, uint64_t end,
    uint64_t value, uint64_t *answer, size_t answer_len);

/* As iset_unload.
 * Answer: count, root, version, how many entries went.
 * Refusals: SHORT_ANSWER, BAD_BOUND, NO_ROOM, BROKEN, BAD_RANGE. */
uint64_t iset_narrow_unload(uint64_t count, uint64_t root, uint32_t version, uint64_t *nodes,
    size_t nodes_len, uint8_t *colours, size_t colours_len, uint64_t lo_kind, uint64_t lo,
    uint64_t hi_kind, uint64_t hi, uint64_t *answer, size_t answer_len);

/* As iset_propose.
 * Refusals: NO_ROOM, BROKEN, SHORT_OUTPUT. */
uint64_t iset_narrow_propose(uint64_t count, uint64_t root, const uint64_t *nodes,
    size_t nodes_len, const uint8_t *colours, size_t colours_len, uint64_t *out, size_t out_len);

/* As iset_renumber.
 * Answer: count, root, version.
 * Refusals: SHORT_ANSWER, NO_ROOM, BROKEN, BAD_PLAN. */
uint64_t iset_narrow_renumber(uint64_t count, uint64_t root, uint32_t version, uint64_t *nodes,
    size_t nodes_len, uint8_t *colours, size_t colours_len, const uint64_t *plan, size_t plan_len,
    uint64_t *answer, size_t answer_len);

/* As iset_read.
 * Answer: start, end, value.
 * Refusals: SHORT_ANSWER, NO_ROOM, BROKEN, STALE if `taken` is not the map's version, NO_SUCH. */
uint64_t iset_narrow_read(uint64_t count, uint64_t root, uint32_t version, const uint64_t *nodes,
    size_t nodes_len, const uint8_t *colours, size_t colours_len, uint64_t slot, uint32_t taken,
    uint64_t *answer, size_t answer_len);

/* As iset_write_image.
 * Answer: the image's length.
 * Refusals: SHORT_ANSWER, NO_ROOM, BROKEN, SHORT_OUTPUT. */
uint64_t iset_narrow_write_image(uint64_t count, uint64_t root, const uint64_t *nodes,
    size_t nodes_len, const uint8_t *colours, size_t colours_len, uint8_t *out, size_t out_len,
    uint64_t *answer, size_t answer_len);

/* As iset_read_image.
 * Answer: count, root, version.
 * Refusals: SHORT_ANSWER, BAD_IMAGE, NO_ROOM if the arrays do not hold the image's entries,
 * BROKEN if the store in the image does not pass the check. */
uint64_t iset_narrow_read_image(uint32_t version, uint64_t *nodes, size_t nodes_len,
    uint8_t *colours, size_t colours_len, const uint8_t *image, size_t image_len, uint64_t *answer,
    size_t answer_len);

/* As iset_fresh_exact.
 * Answer: the cursor's slot, levels, bits.
 * Refusals: SHORT_ANSWER, NO_ROOM, BROKEN, BAD_INTERVAL. */
uint64_t iset_narrow_fresh_exact(uint64_t count, uint64_t root, const uint64_t *nodes,
    size_t nodes_len, const uint8_t *colours, size_t colours_len, uint64_t start, uint64_t end,
    uint64_t *answer, size_t answer_len);

/* As iset_step.
 * Answer: the entry's slot, ISET_U at the end; the next cursor's slot, levels, bits; the number
 * of nodes that this call entered.
 * Refusals: SHORT_ANSWER, BAD_BOUND, NO_ROOM, BROKEN, BAD_RANGE, BAD_CURSOR. */
uint64_t iset_narrow_step(uint64_t count, uint64_t root, const uint64_t *nodes, size_t nodes_len,
    const uint8_t *colours, size_t colours_len, uint64_t lo_kind, uint64_t lo, uint64_t hi_kind,
    uint64_t hi, uint64_t slot, uint64_t levels, uint64_t bits, uint64_t *answer,
    size_t answer_len);

/* As iset_step_exact.
 * Answer: as of iset_narrow_step.
 * Refusals: SHORT_ANSWER, NO_ROOM, BROKEN, BAD_INTERVAL, BAD_CURSOR. */
uint64_t iset_narrow_step_exact(uint64_t count, uint64_t root, const uint64_t *nodes,
    size_t nodes_len, const uint8_t *colours, size_t colours_len, uint64_t start, uint64_t end,
    uint64_t slot, uint64_t levels, uint64_t bits, uint64_t *answer, size_t answer_len);

/* As iset_drain.
 * Answer: the number of slots written, the number of nodes entered, the next cursor's slot,
 * levels, bits. At the end that slot is ISET_U.
 * Refusals: those of iset_narrow_step, then SHORT_OUTPUT. */
uint64_t iset_narrow_drain(uint64_t count, uint64_t root, const uint64_t *nodes, size_t nodes_len,
    const uint8_t *colours, size_t colours_len, uint64_t lo_kind, uint64_t lo, uint64_t hi_kind,
    uint64_t hi, uint64_t slot, uint64_t levels, uint64_t bits, uint64_t limit, uint64_t *out,
    size_t out_len, uint64_t *answer, size_t answer_len);

/* As iset_drain_exact.
 * Answer: as of iset_narrow_drain.
 * Refusals: those of iset_narrow_step_exact, then SHORT_OUTPUT. */
uint64_t iset_narrow_drain_exact(uint64_t count, uint64_t root, const uint64_t *nodes,
    size_t nodes_len, const uint8_t *colours, size_t colours_len, uint64_t start, uint64_t end,
    uint64_t slot, uint64_t levels, uint64_t bits, uint64_t limit, uint64_t *out, size_t out_len,
    uint64_t *answer, size_t answer_len);

/* As iset_plain.
 * Answer: the number of slots written, the number of entries visited, which is the count.
 * Refusals: SHORT_ANSWER, BAD_BOUND, NO_ROOM, BROKEN, BAD_RANGE, SHORT_OUTPUT. */
uint64_t iset_narrow_plain(uint64_t count, uint64_t root, const uint64_t *nodes, size_t nodes_len,
    const uint8_t *colours, size_t colours_len, uint64_t lo_kind, uint64_t lo, uint64_t hi_kind,
    uint64_t hi, uint64_t *out, size_t out_len, uint64_t *answer, size_t answer_len);

/* As iset_plain_exact.
 * Answer: as of iset_narrow_plain.
 * Refusals: SHORT_ANSWER, NO_ROOM, BROKEN, BAD_INTERVAL, SHORT_OUTPUT. */
uint64_t iset_narrow_plain_exact(uint64_t count, uint64_t root, const uint64_t *nodes,
    size_t nodes_len, const uint8_t *colours, size_t colours_len, uint64_t start, uint64_t end,
    uint64_t *out, size_t out_len, uint64_t *answer, size_t answer_len);

/* As iset_find_all.
 * Answer: the number of hits, those that `out` has no place for included; the number of nodes
 * entered.
 * Refusals: SHORT_ANSWER, BAD_BOUND, NO_ROOM, BROKEN, BAD_RANGE. */
uint64_t iset_narrow_find_all(uint64_t count, uint64_t root, const uint64_t *nodes,
    size_t nodes_len, const uint8_t *colours, size_t colours_len, uint64_t lo_kind, uint64_t lo,
    uint64_t hi_kind, uint64_t hi, uint64_t *out, size_t out_len, uint64_t *answer,
    size_t answer_len);

/* As iset_find_all_exact.
 * Answer: as of iset_narrow_find_all.
 * Refusals: SHORT_ANSWER, NO_ROOM, BROKEN, BAD_INTERVAL. */
uint64_t iset_narrow_find_all_exact(uint64_t count, uint64_t root, const uint64_t *nodes,
    size_t nodes_len, const uint8_t *colours, size_t colours_len, uint64_t start, uint64_t end,
    uint64_t *out, size_t out_len, uint64_t *answer, size_t answer_len);

/* The calls of iset_open.h, without the check of the store. They may be used if the three things
 * hold that iset_open.h names, with the calls of this header for those of the others. */

/* As iset_open_remove.
 * Refusals: SHORT_ANSWER, NO_ROOM, NO_SUCH. */
uint64_t iset_narrow_open_remove(uint64_t count, uint64_t root, uint32_t version, uint64_t *nodes,
    size_t nodes_len, uint8_t *colours, size_t colours_len, uint64_t slot, uint64_t *answer,
    size_t answer_len);

/* As iset_open_insert.
 * Refusals: SHORT_ANSWER, NO_ROOM, BAD_INTERVAL. */
uint64_t iset_narrow_open_insert(uint64_t count, uint64_t root, uint32_t version, uint64_t *nodes,
    size_t nodes_len, uint8_t *colours, size_t colours_len, uint64_t start, uint64_t end,
    uint64_t value, uint64_t *answer, size_t answer_len);

/* As iset_open_unload.
 * Refusals: SHORT_ANSWER, BAD_BOUND, NO_ROOM, BAD_RANGE. */
uint64_t iset_narrow_open_unload(uint64_t count, uint64_t root, uint32_t version, uint64_t *nodes,
    size_t nodes_len, uint8_t *colours, size_t colours_len, uint64_t lo_kind, uint64_t lo,
    uint64_t hi_kind, uint64_t hi, uint64_t *answer, size_t answer_len);

/* As iset_open_propose.
 * Refusals: NO_ROOM, SHORT_OUTPUT. */
uint64_t iset_narrow_open_propose(uint64_t count, uint64_t root, const uint64_t *nodes,
    size_t nodes_len, const uint8_t *colours, size_t colours_len, uint64_t *out, size_t out_len);

/* As iset_open_renumber.
 * Refusals: SHORT_ANSWER, NO_ROOM, BAD_PLAN. */
uint64_t iset_narrow_open_renumber(uint64_t count, uint64_t root, uint32_t version, uint64_t *nodes,
    size_t nodes_len, uint8_t *colours, size_t colours_len, const uint64_t *plan, size_t plan_len,
    uint64_t *answer, size_t answer_len);

/* As iset_open_read.
 * Refusals: SHORT_ANSWER, NO_ROOM, STALE, NO_SUCH. */
uint64_t iset_narrow_open_read(uint64_t count, uint64_t root, uint32_t version,
    const uint64_t *nodes, size_t nodes_len, const uint8_t *colours, size_t colours_len,
    uint64_t slot, uint32_t taken, uint64_t *answer, size_t answer_len);

/* As iset_open_write_image.
 * Refusals: SHORT_ANSWER, NO_ROOM, SHORT_OUTPUT. iset_narrow_read_image tests the image and not
 * the store, so it serves both. */
uint64_t iset_narrow_open_write_image(uint64_t count, uint64_t root, const uint64_t *nodes,
    size_t nodes_len, const uint8_t *colours, size_t colours_len, uint8_t *out, size_t out_len,
    uint64_t *answer, size_t answer_len);

/* As iset_open_fresh_exact.
 * Refusals: SHORT_ANSWER, NO_ROOM, BAD_INTERVAL. */
uint64_t iset_narrow_open_fresh_exact(uint64_t count, uint64_t root, const uint64_t *nodes,
    size_t nodes_len, const uint8_t *colours, size_t colours_len, uint64_t start, uint64_t end,
    uint64_t *answer, size_t answer_len);

/* As iset_open_step.
 * Refusals: SHORT_ANSWER, BAD_BOUND, NO_ROOM, BAD_RANGE, BAD_CURSOR. */
uint64_t iset_narrow_open_step(uint64_t count, uint64_t root, const uint64_t *nodes,
    size_t nodes_len, const uint8_t *colours, size_t colours_len, uint64_t lo_kind, uint64_t lo,
    uint64_t hi_kind, uint64_t hi, uint64_t slot, uint64_t levels, uint64_t bits, uint64_t *answer,
    size_t answer_len);

/* As iset_open_step_exact.
 * Refusals: SHORT_ANSWER, NO_ROOM, BAD_INTERVAL, BAD_CURSOR. */
uint64_t iset_narrow_open_step_exact(uint64_t count, uint64_t root, const uint64_t *nodes,
    size_t nodes_len, const uint8_t *colours, size_t colours_len, uint64_t start, uint64_t end,
    uint64_t slot, uint64_t levels, uint64_t bits, uint64_t *answer, size_t answer_len);

/* As iset_open_drain.
 * Refusals: those of iset_narrow_open_step, then SHORT_OUTPUT. */
uint64_t iset_narrow_open_drain(uint64_t count, uint64_t root, const uint64_t *nodes,
    size_t nodes_len, const uint8_t *colours, size_t colours_len, uint64_t lo_kind, uint64_t lo,
    uint64_t hi_kind, uint64_t hi, uint64_t slot, uint64_t levels, uint64_t bits, uint64_t limit,
    uint64_t *out, size_t out_len, uint64_t *answer, size_t answer_len);

/* As iset_open_drain_exact.
 * Refusals: those of iset_narrow_open_step_exact, then SHORT_OUTPUT. */
uint64_t iset_narrow_open_drain_exact(uint64_t count, uint64_t root, const uint64_t *nodes,
    size_t nodes_len, const uint8_t *colours, size_t colours_len, uint64_t start, uint64_t end,
    uint64_t slot, uint64_t levels, uint64_t bits, uint64_t limit, uint64_t *out, size_t out_len,
    uint64_t *answer, size_t answer_len);

/* As iset_open_plain.
 * Refusals: SHORT_ANSWER, BAD_BOUND, NO_ROOM, BAD_RANGE, SHORT_OUTPUT. */
uint64_t iset_narrow_open_plain(uint64_t count, uint64_t root, const uint64_t *nodes,
    size_t nodes_len, const uint8_t *colours, size_t colours_len, uint64_t lo_kind, uint64_t lo,
    uint64_t hi_kind, uint64_t hi, uint64_t *out, size_t out_len, uint64_t *answer,
    size_t answer_len);

/* As iset_open_plain_exact.
 * Refusals: SHORT_ANSWER, NO_ROOM, BAD_INTERVAL, SHORT_OUTPUT. */
uint64_t iset_narrow_open_plain_exact(uint64_t count, uint64_t root, const uint64_t *nodes,
    size_t nodes_len, const uint8_t *colours, size_t colours_len, uint64_t start, uint64_t end,
    uint64_t *out, size_t out_len, uint64_t *answer, size_t answer_len);

/* As iset_open_find_all.
 * Refusals: SHORT_ANSWER, BAD_BOUND, NO_ROOM, BAD_RANGE. */
uint64_t iset_narrow_open_find_all(uint64_t count, uint64_t root, const uint64_t *nodes,
    size_t nodes_len, const uint8_t *colours, size_t colours_len, uint64_t lo_kind, uint64_t lo,
    uint64_t hi_kind, uint64_t hi, uint64_t *out, size_t out_len, uint64_t *answer,
    size_t answer_len);

/* As iset_open_find_all_exact.
 * Refusals: SHORT_ANSWER, NO_ROOM, BAD_INTERVAL. */
uint64_t iset_narrow_open_find_all_exact(uint64_t count, uint64_t root, const uint64_t *nodes,
    size_t nodes_len, const uint8_t *colours, size_t colours_len, uint64_t start, uint64_t end,
    uint64_t *out, size_t out_len, uint64_t *answer, size_t answer_len);

/* The calls of iset_ruled.h: lookups for a range by the rule of a number, and unloadings. */

/* As iset_step_ruled. */
uint64_t iset_narrow_step_ruled(uint64_t count, uint64_t root, const uint64_t *nodes,
    size_t nodes_len, const uint8_t *colours, size_t colours_len, uint64_t rule, uint64_t lo_kind,
    uint64_t lo, uint64_t hi_kind, uint64_t hi, uint64_t slot, uint64_t levels, uint64_t bits,
    uint64_t *answer, size_t answer_len);

/* As iset_drain_ruled. */
uint64_t iset_narrow_drain_ruled(uint64_t count, uint64_t root, const uint64_t *nodes,
    size_t nodes_len, const uint8_t *colours, size_t colours_len, uint64_t rule, uint64_t lo_kind,
    uint64_t lo, uint64_t hi_kind, uint64_t hi, uint64_t slot, uint64_t levels, uint64_t bits,
    uint64_t limit, uint64_t *out, size_t out_len, uint64_t *answer, size_t answer_len);

/* As iset_plain_ruled. */
uint64_t iset_narrow_plain_ruled(uint64_t count, uint64_t root, const uint64_t *nodes,
    size_t nodes_len, const uint8_t *colours, size_t colours_len, uint64_t rule, uint64_t lo_kind,
    uint64_t lo, uint64_t hi_kind, uint64_t hi, uint64_t *out, size_t out_len, uint64_t *answer,
    size_t answer_len);

/* As iset_find_all_ruled. */
uint64_t iset_narrow_find_all_ruled(uint64_t count, uint64_t root, const uint64_t *nodes,
    size_t nodes_len, const uint8_t *colours, size_t colours_len, uint64_t rule, uint64_t lo_kind,
    uint64_t lo, uint64_t hi_kind, uint64_t hi, uint64_t *out, size_t out_len, uint64_t *answer,
    size_t answer_len);

/* As iset_unload_ruled. */
uint64_t iset_narrow_unload_ruled(uint64_t count, uint64_t root, uint32_t version,
    uint64_t *nodes, size_t nodes_len, uint8_t *colours, size_t colours_len, uint64_t rule,
    uint64_t lo_kind, uint64_t lo, uint64_t hi_kind, uint64_t hi, uint64_t *answer,
    size_t answer_len);

/* As iset_open_step_ruled. */
uint64_t iset_narrow_open_step_ruled(uint64_t count, uint64_t root, const uint64_t *nodes,
    size_t nodes_len, const uint8_t *colours, size_t colours_len, uint64_t rule, uint64_t lo_kind,
    uint64_t lo, uint64_t hi_kind, uint64_t hi, uint64_t slot, uint64_t levels, uint64_t bits,
    uint64_t *answer, size_t answer_len);

/* As iset_open_drain_ruled. */
uint64_t iset_narrow_open_drain_ruled(uint64_t count, uint64_t root, const uint64_t *nodes,
    size_t nodes_len, const uint8_t *colours, size_t colours_len, uint64_t rule, uint64_t lo_kind,
    uint64_t lo, uint64_t hi_kind, uint64_t hi, uint64_t slot, uint64_t levels, uint64_t bits,
    uint64_t limit, uint64_t *out, size_t out_len, uint64_t *answer, size_t answer_len);

/* As iset_open_plain_ruled. */
uint64_t iset_narrow_open_plain_ruled(uint64_t count, uint64_t root, const uint64_t *nodes,
    size_t nodes_len, const uint8_t *colours, size_t colours_len, uint64_t rule, uint64_t lo_kind,
    uint64_t lo, uint64_t hi_kind, uint64_t hi, uint64_t *out, size_t out_len, uint64_t *answer,
    size_t answer_len);

/* As iset_open_find_all_ruled. */
uint64_t iset_narrow_open_find_all_ruled(uint64_t count, uint64_t root, const uint64_t *nodes,
    size_t nodes_len, const uint8_t *colours, size_t colours_len, uint64_t rule, uint64_t lo_kind,
    uint64_t lo, uint64_t hi_kind, uint64_t hi, uint64_t *out, size_t out_len, uint64_t *answer,
    size_t answer_len);

/* As iset_open_unload_ruled. */
uint64_t iset_narrow_open_unload_ruled(uint64_t count, uint64_t root, uint32_t version,
    uint64_t *nodes, size_t nodes_len, uint8_t *colours, size_t colours_len, uint64_t rule,
    uint64_t lo_kind, uint64_t lo, uint64_t hi_kind, uint64_t hi, uint64_t *answer,
    size_t answer_len);

/* The calls of iset_disjoint.h: maps in which no two ranges overlap. */

/* As iset_disjoint_check.
 * Refusals: NO_ROOM, BROKEN, NOT_DISJOINT. */
uint64_t iset_narrow_disjoint_check(uint64_t count, uint64_t root, const uint64_t *nodes,
    size_t nodes_len, const uint8_t *colours, size_t colours_len);

/* As iset_disjoint_point.
 * Answer: the entry's slot, ISET_U if no entry holds the address; the number of nodes entered.
 * Refusals: SHORT_ANSWER, NO_ROOM, BROKEN, NOT_DISJOINT. */
uint64_t iset_narrow_disjoint_point(uint64_t count, uint64_t root, const uint64_t *nodes,
    size_t nodes_len, const uint8_t *colours, size_t colours_len, uint64_t address,
    uint64_t *answer, size_t answer_len);

/* As iset_disjoint_insert.
 * Answer: as of iset_narrow_insert. With OVERLAP it is written too: count, root and version as
 * given, the slot of the first entry in the map's order that intersects the new one, and reach 0.
 * Refusals: SHORT_ANSWER, NO_ROOM if the arrays do not hold the count, BROKEN, NOT_DISJOINT,
 * BAD_INTERVAL, OVERLAP, NO_ROOM if the arrays hold no more entries than the count. */
uint64_t iset_narrow_disjoint_insert(uint64_t count, uint64_t root, uint32_t version,
    uint64_t *nodes, size_t nodes_len, uint8_t *colours, size_t colours_len, uint64_t start,
    uint64_t end, uint64_t value, uint64_t *answer, size_t answer_len);

/* As iset_disjoint_remove.
 * Answer: as of iset_narrow_remove; iset_slot_after takes it.
 * Refusals: SHORT_ANSWER, NO_ROOM, BROKEN, NOT_DISJOINT, NO_SUCH. */
uint64_t iset_narrow_disjoint_remove(uint64_t count, uint64_t root, uint32_t version,
    uint64_t *nodes, size_t nodes_len, uint8_t *colours, size_t colours_len, uint64_t slot,
    uint64_t *answer, size_t answer_len);

/* As iset_open_disjoint_point.
 * Refusals: SHORT_ANSWER, NO_ROOM. */
uint64_t iset_narrow_open_disjoint_point(uint64_t count, uint64_t root, const uint64_t *nodes,
    size_t nodes_len, const uint8_t *colours, size_t colours_len, uint64_t address,
    uint64_t *answer, size_t answer_len);

/* As iset_open_disjoint_insert.
 * Refusals: SHORT_ANSWER, NO_ROOM, BAD_INTERVAL, OVERLAP, NO_ROOM. */
uint64_t iset_narrow_open_disjoint_insert(uint64_t count, uint64_t root, uint32_t version,
    uint64_t *nodes, size_t nodes_len, uint8_t *colours, size_t colours_len, uint64_t start,
    uint64_t end, uint64_t value, uint64_t *answer, size_t answer_len);

/* As iset_open_disjoint_remove.
 * Refusals: SHORT_ANSWER, NO_ROOM, NO_SUCH. */
uint64_t iset_narrow_open_disjoint_remove(uint64_t count, uint64_t root, uint32_t version,
    uint64_t *nodes, size_t nodes_len, uint8_t *colours, size_t colours_len, uint64_t slot,
    uint64_t *answer, size_t answer_len);

#ifdef __cplusplus
}
#endif

#endif
