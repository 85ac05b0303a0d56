/* Maps in which no two ranges overlap, though one may end where the next one starts. Such a map is
 * the map of iset.h, in the same two arrays, with a rule of its own. These calls test the rule.
 * Every other call of iset.h may be used on it. iset_unload and iset_renumber keep the rule, in all
 * their forms. iset_insert and iset_build do not; after them iset_disjoint_check tells.
 *
 * Arguments, answers and refusals have the form of iset.h, with one exception: iset_disjoint_insert
 * writes its answer also if it returns ISET_OVERLAP, since that refusal names a slot. After every
 * other refusal nothing lent has changed.
 *
 * The calls whose names begin with iset_open_disjoint do not check the store. They may be used if
 * three things hold. The store passed iset_disjoint_check once, or it is the map of no entries.
 * Since then nobody has written its two arrays but the calls of this header, unloadings and
 * renumberings. The count and the root passed in are those of the last answer, and so is the
 * version. Then each returns, answers and leaves exactly what the call does that has its name
 * without `open_`, and the store still passes the check. Its time grows with the height of the tree
 * and not with the count. If the three things do not hold, answers may be wrong. Even then every
 * call ends, and none reads or writes outside the arrays.
 *
 * Link libiset_disjoint.a beside libiset.a; `./archive` writes both:
 *
 *     gcc -std=c99 -I include host.c target/staticlib/libiset.a target/staticlib/libiset_disjoint.a */
#ifndef ISET_DISJOINT_H
#define ISET_DISJOINT_H

#include "iset.h"

/* How many numbers a point lookup's answer has. A removal's has ISET_REMOVE_ANSWER, an insertion's
 * ISET_INSERT_ANSWER. */
enum iset_point_answer { ISET_POINT_ANSWER = 2 };
enum iset_point_place { ISET_POINT_SLOT = 0, ISET_POINT_ENTERED = 1 };

#ifdef __cplusplus
extern "C" {
#endif

/* Checks the store, and that no two of its entries intersect: ISET_OK if so.
 * Refusals: NO_ROOM, BROKEN, NOT_DISJOINT. */
uint64_t iset_disjoint_check(uint64_t count, uint64_t root, const uint64_t *nodes,
    size_t nodes_len, const uint8_t *colours, size_t colours_len);

/* Finds the entry that holds an address. It enters at most as many nodes as the tree is high.
 * Answer: the entry's slot, ISET_U if no entry holds the address; the number of nodes entered.
 * Refusals: SHORT_ANSWER, NO_ROOM, BROKEN, NOT_DISJOINT. */
uint64_t iset_disjoint_point(uint64_t count, uint64_t root, const uint64_t *nodes,
    size_t nodes_len, const uint8_t *colours, size_t colours_len, uint64_t address,
    uint64_t *answer, size_t answer_len);

/* Adds one entry, in slot count, if no stored entry intersects it. No other entry changes slot.
 * Answer: as of iset_insert. With OVERLAP it is written too: count, root and version as given, the
 * slot of the first entry in the map's order that intersects the new one, and reach 0.
 * Refusals: SHORT_ANSWER, NO_ROOM if the arrays do not hold the count, BROKEN, NOT_DISJOINT,
 * BAD_INTERVAL, OVERLAP, NO_ROOM if the arrays hold no more entries than the count. */
uint64_t iset_disjoint_insert(uint64_t count, uint64_t root, uint32_t version, uint64_t *nodes,
    size_t nodes_len, uint8_t *colours, size_t colours_len, uint64_t start, uint64_t end,
    uint64_t value, uint64_t *answer, size_t answer_len);

/* Removes the entry of a slot. What is left is disjoint too.
 * Answer: as of iset_remove; iset_slot_after takes it.
 * Refusals: SHORT_ANSWER, NO_ROOM, BROKEN, NOT_DISJOINT, NO_SUCH. */
uint64_t iset_disjoint_remove(uint64_t count, uint64_t root, uint32_t version, uint64_t *nodes,
    size_t nodes_len, uint8_t *colours, size_t colours_len, uint64_t slot, uint64_t *answer,
    size_t answer_len);

/* Refusals: SHORT_ANSWER, NO_ROOM. */
uint64_t iset_open_disjoint_point(uint64_t count, uint64_t root, const uint64_t *nodes,
    size_t nodes_len, const uint8_t *colours, size_t colours_len, uint64_t address,
    uint64_t *answer, size_t answer_len);

/* Refusals: SHORT_ANSWER, NO_ROOM, BAD_INTERVAL, OVERLAP, NO_ROOM. */
uint64_t iset_open_disjoint_insert(uint64_t count, uint64_t root, uint32_t version,
    uint64_t *nodes, size_t nodes_len, uint8_t *colours, size_t colours_len, uint64_t start,
    uint64_t end, uint64_t value, uint64_t *answer, size_t answer_len);

/* Refusals: SHORT_ANSWER, NO_ROOM, NO_SUCH. */
uint64_t iset_open_disjoint_remove(uint64_t count, uint64_t root, uint32_t version,
    uint64_t *nodes, size_t nodes_len, uint8_t *colours, size_t colours_len, uint64_t slot,
    uint64_t *answer, size_t answer_len);

#ifdef __cplusplus
}
#endif

#endif
