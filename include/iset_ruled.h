/* Lookups for a range by the rule of a number, and the unloading of a range. There are two rules of
 * what intersects a range:
 *
 *   ISET_RULE_ANY     1   an entry intersects if it ends after lo, whether lo is Included or
 *                         Excluded, and hi admits its start. The calls without a rule go by it.
 *   ISET_RULE_WHOLE   2   an entry intersects if some whole address from 0 to
 *                         18446744073709551615 lies in both.
 *
 * They differ only if lo is Excluded. With Excluded 5 as lo, [3,6) intersects by rule 1. By rule 2
 * it does not: 5 is its only address from there. The rule decides which entries are hits. A drain
 * to the end enters the same nodes by both, and a cursor of the one may be carried on by the other;
 * iset_find_all_ruled may enter fewer by rule 2.
 *
 * Each call is that of iset.h or iset_open.h that has its name without `_ruled`, with the number of
 * the rule before lo_kind. Answers, outputs and refusals have the same form and order. BAD_RANGE is
 * also returned if `rule` is not 1 or 2 and, by rule 2, if no whole address lies in the range, as
 * in one from Excluded 18446744073709551615 on. The calls whose names begin with iset_open_ are for
 * a store that iset_open.h allows.
 *
 * Link libiset_ruled.a beside libiset.a; `./archive` writes both:
 *
 *     gcc -std=c99 -I include host.c target/staticlib/libiset.a target/staticlib/libiset_ruled.a */
#ifndef ISET_RULED_H
#define ISET_RULED_H

#include "iset.h"

enum iset_rule { ISET_RULE_ANY = 1, ISET_RULE_WHOLE = 2 };

#ifdef __cplusplus
extern "C" {
#endif

uint64_t iset_step_ruled(uint64_t count, uint64_t root, const uint64_t *nodes, size_t nodes_len,
    const uint8_t *colours, size_t colours_len, uint64_t rule, uint64_t lo_kind, uint64_t lo,
    uint64_t hi_kind, uint64_t hi, uint64_t slot, uint64_t levels, uint64_t bits,
    uint64_t *answer, size_t answer_len);

uint64_t iset_drain_ruled(uint64_t count, uint64_t root, const uint64_t *nodes, size_t nodes_len,
    const uint8_t *colours, size_t colours_len, uint64_t rule, uint64_t lo_kind, uint64_t lo,
    uint64_t hi_kind, uint64_t hi, uint64_t slot, uint64_t levels, uint64_t bits, uint64_t limit,
    uint64_t *out, size_t out_len, uint64_t *answer, size_t answer_len);

uint64_t iset_plain_ruled(uint64_t count, uint64_t root, const uint64_t *nodes, size_t nodes_len,
    const uint8_t *colours, size_t colours_len, uint64_t rule, uint64_t lo_kind, uint64_t lo,
    uint64_t hi_kind, uint64_t hi, uint64_t *out, size_t out_len,
    uint64_t *answer, size_t answer_len);

uint64_t iset_find_all_ruled(uint64_t count, uint64_t root, const uint64_t *nodes,
    size_t nodes_len, const uint8_t *colours, size_t colours_len, uint64_t rule, uint64_t lo_kind,
    uint64_t lo, uint64_t hi_kind, uint64_t hi, uint64_t *out, size_t out_len,
    uint64_t *answer, size_t answer_len);

uint64_t iset_unload_ruled(uint64_t count, uint64_t root, uint32_t version, uint64_t *nodes,
    size_t nodes_len, uint8_t *colours, size_t colours_len, uint64_t rule, uint64_t lo_kind,
    uint64_t lo, uint64_t hi_kind, uint64_t hi, uint64_t *answer, size_t answer_len);

uint64_t iset_open_step_ruled(uint64_t count, uint64_t root, const uint64_t *nodes,
    size_t nodes_len, const uint8_t *colours, size_t colours_len, uint64_t rule, uint64_t lo_kind,
    uint64_t lo, uint64_t hi_kind, uint64_t hi, uint64_t slot, uint64_t levels, uint64_t bits,
    uint64_t *answer, size_t answer_len);

uint64_t iset_open_drain_ruled(uint64_t count, uint64_t root, const uint64_t *nodes,
    size_t nodes_len, const uint8_t *colours, size_t colours_len, uint64_t rule, uint64_t lo_kind,
    uint64_t lo, uint64_t hi_kind, uint64_t hi, uint64_t slot, uint64_t levels, uint64_t bits,
    uint64_t limit, uint64_t *out, size_t out_len, uint64_t *answer, size_t answer_len);

uint64_t iset_open_plain_ruled(uint64_t count, uint64_t root, const uint64_t *nodes,
    size_t nodes_len, const uint8_t *colours, size_t colours_len, uint64_t rule, uint64_t lo_kind,
    uint64_t lo, uint64_t hi_kind, uint64_t hi, uint64_t *out, size_t out_len,
    uint64_t *answer, size_t answer_len);

uint64_t iset_open_find_all_ruled(uint64_t count, uint64_t root, const uint64_t *nodes,
    size_t nodes_len, const uint8_t *colours, size_t colours_len, uint64_t rule, uint64_t lo_kind,
    uint64_t lo, uint64_t hi_kind, uint64_t hi, uint64_t *out, size_t out_len,
    uint64_t *answer, size_t answer_len);

uint64_t iset_open_unload_ruled(uint64_t count, uint64_t root, uint32_t version, uint64_t *nodes,
    size_t nodes_len, uint8_t *colours, size_t colours_len, uint64_t rule, uint64_t lo_kind,
    uint64_t lo, uint64_t hi_kind, uint64_t hi, uint64_t *answer, size_t answer_len);

#ifdef __cplusplus
}
#endif

#endif
