// This library's own store, walked by plain C++: what its layout could give, apart from how its
// lookups are written. Node words: start, end, value, hull start, hull end, left, right, parent.
#pragma once
#include "iset.h"

namespace own {

constexpr uint64_t U = ISET_U;

// A range as the library has it.
struct range {
    uint64_t lo_kind, lo, hi_kind, hi;
};
inline bool reached(const range &q, uint64_t end) { return q.lo_kind == ISET_UNBOUNDED || end >= q.lo; }
inline bool past(const range &q, uint64_t end) { return q.lo_kind == ISET_UNBOUNDED || end > q.lo; }
inline bool admits(const range &q, uint64_t start) {
    return q.hi_kind == ISET_UNBOUNDED || (q.hi_kind == ISET_EXCLUDED ? start < q.hi : start <= q.hi);
}

// The moves of the library's pruned walk, one mark or one link each, with the same states and the
// same count of nodes entered. The state is read once a move, and an entry is tested in one state
// alone. ALL is the walk over everything. Returns the hits.
template <bool ALL>
__attribute__((noinline)) uint64_t same_moves(const uint64_t *w, uint64_t n, uint64_t root, const range &q, uint64_t *out,
                                              uint64_t *entered) {
    uint64_t x = root, top = 0, bits = 0, hits = 0, in = root < n, state = 0;
    if (root >= n) return *entered = 0, 0;
    while (true) {
        const uint64_t *v = w + 8 * x;
        if (state == 0) {
            uint64_t c = v[5];
            bits += uint64_t(2) << (2 * top);
            if (c < n && top < 31 && (ALL || reached(q, w[8 * c + 4]))) top++, x = c, in++;
            else state = 2;
        } else if (state == 2) {
            bits -= uint64_t(1) << (2 * top), state = 1;
            if (ALL || (past(q, v[1]) & admits(q, v[0]))) out[hits++] = x;
        } else {
            if (state == 1) {
                uint64_t c = v[6];
                if (c < n && top < 31 && (ALL || admits(q, w[8 * c + 3]))) {
                    bits += uint64_t(2) << (2 * top), top++, x = c, in++, state = 0;
                    continue;
                }
            }
            bits -= state << (2 * top);
            if (top == 0) break;
            top--, x = v[7], state = bits >> (2 * top) & 3;
        }
    }
    *entered = in;
    return hits;
}

// Recursion with no cursor. It tests one end of a child's hull, as the pruned walk does: the left
// child's end, the right child's start. BOTH has it test both ends of either child.
template <bool BOTH>
inline void recurse(const uint64_t *w, uint64_t x, uint64_t lo, uint64_t hi, uint64_t *out, uint64_t &hits, uint64_t &entered) {
    const uint64_t *v = w + 8 * x;
    entered++;
    if (v[5] != U && w[8 * v[5] + 4] > lo && (!BOTH || w[8 * v[5] + 3] < hi)) recurse<BOTH>(w, v[5], lo, hi, out, hits, entered);
    if (v[1] > lo && v[0] < hi) out[hits++] = x;
    if (v[6] != U && w[8 * v[6] + 3] < hi && (!BOTH || w[8 * v[6] + 4] > lo)) recurse<BOTH>(w, v[6], lo, hi, out, hits, entered);
}

// The entry that holds a point, if no two entries intersect; U if there is none.
inline uint64_t descend(const uint64_t *w, uint64_t x, uint64_t p) {
    while (x != U) {
        const uint64_t *v = w + 8 * x;
        if (p < v[0]) x = v[5];
        else if (p >= v[1]) x = v[6];
        else break;
    }
    return x;
}

// The highest entry equal to an interval; U if there is none.
inline uint64_t find(const uint64_t *w, uint64_t x, uint64_t s, uint64_t e) {
    while (x != U) {
        const uint64_t *v = w + 8 * x;
        if (v[0] == s && v[1] == e) break;
        x = s < v[0] || (s == v[0] && e <= v[1]) ? v[5] : v[6];
    }
    return x;
}

// Tree order by links alone.
inline uint64_t first_below(const uint64_t *w, uint64_t x) {
    while (w[8 * x + 5] != U) x = w[8 * x + 5];
    return x;
}
inline uint64_t next(const uint64_t *w, uint64_t x) {
    if (w[8 * x + 6] != U) return first_below(w, w[8 * x + 6]);
    uint64_t p = w[8 * x + 7];
    while (p != U && w[8 * p + 6] == x) x = p, p = w[8 * x + 7];
    return p;
}

}
