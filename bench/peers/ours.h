// This library's sides, and the walks of own.h over its store.
#pragma once
#include "iset_open.h"
#include "own.h"
#include "workload.h"
#include <cstdio>
#include <cstdlib>

// The lent memory. All sides of this file look at it.
static u64 *words, *out;
static uint8_t *bytes;
static size_t colour_bytes;
static u64 root, count;

static u64 values(u64 hits) {
    u64 sum = 0;
    for (u64 i = 0; i < hits; i++) sum += words[8 * out[i] + 2];
    return sum;
}
static void done(u64 refusal) {
    if (refusal == ISET_OK) return;
    printf("peers: this library refuses: %s\n", iset_refusal_name(refusal));
    exit(1);
}
#define STORE count, root, words, 8 * n, bytes, colour_bytes
#define CHANGED count, root, 0, words, 8 * n, bytes, colour_bytes

// A lookup by ranges: DRAIN does one range, and tells the nodes that it entered.
typedef u64 (*lookup)(const own::range &q, u64 &entered);
template <lookup DRAIN> struct by_ranges {
    static void point(u64 p, u64 &hits, u64 &sum) {
        u64 entered;
        hits = DRAIN({ISET_INCLUDED, p, ISET_INCLUDED, p}, entered);
        sum = values(hits);
    }
    static void window(u64 lo, u64 hi, u64 &hits, u64 &sum) {
        u64 entered;
        hits = DRAIN({ISET_INCLUDED, lo, ISET_EXCLUDED, hi}, entered);
        sum = values(hits);
    }
    static u64 all(size_t) {
        u64 entered, hits = DRAIN({ISET_UNBOUNDED, 0, ISET_UNBOUNDED, 0}, entered);
        return folded(0, hits, values(hits));
    }
};

// The pruned walk, from the fresh cursor to the end.
static u64 pruned(const own::range &q, u64 &entered) {
    u64 answer[ISET_DRAIN_ANSWER];
    done(iset_open_drain(STORE, q.lo_kind, q.lo, q.hi_kind, q.hi, root, 1, 0, 0, out, n, answer, ISET_DRAIN_ANSWER));
    entered = answer[ISET_DRAINED_ENTERED];
    return answer[ISET_DRAINED_HITS];
}
// The public call, which checks the whole store each time.
static u64 pruned_public(const own::range &q, u64 &entered) {
    u64 answer[ISET_DRAIN_ANSWER];
    done(iset_drain(STORE, q.lo_kind, q.lo, q.hi_kind, q.hi, root, 1, 0, 0, out, n, answer, ISET_DRAIN_ANSWER));
    entered = answer[ISET_DRAINED_ENTERED];
    return answer[ISET_DRAINED_HITS];
}
// The plain lookup: every entry in tree order, by links alone.
static u64 by_links(const own::range &q, u64 &entered) {
    u64 answer[ISET_PLAIN_ANSWER];
    done(iset_open_plain(STORE, q.lo_kind, q.lo, q.hi_kind, q.hi, out, n, answer, ISET_PLAIN_ANSWER));
    entered = answer[ISET_PLAIN_ENTERED];
    return answer[ISET_PLAIN_HITS];
}
#ifdef FIND_ALL
// The fast engine.
static u64 fast(const own::range &q, u64 &entered) {
    u64 answer[2];
    done(iset_open_find_all(STORE, q.lo_kind, q.lo, q.hi_kind, q.hi, out, n, answer, 2));
    entered = answer[1];
    return answer[0];
}
#endif

struct ours : by_ranges<pruned> {
    static u64 build(size_t) {
        u64 answer[ISET_BUILD_ANSWER];
        done(iset_build(0, words, 8 * n, bytes, colour_bytes, &entries[0].start, 3 * n, answer, ISET_BUILD_ANSWER));
        count = answer[ISET_BUILT_COUNT], root = answer[ISET_BUILT_ROOT];
        return 0;
    }
    static void drop() {}
    // The highest entry equal to an interval, as the crate's `get` finds it: the slot of the cursor.
    static u64 slot_of(const item &x) {
        u64 answer[ISET_FRESH_ANSWER];
        done(iset_open_fresh_exact(STORE, x.start, x.end, answer, ISET_FRESH_ANSWER));
        return answer[ISET_FRESH_SLOT];
    }
    static u64 find(const item &x) { return words[8 * slot_of(x) + 2]; }
    static u64 remove(const item &x) {
        u64 answer[ISET_REMOVE_ANSWER];
        done(iset_open_remove(CHANGED, slot_of(x), answer, ISET_REMOVE_ANSWER));
        count = answer[ISET_REMOVED_COUNT], root = answer[ISET_REMOVED_ROOT];
        return answer[ISET_REMOVED_VALUE];
    }
    static void insert(const item &x) {
        u64 answer[ISET_INSERT_ANSWER];
        done(iset_open_insert(CHANGED, x.start, x.end, x.value, answer, ISET_INSERT_ANSWER));
        count = answer[ISET_INSERTED_COUNT], root = answer[ISET_INSERTED_ROOT];
    }
};
// The first of the equals: the cursor, and a drain of one hit from it.
struct first_equal {
    static u64 find(const item &x) {
        u64 at[ISET_FRESH_ANSWER], answer[ISET_DRAIN_ANSWER];
        done(iset_open_fresh_exact(STORE, x.start, x.end, at, ISET_FRESH_ANSWER));
        done(iset_open_drain_exact(STORE, x.start, x.end, at[ISET_FRESH_SLOT], at[ISET_FRESH_LEVELS], at[ISET_FRESH_BITS], 1, out, n, answer,
                                   ISET_DRAIN_ANSWER));
        return words[8 * out[0] + 2];
    }
};

static u64 same_moves(const own::range &q, u64 &entered) {
    bool all = q.lo_kind == ISET_UNBOUNDED;
    return all ? own::same_moves<true>(words, count, root, q, out, &entered) : own::same_moves<false>(words, count, root, q, out, &entered);
}
template <bool BOTH> static u64 recursion(const own::range &q, u64 &entered) {
    u64 hits = 0, lo = q.lo_kind == ISET_UNBOUNDED ? 0 : q.lo;
    u64 hi = q.hi_kind == ISET_UNBOUNDED ? UINT64_MAX : q.hi_kind == ISET_INCLUDED ? q.hi + 1 : q.hi;
    entered = 0;
    own::recurse<BOTH>(words, root, lo, hi, out, hits, entered);
    return hits;
}
struct own_others {
    static void point(u64 p, u64 &hits, u64 &sum) {
        u64 x = own::descend(words, root, p);
        if (x != own::U) hits = 1, sum = words[8 * x + 2];
    }
    static u64 find(const item &x) { return words[8 * own::find(words, root, x.start, x.end) + 2]; }
    static u64 links(size_t) {
        u64 hits = 0, sum = 0;
        for (u64 x = own::first_below(words, root); x != own::U; x = own::next(words, x)) hits++, sum += words[8 * x + 2];
        return folded(0, hits, sum);
    }
};
