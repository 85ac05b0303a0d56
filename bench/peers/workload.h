// The inputs that all sides get, and what a side is.
#pragma once
#include <algorithm>
#include <cstddef>
#include <cstdint>
#include <cstring>
#include <vector>

typedef uint64_t u64;

static const size_t MOST = 65535, POINTS = 10000, WINDOWS = 1000;
struct item {
    u64 start, end, value;
};
// The entries, sorted by start, then end; values from 1.
static std::vector<item> entries;
static size_t n;
// Whether no two entries intersect, and whether some are equal.
static bool disjoint, equals;
static u64 points[POINTS], windows[2 * WINDOWS];
// Entries to find, and entries to remove and to insert again, every 16th at most: by chance, none
// that has an equal.
static std::vector<item> sought, victims;

// Hits and the sum of their values, put into one number.
static inline u64 folded(u64 before, u64 hits, u64 sum) { return before * 3 + sum + (hits << 40); }

// A side: what it can do. Each operation goes through the first k points, windows or entries, or
// through everything, and returns a number that is the same on all sides. An operation that a side
// does not have is null.
typedef u64 (*operation)(size_t k);
struct side {
    const char *name;
    bool only_disjoint = false;
    operation build = nullptr, points = nullptr, windows = nullptr, all = nullptr, finds = nullptr, removes = nullptr,
              inserts = nullptr;
    void (*drop)() = nullptr;
};
// Lookups one by one, for a side T that has them as functions of one point or of one window.
template <class T> u64 each_point(size_t k) {
    u64 a = 0;
    for (size_t i = 0; i < k; i++) {
        u64 hits = 0, sum = 0;
        T::point(points[i], hits, sum);
        a = folded(a, hits, sum);
    }
    return a;
}
template <class T> u64 each_window(size_t k) {
    u64 a = 0;
    for (size_t i = 0; i < k; i++) {
        u64 hits = 0, sum = 0;
        T::window(windows[2 * i], windows[2 * i + 1], hits, sum);
        a = folded(a, hits, sum);
    }
    return a;
}
// Everything as the widest window, for a side that has no iteration of its own.
template <class T> u64 widest(size_t) {
    u64 hits = 0, sum = 0;
    T::window(0, UINT64_MAX, hits, sum);
    return folded(0, hits, sum);
}
// Entries one by one; T::find and T::remove return the value.
template <class T> u64 each_find(size_t k) {
    u64 a = 0;
    for (size_t i = 0; i < k; i++) a = folded(a, 1, T::find(sought[i]));
    return a;
}
template <class T> u64 each_remove(size_t k) {
    u64 a = 0;
    for (size_t i = 0; i < k; i++) a = folded(a, 1, T::remove(victims[i]));
    return a;
}
template <class T> u64 each_insert(size_t k) {
    for (size_t i = 0; i < k; i++) T::insert(victims[i]);
    return 0;
}

static u64 chance = 88172645463325252u;
static u64 any(u64 below) {
    chance ^= chance << 13, chance ^= chance >> 7, chance ^= chance << 17;
    return chance % below;
}

static const u64 BASE = 4194304, HALVES = 4194304;

// Entries one after the other, 16 to 304 addresses each.
static void functions(size_t many) {
    u64 at = BASE;
    for (size_t k = 0; k < many; k++) {
        u64 size = 16 * (1 + any(19));
        entries.push_back({at, at + size, 0});
        at += size;
    }
}
// Functions, 5 in a hundred of them twice, and 1 in a hundred modules of 50 to 349 functions.
static void functions_and_modules() {
    size_t modules = n / 100, doubles = n / 20, plain = n - modules - doubles;
    functions(plain);
    std::vector<size_t> order(plain);
    for (size_t k = 0; k < plain; k++) order[k] = k;
    for (size_t k = 0; k < doubles; k++) {
        std::swap(order[k], order[k + any(plain - k)]);
        item again = entries[order[k]];
        entries.push_back(again);
    }
    for (size_t k = 0; k < modules; k++) {
        size_t length = 50 + any(300), from = any(plain - length);
        item module = {entries[from].start, entries[from + length].end, 0};
        entries.push_back(module);
    }
}
// Chains of 16, each entry inside the one before.
static void chains() {
    for (size_t k = 0; k < n; k++) {
        u64 from = BASE + 1024 * (k / 16), in = 32 * (k % 16);
        entries.push_back({from + in, from + 1024 - in, 0});
    }
}
// A tree of halves: entry k, from 1, has 2k and 2k + 1 inside it.
static void halves() {
    for (size_t k = 1; k <= n; k++) {
        int depth = 63 - __builtin_clzll(k);
        u64 width = HALVES >> depth, from = BASE + width * (k - (size_t(1) << depth));
        entries.push_back({from, from + width, 0});
    }
}

static bool same(const item &x, const item &y) { return x.start == y.start && x.end == y.end; }

static void choose_entries() {
    std::vector<size_t> single;
    for (size_t k = 0; k < n; k++)
        if ((k == 0 || !same(entries[k], entries[k - 1])) && (k + 1 == n || !same(entries[k], entries[k + 1]))) single.push_back(k);
    sought.clear(), victims.clear();
    for (size_t k = 0; k < POINTS; k++) sought.push_back(entries[single[any(single.size())]]);
    for (size_t k = 0; k < std::min<size_t>(n / 16, 1000); k++) {
        std::swap(single[k], single[k + any(single.size() - k)]);
        victims.push_back(entries[single[k]]);
    }
}

// Makes the inputs of a workload, a to d, for that many entries.
static void workload(char kind, size_t size) {
    n = size, disjoint = kind == 'a', equals = kind == 'b';
    entries.clear();
    if (kind == 'a') functions(n);
    if (kind == 'b') functions_and_modules();
    if (kind == 'c') chains();
    if (kind == 'd') halves();
    std::stable_sort(entries.begin(), entries.end(),
                     [](const item &x, const item &y) { return x.start < y.start || (x.start == y.start && x.end < y.end); });
    u64 last = 0;
    for (size_t k = 0; k < n; k++) entries[k].value = k + 1, last = std::max(last, entries[k].end);
    for (u64 &p : points) p = BASE + any(last - BASE);
    // some 50 entries start in a window or reach into it
    u64 width = kind == 'd' ? HALVES * 20 / n : kind == 'c' ? 2600 : 7600;
    for (size_t k = 0; k < WINDOWS; k++) windows[2 * k] = BASE + any(last - BASE - width), windows[2 * k + 1] = windows[2 * k] + width;
    choose_entries();
}
