// What a user takes if no two entries intersect: std::map by the start, and a sorted array with
// binary search, the lower limit.
#pragma once
#include "workload.h"
#include <map>

struct std_map {
    static inline std::map<u64, std::pair<u64, u64>> *map;
    static u64 build(size_t) {
        map = new std::map<u64, std::pair<u64, u64>>;
        for (const item &x : entries) map->emplace_hint(map->end(), x.start, std::make_pair(x.end, x.value));
        return 0;
    }
    static void drop() { delete map; }
    static void point(u64 p, u64 &hits, u64 &sum) {
        auto x = map->upper_bound(p);
        if (x == map->begin()) return;
        --x;
        if (p < x->second.first) hits = 1, sum = x->second.second;
    }
    static void window(u64 lo, u64 hi, u64 &hits, u64 &sum) {
        auto x = map->upper_bound(lo);
        if (x != map->begin() && lo < std::prev(x)->second.first) --x;
        for (; x != map->end() && x->first < hi; ++x) hits++, sum += x->second.second;
    }
    static u64 all(size_t) {
        u64 hits = 0, sum = 0;
        for (auto &x : *map) hits++, sum += x.second.second;
        return folded(0, hits, sum);
    }
    static u64 find(const item &x) { return map->find(x.start)->second.second; }
    static u64 remove(const item &x) {
        auto at = map->find(x.start);
        u64 value = at->second.second;
        map->erase(at);
        return value;
    }
    static void insert(const item &x) { map->emplace(x.start, std::make_pair(x.end, x.value)); }
};

struct sorted_array {
    static inline std::vector<item> *array;
    static std::vector<item>::iterator after(u64 p) {
        return std::upper_bound(array->begin(), array->end(), p, [](u64 p, const item &x) { return p < x.start; });
    }
    static u64 build(size_t) { return array = new std::vector<item>(entries), 0; }
    static void drop() { delete array; }
    static void point(u64 p, u64 &hits, u64 &sum) {
        auto x = after(p);
        if (x == array->begin()) return;
        --x;
        if (p < x->end) hits = 1, sum = x->value;
    }
    static void window(u64 lo, u64 hi, u64 &hits, u64 &sum) {
        auto x = after(lo);
        if (x != array->begin() && lo < (x - 1)->end) --x;
        for (; x != array->end() && x->start < hi; ++x) hits++, sum += x->value;
    }
    static u64 all(size_t) {
        u64 hits = 0, sum = 0;
        for (const item &x : *array) hits++, sum += x.value;
        return folded(0, hits, sum);
    }
    static u64 find(const item &x) { return (after(x.start) - 1)->value; }
    static u64 remove(const item &x) {
        auto at = after(x.start) - 1;
        u64 value = at->value;
        array->erase(at);
        return value;
    }
    static void insert(const item &x) { array->insert(after(x.start), x); }
};
