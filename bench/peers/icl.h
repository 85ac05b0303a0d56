// Boost.ICL (libboost-dev): one value a segment if no two entries intersect, else a set of values a
// segment.
#pragma once
#include "workload.h"
#include <boost/icl/interval_map.hpp>
#include <boost/icl/right_open_interval.hpp>
#include <set>

namespace icl = boost::icl;
typedef icl::right_open_interval<u64> interval;
template <class VALUE>
using segments = icl::interval_map<u64, VALUE, icl::partial_absorber, std::less, icl::inplace_plus, icl::inter_section, interval>;

struct boost_one {
    static inline segments<u64> *map;
    static u64 build(size_t) {
        map = new segments<u64>;
        for (const item &x : entries) map->add(map->end(), std::make_pair(interval(x.start, x.end), x.value));
        return 0;
    }
    static void drop() { delete map; }
    static void point(u64 p, u64 &hits, u64 &sum) {
        auto x = map->find(p);
        if (x != map->end()) hits = 1, sum = x->second;
    }
    static void window(u64 lo, u64 hi, u64 &hits, u64 &sum) {
        auto r = map->equal_range(interval(lo, hi));
        for (auto x = r.first; x != r.second; ++x) hits++, sum += x->second;
    }
    static u64 all(size_t) {
        u64 hits = 0, sum = 0;
        for (auto &x : *map) hits++, sum += x.second;
        return folded(0, hits, sum);
    }
    static u64 remove(const item &x) {
        u64 value = map->find(x.start)->second;
        map->erase(interval(x.start, x.end));
        return value;
    }
    static void insert(const item &x) { map->add(std::make_pair(interval(x.start, x.end), x.value)); }
};

typedef std::set<u64> value_set;
struct boost_many {
    static inline segments<value_set> *map;
    static u64 build(size_t) {
        map = new segments<value_set>;
        for (const item &x : entries) insert(x);
        return 0;
    }
    static void drop() { delete map; }
    static void point(u64 p, u64 &hits, u64 &sum) {
        auto x = map->find(p);
        if (x == map->end()) return;
        for (u64 v : x->second) hits++, sum += v;
    }
    // An entry is in each segment that it covers, so the values are gathered and equals dropped.
    static void window(u64 lo, u64 hi, u64 &hits, u64 &sum) {
        static std::vector<u64> seen;
        seen.clear();
        auto r = map->equal_range(interval(lo, hi));
        for (auto x = r.first; x != r.second; ++x) seen.insert(seen.end(), x->second.begin(), x->second.end());
        std::sort(seen.begin(), seen.end());
        hits = u64(std::unique(seen.begin(), seen.end()) - seen.begin());
        for (u64 i = 0; i < hits; i++) sum += seen[i];
    }
    static u64 remove(const item &x) {
        map->subtract(std::make_pair(interval(x.start, x.end), value_set{x.value}));
        return x.value;
    }
    static void insert(const item &x) { map->add(std::make_pair(interval(x.start, x.end), value_set{x.value})); }
};
