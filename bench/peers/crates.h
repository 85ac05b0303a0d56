// The peers in Rust, of side.rs: the crates iset 0.3.3 and intervaltree.
#pragma once
#include "workload.h"

extern "C" {
struct iset_map;
iset_map *iset_rs_build(const item *list, size_t n, bool equals);
void iset_rs_free(iset_map *);
u64 iset_rs_points(const iset_map *, const u64 *, size_t);
u64 iset_rs_windows(const iset_map *, const u64 *, size_t);
u64 iset_rs_all(const iset_map *);
u64 iset_rs_find(const iset_map *, const item *, size_t);
u64 iset_rs_remove(iset_map *, const item *, size_t);
void iset_rs_insert(iset_map *, const item *, size_t);
struct tree_map;
tree_map *tree_rs_build(const item *list, size_t n);
void tree_rs_free(tree_map *);
u64 tree_rs_points(const tree_map *, const u64 *, size_t);
u64 tree_rs_windows(const tree_map *, const u64 *, size_t);
u64 tree_rs_all(const tree_map *);
// Rust's libraries name it; nothing here unwinds.
void rust_eh_personality(void) {}
}

#ifdef HAS_ISET
struct crate_iset {
    static inline iset_map *map;
    static u64 build(size_t) { return map = iset_rs_build(entries.data(), n, equals), 0; }
    static void drop() { iset_rs_free(map); }
    static u64 points_of(size_t k) { return iset_rs_points(map, points, k); }
    static u64 windows_of(size_t k) { return iset_rs_windows(map, windows, k); }
    static u64 all(size_t) { return iset_rs_all(map); }
    static u64 finds(size_t k) { return iset_rs_find(map, sought.data(), k); }
    static u64 removes(size_t k) { return iset_rs_remove(map, victims.data(), k); }
    static u64 inserts(size_t k) { return iset_rs_insert(map, victims.data(), k), 0; }
};
#endif

#ifdef HAS_INTERVALTREE
struct crate_tree {
    static inline tree_map *tree;
    static u64 build(size_t) { return tree = tree_rs_build(entries.data(), n), 0; }
    static void drop() { tree_rs_free(tree); }
    static u64 points_of(size_t k) { return tree_rs_points(tree, points, k); }
    static u64 windows_of(size_t k) { return tree_rs_windows(tree, windows, k); }
    static u64 all(size_t) { return tree_rs_all(tree); }
};
#endif
