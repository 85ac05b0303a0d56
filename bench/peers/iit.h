// iit, the implicit interval tree of cgranges, and iitii, the same with an interpolation index
// (libiitii-dev). The package's builder goes through a file that it maps. Here the nodes stay in
// memory, by a builder of our own in its place and by the two headers in include/.
#pragma once
#include "workload.h"
#include <iitii.h>
#include <string>

static u64 item_start(const item &x) { return x.start; }
static u64 item_end(const item &x) { return x.end; }
typedef iitii::iit<u64, item, item_start, item_end> iit_tree;
typedef iitii::iitii<u64, item, item_start, item_end> iitii_tree;
typedef iitii::iit_node_base<u64, item, item_start, item_end> iit_node;
typedef iitii::iitii_node<u64, item, item_start, item_end> indexed_node;
namespace iitii {
template <> class iit_mm_builder_base<iit_tree, item, iit_node> {
public:
    static iit_tree *make(mmappable_vector<iit_node> &nodes) { return new iit_tree(nodes, std::string()); }
};
template <> class iit_mm_builder_base<iitii_tree, item, indexed_node> {
public:
    // one part of the index for 128 entries
    static iitii_tree *make(mmappable_vector<indexed_node> &nodes) {
        return new iitii_tree(nodes, std::string(), unsigned(1 + nodes.size() / 128));
    }
};
}

template <class TREE, class NODE> struct implicit_tree {
    static inline TREE *tree;
    static inline std::vector<item> found;
    static u64 build(size_t) {
        mmap_allocator_namespace::mmappable_vector<NODE> nodes;
        nodes.reserve(n);
        for (const item &x : entries) nodes.push_back(NODE(x));
        tree = TREE::builder::make(nodes);
        return 0;
    }
    static void drop() { delete tree; }
    static void point(u64 p, u64 &hits, u64 &sum) { window(p, p + 1, hits, sum); }
    static void window(u64 lo, u64 hi, u64 &hits, u64 &sum) {
        tree->overlap(lo, hi, found);
        for (const item &x : found) hits++, sum += x.value;
    }
};
typedef implicit_tree<iit_tree, iit_node> lib_iit;
typedef implicit_tree<iitii_tree, indexed_node> lib_iitii;
