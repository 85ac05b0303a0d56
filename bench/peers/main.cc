// The library beside the systems that a user would pick instead, in one program on the same inputs;
// every number that a side returns is compared. Each thing is measured in rounds, the sides in turn
// in each round. Printed are rows: workload | entries | what | side | ns for one, in each round. A
// peer takes part if its HAS_ name is defined. The argument is the letters of the workloads.
#include "ours.h"
#include "crates.h"
#ifdef HAS_IIT
#include "iit.h"
#endif
#ifdef HAS_ICL
#include "icl.h"
#endif
#include "ordered.h"
#include <ctime>
#include <malloc.h>

static const side sides[] = {
    {.name = "this library", .build = ours::build, .points = each_point<ours>, .windows = each_window<ours>, .all = ours::all,
     .finds = each_find<ours>, .removes = each_remove<ours>, .inserts = each_insert<ours>, .drop = ours::drop},
#ifdef FIND_ALL
    {.name = "this library, fast engine", .points = each_point<by_ranges<fast>>, .windows = each_window<by_ranges<fast>>,
     .all = by_ranges<fast>::all},
#endif
    {.name = "this library, by links", .all = by_ranges<by_links>::all},
    {.name = "this library, first of the equals", .finds = each_find<first_equal>},
    {.name = "this library, public", .points = each_point<by_ranges<pruned_public>>, .windows = each_window<by_ranges<pruned_public>>,
     .all = by_ranges<pruned_public>::all},
    {.name = "own store, same moves in C++", .points = each_point<by_ranges<same_moves>>, .windows = each_window<by_ranges<same_moves>>,
     .all = by_ranges<same_moves>::all},
    {.name = "own store, recursion", .points = each_point<by_ranges<recursion<false>>>, .windows = each_window<by_ranges<recursion<false>>>,
     .all = by_ranges<recursion<false>>::all},
    {.name = "own store, recursion, both ends", .points = each_point<by_ranges<recursion<true>>>,
     .windows = each_window<by_ranges<recursion<true>>>, .all = by_ranges<recursion<true>>::all},
    {.name = "own store, descent", .only_disjoint = true, .points = each_point<own_others>},
    {.name = "own store, loop", .finds = each_find<own_others>},
    {.name = "own store, links", .all = own_others::links},
#ifdef HAS_ISET
    {.name = "iset 0.3.3", .build = crate_iset::build, .points = crate_iset::points_of, .windows = crate_iset::windows_of,
     .all = crate_iset::all, .finds = crate_iset::finds, .removes = crate_iset::removes, .inserts = crate_iset::inserts,
     .drop = crate_iset::drop},
#endif
#ifdef HAS_INTERVALTREE
    {.name = "intervaltree", .build = crate_tree::build, .points = crate_tree::points_of, .windows = crate_tree::windows_of,
     .all = crate_tree::all, .drop = crate_tree::drop},
#endif
#ifdef HAS_IIT
    {.name = "iit", .build = lib_iit::build, .points = each_point<lib_iit>, .windows = each_window<lib_iit>, .all = widest<lib_iit>,
     .drop = lib_iit::drop},
    {.name = "iitii", .build = lib_iitii::build, .points = each_point<lib_iitii>, .windows = each_window<lib_iitii>,
     .all = widest<lib_iitii>, .drop = lib_iitii::drop},
#endif
#ifdef HAS_ICL
    {.name = "Boost.ICL, a set a segment", .build = boost_many::build, .points = each_point<boost_many>, .windows = each_window<boost_many>,
     .all = widest<boost_many>, .removes = each_remove<boost_many>, .inserts = each_insert<boost_many>, .drop = boost_many::drop},
    {.name = "Boost.ICL, a value a segment", .only_disjoint = true, .build = boost_one::build, .points = each_point<boost_one>,
     .windows = each_window<boost_one>, .all = boost_one::all, .removes = each_remove<boost_one>, .inserts = each_insert<boost_one>,
     .drop = boost_one::drop},
#endif
    {.name = "std::map", .only_disjoint = true, .build = std_map::build, .points = each_point<std_map>, .windows = each_window<std_map>,
     .all = std_map::all, .finds = each_find<std_map>, .removes = each_remove<std_map>, .inserts = each_insert<std_map>,
     .drop = std_map::drop},
    {.name = "sorted array", .only_disjoint = true, .build = sorted_array::build, .points = each_point<sorted_array>,
     .windows = each_window<sorted_array>, .all = sorted_array::all, .finds = each_find<sorted_array>, .removes = each_remove<sorted_array>,
     .inserts = each_insert<sorted_array>, .drop = sorted_array::drop},
};
enum { SIDES = sizeof sides / sizeof *sides, ROUNDS = 9, LEAST_ROUNDS = 2 };
static const double LONG = 4; // seconds after which a side has no more rounds of one thing
static char kind;

static void fail(const char *what, const char *name) {
    printf("peers: %c, %zu, %s: %s differs\n", kind, n, what, name);
    exit(1);
}

static void row(const char *what, const char *name, const std::vector<double> &numbers) {
    printf("| %c | %zu | %s | %s |", kind, n, what, name);
    for (double x : numbers) printf(" %.2f", x);
    printf(" |\n");
    fflush(stdout);
}

// Processor time: other programs on the machine do not count.
static double now() {
    timespec t;
    clock_gettime(CLOCK_PROCESS_CPUTIME_ID, &t);
    return double(t.tv_sec) + double(t.tv_nsec) * 1e-9;
}

// malloc sorts what the side before has freed when it gets the next large request: that is not to
// be on the next side's time.
static void settle() {
    void *volatile p = malloc(1 << 20);
    free(p);
}

// One thing that is measured, k of it. `then` is a second one, done after the first in the same
// round and measured apart. `drops` says that what the first builds is dropped after each round.
// `few`, if not 0, is how many a public call does, since it checks the whole store each time.
struct task {
    const char *what;
    operation side::*run;
    size_t k;
    const char *then_what = nullptr;
    operation side::*then = nullptr;
    bool drops = false;
    size_t few = 0;
};

static bool takes_part(const side &s, operation side::*run) { return s.*run && (disjoint || !s.only_disjoint); }

static void measure(const task &t) {
    std::vector<double> times[SIDES], then_times[SIDES];
    double spent[SIDES] = {0};
    u64 first = 0;
    for (int round = 0; round < ROUNDS; round++)
        for (int j = 0; j < SIDES; j++) {
            const side &s = sides[j];
            if (!takes_part(s, t.run) || (spent[j] > LONG && round >= LEAST_ROUNDS)) continue;
            size_t k = t.few && strstr(s.name, "public") ? t.few : t.k;
            settle();
            double a = now();
            u64 x = (s.*t.run)(k);
            double b = now();
            if (t.then) (s.*t.then)(k);
            double c = now();
            if (t.drops) s.drop();
            if (j == 0) first = x;
            if (x != (k == t.k ? first : (sides[0].*t.run)(k))) fail(t.what, s.name);
            spent[j] += c - a;
            times[j].push_back((b - a) * 1e9 / double(k)), then_times[j].push_back((c - b) * 1e9 / double(k));
        }
    for (int j = 0; j < SIDES; j++) {
        if (!times[j].empty()) row(t.what, sides[j].name, times[j]);
        if (!times[j].empty() && t.then) row(t.then_what, sides[j].name, then_times[j]);
    }
}

static size_t in_use() {
    struct mallinfo2 m = mallinfo2();
    return m.uordblks + m.hblkhd;
}

// The memory that a side takes for an entry. This library's is lent.
static void memory() {
    row("bytes an entry", sides[0].name, {64 + double(colour_bytes) / double(n)});
    for (int j = 1; j < SIDES; j++)
        if (takes_part(sides[j], &side::build)) {
            size_t before = in_use();
            sides[j].build(n);
            row("bytes an entry", sides[j].name, {double(in_use() - before) / double(n)});
            sides[j].drop();
        }
}

// What the lookups find and enter. The walk of own.h enters as many nodes as the library's, and the
// fast engine no more.
static void nodes_entered() {
    u64 hits = 0, in = 0, most = 0, both = 0, seen = 0, x, y;
    for (u64 p : points) {
        own::range q = {ISET_INCLUDED, p, ISET_INCLUDED, p};
        hits += pruned(q, x), in += x, most = std::max(most, x);
        same_moves(q, y);
        if (x != y) fail("nodes entered", "own store, same moves in C++");
#ifdef FIND_ALL
        fast(q, y);
        if (x < y) fail("nodes entered", "this library, fast engine");
#else
        recursion<true>(q, y);
#endif
        both += y;
    }
    for (size_t k = 0; k < WINDOWS; k++) seen += pruned({ISET_INCLUDED, windows[2 * k], ISET_EXCLUDED, windows[2 * k + 1]}, x);
    printf("# %c %zu: hits a point %.2f, nodes entered a point %.1f (most %llu), %.1f if both ends of a hull are tested, "
           "hits a window %.1f, entries removed and inserted %zu\n",
           kind, n, double(hits) / POINTS, double(in) / POINTS, (unsigned long long)most, double(both) / POINTS, double(seen) / WINDOWS,
           victims.size());
}

// Everything for one workload and one size.
static void compare() {
    size_t few = 200000 / n + 3;
    colour_bytes = ISET_COLOURS_LEN(n);
    memory();
    measure({.what = "build", .run = &side::build, .k = n, .drops = true});
    for (const side &s : sides)
        if (takes_part(s, &side::build)) s.build(n);
    nodes_entered();
    measure({.what = "points", .run = &side::points, .k = POINTS, .few = few});
    measure({.what = "windows", .run = &side::windows, .k = WINDOWS, .few = few});
    measure({.what = "all", .run = &side::all, .k = n});
    measure({.what = "find one", .run = &side::finds, .k = sought.size()});
    measure({.what = "remove one", .run = &side::removes, .k = victims.size(), .then_what = "insert one", .then = &side::inserts});
    // everything is back: the lookups of the sides that changed are compared once more
    u64 want = sides[0].points(POINTS);
    for (const side &s : sides)
        if (takes_part(s, &side::removes) && s.points(POINTS) != want) fail("points after the changes", s.name);
    for (const side &s : sides)
        if (takes_part(s, &side::build)) s.drop();
}

int main(int argc, char **argv) {
    // the heap keeps what it has: no side pays for pages that another has given back
    mallopt(M_MMAP_THRESHOLD, 1 << 30), mallopt(M_TRIM_THRESHOLD, 1 << 30);
    // the words begin at a cache line, so that a node is one
    void *room;
    if (posix_memalign(&room, 4096, 64 * MOST)) return 1;
    memset(room, 0, 64 * MOST);
    words = static_cast<u64 *>(room);
    out = static_cast<u64 *>(calloc(MOST, sizeof *out));
    bytes = static_cast<uint8_t *>(calloc(ISET_COLOURS_LEN(MOST), 1));
    for (const char *letter = argc > 1 ? argv[1] : "abcd"; *letter; letter++)
        for (size_t size : {1000, 16000, 65535}) {
            kind = *letter;
            workload(kind, size);
            compare();
        }
    return 0;
}
