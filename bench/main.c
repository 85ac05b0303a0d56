/* The crate iset 0.3.3 and this library in one program on the same inputs. Each case is run in
   rounds. In each round the two sides run one after the other, and the ratio of their times, this
   library's over the other's, is taken. Printed are the median, the least and the greatest ratio,
   and how this library's time for one entry or one lookup grows from the least size on. The answers
   of both sides are compared. This library's calls are the exports. These are the opened calls,
   from C and through the Rust type `Store`, and of the public calls the check, the build, the
   writing and reading of an image, the lookup in one and, if the case says so, the point lookups,
   each of which checks the whole store. If a case says `against` another call of this library, both
   sides are this library's. If it says `six words`, this library's side has nodes of six words;
   `against eight words` is the same call on nodes of eight words. The goals for six words against
   eight: at most 1.15 for the check and the lookups, at most 1.5 for the changes and the build. */
#include <stdbool.h>
#include <stdint.h>
#include <stdio.h>
#include <stdlib.h>
#include <string.h>
#include <time.h>

#include "iset_disjoint.h"
#include "iset_image.h"
#include "iset_narrow.h"
#include "iset_open.h"
#include "iset_ruled.h"

typedef struct map map;
map *rust_build(const uint64_t *list, size_t n);
map *rust_empty(size_t n);
map *rust_clone(const map *m);
void rust_free(map *m);
uint64_t rust_store(const map *m, uint64_t *words, uint8_t *bytes, size_t n);
uint64_t rust_remove(map *m, uint64_t slot);
void rust_insert(map *m, uint64_t start, uint64_t end, uint64_t value);
uint64_t rust_unload(map *m, uint64_t start, uint64_t end);
uint64_t rust_all(const map *m);
uint64_t rust_point(const map *m, uint64_t p);
uint64_t rust_window(const map *m, uint64_t start, uint64_t end);
uint64_t rust_exact(const map *m, uint64_t start, uint64_t end);
bool rust_check(const uint64_t *w, size_t wn, const uint8_t *b, size_t bn, uint64_t count, uint64_t root);
size_t rust_write_image(const uint64_t *w, size_t wn, const uint8_t *b, size_t bn, uint64_t count, uint64_t root, uint8_t *image, size_t room);
uint64_t rust_read_image(uint64_t *w, size_t wn, uint8_t *b, size_t bn, const uint8_t *image, size_t size);
uint64_t rust_image_count(const uint8_t *image, size_t size, uint64_t address, bool tested);

typedef struct store store;
store *store_open(uint64_t count, uint64_t root, uint64_t *w, size_t wn, uint8_t *b, size_t bn);
uint64_t store_close(store *s);
uint64_t store_remove(store *s, uint64_t slot);
uint64_t store_insert(store *s, uint64_t start, uint64_t end, uint64_t value);
uint64_t store_all(const store *s);
uint64_t store_point(const store *s, uint64_t p);
uint64_t store_exact(const store *s, uint64_t start, uint64_t end);
typedef struct disjoint disjoint;
disjoint *disjoint_open(uint64_t count, uint64_t root, uint64_t *w, size_t wn, uint8_t *b, size_t bn);
void disjoint_close(disjoint *s);
uint64_t disjoint_point(const disjoint *s, uint64_t p);
uint64_t rust_search(const uint64_t *list, size_t n, uint64_t p);

/* Rust's libraries name it; nothing here unwinds. */
void rust_eh_personality(void) {}

enum { ROUNDS = 15, MOST = 65535, LOOKUPS = 10000, PLAINS = 200, WINDOWS = 200, WINDOW = 300, PIECE = 64 };

static uint64_t list[3 * MOST], mixed[3 * MOST], words[8 * MOST], spare[8 * MOST], held[8 * MOST], out[MOST], slots[MOST];
static uint8_t bytes[MOST / 8 + 1], spare_bytes[MOST / 8 + 1], held_bytes[MOST / 8 + 1];
static uint64_t thin[6 * MOST], thin_spare[6 * MOST], packed[6 * MOST];
static uint8_t thin_bytes[MOST / 8 + 1];
static size_t n, colour_bytes;
static uint64_t root;
static map *crate;

/* A layout of nodes: how many words a node has, the map in it, memory for a map that is changed or
   made, and the calls. Both maps have the colours in `bytes`. What is measured of a layout is
   inlined, so that its calls are direct ones. */
typedef struct {
    size_t width;
    uint64_t *words, *spare;
    uint8_t *spare_bytes;
    __typeof__(iset_open_remove) *remove;
    __typeof__(iset_open_insert) *insert;
    __typeof__(iset_open_drain) *drain;
    __typeof__(iset_open_find_all) *find_all;
    __typeof__(iset_open_fresh_exact) *fresh_exact;
    __typeof__(iset_open_drain_exact) *drain_exact;
    __typeof__(iset_check) *check;
    __typeof__(iset_build) *build;
} layout;
static const layout
    eight = {8, words, spare, spare_bytes, iset_open_remove, iset_open_insert, iset_open_drain, iset_open_find_all, iset_open_fresh_exact,
             iset_open_drain_exact, iset_check, iset_build},
    six = {6, thin, thin_spare, thin_bytes, iset_narrow_open_remove, iset_narrow_open_insert, iset_narrow_open_drain, iset_narrow_open_find_all,
           iset_narrow_open_fresh_exact, iset_narrow_open_drain_exact, iset_narrow_check, iset_narrow_build};
#define OF_LAYOUT static inline __attribute__((always_inline))
/* The side NAME_ours of eight words and the side NAME_six of six, by what is done in a layout `l`. */
#define SIDES(name, done) \
    static uint64_t name##_ours(void) { const layout *l = &eight; return done; } \
    static uint64_t name##_six(void) { const layout *l = &six; return done; }

/* The nodes of eight words in six: the links in one word, 16 bits each. */
static uint64_t narrowed(uint64_t link) { return link == ISET_U ? ISET_NARROW_U : link; }
static void pack(const uint64_t *from, uint64_t *to) {
    for (size_t k = 0; k < n; k++, from += 8, to += 6) {
        memcpy(to, from, 40);
        to[5] = narrowed(from[5]) | narrowed(from[6]) << 16 | narrowed(from[7]) << 32;
    }
}

/* The processor's time: other work beside the program does not count. */
static double now(void) {
    struct timespec t;
    clock_gettime(CLOCK_PROCESS_CPUTIME_ID, &t);
    return (double)t.tv_sec + (double)t.tv_nsec * 1e-9;
}

static uint64_t chance = 1;

static uint64_t any(uint64_t below) {
    chance ^= chance << 13;
    chance ^= chance >> 7;
    chance ^= chance << 17;
    return chance % below;
}

static void same(uint64_t a, uint64_t b, const char *what) {
    if (a != b) {
        printf("bench: %s: the two sides differ: %llu and %llu\n", what, (unsigned long long)a, (unsigned long long)b);
        exit(1);
    }
}

/* The sum of the values of the hits. A drain returns only their slots. */
OF_LAYOUT uint64_t values_in(const layout *l, uint64_t hits) {
    uint64_t sum = 0;
    for (uint64_t i = 0; i < hits; i++)
        sum += l->words[l->width * out[i] + 2];
    return sum;
}
static uint64_t values(uint64_t hits) { return values_in(&eight, hits); }

/* A copy of the map, to be changed. */
static void copy(const layout *l) {
    memcpy(l->spare, l->words, 8 * l->width * n);
    memcpy(l->spare_bytes, bytes, colour_bytes);
}

/* The map that was made in a layout has these nodes of eight words. */
static void same_nodes(const layout *l, const uint64_t *nodes, const char *what) {
    if (l->width == 6) {
        pack(nodes, packed);
        nodes = packed;
    }
    same(memcmp(l->spare, nodes, 8 * l->width * n) != 0, 0, what);
}

/* Each side returns a number, and the two must be equal. The time to prepare a round is not
   taken. */
typedef struct {
    const char *name;
    void (*prepare)(void);
    uint64_t (*theirs)(void);
    uint64_t (*ours)(void);
    void (*clear)(void);
    double least; /* this library's time for one at the least size */
} bench_case;

static void nothing(void) {}

static int by_size(const void *a, const void *b) {
    double x = *(const double *)a, y = *(const double *)b;
    return (x > y) - (x < y);
}

/* A case that makes `calls` lookups or visits that many entries. */
static void measure(bench_case *c, size_t calls) {
    double ratios[ROUNDS], times[ROUNDS];
    for (int k = 0; k < ROUNDS; k++) {
        c->prepare();
        double a = now();
        uint64_t x = c->theirs();
        double b = now();
        uint64_t y = c->ours();
        double d = now();
        c->clear();
        same(x, y, c->name);
        ratios[k] = (d - b) / (b - a);
        times[k] = (d - b) / (double)calls;
    }
    qsort(ratios, ROUNDS, sizeof *ratios, by_size);
    qsort(times, ROUNDS, sizeof *times, by_size);
    if (c->least == 0)
        c->least = times[ROUNDS / 2];
    printf("| %s | %zu | %.2f | %.2f to %.2f | %.2f |\n", c->name, n, ratios[ROUNDS / 2], ratios[0], ratios[ROUNDS - 1],
           times[ROUNDS / 2] / c->least);
    fflush(stdout);
}

/* Removal of every entry, in one random order. */
static map *victim;
static void before_removal(void) {
    victim = rust_clone(crate);
    copy(&eight);
    copy(&six);
}
static uint64_t remove_theirs(void) {
    uint64_t sum = 0;
    for (size_t k = 0; k < n; k++)
        sum = 3 * sum + rust_remove(victim, slots[k]);
    return sum;
}
OF_LAYOUT uint64_t remove_in(const layout *l) {
    uint64_t sum = 0, answer[ISET_REMOVE_ANSWER] = {0, n, root};
    for (size_t k = 0; k < n; k++) {
        l->remove(answer[1], answer[2], (uint32_t)answer[10], l->spare, l->width * n, l->spare_bytes, colour_bytes, slots[k], answer, ISET_REMOVE_ANSWER);
        sum = 3 * sum + answer[0];
    }
    return sum;
}
SIDES(remove, remove_in(l))
static void after_removal(void) { rust_free(victim); }
/* The same by the Rust type `Store`, which checks the store when it is opened. */
static store *opened;
static void before_store_removal(void) {
    before_removal();
    opened = store_open(n, root, spare, 8 * n, spare_bytes, colour_bytes);
}
static uint64_t remove_by_store(void) {
    uint64_t sum = 0;
    for (size_t k = 0; k < n; k++)
        sum = 3 * sum + store_remove(opened, slots[k]);
    return sum;
}
static void after_store_removal(void) {
    store_close(opened);
    after_removal();
}

/* Unloading a window, beside removals of the crate's hits in it, one after the other. The slots of
   what is left differ, so its values are compared. */
static uint64_t window_start, window_end, left[ISET_UNLOAD_ANSWER];
static uint64_t unload_theirs(void) { return rust_unload(victim, window_start, window_end); }
static uint64_t unload_ours(void) {
    iset_open_unload(n, root, 0, spare, 8 * n, spare_bytes, colour_bytes, ISET_INCLUDED, window_start, ISET_EXCLUDED, window_end, left,
                     ISET_UNLOAD_ANSWER);
    return left[ISET_UNLOADED_GONE];
}
static uint64_t all_of_spare(uint64_t count, uint64_t at) {
    uint64_t sum = 0, answer[5] = {0};
    iset_open_drain(count, at, spare, 8 * n, spare_bytes, colour_bytes, ISET_UNBOUNDED, 0, ISET_UNBOUNDED, 0, at, 1, 0, 0, out, n, answer, 5);
    for (uint64_t i = 0; i < answer[0]; i++)
        sum += spare[8 * out[i] + ISET_VALUE];
    return sum;
}
static void after_unload(void) {
    same(rust_all(victim), all_of_spare(left[ISET_UNLOADED_COUNT], left[ISET_UNLOADED_ROOT]), "the entries that are left");
    rust_free(victim);
}

/* Insertion of every entry into the map of no entries, in one random order. The two stores are the
   same, word for word. */
static map *grown;
static uint64_t grown_root;
static const layout *grown_in = &eight;
static void grow(map *m, const uint64_t *entries) {
    for (size_t k = 0; k < n; k++)
        rust_insert(m, entries[3 * k], entries[3 * k + 1], entries[3 * k + 2]);
}
static void before_insertion(void) { grown = rust_empty(n); }
static uint64_t insert_theirs(void) {
    grow(grown, mixed);
    return 0;
}
OF_LAYOUT uint64_t insert_in(const layout *l) {
    uint64_t answer[ISET_INSERT_ANSWER] = {0, ISET_U};
    for (size_t k = 0; k < n; k++) {
        const uint64_t *entry = mixed + 3 * k;
        l->insert(answer[0], answer[1], (uint32_t)answer[4], l->spare, l->width * n, l->spare_bytes, colour_bytes, entry[0], entry[1], entry[2], answer, ISET_INSERT_ANSWER);
    }
    grown_root = answer[1];
    grown_in = l;
    return 0;
}
SIDES(insert, insert_in(l))
static void after_insertion(void) {
    memcpy(held_bytes, grown_in->spare_bytes, colour_bytes);
    same(rust_store(grown, held, held_bytes, n), grown_root, "the root after the insertions");
    same_nodes(grown_in, held, "the nodes after the insertions");
    same(memcmp(held_bytes, grown_in->spare_bytes, colour_bytes) != 0, 0, "the colours after the insertions");
    rust_free(grown);
}
/* Six words against eight: the second side's map has the nodes of the first side's. */
static void after_both(void) { same_nodes(&six, spare, "the nodes of both layouts"); }
static void after_removals(void) {
    after_both();
    after_removal();
}

static void before_store_insertion(void) {
    before_insertion();
    opened = store_open(0, ISET_U, spare, 8 * n, spare_bytes, colour_bytes);
}
static uint64_t insert_by_store(void) {
    for (size_t k = 0; k < n; k++)
        store_insert(opened, mixed[3 * k], mixed[3 * k + 1], mixed[3 * k + 2]);
    return 0;
}
static void after_store_insertion(void) {
    grown_root = store_close(opened);
    grown_in = &eight;
    after_insertion();
}

/* A `Store` over the whole map, for lookups. */
static void open_store(void) { opened = store_open(n, root, words, 8 * n, bytes, colour_bytes); }
static void close_store(void) { store_close(opened); }

static uint64_t all_theirs(void) { return rust_all(crate); }
static uint64_t all_by_store(void) { return store_all(opened); }
OF_LAYOUT uint64_t all_in(const layout *l, uint64_t piece) {
    uint64_t sum = 0, answer[5] = {0, 0, root, 1, 0};
    while (answer[2] != ISET_U) {
        l->drain(n, root, l->words, l->width * n, bytes, colour_bytes, ISET_UNBOUNDED, 0, ISET_UNBOUNDED, 0, answer[2], answer[3], answer[4], piece,
                 out, n, answer, 5);
        sum += values_in(l, answer[0]);
    }
    return sum;
}
SIDES(all, all_in(l, n))
static uint64_t all_in_pieces(void) { return all_in(&eight, PIECE); }

/* Random points. Each public lookup checks the whole store, so a round may have fewer of them. */
static uint64_t points[LOOKUPS], range_end;
static size_t publics = LOOKUPS;
static void before_points(void) {
    for (size_t k = 0; k < LOOKUPS; k++)
        points[k] = any(range_end);
}
static uint64_t some_theirs(size_t lookups) {
    uint64_t sum = 0;
    for (size_t k = 0; k < lookups; k++)
        sum = 3 * sum + rust_point(crate, points[k]);
    return sum;
}
static uint64_t points_theirs(void) { return some_theirs(LOOKUPS); }
static uint64_t publics_theirs(void) { return some_theirs(publics); }
/* The entries between two bounds: by one drain, and by the fast lookup. Both write to `out`. */
OF_LAYOUT uint64_t drained(const layout *l, uint64_t lo, uint64_t hi_kind, uint64_t hi, size_t places) {
    uint64_t answer[5] = {0};
    l->drain(n, root, l->words, l->width * n, bytes, colour_bytes, ISET_INCLUDED, lo, hi_kind, hi, root, 1, 0, 0, out, places, answer, 5);
    return values_in(l, answer[0]);
}
OF_LAYOUT uint64_t found(const layout *l, uint64_t lo, uint64_t hi_kind, uint64_t hi, size_t places) {
    uint64_t answer[2] = {0};
    l->find_all(n, root, l->words, l->width * n, bytes, colour_bytes, ISET_INCLUDED, lo, hi_kind, hi, out, places, answer, 2);
    return values_in(l, answer[0]);
}
OF_LAYOUT uint64_t points_in(const layout *l, size_t lookups) {
    uint64_t sum = 0;
    for (size_t k = 0; k < lookups; k++)
        sum = 3 * sum + drained(l, points[k], ISET_INCLUDED, points[k], PIECE);
    return sum;
}
SIDES(points, points_in(l, LOOKUPS))
OF_LAYOUT uint64_t found_in(const layout *l) {
    uint64_t sum = 0;
    for (size_t k = 0; k < LOOKUPS; k++)
        sum = 3 * sum + found(l, points[k], ISET_INCLUDED, points[k], PIECE);
    return sum;
}
SIDES(found, found_in(l))

/* The same by the number of a rule, beside the drain without one. At one address the rules agree. */
static uint64_t some_ruled(uint64_t rule) {
    uint64_t sum = 0, answer[5] = {0};
    for (size_t k = 0; k < LOOKUPS; k++) {
        iset_open_drain_ruled(n, root, words, 8 * n, bytes, colour_bytes, rule, ISET_INCLUDED, points[k], ISET_INCLUDED, points[k], root, 1, 0, 0,
                              out, PIECE, answer, 5);
        sum = 3 * sum + values(answer[0]);
    }
    return sum;
}
static uint64_t points_any(void) { return some_ruled(ISET_RULE_ANY); }
static uint64_t points_whole(void) { return some_ruled(ISET_RULE_WHOLE); }

/* Windows: the entries that intersect a range of WINDOW addresses. */
static uint64_t windows_theirs(void) {
    uint64_t sum = 0;
    for (size_t k = 0; k < WINDOWS; k++)
        sum = 3 * sum + rust_window(crate, points[k], points[k] + WINDOW);
    return sum;
}
static uint64_t windows_drained(void) {
    uint64_t sum = 0;
    for (size_t k = 0; k < WINDOWS; k++)
        sum = 3 * sum + drained(&eight, points[k], ISET_EXCLUDED, points[k] + WINDOW, n);
    return sum;
}
static uint64_t windows_found(void) {
    uint64_t sum = 0;
    for (size_t k = 0; k < WINDOWS; k++)
        sum = 3 * sum + found(&eight, points[k], ISET_EXCLUDED, points[k] + WINDOW, n);
    return sum;
}
static void before_store_points(void) {
    before_points();
    open_store();
}
static uint64_t points_by_store(void) {
    uint64_t sum = 0;
    for (size_t k = 0; k < LOOKUPS; k++)
        sum = 3 * sum + store_point(opened, points[k]);
    return sum;
}
static uint64_t points_public(void) {
    uint64_t sum = 0, answer[5] = {0};
    for (size_t k = 0; k < publics; k++) {
        iset_drain(n, root, words, 8 * n, bytes, colour_bytes, ISET_INCLUDED, points[k], ISET_INCLUDED, points[k], root, 1, 0, PIECE, out, PIECE,
                   answer, 5);
        sum = 3 * sum + values(answer[0]);
    }
    return sum;
}

/* The plain lookup, over the whole map beside the drain, and at points beside the pruned lookup.
   Both sides are this library's. */
static uint64_t plain(uint64_t kind, uint64_t at) {
    uint64_t answer[2] = {0};
    iset_open_plain(n, root, words, 8 * n, bytes, colour_bytes, kind, at, kind, at, out, n, answer, 2);
    same(answer[1], n, "the entries that a plain lookup goes through");
    return values(answer[0]);
}
static uint64_t all_plain(void) { return plain(ISET_UNBOUNDED, 0); }
static uint64_t few_pruned(void) { return points_in(&eight, PLAINS); }
static uint64_t few_plain(void) {
    uint64_t sum = 0;
    for (size_t k = 0; k < PLAINS; k++)
        sum = 3 * sum + plain(ISET_INCLUDED, points[k]);
    return sum;
}

/* Every 16th entry looked up exactly. */
static uint64_t exact_theirs(void) {
    uint64_t sum = 0;
    for (size_t k = 0; k < n; k += 16)
        sum = 3 * sum + rust_exact(crate, list[3 * k], list[3 * k + 1]);
    return sum;
}
OF_LAYOUT uint64_t exact_in(const layout *l) {
    uint64_t sum = 0, c[3] = {0}, answer[5] = {0};
    for (size_t k = 0; k < n; k += 16) {
        uint64_t start = list[3 * k], end = list[3 * k + 1];
        l->fresh_exact(n, root, l->words, l->width * n, bytes, colour_bytes, start, end, c, 3);
        l->drain_exact(n, root, l->words, l->width * n, bytes, colour_bytes, start, end, c[0], c[1], c[2], PIECE, out, PIECE, answer, 5);
        sum = 3 * sum + values_in(l, answer[0]);
    }
    return sum;
}
SIDES(exact, exact_in(l))

static uint64_t exact_by_store(void) {
    uint64_t sum = 0;
    for (size_t k = 0; k < n; k += 16)
        sum = 3 * sum + store_exact(opened, list[3 * k], list[3 * k + 1]);
    return sum;
}

static uint64_t check_theirs(void) { return rust_check(words, 8 * n, bytes, colour_bytes, n, root); }
SIDES(check, l->check(n, root, l->words, l->width * n, bytes, colour_bytes) == ISET_OK)

/* A map whose slots are scattered: as many entries as there are were removed and added again, one
   after the other, at random. The plan for it, its renumbering, and a drain of it before and after. */
static uint64_t plan[MOST], tidied[ISET_RENUMBER_ANSWER];
static void scatter(void) {
    uint64_t gone[ISET_REMOVE_ANSWER], come[ISET_INSERT_ANSWER];
    for (size_t k = 0; k < n; k++) {
        uint64_t slot = any(n), entry[3];
        memcpy(entry, words + 8 * slot, sizeof entry);
        iset_open_remove(n, root, 0, words, 8 * n, bytes, colour_bytes, slot, gone, ISET_REMOVE_ANSWER);
        iset_open_insert(gone[1], gone[2], 0, words, 8 * n, bytes, colour_bytes, entry[0], entry[1], entry[2], come, ISET_INSERT_ANSWER);
        root = come[1];
    }
    same(check_ours(), 1, "the scattered store passes the check");
}
static uint64_t propose_ours(void) { return iset_propose(n, root, words, 8 * n, bytes, colour_bytes, plan, n) == ISET_OK; }
static void before_renumbering(void) {
    same(propose_ours(), 1, "a plan");
    memcpy(spare, words, 64 * n);
    memcpy(spare_bytes, bytes, colour_bytes);
}
static uint64_t renumber_ours(void) {
    return iset_renumber(n, root, 0, spare, 8 * n, spare_bytes, colour_bytes, plan, n, tidied, ISET_RENUMBER_ANSWER) == ISET_OK;
}
static void after_renumbering(void) {
    same(iset_propose(n, tidied[1], spare, 8 * n, spare_bytes, colour_bytes, plan, n), ISET_OK, "a plan of the tidied map");
    for (size_t k = 0; k < n; k++)
        same(plan[k], k, "what the tidied map has to move");
}
static void before_tidied(void) {
    before_renumbering();
    same(renumber_ours(), 1, "a renumbering");
}
static uint64_t all_tidied(void) { return all_of_spare(n, tidied[1]); }

/* The map saved as an image and loaded back, each side into memory of its own. */
static uint8_t image[ISET_IMAGE_LEN(MOST)], other_image[ISET_IMAGE_LEN(MOST)];
static uint64_t write_theirs(void) { return rust_write_image(words, 8 * n, bytes, colour_bytes, n, root, other_image, ISET_IMAGE_LEN(n)); }
static uint64_t write_ours(void) {
    uint64_t answer[ISET_WRITE_IMAGE_ANSWER] = {0};
    iset_write_image(n, root, words, 8 * n, bytes, colour_bytes, image, ISET_IMAGE_LEN(n), answer, ISET_WRITE_IMAGE_ANSWER);
    return answer[ISET_WRITTEN_LENGTH];
}
static void after_write(void) { same(memcmp(image, other_image, ISET_IMAGE_LEN(n)) != 0, 0, "the images"); }

static uint64_t read_theirs(void) { return rust_read_image(held, 8 * n, held_bytes, colour_bytes, other_image, ISET_IMAGE_LEN(n)); }
static uint64_t read_ours(void) {
    uint64_t answer[ISET_READ_IMAGE_ANSWER] = {0};
    iset_read_image(0, spare, 8 * n, spare_bytes, colour_bytes, image, ISET_IMAGE_LEN(n), answer, ISET_READ_IMAGE_ANSWER);
    return answer[ISET_LOADED_ROOT];
}
static void after_read(void) {
    same(memcmp(held, words, 64 * n) != 0, 0, "the map that was read, the other side");
    same(memcmp(spare, words, 64 * n) != 0, 0, "the map that was read");
}

/* An address in the middle of the image that was written last, against a Rust lookup in the bytes
   with the same tests and without, and against the check of the map itself. */
static uint64_t held_by;
static uint64_t middle(void) { return list[3 * (n / 2)]; }
static void before_count(void) { held_by = rust_image_count(image, ISET_IMAGE_LEN(n), middle(), false); }
static uint64_t count_tested(void) { return rust_image_count(image, ISET_IMAGE_LEN(n), middle(), true); }
static uint64_t count_untested(void) { return rust_image_count(image, ISET_IMAGE_LEN(n), middle(), false); }
static uint64_t count_checked(void) { return check_ours() * held_by; }
static uint64_t count_ours(void) { return iset_image_count(image, ISET_IMAGE_LEN(n), middle()); }

/* The words are the same. The crate's colours differ at 65,535 entries, see docs/DIFFERENCES.md. */
static map *built;
static uint64_t built_root;
static uint64_t build_theirs(void) {
    built = rust_build(list, n);
    return 0;
}
OF_LAYOUT uint64_t build_in(const layout *l) {
    uint64_t answer[ISET_BUILD_ANSWER] = {0};
    l->build(0, l->spare, l->width * n, l->spare_bytes, colour_bytes, list, 3 * n, answer, ISET_BUILD_ANSWER);
    built_root = answer[1];
    return 0;
}
SIDES(build, build_in(l))
static void same_build(const layout *l) {
    same(rust_store(built, held, held_bytes, n), built_root, "the root after the build");
    same_nodes(l, held, "the nodes after the build");
    rust_free(built);
}
static void after_build(void) { same_build(&eight); }
static void after_build_six(void) { same_build(&six); }

/* Maps in which no two ranges overlap: one address beside the crate's overlap lookup of it, and
   beside a binary search over a sorted slice; the check beside that of any map; and insertion, which
   looks for an overlap first, beside the crate's, which does not. */
static disjoint *opened_disjoint;
static uint64_t apart_ours(void) {
    uint64_t sum = 0, answer[ISET_POINT_ANSWER] = {0};
    for (size_t k = 0; k < LOOKUPS; k++) {
        iset_open_disjoint_point(n, root, words, 8 * n, bytes, colour_bytes, points[k], answer, ISET_POINT_ANSWER);
        sum = 3 * sum + (answer[0] == ISET_U ? 0 : words[8 * answer[0] + ISET_VALUE]);
    }
    return sum;
}
static uint64_t apart_searched(void) {
    uint64_t sum = 0;
    for (size_t k = 0; k < LOOKUPS; k++)
        sum = 3 * sum + rust_search(list, n, points[k]);
    return sum;
}
static void before_disjoint_points(void) {
    before_points();
    opened_disjoint = disjoint_open(n, root, words, 8 * n, bytes, colour_bytes);
}
static void close_disjoint(void) { disjoint_close(opened_disjoint); }
static uint64_t apart_by_store(void) {
    uint64_t sum = 0;
    for (size_t k = 0; k < LOOKUPS; k++)
        sum = 3 * sum + disjoint_point(opened_disjoint, points[k]);
    return sum;
}
static uint64_t apart_check(void) { return iset_disjoint_check(n, root, words, 8 * n, bytes, colour_bytes) == ISET_OK; }
static uint64_t apart_insert(void) {
    uint64_t answer[ISET_INSERT_ANSWER] = {0, ISET_U};
    for (size_t k = 0; k < n; k++) {
        const uint64_t *entry = mixed + 3 * k;
        iset_open_disjoint_insert(answer[0], answer[1], (uint32_t)answer[4], spare, 8 * n, spare_bytes, colour_bytes, entry[0], entry[1], entry[2], answer, ISET_INSERT_ANSWER);
    }
    grown_root = answer[1];
    grown_in = &eight;
    return 0;
}

/* The entries of the list in a random order. */
static void mix(void) {
    memcpy(mixed, list, 24 * n);
    for (size_t k = 0; k < n; k++) {
        uint64_t *here = mixed + 3 * k, *there = here + 3 * any(n - k), entry[3];
        memcpy(entry, here, sizeof entry);
        memmove(here, there, sizeof entry);
        memcpy(there, entry, sizeof entry);
    }
}

/* Lists n entries of `width` addresses. Each `equals` of them in a row have the same range. With a
   width of at most 5 no two others intersect. */
static uint64_t width = 12;
static void start(size_t size, uint64_t equals) {
    n = size;
    colour_bytes = n / 8 + 1;
    for (size_t k = 0; k < n; k++) {
        uint64_t group = k / equals;
        list[3 * k] = 5 * group;
        list[3 * k + 1] = 5 * group + width;
        list[3 * k + 2] = k;
        slots[k] = any(n - k);
    }
    mix();
    range_end = 5 * (n / equals) + width;
    if (equals == 1) {
        crate = rust_build(list, n);
    } else {
        crate = rust_empty(n);
        grow(crate, list);
    }
    root = rust_store(crate, words, bytes, n);
    pack(words, thin);
    same(check_ours() && check_six(), 1, "the crate's store passes the check");
}

/* Half of the entries end at one address, and the other half starts there or after it. */
static void start_touching(size_t size) {
    n = size;
    colour_bytes = n / 8 + 1;
    for (size_t k = 0; k < n; k++) {
        bool low = k < n / 2;
        list[3 * k] = low ? k : n + 5 * (k - n / 2);
        list[3 * k + 1] = low ? n : list[3 * k] + width;
        list[3 * k + 2] = k;
    }
    crate = rust_build(list, n);
    root = rust_store(crate, words, bytes, n);
    pack(words, thin);
    window_start = n, window_end = UINT64_MAX;
}

int main(int words_given, char **given) {
    if (words_given == 2 && atoi(given[1]) < LOOKUPS)
        publics = (size_t)atoi(given[1]);
    static bench_case
        removal = {"removal of every entry, opened", before_removal, remove_theirs, remove_ours, after_removal, 0},
        unload_half = {"unloading of half of the entries, opened", before_removal, unload_theirs, unload_ours, after_unload, 0},
        unload_all = {"unloading of every entry, opened", before_removal, unload_theirs, unload_ours, after_unload, 0},
        unload_touching = {"unloading of half, the other half ends at the bound, opened", before_removal, unload_theirs, unload_ours, after_unload, 0},
        propose = {"plan of a scattered map, against the check", nothing, check_ours, propose_ours, nothing, 0},
        renumber = {"renumbering of a scattered map, against the check", before_renumbering, check_ours, renumber_ours, after_renumbering, 0},
        tidy_all = {"drain over the tidied map at once, against the scattered one", before_tidied, all_ours, all_tidied, nothing, 0},
        insertion = {"insertion of every entry, opened", before_insertion, insert_theirs, insert_ours, after_insertion, 0},
        all = {"drain over the whole map at once, opened", nothing, all_theirs, all_ours, nothing, 0},
        pieces = {"drain over the whole map in pieces of 64, opened", nothing, all_theirs, all_in_pieces, nothing, 0},
        point = {"point lookups by a drain, opened", before_points, points_theirs, points_ours, nothing, 0},
        point_found = {"point lookups by find_all, opened", before_points, points_theirs, found_ours, nothing, 0},
        point_faster = {"point lookups by find_all, against the drain", before_points, points_ours, found_ours, nothing, 0},
        point_any = {"point lookups by rule 1, against a drain without a rule", before_points, points_ours, points_any, nothing, 0},
        point_whole = {"point lookups by rule 2, against a drain without a rule", before_points, points_ours, points_whole, nothing, 0},
        window = {"windows by a drain, opened", before_points, windows_theirs, windows_drained, nothing, 0},
        window_found = {"windows by find_all, opened", before_points, windows_theirs, windows_found, nothing, 0},
        window_faster = {"windows by find_all, against the drain", before_points, windows_drained, windows_found, nothing, 0},
        public = {"point lookups, public, with the check", before_points, publics_theirs, points_public, nothing, 0},
        whole_plain = {"plain lookup of the whole map, against the drain at once", nothing, all_ours, all_plain, nothing, 0},
        point_plain = {"plain point lookups, against pruned ones", before_points, few_pruned, few_plain, nothing, 0},
        exact = {"exact lookups, 16 equals each, opened", nothing, exact_theirs, exact_ours, nothing, 0},
        removal_rust = {"removal of every entry, Store", before_store_removal, remove_theirs, remove_by_store, after_store_removal, 0},
        insertion_rust = {"insertion of every entry, Store", before_store_insertion, insert_theirs, insert_by_store, after_store_insertion, 0},
        all_rust = {"all entries, Store", open_store, all_theirs, all_by_store, close_store, 0},
        point_rust = {"point lookups, Store", before_store_points, points_theirs, points_by_store, close_store, 0},
        exact_rust = {"exact lookups, 16 equals each, Store", open_store, exact_theirs, exact_by_store, close_store, 0},
        check = {"check, against a plain Rust check", nothing, check_theirs, check_ours, nothing, 0},
        apart = {"point lookups in a disjoint map, opened", before_points, points_theirs, apart_ours, nothing, 0},
        apart_slice = {"point lookups in a disjoint map, against a binary search in a slice", before_points, apart_searched, apart_ours, nothing, 0},
        apart_rust = {"point lookups in a disjoint map, DisjointStore", before_disjoint_points, points_theirs, apart_by_store, close_disjoint, 0},
        apart_checked = {"disjoint check, against the check", nothing, check_ours, apart_check, nothing, 0},
        apart_inserted = {"insertion of every entry into a disjoint map, opened", before_insertion, insert_theirs, apart_insert, after_insertion, 0},
        build = {"build, against from_sorted", nothing, build_theirs, build_ours, after_build, 0},
        removal_narrow = {"removal of every entry, six words", before_removal, remove_theirs, remove_six, after_removal, 0},
        insertion_narrow = {"insertion of every entry, six words", before_insertion, insert_theirs, insert_six, after_insertion, 0},
        all_narrow = {"drain over the whole map at once, six words", nothing, all_theirs, all_six, nothing, 0},
        point_narrow = {"point lookups by a drain, six words", before_points, points_theirs, points_six, nothing, 0},
        point_found_narrow = {"point lookups by find_all, six words", before_points, points_theirs, found_six, nothing, 0},
        exact_narrow = {"exact lookups, 16 equals each, six words", nothing, exact_theirs, exact_six, nothing, 0},
        check_narrow = {"check, six words, against a plain Rust check of eight", nothing, check_theirs, check_six, nothing, 0},
        build_narrow = {"build, six words, against from_sorted", nothing, build_theirs, build_six, after_build_six, 0},
        removal_both = {"removal of every entry, six words, against eight words", before_removal, remove_ours, remove_six, after_removals, 0},
        insertion_both = {"insertion of every entry, six words, against eight words", nothing, insert_ours, insert_six, after_both, 0},
        all_both = {"drain over the whole map at once, six words, against eight words", nothing, all_ours, all_six, nothing, 0},
        point_both = {"point lookups by a drain, six words, against eight words", before_points, points_ours, points_six, nothing, 0},
        point_found_both = {"point lookups by find_all, six words, against eight words", before_points, found_ours, found_six, nothing, 0},
        exact_both = {"exact lookups, 16 equals each, six words, against eight words", nothing, exact_ours, exact_six, nothing, 0},
        check_both = {"check, six words, against eight words", nothing, check_ours, check_six, nothing, 0},
        build_both = {"build, six words, against eight words", nothing, build_ours, build_six, after_both, 0},
        write = {"write an image, against a plain Rust writer", nothing, write_theirs, write_ours, after_write, 0},
        read = {"read an image, against a plain Rust reader", nothing, read_theirs, read_ours, after_read, 0},
        count = {"count in an image, against a plain Rust lookup with the same tests", nothing, count_tested, count_ours, nothing, 0},
        count_bare = {"count in an image, against one without tests", nothing, count_untested, count_ours, nothing, 0},
        count_check = {"count in an image, against the check", before_count, count_checked, count_ours, nothing, 0};
    static const size_t sizes[] = {1000, 16000, 65535};
    for (int k = 0; k < 3; k++) {
        start(sizes[k], 1);
        measure(&removal, n);
        window_start = 0, window_end = 5 * (n / 2);
        measure(&unload_half, n / 2);
        window_end = range_end;
        measure(&unload_all, n);
        measure(&insertion, n);
        measure(&all, n);
        measure(&pieces, n);
        measure(&point, LOOKUPS);
        measure(&point_found, LOOKUPS);
        measure(&point_faster, LOOKUPS);
        measure(&point_any, LOOKUPS);
        measure(&point_whole, LOOKUPS);
        measure(&window, WINDOWS);
        measure(&window_found, WINDOWS);
        measure(&window_faster, WINDOWS);
        measure(&whole_plain, n);
        measure(&point_plain, PLAINS);
        measure(&removal_rust, n);
        measure(&insertion_rust, n);
        measure(&all_rust, n);
        measure(&point_rust, LOOKUPS);
        if (publics > 0)
            measure(&public, publics);
        measure(&check, n);
        measure(&build, n);
        measure(&removal_narrow, n);
        measure(&removal_both, n);
        measure(&insertion_narrow, n);
        measure(&insertion_both, n);
        measure(&all_narrow, n);
        measure(&all_both, n);
        measure(&point_narrow, LOOKUPS);
        measure(&point_both, LOOKUPS);
        measure(&point_found_narrow, LOOKUPS);
        measure(&point_found_both, LOOKUPS);
        measure(&check_narrow, n);
        measure(&check_both, n);
        measure(&build_narrow, n);
        measure(&build_both, n);
        measure(&write, n);
        measure(&read, n);
        measure(&count, n);
        measure(&count_bare, n);
        measure(&count_check, n);
        scatter();
        measure(&propose, n);
        measure(&renumber, n);
        measure(&tidy_all, n);
        rust_free(crate);
        start(sizes[k], 16);
        measure(&exact, n / 16);
        measure(&exact_rust, n / 16);
        measure(&exact_narrow, n / 16);
        measure(&exact_both, n / 16);
        rust_free(crate);
        width = 4;
        start(sizes[k], 1);
        measure(&apart, LOOKUPS);
        measure(&apart_slice, LOOKUPS);
        measure(&apart_rust, LOOKUPS);
        measure(&apart_checked, n);
        measure(&apart_inserted, n);
        rust_free(crate);
        width = 12;
    }
    start_touching(16000);
    measure(&unload_touching, n / 2);
    rust_free(crate);
    return 0;
}
