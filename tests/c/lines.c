// Requests of the program drive, docs/DRIVE.md, through the calls of include/iset_open.h,
// include/iset_ruled.h, include/iset_disjoint.h and include/iset_image.h: a line in, a line out.
// Every store passes the check. If a request is an unloading, a plan or a renumbering, or has an
// opened call and a public one in iset_ruled.h or iset_disjoint.h, both calls are made, and have to
// do the same.
#include <inttypes.h>
#include <stdio.h>
#include <stdlib.h>
#include <string.h>

#include "iset_disjoint.h"
#include "iset_image.h"
#include "iset_open.h"
#include "iset_ruled.h"

#define WORDS 32768
#define BYTES 512
#define PLACES 4096
#define PLAN 12288
#define IMAGE 16384

// the store of the last line `store`, the copy that a request works on and another one, and the
// bytes of the last line `bytes`
static uint64_t nodes[WORDS], copy[WORDS], twin[WORDS], out[PLACES], out_twin[PLACES], count, root;
static uint32_t version;
static uint8_t colours[BYTES], colours_copy[BYTES], colours_twin[BYTES], image[IMAGE], given[IMAGE];
static size_t words, bytes, given_len;
static uint64_t plan[PLAN];

#define STORE count, root, copy, words, colours_copy, bytes
#define CHANGED(nodes, colours) count, root, version, nodes, words, colours, bytes

static uint64_t number(void) {
    uint64_t x;
    if (scanf("%" SCNu64, &x) != 1) exit(1);
    return x;
}

static void store(void) {
    version = (uint32_t)number(), count = number(), root = number();
    words = number();
    for (size_t i = 0; i < words; i++) nodes[i] = number();
    bytes = number();
    for (size_t i = 0; i < bytes; i++) colours[i] = (uint8_t)number();
    if (iset_check(count, root, nodes, words, colours, bytes) != ISET_OK) {
        printf("lines: a store does not pass the check\n");
        exit(1);
    }
}

static void bytes_given(void) {
    given_len = number();
    for (size_t i = 0; i < given_len; i++) given[i] = (uint8_t)number();
}

static void same(int is_so, const char *what) {
    if (is_so) return;
    printf("lines: the opened and the public %s differ\n", what);
    exit(1);
}

static void put(uint64_t no, const uint64_t *answer, size_t n) {
    printf("%" PRIu64, no);
    for (size_t i = 0; i < n; i++) printf(" %" PRIu64, answer[i]);
}

// what differs from the store
static void put_changes(void) {
    size_t many = 0;
    for (size_t i = 0; i < words; i++) many += nodes[i] != copy[i];
    printf(" @ %zu", many);
    for (size_t i = 0; i < words; i++)
        if (nodes[i] != copy[i]) printf(" %zu %" PRIu64, i, copy[i]);
    many = 0;
    for (size_t i = 0; i < bytes; i++) many += colours[i] != colours_copy[i];
    printf(" %zu", many);
    for (size_t i = 0; i < bytes; i++)
        if (colours[i] != colours_copy[i]) printf(" %zu %d", i, colours_copy[i]);
    printf("\n");
}

// An answer is what a refused call prints before the call writes it. The number of changed hulls
// and the version, at its end, are in no line.
static void remove_slot(void) {
    uint64_t a[ISET_REMOVE_ANSWER] = {0, count, root, ISET_U, ISET_U, ISET_U, ISET_U, ISET_U, ISET_U}, slot = number();
    put(iset_open_remove(CHANGED(copy, colours_copy), slot, a, ISET_REMOVE_ANSWER), a, 9);
    put_changes();
}

static void insert(void) {
    uint64_t a[ISET_INSERT_ANSWER] = {count, root, ISET_U}, start = number(), end = number(), value = number();
    put(iset_open_insert(CHANGED(copy, colours_copy), start, end, value, a, ISET_INSERT_ANSWER), a, 3);
    put_changes();
}

static void read_slot(void) {
    uint64_t a[ISET_READ_ANSWER] = {0, 0, 0}, slot = number(), taken = number();
    put(iset_open_read(CHANGED(copy, colours_copy), slot, (uint32_t)taken, a, ISET_READ_ANSWER), a, 3);
    put_changes();
}

// q: the kinds and numbers of two bounds, and in q[4] the rule, or start and end; c: a cursor
static char query(uint64_t *q) {
    char kind;
    if (scanf(" %c", &kind) != 1) exit(1);
    if (kind == 'r') q[4] = number();
    for (int i = 0; i < (kind == 'e' ? 2 : 4); i++) q[i] = number();
    return kind;
}

#define RANGE q[0], q[1], q[2], q[3]
#define CURSOR c[0], c[1], c[2]

static void fresh(void) {
    uint64_t a[3] = {ISET_U, 0, 0}, q[5];
    query(q);
    put(iset_open_fresh_exact(STORE, q[0], q[1], a, 3), a, 3);
    printf("\n");
}

static void step(void) {
    uint64_t q[5], no;
    char kind = query(q);
    uint64_t c[3] = {number()};
    c[1] = number(), c[2] = number();
    uint64_t a[5] = {ISET_U, c[0], c[1], c[2], 0}, b[5] = {ISET_U, c[0], c[1], c[2], 0};
    if (kind == 'e') no = iset_open_step_exact(STORE, q[0], q[1], CURSOR, a, 5);
    else if (kind == 'o') no = iset_open_step(STORE, RANGE, CURSOR, a, 5);
    else {
        no = iset_open_step_ruled(STORE, q[4], RANGE, CURSOR, a, 5);
        same(iset_step_ruled(STORE, q[4], RANGE, CURSOR, b, 5) == no && memcmp(a, b, sizeof a) == 0, "step");
    }
    put(no, a, 5);
    put_changes();
}

static void fill(uint64_t places) {
    for (size_t i = 0; i < places; i++) out[i] = out_twin[i] = 777777;
}

static int same_output(uint64_t places) {
    return memcmp(out, out_twin, places * sizeof *out) == 0;
}

static void drain(void) {
    uint64_t q[5], no;
    char kind = query(q);
    uint64_t c[3] = {number()};
    c[1] = number(), c[2] = number();
    uint64_t limit = number(), places = number(), a[5] = {0, 0, c[0], c[1], c[2]}, b[5] = {0, 0, c[0], c[1], c[2]};
    fill(places);
    if (kind == 'e') no = iset_open_drain_exact(STORE, q[0], q[1], CURSOR, limit, out, places, a, 5);
    else if (kind == 'o') no = iset_open_drain(STORE, RANGE, CURSOR, limit, out, places, a, 5);
    else {
        no = iset_open_drain_ruled(STORE, q[4], RANGE, CURSOR, limit, out, places, a, 5);
        same(iset_drain_ruled(STORE, q[4], RANGE, CURSOR, limit, out_twin, places, b, 5) == no && memcmp(a, b, sizeof a) == 0 && same_output(places), "drain");
    }
    put(no, a, 5);
    printf(" ");
    put(places, out, places);
    put_changes();
}

// a lookup that finds all hits at once, by the plain or by the fast one
static void at_once(int fast) {
    uint64_t q[5];
    char kind = query(q);
    uint64_t places = number(), a[2] = {0, 0}, b[2] = {0, 0}, no;
    fill(places);
    if (kind == 'e') no = (fast ? iset_open_find_all_exact : iset_open_plain_exact)(STORE, q[0], q[1], out, places, a, 2);
    else if (kind == 'o') no = (fast ? iset_open_find_all : iset_open_plain)(STORE, RANGE, out, places, a, 2);
    else {
        no = (fast ? iset_open_find_all_ruled : iset_open_plain_ruled)(STORE, q[4], RANGE, out, places, a, 2);
        uint64_t public_no = (fast ? iset_find_all_ruled : iset_plain_ruled)(STORE, q[4], RANGE, out_twin, places, b, 2);
        same(public_no == no && memcmp(a, b, sizeof a) == 0 && same_output(places), fast ? "find_all" : "plain");
    }
    put(no, a, 2);
    printf(" ");
    put(places, out, places);
    put_changes();
}

static void plain(void) { at_once(0); }

static void find_all(void) { at_once(1); }

static void write_image(void) {
    uint64_t places = number(), a[1] = {0};
    memset(image, 238, places);
    put(iset_open_write_image(STORE, image, places, a, 1), a, 1);
    printf(" %" PRIu64, places);
    for (size_t i = 0; i < places; i++) printf(" %d", image[i]);
    put_changes();
}

// whether two calls left the same in the copy and in its twin
static int same_store(void) {
    return memcmp(copy, twin, words * sizeof *copy) == 0 && memcmp(colours_copy, colours_twin, bytes) == 0;
}

static void unload(void) {
    uint64_t q[5], a[ISET_UNLOAD_ANSWER] = {count, root}, b[ISET_UNLOAD_ANSWER] = {count, root}, no, public_no;
    if (query(q) == 'o') {
        no = iset_open_unload(CHANGED(copy, colours_copy), RANGE, a, ISET_UNLOAD_ANSWER);
        public_no = iset_unload(CHANGED(twin, colours_twin), RANGE, b, ISET_UNLOAD_ANSWER);
    } else {
        no = iset_open_unload_ruled(CHANGED(copy, colours_copy), q[4], RANGE, a, ISET_UNLOAD_ANSWER);
        public_no = iset_unload_ruled(CHANGED(twin, colours_twin), q[4], RANGE, b, ISET_UNLOAD_ANSWER);
    }
    same(public_no == no && memcmp(a, b, sizeof a) == 0 && same_store(), "unloading");
    put(no, a, 2);
    printf(" %" PRIu64, a[ISET_UNLOADED_GONE]);
    put_changes();
}

static void propose(void) {
    uint64_t places = number();
    fill(places);
    uint64_t no = iset_open_propose(STORE, out, places);
    same(iset_propose(STORE, out_twin, places) == no && same_output(places), "plan");
    put(no, NULL, 0);
    printf(" ");
    put(places, out, places);
    put_changes();
}

static void renumber(void) {
    uint64_t a[ISET_RENUMBER_ANSWER] = {count, root}, b[ISET_RENUMBER_ANSWER] = {count, root}, n = number();
    if (n > PLAN) exit(1);
    for (uint64_t i = 0; i < n; i++) plan[i] = number();
    uint64_t no = iset_open_renumber(CHANGED(copy, colours_copy), plan, n, a, ISET_RENUMBER_ANSWER);
    uint64_t public_no = iset_renumber(CHANGED(twin, colours_twin), plan, n, b, ISET_RENUMBER_ANSWER);
    same(public_no == no && memcmp(a, b, sizeof a) == 0 && same_store(), "renumbering");
    put(no, a, 2);
    put_changes();
}

static void check_disjoint(void) {
    put(iset_disjoint_check(STORE), NULL, 0);
    put_changes();
}

// whether an opened call may be made
static int is_disjoint(void) { return iset_disjoint_check(count, root, nodes, words, colours, bytes) == ISET_OK; }

static void point(void) {
    uint64_t a[ISET_POINT_ANSWER] = {ISET_U, 0}, b[ISET_POINT_ANSWER] = {ISET_U, 0}, address = number();
    uint64_t no = iset_disjoint_point(STORE, address, a, ISET_POINT_ANSWER);
    if (is_disjoint())
        same(iset_open_disjoint_point(STORE, address, b, ISET_POINT_ANSWER) == no && memcmp(a, b, sizeof a) == 0, "point");
    put(no, a, 2);
    put_changes();
}

static void insert_disjoint(void) {
    uint64_t a[ISET_INSERT_ANSWER] = {count, root, ISET_U}, b[ISET_INSERT_ANSWER] = {count, root, ISET_U};
    uint64_t start = number(), end = number(), value = number();
    uint64_t no = iset_disjoint_insert(CHANGED(copy, colours_copy), start, end, value, a, ISET_INSERT_ANSWER);
    if (is_disjoint()) {
        uint64_t opened = iset_open_disjoint_insert(CHANGED(twin, colours_twin), start, end, value, b, ISET_INSERT_ANSWER);
        same(opened == no && memcmp(a, b, sizeof a) == 0 && same_store(), "insertion");
    }
    put(no, a, 3);
    put_changes();
}

static void remove_disjoint(void) {
    uint64_t a[ISET_REMOVE_ANSWER] = {0, count, root, ISET_U, ISET_U, ISET_U, ISET_U, ISET_U, ISET_U}, b[ISET_REMOVE_ANSWER], slot = number();
    memcpy(b, a, sizeof b);
    uint64_t no = iset_disjoint_remove(CHANGED(copy, colours_copy), slot, a, ISET_REMOVE_ANSWER);
    if (is_disjoint()) {
        uint64_t opened = iset_open_disjoint_remove(CHANGED(twin, colours_twin), slot, b, ISET_REMOVE_ANSWER);
        same(opened == no && memcmp(a, b, sizeof a) == 0 && same_store(), "removal");
    }
    put(no, a, 9);
    put_changes();
}

static void host(void) {
    uint64_t address = number(), k = number();
    uint64_t a[2] = {iset_image_value(given, given_len, address, k), iset_image_refusal(given, given_len, address, k)};
    put(iset_image_count(given, given_len, address), a, 2);
    put_changes();
}

static const struct {
    const char *name;
    void (*made)(void);
} requests[] = {
    {"store", store}, {"bytes", bytes_given}, {"remove", remove_slot}, {"insert", insert}, {"read", read_slot}, {"fresh", fresh},
    {"step", step}, {"drain", drain}, {"plain", plain}, {"find", find_all}, {"write", write_image}, {"checkd", check_disjoint},
    {"point", point}, {"insertd", insert_disjoint}, {"removed", remove_disjoint}, {"chost", host},
    {"unload", unload}, {"propose", propose}, {"renumber", renumber},
};

int main(void) {
    char name[16];
    while (scanf("%15s", name) == 1) {
        memcpy(copy, nodes, sizeof copy);
        memcpy(twin, nodes, sizeof twin);
        memcpy(colours_copy, colours, sizeof colours_copy);
        memcpy(colours_twin, colours, sizeof colours_twin);
        size_t k = 0, n = sizeof requests / sizeof *requests;
        while (k < n && strcmp(name, requests[k].name) != 0) k++;
        if (k == n) return 1;
        requests[k].made();
    }
    return 0;
}
