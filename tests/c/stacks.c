// The calls of iset_image.h on a stack of 64 KiB, as a trap handler makes them, and how much of it
// they take: on images up to the most entries, on one entry more, and on the image that the test of
// the store follows as deep as it goes. Each line is the name of an image, then count, value and
// refusal of an address and k. Whatever is not as it should be is printed at the line's end. Then a
// renumbering of the most entries, and the same of a plan that is refused, on the same stack.
#define _DEFAULT_SOURCE
#include <inttypes.h>
#include <signal.h>
#include <stdio.h>
#include <string.h>

#include "iset_image.h"
#include "iset_map.h"

#define MOST ISET_MOST_ENTRIES
#define SIZE 65536
#define FILL 238

static uint64_t nodes[ISET_NODES_LEN(MOST)];
static uint8_t colours[ISET_COLOURS_LEN(MOST)], image[ISET_IMAGE_LEN(MOST + 1)], before[ISET_IMAGE_LEN(MOST + 1)];
static iset_entry list[MOST];
static uint8_t stack[SIZE];
static size_t len, taken;
static uint64_t address, k, answers[3], plan[MOST];
static iset_map map;
static int renumbers;

static iset_memory memory(void) { return iset_memory_of(nodes, ISET_NODES_LEN(MOST), colours, ISET_COLOURS_LEN(MOST)); }

// Runs on the small stack: fills what is below its own frame, and looks afterwards how far down the
// three calls wrote. The attribute aligns the stack as x86-64 code expects it: Linux does so for a
// handler, and qemu 8.2 does not.
__attribute__((force_align_arg_pointer)) static void ask(int number) {
    volatile uint8_t here = 0, *lowest = stack;
    size_t top = (size_t)((uintptr_t)&here - (uintptr_t)stack), end = top - 512, at = 0;
    (void)number;
    for (size_t i = 0; i < end; i++) lowest[i] = FILL;
    if (renumbers) {
        answers[0] = iset_map_renumber(&map, memory(), plan, MOST);
    } else {
        answers[0] = iset_image_count(image, len, address);
        answers[1] = iset_image_value(image, len, address, k);
        answers[2] = iset_image_refusal(image, len, address, k);
    }
    while (at < end && lowest[at] == FILL) at++;
    taken = top - at;
}

static void asked(const char *name, uint64_t an_address, uint64_t a_k) {
    memcpy(before, image, sizeof before);
    address = an_address, k = a_k, taken = 0;
    raise(SIGUSR1);
    printf("%s, %" PRIu64 " %" PRIu64 ": %" PRIu64 " %" PRIu64 " %" PRIu64, name, address, k, answers[0], answers[1], answers[2]);
    if (taken == 0 || taken > ISET_IMAGE_STACK) printf(" %zu BYTES OF STACK", taken);
    if (memcmp(image, before, sizeof image)) printf(" THE IMAGE CHANGED");
    printf("\n");
}

// It takes the 8 KiB of its test at least.
static void renumbered(const char *name) {
    renumbers = 1, taken = 0;
    raise(SIGUSR1);
    printf("%s: %" PRIu64, name, answers[0]);
    if (taken < 8192 || taken > ISET_RENUMBER_STACK) printf(" %zu BYTES OF STACK", taken);
    printf("\n");
}

static void save(iset_map saved) {
    uint64_t no = iset_map_write_image(saved, memory(), image, sizeof image, &len);
    if (no) printf("write: %" PRIu64 "\n", no);
}

// n entries from i to i + 10, for each i, so that ten hold an address.
static iset_map build(size_t n) {
    for (size_t i = 0; i < n; i++) list[i] = (iset_entry){i, i + 10, i + 1000};
    iset_map built = iset_map_none();
    uint64_t no = iset_map_build(&built, memory(), list, n);
    if (no) printf("build: %" PRIu64 "\n", no);
    return built;
}

static void put(size_t at, uint64_t number) {
    for (size_t i = 0; i < 4; i++) image[at + i] = (uint8_t)(number >> (8 * i));
}

// An image of n entries, laid out well, in which each slot is the right child of the one before it.
static void chain(size_t n) {
    uint64_t rows[9] = {1, 44, n * 24, 2, 44 + n * 24, n * 12, 3, 44 + n * 36, ISET_COLOURS_LEN(n)};
    memset(image, 0, sizeof image);
    put(0, n), put(4, 0);
    for (size_t i = 0; i < 9; i++) put(8 + 4 * i, rows[i]);
    for (size_t i = 0; i < n; i++) {
        image[44 + 24 * i + 8] = 1;
        put(44 + 24 * n + 12 * i, ISET_U);
        put(44 + 24 * n + 12 * i + 4, i + 1 < n ? i + 1 : ISET_U);
        put(44 + 24 * n + 12 * i + 8, i > 0 ? i - 1 : ISET_U);
    }
    len = ISET_IMAGE_LEN(n);
}

// The same in node words: the check follows it as deep as it goes.
static iset_map chained(size_t n) {
    iset_map chain_map = {n, 0, 0};
    for (size_t i = 0; i < n; i++) {
        uint64_t node[ISET_NODE_WORDS] = {0, 1, 0, 0, 1, ISET_U, i + 1 < n ? i + 1 : ISET_U, i > 0 ? i - 1 : ISET_U};
        memcpy(nodes + ISET_NODE_WORDS * i, node, sizeof node);
    }
    memset(colours, 0, sizeof colours);
    return chain_map;
}

// Rising insertions make a tree that is about twice as high on one side.
static iset_map insert(size_t n) {
    iset_map grown = iset_map_none();
    iset_inserted inserted;
    for (size_t i = 0; i < n; i++) {
        uint64_t no = iset_map_insert(&grown, memory(), (iset_entry){i, i + 10, i + 1000}, &inserted);
        if (no) printf("insert: %" PRIu64 "\n", no);
    }
    return grown;
}

int main(void) {
    stack_t small;
    struct sigaction action;
    memset(&small, 0, sizeof small);
    memset(&action, 0, sizeof action);
    small.ss_sp = stack;
    small.ss_size = SIZE;
    action.sa_handler = ask;
    action.sa_flags = SA_ONSTACK;
    if (sigaltstack(&small, NULL) || sigaction(SIGUSR1, &action, NULL)) return 1;

    save(iset_map_none());
    asked("no entries", 0, 0);
    save(build(1));
    asked("one entry", 9, 0);
    asked("one entry", 10, 0);
    save(insert(600));
    asked("600 inserted", 300, 9);
    asked("600 inserted", 300, 10);
    save(build(MOST));
    asked("65535 entries", 0, 0);
    asked("65535 entries", 65534, 9);
    asked("65535 entries", UINT64_MAX, UINT64_MAX);
    len--;
    asked("one byte less", 300, 0);
    chain(MOST + 1);
    asked("65536 entries", 0, 0);
    chain(MOST);
    asked("65535 in a chain", 0, 0);
    chain(40);
    asked("40 in a chain", 0, 0);
    map = build(MOST);
    for (size_t i = 0; i < MOST; i++) plan[i] = MOST - 1 - i;
    renumbered("65535 renumbered");
    plan[0] = 0;
    renumbered("a slot twice");
    map = chained(MOST);
    renumbered("65535 in a chain, renumbered");
    return 0;
}
