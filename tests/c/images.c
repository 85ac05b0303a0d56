// Saves maps as images and loads them back: by iset_write_image, iset_open_write_image and
// iset_read_image, up to the most entries that a map holds, and from damaged images. Each line is
// the name of a case, and the numbers that the calls returned and answered. Whatever is not as it
// should be is printed at the line's end.
#include <inttypes.h>
#include <stdio.h>
#include <string.h>

#include "iset_map.h"

#define MOST ISET_MOST_ENTRIES
#define FILL 238
#define LENT(map) (map).count, (map).root, nodes, ISET_NODES_LEN(MOST), colours, ISET_COLOURS_LEN(MOST)

// The memory of a map, and a copy of the memory that a map is read into. Both have places past the
// last slot.
static uint64_t nodes[ISET_NODES_LEN(MOST)], target[ISET_NODES_LEN(MOST) + 8], words[ISET_NODES_LEN(MOST) + 8];
static uint8_t colours[ISET_COLOURS_LEN(MOST)], shades[ISET_COLOURS_LEN(MOST) + 1], bits[ISET_COLOURS_LEN(MOST) + 1];
static uint8_t image[ISET_IMAGE_LEN(MOST + 1) + 4], again[ISET_IMAGE_LEN(MOST + 1) + 4];
static iset_entry list[MOST];

static iset_memory memory(void) { return iset_memory_of(nodes, ISET_NODES_LEN(MOST), colours, ISET_COLOURS_LEN(MOST)); }

// Fills the target with bytes that no map has, and remembers it.
static void lend(void) {
    memset(target, FILL, sizeof target);
    memset(shades, FILL, sizeof shades);
    memcpy(words, target, sizeof words);
    memcpy(bits, shades, sizeof bits);
}

static int same_bit(const uint8_t *a, const uint8_t *b, size_t i) { return ((a[i / 8] ^ b[i / 8]) >> (i % 8) & 1) == 0; }

// The target holds the map's n slots, and is as it was past them.
static int is_read(size_t n) {
    for (size_t i = 0; i < sizeof bits * 8; i++)
        if (!same_bit(shades, i < n ? colours : bits, i)) return 0;
    return memcmp(target, nodes, ISET_NODES_LEN(n) * sizeof *nodes) == 0 &&
        memcmp(target + ISET_NODES_LEN(n), words + ISET_NODES_LEN(n), sizeof words - ISET_NODES_LEN(n) * sizeof *words) == 0;
}

static int is_kept(void) { return memcmp(target, words, sizeof words) == 0 && memcmp(shades, bits, sizeof bits) == 0; }

static int filled(const uint8_t *bytes, size_t from, size_t to) {
    for (size_t i = from; i < to; i++)
        if (bytes[i] != FILL) return 0;
    return 1;
}

static iset_map build(size_t n) {
    for (size_t i = 0; i < n; i++) {
        iset_entry entry = {i / 2, i / 2 + 1 + i % 2 + i % 7 * 1000, i * UINT64_C(0x100000001)};
        if (i % 2) entry.end = list[i - 1].end;
        list[i] = entry;
    }
    iset_map map = iset_map_none();
    uint64_t no = iset_map_build(&map, memory(), list, n);
    if (no) printf("build: %" PRIu64 "\n", no);
    return map;
}

// Reads the first `len` bytes of the image in the place of a map of the version 6, and prints what
// came of it. Returns the map that was read.
static iset_map load(const char *name, size_t len, size_t nodes_len, size_t colours_len, size_t room) {
    uint64_t answer[4] = {FILL, FILL, FILL, FILL};
    lend();
    uint64_t no = iset_read_image(6, target, nodes_len, shades, colours_len, image, len, answer, room);
    printf("%s: %" PRIu64, name, no);
    iset_map map = iset_map_none();
    if (no == ISET_OK) {
        map = (iset_map){answer[ISET_LOADED_COUNT], answer[ISET_LOADED_ROOT], (uint32_t)answer[ISET_LOADED_VERSION]};
        printf(" %" PRIu64 " %" PRIu64 " %" PRIu32, map.count, map.root, map.version);
    } else if (!is_kept()) {
        printf(" MEMORY CHANGED");
    }
    for (size_t i = no == ISET_OK ? 3 : 0; i < 4; i++)
        if (answer[i] != FILL) printf(" ANSWER CHANGED");
    return map;
}

// Saves a map of n entries and loads it back, and saves what was loaded.
static void round_trip(size_t n) {
    iset_map map = build(n);
    size_t len = 0, len_again = 0, size = ISET_IMAGE_LEN(n);
    memset(image, FILL, sizeof image);
    memset(again, FILL, sizeof again);
    uint64_t no = iset_map_write_image(map, memory(), image, sizeof image, &len);
    printf("%zu entries, written: %" PRIu64 " %zu", n, no, len);
    if (len != size || !filled(image, len, sizeof image)) printf(" NOT THE IMAGE ALONE");
    no = iset_map_open_write_image(map, memory(), again, size, &len_again);
    if (no || len_again != len || memcmp(image, again, sizeof image)) printf(" THE OPENED CALL DIFFERS");
    iset_map back = load("; read", len, ISET_NODES_LEN(MOST), ISET_COLOURS_LEN(MOST), 3);
    if (back.count != map.count || back.root != map.root || back.version != 7 || !is_read(n)) printf(" ANOTHER MAP");
    memset(again, FILL, sizeof again);
    iset_memory there = iset_memory_of(target, ISET_NODES_LEN(n), shades, ISET_COLOURS_LEN(n));
    no = iset_map_write_image(back, there, again, size, &len_again);
    if (no || len_again != len || memcmp(image, again, sizeof image)) printf(" OTHER BYTES");
    printf("\n");
}

static void put(size_t at, uint64_t number) {
    for (size_t i = 0; i < 4; i++) image[at + i] = (uint8_t)(number >> (8 * i));
}

// An image of n entries, laid out well, whose entries and links are all 0.
static void lay_out(size_t n) {
    uint64_t rows[9] = {1, 44, n * 24, 2, 44 + n * 24, n * 12, 3, 44 + n * 36, ISET_COLOURS_LEN(n)};
    memset(image, 0, sizeof image);
    put(0, n), put(4, 0);
    for (size_t i = 0; i < 9; i++) put(8 + 4 * i, rows[i]);
}

static void whole(const char *name, size_t len) {
    load(name, len, ISET_NODES_LEN(MOST), ISET_COLOURS_LEN(MOST), 3);
    printf("\n");
}

// Store A of document 01 with one byte of its image changed.
static void damaged(const char *name, size_t at, uint8_t byte) {
    uint8_t old = image[at];
    image[at] = byte;
    whole(name, 225);
    image[at] = old;
}

static iset_map store_a(void) {
    static const iset_entry a[5] = {{10, 20, 1}, {10, 30, 2}, {25, 40, 3}, {40, 50, 4}, {45, 60, 5}};
    iset_map map = iset_map_none();
    size_t len = 0;
    iset_map_build(&map, memory(), a, 5);
    iset_map_write_image(map, memory(), image, sizeof image, &len);
    return map;
}

static void damages(void) {
    whole("A", 225), whole("A, a byte short", 224), whole("A, a byte more", 226), whole("43 bytes", 43), whole("no bytes", 0);
    damaged("count 4", 0, 4), damaged("count 2^24 + 5", 3, 1), damaged("kind 1", 8, 2), damaged("offset 1", 12, 45);
    damaged("size 1", 16, 121), damaged("kind 2", 20, 1), damaged("offset 2", 24, 163), damaged("size 2", 28, 61);
    damaged("kind 3", 32, 2), damaged("offset 3", 36, 225), damaged("size 3", 40, 2), damaged("a spare bit", 224, 9 + 32);
    damaged("root 7", 4, 7), damaged("root 1", 4, 1), damaged("a link above 2^31", 167, 128), damaged("a left link twice", 212, 1);
    damaged("a parent", 196 + 2, 1), damaged("a red root", 224, 13), damaged("unequal blacks", 224, 8);
    damaged("start = end", 52, 10), damaged("entries that fall", 44, 11), damaged("another value", 60, 77), damaged("another end", 52, 21);
}

// 2^32 - 1 at each place of a number or of half of one, and in all of them. An image that is
// refused leaves the memory as it was; one that is accepted is written back to the same bytes.
static void greatest(void) {
    size_t bad = 0, broken = 0, accepted = 0;
    for (size_t at = 0; at < 224; at += 4) {
        uint64_t answer[3] = {FILL, FILL, FILL};
        uint8_t old[4];
        memcpy(old, image + at, 4);
        put(at, UINT32_MAX);
        lend();
        uint64_t no = iset_read_image(6, target, ISET_NODES_LEN(5), shades, 1, image, 225, answer, 3);
        bad += no == ISET_BAD_IMAGE, broken += no == ISET_BROKEN, accepted += no == ISET_OK;
        if (no != ISET_OK && !is_kept()) printf("at %zu: MEMORY CHANGED\n", at);
        if (no == ISET_OK) {
            iset_map map = {answer[0], answer[1], 7};
            size_t len = 0;
            no = iset_map_write_image(map, iset_memory_of(target, ISET_NODES_LEN(5), shades, 1), again, 225, &len);
            if (no || len != 225 || memcmp(image, again, 225)) printf("at %zu: OTHER BYTES\n", at);
        }
        memcpy(image + at, old, 4);
    }
    printf("2^32 - 1 at each place: 12 %zu times, 2 %zu times, accepted %zu times\n", bad, broken, accepted);
    memset(image, 255, 225);
    whole("2^32 - 1 everywhere", 225);
}

static void rooms(iset_map map) {
    uint64_t answer[2] = {FILL, FILL};
    load("four slots of words", 225, 39, 1, 3), printf("\n");
    load("five slots of words", 225, 40, 1, 3), printf("\n");
    load("no colours", 225, 40, 0, 3), printf("\n");
    load("no colours, a byte short", 224, 40, 0, 3), printf("\n");
    load("a short answer", 224, 40, 1, 2), printf("\n");
    memset(again, FILL, sizeof again);
    printf("an output of 224: %" PRIu64, iset_write_image(LENT(map), again, 224, answer, 1));
    printf(", opened %" PRIu64, iset_open_write_image(LENT(map), again, 224, answer, 1));
    printf("; no answer: %" PRIu64, iset_write_image(LENT(map), again, 225, answer, 0));
    map.root = 1;
    printf("; root 1: %" PRIu64, iset_write_image(LENT(map), again, 224, answer, 1));
    map.count = MOST + 1;
    printf("; count 65536: %" PRIu64, iset_write_image(LENT(map), again, 0, answer, 1));
    printf(", opened %" PRIu64 "\n", iset_open_write_image(LENT(map), again, 0, answer, 1));
    if (!filled(again, 0, sizeof again) || answer[0] != FILL || answer[1] != FILL) printf("SOMETHING WAS WRITTEN\n");
}

int main(void) {
    static const size_t counts[] = {0, 1, 5, 7, 8, 9, 1000, MOST};
    for (size_t i = 0; i < sizeof counts / sizeof *counts; i++) round_trip(counts[i]);
    rooms(store_a());
    store_a(), damages();
    store_a(), greatest();
    lay_out(MOST), whole("65535 slots of zeros", ISET_IMAGE_LEN(MOST));
    lay_out(MOST + 1), whole("65536 slots of zeros", ISET_IMAGE_LEN(MOST + 1)), whole("a byte short", ISET_IMAGE_LEN(MOST + 1) - 1);
    return 0;
}
