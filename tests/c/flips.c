// Damages images, each bit by itself and each length, and holds the calls of iset_image.h to
// iset_read_image and iset_drain on every one of them: refusals, counts and values at a few
// addresses. Each line is the size of a map, then how many damaged images were refused with 12,
// with 2, and not at all, and how many answers differ.
#include <inttypes.h>
#include <stdio.h>
#include <string.h>

#include "iset.h"
#include "iset_image.h"

#define MOST 33

static uint64_t nodes[ISET_NODES_LEN(MOST)], list[3 * MOST];
static uint8_t colours[ISET_COLOURS_LEN(MOST)], image[ISET_IMAGE_LEN(MOST) + 1];

#define MEMORY nodes, ISET_NODES_LEN(MOST), colours, ISET_COLOURS_LEN(MOST)

static size_t save(size_t n) {
    uint64_t answer[ISET_BUILD_ANSWER], written[ISET_WRITE_IMAGE_ANSWER];
    for (size_t i = 0; i < n; i++) {
        list[3 * i] = i / 2 * 5;
        list[3 * i + 1] = i / 2 * 5 + 12;
        list[3 * i + 2] = i + 1000;
    }
    memset(image, 0, sizeof image);
    if (iset_build(0, MEMORY, list, 3 * n, answer, ISET_BUILD_ANSWER) ||
        iset_write_image(answer[ISET_BUILT_COUNT], answer[ISET_BUILT_ROOT], MEMORY, image, sizeof image, written, ISET_WRITE_IMAGE_ANSWER))
        printf("not saved\n");
    return written[ISET_WRITTEN_LENGTH];
}

// How many answers for an address are not those of the map that was read, or of its refusal.
static size_t differ(size_t len, uint64_t address, uint64_t no, const uint64_t *map) {
    uint64_t out[MOST], answer[ISET_DRAIN_ANSWER] = {0};
    if (no == ISET_OK)
        no = iset_drain(map[ISET_LOADED_COUNT], map[ISET_LOADED_ROOT], MEMORY, ISET_INCLUDED, address, ISET_INCLUDED, address,
            map[ISET_LOADED_ROOT], 1, 0, 0, out, MOST, answer, ISET_DRAIN_ANSWER);
    uint64_t hits = answer[ISET_DRAINED_HITS];
    size_t wrong = iset_image_count(image, len, address) != hits;
    for (uint64_t k = 0; k < hits; k++) {
        wrong += iset_image_value(image, len, address, k) != nodes[out[k] * ISET_NODE_WORDS + ISET_VALUE];
        wrong += iset_image_refusal(image, len, address, k) != ISET_IMAGE_OK;
    }
    for (uint64_t k = hits; k < hits + 2; k++) {
        wrong += iset_image_value(image, len, address, k) != 0;
        wrong += iset_image_refusal(image, len, address, k) != (no ? no : ISET_IMAGE_NO_SUCH);
    }
    return wrong;
}

static size_t refused[2], accepted, wrong;

static void ask(size_t len) {
    static const uint64_t addresses[] = {0, 5, 11, 29, UINT64_MAX};
    uint64_t map[ISET_READ_IMAGE_ANSWER];
    uint64_t no = iset_read_image(0, MEMORY, image, len, map, ISET_READ_IMAGE_ANSWER);
    if (no == ISET_OK) accepted++;
    else refused[no == ISET_BROKEN]++;
    for (size_t i = 0; i < sizeof addresses / sizeof *addresses; i++) wrong += differ(len, addresses[i], no, map);
}

int main(void) {
    static const size_t sizes[] = {0, 1, 2, 5, 8, MOST};
    for (size_t i = 0; i < sizeof sizes / sizeof *sizes; i++) {
        size_t len = save(sizes[i]);
        refused[0] = refused[1] = accepted = wrong = 0;
        for (size_t k = 0; k < 8 * len; k++) {
            image[k / 8] ^= (uint8_t)(1 << k % 8);
            ask(len);
            image[k / 8] ^= (uint8_t)(1 << k % 8);
        }
        for (size_t k = 0; k < len + 2; k++) ask(k);
        printf("%zu entries: %zu %zu %zu, %zu differ\n", sizes[i], refused[0], refused[1], accepted, wrong);
    }
    return 0;
}
