// The calls of include/iset_ruled.h in a map of one entry, [3,6): by each rule, by numbers that are
// no rule, and with each refusal beside the one of a rule. Each line is the name of a case, then
// for a step, a drain, a plain and a fast lookup and an unloading the number that the public call
// returned, that of the opened one, and the hits of both, or how many entries went. Whatever is not
// as it should be is printed at the line's end.
#include <inttypes.h>
#include <stdio.h>
#include <string.h>

#include "iset_ruled.h"

#define FILL UINT64_C(777777)
#define KINDS 5
#define VERSION UINT32_MAX
#define TOP UINT64_MAX

// What a call is given. The cursor is the fresh one, unless a case says otherwise.
static uint64_t nodes[ISET_NODES_LEN(1)], kept[ISET_NODES_LEN(1)], count, root, slot, levels;
static uint8_t colours[1];
static size_t places, less;
static uint64_t rule, lo_kind, lo, hi_kind, hi;
static uint64_t answer[5], out[1];

#define LENT count, root, nodes, ISET_NODES_LEN(1), colours, 1
#define RANGE rule, lo_kind, lo, hi_kind, hi

static void given(uint64_t a_rule, uint64_t a_lo_kind, uint64_t a_lo, uint64_t a_hi_kind, uint64_t a_hi) {
    rule = a_rule, lo_kind = a_lo_kind, lo = a_lo, hi_kind = a_hi_kind, hi = a_hi;
    count = 1, root = 0, slot = 0, levels = 1, places = 1, less = 0;
}

// A call of one kind, public or opened.
static uint64_t call(int kind, int opened) {
    for (size_t i = 0; i < 5; i++) answer[i] = FILL;
    out[0] = FILL;
    switch (kind) {
    case 0: return (opened ? iset_open_step_ruled : iset_step_ruled)(LENT, RANGE, slot, levels, 0, answer, ISET_STEP_ANSWER - less);
    case 1: return (opened ? iset_open_drain_ruled : iset_drain_ruled)(LENT, RANGE, slot, levels, 0, 1, out, places, answer, ISET_DRAIN_ANSWER - less);
    case 2: return (opened ? iset_open_plain_ruled : iset_plain_ruled)(LENT, RANGE, out, places, answer, ISET_PLAIN_ANSWER - less);
    case 3: return (opened ? iset_open_find_all_ruled : iset_find_all_ruled)(LENT, RANGE, out, places, answer, ISET_FIND_ALL_ANSWER - less);
    default:
        return (opened ? iset_open_unload_ruled : iset_unload_ruled)(
            count, root, VERSION, nodes, ISET_NODES_LEN(1), colours, 1, RANGE, answer, ISET_UNLOAD_ANSWER - less);
    }
}

static uint64_t hits(int kind) { return kind == 0 ? answer[0] != ISET_U : kind == 4 ? answer[3] : answer[0]; }

// After an unloading that returned `no`: the store as it was, or emptied. Then it is as it was.
static void unloaded(uint64_t no) {
    static const uint64_t none[8] = {0, 0, 0, 0, 0, ISET_U, ISET_U, ISET_U};
    int gone = no == ISET_OK && answer[3] == 1;
    if (no == ISET_OK && (answer[0] != 1 - answer[3] || answer[1] != (gone ? ISET_U : 0) || answer[2] != (uint32_t)(VERSION + answer[3])))
        printf(" ANOTHER MAP");
    if (memcmp(nodes, gone ? none : kept, sizeof nodes) || colours[0] != 0) printf(" ANOTHER STORE");
    memcpy(nodes, kept, sizeof nodes);
}

static void told(const char *name) {
    printf("%s:", name);
    memcpy(kept, nodes, sizeof kept);
    for (int kind = 0; kind < KINDS; kind++) {
        uint64_t numbers[2], found[2] = {0, 0};
        for (int opened = 0; opened < 2; opened++) {
            numbers[opened] = call(kind, opened);
            if (kind == 4) unloaded(numbers[opened]);
            if (numbers[opened] == ISET_OK) {
                found[opened] = hits(kind);
                if (kind > 0 && kind < 4 && out[0] != (found[opened] && places ? 0 : FILL)) printf(" ANOTHER OUTPUT");
            } else {
                for (size_t i = 0; i < 5; i++)
                    if (answer[i] != FILL) printf(" ANSWER CHANGED");
                if (out[0] != FILL) printf(" OUTPUT CHANGED");
            }
        }
        printf("%s %" PRIu64 " %" PRIu64, kind ? "," : "", numbers[0], numbers[1]);
        if (numbers[0] == ISET_OK) printf(" %" PRIu64, found[0]);
        if (numbers[0] == numbers[1] && found[0] != found[1]) printf(" THE OPENED CALL DIFFERS");
    }
    printf("\n");
}

// The range from lo Excluded on, by a rule.
static void after(const char *name, uint64_t a_rule, uint64_t a_lo) {
    given(a_rule, ISET_EXCLUDED, a_lo, ISET_UNBOUNDED, 0);
    told(name);
}

static void rules(void) {
    after("rule 1, after 5", ISET_RULE_ANY, 5);
    after("rule 2, after 5", ISET_RULE_WHOLE, 5);
    after("rule 2, after 4", ISET_RULE_WHOLE, 4);
    after("rule 1, after the greatest address", ISET_RULE_ANY, TOP);
    after("rule 2, after the greatest address", ISET_RULE_WHOLE, TOP);
    for (uint64_t k = 1; k <= 2; k++) {
        printf("rule %" PRIu64 ", ", k);
        given(k, ISET_EXCLUDED, 4, ISET_EXCLUDED, 5), told("between 4 and 5");
        printf("rule %" PRIu64 ", ", k);
        given(k, ISET_UNBOUNDED, 0, ISET_EXCLUDED, 0), told("below 0");
        printf("rule %" PRIu64 ", ", k);
        given(k, ISET_INCLUDED, 5, ISET_INCLUDED, 5), told("at 5");
        printf("rule %" PRIu64 ", ", k);
        given(k, ISET_INCLUDED, 6, ISET_INCLUDED, 5), told("from 6 to 5");
    }
    after("rule 0", 0, 5);
    after("rule 3", 3, 5);
    after("rule 2^32 + 1", (UINT64_C(1) << 32) + 1, 5);
    after("rule 2^32 + 2", (UINT64_C(1) << 32) + 2, 5);
    after("rule 2^64 - 1", TOP, 5);
}

// Rule 3 with another fault, and the same with rule 2.
static void orders(void) {
    for (uint64_t k = 3; k >= 2; k--) {
        printf("rule %" PRIu64 ", ", k);
        given(k, 3, 5, ISET_UNBOUNDED, 0), told("a lower kind of 3");
        printf("rule %" PRIu64 ", ", k);
        given(k, ISET_EXCLUDED, 4, TOP, 0), told("an upper kind of 2^64 - 1");
        printf("rule %" PRIu64 ", ", k);
        given(k, 3, 5, 3, 0), less = 1, told("a kind of 3 and a short answer");
        printf("rule %" PRIu64 ", ", k);
        given(k, ISET_EXCLUDED, 4, ISET_UNBOUNDED, 0), count = 2, told("a count of 2");
        printf("rule %" PRIu64 ", ", k);
        given(k, ISET_EXCLUDED, 4, ISET_UNBOUNDED, 0), levels = 9, told("a cursor of 9 levels");
        printf("rule %" PRIu64 ", ", k);
        given(k, ISET_EXCLUDED, 4, ISET_UNBOUNDED, 0), places = 0, told("an output of no place");
    }
    given(3, ISET_EXCLUDED, 4, ISET_UNBOUNDED, 0), nodes[ISET_HULL_END] = 7, told("rule 3, a broken store");
}

int main(void) {
    static const uint64_t entry[3] = {3, 6, 7};
    uint64_t no = iset_build(0, nodes, ISET_NODES_LEN(1), colours, 1, entry, 3, answer, ISET_BUILD_ANSWER);
    if (no) printf("build: %" PRIu64 "\n", no);
    rules();
    orders();
    return 0;
}
