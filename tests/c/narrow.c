// The calls of include/iset_narrow.h, on nodes of six words. Each is made beside the eight-word
// call of its name, on the unpacked store. After each pair the two numbers, answers and outputs
// must be equal, the six-word nodes must unpack to the eight-word ones, and the colours and the
// words around the arrays must be as they should. Stores are built, changed, looked up, saved,
// loaded and damaged by chance. Then come the limits: the emptied slot, the top 16 bits of a link
// word, 6n - 1 words, and the full map.
#include <inttypes.h>
#include <stdio.h>
#include <stdlib.h>
#include <string.h>

#include "chance.h"
#include "iset_narrow.h"
#include "iset_open.h"

#define MOST 120
#define GUARDS 8
#define GUARD UINT64_C(0x6775617264)
#define FULL ISET_MOST_ENTRIES
#define EACH 52 // how many six-word calls there are

static void fail(const char *what) {
    printf("narrow: %s\n", what);
    exit(1);
}

// Two stores between guard words, of the same entries: `six` and `eight` words a node.
static uint64_t six[GUARDS + MOST * 6 + 5 + GUARDS], eight[GUARDS + MOST * 8 + 5 + GUARDS];
static uint8_t six_colours[GUARDS + MOST / 8 + 1 + GUARDS], eight_colours[GUARDS + MOST / 8 + 1 + GUARDS];
static size_t six_len, eight_len, bytes;
#define SIX (six + GUARDS)
#define EIGHT (eight + GUARDS)
#define SIX_STORE SIX, six_len, six_colours + GUARDS, bytes
#define EIGHT_STORE EIGHT, eight_len, eight_colours + GUARDS, bytes

// What a call returned and wrote.
struct reply {
    uint64_t no, answer[ISET_REMOVE_ANSWER], out[MOST];
    uint8_t image[ISET_IMAGE_LEN(MOST)];
};
static struct reply of_six, of_eight, *here;

static uint64_t count, root;
static uint32_t version;
static unsigned long calls, refused[103], emptied, loaded, bits_refused, bits_accepted, damaged;

// Unpacking, by item 12: each whole six words become eight. A link is 16 bits, and 65535 is
// undefined. A parent link with top bits is above ISET_U, so that no two stores unpack to one.
static uint64_t wide(uint64_t link) { return link < 65535 ? link : link + (ISET_U - 65535); }

static void unpack_to(uint64_t *to, const uint64_t *from, size_t len) {
    for (; len >= 6; len -= 6, from += 6, to += 8) {
        memcpy(to, from, 5 * sizeof *to);
        to[ISET_LEFT] = wide(from[5] % 65536);
        to[ISET_RIGHT] = wide(from[5] / 65536 % 65536);
        to[ISET_PARENT] = wide(from[5] / UINT64_C(4294967296));
    }
    memcpy(to, from, len * sizeof *to);
}

static uint64_t narrow_link(uint64_t link) { return link == ISET_U ? 65535 : link; }

// Packing the nodes of a sound store.
static void pack_to(uint64_t *to, const uint64_t *from, size_t slots) {
    for (; slots > 0; slots--, from += 8, to += 6) {
        memcpy(to, from, 5 * sizeof *to);
        to[5] = narrow_link(from[ISET_LEFT]) | narrow_link(from[ISET_RIGHT]) << 16 | narrow_link(from[ISET_PARENT]) << 32;
    }
}

static void guard(void) {
    for (int i = 0; i < GUARDS; i++) {
        six[i] = SIX[six_len + i] = eight[i] = EIGHT[eight_len + i] = GUARD + i;
        six_colours[i] = six_colours[GUARDS + bytes + i] = eight_colours[i] = eight_colours[GUARDS + bytes + i] = (uint8_t)(GUARD + i);
    }
}

// What differs between the two stores or the two replies; NULL if nothing does.
static const char *difference(void) {
    static uint64_t unpacked[MOST * 8 + 5];
    unpack_to(unpacked, SIX, six_len);
    if (memcmp(unpacked, EIGHT, eight_len * sizeof *EIGHT)) return "other words";
    if (memcmp(six_colours, eight_colours, GUARDS + bytes + GUARDS)) return "other colours";
    if (memcmp(&of_six, &of_eight, sizeof of_six)) return "another answer";
    for (int i = 0; i < GUARDS; i++)
        if (six[i] != GUARD + i || SIX[six_len + i] != GUARD + i || eight[i] != GUARD + i || EIGHT[eight_len + i] != GUARD + i ||
            six_colours[i] != (uint8_t)(GUARD + i) || six_colours[GUARDS + bytes + i] != (uint8_t)(GUARD + i))
            return "a word outside the arrays changed";
    return NULL;
}

// The names of the calls that were made.
static const char *made[EACH];
static int names;

static void compare(const char *name) {
    int k = 0;
    const char *what = difference();
    calls++;
    if (what == NULL && of_six.no > ISET_BAD_BOUND) what = "a refusal that iset.h does not list";
    if (what != NULL) printf("narrow: %s, returned %" PRIu64 " and %" PRIu64 "\n", name, of_six.no, of_eight.no), fail(what);
    refused[of_six.no]++;
    while (k < names && strcmp(made[k], name) != 0) k++;
    if (k == EACH) fail("more calls than the header declares");
    if (k == names) made[names++] = name;
}

// How many places the answer lacks: mostly none.
static size_t lacking;

static size_t places(size_t of) { return of - lacking; }

static void begin(void) {
    memset(&of_six, 7, sizeof of_six);
    memset(&of_eight, 7, sizeof of_eight);
    lacking = any(25) == 0;
}

// Both calls of a name: the kind of what comes before the store, and what comes after it. An
// argument is worked out for each of the two.
#define MAP_BEFORE count, root
#define VERSIONED_BEFORE count, root, version
#define NEW_BEFORE version
#define BOTH(NAME, KIND, ...) \
    do { \
        begin(); \
        here = &of_eight; \
        here->no = iset_##NAME(KIND##_BEFORE, EIGHT_STORE, __VA_ARGS__); \
        here = &of_six; \
        here->no = iset_narrow_##NAME(KIND##_BEFORE, SIX_STORE, __VA_ARGS__); \
        compare(#NAME); \
    } while (0)
#define CHECK(NAME) \
    do { \
        begin(); \
        of_eight.no = iset_##NAME(count, root, EIGHT_STORE); \
        of_six.no = iset_narrow_##NAME(count, root, SIX_STORE); \
        compare(#NAME); \
    } while (0)
// The public call of a name or the opened one.
#define EITHER(NAME, KIND, ...) \
    do { \
        if (any(2)) BOTH(NAME, KIND, __VA_ARGS__); \
        else BOTH(open_##NAME, KIND, __VA_ARGS__); \
    } while (0)
#define CURSOR c[0], c[1], c[2]
#define ANSWER of_six.answer
#define TO here->answer

static uint64_t near_slot(void) { return any(8) == 0 ? any(3) == 0 ? ISET_U : count + any(2) : any(count + 1); }

// After a change that was not refused: the new map.
static void change(int count_at, int version_at) {
    if (of_six.no != ISET_OK) return;
    count = ANSWER[count_at], root = ANSWER[count_at + 1], version = (uint32_t)ANSWER[version_at];
}

static void insert(void) {
    uint64_t start = any(300), end = start + any(40), value = chance;
    EITHER(insert, VERSIONED, start, end, value, TO, places(5));
    change(0, 4);
}

// The slots that a removal or an unloading emptied: "the old last slot gets three undefined links".
static void empty_many(uint64_t slots) {
    static const uint64_t none[6] = {0, 0, 0, 0, 0, ISET_NARROW_NO_LINKS};
    if (of_six.no != ISET_OK) return;
    for (uint64_t s = count; s < count + slots; s++)
        if (memcmp(SIX + s * 6, none, sizeof none)) fail("an emptied slot");
    emptied += slots;
}

static void empty(void) { empty_many(1); }

static void remove_one(void) {
    uint64_t slot = near_slot();
    EITHER(remove, VERSIONED, slot, TO, places(11));
    change(1, 10);
    empty();
}

// A window, mostly a small one.
static void unload(void) {
    uint64_t lk = any(40) == 0 ? 3 : any(9) ? any(2) : 2, hk = any(9) ? any(2) : 2, lo = any(340), hi = any(6) == 0 ? any(340) : lo + any(12);
    uint64_t rule = any(20) ? 1 + any(2) : any(4);
    if (any(2)) EITHER(unload, VERSIONED, lk, lo, hk, hi, TO, places(4));
    else EITHER(unload_ruled, VERSIONED, rule, lk, lo, hk, hi, TO, places(4));
    change(0, 2);
    empty_many(ANSWER[3]);
}

// A plan into an output of any length; a plan by chance, seldom one that is refused.
static void renumber(void) {
    uint64_t plan[MOST + 1], room = any(5) ? MOST : any(MOST), many = count;
    EITHER(propose, MAP, here->out, room);
    if (count > MOST) return;
    for (uint64_t i = 0, j; i < count; i++) j = any(i + 1), plan[i] = plan[j], plan[j] = i;
    if (any(6) == 0) many = any(2) ? count - (count > 0) : count + 1, plan[count] = any(count + 2);
    if (count > 0 && any(6) == 0) plan[any(count)] = any(3) ? any(count + 1) : chance;
    EITHER(renumber, VERSIONED, plan, many, TO, places(3));
    change(0, 2);
}

static void build(void) {
    uint64_t list[3 * (MOST + 1)], at = 0, n = any(six_len / 6 + 2);
    for (uint64_t i = 0; i < n; i++) {
        at += any(12);
        list[3 * i] = at, list[3 * i + 1] = at + 1 + (uint64_t)(i * 7 % 20), list[3 * i + 2] = chance;
        if (i > 0 && list[3 * i] == list[3 * i - 3] && list[3 * i + 1] < list[3 * i - 2]) list[3 * i + 1] = list[3 * i - 2];
    }
    if (n > 0 && any(6) == 0) list[3 * any(n)] = any(400);
    if (n > 1 && any(6) == 0) list[3 * n - 3] = 0;
    uint64_t len = 3 * n + (any(30) == 0);
    BOTH(build, NEW, list, len, TO, places(3));
    change(0, 2);
}

static void overlaps(void) {
    uint64_t lk = any(40) == 0 ? 3 : any(3), hk = any(3), lo = any(340), hi = any(6) == 0 ? any(340) : lo + any(60);
    uint64_t rule = any(20) ? 1 + any(2) : any(4), limit = any(4) ? any(MOST / 2) : 0, room = any(5) ? MOST : any(MOST), c[3] = {root, 1, 0};
    if (any(10) == 0) c[0] = near_slot(), c[1] = any(35), c[2] = any(4) == 0 ? chance : any(64);
    EITHER(drain, MAP, lk, lo, hk, hi, CURSOR, limit, here->out, room, TO, places(5));
    EITHER(drain_ruled, MAP, rule, lk, lo, hk, hi, CURSOR, limit, here->out, room, TO, places(5));
    if (of_six.no == ISET_OK) memcpy(c, ANSWER + 2, sizeof c);
    EITHER(step, MAP, lk, lo, hk, hi, CURSOR, TO, places(5));
    EITHER(step_ruled, MAP, rule, lk, lo, hk, hi, CURSOR, TO, places(5));
    EITHER(plain, MAP, lk, lo, hk, hi, here->out, room, TO, places(2));
    EITHER(plain_ruled, MAP, rule, lk, lo, hk, hi, here->out, room, TO, places(2));
    EITHER(find_all, MAP, lk, lo, hk, hi, here->out, room, TO, places(2));
    EITHER(find_all_ruled, MAP, rule, lk, lo, hk, hi, here->out, room, TO, places(2));
}

static void exacts(void) {
    uint64_t start = any(300), end = start + any(30), limit = any(4) ? any(MOST / 2) : 0, room = any(5) ? MOST : any(MOST), c[3];
    if (count > 0 && count <= six_len / 6 && any(3)) {
        uint64_t slot = any(count);
        start = SIX[6 * slot], end = SIX[6 * slot + 1];
    }
    EITHER(fresh_exact, MAP, start, end, TO, places(3));
    memcpy(c, ANSWER, sizeof c);
    if (any(8) == 0) c[1] ^= any(4);
    EITHER(drain_exact, MAP, start, end, CURSOR, limit, here->out, room, TO, places(5));
    EITHER(step_exact, MAP, start, end, CURSOR, TO, places(5));
    EITHER(plain_exact, MAP, start, end, here->out, room, TO, places(2));
    EITHER(find_all_exact, MAP, start, end, here->out, room, TO, places(2));
}

// A ticket of this version or of the one before.
static void read_one(void) {
    uint64_t slot = near_slot();
    uint32_t taken = version - (uint32_t)(any(4) == 0);
    EITHER(read, VERSIONED, slot, taken, TO, places(3));
}

static void look_up(void) {
    CHECK(check);
    overlaps();
    exacts();
    read_one();
}

static void disjoint_calls(void) {
    uint64_t start = any(2000), end = start + any(12), value = chance, address = any(2000), slot = near_slot();
    CHECK(disjoint_check);
    if (any(2)) BOTH(disjoint_point, MAP, address, TO, places(2));
    else BOTH(open_disjoint_point, MAP, address, TO, places(2));
    if (any(3) == 0) {
        if (any(2)) BOTH(disjoint_remove, VERSIONED, slot, TO, places(11));
        else BOTH(open_disjoint_remove, VERSIONED, slot, TO, places(11));
        change(1, 10);
        empty();
    } else {
        if (any(2)) BOTH(disjoint_insert, VERSIONED, start, end, value, TO, places(5));
        else BOTH(open_disjoint_insert, VERSIONED, start, end, value, TO, places(5));
        change(0, 4);
    }
}

// Words of any contents, the rest of the arrays beside them. A link word has links that are slots,
// or any bits, its top ones too.
static void litter(void) {
    for (size_t i = 0; i < six_len; i++) SIX[i] = any(2) ? any(MOST) : chance;
    for (size_t s = 0; s < six_len / 6; s++)
        if (any(2)) SIX[6 * s + 5] = any(MOST) | any(MOST) << 16 | any(MOST) << 32 | (any(2) ? 0 : any(65536) << 48);
    for (size_t i = 0; i < bytes; i++) six_colours[GUARDS + i] = (uint8_t)any(256);
}

static void mirror(void) {
    unpack_to(EIGHT, SIX, six_len);
    memcpy(eight_colours + GUARDS, six_colours + GUARDS, bytes);
    guard();
}

// The image of each layout loads into the other, in arrays of any contents.
static void save_and_load(void) {
    struct reply kept;
    size_t len = ISET_IMAGE_LEN(count), room = any(6) ? sizeof kept.image : any(len + 2);
    EITHER(write_image, MAP, here->image, room, TO, places(1));
    if (of_six.no != ISET_OK) return;
    if (ANSWER[0] != len) fail("the length of an image");
    kept = of_six;
    if (any(6) == 0) kept.image[any(len)] ^= 1 << any(8);
    litter();
    mirror();
    if (any(20) == 0) len = any(len + 1);
    BOTH(read_image, NEW, kept.image, len, TO, places(3));
    if (of_six.no == ISET_OK) loaded++;
    else mirror(), count = 0, root = ISET_U;
    change(0, 2);
}

// Damage by little or by much: words, link words by single bits, colours, count and root.
static void damage(void) {
    uint64_t hurt = any(4) == 0 ? 40 : 1 + any(4), slots = six_len / 6;
    for (uint64_t i = 0; i < hurt; i++) {
        uint64_t *links = SIX + 6 * any(slots) + 5;
        if (any(2)) *links ^= UINT64_C(1) << any(64);
        else if (any(2)) *links = ISET_NARROW_NO_LINKS;
        else SIX[any(six_len)] = any(2) ? any(slots + 2) : chance;
        if (any(3) == 0) six_colours[GUARDS + any(bytes)] ^= 1 << i % 8;
    }
    if (any(6) == 0) count = any(4) ? any(slots + 3) : chance;
    if (any(6) == 0) root = any(4) ? any(slots + 3) : chance;
    mirror();
}

static void any_call(int apart) {
    if (apart && any(30)) disjoint_calls();
    else if (any(5) < 3) insert();
    else if (any(7) < 5) remove_one();
    else if (any(2)) unload();
    else renumber();
}

static void damaged_calls(int apart) {
    static uint64_t words[MOST * 6 + 5];
    static uint8_t colours[MOST / 8 + 1];
    uint64_t old_count = count, old_root = root;
    memcpy(words, SIX, six_len * sizeof *words);
    memcpy(colours, six_colours + GUARDS, bytes);
    damage();
    for (int k = 0; k < 3; k++) {
        any_call(apart);
        look_up();
        damaged++;
    }
    count = old_count, root = old_root;
    memcpy(SIX, words, six_len * sizeof *words);
    memcpy(six_colours + GUARDS, colours, bytes);
    mirror();
}

static void begin_store(size_t slots, size_t left) {
    six_len = 6 * slots + left;
    eight_len = 8 * slots + left;
    bytes = slots < 9 || any(6) ? slots / 8 + 1 : slots / 9;
    count = 0, root = ISET_U, version = any(3) ? 0 : (uint32_t)-20;
    litter();
    mirror();
}

static void chance_round(int apart) {
    begin_store(1 + any(MOST - 1), any(6));
    if (!apart && any(2)) build();
    for (int k = 0; k < 60; k++) {
        any_call(apart);
        if (k % 6 == 0) look_up();
        if (k % 20 == 0) save_and_load();
        if (k % 15 == 0) damaged_calls(apart);
    }
    if (any(2)) build();
}

// A comparison that finds nothing would pass everything: each single difference must be found.
static void must_differ(const char *what) {
    if (difference() == NULL) fail(what);
}

static void differences(void) {
    begin_store(20, 3);
    begin();
    if (difference() != NULL) fail("a difference where there is none");
    for (size_t i = 0; i < six_len; i++)
        for (int bit = 0; bit < 64; bit++) SIX[i] ^= UINT64_C(1) << bit, must_differ("a word of six"), SIX[i] ^= UINT64_C(1) << bit;
    for (size_t i = 0; i < eight_len; i++) EIGHT[i] ^= 1, must_differ("a word of eight"), EIGHT[i] ^= 1;
    for (size_t i = 0; i < bytes; i++) six_colours[GUARDS + i] ^= 4, must_differ("a colour"), six_colours[GUARDS + i] ^= 4;
    of_six.no ^= 1, must_differ("a number"), of_six.no ^= 1;
    of_six.answer[9] ^= 1, must_differ("an answer"), of_six.answer[9] ^= 1;
    of_six.out[MOST - 1] ^= 1, must_differ("an output"), of_six.out[MOST - 1] ^= 1;
    of_six.image[44] ^= 1, must_differ("an image"), of_six.image[44] ^= 1;
    SIX[six_len] ^= 1, must_differ("a guard"), SIX[six_len] ^= 1;
    if (difference() != NULL) fail("a difference that was taken back");
}

// One map of so many entries, in so many words.
static void line_up(uint64_t n, size_t slots, size_t left) {
    uint64_t list[3 * MOST];
    begin_store(slots, left);
    bytes = MOST / 8 + 1;
    litter();
    mirror();
    for (uint64_t i = 0; i < n; i++) list[3 * i] = 4 * i, list[3 * i + 1] = 4 * i + 6, list[3 * i + 2] = i;
    BOTH(build, NEW, list, 3 * n, TO, 3);
    change(0, 2);
}

// Every top bit of every slot: below the count the store is broken, from the count up it is not.
static void top_bits(void) {
    line_up(30, 40, 2);
    for (uint64_t s = 0; s < 40; s++)
        for (int bit = 48; bit < 64; bit++) {
            uint64_t old = SIX[6 * s + 5], *c = (uint64_t[3]){root, 1, 0};
            SIX[6 * s + 5] ^= UINT64_C(1) << bit;
            if (s < count) SIX[6 * s + 5] = old | UINT64_C(1) << bit;
            mirror();
            uint64_t set = SIX[6 * s + 5], right = s < count ? ISET_BROKEN : ISET_OK;
            CHECK(check);
            if (of_six.no != right) fail("a top bit and the check");
            BOTH(find_all, MAP, 2, 0, 2, 0, here->out, MOST, TO, 2);
            if (of_six.no != right) fail("a top bit and a lookup");
            BOTH(drain, MAP, 2, 0, 2, 0, CURSOR, 0, here->out, MOST, TO, 5);
            if (of_six.no != right || SIX[6 * s + 5] != set) fail("a top bit and a drain");
            if (s < count) {
                BOTH(remove, VERSIONED, 3, TO, 11);
                if (of_six.no != right || SIX[6 * s + 5] != set) fail("a top bit and a removal");
                BOTH(insert, VERSIONED, 1, 2, 3, TO, 5);
                if (of_six.no != right || SIX[6 * s + 5] != set) fail("a top bit and an insertion");
                bits_refused++;
            } else bits_accepted++;
            SIX[6 * s + 5] = old;
            mirror();
        }
    // all bits of the root's link word
    uint64_t old = SIX[6 * root + 5];
    SIX[6 * root + 5] = UINT64_MAX;
    mirror();
    CHECK(check);
    if (of_six.no != ISET_BROKEN) fail("a root of all bits");
    SIX[6 * root + 5] = old;
    mirror();
    CHECK(check);
    if (of_six.no != ISET_OK) fail("the root mended");
}

// Top bits above the count stay over insertions, removals and lookups, until the slot is written: a
// new node has none.
static void top_bits_above(void) {
    line_up(10, 20, 0);
    for (uint64_t s = 10; s < 20; s++) SIX[6 * s + 5] = UINT64_MAX - s;
    mirror();
    for (uint64_t s = 10; s < 20; s++) {
        BOTH(insert, VERSIONED, 3 * s, 3 * s + 20, s, TO, 5);
        change(0, 4);
        if (of_six.no != ISET_OK || SIX[6 * s + 5] >> 48 != 0) fail("a new node in a slot with top bits");
        for (uint64_t t = s + 1; t < 20; t++)
            if (SIX[6 * t + 5] != UINT64_MAX - t) fail("top bits above the count");
        BOTH(remove, VERSIONED, 0, TO, 11);
        change(1, 10);
        empty();
        for (uint64_t t = s + 1; t < 20; t++)
            if (SIX[6 * t + 5] != UINT64_MAX - t) fail("top bits above the count, after a removal");
        BOTH(insert, VERSIONED, s, s + 5, s, TO, 5);
        change(0, 4);
    }
    BOTH(insert, VERSIONED, 1, 2, 3, TO, 5);
    if (of_six.no != ISET_NO_ROOM) fail("an insertion into a full store");
}

// 6n - 1 words hold n - 1 entries.
static void short_words(void) {
    uint64_t n = 33;
    line_up(n, n, 0);
    if (of_six.no != ISET_OK || count != n) fail("6n words");
    six_len--, eight_len = 8 * (n - 1) + 5; // what is left over unpacks to itself
    mirror();
    CHECK(check);
    if (of_six.no != ISET_NO_ROOM) fail("6n - 1 words");
    line_up(n, n - 1, 5);
    if (of_six.no != ISET_NO_ROOM) fail("a build in 6n - 1 words");
    line_up(n - 1, n - 1, 5);
    if (of_six.no != ISET_OK || count != n - 1) fail("n - 1 entries in 6n - 1 words");
    BOTH(insert, VERSIONED, 1, 2, 3, TO, 5);
    if (of_six.no != ISET_NO_ROOM) fail("an insertion into 6n - 1 words");
}

// The full map, in words that are not compared after each call.
static uint64_t full_six[6 * (FULL + 1)], full_eight[8 * (FULL + 1)], full_unpacked[8 * (FULL + 1)], full_list[3 * (FULL + 1)];
static uint8_t full_colours[2][8192];

static void full_same(const char *what) {
    unpack_to(full_unpacked, full_six, 6 * FULL);
    if (memcmp(full_unpacked, full_eight, 8 * FULL * sizeof *full_eight) || memcmp(full_colours[0], full_colours[1], 8192)) fail(what);
}

static uint64_t links_to(uint64_t slot) {
    uint64_t found = 0;
    for (size_t s = 0; s < FULL; s++)
        for (int at = 0; at < 48; at += 16) found += (full_six[6 * s + 5] >> at & 65535) == slot;
    return found;
}

static uint64_t full_build(size_t words, uint64_t n, uint64_t *a) {
    return iset_narrow_build(0, full_six, words, full_colours[0], 8192, full_list, 3 * n, a, 3);
}

static void full_map(void) {
    uint64_t a[11], b[11], links;
    size_t words[2] = {6 * FULL, 6 * FULL + 5};
    for (uint64_t i = 0; i <= FULL; i++) full_list[3 * i] = 5 * i, full_list[3 * i + 1] = 5 * i + 9, full_list[3 * i + 2] = i * i;
    for (int k = 0; k < 2; k++) {
        memset(full_six, 255, sizeof full_six), memset(full_colours, 255, sizeof full_colours);
        if (full_build(words[k], FULL, a) != ISET_OK || a[0] != FULL) fail("65,535 entries");
        if (iset_narrow_check(a[0], a[1], full_six, words[k], full_colours[0], 8192) != ISET_OK) fail("the check of 65,535 entries");
        if (iset_narrow_insert(a[0], a[1], 0, full_six, words[k], full_colours[0], 8192, 1, 2, 3, b, 5) != ISET_NO_ROOM)
            fail("entry 65,536");
        if (full_six[6 * FULL] != UINT64_MAX || full_six[6 * FULL + 4] != UINT64_MAX) fail("the words past the last slot");
    }
    if (iset_build(0, full_eight, 8 * FULL, full_colours[1], 8192, full_list, 3 * FULL, b, 3) != ISET_OK || memcmp(a, b, 3 * sizeof *a))
        fail("the full map of eight words");
    full_same("the full map");
    if ((links = links_to(FULL - 1)) == 0) fail("no link to slot 65,534");
    // 65,536 entries: as a list, as a count, and in 65,535 slots
    if (full_build(6 * (FULL + 1), FULL + 1, b) != ISET_NO_ROOM || full_build(6 * FULL, FULL + 1, b) != ISET_NO_ROOM)
        fail("a build of 65,536 entries");
    if (iset_narrow_check(FULL + 1, a[1], full_six, 6 * (FULL + 1), full_colours[0], 8192) != ISET_NO_ROOM) fail("a count of 65,536");
    if (full_build(6 * FULL - 1, FULL, b) != ISET_NO_ROOM) fail("65,535 entries in 393,209 words");
    full_same("a refused build");
    printf("narrow: 65535 entries in %zu and in %zu words; links to slot 65534: %" PRIu64 "\n", words[0], words[1], links);
}

// The last slot's entry leaves and comes again, and so does the first one's, with it.
static void full_changes(void) {
    uint64_t a[11], b[11], map[2] = {FULL, 0};
    for (uint64_t s = 0; s < FULL; s++)
        if (full_six[6 * s + 5] >> 32 == 65535) map[1] = s;
    for (int k = 0; k < 4; k++) {
        uint64_t slot = k % 2 ? 0 : FULL - 1, end = 5 * slot + 9;
        if (iset_narrow_remove(map[0], map[1], 0, full_six, 6 * FULL, full_colours[0], 8192, slot, a, 11) != ISET_OK ||
            iset_remove(map[0], map[1], 0, full_eight, 8 * FULL, full_colours[1], 8192, slot, b, 11) != ISET_OK || memcmp(a, b, sizeof a))
            fail("a removal from the full map");
        full_same("a removal from the full map, its words");
        if (full_six[6 * (FULL - 1) + 5] != UINT64_C(281474976710655) || links_to(FULL - 1) != 0) fail("the emptied slot of the full map");
        map[0] = a[1], map[1] = a[2];
        if (iset_narrow_insert(map[0], map[1], 0, full_six, 6 * FULL, full_colours[0], 8192, 5 * slot, end, 1, a, 5) != ISET_OK ||
            iset_insert(map[0], map[1], 0, full_eight, 8 * FULL, full_colours[1], 8192, 5 * slot, end, 1, b, 5) != ISET_OK || memcmp(a, b, 5 * sizeof *a))
            fail("an insertion into slot 65,534");
        full_same("an insertion into slot 65,534, its words");
        if (a[2] != FULL - 1 || links_to(FULL - 1) == 0) fail("the link to slot 65,534");
        map[0] = a[0], map[1] = a[1];
    }
    pack_to(full_unpacked, full_eight, FULL);
    if (memcmp(full_unpacked, full_six, 6 * FULL * sizeof *full_six)) fail("the packed words of the full map");
}

// The full map, renumbered by a plan of one long cycle, and by the planner's.
static void full_plans(void) {
    static uint64_t plan[FULL];
    uint64_t a[3], b[3], root_of = 0;
    for (uint64_t s = 0; s < FULL; s++)
        if (full_six[6 * s + 5] >> 32 == 65535) root_of = s;
    for (uint64_t s = 0; s < FULL; s++) plan[s] = (s + 1) % FULL;
    for (int k = 0; k < 2; k++) {
        if (iset_narrow_renumber(FULL, root_of, 0, full_six, 6 * FULL, full_colours[0], 8192, plan, FULL, a, 3) != ISET_OK ||
            iset_renumber(FULL, root_of, 0, full_eight, 8 * FULL, full_colours[1], 8192, plan, FULL, b, 3) != ISET_OK || memcmp(a, b, sizeof a))
            fail("a renumbering of the full map");
        full_same("a renumbering of the full map, its words");
        if (iset_narrow_check(a[0], a[1], full_six, 6 * FULL, full_colours[0], 8192) != ISET_OK) fail("the check of the renumbered map");
        if (iset_narrow_propose(a[0], a[1], full_six, 6 * FULL, full_colours[0], 8192, plan, FULL) != ISET_OK) fail("a plan of the full map");
        root_of = a[1];
    }
    for (uint64_t s = 0; s < FULL; s++)
        if (plan[s] != s) fail("the tidied full map has something to move");
}

int main(void) {
    differences();
    for (int k = 0; k < 80; k++) chance_round(k % 4 == 0);
    top_bits();
    top_bits_above();
    short_words();
    full_map();
    full_changes();
    full_plans();
    if (names != EACH) printf("narrow: %d of %d calls were made\n", names, EACH), fail("a call was not made");
    printf("narrow: %d calls, %lu times as the eight-word ones; refused", names, calls);
    for (int no = 1; no < 103; no++)
        if (refused[no]) printf(" %d: %lu", no, refused[no]);
    printf("\nnarrow: %lu emptied slots, %lu images loaded, %lu damaged stores; %lu top bits refused, %lu accepted\n",
        emptied, loaded, damaged, bits_refused, bits_accepted);
    return 0;
}
