// The calls of include/iset_open.h. First on a store that was checked once, beside those of
// include/iset.h on a copy of it. Numbers, answers and arrays must be equal after each call, also
// after a refused one. The slots that iset_slot_after returns must hold the entries that were kept.
// Then on damaged stores and any map: every call must end, and the words around the arrays must be
// unchanged. There the answers may be anything.
#include <inttypes.h>
#include <stdio.h>
#include <stdlib.h>
#include <string.h>

#include "chance.h"
#include "iset_open.h"

#define MOST 300
#define GUARDS 16
#define PLACES 40
#define GUARD UINT64_C(0x6775617264)

// A store between guard words. The public calls work on the first one, the opened calls on the
// second one.
struct store {
    uint64_t below[GUARDS], nodes[MOST * 8 + GUARDS];
    uint8_t before[GUARDS], colours[MOST / 8 + 1 + GUARDS];
};

static struct store first, second, kept;
static size_t words, bytes;
static unsigned long calls, refusals, carried, drains, gone, moved, damaged;

static void fail(const char *what) {
    printf("opened: %s\n", what);
    exit(1);
}

static void guard(struct store *s) {
    for (int i = 0; i < GUARDS; i++) {
        s->below[i] = s->nodes[words + i] = GUARD + i;
        s->before[i] = s->colours[bytes + i] = (uint8_t)(GUARD + i);
    }
}

static void guarded(const struct store *s) {
    for (int i = 0; i < GUARDS; i++)
        if (s->below[i] != GUARD + i || s->nodes[words + i] != GUARD + i || s->before[i] != (uint8_t)(GUARD + i) ||
            s->colours[bytes + i] != (uint8_t)(GUARD + i))
            fail("a word outside the arrays changed");
}

// An answer or an output of either kind of call.
struct reply {
    uint64_t no, answer[ISET_REMOVE_ANSWER], out[MOST];
};

static struct reply public_reply, opened_reply;

static void begin(void) {
    memset(&public_reply, 7, sizeof public_reply);
    memset(&opened_reply, 7, sizeof opened_reply);
}

static void equal(const char *what) {
    calls++;
    refusals += opened_reply.no != 0;
    if (memcmp(&public_reply, &opened_reply, sizeof public_reply)) fail(what);
    if (memcmp(first.nodes, second.nodes, 8 * words) || memcmp(first.colours, second.colours, bytes)) fail(what);
}

#define FIRST first.nodes, words, first.colours, bytes
#define SECOND second.nodes, words, second.colours, bytes
#define BOTH(name, public_call, opened_call) \
    do { \
        begin(); \
        opened_reply.no = opened_call; \
        guarded(&second); \
        if (compared) public_reply.no = public_call, equal(name); \
    } while (0)
#define OPENED opened_reply.answer
#define PUBLIC public_reply.answer

static uint64_t count, root;
static uint32_t version;
static int compared;

// No place of the output was written from this one on.
static void unwritten(uint64_t from) {
    for (uint64_t i = from; i < MOST; i++)
        if (opened_reply.out[i] != UINT64_C(0x0707070707070707)) fail("a place past the hits or past the output changed");
}

// After a fast lookup into so many places, which was not refused: a drain of the same from its
// fresh cursor to the end writes the same slots, all of them, and enters at least as many nodes.
static void as_drained(uint64_t places, int no, const struct reply *found) {
    uint64_t hits = found->answer[0];
    if (no != 0 || OPENED[0] != hits || OPENED[2] != ISET_U) fail("another number of hits than a drain's");
    if (memcmp(found->out, opened_reply.out, 8 * (hits < places ? hits : places))) fail("other hits than a drain's");
    if (found->answer[1] > OPENED[1]) fail("more nodes than a drain's");
    drains++;
}

// a slot, mostly one that is there
static uint64_t near_slot(void) { return any(8) == 0 ? any(3) == 0 ? ISET_U : count + any(2) : any(count + 1); }

// A change raises the version by one. The version before is that of a ticket that is stale now.
static void changed(uint64_t now) {
    if (now != (uint32_t)(version + 1)) fail("the version after a change");
    version = (uint32_t)now;
}

// A ticket of this version, of the one before or of any other, mostly for a slot that is there.
static void read_one(void) {
    uint64_t slot = near_slot();
    uint32_t taken = any(3) ? version : any(2) ? version - 1 : (uint32_t)chance;
    BOTH("read", iset_read(count, root, version, FIRST, slot, taken, PUBLIC, 3), iset_open_read(count, root, version, SECOND, slot, taken, OPENED, 3));
    if (!compared || opened_reply.no != 0) return;
    if (taken != version || slot >= count || memcmp(second.nodes + 8 * slot, OPENED, 24) != 0) fail("the entry read");
}

static void insert(void) {
    uint64_t start = any(600), end = start + any(60), value = any(1000);
    BOTH("insert", iset_insert(count, root, version, FIRST, start, end, value, PUBLIC, 5),
        iset_open_insert(count, root, version, SECOND, start, end, value, OPENED, 5));
    if (opened_reply.no == 0) count = OPENED[0], root = OPENED[1], changed(OPENED[4]);
}

// the entries that were in the store before are where iset_slot_after says
static void carry(uint64_t removed, uint64_t old_count) {
    for (uint64_t slot = 0; slot < old_count; slot++) {
        uint64_t after = iset_slot_after(OPENED, removed, slot);
        if (slot == removed ? after != ISET_U : after >= count || memcmp(kept.nodes + 8 * slot, second.nodes + 8 * after, 24) != 0)
            fail("slot_after");
        carried++;
    }
}

static void remove_one(void) {
    uint64_t slot = near_slot(), old_count = count;
    kept = second;
    BOTH("remove", iset_remove(count, root, version, FIRST, slot, PUBLIC, 11), iset_open_remove(count, root, version, SECOND, slot, OPENED, 11));
    if (opened_reply.no != 0) return;
    count = OPENED[1], root = OPENED[2], changed(OPENED[10]);
    if (compared) carry(slot, old_count);
}

static void overlaps(void) {
    uint64_t lk = any(40) == 0 ? 3 : any(3), hk = any(3), lo = any(600), hi = any(6) == 0 ? any(600) : lo + any(60);
    uint64_t places = any(PLACES + 1), limit = any(5) == 0 ? 0 : any(PLACES + 1), whole = any(6) ? MOST : places, c[3] = {root, 1, 0};
    if (any(10) == 0) c[0] = near_slot(), c[1] = any(35), c[2] = any(4) == 0 ? chance : any(64);
    for (int k = 0; k < 6 && c[0] != ISET_U; k++) {
        BOTH("drain", iset_drain(count, root, FIRST, lk, lo, hk, hi, c[0], c[1], c[2], limit, public_reply.out, places, PUBLIC, 5),
            iset_open_drain(count, root, SECOND, lk, lo, hk, hi, c[0], c[1], c[2], limit, opened_reply.out, places, OPENED, 5));
        if (opened_reply.no != 0) break;
        memcpy(c, OPENED + 2, sizeof c);
        BOTH("step", iset_step(count, root, FIRST, lk, lo, hk, hi, c[0], c[1], c[2], PUBLIC, 5),
            iset_open_step(count, root, SECOND, lk, lo, hk, hi, c[0], c[1], c[2], OPENED, 5));
    }
    BOTH("plain", iset_plain(count, root, FIRST, lk, lo, hk, hi, public_reply.out, whole, PUBLIC, 2),
        iset_open_plain(count, root, SECOND, lk, lo, hk, hi, opened_reply.out, whole, OPENED, 2));
    if (any(3) == 0) lk = hk = ISET_INCLUDED, hi = lo;
    BOTH("find_all", iset_find_all(count, root, FIRST, lk, lo, hk, hi, public_reply.out, places, PUBLIC, 2),
        iset_open_find_all(count, root, SECOND, lk, lo, hk, hi, opened_reply.out, places, OPENED, 2));
    unwritten(opened_reply.no != 0 ? 0 : OPENED[0] < places ? OPENED[0] : places);
    if (!compared || opened_reply.no != 0) return;
    struct reply found = opened_reply;
    as_drained(places, iset_open_drain(count, root, SECOND, lk, lo, hk, hi, root, 1, 0, 0, opened_reply.out, MOST, OPENED, 5), &found);
}

static void finds_exactly(uint64_t start, uint64_t end, uint64_t places) {
    uint64_t c[3];
    BOTH("find_all_exact", iset_find_all_exact(count, root, FIRST, start, end, public_reply.out, places, PUBLIC, 2),
        iset_open_find_all_exact(count, root, SECOND, start, end, opened_reply.out, places, OPENED, 2));
    unwritten(opened_reply.no != 0 ? 0 : OPENED[0] < places ? OPENED[0] : places);
    if (!compared || opened_reply.no != 0) return;
    struct reply found = opened_reply;
    if (iset_open_fresh_exact(count, root, SECOND, start, end, c, 3) != 0) fail("fresh_exact");
    as_drained(places, iset_open_drain_exact(count, root, SECOND, start, end, c[0], c[1], c[2], 0, opened_reply.out, MOST, OPENED, 5), &found);
}

// What goes is what a lookup of the range finds before, and finds no more after.
static void unload(void) {
    uint64_t lk = any(30) == 0 ? 3 : any(9) ? any(2) : 2, hk = any(9) ? any(2) : 2, lo = any(600), hi = any(6) == 0 ? any(600) : lo + any(30), found = 0;
    if (compared && iset_open_find_all(count, root, SECOND, lk, lo, hk, hi, opened_reply.out, 0, OPENED, 2) == 0) found = OPENED[0];
    BOTH("unload", iset_unload(count, root, version, FIRST, lk, lo, hk, hi, PUBLIC, 4),
        iset_open_unload(count, root, version, SECOND, lk, lo, hk, hi, OPENED, 4));
    if (opened_reply.no != 0) return;
    if (OPENED[2] != (uint32_t)(version + OPENED[3])) fail("the version after an unloading");
    if (compared && (OPENED[3] != found || OPENED[0] + found != count)) fail("another number went");
    count = OPENED[0], root = OPENED[1], version = (uint32_t)OPENED[2];
    if (!compared) return;
    gone += found;
    if (iset_open_find_all(count, root, SECOND, lk, lo, hk, hi, opened_reply.out, 0, OPENED, 2) != 0 || OPENED[0] != 0) fail("a hit was left");
}

// The planner's proposal and a plan by chance, mostly one that is accepted. Afterwards the next
// plan is that nothing moves, if the first was the planner's.
static void renumber(void) {
    static uint64_t plan[MOST + 1];
    uint64_t room = any(6) ? MOST : any(MOST + 1), planned = 0, many = count;
    BOTH("propose", iset_propose(count, root, FIRST, public_reply.out, room), iset_open_propose(count, root, SECOND, opened_reply.out, room));
    unwritten(opened_reply.no != 0 ? 0 : count);
    if (count > MOST) return;
    if (opened_reply.no == 0 && any(2)) planned = 1, memcpy(plan, opened_reply.out, 8 * count);
    else
        for (uint64_t i = 0, j; i < count; i++) j = any(i + 1), plan[i] = plan[j], plan[j] = i;
    if (any(6) == 0) planned = 0, many = any(2) ? count - (count > 0) : count + 1, plan[count] = any(count + 2);
    if (count > 0 && any(6) == 0) planned = 0, plan[any(count)] = any(3) ? any(count + 1) : chance;
    BOTH("renumber", iset_renumber(count, root, version, FIRST, plan, many, PUBLIC, 3), iset_open_renumber(count, root, version, SECOND, plan, many, OPENED, 3));
    if (opened_reply.no != 0) return;
    count = OPENED[0], root = OPENED[1], changed(OPENED[2]);
    if (!compared) return;
    moved++;
    if (!planned) return;
    BOTH("propose again", iset_propose(count, root, FIRST, public_reply.out, MOST), iset_open_propose(count, root, SECOND, opened_reply.out, MOST));
    for (uint64_t i = 0; i < count; i++)
        if (opened_reply.out[i] != i) fail("a tidied map has something to move");
}

static void exacts(void) {
    uint64_t start = any(600), end = start + any(30), places = any(PLACES + 1), limit = any(PLACES + 1), whole = any(6) ? MOST : places, c[3];
    if (count > 0 && count <= words / 8 && any(2)) {
        uint64_t slot = any(count);
        start = second.nodes[8 * slot], end = second.nodes[8 * slot + 1];
    }
    BOTH("fresh_exact", iset_fresh_exact(count, root, FIRST, start, end, PUBLIC, 3), iset_open_fresh_exact(count, root, SECOND, start, end, OPENED, 3));
    if (opened_reply.no != 0) return;
    memcpy(c, OPENED, sizeof c);
    if (any(8) == 0) c[1] ^= any(4);
    BOTH("drain_exact", iset_drain_exact(count, root, FIRST, start, end, c[0], c[1], c[2], limit, public_reply.out, places, PUBLIC, 5),
        iset_open_drain_exact(count, root, SECOND, start, end, c[0], c[1], c[2], limit, opened_reply.out, places, OPENED, 5));
    BOTH("plain_exact", iset_plain_exact(count, root, FIRST, start, end, public_reply.out, whole, PUBLIC, 2),
        iset_open_plain_exact(count, root, SECOND, start, end, opened_reply.out, whole, OPENED, 2));
    finds_exactly(start, end, any(3));
    BOTH("step_exact", iset_step_exact(count, root, FIRST, start, end, c[0], c[1], c[2], PUBLIC, 5),
        iset_open_step_exact(count, root, SECOND, start, end, c[0], c[1], c[2], OPENED, 5));
}

static void look_up(void) {
    overlaps();
    exacts();
    read_one();
}

// An answer that is a place too short, in calls that would be refused for another reason too, and
// in calls that would not.
static void short_answers(void) {
    uint64_t slot = near_slot();
    BOTH("short insert", iset_insert(count, root, version, FIRST, 3, slot, 1, PUBLIC, 4),
        iset_open_insert(count, root, version, SECOND, 3, slot, 1, OPENED, 4));
    BOTH("short remove", iset_remove(count, root, version, FIRST, slot, PUBLIC, 10), iset_open_remove(count, root, version, SECOND, slot, OPENED, 10));
    BOTH("short unload", iset_unload(count, root, version, FIRST, slot, 0, 2, 0, PUBLIC, 3),
        iset_open_unload(count, root, version, SECOND, slot, 0, 2, 0, OPENED, 3));
    BOTH("short renumber", iset_renumber(count, root, version, FIRST, &slot, 1, PUBLIC, 2),
        iset_open_renumber(count, root, version, SECOND, &slot, 1, OPENED, 2));
    BOTH("short read", iset_read(count, root, version, FIRST, slot, version, PUBLIC, 2), iset_open_read(count, root, version, SECOND, slot, version, OPENED, 2));
    BOTH("short fresh", iset_fresh_exact(count, root, FIRST, 3, slot, PUBLIC, 2), iset_open_fresh_exact(count, root, SECOND, 3, slot, OPENED, 2));
    BOTH("short step", iset_step(count, root, FIRST, slot, 0, 2, 0, root, 1, 0, PUBLIC, 4),
        iset_open_step(count, root, SECOND, slot, 0, 2, 0, root, 1, 0, OPENED, 4));
    BOTH("short drain", iset_drain(count, root, FIRST, slot, 0, 2, 0, root, 1, 0, 1, public_reply.out, 1, PUBLIC, 4),
        iset_open_drain(count, root, SECOND, slot, 0, 2, 0, root, 1, 0, 1, opened_reply.out, 1, OPENED, 4));
    BOTH("short plain", iset_plain(count, root, FIRST, slot, 0, 2, 0, public_reply.out, 1, PUBLIC, 1),
        iset_open_plain(count, root, SECOND, slot, 0, 2, 0, opened_reply.out, 1, OPENED, 1));
    BOTH("short find_all", iset_find_all(count, root, FIRST, slot, 9, 0, 9, public_reply.out, 1, PUBLIC, 1),
        iset_open_find_all(count, root, SECOND, slot, 9, 0, 9, opened_reply.out, 1, OPENED, 1));
    unwritten(0);
}

// arrays of any length and contents; the map of no entries
static void start(void) {
    uint64_t slots = 1 + any(MOST - 1);
    words = 8 * slots + any(8);
    bytes = slots / 8 + 1;
    count = 0, root = ISET_U, version = any(3) ? 0 : (uint32_t)-20;
    for (size_t i = 0; i < words; i++) second.nodes[i] = any(2) ? any(slots + 2) : chance;
    for (size_t i = 0; i < bytes; i++) second.colours[i] = (uint8_t)any(256);
    guard(&second);
    first = second;
}

static void sound_round(void) {
    compared = 1;
    start();
    for (int k = 0; k < 200; k++) {
        if (any(5) < 3) insert();
        else remove_one();
        if (k % 4 == 0) look_up();
        if (k % 25 == 24) unload();
        if (k % 25 == 12) renumber();
        if (k % 40 == 0) short_answers();
    }
    if (iset_check(count, root, SECOND) != ISET_OK) fail("the store does not pass the check at the end");
    guarded(&first);
}

// damage by little or by much, of words, colours, count and root
static void damage(void) {
    uint64_t hurt = any(3) == 0 ? words : 1 + any(6), slots = words / 8;
    for (uint64_t i = 0; i < hurt; i++) {
        uint64_t *word = second.nodes + any(words);
        *word = any(3) == 0 ? ISET_U : any(2) ? any(slots + 2) : chance;
        if (any(2)) second.colours[any(bytes)] ^= 1 << i % 8;
    }
    if (any(4) == 0) count = any(4) ? any(slots + 3) : chance;
    if (any(4) == 0) root = any(4) ? any(slots + 3) : chance;
}

static void damaged_rounds(void) {
    uint64_t sound_count = count, sound_root = root;
    compared = 0;
    for (int k = 0; k < 60; k++) {
        second = first;
        count = sound_count, root = sound_root;
        damage();
        for (int j = 0; j < 6; j++) {
            if (any(2)) insert();
            else if (any(3)) remove_one();
            else if (any(2)) unload();
            else renumber();
            look_up();
            damaged++;
        }
    }
}

int main(void) {
    for (int k = 0; k < 40; k++) {
        sound_round();
        damaged_rounds();
    }
    printf("opened: %lu calls as the public ones, %lu of them refused; %lu slots carried over a removal; "
        "%lu fast lookups as drains; %lu entries unloaded; %lu renumberings; %lu changes of damaged stores\n",
        calls, refusals, carried, drains, gone, moved, damaged);
    return 0;
}
