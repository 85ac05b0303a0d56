/* Numbers by chance, the same in every run. */
#include <stdint.h>

static uint64_t chance = 88172645463325252u;

static uint64_t any(uint64_t below) {
    chance ^= chance << 13;
    chance ^= chance >> 7;
    chance ^= chance << 17;
    return chance % below;
}
