/* Used by tools/measure/collisions: finds numbers of 32 bits that collide in a hash map of the kit, by trying them all.
 *
 * STATE SPREAD FACTOR LOW HIGH COUNT [NUMBER LENGTH]..  the write that has the number multiplies FACTOR by STATE joined
 * with SPREAD times the number; how many of the lowest and of the highest bits of the hash are to be 0; how many numbers
 * are wanted, from 0x0b000000 on; and what is written after it, as the number that the hasher makes of those bytes. The
 * numbers are written to standard output, in 4 bytes each.
 */
#include <stdint.h>
#include <stdio.h>
#include <stdlib.h>

#define MULTIPLIER 0x9e3779b97f4a7c15u

static uint64_t multiplied(uint64_t a, uint64_t b) {
    unsigned __int128 product = (unsigned __int128)a * b;
    return (uint64_t)product ^ (uint64_t)(product >> 64);
}

int main(int words, char **word) {
    if (words < 7) return 2;
    uint64_t state = strtoull(word[1], NULL, 10), spread = strtoull(word[2], NULL, 10);
    uint64_t first = strtoull(word[3], NULL, 10), count = strtoull(word[6], NULL, 10);
    uint32_t low = strtoul(word[4], NULL, 10), high = strtoul(word[5], NULL, 10);
    uint32_t mask = (uint32_t)((1ull << low) - 1) | (uint32_t)~(0xffffffffull >> high);
    uint64_t number[16], factor[16];
    int more = 0;
    for (int at = 7; at + 1 < words && more < 16; at += 2, more++) {
        number[more] = strtoull(word[at], NULL, 10);
        factor[more] = MULTIPLIER ^ 2 * strtoull(word[at + 1], NULL, 10);
    }
    for (uint64_t it = 0x0b000000; it < 0xe0000000 && count; it++) {
        uint64_t hash = multiplied(state ^ it * spread, first);
        for (int at = 0; at < more; at++) hash = multiplied(hash ^ number[at], factor[at]);
        uint32_t kept = (uint32_t)(hash ^ hash >> 32), found = (uint32_t)it;
        if (kept & mask) continue;
        fwrite(&found, sizeof found, 1, stdout);
        count--;
    }
    return count != 0;
}
