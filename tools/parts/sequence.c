/* sequence [CALLS]: calls of all exports, and a digest of what they return and leave. Written by tools/parts/sequence.py. */
#include "net_base.h"
#include <inttypes.h>
#include <stdio.h>
#include <stdlib.h>
#include <string.h>

static uint64_t state = UINT64_C(0x9e3779b97f4a7c15), digest = UINT64_C(0xcbf29ce484222325);

static uint64_t draw(void) {
    state ^= state << 13;
    state ^= state >> 7;
    state ^= state << 17;
    return state * UINT64_C(0x2545f4914f6cdd1d);
}

static uint64_t below(uint64_t bound) {
    return (draw() >> 32) % bound;
}

__attribute__((noinline)) static void eat(uint64_t word) {
    digest = (digest ^ word) * UINT64_C(0x100000001b3);
    digest ^= digest >> 29;
}

/* Small mostly, so that calls do something; now and then near 2^32 or 2^64, or any number. */
static uint64_t number(void) {
    switch (below(16)) {
    case 0: return UINT64_MAX - below(4);
    case 1: return (UINT64_C(1) << below(64)) - below(3);
    case 2: return draw();
    case 3: return (UINT64_C(1) << 32) + below(48) - 2;
    default: return below(48);
    }
}

static uint64_t near(uint64_t position) {
    switch (below(8)) {
    case 0: return number();
    case 1: return position;
    default: return position + below(24) - 4;
    }
}

/* A length mostly, now and then a smaller one. */
static uint64_t length(uint64_t usual, uint64_t room) {
    return below(8) == 0 ? below(room + 1) : usual;
}

/* A capacity mostly, now and then any number. */
static uint64_t capacity(uint64_t usual) {
    return below(8) == 0 ? number() : usual;
}
// CALLS
static void digest_calls(uint64_t calls) {
    for (uint64_t done = 0; done < calls; done++) {
        uint64_t which = below(EXPORTS);
        if (exports[which].makes && below(4) != 0) which = below(EXPORTS);
        if (below(64) == 0) exports[which].spoil();
        exports[which].prepare();
        exports[which].call();
        exports[which].eat();
        if (done % 256 == 255) eat_all();
    }
    eat_all();
    printf("sequence: %" PRIu64 " calls, digest %08" PRIx32 "%08" PRIx32 "\n", calls, (uint32_t)(digest >> 32),
           (uint32_t)digest);
}

int main(int count, char **words) {
    uint64_t calls = count > 1 ? strtoull(words[1], NULL, 10) : 1000000;
    digest_calls(calls);
    return 0;
}
