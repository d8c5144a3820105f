#define _GNU_SOURCE
#include "lent.h"

#include <stdio.h>
#include <stdlib.h>
#include <string.h>
#include <sys/mman.h>

/* More than any page of a host, so that an emulator with larger pages than the program's protects it too. */
#define FENCE ((size_t)65536)
#define GUARD ((size_t)64)

struct arena arena_new(size_t size) {
    struct arena a;
    a.size = (size + FENCE - 1) / FENCE * FENCE;
    uint8_t *all = mmap(NULL, a.size + 3 * FENCE, PROT_NONE, MAP_PRIVATE | MAP_ANONYMOUS, -1, 0);
    if (all == MAP_FAILED) {
        perror("mmap");
        exit(2);
    }
    a.base = all + FENCE + (FENCE - (uintptr_t)all % FENCE) % FENCE;
    if (mprotect(a.base, a.size, PROT_READ | PROT_WRITE) != 0) {
        perror("mprotect");
        exit(2);
    }
    return a;
}

uint8_t fresh_paint(void) {
    static unsigned turn;
    turn++;
    return (uint8_t)(turn * 37);
}

/* A guard is written and read by words of eight octets, which differ from place to place and from paint to paint. */
static uint64_t guard_word(const struct lent *l, size_t i) { return (l->paint + i + 1) * 0x9E3779B97F4A7C15u; }

/* The guard before the buffer and the one after it; NULL at the arena's edge, where a forbidden page stands in its place. A buffer
   that does not touch the edge is GUARD octets or more away from it. */
static uint8_t *guard_before(const struct lent *l) { return l->at == l->arena->base ? NULL : l->at - GUARD; }

static uint8_t *guard_after(const struct lent *l) {
    uint8_t *end = l->at + l->len;
    return end == l->arena->base + l->arena->size ? NULL : end;
}

static void paint_guard(const struct lent *l, uint8_t *guard) {
    for (size_t i = 0; guard && i < GUARD; i += 8) {
        uint64_t word = guard_word(l, i);
        memcpy(guard + i, &word, 8);
    }
}

static int guard_holds(const struct lent *l, const uint8_t *guard) {
    for (size_t i = 0; guard && i < GUARD; i += 8) {
        uint64_t word;
        memcpy(&word, guard + i, 8);
        if (word != guard_word(l, i)) return 0;
    }
    return 1;
}

struct lent lend(const struct arena *arena, enum place place, size_t len) {
    static size_t turn;
    struct lent l;
    l.arena = arena;
    l.len = len;
    l.paint = fresh_paint();
    l.at = arena->base;
    if (place == HIGH) l.at += arena->size - len;
    if (place == MIDDLE) l.at += GUARD + turn++ % 16;
    paint_guard(&l, guard_before(&l));
    paint_guard(&l, guard_after(&l));
    return l;
}

struct lent lend_octets(const struct arena *arena, enum place place, const uint8_t *octets, size_t len) {
    struct lent l = lend(arena, place, len);
    if (len) memcpy(l.at, octets, len);
    return l;
}

int guards_hold(const struct lent *l) { return guard_holds(l, guard_before(l)) && guard_holds(l, guard_after(l)); }

int filled_with(const uint8_t *octets, size_t len, uint8_t value) {
    return len == 0 || (octets[0] == value && memcmp(octets, octets + 1, len - 1) == 0);
}
