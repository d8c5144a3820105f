/* Buffers to lend: guard octets before and after, and where the buffer starts or ends at a page's edge, a page beyond it that
   stops the program when it is read or written. */
#ifndef LENT_H
#define LENT_H

#include <stddef.h>
#include <stdint.h>

enum place { LOW, HIGH, MIDDLE }; /* at the lower edge, at the upper edge, between guard octets at any alignment */
enum { PLACES = 3 };

struct lent {
    uint8_t *at;
    size_t len;
    uint8_t paint;
    const struct arena *arena;
};

struct arena {
    uint8_t *base;
    size_t size;
};

/* Exits with a message where there is no memory. */
struct arena arena_new(size_t size);

/* A buffer of the arena with fresh guards. Its own octets hold whatever they held. */
struct lent lend(const struct arena *arena, enum place place, size_t len);

/* One that holds these octets. */
struct lent lend_octets(const struct arena *arena, enum place place, const uint8_t *octets, size_t len);

/* Whether no guard octet has changed. */
int guards_hold(const struct lent *lent);

/* A paint that differs from call to call, so that no fault can hit on it each time. */
uint8_t fresh_paint(void);

/* Whether every octet is `value`. */
int filled_with(const uint8_t *octets, size_t len, uint8_t value);

#endif
