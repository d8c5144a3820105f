/* Random numbers from a seed, the same on every host, and damage done by them. */
#ifndef DRAW_H
#define DRAW_H

#include <stddef.h>
#include <stdint.h>

void draw_from(uint64_t seed);
unsigned below(unsigned bound);
int one_in(unsigned n);

/* One damage to the octets: a bit, an octet, an octet less or more, an end cut off, or two octets swapped. Gives their new number;
   there is room for one more. */
size_t damage(uint8_t *in, size_t len);

/* One damage to a KISS packet that its rules have a number for, or any other; room for one more here too. */
size_t damage_packet(uint8_t *in, size_t len);

/* The type octet of a KISS packet, mostly a good one. */
uint8_t draw_type(void);

/* Octets of which one in few or one in many, as it is drawn, is one of the four that escapes are made of. */
void fill_special(uint8_t *out, size_t len);

/* Data that is easy or hard on KISS: text, in which no octet is escaped; random octets; all C0; all DB. */
enum filling { TEXT, ANY_OCTETS, ALL_C0, ALL_DB, FILLINGS };
void fill(uint8_t *out, size_t len, enum filling filling);

/* One address group: mostly letters, now and then with spaces after them; the reserved bits are often both set, as most stations have
   them. */
size_t random_group(uint8_t *out);

/* A frame that is near to a good one: sometimes with nulls before it, octets left over, too many repeaters. And octets without a plan, the
   low bits mostly clear so that an address field gets long. DRAWN octets are room for either, and for damage behind it. */
enum { DRAWN = 1024 };
size_t draw_frame(uint8_t *out);
size_t draw_octets(uint8_t *out);

#endif
