/* Checks as they are printed, and octets as they are typed. */
#ifndef SAY_H
#define SAY_H

#include <stddef.h>
#include <stdint.h>

/* One check by itself: a line `ok: ..` or `FAILED: ..`. */
void say(int holds, const char *what);

/* How many failed so far. */
unsigned failures(void);

/* Octets from their hex digits; gives how many. */
size_t from_hex(const char *text, uint8_t *octets);

#endif
