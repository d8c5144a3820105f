/* The sets of inputs that are the captures' own. */
#ifndef CAPTURES_H
#define CAPTURES_H

#include <stdint.h>

/* So many thousand, from a seed: as for the other random sets. */
void run_captures(unsigned long thousands, uint64_t seed);

#endif
