/* The sets of inputs that are the recorded link's own. */
#ifndef LINK_H
#define LINK_H

#include <stdint.h>

/* So many thousand, from a seed: as for the other random sets. */
void run_links(unsigned long thousands, uint64_t seed);

#endif
