/* The two calls on KISS packets, by sets of their own. */
#ifndef KISS_H
#define KISS_H

#include <stdint.h>

/* With a hundred random inputs for each of `thousands`; where that is below 100, the other sets are smaller too. */
void run_kiss(unsigned long thousands, uint64_t seed);

#endif
