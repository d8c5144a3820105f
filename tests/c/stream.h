/* The call on a serial line, by sets of its own. */
#ifndef STREAM_H
#define STREAM_H

#include <stdint.h>

/* With a random stream of some thousand octets for every second of `thousands`, and two of a megabyte; where that is below 100, the sets
   are smaller. */
void run_streams(unsigned long thousands, uint64_t seed);

#endif
