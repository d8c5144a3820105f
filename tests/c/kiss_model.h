/* Document 02's rules of KISS packets, written once more in C from their words: what the two calls must say of any octets where
   room is enough. */
#ifndef KISS_MODEL_H
#define KISS_MODEL_H

#include "model.h"

#define LONGEST_PACKET (2 * LONGEST + 3) /* of as many data octets as any test input has */

struct kiss_answer {
    unsigned number;
    unsigned port;         /* 0 where the number is not 0, and so is the length */
    size_t length;         /* of the data where a packet is read, of the packet where one is written */
    const uint8_t *octets; /* those octets, until the next call of the same function */
};

/* Any octets up to LONGEST_PACKET. */
struct kiss_answer model_kiss_read(const uint8_t *in, size_t len);

/* Any octets up to LONGEST. */
struct kiss_answer model_kiss_write(unsigned port, const uint8_t *in, size_t len);

#endif
