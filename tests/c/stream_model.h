/* Document 02's rules of a serial line (M-104), written once more in C from their words: what reading any octets from a fresh state
   must give. It goes by packets and not by octets: each is what stands from one C0 to the next, and the model of whole packets says
   what it is. */
#ifndef STREAM_MODEL_H
#define STREAM_MODEL_H

#include "ax25.h"
#include "kiss_model.h"

/* A packet that is given out or dropped. */
struct stream_event {
    size_t place;    /* of the octet that completes it or that shows the defect */
    unsigned number; /* 0 where it is given out; else what reading it whole with room for 1,024 octets says of it: 24, 52, 54 or 56 */
    unsigned port;   /* 0 where it is dropped, and so is the length */
    size_t length;
};

struct stream_answer {
    const struct stream_event *events; /* by their places */
    size_t count;
    const uint8_t *data; /* of the packets given out, one after the other */
    struct ax25_kiss_stream state;
};

/* Of `start` the data and the count are kept; it is fresh in all else. Any octets up to LONGEST. What the answer points to holds until
   the next call. */
struct stream_answer model_stream(const struct ax25_kiss_stream *start, const uint8_t *octets, size_t len);

#endif
