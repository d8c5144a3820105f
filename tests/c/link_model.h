/* Document 02's rules of a recorded link (M-112), written once more in C from their words, over the model of reading: what offering any
   octets to any record must give and leave. */
#ifndef LINK_MODEL_H
#define LINK_MODEL_H

#include "ax25.h"
#include "model.h"

enum sender { FROM_A, FROM_B, FROM_OTHERS };

/* What becomes of an I frame from one of the two, where it is one. */
enum course { NO_COURSE, IN_ORDER, REPEATED, GAP, OUTSIDE_LINK, COURSES };

struct link_answer {
    unsigned number;
    struct ax25_link link; /* as the call leaves it */
    enum sender sender;    /* of others too where the number is not 0, and then there is no kind and no course */
    unsigned kind;
    enum course course;
};

/* Up to LONGEST octets. */
struct link_answer model_link(const struct ax25_link *link, const uint8_t *in, size_t len);

/* What a state is read as: one over 3 as idle. */
unsigned model_state(const struct ax25_link *link);

/* Who sent what was read, of these two to each other. */
enum sender model_sender(const struct ax25_link *link, const struct reading *frame);

#endif
