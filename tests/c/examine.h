/* All that the eight calls on frames owe on one input, looked at; of captures, on many. */
#ifndef EXAMINE_H
#define EXAMINE_H

#include "model.h"

/* Ready the buffers, and have a stray access reported as a failure. */
void examine_begin(void);

/* Each of them, in one of the places that a buffer can have, held to the answer. The reason is held to the model, in both modes, and so is
   the relay: by the station that is due, and by one that differs from it in one bit or is none. Captures are too, in both modes: whatever
   is examined here, the reason's and the relay's inputs too, is a part of a buffer with many others. */
void examine(const uint8_t *in, size_t len, const struct answer *want, unsigned place);

/* The same in every place. */
void examine_everywhere(const uint8_t *in, size_t len, const struct answer *want);

/* The reason alone, in one mode, held to the answer: in one place, and in every one. */
void examine_reason(enum mode mode, const uint8_t *in, size_t len, const struct reason *want, unsigned place);
void examine_reason_everywhere(enum mode mode, const uint8_t *in, size_t len, const struct reason *want);

/* A part of a buffer, and what its record owes in each mode; the same by the model. */
struct part {
    size_t start, length;
    struct captured in_mode[MODES];
};
struct part part_of(const uint8_t *in, size_t len, size_t start, size_t length);

/* Captures alone: one call for up to so many parts in each mode, held to what the parts owe and to the single calls. The place is that of
   the buffer and of the records: each of the one with each of the other. */
enum { CAPTURE_PLACES = 9, MOST_PARTS = 70000 };
void examine_captures(const uint8_t *in, size_t len, const struct part *parts, size_t count, unsigned place);
void examine_captures_everywhere(const uint8_t *in, size_t len, const struct part *parts, size_t count);

/* The relay alone, by one station: held to the answer, and where that is 0 once more, held to the model. The place is that of
   both buffers: each of the frame's with each of the callsign's. */
enum { RELAY_PLACES = 9 };
void examine_relay(const struct address *own, const uint8_t *in, size_t len, const struct relayed *want, unsigned place);
void examine_relay_everywhere(const struct address *own, const uint8_t *in, size_t len, const struct relayed *want);

#endif
