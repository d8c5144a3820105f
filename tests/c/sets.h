/* Inputs come in sets; each set counts its looks by check and prints one line a check. */
#ifndef SETS_H
#define SETS_H

#include <stddef.h>
#include <stdint.h>

enum check {
    NUMBER, OLD, CANONICAL, REASON, CAPTURED, LENGTH, REENCODED, RELAYED, READ, WRITTEN, BEYOND, REFUSED, CLEARED, GUARDS, INPUT, KEPT, AGREE, UNDONE,
    PLAIN,
    TAKEN, FED, OWN, DROPPED, IDLE, STATE,
    OFFERED, FOLLOWED, UNMOVED,
    DECODED, DETAILED, LAID_OUT, DECODED_OLD, DETAILED_OLD, LAID_OUT_OLD, PARSED, PARSED_OUT, IS_CANONICAL, REWRITTEN, RELENGTHENED, RESPELLED,
    ENCODED, LENGTHENED, SPELLED, ENCODED_ALONE, LENGTHENED_ALONE, SPELLED_ALONE, CRAMPED, RETURNED, UNSEEN, SAID, CHECKS
};

/* Has a stray access reported as a failure, with the set and the input. */
void sets_begin(void);

void set_begin(const char *name);
void set_end(void);
void set_end_brief(void); /* one line for all checks */

/* What is done at the end of each set from now on, before its lines are printed: looks that wait for more inputs are made then. */
void at_set_end(void (*last)(void));

/* One more input of this set. */
void count_input(void);

/* The octets that are looked at from now on, to be shown where a look fails; `beside`, where it is not NULL, shows what else the
   call is given. */
void look_from(const uint8_t *octets, size_t len, void (*beside)(void));

/* Counts a look. The first failures of a check in a set are shown. */
int look(enum check c, int holds, unsigned long want, unsigned long got);

/* Counts a call of this set that is owed a number, which is below 80; how many were. */
void owe(unsigned number);
unsigned long owed(unsigned number);

/* Says whether so many calls of this set or more were owed each of these numbers. */
void say_met(const unsigned *numbers, size_t count, unsigned long least);

/* Every string of up to `longest` of these octets, 8 at most. */
void for_every(const uint8_t *letters, size_t count, size_t longest, void (*each)(const uint8_t *octets, size_t len));

#endif
