/* Document 01's rules of reading and writing, with document 02's of the layer 3 PID (M-105), of the reserved bits (M-106), of leading
   nulls (M-108) and of long sequence numbers (M-109), and document 02's of relaying, of the reason (M-110) and of captures (M-111),
   written once more in C from their words: what the calls must say of any octets. */
#ifndef MODEL_H
#define MODEL_H

#include <stddef.h>
#include <stdint.h>

#include "record.h"

#define LONGEST ((size_t)1 << 20) /* no test input is longer */

/* Sequence numbers modulo 8, and modulo 128. Of the calls for C, ax25_reason and ax25_captures have both, and the others have the first
   alone. */
enum mode { SHORT_MODE, LONG_MODE, MODES };

/* The number by which a call is asked for a mode: 0 for the short one, for the long one any other, in turns. */
uint32_t asking_for(enum mode mode, unsigned turn);

struct answer {
    unsigned number;          /* what decoding gives */
    unsigned old;             /* what decoding an old capture gives */
    unsigned canonical;       /* 1 or 0 */
    size_t length;            /* of the re-encoding; 0 where refused */
    const uint8_t *reencoded; /* those octets */
};

/* How many nulls there are before the first octet that is none, or in all. */
size_t model_nulls(const uint8_t *in, size_t len);

/* The answer for any octets up to LONGEST. What `reencoded` points to holds until the next call. */
struct answer model_in(enum mode mode, const uint8_t *in, size_t len);

/* The same in the short mode. */
struct answer model(const uint8_t *in, size_t len);

/* What a decoder gives: a number, what it tells beside it, and where the number is 0 the record. */
struct reading {
    unsigned number;
    size_t details[DETAILS];
    uint8_t record[RECORD];
};

struct reading model_decode(enum mode mode, const uint8_t *in, size_t len);
struct reading model_decode_old(enum mode mode, const uint8_t *in, size_t len);

/* Content alone: of the record its last twelve octets. */
struct reading model_content(enum mode mode, const uint8_t *in, size_t len);

/* What writing gives where there is room: a number, and where that is 0 the octets, which hold until the next call of the model. */
struct written {
    unsigned number;
    size_t length;
    const uint8_t *octets;
};

/* A record, or its first octets, and info of up to LONGEST - RECORD octets; content alone likewise. */
struct written model_encode(enum mode mode, const uint8_t *record, size_t len, const uint8_t *info, size_t info_len);
struct written model_encode_content(enum mode mode, const uint8_t *content, size_t len, const uint8_t *info, size_t info_len);

/* Why octets are not canonical in a mode: what ax25_reason gives, and leaves in its *number and *place. It is worked out from the octets,
   and not from what writing makes of them. */
struct reason {
    unsigned code, number;
    size_t place;
};

struct reason model_reason(enum mode mode, const uint8_t *in, size_t len);

/* The bits that reading content of this kind ignores in the octet at this place, counted from the control octet. */
unsigned model_ignored(enum mode mode, unsigned kind, size_t place);

/* What ax25_captures leaves in a record in a mode, whose part of the `len` octets this is. A part that is inside them has at most LONGEST
   octets. */
struct captured {
    unsigned number, canonical, kind;
};

struct captured model_capture(enum mode mode, const uint8_t *in, size_t len, size_t start, size_t length);

/* A station's address, as ax25_relay is given its own. */
struct address {
    const uint8_t *callsign;
    size_t len;
    uint8_t ssid;
};

struct relayed {
    unsigned number;
    const uint8_t *octets; /* what the buffer holds afterwards, as many as before */
    size_t due;            /* the due place; 0 where the number is not 0 */
};

/* The answer for relaying any octets up to LONGEST. `out`, which has room for them, gets what `octets` then points to. */
struct relayed model_relay(const struct address *own, const uint8_t *in, size_t len, uint8_t *out);

/* The six characters and, as its result, the SSID of the station to ask for relaying these octets: the one at the due place, or
   where no place is due the last that sent the frame. Nulls are skipped here: a relay that skipped them too would find that station. */
uint8_t model_station(const uint8_t *in, size_t len, uint8_t callsign[6]);

#endif
