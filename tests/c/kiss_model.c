#include "kiss_model.h"

#include <string.h>

/* The rules give each number a place: the octet at which it is met. So every place is found by itself, without regard to the
   others, and the least of them tells the answer. */
#define NOWHERE SIZE_MAX
enum { UNKNOWN = -1 };

static size_t find(const uint8_t *in, size_t len, size_t from, int octet) {
    const uint8_t *at = from < len ? memchr(in + from, octet, len - from) : NULL;
    return at ? (size_t)(at - in) : NOWHERE;
}

/* What DB and the octet at this place stand for. */
static int escaped(const uint8_t *in, size_t len, size_t place) {
    if (place >= len) return UNKNOWN;
    return in[place] == 0xDC ? 0xC0 : in[place] == 0xDD ? 0xDB : UNKNOWN;
}

static size_t bad_escape(const uint8_t *in, size_t len) {
    size_t place = find(in, len, 1, 0xDB);
    while (place != NOWHERE && escaped(in, len, place + 1) != UNKNOWN) place = find(in, len, place + 1, 0xDB);
    return place;
}

/* The type octet after its escape is removed. */
static int type_of(const uint8_t *in, size_t len) {
    if (len < 2 || in[1] == 0xC0) return UNKNOWN;
    return in[1] == 0xDB ? escaped(in, len, 2) : in[1];
}

/* Where the octets should have ended or should not. */
static size_t bad_end(const uint8_t *in, size_t len) {
    size_t closing = find(in, len, 1, 0xC0);
    if (closing == NOWHERE) return len;
    return closing + 1 < len ? closing + 1 : NOWHERE;
}

static unsigned first_met(const uint8_t *in, size_t len) {
    int type = type_of(in, len);
    const struct {
        unsigned number;
        size_t place;
    } met[] = { /* on one octet the first of these; an octet after the closing C0 is that first, also where it is a DB */
        {51, find(in, len, 0, 0xC0) == 0 ? NOWHERE : 0},
        {53, bad_end(in, len)},
        {55, find(in, len, 1, 0xC0) == 1 ? 1 : NOWHERE},
        {52, bad_escape(in, len)},
        {54, type != UNKNOWN && type % 16 != 0 ? 1 : NOWHERE},
        {56, type != UNKNOWN && type / 16 > 11 ? 1 : NOWHERE},
    };
    unsigned number = 0;
    size_t least = NOWHERE;
    for (size_t i = 0; i < sizeof met / sizeof *met; i++)
        if (met[i].place < least) {
            least = met[i].place;
            number = met[i].number;
        }
    return number;
}

/* Each data octet is told by the last octet of its spelling and the one before that. */
struct kiss_answer model_kiss_read(const uint8_t *in, size_t len) {
    static uint8_t data[LONGEST_PACKET];
    struct kiss_answer a = {first_met(in, len), 0, 0, data};
    if (a.number != 0) return a;
    a.port = in[1] / 16;
    for (size_t i = 2; i < len - 1; i++)
        if (in[i] != 0xDB) data[a.length++] = in[i - 1] == 0xDB ? (uint8_t)escaped(in, len, i) : in[i];
    return a;
}

/* The packet is laid down from its last octet to its first, so that its length is where that ends and no sum. */
struct kiss_answer model_kiss_write(unsigned port, const uint8_t *in, size_t len) {
    static uint8_t room[LONGEST_PACKET];
    uint8_t *end = room + sizeof room, *at = end;
    struct kiss_answer a = {56, 0, 0, end};
    if (port > 11) return a;
    *--at = 0xC0;
    while (len > 0) {
        uint8_t octet = in[--len];
        *--at = octet == 0xC0 ? 0xDC : octet == 0xDB ? 0xDD : octet;
        if (*at != octet) *--at = 0xDB;
    }
    *--at = (uint8_t)(port * 16);
    *--at = 0xC0;
    a = (struct kiss_answer){0, port, (size_t)(end - at), at};
    return a;
}
