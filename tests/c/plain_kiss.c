/* As one would write it by hand: a refusal leaves the output alone, so that one pass judges and measures and another copies. */
#include "plain_kiss.h"

#include "ax25.h"

enum { FEND = 0xC0, FESC = 0xDB, TFEND = 0xDC, TFESC = 0xDD, PORTS = 12 };

static int is_escapable(uint8_t octet) { return octet == FEND || octet == FESC; }
static int ends_escape(uint8_t octet) { return octet == TFEND || octet == TFESC; }
static uint8_t unescaped(uint8_t octet) { return octet == TFEND ? FEND : FESC; }

/* A good type octet is never escaped: FEND would be port 12, and FESC a command. */
static uint32_t judge_type(const uint8_t *in, size_t in_len) {
    uint8_t type = in[1];
    if (type == FEND) return AX25_KISS_EMPTY;
    if (type == FESC) {
        if (in_len == 2 || !ends_escape(in[2])) return AX25_KISS_BAD_ESCAPE;
        type = unescaped(in[2]);
    }
    if (type & 0x0F) return AX25_KISS_NOT_DATA;
    return type >> 4 < PORTS ? AX25_ACCEPTED : AX25_KISS_PORT_TOO_HIGH;
}

static uint32_t judge(const uint8_t *in, size_t in_len, size_t *length) {
    size_t i, data = 0;
    if (in_len == 0 || in[0] != FEND) return AX25_KISS_NO_OPENING;
    if (in_len == 1) return AX25_KISS_NO_CLOSING;
    uint32_t number = judge_type(in, in_len);
    if (number != AX25_ACCEPTED) return number;
    for (i = 2; i < in_len && in[i] != FEND; i++) {
        if (in[i] == FESC) {
            i++;
            if (i == in_len || !ends_escape(in[i])) return AX25_KISS_BAD_ESCAPE;
        }
        data++;
    }
    if (i + 1 != in_len) return AX25_KISS_NO_CLOSING;
    *length = data;
    return AX25_ACCEPTED;
}

uint32_t plain_kiss_read(const uint8_t *in, size_t in_len, uint8_t *out, size_t out_len, uint8_t *port, size_t *length) {
    size_t data = 0;
    uint32_t number = judge(in, in_len, &data);
    if (number == AX25_ACCEPTED && data > out_len) number = AX25_NO_ROOM;
    *port = 0;
    *length = 0;
    if (number != AX25_ACCEPTED) return number;
    *port = in[1] >> 4;
    *length = data;
    const uint8_t *from = in + 2;
    for (size_t i = 0; i < data; i++) {
        uint8_t octet = *from++;
        if (octet == FESC) octet = unescaped(*from++);
        out[i] = octet;
    }
    return AX25_ACCEPTED;
}

uint32_t plain_kiss_write(uint8_t port, const uint8_t *in, size_t in_len, uint8_t *out, size_t out_len, size_t *length) {
    size_t needed = in_len + 3;
    *length = 0;
    if (port >= PORTS) return AX25_KISS_PORT_TOO_HIGH;
    for (size_t i = 0; i < in_len; i++)
        if (is_escapable(in[i])) needed++;
    if (needed > out_len) return AX25_NO_ROOM;
    *length = needed;
    *out++ = FEND;
    *out++ = (uint8_t)(port << 4);
    for (size_t i = 0; i < in_len; i++) {
        uint8_t octet = in[i];
        if (is_escapable(octet)) {
            *out++ = FESC;
            octet = octet == FEND ? TFEND : TFESC;
        }
        *out++ = octet;
    }
    *out = FEND;
    return AX25_ACCEPTED;
}
