#include "draw.h"

#include <string.h>

static uint64_t state;

void draw_from(uint64_t seed) { state = seed; }

/* splitmix64 */
static uint64_t draw(void) {
    uint64_t z = state += 0x9E3779B97F4A7C15u;
    z = (z ^ z >> 30) * 0xBF58476D1CE4E5B9u;
    z = (z ^ z >> 27) * 0x94D049BB133111EBu;
    return z ^ z >> 31;
}

unsigned below(unsigned bound) { return (unsigned)(draw() >> 32) % bound; }
int one_in(unsigned n) { return below(n) == 0; }

size_t damage(uint8_t *in, size_t len) {
    size_t at = len ? below((unsigned)len) : 0;
    if (len == 0) return len;
    switch (below(6)) {
    case 0: in[at] ^= (uint8_t)(1u << below(8)); return len;
    case 1: in[at] = (uint8_t)below(256); return len;
    case 2: memmove(in + at, in + at + 1, len - at - 1); return len - 1;
    case 3:
        memmove(in + at + 1, in + at, len - at);
        in[at] = (uint8_t)below(256);
        return len + 1;
    case 4: return at;
    default: {
        size_t other = below((unsigned)len);
        uint8_t kept = in[at];
        in[at] = in[other];
        in[other] = kept;
        return len;
    }
    }
}

static const uint8_t special[] = {0xC0, 0xDB, 0xDC, 0xDD};

static size_t put_in(uint8_t *in, size_t len, size_t at, uint8_t octet) {
    memmove(in + at + 1, in + at, len - at);
    in[at] = octet;
    return len + 1;
}

size_t damage_packet(uint8_t *in, size_t len) {
    unsigned end = (unsigned)len;
    if (len < 3) return put_in(in, len, below(end + 1), special[below(4)]);
    switch (below(9)) {
    case 0: in[0] = (uint8_t)below(256); return len;
    case 1: return put_in(in, len, 1, 0xC0);
    case 2: return len - 1;
    case 3: return put_in(in, len, end, one_in(2) ? special[below(4)] : (uint8_t)below(256));
    case 4: return put_in(in, len, 1 + below(end), 0xDB);
    case 5: in[1 + below(end - 1)] = special[below(4)]; return len;
    case 6: return put_in(in, len, 1 + below(end), special[below(4)]);
    case 7: in[1] = (uint8_t)((10 + below(6)) << 4); return len;
    default: return damage(in, len);
    }
}

uint8_t draw_type(void) {
    unsigned port = one_in(8) ? below(16) : below(12);
    return (uint8_t)(port << 4 | (one_in(8) ? below(16) : 0));
}

void fill_special(uint8_t *out, size_t len) {
    unsigned n = 1 + below(one_in(2) ? 4 : 60);
    for (size_t i = 0; i < len; i++) out[i] = one_in(n) ? special[below(4)] : (uint8_t)below(256);
}

static uint8_t filler(enum filling filling, size_t i) {
    switch (filling) {
    case TEXT: return (uint8_t)(' ' + i % 95);
    case ANY_OCTETS: return (uint8_t)below(256);
    case ALL_C0: return 0xC0;
    default: return 0xDB;
    }
}

void fill(uint8_t *out, size_t len, enum filling filling) {
    for (size_t i = 0; i < len; i++) out[i] = filler(filling, i);
}

size_t random_group(uint8_t *out) {
    unsigned characters = one_in(3) ? below(6) : 6;
    for (unsigned i = 0; i < 6; i++) out[i] = (uint8_t)((i >= characters ? ' ' : one_in(6) ? below(128) : 'A' + below(26)) << 1);
    out[6] = (uint8_t)(below(2) << 7 | (one_in(2) ? below(4) << 5 : 0x60) | below(16) << 1);
    return 7;
}

static const uint8_t known_controls[] = {0x00, 0x01, 0x05, 0x09, 0x0D, 0x2F, 0x6F, 0x43, 0x0F, 0x63, 0x87, 0x03, 0xAF, 0xE3};
static const uint8_t known_pids[] = {0x01, 0x06, 0x07, 0x08, 0xC3, 0xC4, 0xCA, 0xCB, 0xCC, 0xCD, 0xCE, 0xCF, 0xF0, 0xFF, 0x10, 0x20, 0x9A, 0xA5};

static size_t draw_content(uint8_t *out) {
    unsigned control = one_in(4) ? below(256) : known_controls[below(sizeof known_controls)];
    if (one_in(2)) control ^= 0x10;
    if ((control & 3) != 3 && one_in(2)) control ^= below(8) << 5;
    size_t len = 0;
    out[len++] = (uint8_t)control;
    int has_pid = (control & 1) == 0 || (control & 0xEF) == 0x03;
    int has_info = has_pid || (control & 0xEF) == 0xAF || (control & 0xEF) == 0xE3;
    if (has_pid && !one_in(8)) out[len++] = one_in(3) ? (uint8_t)below(256) : known_pids[below(sizeof known_pids)];
    if ((control & 3) == 1 && one_in(3)) out[len++] = (uint8_t)below(256); /* in the long mode it belongs to the control field */
    if ((control & 0xEF) == 0x87 && !one_in(4)) {
        out[len++] = (uint8_t)(one_in(2) ? below(256) : below(16));
        out[len++] = (uint8_t)(one_in(2) ? below(256) : below(128) << 1);
        out[len++] = (uint8_t)below(256);
    } else if (has_info ? !one_in(4) : one_in(4)) {
        for (size_t n = one_in(8) ? below(400) : below(24); n > 0; n--) out[len++] = (uint8_t)below(256);
    }
    return len;
}

size_t draw_frame(uint8_t *out) {
    size_t len = 0;
    if (one_in(4)) for (size_t n = 1 + below(20); n > 0; n--) out[len++] = 0;
    size_t groups = 2 + (one_in(3) ? 0 : below(one_in(6) ? 12 : 9));
    size_t at = len;
    for (size_t n = groups; n > 0; n--) len += random_group(out + len);
    if (one_in(2)) { /* the repeaters' marks in order */
        size_t due = 2 + below((unsigned)groups - 1);
        for (size_t i = 2; i < groups; i++) out[at + 7 * i + 6] = (uint8_t)((out[at + 7 * i + 6] & 0x7F) | (i < due ? 0x80 : 0));
    }
    if (!one_in(6)) { /* one of the two marks */
        out[at + 6] = (uint8_t)((out[at + 6] & 0x7F) | (out[at + 13] & 0x80 ? 0 : 0x80));
    }
    if (one_in(8)) for (size_t n = below(7); n > 0; n--) out[len++] = (uint8_t)(below(128) << 1);
    if (!one_in(40)) out[len - 1] |= 1;
    if (!one_in(20)) len += draw_content(out + len);
    return len;
}

size_t draw_octets(uint8_t *out) {
    size_t len = below(one_in(4) ? 160 : 40);
    unsigned odd = 1 + below(60);
    for (size_t i = 0; i < len; i++) out[i] = (uint8_t)(below(128) << 1 | (one_in(odd) ? 1 : 0));
    if (one_in(4)) memset(out, 0, below((unsigned)len + 1));
    return len;
}
