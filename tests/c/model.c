#include "model.h"

#include <string.h>

#include "ax25.h"

struct station {
    uint8_t callsign[6];
    unsigned ssid, reserved, mark;
};

struct fields {
    size_t end;                             /* of the address field, or the number of octets where there is none */
    struct station destination, source, repeaters[8];
    size_t repeater_count;
    enum mark mark;
    enum kind kind;
    unsigned receive, send, poll;           /* N(R), N(S), P/F; of FRMR the numbers that it tells */
    unsigned z, y, x, w;                    /* FRMR's flags */
    unsigned rejected_response, rejected_control;
    unsigned pid;                           /* its octet */
    int is_outside;                         /* layer 3, with an octet that is not of that class */
    const uint8_t *info;
    size_t info_len;
};

uint32_t asking_for(enum mode mode, unsigned turn) {
    static const uint32_t longs[] = {1, 2, 128, 256, 0x80000000, 0xFFFFFFFF};
    return mode == SHORT_MODE ? 0 : longs[turn % (sizeof longs / sizeof *longs)];
}

static unsigned bit(unsigned octet, int place) { return octet >> place & 1; }

static struct station read_station(const uint8_t *group) {
    struct station s;
    for (int i = 0; i < 6; i++) s.callsign[i] = (uint8_t)(group[i] >> 1);
    s.ssid = group[6] >> 1 & 15;
    s.reserved = group[6] >> 5 & 3;
    s.mark = bit(group[6], 7);
    return s;
}

static unsigned read_frmr(struct fields *f, enum mode mode, const uint8_t *content, size_t len) {
    if (mode == LONG_MODE) return 11;
    if (len != 4) return 8;
    f->z = bit(content[1], 3);
    f->y = bit(content[1], 2);
    f->x = bit(content[1], 1);
    f->w = bit(content[1], 0);
    f->receive = content[2] >> 5;
    f->rejected_response = bit(content[2], 4);
    f->send = content[2] >> 1 & 7;
    f->rejected_control = content[3];
    return 0;
}

/* What follows `before` octets of content is info. */
static unsigned read_info(struct fields *f, const uint8_t *content, size_t len, size_t before) {
    f->info = content + before;
    f->info_len = len - before;
    return 0;
}

/* The PID, and info behind it. By rule 7 and M-105 every identifier, the layer 3 class too, holds or names its one octet: the octet
   stands for it here. */
static unsigned read_pid(struct fields *f, const uint8_t *content, size_t len, size_t control_len) {
    if (len < control_len + 1) return 5;
    f->pid = content[control_len];
    return read_info(f, content, len, control_len + 1);
}

/* M-109: in the long mode N(R) and P/F of I and S stand in an octet of their own. Gives how many octets the control field has, or 0 where
   the second is missing. */
static size_t read_numbers(struct fields *f, enum mode mode, const uint8_t *content, size_t len) {
    if (mode == SHORT_MODE) {
        f->receive = content[0] >> 5;
        f->poll = bit(content[0], 4);
        return 1;
    }
    if (len < 2) return 0;
    f->receive = content[1] >> 1;
    f->poll = bit(content[1], 0);
    return 2;
}

static unsigned read_i(struct fields *f, enum mode mode, const uint8_t *content, size_t len) {
    size_t control_len = read_numbers(f, mode, content, len);
    f->kind = I;
    f->send = mode == LONG_MODE ? content[0] >> 1 : content[0] >> 1 & 7;
    return control_len == 0 ? 12 : read_pid(f, content, len, control_len);
}

static unsigned read_s(struct fields *f, enum mode mode, const uint8_t *content, size_t len) {
    switch (content[0] & 0x0F) {
    case 0x1: f->kind = RR; break;
    case 0x5: f->kind = RNR; break;
    case 0x9: f->kind = REJ; break;
    default: f->kind = SREJ; break; /* D */
    }
    return read_numbers(f, mode, content, len) == 0 ? 12 : 0;
}

/* Rules 5 and 6. The content is not empty. */
static unsigned read_content(struct fields *f, enum mode mode, const uint8_t *content, size_t len) {
    unsigned control = content[0];
    if (bit(control, 0) == 0) return read_i(f, mode, content, len);
    if (bit(control, 1) == 0) return read_s(f, mode, content, len);
    f->poll = bit(control, 4);
    switch (control & ~0x10u) {
    case 0x2F: f->kind = SABM; return 0;
    case 0x6F: f->kind = SABME; return 0;
    case 0x43: f->kind = DISC; return 0;
    case 0x0F: f->kind = DM; return 0;
    case 0x63: f->kind = UA; return 0;
    case 0x87: f->kind = FRMR; return read_frmr(f, mode, content, len);
    case 0x03: f->kind = UI; return read_pid(f, content, len, 1);
    case 0xAF: f->kind = XID; return read_info(f, content, len, 1);
    case 0xE3: f->kind = TEST; return read_info(f, content, len, 1);
    default: return 7;
    }
}

size_t model_nulls(const uint8_t *in, size_t len) {
    size_t nulls = 0;
    while (nulls < len && in[nulls] == 0) nulls++;
    return nulls;
}

/* The end of the address field, or the number of octets where there is none. */
static size_t end_of(const uint8_t *in, size_t len) {
    size_t end = 0;
    while (end < len && bit(in[end], 0) == 0) end++;
    return end;
}

static unsigned read_frame(struct fields *f, enum mode mode, const uint8_t *in, size_t len) {
    size_t nulls = model_nulls(in, len), end = end_of(in, len);
    memset(f, 0, sizeof *f);
    f->end = end;
    if (nulls == len) return 1;
    if (nulls > 0) return 10;
    if (end == len) return 2;
    size_t span = end + 1;
    if (span < 14) return 3;
    if (end + 1 == len) return 4;
    size_t count = (span - 14) / 7;
    if (count >= 9) return 9;

    f->destination = read_station(in);
    f->source = read_station(in + 7);
    f->repeater_count = count;
    for (size_t i = 0; i < count; i++) f->repeaters[i] = read_station(in + 14 + 7 * i);
    if (f->destination.mark == f->source.mark) f->mark = ABSENT;
    else f->mark = f->destination.mark ? COMMAND : RESPONSE;
    return read_content(f, mode, in + end + 1, len - end - 1);
}

/* An old capture: what follows its nulls is read. */
static unsigned read_old(struct fields *f, enum mode mode, const uint8_t *in, size_t len) {
    size_t nulls = model_nulls(in, len);
    return read_frame(f, mode, in + nulls, len - nulls);
}

static uint8_t written[LONGEST];
static size_t written_len;

static void put(unsigned octet) { written[written_len++] = (uint8_t)octet; }

static void write_station(const struct station *s, unsigned mark, int last) {
    for (int i = 0; i < 6; i++) put((unsigned)s->callsign[i] << 1);
    put(mark << 7 | s->reserved << 5 | s->ssid << 1 | (last ? 1 : 0));
}

/* The control field of I, whose `low` are the bits that tell N(S), and of S, whose are those of its type. */
static void write_numbers(const struct fields *f, enum mode mode, unsigned low) {
    if (mode == LONG_MODE) {
        put(low);
        put(f->receive % 128 << 1 | f->poll);
    } else {
        put(f->receive % 8 << 5 | f->poll << 4 | low);
    }
}

static void write_content(const struct fields *f, enum mode mode) {
    unsigned poll = f->poll << 4;
    switch (f->kind) {
    case I: write_numbers(f, mode, f->send % (mode == LONG_MODE ? 128 : 8) << 1); break;
    case RR: write_numbers(f, mode, 0x1); break;
    case RNR: write_numbers(f, mode, 0x5); break;
    case REJ: write_numbers(f, mode, 0x9); break;
    case SREJ: write_numbers(f, mode, 0xD); break;
    case SABM: put(0x2F | poll); break;
    case SABME: put(0x6F | poll); break;
    case DISC: put(0x43 | poll); break;
    case DM: put(0x0F | poll); break;
    case UA: put(0x63 | poll); break;
    case UI: put(0x03 | poll); break;
    case XID: put(0xAF | poll); break;
    case TEST: put(0xE3 | poll); break;
    case FRMR:
        put(0x87 | poll);
        put(f->z << 3 | f->y << 2 | f->x << 1 | f->w);
        put(f->receive % 8 << 5 | f->rejected_response << 4 | f->send % 8 << 1);
        put(f->rejected_control);
        break;
    default: break; /* the octets of unknown content are beside it, as info is */
    }
    if (f->kind == I || f->kind == UI) put(f->pid);
    if (f->info_len > 0) memcpy(written + written_len, f->info, f->info_len);
    written_len += f->info_len;
}

static void write_frame(const struct fields *f, enum mode mode) {
    written_len = 0;
    write_station(&f->destination, f->mark != RESPONSE, 0);
    write_station(&f->source, f->mark == RESPONSE, f->repeater_count == 0);
    for (size_t i = 0; i < f->repeater_count; i++)
        write_station(&f->repeaters[i], f->repeaters[i].mark, i + 1 == f->repeater_count);
    write_content(f, mode);
}

struct answer model_in(enum mode mode, const uint8_t *in, size_t len) {
    struct fields f, behind;
    struct answer a = {0, 0, 0, 0, written};
    a.number = read_frame(&f, mode, in, len);
    a.old = read_old(&behind, mode, in, len);
    if (a.number != 0) return a;
    write_frame(&f, mode);
    a.length = written_len;
    a.canonical = written_len == len && memcmp(written, in, len) == 0;
    return a;
}

struct answer model(const uint8_t *in, size_t len) { return model_in(SHORT_MODE, in, len); }

/* Records */

static const uint8_t named[] = {0x01, 0x06, 0x07, 0x08, 0xC3, 0xC4, 0xCA, 0xCB, 0xCC, 0xCD, 0xCE, 0xCF, 0xF0, 0xFF};

static int is_layer_3(unsigned pid) { return (pid & 0x30) == 0x10 || (pid & 0x30) == 0x20; }

static unsigned pid_case(unsigned pid) {
    if (is_layer_3(pid)) return LAYER_3;
    for (unsigned i = 0; i < sizeof named; i++)
        if (named[i] == pid) return LAYER_3 + 1 + i;
    return OTHER_PID;
}

static void lay_station(uint8_t *out, const struct station *s) {
    memcpy(out, s->callsign, 6);
    out[6] = (uint8_t)s->ssid;
    out[7] = (uint8_t)s->reserved;
}

static void lay_content(uint8_t *out, const struct fields *f) {
    memset(out, 0, CONTENT);
    out -= KIND;
    out[KIND] = (uint8_t)f->kind;
    out[POLL] = (uint8_t)f->poll;
    if (f->kind == I || f->kind == UI) {
        out[PID_CASE] = (uint8_t)pid_case(f->pid);
        out[PID_OCTET] = (uint8_t)(out[PID_CASE] == LAYER_3 || out[PID_CASE] == OTHER_PID ? f->pid : 0);
    }
    if (f->kind <= SREJ || f->kind == FRMR) out[RECEIVE] = (uint8_t)f->receive;
    if (f->kind == I || f->kind == FRMR) out[SEND] = (uint8_t)f->send;
    if (f->kind != FRMR) return;
    out[FLAG_Z] = (uint8_t)f->z;
    out[FLAG_Y] = (uint8_t)f->y;
    out[FLAG_X] = (uint8_t)f->x;
    out[FLAG_W] = (uint8_t)f->w;
    out[REJECTED_RESPONSE] = (uint8_t)f->rejected_response;
    out[REJECTED_CONTROL] = (uint8_t)f->rejected_control;
}

static void lay_frame(uint8_t *out, const struct fields *f) {
    static const struct station nobody = {"NOCALL", 0, 3, 0};
    lay_station(out + DESTINATION, &f->destination);
    lay_station(out + SOURCE, &f->source);
    for (size_t i = 0; i < 8; i++) {
        const struct station *s = i < f->repeater_count ? &f->repeaters[i] : &nobody;
        lay_station(out + ROUTE + ENTRY * i, s);
        out[ROUTE + ENTRY * i + ADDRESS] = (uint8_t)s->mark;
    }
    out[ROUTE_COUNT] = (uint8_t)f->repeater_count;
    out[MARK] = (uint8_t)f->mark;
    lay_content(out + KIND, f);
}

/* What is told beside the number: 3 tells start and end, 4 the length, an accepted input where its info is. */
static void tell(struct reading *r, const struct fields *f, const uint8_t *in, size_t len) {
    size_t nulls = model_nulls(in, len);
    if (r->number == 3) {
        r->details[START] = nulls;
        r->details[END] = end_of(in, len);
    }
    if (r->number == 4) r->details[LENGTH_OF_INPUT] = len;
    if (r->number == 0 && f->info) {
        r->details[INFO_START] = (size_t)(f->info - in);
        r->details[INFO_LENGTH] = f->info_len;
    }
}

static struct reading given(const struct fields *f, unsigned number, const uint8_t *in, size_t len) {
    struct reading r = {number, {0}, {0}};
    tell(&r, f, in, len);
    if (number == 0) lay_frame(r.record, f);
    return r;
}

struct reading model_decode(enum mode mode, const uint8_t *in, size_t len) {
    struct fields f;
    unsigned number = read_frame(&f, mode, in, len);
    return given(&f, number, in, len);
}

struct reading model_decode_old(enum mode mode, const uint8_t *in, size_t len) {
    struct fields f;
    unsigned number = read_old(&f, mode, in, len);
    return given(&f, number, in, len);
}

struct reading model_content(enum mode mode, const uint8_t *in, size_t len) {
    struct fields f;
    struct reading r = {4, {0}, {0}};
    memset(&f, 0, sizeof f);
    if (len > 0) r.number = read_content(&f, mode, in, len);
    if (r.number == 0) lay_content(r.record + KIND, &f);
    return r;
}

static struct station take_station(const uint8_t *from, unsigned mark) {
    struct station s;
    memcpy(s.callsign, from, 6);
    s.ssid = from[6];
    s.reserved = from[7];
    s.mark = mark != 0;
    return s;
}

static void take_content(struct fields *f, const uint8_t *record) {
    unsigned pid = record[PID_CASE];
    f->kind = record[KIND] < UNKNOWN_KIND ? (enum kind)record[KIND] : UNKNOWN_KIND;
    f->poll = record[POLL] != 0;
    f->receive = record[RECEIVE];
    f->send = record[SEND];
    f->z = record[FLAG_Z] != 0;
    f->y = record[FLAG_Y] != 0;
    f->x = record[FLAG_X] != 0;
    f->w = record[FLAG_W] != 0;
    f->rejected_response = record[REJECTED_RESPONSE] != 0;
    f->rejected_control = record[REJECTED_CONTROL];
    f->pid = pid == LAYER_3 || pid >= OTHER_PID ? record[PID_OCTET] : named[pid - LAYER_3 - 1];
    f->is_outside = (f->kind == I || f->kind == UI) && pid == LAYER_3 && !is_layer_3(f->pid);
}

static int can_be_written(const struct station *s) {
    int holds = s->ssid <= 15 && s->reserved <= 3;
    for (size_t i = 0; holds && i < 6; i++) holds = s->callsign[i] < 128;
    return holds;
}

static int all_can_be_written(const struct fields *f) {
    int holds = can_be_written(&f->destination) && can_be_written(&f->source);
    for (size_t i = 0; holds && i < f->repeater_count; i++) holds = can_be_written(&f->repeaters[i]);
    return holds;
}

static int has_info(enum kind kind) { return kind == I || kind == UI || kind == XID || kind == TEST || kind == UNKNOWN_KIND; }

/* The numbers of content, in their order but for 24. */
static unsigned refused_content(const struct fields *f, enum mode mode) {
    if (f->kind == FRMR && mode == LONG_MODE) return 11;
    if (!has_info(f->kind) && f->info_len > 0) return 23;
    return f->is_outside ? 25 : 0;
}

struct written model_encode(enum mode mode, const uint8_t *record, size_t len, const uint8_t *info, size_t info_len) {
    struct fields f;
    struct written w = {21, 0, written};
    uint8_t whole[RECORD] = {0};
    memcpy(whole, record, len < RECORD ? len : RECORD);
    memset(&f, 0, sizeof f);
    f.info = info;
    f.info_len = info_len;
    f.repeater_count = whole[ROUTE_COUNT];
    if (f.repeater_count > 8) return w;
    f.destination = take_station(whole + DESTINATION, 0);
    f.source = take_station(whole + SOURCE, 0);
    for (size_t i = 0; i < f.repeater_count; i++) {
        const uint8_t *entry = whole + ROUTE + ENTRY * i;
        f.repeaters[i] = take_station(entry, entry[ADDRESS]);
    }
    f.mark = whole[MARK] < ABSENT ? (enum mark)whole[MARK] : ABSENT;
    take_content(&f, whole);
    w.number = all_can_be_written(&f) ? refused_content(&f, mode) : 22;
    if (w.number != 0) return w;
    write_frame(&f, mode);
    w.length = written_len;
    return w;
}

struct written model_encode_content(enum mode mode, const uint8_t *content, size_t len, const uint8_t *info, size_t info_len) {
    struct fields f;
    struct written w = {0, 0, written};
    uint8_t whole[RECORD] = {0};
    memcpy(whole + KIND, content, len < CONTENT ? len : CONTENT);
    memset(&f, 0, sizeof f);
    f.info = info;
    f.info_len = info_len;
    take_content(&f, whole);
    w.number = refused_content(&f, mode);
    if (w.number != 0) return w;
    written_len = 0;
    write_content(&f, mode);
    w.length = written_len;
    return w;
}

/* The reason */

static int is_supervisory(unsigned kind) { return kind >= RR && kind <= SREJ; }

unsigned model_ignored(enum mode mode, unsigned kind, size_t place) {
    if (kind == FRMR) return place == 1 ? 0xF0 : place == 2 ? 0x01 : 0;
    return mode == LONG_MODE && is_supervisory(kind) && place == 0 ? 0xF0 : 0;
}

/* FRMR's three octets are no info here and no tail either: with any other number of them it is refused. */
static int has_tail(enum mode mode, enum kind kind, size_t len) {
    size_t control_len = mode == LONG_MODE && is_supervisory(kind) ? 2 : 1;
    return !has_info(kind) && kind != FRMR && len > control_len;
}

static int has_ignored(enum mode mode, enum kind kind, const uint8_t *content, size_t len) {
    for (size_t place = 0; place < 3 && place < len; place++)
        if (content[place] & model_ignored(mode, kind, place)) return 1;
    return 0;
}

static size_t place_of(unsigned number, size_t end) {
    switch (number) {
    case 1:
    case 2:
    case 10: return 0;
    case 3:
    case 4: return end;
    case 9: return 7 * 10; /* behind destination, source and eight repeaters */
    default: return end + 1;
    }
}

struct reason model_reason(enum mode mode, const uint8_t *in, size_t len) {
    struct fields f;
    struct reason r = {AX25_REASON_NONE, read_frame(&f, mode, in, len), 0};
    size_t span = f.end + 1;
    if (r.number != 0) {
        r.code = AX25_REASON_REFUSED;
        r.place = place_of(r.number, f.end);
    } else if (span % 7 != 0) r.code = AX25_REASON_LEFTOVER;
    else if (f.mark == ABSENT) r.code = AX25_REASON_MARKS;
    else if (has_tail(mode, f.kind, len - span)) r.code = AX25_REASON_TAIL;
    else if (has_ignored(mode, f.kind, in + span, len - span)) r.code = AX25_REASON_FIXED;
    return r;
}

/* Captures */

/* A sum of two numbers wraps exactly where it comes out below one of them. */
static int is_inside(size_t len, size_t start, size_t length) { return start + length >= start && start + length <= len; }

/* Document 02 numbers the kinds in the order in which record.h has them. */
struct captured model_capture(enum mode mode, const uint8_t *in, size_t len, size_t start, size_t length) {
    struct fields f;
    struct captured c = {61, 0, UI}; /* UI is the default frame's kind */
    if (!is_inside(len, start, length)) return c;
    c.number = read_frame(&f, mode, in + start, length);
    if (c.number != 0) return c;
    write_frame(&f, mode);
    c.canonical = written_len == length && memcmp(written, in + start, length) == 0;
    c.kind = f.kind;
    return c;
}

/* Relaying */

/* The due place is the first without a mark, or the number of repeaters where all have one. */
static size_t due_place(const struct fields *f) {
    size_t due = 0;
    while (due < f->repeater_count && f->repeaters[due].mark) due++;
    return due;
}

static int has_mark_from(const struct fields *f, size_t place) {
    for (; place < f->repeater_count; place++)
        if (f->repeaters[place].mark) return 1;
    return 0;
}

static int is_encodable(const struct address *own) {
    int holds = own->len <= 6 && own->ssid <= 15;
    for (size_t i = 0; holds && i < own->len; i++) holds = own->callsign[i] < 128;
    return holds;
}

static int is_ours(const struct address *own, const struct station *s) {
    uint8_t padded[6] = {' ', ' ', ' ', ' ', ' ', ' '};
    memcpy(padded, own->callsign, own->len);
    return memcmp(padded, s->callsign, 6) == 0 && own->ssid == s->ssid;
}

struct relayed model_relay(const struct address *own, const uint8_t *in, size_t len, uint8_t *out) {
    struct fields f;
    struct relayed r = {22, out, 0};
    memcpy(out, in, len);
    if (!is_encodable(own)) return r;
    r.number = read_frame(&f, SHORT_MODE, in, len);
    if (r.number != 0) return r;
    size_t due = due_place(&f);
    if (due == f.repeater_count) r.number = 41;
    else if (has_mark_from(&f, due)) r.number = 43;
    else if (!is_ours(own, &f.repeaters[due])) r.number = 42;
    else {
        r.due = due;
        out[14 + 7 * due + 6] |= 0x80;
    }
    return r;
}

uint8_t model_station(const uint8_t *in, size_t len, uint8_t callsign[6]) {
    struct fields f;
    read_old(&f, SHORT_MODE, in, len);
    size_t due = due_place(&f);
    const struct station *s = due < f.repeater_count ? &f.repeaters[due] : due > 0 ? &f.repeaters[due - 1] : &f.source;
    memcpy(callsign, s->callsign, 6);
    return (uint8_t)s->ssid;
}
