/* Both modes of the port (document 02, M-109): what the crate `probe` shows of reading and writing, held to the model on every content of
   one and two octets, every two control octets, every sequence number, records that break one rule or several, random and damaged frames,
   and on frames that direwolf sent in connected mode; and canonical frames beside themselves with one bit changed (M-107). Wherever the
   canonical check is asked, ax25_reason is too, and has to find no reason exactly where it says 1 (M-110). And ax25_captures has to give the
   number and the kind of what is decoded, and what the canonical check says of it (M-111).
   usage: long FRAMES [THOUSANDS [SEED]]: FRAMES is connected.txt; that many thousand random inputs */
#include <stdio.h>
#include <stdlib.h>
#include <string.h>

#include "ax25.h"
#include "callsigns.h"
#include "draw.h"
#include "lent.h"
#include "model.h"
#include "probe.h"
#include "say.h"
#include "sets.h"

/* Document 01's 14 address octets; the same with the repeaters HILL1-2, who has repeated it, and HILL2-1. */
#define PEERS GAUGE "E0 " BOX12 "67 "
#define ROUTED GAUGE "E0 " BOX12 "66 " HILL1 "E4 " HILL2 "63 "

static struct arena input_arena, info_arena, output_arena, sizes_arena, records_arena;
static enum mode mode;
static uint32_t asked; /* the number by which the mode is asked for */
static unsigned turn;  /* of places, rooms and numbers, which go round */

static const char *const mode_names[MODES] = {"short mode", "long mode"};

static void show_mode(void) { printf("  in the %s, asked for by %lu\n", mode_names[mode], (unsigned long)asked); }

static void next_turn(void) {
    turn++;
    asked = asking_for(mode, turn);
}

static void begin(const char *name) {
    static char line[160];
    snprintf(line, sizeof line, "%s, %s", mode_names[mode], name);
    set_begin(line);
}

/* Lent sizes, at an edge, so that they are aligned; painted as all that is lent to be written. */
struct sizes {
    struct lent lent;
    size_t *at;
    size_t count;
    uint8_t paint;
};

static struct sizes lend_sizes(size_t count) {
    struct sizes s;
    s.lent = lend(&sizes_arena, turn % 2 ? LOW : HIGH, count * sizeof(size_t));
    s.at = (size_t *)(void *)s.lent.at;
    s.count = count;
    s.paint = fresh_paint();
    memset(s.lent.at, s.paint, s.lent.len);
    return s;
}

struct output {
    struct lent lent;
    uint8_t paint;
};

static struct output lend_output(size_t room) {
    struct output o;
    o.lent = lend(&output_arena, (enum place)(turn / 2 % PLACES), room);
    o.paint = fresh_paint();
    memset(o.lent.at, o.paint, room);
    return o;
}

static struct lent lend_input(const uint8_t *octets, size_t len) { return lend_octets(&input_arena, (enum place)(turn / 6 % PLACES), octets, len); }
static struct lent lend_info(const uint8_t *octets, size_t len) { return lend_octets(&info_arena, (enum place)(turn / 3 % PLACES), octets, len); }

static int untouched(const struct output *o) { return filled_with(o->lent.at, o->lent.len, o->paint); }
static int sizes_untouched(const struct sizes *s) { return filled_with(s->lent.at, s->lent.len, s->paint); }

static void look_at_input(const struct lent *in, const uint8_t *octets) {
    look(GUARDS, guards_hold(in), 1, 0);
    look(INPUT, in->len == 0 || memcmp(in->at, octets, in->len) == 0, 1, 0);
}

/* What is left of an output: these octets and nothing else, or at a refusal nothing. */
static void look_at_output(enum check check, const struct output *o, int refused, const uint8_t *octets, size_t len) {
    look(GUARDS, guards_hold(&o->lent), 1, 0);
    if (refused) {
        look(REFUSED, untouched(o), 1, 0);
        return;
    }
    look(check, memcmp(o->lent.at, octets, len) == 0, 1, 0);
    look(BEYOND, filled_with(o->lent.at + len, o->lent.len - len, o->paint), 1, 0);
}

/* A length is told whatever the number is. */
static void look_at_length(enum check check, const struct sizes *s, size_t length) {
    look(GUARDS, guards_hold(&s->lent), 1, 0);
    look(check, s->at[0] == length, length, s->at[0]);
    look(BEYOND, filled_with(s->lent.at + sizeof(size_t), s->lent.len - sizeof(size_t), s->paint), 1, 0);
}

typedef uint32_t decoder(uint32_t, const uint8_t *, size_t, uint8_t *, size_t, size_t *, size_t);

static void decode_by(decoder *call, enum check checks, const struct reading *want, const uint8_t *octets, size_t len) {
    struct lent in = lend_input(octets, len);
    struct output record = lend_output(RECORD + (turn % 3 ? 0 : 7));
    struct sizes details = lend_sizes(DETAILS + (turn % 4 ? 0 : 2));
    unsigned number = call(asked, in.at, len, record.lent.at, record.lent.len, details.at, details.count);
    look(checks, number == want->number, want->number, number);
    look_at_input(&in, octets);
    look_at_output((enum check)(checks + 2), &record, want->number != 0, want->record, RECORD);
    look(GUARDS, guards_hold(&details.lent), 1, 0);
    for (int i = 0; i < DETAILS; i++) look((enum check)(checks + 1), details.at[i] == want->details[i], want->details[i], details.at[i]);
    look(BEYOND, filled_with((uint8_t *)(details.at + DETAILS), (details.count - DETAILS) * sizeof(size_t), details.paint), 1, 0);
}

/* One room in which something is to be written that has this number and these octets where there is enough. */
static unsigned fitting(const struct written *w, size_t room) { return w->number == 0 && room < w->length ? 24 : w->number; }

static void reencode_into(const struct written *want, const uint8_t *octets, size_t len, size_t room) {
    struct lent in = lend_input(octets, len);
    struct output out = lend_output(room);
    struct sizes length = lend_sizes(1 + turn % 2);
    unsigned due = fitting(want, room), number = probe_reencode(asked, in.at, len, out.lent.at, room, length.at);
    look(REWRITTEN, number == due, due, number);
    look_at_input(&in, octets);
    look_at_output(RESPELLED, &out, due != 0, want->octets, want->length);
    look_at_length(RELENGTHENED, &length, due == 0 ? want->length : 0);
}

typedef uint32_t encoder(uint32_t, const uint8_t *, size_t, const uint8_t *, size_t, uint8_t *, size_t, size_t *, size_t);

/* A record or content, and info. */
struct given {
    const uint8_t *octets;
    size_t len;
    const uint8_t *info;
    size_t info_len;
};

static void encode_into(encoder *call, enum check checks, const struct written *want, const struct given *given, size_t room) {
    struct lent in = lend_input(given->octets, given->len), info = lend_info(given->info, given->info_len);
    struct output out = lend_output(room);
    struct sizes length = lend_sizes(1 + turn % 2);
    unsigned due = fitting(want, room);
    unsigned number = call(asked, in.at, in.len, info.at, info.len, out.lent.at, room, length.at, length.count);
    look(checks, number == due, due, number);
    look_at_input(&in, given->octets);
    look_at_input(&info, given->info);
    look_at_output((enum check)(checks + 2), &out, due != 0, want->octets, want->length);
    look_at_length((enum check)(checks + 1), &length, due == 0 ? want->length : 0);
    owe(due);
}

/* Exactly full, one octet short, one of other rooms in turn; and for a refusal, no room and more than enough. */
static void encode_by(encoder *call, enum check checks, const struct written *want, const struct given *given) {
    size_t exact = want->length, rooms[] = {exact + 1, 0, exact / 2, exact + 40};
    next_turn();
    if (want->number != 0) {
        encode_into(call, checks, want, given, turn % 2 ? 0 : given->info_len + RECORD);
        return;
    }
    encode_into(call, checks, want, given, exact);
    if (exact > 0) encode_into(call, checks, want, given, exact - 1);
    encode_into(call, checks, want, given, rooms[turn % 4]);
}

static void encode_record(const uint8_t *record, size_t len, const uint8_t *info, size_t info_len) {
    struct written want = model_encode(mode, record, len, info, info_len);
    struct given given = {record, len, info, info_len};
    encode_by(probe_encode, ENCODED, &want, &given);
}

static void encode_content(const uint8_t *content, size_t len, const uint8_t *info, size_t info_len) {
    struct written want = model_encode_content(mode, content, len, info, info_len);
    struct given given = {content, len, info, info_len};
    encode_by(probe_content_encode, ENCODED_ALONE, &want, &given);
}

static void read_content_alone(const uint8_t *octets, size_t len) {
    struct reading want = model_content(mode, octets, len);
    struct lent in = lend_input(octets, len);
    struct output content = lend_output(CONTENT + (turn % 3 ? 0 : 5));
    unsigned number = probe_content(asked, in.at, len, content.lent.at, content.lent.len);
    look(PARSED, number == want.number, want.number, number);
    look_at_input(&in, octets);
    look_at_output(PARSED_OUT, &content, want.number != 0, want.record + KIND, CONTENT);
}

/* The reason is this one, and the canonical check says 1 exactly where it is none. */
static void look_at_reason(enum check check, unsigned want, const uint8_t *octets, size_t len) {
    uint32_t number;
    size_t place;
    unsigned code = ax25_reason(octets, len, asked, &number, &place), canonical = probe_canonical(asked, octets, len);
    look(check, code == want, want, code);
    look(IS_CANONICAL, canonical == (want == AX25_REASON_NONE), want == AX25_REASON_NONE, canonical);
}

/* Likewise, with all that ax25_reason gives held to the model, and with what writing makes of the octets. */
static void look_at_canonical(const struct answer *want, const struct reason *why, const uint8_t *octets, size_t len) {
    struct lent in = lend_input(octets, len);
    struct sizes place = lend_sizes(1 + turn % 2);
    uint32_t number = turn;
    unsigned canonical = probe_canonical(asked, in.at, len), code = ax25_reason(in.at, len, asked, &number, place.at);
    look(IS_CANONICAL, canonical == want->canonical, want->canonical, canonical);
    look(IS_CANONICAL, (code == AX25_REASON_NONE) == want->canonical, want->canonical, code);
    look(REASON, code == why->code, why->code, code);
    look(REASON, number == why->number, why->number, number);
    look_at_length(REASON, &place, why->place);
    look_at_input(&in, octets);
}

/* What ax25_captures leaves of the octets as the only part of a buffer, held to this. */
static void look_at_capture(enum check check, const struct captured *want, const uint8_t *octets, size_t len) {
    struct lent in = lend_input(octets, len), lent = lend(&records_arena, turn % 2 ? LOW : HIGH, sizeof(struct ax25_capture));
    struct ax25_capture *record = (struct ax25_capture *)(void *)lent.at;
    memset(record, fresh_paint(), sizeof *record);
    record->start = 0;
    record->length = len;
    ax25_captures(in.at, len, asked, record, 1);
    look(check, record->number == want->number, want->number, record->number);
    look(check, record->canonical == want->canonical, want->canonical, record->canonical);
    look(check, record->kind == want->kind, want->kind, record->kind);
    look(KEPT, record->start == 0 && record->length == len, len, record->length);
    look(GUARDS, guards_hold(&lent), 1, 0);
    look_at_input(&in, octets);
}

enum { REASONS = 6 };
static unsigned long met[64], met_old[64], met_kind[KINDS], met_reason[REASONS], met_canonical, met_other;

static void reencode(const struct answer *a, const uint8_t *octets, size_t len) {
    struct written again = {a->number, a->length, a->reencoded};
    reencode_into(&again, octets, len, a->number ? len + turn % 9 : a->length);
    if (a->length > 0) reencode_into(&again, octets, len, a->length - 1);
    reencode_into(&again, octets, len, turn % 2 ? 0 : len + turn % 40);
}

/* Octets, by all that reads them; and the record that they give is written. */
static void examine_octets(const uint8_t *octets, size_t len) {
    count_input();
    next_turn();
    look_from(octets, len, show_mode);
    struct reading want = model_decode(mode, octets, len), old = model_decode_old(mode, octets, len);
    decode_by(probe_decode, DECODED, &want, octets, len);
    decode_by(probe_decode_old, DECODED_OLD, &old, octets, len);
    struct answer answer = model_in(mode, octets, len);
    struct reason why = model_reason(mode, octets, len);
    look_at_canonical(&answer, &why, octets, len);
    struct captured capture = {want.number, answer.canonical, want.number == 0 ? want.record[KIND] : UI};
    look_at_capture(CAPTURED, &capture, octets, len);
    reencode(&answer, octets, len);
    met_reason[why.code]++;
    met[want.number]++;
    met_old[old.number]++;
    if (want.number != 0) return;
    met_kind[want.record[KIND]]++;
    met_canonical += answer.canonical;
    met_other += !answer.canonical;
    encode_record(want.record, RECORD, octets + want.details[INFO_START], want.details[INFO_LENGTH]);
}

/* Content, alone and behind an address field. */
static void examine_content(const char *field, const uint8_t *content, size_t len) {
    uint8_t octets[512];
    size_t at = from_hex(field, octets);
    memcpy(octets + at, content, len);
    examine_octets(octets, at + len);
    look_from(content, len, show_mode);
    read_content_alone(content, len);
}

/* What document 02 (M-109) says of each content behind PEERS, worked out by hand: the number; where it is 0 the kind, N(R), N(S), P/F, how
   many octets stand before the info, or 0 where there is none, and the content as it is written. */
static const struct {
    enum mode mode;
    const char *content;
    unsigned number, kind, receive, send, poll;
    size_t before;
    const char *again;
} examples[] = {
    {SHORT_MODE, "", 4, 0, 0, 0, 0, 0, ""},
    {SHORT_MODE, "00", 5, 0, 0, 0, 0, 0, ""},
    {SHORT_MODE, "BA F0 41", 0, I, 5, 5, 1, 2, "BA F0 41"},
    {SHORT_MODE, "01", 0, RR, 0, 0, 0, 0, "01"},
    {SHORT_MODE, "FD 11", 0, SREJ, 7, 0, 1, 0, "FD"},
    {SHORT_MODE, "0D", 0, SREJ, 0, 0, 0, 0, "0D"},
    {SHORT_MODE, "6F", 0, SABME, 0, 0, 0, 0, "6F"},
    {SHORT_MODE, "7F AA", 0, SABME, 0, 0, 1, 0, "7F"},
    {SHORT_MODE, "AF", 0, XID, 0, 0, 0, 1, "AF"},
    {SHORT_MODE, "BF 82 80", 0, XID, 0, 0, 1, 1, "BF 82 80"},
    {SHORT_MODE, "E3 F0", 0, TEST, 0, 0, 0, 1, "E3 F0"},
    {SHORT_MODE, "F3", 0, TEST, 0, 0, 1, 1, "F3"},
    {SHORT_MODE, "87 01 02", 8, 0, 0, 0, 0, 0, ""},
    {SHORT_MODE, "87 F1 03 44", 0, FRMR, 0, 1, 0, 0, "87 01 02 44"},
    {SHORT_MODE, "07", 7, 0, 0, 0, 0, 0, ""},
    {LONG_MODE, "", 4, 0, 0, 0, 0, 0, ""},
    {LONG_MODE, "00", 12, 0, 0, 0, 0, 0, ""},
    {LONG_MODE, "FE", 12, 0, 0, 0, 0, 0, ""},
    {LONG_MODE, "00 00", 5, 0, 0, 0, 0, 0, ""},
    {LONG_MODE, "FE FF", 5, 0, 0, 0, 0, 0, ""},
    {LONG_MODE, "00 00 F0", 0, I, 0, 0, 0, 3, "00 00 F0"},
    {LONG_MODE, "02 05 F0 41", 0, I, 2, 1, 1, 3, "02 05 F0 41"},
    {LONG_MODE, "FE FF CF 41 42", 0, I, 127, 127, 1, 3, "FE FF CF 41 42"},
    {LONG_MODE, "10 80 20", 0, I, 64, 8, 0, 3, "10 80 20"},
    {LONG_MODE, "01", 12, 0, 0, 0, 0, 0, ""},
    {LONG_MODE, "0D", 12, 0, 0, 0, 0, 0, ""},
    {LONG_MODE, "01 00", 0, RR, 0, 0, 0, 0, "01 00"},
    {LONG_MODE, "05 11", 0, RNR, 8, 0, 1, 0, "05 11"},
    {LONG_MODE, "09 FE", 0, REJ, 127, 0, 0, 0, "09 FE"},
    {LONG_MODE, "0D 53", 0, SREJ, 41, 0, 1, 0, "0D 53"},
    {LONG_MODE, "F1 00", 0, RR, 0, 0, 0, 0, "01 00"},
    {LONG_MODE, "8D FF", 0, SREJ, 127, 0, 1, 0, "0D FF"},
    {LONG_MODE, "15 02 AA", 0, RNR, 1, 0, 0, 0, "05 02"},
    {LONG_MODE, "0D 90 92", 0, SREJ, 72, 0, 0, 0, "0D 90"},
    {LONG_MODE, "2F", 0, SABM, 0, 0, 0, 0, "2F"},
    {LONG_MODE, "7F", 0, SABME, 0, 0, 1, 0, "7F"},
    {LONG_MODE, "6F 01", 0, SABME, 0, 0, 0, 0, "6F"},
    {LONG_MODE, "53", 0, DISC, 0, 0, 1, 0, "53"},
    {LONG_MODE, "0F", 0, DM, 0, 0, 0, 0, "0F"},
    {LONG_MODE, "73 00", 0, UA, 0, 0, 1, 0, "73"},
    {LONG_MODE, "03", 5, 0, 0, 0, 0, 0, ""},
    {LONG_MODE, "13 F0 41", 0, UI, 0, 0, 1, 2, "13 F0 41"},
    {LONG_MODE, "AF", 0, XID, 0, 0, 0, 1, "AF"},
    {LONG_MODE, "BF 82 80", 0, XID, 0, 0, 1, 1, "BF 82 80"},
    {LONG_MODE, "E3", 0, TEST, 0, 0, 0, 1, "E3"},
    {LONG_MODE, "F3 F0 41", 0, TEST, 0, 0, 1, 1, "F3 F0 41"},
    {LONG_MODE, "87", 11, 0, 0, 0, 0, 0, ""},
    {LONG_MODE, "97 01", 11, 0, 0, 0, 0, 0, ""},
    {LONG_MODE, "87 01 02 44", 11, 0, 0, 0, 0, 0, ""},
    {LONG_MODE, "87 01 02 44 55", 11, 0, 0, 0, 0, 0, ""},
    {LONG_MODE, "07", 7, 0, 0, 0, 0, 0, ""},
    {LONG_MODE, "FF 00 F0", 7, 0, 0, 0, 0, 0, ""},
};

/* Fields that were told by somebody else, of octets whose content starts at `control`. */
struct told {
    unsigned number, kind, receive, send, poll;
    size_t before; /* the info, from the control octet on; 0 where there is none */
};

static void look_at_told(const struct told *told, const struct reading *got, size_t control, size_t len) {
    look(SAID, got->number == told->number, told->number, got->number);
    if (told->number != 0 || got->number != 0) return;
    look(SAID, got->record[KIND] == told->kind, told->kind, got->record[KIND]);
    look(SAID, got->record[RECEIVE] == told->receive, told->receive, got->record[RECEIVE]);
    look(SAID, got->record[SEND] == told->send, told->send, got->record[SEND]);
    look(SAID, got->record[POLL] == told->poll, told->poll, got->record[POLL]);
    look(SAID, got->details[INFO_START] == (told->before ? control + told->before : 0), control + told->before, got->details[INFO_START]);
    look(SAID, got->details[INFO_LENGTH] == (told->before ? len - control - told->before : 0), 0, got->details[INFO_LENGTH]);
}

/* By the port alone, into plain buffers. */
static struct reading by_port(const uint8_t *octets, size_t len) {
    struct reading got;
    memset(&got, 0, sizeof got);
    got.number = probe_decode(asked, octets, len, got.record, RECORD, got.details, DETAILS);
    return got;
}

static void run_examples(void) {
    uint8_t octets[64], again[64], written[64];
    begin("examples worked out by hand");
    for (size_t i = 0; i < sizeof examples / sizeof *examples; i++) {
        if (examples[i].mode != mode) continue;
        size_t control = from_hex(PEERS, octets), len = control + from_hex(examples[i].content, octets + control), length = 0;
        struct told told = {examples[i].number, examples[i].kind, examples[i].receive, examples[i].send, examples[i].poll, examples[i].before};
        examine_content(PEERS, octets + control, len - control);
        look_from(octets, len, show_mode);
        struct reading port = by_port(octets, len), modelled = model_decode(mode, octets, len);
        look_at_told(&told, &port, control, len);
        look_at_told(&told, &modelled, control, len);
        size_t again_len = from_hex(PEERS, again) + from_hex(examples[i].again, again + control);
        if (told.number != 0) continue;
        unsigned number = probe_reencode(asked, octets, len, written, sizeof written, &length);
        look(SAID, number == 0 && length == again_len && memcmp(written, again, again_len) == 0, again_len, length);
        int same = len == again_len && memcmp(octets, again, len) == 0;
        struct captured capture = {0, (unsigned)same, told.kind};
        look_at_capture(SAID, &capture, octets, len);
        look_at_reason(SAID, same ? AX25_REASON_NONE : again_len < len ? AX25_REASON_TAIL : AX25_REASON_FIXED, octets, len);
    }
    set_end();
}

static const uint8_t fills[] = {0x00, 0xFF, 0xB5, 0x0D};

static void run_first_octets(void) {
    uint8_t content[8];
    begin("every control octet, content of 0 to 6 octets");
    examine_content(PEERS, content, 0);
    for (unsigned first = 0; first < 256; first++)
        for (size_t fill = 0; fill < sizeof fills; fill++)
            for (size_t len = 1; len <= 6; len++) {
                memset(content, fills[fill], sizeof content);
                content[0] = (uint8_t)first;
                examine_content(len % 2 ? PEERS : ROUTED, content, len);
            }
    set_end();
}

/* So every N(S), N(R) and P of I, and every N(R), P/F and ignored bit of S, in both modes: with nothing behind them, with a PID, with info. */
static void run_two_octets(void) {
    uint8_t content[8] = {0, 0, 0xF0, 0x41, 0x42};
    begin("every two first octets of content, with content of 2, 3 and 5 octets");
    for (unsigned pair = 0; pair < 65536; pair++) {
        content[0] = (uint8_t)(pair >> 8);
        content[1] = (uint8_t)pair;
        examine_content(PEERS, content, 2);
        examine_content(pair % 8 ? PEERS : ROUTED, content, 3);
        if (pair % 2) examine_content(PEERS, content, 5);
    }
    set_end();
}

/* FRMR of every length to 300 is 11 in the long mode, and in the short one 8 but for four octets. */
static void run_frmr(void) {
    uint8_t content[301];
    begin("FRMR of 1 to 301 octets");
    for (size_t len = 1; len <= sizeof content; len++)
        for (unsigned poll = 0; poll < 2; poll++) {
            memset(content, (int)(len * 37), len);
            content[0] = (uint8_t)(0x87 | poll << 4);
            examine_content(PEERS, content, len);
            struct reading got = model_content(mode, content, len);
            unsigned due = mode == LONG_MODE ? 11 : len == 4 ? 0 : 8;
            look(SAID, got.number == due, due, got.number);
            owe(got.number);
        }
    set_end();
}

/* A plain record of a kind. */
static void plain_record(uint8_t *record, unsigned kind) {
    static const uint8_t addresses[] = "GAUGE \0\3BOX12 \3\3";
    memset(record, 0, RECORD);
    memcpy(record, addresses, 2 * ADDRESS);
    for (size_t i = 0; i < 8; i++) memcpy(record + ROUTE + ENTRY * i, "NOCALL\0\3", ADDRESS);
    record[KIND] = (uint8_t)kind;
    record[PID_CASE] = 13;
}

static const unsigned limits[MODES] = {8, 128};

/* What is written of a plain record is decoded as that record, but for its numbers, which were taken modulo 8 or 128, and fields that its
   kind has not. */
static void look_at_return(const uint8_t *record, const uint8_t *info, size_t info_len) {
    uint8_t octets[512];
    size_t length = 0;
    unsigned kind = record[KIND], limit = kind == FRMR ? 8 : limits[mode];
    unsigned number = probe_encode(asked, record, RECORD, info, info_len, octets, sizeof octets, &length, 1);
    if (kind == UNKNOWN_KIND || number != 0) return;
    struct reading got = by_port(octets, length);
    look(RETURNED, got.number == 0, 0, got.number);
    look(RETURNED, got.record[KIND] == kind && got.record[POLL] == record[POLL] && got.record[MARK] == record[MARK], kind, got.record[KIND]);
    if (kind <= SREJ || kind == FRMR) look(RETURNED, got.record[RECEIVE] == record[RECEIVE] % limit, record[RECEIVE] % limit, got.record[RECEIVE]);
    if (kind == I || kind == FRMR) look(RETURNED, got.record[SEND] == record[SEND] % limit, record[SEND] % limit, got.record[SEND]);
    look(RETURNED, got.details[INFO_LENGTH] == info_len, info_len, got.details[INFO_LENGTH]);
    look(RETURNED, info_len == 0 || memcmp(octets + got.details[INFO_START], info, info_len) == 0, 1, 0);
}

static void examine_record(const uint8_t *record, size_t len, const uint8_t *info, size_t info_len) {
    count_input();
    look_from(record, len, show_mode);
    encode_record(record, len, info, info_len);
    if (len > KIND) encode_content(record + KIND, len - KIND, info, info_len);
}

static const uint8_t text[] = "LEVEL 3.20 M";

/* Every kind with every N(R) and N(S) from 0 to 255, P/F both ways; all pairs of the two in I. */
static void run_numbers(void) {
    uint8_t record[RECORD];
    begin("records of every kind with sequence numbers 0 to 255");
    for (unsigned kind = 0; kind <= UNKNOWN_KIND; kind++)
        for (unsigned receive = 0; receive < 256; receive++)
            for (unsigned poll = 0; poll < 2; poll++) {
                plain_record(record, kind);
                record[RECEIVE] = (uint8_t)receive;
                record[SEND] = (uint8_t)(255 - receive);
                record[POLL] = (uint8_t)poll;
                record[MARK] = (uint8_t)(receive % 2);
                size_t info_len = kind == I || kind >= UI ? receive % 5 : 0;
                examine_record(record, RECORD, text, info_len);
                look_at_return(record, text, info_len);
            }
    set_end();
    begin("I with every two sequence numbers from 0 to 255, written alone");
    for (unsigned pair = 0; pair < 65536; pair++) {
        plain_record(record, I);
        record[RECEIVE] = (uint8_t)(pair >> 8);
        record[SEND] = (uint8_t)pair;
        record[POLL] = (uint8_t)(pair / 3 % 2);
        count_input();
        look_from(record + KIND, CONTENT, show_mode);
        encode_content(record + KIND, CONTENT, text, pair % 3);
    }
    set_end();
}

/* Every kind, and numbers past the last, with flags that are no 0 or 1, cut short at every octet, and longer. */
static void run_records(void) {
    uint8_t record[RECORD + 4];
    begin("records of every kind and past the last, cut short and longer");
    for (unsigned kind = 0; kind <= UNKNOWN_KIND + 2; kind++)
        for (size_t len = 0; len <= sizeof record; len++)
            for (unsigned fill = 0; fill < 3; fill++) {
                memset(record, 0xAA, sizeof record);
                plain_record(record, kind == UNKNOWN_KIND + 2 ? 255 : kind);
                if (fill > 0) memset(record + POLL, fill == 1 ? 0x55 : 0xFE, RECORD - POLL);
                record[MARK] = (uint8_t)(fill * 7 % 4);
                record[ROUTE_COUNT] = (uint8_t)(len % 9);
                examine_record(record, len, text, len % 2 ? 0 : 3);
            }
    set_end();
}

/* Every PID, in I and UI: those of the layer 3 class, with their octet, and outside it. */
static void run_pids(void) {
    uint8_t record[RECORD];
    begin("I and UI with every PID, layer 3 and unknown ones with every octet");
    for (unsigned which = 0; which < 2; which++)
        for (unsigned pid = 0; pid < 18; pid++)
            for (unsigned octet = 0; octet < 256; octet++) {
                plain_record(record, which ? UI : I);
                record[PID_CASE] = (uint8_t)pid;
                record[PID_OCTET] = (uint8_t)octet;
                examine_record(record, RECORD, text, octet % 3);
            }
    set_end();
}

/* Every set of rules that a record can break at once, in every kind: a route count over 8 (21), an address that can't be written (22), info
   (23 where the kind has none; 11 comes before it), a layer 3 octet outside the class (25), and too little room (24). */
static void run_orders(void) {
    uint8_t record[RECORD];
    begin("records that break several rules, in every kind");
    for (unsigned kind = 0; kind <= UNKNOWN_KIND; kind++)
        for (unsigned rules = 0; rules < 64; rules++) {
            plain_record(record, kind);
            record[ROUTE_COUNT] = rules & 1 ? 9 : 8;
            if (rules & 2) record[ROUTE + 7 * ENTRY + (rules & 4 ? 6 : 0)] = 0x80;
            if (rules & 4) record[DESTINATION + 7] = rules & 8 ? 4 : 3;
            if (rules & 16) record[PID_CASE] = LAYER_3, record[PID_OCTET] = 0x30;
            for (unsigned again = 0; again < 4; again++) examine_record(record, RECORD, text, rules & 32 ? 2 : 0);
        }
    static const unsigned short_numbers[] = {0, 21, 22, 23, 24, 25}, long_numbers[] = {0, 11, 21, 22, 23, 24, 25};
    if (mode == SHORT_MODE) say_met(short_numbers, sizeof short_numbers / sizeof *short_numbers, 20);
    else say_met(long_numbers, sizeof long_numbers / sizeof *long_numbers, 20);
    set_end();
}

/* Whether the port shows two inputs of one length as the same frame with the same info octets. */
static int shown_alike(const struct reading *one, const uint8_t *octets, const struct reading *other, const uint8_t *others) {
    size_t info_len = one->details[INFO_LENGTH];
    return one->number == 0 && other->number == 0 && memcmp(one->record, other->record, RECORD) == 0 && other->details[INFO_LENGTH] == info_len &&
           (info_len == 0 || memcmp(octets + one->details[INFO_START], others + other->details[INFO_START], info_len) == 0);
}

static unsigned long excepted_bits, other_bits;

/* Document 02's M-107 with M-109: no frame shows the bits that reading ignores. */
static void examine_bits(uint8_t *octets, size_t len, unsigned kind, size_t control) {
    uint8_t changed[256];
    count_input();
    next_turn();
    look_from(octets, len, show_mode);
    struct reading want = by_port(octets, len);
    look_at_reason(REASON, AX25_REASON_NONE, octets, len);
    for (size_t bit = 0; bit < 8 * len; bit++) {
        size_t at = bit / 8;
        unsigned mask = 1u << bit % 8, unseen = at >= control && model_ignored(mode, kind, at - control) & mask ? 1 : 0;
        memcpy(changed, octets, len);
        changed[at] ^= (uint8_t)mask;
        struct reading got = by_port(changed, len);
        unsigned alike = (unsigned)shown_alike(&want, octets, &got, changed);
        look(UNSEEN, alike == unseen, unseen, alike);
        if (unseen) look_at_reason(REASON, AX25_REASON_FIXED, changed, len);
        excepted_bits += unseen;
        other_bits += !unseen;
    }
}

/* Canonical frames of every kind, with none to eight repeaters, and every one of their bits changed alone. */
static void run_unseen(void) {
    uint8_t record[RECORD], octets[256];
    char line[160];
    draw_from(0x107);
    excepted_bits = other_bits = 0;
    begin("every bit of canonical frames changed alone");
    for (unsigned kind = 0; kind < UNKNOWN_KIND; kind++)
        for (unsigned times = 0; times < 54; times++) {
            plain_record(record, kind);
            record[ROUTE_COUNT] = (uint8_t)(times % 9);
            record[MARK] = (uint8_t)(times % 2);
            for (size_t i = 0; i < 8; i++) record[ROUTE + ENTRY * i + ADDRESS] = (uint8_t)below(2);
            for (size_t i = POLL; i < RECORD; i++) record[i] = (uint8_t)(i == RECEIVE || i == SEND || i == REJECTED_CONTROL ? below(256) : below(2));
            record[PID_CASE] = (uint8_t)below(16);
            record[PID_OCTET] = (uint8_t)(record[PID_CASE] == LAYER_3 ? 0x10 << below(2) : 0x80);
            struct written frame = model_encode(mode, record, RECORD, text, kind == I || kind >= UI ? below(4) : 0);
            if (frame.number != 0) continue;
            memcpy(octets, frame.octets, frame.length);
            examine_bits(octets, frame.length, kind, 14 + 7 * (size_t)record[ROUTE_COUNT]);
        }
    set_end();
    snprintf(line, sizeof line, "%s: of these bits some are excepted, %lu, and the others not, %lu", mode_names[mode], excepted_bits, other_bits);
    say(excepted_bits > 200 && other_bits > 100000, line);
}

/* Too little room for what a call leaves beside its octets: one of the calls, with so many octets and so few sizes. */
static unsigned cramped(unsigned call, const uint8_t *octets, size_t len, struct output *out, struct sizes *sizes) {
    uint8_t record[RECORD], *at = out->lent.at;
    size_t room = out->lent.len;
    plain_record(record, UI);
    switch (call) {
    case 0: return probe_decode(asked, octets, len, at, room, sizes->at, sizes->count);
    case 1: return probe_decode_old(asked, octets, len, at, room, sizes->at, sizes->count);
    case 2: return probe_content(asked, octets + 14, len - 14, at, room % CONTENT);
    case 3: return probe_encode(asked, record, RECORD, text, 2, at, room, sizes->at, 0);
    default: return probe_content_encode(asked, record + KIND, CONTENT, text, 2, at, room, sizes->at, 0);
    }
}

static void run_cramped(void) {
    uint8_t octets[64];
    size_t control = from_hex(PEERS, octets), len = control + from_hex("02 05 F0 41", octets + control);
    begin("too little room for a record, its details or a length");
    look_from(octets, len, show_mode);
    for (size_t room = 0; room <= RECORD + DETAILS; room++)
        for (unsigned call = 0; call < 5; call++) {
            count_input();
            next_turn();
            struct output out = lend_output(room);
            struct sizes sizes = lend_sizes(room < RECORD ? DETAILS : (room - RECORD) % DETAILS);
            unsigned number = cramped(call, octets, len, &out, &sizes);
            look(CRAMPED, number == 24, 24, number);
            look(CRAMPED, untouched(&out) && guards_hold(&out.lent) && sizes_untouched(&sizes) && guards_hold(&sizes.lent), 1, 0);
        }
    set_end();
}

/* Random frames: near to good ones in either mode, with nulls, octets left over and too many repeaters now and then. */
static size_t random_content(uint8_t *out) {
    static const uint8_t controls[] = {0x00, 0x01, 0x05, 0x09, 0x0D, 0x2F, 0x6F, 0x43, 0x0F, 0x63, 0x87, 0x03, 0xAF, 0xE3};
    unsigned control = one_in(5) ? below(256) : controls[below(sizeof controls)];
    size_t len = 0;
    if ((control & 1) == 0) control = below(128) << 1;
    else if ((control & 3) == 1 && one_in(3)) control |= below(16) << 4;
    else if (one_in(2)) control ^= 0x10;
    out[len++] = (uint8_t)control;
    if ((control & 0xEF) == 0x87 && !one_in(3)) {
        for (int i = 0; i < 3; i++) out[len++] = (uint8_t)(one_in(2) ? below(256) : below(16));
        return len;
    }
    if ((control & 3) != 3 && !one_in(8)) out[len++] = (uint8_t)below(256);
    if (one_in(8)) return len;
    for (size_t n = one_in(8) ? below(300) : one_in(3) ? 0 : below(12); n > 0; n--) out[len++] = (uint8_t)below(256);
    return len;
}

static size_t random_frame(uint8_t *out) {
    size_t len = one_in(6) ? 1 + below(12) : 0, groups = 2 + (one_in(3) ? 0 : below(one_in(8) ? 12 : 9)), at = len;
    memset(out, 0, len);
    for (size_t n = groups; n > 0; n--) len += random_group(out + len);
    if (!one_in(6)) out[at + 6] = (uint8_t)((out[at + 6] & 0x7F) | (out[at + 13] & 0x80 ? 0 : 0x80));
    if (one_in(8)) for (size_t n = below(7); n > 0; n--) out[len++] = (uint8_t)(below(128) << 1);
    if (!one_in(40)) out[len - 1] |= 1;
    if (!one_in(20)) len += random_content(out + len);
    return len;
}

/* Fields given anew in a record that was read: numbers over 127, kinds, PIDs, addresses that can't be written. */
static void examine_changed(uint8_t *record, const uint8_t *info, size_t info_len) {
    record[RECEIVE] = (uint8_t)below(256);
    record[SEND] = (uint8_t)below(256);
    if (one_in(2)) record[KIND] = (uint8_t)below(KINDS + 1);
    if (one_in(4)) record[PID_CASE] = (uint8_t)below(17), record[PID_OCTET] = (uint8_t)below(256);
    if (one_in(6)) record[below(ROUTE)] = (uint8_t)below(256);
    if (one_in(8)) record[ROUTE_COUNT] = (uint8_t)below(12);
    examine_record(record, RECORD, info, one_in(4) ? 0 : info_len);
}

static void run_random(unsigned long thousands, uint64_t seed) {
    uint8_t in[1024];
    draw_from(seed);
    memset(met, 0, sizeof met);
    memset(met_old, 0, sizeof met_old);
    memset(met_kind, 0, sizeof met_kind);
    memset(met_reason, 0, sizeof met_reason);
    met_canonical = met_other = 0;
    begin("random frames, what writing gives of them, and damaged copies");
    for (unsigned long n = thousands * 250; n > 0; n--) {
        size_t len = random_frame(in);
        examine_octets(in, len);
        struct answer answer = model_in(mode, in, len);
        if (answer.number == 0) {
            len = answer.length;
            memcpy(in, answer.reencoded, len);
            examine_octets(in, len);
            struct reading read = model_decode(mode, in, len);
            examine_changed(read.record, in + read.details[INFO_START], read.details[INFO_LENGTH]);
        }
        for (int times = 2; times > 0; times--) examine_octets(in, len = damage(in, len));
    }
    set_end();

    static const unsigned decode_numbers[MODES][11] = {{0, 1, 2, 3, 4, 5, 7, 8, 9, 10, 0}, {0, 1, 2, 3, 4, 5, 7, 9, 10, 11, 12}};
    char line[300];
    int at = snprintf(line, sizeof line, "%s: random inputs reach each number, %lu or more of each:", mode_names[mode], thousands), all = 1;
    for (size_t i = 0; i < (mode == SHORT_MODE ? 10 : 11); i++) {
        unsigned number = decode_numbers[mode][i];
        at += snprintf(line + at, sizeof line - (size_t)at, " %u: %lu", number, met[number]);
        all = all && met[number] >= thousands && (number == 10 || met_old[number] >= thousands);
    }
    say(all, line);
    at = snprintf(line, sizeof line, "%s: and each kind but FRMR in the long mode:", mode_names[mode]), all = 1;
    for (unsigned kind = 0; kind < UNKNOWN_KIND; kind++) {
        at += snprintf(line + at, sizeof line - (size_t)at, " %lu", met_kind[kind]);
        all = all && (kind == FRMR && mode == LONG_MODE ? met_kind[kind] == 0 : met_kind[kind] >= thousands);
    }
    snprintf(line + at, sizeof line - (size_t)at, "; canonical: %lu, accepted and not: %lu", met_canonical, met_other);
    say(all && met_canonical >= thousands && met_other >= thousands, line);
    at = snprintf(line, sizeof line, "%s: and each reason:", mode_names[mode]), all = 1;
    for (unsigned code = 0; code < REASONS; code++) {
        at += snprintf(line + at, sizeof line - (size_t)at, " %lu", met_reason[code]);
        all = all && met_reason[code] >= thousands;
    }
    say(all, line);
}

/* What direwolf calls a kind. */
static const char *const kind_names[UNKNOWN_KIND] = {
    "I", "RR", "RNR", "REJ", "SREJ", "SABM", "SABME", "DISC", "DM", "UA", "FRMR", "UI", "XID", "TEST",
};

/* The number behind these words, which are direwolf's; `none` where they are not there. */
static unsigned behind(const char *words, const char *name, unsigned none) {
    const char *at = strstr(words, name);
    return at ? (unsigned)strtoul(at + strlen(name), NULL, 0) : none;
}

static unsigned kind_in(const char *words) {
    const char *at = strchr(words, '(');
    for (unsigned kind = 0; at && kind < UNKNOWN_KIND; kind++) {
        size_t len = strlen(kind_names[kind]);
        if (strncmp(at + 1, kind_names[kind], len) == 0 && at[1 + len] == ' ') return kind;
    }
    return UNKNOWN_KIND;
}

static unsigned long met_connected[MODES][UNKNOWN_KIND];

/* A frame and direwolf's words: kind, N(S), N(R), P or F, PID, and whether it is a command. */
static void examine_connected(const uint8_t *octets, size_t len, const char *words) {
    unsigned kind = kind_in(words), is_response = strstr(words, " res, ") != NULL, pid = behind(words, "pid=", 256);
    size_t control = 14, numbers = mode == LONG_MODE && kind <= SREJ ? 2 : 1;
    struct told told = {0, kind, behind(words, "n(r)=", 0), behind(words, "n(s)=", 0), behind(words, is_response ? ", f=" : ", p=", 2), 0};
    if (kind == I || kind == UI) told.before = numbers + 1;
    if (kind == XID || kind == TEST) told.before = numbers;
    examine_octets(octets, len);
    struct reading port = by_port(octets, len), modelled = model_decode(mode, octets, len);
    look_at_told(&told, &port, control, len);
    look_at_told(&told, &modelled, control, len);
    look(SAID, port.record[MARK] == (is_response ? RESPONSE : COMMAND), is_response, port.record[MARK]);
    if (kind == I) look(SAID, pid == 0xF0 && port.record[PID_CASE] == 13, 13, port.record[PID_CASE]);
    /* A SREJ that asks for several frames has them behind its control field, which is a tail here (docs/DIFFERENCES.md, A4). */
    unsigned has_tail = kind == SREJ && len > control + numbers;
    struct captured capture = {0, !has_tail, kind};
    look_at_reason(SAID, has_tail ? AX25_REASON_TAIL : AX25_REASON_NONE, octets, len);
    look_at_capture(SAID, &capture, octets, len);
    if (kind < UNKNOWN_KIND) met_connected[mode][kind]++;
}

/* Lines of hex with words behind a '#'; '## long' and '## short' say the mode of those that follow. */
static void run_connected(const char *path) {
    static char line[4096];
    uint8_t octets[1024];
    FILE *file = fopen(path, "r");
    if (!file) {
        perror(path);
        exit(2);
    }
    set_begin("frames that direwolf sent in connected mode, each in its mode");
    while (fgets(line, sizeof line, file)) {
        char *words = strchr(line, '#');
        if (strncmp(line, "## ", 3) == 0) mode = strncmp(line, "## long", 7) == 0 ? LONG_MODE : SHORT_MODE;
        if (!words || words == line) continue;
        *words++ = 0;
        examine_connected(octets, from_hex(line, octets), words);
    }
    fclose(file);
    set_end();
    static const unsigned owed_long[] = {I, RR, SREJ, SABME, DISC, UA, XID}, owed_short[] = {I, RR, REJ, SABM, DISC, UA};
    int all = 1;
    printf("  long:");
    for (size_t i = 0; i < sizeof owed_long / sizeof *owed_long; i++) {
        printf(" %s %lu", kind_names[owed_long[i]], met_connected[LONG_MODE][owed_long[i]]);
        all = all && met_connected[LONG_MODE][owed_long[i]] > 0;
    }
    printf("; short:");
    for (size_t i = 0; i < sizeof owed_short / sizeof *owed_short; i++) {
        printf(" %s %lu", kind_names[owed_short[i]], met_connected[SHORT_MODE][owed_short[i]]);
        all = all && met_connected[SHORT_MODE][owed_short[i]] > 0;
    }
    printf("\n");
    say(all && met_connected[LONG_MODE][I] > 128, "direwolf's frames have each of these kinds, and more than 128 I frames modulo 128");
}

int main(int argc, char **argv) {
    unsigned long thousands = argc > 2 ? strtoul(argv[2], NULL, 10) : 100;
    uint64_t seed = argc > 3 ? strtoull(argv[3], NULL, 0) : 0x109;
    if (argc < 2) {
        fprintf(stderr, "usage: long FRAMES [THOUSANDS [SEED]]\n");
        return 2;
    }
    sets_begin();
    input_arena = arena_new(65536);
    info_arena = arena_new(65536);
    output_arena = arena_new(65536);
    sizes_arena = arena_new(65536);
    records_arena = arena_new(65536);
    for (mode = SHORT_MODE; mode < MODES; mode++) {
        run_examples();
        run_first_octets();
        run_two_octets();
        run_frmr();
        run_numbers();
        run_records();
        run_pids();
        run_orders();
        run_unseen();
        run_cramped();
        run_random(thousands, seed);
    }
    run_connected(argv[1]);
    return failures() != 0;
}
