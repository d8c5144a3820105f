#include "reasons.h"

#include <stdio.h>
#include <string.h>

#include "ax25.h"
#include "examine.h"
#include "fields.h"
#include "lent.h"
#include "say.h"
#include "sets.h"

#define COUNT(list) (sizeof(list) / sizeof *(list))

#define SAYS(reason) {AX25_REASON_##reason, 0, 0}
#define REFUSED_BY(number, place) {AX25_REASON_REFUSED, number, place}

/* What document 02 (M-110) says of each in the short mode and in the long one, worked out by hand. */
static const struct {
    const char *input;
    struct reason in_mode[MODES];
} examples[] = {
    /* the numbers before content, which no mode changes */
    {"", {REFUSED_BY(1, 0), REFUSED_BY(1, 0)}},
    {"00 00 00", {REFUSED_BY(1, 0), REFUSED_BY(1, 0)}},
    {"8E 82", {REFUSED_BY(2, 0), REFUSED_BY(2, 0)}},
    {GAUGE "E0 84 9E B0 62 64 41", {REFUSED_BY(3, 12), REFUSED_BY(3, 12)}},
    {"8F " PEERS "03 F0", {REFUSED_BY(3, 0), REFUSED_BY(3, 0)}},
    {PEERS, {REFUSED_BY(4, 13), REFUSED_BY(4, 13)}},
    {ROUTED, {REFUSED_BY(4, 20), REFUSED_BY(4, 20)}},
    {NINE, {REFUSED_BY(4, 76), REFUSED_BY(4, 76)}},
    {NINE "01", {REFUSED_BY(9, 70), REFUSED_BY(9, 70)}},
    {"00 " PEERS "03 F0", {REFUSED_BY(10, 0), REFUSED_BY(10, 0)}},
    {"00 00 02", {REFUSED_BY(10, 0), REFUSED_BY(10, 0)}},
    /* those of content */
    {PEERS "03", {REFUSED_BY(5, 14), REFUSED_BY(5, 14)}},
    {ROUTED "13", {REFUSED_BY(5, 21), REFUSED_BY(5, 21)}},
    {PEERS "00", {REFUSED_BY(5, 14), REFUSED_BY(12, 14)}},
    {PEERS "07", {REFUSED_BY(7, 14), REFUSED_BY(7, 14)}},
    {PEERS "87 01 02", {REFUSED_BY(8, 14), REFUSED_BY(11, 14)}},
    {ROUTED "87 01 02 44 55", {REFUSED_BY(8, 21), REFUSED_BY(11, 21)}},
    {UNMARKED_LEFT_OVER "03", {REFUSED_BY(5, 15), REFUSED_BY(5, 15)}},
    /* frames that are canonical in both modes */
    {PEERS "03 F0 4F 4B", {SAYS(NONE), SAYS(NONE)}},
    {ROUTED "03 20", {SAYS(NONE), SAYS(NONE)}},
    {PEERS "00 00 F0", {SAYS(NONE), SAYS(NONE)}},
    {PEERS "6F", {SAYS(NONE), SAYS(NONE)}},
    {PEERS "AF 82 80", {SAYS(NONE), SAYS(NONE)}},
    {PEERS "E3", {SAYS(NONE), SAYS(NONE)}},
    /* and in one of them */
    {PEERS "00 F0", {SAYS(NONE), REFUSED_BY(5, 14)}},
    {PEERS "0D", {SAYS(NONE), REFUSED_BY(12, 14)}},
    {PEERS "87 01 02 44", {SAYS(NONE), REFUSED_BY(11, 14)}},
    {PEERS "01 AA", {SAYS(TAIL), SAYS(NONE)}},
    /* ignored bits, in FRMR and in S of the long mode */
    {PEERS "87 F1 03 44", {SAYS(FIXED), REFUSED_BY(11, 14)}},
    {PEERS "87 11 02 44", {SAYS(FIXED), REFUSED_BY(11, 14)}},
    {PEERS "87 01 03 44", {SAYS(FIXED), REFUSED_BY(11, 14)}},
    {PEERS "F1 00", {SAYS(TAIL), SAYS(FIXED)}},
    {PEERS "1D FF", {SAYS(TAIL), SAYS(FIXED)}},
    {PEERS "F1", {SAYS(NONE), REFUSED_BY(12, 14)}},
    /* tails: of U from the second octet on, of S in the long mode from the third on */
    {PEERS "73 00", {SAYS(TAIL), SAYS(TAIL)}},
    {PEERS "01 00 00", {SAYS(TAIL), SAYS(TAIL)}},
    {PEERS "F1 00 00", {SAYS(TAIL), SAYS(TAIL)}},
    /* marks, before tails and ignored bits */
    {UNMARKED "03 F0", {SAYS(MARKS), SAYS(MARKS)}},
    {TWICE_MARKED "03 F0", {SAYS(MARKS), SAYS(MARKS)}},
    {UNMARKED "73 00", {SAYS(MARKS), SAYS(MARKS)}},
    {TWICE_MARKED "87 F1 03 44", {SAYS(MARKS), REFUSED_BY(11, 14)}},
    {TWICE_MARKED "F1 00", {SAYS(MARKS), SAYS(MARKS)}},
    /* octets left over, before everything else; a flag and the start of a KISS packet make such */
    {LEFT_OVER "03 F0", {SAYS(LEFTOVER), SAYS(LEFTOVER)}},
    {UNMARKED_LEFT_OVER "73 00", {SAYS(LEFTOVER), SAYS(LEFTOVER)}},
    {LEFT_OVER "87 F1 03 44", {SAYS(LEFTOVER), REFUSED_BY(11, 15)}},
    {"7E " PEERS "03 F0 4F 4B 90 05 7E", {SAYS(LEFTOVER), SAYS(LEFTOVER)}},
    {"C0 00 " PEERS "03 F0 4F 4B C0", {SAYS(LEFTOVER), SAYS(LEFTOVER)}},
    /* a check sequence that was left on RR */
    {PEERS "01 F3 AF", {SAYS(TAIL), SAYS(TAIL)}},
};

static int model_gives = 1, model_holds = 1, model_knows = 1;

/* Whether the model gives this answer, and has no reason exactly where it writes the input as it is. */
static void look_at_model(enum mode mode, const uint8_t *in, size_t len, const struct reason *want) {
    struct reason says = model_reason(mode, in, len);
    model_gives = model_gives && says.code == want->code && says.number == want->number && says.place == want->place;
    model_holds = model_holds && (says.code == AX25_REASON_NONE) == model_in(mode, in, len).canonical;
}

static void run_examples(void) {
    uint8_t in[128];
    set_begin("the reason, examples worked out by hand");
    for (size_t i = 0; i < COUNT(examples); i++)
        for (int mode = 0; mode < MODES; mode++) {
            size_t len = from_hex(examples[i].input, in);
            examine_reason_everywhere((enum mode)mode, in, len, &examples[i].in_mode[mode]);
            look_at_model((enum mode)mode, in, len, &examples[i].in_mode[mode]);
        }
    set_end();
}

static const char *const set_names[MODES] = {"the reason in the short mode", "the reason in the long mode"};

static void begin(enum mode mode, const char *what) {
    static char name[160];
    snprintf(name, sizeof name, "%s, %s", set_names[mode], what);
    set_begin(name);
}

/* One input that was made, in each place a buffer can have in turn. */
static void examine_made(enum mode mode, const uint8_t *in, size_t len, const struct reason *want) {
    static unsigned turn;
    examine_reason(mode, in, len, want, turn++ % PLACES);
    look_at_model(mode, in, len, want);
}

/* An address field of `span` octets; the marks are the destination's and, by bit 1, the source's. */
static size_t put_field(uint8_t *out, size_t span, unsigned marks) {
    for (size_t i = 0; i < span; i++) out[i] = i % 7 == 6 ? 0x60 : 0x82;
    if (span > 6) out[6] |= (uint8_t)((marks & 1) << 7);
    if (span > 13) out[13] |= (uint8_t)((marks >> 1) << 7);
    out[span - 1] |= 1;
    return span;
}

/* What octets behind the content of a kind are. */
enum behind { INFO, A_TAIL, REFUSED_BY_8 };

/* Each kind, in the order of the header's enum, as it is written, its numbers and flags 0, or NULL where it is refused; and which bits of
   its first three octets are ignored. */
static const struct {
    const char *content[MODES];
    enum behind behind;
    uint8_t ignored[MODES][3];
} kinds[] = {
    {{"00 F0", "00 00 F0"}, INFO, {{0}, {0}}},
    {{"01", "01 00"}, A_TAIL, {{0}, {0xF0}}},
    {{"05", "05 00"}, A_TAIL, {{0}, {0xF0}}},
    {{"09", "09 00"}, A_TAIL, {{0}, {0xF0}}},
    {{"0D", "0D 00"}, A_TAIL, {{0}, {0xF0}}},
    {{"2F", "2F"}, A_TAIL, {{0}, {0}}},
    {{"6F", "6F"}, A_TAIL, {{0}, {0}}},
    {{"43", "43"}, A_TAIL, {{0}, {0}}},
    {{"0F", "0F"}, A_TAIL, {{0}, {0}}},
    {{"63", "63"}, A_TAIL, {{0}, {0}}},
    {{"87 00 00 00", NULL}, REFUSED_BY_8, {{0, 0xF0, 0x01}, {0}}},
    {{"03 F0", "03 F0"}, INFO, {{0}, {0}}},
    {{"AF", "AF"}, INFO, {{0}, {0}}},
    {{"E3", "E3"}, INFO, {{0}, {0}}},
};

/* A frame of one of them: how many repeaters, octets left over and octets behind its content there are; the two marks; and the ignored bit
   that is set, counted from the control octet's lowest on, or NO_BIT. */
struct made {
    size_t kind, repeaters, leftover, more;
    unsigned marks, bit;
};
enum { NO_BIT = 24 };

static int is_ignored(enum mode mode, const struct made *m) {
    return m->bit < NO_BIT && kinds[m->kind].ignored[mode][m->bit / 8] >> m->bit % 8 & 1;
}

/* By the first that holds. */
static unsigned reason_of(enum mode mode, const struct made *m) {
    if (m->leftover > 0) return AX25_REASON_LEFTOVER;
    if (m->marks == 0 || m->marks == 3) return AX25_REASON_MARKS;
    if (m->more > 0 && kinds[m->kind].behind == A_TAIL) return AX25_REASON_TAIL;
    return is_ignored(mode, m) ? AX25_REASON_FIXED : AX25_REASON_NONE;
}

static void examine_frame(enum mode mode, const struct made *m) {
    uint8_t in[512];
    size_t control = put_field(in, 14 + 7 * m->repeaters + m->leftover, m->marks);
    size_t len = control + from_hex(kinds[m->kind].content[mode], in + control);
    if (m->bit < NO_BIT) in[control + m->bit / 8] |= (uint8_t)(1u << m->bit % 8);
    memset(in + len, 0xB5, m->more);
    struct reason want = {reason_of(mode, m), 0, 0};
    owe(want.code);
    examine_made(mode, in, len + m->more, &want);
    model_knows = model_knows && model_capture(mode, in, len + m->more, 0, len + m->more).kind == m->kind;
}

/* With none of the ignored bits set, and with each alone. */
static void examine_bits(enum mode mode, struct made *m) {
    for (m->bit = 0; m->bit <= NO_BIT; m->bit++)
        if (m->bit == NO_BIT || is_ignored(mode, m)) examine_frame(mode, m);
}

static void examine_kind(enum mode mode, struct made *m) {
    static const size_t leftovers[] = {0, 1, 6}, mores[] = {0, 1, 255, 256};
    size_t accepted = kinds[m->kind].behind == REFUSED_BY_8 ? 1 : COUNT(mores);
    for (size_t i = 0; i < COUNT(leftovers); i++)
        for (m->marks = 0; m->marks < 4; m->marks++)
            for (size_t j = 0; j < accepted; j++) {
                m->leftover = leftovers[i];
                m->more = mores[j];
                examine_bits(mode, m);
            }
}

static void run_frames(enum mode mode) {
    static const unsigned codes[] = {AX25_REASON_NONE, AX25_REASON_LEFTOVER, AX25_REASON_MARKS, AX25_REASON_TAIL, AX25_REASON_FIXED};
    struct made m;
    begin(mode, "frames of every kind with each set of reasons");
    for (m.kind = 0; m.kind < COUNT(kinds); m.kind++)
        for (m.repeaters = 0; m.repeaters <= 8 && kinds[m.kind].content[mode]; m.repeaters += 4) examine_kind(mode, &m);
    set_end();
    say_met(codes, COUNT(codes), 20);
}

static void examine_refused(enum mode mode, const uint8_t *in, size_t len, unsigned number, size_t place) {
    struct reason want = REFUSED_BY(number, place);
    owe(number);
    examine_made(mode, in, len, &want);
}

/* Content by its number in each mode; where that is 0 it is accepted, and not looked at here. */
static const struct {
    const char *content;
    unsigned number[MODES];
} contents[] = {
    {"", {4, 4}}, {"03", {5, 5}}, {"13", {5, 5}}, {"00", {5, 12}}, {"FE", {5, 12}}, {"00 F0", {0, 5}}, {"F1", {0, 12}}, {"0D", {0, 12}},
    {"07", {7, 7}}, {"FF F0 01", {7, 7}}, {"87", {8, 11}}, {"97 01 02 44", {0, 11}}, {"87 01 02 44 55", {8, 11}},
};

/* Behind an address field of `span` octets, of which the end is the last; and all that behind one to nine nulls. */
static void examine_span(enum mode mode, size_t span, size_t content) {
    uint8_t in[128] = {0};
    unsigned number = contents[content].number[mode];
    size_t nulls = 1 + span % 9, len = put_field(in + nulls, span, 1);
    len += from_hex(contents[content].content, in + nulls + len);
    examine_refused(mode, in, nulls + len, 10, 0);
    if (span < 14) examine_refused(mode, in + nulls, len, 3, span - 1);
    else if (number == 4) examine_refused(mode, in + nulls, len, 4, span - 1);
    else if (span >= 77) examine_refused(mode, in + nulls, len, 9, 70);
    else if (number != 0) examine_refused(mode, in + nulls, len, number, span);
}

static void run_refusals(enum mode mode) {
    static const unsigned short_numbers[] = {1, 2, 3, 4, 5, 7, 8, 9, 10}, long_numbers[] = {1, 2, 3, 4, 5, 7, 9, 10, 11, 12};
    uint8_t in[128];
    begin(mode, "the place of every number, with spans 1 to 90");
    for (size_t span = 1; span <= 90; span++) {
        for (size_t content = 0; content < COUNT(contents); content++) examine_span(mode, span, content);
        memset(in, 0, span);
        examine_refused(mode, in, span, 1, 0);
        put_field(in, span, 1);
        in[span - 1] ^= 1;
        examine_refused(mode, in, span, 2, 0);
    }
    set_end();
    if (mode == SHORT_MODE) say_met(short_numbers, COUNT(short_numbers), 50);
    else say_met(long_numbers, COUNT(long_numbers), 50);
}

/* An empty input may have any pointer that is not null. */
static void run_empty(void) {
    const uint8_t *nowhere = (const uint8_t *)(uintptr_t)1;
    uint32_t number = 99;
    size_t place = 99;
    say(ax25_reason(nowhere, 0, 0, &number, &place) == AX25_REASON_REFUSED && number == 1 && place == 0,
        "ax25_reason of nothing at a pointer that leads nowhere is refused by 1");
}

void run_reasons(void) {
    run_examples();
    for (int mode = 0; mode < MODES; mode++) {
        run_frames((enum mode)mode);
        run_refusals((enum mode)mode);
    }
    say(model_gives, "the model that the reason is held to gives these examples, and what follows from how the others were made");
    say(model_holds, "and it has no reason exactly where it writes the input as it is");
    say(model_knows, "and the model that captures are held to gives those frames the kind of which they were made");
    run_empty();
}
