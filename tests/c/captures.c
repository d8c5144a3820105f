#include "captures.h"

#include <stdio.h>
#include <string.h>

#include "ax25.h"
#include "draw.h"
#include "examine.h"
#include "fields.h"
#include "layout.h"
#include "lent.h"
#include "say.h"
#include "sets.h"

#define COUNT(list) (sizeof(list) / sizeof *(list))

/* A frame of a kind that is canonical, one that is not, and a part that is refused. */
#define PLAIN_FRAME(kind) {0, 1, AX25_KIND_##kind}
#define OTHER_FRAME(kind) {0, 0, AX25_KIND_##kind}
#define REFUSED_BY(number) {number, 0, AX25_KIND_UI}
#define OUTSIDE {REFUSED_BY(AX25_PART_OUTSIDE), REFUSED_BY(AX25_PART_OUTSIDE)}

/* What document 02 (M-111) says of each, as the whole of a buffer or as a part of one, in the short mode and in the long one: worked out by
   hand. */
static const struct {
    const char *input;
    struct captured in_mode[MODES];
} examples[] = {
    /* every kind as it is written in the short mode, and in the long one where that differs */
    {PEERS "00 F0", {PLAIN_FRAME(I), REFUSED_BY(5)}},
    {PEERS "FE F0 41", {PLAIN_FRAME(I), PLAIN_FRAME(I)}},
    {PEERS "01", {PLAIN_FRAME(RR), REFUSED_BY(12)}},
    {PEERS "01 00", {OTHER_FRAME(RR), PLAIN_FRAME(RR)}},
    {PEERS "05", {PLAIN_FRAME(RNR), REFUSED_BY(12)}},
    {PEERS "05 11", {OTHER_FRAME(RNR), PLAIN_FRAME(RNR)}},
    {PEERS "09", {PLAIN_FRAME(REJ), REFUSED_BY(12)}},
    {PEERS "09 FE", {OTHER_FRAME(REJ), PLAIN_FRAME(REJ)}},
    {PEERS "0D", {PLAIN_FRAME(SREJ), REFUSED_BY(12)}},
    {PEERS "0D 53", {OTHER_FRAME(SREJ), PLAIN_FRAME(SREJ)}},
    {PEERS "2F", {PLAIN_FRAME(SABM), PLAIN_FRAME(SABM)}},
    {PEERS "6F", {PLAIN_FRAME(SABME), PLAIN_FRAME(SABME)}},
    {PEERS "43", {PLAIN_FRAME(DISC), PLAIN_FRAME(DISC)}},
    {PEERS "0F", {PLAIN_FRAME(DM), PLAIN_FRAME(DM)}},
    {PEERS "63", {PLAIN_FRAME(UA), PLAIN_FRAME(UA)}},
    {PEERS "87 01 02 44", {PLAIN_FRAME(FRMR), REFUSED_BY(11)}},
    {PEERS "03 F0 4F 4B", {PLAIN_FRAME(UI), PLAIN_FRAME(UI)}},
    {PEERS "AF 82 80", {PLAIN_FRAME(XID), PLAIN_FRAME(XID)}},
    {PEERS "E3", {PLAIN_FRAME(TEST), PLAIN_FRAME(TEST)}},
    /* with P/F set, and with a repeater */
    {ROUTED "10 F0", {PLAIN_FRAME(I), REFUSED_BY(5)}},
    {ROUTED "F1", {PLAIN_FRAME(RR), REFUSED_BY(12)}},
    {ROUTED "3F", {PLAIN_FRAME(SABM), PLAIN_FRAME(SABM)}},
    {ROUTED "7F", {PLAIN_FRAME(SABME), PLAIN_FRAME(SABME)}},
    {ROUTED "53", {PLAIN_FRAME(DISC), PLAIN_FRAME(DISC)}},
    {ROUTED "1F", {PLAIN_FRAME(DM), PLAIN_FRAME(DM)}},
    {ROUTED "73", {PLAIN_FRAME(UA), PLAIN_FRAME(UA)}},
    {ROUTED "97 0F FE 00", {PLAIN_FRAME(FRMR), REFUSED_BY(11)}},
    {ROUTED "13 20", {PLAIN_FRAME(UI), PLAIN_FRAME(UI)}},
    {ROUTED "BF", {PLAIN_FRAME(XID), PLAIN_FRAME(XID)}},
    {ROUTED "F3 F0", {PLAIN_FRAME(TEST), PLAIN_FRAME(TEST)}},
    /* each reason against a frame, in kinds that are not UI and in UI */
    {LEFT_OVER "03 F0", {OTHER_FRAME(UI), OTHER_FRAME(UI)}},
    {LEFT_OVER "63", {OTHER_FRAME(UA), OTHER_FRAME(UA)}},
    {UNMARKED "E3 41", {OTHER_FRAME(TEST), OTHER_FRAME(TEST)}},
    {TWICE_MARKED "03 F0 4F 4B", {OTHER_FRAME(UI), OTHER_FRAME(UI)}},
    {PEERS "43 00", {OTHER_FRAME(DISC), OTHER_FRAME(DISC)}},
    {PEERS "01 00 00", {OTHER_FRAME(RR), OTHER_FRAME(RR)}},
    {PEERS "87 F1 02 44", {OTHER_FRAME(FRMR), REFUSED_BY(11)}},
    {PEERS "87 01 03 44", {OTHER_FRAME(FRMR), REFUSED_BY(11)}},
    {PEERS "F1 00", {OTHER_FRAME(RR), OTHER_FRAME(RR)}},
    {PEERS "8D FF", {OTHER_FRAME(SREJ), OTHER_FRAME(SREJ)}},
    /* each number of decoding, and content that would be another kind's */
    {"", {REFUSED_BY(1), REFUSED_BY(1)}},
    {"00 00 00", {REFUSED_BY(1), REFUSED_BY(1)}},
    {"8E 82", {REFUSED_BY(2), REFUSED_BY(2)}},
    {GAUGE "E0 84 9E B0 62 64 41 2F", {REFUSED_BY(3), REFUSED_BY(3)}},
    {PEERS, {REFUSED_BY(4), REFUSED_BY(4)}},
    {PEERS "03", {REFUSED_BY(5), REFUSED_BY(5)}},
    {PEERS "00", {REFUSED_BY(5), REFUSED_BY(12)}},
    {PEERS "00 00", {PLAIN_FRAME(I), REFUSED_BY(5)}},
    {PEERS "07", {REFUSED_BY(7), REFUSED_BY(7)}},
    {PEERS "FF F0 01", {REFUSED_BY(7), REFUSED_BY(7)}},
    {PEERS "87 01 02", {REFUSED_BY(8), REFUSED_BY(11)}},
    {PEERS "97 01 02 44 55", {REFUSED_BY(8), REFUSED_BY(11)}},
    {NINE "2F", {REFUSED_BY(9), REFUSED_BY(9)}},
    {"00 " PEERS "2F", {REFUSED_BY(10), REFUSED_BY(10)}},
};

/* The example frame of document 01, P5, of which every part is named below by its start and its length. */
#define FRAME PEERS "03 F0 4F 4B"
#define TOP (SIZE_MAX / 2 + 1) /* the highest bit alone */
#define WIDE ((size_t)1 << 32)

/* Parts of those 18 octets, worked out by hand. */
static const struct part edges[] = {
    /* inside */
    {0, 18, {PLAIN_FRAME(UI), PLAIN_FRAME(UI)}},
    {0, 17, {PLAIN_FRAME(UI), PLAIN_FRAME(UI)}},
    {0, 16, {PLAIN_FRAME(UI), PLAIN_FRAME(UI)}},
    {0, 15, {REFUSED_BY(5), REFUSED_BY(5)}},
    {0, 14, {REFUSED_BY(4), REFUSED_BY(4)}},
    {0, 13, {REFUSED_BY(2), REFUSED_BY(2)}},
    {0, 1, {REFUSED_BY(2), REFUSED_BY(2)}},
    {0, 0, {REFUSED_BY(1), REFUSED_BY(1)}},
    {1, 17, {REFUSED_BY(3), REFUSED_BY(3)}},
    {13, 5, {REFUSED_BY(3), REFUSED_BY(3)}},
    {14, 4, {REFUSED_BY(3), REFUSED_BY(3)}},
    {15, 1, {REFUSED_BY(2), REFUSED_BY(2)}},
    {17, 1, {REFUSED_BY(3), REFUSED_BY(3)}},
    {17, 0, {REFUSED_BY(1), REFUSED_BY(1)}},
    {18, 0, {REFUSED_BY(1), REFUSED_BY(1)}}, /* at the very end */
    /* beyond the end */
    {19, 0, OUTSIDE},
    {18, 1, OUTSIDE},
    {17, 2, OUTSIDE},
    {1, 18, OUTSIDE},
    {0, 19, OUTSIDE},
    {19, 1, OUTSIDE},
    {20, 18, OUTSIDE},
    {0, SIZE_MAX, OUTSIDE},
    {SIZE_MAX, 0, OUTSIDE},
    {SIZE_MAX - 18, 18, OUTSIDE}, /* the largest sum that does not wrap */
    {TOP, 0, OUTSIDE},
    {0, TOP, OUTSIDE},
    {TOP - 1, TOP, OUTSIDE},
    /* beyond the end, and inside by the lower 32 bits */
    {WIDE, 18, OUTSIDE},
    {0, WIDE + 18, OUTSIDE},
    {WIDE, WIDE, OUTSIDE},
    {WIDE - 1, 1, OUTSIDE},
    {WIDE - 1, 19, OUTSIDE},
    /* sums that wrap: to 0, to less than the frame, to just the frame, to more, to the largest */
    {SIZE_MAX, 1, OUTSIDE},
    {SIZE_MAX, 2, OUTSIDE},
    {SIZE_MAX, 19, OUTSIDE},
    {SIZE_MAX, 20, OUTSIDE},
    {SIZE_MAX, SIZE_MAX, OUTSIDE},
    {SIZE_MAX - 17, 18, OUTSIDE},
    {SIZE_MAX - 17, 36, OUTSIDE},
    {1, SIZE_MAX, OUTSIDE},
    {2, SIZE_MAX, OUTSIDE},
    {18, SIZE_MAX, OUTSIDE},
    {19, SIZE_MAX, OUTSIDE},
    {20, SIZE_MAX, OUTSIDE},
    {TOP, TOP, OUTSIDE},
    {TOP, TOP + 18, OUTSIDE},
    {TOP + 14, TOP + 4, OUTSIDE},
};

/* Parts of no octets. */
static const struct part of_nothing[] = {
    {0, 0, {REFUSED_BY(1), REFUSED_BY(1)}},
    {1, 0, OUTSIDE},
    {0, 1, OUTSIDE},
    {SIZE_MAX, 0, OUTSIDE},
    {SIZE_MAX, 1, OUTSIDE},
    {1, SIZE_MAX, OUTSIDE},
    {TOP, TOP, OUTSIDE},
};

static int model_gives = 1;

static void look_at_model(const uint8_t *in, size_t len, const struct part *part) {
    struct part says = part_of(in, len, part->start, part->length);
    for (int mode = 0; mode < MODES; mode++)
        model_gives = model_gives && says.in_mode[mode].number == part->in_mode[mode].number &&
                      says.in_mode[mode].canonical == part->in_mode[mode].canonical && says.in_mode[mode].kind == part->in_mode[mode].kind;
}

/* The examples in a row, in one buffer, each a part of it. */
static uint8_t row[COUNT(examples) * 128];
static struct part in_row[COUNT(examples)];
static size_t row_len;

static void make_row(void) {
    for (size_t i = 0; i < COUNT(examples); i++) {
        struct part *part = &in_row[i];
        part->start = row_len;
        part->length = from_hex(examples[i].input, row + row_len);
        memcpy(part->in_mode, examples[i].in_mode, sizeof part->in_mode);
        row_len += part->length;
        look_at_model(row, row_len, part);
    }
}

/* Each as a whole buffer; then all of them, from the first to the last and back, so that each has another before it. */
static void run_examples(void) {
    struct part both_ways[2 * COUNT(in_row)];
    set_begin("captures, examples worked out by hand, each a buffer");
    for (size_t i = 0; i < COUNT(in_row); i++) {
        struct part alone = in_row[i];
        alone.start = 0;
        examine_captures_everywhere(row + in_row[i].start, in_row[i].length, &alone, 1);
    }
    set_end();
    for (size_t i = 0; i < COUNT(in_row); i++) both_ways[i] = both_ways[COUNT(both_ways) - 1 - i] = in_row[i];
    set_begin("captures, the examples in one buffer, by one call");
    examine_captures_everywhere(row, row_len, in_row, COUNT(in_row));
    examine_captures_everywhere(row, row_len, both_ways, COUNT(both_ways));
    set_end();
}

/* All in one call, in this order and from the last to the first, and each in a call of its own. */
static void examine_edges(const uint8_t *in, size_t len, const struct part *parts, size_t count) {
    struct part turned[COUNT(edges)];
    for (size_t i = 0; i < count; i++) turned[i] = parts[count - 1 - i];
    examine_captures_everywhere(in, len, parts, count);
    examine_captures_everywhere(in, len, turned, count);
    for (size_t i = 0; i < count; i++) {
        examine_captures_everywhere(in, len, &parts[i], 1);
        look_at_model(in, len, &parts[i]);
    }
}

static void run_edges(void) {
    uint8_t in[32];
    set_begin("captures, parts inside, at the end, beyond it, and with sums that wrap");
    examine_edges(in, from_hex(FRAME, in), edges, COUNT(edges));
    examine_edges(in, 0, of_nothing, COUNT(of_nothing));
    set_end();
}

/* Every start and every length up to three octets beyond the end of a small buffer, by one call. */
static void run_pairs(void) {
    enum { MOST = 26, BEYOND_END = 3 };
    static const char *const buffers[] = {ROUTED "03 F0 4F 4B 01", "7E " PEERS "02 05 F0 41 42 43 44 45 46 47", PEERS "87 F1 02 44 " GAUGE "E1 01"};
    static const size_t lens[] = {0, 1, 13, 14, 15, 16, 18, 21, 22, 23, 25, MOST};
    static struct part parts[(MOST + BEYOND_END + 1) * (MOST + BEYOND_END + 1)];
    uint8_t in[64];
    set_begin("captures, every start and length in small buffers, and beyond them");
    for (size_t b = 0; b < COUNT(buffers); b++) {
        from_hex(buffers[b], in);
        for (size_t i = 0; i < COUNT(lens); i++) {
            size_t count = 0;
            for (size_t start = 0; start <= lens[i] + BEYOND_END; start++)
                for (size_t length = 0; length <= lens[i] + BEYOND_END; length++) parts[count++] = part_of(in, lens[i], start, length);
            for (unsigned place = 0; place < CAPTURE_PLACES; place += PLACES + 1) examine_captures(in, lens[i], parts, count, place);
        }
    }
    set_end();
}

/* So many records are filled, and no other: each number of them from none on, in every place. */
static void run_counts(void) {
    set_begin("captures, calls for 0 to 40 records");
    for (size_t count = 0; count <= 40; count++) examine_captures_everywhere(row, row_len, in_row + count % 7, count);
    set_end();
}

/* More records than 16 bits count, in an order that goes over the row again and again by steps. */
static void run_many(void) {
    static struct part parts[MOST_PARTS];
    for (size_t i = 0; i < MOST_PARTS; i++) parts[i] = in_row[i * 31 % COUNT(in_row)];
    set_begin("captures, one call for 70,000 records");
    examine_captures(row, row_len, parts, MOST_PARTS, 1);
    set_end();
}

/* Whether a call asked for by this number reads RR with one octet behind it as this mode does: a tail there is canonical here. */
static int is_read_in(enum mode mode, uint32_t number) {
    uint8_t in[32];
    struct ax25_capture records[2] = {{0, from_hex(PEERS "01 00", in), 99, 99, 99}, {0, 15, 99, 99, 99}};
    ax25_captures(in, records[0].length, number, records, 2);
    return records[0].number == 0 && records[0].canonical == (mode == LONG_MODE) && records[0].kind == AX25_KIND_RR &&
           records[1].number == (mode == LONG_MODE ? 12 : 0) && records[1].canonical == (mode == SHORT_MODE);
}

/* Octets of a register above those of an argument mean nothing: a caller may leave anything there. */
static int is_read_by_low_half(uint64_t wide, int want_canonical) {
    typedef void by_registers(const uint8_t *, size_t, uint64_t, struct ax25_capture *, size_t);
    static void (*volatile const call)(void) = (void (*)(void))ax25_captures; /* which the compiler can't see through */
    uint8_t in[32];
    struct ax25_capture record = {0, from_hex(PEERS "01 00", in), 99, 99, 99};
    ((by_registers *)call)(in, record.length, wide, &record, 1);
    return record.number == 0 && record.canonical == want_canonical && record.kind == AX25_KIND_RR;
}

static void run_modes(void) {
    static const uint32_t others[] = {3, 255, 257, 0x7FFFFFFF, 0x80000001, 0xFFFFFFFE, 0xFFFFFFFF};
    int all = 1;
    for (int bit = 0; bit < 32; bit++) all = all && is_read_in(LONG_MODE, (uint32_t)1 << bit);
    for (size_t i = 0; i < COUNT(others); i++) all = all && is_read_in(LONG_MODE, others[i]);
    say(all, "ax25_captures reads in the long mode where any bit of the mode is set");
    say(is_read_in(SHORT_MODE, 0), "and in the short mode where none is");
    say(is_read_by_low_half(0x100000000, 0) && is_read_by_low_half(0xFFFFFFFF00000000, 0) && is_read_by_low_half(0x500000001, 1),
        "and what a caller leaves in the register above the mode plays no part");
}

/* An empty buffer may have any pointer that is not null, and so may no records. */
static void run_empty(void) {
    const uint8_t *nowhere = (const uint8_t *)(uintptr_t)1;
    struct ax25_capture records[] = {{0, 0, 99, 99, 99}, {0, 1, 99, 99, 99}}, before[COUNT(records)];
    static uint8_t kept[sizeof row];
    memcpy(before, records, sizeof before);
    memcpy(kept, row, sizeof kept);
    ax25_captures(nowhere, 0, 0, (struct ax25_capture *)(uintptr_t)1, 0);
    ax25_captures(row, row_len, 1, (struct ax25_capture *)(uintptr_t)1, 0);
    ax25_captures(row, row_len, 0, records, 0);
    say(memcmp(before, records, sizeof before) == 0 && memcmp(kept, row, sizeof kept) == 0,
        "ax25_captures of no records touches nothing, also where their pointer leads nowhere");
    ax25_captures(nowhere, 0, 0, records, COUNT(records));
    say(records[0].number == 1 && records[0].canonical == 0 && records[0].kind == AX25_KIND_UI && records[1].number == AX25_PART_OUTSIDE &&
            records[1].canonical == 0 && records[1].kind == AX25_KIND_UI,
        "ax25_captures of nothing at a pointer that leads nowhere: an empty part is 1, and any other 61");
}

/* Fields that hold nothing yet, which a memory checker sees: no answer may depend on them. */
static void run_unset(void) {
    struct ax25_capture records[COUNT(in_row) + COUNT(edges)];
    int all = 1;
    for (size_t i = 0; i < COUNT(records); i++) {
        const struct part *part = i < COUNT(in_row) ? &in_row[i] : &edges[i - COUNT(in_row)];
        records[i].start = part->start;
        records[i].length = part->length;
    }
    ax25_captures(row, row_len, 0, records, COUNT(records));
    for (size_t i = 0; i < COUNT(records); i++) {
        struct captured want = model_capture(SHORT_MODE, row, row_len, records[i].start, records[i].length);
        all = all && records[i].number == want.number && records[i].canonical == want.canonical && records[i].kind == want.kind;
    }
    say(all, "ax25_captures fills records in which nothing but start and length was ever set");
}

/* A day that is drawn: frames, some of them as they are written in one of the modes, and octets, in a row. */
enum { DAY_FRAMES = 20, DAY_PARTS = 64 };
static uint8_t day[DAY_FRAMES * DRAWN];
static size_t day_len, day_starts[DAY_FRAMES + 1], day_frames;

static size_t draw_capture(uint8_t *out) {
    if (one_in(6)) return draw_octets(out);
    size_t len = draw_frame(out);
    if (one_in(2)) return len;
    struct answer written = model_in(one_in(2) ? SHORT_MODE : LONG_MODE, out, len);
    if (written.number != 0) return len;
    memcpy(out, written.reencoded, written.length);
    return written.length;
}

static void draw_day(void) {
    day_frames = 1 + below(DAY_FRAMES);
    day_len = 0;
    for (size_t i = 0; i < day_frames; i++) {
        day_starts[i] = day_len;
        day_len += draw_capture(day + day_len);
    }
    day_starts[day_frames] = day_len;
}

/* Mostly one of the frames; else with an octet more or less at either end, or several of them; or any place and any length, up to the end or
   a little beyond it; or a sum that wraps to a place inside or near the end. */
static struct part draw_part(void) {
    size_t which = below((unsigned)day_frames), start = day_starts[which], length = day_starts[which + 1] - start, end = day_len;
    switch (below(14)) {
    case 0: start += one_in(2) ? 1 : SIZE_MAX; break;
    case 1: length += one_in(2) ? 1 : SIZE_MAX; break;
    case 2: length = day_starts[which + 1 + below((unsigned)(day_frames - which))] - start; break;
    case 3: length = below((unsigned)(end - start) + 1); break;
    case 4:
        start = below((unsigned)end + 1);
        length = below((unsigned)(end - start) + 1);
        break;
    case 5: length = end - start + below(3); break;
    case 6:
        start = end + below(3);
        length = below(2);
        break;
    case 7: length = 0 - start + below((unsigned)end + 3); break;
    case 8: start = 0 - length + below((unsigned)end + 3); break;
    default: break;
    }
    return part_of(day, day_len, start, length);
}

enum { NUMBERS = 62, KIND_COUNT = 14 };
static unsigned long met[MODES][NUMBERS], met_kind[MODES][2][KIND_COUNT], met_wrapped;

static void count_part(const struct part *part) {
    for (int mode = 0; mode < MODES; mode++) {
        const struct captured *want = &part->in_mode[mode];
        met[mode][want->number]++;
        if (want->number == 0) met_kind[mode][want->canonical][want->kind]++;
    }
    met_wrapped += part->start + part->length < part->start && part->start + part->length <= day_len;
}

/* Says whether each number, and each kind of frames that are canonical and of others, was met so often or more in this mode. FRMR is met in
   the short one alone, and frames of every kind can be others than canonical ones, by their marks. */
static void say_all_met(enum mode mode, unsigned long least) {
    static const unsigned numbers[MODES][12] = {{0, 1, 2, 3, 4, 5, 7, 8, 9, 10, 61, 61}, {0, 1, 2, 3, 4, 5, 7, 9, 10, 11, 12, 61}};
    static const char *const names[MODES] = {"short", "long"};
    char line[400];
    int all = 1, at = snprintf(line, sizeof line, "captures of random days in the %s mode reach each number, %lu or more of each:", names[mode], least);
    for (size_t i = 0; i < (mode == SHORT_MODE ? 11 : 12); i++) {
        all = all && met[mode][numbers[mode][i]] >= least;
        at += snprintf(line + at, sizeof line - (size_t)at, " %u: %lu", numbers[mode][i], met[mode][numbers[mode][i]]);
    }
    say(all, line);
    all = 1;
    at = snprintf(line, sizeof line, "and frames of each kind%s, canonical and not:", mode == LONG_MODE ? " but FRMR" : "");
    for (size_t kind = 0; kind < KIND_COUNT; kind++) {
        int is_given = mode == SHORT_MODE || kind != AX25_KIND_FRMR;
        for (int canonical = 0; canonical < 2; canonical++)
            all = all && (is_given ? met_kind[mode][canonical][kind] >= least : met_kind[mode][canonical][kind] == 0);
        at += snprintf(line + at, sizeof line - (size_t)at, " %lu %lu,", met_kind[mode][1][kind], met_kind[mode][0][kind]);
    }
    line[at - 1] = 0;
    say(all, line);
}

static void run_days(unsigned long thousands, uint64_t seed) {
    static struct part parts[DAY_PARTS];
    char line[160];
    draw_from(seed);
    set_begin("captures, random days");
    for (unsigned long n = thousands * 20; n > 0; n--) {
        size_t count = below(DAY_PARTS + 1);
        draw_day();
        for (size_t i = 0; i < count; i++) {
            parts[i] = draw_part();
            count_part(&parts[i]);
        }
        examine_captures(day, day_len, parts, count, below(CAPTURE_PLACES));
    }
    set_end();
    for (int mode = 0; mode < MODES; mode++) say_all_met((enum mode)mode, thousands / 2);
    snprintf(line, sizeof line, "and of the parts outside %lu, %lu or more, have a sum that wraps to a place inside", met_wrapped, thousands);
    say(met_wrapped >= thousands, line);
}

void run_captures(unsigned long thousands, uint64_t seed) {
    make_row();
    run_examples();
    run_edges();
    say(model_gives, "the model that captures are held to gives these examples");
    run_pairs();
    run_counts();
    run_many();
    run_modes();
    run_empty();
    run_unset();
    run_days(thousands, seed);
}
