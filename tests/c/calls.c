/* The twelve calls: those on frames on document 01's examples, on every octet string of length 0 to 2, and on random, damaged and
   long frames; the reason, captures, a recorded link, the relay, KISS packets and a serial line by reasons.c, captures.c, link.c, relays.c,
   kiss.c and stream.c.
   usage: calls [THOUSANDS [SEED]]: that many thousand random inputs */
#include <stdio.h>
#include <stdlib.h>
#include <string.h>

#include "ax25.h"
#include "callsigns.h"
#include "captures.h"
#include "draw.h"
#include "examine.h"
#include "kiss.h"
#include "link.h"
#include "reasons.h"
#include "relays.h"
#include "say.h"
#include "sets.h"
#include "stream.h"

/* Document 01's example frame, and its 14 address octets. */
#define ADDRESS GAUGE "E0 " BOX12 "67 "
#define FRAME ADDRESS "03 F0 4F 4B"
/* What such a frame is written anew as, where an octet stands before it: each address begins one octet early, and the last is left over.
   Neither of the two marks is set then, so it becomes a Command. */
#define SHIFTED_BY_ONE(octet, content) octet "8E 82 AA 8E 8A C0 E0 84 9E B0 62 64 41 " content
#define UI "03 F0 4F 4B "
/* 13 octets of them, which is one too few. */
#define SHORT GAUGE "E0 84 9E B0 62 64 41 "
/* The address octets with the repeater HILL1-2, and three of it. */
#define ROUTED GAUGE "E0 " BOX12 "66 " HILL1 "65 "
#define THREE HILL1 "64 " HILL1 "64 " HILL1 "64 "

/* A canonical frame, which re-encodes as itself; another, and what it re-encodes as; an input that is refused; and one that is refused
   because of its nulls, and what it is as an old capture. */
#define CANONICAL_FRAME(name, octets) {name, octets, 0, 0, 1, octets}
#define OTHER_FRAME(name, octets, reencoded) {name, octets, 0, 0, 0, reencoded}
#define REFUSED_INPUT(name, octets, number) {name, octets, number, number, 0, ""}
#define BEHIND_NULLS(name, octets, old) {name, octets, 10, old, 0, ""}

/* P1 to P13: what document 01 says of each, and document 02 of P13 (M-105), of P6 (M-108), of P8 and of P9 (M-109); then reserved bits,
   bit 6 first, as document 02 has them (M-106), nulls (M-108), SREJ, SABME, XID and TEST (M-109), and what is left on before and behind a
   frame, as the header has it. Worked out by hand. */
static const struct {
    const char *name, *input;
    unsigned number, old, canonical;
    const char *reencoded;
} examples[] = {
    REFUSED_INPUT("P1", "", 1),
    REFUSED_INPUT("P2", "8E 82", 2),
    REFUSED_INPUT("P3", SHORT, 3),
    REFUSED_INPUT("P4", ADDRESS, 4),
    CANONICAL_FRAME("P5", FRAME),
    BEHIND_NULLS("P6", "00 " FRAME, 0),
    REFUSED_INPUT("P7", ADDRESS "03", 5),
    CANONICAL_FRAME("P8", ADDRESS "0D"),
    CANONICAL_FRAME("P9", ADDRESS "6F"),
    REFUSED_INPUT("P10", ADDRESS "87 01 02", 8),
    OTHER_FRAME("P11", ADDRESS "87 F1 03 44", ADDRESS "87 01 02 44"),
    OTHER_FRAME("P12", ADDRESS "01 AA", ADDRESS "01"),
    CANONICAL_FRAME("P13", ADDRESS "03 20"),
    CANONICAL_FRAME("reserved bits 11 in every address", ROUTED "03 F0 4F 4B"),
    CANONICAL_FRAME("reserved bits 10 in the destination", GAUGE "C0 " BOX12 "66 " HILL1 "65 03 F0 4F 4B"),
    CANONICAL_FRAME("reserved bits 01 in the destination", GAUGE "A0 " BOX12 "66 " HILL1 "65 03 F0 4F 4B"),
    CANONICAL_FRAME("reserved bits 00 in the destination", GAUGE "80 " BOX12 "66 " HILL1 "65 03 F0 4F 4B"),
    CANONICAL_FRAME("reserved bits 10 in the source", GAUGE "E0 " BOX12 "46 " HILL1 "65 03 F0 4F 4B"),
    CANONICAL_FRAME("reserved bits 01 in the source", GAUGE "E0 " BOX12 "26 " HILL1 "65 03 F0 4F 4B"),
    CANONICAL_FRAME("reserved bits 00 in the source", GAUGE "E0 " BOX12 "06 " HILL1 "65 03 F0 4F 4B"),
    CANONICAL_FRAME("reserved bits 10 in the repeater", GAUGE "E0 " BOX12 "66 " HILL1 "45 03 F0 4F 4B"),
    CANONICAL_FRAME("reserved bits 01 in the repeater", GAUGE "E0 " BOX12 "66 " HILL1 "25 03 F0 4F 4B"),
    CANONICAL_FRAME("reserved bits 00 in the repeater", GAUGE "E0 " BOX12 "66 " HILL1 "05 03 F0 4F 4B"),
    CANONICAL_FRAME("reserved bits 01, 10 and 00, as Response", GAUGE "20 " BOX12 "C6 " HILL1 "85 01"),
    CANONICAL_FRAME("reserved bits 00 beside SSID 15, and 11 beside SSID 0", GAUGE "9E " BOX12 "61 3F"),
    OTHER_FRAME("reserved bits 01 and 10 stay, both marks clear", GAUGE "20 " BOX12 "47 03 F0", GAUGE "A0 " BOX12 "47 03 F0"),
    OTHER_FRAME("reserved bits 00, 01 and 10 stay, both marks set", GAUGE "80 " BOX12 "A6 " HILL1 "C5 01",
                GAUGE "80 " BOX12 "26 " HILL1 "C5 01"),
    OTHER_FRAME("reserved bits 10 and 00 stay, a tail does not", GAUGE "C0 " BOX12 "07 01 AA", GAUGE "C0 " BOX12 "07 01"),
    OTHER_FRAME("reserved bits 00, 10 and 01 stay, FRMR's unnamed bits do not", GAUGE "00 " BOX12 "C6 " HILL1 "25 87 F1 03 44",
                GAUGE "00 " BOX12 "C6 " HILL1 "25 87 01 02 44"),
    OTHER_FRAME("reserved bits 01 and 00 stay, a leftover octet does not", GAUGE "A0 " BOX12 "06 61 01", GAUGE "A0 " BOX12 "07 01"),
    REFUSED_INPUT("one null", "00", 1),
    REFUSED_INPUT("two nulls", "00 00", 1),
    BEHIND_NULLS("a null and 02", "00 02", 2),
    BEHIND_NULLS("a null and 01", "00 01", 3),
    BEHIND_NULLS("a null before P2", "00 8E 82", 2),
    BEHIND_NULLS("a null before P3, which makes 14 octets up to the end, and content", "00 " SHORT "01", 3),
    BEHIND_NULLS("a null before P4", "00 " ADDRESS, 4),
    BEHIND_NULLS("a null before P7", "00 " ADDRESS "03", 5),
    BEHIND_NULLS("a null before P8", "00 " ADDRESS "0D", 0),
    BEHIND_NULLS("a null before P9", "00 " ADDRESS "6F", 0),
    BEHIND_NULLS("a null before a U frame that is none of AX.25's", "00 " ADDRESS "07", 7),
    BEHIND_NULLS("a null before P10", "00 " ADDRESS "87 01 02", 8),
    BEHIND_NULLS("a null before nine repeaters", "00 " GAUGE "E0 " BOX12 "66 " THREE THREE HILL1 "64 " HILL1 "64 " HILL1 "65 01", 9),
    BEHIND_NULLS("a null before P12, a tail behind it", "00 " ADDRESS "01 AA", 0),
    BEHIND_NULLS("seven nulls before P5, as many as an address has octets", "00 00 00 00 00 00 00 " FRAME, 0),
    BEHIND_NULLS("a null in the place of the first character", "00 82 AA 8E 8A 40 E0 " BOX12 "67 01", 3),
    CANONICAL_FRAME("nulls that are not the first octet", "8E 00 00 00 00 00 E0 00 00 00 00 00 00 61 00 00 00"),
    CANONICAL_FRAME("SREJ, N(R) 7, P/F set", ADDRESS "FD"),
    OTHER_FRAME("SREJ with a tail", ADDRESS "ED 00", ADDRESS "ED"),
    CANONICAL_FRAME("SABME, P/F set", ADDRESS "7F"),
    OTHER_FRAME("SABME with a tail, as Response", GAUGE "60 " BOX12 "E7 6F 03 F0", GAUGE "60 " BOX12 "E7 6F"),
    CANONICAL_FRAME("XID without info", ADDRESS "AF"),
    CANONICAL_FRAME("XID, P/F set, its info behind the control octet", ADDRESS "BF 82 80 00 00"),
    CANONICAL_FRAME("TEST without info, P/F set", ADDRESS "F3"),
    CANONICAL_FRAME("TEST with one octet of info, behind a repeater", ROUTED "E3 F0"),
    OTHER_FRAME("TEST with info, both marks set", GAUGE "E0 " BOX12 "E7 E3 41 42", ADDRESS "E3 41 42"),
    REFUSED_INPUT("a U frame that is none of AX.25's", ADDRESS "07", 7),
    REFUSED_INPUT("a U frame of all ones", ADDRESS "FF", 7),
    CANONICAL_FRAME("left on UI: the check sequence", FRAME " 90 05"),
    CANONICAL_FRAME("left on UI: the check sequence and the closing flag", FRAME " 90 05 7E"),
    CANONICAL_FRAME("left on I: the check sequence", ADDRESS "00 F0 4F 4B 5D 20"),
    OTHER_FRAME("left on RR: the check sequence", ADDRESS "01 F3 AF", ADDRESS "01"),
    OTHER_FRAME("left on SABM: the check sequence", ADDRESS "3F 0E 77", ADDRESS "3F"),
    OTHER_FRAME("left on SREJ: the check sequence", ADDRESS "0D 9F 65", ADDRESS "0D"),
    CANONICAL_FRAME("left on XID: the check sequence", ADDRESS "AF 82 80 62 20"),
    REFUSED_INPUT("left on FRMR: the check sequence", ADDRESS "87 01 02 44 13 82", 8),
    OTHER_FRAME("left on UI: both flags", "7E " FRAME " 7E", SHIFTED_BY_ONE("7E ", UI "7E")),
    OTHER_FRAME("left on UI: both flags and the check sequence", "7E " FRAME " 90 05 7E", SHIFTED_BY_ONE("7E ", UI "90 05 7E")),
    OTHER_FRAME("left on RR: both flags and the check sequence", "7E " ADDRESS "01 F3 AF 7E", SHIFTED_BY_ONE("7E ", "01")),
    OTHER_FRAME("left on UI: KISS", "C0 00 " FRAME " C0", "C0 00 8E 82 AA 8E 8A 40 E0 84 9E B0 62 65 03 F0 4F 4B C0"),
    OTHER_FRAME("left on UI: KISS's type octet of port 1", "10 " FRAME, SHIFTED_BY_ONE("10 ", UI)),
    CANONICAL_FRAME("left in UI: KISS's escapes of C0 and DB in the info", ADDRESS "03 F0 DB DC DB DD"),
    REFUSED_INPUT("left in UI: KISS's escape of C0, which is the destination's last octet", "8E 82 AA 8E 8A 40 DB DC 84 9E B0 62 64 40 67 03 F0 4F 4B", 3),
};

static int same_answer(const struct answer *a, const struct answer *b) {
    return a->number == b->number && a->old == b->old && a->canonical == b->canonical && a->length == b->length &&
           memcmp(a->reencoded, b->reencoded, a->length) == 0;
}

static void run_examples(void) {
    uint8_t in[128], out[128];
    int modelled = 1;
    for (size_t i = 0; i < sizeof examples / sizeof *examples; i++) {
        size_t len = from_hex(examples[i].input, in);
        struct answer want = {examples[i].number, examples[i].old, examples[i].canonical, from_hex(examples[i].reencoded, out), out};
        set_begin(examples[i].name);
        examine_everywhere(in, len, &want);
        set_end_brief();
        struct answer other = model(in, len);
        modelled = modelled && same_answer(&want, &other);
    }
    say(modelled, "the model that random inputs are held to gives the examples");
}

/* The octets behind so many nulls, for which they have room: 10, unless they are nulls themselves, whatever they are without; as an old
   capture they are what they were. */
static void examine_behind(uint8_t *in, size_t len, size_t nulls, unsigned old) {
    memmove(in + nulls, in, len);
    memset(in, 0, nulls);
    struct answer want = {old == 1 ? 1 : 10, old, 0, 0, in};
    examine_everywhere(in, nulls + len, &want);
}

static void run_nulls(void) {
    uint8_t in[128];
    set_begin("each of these behind 1 to 20 nulls");
    for (size_t i = 0; i < sizeof examples / sizeof *examples; i++)
        for (size_t nulls = 1; nulls <= 20; nulls++) examine_behind(in, from_hex(examples[i].input, in), nulls, examples[i].old);
    set_end();
}

/* A frame whose address field spans `span` octets, with the content `01` (RR) or none. */
static size_t spanning(uint8_t *in, size_t span, int content) {
    for (size_t i = 0; i < span; i++) in[i] = i % 7 == 6 ? 0x60 : 0x82;
    in[6] = 0xE0;
    in[span - 1] |= 1;
    if (content) in[span] = 0x01;
    return span + (content ? 1 : 0);
}

/* Document 01 on spans: 76 is eight repeaters, 77 is 9, 15 to 20 are none, below 14 is 3; nothing after the end is 4 before 9. Nulls are
   no part of a span: an old capture has that of the frame behind them. */
static void run_spans(void) {
    uint8_t in[128], out[128];
    set_begin("spans 1 to 90, and behind nulls");
    for (size_t span = 1; span <= 90; span++) {
        for (int content = 0; content < 2; content++) {
            size_t len = spanning(in, span, content);
            size_t repeaters = span < 14 ? 0 : (span - 14) / 7;
            struct answer want = {0, 0, 0, 0, out};
            if (span < 14) want.number = 3;
            else if (!content) want.number = 4;
            else if (span >= 77) want.number = 9;
            else {
                want.length = spanning(out, 14 + 7 * repeaters, 1);
                want.canonical = span == 14 + 7 * repeaters;
            }
            want.old = want.number;
            examine_everywhere(in, len, &want);
            examine_behind(in, len, 1 + span % 14, want.old);
        }
    }
    set_end();
}

/* An empty input may have any pointer that is not null, and so may an output without room. */
static void run_empty(void) {
    const uint8_t *nowhere = (const uint8_t *)(uintptr_t)1;
    uint8_t out[4] = {1, 2, 3, 4}, frame[32];
    size_t len = from_hex(FRAME, frame);
    say(ax25_decode(nowhere, 0) == 1, "ax25_decode of nothing at a pointer that leads nowhere is 1");
    say(ax25_decode_old_capture(nowhere, 0) == 1, "ax25_decode_old_capture of nothing at a pointer that leads nowhere is 1");
    say(ax25_canonical(nowhere, 0) == 0, "ax25_canonical of nothing at a pointer that leads nowhere is 0");
    say(ax25_reencoded_length(nowhere, 0) == 0, "ax25_reencoded_length of nothing at a pointer that leads nowhere is 0");
    say(ax25_reencode(nowhere, 0, out, sizeof out) == 1 && memcmp(out, "\1\2\3\4", 4) == 0,
        "ax25_reencode of nothing at a pointer that leads nowhere is 1 and leaves the output alone");
    say(ax25_reencode(nowhere, 0, (uint8_t *)(uintptr_t)1, 0) == 1, "ax25_reencode of nothing into nothing is 1");
    say(ax25_reencode(frame, len, (uint8_t *)(uintptr_t)1, 0) == 24, "ax25_reencode of a frame into nothing is 24");
}

static void run_short(void) {
    uint8_t in[2];
    struct answer want;
    set_begin("every octet string of length 0 to 2");
    want = model(in, 0);
    examine_everywhere(in, 0, &want);
    for (unsigned a = 0; a < 256; a++) {
        in[0] = (uint8_t)a;
        want = model(in, 1);
        examine_everywhere(in, 1, &want);
        for (unsigned b = 0; b < 256; b++) {
            in[1] = (uint8_t)b;
            want = model(in, 2);
            examine(in, 2, &want, b % 3);
        }
    }
    set_end();
}

/* Whatever the PID is, of the layer 3 class too (M-105), this frame is canonical: it is re-encoded, as it is relayed, with that PID. */
static void run_pids(void) {
    static const uint8_t controls[] = {0x00, 0x10, 0x03, 0x13};
    uint8_t in[64];
    size_t control = from_hex(ROUTED, in), len = control + from_hex("00 00 4F 4B", in + control);
    struct answer want = {0, 0, 1, len, in};
    set_begin("every PID in I and UI, P/F clear and set");
    for (size_t i = 0; i < sizeof controls; i++) {
        in[control] = controls[i];
        for (unsigned pid = 0; pid < 256; pid++) {
            in[control + 1] = (uint8_t)pid;
            examine_everywhere(in, len, &want);
        }
    }
    set_end();
}

/* Whatever the SSIDs and the reserved bits are (M-106), this frame is canonical. Each of its ten addresses has every value of both in
   turn, while the bits of its neighbours differ. */
static void run_seventh_octets(void) {
    uint8_t in[80];
    size_t len = spanning(in, 70, 1);
    struct answer want = {0, 0, 1, len, in};
    for (size_t i = 0; i < 10; i++) in[7 * i + 6] ^= (uint8_t)(i % 4 << 5);
    set_begin("every SSID with every setting of the reserved bits, in each of ten addresses");
    for (size_t at = 6; at < 70; at += 7) {
        uint8_t before = in[at];
        for (unsigned value = 0; value < 64; value++) {
            in[at] = (uint8_t)((before & 0x81) | value << 1);
            examine_everywhere(in, len, &want);
        }
        in[at] = before;
    }
    set_end();
}

/* Content of `len` octets, of which the first two are given, after `at` address octets. */
static void examine_content(uint8_t *in, size_t at, unsigned control, unsigned second, unsigned len) {
    memset(in + at, 0xB5, 6);
    in[at] = (uint8_t)control;
    in[at + 1] = (uint8_t)second;
    struct answer want = model(in, at + len);
    examine(in, at + len, &want, (control + second + len) % 3);
}

/* Every control octet and every PID, with content of 1 to 6 octets, after the example's addresses, and now and then a repeater. */
static void run_contents(void) {
    uint8_t bare[64], routed[64];
    size_t bare_len = from_hex(ADDRESS, bare), routed_len = from_hex(ROUTED, routed);
    set_begin("every first two content octets, content of 1 to 6 octets");
    for (unsigned control = 0; control < 256; control++) {
        for (unsigned second = 0; second < 256; second++) {
            examine_content(bare, bare_len, control, second, second % 6 + 1);
            if (second % 8) examine_content(bare, bare_len, control, second, 2);
            else examine_content(routed, routed_len, control, second, 2);
        }
    }
    set_end();
}

/* What decoding gives in the short mode, where 10 is the one that an old capture can't have, and in the long one; and the reasons. */
static const unsigned short_numbers[] = {0, 1, 2, 3, 4, 5, 7, 8, 9, 10}, long_numbers[] = {0, 1, 2, 3, 4, 5, 7, 9, 10, 11, 12};
static const unsigned codes[] = {0, 1, 2, 3, 4, 5};
#define COUNT(list) (sizeof(list) / sizeof *(list))

enum { NUMBERS = 13 };
static unsigned long seen[MODES][NUMBERS], seen_code[MODES][COUNT(codes)], seen_behind[NUMBERS], seen_canonical, seen_rewritten, seen_clear;
static int model_holds = 1; /* whether it has no reason in the long mode exactly where it writes the input as it is */

/* Whether some address of a canonical frame has a reserved bit that is clear. */
static int has_clear_bit(const uint8_t *frame) {
    size_t at = 6;
    while ((frame[at] & 0x61) == 0x60) at += 7;
    return (frame[at] & 0x60) != 0x60;
}

static void examine_one(const uint8_t *in, size_t len) {
    struct reason by_mode[MODES];
    for (int mode = 0; mode < MODES; mode++) {
        by_mode[mode] = model_reason((enum mode)mode, in, len);
        seen[mode][by_mode[mode].number]++;
        seen_code[mode][by_mode[mode].code]++;
    }
    model_holds = model_holds && (by_mode[LONG_MODE].code == AX25_REASON_NONE) == model_in(LONG_MODE, in, len).canonical;
    struct answer want = model(in, len);
    seen_behind[want.old] += model_nulls(in, len) > 0; /* by the number of what follows the nulls */
    seen_canonical += want.canonical;
    seen_clear += want.canonical && has_clear_bit(in);
    seen_rewritten += want.number == 0 && !want.canonical;
    examine(in, len, &want, below(3));
}

/* Prints how often each of these numbers was met; gives whether each was, so often or more. */
static int print_met(const char *what, const unsigned long *met, const unsigned *numbers, size_t count, unsigned long least) {
    int all = 1;
    printf("  %s:", what);
    for (size_t i = 0; i < count; i++) {
        printf(" %u: %lu%s", numbers[i], met[numbers[i]], i + 1 < count ? "," : "\n");
        all = all && met[numbers[i]] >= least;
    }
    return all;
}

static void run_random(unsigned long thousands, uint64_t seed) {
    uint8_t in[DRAWN];
    draw_from(seed);
    set_begin("random octets");
    for (unsigned long n = thousands * 200; n > 0; n--) examine_one(in, draw_octets(in));
    set_end();
    set_begin("random frames");
    for (unsigned long n = thousands * 400; n > 0; n--) examine_one(in, draw_frame(in));
    set_end();
    say(owed(0) >= thousands && owed(22) >= thousands && owed(41) >= thousands && owed(42) >= thousands &&
            owed(43) >= thousands,
        "one random frame in four hundred or more reaches each number of relaying");
    set_begin("canonical frames and damaged copies of them");
    for (unsigned long n = thousands * 100; n > 0; n--) {
        size_t len = draw_frame(in);
        struct answer good = model(in, len);
        if (good.number == 0) {
            len = good.length;
            memcpy(in, good.reencoded, len);
        }
        examine_one(in, len);
        for (int times = 3; times > 0; times--) examine_one(in, len = damage(in, len));
    }
    set_end();

    int all = print_met("of these, by number", seen[SHORT_MODE], short_numbers, COUNT(short_numbers), thousands);
    printf("  canonical: %lu, with a reserved bit clear: %lu; accepted and not canonical: %lu\n", seen_canonical, seen_clear,
           seen_rewritten);
    say(all && seen_canonical >= thousands && seen_rewritten >= thousands, "one random input in a thousand or more reaches each number of decoding, canonical or not");
    say(print_met("of those behind nulls, by number as an old capture", seen_behind, short_numbers, COUNT(short_numbers) - 1, (thousands + 1) / 2),
        "and one in two thousand or more has nulls before each number that an old capture can have");
    say(print_met("of these, by number in the long mode", seen[LONG_MODE], long_numbers, COUNT(long_numbers), thousands),
        "and one in a thousand or more reaches each number of the long mode");
    all = print_met("by reason", seen_code[SHORT_MODE], codes, COUNT(codes), thousands);
    say(print_met("by reason in the long mode", seen_code[LONG_MODE], codes, COUNT(codes), thousands) && all,
        "and one in a thousand or more has each reason, in each mode");
    say(model_holds, "and in the long mode the model has no reason exactly where it writes the input as it is");
    say(seen_clear >= thousands && seen_canonical - seen_clear >= thousands,
        "and one in a thousand or more is canonical with a reserved bit clear, and with all of them set");
}

/* Many nulls before a frame, long info, long tails, long leftovers. */
static void run_long(void) {
    static uint8_t in[LONGEST];
    static const size_t lengths[] = {255, 256, 257, 4095, 4096, 4097, 65535, 65536, 65537, LONGEST};
    uint8_t frame[64];
    size_t len = from_hex(ROUTED "03 F0 4F 4B", frame), control = len - 4;
    set_begin("inputs of up to 1,048,576 octets");
    for (size_t i = 0; i < sizeof lengths / sizeof *lengths; i++) {
        struct answer want;
        size_t all = lengths[i];
        memset(in, 0, all); /* nulls, then the frame */
        want = model(in, all);
        examine_everywhere(in, all, &want);
        memcpy(in + all - len, frame, len);
        want = model(in, all);
        examine_everywhere(in, all, &want);
        memset(in, 0x5A, all); /* the frame with long info, then with a long tail */
        want = model(in, all);
        examine_everywhere(in, all, &want);
        memcpy(in, frame, len);
        want = model(in, all);
        examine_everywhere(in, all, &want);
        in[control] = 0x01;
        want = model(in, all);
        examine_everywhere(in, all, &want);
        in[control] = 0x87;
        want = model(in, all);
        examine_everywhere(in, all, &want);
        in[control] = 0x0D; /* a long tail once more, and info without a PID */
        want = model(in, all);
        examine_everywhere(in, all, &want);
        in[control] = 0xAF;
        want = model(in, all);
        examine_everywhere(in, all, &want);
    }
    set_end();
}

int main(int argc, char **argv) {
    unsigned long thousands = argc > 1 ? strtoul(argv[1], NULL, 10) : 500;
    uint64_t seed = argc > 2 ? strtoull(argv[2], NULL, 0) : 0xA25;
    examine_begin();
    run_examples();
    run_nulls();
    run_spans();
    run_empty();
    run_short();
    run_pids();
    run_seventh_octets();
    run_contents();
    run_long();
    run_reasons();
    run_captures(thousands, seed);
    run_links(thousands, seed);
    run_relays();
    run_kiss(thousands, seed);
    run_streams(thousands, seed);
    run_random(thousands, seed);
    return failures() != 0;
}
