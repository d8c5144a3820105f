#include "relays.h"

#include <stdio.h>
#include <string.h>

#include "ax25.h"
#include "callsigns.h"
#include "examine.h"
#include "say.h"
#include "sets.h"

/* GAUGE and BOX12-3; four repeaters HILL1-2. */
#define PEERS GAUGE "E0 " BOX12 "66 "
#define FOUR HILL1 "64 " HILL1 "64 " HILL1 "64 " HILL1 "64 "
/* The frame that M-102 reports: of three repeaters the first and the third are marked, and the second is not. */
#define REPORTED PEERS HILL5 "E2 " HILL1 "64 " HILL6 "E3 03 F0"

/* Document 02, M-100, M-102, M-106, M-108 and M-109: what they say of each, worked out by hand. A refusal leaves the frame as it was. */
static const struct {
    const char *name, *input, *callsign;
    uint8_t ssid;
    unsigned number;
    const char *after;
} examples[] = {
    {"relayed: a PID of 20 hex stays", PEERS HILL1 "65 03 20 4F 4B", "HILL1", 2, 0, PEERS HILL1 "E5 03 20 4F 4B"},
    {"relayed: as the second of two", PEERS HILL2 "E4 " HILL1 "65 01", "HILL1", 2, 0, PEERS HILL2 "E4 " HILL1 "E5 01"},
    {"relayed: as the first of two", PEERS HILL1 "64 " HILL2 "65 01", "HILL1", 2, 0, PEERS HILL1 "E4 " HILL2 "65 01"},
    {"relayed: twice in one route", PEERS HILL1 "64 " HILL1 "65 01", "HILL1", 2, 0, PEERS HILL1 "E4 " HILL1 "65 01"},
    {"relayed: leftover octets stay", PEERS HILL1 "64 00 41 01", "HILL1", 2, 0, PEERS HILL1 "E4 00 41 01"},
    {"relayed: a tail stays", PEERS HILL1 "65 01 AA 55", "HILL1", 2, 0, PEERS HILL1 "E5 01 AA 55"},
    {"relayed: reserved bits 00 of ours stay", PEERS HILL1 "05 01", "HILL1", 2, 0, PEERS HILL1 "85 01"},
    {"relayed: reserved bits 01 of ours stay", PEERS HILL1 "25 01", "HILL1", 2, 0, PEERS HILL1 "A5 01"},
    {"relayed: reserved bits 10 of ours stay", PEERS HILL1 "45 01", "HILL1", 2, 0, PEERS HILL1 "C5 01"},
    {"relayed: reserved bits 00, 01, 10 and 11 stay, each in its address", GAUGE "80 " BOX12 "26 " HILL2 "C4 " HILL1 "65 01", "HILL1", 2, 0,
     GAUGE "80 " BOX12 "26 " HILL2 "C4 " HILL1 "E5 01"},
    {"relayed: ours twice, with other reserved bits", GAUGE "A0 " BOX12 "06 " HILL1 "44 " HILL1 "25 01", "HILL1", 2, 0,
     GAUGE "A0 " BOX12 "06 " HILL1 "C4 " HILL1 "25 01"},
    {"relayed: FRMR's unnamed bits stay", PEERS HILL1 "65 87 F1 03 44", "HILL1", 2, 0, PEERS HILL1 "E5 87 F1 03 44"},
    {"relayed: SREJ", PEERS HILL1 "65 0D", "HILL1", 2, 0, PEERS HILL1 "E5 0D"},
    {"relayed: SABME, a tail stays", PEERS HILL1 "65 6F AA", "HILL1", 2, 0, PEERS HILL1 "E5 6F AA"},
    {"relayed: XID with info", PEERS HILL1 "65 BF 82 80", "HILL1", 2, 0, PEERS HILL1 "E5 BF 82 80"},
    {"relayed: TEST without info", PEERS HILL1 "65 E3", "HILL1", 2, 0, PEERS HILL1 "E5 E3"},
    {"relayed: a callsign with its padding", PEERS HILL1 "65 01", "HILL1 ", 2, 0, PEERS HILL1 "E5 01"},
    {"relayed: a callsign of spaces, as an empty one", PEERS SPACES "65 01", "", 2, 0, PEERS SPACES "E5 01"},
    {"relayed: a check sequence that is left on stays", PEERS HILL1 "65 03 F0 4F 4B EA 5B", "HILL1", 2, 0,
     PEERS HILL1 "E5 03 F0 4F 4B EA 5B"},
    {"not relayed: flags are left on", "7E " PEERS HILL1 "65 03 F0 4F 4B EA 5B 7E", "HILL1", 2, 42, NULL},
    {"not relayed: KISS is left on", "C0 00 " PEERS HILL1 "65 03 F0 4F 4B C0", "HILL1", 2, 42, NULL},
    {"not relayed: the reported frame, by the third, who is marked", REPORTED, "HILL6", 1, 43, NULL},
    {"not relayed: the reported frame, by the second, the first without a mark", REPORTED, "HILL1", 2, 43, NULL},
    {"not relayed: the reported frame, by the first, who is marked", REPORTED, "HILL5", 1, 43, NULL},
    {"not relayed: the reported frame, by a station that is not in it", REPORTED, "HILL2", 1, 43, NULL},
    {"not relayed: a mark right after ours, which is not set", PEERS HILL1 "64 " HILL2 "E5 01", "HILL1", 2, 43, NULL},
    {"not relayed: a mark two places after another's, which is not set", PEERS HILL2 "64 " HILL1 "64 " HILL2 "E5 01", "HILL1", 2, 43, NULL},
    {"not relayed: nothing", "", "HILL1", 2, 1, NULL},
    {"not relayed: nulls alone", "00 00 00", "HILL1", 2, 1, NULL},
    {"not relayed: a null before the frame", "00 " PEERS HILL1 "65 01", "HILL1", 2, 10, NULL},
    {"not relayed: seven nulls before it", "00 00 00 00 00 00 00 " PEERS HILL1 "65 01", "HILL1", 2, 10, NULL},
    {"not relayed: a null in the place of the first character", "00 82 AA 8E 8A 40 E0 " BOX12 "66 " HILL1 "65 01", "HILL1", 2, 10, NULL},
    {"not relayed: a null before no end of the addresses", "00 " PEERS HILL1 "64 02 20", "HILL1", 2, 10, NULL},
    {"not relayed: a null before SREJ", "00 " PEERS HILL1 "65 0D", "HILL1", 2, 10, NULL},
    {"not relayed: a null before a frame without a repeater", "00 " GAUGE "E0 " BOX12 "67 03 20", "BOX12", 3, 10, NULL},
    {"not relayed: a null before broken marks", "00 " REPORTED, "HILL1", 2, 10, NULL},
    {"not relayed: a null before another station", "00 " PEERS HILL2 "65 01", "HILL1", 2, 10, NULL},
    {"not relayed: no end of the addresses", PEERS HILL1 "64 02 20", "HILL1", 2, 2, NULL},
    {"not relayed: too short an address field", "8E 82 AA 8E 8A 40 E0 84 9E B0 62 64 41 03 20", "HILL1", 2, 3, NULL},
    {"not relayed: no content", PEERS HILL1 "65", "HILL1", 2, 4, NULL},
    {"not relayed: nine repeaters", PEERS FOUR FOUR HILL1 "65 01", "HILL1", 2, 9, NULL},
    {"not relayed: UI without PID", PEERS HILL1 "65 03", "HILL1", 2, 5, NULL},
    {"not relayed: a U frame that is none of AX.25's", PEERS HILL1 "65 07", "HILL1", 2, 7, NULL},
    {"not relayed: SREJ of another station", PEERS HILL2 "65 0D", "HILL1", 2, 42, NULL},
    {"not relayed: XID without a repeater", GAUGE "E0 " BOX12 "67 AF 82", "BOX12", 3, 41, NULL},
    {"not relayed: FRMR of three octets", PEERS HILL1 "65 87 01 02", "HILL1", 2, 8, NULL},
    {"not relayed: no repeater", "8E 82 AA 8E 8A 40 E0 84 9E B0 62 64 40 67 03 20", "BOX12", 3, 41, NULL},
    {"not relayed: six octets left over are no repeater", PEERS "90 92 98 98 62 41 03 20", "HILL1", 2, 41, NULL},
    {"not relayed: every repeater is marked", PEERS HILL2 "E4 " HILL1 "E5 01", "HILL1", 2, 41, NULL},
    {"not relayed: another callsign", PEERS HILL2 "65 01", "HILL1", 2, 42, NULL},
    {"not relayed: another SSID", PEERS HILL1 "65 01", "HILL1", 3, 42, NULL},
    {"not relayed: another SSID, whatever the reserved bits", PEERS HILL1 "07 01", "HILL1", 2, 42, NULL},
    {"not relayed: lower case", PEERS HILL1 "65 01", "hill1", 2, 42, NULL},
    {"not relayed: ours is next but one", PEERS HILL2 "64 " HILL1 "65 01", "HILL1", 2, 42, NULL},
    {"not relayed: a callsign cut short", PEERS HILL1 "65 01", "HILL", 2, 42, NULL},
};

/* Own addresses that are none. The first six octets and the low bits of each are HILL1-2, so that nothing else tells. */
static const struct {
    const char *name, *callsign;
    uint8_t ssid;
} none[] = {
    {"seven octets", "HILL1  ", 2},
    {"an octet of 128 or more", "HILL\xB1", 2},
    {"an SSID over 15", "HILL1", 18},
};

static struct address station(const char *callsign, uint8_t ssid) {
    struct address a = {(const uint8_t *)callsign, strlen(callsign), ssid};
    return a;
}

static void run_examples(void) {
    uint8_t in[128], after[128], modelled[128];
    int agree = 1;
    for (size_t i = 0; i < sizeof examples / sizeof *examples; i++) {
        struct address own = station(examples[i].callsign, examples[i].ssid);
        size_t len = from_hex(examples[i].input, in);
        from_hex(examples[i].after ? examples[i].after : examples[i].input, after);
        struct relayed model_says = model_relay(&own, in, len, modelled);
        struct relayed want = {examples[i].number, after, model_says.due};
        agree = agree && model_says.number == want.number && memcmp(modelled, after, len) == 0;
        set_begin(examples[i].name);
        examine_relay_everywhere(&own, in, len, &want);
        set_end_brief();
    }
    say(agree, "the model that relaying is held to gives these examples");
}

/* An own address that is none comes before every number of the frame. */
static void run_none(void) {
    uint8_t in[128];
    for (size_t n = 0; n < sizeof none / sizeof *none; n++) {
        char name[80];
        struct address own = station(none[n].callsign, none[n].ssid);
        snprintf(name, sizeof name, "an own address with %s, on each of these", none[n].name);
        set_begin(name);
        for (size_t i = 0; i < sizeof examples / sizeof *examples; i++) {
            size_t len = from_hex(examples[i].input, in);
            struct relayed want = {AX25_NOT_ENCODABLE, in, 0};
            examine_relay_everywhere(&own, in, len, &want);
        }
        set_end_brief();
    }
}

/* Eight stations, each near to another: by SSID, by case, by length. */
static const struct {
    const char *callsign;
    uint8_t ssid;
} route[8] = {{"HILL1", 2}, {"HILL1", 3}, {"HILL11", 2}, {"HILL", 2}, {"hill1", 2}, {"", 0}, {"", 15}, {"1", 0}};

struct frame {
    size_t nulls, repeaters, leftover;
    unsigned marks;           /* bit i: the mark of place i */
    unsigned reserved;        /* bits 2 i and 2 i + 1: the reserved bits of address i, of which the destination is the first */
    const char *content;      /* NULL: UI, with the groups of the places that are not in use, marks and all, as its info */
};

static unsigned reserved_of(const struct frame *f, size_t address) { return f->reserved >> 2 * address & 3; }

/* A group without end bit: the callsign, padded. */
static size_t put_group(uint8_t *out, const struct address *of, unsigned mark, unsigned reserved) {
    for (size_t i = 0; i < 6; i++) out[i] = (uint8_t)((i < of->len ? of->callsign[i] : ' ') << 1);
    out[6] = (uint8_t)(mark << 7 | reserved << 5 | of->ssid << 1);
    return 7;
}

static size_t put_place(const struct frame *f, size_t i, uint8_t *out) {
    const struct address repeater = station(route[i].callsign, route[i].ssid);
    return put_group(out, &repeater, f->marks >> i & 1, reserved_of(f, 2 + i));
}

static size_t make(const struct frame *f, uint8_t *out) {
    const struct address gauge = station("GAUGE", 0), box = station("BOX12", 3);
    size_t len = f->nulls;
    memset(out, 0, len);
    len += put_group(out + len, &gauge, 1, reserved_of(f, 0));
    len += put_group(out + len, &box, 0, reserved_of(f, 1));
    for (size_t i = 0; i < f->repeaters; i++) len += put_place(f, i, out + len);
    for (size_t i = 0; i < f->leftover; i++) out[len++] = 0x80;
    out[len - 1] |= 1;
    if (f->content) return len + from_hex(f->content, out + len);
    size_t control = len;
    for (size_t i = f->repeaters; i < 8; i++) len += put_place(f, i, out + len);
    from_hex("03 20", out + control);
    return len > control ? len : control + 2;
}

/* How many marks there are before the first place without. */
static unsigned in_order(unsigned marks) { return marks & 1 ? 1 + in_order(marks >> 1) : 0; }

enum { ALL_SET = 0xFFFFF, SPREADS = 12 };

/* The reserved bits of ten addresses, spread in twelve ways: in the first four ways neighbours differ, in the next four those that are
   four apart, and in the last four all are alike. So each address has every setting, and any two addresses differ in some way. */
static unsigned spread(unsigned way) {
    unsigned all = 0;
    for (unsigned i = 0; i < 10; i++) all |= ((i >> 2 * (way / 4)) + way) % 4 << 2 * i;
    return all;
}

static int model_agrees = 1;

/* One frame, relayed by one station of the route. What is wanted is worked out from the set of marks, and the model has to say so. */
static void relay_made(const struct frame *f, size_t who) {
    static unsigned turn;
    uint8_t in[256], after[256], modelled[256];
    unsigned marks = f->marks & ((1u << f->repeaters) - 1), due = in_order(marks);
    size_t len = make(f, in);
    struct address own = station(route[who].callsign, route[who].ssid);
    struct frame marked = *f;
    struct relayed want = {f->nulls ? 10 : due == f->repeaters ? 41 : marks >> due ? 43 : who == due ? 0 : 42, after, due};
    if (want.number == 0) marked.marks |= 1u << due;
    make(&marked, after);
    struct relayed model_says = model_relay(&own, in, len, modelled);
    model_agrees = model_agrees && model_says.number == want.number && memcmp(modelled, after, len) == 0;
    examine_relay(&own, in, len, &want, turn++ % RELAY_PLACES);
}

/* Marks in order, broken marks, all of them and none; those of places that are not in use stand in the info, where a search that went
   on past the last repeater would meet them. */
static void run_marks(void) {
    struct frame f = {0, 0, 0, 0, ALL_SET, NULL};
    set_begin("all 256 sets of marks with 0 to 8 repeaters, by each of eight stations");
    for (f.repeaters = 0; f.repeaters <= 8; f.repeaters++)
        for (f.marks = 0; f.marks < 256; f.marks++)
            for (size_t who = 0; who < 8; who++) relay_made(&f, who);
    set_end();
}

/* The repeaters' marks in order, and in every address the reserved bits of its own. */
static void run_reserved(void) {
    struct frame f = {0, 0, 0, 0, 0, NULL};
    set_begin("reserved bits that differ from address to address, by each of eight stations");
    for (unsigned way = 0; way < SPREADS; way++)
        for (f.repeaters = 1; f.repeaters <= 8; f.repeaters++)
            for (size_t due = 0; due <= f.repeaters; due++)
                for (size_t who = 0; who < 8; who++) {
                    f.reserved = spread(way);
                    f.marks = (1u << due) - 1;
                    relay_made(&f, who);
                }
    set_end();
}

/* Frames with so many nulls before them, and what re-encoding changes: leftover octets, tails and FRMR's unnamed bits; and layer 3 PIDs
   and reserved bits, which it keeps. */
static void relay_all(size_t nulls) {
    static const char *const contents[] = {"03 20 67", "00 9A", "21", "09 AA 55", "63 00", "3F FF", "87 F1 03 44", "AD 01", "6F 67", "BF 82 80", "E3"};
    struct frame f = {nulls, 0, 0, 0, 0, NULL};
    for (f.repeaters = 1; f.repeaters <= 8; f.repeaters += 7)
        for (f.leftover = 0; f.leftover <= 6; f.leftover++)
            for (unsigned way = 0; way < SPREADS; way++)
                for (size_t i = 0; i < sizeof contents / sizeof *contents; i++) {
                    f.marks = (1u << (i + f.leftover) % f.repeaters) - 1;
                    f.reserved = spread(way);
                    f.content = contents[i];
                    relay_made(&f, in_order(f.marks));
                }
}

static void run_kept(void) {
    set_begin("what re-encoding changes, and layer 3 PIDs and reserved bits");
    relay_all(0);
    set_end();
}

/* By the station that would be due if the nulls were skipped. */
static void run_nulls(void) {
    set_begin("such frames behind 3, 6 and 9 nulls");
    for (size_t nulls = 3; nulls <= 9; nulls += 3) relay_all(nulls);
    set_end();
}

/* A frame with one repeater, of a callsign of six octets and an SSID, relayed by an own address. */
static void relay_alone(const uint8_t *callsign, uint8_t ssid, const struct address *own, unsigned number) {
    static unsigned turn;
    uint8_t in[32], after[32];
    const struct address repeater = {callsign, 6, ssid};
    size_t len = from_hex(PEERS, in);
    len += put_group(in + len, &repeater, 0, 3);
    in[len - 1] |= 1;
    in[len++] = 0x01;
    memcpy(after, in, len);
    if (number == 0) after[20] |= 0x80;
    struct relayed want = {number, after, 0};
    examine_relay(own, in, len, &want, turn++ % RELAY_PLACES);
}

/* A callsign of any number of octets stands for that with spaces after it, up to six; more are refused. */
static void run_lengths(void) {
    static uint8_t callsign[65542];
    static const size_t too_long[] = {7, 8, 255, 256, 262, 65536, 65542};
    set_begin("callsigns of 0 to 6 octets, and of 7 and more");
    for (size_t letters = 0; letters <= 6; letters++) {
        memset(callsign, ' ', sizeof callsign);
        memcpy(callsign, "ABCDEF", letters);
        struct address own = {callsign, 0, 7};
        for (; own.len <= 6; own.len++) relay_alone(callsign, 7, &own, own.len < letters ? 42 : 0);
        for (size_t i = 0; i < sizeof too_long / sizeof *too_long; i++) {
            own.len = too_long[i];
            relay_alone(callsign, 7, &own, 22);
        }
    }
    set_end();
}

static void run_characters(void) {
    set_begin("every character at every place, and each that differs in one bit");
    for (size_t at = 0; at < 6; at++)
        for (unsigned character = 0; character < 128; character++) {
            uint8_t repeater[6] = "ABCDEF", callsign[6];
            repeater[at] = (uint8_t)character;
            memcpy(callsign, repeater, 6);
            struct address own = {callsign, 6, 7};
            relay_alone(repeater, 7, &own, 0);
            for (unsigned bit = 0; bit < 8; bit++) {
                callsign[at] = (uint8_t)(character ^ 1u << bit);
                relay_alone(repeater, 7, &own, bit < 7 ? 42 : 22);
            }
        }
    set_end();
}

static void run_ssids(void) {
    uint8_t callsign[6] = "ABCDEF";
    set_begin("every SSID by every SSID");
    for (uint8_t ssid = 0; ssid < 16; ssid++)
        for (unsigned ours = 0; ours < 256; ours++) {
            struct address own = {callsign, 6, (uint8_t)ours};
            relay_alone(callsign, ssid, &own, ours > 15 ? 22 : ours == ssid ? 0 : 42);
        }
    set_end();
}

/* Where a length is 0, any pointer that is not null will do. */
static void run_empty(void) {
    uint8_t *nowhere = (uint8_t *)(uintptr_t)1, frame[32];
    size_t len = from_hex(PEERS SPACES "65 01", frame);
    say(ax25_relay(nowhere, 0, 2, nowhere, 0) == 1, "ax25_relay of nothing by an empty callsign is 1");
    say(ax25_relay(nowhere, 0, 16, nowhere, 0) == 22, "ax25_relay of nothing by an SSID of 16 is 22");
    say(ax25_relay(nowhere, 0, 2, frame, len) == 0 && frame[20] == 0xE5,
        "ax25_relay by an empty callsign at a pointer that leads nowhere marks the repeater whose callsign is spaces");
}

void run_relays(void) {
    run_examples();
    run_none();
    run_marks();
    run_reserved();
    run_kept();
    run_nulls();
    say(model_agrees, "the model gives what follows from the set of marks, and of nulls, in these four");
    run_lengths();
    run_characters();
    run_ssids();
    run_empty();
}
