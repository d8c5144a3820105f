#include "examine.h"

#include <stdio.h>
#include <string.h>

#include "ax25.h"
#include "lent.h"
#include "sets.h"

static struct arena input_arena, output_arena, cells_arena, records_arena;
static const struct address *relaying; /* by whom; NULL while another call is looked at */
static uint32_t asked;                 /* the number by which a mode is asked for */
static const struct part *captured;    /* the part of a buffer that is looked at, */
static size_t captured_in;             /* and how many octets that buffer has */

static void show_station(void) {
    printf("  relayed by SSID %u and the callsign of %zu octets:", relaying->ssid, relaying->len);
    for (size_t i = 0; i < relaying->len && i < 20; i++) printf(" %02X", relaying->callsign[i]);
    printf(relaying->len > 20 ? " ..\n" : "\n");
}

static void show_asked(void) { printf("  asked for by the mode %lu\n", (unsigned long)asked); }

static void show_part(void) {
    printf("  it is the part of %zu octets from %zu on, in a buffer of %zu; asked for by the mode %lu\n", captured->length, captured->start,
           captured_in, (unsigned long)asked);
}

static void ask_for_gathered(void);

void examine_begin(void) {
    sets_begin();
    at_set_end(ask_for_gathered);
    input_arena = arena_new(LONGEST + 65536);
    output_arena = arena_new(LONGEST + 65536);
    cells_arena = arena_new(65536);
    records_arena = arena_new(MOST_PARTS * sizeof(struct ax25_capture) + 65536);
}

/* `in` was lent to be read and held `octets`; `out` was lent to be written. */
static void look_at_lent(const struct lent *in, const uint8_t *octets, const struct lent *out) {
    look(GUARDS, guards_hold(in) && (!out || guards_hold(out)), 1, 0);
    look(INPUT, in->len == 0 || memcmp(in->at, octets, in->len) == 0, 1, 0);
}

/* Re-encodes into a buffer of `room` octets. */
static void reencode_with(const struct lent *in, const uint8_t *octets, const struct answer *want, unsigned place, size_t room) {
    struct lent out = lend(&output_arena, (enum place)place, room);
    uint8_t paint = fresh_paint();
    memset(out.at, paint, room);
    unsigned number = ax25_reencode(in->at, in->len, out.at, room);
    unsigned due = want->number ? want->number : room < want->length ? AX25_NO_ROOM : AX25_ACCEPTED;
    look(REENCODED, number == due, due, number);
    look_at_lent(in, octets, &out);
    if (due != AX25_ACCEPTED) {
        look(REFUSED, filled_with(out.at, room, paint), 1, 0);
        return;
    }
    look(REENCODED, memcmp(out.at, want->reencoded, want->length) == 0, 1, 0);
    if (room > want->length) look(BEYOND, filled_with(out.at + want->length, room - want->length, paint), 1, 0);
}

/* The reason in one mode, held to the answer; gives what the call gives. What it leaves beside its answer is lent at the two edges of one
   arena, where it is aligned, and holds paint before. */
static struct reason reason_in(enum mode mode, const struct lent *in, const uint8_t *octets, const struct reason *want) {
    static unsigned turn;
    int is_low = turn / MODES % 2;
    struct lent number = lend(&cells_arena, is_low ? LOW : HIGH, sizeof(uint32_t));
    struct lent place = lend(&cells_arena, is_low ? HIGH : LOW, sizeof(size_t));
    struct reason got;
    memset(number.at, fresh_paint(), number.len);
    memset(place.at, fresh_paint(), place.len);
    asked = asking_for(mode, turn++ / (2 * MODES));
    look_from(octets, in->len, show_asked);
    got.code = ax25_reason(in->at, in->len, asked, (uint32_t *)(void *)number.at, (size_t *)(void *)place.at);
    got.number = *(uint32_t *)(void *)number.at;
    got.place = *(size_t *)(void *)place.at;
    look(REASON, got.code == want->code, want->code, got.code);
    look(REASON, got.number == want->number, want->number, got.number);
    look(REASON, got.place == want->place, want->place, got.place);
    look_at_lent(in, octets, &number);
    look(GUARDS, guards_hold(&place), 1, 0);
    look_from(octets, in->len, NULL);
    return got;
}

/* In both modes. In the short one the number is decoding's, and there is no reason exactly where the input is canonical. */
static void look_at_reasons(const struct lent *in, const uint8_t *octets, const struct reason *by_mode, unsigned number, unsigned canonical) {
    reason_in(LONG_MODE, in, octets, &by_mode[LONG_MODE]);
    struct reason got = reason_in(SHORT_MODE, in, octets, &by_mode[SHORT_MODE]);
    look(AGREE, got.number == number, number, got.number);
    look(AGREE, (got.code == AX25_REASON_NONE) == canonical, canonical, got.code);
}

/* The reason alone, in the short mode. */
static unsigned reason_of(const uint8_t *octets, size_t len) {
    uint32_t number;
    size_t place;
    return ax25_reason(octets, len, 0, &number, &place);
}

/* Records of these parts. What the call has to fill holds paint, or in turns such as a call could have left, of every number. They are lent
   at an edge, where they are aligned: at the lower or the upper one, or between two more records, which are painted all over. */
struct records {
    struct lent lent;
    struct ax25_capture *at;
    size_t count;
    int is_between;
    uint8_t paint;
};

static struct records lend_records(const struct part *parts, size_t count, unsigned place) {
    struct records r;
    r.is_between = place == MIDDLE;
    r.lent = lend(&records_arena, place == HIGH ? HIGH : LOW, (count + (r.is_between ? 2 : 0)) * sizeof *r.at);
    r.at = (struct ax25_capture *)(void *)r.lent.at + r.is_between;
    r.count = count;
    r.paint = fresh_paint();
    memset(r.lent.at, r.paint, r.lent.len);
    for (size_t i = 0; i < count; i++) {
        struct ax25_capture left = {0, 0, (uint32_t)((r.paint + i) % 64), (uint16_t)((r.paint + i) / 2 % 2), (uint16_t)((r.paint + i) % 14)};
        if (r.paint % 2) r.at[i] = left;
        r.at[i].start = parts[i].start;
        r.at[i].length = parts[i].length;
    }
    return r;
}

static int neighbours_hold(const struct records *r) {
    return !r->is_between || (filled_with((const uint8_t *)(r->at - 1), sizeof *r->at, r->paint) &&
                              filled_with((const uint8_t *)(r->at + r->count), sizeof *r->at, r->paint));
}

/* One record that was filled, beside what it owes and what the single calls give for its part. */
static void look_at_record(enum mode mode, const struct lent *in, const struct ax25_capture *got, const struct part *part) {
    const struct captured *want = &part->in_mode[mode];
    int is_inside = want->number != AX25_PART_OUTSIDE;
    captured = part;
    captured_in = in->len;
    look_from(is_inside ? in->at + part->start : in->at, is_inside ? part->length : 0, show_part);
    look(CAPTURED, got->number == want->number, want->number, got->number);
    look(CAPTURED, got->canonical == want->canonical, want->canonical, got->canonical);
    look(CAPTURED, got->kind == want->kind, want->kind, got->kind);
    look(KEPT, got->start == part->start && got->length == part->length, part->start, got->start);
    if (!is_inside) return;
    const uint8_t *octets = in->at + part->start;
    uint32_t number;
    size_t place;
    unsigned code = ax25_reason(octets, part->length, asked, &number, &place);
    look(AGREE, got->number == number, number, got->number);
    look(AGREE, got->canonical == (code == AX25_REASON_NONE), code == AX25_REASON_NONE, got->canonical);
    if (mode != SHORT_MODE) return;
    number = ax25_decode(octets, part->length);
    unsigned canonical = ax25_canonical(octets, part->length);
    look(AGREE, got->number == number, number, got->number);
    look(AGREE, got->canonical == canonical, canonical, got->canonical);
}

/* One call for all of the parts, in one mode and then in the other: what the first left in the records plays no part in the second. */
static void capture(const uint8_t *octets, size_t len, const struct part *parts, size_t count, unsigned place) {
    static unsigned turn;
    struct lent in = lend_octets(&input_arena, place % PLACES, octets, len);
    struct records records = lend_records(parts, count, place / PLACES % PLACES);
    turn++;
    for (unsigned time = 0; time < MODES; time++) {
        enum mode mode = (enum mode)((time + turn) % MODES);
        asked = asking_for(mode, turn / MODES);
        look_from(octets, len, show_asked);
        ax25_captures(in.at, len, asked, records.at, count);
        look_at_lent(&in, octets, &records.lent);
        look(GUARDS, neighbours_hold(&records), 1, 0);
        for (size_t i = 0; i < count; i++) look_at_record(mode, &in, &records.at[i], &parts[i]);
    }
    look_from(octets, len, NULL);
}

/* The inputs of a set are gathered in one buffer, and ax25_captures is asked for all of them at once, in the order in which they came or
   from the last to the first. */
enum { GATHERED = 512 };
static uint8_t gathered[LONGEST + 32768];
static struct part waiting[GATHERED];
static size_t gathered_len, waiting_count;

static void ask_for_gathered(void) {
    static struct part turned[GATHERED];
    static unsigned turn;
    if (waiting_count == 0) return;
    for (size_t i = 0; i < waiting_count; i++) turned[i] = waiting[waiting_count - 1 - i];
    capture(gathered, gathered_len, turn % 2 ? turned : waiting, waiting_count, turn / 2);
    turn++;
    gathered_len = waiting_count = 0;
}

static void gather(const uint8_t *octets, size_t len) {
    if (waiting_count == GATHERED || len > sizeof gathered - gathered_len) ask_for_gathered();
    struct part *part = &waiting[waiting_count++];
    *part = part_of(octets, len, 0, len);
    part->start = gathered_len;
    if (len) memcpy(gathered + gathered_len, octets, len);
    gathered_len += len;
}

struct part part_of(const uint8_t *in, size_t len, size_t start, size_t length) {
    struct part part = {start, length, {{0, 0, 0}}};
    for (int mode = 0; mode < MODES; mode++) part.in_mode[mode] = model_capture((enum mode)mode, in, len, start, length);
    return part;
}

void examine_captures(const uint8_t *octets, size_t len, const struct part *parts, size_t count, unsigned place) {
    count_input();
    capture(octets, len, parts, count, place);
}

void examine_captures_everywhere(const uint8_t *octets, size_t len, const struct part *parts, size_t count) {
    for (unsigned place = 0; place < CAPTURE_PLACES; place++) examine_captures(octets, len, parts, count, place);
}

/* Each call's answer by the others': what is written is canonical and re-encodes as itself, and an input is canonical exactly
   when it is what is written. */
static void look_at_agreement(const struct lent *in, unsigned number, unsigned canonical, size_t length) {
    look(AGREE, (number == 0) == (length != 0), number == 0, length);
    look(AGREE, length <= in->len, in->len, length);
    struct lent out = lend(&output_arena, HIGH, in->len);
    if (ax25_reencode(in->at, in->len, out.at, in->len) != 0) {
        look(AGREE, number != 0 && canonical == 0, 0, canonical);
        return;
    }
    look(AGREE, number == 0, 0, number);
    unsigned same = length == in->len && memcmp(out.at, in->at, length) == 0;
    look(AGREE, canonical == same, same, canonical);
    look(AGREE, ax25_decode(out.at, length) == 0, 0, 1);
    look(AGREE, ax25_canonical(out.at, length) == 1, 1, 0);
    look(AGREE, reason_of(out.at, length) == AX25_REASON_NONE, AX25_REASON_NONE, reason_of(out.at, length));
    look(AGREE, ax25_reencoded_length(out.at, length) == length, length, ax25_reencoded_length(out.at, length));
}

/* An old capture is answered as what follows its nulls is; so where it has none, as any other input. */
static void look_at_nulls(const struct lent *in, unsigned number, unsigned old) {
    size_t nulls = model_nulls(in->at, in->len);
    unsigned rest = nulls == 0 ? number : ax25_decode(in->at + nulls, in->len - nulls);
    look(AGREE, old == rest, rest, old);
}

/* Decoding a relayed frame gives the same frame with that one mark set: its re-encoding has it too, and is else as before. */
static void look_at_relayed(const uint8_t *before, const uint8_t *after, size_t len, size_t due) {
    static uint8_t wanted[LONGEST], got[LONGEST];
    size_t length = ax25_reencoded_length(before, len);
    unsigned canonical = ax25_canonical(before, len), reason = reason_of(before, len);
    look(AGREE, ax25_decode(after, len) == 0, 0, 1);
    look(AGREE, ax25_canonical(after, len) == canonical, canonical, !canonical);
    look(AGREE, reason_of(after, len) == reason, reason, reason_of(after, len));
    look(AGREE, ax25_reencode(before, len, wanted, length) == 0 && ax25_reencode(after, len, got, length) == 0, 1, 0);
    wanted[7 * (2 + due) + 6] |= 0x80;
    look(AGREE, ax25_reencoded_length(after, len) == length && memcmp(wanted, got, length) == 0, 1, 0);
}

/* Relays a copy of the octets. */
static void relay_once(const uint8_t *octets, size_t len, const struct relayed *want, unsigned place) {
    struct lent callsign = lend_octets(&input_arena, place / PLACES, relaying->callsign, relaying->len);
    struct lent frame = lend_octets(&output_arena, place % PLACES, octets, len);
    look_from(octets, len, show_station);
    owe(want->number);
    unsigned number = ax25_relay(callsign.at, callsign.len, relaying->ssid, frame.at, len);
    look(RELAYED, number == want->number, want->number, number);
    look(want->number == 0 ? RELAYED : REFUSED, len == 0 || memcmp(frame.at, want->octets, len) == 0, 1, 0);
    look_at_lent(&callsign, relaying->callsign, &frame);
    if (want->number == 0) look_at_relayed(octets, frame.at, len, want->due);
}

static void relay(const struct address *own, const uint8_t *octets, size_t len, const struct relayed *want, unsigned place) {
    static uint8_t again[LONGEST];
    relaying = own;
    relay_once(octets, len, want, place);
    if (want->number == 0) {
        struct relayed then = model_relay(own, want->octets, len, again);
        relay_once(want->octets, len, &then, place);
    }
    relaying = NULL;
}

/* Turns the address into one that differs in one bit, or into one that is none. The callsign has room for seven octets. */
static void spoil(struct address *own, uint8_t *callsign, unsigned turn) {
    unsigned bit = turn / 2 % 46;
    own->len = 6;
    if (turn % 2 == 0 && bit < 42) callsign[bit / 7] ^= (uint8_t)(1u << bit % 7);
    else if (turn % 2 == 0) own->ssid ^= (uint8_t)(1u << (bit - 42));
    else if (bit % 3 == 0) callsign[bit / 3 % 6] |= 0x80;
    else if (bit % 3 == 1) own->ssid = (uint8_t)(16 + turn % 240);
    else callsign[own->len++] = ' ';
}

/* By the station that is due, with or without the spaces that pad it, and by one that is not. Where none is due it is by one of the
   two in turn, which saves time: whoever relays such an input is refused. */
static void relay_by_stations(const uint8_t *octets, size_t len, unsigned place) {
    static uint8_t after[LONGEST];
    static unsigned turn;
    uint8_t callsign[7];
    struct address own = {callsign, 6, model_station(octets, len, callsign)};
    turn++;
    place += PLACES * (turn / 4 % PLACES);
    while (turn / 2 % 2 && own.len > 0 && callsign[own.len - 1] == ' ') own.len--;
    struct relayed want = model_relay(&own, octets, len, after);
    int is_due = want.number == 0;
    if (is_due || turn % 2) relay(&own, octets, len, &want, place);
    if (is_due || turn % 2 == 0) {
        spoil(&own, callsign, turn / 2);
        want = model_relay(&own, octets, len, after);
        relay(&own, octets, len, &want, place);
    }
}

static void examine_reasons(enum mode mode, unsigned first, unsigned last, const uint8_t *octets, size_t len, const struct reason *want) {
    for (unsigned place = first; place <= last; place++) {
        struct lent in = lend_octets(&input_arena, place, octets, len);
        count_input();
        reason_in(mode, &in, octets, want);
    }
    gather(octets, len);
}

void examine_reason(enum mode mode, const uint8_t *octets, size_t len, const struct reason *want, unsigned place) {
    examine_reasons(mode, place, place, octets, len, want);
}

void examine_reason_everywhere(enum mode mode, const uint8_t *octets, size_t len, const struct reason *want) {
    examine_reasons(mode, 0, PLACES - 1, octets, len, want);
}

static void examine_relays(const struct address *own, unsigned first, unsigned last, const uint8_t *octets, size_t len, const struct relayed *want) {
    for (unsigned place = first; place <= last; place++) {
        count_input();
        relay(own, octets, len, want, place);
    }
    gather(octets, len);
}

void examine_relay(const struct address *own, const uint8_t *octets, size_t len, const struct relayed *want, unsigned place) {
    examine_relays(own, place, place, octets, len, want);
}

void examine_relay_everywhere(const struct address *own, const uint8_t *octets, size_t len, const struct relayed *want) {
    examine_relays(own, 0, RELAY_PLACES - 1, octets, len, want);
}

static void examine_in(unsigned place, const uint8_t *octets, size_t len, const struct answer *want, const struct reason *by_mode) {
    struct lent in = lend_octets(&input_arena, place, octets, len);
    count_input();
    look_from(octets, len, NULL);

    unsigned number = ax25_decode(in.at, len);
    look(NUMBER, number == want->number, want->number, number);
    look_at_lent(&in, octets, NULL);
    unsigned old = ax25_decode_old_capture(in.at, len);
    look(OLD, old == want->old, want->old, old);
    look_at_lent(&in, octets, NULL);
    unsigned canonical = ax25_canonical(in.at, len);
    look(CANONICAL, canonical == want->canonical, want->canonical, canonical);
    look_at_lent(&in, octets, NULL);
    size_t length = ax25_reencoded_length(in.at, len);
    look(LENGTH, length == want->length, want->length, length);
    look_at_lent(&in, octets, NULL);

    size_t exact = want->length;
    reencode_with(&in, octets, want, place, 0);
    reencode_with(&in, octets, want, place, exact);
    reencode_with(&in, octets, want, place, exact + 1);
    reencode_with(&in, octets, want, place, exact + 77);
    if (exact) {
        reencode_with(&in, octets, want, place, exact - 1);
        reencode_with(&in, octets, want, place, exact / 2);
    }
    look_at_agreement(&in, number, canonical, length);
    look_at_nulls(&in, number, old);
    look_at_reasons(&in, octets, by_mode, number, canonical);
    relay_by_stations(octets, len, place);
}

/* The model of the reason is asked once for all places, which saves time where the input is long. */
static void examine_places(unsigned first, unsigned last, const uint8_t *octets, size_t len, const struct answer *want) {
    struct reason by_mode[MODES];
    for (int mode = 0; mode < MODES; mode++) by_mode[mode] = model_reason((enum mode)mode, octets, len);
    for (unsigned place = first; place <= last; place++) examine_in(place, octets, len, want, by_mode);
    gather(octets, len);
}

void examine(const uint8_t *octets, size_t len, const struct answer *want, unsigned place) { examine_places(place, place, octets, len, want); }

void examine_everywhere(const uint8_t *octets, size_t len, const struct answer *want) { examine_places(0, PLACES - 1, octets, len, want); }
