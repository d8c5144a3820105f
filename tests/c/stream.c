#include "stream.h"

#include <stdio.h>
#include <stdlib.h>
#include <string.h>

#include "ax25.h"
#include "draw.h"
#include "layout.h"
#include "lent.h"
#include "plain_stream.h"
#include "say.h"
#include "sets.h"
#include "stream_model.h"

enum { ROOM = 1024, MOST_DROPPED = 65535, PHASES = 6 };

/* Document 02, M-104: what it says of each, worked out by hand. In a stream `*N` stands for N octets like the one before it, `!` marks
   an octet that completes a packet and `-` one that shows a defect. A packet is its type octet and its data; then the length, the port
   and the phase at the end. */
static const struct {
    const char *name, *stream, *packets;
    unsigned length, port, phase;
} cases[] = {
    {"fed: nothing", "", "", 0, 0, 0},
    {"fed: a packet", "C0 50 48 65 C0!", "50 48 65", 2, 5, 1},
    {"fed: a packet that is not closed yet", "C0 50 48 65", "", 2, 5, 2},
    {"fed: port 11, the last", "C0 B0 41 C0!", "B0 41", 1, 11, 1},
    {"fed: a type octet with no data is a packet", "C0 70 C0!", "70", 0, 7, 1},
    {"fed: a type octet and nothing yet", "C0 70", "", 0, 7, 2},
    {"fed: escapes", "C0 00 DB DC DB DD C0!", "00 C0 DB", 2, 0, 1},
    {"fed: half an escape", "C0 20 41 DB", "", 1, 2, 3},
    {"fed: DC and DD that follow no DB", "C0 10 DC DD DB DC DC C0!", "10 DC DD C0 DC", 4, 1, 1},
    {"fed: type octets in the data", "C0 00 01 C1 F0 D0 C0!", "00 01 C1 F0 D0", 4, 0, 1},
    {"fed: C0 alone", "C0", "", 0, 0, 1},
    {"fed: nothing between two C0 is no packet", "C0 C0 C0 C0", "", 0, 0, 1},
    {"fed: nothing before, between and behind packets", "C0 C0 10 41 C0! C0 C0 20 42 43 C0! C0 C0", "10 41; 20 42 43", 2, 2, 1},
    {"fed: one C0 closes a packet and opens the next", "C0 10 41 C0! 20 42 43 C0! 30 C0! 40", "10 41; 20 42 43; 30", 0, 4, 2},
    {"fed: octets before the first C0", "41 00 DC DD F1 01", "", 0, 0, 0},
    {"fed: bad escapes before the first C0", "DB 41 DB DB DC DB", "", 0, 0, 0},
    {"fed: a DB before the first C0", "00 41 DB C0 10 42 C0!", "10 42", 1, 1, 1},
    {"fed: more than 1,024 octets before the first C0", "00 41*1100 C0 10 42 C0!", "10 42", 1, 1, 1},
    {"dropped: a bad escape", "C0 00 41 DB 42- 43 44", "", 0, 0, 4},
    {"dropped: a bad escape, and the packet behind it", "C0 B0 41 DB 42- 43 C0 10 44 C0!", "10 44", 1, 1, 1},
    {"dropped: a DB behind a DB", "C0 00 DB DB- DC C0 10 41 C0!", "10 41", 1, 1, 1},
    {"dropped: a DB before the closing C0, which shows it", "C0 00 41 DB C0-", "", 0, 0, 1},
    {"dropped: that C0 opens the next packet", "C0 00 41 DB C0- 10 42 C0!", "10 42", 1, 1, 1},
    {"dropped: a command", "C0 01- 41 C0", "", 0, 0, 1},
    {"dropped: a command with every bit", "C0 FF- C0 10 41 C0!", "10 41", 1, 1, 1},
    {"dropped: a command at a port over 11", "C0 C1- 41", "", 0, 0, 4},
    {"dropped: port 13", "C0 D0- 41 C0", "", 0, 0, 1},
    {"dropped: port 15 without data", "C0 F0- C0", "", 0, 0, 1},
    {"dropped: octets between two packets that share no C0", "C0 10 41 C0! 42- 43 44 C0 20 45 C0!", "10 41; 20 45", 1, 2, 1},
    {"fed: half an escape in the type's place", "C0 DB", "", 0, 0, 5},
    {"dropped: port 12, which is C0, escaped", "C0 DB DC- 41 C0 10 42 C0!", "10 42", 1, 1, 1},
    {"dropped: the command DB, escaped", "C0 DB DD- 41 C0 10 42 C0!", "10 42", 1, 1, 1},
    {"dropped: a bad escape in the type's place", "C0 DB 41- 42 C0 10 43 C0!", "10 43", 1, 1, 1},
    {"dropped: a DB before a good type", "C0 DB 00- 41 C0", "", 0, 0, 1},
    {"dropped: two DB in the type's place", "C0 DB DB- DC C0", "", 0, 0, 1},
    {"dropped: a DB in the type's place, then C0", "C0 DB C0- 10 41 C0!", "10 41", 1, 1, 1},
    {"dropped: nothing but a DB between two C0, three times", "C0 DB C0- DB C0- DB C0- DB", "", 0, 0, 5},
    {"dropped once: DB means nothing then", "C0 01- DB C0 10 41 C0!", "10 41", 1, 1, 1},
    {"dropped once: DB DC means nothing then", "C0 01- DB DC DB DD DB 41 DB DB C0 10 41 C0!", "10 41", 1, 1, 1},
    {"dropped once: a type octet and a bad escape", "C0 02- DB 41 03 D0", "", 0, 0, 4},
    {"dropped once: two bad escapes", "C0 10 DB 41- DB 41 DB C0 20 42 C0!", "20 42", 1, 2, 1},
    {"dropped: five, and a packet", "C0 01- C0 D0- C0 DB 41- C0 00 DB C0- DB C0- C0 00 C0!", "00", 0, 0, 1},
    {"given out: length and port stay at a further C0", "C0 30 41 42 C0! C0 C0", "30 41 42", 2, 3, 1},
    {"given out: length and port stay at a DB", "C0 30 41 42 C0! DB", "30 41 42", 2, 3, 5},
    {"given out: a drop then ends them", "C0 30 41 42 C0! DB DC-", "30 41 42", 0, 0, 4},
    {"given out: a drop by C0 then ends them", "C0 30 41 42 C0! DB C0-", "30 41 42", 0, 0, 1},
    {"given out: another type octet then ends them", "C0 30 41 42 C0! 50", "30 41 42", 0, 5, 2},
    {"given out: 1,024 octets", "C0 00 41*1024 C0!", "00 41*1024", 1024, 0, 1},
    {"given out: 1,024 octets, the last escaped", "C0 B0 41*1023 DB DC C0!", "B0 41*1023 C0", 1024, 11, 1},
    {"given out: 1,024 octets twice, with one C0 between", "C0 10 41*1024 C0! 20 42*1024 C0!", "10 41*1024; 20 42*1024", 1024, 2, 1},
    {"fed: 1,024 octets and no C0 yet", "C0 B0 41*1024", "", 1024, 11, 2},
    {"fed: 1,024 octets and half an escape", "C0 B0 41*1024 DB", "", 1024, 11, 3},
    {"dropped: a 1,025th octet", "C0 00 41*1024 42-", "", 0, 0, 4},
    {"dropped: a 1,025th octet, DC as it is", "C0 00 41*1024 DC- C0", "", 0, 0, 1},
    {"dropped: a 1,025th octet, an escaped C0", "C0 00 41*1024 DB DC- 42 C0 10 43 C0!", "10 43", 1, 1, 1},
    {"dropped: a 1,025th octet, an escaped DB", "C0 00 41*1024 DB DD- 42 C0 10 43 C0!", "10 43", 1, 1, 1},
    {"dropped: a bad escape behind 1,024 octets", "C0 00 41*1024 DB 42- 43", "", 0, 0, 4},
    {"dropped: a DB and C0 behind 1,024 octets", "C0 00 41*1024 DB C0- 10 43 C0!", "10 43", 1, 1, 1},
    {"dropped once: thousands of octets", "C0 00 41*1024 41- 41*1100 C0 10 43 C0!", "10 43", 1, 1, 1},
};
#define COUNT(list) (sizeof(list) / sizeof *(list))

/* What packets can come to: given out, too long, a bad escape, a command, a port over 11; then what is left of it for short ones,
   and behind a good type octet. */
static const unsigned numbers[] = {0, 24, 52, 54, 56}, short_numbers[] = {0, 52, 54, 56}, later_numbers[] = {0, 24, 52};

static struct arena piece_arena, stream_arena, packet_arena;

/* How far one way of cutting a stream has come. */
struct walk {
    const uint8_t *octets;
    size_t len, at;
    const struct stream_answer *want;
    size_t event, data; /* how many events there were, and how many octets of data were given out */
    size_t drops;       /* how many, with those that the state had at the start */
    struct ax25_kiss_stream state, plain;
};

static const struct walk *walking;
static unsigned long ends[PHASES]; /* of how many pieces the last octet was read into each phase, with others behind it */

static void show_walk(void) {
    const struct ax25_kiss_stream *s = &walking->state;
    printf("  at octet %zu of a stream of %zu, with length %u, port %u, phase %u, dropped %u\n", walking->at, walking->len, s->length,
           s->port, s->phase, s->dropped);
}

static int same_state(const struct ax25_kiss_stream *a, const struct ax25_kiss_stream *b) { return memcmp(a, b, sizeof *a) == 0; }

static int same_packet(const struct ax25_kiss_packet *a, const struct ax25_kiss_packet *b) {
    return a->ready == b->ready && a->port == b->port && a->length == b->length;
}

/* What a call takes a state for: one that no call made is a fresh one with its count. */
static struct ax25_kiss_stream read_as(struct ax25_kiss_stream state) {
    if (state.length > ROOM || state.port > 11 || state.phase >= PHASES) state.length = state.port = state.phase = 0;
    return state;
}

/* The call with all that it is lent between guards, the state in another place each time. */
static size_t feed(struct ax25_kiss_stream *state, const uint8_t *piece, size_t len, struct ax25_kiss_packet *packet) {
    static unsigned turn;
    turn++;
    memset(packet, 0xA5, sizeof *packet); /* nothing that a call gives */
    struct lent stream = lend_octets(&stream_arena, turn % 2 ? LOW : HIGH, (const uint8_t *)state, sizeof *state); /* aligned in both */
    struct lent given = lend_octets(&packet_arena, turn / 2 % 2 ? LOW : HIGH, (const uint8_t *)packet, sizeof *packet);
    size_t taken = ax25_kiss_feed((struct ax25_kiss_stream *)(void *)stream.at, piece, len, (struct ax25_kiss_packet *)(void *)given.at);
    look(GUARDS, guards_hold(&stream) && guards_hold(&given), 1, 0);
    memcpy(state, stream.at, sizeof *state);
    memcpy(packet, given.at, sizeof *packet);
    return taken;
}

/* What ax25_kiss_read makes of the octets from the C0 before a packet to the one that completes it. */
static void look_at_own(const struct walk *w, const struct stream_event *given) {
    static uint8_t data[ROOM];
    uint8_t port = 0;
    size_t length = 0, opening = given->place;
    do opening--;
    while (w->octets[opening] != 0xC0);
    unsigned number = ax25_kiss_read(w->octets + opening, given->place + 1 - opening, data, ROOM, &port, &length);
    look(OWN, number == 0 && port == given->port && length == given->length && memcmp(data, w->state.data, length) == 0, 0, number);
}

/* One call on the octets up to `end`, which stand at `piece`. Gives 0 where the rest of this way can't be looked at. */
static int feed_once(struct walk *w, const uint8_t *piece, size_t end) {
    const struct stream_event *event = w->want->events + w->event, *last = w->want->events + w->want->count, *given = NULL;
    const struct ax25_kiss_stream before = w->state, start = read_as(before);
    size_t due_taken = end - w->at, taken;
    size_t drops = 0;
    struct ax25_kiss_packet due = {0, 0, 0}, packet, plain;
    look_from(w->octets + w->at, end - w->at, show_walk);
    for (; event < last && event->place < end && !given; event++) {
        owe(event->number);
        if (event->number) drops++;
        else given = event;
    }
    if (given) {
        due = (struct ax25_kiss_packet){1, given->port, given->length};
        due_taken = given->place + 1 - w->at;
    }
    w->event = (size_t)(event - w->want->events);
    w->drops += drops;

    taken = feed(&w->state, piece, end - w->at, &packet);
    size_t count = w->drops < MOST_DROPPED ? w->drops : MOST_DROPPED;
    look(DROPPED, w->state.dropped == count, count, w->state.dropped);
    look(FED, same_packet(&packet, &due), due.ready, packet.ready);
    if (given) look(FED, memcmp(w->state.data, w->want->data + w->data, given->length) == 0, 1, 0);
    if (given) look_at_own(w, given);
    if (drops == 0 && w->state.length <= ROOM) /* else packets that were dropped in this call wrote there too */
        look(BEYOND, memcmp(w->state.data + w->state.length, before.data + w->state.length, ROOM - w->state.length) == 0, 1, 0);
    if (end == w->at) look(IDLE, same_state(&w->state, &start), 1, 0);
    size_t plain_taken = plain_kiss_feed(&w->plain, w->octets + w->at, end - w->at, &plain);
    look(PLAIN, plain_taken == taken && same_packet(&plain, &packet) && same_state(&w->plain, &w->state), taken, plain_taken);
    w->data += due.length;
    w->at += due_taken;
    return look(TAKEN, taken == due_taken, due_taken, taken);
}

/* The next piece, until it is used up. */
static int feed_piece(struct walk *w, size_t len) {
    static unsigned turn;
    size_t from = w->at, end = from + len;
    int held;
    struct lent piece = lend_octets(&piece_arena, (enum place)(turn++ % PLACES), w->octets + from, len);
    do held = feed_once(w, piece.at + (w->at - from), end);
    while (held && w->at < end);
    look(GUARDS, guards_hold(&piece), 1, 0);
    look(INPUT, memcmp(piece.at, w->octets + from, len) == 0, 1, 0);
    if (len && w->at < w->len && w->state.phase < PHASES) ends[w->state.phase]++;
    return held;
}

/* Ways to cut: how long the next piece is, where so many octets are left. */
typedef size_t cutting(size_t at, size_t left);
static size_t cut_at;
static unsigned cut_below;
static size_t whole(size_t at, size_t left) { return (void)at, left; }
static size_t in_two(size_t at, size_t left) { return at < cut_at ? cut_at - at : left; }
static size_t by_ones(size_t at, size_t left) { return (void)left, at < cut_at ? cut_at - at : 1; }
static size_t at_random(size_t at, size_t left) {
    size_t len = below(cut_below);
    return (void)at, len < left ? len : left;
}

/* All pieces of one way of cutting and an empty one behind them. */
static void feed_all(const struct ax25_kiss_stream *start, const uint8_t *octets, size_t len, const struct stream_answer *want,
                     cutting *cut) {
    static struct ax25_kiss_stream in_one;
    struct walk w = {octets, len, 0, want, 0, 0, start->dropped, *start, *start};
    walking = &w;
    while (w.at < len)
        if (!feed_piece(&w, cut(w.at, len - w.at))) return;
    feed_piece(&w, 0);
    if (cut == whole) in_one = w.state;
    look(STATE, same_state(&w.state, &in_one), 1, 0);
    look(STATE, same_state(&w.state, &want->state), 1, 0);
}

/* A short stream: whole, octet by octet, and cut at every place; from `from` on, where what is before that is one piece. */
static void examine_cuts(const struct ax25_kiss_stream *start, const uint8_t *octets, size_t len, const struct stream_answer *want,
                         size_t from) {
    count_input();
    feed_all(start, octets, len, want, whole);
    cut_at = from;
    feed_all(start, octets, len, want, by_ones);
    for (cut_at = from ? from : 1; cut_at < len; cut_at++) feed_all(start, octets, len, want, in_two);
}

/* A fresh state, its data painted, its count mostly low and now and then nearly full. */
static struct ax25_kiss_stream a_start(void) {
    static unsigned turn;
    struct ax25_kiss_stream start;
    turn++;
    memset(&start, 0, sizeof start);
    memset(start.data, fresh_paint(), ROOM);
    start.dropped = (uint16_t)(turn % 3 == 2 ? MOST_DROPPED - 1 : turn % 3);
    return start;
}

static void cuts_by_model(const uint8_t *octets, size_t len, size_t from) {
    struct ax25_kiss_stream start = a_start();
    struct stream_answer want = model_stream(&start, octets, len);
    examine_cuts(&start, octets, len, &want, from);
}

/* A set, and where its pieces end. */
static void begin(const char *name) {
    memset(ends, 0, sizeof ends);
    set_begin(name);
}

static void say_ends(unsigned long least) {
    char line[200];
    int all = 1, at = snprintf(line, sizeof line, "pieces end in each phase, %lu or more:", least);
    for (unsigned phase = 0; phase < PHASES; phase++) {
        all = all && ends[phase] >= least;
        at += snprintf(line + at, sizeof line - (size_t)at, " %u: %lu%s", phase, ends[phase], phase + 1 < PHASES ? "," : "");
    }
    say(all, line);
}

/* The cases */

static uint8_t typed_data[4 * ROOM];
static struct stream_event typed_events[8];

/* Octets as the cases type them, up to a `;` or the end; the marks are added to `a`, where it is not NULL. */
static size_t typed(const char **text, uint8_t *octets, struct stream_answer *a) {
    size_t len = 0;
    char *end;
    for (;;) {
        unsigned long octet = strtoul(*text, &end, 16), times = 1;
        if (end == *text) break;
        if (*end == '*') times = strtoul(end + 1, &end, 10);
        memset(octets + len, (int)octet, times);
        len += times;
        if (*end == '!' || *end == '-') typed_events[a->count++] = (struct stream_event){len - 1, *end++ == '-', 0, 0};
        *text = end;
    }
    if (**text == ';') ++*text;
    return len;
}

/* The packets of a case, one for each mark that has one, and the state at its end but for the data. */
static void add_packets(size_t i, struct stream_answer *a) {
    const char *packets = cases[i].packets;
    uint8_t *data = typed_data, packet[ROOM + 1];
    for (struct stream_event *e = typed_events; e < typed_events + a->count; e++) {
        a->state.dropped = (uint16_t)(a->state.dropped + e->number);
        if (e->number) continue;
        e->length = typed(&packets, packet, NULL) - 1;
        e->port = packet[0] / 16;
        memcpy(data, packet + 1, e->length);
        data += e->length;
    }
    a->state.length = (uint16_t)cases[i].length;
    a->state.port = (uint8_t)cases[i].port;
    a->state.phase = (uint8_t)cases[i].phase;
}

/* Why a packet is dropped the cases do not say. */
static int same_answer(const struct stream_answer *a, const struct stream_answer *b) {
    size_t data = 0;
    if (a->count != b->count || !same_state(&a->state, &b->state)) return 0;
    for (size_t i = 0; i < a->count; i++) {
        const struct stream_event *x = a->events + i, *y = b->events + i;
        if (x->place != y->place || !x->number != !y->number || x->port != y->port || x->length != y->length) return 0;
        data += x->length;
    }
    return memcmp(a->data, b->data, data) == 0;
}

/* A long one is cut behind as many octets as there is room for data, in brief near its end. */
static void run_cases(int brief) {
    static const struct ax25_kiss_stream zeros;
    static uint8_t octets[8 * ROOM];
    int modelled = 1;
    for (size_t i = 0; i < COUNT(cases); i++) {
        const char *stream = cases[i].stream;
        struct stream_answer want = {typed_events, 0, typed_data, zeros};
        size_t len = typed(&stream, octets, &want);
        struct stream_answer other = model_stream(&zeros, octets, len);
        add_packets(i, &want);
        memcpy(want.state.data, other.state.data, ROOM);
        modelled = modelled && same_answer(&want, &other);
        begin(cases[i].name);
        examine_cuts(&zeros, octets, len, &want, len <= ROOM ? 0 : brief ? len - 16 : ROOM);
        set_end_brief();
    }
    say(modelled, "the model that streams are held to gives these cases");
}

/* Every stream */

static const uint8_t alphabet[] = {0xC0, 0xDB, 0xDC, 0xDD, 0x00, 0x41};

static void cut_everywhere(const uint8_t *octets, size_t len) { cuts_by_model(octets, len, 0); }

/* Behind the first octets of a packet: so many of data. */
static size_t begun;
static void cut_behind(const uint8_t *octets, size_t len) {
    static uint8_t stream[ROOM + 16];
    stream[0] = 0xC0;
    stream[1] = 0x50;
    memset(stream + 2, 0x42, begun);
    memcpy(stream + 2 + begun, octets, len);
    cuts_by_model(stream, 2 + begun + len, 2 + begun);
}

static void run_every(size_t longest) {
    char name[100];
    snprintf(name, sizeof name, "every stream of up to %zu octets of six", longest);
    begin(name);
    for_every(alphabet, sizeof alphabet, longest, cut_everywhere);
    set_end();
    say_ends(1);
    say_met(short_numbers, COUNT(short_numbers), 1);

    snprintf(name, sizeof name, "every stream of up to %zu octets of six behind 1,022 to 1,024 of data", longest - 2);
    begin(name);
    for (begun = ROOM - 2; begun <= ROOM; begun++) for_every(alphabet, sizeof alphabet, longest - 2, cut_behind);
    set_end();
    say_met(later_numbers, COUNT(later_numbers), 1);
}

/* Every octet behind beginnings that end in each phase, with the lengths that matter; in brief one octet in eight and what escapes
   are made of. */
static void run_octets(int brief) {
    static const char *const beginnings[] = {
        "", "41 DB",
        "C0", "C0 C0", "C0 30 41 42 C0", "C0 30 41*1024 C0",
        "C0 30", "C0 30 41", "C0 30 41*1023", "C0 30 41*1024",
        "C0 30 DB", "C0 30 41 DB", "C0 30 41*1023 DB", "C0 30 41*1024 DB",
        "C0 01", "C0 30 41*1024 41",
        "C0 DB", "C0 30 41*1024 C0 DB"};
    static uint8_t octets[2 * ROOM];
    begin("every octet in each phase, and two behind it");
    for (size_t i = 0; i < COUNT(beginnings); i++) {
        const char *text = beginnings[i];
        size_t len = typed(&text, octets, NULL);
        for (unsigned octet = 0; octet < 256; octet++) {
            if (brief && octet % 8 != 0 && (octet < 0xDB || octet > 0xDD)) continue;
            octets[len] = (uint8_t)octet;
            octets[len + 1] = octet % 2 ? 0xC0 : 0x43;
            octets[len + 2] = 0xC0;
            cuts_by_model(octets, len + 3, len);
        }
    }
    set_end();
    say_ends(32);
    say_met(numbers, COUNT(numbers), 1);
}

/* States */

static struct ax25_kiss_stream state_of(unsigned length, unsigned port, unsigned phase, unsigned dropped) {
    struct ax25_kiss_stream state;
    memset(state.data, fresh_paint(), ROOM);
    state.length = (uint16_t)length;
    state.port = (uint8_t)port;
    state.phase = (uint8_t)phase;
    state.dropped = (uint16_t)dropped;
    return state;
}

static const unsigned counts[] = {0, 7, MOST_DROPPED - 1, MOST_DROPPED};

/* An empty piece and `text` on a state that no call made, cut at every place. */
static void feed_bad(unsigned length, unsigned port, unsigned phase, const char *text) {
    uint8_t octets[16];
    size_t len = from_hex(text, octets);
    for (size_t i = 0; i < COUNT(counts); i++) {
        struct ax25_kiss_stream start = state_of(length, port, phase, counts[i]);
        struct stream_answer want = model_stream(&start, octets, len);
        examine_cuts(&start, octets, len, &want, 0);
    }
}

static void run_bad_states(void) {
    static const struct {
        unsigned length, port, phase;
    } bad[] = {{1025, 0, 2}, {1025, 11, 1}, {1026, 3, 3},  {2048, 3, 2},  {65535, 0, 0}, {65535, 11, 5}, {0, 12, 2},
               {1, 12, 1},   {1024, 13, 3}, {0, 16, 0},    {5, 128, 4},   {0, 255, 5},   {0, 0, 6},      {1, 1, 7},
               {1024, 11, 8}, {0, 0, 128},  {7, 7, 255},   {1025, 12, 6}, {1025, 0, 4},  {1025, 12, 2},  {65535, 255, 255}};
    static const char *const texts[] = {"", "41", "DB", "DC", "00", "C0", "DB C0 10 42 C0 01", "C0 C0 41",
                                        "42 43 C0 10 44 DB DC C0 C0 20"};
    begin("a state that no call made is a fresh one with its count");
    for (size_t i = 0; i < COUNT(bad); i++)
        for (size_t t = 0; t < COUNT(texts); t++) feed_bad(bad[i].length, bad[i].port, bad[i].phase, texts[t]);
    set_end();
}

/* A state that is in bounds though no call leaves it so: noise and what is dropped are passed over up to the next C0, whatever length
   and port stand there. */
static void run_odd_states(void) {
    static const uint8_t octets[] = {0x41, 0xDB, 0xDC, 0x00, 0xC0, 0x20, 0x42, 0xC0};
    begin("length and port mean nothing before the first C0 and while a packet is dropped");
    for (unsigned phase = 0; phase < PHASES; phase += 4)
        for (size_t i = 0; i < COUNT(counts); i++) {
            struct ax25_kiss_stream start = state_of(i % 2 ? ROOM : 7, 3, phase, counts[i]);
            for (size_t len = 5; len <= sizeof octets; len++) {
                struct stream_answer want = model_stream(&start, octets, len);
                examine_cuts(&start, octets, len, &want, 0);
            }
            const struct stream_answer unchanged = {typed_events, 0, typed_data, start};
            examine_cuts(&start, octets, 4, &unchanged, 0);
        }
    set_end();
}

static void run_idle(void) {
    static const unsigned lengths[] = {0, 1, 2, 1023, 1024}, ports[] = {0, 1, 11};
    begin("an empty piece on every kind of state");
    for (unsigned phase = 0; phase < PHASES; phase++)
        for (size_t i = 0; i < COUNT(lengths) * COUNT(ports) * COUNT(counts); i++) {
            struct ax25_kiss_stream start = state_of(lengths[i % 5], ports[i / 5 % 3], phase, counts[i / 15]);
            const struct stream_answer want = {typed_events, 0, typed_data, start};
            examine_cuts(&start, (const uint8_t *)"", 0, &want, 0);
        }
    set_end();

    static struct ax25_kiss_stream line;
    struct ax25_kiss_packet packet;
    const uint8_t *nowhere = (const uint8_t *)(uintptr_t)1;
    size_t taken = ax25_kiss_feed(&line, (const uint8_t *)"\xC0\x50\x48\x65\xC0", 5, &packet);
    say(taken == 5 && packet.ready == 1 && packet.port == 5 && packet.length == 2, "ax25_kiss_feed gives out a packet");
    memset(&packet, 0xA5, sizeof packet);
    taken = ax25_kiss_feed(&line, nowhere, 0, &packet);
    say(taken == 0 && packet.ready == 0 && packet.port == 0 && packet.length == 0 && memcmp(line.data, "\x48\x65", 2) == 0 &&
            line.length == 2 && line.port == 5,
        "ax25_kiss_feed of nothing at a pointer that leads nowhere takes 0, gives out nothing and leaves that packet's data");
}

/* More packets to drop than can be counted. */
static void run_count(int brief) {
    static uint8_t octets[2 * 65539 + 4];
    const struct ax25_kiss_stream start = state_of(0, 0, 0, 0);
    for (size_t i = 0; i < sizeof octets; i += 2) memcpy(octets + i, "\xC0\x01", 2);
    memcpy(octets + sizeof octets - 4, "\xC0\x10\x41\xC0", 4);
    begin("65,539 packets to drop, and one behind them");
    struct stream_answer want = model_stream(&start, octets, sizeof octets);
    count_input();
    feed_all(&start, octets, sizeof octets, &want, whole);
    cut_below = 9;
    if (!brief) feed_all(&start, octets, sizeof octets, &want, at_random);
    set_end();
    say(want.count == 65540 && want.state.dropped == MOST_DROPPED, "of 65,539 packets 65,535 are counted");
    say(owed(0) >= 1 && owed(54) >= 65539, "all of them are met");
}

/* Lines */

enum { STREAM = 1 << 20, LONGEST_ITEM = 2 * 1030 + 16 };

/* Up to 1,030 octets of data, mostly short or about as many as there is room for. */
static size_t random_data(uint8_t *out) {
    size_t len = one_in(6) ? 1018 + below(13) : one_in(8) ? below(1031) : below(one_in(3) ? 300 : 24);
    fill_special(out, len);
    return len;
}

/* What a line gives next: a packet, mostly a good one, with both C0 or without the first; noise; or a C0 more. */
static size_t random_item(uint8_t *out) {
    uint8_t data[1030];
    size_t len = below(40);
    switch (below(8)) {
    case 0:
        fill(out, len, ANY_OCTETS);
        for (size_t i = 0; i < len; i++)
            if (out[i] == 0xC0) out[i] = 0xDB;
        return len;
    case 1: return memset(out, 0xC0, 3), 1 + below(3);
    default: break;
    }
    struct kiss_answer packet = model_kiss_write(0, data, random_data(data));
    len = packet.length;
    memcpy(out, packet.octets, len);
    out[1] = one_in(6) ? 0xDB : draw_type();
    if (one_in(3)) len = damage_packet(out, len);
    if (one_in(3) && len) memmove(out, out + 1, --len);
    return len;
}

/* A long stream: whole, in random pieces and octet by octet. */
static void examine_line(const struct ax25_kiss_stream *start, const uint8_t *octets, size_t len, const struct stream_answer *want) {
    static const unsigned longest[] = {2, 9, 100, 5000};
    count_input();
    feed_all(start, octets, len, want, whole);
    cut_below = 1 + longest[below(4)];
    feed_all(start, octets, len, want, at_random);
    cut_at = 0;
    feed_all(start, octets, len, want, by_ones);
}

static void run_random(unsigned long thousands, uint64_t seed, int brief) {
    static uint8_t octets[STREAM];
    draw_from(seed);
    begin("random streams");
    for (unsigned long n = 16 + thousands / 2; n > 0; n--) {
        size_t len = 0, size = n <= 2 && !brief ? STREAM : LONGEST_ITEM + below(brief ? 1024 : 8192);
        while (len + LONGEST_ITEM <= size) len += random_item(octets + len);
        struct ax25_kiss_stream start = a_start();
        if (one_in(4)) start.dropped = (uint16_t)below(65536);
        struct stream_answer want = model_stream(&start, octets, len);
        examine_line(&start, octets, len, &want);
    }
    set_end();
    say_met(numbers, COUNT(numbers), brief ? 1 : thousands);
    say_ends(brief ? 1 : thousands);
}

/* What ax25_kiss_write wrote comes out again: packets with C0s of their own, and packets that share one. What is owed is what was
   written, and not the model's. */
static void run_written(unsigned long count) {
    static uint8_t octets[STREAM], data[STREAM];
    static struct stream_event events[1024];
    const struct ax25_kiss_stream start = a_start();
    struct stream_answer want = {events, 0, data, start};
    size_t len = 0, data_len = 0, shared = 0;
    int written = 1;
    for (; want.count < count && want.count < COUNT(events) && len + LONGEST_ITEM <= STREAM; want.count++) {
        struct stream_event *e = events + want.count;
        size_t length = 0;
        e->length = one_in(8) ? ROOM - below(3) : below(one_in(3) ? 300 : 24);
        e->port = below(12);
        fill_special(data + data_len, e->length);
        if (len && one_in(2)) len--, shared++;
        written = written && ax25_kiss_write((uint8_t)e->port, data + data_len, e->length, octets + len, STREAM - len, &length) == 0;
        memcpy(want.state.data, data + data_len, e->length);
        data_len += e->length;
        len += length;
        e->place = len - 1;
        want.state.length = (uint16_t)e->length;
        want.state.port = (uint8_t)e->port;
        want.state.phase = 1;
    }
    begin("what ax25_kiss_write wrote, one packet behind the other");
    examine_line(&start, octets, len, &want);
    set_end();
    say(written && want.count == count, "all of them were written");
    say(shared >= count / 4 && shared <= count - count / 4, "a quarter and more of them share a C0, and a quarter and more do not");
}

void run_streams(unsigned long thousands, uint64_t seed) {
    int brief = thousands < 100; /* as a memory checker is asked, which takes long for each octet */
    piece_arena = arena_new(STREAM + 65536);
    stream_arena = arena_new(2048);
    packet_arena = arena_new(256);
    draw_from(seed);
    run_cases(brief);
    run_every(brief ? 4 : 6);
    run_octets(brief);
    run_bad_states();
    run_odd_states();
    run_idle();
    run_count(brief);
    run_written(brief ? 60 : 600);
    run_random(thousands, seed, brief);
}
