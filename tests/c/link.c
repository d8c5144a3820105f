#include "link.h"

#include <stdio.h>
#include <string.h>

#include "ax25.h"
#include "draw.h"
#include "fields.h"
#include "layout.h"
#include "lent.h"
#include "link_model.h"
#include "say.h"
#include "sets.h"

#define COUNT(list) (sizeof(list) / sizeof *(list))

enum { MOST_OFFERED = 65535, STATES = 5, MADE = 256 };

static struct arena link_arena, frame_arena;

/* Looking at one call */

static const struct ax25_link *before; /* the record that is lent to the call */

static void show_station(const char *name, const struct ax25_station *s) {
    printf("  %s:", name);
    for (size_t i = 0; i < sizeof s->callsign; i++) printf(" %02X", s->callsign[i]);
    printf(" SSID %u, reserved bits %u\n", s->ssid, s->reserved);
}

static void show_link(void) {
    const struct ax25_link *l = before;
    show_station("a", &l->a);
    show_station("b", &l->b);
    printf("  state %lu, expected %lu %lu, moved %lu %lu, in order %lu, repeated %lu, gaps %lu, outside %lu, offered %lu\n", (unsigned long)l->state,
           (unsigned long)l->expected_from_a, (unsigned long)l->expected_from_b, (unsigned long)l->moved_from_a, (unsigned long)l->moved_from_b,
           (unsigned long)l->in_order, (unsigned long)l->repeated, (unsigned long)l->gaps, (unsigned long)l->outside, (unsigned long)l->offered);
}

static int same_link(const struct ax25_link *a, const struct ax25_link *b) { return memcmp(a, b, sizeof *a) == 0; }

/* A record that is lent: at the lower edge or the upper one, where it is aligned to eight octets too, or between painted octets, where it
   is aligned to four alone. */
struct lent_link {
    struct lent lent;
    struct ax25_link *at;
    uint8_t paint;
};
enum { MARGIN = 4 };

static struct lent_link lend_link(const struct ax25_link *link, unsigned place) {
    struct lent_link l;
    size_t margin = place == MIDDLE ? MARGIN : 0;
    l.lent = lend(&link_arena, place == HIGH ? HIGH : LOW, sizeof *link + 2 * margin);
    l.paint = fresh_paint();
    memset(l.lent.at, l.paint, l.lent.len);
    l.at = (struct ax25_link *)(void *)(l.lent.at + margin);
    memcpy(l.at, link, sizeof *link);
    return l;
}

static int margins_hold(const struct lent_link *l) {
    const uint8_t *at = (const uint8_t *)l->at;
    size_t margin = (size_t)(at - l->lent.at);
    return guards_hold(&l->lent) && filled_with(l->lent.at, margin, l->paint) && filled_with(at + sizeof *l->at, margin, l->paint);
}

static int is_of_record(unsigned number) { return number == 22 || (number >= 71 && number <= 73); }

/* One call on a copy of the record, which goes back to it, in another place each time: so each record is copied before each frame. */
static void offer(struct ax25_link *link, const uint8_t *octets, size_t len, const struct link_answer *want) {
    static unsigned turn;
    struct ax25_link unmoved = *link;
    struct lent_link lent = lend_link(link, turn / PLACES % PLACES);
    struct lent frame = lend_octets(&frame_arena, (enum place)(turn % PLACES), octets, len);
    turn++;
    before = link;
    look_from(octets, len, show_link);
    owe(want->number);
    unsigned number = ax25_link_offer(lent.at, frame.at, len);
    look(OFFERED, number == want->number, want->number, number);
    look(FOLLOWED, same_link(lent.at, &want->link), 1, 0);
    if (!is_of_record(want->number)) {
        unsigned decoded = ax25_decode(octets, len);
        look(AGREE, number == decoded, decoded, number);
        unmoved.offered++;
    }
    if (want->number != 0) look(UNMOVED, same_link(lent.at, &unmoved), 1, 0);
    look(GUARDS, guards_hold(&frame) && margins_hold(&lent), 1, 0);
    look(INPUT, len == 0 || memcmp(frame.at, octets, len) == 0, 1, 0);
    *link = *lent.at;
}

/* What was met in this set: each kind of frame from each of the two in each state, where one over 3 is the last; each kind of others'
   frames; and what became of I frames. */
static unsigned long met_kind[STATES][2][UNKNOWN_KIND], met_others[UNKNOWN_KIND], met_course[2][COURSES];

static void begin(const char *name) {
    memset(met_kind, 0, sizeof met_kind);
    memset(met_others, 0, sizeof met_others);
    memset(met_course, 0, sizeof met_course);
    set_begin(name);
}

static void count_met(const struct ax25_link *link, const struct link_answer *a) {
    if (a->number != 0) return;
    if (a->sender == FROM_OTHERS) {
        met_others[a->kind]++;
        return;
    }
    met_kind[link->state < STATES ? link->state : STATES - 1][a->sender][a->kind]++;
    met_course[a->sender][a->course]++;
}

/* Held to the model. */
static void offer_by_model(struct ax25_link *link, const uint8_t *octets, size_t len) {
    struct link_answer want = model_link(link, octets, len);
    count_input();
    count_met(link, &want);
    offer(link, octets, len, &want);
}

static void say_courses(unsigned long least) {
    char line[200];
    int all = 1, at = snprintf(line, sizeof line, "I frames in order, repeated, gaps and outside are met, %lu or more of each:", least);
    for (int sender = FROM_A; sender <= FROM_B; sender++) {
        at += snprintf(line + at, sizeof line - (size_t)at, sender == FROM_A ? " from a" : ", from b");
        for (int course = IN_ORDER; course < COURSES; course++) {
            all = all && met_course[sender][course] >= least;
            at += snprintf(line + at, sizeof line - (size_t)at, " %lu", met_course[sender][course]);
        }
    }
    say(all, line);
}

static void say_kinds(unsigned states, unsigned long least) {
    char line[200];
    unsigned long fewest = met_others[0];
    for (int kind = I; kind < UNKNOWN_KIND; kind++) {
        if (met_others[kind] < fewest) fewest = met_others[kind];
        for (unsigned state = 0; state < states; state++)
            for (int sender = FROM_A; sender <= FROM_B; sender++)
                if (met_kind[state][sender][kind] < fewest) fewest = met_kind[state][sender][kind];
    }
    snprintf(line, sizeof line, "each kind of frame is met from each of the two in each of %u states, and of others: %lu or more, and %lu is owed", states,
             fewest, least);
    say(fewest >= least, line);
}

/* Recordings worked out by hand */

/* The stations of the cases: a is BOX12-3 and b is GAUGE; c differs from a in its SSID alone, and d in its callsign. */
static const struct {
    const char *callsign;
    uint8_t ssid;
} typed_stations[] = {{BOX12, 3}, {GAUGE, 0}, {BOX12, 2}, {HILL1, 3}};

static const struct {
    const char *name, *content;
} typed_contents[] = {{"RR", "01"},      {"RNR", "05"}, {"REJ", "09"}, {"SREJ", "0D"},        {"SABM", "2F"}, {"SABME", "6F"}, {"DISC", "43"},
                      {"DM", "0F"},      {"UA", "63"},  {"P:UA", "73"}, {"FRMR", "87 01 02 44"}, {"UI", "03 F0"}, {"XID", "AF 82"}, {"TEST", "E3"},
                      {"P:SABM", "3F"}, {"P:DISC", "53"}, {"P:DM", "1F"}, {"P:SABME", "7F"}, {"short", "00"}};

/* Document 02, M-112: what it says of each, worked out by hand. A frame is typed as who sends it to whom, and its kind: of an I frame its
   N(S), and behind that what becomes of it: `+` it is in order, `=` repeated, `!` a gap and `.` outside; nothing where it is of others.
   Before the other kinds `P:` stands where P/F is set, and `short` is an I frame without PID, which is refused. Then comes how the link
   stands at the end: the state, the expected numbers and the memories. */
struct stand {
    uint32_t state, expected_from_a, expected_from_b, moved_from_a, moved_from_b;
};

static const struct {
    const char *name, *recording;
    struct stand end;
} cases[] = {
    {"link: nothing", "", {0, 0, 0, 0, 0}},
    {"link: a asks", "ab:SABM", {1, 0, 0, 0, 0}},
    {"link: b asks", "ba:SABM", {2, 0, 0, 0, 0}},
    {"link: a asks and b agrees", "ab:SABM ba:UA", {3, 0, 0, 0, 0}},
    {"link: b asks and a agrees", "ba:SABM ab:UA", {3, 0, 0, 0, 0}},
    {"link: P and F play no part", "ab:P:SABM ba:P:UA ab:I0+ ba:P:DISC ab:I1.", {0, 1, 0, 1, 0}},
    {"link: a asks, and its own UA is none", "ab:SABM ab:UA ab:I0.", {1, 0, 0, 0, 0}},
    {"link: b asks, and its own UA is none", "ba:SABM ba:UA ab:I0.", {2, 0, 0, 0, 0}},
    {"link: UA without SABM", "ab:UA ba:UA ab:I0. ba:I0.", {0, 0, 0, 0, 0}},
    {"link: a asks twice", "ab:SABM ab:SABM ba:UA ab:I0+", {3, 1, 0, 1, 0}},
    {"link: both ask, and b was the last", "ab:SABM ba:SABM ba:UA ba:I0. ab:UA ba:I0+", {3, 0, 1, 0, 1}},
    {"link: both ask, and a was the last", "ba:SABM ab:SABM ab:UA ba:I0. ba:UA ba:I0+", {3, 0, 1, 0, 1}},
    {"link: refused by DM", "ab:SABM ba:DM ba:UA ab:I0.", {0, 0, 0, 0, 0}},
    {"link: refused by DISC", "ab:SABM ba:DISC ba:UA ab:I0.", {0, 0, 0, 0, 0}},
    {"link: taken back by DISC", "ba:SABM ba:DISC ab:UA ba:I0.", {0, 0, 0, 0, 0}},
    {"link: taken back by DM", "ab:SABM ab:DM ba:UA ab:I0.", {0, 0, 0, 0, 0}},
    {"link: SABME ends what SABM asked for", "ab:SABM ab:SABME ba:UA ab:I0.", {0, 0, 0, 0, 0}},
    {"link: SABME asks for none", "ab:SABME ba:UA ab:I0.", {0, 0, 0, 0, 0}},
    {"link: I frames before, while asked and behind",
     "ab:I0. ba:I5. ab:SABM ab:I0. ba:I0. ba:UA ab:I0+ ab:DISC ab:I1. ba:I0. ba:UA ab:I1.", {0, 1, 0, 1, 0}},
    {"link: from 7 on to 0", "ab:SABM ba:UA ab:I0+ ab:I1+ ab:I2+ ab:I3+ ab:I4+ ab:I5+ ab:I6+ ab:I7+ ab:I0+ ab:I1+", {3, 2, 0, 1, 0}},
    {"link: from 7 on to 0, sent by b", "ab:SABM ba:UA ba:I0+ ba:I1+ ba:I2+ ba:I3+ ba:I4+ ba:I5+ ba:I6+ ba:I7+ ba:I0+", {3, 0, 1, 0, 1}},
    {"link: each of the two has numbers of its own", "ba:SABM ab:UA ab:I0+ ba:I0+ ba:I1+ ab:I1+ ba:I2+ ba:I1! ab:I2+ ba:I2=", {3, 3, 3, 1, 1}},
    {"link: the same frame again and again", "ab:SABM ba:UA ab:I0+ ab:I0= ab:I0= ab:I1+ ab:I1= ab:I0! ab:I2+", {3, 3, 0, 1, 0}},
    {"link: 7 again, where 0 is expected",
     "ab:SABM ba:UA ab:I0+ ab:I1+ ab:I2+ ab:I3+ ab:I4+ ab:I5+ ab:I6+ ab:I7+ ab:I7= ab:I0+ ab:I0= ab:I7!", {3, 1, 0, 1, 0}},
    {"link: 7 is no repeated frame before one came in order", "ab:SABM ba:UA ab:I7! ba:I7! ab:I0+ ba:I7! ba:I0+ ba:I0=", {3, 1, 1, 1, 1}},
    {"link: each of the two has a memory of its own", "ab:SABM ba:UA ba:I0+ ab:I7! ba:I0= ab:I7!", {3, 0, 1, 0, 1}},
    {"link: one lost frame", "ab:SABM ba:UA ab:I0+ ab:I2! ab:I3! ba:REJ ab:I1+ ab:I2+ ab:I3+", {3, 4, 0, 1, 0}},
    {"link: one lost frame, and nobody asks for it",
     "ab:SABM ba:UA ab:I0+ ab:I2! ab:I3! ab:I4! ab:I5! ab:I6! ab:I7! ab:I0= ab:I1+ ab:I2+", {3, 3, 0, 1, 0}},
    {"link: the first frame is lost", "ab:SABM ba:UA ba:I1! ba:I2! ba:I0+ ba:I1+", {3, 0, 2, 0, 1}},
    {"link: an older frame is a gap too", "ab:SABM ba:UA ab:I0+ ab:I1+ ab:I2+ ab:I1! ab:I0! ab:I2= ab:I3+", {3, 4, 0, 1, 0}},
    {"link: UA while up changes nothing", "ab:SABM ba:UA ab:I0+ ab:I1+ ba:UA ab:UA ab:I1= ab:I2+", {3, 3, 0, 1, 0}},
    {"link: SABM while up, and nobody agrees", "ab:SABM ba:UA ab:I0+ ba:I0+ ab:SABM ab:I1. ba:I1.", {1, 1, 1, 1, 1}},
    {"link: SABM of the other while up", "ab:SABM ba:UA ab:I0+ ba:I0+ ba:SABM ba:UA ab:I1.", {2, 1, 1, 1, 1}},
    {"link: a second UA begins at 0 for both, and without memory",
     "ab:SABM ba:UA ab:I0+ ba:I0+ ba:SABM ab:UA ab:I7! ba:I7! ab:I1! ba:I0+ ab:I0+", {3, 1, 1, 1, 1}},
    {"link: DISC of a ends it", "ab:SABM ba:UA ab:I0+ ab:DISC ab:I1.", {0, 1, 0, 1, 0}},
    {"link: DISC of b ends it", "ab:SABM ba:UA ab:I0+ ba:DISC ab:I1.", {0, 1, 0, 1, 0}},
    {"link: DM of a ends it", "ab:SABM ba:UA ba:I0+ ab:P:DM ba:I1.", {0, 0, 1, 0, 1}},
    {"link: DM of b ends it", "ab:SABM ba:UA ba:I0+ ba:DM ba:I1.", {0, 0, 1, 0, 1}},
    {"link: SABME of a ends it", "ab:SABM ba:UA ba:I0+ ab:SABME ba:UA ba:I1.", {0, 0, 1, 0, 1}},
    {"link: SABME of b ends it", "ab:SABM ba:UA ba:I0+ ba:P:SABME ab:UA ba:I1.", {0, 0, 1, 0, 1}},
    {"link: what ends it while it is idle", "ab:DISC ba:DM ab:SABME ba:UA ba:DISC ab:DM", {0, 0, 0, 0, 0}},
    {"link: other kinds, while asked and while up",
     "ab:SABM ba:RR ba:RNR ba:REJ ba:SREJ ba:FRMR ba:UI ba:XID ba:TEST ba:UA ab:I0+ "
     "ab:RR ab:RNR ab:REJ ab:SREJ ab:FRMR ab:UI ab:XID ab:TEST ab:I1+", {3, 2, 0, 1, 0}},
    {"link: third stations ask and agree", "ab:SABM bc:UA ca:UA da:UA cb:UA dc:UA aa:UA bb:UA ac:SABM db:SABM ba:UA ab:I0+", {3, 1, 0, 1, 0}},
    {"link: third stations end nothing", "ab:SABM ba:UA ac:DISC cb:DISC bc:DM da:DM cd:SABME aa:DISC bb:DM ca:SABM bd:SABM ab:I0+", {3, 1, 0, 1, 0}},
    {"link: I frames of third stations", "ac:I0 ab:SABM cb:I0 ba:UA ac:I0 cb:I0 bc:I0 da:I1 cd:I0 aa:I0 bb:I0 ab:I0+ db:I1 bc:I7", {3, 1, 0, 1, 0}},
    {"link: refused frames", "ab:short ab:SABM ab:short ba:UA ab:short ba:short ab:I0+ ab:short", {3, 1, 0, 1, 0}},
};

/* Records that no call made: how the link stands before one frame, and behind it. */
static const struct {
    const char *name;
    struct stand start;
    const char *frame;
    struct stand end;
} unmade[] = {
    {"link: state 7 is idle for I, and stays", {7, 0, 0, 0, 0}, "ab:I0.", {7, 0, 0, 0, 0}},
    {"link: state 4 is idle for I, and stays", {4, 2, 5, 1, 1}, "ba:I5.", {4, 2, 5, 1, 1}},
    {"link: a state of 256 and 3 is idle for I, and stays", {259, 3, 0, 1, 0}, "ab:I3.", {259, 3, 0, 1, 0}},
    {"link: the largest state is idle for I, and stays", {0xFFFFFFFF, 0, 0, 0, 0}, "ab:I0.", {0xFFFFFFFF, 0, 0, 0, 0}},
    {"link: UA in state 7", {7, 1, 2, 1, 1}, "ba:UA", {7, 1, 2, 1, 1}},
    {"link: UA in a state of 256 and 1", {257, 1, 2, 1, 1}, "ba:UA", {257, 1, 2, 1, 1}},
    {"link: UA in a state of 256 and 2", {258, 1, 2, 1, 1}, "ab:UA", {258, 1, 2, 1, 1}},
    {"link: SABM of a in state 7", {7, 1, 2, 1, 5}, "ab:SABM", {1, 1, 2, 1, 5}},
    {"link: SABM of b in state 7", {7, 1, 2, 1, 5}, "ba:SABM", {2, 1, 2, 1, 5}},
    {"link: DISC in state 7", {7, 1, 2, 1, 5}, "ab:DISC", {0, 1, 2, 1, 5}},
    {"link: DM in state 7", {7, 1, 2, 1, 5}, "ba:DM", {0, 1, 2, 1, 5}},
    {"link: SABME in state 7", {7, 1, 2, 1, 5}, "ab:SABME", {0, 1, 2, 1, 5}},
    {"link: RR in state 7", {7, 1, 2, 1, 5}, "ab:RR", {7, 1, 2, 1, 5}},
    {"link: SABM of a third station in state 7", {7, 1, 2, 1, 5}, "cb:SABM", {7, 1, 2, 1, 5}},
    {"link: a memory of 5, and the frame before once more", {3, 3, 0, 5, 0}, "ab:I2=", {3, 3, 0, 5, 0}},
    {"link: a memory of 256, and the frame before once more", {3, 0, 0, 0, 256}, "ba:I7=", {3, 0, 0, 0, 256}},
    {"link: a memory of 5, and a gap", {3, 3, 0, 5, 0}, "ab:I5!", {3, 3, 0, 5, 0}},
    {"link: a memory of 5 of the other station", {3, 3, 0, 0, 5}, "ab:I2!", {3, 3, 0, 0, 5}},
    {"link: a memory of 5, and a frame in order", {3, 3, 0, 5, 7}, "ab:I3+", {3, 4, 0, 1, 7}},
    {"link: memories of 5, and UA", {1, 3, 4, 5, 5}, "ba:UA", {3, 0, 0, 0, 0}},
    {"link: memories of 5, and UA of the station that asked", {1, 3, 4, 5, 5}, "ab:UA", {1, 3, 4, 5, 5}},
    {"link: memories of 5, and an I frame outside", {1, 3, 4, 5, 5}, "ab:I2.", {1, 3, 4, 5, 5}},
};

/* One typed frame; gives how many octets it has, and leaves the mark behind it. */
static size_t typed_frame(const char *word, uint8_t *out, char *mark) {
    const char *kind = word + 3;
    size_t end = strcspn(kind, " ");
    for (int i = 0; i < 2; i++) { /* the destination, and then the source */
        size_t who = (size_t)(word[1 - i] - 'a');
        from_hex(typed_stations[who].callsign, out + 7 * i);
        out[7 * i + 6] = (uint8_t)((i == 0 ? 0xE0 : 0x61) | typed_stations[who].ssid << 1);
    }
    *mark = 0;
    if (kind[0] == 'I') {
        out[14] = (uint8_t)((kind[1] - '0') << 1);
        out[15] = 0xF0;
        if (end == 3) *mark = kind[2];
        return 16;
    }
    for (size_t i = 0; i < COUNT(typed_contents); i++)
        if (strlen(typed_contents[i].name) == end && memcmp(typed_contents[i].name, kind, end) == 0)
            return 14 + from_hex(typed_contents[i].content, out + 14);
    say(0, "a kind is typed that there is not");
    return 0;
}

static struct ax25_link typed_link(void) {
    struct ax25_link link;
    memset(&link, 0, sizeof link);
    memcpy(link.a.callsign, "BOX12 ", 6);
    link.a.ssid = 3;
    memcpy(link.b.callsign, "GAUGE ", 6);
    return link;
}

/* What is counted of a frame with this mark. */
static void add_mark(struct ax25_link *counted, char mark) {
    counted->in_order += mark == '+';
    counted->repeated += mark == '=';
    counted->gaps += mark == '!';
    counted->outside += mark == '.';
    counted->offered++;
}

static int same_counts(const struct ax25_link *a, const struct ax25_link *b) {
    return a->in_order == b->in_order && a->repeated == b->repeated && a->gaps == b->gaps && a->outside == b->outside && a->offered == b->offered;
}

static void put_stand(struct ax25_link *link, const struct stand *as) {
    link->state = as->state;
    link->expected_from_a = as->expected_from_a;
    link->expected_from_b = as->expected_from_b;
    link->moved_from_a = as->moved_from_a;
    link->moved_from_b = as->moved_from_b;
}

/* A recording that is typed, as often as there are places; gives whether the model has it as it is typed. */
static int play(const char *name, const struct stand *start, const char *recording, const struct stand *end) {
    uint8_t octets[64];
    char mark;
    int modelled = 1;
    begin(name);
    for (unsigned time = 0; time < PLACES * PLACES; time++) {
        struct ax25_link link = typed_link(), counted, by_model;
        put_stand(&link, start);
        counted = by_model = link;
        count_input();
        before = &link;
        look_from(octets, 0, show_link);
        for (const char *word = recording; *word; word += strcspn(word, " "), word += *word == ' ') {
            size_t len = typed_frame(word, octets, &mark);
            struct link_answer want = model_link(&by_model, octets, len);
            by_model = want.link;
            add_mark(&counted, mark);
            modelled = modelled && same_counts(&by_model, &counted);
            offer(&link, octets, len, &want);
            look(FOLLOWED, same_counts(&link, &counted), 1, 0);
        }
        put_stand(&counted, end);
        modelled = modelled && same_link(&by_model, &counted);
        look(FOLLOWED, same_link(&link, &counted), 1, 0);
    }
    set_end_brief();
    return modelled;
}

static void run_cases(void) {
    static const struct stand fresh;
    int modelled = 1;
    for (size_t i = 0; i < COUNT(cases); i++) modelled = play(cases[i].name, &fresh, cases[i].recording, &cases[i].end) && modelled;
    for (size_t i = 0; i < COUNT(unmade); i++) modelled = play(unmade[i].name, &unmade[i].start, unmade[i].frame, &unmade[i].end) && modelled;
    say(modelled, "the model that links are held to gives these recordings");
}

/* Frames that are made */

static const struct ax25_station *station_of(const struct ax25_link *link, enum sender who) { return who == FROM_A ? &link->a : &link->b; }

/* A station of mostly letters, with any reserved bits. */
static struct ax25_station draw_station(void) {
    struct ax25_station s;
    uint8_t group[7];
    random_group(group);
    for (size_t i = 0; i < sizeof s.callsign; i++) s.callsign[i] = group[i] >> 1;
    s.ssid = group[6] >> 1 & 15;
    s.reserved = group[6] >> 5 & 3;
    return s;
}

/* Another one that differs in one bit of its callsign or its SSID. */
static void spoil(struct ax25_station *s) {
    unsigned bit = below(46);
    if (bit < 42) s->callsign[bit / 7] ^= (uint8_t)(1u << bit % 7);
    else s->ssid ^= (uint8_t)(1u << (bit - 42));
}

/* Two stations that are near to each other or not, in a fresh record. */
static struct ax25_link draw_fresh(void) {
    struct ax25_link link;
    memset(&link, 0, sizeof link);
    link.a = draw_station();
    link.b = one_in(3) ? link.a : draw_station();
    if (memcmp(&link.a, &link.b, 7) == 0) spoil(&link.b);
    return link;
}

/* Reserved bits that are not the record's. */
static struct ax25_station with_reserved(struct ax25_station s, unsigned reserved) {
    s.reserved = (uint8_t)reserved;
    return s;
}

/* What a frame has that plays no part: it is drawn, or told. */
struct ballast {
    unsigned poll, marks, repeaters, reserved; /* the marks are those of destination and source, and each has two reserved bits */
};

static struct ballast draw_ballast(void) {
    struct ballast with;
    with.poll = below(2);
    with.marks = below(4);
    with.repeaters = one_in(2) ? 0 : below(9);
    with.reserved = below(16);
    return with;
}

/* A frame of this kind between these stations, written by the model, with its marks set anew; what info and tail it has is drawn. An I
   frame has this N(S), and all else that the kind has is drawn too. */
static size_t make_frame(uint8_t *out, const struct ax25_station *source, const struct ax25_station *destination, enum kind kind, unsigned send,
                         const struct ballast *with) {
    uint8_t record[RECORD] = {0}, info[24];
    struct ax25_station stations[] = {with_reserved(*destination, with->reserved & 3), with_reserved(*source, with->reserved >> 2)};
    size_t more = one_in(2) ? 0 : below(sizeof info);
    memcpy(record + DESTINATION, &stations[0], sizeof stations[0]);
    memcpy(record + SOURCE, &stations[1], sizeof stations[1]);
    record[ROUTE_COUNT] = (uint8_t)with->repeaters;
    for (size_t i = 0; i < with->repeaters; i++) {
        const struct ax25_station repeater = one_in(3) ? *source : one_in(2) ? *destination : draw_station();
        memcpy(record + ROUTE + ENTRY * i, &repeater, sizeof repeater);
        record[ROUTE + ENTRY * i + ADDRESS] = (uint8_t)below(2);
    }
    record[KIND] = (uint8_t)kind;
    record[POLL] = (uint8_t)with->poll;
    record[RECEIVE] = (uint8_t)below(8);
    record[SEND] = (uint8_t)send;
    record[PID_CASE] = OTHER_PID;
    record[PID_OCTET] = (uint8_t)below(256);
    record[REJECTED_CONTROL] = (uint8_t)below(256);
    fill(info, more, ANY_OCTETS);
    int has_info = kind == I || kind == UI || kind == XID || kind == TEST;
    struct written written = model_encode(SHORT_MODE, record, sizeof record, info, has_info ? more : 0);
    memcpy(out, written.octets, written.length);
    if (written.number != 0) return 0; /* which no caller asks for: an empty frame is refused, and that shows */
    out[6] = (uint8_t)((out[6] & 0x7F) | (with->marks & 1) << 7);
    out[13] = (uint8_t)((out[13] & 0x7F) | (with->marks >> 1) << 7);
    if (has_info || kind == FRMR || more > 4) return written.length;
    memcpy(out + written.length, info, more); /* a tail, which reading ignores */
    return written.length + more;
}

/* Who sends to whom: the right stations, or one that differs in a bit as source, as destination or as both, or the sender to itself. */
enum way { RIGHT, WRONG_SOURCE, WRONG_DESTINATION, BOTH_WRONG, TO_ITSELF, WAYS };

static size_t make_between(uint8_t *out, const struct ax25_link *link, enum sender sender, enum way way, enum kind kind, unsigned send,
                           const struct ballast *with) {
    struct ax25_station source = *station_of(link, sender), destination = *station_of(link, sender == FROM_A ? FROM_B : FROM_A);
    if (way == WRONG_SOURCE || way == BOTH_WRONG) spoil(&source);
    if (way == WRONG_DESTINATION || way == BOTH_WRONG) spoil(&destination);
    return make_frame(out, &source, way == TO_ITSELF ? &source : &destination, kind, send, with);
}

/* Every frame in every state */

/* The last is any number over 3, some of which have the lower bits of a state. */
static uint32_t draw_state(unsigned which) {
    static const uint32_t over[] = {4, 5, 6, 7, 11, 256, 257, 258, 259, 65537, 65538, 65539, 0x80000001, 0x80000003, 0xFFFFFFFF};
    return which < STATES - 1 ? which : over[below(COUNT(over))];
}

static uint32_t draw_memory(unsigned which) {
    static const uint32_t over[] = {2, 3, 5, 128, 256, 65536, 0x80000000, 0xFFFFFFFF};
    return which < 2 ? which : over[below(COUNT(over))];
}

/* Counts that add up to what was offered or to a little less, and room for one more. */
static void draw_counts(struct ax25_link *link) {
    link->in_order = below(16384);
    link->repeated = below(16384);
    link->gaps = below(16384);
    link->outside = below(16382);
    link->offered = link->in_order + link->repeated + link->gaps + link->outside + below(3);
}

/* Takes the last place of a number that is written in mixed bases. */
static unsigned digit(unsigned long *rest, unsigned base) {
    unsigned d = (unsigned)(*rest % base);
    *rest /= base;
    return d;
}

enum { CONTENTS = 8 + UNKNOWN_KIND - 1, MEMORIES = 3 };

/* Eight I frames, one of each N(S), and one of each other kind. */
static enum kind kind_of(unsigned content) { return content < 8 ? I : (enum kind)(RR + content - 8); }

/* In brief one in so many, which has no factor in common with the bases. */
static void run_everything(int brief) {
    const unsigned long all = 2ul * 2 * WAYS * CONTENTS * STATES * 8 * 8 * MEMORIES * MEMORIES;
    uint8_t octets[MADE];
    begin("link, every frame in every state with each expected number and each memory");
    for (unsigned long n = 0; n < all; n += brief ? 211 : 1) {
        unsigned long rest = n;
        struct ax25_link link = draw_fresh();
        struct ballast with = draw_ballast();
        link.state = draw_state(digit(&rest, STATES));
        enum sender sender = (enum sender)digit(&rest, 2);
        with.poll = digit(&rest, 2);
        unsigned content = digit(&rest, CONTENTS);
        enum way way = (enum way)digit(&rest, WAYS);
        link.expected_from_a = digit(&rest, 8);
        link.expected_from_b = digit(&rest, 8);
        link.moved_from_a = draw_memory(digit(&rest, MEMORIES));
        link.moved_from_b = draw_memory(digit(&rest, MEMORIES));
        draw_counts(&link);
        offer_by_model(&link, octets, make_between(octets, &link, sender, way, kind_of(content), content % 8, &with));
    }
    set_end();
    say_courses(brief ? 1 : 500);
    say_kinds(STATES, brief ? 1 : 1000);
}

/* What plays no part, every setting of it: P/F, the marks, the reserved bits of the frame and of the record, and the route. */
static void run_ballast(int brief) {
    static const unsigned routes[] = {0, 1, 2, 8};
    const unsigned long all = 4ul * 2 * CONTENTS * COUNT(routes) * 2 * 4 * 16 * 4;
    uint8_t octets[MADE];
    begin("link, every setting of P/F, marks, reserved bits and route");
    for (unsigned long n = 0; n < all; n += brief ? 97 : 1) {
        unsigned long rest = n;
        struct ax25_link link = draw_fresh();
        struct ballast with;
        link.state = digit(&rest, 4);
        enum sender sender = (enum sender)digit(&rest, 2);
        unsigned content = digit(&rest, CONTENTS);
        with.repeaters = routes[digit(&rest, COUNT(routes))];
        with.poll = digit(&rest, 2);
        with.marks = digit(&rest, 4);
        with.reserved = digit(&rest, 16);
        link.a.reserved = (uint8_t)digit(&rest, 4);
        link.b.reserved = (uint8_t)below(4);
        link.expected_from_a = below(8);
        link.expected_from_b = below(8);
        link.moved_from_a = below(2);
        link.moved_from_b = below(2);
        draw_counts(&link);
        offer_by_model(&link, octets, make_between(octets, &link, sender, RIGHT, kind_of(content), content % 8, &with));
    }
    set_end();
    say_courses(brief ? 1 : 100);
}

/* Refusals */

/* A station that can't be written, by one octet, and the same at its last value that can: the place is that of the octet. */
static const struct {
    size_t place;
    uint8_t value;
    int is_bad;
} flaws[] = {
    {0, 'A', 0}, {0, 127, 0}, {5, 127, 0}, {6, 15, 0}, {7, 0, 0}, {7, 3, 0},
    {0, 128, 1}, {1, 128, 1}, {2, 128, 1}, {3, 128, 1}, {4, 128, 1}, {5, 128, 1}, {0, 255, 1}, {3, 193, 1}, {5, 255, 1},
    {6, 16, 1}, {6, 19, 1}, {6, 255, 1}, {7, 4, 1}, {7, 7, 1}, {7, 128, 1}, {7, 255, 1},
};

/* The two stations: which of them has the flaw, and whether they are equal, with the same reserved bits and with others. */
enum { FLAWED = 3, EQUALS = 3 };

static void put_flaw(struct ax25_station *s, size_t flaw) { ((uint8_t *)s)[flaws[flaw].place] = flaws[flaw].value; }

static void put_stations(struct ax25_link *link, size_t flaw, unsigned flawed, unsigned equal) {
    static const struct ax25_station good = {{'B', 'O', 'X', '1', '2', ' '}, 3, 1}, other = {{'G', 'A', 'U', 'G', 'E', ' '}, 3, 2};
    link->a = link->b = good;
    if (!equal) link->b = other;
    if (flawed != 1 || equal) put_flaw(&link->a, flaw);
    if (flawed != 0 || equal) put_flaw(&link->b, flaw);
    if (equal == 2 && link->b.reserved <= 3) link->b.reserved ^= 2;
}

/* Counts that add up to what was offered or to less, or to more, as a sum that does not wrap; and numbers that are expected. */
enum { NOTHING, SOME, AT_OFFERED, ONE_OVER, MOST, HALF };
static const struct {
    uint8_t counts[4];
    uint32_t expected_from_a, expected_from_b;
    int is_bad;
} sums[] = {
    {{NOTHING, NOTHING, NOTHING, NOTHING}, 0, 0, 0},
    {{NOTHING, NOTHING, NOTHING, NOTHING}, 7, 7, 0},
    {{AT_OFFERED, NOTHING, NOTHING, NOTHING}, 7, 0, 0},
    {{NOTHING, AT_OFFERED, NOTHING, NOTHING}, 0, 7, 0},
    {{NOTHING, NOTHING, AT_OFFERED, NOTHING}, 1, 2, 0},
    {{NOTHING, NOTHING, NOTHING, AT_OFFERED}, 3, 4, 0},
    {{ONE_OVER, NOTHING, NOTHING, NOTHING}, 0, 0, 1},
    {{NOTHING, ONE_OVER, NOTHING, NOTHING}, 0, 0, 1},
    {{NOTHING, NOTHING, ONE_OVER, NOTHING}, 0, 0, 1},
    {{NOTHING, NOTHING, NOTHING, ONE_OVER}, 0, 0, 1},
    {{SOME, AT_OFFERED, NOTHING, NOTHING}, 0, 0, 1},
    {{SOME, NOTHING, AT_OFFERED, NOTHING}, 0, 0, 1},
    {{SOME, NOTHING, NOTHING, AT_OFFERED}, 0, 0, 1},
    {{NOTHING, SOME, AT_OFFERED, NOTHING}, 0, 0, 1},
    {{NOTHING, AT_OFFERED, NOTHING, SOME}, 0, 0, 1},
    {{NOTHING, NOTHING, SOME, AT_OFFERED}, 0, 0, 1},
    /* in 32 bits these add up to what was offered, to 0 or to little */
    {{MOST, SOME, NOTHING, NOTHING}, 0, 0, 1},
    {{NOTHING, SOME, MOST, NOTHING}, 0, 0, 1},
    {{SOME, NOTHING, NOTHING, MOST}, 0, 0, 1},
    {{NOTHING, MOST, NOTHING, ONE_OVER}, 0, 0, 1},
    {{ONE_OVER, NOTHING, MOST, NOTHING}, 0, 0, 1},
    {{HALF, HALF, NOTHING, NOTHING}, 0, 0, 1},
    {{HALF, NOTHING, HALF, NOTHING}, 0, 0, 1},
    {{HALF, NOTHING, NOTHING, HALF}, 0, 0, 1},
    {{NOTHING, HALF, HALF, NOTHING}, 0, 0, 1},
    {{NOTHING, HALF, NOTHING, HALF}, 0, 0, 1},
    {{NOTHING, NOTHING, HALF, HALF}, 0, 0, 1},
    {{HALF, HALF, HALF, HALF}, 0, 0, 1},
    {{MOST, MOST, MOST, MOST}, 0, 0, 1},
    /* numbers that are expected, some of them 0 to 7 by their lower bits */
    {{NOTHING, NOTHING, NOTHING, NOTHING}, 8, 0, 1},
    {{NOTHING, NOTHING, NOTHING, NOTHING}, 0, 8, 1},
    {{NOTHING, NOTHING, NOTHING, NOTHING}, 8, 8, 1},
    {{AT_OFFERED, NOTHING, NOTHING, NOTHING}, 7, 8, 1},
    {{NOTHING, NOTHING, NOTHING, AT_OFFERED}, 8, 7, 1},
    {{NOTHING, NOTHING, NOTHING, NOTHING}, 256, 0, 1},
    {{NOTHING, NOTHING, NOTHING, NOTHING}, 0, 65536, 1},
    {{NOTHING, NOTHING, NOTHING, NOTHING}, 0x80000000, 0, 1},
    {{NOTHING, NOTHING, NOTHING, NOTHING}, 0, 0xFFFFFFFF, 1},
    {{NOTHING, NOTHING, NOTHING, NOTHING}, 0xFFFFFFFF, 1, 1},
};

/* MOST and ONE_OVER wrap to what was offered; SOME is one frame, and beside it as many as were offered are one too many. */
static uint32_t count_of(unsigned what, uint32_t offered) {
    switch (what) {
    case SOME: return 1;
    case AT_OFFERED: return offered;
    case ONE_OVER: return offered + 1;
    case MOST: return 0xFFFFFFFF;
    case HALF: return 0x80000000;
    default: return 0;
    }
}

static void put_sum(struct ax25_link *link, size_t sum, uint32_t offered) {
    link->in_order = count_of(sums[sum].counts[0], offered);
    link->repeated = count_of(sums[sum].counts[1], offered);
    link->gaps = count_of(sums[sum].counts[2], offered);
    link->outside = count_of(sums[sum].counts[3], offered);
    link->expected_from_a = sums[sum].expected_from_a;
    link->expected_from_b = sums[sum].expected_from_b;
    link->offered = offered;
}

/* No count is over the largest number: where that was offered ONE_OVER is none, and what stands beside it is not over. */
static int is_unsound(size_t sum, uint32_t offered) {
    return sums[sum].is_bad && !(offered == 0xFFFFFFFF && memchr(sums[sum].counts, ONE_OVER, sizeof sums[sum].counts));
}

/* Frames that decoding refuses, by each of its numbers, and some that it does not; from GAUGE or BOX12-3 as far as they have stations. */
static const struct {
    const char *octets;
    unsigned number;
} frames[] = {
    {PEERS "00 F0", 0},
    {PEERS "2F", 0},
    {PEERS "43", 0},
    {PEERS "63", 0},
    {PEERS "03 F0 4F 4B", 0},
    {LEFT_OVER "00 F0", 0},
    {ROUTED "10 F0", 0},
    {"", 1},
    {"00 00 00", 1},
    {"8E 82", 2},
    {GAUGE "E0 84 9E B0 62 64 41 2F", 3},
    {PEERS, 4},
    {PEERS "00", 5},
    {PEERS "1E", 5},
    {PEERS "03", 5},
    {PEERS "07", 7},
    {PEERS "FF F0 01", 7},
    {PEERS "87 01 02", 8},
    {PEERS "87 01 02 44 55", 8},
    {NINE "00 F0", 9},
    {NINE "2F", 9},
    {"00 " PEERS "00 F0", 10},
    {"00 " PEERS "2F", 10},
};

static const uint32_t offers[] = {0, 1, 5, 65533, 65534, 65535, 65536, 65537, 131071, 0x80000000, 0xFFFFFFFE, 0xFFFFFFFF};

/* Every flaw with every other in every state, so that any two are met together, and each alone: what is owed is worked out from how they
   are put. */
static void run_refusals(int brief) {
    const unsigned long all = (unsigned long)COUNT(flaws) * FLAWED * EQUALS * COUNT(sums) * COUNT(offers) * STATES;
    static const unsigned numbers[] = {0, 1, 2, 3, 4, 5, 7, 8, 9, 10, 22, 71, 72, 73}, in_turn[] = {22, 72, 73, 71};
    static uint8_t octets[COUNT(frames)][128];
    size_t lens[COUNT(frames)];
    unsigned long met_together[4][4] = {{0}}, met_none = 0;
    int modelled = 1, all_met;
    for (size_t i = 0; i < COUNT(frames); i++) lens[i] = from_hex(frames[i].octets, octets[i]);
    begin("link, each refusal at its edge, alone and with each other");
    for (unsigned long n = 0; n < all; n += brief ? 31 : 1) {
        unsigned long rest = n;
        struct ax25_link link;
        size_t sum = digit(&rest, COUNT(sums)), flaw = digit(&rest, COUNT(flaws)), frame = met_none % COUNT(frames);
        unsigned equal = digit(&rest, EQUALS), flawed = digit(&rest, FLAWED);
        uint32_t offered = offers[digit(&rest, COUNT(offers))];
        put_stations(&link, flaw, flawed, equal);
        put_sum(&link, sum, offered);
        link.state = draw_state(digit(&rest, STATES));
        link.moved_from_a = draw_memory(below(MEMORIES));
        link.moved_from_b = draw_memory(below(MEMORIES));

        const int holds[] = {flaws[flaw].is_bad, equal != 0, is_unsound(sum, offered), offered >= MOST_OFFERED};
        size_t first = 0;
        while (first < COUNT(holds) && !holds[first]) first++;
        for (size_t i = 0; i < COUNT(holds); i++)
            for (size_t j = 0; j < COUNT(holds); j++) met_together[i][j] += holds[i] && holds[j];
        met_none += first == COUNT(holds);

        struct link_answer want = model_link(&link, octets[frame], lens[frame]);
        unsigned number = first < COUNT(holds) ? in_turn[first] : frames[frame].number;
        modelled = modelled && want.number == number && (first == COUNT(holds) || same_link(&want.link, &link));
        count_input();
        offer(&link, octets[frame], lens[frame], &want);
    }
    set_end();
    say(modelled, "the model that links are held to gives these numbers");
    say_met(numbers, COUNT(numbers), brief ? 1 : 100);
    all_met = met_none >= (brief ? 1 : 1000);
    for (size_t i = 0; i < COUNT(in_turn); i++)
        for (size_t j = 0; j < COUNT(in_turn); j++) all_met = all_met && met_together[i][j] >= (brief ? 1 : 1000);
    say(all_met, "any two of 22, 72, 73 and 71 are met together, and records without any of them");
}

/* Each octet of a station by itself: every value in every place of either. */
static void run_octets(void) {
    uint8_t octets[32];
    size_t len = from_hex(PEERS "00 F0", octets);
    unsigned long refused = 0, accepted = 0;
    int modelled = 1;
    begin("link, every octet in each place of each station");
    for (size_t place = 0; place < sizeof(struct ax25_station); place++)
        for (unsigned value = 0; value < 256; value++)
            for (int who = FROM_A; who <= FROM_B; who++) {
                struct ax25_link link = typed_link();
                uint8_t *station = (uint8_t *)(who == FROM_A ? &link.a : &link.b);
                unsigned is_bad = value > (place < 6 ? 127 : place == 6 ? 15 : 3), is_same = station[place] == value || place == 7;
                station[place] = (uint8_t)value;
                struct link_answer want = model_link(&link, octets, len);
                modelled = modelled && want.number == (is_bad ? 22 : 0) && want.link.outside == (is_same && !is_bad);
                refused += is_bad;
                accepted += is_same && !is_bad;
                count_input();
                offer(&link, octets, len, &want);
            }
    set_end();
    say(modelled && refused == 2 * (6 * 128 + 240 + 252) && accepted == 2 * (7 + 4),
        "the model refuses the values that can't be written, and knows the two stations by the others");
}

/* A record of zeros has equal stations, with a NUL for each character; with one of them changed it is a record, of stations that are no
   text. A callsign that is padded by NULs is not the one that is padded by spaces. */
static void run_zeros(void) {
    struct ax25_link link, zeros;
    uint8_t frame[32];
    const uint8_t *nowhere = (const uint8_t *)(uintptr_t)1;
    size_t len = from_hex(PEERS "00 F0", frame);
    memset(&zeros, 0, sizeof zeros);
    link = zeros;
    say(ax25_link_offer(&link, frame, len) == AX25_EQUAL_STATIONS && same_link(&link, &zeros),
        "ax25_link_offer of a record of zeros is 72 and changes nothing");
    link.b.ssid = 1;
    say(ax25_link_offer(&link, frame, len) == AX25_ACCEPTED && link.offered == 1 && link.outside == 0,
        "with the SSID 1 for one of its stations it is a record, whose stations did not send this frame");
    link = typed_link();
    link.a.callsign[5] = 0;
    say(ax25_link_offer(&link, frame, len) == AX25_ACCEPTED && link.offered == 1 && link.outside == 0,
        "BOX12 that is padded by a NUL is another station");
    link = typed_link();
    say(ax25_link_offer(&link, frame, len) == AX25_ACCEPTED && link.offered == 1 && link.outside == 1,
        "BOX12 that is padded by a space is the one that sent it");
    say(ax25_link_offer(&link, nowhere, 0) == AX25_ONLY_NULL_BYTES && link.offered == 2 && link.outside == 1,
        "ax25_link_offer of nothing at a pointer that leads nowhere is 1, and is counted");
    say(ax25_link_offer(&zeros, nowhere, 0) == AX25_EQUAL_STATIONS && zeros.offered == 0, "and of a record of zeros 72");
}

/* Recordings that are drawn */

/* A recording is made by itself, and no record is asked: what the two stations sent next, some of which was not recorded. */
struct talk {
    struct ax25_link link; /* fresh */
    unsigned next[2];      /* the N(S) of the next I frame of each */
    enum sender asked;     /* who asked for a link and was not answered; nobody where it is FROM_OTHERS */
};

static enum kind draw_kind(void) {
    static const enum kind others[] = {RR, RNR, REJ, SREJ, FRMR, UI, XID, TEST}, ends[] = {DISC, DM, SABME};
    unsigned drawn = below(100);
    if (drawn < 72) return I;
    if (drawn < 75) return SABM;
    if (drawn < 79) return UA;
    return drawn < 83 ? ends[below(COUNT(ends))] : others[below(COUNT(others))];
}

/* Mostly the next; now and then one behind it, since frames were lost; the one before; or any. */
static unsigned draw_send(unsigned *next) {
    unsigned send = *next;
    switch (below(10)) {
    case 0: send = *next + 1 + below(2); break;
    case 1:
    case 2: return (*next + 7) % 8;
    case 3: return below(8);
    default: break;
    }
    *next = (send + 1) % 8;
    return send % 8;
}

static size_t draw_recorded(struct talk *talk, uint8_t *out) {
    static const enum way wrong[] = {WRONG_SOURCE, WRONG_DESTINATION, BOTH_WRONG, TO_ITSELF};
    struct ballast with = draw_ballast();
    enum sender sender = (enum sender)below(2);
    enum kind kind = draw_kind();
    if (talk->asked != FROM_OTHERS && one_in(6)) {
        sender = talk->asked == FROM_A ? FROM_B : FROM_A;
        kind = UA;
    }
    if (one_in(50)) return one_in(3) ? draw_octets(out) : draw_frame(out);
    if (one_in(12)) return make_between(out, &talk->link, sender, wrong[below(COUNT(wrong))], kind, below(8), &with);
    size_t len = make_between(out, &talk->link, sender, RIGHT, kind, kind == I ? draw_send(&talk->next[sender]) : 0, &with);
    if (kind == SABM) talk->asked = sender;
    if (kind == UA) {
        talk->next[0] = talk->next[1] = 0;
        talk->asked = FROM_OTHERS;
    }
    return one_in(30) ? damage(out, len) : len;
}

static struct talk draw_talk(void) { return (struct talk){draw_fresh(), {0, 0}, FROM_OTHERS}; }

/* Whether this is an I frame that one of the two sent to the other: it is looked at by itself, whatever was recorded before it. */
static unsigned is_i_between(const struct ax25_link *link, const uint8_t *octets, size_t len) {
    struct reading frame = model_decode(SHORT_MODE, octets, len);
    return frame.number == 0 && frame.record[KIND] == I && model_sender(link, &frame) != FROM_OTHERS;
}

static unsigned long sum_of(const struct ax25_link *link) { return (unsigned long)link->in_order + link->repeated + link->gaps + link->outside; }

static void run_recordings(unsigned long thousands, int brief) {
    static const unsigned numbers[] = {0, 1, 2, 3, 4, 5, 7, 8, 9, 10};
    uint8_t octets[DRAWN];
    int add_up = 1;
    begin("link, random recordings");
    for (unsigned long n = brief ? 24 : 4 * thousands; n > 0; n--) {
        struct talk talk = draw_talk();
        struct ax25_link link = talk.link;
        unsigned frames_left = 40 + below(160);
        unsigned long between = 0;
        for (; frames_left > 0; frames_left--) {
            size_t len = draw_recorded(&talk, octets);
            between += is_i_between(&talk.link, octets, len);
            offer_by_model(&link, octets, len);
        }
        add_up = add_up && sum_of(&link) == between;
    }
    set_end();
    say(add_up, "the four counts add up to the I frames between the two, counted from each recording");
    say_courses(brief ? 10 : thousands);
    if (brief) return;
    say_kinds(STATES - 1, thousands / 20);
    say_met(numbers, COUNT(numbers), thousands / 50);
}

/* Frames and octets without a plan, and records of which each field is drawn, from those that matter. Where there are stations in the frame
   the record has them, so that it is mostly one of the two that sent it. */
static uint32_t draw_field(void) {
    static const uint32_t edges[] = {0, 1, 2, 3, 6, 7, 8, 9, 65533, 65534, 65535, 65536, 0x7FFFFFFF, 0x80000000, 0xFFFFFFFE, 0xFFFFFFFF};
    return one_in(3) ? edges[below(COUNT(edges))] : below(one_in(2) ? 8 : 16000);
}

static void take_station(struct ax25_station *s, const uint8_t *address) {
    if (one_in(20)) *s = draw_station();
    else memcpy(s, address, sizeof *s);
    if (one_in(20)) ((uint8_t *)s)[below(sizeof *s)] = (uint8_t)below(256);
    if (one_in(2) && s->reserved <= 3) s->reserved = (uint8_t)below(4);
}

static struct ax25_link draw_record(const uint8_t *octets, size_t len) {
    struct reading frame = model_decode(SHORT_MODE, octets, len);
    int turned = one_in(2);
    struct ax25_link link = draw_fresh();
    if (frame.number == 0) {
        take_station(&link.a, frame.record + (turned ? SOURCE : DESTINATION));
        take_station(&link.b, frame.record + (turned ? DESTINATION : SOURCE));
    }
    if (one_in(30)) link.b = with_reserved(link.a, below(4));
    draw_counts(&link);
    link.expected_from_a = below(8);
    link.expected_from_b = below(8);
    uint32_t *fields[] = {&link.expected_from_a, &link.expected_from_b, &link.in_order, &link.repeated, &link.gaps, &link.outside, &link.offered};
    if (one_in(3)) *fields[below(COUNT(fields))] = draw_field();
    if (one_in(20)) *fields[below(COUNT(fields))] = draw_field();
    link.state = one_in(2) ? AX25_LINK_UP : one_in(4) ? draw_field() : draw_state(below(STATES));
    link.moved_from_a = draw_memory(below(MEMORIES));
    link.moved_from_b = draw_memory(below(MEMORIES));
    return link;
}

static void run_records(unsigned long thousands, int brief) {
    static const unsigned numbers[] = {0, 1, 2, 3, 4, 5, 7, 8, 9, 10, 22, 71, 72, 73};
    uint8_t octets[DRAWN];
    begin("link, random records and random frames");
    for (unsigned long n = brief ? 2000 : 400 * thousands; n > 0; n--) {
        size_t len = one_in(8) ? draw_octets(octets) : draw_frame(octets);
        struct ax25_link link = draw_record(octets, len);
        offer_by_model(&link, octets, len);
    }
    set_end();
    say_courses(brief ? 1 : thousands / 2);
    say_met(numbers, COUNT(numbers), brief ? 1 : thousands);
}

/* A recording of more frames than can be offered, from a fresh record; in brief the last of them alone, from one that had the others
   offered. The four counts add up to the I frames between the two stations among the first 65,535 frames, counted from the recording. */
static void run_full(int brief) {
    enum { FRAMES = 70000, LAST = 600 };
    static uint8_t octets[16 << 20];
    static size_t starts[FRAMES + 1];
    struct talk talk = draw_talk();
    struct ax25_link link = talk.link;
    size_t count = brief ? LAST + 100 : FRAMES, counted = brief ? LAST : MOST_OFFERED;
    unsigned long between = 0;
    char line[200];
    for (size_t i = 0; i < count; i++) starts[i + 1] = starts[i] + draw_recorded(&talk, octets + starts[i]);
    for (size_t i = 0; i < counted; i++) between += is_i_between(&talk.link, octets + starts[i], starts[i + 1] - starts[i]);
    link.offered = (uint32_t)(MOST_OFFERED - counted);
    begin("link, one recording beyond its 65,535th frame");
    for (size_t i = 0; i < count; i++) offer_by_model(&link, octets + starts[i], starts[i + 1] - starts[i]);
    set_end();
    snprintf(line, sizeof line, "of %zu frames the first %zu are taken, and each other is 71", count, counted);
    say(owed(71) == count - counted && link.offered == MOST_OFFERED, line);
    snprintf(line, sizeof line, "the four counts, %lu %lu %lu %lu, add up to the %lu I frames between the two that the recording has among these",
             (unsigned long)link.in_order, (unsigned long)link.repeated, (unsigned long)link.gaps, (unsigned long)link.outside, between);
    say(sum_of(&link) == between && between > counted / 3, line);
    say_courses(brief ? 1 : 500);
}

/* Long info, a long tail, and long octets that are refused. */
static void run_long(void) {
    static uint8_t in[LONGEST];
    static const size_t lengths[] = {255, 256, 257, 65535, 65536, 65537, LONGEST};
    static const char *const contents[] = {"00 F0", "02 F0", "2F", "63", "87 01 02 44", "07"};
    struct ax25_link link = typed_link();
    link.state = AX25_LINK_UP;
    begin("link, frames of up to 1,048,576 octets");
    memset(in, 0x5A, sizeof in);
    for (size_t i = 0; i < COUNT(lengths); i++)
        for (size_t c = 0; c < COUNT(contents); c++) {
            from_hex(contents[c], in + from_hex(ROUTED, in));
            offer_by_model(&link, in, lengths[i]);
        }
    set_end();
}

/* One frame at each of sixteen places in a row, between others, and the record at each four octets. */
static void run_aligned(void) {
    static _Alignas(16) uint8_t row[64];
    static _Alignas(16) uint32_t words[4 + sizeof(struct ax25_link) / 4];
    uint8_t frame[32];
    size_t len = from_hex(PEERS "00 F0", frame);
    struct ax25_link link = typed_link();
    unsigned long held = 0;
    link.state = AX25_LINK_UP;
    struct link_answer want = model_link(&link, frame, len);
    for (size_t at = 0; at < 16; at++)
        for (size_t word = 0; word < 4; word++) {
            memset(row, fresh_paint(), sizeof row);
            memcpy(row + at, frame, len);
            memcpy(words + word, &link, sizeof link);
            unsigned number = ax25_link_offer((struct ax25_link *)(void *)(words + word), row + at, len);
            held += number == AX25_ACCEPTED && memcmp(words + word, &want.link, sizeof link) == 0;
        }
    say(held == 64 && want.course == IN_ORDER, "ax25_link_offer gives the same for a frame at any alignment, and a record at any four octets");
}

void run_links(unsigned long thousands, uint64_t seed) {
    int brief = thousands < 100; /* as a memory checker is asked, which takes long for each octet */
    frame_arena = arena_new(LONGEST + 65536);
    link_arena = arena_new(256);
    draw_from(seed);
    run_cases();
    run_zeros();
    run_octets();
    run_everything(brief);
    run_ballast(brief);
    run_refusals(brief);
    run_long();
    run_aligned();
    run_recordings(thousands, brief);
    run_records(thousands, brief);
    run_full(brief);
}
