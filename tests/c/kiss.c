#include "kiss.h"

#include <stdio.h>
#include <string.h>

#include "ax25.h"
#include "draw.h"
#include "kiss_model.h"
#include "lent.h"
#include "plain_kiss.h"
#include "say.h"
#include "sets.h"

/* Document 02, M-103: what it says of each, worked out by hand. */
static const struct {
    const char *name, *packet;
    unsigned number, port;
    const char *data;
} readings[] = {
    {"read: data at port 0", "C0 00 54 45 53 54 C0", 0, 0, "54 45 53 54"},
    {"read: data at port 5", "C0 50 48 65 C0", 0, 5, "48 65"},
    {"read: port 11, the last", "C0 B0 41 C0", 0, 11, "41"},
    {"read: no data", "C0 00 C0", 0, 0, ""},
    {"read: a C0 and a DB in the data", "C0 00 DB DC DB DD C0", 0, 0, "C0 DB"},
    {"read: DC and DD that follow no DB", "C0 10 DC DD DC C0", 0, 1, "DC DD DC"},
    {"read: an escape, then DC and DD as they are", "C0 00 DB DC DC DB DD DD C0", 0, 0, "C0 DC DB DD"},
    {"read: an escape as the last of the data", "C0 00 41 DB DD C0", 0, 0, "41 DB"},
    {"read: type octets in the data", "C0 00 01 C1 F0 C0", 0, 0, "01 C1 F0"},
    {"not read: nothing", "", 51, 0, ""},
    {"not read: an octet before the opening C0", "00 C0 00 41 C0", 51, 0, ""},
    {"not read: no opening C0", "00 41 C0", 51, 0, ""},
    {"not read: DB in its place", "DB", 51, 0, ""},
    {"not read: DB DC in its place", "DB DC 00 41 C0", 51, 0, ""},
    {"not read: C0 alone", "C0", 53, 0, ""},
    {"not read: two C0 alone", "C0 C0", 55, 0, ""},
    {"not read: two C0 before a packet", "C0 C0 00 41 C0", 55, 0, ""},
    {"not read: two C0 before a bad escape", "C0 C0 DB", 55, 0, ""},
    {"not read: two C0 before a command", "C0 C0 01", 55, 0, ""},
    {"not read: DB in the type's place, as the last octet", "C0 DB", 52, 0, ""},
    {"not read: DB in the type's place, then C0", "C0 DB C0", 52, 0, ""},
    {"not read: DB in the type's place, then a type", "C0 DB 00 41 C0", 52, 0, ""},
    {"not read: two DB in the type's place", "C0 DB DB DC C0", 52, 0, ""},
    {"not read: DB as the last octet, not 53", "C0 00 41 DB", 52, 0, ""},
    {"not read: DB before the closing C0", "C0 00 41 DB C0", 52, 0, ""},
    {"not read: DB before another octet", "C0 00 DB 41 C0", 52, 0, ""},
    {"not read: DB before a DB that escapes", "C0 00 DB DB DC C0", 52, 0, ""},
    {"not read: a bad escape, and no closing C0", "C0 00 DB 41 41", 52, 0, ""},
    {"not read: a bad escape, and octets after the closing C0", "C0 00 DB 41 C0 41", 52, 0, ""},
    {"not read: a command", "C0 01 41 C0", 54, 0, ""},
    {"not read: a command without a closing C0", "C0 01", 54, 0, ""},
    {"not read: a command with every bit", "C0 FF C0", 54, 0, ""},
    {"not read: a command at a port over 11", "C0 C1 41 C0", 54, 0, ""},
    {"not read: a command, then a bad escape", "C0 02 DB", 54, 0, ""},
    {"not read: a command, and octets after the closing C0", "C0 06 C0 00", 54, 0, ""},
    {"not read: the type DB, escaped", "C0 DB DD 41 C0", 54, 0, ""},
    {"not read: the type DB, escaped, and nothing else", "C0 DB DD", 54, 0, ""},
    {"not read: port 12, which is C0, escaped", "C0 DB DC 41 C0", 56, 0, ""},
    {"not read: port 12, escaped, and nothing else", "C0 DB DC", 56, 0, ""},
    {"not read: port 13", "C0 D0 41 C0", 56, 0, ""},
    {"not read: port 15 without a closing C0", "C0 F0", 56, 0, ""},
    {"not read: a port over 11, then a bad escape", "C0 E0 DB 41", 56, 0, ""},
    {"not read: no closing C0 and no data", "C0 00", 53, 0, ""},
    {"not read: no closing C0", "C0 00 41", 53, 0, ""},
    {"not read: an escape, and no closing C0", "C0 00 DB DC", 53, 0, ""},
    {"not read: an octet after the closing C0", "C0 00 41 C0 00", 53, 0, ""},
    {"not read: another C0 after the closing one", "C0 00 41 C0 C0", 53, 0, ""},
    {"not read: a bad escape after the closing C0", "C0 00 41 C0 DB", 53, 0, ""},
    {"not read: another packet after the closing C0", "C0 00 41 C0 C0 01 DB C0", 53, 0, ""},
    {"not read: two packets that share a C0", "C0 00 41 C0 00 42 C0", 53, 0, ""},
    {"not read: an octet after a packet without data", "C0 00 C0 41", 53, 0, ""},
};

static const struct {
    const char *name;
    unsigned port;
    const char *data;
    unsigned number;
    const char *packet;
} writings[] = {
    {"written: data at port 0", 0, "54 45 53 54", 0, "C0 00 54 45 53 54 C0"},
    {"written: data at port 5", 5, "48 65", 0, "C0 50 48 65 C0"},
    {"written: port 11, the last", 11, "41", 0, "C0 B0 41 C0"},
    {"written: no data", 0, "", 0, "C0 00 C0"},
    {"written: a C0 and a DB", 0, "C0 DB", 0, "C0 00 DB DC DB DD C0"},
    {"written: DC and DD stay", 1, "DC DD DC", 0, "C0 10 DC DD DC C0"},
    {"written: what looks like an escape", 2, "DB DC DB DD", 0, "C0 20 DB DD DC DB DD DD C0"},
    {"written: a packet in a packet", 0, "C0 00 41 C0", 0, "C0 00 DB DC 00 41 DB DC C0"},
    {"not written: port 12", 12, "41", 56, ""},
    {"not written: port 12 without data", 12, "", 56, ""},
    {"not written: port 16", 16, "41", 56, ""},
    {"not written: port 255", 255, "C0", 56, ""},
};

/* What reading can answer, what it can answer after a good type octet, and what writing can answer. */
static const unsigned reading_numbers[] = {0, 24, 51, 52, 53, 54, 55, 56}, later_numbers[] = {0, 24, 52, 53}, writing_numbers[] = {0, 24, 56};
#define COUNT(list) (sizeof(list) / sizeof *(list))

/* What port and length hold before a call: nothing that a call gives. */
#define STALE_PORT 0xA5
#define STALE_LENGTH ((size_t)0xA5A5A5A5A5A5A5A5u)

static struct arena in_arena, out_arena, port_arena, length_arena;

/* All that is lent to one call. */
struct given {
    struct lent in, out, port, length;
    uint8_t paint; /* of the output */
};

struct got {
    unsigned number, port; /* writing gives no port: 0 */
    size_t length;
};

static struct given give(const uint8_t *octets, size_t len, size_t room, unsigned place) {
    static unsigned turn;
    const uint8_t port = STALE_PORT;
    const size_t length = STALE_LENGTH;
    struct given g;
    turn++;
    g.in = lend_octets(&in_arena, (enum place)place, octets, len);
    g.out = lend(&out_arena, (enum place)((place + turn / 2) % PLACES), room);
    g.port = lend_octets(&port_arena, (enum place)(turn % PLACES), &port, 1);
    g.length = lend_octets(&length_arena, turn % 2 ? LOW : HIGH, (const uint8_t *)&length, sizeof length); /* aligned in both */
    g.paint = fresh_paint();
    memset(g.out.at, g.paint, room);
    return g;
}

static size_t *length_of(const struct given *g) { return (size_t *)(void *)g->length.at; }

/* The answer where there is so much room. */
static struct kiss_answer with_room(const struct kiss_answer *want, size_t room) {
    const struct kiss_answer none = {AX25_NO_ROOM, 0, 0, NULL};
    return want->number == 0 && room < want->length ? none : *want;
}

static int same(const uint8_t *a, const uint8_t *b, size_t len) { return len == 0 || memcmp(a, b, len) == 0; }

static void look_at_call(enum check check, const struct given *g, const uint8_t *octets, const struct kiss_answer *due, const struct got *got) {
    size_t room = g->out.len;
    look(check, got->number == due->number, due->number, got->number);
    look(due->number ? CLEARED : check, got->length == due->length, due->length, got->length);
    if (due->number) look(REFUSED, filled_with(g->out.at, room, g->paint), 1, 0);
    else look(check, same(g->out.at, due->octets, due->length), 1, 0);
    if (!due->number && room > due->length) look(BEYOND, filled_with(g->out.at + due->length, room - due->length, g->paint), 1, 0);
    look(GUARDS, guards_hold(&g->in) && guards_hold(&g->out) && guards_hold(&g->port) && guards_hold(&g->length), 1, 0);
    look(INPUT, same(g->in.at, octets, g->in.len), 1, 0);
}

/* The plain C's answer in an output with the same paint: it owes the same, octet for octet. */
static uint8_t plain_out[LONGEST_PACKET + 16];

static void look_at_plain(const struct given *g, const struct got *got, const struct got *plain) {
    look(PLAIN, plain->number == got->number && plain->port == got->port && plain->length == got->length, got->number, plain->number);
    look(PLAIN, same(plain_out, g->out.at, g->out.len), 1, 0);
}

static void read_once(enum check check, const uint8_t *packet, size_t len, const struct kiss_answer *want, unsigned place, size_t room) {
    struct given g = give(packet, len, room, place);
    struct kiss_answer due = with_room(want, room);
    struct got got, plain = {0, 0, STALE_LENGTH};
    uint8_t port = STALE_PORT;
    got.number = ax25_kiss_read(g.in.at, len, g.out.at, room, g.port.at, length_of(&g));
    got.port = *g.port.at;
    got.length = *length_of(&g);
    look(due.number ? CLEARED : check, got.port == due.port, due.port, got.port);
    look_at_call(check, &g, packet, &due, &got);
    memset(plain_out, g.paint, room);
    plain.number = plain_kiss_read(packet, len, plain_out, room, &port, &plain.length);
    plain.port = port;
    look_at_plain(&g, &got, &plain);
}

static unsigned writing_port;
static void show_port(void) { printf("  to be written for port %u\n", writing_port); }

static void write_once(enum check check, const uint8_t *data, size_t len, const struct kiss_answer *want, unsigned place, size_t room) {
    struct given g = give(data, len, room, place);
    struct kiss_answer due = with_room(want, room);
    struct got got = {0, 0, 0}, plain = {0, 0, STALE_LENGTH};
    got.number = ax25_kiss_write((uint8_t)writing_port, g.in.at, len, g.out.at, room, length_of(&g));
    got.length = *length_of(&g);
    look_at_call(check, &g, data, &due, &got);
    memset(plain_out, g.paint, room);
    plain.number = plain_kiss_write((uint8_t)writing_port, data, len, plain_out, room, &plain.length);
    look_at_plain(&g, &got, &plain);
}

/* The rooms to try: none, what the header says is always enough, more than needed, exactly enough and one octet short. Gives how
   many; the last two are for an answer that needs room. */
enum { ROOMS = 5 };
static size_t rooms_for(size_t needed, size_t always, size_t rooms[ROOMS]) {
    rooms[0] = 0;
    rooms[1] = always;
    rooms[2] = needed + 9;
    rooms[3] = needed;
    rooms[4] = needed - 1;
    return needed ? 5 : 3;
}

static void examine_read(const uint8_t *packet, size_t len, const struct kiss_answer *want, unsigned place) {
    size_t rooms[ROOMS], count = rooms_for(want->length, len, rooms);
    count_input();
    look_from(packet, len, NULL);
    for (size_t i = 0; i < count; i++) {
        owe(with_room(want, rooms[i]).number);
        read_once(READ, packet, len, want, place, rooms[i]);
    }
    if (want->number) return;
    const struct kiss_answer back = {0, want->port, len, packet};
    writing_port = want->port;
    look_from(want->octets, want->length, show_port);
    write_once(UNDONE, want->octets, want->length, &back, place, len);
}

static void examine_write(unsigned port, const uint8_t *data, size_t len, const struct kiss_answer *want, unsigned place) {
    size_t rooms[ROOMS], count = rooms_for(want->length, 2 * len + 3, rooms);
    count_input();
    writing_port = port;
    look_from(data, len, show_port);
    for (size_t i = 0; i < count; i++) {
        owe(with_room(want, rooms[i]).number);
        write_once(WRITTEN, data, len, want, place, rooms[i]);
    }
    if (want->number) return;
    const struct kiss_answer back = {0, port, len, data};
    look_from(want->octets, want->length, NULL);
    read_once(UNDONE, want->octets, want->length, &back, place, len);
}

/* Each place a buffer can have in turn. */
static unsigned next_place(void) {
    static unsigned turn;
    return turn++ % PLACES;
}

static void read_by_model(const uint8_t *packet, size_t len) {
    struct kiss_answer want = model_kiss_read(packet, len);
    examine_read(packet, len, &want, next_place());
}

static void write_by_model(unsigned port, const uint8_t *data, size_t len) {
    struct kiss_answer want = model_kiss_write(port, data, len);
    examine_write(port, data, len, &want, next_place());
}

static int same_answer(const struct kiss_answer *a, const struct kiss_answer *b) {
    return a->number == b->number && a->port == b->port && a->length == b->length && same(a->octets, b->octets, a->length);
}

static void run_examples(void) {
    uint8_t packet[64], data[64];
    int modelled = 1;
    for (size_t i = 0; i < COUNT(readings); i++) {
        size_t len = from_hex(readings[i].packet, packet);
        struct kiss_answer want = {readings[i].number, readings[i].port, from_hex(readings[i].data, data), data};
        struct kiss_answer other = model_kiss_read(packet, len);
        modelled = modelled && same_answer(&want, &other);
        set_begin(readings[i].name);
        for (unsigned place = 0; place < PLACES; place++) examine_read(packet, len, &want, place);
        set_end_brief();
    }
    for (size_t i = 0; i < COUNT(writings); i++) {
        size_t len = from_hex(writings[i].data, data);
        struct kiss_answer want = {writings[i].number, writings[i].number ? 0 : writings[i].port, from_hex(writings[i].packet, packet), packet};
        struct kiss_answer other = model_kiss_write(writings[i].port, data, len);
        modelled = modelled && same_answer(&want, &other);
        set_begin(writings[i].name);
        for (unsigned place = 0; place < PLACES; place++) examine_write(writings[i].port, data, len, &want, place);
        set_end_brief();
    }
    say(modelled, "the model that KISS is held to gives these examples");
}

/* Where a length is 0, any pointer that is not null will do. */
static void run_empty(void) {
    uint8_t *nowhere = (uint8_t *)(uintptr_t)1, out[3] = {1, 2, 3}, port = STALE_PORT;
    size_t length = STALE_LENGTH;
    say(ax25_kiss_read(nowhere, 0, nowhere, 0, &port, &length) == 51 && port == 0 && length == 0,
        "ax25_kiss_read of nothing at a pointer that leads nowhere is 51");
    port = STALE_PORT;
    length = STALE_LENGTH;
    say(ax25_kiss_read((const uint8_t *)"\xC0\x70\xC0", 3, nowhere, 0, &port, &length) == 0 && port == 7 && length == 0,
        "ax25_kiss_read of a packet without data into nothing is 0");
    length = STALE_LENGTH;
    say(ax25_kiss_write(7, nowhere, 0, nowhere, 0, &length) == 24 && length == 0, "ax25_kiss_write of nothing into nothing is 24");
    say(ax25_kiss_write(7, nowhere, 0, out, 3, &length) == 0 && length == 3 && memcmp(out, "\xC0\x70\xC0", 3) == 0,
        "ax25_kiss_write of nothing at a pointer that leads nowhere is a packet without data");
}

/* The octets that the rules name; as types ports 0, 1 and 11, a command, and a command at port 12; and a letter. */
static const uint8_t alphabet[] = {0xC0, 0xDB, 0xDC, 0xDD, 0x00, 0x01, 0x10, 0xB0, 0xC1, 0x41};

/* What begins as a good packet, so that the octets are its data and its end. */
static void read_begun(const uint8_t *octets, size_t len) {
    uint8_t packet[16] = {0xC0, 0x50};
    memcpy(packet + 2, octets, len);
    read_by_model(packet, len + 2);
}

static void write_by_turns(const uint8_t *data, size_t len) {
    static unsigned turn;
    write_by_model(turn++ % 13, data, len);
}

static void run_every(size_t longest) {
    char name[100];
    snprintf(name, sizeof name, "every KISS packet of up to %zu octets of ten", longest);
    set_begin(name);
    for_every(alphabet, sizeof alphabet, longest, read_by_model);
    set_end();
    say_met(reading_numbers, COUNT(reading_numbers), 1);

    snprintf(name, sizeof name, "every KISS packet that begins well, with up to %zu octets of ten after that", longest - 1);
    set_begin(name);
    for_every(alphabet, sizeof alphabet, longest - 1, read_begun);
    set_end();
    say_met(later_numbers, COUNT(later_numbers), 1);

    snprintf(name, sizeof name, "data of up to %zu octets of ten, written", longest - 1);
    set_begin(name);
    for_every(alphabet, sizeof alphabet, longest - 1, write_by_turns);
    set_end();
    say_met(writing_numbers, COUNT(writing_numbers), 1);
}

/* Every octet in the place of each octet of a packet, and after a DB. */
static void run_octets(void) {
    static const struct {
        const char *packet;
        size_t at;
    } places[] = {{"00", 0},          {"00 00 C0", 0},       {"C0 00", 1},          {"C0 00 C0", 1},          {"C0 00 41 C0", 1},    {"C0 DB 00 C0", 2},
                  {"C0 DB 00", 2},    {"C0 00 00", 2},       {"C0 00 00 C0", 2},    {"C0 00 DB 00 C0", 3},    {"C0 00 DB 00", 3},    {"C0 00 00 DC C0", 2},
                  {"C0 00 41 00", 3}, {"C0 00 41 C0 00", 4}, {"C0 00 C0 00 C0", 3}, {"C0 00 DB DC 00 C0", 4}, {"C0 00 41 DB 00", 4}, {"C0 00 00 DD C0", 2}};
    uint8_t packet[16];
    set_begin("every octet in each place of a KISS packet");
    for (size_t i = 0; i < COUNT(places); i++) {
        size_t len = from_hex(places[i].packet, packet);
        for (unsigned octet = 0; octet < 256; octet++) {
            packet[places[i].at] = (uint8_t)octet;
            read_by_model(packet, len);
        }
    }
    set_end();
    say_met(reading_numbers, COUNT(reading_numbers), 1);
}

static void run_ports(void) {
    static const char *const datas[] = {"", "41", "C0", "DB", "C0 41 DB DC 42 DD 00"};
    uint8_t data[16];
    set_begin("every port, and every octet as data");
    for (unsigned port = 0; port < 256; port++) {
        for (size_t i = 0; i < COUNT(datas); i++) write_by_model(port, data, from_hex(datas[i], data));
        data[0] = (uint8_t)port;
        write_by_model(port % 12, data, 1);
    }
    set_end();
    say_met(writing_numbers, COUNT(writing_numbers), 1);
    say(owed(56) == 244 * COUNT(datas) * 3, "244 ports are refused, with any room");
}

enum { SCRATCH = 12288 };

/* Data of up to some thousand octets. */
static size_t random_data(uint8_t *out) {
    size_t len = below(one_in(20) ? 4000 : one_in(4) ? 300 : 24);
    fill_special(out, len);
    return len;
}

/* A packet, mostly a good one: the type octet may be any. */
static size_t random_packet(uint8_t *out) {
    uint8_t data[4096];
    struct kiss_answer good = model_kiss_write(0, data, random_data(data));
    memcpy(out, good.octets, good.length);
    out[1] = draw_type();
    return good.length;
}

static void run_random(unsigned long thousands, uint64_t seed) {
    uint8_t in[SCRATCH];
    draw_from(seed);
    set_begin("random KISS packets and damaged copies of them");
    for (unsigned long n = thousands * 20; n > 0; n--) {
        size_t len = random_packet(in);
        read_by_model(in, len);
        for (int times = 3; times > 0; times--) {
            len = damage_packet(in, len);
            read_by_model(in, len);
        }
    }
    set_end();
    say_met(reading_numbers, COUNT(reading_numbers), thousands);

    set_begin("random data, written");
    for (unsigned long n = thousands * 20; n > 0; n--) {
        size_t len = random_data(in);
        write_by_model(one_in(4) ? below(256) : below(12), in, len);
    }
    set_end();
    say_met(writing_numbers, COUNT(writing_numbers), thousands);
}

/* The written packet, and copies with one damage at the end: no closing C0, an octet after it, a DB before it. */
static void read_long(const uint8_t *packet, size_t len) {
    static uint8_t damaged[LONGEST_PACKET];
    memcpy(damaged, packet, len);
    read_by_model(damaged, len - 1);
    damaged[len] = 0xC0;
    read_by_model(damaged, len + 1);
    damaged[len - 1] = 0xDB;
    read_by_model(damaged, len + 1);
}

static void run_long(size_t longest) {
    static uint8_t data[LONGEST];
    static const size_t lengths[] = {254, 255, 256, 257, 4095, 4096, 4097, 65535, 65536, 65537, 1000003};
    char name[80];
    snprintf(name, sizeof name, "KISS data of up to %zu octets", longest);
    set_begin(name);
    for (size_t i = 0; i < COUNT(lengths) && lengths[i] <= longest; i++)
        for (int filling = 0; filling < FILLINGS; filling++) {
            fill(data, lengths[i], (enum filling)filling);
            write_by_model((unsigned)i, data, lengths[i]);
            struct kiss_answer packet = model_kiss_write((unsigned)i, data, lengths[i]);
            read_by_model(packet.octets, packet.length);
            read_long(packet.octets, packet.length);
        }
    set_end();
    say_met(later_numbers, COUNT(later_numbers), 1);
}

/* Octets that stand for themselves are taken many at a time: a C0 or a DB, and a DB that is no escape, at each place among them. */
static void run_places(size_t longest) {
    uint8_t data[256];
    char name[80];
    snprintf(name, sizeof name, "a C0 or a DB at each place of up to %zu octets", longest);
    set_begin(name);
    for (size_t len = 1; len <= longest; len++)
        for (size_t at = 0; at < 2 * len; at++) {
            memset(data, 0x41, len);
            data[at / 2] = at % 2 ? 0xDB : 0xC0;
            write_by_model(3, data, len);
            struct kiss_answer packet = model_kiss_write(3, data, len);
            uint8_t damaged[2 * sizeof data];
            memcpy(damaged, packet.octets, packet.length);
            damaged[at / 2 + 3] = 0x41;
            read_by_model(damaged, packet.length);
        }
    set_end();
    say_met(later_numbers, 3, 1);
}

void run_kiss(unsigned long thousands, uint64_t seed) {
    int brief = thousands < 100; /* as a memory checker is asked, which takes long for each octet */
    in_arena = arena_new(LONGEST_PACKET + 65536);
    out_arena = arena_new(LONGEST_PACKET + 65536);
    port_arena = arena_new(256);
    length_arena = arena_new(256);
    run_examples();
    run_empty();
    run_every(brief ? 4 : 5);
    run_octets();
    run_ports();
    run_places(brief ? 40 : 150);
    run_random(thousands, seed);
    run_long(brief ? 65537 : 1000003);
}
