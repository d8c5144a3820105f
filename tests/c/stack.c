/* The stack that each call really uses: the call runs on a painted stack of its own, and the lowest octet that lost its paint
   tells. Painted twice, since an octet may be written with what was there. What is reserved and never written is not seen;
   tests/stackdepth.py, which reads the code, sees that. Linked statically, so that no loader looks up memcpy on this stack. */
#include <stdio.h>
#include <string.h>

#include "ax25.h"
#include "examine.h"
#include "say.h"

/* The bound of document 02's M-101: the small board leaves 3 KiB of stack. The header may not state more. */
#define M101_STACK 3072

/* Of the stack's octets the upper ones are painted: twice what the header may state, and a call that uses all of them has failed. */
#define SIZE 16384
#define PAINTED (2 * AX25_STACK)

static _Alignas(16) uint8_t stack[SIZE];

/* Calls `call` with six arguments on the stack that ends at `top`, which is aligned to 16. */
uint64_t on_stack(uint8_t *top, uint64_t call, uint64_t a, uint64_t b, uint64_t c, uint64_t d, uint64_t e, uint64_t f);
__asm__(".text\n"
        ".type on_stack, @function\n"
        "on_stack:\n"
        "    pushq %rbp\n"
        "    movq %rsp, %rbp\n"
        "    movq %rdi, %rsp\n"
        "    movq %rsi, %rax\n"
        "    movq %rdx, %rdi\n"
        "    movq %rcx, %rsi\n"
        "    movq %r8, %rdx\n"
        "    movq %r9, %rcx\n"
        "    movq 16(%rbp), %r8\n"
        "    movq 24(%rbp), %r9\n"
        "    callq *%rax\n"
        "    movq %rbp, %rsp\n"
        "    popq %rbp\n"
        "    retq\n"
        ".size on_stack, . - on_stack\n");

enum call { DECODE, OLD, CANONICAL, REASON, CAPTURES, LINK_OFFER, LENGTH, REENCODE, RELAY, KISS_READ, KISS_WRITE, KISS_FEED, CALLS };
static const char *const names[CALLS] = {"ax25_decode", "ax25_decode_old_capture", "ax25_canonical", "ax25_reason", "ax25_captures",
                                          "ax25_link_offer", "ax25_reencoded_length", "ax25_reencode", "ax25_relay", "ax25_kiss_read",
                                          "ax25_kiss_write", "ax25_kiss_feed"};
static size_t deepest[CALLS];

static uint8_t in[2064], out[sizeof in], port; /* room for a packet of 1,025 octets, each escaped */
static size_t in_len, length, place;
static uint32_t number;
static struct ax25_capture records[4];
static struct ax25_link followed;
static struct ax25_kiss_stream stream;
static struct ax25_kiss_packet packet;

static uint64_t address_of(enum call call) {
    switch (call) {
    case DECODE: return (uint64_t)(uintptr_t)ax25_decode;
    case OLD: return (uint64_t)(uintptr_t)ax25_decode_old_capture;
    case CANONICAL: return (uint64_t)(uintptr_t)ax25_canonical;
    case REASON: return (uint64_t)(uintptr_t)ax25_reason;
    case CAPTURES: return (uint64_t)(uintptr_t)ax25_captures;
    case LINK_OFFER: return (uint64_t)(uintptr_t)ax25_link_offer;
    case LENGTH: return (uint64_t)(uintptr_t)ax25_reencoded_length;
    case REENCODE: return (uint64_t)(uintptr_t)ax25_reencode;
    case RELAY: return (uint64_t)(uintptr_t)ax25_relay;
    case KISS_READ: return (uint64_t)(uintptr_t)ax25_kiss_read;
    case KISS_WRITE: return (uint64_t)(uintptr_t)ax25_kiss_write;
    default: return (uint64_t)(uintptr_t)ax25_kiss_feed;
    }
}

static uint64_t pointer(const void *at) { return (uint64_t)(uintptr_t)at; }

/* The relay by the station that is due, by another, and by one that is none; a packet for two ports and for none. */
static const uint8_t ssids[] = {0, 1, 16};

/* A line in each phase, with the room for data used up, and in a state that no call made. */
static const struct {
    uint16_t length;
    uint8_t phase;
} states[] = {{0, 0}, {3, 1}, {3, 2}, {3, 3}, {0, 4}, {3, 5}, {1024, 2}, {1024, 3}, {1025, 2}};

/* A link whose frame is from the one of the two and from the other: in each state, with and without a memory, and of others; then one for
   each refusal. AAAAAA has the SSID 0 as destination and 1 as source. */
static const struct {
    uint8_t ssid_a, ssid_b;
    uint32_t state, expected, moved, offered;
} links[] = {{1, 0, 0, 0, 0, 0}, {1, 0, 2, 0, 0, 0}, {0, 1, 1, 0, 0, 0}, {1, 0, 3, 0, 0, 0},     {0, 1, 3, 0, 0, 0},  {1, 0, 3, 1, 1, 0}, {0, 1, 3, 1, 1, 0},
             {1, 0, 7, 0, 0, 0}, {2, 0, 3, 0, 0, 0}, {16, 0, 3, 0, 0, 0}, {1, 1, 3, 0, 0, 0}, {1, 0, 3, 8, 0, 0}, {1, 0, 3, 0, 0, 65535}};

static void put_link(int turn) {
    memset(&followed, 0, sizeof followed);
    memset(followed.a.callsign, 'A', sizeof followed.a.callsign);
    followed.b = followed.a;
    followed.a.ssid = links[turn].ssid_a;
    followed.b.ssid = links[turn].ssid_b;
    followed.state = links[turn].state;
    followed.expected_from_a = followed.expected_from_b = links[turn].expected;
    followed.moved_from_a = followed.moved_from_b = links[turn].moved;
    followed.offered = links[turn].offered;
}

static int turns_of(enum call call) {
    if (call == LINK_OFFER) return sizeof links / sizeof *links;
    if (call == KISS_FEED) return sizeof states / sizeof *states;
    if (call == REASON || call == CAPTURES) return MODES;
    return call == RELAY || call == KISS_WRITE ? sizeof ssids : 1;
}

/* The relay is by AAAAAA, the callsign of every repeater of `make`, whose SSID is 0; a packet is written for that number as its port; the
   reason is asked for in each mode, and so are captures: the whole twice, its first half, and what is beyond it; to a link a copy is
   offered whose source has the SSID 1. */
static size_t used_by(enum call call, size_t room, int turn, uint8_t paint) {
    memset(stack + SIZE - PAINTED, paint, PAINTED);
    if (call == RELAY) {
        memcpy(out, in, in_len);
        on_stack(stack + SIZE, address_of(call), pointer("AAAAAA"), 6, ssids[turn], pointer(out), in_len, 0);
    } else if (call == REASON) {
        on_stack(stack + SIZE, address_of(call), pointer(in), in_len, (uint64_t)turn, pointer(&number), pointer(&place), 0);
    } else if (call == CAPTURES) {
        const struct ax25_capture parts[] = {{0, in_len, 0, 0, 0}, {0, in_len / 2, 0, 0, 0}, {in_len, 1, 0, 0, 0}, {0, in_len, 0, 0, 0}};
        memcpy(records, parts, sizeof records);
        on_stack(stack + SIZE, address_of(call), pointer(in), in_len, (uint64_t)turn, pointer(records), sizeof records / sizeof *records, 0);
    } else if (call == LINK_OFFER) {
        put_link(turn);
        memcpy(out, in, in_len);
        out[13] |= 2;
        on_stack(stack + SIZE, address_of(call), pointer(&followed), pointer(out), in_len, 0, 0, 0);
    } else if (call == KISS_WRITE) {
        on_stack(stack + SIZE, address_of(call), ssids[turn], pointer(in), in_len, pointer(out), room, pointer(&length));
    } else if (call == KISS_FEED) {
        stream.length = states[turn].length;
        stream.phase = states[turn].phase;
        on_stack(stack + SIZE, address_of(call), pointer(&stream), pointer(in), in_len, pointer(&packet), 0, 0);
    } else {
        on_stack(stack + SIZE, address_of(call), pointer(in), in_len, pointer(out), room, pointer(&port), pointer(&length));
    }
    size_t low = SIZE - PAINTED;
    while (low < SIZE && stack[low] == paint) low++;
    return SIZE - low;
}

static void measure(size_t room) {
    for (int call = 0; call < CALLS; call++) {
        for (int turn = 0; turn < 2 * turns_of((enum call)call); turn++) {
            size_t used = used_by((enum call)call, room, turn / 2, turn % 2 ? 0x5A : 0xA5);
            if (used > deepest[call]) deepest[call] = used;
        }
    }
}

/* Nulls, an address field with so many repeaters, a control octet and what follows it. */
static void make(size_t nulls, size_t repeaters, unsigned control, size_t content) {
    size_t groups = repeaters + 2;
    memset(in, 0, nulls);
    for (size_t i = 0; i < 7 * groups; i++) in[nulls + i] = i % 7 == 6 ? 0x60 : 0x82;
    in[nulls + 6] |= 0x80;
    in[nulls + 7 * groups - 1] |= (uint8_t)((control & 0x80) | 1); /* the last mark, behind others that are not set */
    in_len = nulls + 7 * groups + content;
    memset(in + nulls + 7 * groups, 0xF0, content);
    if (content) in[nulls + 7 * groups] = (uint8_t)control;
}

/* A KISS packet of this type with so many octets, its last replaced by `last`. */
static void make_packet(unsigned type, unsigned octet, size_t count, unsigned last) {
    memset(in, (int)octet, sizeof in);
    in[0] = 0xC0;
    in[1] = (uint8_t)type;
    for (size_t i = 3; octet == 0xDB && i < sizeof in; i += 2) in[i] = i % 4 == 1 ? 0xDC : 0xDD;
    in_len = 3 + count;
    in[in_len - 1] = (uint8_t)last;
}

/* Packets that are accepted or refused by each number, with room and without; the last have 1,024 octets of data and more, plain and
   escaped. As data they are written, and as a piece of a line they are fed to each state. */
static void measure_packets(void) {
    static const unsigned types[] = {0x00, 0xB0, 0xC0, 0xD0, 0x01}, octets[] = {0x41, 0xC0, 0xDB}, lasts[] = {0xC0, 0xDB, 0x41};
    static const size_t counts[] = {0, 1, 2, 3, 8, 9, 40, 300, 1024, 1025, 2048, 2050};
    for (size_t i = 0; i < 5 * 3 * 3 * 12; i++) {
        make_packet(types[i % 5], octets[i / 5 % 3], counts[i / 45], lasts[i / 15 % 3]);
        measure(sizeof out);
        measure(i % 3);
    }
}

int main(void) {
    static const size_t contents[] = {0, 1, 2, 3, 4, 5, 300};
    examine_begin();
    in_len = 0;
    measure(0);
    measure_packets();
    for (size_t repeaters = 0; repeaters <= 9; repeaters += repeaters == 1 ? 7 : 1)
        for (unsigned control = 0; control < 256; control++)
            for (size_t i = 0; i < sizeof contents / sizeof *contents; i++) {
                make(0, repeaters, control, contents[i]);
                measure(i % 2 ? sizeof out : 15);
                make(1 + control % 2, repeaters, control, contents[i]);
                measure(i % 2 ? sizeof out : 15);
            }
    char line[120];
    snprintf(line, sizeof line, "the header states %d octets of stack, and the bound of M-101 is %d", AX25_STACK, M101_STACK);
    say(AX25_STACK <= M101_STACK, line);
    for (int call = 0; call < CALLS; call++) {
        snprintf(line, sizeof line, "%s was seen to use %zu octets of stack, of %d that the header states", names[call], deepest[call], AX25_STACK);
        say(deepest[call] >= 8 && deepest[call] <= AX25_STACK, line);
    }
    return failures() != 0;
}
