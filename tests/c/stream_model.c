#include "stream_model.h"

#include <string.h>

enum { ROOM = 1024, MOST_DROPPED = 65535 };

static struct stream_event events[LONGEST];
static uint8_t given_out[LONGEST];
static size_t given_out_len;

/* What the octets from a C0 on make if a C0 comes now: 55 where there is nothing behind the first. A DB at their end says nothing
   before the octet behind it is there, so it is left out. */
static struct kiss_answer closed_now(const uint8_t *own, size_t len) {
    static uint8_t packet[LONGEST + 1];
    if (own[len - 1] == 0xDB) len--;
    memcpy(packet, own, len);
    packet[len] = 0xC0;
    struct kiss_answer a = model_kiss_read(packet, len + 1);
    if (a.length > ROOM) a = (struct kiss_answer){AX25_NO_ROOM, 0, 0, NULL};
    return a;
}

static int show_defect(const uint8_t *own, size_t len) {
    unsigned number = closed_now(own, len).number;
    return number != 0 && number != 55;
}

/* The place of the first octet that shows a defect; `len` where none does. A defect stays whatever follows it, so that halving finds
   the place: the first `good` octets show none, and the first `bad` do. */
static size_t first_shown(const uint8_t *own, size_t len) {
    size_t good = 1, bad = len;
    if (!show_defect(own, len)) return len;
    while (bad - good > 1) {
        size_t half = good + (bad - good) / 2;
        if (show_defect(own, half)) bad = half;
        else good = half;
    }
    return good;
}

static void drop(struct stream_answer *a, size_t place, unsigned number) {
    events[a->count++] = (struct stream_event){place, number, 0, 0};
    a->state.dropped = (uint16_t)(a->state.dropped + (a->state.dropped < MOST_DROPPED));
    a->state.length = 0;
    a->state.port = 0;
}

static void give_out(struct stream_answer *a, size_t place) {
    events[a->count++] = (struct stream_event){place, 0, a->state.port, a->state.length};
    memcpy(given_out + given_out_len, a->state.data, a->state.length);
    given_out_len += a->state.length;
}

/* One packet: the octets from its C0, which is at `from`, up to the next C0 or to the end of all that came. What its end leaves as the
   phase is for the packet that is still open; a C0 behind it begins another. */
static void read_packet(struct stream_answer *a, const uint8_t *octets, size_t from, size_t to, int closed) {
    const uint8_t *own = octets + from;
    size_t len = to - from, shown = first_shown(own, len);
    int waits = shown == len && own[len - 1] == 0xDB; /* for the octet behind the DB; a C0 there shows a defect */
    unsigned number = shown < len ? closed_now(own, shown + 1).number : waits && closed ? 52 : 0;
    struct kiss_answer good = closed_now(own, shown); /* what was read before that octet, or all of it */
    if (good.number == 0) memcpy(a->state.data, good.octets, good.length);
    if (number) {
        drop(a, from + shown, number);
        a->state.phase = 4;
    } else if (good.number) {
        a->state.phase = waits ? 5 : 1; /* nothing but the C0: the length and the port are still those of the packet before */
    } else {
        a->state.length = (uint16_t)good.length;
        a->state.port = (uint8_t)good.port;
        a->state.phase = waits ? 3 : 2;
        if (closed) give_out(a, to);
    }
}

struct stream_answer model_stream(const struct ax25_kiss_stream *start, const uint8_t *octets, size_t len) {
    struct stream_answer a = {events, 0, given_out, *start};
    const uint8_t *end = octets + len, *opening = len ? memchr(octets, 0xC0, len) : NULL;
    given_out_len = 0;
    a.state.length = 0;
    a.state.port = 0;
    a.state.phase = 0;
    while (opening) {
        const uint8_t *next = memchr(opening + 1, 0xC0, (size_t)(end - opening - 1));
        read_packet(&a, octets, (size_t)(opening - octets), (size_t)((next ? next : end) - octets), next != NULL);
        opening = next;
    }
    return a;
}
