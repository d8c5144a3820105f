#include "link_model.h"

#include <string.h>

enum { CALLSIGN = 6, MOST_SSID = 15, MOST_RESERVED = 3, MOST_EXPECTED = 7, MOST_OFFERED = 65535 };

static int is_encodable(const struct ax25_station *s) {
    int holds = s->ssid <= MOST_SSID && s->reserved <= MOST_RESERVED;
    for (size_t i = 0; i < CALLSIGN; i++) holds = holds && s->callsign[i] < 128;
    return holds;
}

/* An address of a record (record.h) has the callsign first and the SSID behind it, as a station has. */
static int is_station(const struct ax25_station *s, const uint8_t *address) {
    return memcmp(s->callsign, address, CALLSIGN) == 0 && s->ssid == address[CALLSIGN];
}

static int are_equal(const struct ax25_station *a, const struct ax25_station *b) {
    uint8_t address[CALLSIGN + 1];
    memcpy(address, b->callsign, CALLSIGN);
    address[CALLSIGN] = b->ssid;
    return is_station(a, address);
}

/* Each count is taken off what was offered, so that there is no sum that could wrap. */
static int are_covered(const struct ax25_link *link) {
    const uint32_t counts[] = {link->in_order, link->repeated, link->gaps, link->outside};
    uint32_t left = link->offered;
    for (size_t i = 0; i < sizeof counts / sizeof *counts; i++) {
        if (counts[i] > left) return 0;
        left -= counts[i];
    }
    return 1;
}

static unsigned refused_record(const struct ax25_link *link) {
    if (!is_encodable(&link->a) || !is_encodable(&link->b)) return 22;
    if (are_equal(&link->a, &link->b)) return 72;
    if (!are_covered(link) || link->expected_from_a > MOST_EXPECTED || link->expected_from_b > MOST_EXPECTED) return 73;
    return link->offered >= MOST_OFFERED ? 71 : 0;
}

unsigned model_state(const struct ax25_link *link) { return link->state > AX25_LINK_UP ? AX25_LINK_IDLE : link->state; }

enum sender model_sender(const struct ax25_link *link, const struct reading *frame) {
    const uint8_t *source = frame->record + SOURCE, *destination = frame->record + DESTINATION;
    if (is_station(&link->a, source) && is_station(&link->b, destination)) return FROM_A;
    if (is_station(&link->b, source) && is_station(&link->a, destination)) return FROM_B;
    return FROM_OTHERS;
}

static enum course course_of(unsigned state, uint32_t expected, uint32_t moved, unsigned send) {
    if (state != AX25_LINK_UP) return OUTSIDE_LINK;
    if (send == expected) return IN_ORDER;
    return moved != 0 && send == (expected + 7) % 8 ? REPEATED : GAP;
}

static void take_i(struct link_answer *a, unsigned send) {
    struct ax25_link *link = &a->link;
    uint32_t *expected = a->sender == FROM_A ? &link->expected_from_a : &link->expected_from_b;
    uint32_t *moved = a->sender == FROM_A ? &link->moved_from_a : &link->moved_from_b;
    a->course = course_of(model_state(link), *expected, *moved, send);
    switch (a->course) {
    case IN_ORDER:
        link->in_order++;
        *expected = *expected == MOST_EXPECTED ? 0 : *expected + 1;
        *moved = 1;
        break;
    case REPEATED: link->repeated++; break;
    case GAP: link->gaps++; break;
    default: link->outside++; break;
    }
}

static void take_ua(struct link_answer *a) {
    struct ax25_link *link = &a->link;
    if (link->state != (a->sender == FROM_A ? AX25_LINK_ASKED_BY_B : AX25_LINK_ASKED_BY_A)) return;
    link->state = AX25_LINK_UP;
    link->expected_from_a = link->expected_from_b = 0;
    link->moved_from_a = link->moved_from_b = 0;
}

struct link_answer model_link(const struct ax25_link *link, const uint8_t *in, size_t len) {
    struct link_answer a = {refused_record(link), *link, FROM_OTHERS, UNKNOWN_KIND, NO_COURSE};
    if (a.number != 0) return a;
    a.link.offered++;
    struct reading frame = model_decode(SHORT_MODE, in, len);
    a.number = frame.number;
    if (a.number != 0) return a;
    a.sender = model_sender(link, &frame);
    a.kind = frame.record[KIND];
    if (a.sender == FROM_OTHERS) return a;
    switch (a.kind) {
    case SABM: a.link.state = a.sender == FROM_A ? AX25_LINK_ASKED_BY_A : AX25_LINK_ASKED_BY_B; break;
    case UA: take_ua(&a); break;
    case DISC:
    case DM:
    case SABME: a.link.state = AX25_LINK_IDLE; break;
    case I: take_i(&a, frame.record[SEND]); break;
    default: break;
    }
    return a;
}
