// The header in C++: the calls have C's names, so that this links, and the structs are laid out as in C.
#include <stdio.h>

#include "ax25.h"
#include "layout.h"

int main() {
    const uint8_t frame[] = {0x8E, 0x82, 0xAA, 0x8E, 0x8A, 0x40, 0xE0, 0x84, 0x9E, 0xB0, 0x62, 0x64, 0x40, 0x67, 0x01, 0xAA};
    uint8_t out[sizeof frame] = {};
    uint8_t routed[] = {0x8E, 0x82, 0xAA, 0x8E, 0x8A, 0x40, 0xE0, 0x84, 0x9E, 0xB0, 0x62, 0x64, 0x40, 0x66,
                        0x90, 0x92, 0x98, 0x98, 0x62, 0x40, 0x65, 0x01};
    const uint8_t hill[] = {'H', 'I', 'L', 'L', '1'};
    const uint8_t behind[] = {0x00, 0x02};
    bool held = ax25_decode(frame, sizeof frame) == AX25_ACCEPTED && ax25_decode(behind, sizeof behind) == AX25_LEADING_NULL_BYTES &&
                ax25_decode_old_capture(behind, sizeof behind) == AX25_NO_END_TO_ADDRESS_FIELD && ax25_canonical(frame, sizeof frame) == 0 &&
                ax25_reencoded_length(frame, sizeof frame) == 15 && ax25_reencode(frame, sizeof frame, out, 15) == AX25_ACCEPTED &&
                ax25_reencode(frame, sizeof frame, out, 14) == AX25_NO_ROOM && out[14] == 0x01 && out[15] == 0 &&
                ax25_relay(hill, sizeof hill, 2, routed, sizeof routed) == AX25_ACCEPTED && routed[20] == 0xE5 &&
                ax25_relay(hill, sizeof hill, 2, routed, sizeof routed) == AX25_ROUTE_USED_UP;
    uint32_t number = 99;
    size_t place = 99;
    held = held && ax25_reason(frame, sizeof frame, 0, &number, &place) == AX25_REASON_TAIL && number == 0 && place == 0 &&
           ax25_reason(frame, sizeof frame, 1, &number, &place) == AX25_REASON_NONE && number == 0 && place == 0 &&
           ax25_reason(routed, sizeof routed, 1, &number, &place) == AX25_REASON_REFUSED && number == AX25_MISSING_CONTROL_OCTET && place == 21;
    ax25_capture records[] = {{0, sizeof frame, 99, 99, 99}, {0, 15, 99, 99, 99}, {1, sizeof frame, 99, 99, 99}, {0, sizeof frame, 99, 99, 99}};
    ax25_captures(frame, sizeof frame, 0, records, 3);
    held = held && records[0].number == AX25_ACCEPTED && records[0].canonical == 0 && records[0].kind == AX25_KIND_RR && records[1].number == AX25_ACCEPTED &&
           records[1].canonical == 1 && records[1].kind == AX25_KIND_RR && records[2].number == AX25_PART_OUTSIDE && records[2].canonical == 0 &&
           records[2].kind == AX25_KIND_UI && records[2].start == 1 && records[2].length == sizeof frame && records[3].number == 99;
    ax25_captures(frame, sizeof frame, 1, records, 2);
    held = held && records[0].number == AX25_ACCEPTED && records[0].canonical == 1 && records[0].kind == AX25_KIND_RR &&
           records[1].number == AX25_MISSING_CONTROL_OCTET && records[1].canonical == 0 && records[1].kind == AX25_KIND_UI;
    const uint8_t asks[] = {0x8E, 0x82, 0xAA, 0x8E, 0x8A, 0x40, 0xE0, 0x84, 0x9E, 0xB0, 0x62, 0x64, 0x40, 0x67, 0x2F};
    const uint8_t agrees[] = {0x84, 0x9E, 0xB0, 0x62, 0x64, 0x40, 0x66, 0x8E, 0x82, 0xAA, 0x8E, 0x8A, 0x40, 0xE1, 0x63};
    const uint8_t second[] = {0x84, 0x9E, 0xB0, 0x62, 0x64, 0x40, 0xE6, 0x8E, 0x82, 0xAA, 0x8E, 0x8A, 0x40, 0x61, 0x02, 0xF0};
    ax25_station box = {{'B', 'O', 'X', '1', '2', ' '}, 3, 3}, gauge = {{'G', 'A', 'U', 'G', 'E', ' '}, 0, 0};
    ax25_link link = ax25_link();
    held = held && ax25_link_offer(&link, asks, sizeof asks) == AX25_EQUAL_STATIONS && link.offered == 0;
    link.a = box;
    link.b = gauge;
    held = held && ax25_link_offer(&link, asks, sizeof asks) == AX25_ACCEPTED && link.state == AX25_LINK_ASKED_BY_A && link.offered == 1 &&
           ax25_link_offer(&link, agrees, sizeof agrees) == AX25_ACCEPTED && link.state == AX25_LINK_UP &&
           ax25_link_offer(&link, second, sizeof second) == AX25_ACCEPTED && link.gaps == 1 && link.expected_from_b == 0 &&
           ax25_link_offer(&link, second, sizeof second - 1) == AX25_MISSING_PID_FIELD && link.gaps == 1 && link.offered == 4;
    const uint8_t data[] = {'O', 0xC0, 'K'};
    uint8_t packet[2 * sizeof data + 3], port = 0;
    size_t length = 0;
    held = held && ax25_kiss_write(11, data, sizeof data, packet, sizeof packet, &length) == AX25_ACCEPTED && length == 7 && packet[3] == 0xDB &&
           ax25_kiss_read(packet, length, out, 3, &port, &length) == AX25_ACCEPTED && port == 11 && length == 3 && out[1] == 0xC0 &&
           ax25_kiss_read(packet, 6, out, 3, &port, &length) == AX25_KISS_NO_CLOSING && port == 0 && length == 0;
    const uint8_t piece[] = {0x41, 0xC0, 0x01, 0xC0, 0x30, 'O', 0xDB, 0xDC, 0xC0, 0xB0};
    ax25_kiss_stream line = ax25_kiss_stream();
    ax25_kiss_packet given;
    held = held && ax25_kiss_feed(&line, piece, sizeof piece, &given) == 9 && given.ready == 1 && given.port == 3 && given.length == 2 &&
           line.data[0] == 'O' && line.data[1] == 0xC0 && line.dropped == 1 && ax25_kiss_feed(&line, piece + 9, 1, &given) == 1 && given.ready == 0 &&
           line.length == 0 && line.port == 11 && line.phase == 2;
    printf("%s: a C++ program links the archive\n", held ? "ok" : "FAILED");
    return held ? 0 : 1;
}
