/* Compiles only where the structs that C lends are laid out as the archive takes them, as C11 and as C++11. */
#ifndef LAYOUT_H
#define LAYOUT_H

#include <assert.h>
#include <stdalign.h>
#include <stddef.h>

#include "ax25.h"

#define LAID_OUT(what, number) static_assert((what) == (number), #what " is not " #number)

LAID_OUT(sizeof(struct ax25_capture), 24);
LAID_OUT(alignof(struct ax25_capture), 8);
LAID_OUT(offsetof(struct ax25_capture, start), 0);
LAID_OUT(offsetof(struct ax25_capture, length), 8);
LAID_OUT(offsetof(struct ax25_capture, number), 16);
LAID_OUT(offsetof(struct ax25_capture, canonical), 20);
LAID_OUT(offsetof(struct ax25_capture, kind), 22);
LAID_OUT(sizeof(struct ax25_station), 8);
LAID_OUT(alignof(struct ax25_station), 1);
LAID_OUT(offsetof(struct ax25_station, callsign), 0);
LAID_OUT(offsetof(struct ax25_station, ssid), 6);
LAID_OUT(offsetof(struct ax25_station, reserved), 7);
LAID_OUT(sizeof(struct ax25_link), 56);
LAID_OUT(alignof(struct ax25_link), 4);
LAID_OUT(offsetof(struct ax25_link, a), 0);
LAID_OUT(offsetof(struct ax25_link, b), 8);
LAID_OUT(offsetof(struct ax25_link, state), 16);
LAID_OUT(offsetof(struct ax25_link, expected_from_a), 20);
LAID_OUT(offsetof(struct ax25_link, expected_from_b), 24);
LAID_OUT(offsetof(struct ax25_link, moved_from_a), 28);
LAID_OUT(offsetof(struct ax25_link, moved_from_b), 32);
LAID_OUT(offsetof(struct ax25_link, in_order), 36);
LAID_OUT(offsetof(struct ax25_link, repeated), 40);
LAID_OUT(offsetof(struct ax25_link, gaps), 44);
LAID_OUT(offsetof(struct ax25_link, outside), 48);
LAID_OUT(offsetof(struct ax25_link, offered), 52);
LAID_OUT(sizeof(struct ax25_kiss_stream), 1030);
LAID_OUT(alignof(struct ax25_kiss_stream), 2);
LAID_OUT(offsetof(struct ax25_kiss_stream, data), 0);
LAID_OUT(offsetof(struct ax25_kiss_stream, length), 1024);
LAID_OUT(offsetof(struct ax25_kiss_stream, port), 1026);
LAID_OUT(offsetof(struct ax25_kiss_stream, phase), 1027);
LAID_OUT(offsetof(struct ax25_kiss_stream, dropped), 1028);
LAID_OUT(sizeof(struct ax25_kiss_packet), 16);
LAID_OUT(alignof(struct ax25_kiss_packet), 8);
LAID_OUT(offsetof(struct ax25_kiss_packet, ready), 0);
LAID_OUT(offsetof(struct ax25_kiss_packet, port), 4);
LAID_OUT(offsetof(struct ax25_kiss_packet, length), 8);

#endif
