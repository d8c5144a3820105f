/* The callsigns of stations that stand in frames here: six octets in hex, without the seventh, which has the mark, the reserved bits,
   the SSID and the end bit. */
#ifndef CALLSIGNS_H
#define CALLSIGNS_H

#define GAUGE "8E 82 AA 8E 8A 40 "
#define BOX12 "84 9E B0 62 64 40 "
#define HILL1 "90 92 98 98 62 40 "
#define HILL2 "90 92 98 98 64 40 "
#define HILL5 "90 92 98 98 6A 40 "
#define HILL6 "90 92 98 98 6C 40 "
#define SPACES "40 40 40 40 40 40 "

#endif
