/* As one would write it by hand: one switch for each octet. The length and the phase are held in locals, because a store to the data
   might change them for all that the compiler knows. */
#include "plain_stream.h"

enum { FEND = 0xC0, FESC = 0xDB, TFEND = 0xDC, TFESC = 0xDD, PORTS = 12, ROOM = 1024, MOST_DROPPED = 65535 };
enum phase { NOISE, OPENED, DATA, ESCAPE, DROPPING, TYPE_ESCAPE, PHASES };

/* Counts a packet that this octet shows to be bad, and gives the phase after it. */
static unsigned drop(struct ax25_kiss_stream *stream, uint8_t octet) {
    stream->port = 0;
    if (stream->dropped < MOST_DROPPED) stream->dropped++;
    return octet == FEND ? OPENED : DROPPING;
}

size_t plain_kiss_feed(struct ax25_kiss_stream *stream, const uint8_t *piece, size_t piece_len, struct ax25_kiss_packet *packet) {
    size_t length = stream->length, taken = 0;
    unsigned phase = stream->phase;
    packet->ready = 0;
    packet->port = 0;
    packet->length = 0;
    if (length > ROOM || stream->port >= PORTS || phase >= PHASES) {
        length = 0;
        stream->port = 0;
        phase = NOISE;
    }
    while (taken < piece_len) {
        uint8_t octet = piece[taken++];
        switch (phase) {
        case DATA:
            if (octet == FEND) {
                packet->ready = 1;
                packet->port = stream->port;
                packet->length = length;
                phase = OPENED;
                goto done;
            }
            if (octet == FESC) {
                phase = ESCAPE;
            } else if (length < ROOM) {
                stream->data[length++] = octet;
            } else {
                length = 0;
                phase = drop(stream, octet);
            }
            break;
        case ESCAPE:
            if ((octet == TFEND || octet == TFESC) && length < ROOM) {
                stream->data[length++] = octet == TFEND ? FEND : FESC;
                phase = DATA;
            } else {
                length = 0;
                phase = drop(stream, octet);
            }
            break;
        case OPENED:
            if (octet == FEND) break;
            if (octet == FESC) {
                phase = TYPE_ESCAPE;
                break;
            }
            length = 0;
            if (octet & 0x0F || octet >> 4 >= PORTS) {
                phase = drop(stream, octet);
            } else {
                stream->port = octet >> 4;
                phase = DATA;
            }
            break;
        case TYPE_ESCAPE: /* whatever it stands for is no good type: FEND would be port 12, and FESC a command */
            length = 0;
            phase = drop(stream, octet);
            break;
        default: /* NOISE, DROPPING */
            if (octet == FEND) {
                length = 0;
                stream->port = 0;
                phase = OPENED;
            }
        }
    }
done:
    stream->length = (uint16_t)length;
    stream->phase = (uint8_t)phase;
    return taken;
}
