/* ax25_kiss_feed in plain C, compiled by the host's compiler: what the archive's speed is measured against. */
#ifndef PLAIN_STREAM_H
#define PLAIN_STREAM_H

#include "ax25.h"

size_t plain_kiss_feed(struct ax25_kiss_stream *stream, const uint8_t *piece, size_t piece_len, struct ax25_kiss_packet *packet);

#endif
