/* The same two calls in plain C, compiled by the host's compiler: what the archive's speed is measured against. */
#ifndef PLAIN_KISS_H
#define PLAIN_KISS_H

#include <stddef.h>
#include <stdint.h>

uint32_t plain_kiss_read(const uint8_t *in, size_t in_len, uint8_t *out, size_t out_len, uint8_t *port, size_t *length);
uint32_t plain_kiss_write(uint8_t port, const uint8_t *in, size_t in_len, uint8_t *out, size_t out_len, size_t *length);

#endif
