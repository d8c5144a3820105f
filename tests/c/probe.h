/* The calls of the crates `probe` and `probe_spelling` that read and write frames, in a mode: 0 is the short one, every other number the
   long one. Slices are a pointer and how many there are. A decoder leaves a record of 102 octets and five details (record.h), or at a
   refusal the details alone; a writer its octets from the start of `out` on, and their number in `length`, which is 0 at a refusal. Where a
   record, its content, the details or, but for re-encoding, `length` have too little room the answer is 24, and nothing is touched. */
#ifndef PROBE_H
#define PROBE_H

#include <stddef.h>
#include <stdint.h>

uint32_t probe_decode(uint32_t mode, const uint8_t *in, size_t in_len, uint8_t *record, size_t record_len, size_t *details, size_t details_len);
uint32_t probe_decode_old(uint32_t mode, const uint8_t *in, size_t in_len, uint8_t *record, size_t record_len, size_t *details,
                          size_t details_len);
uint32_t probe_content(uint32_t mode, const uint8_t *in, size_t in_len, uint8_t *content, size_t content_len);
uint32_t probe_canonical(uint32_t mode, const uint8_t *in, size_t in_len);
uint32_t probe_reencode(uint32_t mode, const uint8_t *in, size_t in_len, uint8_t *out, size_t out_len, size_t *length);
uint32_t probe_encode(uint32_t mode, const uint8_t *record, size_t record_len, const uint8_t *info, size_t info_len, uint8_t *out,
                      size_t out_len, size_t *length, size_t length_len);
uint32_t probe_content_encode(uint32_t mode, const uint8_t *content, size_t content_len, const uint8_t *info, size_t info_len, uint8_t *out,
                              size_t out_len, size_t *length, size_t length_len);

#endif
