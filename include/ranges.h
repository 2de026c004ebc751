/* Which bytes of an object a request asks for, and how they are cut into parts.
 *
 * Link out/libranges_c.a, which `rt lib` builds in crates/ranges_c.
 *
 * Every call takes a lent byte slice, `out` and its length `out_len`. `out` is not NULL and points to
 * `out_len` bytes that nothing else reads or writes during the call. Results are 64-bit numbers, eight
 * bytes each, low byte first, from out[0] on; ranges_number reads one. Bytes behind a result stay as
 * they were. A refused call leaves all of `out` as it was.
 *
 * Every call returns a status: 0 (accepted), or a refusal. The low byte of a refusal is its number, the
 * byte above it the reason, where the number has more than one:
 *
 *   1    the part size is no multiple of 1024 from 1024 to 16384
 *   4    `out` is too short for the result
 *   262  6, the range is bad: it starts at or past the object's end (StartTooLarge)
 *   518  6, the range is bad: it ends at its start or before it (Inconsistent)
 *   7    rounding up gives a number above 2^64 - 1
 *
 * They are looked for in the order 1, 4, then 6 or 7.
 */
#ifndef RANGES_H
#define RANGES_H

#include <stddef.h>
#include <stdint.h>

#ifdef __cplusplus
extern "C" {
#endif

enum {
    RANGES_ACCEPTED = 0,
    RANGES_INVALID_PART_SIZE = 1,
    RANGES_SLICE_TOO_SHORT = 4,
    RANGES_START_TOO_LARGE = 6 + 256,
    RANGES_INCONSISTENT = 6 + 512,
    RANGES_ALIGN_OVERFLOW = 7
};

/* The refusal's number: 1, 4, 6 or 7; 0 where the call was accepted. */
static inline unsigned ranges_refusal(uint64_t status) { return (unsigned)(status & 0xff); }

/* The number with this index in a result. */
static inline uint64_t ranges_number(const uint8_t *out, size_t index)
{
    uint64_t n = 0;
    for (size_t i = 8; i-- > 0;)
        n = n << 8 | out[8 * index + i];
    return n;
}

/* The bytes that a request asks for, of an object of `size` bytes: start and end, 16 bytes.
 * All of it; the bytes start..end; those from start on; the last `length`. */
uint64_t ranges_canonicalize_all(uint64_t size, uint8_t *out, size_t out_len);
uint64_t ranges_canonicalize_bounded(uint64_t start, uint64_t end, uint64_t size, uint8_t *out, size_t out_len);
uint64_t ranges_canonicalize_offset(uint64_t start, uint64_t size, uint8_t *out, size_t out_len);
uint64_t ranges_canonicalize_suffix(uint64_t length, uint64_t size, uint8_t *out, size_t out_len);

/* A request rounded outward to whole parts: the start down, the end or the length up.
 * 16 bytes (start, end), 8 bytes (start), 8 bytes (length). */
uint64_t ranges_align_bounded(uint64_t start, uint64_t end, uint64_t part_size, uint8_t *out, size_t out_len);
uint64_t ranges_align_offset(uint64_t start, uint64_t part_size, uint8_t *out, size_t out_len);
uint64_t ranges_align_suffix(uint64_t length, uint64_t part_size, uint8_t *out, size_t out_len);

/* The bytes start..end cut with the parts of an object, 32 bytes: the number of pieces and, where there
 * is a piece with this index (from 0), its part number, and its start and end in that part. Where there
 * is none, only the first 8 bytes are written; `out` has 32 bytes all the same.
 * A start above the end is RANGES_INCONSISTENT. */
uint64_t ranges_split(uint64_t start, uint64_t end, uint64_t part_size, uint64_t index, uint8_t *out, size_t out_len);

#ifdef __cplusplus
}
#endif

#endif
