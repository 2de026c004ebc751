/* Where the bytes of a request for glyph advances lie: a start for a layout engine that reads font
 * tables in parts. Prints the worked examples of the rules; .ci/run compares with advances.expected. */
#include <inttypes.h>
#include <stdio.h>
#include <string.h>

#include "ranges.h"

enum { PART_SIZE = 1024, ROOM = 32 };

static void refuse(uint64_t status)
{
    switch (status) {
    case RANGES_INVALID_PART_SIZE:
        puts("refused 1: no part size");
        break;
    case RANGES_SLICE_TOO_SHORT:
        puts("refused 4: the slice is too short");
        break;
    case RANGES_START_TOO_LARGE:
        puts("refused 6: the range starts at or past the object's end");
        break;
    case RANGES_INCONSISTENT:
        puts("refused 6: the range ends at its start or before it");
        break;
    case RANGES_ALIGN_OVERFLOW:
        puts("refused 7: rounding passes 2^64 - 1");
        break;
    default:
        printf("unknown status %" PRIu64 "\n", status);
    }
}

static void show(const char *what, uint64_t status, const uint8_t *out)
{
    printf("%-34s", what);
    if (status == RANGES_ACCEPTED)
        printf("%" PRIu64 "..%" PRIu64 "\n", ranges_number(out, 0), ranges_number(out, 1));
    else
        refuse(status);
}

/* Prints the pieces of start..end; false where the range is refused. */
static int pieces(uint64_t start, uint64_t end, uint64_t part_size)
{
    uint8_t out[ROOM];
    uint64_t index = 0, count = 0;
    do {
        uint64_t status = ranges_split(start, end, part_size, index, out, sizeof out);
        if (status != RANGES_ACCEPTED) {
            refuse(status);
            return 0;
        }
        count = ranges_number(out, 0);
        if (index == 0)
            printf("%" PRIu64 " piece%s\n", count, count == 1 ? "" : "s");
        if (index < count)
            printf("  part %" PRIu64 ", bytes %" PRIu64 "..%" PRIu64 " of it\n", ranges_number(out, 1),
                   ranges_number(out, 2), ranges_number(out, 3));
    } while (++index < count);
    return 1;
}

static void canonical_ranges(void)
{
    uint8_t out[ROOM];
    show("size 1500, its last 100", ranges_canonicalize_suffix(100, 1500, out, sizeof out), out);
    show("size 10, 10..5", ranges_canonicalize_bounded(10, 5, 10, out, sizeof out), out);
    show("size 10, 9..9", ranges_canonicalize_bounded(9, 9, 10, out, sizeof out), out);
    show("size 10, 9..11", ranges_canonicalize_bounded(9, 11, 10, out, sizeof out), out);
    show("size 10, from 10", ranges_canonicalize_offset(10, 10, out, sizeof out), out);
    show("size 10, from 4", ranges_canonicalize_offset(4, 10, out, sizeof out), out);
    show("size 10, its last 11", ranges_canonicalize_suffix(11, 10, out, sizeof out), out);
    show("size 10, its last 0", ranges_canonicalize_suffix(0, 10, out, sizeof out), out);
    show("size 0, all", ranges_canonicalize_all(0, out, sizeof out), out);
}

static void rounded_requests(void)
{
    uint8_t out[ROOM];
    show("rounded 1000..1100", ranges_align_bounded(1000, 1100, PART_SIZE, out, sizeof out), out);
    show("rounded 0..2^64 - 1024", ranges_align_bounded(0, UINT64_MAX - 1023, PART_SIZE, out, sizeof out), out);
    show("rounded 0..2^64 - 1", ranges_align_bounded(0, UINT64_MAX, PART_SIZE, out, sizeof out), out);
    if (ranges_align_offset(1025, PART_SIZE, out, sizeof out) == RANGES_ACCEPTED)
        printf("%-34sfrom %" PRIu64 "\n", "rounded from 1025", ranges_number(out, 0));
    if (ranges_align_suffix(100, PART_SIZE, out, sizeof out) == RANGES_ACCEPTED)
        printf("%-34sthe last %" PRIu64 "\n", "rounded last 100", ranges_number(out, 0));
}

/* A refused call leaves the slice as it was, and an accepted one the bytes behind its result. */
static void slices(void)
{
    uint8_t out[ROOM], before[ROOM];
    memset(before, 0xa5, sizeof before);
    memcpy(out, before, sizeof out);
    show("a slice of 15 bytes", ranges_canonicalize_all(10, out, 15), out);
    show("a part size of 1000", ranges_align_suffix(100, 1000, out, sizeof out), out);
    show("a part size of 1000, no room", ranges_align_suffix(100, 1000, out, 0), out);
    show("a bad range, no room", ranges_canonicalize_bounded(9, 9, 10, out, 15), out);
    show("a bad range", ranges_canonicalize_bounded(9, 9, 10, out, 16), out);
    show("a range that runs backward", ranges_split(2, 1, PART_SIZE, 0, out, sizeof out), out);
    printf("slice after these refusals: %s\n", memcmp(out, before, sizeof out) ? "changed" : "as it was");
    ranges_canonicalize_all(0x0102030405060708, out, sizeof out);
    printf("low byte first: %02x %02x .. %02x\n", out[8], out[9], out[15]);
    printf("bytes behind the result: %s\n", memcmp(out + 16, before + 16, ROOM - 16) ? "changed" : "as they were");
    memcpy(out, before, sizeof out);
    ranges_split(0, 1024, PART_SIZE, 1, out, sizeof out);
    printf("no piece 1 of %" PRIu64 ": bytes behind the number %s\n", ranges_number(out, 0),
           memcmp(out + 8, before + 8, ROOM - 8) ? "changed" : "as they were");
}

int main(void)
{
    canonical_ranges();
    rounded_requests();
    printf("1400..1500 in parts of 1024: ");
    pieces(1400, 1500, PART_SIZE);
    printf("1000..1100 in parts of 1024: ");
    pieces(1000, 1100, PART_SIZE);
    printf("0..0 in parts of 1024: ");
    pieces(0, 0, PART_SIZE);
    printf("10..10 in parts of 1024: ");
    pieces(10, 10, PART_SIZE);
    printf("0..1 in parts of 17408: ");
    pieces(0, 1, 17408);
    slices();
    return 0;
}
