/* Instruction profiling for one thermal unit over a Trading Day. */
#ifndef GRISTPEBBLE_H
#define GRISTPEBBLE_H

#include <stddef.h>
#include <stdint.h>

#ifdef __cplusplus
extern "C" {
#endif

/* This many bytes suffice for the listing of any day. */
#define GRISTPEBBLE_LISTING_BYTES 46080

/*
 * Takes the records one after the other from an empty day up to close, and writes the listing to the front of `out`.
 *
 * records, length: the records as bytes; bytes after close are not looked at. Only read.
 * out, room:       the lent buffer. It must not overlap the records. Bytes past the listing stay as they were.
 *
 * Neither pointer may be null, even where its length is 0.
 *
 * Returns the count of bytes written or, at the first refusal, its number times 2^32; then `out` is as it was.
 *
 * Proved (`exported` : `ExportedClaim`, crates/claims/specs/Exported.antt): what it returns and writes is what the calls of the
 * library give, each record in turn and then the listing, for all bytes and any buffer. So each refusal is the paper's, and demands 2
 * and 3 hold of the bytes written.
 */
uint64_t gristpebble_listing(const uint8_t *records, size_t length, uint8_t *out, size_t room);

/* The number of the refusal in a result, 0 if there was none. */
static inline unsigned gristpebble_refusal(uint64_t result)
{
    return (unsigned)(result >> 32);
}

#ifdef __cplusplus
}
#endif

#endif
