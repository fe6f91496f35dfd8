// The listing of a roll file, as a call from C. `rt lib` in crates/listing_c builds the library, out/liblisting_c.a there, and
// c/check puts a copy at target/staticlib/liblisting.a. Link it; nothing else is needed.
#ifndef DEBITS_H
#define DEBITS_H

#include <stddef.h>
#include <stdint.h>

#ifdef __cplusplus
extern "C" {
#endif

// Writes the listing of the file to the front of `out`, and returns its length, 0 or more. The `R` line of a refused file
// is a listing too. The bytes of `out` behind the listing stay as they were.
// Where the listing does not fit into `out_len` bytes, returns -15, and every byte of `out` is zero.
//
// Neither pointer may be null, not even where its length is 0, and the two ranges must not overlap. Of the file nothing is
// changed, and nothing is kept from one call to the next.
int64_t debits_list(const uint8_t *file, size_t file_len, uint8_t *out, size_t out_len);

#ifdef __cplusplus
}
#endif

#endif
