/* What a message layer offers to the timer. Each function does its work `times` times over.
 *
 * An encoder copies what the last pass made to `out`, and gives its length; a decoder gives what its
 * consumer has of all passes, the checksum where `full` isn't 0. Each gives 0 where it refuses the
 * bytes, or doesn't offer the work. */
#ifndef LAYER_H
#define LAYER_H

#include <stddef.h>
#include <stdint.h>

typedef size_t encoder(const uint8_t *script, size_t len, size_t times, uint8_t *out, size_t room);
typedef uint64_t decoder(const uint8_t *stream, size_t len, size_t times, uint8_t full);

encoder tw_encode_prepared, tw_encode_script;
decoder tw_decode_prepared, tw_decode_stream;

/* As tw_decode_stream, but the stream comes in pieces. */
uint64_t tw_decode_pieces(
    const uint8_t *stream, size_t len, size_t piece, size_t times, uint8_t full);

/* What only this repository's layer offers. */
#ifdef OURS
encoder tw_encode_all, tw_encode_strict;
decoder tw_decode_borrowed;
#endif

#endif
