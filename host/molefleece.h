/* The replay of a script of calls over a pager on five memory servers, for C and C++. */
#ifndef MOLEFLEECE_H
#define MOLEFLEECE_H

#include <stddef.h>
#include <stdint.h>

#ifdef __cplusplus
extern "C" {
#endif

/*
 * Reads the script line by line, runs each line's call on a new pager over the five memories, and writes a listing of
 * what each call came to. docs/REPLAY.md has the formats of both.
 *
 * The buffers, each a pointer and its length in bytes:
 *
 *   script      the script. It is only read.
 *   a, b, c, d  the memories of the data servers 0, 1, 2 and 3.
 *   parity      the memory of the parity server, number 4.
 *   listing     takes the listing.
 *
 * A memory has a slot for each 512 whole bytes, 64 at most; slot s is the 512 bytes from 512 * s. Whatever its bytes
 * are at first, all five servers begin up, with nothing held.
 *
 * The answer:
 *
 *   n >= 0   n bytes of listing were written, to the script's last line, or to the first that can't be read: that has
 *            a line too.
 *   -1 - n   n bytes of listing were written, whole lines all, and the next line did not fit behind them. The replay
 *            ended there. The call of that line, if it could be read, has run. Where n is 0 the line of names did not
 *            fit, and nothing has run.
 *
 * Afterwards:
 *
 *   The listing's first n bytes are its lines, and its bytes from n on are as they were.
 *   A slot of a memory has the bytes of the page that was put there last, also where that page was freed or the server
 *   fell since. A slot that nothing was put at, and the bytes behind the last slot, are as they were.
 *
 * What the caller owes, since nothing checks it:
 *
 *   No pointer is NULL, also where its length is 0.
 *   Each pointer has as many bytes as its length says, that may be read, and but for the script written. All of them
 *   hold values: a buffer that was never written is filled first.
 *   No two of the seven buffers overlap.
 *   While a call runs, nothing else writes any of the buffers, or reads one but the script.
 *
 * Nothing is kept between calls, and no pointer is used after the call's end. So it may be called again and again, on
 * the same buffers too, and from several threads at a time, each on memories and a listing of its own.
 */
int64_t molefleece_replay(const uint8_t *script, size_t script_length,
                          uint8_t *a, size_t a_length,
                          uint8_t *b, size_t b_length,
                          uint8_t *c, size_t c_length,
                          uint8_t *d, size_t d_length,
                          uint8_t *parity, size_t parity_length,
                          uint8_t *listing, size_t listing_length);

#ifdef __cplusplus
}
#endif

#endif
