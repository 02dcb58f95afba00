/* The calls of libmassey_bench.a (tools/build massey_bench), for timing. Those
 * with an image load its whole words, of which the first 256 count, on a new
 * machine, put one of the machine's calls to work so many times, and answer a
 * number that shows what was done; none is refused. A pointer and the number
 * after it are one slice of bytes, as in massey.h; slices do not overlap. */
#ifndef MASSEY_BENCH_H
#define MASSEY_BENCH_H

#include <stddef.h>
#include <stdint.h>

#ifdef __cplusplus
extern "C" {
#endif

/* Makes so many micro operations one at a time, then runs the machine with that
 * budget of instructions and these breakpoints, one byte each, and answers its
 * number of micro operations. */
uint64_t massey_run(const uint8_t *image, size_t image_len, uint64_t ticks,
                    uint64_t budget, const uint8_t *breakpoints,
                    size_t breakpoints_len);

/* Runs the machine by the direct engine, from the start and without breakpoints,
 * and answers its number of micro operations. */
uint64_t massey_direct_run(const uint8_t *image, size_t image_len,
                           uint64_t budget);

/* Makes n instructions one at a time, fewer where the machine halts, and answers
 * its number of micro operations. */
uint64_t massey_steps(const uint8_t *image, size_t image_len, uint64_t n);

/* The same by the direct engine, without ticks. */
uint64_t massey_direct_steps(const uint8_t *image, size_t image_len, uint64_t n);

/* The same with n micro operations one at a time. */
uint64_t massey_ticks(const uint8_t *image, size_t image_len, uint64_t n);

/* Saves the machine's state n times in the store, which is taken to hold count
 * records already, and answers how many it holds then. */
uint64_t massey_pushes(const uint8_t *image, size_t image_len, uint8_t *store,
                       size_t store_len, uint64_t count, uint64_t n);

/* Undoes n times from a store that is taken to hold count records, and answers
 * how many are left. A refused call changes nothing and counts nothing. */
uint64_t massey_undos(const uint8_t *image, size_t image_len,
                      const uint8_t *store, size_t store_len, uint64_t count,
                      uint64_t n);

/* Writes the four digits of a word, and zeros up to 32 bytes, where out has room
 * for all of them, and answers 4. */
uint64_t massey_format_word(uint16_t word, uint8_t *out, size_t out_len);

#ifdef __cplusplus
}
#endif

#endif
