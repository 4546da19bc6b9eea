/* What is measured, written in Rattle: the library made of crate wide_bench.
 * Each means the same as its C version in cryptmt.h. */

#ifndef WIDE_BENCH_H
#define WIDE_BENCH_H

#include <stddef.h>
#include <stdint.h>

/* wide_cover_pieces, as cryptmt_words and cryptmt_blocks. */
#include "wide_cover.h"

/* As cryptmt_walk_on. */
uint8_t wide_walk_on(const uint8_t *key, size_t key_len, const uint8_t *iv, size_t iv_len,
                     uint64_t words, uint8_t *memory, size_t memory_len);

/* As cryptmt_walk_there_and_back. */
uint8_t wide_walk_there_and_back(const uint8_t *key, size_t key_len, const uint8_t *iv,
                                 size_t iv_len, uint64_t words, uint8_t *memory,
                                 size_t memory_len);

#endif
