/* The wide cover written in Rattle, from the library made of crate wide_bench.
 * It means the same as the C versions in cryptmt.h. */

#ifndef WIDE_COVER_H
#define WIDE_COVER_H

#include <stddef.h>
#include <stdint.h>

uint8_t wide_cover_pieces(const uint8_t *key, size_t key_len, const uint8_t *iv, size_t iv_len,
                          uint8_t *buf, size_t buf_len, size_t piece);

#endif
