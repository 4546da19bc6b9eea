/* CryptMT Version 3, wide keystream, in plain C to measure against.
 *
 * All refuse with 2 a key and with 6 an IV whose length is not a multiple of
 * 16 from 16 to 256 bytes, and then leave what they would write alone. */

#ifndef CRYPTMT_H
#define CRYPTMT_H

#include <stddef.h>
#include <stdint.h>

/* Two versions of one thing: set up with key and IV and then XOR the keystream
 * from position 0 over the buffer, `piece` bytes (at least 1) at a time. They
 * answer 0 or the refusal. */

/* Each word is made when the filter needs it, in a ring of 156 rows. */
int cryptmt_words(const uint8_t *key, size_t key_len, const uint8_t *iv, size_t iv_len,
                  uint8_t *buf, size_t buf_len, size_t piece);

/* An array of 156 rows is made anew as a whole, then filtered. */
int cryptmt_blocks(const uint8_t *key, size_t key_len, const uint8_t *iv, size_t iv_len,
                   uint8_t *buf, size_t buf_len, size_t piece);

/* Two walks: set up with key and IV, go through the words, and write the
 * filter's memory over `memory`: 16 bytes, lane [0] first, low byte first.
 * They answer 0; or a refusal, which may also be 15 for more than 2^34 words
 * and 255 for a memory_len other than 16. */

/* Takes in `words` words. */
uint8_t cryptmt_walk_on(const uint8_t *key, size_t key_len, const uint8_t *iv, size_t iv_len,
                        uint64_t words, uint8_t *memory, size_t memory_len);

/* The same, and then takes them all back, from the state alone: the memory is
 * the first one again. */
uint8_t cryptmt_walk_there_and_back(const uint8_t *key, size_t key_len, const uint8_t *iv,
                                    size_t iv_len, uint64_t words, uint8_t *memory,
                                    size_t memory_len);

#endif
