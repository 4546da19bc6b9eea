/* What all versions share: rows, the booter, and the bytes of a block. */

#ifndef CRYPTMT_COMMON_H
#define CRYPTMT_COMMON_H

#include <stddef.h>
#include <stdint.h>
#include <string.h>

enum {
    LANES = 4,
    ROW_BYTES = 16,
    MAX_ROWS = 16, /* of a key, and of an IV */
    BLOCK_BYTES = 16,
    BLOCK_WORDS = 2,
    SFMT_SIZE = 156,
    SFMT_MIDDLE = 108,
    MAX_REGISTER = 4 * MAX_ROWS,
    IDLE_EXTRA = 2,
    BAD_KEY_LENGTH = 2,
    BAD_IV_LENGTH = 6
};

/* In lane [3] of the first row it secures the long period. */
#define PERIOD_LANE UINT32_C(0x4d734e48)

#define MASK_0 UINT32_C(0xef7bffff)
#define MASK_1 UINT32_C(0xffdbffff)
#define MASK_2 UINT32_C(0xf5dabfff)
#define MASK_3 UINT32_C(0xffdfafdf)

struct row {
    uint32_t lane[LANES];
};

static inline uint32_t odd_product(uint32_t x, uint32_t y)
{
    return 2 * (x * y) + (x + y);
}

/* Four lanes are sixteen bytes, lane [0] first, low byte of a lane first. */
#if defined(__BYTE_ORDER__) && __BYTE_ORDER__ == __ORDER_LITTLE_ENDIAN__

static inline void load_lanes(uint32_t *lane, const uint8_t *bytes)
{
    memcpy(lane, bytes, ROW_BYTES);
}

static inline void store_lanes(uint8_t *bytes, const uint32_t *lane)
{
    memcpy(bytes, lane, ROW_BYTES);
}

#else

static inline void load_lanes(uint32_t *lane, const uint8_t *bytes)
{
    for (int c = 0; c < LANES; c++, bytes += 4)
        lane[c] = (uint32_t)bytes[0] | (uint32_t)bytes[1] << 8 | (uint32_t)bytes[2] << 16 |
                  (uint32_t)bytes[3] << 24;
}

static inline void store_lanes(uint8_t *bytes, const uint32_t *lane)
{
    for (int c = 0; c < LANES; c++, bytes += 4)
        for (int k = 0; k < 4; k++)
            bytes[k] = (uint8_t)(lane[c] >> 8 * k);
}

#endif

static inline struct row perm_shift_1(struct row x)
{
    return (struct row){{
        x.lane[3] ^ x.lane[0] >> 13,
        x.lane[0] ^ x.lane[1] >> 13,
        x.lane[1] ^ x.lane[2] >> 13,
        x.lane[2] ^ x.lane[3] >> 13,
    }};
}

static inline struct row perm_shift_2(struct row x)
{
    return (struct row){{
        x.lane[3] ^ x.lane[0] >> 11,
        x.lane[2] ^ x.lane[1] >> 11,
        x.lane[0] ^ x.lane[2] >> 11,
        x.lane[1] ^ x.lane[3] >> 11,
    }};
}

static inline struct row perm_shift_3(struct row x)
{
    return (struct row){{
        x.lane[0] ^ x.lane[1] >> 1,
        x.lane[1] ^ x.lane[2] >> 1,
        x.lane[2] ^ x.lane[3] >> 1,
        x.lane[3] ^ x.lane[0] >> 1,
    }};
}

static inline int lawful_length(size_t length)
{
    return length % ROW_BYTES == 0 && ROW_BYTES <= length && length <= MAX_ROWS * ROW_BYTES;
}

static inline size_t load_rows(struct row *to, const uint8_t *bytes, size_t length)
{
    size_t rows = length / ROW_BYTES;
    for (size_t r = 0; r < rows; r++)
        load_lanes(to[r].lane, bytes + r * ROW_BYTES);
    return rows;
}

struct booter {
    struct row x[MAX_REGISTER]; /* a ring of `size` rows */
    size_t size;
    size_t at; /* the oldest row */
    struct row accumulator;
};

/* A row of the register: number 0 is the oldest, size - 1 the newest. */
static inline struct row *booter_row(struct booter *b, size_t number)
{
    size_t i = b->at + number;
    return &b->x[i < b->size ? i : i - b->size];
}

/* One step: the row fed back replaces the oldest. Answers the output. */
static inline struct row booter_next(struct booter *b)
{
    struct row *oldest = booter_row(b, 0);
    struct row addend = *booter_row(b, b->size - 2);
    struct row factor = perm_shift_2(*booter_row(b, b->size - 1));
    struct row output;
    for (int c = 0; c < LANES; c++) {
        b->accumulator.lane[c] = odd_product(b->accumulator.lane[c], factor.lane[c]);
        output.lane[c] = oldest->lane[c] + addend.lane[c];
    }
    struct row mixed = perm_shift_1(output);
    for (int c = 0; c < LANES; c++)
        oldest->lane[c] = mixed.lane[c] - b->accumulator.lane[c];
    b->at = b->at + 1 < b->size ? b->at + 1 : 0;
    return output;
}

/* Takes in lawful key and IV and makes the idle steps. */
static inline void booter_start(struct booter *b, const uint8_t *key, size_t key_len,
                                const uint8_t *iv, size_t iv_len)
{
    static const uint32_t symmetry_breaker[LANES] = {314159, 265358, 979323, 846264};

    b->size = 0;
    b->at = 0;
    for (int copy = 0; copy < 2; copy++) {
        b->size += load_rows(b->x + b->size, iv, iv_len);
        b->size += load_rows(b->x + b->size, key, key_len);
    }
    load_lanes(b->accumulator.lane, key);
    for (int c = 0; c < LANES; c++) {
        b->accumulator.lane[c] |= 1;
        b->x[b->size - 1].lane[c] += symmetry_breaker[c];
    }
    for (size_t j = 0; j < b->size + IDLE_EXTRA; j++)
        booter_next(b);
}

/* Sets up; answers 0 or the refusal. Then the newest row is the start word. */
static inline int boot(struct booter *b, const uint8_t *key, size_t key_len, const uint8_t *iv,
                       size_t iv_len)
{
    if (!lawful_length(key_len))
        return BAD_KEY_LENGTH;
    if (!lawful_length(iv_len))
        return BAD_IV_LENGTH;
    booter_start(b, key, key_len, iv, iv_len);
    return 0;
}

static inline struct row start_word(struct booter *b)
{
    return *booter_row(b, b->size - 1);
}

/* Sets up, and makes all words of the booter that the hand-over passes on. */
static inline int boot_words(struct row *start, struct row *word, const uint8_t *key,
                             size_t key_len, const uint8_t *iv, size_t iv_len)
{
    struct booter booter;
    int refusal = boot(&booter, key, key_len, iv, iv_len);
    if (refusal != 0)
        return refusal;
    *start = start_word(&booter);
    for (size_t i = 0; i < SFMT_SIZE; i++)
        word[i] = booter_next(&booter);
    return 0;
}

/* XORs blocks over buf. A block is made from two memories of four lanes:
 * the halves of a lane folded, of the first into the low half of the lane
 * and of the second into the high half. */
static inline void cover_with(const uint32_t *restrict memory, uint8_t *restrict buf, size_t blocks)
{
    for (size_t i = 0; i < blocks; i++) {
        const uint32_t *first = memory + 2 * LANES * i, *second = first + LANES;
        uint32_t lane[LANES];
        load_lanes(lane, buf + BLOCK_BYTES * i);
        for (int c = 0; c < LANES; c++)
            lane[c] ^= ((first[c] ^ first[c] >> 16) & UINT32_C(0x0000ffff)) |
                       ((second[c] ^ second[c] << 16) & UINT32_C(0xffff0000));
        store_lanes(buf + BLOCK_BYTES * i, lane);
    }
}

/* The bytes not yet used of a block that was made for a part of it. */
struct rest {
    uint8_t block[BLOCK_BYTES];
    size_t left;
};

/* Covers with the rest as far as it goes; answers how many bytes. */
static inline size_t cover_with_rest(struct rest *rest, uint8_t *buf, size_t n)
{
    size_t count = n < rest->left ? n : rest->left;
    const uint8_t *from = rest->block + BLOCK_BYTES - rest->left;
    for (size_t k = 0; k < count; k++)
        buf[k] ^= from[k];
    rest->left -= count;
    return count;
}

typedef void block_cover(void *cipher, uint8_t *buf, size_t blocks);

/* Covers any number of bytes by means of a function that covers blocks. */
static inline void cover_bytes(struct rest *rest, block_cover *cover_blocks, void *cipher,
                               uint8_t *buf, size_t n)
{
    size_t done = cover_with_rest(rest, buf, n);
    size_t blocks = (n - done) / BLOCK_BYTES;
    cover_blocks(cipher, buf + done, blocks);
    done += blocks * BLOCK_BYTES;
    if (done < n) {
        *rest = (struct rest){{0}, BLOCK_BYTES};
        cover_blocks(cipher, rest->block, 1);
        cover_with_rest(rest, buf + done, n - done);
    }
}

/* Covers a buffer piece by piece, each as a call of its own. */
static inline void cover_pieces(struct rest *rest, block_cover *cover_blocks, void *cipher,
                                uint8_t *buf, size_t buf_len, size_t piece)
{
    for (size_t done = 0; done < buf_len; done += piece) {
        size_t left = buf_len - done;
        cover_bytes(rest, cover_blocks, cipher, buf + done, left < piece ? left : piece);
    }
}

#endif
