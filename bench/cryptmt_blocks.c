#include "cryptmt.h"
#include "cryptmt_recursion.h"

struct cipher {
    struct row x[SFMT_SIZE];
    size_t taken; /* words of the array that are filtered */
    int booting;  /* the array holds the words of the booter */
    struct row carries;
    struct row memory;
    struct rest rest;
};

/* Makes `count` rows from x on, where `last` is the row before the first. */
static inline struct row make_rows(struct row *x, const struct row *middle, struct row last,
                                   size_t count, const struct row *carry)
{
    const struct row c = *carry;
    for (size_t i = 0; i < count; i++) {
        const uint32_t *o = x[i].lane;
        last = all_but_oldest(&last, middle + i, &c);
        last.lane[0] ^= o[1];
        last.lane[1] ^= o[2];
        last.lane[2] ^= o[3];
        last.lane[3] ^= o[0];
        x[i] = last;
    }
    return last;
}

/* All 156 rows; the middle row of the later ones is itself a new one. */
static void make_array(struct row *x, const struct row *carry)
{
    const size_t early = SFMT_SIZE - SFMT_MIDDLE;
    struct row last = make_rows(x, x + SFMT_MIDDLE, x[SFMT_SIZE - 1], early, carry);
    make_rows(x + early, x, last, SFMT_MIDDLE, carry);
}

/* The first row gets its constant. The first new row is skipped: the array
 * moves on by one, so that the next whole array starts with the row after. */
static void hand_over(struct row *x, const struct row *carry)
{
    struct row first = x[0];
    first.lane[3] = PERIOD_LANE;
    make_rows(&first, x + SFMT_MIDDLE, x[SFMT_SIZE - 1], 1, carry);
    memmove(x, x + 1, (SFMT_SIZE - 1) * sizeof *x);
    x[SFMT_SIZE - 1] = first;
}

/* Puts down the memory before each word; answers the one after the last. */
static struct row filter(struct row y, const struct row *word, uint32_t *memory, size_t words)
{
    uint32_t y0 = y.lane[0], y1 = y.lane[1], y2 = y.lane[2], y3 = y.lane[3];

    for (size_t m = 0; m < words; m++, memory += LANES) {
        const uint32_t *w = word[m].lane;
        uint32_t s0 = y0 ^ y1 >> 1, s1 = y1 ^ y2 >> 1, s2 = y2 ^ y3 >> 1, s3 = y3 ^ y0 >> 1;
        memory[0] = y0;
        memory[1] = y1;
        memory[2] = y2;
        memory[3] = y3;
        y0 = odd_product(s0, w[0]);
        y1 = odd_product(s1, w[1]);
        y2 = odd_product(s2, w[2]);
        y3 = odd_product(s3, w[3]);
    }
    return (struct row){{y0, y1, y2, y3}};
}

static void renew(struct cipher *s)
{
    if (s->booting)
        hand_over(s->x, &s->carries);
    make_array(s->x, &s->carries);
    s->booting = 0;
    s->taken = 0;
}

static void cover_blocks(void *cipher, uint8_t *buf, size_t blocks)
{
    struct cipher *s = cipher;
    uint32_t memory[SFMT_SIZE * LANES];
    while (blocks > 0) {
        if (s->taken == SFMT_SIZE)
            renew(s);
        size_t n = (SFMT_SIZE - s->taken) / BLOCK_WORDS;
        if (n > blocks)
            n = blocks;
        s->memory = filter(s->memory, s->x + s->taken, memory, n * BLOCK_WORDS);
        s->taken += n * BLOCK_WORDS;
        cover_with(memory, buf, n);
        buf += n * BLOCK_BYTES;
        blocks -= n;
    }
}

static int set_up(struct cipher *s, const uint8_t *key, size_t key_len, const uint8_t *iv,
                  size_t iv_len)
{
    int refusal = boot_words(&s->memory, s->x, key, key_len, iv, iv_len);
    if (refusal != 0)
        return refusal;
    s->taken = 0;
    s->booting = 1;
    s->carries = carries;
    s->rest.left = 0;
    return 0;
}

int cryptmt_blocks(const uint8_t *key, size_t key_len, const uint8_t *iv, size_t iv_len,
                   uint8_t *buf, size_t buf_len, size_t piece)
{
    struct cipher cipher;
    int refusal = set_up(&cipher, key, key_len, iv, iv_len);
    if (refusal != 0)
        return refusal;
    cover_pieces(&cipher.rest, cover_blocks, &cipher, buf, buf_len, piece);
    return 0;
}
