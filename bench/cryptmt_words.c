#include "cryptmt.h"
#include "cryptmt_recursion.h"

enum { BUFFERED_BLOCKS = 64 };

struct cipher {
    struct row ring[SFMT_SIZE];
    size_t at;           /* the oldest row of the ring, which is made anew next */
    size_t booter_words; /* words of the booter not yet filtered, from `at` on */
    struct row memory;
    struct rest rest;
};

static inline void put(uint32_t *to, struct row y)
{
    for (int c = 0; c < LANES; c++)
        to[c] = y.lane[c];
}

/* Puts down the memory before each of the next `words` words of the booter. */
static void filter_booter(struct cipher *s, uint32_t *memory, size_t words)
{
    for (size_t m = 0; m < words; m++) {
        put(memory + LANES * m, s->memory);
        s->memory = filter_step(s->memory, s->ring[s->at + m]);
    }
    s->at += words;
    s->booter_words -= words;
}

/* The same for words of the ring: one move, then one filter step. */
static void filter_ring(struct cipher *s, uint32_t *memory, size_t words)
{
    struct row *const ring = s->ring, *const end = ring + SFMT_SIZE;
    struct row *oldest = ring + s->at;
    struct row *middle = ring + (s->at + SFMT_MIDDLE) % SFMT_SIZE;
    struct pairs last = pairs_of(&ring[(s->at + SFMT_SIZE - 1) % SFMT_SIZE]);
    struct row y = s->memory;

    for (size_t m = 0; m < words; m++) {
        put(memory + LANES * m, y);
        last = recursion(last, middle, oldest);
        struct row word = row_of(last);
        *oldest = word;
        if (++oldest == end)
            oldest = ring;
        if (++middle == end)
            middle = ring;
        y = filter_step(y, word);
    }
    s->at = (size_t)(oldest - ring);
    s->memory = y;
}

static void hand_over(struct cipher *s)
{
    hand_over_ring(s->ring);
    s->at = 1;
}

static void cover_blocks(void *cipher, uint8_t *buf, size_t blocks)
{
    struct cipher *s = cipher;
    uint32_t memory[BUFFERED_BLOCKS * BLOCK_WORDS * LANES];
    while (blocks > 0) {
        size_t n = blocks < BUFFERED_BLOCKS ? blocks : BUFFERED_BLOCKS;
        if (s->booter_words > 0) {
            if (n > s->booter_words / BLOCK_WORDS)
                n = s->booter_words / BLOCK_WORDS;
            filter_booter(s, memory, n * BLOCK_WORDS);
            if (s->booter_words == 0)
                hand_over(s);
        } else {
            filter_ring(s, memory, n * BLOCK_WORDS);
        }
        cover_with(memory, buf, n);
        buf += n * BLOCK_BYTES;
        blocks -= n;
    }
}

static int set_up(struct cipher *s, const uint8_t *key, size_t key_len, const uint8_t *iv,
                  size_t iv_len)
{
    int refusal = boot_words(&s->memory, s->ring, key, key_len, iv, iv_len);
    if (refusal != 0)
        return refusal;
    s->at = 0;
    s->booter_words = SFMT_SIZE;
    s->rest.left = 0;
    return 0;
}

int cryptmt_words(const uint8_t *key, size_t key_len, const uint8_t *iv, size_t iv_len,
                  uint8_t *buf, size_t buf_len, size_t piece)
{
    struct cipher cipher;
    int refusal = set_up(&cipher, key, key_len, iv, iv_len);
    if (refusal != 0)
        return refusal;
    cover_pieces(&cipher.rest, cover_blocks, &cipher, buf, buf_len, piece);
    return 0;
}
