/* The recursion and the filter, a row at a time.
 *
 * The recursion stands here in two forms: `recursion`, by 64-bit numbers, is
 * the faster one where each new row goes at once to the filter, which wants
 * single lanes; `all_but_oldest`, by lanes, is there for vector code. */

#ifndef CRYPTMT_RECURSION_H
#define CRYPTMT_RECURSION_H

#include "cryptmt_common.h"

/* A row as the two 64-bit pairs that are shifted: [1][0] and [3][2]. */
struct pairs {
    uint64_t low, high;
};

#define PAIR(upper, lower) ((uint64_t)(upper) << 32 | (lower))

static inline struct pairs pairs_of(const struct row *x)
{
    return (struct pairs){PAIR(x->lane[1], x->lane[0]), PAIR(x->lane[3], x->lane[2])};
}

static inline struct row row_of(struct pairs x)
{
    return (struct row){{
        (uint32_t)x.low,
        (uint32_t)(x.low >> 32),
        (uint32_t)x.high,
        (uint32_t)(x.high >> 32),
    }};
}

/* The row that follows `last`. */
static inline struct pairs recursion(struct pairs last, const struct row *middle,
                                     const struct row *oldest)
{
    const uint32_t *m = middle->lane, *o = oldest->lane;
    struct pairs shifted = pairs_of(middle);
    return (struct pairs){
        (last.low & PAIR(MASK_1, MASK_0)) ^ shifted.low >> 3 ^ PAIR(m[3] ^ o[2], m[1] ^ o[1]),
        (last.high & PAIR(MASK_3, MASK_2)) ^ shifted.high >> 3 ^ PAIR(m[2] ^ o[0], m[0] ^ o[3]),
    };
}

/* In a ring with the booter's words: the first row gets its constant, and the
 * first new row, which takes its place, is no word. */
static inline void hand_over_ring(struct row *ring)
{
    ring[0].lane[3] = PERIOD_LANE;
    ring[0] = row_of(recursion(pairs_of(&ring[SFMT_SIZE - 1]), &ring[SFMT_MIDDLE], &ring[0]));
}

/* When a 64-bit pair is shifted, its lower lane gets bits from the upper one.
 * In `all_but_oldest` both lanes get them, and these masks take them off the
 * upper one again: with all four lanes written alike the compiler makes vector
 * code. For that it must not fold the zeros, so the masks are a part of the
 * state. */
static const struct row carries = {{UINT32_MAX, 0, UINT32_MAX, 0}};

/* The row that follows `last`, but for oldest[0][3][2][1]. */
static inline struct row all_but_oldest(const struct row *last, const struct row *middle,
                                        const struct row *carry)
{
    const uint32_t *l = last->lane, *m = middle->lane, *c = carry->lane;
    return (struct row){{
        (l[0] & MASK_0) ^ m[0] >> 3 ^ (m[1] << 29 & c[0]) ^ m[1],
        (l[1] & MASK_1) ^ m[1] >> 3 ^ (m[1] << 29 & c[1]) ^ m[3],
        (l[2] & MASK_2) ^ m[2] >> 3 ^ (m[3] << 29 & c[2]) ^ m[0],
        (l[3] & MASK_3) ^ m[3] >> 3 ^ (m[3] << 29 & c[3]) ^ m[2],
    }};
}

/* The memory after the word. */
static inline struct row filter_step(struct row memory, struct row word)
{
    struct row y = perm_shift_3(memory);
    for (int c = 0; c < LANES; c++)
        y.lane[c] = odd_product(y.lane[c], word.lane[c]);
    return y;
}

#endif
