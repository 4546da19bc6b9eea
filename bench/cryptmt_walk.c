#include "cryptmt.h"
#include "cryptmt_recursion.h"

enum { TOO_MANY_WORDS = 15, BAD_MEMORY_LENGTH = 255 };

#define MAX_WORDS (UINT64_C(1) << 34)

/* A place in the words, and the filter's memory there. Every step is undone
 * from this alone. The words that the ring records up to the seam are for the
 * recursion: the way back has the booter undone and does not read them. */
struct walk {
    uint64_t place;
    struct booter booter;       /* at the place, or at the seam if that is before it */
    struct row ring[SFMT_SIZE]; /* up to the seam: the words of the booter so far */
    size_t at;                  /* after the seam: the oldest row of the ring */
    struct row carries;
    struct row memory;
};

/* The number whose product with the odd number d is 1, by Newton's steps. The
 * first guess is right in 5 bits: d * x is 1 - e, and 32 divides e. A step
 * makes it 1 - e^2, so that after three of them nothing is left of e. */
static inline uint32_t inverse(uint32_t d)
{
    uint32_t x = 3 * d ^ 2;
    uint32_t e = 1 - d * x;
    x *= 1 + e;
    e *= e;
    x *= 1 + e;
    e *= e;
    return x * (1 + e);
}

/* The x whose odd product with y is z. */
static inline uint32_t odd_quotient(uint32_t z, uint32_t y)
{
    return (z - y) * inverse(2 * y + 1);
}

static inline struct row undo_perm_shift_1(struct row x)
{
    return (struct row){{
        x.lane[1] ^ x.lane[2] >> 13 ^ x.lane[3] >> 26,
        x.lane[2] ^ x.lane[3] >> 13 ^ x.lane[0] >> 26,
        x.lane[3] ^ x.lane[0] >> 13 ^ x.lane[1] >> 26,
        x.lane[0] ^ x.lane[1] >> 13 ^ x.lane[2] >> 26,
    }};
}

/* Undoes one step of the booter; answers the output that it made. */
static struct row booter_back(struct booter *b)
{
    b->at = (b->at > 0 ? b->at : b->size) - 1;
    struct row *newest = booter_row(b, 0); /* where the oldest one comes back */
    struct row addend = *booter_row(b, b->size - 2);
    struct row factor = perm_shift_2(*booter_row(b, b->size - 1));
    struct row mixed;
    for (int c = 0; c < LANES; c++)
        mixed.lane[c] = newest->lane[c] + b->accumulator.lane[c];
    struct row output = undo_perm_shift_1(mixed);
    for (int c = 0; c < LANES; c++) {
        newest->lane[c] = output.lane[c] - addend.lane[c];
        b->accumulator.lane[c] = odd_quotient(b->accumulator.lane[c], factor.lane[c]);
    }
    return output;
}

/* A filter step is undone in two halves. Perm-shift 3 is undone by taking it 31
 * more times: 28 of them together leave each lane by itself and are done here,
 * with the quotient; the other three are `undo_turns`. */
static inline uint32_t undo_in_lane(uint32_t y, uint32_t word)
{
    uint32_t x = odd_quotient(y, word);
    x ^= x >> 4;
    x ^= x >> 8;
    return x ^ x >> 16;
}

static inline struct row undo_turns(const struct row *half)
{
    const uint32_t *x = half->lane;
    return (struct row){{
        x[0] ^ x[1] >> 1 ^ x[2] >> 2 ^ x[3] >> 3,
        x[1] ^ x[2] >> 1 ^ x[3] >> 2 ^ x[0] >> 3,
        x[2] ^ x[3] >> 1 ^ x[0] >> 2 ^ x[1] >> 3,
        x[3] ^ x[0] >> 1 ^ x[1] >> 2 ^ x[2] >> 3,
    }};
}

/* Writes the oldest row from the one that replaced it, given the rest of it. */
static inline void undo_recursion(struct row *oldest, const struct row *newest,
                                  const struct row *rest)
{
    oldest->lane[0] = newest->lane[3] ^ rest->lane[3];
    oldest->lane[1] = newest->lane[0] ^ rest->lane[0];
    oldest->lane[2] = newest->lane[1] ^ rest->lane[1];
    oldest->lane[3] = newest->lane[2] ^ rest->lane[2];
}

static void on_before_seam(struct walk *s, uint64_t words)
{
    for (; words > 0; words--) {
        struct row word = booter_next(&s->booter);
        s->ring[s->place++] = word;
        s->memory = filter_step(s->memory, word);
    }
}

static void back_before_seam(struct walk *s, uint64_t words)
{
    for (; words > 0; words--) {
        struct row word = booter_back(&s->booter);
        s->place--;
        for (int c = 0; c < LANES; c++)
            s->memory.lane[c] = undo_in_lane(s->memory.lane[c], word.lane[c]);
        s->memory = undo_turns(&s->memory);
    }
}

/* Going on, the first row of the ring gets its constant and is then replaced by
 * a row that is no word. Going back, that row is undone; the constant may stay
 * where it is, since the word itself comes from the booter. */
static void over_seam(struct walk *s)
{
    hand_over_ring(s->ring);
    s->at = 1;
}

static void back_over_seam(struct walk *s)
{
    struct row *ring = s->ring;
    struct row rest = all_but_oldest(&ring[SFMT_SIZE - 1], &ring[SFMT_MIDDLE], &s->carries);
    struct row skipped = ring[0];
    undo_recursion(&ring[0], &skipped, &rest);
}

/* The newest row is kept as pairs; its lanes are the word. The inner loop goes
 * on as long as neither row comes to the end of the ring. */
static void on_after_seam(struct walk *s, uint64_t words)
{
    const size_t early = SFMT_SIZE - SFMT_MIDDLE;
    struct pairs last = pairs_of(&s->ring[(s->at + SFMT_SIZE - 1) % SFMT_SIZE]);
    struct row y = s->memory;

    while (words > 0) {
        struct row *oldest = s->ring + s->at;
        const struct row *middle = s->at < early ? oldest + SFMT_MIDDLE : oldest - early;
        size_t run = (s->at < early ? early : SFMT_SIZE) - s->at;
        if (run > words)
            run = (size_t)words;
        for (struct row *stop = oldest + run; oldest < stop; oldest++, middle++) {
            last = recursion(last, middle, oldest);
            struct row word = row_of(last);
            *oldest = word;
            y = filter_step(y, word);
        }
        s->at = (s->at + run) % SFMT_SIZE;
        s->place += run;
        words -= run;
    }
    s->memory = y;
}

/* Between the two halves the memory is put down in the state, and it is read
 * again after a row of the ring is written, so that the compiler must really
 * read it. Only when it reads lanes does gcc turn them as a vector; so this
 * detour lets it make vector code of the whole loop, and that is faster than
 * all ways to do it with scalars that were tried. */
static void back_after_seam(struct walk *s, uint64_t words)
{
    struct row *const ring = s->ring, *const end = ring + SFMT_SIZE;
    struct row *newest = ring + (s->at + SFMT_SIZE - 1) % SFMT_SIZE;
    struct row *before = ring + (s->at + SFMT_SIZE - 2) % SFMT_SIZE;
    struct row *middle = ring + (s->at + SFMT_MIDDLE - 1) % SFMT_SIZE;
    const struct row carry = s->carries;
    struct row y = s->memory;

    s->place -= words;
    for (; words > 0; words--) {
        struct row word = *newest;
        struct row rest = all_but_oldest(before, middle, &carry);
        for (int c = 0; c < LANES; c++)
            s->memory.lane[c] = undo_in_lane(y.lane[c], word.lane[c]);
        undo_recursion(newest, &word, &rest);
        y = undo_turns(&s->memory);
        newest = before;
        before = (before == ring ? end : before) - 1;
        middle = (middle == ring ? end : middle) - 1;
    }
    s->at = (size_t)(newest + 1 - ring) % SFMT_SIZE;
    s->memory = y;
}

static uint64_t smaller(uint64_t a, uint64_t b)
{
    return a < b ? a : b;
}

static void walk_on(struct walk *s, uint64_t words)
{
    if (s->place <= SFMT_SIZE) {
        uint64_t before = smaller(words, SFMT_SIZE - s->place);
        on_before_seam(s, before);
        words -= before;
        if (words == 0)
            return;
        over_seam(s);
    }
    on_after_seam(s, words);
}

static void walk_back(struct walk *s, uint64_t words)
{
    if (s->place > SFMT_SIZE) {
        uint64_t after = smaller(words, s->place - SFMT_SIZE);
        back_after_seam(s, after);
        words -= after;
        if (s->place == SFMT_SIZE)
            back_over_seam(s);
    }
    back_before_seam(s, words);
}

static uint8_t set_up(struct walk *s, const uint8_t *key, size_t key_len, const uint8_t *iv,
                      size_t iv_len, uint64_t words, size_t memory_len)
{
    if (memory_len != ROW_BYTES)
        return BAD_MEMORY_LENGTH;
    int refusal = boot(&s->booter, key, key_len, iv, iv_len);
    if (refusal != 0)
        return (uint8_t)refusal;
    if (words > MAX_WORDS)
        return TOO_MANY_WORDS;
    s->place = 0;
    s->carries = carries;
    s->memory = start_word(&s->booter);
    return 0;
}

uint8_t cryptmt_walk_on(const uint8_t *key, size_t key_len, const uint8_t *iv, size_t iv_len,
                        uint64_t words, uint8_t *memory, size_t memory_len)
{
    struct walk walk;
    uint8_t refusal = set_up(&walk, key, key_len, iv, iv_len, words, memory_len);
    if (refusal != 0)
        return refusal;
    walk_on(&walk, words);
    store_lanes(memory, walk.memory.lane);
    return 0;
}

uint8_t cryptmt_walk_there_and_back(const uint8_t *key, size_t key_len, const uint8_t *iv,
                                    size_t iv_len, uint64_t words, uint8_t *memory,
                                    size_t memory_len)
{
    struct walk walk;
    uint8_t refusal = set_up(&walk, key, key_len, iv, iv_len, words, memory_len);
    if (refusal != 0)
        return refusal;
    walk_on(&walk, words);
    walk_back(&walk, words);
    store_lanes(memory, walk.memory.lane);
    return 0;
}
