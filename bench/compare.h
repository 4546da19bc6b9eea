/* Comparing what versions answer and how long they take. */

#ifndef COMPARE_H
#define COMPARE_H

#include <stddef.h>
#include <stdint.h>
#include <time.h>

#define COUNT(array) (sizeof(array) / sizeof *(array))

enum {
    ROUNDS = 9,
    MAX_MATERIAL = 300 /* bytes of a key or an IV */
};

/* Lengths of keys and IVs. */
static const size_t lawful[] = {16, 32, 80, 256};
static const size_t unlawful[] = {0, 15, 17, 257, 272};

/* Some bytes that repeat in no short period. */
static inline void fill(uint8_t *to, size_t n, uint32_t seed)
{
    for (size_t i = 0; i < n; i++) {
        seed = seed * UINT32_C(1664525) + UINT32_C(1013904223);
        to[i] = (uint8_t)(seed >> 24);
    }
}

static inline void fill_material(uint8_t *key, size_t key_len, uint8_t *iv, size_t iv_len)
{
    fill(key, key_len, (uint32_t)key_len);
    fill(iv, iv_len, (uint32_t)(iv_len + 1000));
}

typedef void task(int version, uint8_t *buf);

/* The least time of each version of a task, their rounds taken in turn. It is
 * processor time, so that other programs disturb it less. */
static inline void measure(double *least, int versions, task *run, uint8_t *buf)
{
    for (int round = 0; round < ROUNDS; round++)
        for (int v = 0; v < versions; v++) {
            clock_t before = clock();
            run(v, buf);
            double time = (double)(clock() - before) / CLOCKS_PER_SEC;
            if (round == 0 || time < least[v])
                least[v] = time;
        }
}

/* Each pair: whether all versions answer alike (else it is printed which does
 * not), and the ratios of their times, printed. Covers answer 0 for want of
 * memory to measure with. */
int covers_alike(void);
int print_cover_ratios(void);
int walks_alike(void);
void print_walk_ratios(void);

#endif
