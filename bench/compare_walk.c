/* Walking through the words, one by one, on and back: in Rattle and in C. */

#include <stdio.h>
#include <string.h>

#include "compare.h"
#include "cryptmt.h"
#include "wide_bench.h"

typedef uint8_t walk_fn(const uint8_t *key, size_t key_len, const uint8_t *iv, size_t iv_len,
                        uint64_t words, uint8_t *memory, size_t memory_len);

enum { C_ON, C_BOTH, RATTLE_ON, RATTLE_BOTH, VERSIONS };

static const struct {
    const char *name;
    walk_fn *walk;
} version[VERSIONS] = {
    [C_ON] = {"C on", cryptmt_walk_on},
    [C_BOTH] = {"C there and back", cryptmt_walk_there_and_back},
    [RATTLE_ON] = {"rattle on", wide_walk_on},
    [RATTLE_BOTH] = {"rattle there and back", wide_walk_there_and_back},
};

enum { LONG_WORDS = 4 << 20, MEMORY_BYTES = 16, MEMORY_ROOM = 20 };

#define MAX_WORDS (UINT64_C(1) << 34)

struct question {
    size_t key_len, iv_len;
    uint64_t words;
    size_t memory_len;
};

static int answer(walk_fn *walk, const struct question *q, uint8_t *memory)
{
    uint8_t key[MAX_MATERIAL], iv[MAX_MATERIAL];
    fill_material(key, q->key_len, iv, q->iv_len);
    memset(memory, 0, MEMORY_ROOM);
    return walk(key, q->key_len, iv, q->iv_len, q->words, memory, q->memory_len);
}

/* Whether a version answers and writes this. */
static int is(int v, const struct question *q, int expected, const uint8_t *expected_memory)
{
    uint8_t memory[MEMORY_ROOM];
    if (answer(version[v].walk, q, memory) == expected &&
        memcmp(memory, expected_memory, MEMORY_ROOM) == 0)
        return 1;
    printf("%s differs: key of %zu, IV of %zu, %llu words, memory of %zu\n", version[v].name,
           q->key_len, q->iv_len, (unsigned long long)q->words, q->memory_len);
    return 0;
}

/* Both versions come to the same memory, and back to the first one. */
static int alike(size_t key_len, size_t iv_len, uint64_t words)
{
    const struct question there = {key_len, iv_len, words, MEMORY_BYTES};
    const struct question nowhere = {key_len, iv_len, 0, MEMORY_BYTES};
    uint8_t first[MEMORY_ROOM], then[MEMORY_ROOM];

    answer(cryptmt_walk_on, &nowhere, first);
    answer(cryptmt_walk_on, &there, then);
    return is(C_ON, &there, 0, then) & is(RATTLE_ON, &there, 0, then) &
           is(C_BOTH, &there, 0, first) & is(RATTLE_BOTH, &there, 0, first);
}

/* All refuse with this number and write nothing. */
static int refused(size_t key_len, size_t iv_len, uint64_t words, size_t memory_len, int number)
{
    static const uint8_t nothing[MEMORY_ROOM];
    const struct question q = {key_len, iv_len, words, memory_len};
    int same = 1;
    for (int v = 0; v < VERSIONS; v++)
        same &= is(v, &q, number, nothing);
    return same;
}

static int all_refused(void)
{
    static const size_t memory_len[] = {0, 15, 17, MEMORY_ROOM};
    int same = 1;
    for (size_t u = 0; u < COUNT(unlawful); u++) {
        same &= refused(unlawful[u], 16, 3, MEMORY_BYTES, 2);
        same &= refused(16, unlawful[u], 3, MEMORY_BYTES, 6);
        same &= refused(unlawful[u], unlawful[u], 3, MEMORY_BYTES, 2);
    }
    for (size_t m = 0; m < COUNT(memory_len); m++)
        same &= refused(16, 16, 3, memory_len[m], 255) & refused(15, 17, MAX_WORDS + 1, memory_len[m], 255);
    same &= refused(16, 16, MAX_WORDS + 1, MEMORY_BYTES, 15);
    same &= refused(16, 16, UINT64_MAX, MEMORY_BYTES, 15);
    return same;
}

int walks_alike(void)
{
    static const uint64_t words[] = {0,   1,   2,   155, 156, 157, 158, 203,
                                     204, 205, 311, 312, 313, 314, 5000};
    int same = all_refused();
    for (size_t k = 0; k < COUNT(lawful); k++)
        for (size_t i = 0; i < COUNT(lawful); i++)
            for (size_t n = 0; n < COUNT(words); n++)
                same &= alike(lawful[k], lawful[i], words[n]);
    return same;
}

static void walk_long(int v, uint8_t *memory)
{
    static const uint8_t key[16] = {1}, iv[16] = {2};
    version[v].walk(key, sizeof key, iv, sizeof iv, LONG_WORDS, memory, MEMORY_BYTES);
}

/* The time back is that of there and back less that of on. */
void print_walk_ratios(void)
{
    double least[VERSIONS];
    uint8_t memory[MEMORY_BYTES];

    measure(least, VERSIONS, walk_long, memory);
    double c_back = least[C_BOTH] - least[C_ON];
    double rattle_back = least[RATTLE_BOTH] - least[RATTLE_ON];
    printf("walking on, rattle / C: %.2f\n", least[RATTLE_ON] / least[C_ON]);
    printf("walking back, rattle / C: %.2f\n", rattle_back / c_back);
    printf("rattle back / rattle on: %.2f\n", rattle_back / least[RATTLE_ON]);
    printf("C back / C on: %.2f\n", c_back / least[C_ON]);
}
