/* The wide cover: one version in Rattle, two in C. */

#include <stdio.h>
#include <stdlib.h>
#include <string.h>

#include "compare.h"
#include "cryptmt.h"
#include "wide_bench.h"

typedef int cover_fn(const uint8_t *key, size_t key_len, const uint8_t *iv, size_t iv_len,
                     uint8_t *buf, size_t buf_len, size_t piece);

static int rattle(const uint8_t *key, size_t key_len, const uint8_t *iv, size_t iv_len,
                  uint8_t *buf, size_t buf_len, size_t piece)
{
    return wide_cover_pieces(key, key_len, iv, iv_len, buf, buf_len, piece);
}

enum { WORDS, BLOCKS, RATTLE, VERSIONS };

static const struct {
    const char *name;
    cover_fn *cover;
} version[VERSIONS] = {
    [WORDS] = {"C word by word", cryptmt_words},
    [BLOCKS] = {"C in blocks of 156", cryptmt_blocks},
    [RATTLE] = {"rattle", rattle},
};

enum {
    LONG_BYTES = 16 << 20,
    LONG_PIECE = 4096,
    MAX_LENGTH = 70000 /* of a comparison */
};

/* Whether all versions answer and cover alike; a refusal covers nothing. */
static int alike(size_t key_len, size_t iv_len, size_t length, size_t piece)
{
    static uint8_t plain[MAX_LENGTH], covered[VERSIONS][MAX_LENGTH];
    uint8_t key[MAX_MATERIAL], iv[MAX_MATERIAL];
    int answer[VERSIONS];
    int same = 1;

    fill_material(key, key_len, iv, iv_len);
    fill(plain, length, (uint32_t)length);
    for (int v = 0; v < VERSIONS; v++) {
        memcpy(covered[v], plain, length);
        answer[v] = version[v].cover(key, key_len, iv, iv_len, covered[v], length, piece);
        if (answer[v] != answer[0] || memcmp(covered[v], covered[0], length) != 0 ||
            (answer[v] != 0 && memcmp(covered[v], plain, length) != 0)) {
            printf("%s differs: key of %zu, IV of %zu, %zu bytes in pieces of %zu\n",
                   version[v].name, key_len, iv_len, length, piece);
            same = 0;
        }
    }
    return same;
}

int covers_alike(void)
{
    static const size_t length[] = {0,    1,    15,   16,   17,   37,   1247,       1248,
                                    1249, 1250, 2495, 2496, 2497, 5000, MAX_LENGTH};
    static const size_t piece[] = {1, 7, 16, 100, 1248, 4096, 100000};
    int same = 1;

    for (size_t k = 0; k < COUNT(lawful); k++)
        for (size_t i = 0; i < COUNT(lawful); i++)
            for (size_t n = 0; n < COUNT(length); n++)
                for (size_t p = 0; p < COUNT(piece); p++)
                    same &= alike(lawful[k], lawful[i], length[n], piece[p]);
    for (size_t u = 0; u < COUNT(unlawful); u++) {
        same &= alike(unlawful[u], 16, 40, 40);
        same &= alike(16, unlawful[u], 40, 40);
        same &= alike(unlawful[u], unlawful[u], 40, 40);
    }
    return same;
}

static void cover_long(int v, uint8_t *buf)
{
    static const uint8_t key[16] = {1}, iv[16] = {2};
    version[v].cover(key, sizeof key, iv, sizeof iv, buf, LONG_BYTES, LONG_PIECE);
}

int print_cover_ratios(void)
{
    double least[VERSIONS];
    uint8_t *buf = calloc(LONG_BYTES, 1);
    if (buf == NULL) {
        puts("no memory to measure with");
        return 0;
    }
    measure(least, VERSIONS, cover_long, buf);
    free(buf);
    printf("rattle / C word by word: %.2f\n", least[RATTLE] / least[WORDS]);
    printf("rattle / C in blocks of 156: %.2f\n", least[RATTLE] / least[BLOCKS]);
    printf("C word by word / C in blocks of 156: %.2f\n", least[WORDS] / least[BLOCKS]);
    return 1;
}
