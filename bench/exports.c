/* What a call through the exports costs beside the inner call on words, which decodes and encodes nothing. Both make the same
 * calls on spaces of their own; their tables must end alike. Least processor time of several rounds. Built by bench/exports.sh. */
#include <stdio.h>
#include <stdlib.h>
#include <string.h>
#include <time.h>
#include "native_ms.h"

#define INNER \
    size_t base, size_t bytes, size_t blocks, uint64_t *words, size_t words_len, uint8_t *states, size_t states_len, \
    uint8_t *marks, size_t marks_len, uint8_t *heap, size_t heap_len
size_t inner_alloc(INNER, size_t size, size_t offer);
size_t inner_mark(INNER, size_t place, size_t block);

enum { CALLS = 2000, ROUNDS = 7, BYTES = 4096, BASE = 1 << 20 };

static struct native_ms_space open_space(size_t blocks)
{
    struct native_ms_space s = {.base = BASE, .bytes = BYTES, .blocks = blocks, .min = 8, .max = 8, .unified = 1};
    s.words = calloc(1, NATIVE_MS_WORDS_LEN(blocks));
    s.states = calloc(1, blocks);
    s.marks = calloc(1, NATIVE_MS_MARKS_LEN(BYTES, blocks));
    s.heap = calloc(1, NATIVE_MS_HEAP_LEN(BYTES, blocks));
    return s;
}

static double now(void)
{
    struct timespec t;
    clock_gettime(CLOCK_PROCESS_CPUTIME_ID, &t);
    return (double)t.tv_sec * 1e6 + (double)t.tv_nsec / 1e3;
}

/* The inner calls read the words in place: the machine that this runs on has its low byte first. */
#define WORDS_OF(s) (uint64_t *)(void *)(s)->words, NATIVE_MS_WORDS_LEN((s)->blocks) / 8
#define INNER_LENT(s) \
    (s)->base, (s)->bytes, (s)->blocks, WORDS_OF(s), (s)->states, (s)->blocks, \
    (s)->marks, NATIVE_MS_MARKS_LEN(BYTES, (s)->blocks), (s)->heap, NATIVE_MS_HEAP_LEN(BYTES, (s)->blocks)

static size_t refused;

static double allocs(struct native_ms_space *s, int inner)
{
    size_t next = 0;
    double from = now();
    for (int i = 0; i < CALLS; i++) {
        size_t offer = i % 8 == 0 && next < s->blocks ? next++ : NATIVE_MS_NO_OFFER;
        size_t r = inner ? inner_alloc(INNER_LENT(s), 512, offer) : native_ms_alloc(NATIVE_MS_LENT(s), 1, 512, 8, 0, offer);
        refused += r != 0;
    }
    return (now() - from) / CALLS;
}

static double marks(struct native_ms_space *s, int inner)
{
    double from = now();
    for (int i = 0; i < CALLS; i++) {
        size_t place = BASE + 8 * (size_t)(i % 512);
        size_t r = inner ? inner_mark(INNER_LENT(s), place, 0) : native_ms_mark(NATIVE_MS_LENT(s), place, 0);
        refused += r != 0;
    }
    return (now() - from) / CALLS;
}

int main(void)
{
    static const size_t counts[] = {4, 64, 1024};
    printf("blocks  call   inner, us  through C, us  ratio\n");
    for (size_t k = 0; k < 3; k++) {
        size_t blocks = counts[k];
        double least[2][2] = {{1e9, 1e9}, {1e9, 1e9}};
        for (int round = 0; round < ROUNDS; round++) {
            struct native_ms_space s[2] = {open_space(blocks), open_space(blocks)};
            for (int inner = 0; inner < 2; inner++) {
                refused += native_ms_set_up(NATIVE_MS_LENT(&s[inner])) + native_ms_bind(NATIVE_MS_LENT(&s[inner]), 1);
                double t = allocs(&s[inner], inner);
                if (t < least[0][inner])
                    least[0][inner] = t;
                refused += native_ms_prepare(NATIVE_MS_LENT(&s[inner]));
                t = marks(&s[inner], inner);
                if (t < least[1][inner])
                    least[1][inner] = t;
            }
            if (memcmp(s[0].words, s[1].words, NATIVE_MS_WORDS_LEN(blocks)) != 0 || memcmp(s[0].heap, s[1].heap, BYTES * blocks) != 0)
                printf("the two ended in different tables\n");
            for (int inner = 0; inner < 2; inner++) {
                free(s[inner].words);
                free(s[inner].states);
                free(s[inner].marks);
                free(s[inner].heap);
            }
        }
        for (int c = 0; c < 2; c++)
            printf("%6zu  %-6s %9.2f  %13.2f  %5.2f\n", blocks, c ? "mark" : "alloc", least[c][1], least[c][0], least[c][0] / least[c][1]);
    }
    printf("%zu calls refused\n", refused);
    return 0;
}
