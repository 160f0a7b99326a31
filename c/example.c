/* A host to start from: an arena, two holders, a collection, and a listing of what is free; then a run of calls, a collection with
 * eager sweeping, and an office's class table.
 * Build and run: c/build.sh */
#include <stdio.h>
#include <stdlib.h>
#include <string.h>
#include "native_ms.h"

/* Ends the program if a call that must be answered is refused. */
static void must(const char *call, size_t number)
{
    if (number != 0) {
        printf("%s: refused, %zu %s\n", call, number, native_ms_refusal(number));
        exit(1);
    }
}

static uint8_t *room(size_t bytes)
{
    uint8_t *p = malloc(bytes);
    if (p == NULL)
        exit(1);
    return p;
}

/* Four blocks of 4096 bytes. What the memory holds doesn't matter: set-up clears tables and marks, and each cell is zeroed when
 * it is handed out. */
static void open_space(struct native_ms_space *s, size_t eager)
{
    s->base = 16384;
    s->bytes = 4096;
    s->blocks = 4;
    s->min = 8;
    s->max = 16;
    s->offsets = 1;
    s->unified = 0;
    s->lower = 0;
    s->eager = eager;
    s->rows = NULL;
    s->row_count = 0;
    s->words = room(NATIVE_MS_WORDS_LEN(s->blocks));
    s->states = room(NATIVE_MS_STATES_LEN(s->blocks));
    s->marks = room(NATIVE_MS_MARKS_LEN(s->bytes, s->blocks));
    s->heap = room(NATIVE_MS_HEAP_LEN(s->bytes, s->blocks));
    must("set-up", native_ms_set_up(NATIVE_MS_LENT(s)));
}

static void close_space(struct native_ms_space *s)
{
    free(s->words);
    free(s->states);
    free(s->marks);
    free(s->heap);
}

static uint64_t answered(const struct native_ms_space *s, size_t word)
{
    return native_ms_word(s->answer, word);
}

/* The lowest Unallocated block, or none. */
static size_t some_block(const struct native_ms_space *s)
{
    for (size_t b = 0; b < s->blocks; b++)
        if (s->states[b] == NATIVE_MS_UNALLOCATED)
            return b;
    return NATIVE_MS_NO_OFFER;
}

/* Takes a cell: from the blocks at hand if one has a free cell, else from a new block. 0 if the space is full. */
static uint64_t take(struct native_ms_space *s, size_t holder, size_t size, size_t align)
{
    size_t r = native_ms_alloc(NATIVE_MS_LENT(s), holder, size, align, 0, NATIVE_MS_NO_OFFER);
    if (r == NATIVE_MS_EXHAUSTED) {
        size_t block = some_block(s);
        if (block == NATIVE_MS_NO_OFFER)
            return 0;
        r = native_ms_alloc(NATIVE_MS_LENT(s), holder, size, align, 0, block);
    }
    must("alloc", r);
    printf("holder %zu: %zu bytes at %llu, a cell of %llu, %llu swept\n", holder, size,
           (unsigned long long)answered(s, NATIVE_MS_ALLOC_ADDRESS),
           (unsigned long long)answered(s, NATIVE_MS_ALLOC_CELL_SIZE), (unsigned long long)answered(s, NATIVE_MS_ALLOC_SWEPT));
    return answered(s, NATIVE_MS_ALLOC_ADDRESS);
}

static void mark(struct native_ms_space *s, uint64_t address)
{
    must("mark", native_ms_mark(NATIVE_MS_LENT(s), address, (address - s->base) / s->bytes));
}

/* A collection: what isn't marked between prepare and the releases is lost when its block is swept or released. */
static void collect(struct native_ms_space *s, const uint64_t *live, size_t count)
{
    must("prepare", native_ms_prepare(NATIVE_MS_LENT(s)));
    for (size_t i = 0; i < count; i++)
        mark(s, live[i]);
    uint64_t released = 0;
    for (size_t holder = 1; holder <= 8; holder++)
        if (native_ms_word(s->words, NATIVE_MS_BOUND(holder)) == 1) {
            must("release", native_ms_release(NATIVE_MS_LENT(s), holder));
            released += answered(s, NATIVE_MS_RELEASE_BLOCKS);
        }
    must("shared release", native_ms_shared_release(NATIVE_MS_LENT(s)));
    released += answered(s, NATIVE_MS_RELEASE_BLOCKS);
    printf("collected: %llu blocks released, %llu merged and %llu swept by the last\n", (unsigned long long)released,
           (unsigned long long)answered(s, NATIVE_MS_RELEASE_MERGED), (unsigned long long)answered(s, NATIVE_MS_RELEASE_SWEPT));
}

/* The free cells of each block in use, along its chain, which is as long as the block's count. A block that awaits a sweep still
 * has its chain and its count of before. */
static void list_free(struct native_ms_space *s)
{
    for (size_t b = 0; b < s->blocks; b++) {
        if (s->states[b] == NATIVE_MS_UNALLOCATED)
            continue;
        uint64_t size = native_ms_word(s->words, NATIVE_MS_SIZE(s->blocks, b));
        uint64_t cell = native_ms_word(s->words, NATIVE_MS_FREE(s->blocks, b));
        uint64_t count = native_ms_word(s->words, NATIVE_MS_CELLS(s->blocks, b));
        printf("block %zu, cells of %llu, holder %llu, %llu free:", b, (unsigned long long)size,
               (unsigned long long)native_ms_word(s->words, NATIVE_MS_TLS(s->blocks, b)), (unsigned long long)count);
        for (uint64_t i = 0; i < count; i++) {
            printf(" %llu", (unsigned long long)cell);
            cell = native_ms_word(native_ms_pointer(s->heap, s->base, cell), 0);
        }
        printf("\n");
    }
}

/* Five calls after one check: a call that is refused ends nothing. */
static void run(struct native_ms_space *s)
{
    enum { COUNT = 5 };
    uint8_t calls[NATIVE_MS_CALLS_LEN(COUNT)], answers[NATIVE_MS_ANSWERS_LEN(COUNT)];
    native_ms_put_call(calls, 0, NATIVE_MS_RUN_BIND, 3, 0, 0, 0, 0);
    native_ms_put_call(calls, 1, NATIVE_MS_RUN_ALLOC, 3, 64, 8, 0, NATIVE_MS_NO_OFFER);
    native_ms_put_call(calls, 2, NATIVE_MS_RUN_ALLOC, 3, 64, 8, 0, some_block(s));
    native_ms_put_call(calls, 3, 8, 0, 0, 0, 0, 0);
    native_ms_put_call(calls, 4, NATIVE_MS_RUN_ALLOC, 3, 64, 8, 0, NATIVE_MS_NO_OFFER);
    must("run", native_ms_run(NATIVE_MS_LENT_TO_RUN(s, answers, COUNT), calls, sizeof calls));
    for (size_t i = 0; i < COUNT; i++)
        printf("call %zu of the run: %s, %llu\n", i, native_ms_refusal(native_ms_run_number(answers, i)),
               (unsigned long long)native_ms_run_word(answers, i, NATIVE_MS_ALLOC_ADDRESS));
}

/* Checks the rows of a space. */
static void check(struct native_ms_space *s, const char *which)
{
    must("check", native_ms_check_classes(s->base, s->bytes, s->blocks, s->min, s->max, s->offsets, s->unified, s->lower, s->eager,
                                          s->rows, NATIVE_MS_ROWS_LEN(s->row_count), s->answer, NATIVE_MS_ANSWER_LEN));
    static const char *const kinds[] = {"accepted", "bad count", "bad row"};
    printf("%s: %s", which, kinds[answered(s, NATIVE_MS_CHECK_KIND)]);
    if (answered(s, NATIVE_MS_CHECK_KIND) != NATIVE_MS_CHECK_ACCEPTED)
        printf(" %llu", (unsigned long long)answered(s, NATIVE_MS_CHECK_NUMBER));
    printf("\n");
}

/* With eager sweeping the collection leaves no block to be swept: what is free is on the chains when it is over. */
static void eager(void)
{
    struct native_ms_space space;
    struct native_ms_space *s = &space;
    open_space(s, 1);
    must("bind", native_ms_bind(NATIVE_MS_LENT(s), 1));
    const uint64_t live[] = {take(s, 1, 1000, 8)};
    take(s, 1, 1000, 8);
    collect(s, live, 1);
    list_free(s);
    take(s, 1, 1000, 8);
    close_space(s);
}

/* An office stores entries of 72 bytes: nine words. Its table gives them a cell of their own; document 01's classes give 80 bytes. */
static void office(void)
{
    struct native_ms_space space;
    struct native_ms_space *s = &space;
    uint8_t rows[NATIVE_MS_ROWS_LEN(4)];
    open_space(s, 0);
    must("bind", native_ms_bind(NATIVE_MS_LENT(s), 1));
    take(s, 1, 72, 8);

    s->rows = rows;
    s->row_count = 4;
    native_ms_put_row(rows, 1, 1, 8, 8);
    native_ms_put_row(rows, 2, 9, 9, 9);
    native_ms_put_row(rows, 3, 11, 64, 64);
    native_ms_put_row(rows, 4, 65, 512, 511);
    check(s, "ten words have no row");
    size_t r = native_ms_prepare(NATIVE_MS_LENT(s));
    printf("prepare with these rows: %zu %s\n", r, native_ms_refusal(r));
    native_ms_put_row(rows, 3, 10, 64, 64);
    check(s, "row 4 has too small a cell");
    native_ms_put_row(rows, 4, 65, 512, 512);
    check(s, "the office's rows");
    must("set-up", native_ms_set_up(NATIVE_MS_LENT(s)));
    must("bind", native_ms_bind(NATIVE_MS_LENT(s), 1));
    take(s, 1, 72, 8);
    close_space(s);
}

int main(void)
{
    struct native_ms_space space;
    struct native_ms_space *s = &space;
    open_space(s, 0);
    must("bind", native_ms_bind(NATIVE_MS_LENT(s), 1));
    must("bind", native_ms_bind(NATIVE_MS_LENT(s), 2));

    uint64_t first = take(s, 1, 1000, 8);
    uint64_t second = take(s, 1, 1000, 16);
    uint64_t other = take(s, 2, 2040, 8);
    strcpy((char *)native_ms_pointer(s->heap, s->base, first), "an entry of holder 1");
    strcpy((char *)native_ms_pointer(s->heap, s->base, other), "an entry of holder 2");
    list_free(s);

    size_t r = native_ms_bind(NATIVE_MS_LENT(s), 2);
    printf("bind again: %zu %s\n", r, native_ms_refusal(r));

    const uint64_t live[] = {first};
    collect(s, live, 1);
    list_free(s);

    uint64_t again = take(s, 1, 1000, 16);
    printf("the second cell %s handed out again\n", again == second ? "was" : "wasn't");
    printf("kept: %s\n", (char *)native_ms_pointer(s->heap, s->base, first));
    list_free(s);

    /* Bin 24 has cells of 1024 bytes. */
    printf("free cells of 1024 bytes: %llu\n", (unsigned long long)native_ms_free_cells(s->words, s->blocks, 24));

    must("destroy", native_ms_destroy(NATIVE_MS_LENT(s), 1));
    printf("holder 1 left %llu blocks behind\n", (unsigned long long)answered(s, NATIVE_MS_DESTROY_BLOCKS));
    uint64_t third = take(s, 2, 1000, 8);
    printf("holder 2 took over: block %llu\n", (unsigned long long)((third - s->base) / s->bytes));
    list_free(s);
    run(s);
    close_space(s);
    eager();
    office();
    return 0;
}
