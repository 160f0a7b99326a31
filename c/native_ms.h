/* The native mark-sweep space for a C host: eight calls on numbers and lent byte slices, a run of many of them, and a check of class
 * tables.
 *
 * Build target/staticlib/libexports.a by c/build.sh and link it. docs/HOST.md has the same in more words; c/example.c is a host
 * to start from. What each call does is proved of it for all inputs, as long as the host keeps to the duties below, which no
 * call can test.
 *
 * A call returns 0, or the number of its refusal. A refusal leaves the answer slice alone, and everything else too, save that
 * after 9 the block moves and sweeps already made stand, and the answer's fourth word says how many blocks were swept, with zeros
 * before it.
 *
 * DUTIES OF THE HOST
 * - Each slice is a pointer and the length of what is really there. No pointer is null, not even for length 0.
 * - No two slices overlap, and nothing else reads or writes them while a call runs: one call at a time on one space.
 * - A call uses up to NATIVE_MS_STACK bytes of stack.
 * - Between calls only holders write, each only in cells it holds then: from the address answered on, as many bytes as it asked
 *   for (the whole cell, if it asked for an align of MIN). Nobody writes words, states or marks. A call on damaged tables stays
 *   inside its slices and ends, but what it answers is then of no use. A write into a free cell breaks its block's chain: every
 *   call is then refused as 2, whichever block it is about, and nothing mends that.
 * - Every call is given the parameters, the rows and the slices that set-up was given. The answer slice alone may be another each
 *   time.
 *
 * ADDRESSES ARE NUMBERS. `base` is the number of the heap's first byte and no pointer: any nonzero multiple of the block size
 * will do, wherever the heap lies in memory. Place p of the heap has the number base + (p - heap); native_ms_pointer and
 * native_ms_address convert both ways. 0 is no address. */
#ifndef NATIVE_MS_H
#define NATIVE_MS_H
#include <stddef.h>
#include <stdint.h>

#ifdef __cplusplus
extern "C" {
#endif

/* This interface. It changes whenever a signature, a length or an answer does. */
#define NATIVE_MS_VERSION 7

#if SIZE_MAX != UINT64_MAX
#error "size_t must have 64 bits"
#endif

/* ---- lengths, in bytes; a slice of any other length is refused as 1 */

#define NATIVE_MS_WORDS_LEN(blocks) ((size_t)8 * (2958 + 7 * (size_t)(blocks)))
#define NATIVE_MS_STATES_LEN(blocks) ((size_t)(blocks))
#define NATIVE_MS_MARKS_LEN(bytes, blocks) ((size_t)(bytes) * (size_t)(blocks) / 64)
#define NATIVE_MS_HEAP_LEN(bytes, blocks) ((size_t)(bytes) * (size_t)(blocks))
#define NATIVE_MS_ROWS_LEN(count) ((size_t)24 * (size_t)(count)) /* of 0 to NATIVE_MS_MOST_ROWS rows */
#define NATIVE_MS_ANSWER_LEN ((size_t)32)
#define NATIVE_MS_STACK ((size_t)131072)
#define NATIVE_MS_CALLS_LEN(count) ((size_t)48 * (size_t)(count)) /* of a run of 0 to NATIVE_MS_MOST_CALLS calls */
#define NATIVE_MS_ANSWERS_LEN(count) ((size_t)40 * (size_t)(count))
#define NATIVE_MS_RUN_STACK ((size_t)262144)                      /* in place of NATIVE_MS_STACK, for a run */

/* ---- parameters: base, a nonzero multiple of bytes, base + heap at most 2^47; bytes of a block, a power of two, 4096 to 65536;
 * blocks, 1 to 1024; min 4 or 8; max a power of two, min to 64; offsets and unified 0 or 1; lower (L), a multiple of 8, -64 to
 * 64, and 0 if unified; eager 0 or 1: with 1 the last release of a collection sweeps every block in use, and no alloc sweeps.
 * Anything else is refused as 1. */

/* A class table: up to 48 rows, each three words (from, to, cell). A request of so many words, from `from` to `to`, gets a cell of
 * `cell` words. Every count of words from 1 to the block's must fall in exactly one row, and a cell holds at least its row's `to`
 * and at most the block; other rows are refused as 12. No rows: the classes of document 01. The rows are only read. */
#define NATIVE_MS_MOST_ROWS 48
#define NATIVE_MS_ROWS const uint8_t *rows, size_t rows_len

#define NATIVE_MS_PARAMS \
    size_t base, size_t bytes, size_t blocks, size_t min, size_t max, size_t offsets, size_t unified, int64_t lower, \
    size_t eager
#define NATIVE_MS_SLICES \
    uint8_t *words, size_t words_len, uint8_t *states, size_t states_len, uint8_t *marks, size_t marks_len, \
    uint8_t *heap, size_t heap_len, NATIVE_MS_ROWS, uint8_t *answer, size_t answer_len

/* ---- the calls. Behind each: the words of its answer, in order; words after them are 0. Alloc refused as 9: 0, 0, 0, blocks swept */

size_t native_ms_set_up(NATIVE_MS_PARAMS, NATIVE_MS_SLICES);                                  /* none */
size_t native_ms_bind(NATIVE_MS_PARAMS, NATIVE_MS_SLICES, size_t holder);                     /* none */
size_t native_ms_destroy(NATIVE_MS_PARAMS, NATIVE_MS_SLICES, size_t holder);                  /* blocks gone over to abandoned */
size_t native_ms_alloc(NATIVE_MS_PARAMS, NATIVE_MS_SLICES, size_t holder, size_t size, size_t align, size_t offset,
                       size_t offer);                                  /* address, cell size, offer used (0, 1), blocks swept */
size_t native_ms_prepare(NATIVE_MS_PARAMS, NATIVE_MS_SLICES);                                 /* none */
size_t native_ms_mark(NATIVE_MS_PARAMS, NATIVE_MS_SLICES, size_t place, size_t block);        /* whether it is new (0, 1) */
size_t native_ms_release(NATIVE_MS_PARAMS, NATIVE_MS_SLICES, size_t holder);                  /* blocks released, merged, swept */
size_t native_ms_shared_release(NATIVE_MS_PARAMS, NATIVE_MS_SLICES);                          /* blocks released, merged, swept */

/* The check of a class table, before a space is set up: refused only as 1. Its answer: 0 and 0 if the rows are accepted; 1 and the
 * least count of words that no row or more than one covers; or 2 and the first row that is unfit, counted from 1. */
size_t native_ms_check_classes(NATIVE_MS_PARAMS, NATIVE_MS_ROWS, uint8_t *answer, size_t answer_len);

/* A run: many calls, one after the other, after one check of all that is lent and one decoding of the tables. `calls` has six words
 * for each: its kind, and its numbers in the order of the calls above; words that a kind doesn't need are not read. The answer slice has
 * five words for each: 0 or its refusal's number, and the words of its answer, zeros after (9 has its swept count as the last). A
 * refused call ends nothing, and an unknown kind is answered 11. What it leaves is what the single calls would. It returns 0; or 1 with
 * nothing written, where a parameter's flag, the rows or a length is off: calls no whole calls or too many, the answer slice of another
 * length than they ask for, more words than the largest space has. What else is off is told by each answer, as the single calls would
 * tell it. */
#define NATIVE_MS_MOST_CALLS 1024
size_t native_ms_run(NATIVE_MS_PARAMS, NATIVE_MS_SLICES, const uint8_t *calls, size_t calls_len);

#define NATIVE_MS_RUN_BIND 1    /* holder */
#define NATIVE_MS_RUN_DESTROY 2 /* holder */
#define NATIVE_MS_RUN_ALLOC 3   /* holder, size, align, offset, offer */
#define NATIVE_MS_RUN_PREPARE 4
#define NATIVE_MS_RUN_MARK 5    /* place, block */
#define NATIVE_MS_RUN_RELEASE 6 /* holder */
#define NATIVE_MS_RUN_SHARED_RELEASE 7

/* alloc: an offer of this number offers no block */
#define NATIVE_MS_NO_OFFER UINT64_MAX

/* which word of the answer */
#define NATIVE_MS_ALLOC_ADDRESS 0
#define NATIVE_MS_ALLOC_CELL_SIZE 1
#define NATIVE_MS_ALLOC_OFFER_USED 2
#define NATIVE_MS_ALLOC_SWEPT 3
#define NATIVE_MS_MARK_NEW 0
#define NATIVE_MS_DESTROY_BLOCKS 0
#define NATIVE_MS_RELEASE_BLOCKS 0
#define NATIVE_MS_RELEASE_MERGED 1 /* from in-gc to abandoned by the last release; 0 if others are due */
#define NATIVE_MS_RELEASE_SWEPT 2 /* by the last release, if eager; else 0 */
#define NATIVE_MS_CHECK_KIND 0
#define NATIVE_MS_CHECK_NUMBER 1
#define NATIVE_MS_CHECK_ACCEPTED 0
#define NATIVE_MS_CHECK_BAD_COUNT 1
#define NATIVE_MS_CHECK_BAD_ROW 2

/* ---- refusals, in the order in which they are tested; 12 is tested right after 1 */

#define NATIVE_MS_BAD_SETUP 1   /* a parameter or a length is off */
#define NATIVE_MS_BAD_TABLES 2  /* the tables aren't sound (with eager: a block awaits a sweep), or a chain isn't as long as its block's count */
#define NATIVE_MS_WRONG_PHASE 3 /* the call isn't of this phase, or released already */
#define NATIVE_MS_BAD_HOLDER 4  /* not 1 to 8; bound already (bind); not bound (others) */
#define NATIVE_MS_BAD_REQUEST 5 /* size or offset no multiple of min, offset over 65536, align no power of two in min to max */
#define NATIVE_MS_TOO_BIG 6     /* the raised size is over the block size */
#define NATIVE_MS_BAD_OFFER 7   /* the offered block isn't there or isn't Unallocated */
#define NATIVE_MS_BAD_LINK 8    /* never occurs: a bad link is 2 since version 4 */
#define NATIVE_MS_EXHAUSTED 9   /* no cell found and no offer */
#define NATIVE_MS_BAD_OBJECT 10 /* no place of the heap, or not in that block */
#define NATIVE_MS_BAD_LINE 11   /* in a run: a kind that there isn't */
#define NATIVE_MS_BAD_CLASSES 12 /* rows that the check does not accept */

static inline const char *native_ms_refusal(size_t number)
{
    static const char *const words[] = {"Done",    "BadSetup", "BadTables", "WrongPhase", "BadHolder", "BadRequest", "TooBig",
                                        "BadOffer", "BadLink", "Exhausted", "BadObject",  "BadLine",   "BadClasses"};
    return number <= 12 ? words[number] : "?";
}

/* ---- words and addresses */

/* The word with this index: 8 bytes, low byte first, on any machine. */
static inline uint64_t native_ms_word(const uint8_t *bytes, size_t index)
{
    uint64_t value = 0;
    for (int i = 7; i >= 0; i--)
        value = value << 8 | bytes[8 * index + (size_t)i];
    return value;
}

static inline void native_ms_put_word(uint8_t *bytes, size_t index, uint64_t value)
{
    for (size_t i = 0; i < 8; i++)
        bytes[8 * index + i] = (uint8_t)(value >> 8 * i);
}

/* The row with this number, counted from 1. */
static inline void native_ms_put_row(uint8_t *rows, size_t number, uint64_t from, uint64_t to, uint64_t cell)
{
    native_ms_put_word(rows, 3 * (number - 1), from);
    native_ms_put_word(rows, 3 * (number - 1) + 1, to);
    native_ms_put_word(rows, 3 * (number - 1) + 2, cell);
}

/* The call with this index of a run. */
static inline void native_ms_put_call(uint8_t *calls, size_t index, uint64_t kind, uint64_t a, uint64_t b, uint64_t c, uint64_t d,
                                      uint64_t e)
{
    const uint64_t words[6] = {kind, a, b, c, d, e};
    for (size_t i = 0; i < 6; i++)
        native_ms_put_word(calls, 6 * index + i, words[i]);
}

/* Of the answer with this index of a run: its number (0 or a refusal), and a word of it. */
static inline uint64_t native_ms_run_number(const uint8_t *answers, size_t index)
{
    return native_ms_word(answers, 5 * index);
}

static inline uint64_t native_ms_run_word(const uint8_t *answers, size_t index, size_t word)
{
    return native_ms_word(answers, 5 * index + 1 + word);
}

static inline uint8_t *native_ms_pointer(uint8_t *heap, uint64_t base, uint64_t address)
{
    return heap + (address - base);
}

static inline uint64_t native_ms_address(const uint8_t *heap, uint64_t base, const uint8_t *place)
{
    return base + (uint64_t)(place - heap);
}

/* ---- where the tables stand in the words slice, for hosts that list them. Read only. */

#define NATIVE_MS_FIRST(list) ((size_t)(list))              /* of 1470 lists: start of the first block, and of the last */
#define NATIVE_MS_LAST(list) (1470 + (size_t)(list))
#define NATIVE_MS_PHASE ((size_t)2940)                      /* 0 Running, 1 Marking, 2 Releasing */
#define NATIVE_MS_BOUND(holder) (2940 + (size_t)(holder))   /* of holder 1 to 8 */
#define NATIVE_MS_RELEASED(part) (2949 + (size_t)(part))    /* of holder 1 to 8, and 0 for the shared part */
#define NATIVE_MS_NEXT(blocks, block) (2958 + 0 * (size_t)(blocks) + (block))
#define NATIVE_MS_PREV(blocks, block) (2958 + 1 * (size_t)(blocks) + (block))
#define NATIVE_MS_FREE(blocks, block) (2958 + 2 * (size_t)(blocks) + (block)) /* head of the block's free chain, 0 if none */
#define NATIVE_MS_SIZE(blocks, block) (2958 + 3 * (size_t)(blocks) + (block)) /* its cells' size */
#define NATIVE_MS_LIST(blocks, block) (2958 + 4 * (size_t)(blocks) + (block)) /* 1 + 49 * set + bin, or 0 */
#define NATIVE_MS_TLS(blocks, block) (2958 + 5 * (size_t)(blocks) + (block))  /* its holder */
#define NATIVE_MS_CELLS(blocks, block) (2958 + 6 * (size_t)(blocks) + (block)) /* how many cells its free chain has */

/* The total free cells of a bin, 1 to 48, over all lists: the sum of the counts of its blocks, whatever the phase. It is no call: it
 * tests nothing, and reads what the last call left. Blocks that await a sweep have the count of before. */
static inline uint64_t native_ms_free_cells(const uint8_t *words, size_t blocks, size_t bin)
{
    uint64_t total = 0;
    for (size_t b = 0; b < blocks; b++) {
        uint64_t list = native_ms_word(words, NATIVE_MS_LIST(blocks, b));
        if (list != 0 && (list - 1) % 49 == bin)
            total += native_ms_word(words, NATIVE_MS_CELLS(blocks, b));
    }
    return total;
}

#define NATIVE_MS_UNALLOCATED 0                             /* state bytes */
#define NATIVE_MS_UNMARKED 255
#define NATIVE_MS_MARKED 254

/* ---- a space as one value: NATIVE_MS_LENT(&s) stands for the two groups of arguments */

struct native_ms_space {
    size_t base, bytes, blocks, min, max, offsets, unified;
    int64_t lower;
    size_t eager;
    uint8_t *words, *states, *marks, *heap;
    const uint8_t *rows; /* not read if row_count is 0 */
    size_t row_count;
    uint8_t answer[32];
};

/* Where no rows are given: no pointer may be null. */
static const uint8_t native_ms_no_rows[1] = {0};

#define NATIVE_MS_LENT(s) NATIVE_MS_LENT_BUT_ANSWER(s), (s)->answer, NATIVE_MS_ANSWER_LEN

/* The same with another answer slice, which a run wants. */
#define NATIVE_MS_LENT_TO_RUN(s, answers, count) NATIVE_MS_LENT_BUT_ANSWER(s), (answers), NATIVE_MS_ANSWERS_LEN(count)

#define NATIVE_MS_LENT_BUT_ANSWER(s) \
    (s)->base, (s)->bytes, (s)->blocks, (s)->min, (s)->max, (s)->offsets, (s)->unified, (s)->lower, (s)->eager, \
    (s)->words, NATIVE_MS_WORDS_LEN((s)->blocks), (s)->states, NATIVE_MS_STATES_LEN((s)->blocks), \
    (s)->marks, NATIVE_MS_MARKS_LEN((s)->bytes, (s)->blocks), (s)->heap, NATIVE_MS_HEAP_LEN((s)->bytes, (s)->blocks), \
    (s)->row_count == 0 ? native_ms_no_rows : (s)->rows, NATIVE_MS_ROWS_LEN((s)->row_count)

#ifdef __cplusplus
}
#endif
#endif
