/* Damaged input from C: random calls on slices that lie between guard pages, so that a byte read or written outside a slice ends
 * the program. Slices are sound, damaged, or of a wrong length; parameters are now and then off.
 * Half of the spaces have rows, which are damaged for single calls; half sweep eagerly.
 * After each call: bytes beside a slice are as before, and so are the rows; a wrong length or flag is 1; a refusal but 9 changed
 * nothing, and wrote no answer; 9 wrote three zeros and a count of blocks; none is 8, and a chain that is a ring or shorter than its count is not accepted; an answer's
 * last words are 0.
 * Use: guard CALLS SEED */
#include <stdio.h>
#include <stdlib.h>
#include <string.h>
#include <sys/mman.h>
#include <unistd.h>
#include "native_ms.h"

enum { WORDS, STATES, MARKS, HEAP, ROWS, ANSWER, SLICES };
enum { CHECK = 8 }; /* the call that is only lent rows and answer */
enum { MOST_BLOCKS = 64, MOST_BYTES = 8192, MOST_HEAP = 64 * 8192, OFF_BY = 16 };

static uint64_t state;

/* xorshift64* */
static uint64_t any(void)
{
    state ^= state >> 12;
    state ^= state << 25;
    state ^= state >> 27;
    return state * 2685821657736338717u;
}

static uint64_t below(uint64_t n)
{
    return any() % n;
}

static int one_in(uint64_t n)
{
    return below(n) == 0;
}

/* ---- slices between guard pages: `room` bytes that may be used, a page that may not be touched before and after them */

struct slice {
    uint8_t *from;
    size_t room;
    uint8_t *at; /* the lent part: at the front of the room, or at its end */
    size_t len;
    uint8_t *copy; /* the whole room before the call */
};

static struct slice slices[SLICES];

static void fail(const char *what)
{
    printf("guard: %s\n", what);
    exit(1);
}

static void make_room(struct slice *s, size_t most)
{
    size_t page = (size_t)sysconf(_SC_PAGESIZE);
    s->room = (most + OFF_BY + page - 1) / page * page;
    uint8_t *all = mmap(NULL, s->room + 2 * page, PROT_READ | PROT_WRITE, MAP_PRIVATE | MAP_ANONYMOUS, -1, 0);
    if (all == MAP_FAILED || mprotect(all, page, PROT_NONE) != 0 || mprotect(all + page + s->room, page, PROT_NONE) != 0)
        fail("no guard pages");
    s->from = all + page;
    s->at = s->from;
    s->copy = malloc(s->room);
    if (s->copy == NULL)
        fail("no room");
}

/* Lends len bytes at one end of the room; what was lent moves there as far as it goes. */
static void place(struct slice *s, size_t len, int at_end)
{
    uint8_t *to = at_end ? s->from + s->room - len : s->from;
    memmove(to, s->at, s->len < len ? s->len : len);
    s->at = to;
    s->len = len;
}

static void remember(void)
{
    for (int i = 0; i < SLICES; i++)
        memcpy(slices[i].copy, slices[i].from, slices[i].room);
}

static int same(const struct slice *s)
{
    return memcmp(s->at, s->copy + (s->at - s->from), s->len) == 0;
}

static int beside_same(const struct slice *s)
{
    size_t before = (size_t)(s->at - s->from), after = s->room - before - s->len;
    return memcmp(s->from, s->copy, before) == 0 && memcmp(s->at + s->len, s->copy + before + s->len, after) == 0;
}

/* ---- parameters */

static struct native_ms_space good, given;
static size_t right[SLICES];

/* Rows that are accepted: so many, one behind the other, the last up to the block. */
static void put_rows(size_t count, size_t block_words)
{
    size_t from = 1;
    for (size_t n = 1; n <= count; n++) {
        size_t to = n == count ? block_words : from + below(8);
        native_ms_put_row(slices[ROWS].at, n, from, to, one_in(2) ? to : to + below(block_words - to + 1));
        from = to + 1;
    }
}

static void choose_params(void)
{
    static const size_t offers[] = {1, 2, 3, 4, 7, 16, 64};
    good.bytes = one_in(4) ? 8192 : 4096;
    good.blocks = offers[below(one_in(8) ? 7 : 5)];
    good.base = good.bytes * (1 + below(1 << 20));
    good.min = one_in(2) ? 4 : 8;
    good.max = good.min << below(3);
    good.offsets = below(2);
    good.unified = below(2);
    good.lower = good.unified ? 0 : (int64_t)(8 * below(17)) - 64;
    good.eager = below(2);
    right[WORDS] = NATIVE_MS_WORDS_LEN(good.blocks);
    right[STATES] = NATIVE_MS_STATES_LEN(good.blocks);
    right[MARKS] = NATIVE_MS_MARKS_LEN(good.bytes, good.blocks);
    right[HEAP] = NATIVE_MS_HEAP_LEN(good.bytes, good.blocks);
    size_t rows = one_in(2) ? 0 : one_in(4) ? NATIVE_MS_MOST_ROWS : 1 + below(6);
    right[ROWS] = NATIVE_MS_ROWS_LEN(rows);
    right[ANSWER] = NATIVE_MS_ANSWER_LEN;
    int at_end = one_in(2);
    for (int i = 0; i < SLICES; i++)
        place(&slices[i], right[i], at_end);
    put_rows(rows, good.bytes / 8);
}

/* One parameter off; whether it is off for sure. */
static int spoil_params(void)
{
    switch (below(10)) {
    case 0: given.base += 8; return 1;
    case 1: given.base = 0; return 1;
    case 2: given.bytes = any(); break;
    case 3: given.blocks = one_in(2) ? any() : given.blocks + 1; break;
    case 4: given.min = 5; return 1;
    case 5: given.max = 48; return 1;
    case 6: given.offsets = 2 + below(3); return 1;
    case 7: given.unified = any() | 2; return 1;
    case 8: given.eager = any() | 2; return 1;
    default: given.lower = (int64_t)any() | 1; return 1;
    }
    return given.bytes != good.bytes || given.blocks != good.blocks;
}

/* ---- one call */

static uint64_t number(void)
{
    static const uint64_t edges[] = {0, 1, 8, 16, 64, 4096, 65536, UINT64_MAX - 1, UINT64_MAX, (uint64_t)1 << 63};
    return one_in(8) ? edges[below(10)] : below(12);
}

/* A place of a block in use, as long as one is soon found. */
static uint64_t place_in_heap(void)
{
    size_t block = below(good.blocks);
    for (int i = 0; i < 8 && slices[STATES].len == right[STATES] && slices[STATES].at[block] == 0; i++)
        block = below(good.blocks);
    return one_in(16) ? any() : given.base + block * good.bytes + 8 * below(good.bytes / 8) + (one_in(16) ? 4 : 0);
}

static size_t an_align(void)
{
    size_t align = given.min << below(3);
    return one_in(10) ? number() : align <= good.max ? align : given.min;
}

static size_t a_holder(void)
{
    return one_in(10) ? number() : 1 + below(3);
}

static size_t pick_offer(void)
{
    return one_in(3) ? NATIVE_MS_NO_OFFER : one_in(8) ? number() : below(good.blocks);
}

#define LENT \
    given.base, given.bytes, given.blocks, given.min, given.max, given.offsets, given.unified, given.lower, given.eager, \
    slices[WORDS].at, slices[WORDS].len, slices[STATES].at, slices[STATES].len, slices[MARKS].at, slices[MARKS].len, \
    slices[HEAP].at, slices[HEAP].len, slices[ROWS].at, slices[ROWS].len, slices[ANSWER].at, slices[ANSWER].len

/* The holder that the next bind binds, for certain: after each set-up 1, 2 and 3. */
static size_t to_bind;

/* Makes a call; `values` is how many words its answer has. */
static size_t make(int which, size_t *values)
{
    *values = 0;
    switch (which) {
    case CHECK:
        *values = 2;
        return native_ms_check_classes(given.base, given.bytes, given.blocks, given.min, given.max, given.offsets, given.unified,
                                       given.lower, given.eager, slices[ROWS].at, slices[ROWS].len, slices[ANSWER].at, slices[ANSWER].len);
    case 0: return native_ms_set_up(LENT);
    case 1: return native_ms_bind(LENT, to_bind > 0 ? to_bind-- : a_holder());
    case 2: *values = 1; return native_ms_destroy(LENT, a_holder());
    case 3: return native_ms_prepare(LENT);
    case 4: *values = 3; return native_ms_release(LENT, a_holder());
    case 5: *values = 3; return native_ms_shared_release(LENT);
    case 6: {
        uint64_t at = place_in_heap();
        *values = 1;
        return native_ms_mark(LENT, at, one_in(8) ? number() : (at - given.base) / (given.bytes | 1));
    }
    default: {
        size_t size = one_in(16) ? number() : given.min * below(one_in(4) ? 1100 : 40);
        size_t align = an_align();
        size_t offset = one_in(8) ? number() : 0;
        *values = 4;
        return native_ms_alloc(LENT, a_holder(), size, align, offset, pick_offer());
    }
    }
}

/* Some bytes of a slice overwritten: single ones, or one word by another of it. */
static void damage(struct slice *s)
{
    if (s->len < 16)
        return;
    for (uint64_t k = 1 + below(3); k > 0; k--) {
        if (one_in(2))
            s->at[below(s->len)] = (uint8_t)(one_in(2) ? any() : below(3));
        else
            memmove(s->at + 8 * below(s->len / 8), s->at + 8 * below(s->len / 8), 8);
    }
}

static uint64_t tally[13];

static size_t one_call(int which, int off)
{
    size_t values;
    remember();
    size_t r = make(which, &values);
    if (r > 12 || r == 11 || r == NATIVE_MS_BAD_LINK)
        fail("a number that is none");
    tally[r]++;
    if (off && r != 1)
        fail("a wrong length or parameter was not refused as 1");
    for (int i = 0; i < SLICES; i++) {
        if (!beside_same(&slices[i]))
            fail("a byte beside a slice changed");
        if (i == ROWS && !same(&slices[i]))
            fail("a row changed");
        if (r != 0 && r != 9 && !same(&slices[i]))
            fail("a refusal changed a byte");
    }
    for (size_t k = 0; r == 9 && k < 4; k++)
        if (native_ms_word(slices[ANSWER].at, k) > (k < NATIVE_MS_ALLOC_SWEPT ? 0 : 2 * given.blocks))
            fail("9 told something else than a count");
    for (size_t k = values; r == 0 && k < 4; k++)
        if (native_ms_word(slices[ANSWER].at, k) != 0)
            fail("a word behind the answer is not 0");
    return r;
}

/* A call on a block of which the free head's link or the count is another: another cell of the block, the cell itself, any number.
 * Then as before, if the call was refused. A ring or too high a count is accepted by no call but set-up, which reads no tables. */
static void damaged_chain(int which)
{
    size_t b = below(good.blocks), counted = NATIVE_MS_CELLS(good.blocks, b);
    uint8_t *words = slices[WORDS].at;
    uint64_t cell = native_ms_word(words, NATIVE_MS_FREE(good.blocks, b));
    uint64_t size = native_ms_word(words, NATIVE_MS_SIZE(good.blocks, b)), count = native_ms_word(words, counted);
    if (cell < good.base || cell - good.base + 8 > right[HEAP]) {
        one_call(which, 0);
        return;
    }
    uint8_t *at = slices[HEAP].at + (cell - good.base);
    uint64_t link = native_ms_word(at, 0);
    int ring = one_in(3), high = !ring && one_in(2);
    if (high)
        native_ms_put_word(words, counted, one_in(2) ? good.bytes + count : any() | 1 << 14);
    else
        native_ms_put_word(at, 0, ring ? cell : one_in(2) ? good.base + b * good.bytes + size * below(8) : any());
    size_t r = one_call(which, 0);
    if ((ring || high) && which != 0 && r == 0)
        fail("a ring or too high a count was accepted");
    if (r == 0)
        return;
    native_ms_put_word(at, 0, link);
    native_ms_put_word(words, counted, count);
}

/* A call on slices of which one has another length, then as before. Fewer rows may be 12, and more of them are bytes that were
 * there; a part of a row is 1, and so are more than 48. */
static void wrong_sized(int which)
{
    int i = (int)(which == CHECK ? ROWS + below(2) : below(SLICES));
    int at_end = slices[i].at != slices[i].from;
    size_t least = OFF_BY < right[i] ? OFF_BY : right[i];
    size_t len = one_in(4) ? below(right[i] + OFF_BY) : right[i] + below(OFF_BY) - (least == 0 ? 0 : below(least));
    if (i == ROWS && one_in(4))
        len = NATIVE_MS_ROWS_LEN(below(NATIVE_MS_MOST_ROWS + 3));
    uint8_t kept[NATIVE_MS_ROWS_LEN(NATIVE_MS_MOST_ROWS)];
    memcpy(kept, slices[ROWS].at, slices[ROWS].len);
    place(&slices[i], len, at_end);
    one_call(which, i == ROWS ? len % 24 != 0 || len > sizeof kept : len != right[i]);
    place(&slices[i], right[i], at_end);
    memcpy(slices[ROWS].at, kept, right[ROWS]);
}

/* A call, or the check, with rows of which some bytes are others; then as before. */
static void damaged_rows(int which)
{
    uint8_t kept[NATIVE_MS_ROWS_LEN(NATIVE_MS_MOST_ROWS)];
    memcpy(kept, slices[ROWS].at, right[ROWS]);
    damage(&slices[ROWS]);
    one_call(CHECK, 0);
    uint64_t kind = native_ms_word(slices[ANSWER].at, NATIVE_MS_CHECK_KIND);
    uint64_t before = tally[NATIVE_MS_BAD_CLASSES];
    one_call(which, 0);
    if ((kind != NATIVE_MS_CHECK_ACCEPTED) != (tally[NATIVE_MS_BAD_CLASSES] == before + 1))
        fail("the check and a call differ on rows");
    memcpy(slices[ROWS].at, kept, right[ROWS]);
}

/* Any call, but mostly one of the phase that stands in the tables. */
static int usual_call(void)
{
    static const uint8_t running[] = {1, 2, 3, 7, 7, 7, 7, 7, 7, 7, 7, 7, 7, 7, 7, 7, 1, 7, 7, 7};
    static const uint8_t marking[] = {6, 6, 6, 6, 6, 6, 6, 6, 4, 5};
    static const uint8_t releasing[] = {4, 4, 5};
    if (to_bind > 0)
        return 1;
    if (one_in(16))
        return (int)below(8);
    switch (native_ms_word(slices[WORDS].at, NATIVE_MS_PHASE)) {
    case 1: return marking[below(sizeof marking)];
    case 2: return releasing[below(sizeof releasing)];
    default: return running[below(sizeof running)];
    }
}

int main(int count, char **words)
{
    uint64_t calls = count > 1 ? strtoull(words[1], NULL, 10) : 20000;
    uint64_t seed = count > 2 ? strtoull(words[2], NULL, 10) : 1;
    state = seed * 2862933555777941757u + 3037000493u;
    make_room(&slices[WORDS], NATIVE_MS_WORDS_LEN(MOST_BLOCKS));
    make_room(&slices[STATES], MOST_BLOCKS);
    make_room(&slices[MARKS], MOST_HEAP / 64);
    make_room(&slices[HEAP], MOST_HEAP);
    make_room(&slices[ROWS], NATIVE_MS_ROWS_LEN(NATIVE_MS_MOST_ROWS + 3));
    make_room(&slices[ANSWER], NATIVE_MS_ANSWER_LEN);
    uint64_t left = 0;
    for (uint64_t done = 0; done < calls; done++) {
        if (left == 0) {
            choose_params();
            left = 10 + below(300);
            to_bind = 3;
            given = good;
            one_call(0, 0);
            continue;
        }
        left--;
        given = good;
        if (one_in(20)) {
            int off = spoil_params();
            one_call(usual_call(), off);
        } else if (one_in(15)) {
            wrong_sized(one_in(10) ? CHECK : usual_call());
        } else if (one_in(15)) {
            damaged_rows(usual_call());
        } else {
            if (one_in(80))
                damage(&slices[below(ROWS)]);
            if (one_in(6))
                damaged_chain(usual_call());
            else
                one_call(usual_call(), 0);
        }
    }
    printf("guard: %llu calls, seed %llu, no byte outside\n", (unsigned long long)calls, (unsigned long long)seed);
    for (int r = 0; r <= 12; r++)
        if (r != 11)
            printf("%9llu %s\n", (unsigned long long)tally[r], native_ms_refusal((size_t)r));
    return 0;
}
