/* How much stack the functions take: each one runs with the longest message, at rate 4 or the one that -DRATE= names and with base
 * messages of one word or as many as -DK0= names, on a painted stack of its own, over both fields. Decoding goes one way at rates 2 and 3
 * and another from 4 on; beyond that the rate makes no difference. Prints the bytes that were touched beyond those of a call that does
 * nothing, and exits with 1 when some function takes LIMIT or more, or does not answer 0. */
#define _DEFAULT_SOURCE
#include <stdio.h>
#include <stdlib.h>
#include <string.h>
#include <ucontext.h>

#include "tvarchula.h"

#ifndef RATE
#define RATE 4
#endif
#ifndef K0
#define K0 1
#endif

enum { DEPTH = TV_MAX_DEPTH - K0 / 2, STACK = 1 << 18, PAINT = 0xa5, LIMIT = 6144 };

#define MESSAGE TV_MESSAGE_LEN(DEPTH, K0)
#define POINT TV_POINT_LEN(DEPTH, K0)
#define ROWS TV_ROWS_LEN(RATE, K0)
#define BASE TV_BLOCK_LEN(0, RATE, K0)
#define BLOCK TV_BLOCK_LEN(DEPTH, RATE, K0)
#define HALF TV_BLOCK_LEN(DEPTH - 1, RATE, K0)
#define DIAGONALS TV_DIAGONALS_LEN(DEPTH, RATE, K0)
#define OPENING TV_OPENING_LEN(DEPTH, RATE, K0)

static const tv_parameters sizes = {DEPTH, RATE, K0};
static uint32_t g[ROWS], t[DIAGONALS], t2[DIAGONALS], message[MESSAGE], block[BLOCK], z[POINT], r[DEPTH], queries[TV_MAX_QUERIES];
static uint32_t opening[OPENING], work[BLOCK], decoded[MESSAGE], folded[HALF], value;
static int32_t table[MESSAGE];
static uint32_t number;
static bool field;

#define CODE field, sizes, g, ROWS, t, DIAGONALS, t2, DIAGONALS

static void nothing(void) { number = 0; }
static void read_clearance(void) { number = tv_read_clearance(field, 5).answer.number; }
static void to_coefficients(void) { number = tv_table_to_coefficients(field, sizes, table, MESSAGE, message, MESSAGE).number; }
static void to_table(void) { number = tv_coefficients_to_table(field, sizes, message, MESSAGE, table, MESSAGE, work, MESSAGE).number; }
static void evaluate(void) { number = tv_evaluate(field, sizes, message, MESSAGE, z, POINT, &value).number; }
static void encode(void) { number = tv_encode(CODE, message, MESSAGE, block, BLOCK).number; }
static void decode(void) { number = tv_decode(CODE, block, BLOCK, decoded, MESSAGE, work, BLOCK).number; }
static void fill_roots(void) { number = tv_fill_roots(sizes, g, ROWS, t, DIAGONALS, t2, DIAGONALS).number; }
static void fold(void) { number = tv_fold(field, sizes, t, HALF, t2, HALF, block, BLOCK, 7, folded, HALF).number; }

static void write_opening(void)
{
    number = tv_write_opening(CODE, message, MESSAGE, z, POINT, r, DEPTH, opening, OPENING, work, 2 * MESSAGE, &value).number;
}

static void verify_opening(void)
{
    number = tv_verify_opening(CODE, block, BLOCK, z, POINT, value, r, DEPTH, queries, TV_MAX_QUERIES, opening, OPENING).number;
}

/* Bytes of the stack that a call touches. It grows downwards. */
static size_t touched(void (*call)(void))
{
    static unsigned char stack[STACK];
    static ucontext_t here, there;
    memset(stack, PAINT, STACK);
    getcontext(&there);
    there.uc_stack.ss_sp = stack;
    there.uc_stack.ss_size = STACK;
    there.uc_link = &here;
    makecontext(&there, call, 0);
    swapcontext(&here, &there);
    size_t untouched = 0;
    while (untouched < STACK && stack[untouched] == PAINT)
        untouched++;
    return STACK - untouched;
}

static size_t least;

/* Whether a call does not answer 0, or takes too much. */
static int measure(const char *name, void (*call)(void))
{
    number = 99;
    const size_t bytes = touched(call) - least;
    printf("%-28s%5zu bytes of stack, answers %u\n", name, bytes, (unsigned)number);
    return number != TV_DONE || bytes >= LIMIT;
}

int main(void)
{
    for (size_t i = 0; i < DIAGONALS; i++)
        t[i] = (uint32_t)i, t2[i] = (uint32_t)i + 1;
    for (size_t i = 0; i < MESSAGE; i++)
        table[i] = (int32_t)i;
    /* One row of 1 2 3 ..; of several rows the first k0 columns are 1 on the diagonal and 0 below it. */
    for (size_t i = 0; i < ROWS; i++)
        g[i] = i % BASE < i / BASE ? 0 : (uint32_t)(i % BASE - i / BASE) + 1;
    for (uint32_t i = 0; i < POINT; i++)
        z[i] = i + 1;
    for (uint32_t i = 0; i < DEPTH; i++)
        r[i] = i + 1;
    for (uint32_t i = 0; i < TV_MAX_QUERIES; i++)
        queries[i] = i * 2047; /* below HALF at every rate, and no two the same */
    static const struct {
        const char *name;
        void (*call)(void);
    } calls[] = {{"tv_read_clearance", read_clearance}, {"tv_table_to_coefficients", to_coefficients},
                 {"tv_coefficients_to_table", to_table}, {"tv_evaluate", evaluate}, {"tv_encode", encode}, {"tv_decode", decode},
                 {"tv_fold", fold}, {"tv_write_opening", write_opening}, {"tv_verify_opening", verify_opening}};
    least = touched(nothing);
    int wrong = 0;
    for (int second = 0; second < 2; second++) {
        field = second;
        printf("modulo %u\n", (unsigned)TV_MODULUS(field));
        for (size_t i = 0; i < sizeof calls / sizeof *calls; i++)
            wrong += measure(calls[i].name, calls[i].call);
    }
    if (K0 > 1)
        return wrong > 0;
    /* Then also with the row and the diagonals that this writes. */
    wrong += measure("tv_fill_roots", fill_roots);
    wrong += measure("tv_encode, of these", encode);
    wrong += measure("tv_decode, of these", decode);
    wrong += measure("tv_write_opening, of these", write_opening);
    wrong += measure("tv_verify_opening, of these", verify_opening);
    return wrong > 0;
}
