/* Calls each of the ten functions: on the order's numbers, on the same over the second field, and on words of all sizes over both; with
 * base messages of one, two and four words. What is due was computed outside the library, with plain integers. Checks every answer and,
 * after every call, every buffer that was lent: a result holds what is due or is as it was, a work buffer too, and what is only read is as
 * it was. Prints one line a check and exits with 1 when something differs. */
#define _DEFAULT_SOURCE /* MAP_ANONYMOUS in lend.h */

#include "tvarchula.h"

#include "lend.h"

#include <limits.h>

#define FIELD (now->field)
#define P (now->p)
#define LARGEST (now->largest)
#define GARBAGE 0xdeadbeefu
/* A negative clearance, as it lies in memory. */
#define NEGATIVE(amount) (0u - (amount))

/* Words that a buffer must hold; with at NULL, what it held when it was lent. */
typedef struct {
    const uint32_t *at;
    size_t len;
} list;

#define LIST(...) ((list){(const uint32_t[]){__VA_ARGS__}, sizeof((const uint32_t[]){__VA_ARGS__}) / sizeof(uint32_t)})
#define OF(array) ((list){array, sizeof(array) / sizeof(*array)})
#define NONE ((list){NULL, 0})
#define AS_IT_WAS(length) ((list){NULL, length})
#define ZEROS(length) ((list){zeros, length})
#define DONE ((tv_answer){0, 0, 0})
#define NUMBER(number) ((tv_answer){number, 0, 0})
/* The refusals that name a place. */
#define WORD(index, input) ((tv_answer){TV_REFUSED_WORD, index, input})
#define ZERO_AT(index) ((tv_answer){TV_REFUSED_ROW, index, 0})
#define EQUAL_AT(index) ((tv_answer){TV_REFUSED_DIAGONALS, index, 0})

/* Enough for the work buffers of the longest message at rate 2. Nobody writes it. */
static uint32_t zeros[2 * TV_MAX_TABLE_LEN];

/* What a call is lent, to be checked after it. */
typedef struct {
    uint32_t *at;
    size_t len;
    const uint32_t *due;
} words;

/* A slice as C hands it over. */
#define W(words) (words).at, (words).len
/* The same for clearances. */
#define I(words) (int32_t *)(words).at, (words).len

static words lent[12];
static size_t lent_count;
static int differences;

static void begin(const char *function, const char *what)
{
    printf("%-26s%-52s", function, what);
    fflush(stdout);
    lent_count = 0;
}

static words lend(const uint32_t *held, size_t len, const uint32_t *due)
{
    words w = {lend_words(len), len, due};
    for (size_t i = 0; i < len; i++)
        w.at[i] = held != NULL ? held[i] : GARBAGE;
    lent[lent_count++] = w;
    return w;
}

static words reads(list held)
{
    return lend(held.at, held.len, held.at);
}

static words writes(list due)
{
    return lend(NULL, due.len, due.at);
}

static uint32_t due_at(words w, size_t i)
{
    return w.due != NULL ? w.due[i] : GARBAGE;
}

static int holds_due(words w)
{
    for (size_t i = 0; i < w.len; i++)
        if (w.at[i] != due_at(w, i))
            return 0;
    return 1;
}

static void print_buffer(size_t position, words w)
{
    printf("    buffer %zu holds", position);
    for (size_t i = 0; i < w.len; i++)
        printf(" %u", (unsigned)w.at[i]);
    printf("\n    due is");
    for (size_t i = 0; i < w.len; i++)
        printf(" %u", (unsigned)due_at(w, i));
    puts(untouched_before(w.at, w.len) ? "" : ", and words before it were written");
}

static void end(tv_answer got, tv_answer due)
{
    int same = got.number == due.number && got.first == due.first && got.second == due.second;
    for (size_t k = 0; k < lent_count; k++)
        same = same && holds_due(lent[k]) && untouched_before(lent[k].at, lent[k].len);
    puts(same ? "ok" : "DIFFERS");
    if (!same)
        printf("    answered %u %u %u, due is %u %u %u\n", (unsigned)got.number, (unsigned)got.first, (unsigned)got.second,
               (unsigned)due.number, (unsigned)due.first, (unsigned)due.second);
    for (size_t k = 0; k < lent_count; k++) {
        if (!same)
            print_buffer(k, lent[k]);
        give_back_words(lent[k].at, lent[k].len);
    }
    differences += !same;
}

/* The field that the checks are made over, and what is due there. The words of wide() and four_words() are legal in both fields; their
 * products are not. */
typedef struct {
    bool field;
    uint32_t p, largest;
    uint32_t t2_0[2], block_1[4], opening_3[6], opening_0[6];
    uint32_t wide_coefficients[4], wide_block[8], wide_value, wide_opening[13];
    uint32_t four_block[16], four_value, four_opening[15], four_table[8];
} numbers;

static const numbers first = {
    TV_FIELD_1,
    2147483647u,
    1073741823u,
    {2147483645u, 2147483644u},
    {19, 26, 2147483638u, 2147483631u},
    {2147483637u, 36, 152, 33, 33, 33},
    {5, 0, 2147483628u, 12, 12, 12},
    {1140850687u, 2013265920u, 1006632977u, 134217705u},
    {2083370162u, 1331933424u, 1645895456u, 1529436186u, 1697247507u, 1388008010u, 1941022026u, 444795992u},
    1466793451u,
    {917484634u, 549308817u, 722141114u, 1284248544u, 2139162822u, 1408502396u, 1350435727u, 228219894u, 863115501u, 1193416249u,
     293234273u, 242629832u, 863115501u},
    {1131336953u, 1965731113u, 2146045089u, 1113035294u, 1004096048u, 1136617325u, 1432282372u, 1138447079u, 873895208u, 1941231384u,
     1452921806u, 1224935020u, 596685372u, 1934079862u, 2067011384u, 1912975562u},
    1604090474u,
    {1088989026u, 515101448u, 127464005u, 1732671795u, 1723674153u, 1627438723u, 992401915u, 1368322501u, 1947855111u, 1079601514u,
     1092480944u, 180663626u, 960088399u, 715823933u, 361352697u},
    {638, 289677275u, 253296546u, 61075737u, 780445210u, 935904116u, 1033741518u, NEGATIVE(353742860u)},
};

static const numbers second = {
    TV_FIELD_2,
    2013265921u,
    1006632960u,
    {2013265919u, 2013265918u},
    {19, 26, 2013265912u, 2013265905u},
    {2013265911u, 36, 152, 33, 33, 33},
    {5, 0, 2013265902u, 12, 12, 12},
    {1006632961u, 2013265920u, 1006632977u, 2013265900u},
    {71879934u, 1485067015u, 507430876u, 321475660u, 1699330465u, 1744421715u, 1710718733u, 1060976548u},
    986334682u,
    {1710425977u, 1289174626u, 184656789u, 470935932u, 1485082808u, 879596104u, 1673429329u, 1963931387u, 1647675698u, 1198359231u,
     1128241595u, 143951967u, 1647675698u},
    {1440242729u, 1972938937u, 492177480u, 1275951898u, 972201194u, 1697488333u, 1697043376u, 149681881u, 1911239967u, 1739776912u,
     608960258u, 1463927109u, 1090617215u, 1334853574u, 1528803970u, 1174565024u},
    697988972u,
    {1452200616u, 1259054277u, 1370043410u, 164984954u, 1480459411u, 1627438196u, 1168040995u, 1057138951u, 882191521u, 1128926435u,
     1481449438u, 925564199u, 1871070454u, 879091177u, 259301141u},
    {638, 289677275u, 253296546u, 195293463u, 780445210u, NEGATIVE(943144079u), NEGATIVE(979524403u), 48910318u},
};

static const numbers *now;

/* A record, rows and diagonals. */
typedef struct {
    tv_parameters sizes;
    list g, t, t2;
} code;

/* Base messages of one word. */
static tv_parameters one(uint32_t depth, uint32_t rate)
{
    return (tv_parameters){depth, rate, 1};
}

/* For jobs that do not judge the other numbers. */
static tv_parameters words_of(uint32_t k0)
{
    return (tv_parameters){UINT32_MAX, 0, k0};
}

static const uint32_t row[] = {1, 1}, t_0[] = {2, 3};

/* Those of the order. */
static code depth_1(void)
{
    return (code){one(1, 2), OF(row), OF(t_0), OF(now->t2_0)};
}

static code depth_0(void)
{
    return (code){one(0, 2), OF(row), NONE, NONE};
}

/* One call each, with what is due of its answer and its buffers. */

static void reading(const char *what, uint32_t word, tv_answer due, uint32_t kind, uint32_t amount)
{
    begin("tv_read_clearance", what);
    tv_reading got = tv_read_clearance(FIELD, word);
    words read = writes(LIST(kind, amount));
    read.at[0] = got.kind, read.at[1] = got.amount;
    end(got.answer, due);
}

static void to_coefficients_of(const char *what, uint32_t k0, list clearances, tv_answer due, list message)
{
    begin("tv_table_to_coefficients", what);
    words c = reads(clearances), m = writes(message);
    end(tv_table_to_coefficients(FIELD, words_of(k0), I(c), W(m)), due);
}

static void to_coefficients(const char *what, list clearances, tv_answer due, list message)
{
    to_coefficients_of(what, 1, clearances, due, message);
}

static void to_table_of(const char *what, uint32_t k0, list message, tv_answer due, list clearances, list work)
{
    begin("tv_coefficients_to_table", what);
    words m = reads(message), c = writes(clearances), s = writes(work);
    end(tv_coefficients_to_table(FIELD, words_of(k0), W(m), I(c), W(s)), due);
}

static void to_table(const char *what, list message, tv_answer due, list clearances, list work)
{
    to_table_of(what, 1, message, due, clearances, work);
}

static void evaluate_of(const char *what, uint32_t depth, uint32_t k0, list message, list z, tv_answer due, list value)
{
    begin("tv_evaluate", what);
    words m = reads(message), point = reads(z), v = writes(value);
    end(tv_evaluate(FIELD, (tv_parameters){depth, UINT32_MAX, k0}, W(m), W(point), v.at), due);
}

static void evaluate(const char *what, uint32_t depth, list message, list z, tv_answer due, list value)
{
    evaluate_of(what, depth, 1, message, z, due, value);
}

static void encode(const char *what, code c, list message, tv_answer due, list block)
{
    begin("tv_encode", what);
    words g = reads(c.g), t = reads(c.t), t2 = reads(c.t2), m = reads(message), b = writes(block);
    end(tv_encode(FIELD, c.sizes, W(g), W(t), W(t2), W(m), W(b)), due);
}

static void decode(const char *what, code c, list block, tv_answer due, list message, list work)
{
    begin("tv_decode", what);
    words g = reads(c.g), t = reads(c.t), t2 = reads(c.t2), b = reads(block), m = writes(message), s = writes(work);
    end(tv_decode(FIELD, c.sizes, W(g), W(t), W(t2), W(b), W(m), W(s)), due);
}

static void fold_of(const char *what, tv_parameters sizes, list t, list t2, list block, uint32_t challenge, tv_answer due, list folded)
{
    begin("tv_fold", what);
    words a = reads(t), a2 = reads(t2), b = reads(block), f = writes(folded);
    end(tv_fold(FIELD, sizes, W(a), W(a2), W(b), challenge, W(f)), due);
}

static void fold_by(const char *what, uint32_t level, list t, list t2, list block, uint32_t challenge, tv_answer due, list folded)
{
    fold_of(what, one(level, 2), t, t2, block, challenge, due, folded);
}

static void fold(const char *what, uint32_t level, list block, uint32_t challenge, tv_answer due, list folded)
{
    fold_by(what, level, OF(t_0), OF(now->t2_0), block, challenge, due, folded);
}

static void write_opening(const char *what, code c, list message, list z, list r, tv_answer due, list opening, list work, list value)
{
    begin("tv_write_opening", what);
    words g = reads(c.g), t = reads(c.t), t2 = reads(c.t2), m = reads(message), point = reads(z), challenges = reads(r);
    words o = writes(opening), s = writes(work), v = writes(value);
    end(tv_write_opening(FIELD, c.sizes, W(g), W(t), W(t2), W(m), W(point), W(challenges), W(o), W(s), v.at), due);
}

static void verify(const char *what, code c, list block, list z, uint32_t y, list r, list queries, list opening, tv_answer due)
{
    begin("tv_verify_opening", what);
    words g = reads(c.g), t = reads(c.t), t2 = reads(c.t2), b = reads(block), point = reads(z), challenges = reads(r);
    words q = reads(queries), o = reads(opening);
    end(tv_verify_opening(FIELD, c.sizes, W(g), W(t), W(t2), W(b), W(point), y, W(challenges), W(q), W(o)), due);
}

static void fill_roots_of(const char *what, tv_parameters sizes, tv_answer due, list g, list t, list t2)
{
    begin("tv_fill_roots", what);
    words a = writes(g), b = writes(t), b2 = writes(t2);
    end(tv_fill_roots(sizes, W(a), W(b), W(b2)), due);
}

static void fill_roots(const char *what, uint32_t depth, uint32_t rate, tv_answer due, list g, list t, list t2)
{
    fill_roots_of(what, one(depth, rate), due, g, t, t2);
}

static uint32_t many[4][2 * TV_MAX_TABLE_LEN];

/* The first words of a list of one word. */
static list repeated(size_t place, uint32_t word, size_t length)
{
    for (size_t i = 0; i < length; i++)
        many[place][i] = word;
    return (list){many[place], length};
}

static void clearances(void)
{
    reading("residue 0 is contact", 0, DONE, TV_CONTACT, 0);
    reading("residue 1 is free by 1", 1, DONE, TV_FREE, 1);
    reading("the largest clearance is free by as much", LARGEST, DONE, TV_FREE, LARGEST);
    reading("the next residue is an overlap of as much", LARGEST + 1, DONE, TV_OVERLAP, LARGEST);
    reading("residue p - 1 is an overlap of 1", P - 1, DONE, TV_OVERLAP, 1);
    reading("word p is no residue", P, WORD(0, 4), 0, 0);
    reading("word 4294967295 is none", UINT32_MAX, WORD(0, 4), 0, 0);

    to_coefficients("clearance -1 is residue p - 1, at depth 0", LIST(NEGATIVE(1)), DONE, LIST(P - 1));
    to_coefficients("the largest clearance", LIST(LARGEST), DONE, LIST(LARGEST));
    to_coefficients("a clearance above the largest is refused", LIST(LARGEST + 1), NUMBER(9), AS_IT_WAS(1));
    to_coefficients("so is its negative", LIST(NEGATIVE(LARGEST + 1)), NUMBER(9), AS_IT_WAS(1));
    to_coefficients("table 3 5 4 10 to coefficients", LIST(3, 5, 4, 10), DONE, LIST(3, 2, 1, 4));
    to_coefficients("table of length 3", LIST(1, 2, 3), NUMBER(1), AS_IT_WAS(3));
    to_coefficients("table of length 0", NONE, NUMBER(1), NONE);
    to_coefficients("message of another length", LIST(1, 2), NUMBER(3), AS_IT_WAS(1));

    to_table("half of p, rounded up, is the smallest clearance", LIST(LARGEST + 1), DONE, LIST(NEGATIVE(LARGEST)), ZEROS(1));
    to_table("coefficients 3 2 1 4 to table", LIST(3, 2, 1, 4), DONE, LIST(3, 5, 4, 10), ZEROS(4));
    to_table("message of length 3", LIST(1, 2, 3), NUMBER(1), AS_IT_WAS(3), AS_IT_WAS(3));
    to_table("message word p", LIST(1, P), WORD(1, 4), AS_IT_WAS(2), AS_IT_WAS(2));
    to_table("two of them", LIST(1, P, P, 5), WORD(1, 4), AS_IT_WAS(4), AS_IT_WAS(4));
}

static void codewords(void)
{
    code c = depth_1(), other = c;
    evaluate("5 + 7 * 3", 1, LIST(5, 7), LIST(3), DONE, LIST(26));
    evaluate("point word p - 1", 1, LIST(5, 7), LIST(P - 1), DONE, LIST(P - 2));
    evaluate("point word p", 1, LIST(5, 7), LIST(P), WORD(0, 5), AS_IT_WAS(1));
    evaluate("the same and the last message word", 1, LIST(5, P), LIST(P), WORD(1, 4), AS_IT_WAS(1));
    evaluate("evaluation of two words at depth 17", 17, LIST(5, 7), LIST(3), NUMBER(3), AS_IT_WAS(1));
    evaluate("evaluation at depth 21", 21, LIST(5, 7), LIST(3), NUMBER(1), AS_IT_WAS(1));

    encode("message 5 7 encoded", c, LIST(5, 7), DONE, OF(now->block_1));
    encode("message 9 encoded at depth 0", depth_0(), LIST(9), DONE, LIST(9, 9));
    encode("message word p - 1", c, LIST(0, P - 1), DONE, LIST(P - 2, P - 3, 2, 3));
    encode("message word p", c, LIST(5, P), WORD(1, 4), AS_IT_WAS(4));
    encode("block of another length", c, LIST(5, 7), NUMBER(3), AS_IT_WAS(3));
    other.sizes.depth = 21;
    encode("depth 21", other, LIST(5, 7), NUMBER(1), AS_IT_WAS(4));
    other = c;
    other.sizes.rate = 1;
    encode("rate 1", other, LIST(5, 7), NUMBER(2), AS_IT_WAS(4));
    other.sizes.rate = 17;
    encode("rate 17", other, LIST(5, 7), NUMBER(2), AS_IT_WAS(4));
    other = c;
    other.t2 = LIST(P - 2, 3);
    encode("diagonals equal at 1", other, LIST(5, 7), EQUAL_AT(1), AS_IT_WAS(4));
    other.g = LIST(1, 0);
    encode("the same and a zero in the row", other, LIST(5, 7), ZERO_AT(1), AS_IT_WAS(4));

    decode("that block decoded", c, OF(now->block_1), DONE, LIST(5, 7), ZEROS(4));
    decode("its last word p - 15", c, LIST(19, 26, P - 9, P - 15), NUMBER(8), AS_IT_WAS(2), ZEROS(4));
    decode("its last word p", c, LIST(19, 26, P - 9, P), WORD(3, 4), AS_IT_WAS(2), AS_IT_WAS(4));

    fold("that block folded by 4", 1, OF(now->block_1), 4, DONE, LIST(33, 33));
    fold("folded from level 0", 0, OF(now->block_1), 4, NUMBER(1), AS_IT_WAS(2));
    fold("folded from level 21", 21, OF(now->block_1), 4, NUMBER(1), AS_IT_WAS(2));
    fold("folded by p", 1, OF(now->block_1), P, WORD(0, 7), AS_IT_WAS(2));
}

static void openings(void)
{
    code c = depth_1();
    list block = OF(now->block_1), o = OF(now->opening_3);
    write_opening("5 7 opened at 3 by 4", c, LIST(5, 7), LIST(3), LIST(4), DONE, o, ZEROS(4), LIST(26));
    write_opening("5 7 opened at 0 by 1", c, LIST(5, 7), LIST(0), LIST(1), DONE, OF(now->opening_0), ZEROS(4), LIST(5));
    write_opening("9 opened at depth 0", depth_0(), LIST(9), NONE, NONE, DONE, LIST(9), ZEROS(2), LIST(9));
    write_opening("challenge p", c, LIST(5, 7), LIST(3), LIST(P), WORD(0, 7), AS_IT_WAS(6), AS_IT_WAS(4), AS_IT_WAS(1));

    verify("26 claimed, queries 0 1", c, block, LIST(3), 26, LIST(4), LIST(0, 1), o, DONE);
    verify("27 claimed: sum 1", c, block, LIST(3), 27, LIST(4), LIST(0, 1), o, (tv_answer){20, 1, 0});
    verify("another final value", c, block, LIST(3), 26, LIST(4), LIST(0), LIST(P - 10, 36, 152, 34, 33, 33), NUMBER(21));
    verify("another word 1 in block 0: base 1", c, block, LIST(3), 26, LIST(4), LIST(0), LIST(P - 10, 36, 152, 33, 33, 34),
           (tv_answer){22, 1, 0});
    verify("query 1", c, block, LIST(3), 26, LIST(4), LIST(1), o, DONE);
    verify("query 2", c, block, LIST(3), 26, LIST(4), LIST(2), o, NUMBER(7));
    verify("no query", c, block, LIST(3), 26, LIST(4), NONE, o, NUMBER(7));
    verify("eq is 0, 5 claimed", c, block, LIST(0), 5, LIST(1), LIST(0), OF(now->opening_0), DONE);
    verify("eq is 0, 13 for 12: fold of query 0 to level 0", c, block, LIST(0), 5, LIST(1), LIST(0),
           LIST(5, 0, P - 19, 13, 13, 13), (tv_answer){23, 0, 0});
    verify("depth 0, 9 claimed", depth_0(), LIST(9, 9), NONE, 9, NONE, NONE, LIST(9), DONE);
    verify("depth 0, 8 claimed", depth_0(), LIST(9, 9), NONE, 8, NONE, NONE, LIST(9), NUMBER(21));
    verify("depth 0, a query", depth_0(), LIST(9, 9), NONE, 9, NONE, LIST(0), LIST(9), NUMBER(7));
    verify("depth 0, two queries 0", depth_0(), LIST(9, 9), NONE, 9, NONE, LIST(0, 0), LIST(9), NUMBER(7));
}

/* A place that repeats is 11, where none of 1 to 7 is due, and before any check. */
static void repeats(void)
{
    code c = depth_1(), zero = c;
    list block = OF(now->block_1), z = LIST(3), r = LIST(4), o = OF(now->opening_3);
    verify("queries 0 0", c, block, z, 26, r, LIST(0, 0), o, NUMBER(11));
    verify("queries 1 0 1, more than there are places", c, block, z, 26, r, LIST(1, 0, 1), o, NUMBER(11));
    verify("27 claimed, queries 1 1", c, block, z, 27, r, LIST(1, 1), o, NUMBER(11));
    verify("another final value, queries 0 1 1", c, block, z, 26, r, LIST(0, 1, 1), LIST(P - 10, 36, 152, 34, 33, 33), NUMBER(11));
    verify("queries 0 0 2: one is too large", c, block, z, 26, r, LIST(0, 0, 2), o, NUMBER(7));
    verify("queries 2 0 0", c, block, z, 26, r, LIST(2, 0, 0), o, NUMBER(7));
    verify("queries 2 2", c, block, z, 26, r, LIST(2, 2), o, NUMBER(7));
    verify("query 1, 256 times", c, block, z, 26, r, repeated(3, 1, 256), o, NUMBER(11));
    verify("query 1, 257 times", c, block, z, 26, r, repeated(3, 1, 257), o, NUMBER(7));
    verify("queries 0 0, block word p", c, LIST(19, 26, P - 9, P), z, 26, r, LIST(0, 0), o, WORD(3, 4));
    zero.g = LIST(1, 0);
    verify("queries 0 0, a zero in the row", zero, block, z, 26, r, LIST(0, 0), o, ZERO_AT(1));
}

/* At depth 2, where level 1 of the diagonals begins at word 2: an index counts over all levels. */
static void places(void)
{
    const code c = {one(2, 2), OF(row), LIST(2, 3, 4, 5, 6, 7), LIST(8, 9, 10, 11, 12, 13)};
    code other = c;
    list message = LIST(5, 7, 11, 13);
    other.t2 = LIST(8, 9, 10, 5, 12, 7);
    encode("diagonals equal at 3 and 5", other, message, EQUAL_AT(3), AS_IT_WAS(8));
    decode("the same, decoding", other, repeated(0, 9, 8), EQUAL_AT(3), AS_IT_WAS(4), AS_IT_WAS(8));
    other.g = LIST(0, 0);
    encode("and two zeros in the row", other, message, ZERO_AT(0), AS_IT_WAS(8));
    encode("and message words 2 and 3 too large", other, LIST(5, 7, P, P), WORD(2, 4), AS_IT_WAS(8));
    other.t2 = LIST(8, 9, 10, 5, P, 7);
    encode("and word 4 of t2", other, LIST(5, 7, P, P), WORD(4, 3), AS_IT_WAS(8));
    other.t = LIST(2, 3, 4, 5, 6, UINT32_MAX);
    encode("and word 5 of t", other, LIST(5, 7, P, P), WORD(5, 2), AS_IT_WAS(8));
    other.g = LIST(0, P);
    encode("and word 1 of g", other, LIST(5, 7, P, P), WORD(1, 1), AS_IT_WAS(8));

    list block = repeated(0, 9, 8), wrong = LIST(9, 9, 9, 9, 9, 9, P, 9);
    fold_by("level 1 alone, its diagonals equal at 2", 2, LIST(4, 5, 6, 7), LIST(9, 8, 6, 6), block, 4, EQUAL_AT(2), AS_IT_WAS(4));
    fold_by("the same, by p", 2, LIST(4, 5, 6, 7), LIST(9, 8, 6, 6), block, P, WORD(0, 7), AS_IT_WAS(4));
    fold_by("and block word 6", 2, LIST(4, 5, 6, 7), LIST(9, 8, 6, 6), wrong, P, WORD(6, 4), AS_IT_WAS(4));
    fold_by("and word 3 of t2", 2, LIST(4, 5, 6, 7), LIST(9, 8, 6, P), wrong, P, WORD(3, 3), AS_IT_WAS(4));
    fold_by("and word 0 of t", 2, LIST(P, 5, 6, 7), LIST(9, 8, 6, P), wrong, P, WORD(0, 2), AS_IT_WAS(4));

    list z = LIST(3, 4), r = LIST(5, 6), z_1 = LIST(3, P), r_1 = LIST(5, P), large = LIST(P, P), none = NONE;
    write_opening("word 1 of r", c, message, z, r_1, WORD(1, 7), AS_IT_WAS(13), AS_IT_WAS(8), AS_IT_WAS(1));
    write_opening("all of z and r", c, message, large, large, WORD(0, 5), AS_IT_WAS(13), AS_IT_WAS(8), AS_IT_WAS(1));
    write_opening("and the last message word", c, LIST(5, 7, 11, P), large, large, WORD(3, 4), AS_IT_WAS(13), AS_IT_WAS(8), AS_IT_WAS(1));

    list opening = LIST(9, 9, 9, 9, 9, 9, 9, 9, 9, 9, 9, P, P);
    verify("words 11 and 12 of the opening, no query", c, block, z, 9, r, none, opening, WORD(11, 8));
    verify("and word 1 of r", c, block, z, 9, r_1, none, opening, WORD(1, 7));
    verify("and y", c, block, z, P, r_1, none, opening, WORD(0, 6));
    verify("and word 1 of z", c, block, z_1, P, r_1, none, opening, WORD(1, 5));
    verify("and block word 6", c, wrong, z_1, P, r_1, none, opening, WORD(6, 4));
    other = c;
    other.t = LIST(2, 3, 4, P, 6, 7);
    verify("and word 3 of t", other, wrong, z_1, P, r_1, none, opening, WORD(3, 2));
}

/* At depth 2 query 2 goes on at place 0 of level 1. By hand: f is 5 + 7 X_0 + 11 X_1 + 13 X_0 X_1; round 2 is (26 + 50 X)(7 X - 3), round 1
 * is (71 + 85 X)(5 X - 2) 39; block 1 is the codeword of 71 85, and f(5, 6) is 496. */
static void second_half(void)
{
    code c = {one(2, 2), OF(row), LIST(2, 3, 4, 5, 6, 7), LIST(8, 9, 10, 11, 12, 13)};
    list message = LIST(5, 7, 11, 13), z = LIST(3, 4), r = LIST(5, 6);
    list block = LIST(167, 276, 751, 964, 389, 576, 1441, 1732);
    list good = LIST(P - 78, 304, 1386, P - 5538, 18252, 75192, 496, 241, 326, 751, 836, 496, 496);
    list wrong = LIST(P - 78, 304, 1386, P - 5538, 18252, 75192, 496, 242, 326, 751, 836, 496, 496);
    encode("5 7 11 13 encoded at depth 2", c, message, DONE, block);
    write_opening("opened at 3 4 by 5 6", c, message, z, r, DONE, good, ZEROS(8), LIST(226));
    verify("226 claimed, query 2", c, block, z, 226, r, LIST(2), good, DONE);
    verify("place 0 of block 1 wrong, query 3", c, block, z, 226, r, LIST(3), wrong, DONE);
    verify("queries 3 2: fold of query 1 to level 0", c, block, z, 226, r, LIST(3, 2), wrong, (tv_answer){23, 1, 0});
    verify("queries 3 1 0: fold of query 2 to level 1", c, block, z, 226, r, LIST(3, 1, 0), wrong, (tv_answer){23, 2, 1});
    verify("queries 3 3 0: refused before that", c, block, z, 226, r, LIST(3, 3, 0), wrong, NUMBER(11));
}

/* Lists of several lengths at depth 8, where there are 256 places; then with the last place like the first. The message is 9 0 0 .., all
 * blocks are of nines, and at the point 0 by the challenges 0 each round is 9 - 9 X. */
static void lists(void)
{
    static const size_t lengths[] = {1, 2, 3, 4, 5, 7, 8, 9, 16, 17, 18, 19, 33, 64, 255, 256, 257};
    const size_t l = TV_DIAGONALS_LEN(8, 2, 1), opening_len = TV_OPENING_LEN(8, 2, 1);
    code c = {one(8, 2), OF(row), repeated(0, 2, l), repeated(1, 3, l)};
    list block = repeated(2, 9, TV_BLOCK_LEN(8, 2, 1)), opening = repeated(3, 9, opening_len);
    for (size_t i = 0; i < 8; i++)
        many[3][3 * i + 1] = 0, many[3][3 * i + 2] = P - 9;
    uint32_t queries[257];
    for (uint32_t i = 0; i < 257; i++)
        queries[i] = i * 77 % 256;
    for (size_t k = 0; k < sizeof lengths / sizeof *lengths; k++) {
        const size_t length = lengths[k], last = length - 1;
        char what[64];
        snprintf(what, sizeof what, "%zu queries at depth 8", length);
        verify(what, c, block, ZEROS(8), 9, ZEROS(8), (list){queries, length}, opening, length <= 256 ? DONE : NUMBER(7));
        if (length == 1 || length == 257)
            continue;
        const uint32_t kept = queries[last];
        queries[last] = queries[0];
        verify("the last like the first", c, block, ZEROS(8), 9, ZEROS(8), (list){queries, length}, opening, NUMBER(11));
        queries[last] = kept;
    }
}

/* Depth 17. The message 9 0 0 .. is the polynomial 9: so are all its values, the entries of its table and the words of its codeword. */
static void deep(void)
{
    static const uint32_t message[TV_MESSAGE_LEN(17, 1)] = {9};
    static const uint32_t point[17] = {3, 1, 4, 1, 5, 9, 2, 6, 5, 3, 5, 8, 9, 7, 9, 3, 2};
    const size_t m = TV_MESSAGE_LEN(17, 1), n = TV_BLOCK_LEN(17, 2, 1), l = TV_DIAGONALS_LEN(17, 2, 1);
    code c = {one(17, 2), OF(row), repeated(0, 2, l), repeated(1, 3, l)};
    list nines = repeated(2, 9, n), entries = {nines.at, m};
    to_coefficients("131072 entries of 9", entries, DONE, OF(message));
    to_table("and back", OF(message), DONE, entries, ZEROS(m));
    evaluate("9 at depth 17", 17, OF(message), OF(point), DONE, LIST(9));
    encode("9 encoded at depth 17", c, OF(message), DONE, nines);
    decode("and decoded", c, nines, DONE, OF(message), ZEROS(n));
}

/* Words of all sizes at depth 2: every product goes round p. */
static void wide(void)
{
    code c = {one(2, 2), LIST(1234567890u, 7), LIST(1000000007u, 2013265920u, 123456789u, 987654321u, 2000000000u, 42),
              LIST(5, 1, 2013265920u, 0, 1500000001u, 1999999999u)};
    list message = LIST(1111111111u, 2012345678u, 1357924680u, 2013265920u), z = LIST(1700000000u, 999999937u);
    list r = LIST(2013265920u, 1618033988u), queries = LIST(3, 0, 2, 1), value = {&now->wide_value, 1};
    list block = OF(now->wide_block), opening = OF(now->wide_opening), table = LIST(NEGATIVE(1006632960u), 1006632960u, 17, NEGATIVE(5));
    uint32_t other[13];

    to_coefficients("a table of the ends of field 2", table, DONE, OF(now->wide_coefficients));
    to_table("and back", OF(now->wide_coefficients), DONE, table, ZEROS(4));
    evaluate("wide words at a wide point", 2, message, z, DONE, value);
    encode("wide words encoded", c, message, DONE, block);
    decode("and decoded", c, block, DONE, message, ZEROS(8));
    for (size_t i = 0; i < 8; i++)
        other[i] = now->wide_block[i];
    other[3] ^= 1;
    decode("another word 3", c, (list){other, 8}, NUMBER(8), AS_IT_WAS(4), ZEROS(8));
    fold_by("folded by 1618033988", 2, LIST(123456789u, 987654321u, 2000000000u, 42), LIST(2013265920u, 0, 1500000001u, 1999999999u), block,
            1618033988u, DONE, (list){now->wide_opening + 7, 4});
    write_opening("wide words opened", c, message, z, r, DONE, opening, ZEROS(8), value);
    verify("their value claimed, all queries", c, block, z, now->wide_value, r, queries, opening, DONE);
    verify("another value", c, block, z, now->wide_value + 1, r, queries, opening, (tv_answer){20, 2, 0});
    for (size_t i = 0; i < 13; i++)
        other[i] = now->wide_opening[i];
    other[10] ^= 1;
    verify("another word 3 in block 1", c, block, z, now->wide_value, r, queries, (list){other, 13}, (tv_answer){23, 0, 1});
}

/* Base messages of two words, under the rows 1 0 1 1 and 0 1 1 2: a, b has the codeword a, b, a + b, a + 2 b. By hand: f is 1 + 2 X_0 +
 * 3 X_1 + 4 X_0 X_1; the halves' codewords are 1 2 3 5 and 3 4 7 11; at 3 4 eq has -2 and 3 for X_0 and 7 X - 3 for X_1, so that the round
 * is (7 + 15 X)(7 X - 3), and by the challenge 2 the coefficients 7 10 are left. */
static void two_words(void)
{
    const code c = {{1, 2, 2}, LIST(1, 0, 1, 1, 0, 1, 1, 2), LIST(1, 2, 3, 4), LIST(5, 6, 7, 8)};
    const code at_0 = {{0, 2, 2}, c.g, NONE, NONE};
    code other = c;
    list message = LIST(1, 2, 3, 4), block = LIST(4, 10, 24, 49, 16, 26, 52, 93), z = LIST(3, 4), r = LIST(2);
    list opening = LIST(P - 21, 88, 407, 7, 10, 7, 10, 17, 27), queries = LIST(3, 0, 2, 1);

    to_coefficients_of("two words: table 1 3 4 10", 2, LIST(1, 3, 4, 10), DONE, message);
    to_table_of("and back", 2, message, DONE, LIST(1, 3, 4, 10), ZEROS(4));
    evaluate_of("1 2 3 4 at 3 4, a low word and one level", 1, 2, message, z, DONE, LIST(67));
    evaluate_of("at a point of one word", 1, 2, message, LIST(3), NUMBER(3), AS_IT_WAS(1));
    encode("1 2 3 4 encoded", c, message, DONE, block);
    decode("and decoded", c, block, DONE, message, ZEROS(8));
    decode("its last word 94", c, LIST(4, 10, 24, 49, 16, 26, 52, 94), NUMBER(8), AS_IT_WAS(4), ZEROS(8));
    decode("a work buffer of one base block less", c, block, NUMBER(3), AS_IT_WAS(4), AS_IT_WAS(4));
    fold_of("folded by 2", c.sizes, c.t, c.t2, block, 2, DONE, LIST(7, 10, 17, 27));
    write_opening("opened at 3 4 by 2", c, message, z, r, DONE, opening, ZEROS(8), LIST(67));
    verify("67 claimed, all queries", c, block, z, 67, r, queries, opening, DONE);
    verify("66 claimed: sum 1", c, block, z, 66, r, queries, opening, (tv_answer){20, 1, 0});
    verify("the second coefficient 11", c, block, z, 67, r, queries, LIST(P - 21, 88, 407, 7, 11, 7, 10, 17, 27), NUMBER(21));
    verify("and the first 4: the last sum holds, base 0", c, block, z, 67, r, queries, LIST(P - 21, 88, 407, 4, 11, 7, 10, 17, 27),
           (tv_answer){22, 0, 0});
    verify("another word 3 in block 0: base 3", c, block, z, 67, r, queries, LIST(P - 21, 88, 407, 7, 10, 7, 10, 17, 28),
           (tv_answer){22, 3, 0});
    verify("query 4", c, block, z, 67, r, LIST(4), opening, NUMBER(7));
    encode("5 7 at depth 0", at_0, LIST(5, 7), DONE, LIST(5, 7, 12, 19));
    write_opening("opened at 3", at_0, LIST(5, 7), LIST(3), NONE, DONE, LIST(5, 7), ZEROS(4), LIST(26));
    verify("26 claimed", at_0, LIST(5, 7, 12, 19), LIST(3), 26, NONE, NONE, LIST(5, 7), DONE);
    verify("25 claimed", at_0, LIST(5, 7, 12, 19), LIST(3), 25, NONE, NONE, LIST(5, 7), NUMBER(21));
    verify("another last word: base 3", at_0, LIST(5, 7, 12, 18), LIST(3), 26, NONE, NONE, LIST(5, 7), (tv_answer){22, 3, 0});

    other.g = LIST(1, 2, 1, 0, 2, 4, 0, 1);
    encode("rows 1 2 and 2 4, which depend on each other", other, message, ZERO_AT(0), AS_IT_WAS(8));
    decode("the same, decoding", other, block, ZERO_AT(0), AS_IT_WAS(4), AS_IT_WAS(8));
    write_opening("the same, writing", other, message, z, r, ZERO_AT(0), AS_IT_WAS(9), AS_IT_WAS(8), AS_IT_WAS(1));
    verify("the same, verifying", other, block, z, 67, r, queries, opening, ZERO_AT(0));
    other.t2 = c.t;
    encode("and equal diagonals", other, message, ZERO_AT(0), AS_IT_WAS(8));
    other.g = LIST(1, 2, 1, 0, 2, P, 0, P);
    encode("and words 5 and 7 of g", other, message, WORD(5, 1), AS_IT_WAS(8));
    other = c;
    other.g = LIST(0, 1, 0, 0, 1, 0, 0, 0);
    encode("rows 0 1 and 1 0: a zero corner is legal", other, message, DONE, LIST(6, 7, 0, 0, 22, 19, 0, 0));
    other.g = LIST(1, 0, 1, 1, 0, 1, 1);
    encode("g of another length", other, message, NUMBER(3), AS_IT_WAS(8));
}

/* Base messages of four words of all sizes, with a zero in the corner of g. */
static void four_words(void)
{
    const code c = {{1, 2, 4},
                    LIST(0, 869, 2013265920u, 105, 1246969728u, 640, 2013265916u, 174946867u, 433396876u, 782, 1482300183u, 50132419u, 57,
                         2013265918u, 2013265918u, 353629546u, 1246316811u, 1947347980u, 937241549u, 300, 1443684468u, 2013265920u,
                         1196739302u, 263, 95178731u, 1101938738u, 1987591661u, 2013265919u, 234553760u, 514974604u, 269240225u,
                         1391503437u),
                    LIST(2013265918u, 204005379u, 782739682u, 63, 1579431906u, 143043134u, 541, 183),
                    LIST(1308224690u, 2013265919u, 80, 607648239u, 2013265916u, 846228957u, 1871123304u, 299)};
    list message = LIST(638, 289676637u, 253295908u, 1665586201u, 780444572u, 2013265916u, 400, 1086437809u);
    list z = LIST(1059475599u, 2013265919u, 759192042u), r = LIST(1372456182u), value = {&now->four_value, 1};
    list block = OF(now->four_block), opening = OF(now->four_opening), queries = LIST(7, 0, 6, 1, 5, 2, 4, 3);
    uint32_t other[16];

    to_table_of("four words: a wide message", 4, message, DONE, OF(now->four_table), ZEROS(8));
    to_coefficients_of("and back", 4, OF(now->four_table), DONE, message);
    evaluate_of("at a wide point, two low words", 1, 4, message, z, DONE, value);
    encode("encoded", c, message, DONE, block);
    decode("and decoded", c, block, DONE, message, ZEROS(16));
    fold_of("folded by 1372456182", c.sizes, c.t, c.t2, block, 1372456182u, DONE, (list){now->four_opening + 7, 8});
    write_opening("opened", c, message, z, r, DONE, opening, ZEROS(16), value);
    verify("their value claimed, all queries", c, block, z, now->four_value, r, queries, opening, DONE);
    verify("another value", c, block, z, now->four_value - 1, r, queries, opening, (tv_answer){20, 1, 0});
    for (size_t i = 0; i < 16; i++) {
        for (size_t j = 0; j < 16; j++)
            other[j] = now->four_block[j];
        other[i] ^= 1;
        decode("another word in the block", c, (list){other, 16}, NUMBER(8), AS_IT_WAS(8), ZEROS(16));
        verify("the same, verified by its query", c, (list){other, 16}, z, now->four_value, r, LIST((uint32_t)i % 8), opening,
               (tv_answer){23, 0, 0});
    }
    for (size_t i = 3; i < 15; i++) {
        for (size_t j = 0; j < 15; j++)
            other[j] = now->four_opening[j];
        other[i] ^= 1;
        verify("another coefficient, or word of block 0", c, block, z, now->four_value, r, queries, (list){other, 15},
               i < 7 ? NUMBER(21) : (tv_answer){22, (uint32_t)i - 7, 0});
    }
}

/* What is judged of a record: 1, 2, 13 and 3 in this order, by every function. Where k0 is not legal, 1 is judged as if it were 1. */
static void record(const char *what, tv_parameters sizes, uint32_t number)
{
    const code c = {sizes, LIST(1, 1, 1), LIST(1, 1, 1), LIST(1, 1, 1)};
    const bool legal = sizes.k0 == 1 || sizes.k0 == 2 || sizes.k0 == 4;
    /* The rate is no matter to evaluation. */
    const tv_answer due = NUMBER(number), without_rate = NUMBER(number != 2 ? number : legal ? 3 : 13);
    encode(what, c, LIST(1, 1, 1), due, AS_IT_WAS(3));
    decode(what, c, LIST(1, 1, 1), due, AS_IT_WAS(3), AS_IT_WAS(3));
    fold_of(what, sizes, c.t, c.t2, LIST(1, 1, 1), 1, due, AS_IT_WAS(3));
    write_opening(what, c, LIST(1, 1, 1), LIST(1), LIST(1), due, AS_IT_WAS(3), AS_IT_WAS(3), AS_IT_WAS(1));
    verify(what, c, LIST(1, 1, 1), LIST(1), 1, LIST(1), LIST(0), LIST(1, 1, 1), due);
    begin("tv_evaluate", what);
    words m = reads(LIST(1, 1, 1)), z = reads(LIST(1)), v = writes(AS_IT_WAS(1));
    end(tv_evaluate(FIELD, sizes, W(m), W(z), v.at), without_rate);
}

static void records(void)
{
    static const uint32_t illegal[] = {0, 3, 5, 8, UINT32_MAX};
    for (size_t i = 0; i < sizeof illegal / sizeof *illegal; i++) {
        const uint32_t k0 = illegal[i];
        record("k0 not legal, depth 21, rate 17", (tv_parameters){21, 17, k0}, 1);
        record("k0 not legal, depth 20, rate 17", (tv_parameters){20, 17, k0}, 2);
        record("k0 not legal, depth 20", (tv_parameters){20, 2, k0}, 13);
        record("k0 not legal, depth 1", (tv_parameters){1, 16, k0}, 13);
        to_coefficients_of("k0 not legal", k0, LIST(1, 2), NUMBER(13), AS_IT_WAS(3));
        to_coefficients_of("and length 3", k0, LIST(1, 2, 3), NUMBER(1), AS_IT_WAS(3));
        to_table_of("k0 not legal", k0, LIST(1, P), NUMBER(13), AS_IT_WAS(2), AS_IT_WAS(2));
        to_table_of("and length 0", k0, NONE, NUMBER(1), NONE, NONE);
    }
    for (uint32_t k0 = 1, deepest = 20; k0 <= 4; k0 *= 2, deepest--) {
        record("one level too many, rate 17", (tv_parameters){deepest + 1, 17, k0}, 1);
        record("depth 4294967295", (tv_parameters){UINT32_MAX, 2, k0}, 1);
        record("the largest depth, rate 17", (tv_parameters){deepest, 17, k0}, 2);
        record("the largest depth", (tv_parameters){deepest, 2, k0}, 3);
        record("depth 2", (tv_parameters){2, 16, k0}, 3);
        fold_of("upper level 0", (tv_parameters){0, 17, k0}, LIST(1), LIST(1), LIST(1), 1, NUMBER(1), AS_IT_WAS(1));
    }
    to_coefficients_of("two entries, k0 = 4", 4, LIST(1, 2), NUMBER(1), AS_IT_WAS(2));
    to_coefficients_of("two entries, k0 = 2", 2, LIST(1, 3), DONE, LIST(1, 2));
    to_table_of("one word, k0 = 2", 2, LIST(1), NUMBER(1), AS_IT_WAS(1), AS_IT_WAS(1));
    to_table_of("four words, k0 = 4", 4, LIST(1, 0, 0, 0), DONE, LIST(1, 1, 1, 1), ZEROS(4));
}

/* Messages of 1048576 words in base messages of four, and of twice as many. Row 0 is ones, each other has a one in its own column alone. */
static void longest(void)
{
    const size_t m = TV_MAX_TABLE_LEN, n = 2 * m, l = TV_DIAGONALS_LEN(18, 2, 4);
    const code c = {{18, 2, 4},
                    LIST(1, 1, 1, 1, 1, 1, 1, 1, 0, 1, 0, 0, 0, 0, 0, 0, 0, 0, 1, 0, 0, 0, 0, 0, 0, 0, 0, 1, 0, 0, 0, 0),
                    repeated(0, 2, l),
                    repeated(1, 3, l)};
    list nines = repeated(2, 9, n), entries = {nines.at, m}, message = repeated(3, 0, m);
    many[3][0] = 9;
    to_coefficients_of("1048576 entries of 9, four words", 4, entries, DONE, message);
    to_table_of("and back", 4, message, DONE, entries, ZEROS(m));
    evaluate_of("9 at depth 18", 18, 4, message, ZEROS(20), DONE, LIST(9));
    encode("9 encoded at depth 18", c, message, DONE, nines);
    decode("and decoded", c, nines, DONE, message, ZEROS(n));
    to_coefficients_of("2097152 entries", 4, nines, NUMBER(1), AS_IT_WAS(1));
    to_table_of("2097152 words", 4, nines, NUMBER(1), AS_IT_WAS(1), AS_IT_WAS(1));
    evaluate_of("2097152 words at depth 19", 19, 4, nines, ZEROS(21), NUMBER(1), AS_IT_WAS(1));
}

/* What one field takes and the other refuses: 2013265921 is 2147483647 - 134217726. */
static void apart(void)
{
    const bool in_first = FIELD == TV_FIELD_1;
    reading("2013265920, the last word of field 2", 2013265920u, DONE, TV_OVERLAP, in_first ? 134217727u : 1);
    reading("2013265921, the next", 2013265921u, in_first ? DONE : WORD(0, 4), in_first ? TV_OVERLAP : 0, in_first ? 134217726u : 0);
    reading("2147483646, the last word of field 1", 2147483646u, in_first ? DONE : WORD(0, 4), in_first ? TV_OVERLAP : 0, in_first ? 1 : 0);
    to_coefficients("clearance 1006632960", LIST(1006632960u), DONE, LIST(1006632960u));
    if (in_first) {
        to_coefficients("clearance 1006632961", LIST(1006632961u), DONE, LIST(1006632961u));
        to_coefficients("clearance -1006632961", LIST(NEGATIVE(1006632961u)), DONE, LIST(1140850686u));
        evaluate("point word 2013265921", 1, LIST(0, 1), LIST(2013265921u), DONE, LIST(2013265921u));
    } else {
        to_coefficients("clearance 1006632961", LIST(1006632961u), NUMBER(9), AS_IT_WAS(1));
        to_coefficients("clearance -1006632961", LIST(NEGATIVE(1006632961u)), NUMBER(9), AS_IT_WAS(1));
        evaluate("point word 2013265921", 1, LIST(0, 1), LIST(2013265921u), WORD(0, 5), AS_IT_WAS(1));
    }
}

/* Roots of unity. At depth 2 and rate 2 level 0 is the powers 0 and 1 of the root of order 4, and level 1 the powers 0 to 3 of that of
 * order 8. The codeword of 5 7 11 13 is then the values of 5 + 11 X + 7 X^2 + 13 X^3 at the powers 0 to 7 of the root of order 8. */
static void roots(void)
{
    list g = LIST(1, 1), t = LIST(1, 1728404513u, 1, 1592366214u, 1728404513u, 211723194u);
    list t2 = LIST(2013265920u, 284861408u, 2013265920u, 420899707u, 284861408u, 1801542727u), ones = repeated(0, 1, 16);
    fill_roots("depth 2, rate 2", 2, 2, DONE, g, t, t2);
    fill_roots("depth 1, rate 4", 1, 4, DONE, LIST(1, 1, 1, 1), LIST(1, 1592366214u, 1728404513u, 211723194u),
               LIST(2013265920u, 420899707u, 284861408u, 1801542727u));
    fill_roots("depth 0, rate 2", 0, 2, DONE, g, NONE, NONE);
    fill_roots("depth 0, rate 16", 0, 16, DONE, ones, NONE, NONE);

    fill_roots("depth 21", 21, 2, NUMBER(1), AS_IT_WAS(2), AS_IT_WAS(6), AS_IT_WAS(6));
    fill_roots("depth 21, rate 1", 21, 1, NUMBER(1), AS_IT_WAS(2), AS_IT_WAS(6), AS_IT_WAS(6));
    fill_roots("depth 4294967295, rate 3", UINT32_MAX, 3, NUMBER(1), AS_IT_WAS(3), AS_IT_WAS(9), AS_IT_WAS(9));
    fill_roots("rate 0", 2, 0, NUMBER(2), NONE, NONE, NONE);
    fill_roots("rate 1", 2, 1, NUMBER(2), AS_IT_WAS(1), AS_IT_WAS(3), AS_IT_WAS(3));
    fill_roots("rate 17, and lengths of rate 2", 2, 17, NUMBER(2), AS_IT_WAS(2), AS_IT_WAS(6), AS_IT_WAS(6));
    fill_roots("rate 32", 0, 32, NUMBER(2), AS_IT_WAS(32), NONE, NONE);
    fill_roots("a row of another length", 2, 2, NUMBER(3), AS_IT_WAS(1), AS_IT_WAS(6), AS_IT_WAS(6));
    fill_roots("a longer one", 2, 2, NUMBER(3), AS_IT_WAS(3), AS_IT_WAS(6), AS_IT_WAS(6));
    fill_roots("t of another length", 2, 2, NUMBER(3), AS_IT_WAS(2), AS_IT_WAS(5), AS_IT_WAS(6));
    fill_roots("t2 of another length", 2, 2, NUMBER(3), AS_IT_WAS(2), AS_IT_WAS(6), AS_IT_WAS(7));
    fill_roots("lengths of depth 2 at depth 20", 20, 2, NUMBER(3), AS_IT_WAS(2), AS_IT_WAS(6), AS_IT_WAS(6));
    fill_roots("the same at rate 3", 20, 3, NUMBER(3), AS_IT_WAS(3), AS_IT_WAS(9), AS_IT_WAS(9));
    fill_roots("rate 3", 2, 3, NUMBER(12), AS_IT_WAS(3), AS_IT_WAS(9), AS_IT_WAS(9));
    fill_roots("rate 12, at depth 0", 0, 12, NUMBER(12), AS_IT_WAS(12), NONE, NONE);
    fill_roots("rate 15", 1, 15, NUMBER(12), AS_IT_WAS(15), AS_IT_WAS(15), AS_IT_WAS(15));
    fill_roots_of("k0 = 2", (tv_parameters){2, 2, 2}, NUMBER(13), AS_IT_WAS(2), AS_IT_WAS(6), AS_IT_WAS(6));
    fill_roots_of("k0 = 2, and lengths of it", (tv_parameters){1, 2, 2}, NUMBER(13), AS_IT_WAS(8), AS_IT_WAS(4), AS_IT_WAS(4));
    fill_roots_of("k0 = 4, rate 3, another length", (tv_parameters){2, 3, 4}, NUMBER(13), AS_IT_WAS(1), AS_IT_WAS(9), AS_IT_WAS(9));
    fill_roots_of("k0 = 0", (tv_parameters){0, 2, 0}, NUMBER(13), AS_IT_WAS(2), NONE, NONE);
    fill_roots_of("k0 = 2, rate 17", (tv_parameters){20, 17, 2}, NUMBER(2), AS_IT_WAS(2), NONE, NONE);
    fill_roots_of("k0 = 4, depth 20: the limit is that of one word", (tv_parameters){20, 2, 4}, NUMBER(13), AS_IT_WAS(2), NONE, NONE);
    fill_roots_of("k0 = 4, depth 21", (tv_parameters){21, 17, 4}, NUMBER(1), AS_IT_WAS(2), NONE, NONE);

    code c = {one(2, 2), g, t, t2};
    list message = LIST(5, 7, 11, 13), z = LIST(3, 4), r = LIST(5, 6), queries = LIST(0, 1, 2, 3);
    list block = LIST(36, 155006736u, 569722814u, 864554725u, 2013265909u, 1896731325u, 1443543103u, 1110239076u);
    list opening = LIST(2013265843u, 304, 1386, 2013260383u, 18252, 75192, 496, 156, 1959237364u, 2013265907u, 54028699u, 496, 496);
    encode("5 7 11 13 encoded with them", c, message, DONE, block);
    decode("and decoded", c, block, DONE, message, ZEROS(8));
    write_opening("opened at 3 4 by 5 6", c, message, z, r, DONE, opening, ZEROS(8), LIST(226));
    verify("226 claimed, all queries", c, block, z, 226, r, queries, opening, DONE);
    verify("227 claimed: sum 2", c, block, z, 227, r, queries, opening, (tv_answer){20, 2, 0});
}

/* C converts every number but 0 to true, also one whose lowest byte is 0. The compiler is not told which number it is. */
static void converted(void)
{
    static volatile const int field_2[] = {1, 2, -1, 256, 65536, INT_MIN, 2013265921};
    static volatile const int field_1 = 0;
    for (size_t i = 0; i < sizeof field_2 / sizeof *field_2; i++) {
        char what[64];
        const int number = field_2[i];
        snprintf(what, sizeof what, "%d as the field", number);
        begin("tv_read_clearance", what);
        words read = writes(LIST(TV_OVERLAP, 1));
        const tv_reading got = tv_read_clearance(number, 2013265920u);
        read.at[0] = got.kind, read.at[1] = got.amount;
        end(got.answer, DONE);
        begin("tv_evaluate", what);
        words message = reads(LIST(0, 1)), z = reads(LIST(2013265921u)), value = writes(AS_IT_WAS(1));
        end(tv_evaluate(number, one(1, 2), W(message), W(z), value.at), WORD(0, 5));
    }
    begin("tv_evaluate", "0 as the field");
    words message = reads(LIST(0, 1)), z = reads(LIST(2013265921u)), value = writes(LIST(2013265921u));
    end(tv_evaluate(field_1, one(1, 2), W(message), W(z), value.at), DONE);
}

/* All that is checked over each field. */
static void over(const numbers *these)
{
    now = these;
    printf("modulo %u\n", (unsigned)P);
    differences += TV_MODULUS(FIELD) != P || TV_MAX_CLEARANCE(FIELD) != (int32_t)LARGEST;
    clearances();
    codewords();
    openings();
    repeats();
    places();
    second_half();
    lists();
    deep();
    wide();
    two_words();
    four_words();
    records();
    longest();
    apart();
}

int main(void)
{
    over(&first);
    over(&second);
    roots();
    converted();
    printf("%d differences\n", differences);
    return differences > 0;
}
