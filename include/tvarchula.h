/* Tvarchula: a BaseFold commitment over the integers modulo 2147483647 or modulo 2013265921.
 *
 * One function for each job, over the static library libtvarchula.a. The archive is for x86-64 with SSE2. It wants memset and nothing
 * else, has constants but no writable data, and takes less than 6 KiB of stack with the longest message, as c/stack.c measures it:
 * count on 8.
 *
 * Every function answers on any input and keeps no state: any number of threads may call it at once. All memory is lent by the caller;
 * the library allocates nothing and keeps no pointer.
 *
 * Slices. A slice is a pointer and a count of words, not of bytes. Its length is exact: a longer slice is refused like a shorter one.
 *  - The pointer is not null and is aligned to 4 bytes, also where the count is 0. data() of an empty std::vector may be null: pass the
 *    address of any word instead, with the count 0.
 *  - A slice that is written (result or work) overlaps no other slice of the call. Two slices that are only read may coincide.
 *  - A pointer to a single result (value) is not null, is aligned to 4 bytes, and points outside all slices of the call.
 *
 * After a refusal every result and single result is as it was. Work buffers hold zeros after 0 and after 8, and are as they were after any
 * other refusal. What they hold before a call does not matter. What is only read is never changed.
 */
#ifndef TVARCHULA_H
#define TVARCHULA_H

#include <stdbool.h>
#include <stddef.h>
#include <stdint.h>

/* The version of this header and of the archive that it belongs to; the Rust crates and the pkg-config file have the same. PATCH moves
 * when declarations and answers stay, MINOR when some are added, MAJOR when one changes or goes. As long as MAJOR is 0, MINOR moves for
 * changes too. A program and its archive have MAJOR and MINOR in common. */
#define TV_VERSION_MAJOR 0
#define TV_VERSION_MINOR 7
#define TV_VERSION_PATCH 2
#define TV_VERSION "0.7.2"

/* The field of a call: the integers modulo TV_MODULUS(field). Words do not tell their field: who writes and who verifies agree on it, as on
 * depth, rate and k0. A bool has no third value: of the numbers that C converts to one, 0 is TV_FIELD_1 and all others are TV_FIELD_2. From
 * another language pass a byte that is 0 or 1, and nothing else. */
#define TV_FIELD_1 false
#define TV_FIELD_2 true
#define TV_MODULUS_1 2147483647u   /* 2^31 - 1, Mersenne31 */
#define TV_MODULUS_2 2013265921u   /* 15 * 2^27 + 1, BabyBear */
#define TV_MODULUS(field) ((field) ? TV_MODULUS_2 : TV_MODULUS_1)

/* Clearances are from -TV_MAX_CLEARANCE(field) to TV_MAX_CLEARANCE(field). */
#define TV_MAX_CLEARANCE_1 1073741823
#define TV_MAX_CLEARANCE_2 1006632960
#define TV_MAX_CLEARANCE(field) ((field) ? TV_MAX_CLEARANCE_2 : TV_MAX_CLEARANCE_1)

/* Limits, the same in both fields. k0 is 1, 2 or 4, and k0 * 2^depth at most TV_MAX_TABLE_LEN: TV_MAX_DEPTH is for k0 = 1, with 2 and 4 it
 * is one and two less. */
#define TV_MAX_DEPTH 20u
#define TV_MIN_RATE 2u
#define TV_MAX_RATE 16u
#define TV_MAX_QUERIES 256u
#define TV_MAX_TABLE_LEN 1048576u

/* The number of an answer. When several apply, the smallest is given, but that 13 comes right after 2. A number that is not listed here
 * comes from an archive of another version, and is no success. */
#define TV_DONE 0u
#define TV_ACCEPTED 0u             /* verifying: every check holds */
#define TV_REFUSED_DEPTH 1u        /* k0 * 2^depth above TV_MAX_TABLE_LEN (folding: also the upper level 0); a table's length, or a
                                      message's on the way back, that is no power of two from k0 to TV_MAX_TABLE_LEN; a k0 that is not
                                      legal counts as 1 here */
#define TV_REFUSED_RATE 2u         /* rate not TV_MIN_RATE to TV_MAX_RATE */
#define TV_REFUSED_LENGTH 3u       /* a slice, result and work included, that has not its exact length; for the query list see 7 */
#define TV_REFUSED_WORD 4u         /* a word or single value that is read is TV_MODULUS(field) or more; for the query list see 7; first is
                                      the index of the first such word in its input as lent, second is the input, TV_INPUT_G and so on */
#define TV_REFUSED_ROW 5u          /* with k0 = 1 a zero in the base row, and first is the index of the first one in g; with k0 = 2 or 4
                                      the first k0 columns of the base rows have no inverse, and first is 0 */
#define TV_REFUSED_DIAGONALS 6u    /* t and t2 are equal in some place; first is the index of the first such place in t as lent */
#define TV_REFUSED_QUERIES 7u      /* the query list is too short or too long, or a place in it is too large */
#define TV_REFUSED_NO_CODEWORD 8u  /* decoding: a well-formed block is no codeword */
#define TV_REFUSED_CLEARANCE 9u    /* a clearance outside -TV_MAX_CLEARANCE(field) to TV_MAX_CLEARANCE(field) */
#define TV_REFUSED_REPEATED 11u    /* a place stands in the query list more than once */
#define TV_REFUSED_NO_POWER_OF_TWO 12u /* filling: a rate from TV_MIN_RATE to TV_MAX_RATE that is no power of two */
#define TV_REFUSED_BASE_WORDS 13u  /* k0 is not 1, 2 or 4; filling: it is not 1 */
#define TV_FAILED_SUM 20u          /* verifying: sum check i fails; first is i */
#define TV_FAILED_FINAL 21u        /* verifying: the final check fails */
#define TV_FAILED_BASE 22u         /* verifying: base check j fails; first is j */
#define TV_FAILED_FOLD 23u         /* verifying: a fold check fails; first is the query's position from 0, second the level */

/* The inputs that 4 names, in the order in which they are judged: the first of them that has a word of TV_MODULUS(field) or more is
 * named. A single value has the index 0. */
#define TV_INPUT_G 1u
#define TV_INPUT_T 2u
#define TV_INPUT_T2 3u
#define TV_INPUT_BLOCK 4u          /* the block or the message, whichever is read; tv_read_clearance: the word */
#define TV_INPUT_Z 5u
#define TV_INPUT_Y 6u
#define TV_INPUT_R 7u              /* r; tv_fold: the challenge */
#define TV_INPUT_OPENING 8u

/* What a reading is. Only TV_FREE may be passed: stop at every other kind, at one that is not listed here too. */
#define TV_FREE 1u                 /* above zero; amount is the distance */
#define TV_OVERLAP 2u              /* below zero; amount is by how much, above zero */
#define TV_CONTACT 3u              /* zero: the parcels touch; amount is 0 */

/* Words of a message, of a point, of g, of a block of a level, of each of t and t2, and of an opening. Depth, level, rate and k0 must be
 * legal. */
#ifdef __cplusplus
#define TV_SIZE(number) (static_cast<size_t>(number))
#else
#define TV_SIZE(number) ((size_t)(number))
#endif
#define TV_MESSAGE_LEN(depth, k0) (TV_SIZE(k0) << (depth))
#define TV_POINT_LEN(depth, k0) (TV_SIZE(depth) + TV_SIZE(k0) / 2) /* depth and 0, 1 or 2 */
#define TV_ROWS_LEN(rate, k0) (TV_SIZE(k0) * TV_SIZE(k0) * TV_SIZE(rate))
#define TV_BLOCK_LEN(level, rate, k0) (TV_SIZE(rate) * TV_MESSAGE_LEN(level, k0))
#define TV_DIAGONALS_LEN(depth, rate, k0) (TV_BLOCK_LEN(depth, rate, k0) - TV_BLOCK_LEN(0, rate, k0))
#define TV_OPENING_LEN(depth, rate, k0) (3 * TV_SIZE(depth) + TV_SIZE(k0) + TV_DIAGONALS_LEN(depth, rate, k0))

/* The compiler warns where an answer is not looked at. */
#if defined(__cplusplus) && __cplusplus >= 201703L
#define TV_MUST_USE [[nodiscard]]
#elif defined(__GNUC__)
#define TV_MUST_USE __attribute__((warn_unused_result))
#else
#define TV_MUST_USE
#endif

#ifdef __cplusplus
extern "C" {
#endif

/* What a call is told of sizes, by value. k0 is how many words a base message has, and how many base rows there are in g. A job judges of
 * the record only what it needs: the two table jobs k0, evaluation depth and k0, every other one all three. For folding depth is the upper
 * level. */
typedef struct {
    uint32_t depth, rate, k0;
} tv_parameters;

/* first and second are the places that the number names, else 0. Of the refusals only 4, 5 and 6 name one: 4 has the index in first and the
 * input in second, 5 and 6 have the index in first. Every index counts from 0, over the whole slice as it was lent. */
typedef struct {
    uint32_t number, first, second;
} tv_answer;

/* kind is TV_FREE, TV_OVERLAP or TV_CONTACT, amount is in micrometres; both are 0 when refused. */
typedef struct {
    tv_answer answer;
    uint32_t kind, amount;
} tv_reading;

/* In what follows depth, rate and k0 are those of the record, and a length in words stands behind each slice: m is TV_MESSAGE_LEN(depth,
 * k0), p is TV_POINT_LEN(depth, k0), w is TV_ROWS_LEN(rate, k0), n is TV_BLOCK_LEN(depth, rate, k0), and l is TV_DIAGONALS_LEN(depth, rate,
 * k0).
 *
 * g is k0 rows of TV_BLOCK_LEN(0, rate, k0) words, one after another, row b for word b of a base message. Level i of t and t2 begins at
 * TV_DIAGONALS_LEN(i, rate, k0) and has TV_BLOCK_LEN(i, rate, k0) words. Word b of a message multiplies those variables whose bit in b is
 * set. The low variables, of which there are p - depth, stay inside a base message: word i of z is variable i, the low ones first, and word
 * i of r is variable p - depth + i. */

/* Reads a word as a clearance. Answers 0, or 4 with the index 0 and TV_INPUT_BLOCK. Of the kinds only TV_FREE may be passed. */
TV_MUST_USE tv_reading tv_read_clearance(bool field, uint32_t word);

/* Reads clearances (a power of two, k0 to TV_MAX_TABLE_LEN). Writes message (as many). */
TV_MUST_USE tv_answer tv_table_to_coefficients(bool field, tv_parameters parameters, const int32_t *clearances, size_t clearances_len,
                                               uint32_t *message, size_t message_len);

/* Reads message (a power of two, k0 to TV_MAX_TABLE_LEN). Writes clearances (as many). work: as many. */
TV_MUST_USE tv_answer tv_coefficients_to_table(bool field, tv_parameters parameters, const uint32_t *message, size_t message_len,
                                               int32_t *clearances, size_t clearances_len, uint32_t *work, size_t work_len);

/* Reads message (m), z (p). Writes *value, only when the number is 0: the polynomial's value at z. */
TV_MUST_USE tv_answer tv_evaluate(bool field, tv_parameters parameters, const uint32_t *message, size_t message_len, const uint32_t *z,
                                  size_t z_len, uint32_t *value);

/* Reads g (w), t (l), t2 (l), message (m). Writes block (n): the commitment. */
TV_MUST_USE tv_answer tv_encode(bool field, tv_parameters parameters, const uint32_t *g, size_t g_len, const uint32_t *t, size_t t_len,
                                const uint32_t *t2, size_t t2_len, const uint32_t *message, size_t message_len, uint32_t *block,
                                size_t block_len);

/* Reads g (w), t (l), t2 (l), block (n). Writes message (m). work: n. */
TV_MUST_USE tv_answer tv_decode(bool field, tv_parameters parameters, const uint32_t *g, size_t g_len, const uint32_t *t, size_t t_len,
                                const uint32_t *t2, size_t t2_len, const uint32_t *block, size_t block_len, uint32_t *message,
                                size_t message_len, uint32_t *work, size_t work_len);

/* The record's depth is the upper level, from 1. Reads t, t2 (TV_BLOCK_LEN(depth - 1, rate, k0) each: that one level), block
 * (TV_BLOCK_LEN(depth, rate, k0)). Writes folded (TV_BLOCK_LEN(depth - 1, rate, k0)). */
TV_MUST_USE tv_answer tv_fold(bool field, tv_parameters parameters, const uint32_t *t, size_t t_len, const uint32_t *t2, size_t t2_len,
                              const uint32_t *block, size_t block_len, uint32_t challenge, uint32_t *folded, size_t folded_len);

/* Reads g (w), t (l), t2 (l), message (m), z (p), r (depth). Writes opening (TV_OPENING_LEN(depth, rate, k0)) and *value, only when the
 * number is 0: the polynomial's value at z. work: 2 * m. The opening holds, for i from depth down to 1, the three words of round i; then
 * the k0 coefficients that are left in the low variables when the others are r (with k0 = 1 the value at r); then the blocks of levels
 * depth - 1 down to 0. */
TV_MUST_USE tv_answer tv_write_opening(bool field, tv_parameters parameters, const uint32_t *g, size_t g_len, const uint32_t *t,
                                       size_t t_len, const uint32_t *t2, size_t t2_len, const uint32_t *message, size_t message_len,
                                       const uint32_t *z, size_t z_len, const uint32_t *r, size_t r_len, uint32_t *opening,
                                       size_t opening_len, uint32_t *work, size_t work_len, uint32_t *value);

/* Reads g (w), t (l), t2 (l), block (n: the commitment), z (p), y (the value claimed at z), r (depth), queries (1 to TV_MAX_QUERIES places
 * below TV_BLOCK_LEN(depth - 1, rate, k0), each different from all others; at depth 0 none), opening (TV_OPENING_LEN(depth, rate, k0)). A
 * list with a place too large is answered 7, whatever repeats in it; a list with a repeated place 11, before any check of the opening. */
TV_MUST_USE tv_answer tv_verify_opening(bool field, tv_parameters parameters, const uint32_t *g, size_t g_len, const uint32_t *t,
                                        size_t t_len, const uint32_t *t2, size_t t2_len, const uint32_t *block, size_t block_len,
                                        const uint32_t *z, size_t z_len, uint32_t y, const uint32_t *r, size_t r_len,
                                        const uint32_t *queries, size_t queries_len, const uint32_t *opening, size_t opening_len);

/* Writes a base row and diagonals for TV_FIELD_2 and k0 = 1, the same ones at every call: g (rate) is all ones; level i of t (l) is the
 * powers 0 to n_i - 1 of the root of unity of order 2 * n_i, where n_i is TV_BLOCK_LEN(i, rate, 1); t2 (l) is the negatives of t. The root
 * of order 2^27 is 31^15, and each one of half the order is the square of the one before. Nothing is read but the record. Answers 0, 1, 2,
 * 13 where k0 is not 1 (and 1 as if it were), 3, or 12 where the rate is not 2, 4, 8 or 16. No field is lent, because TV_FIELD_1 has no
 * such roots.
 *
 * The jobs take what is filled: no word of g is 0, and t and t2 differ in every place. With it the codeword of a message is that of a
 * Reed-Solomon code: the values of one polynomial in one variable, at the powers 0 to n - 1 of the root of order n. Word b of the message
 * is the coefficient of the degree that has the depth bits of b in reversed order. */
TV_MUST_USE tv_answer tv_fill_roots(tv_parameters parameters, uint32_t *g, size_t g_len, uint32_t *t, size_t t_len, uint32_t *t2,
                                    size_t t2_len);

/* What a number means, for people. */
static inline const char *tv_number_text(uint32_t number)
{
    switch (number) {
    case TV_DONE: return "done, or accepted";
    case TV_REFUSED_DEPTH: return "refused: the depth, the upper level, or a length that is no power of two in range";
    case TV_REFUSED_RATE: return "refused: the rate";
    case TV_REFUSED_LENGTH: return "refused: a slice has not its exact length";
    case TV_REFUSED_WORD: return "refused: a word is the modulus of its field or more";
    case TV_REFUSED_ROW: return "refused: a zero in the base row, or base rows whose first columns have no inverse";
    case TV_REFUSED_DIAGONALS: return "refused: the diagonals are equal in some place";
    case TV_REFUSED_QUERIES: return "refused: the query list is too short or too long, or a place in it is too large";
    case TV_REFUSED_NO_CODEWORD: return "refused: the block is no codeword";
    case TV_REFUSED_CLEARANCE: return "refused: a clearance is out of range";
    case TV_REFUSED_REPEATED: return "refused: a place stands in the query list more than once";
    case TV_REFUSED_NO_POWER_OF_TWO: return "refused: the rate is no power of two";
    case TV_REFUSED_BASE_WORDS: return "refused: the number of words of a base message";
    case TV_FAILED_SUM: return "rejected: a round does not sum to the value claimed before it";
    case TV_FAILED_FINAL: return "rejected: the final value does not fit the last claim";
    case TV_FAILED_BASE: return "rejected: the lowest block does not fit the final value";
    case TV_FAILED_FOLD: return "rejected: a query finds a wrong fold";
    default: return "a number that this header does not know: the archive is of another version";
    }
}

/* The input that 4 names in second, for people. */
static inline const char *tv_input_text(uint32_t input)
{
    switch (input) {
    case TV_INPUT_G: return "g";
    case TV_INPUT_T: return "t";
    case TV_INPUT_T2: return "t2";
    case TV_INPUT_BLOCK: return "the message, block or word";
    case TV_INPUT_Z: return "z";
    case TV_INPUT_Y: return "y";
    case TV_INPUT_R: return "r or the challenge";
    case TV_INPUT_OPENING: return "the opening";
    default: return "an input that this header does not know: the archive is of another version";
    }
}

#ifdef __cplusplus
}
#endif

#endif
