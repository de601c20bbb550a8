/* The header from C++: fields and lengths as constants, the numbers and places, and empty vectors. */
#include "tvarchula.h"

#include <cstdio>
#include <cstring>
#include <vector>

static_assert(TV_MESSAGE_LEN(20, 1) == 1048576 && TV_MESSAGE_LEN(18, 4) == 1048576, "words of a message");
static_assert(TV_POINT_LEN(3, 1) == 3 && TV_POINT_LEN(3, 2) == 4 && TV_POINT_LEN(3, 4) == 5, "words of a point");
static_assert(TV_ROWS_LEN(3, 1) == 3 && TV_ROWS_LEN(3, 2) == 12 && TV_ROWS_LEN(3, 4) == 48, "words of the base rows");
static_assert(TV_BLOCK_LEN(20, 16, 1) == 16777216 && TV_BLOCK_LEN(0, 3, 4) == 12, "words of a block");
static_assert(TV_DIAGONALS_LEN(1, 2, 1) == 2 && TV_DIAGONALS_LEN(0, 2, 4) == 0 && TV_DIAGONALS_LEN(3, 2, 2) == 28, "words of a diagonal");
static_assert(TV_OPENING_LEN(20, 16, 1) == 16777261 && TV_OPENING_LEN(0, 2, 1) == 1, "words of an opening");
static_assert(TV_OPENING_LEN(3, 2, 2) == 39 && TV_OPENING_LEN(3, 2, 4) == 69, "words of an opening, two and four words");
static_assert(TV_MAX_TABLE_LEN == TV_MESSAGE_LEN(TV_MAX_DEPTH, 1), "the longest table");
static_assert(TV_MODULUS(TV_FIELD_1) == 2147483647 && TV_MODULUS(TV_FIELD_2) == 2013265921, "the moduli");
static_assert(TV_MAX_CLEARANCE(TV_FIELD_1) == 1073741823 && TV_MAX_CLEARANCE(TV_FIELD_2) == 1006632960, "the largest clearances");
static_assert(sizeof(tv_answer) == 12 && sizeof(tv_reading) == 20, "answers have no gaps");
static_assert(sizeof(tv_parameters) == 12, "a record has none");

/* data() of an empty vector may be null; a slice's pointer may not. */
static const uint32_t *at(const std::vector<uint32_t> &words)
{
    static const uint32_t nothing = 0;
    return words.empty() ? &nothing : words.data();
}

/* The same for one that is written. */
static uint32_t *at(std::vector<uint32_t> &words)
{
    static uint32_t nothing = 0;
    return words.empty() ? &nothing : words.data();
}

#define SLICE(words) at(words), (words).size()

/* Depth 0: no diagonals, no point, no challenges, no queries. */
static bool depth_0(bool field)
{
    const tv_parameters sizes = {0, 2, 1};
    const std::vector<uint32_t> g = {1, 1}, none, message = {9};
    std::vector<uint32_t> block(TV_BLOCK_LEN(0, 2, 1)), opening(TV_OPENING_LEN(0, 2, 1)), work(2 * TV_MESSAGE_LEN(0, 1));
    uint32_t value = 0;
    uint32_t number = tv_encode(field, sizes, SLICE(g), SLICE(none), SLICE(none), SLICE(message), SLICE(block)).number;
    if (number != TV_DONE || block != std::vector<uint32_t>{9, 9})
        return false;
    number = tv_write_opening(field, sizes, SLICE(g), SLICE(none), SLICE(none), SLICE(message), SLICE(none), SLICE(none), SLICE(opening),
                              SLICE(work), &value)
                 .number;
    if (number != TV_DONE || value != 9)
        return false;
    for (uint32_t y = 8; y <= 9; y++) {
        const tv_answer verdict = tv_verify_opening(field, sizes, SLICE(g), SLICE(none), SLICE(none), SLICE(block), SLICE(none), y,
                                                    SLICE(none), SLICE(none), SLICE(opening));
        std::printf("%u claimed: %s\n", static_cast<unsigned>(y), tv_number_text(verdict.number));
        if (verdict.number != (y == 9 ? TV_ACCEPTED : TV_FAILED_FINAL))
            return false;
    }
    /* Where a refused word is, for people. */
    const std::vector<uint32_t> wrong = {9, TV_MODULUS(field)};
    const tv_answer refused = tv_verify_opening(field, sizes, SLICE(g), SLICE(none), SLICE(none), SLICE(wrong), SLICE(none), 9, SLICE(none),
                                                SLICE(none), SLICE(opening));
    std::printf("%s: word %u of %s\n", tv_number_text(refused.number), static_cast<unsigned>(refused.first),
                tv_input_text(refused.second));
    if (refused.number != TV_REFUSED_WORD || refused.first != 1 || refused.second != TV_INPUT_BLOCK)
        return false;
    const tv_reading reading = tv_read_clearance(field, TV_MODULUS(field));
    const tv_answer &answer = reading.answer;
    const bool named = answer.number == TV_REFUSED_WORD && answer.first == 0 && answer.second == TV_INPUT_BLOCK;
    return named && reading.kind == 0 && reading.amount == 0;
}

/* Base row and diagonals of roots, and none of them at depth 0. The root of order 4 is 1728404513. */
static bool roots()
{
    std::vector<uint32_t> g(2), t(TV_DIAGONALS_LEN(1, 2, 1)), t2(TV_DIAGONALS_LEN(1, 2, 1)), none, none2;
    if (tv_fill_roots({1, 2, 1}, SLICE(g), SLICE(t), SLICE(t2)).number != TV_DONE)
        return false;
    if (t != std::vector<uint32_t>{1, 1728404513} || t2 != std::vector<uint32_t>{2013265920, 284861408})
        return false;
    g = {7, 7};
    if (tv_fill_roots({0, 2, 1}, SLICE(g), SLICE(none), SLICE(none2)).number != TV_DONE || g != std::vector<uint32_t>{1, 1})
        return false;
    std::vector<uint32_t> three(3);
    const tv_answer refused = tv_fill_roots({0, 3, 1}, SLICE(three), SLICE(none), SLICE(none2));
    std::printf("rate 3: %s\n", tv_number_text(refused.number));
    if (refused.number != TV_REFUSED_NO_POWER_OF_TWO)
        return false;
    const tv_answer two = tv_fill_roots({0, 2, 2}, SLICE(g), SLICE(none), SLICE(none2));
    std::printf("k0 = 2: %s\n", tv_number_text(two.number));
    return two.number == TV_REFUSED_BASE_WORDS && g == std::vector<uint32_t>{1, 1};
}

/* Base messages of two words at depth 0: a, b has the codeword a, b, a + b, a + 2 b, and the point has one word. */
static bool two_words(bool field)
{
    const tv_parameters sizes = {0, 2, 2};
    const std::vector<uint32_t> g = {1, 0, 1, 1, 0, 1, 1, 2}, none, message = {5, 7}, z = {3};
    std::vector<uint32_t> block(TV_BLOCK_LEN(0, 2, 2)), opening(TV_OPENING_LEN(0, 2, 2)), work(2 * TV_MESSAGE_LEN(0, 2));
    uint32_t value = 0;
    uint32_t number = tv_encode(field, sizes, SLICE(g), SLICE(none), SLICE(none), SLICE(message), SLICE(block)).number;
    if (number != TV_DONE || block != std::vector<uint32_t>{5, 7, 12, 19})
        return false;
    number = tv_write_opening(field, sizes, SLICE(g), SLICE(none), SLICE(none), SLICE(message), SLICE(z), SLICE(none), SLICE(opening),
                              SLICE(work), &value)
                 .number;
    if (number != TV_DONE || value != 26 || opening != message)
        return false;
    number = tv_verify_opening(field, sizes, SLICE(g), SLICE(none), SLICE(none), SLICE(block), SLICE(z), 26, SLICE(none), SLICE(none),
                               SLICE(opening))
                 .number;
    return number == TV_ACCEPTED;
}

int main()
{
    if (!depth_0(TV_FIELD_1) || !depth_0(TV_FIELD_2) || !roots() || !two_words(TV_FIELD_1) || !two_words(TV_FIELD_2))
        return 1;
    /* Every number that is listed has a text of its own, and no other number is taken for success. */
    const uint32_t listed[] = {0, 1, 2, 3, 4, 5, 6, 7, 8, 9, 11, 12, 13, 20, 21, 22, 23, 24};
    for (const uint32_t a : listed)
        for (const uint32_t b : listed)
            if (a < b && std::strcmp(tv_number_text(a), tv_number_text(b)) == 0)
                return 1;
    if (std::strcmp(tv_number_text(24), tv_number_text(10)) != 0)
        return 1;
    /* So has every input that 4 names, and 0 and 9 are none. */
    for (uint32_t a = TV_INPUT_G; a <= TV_INPUT_OPENING; a++)
        for (uint32_t b = 0; b <= TV_INPUT_OPENING + 1; b++)
            if (a != b && std::strcmp(tv_input_text(a), tv_input_text(b)) == 0)
                return 1;
    if (std::strcmp(tv_input_text(0), tv_input_text(TV_INPUT_OPENING + 1)) != 0)
        return 1;
    return 0;
}
