/* A planner commits to two clearances and opens one; a cell verifies it against the commitment, reads it, and refuses another value. */
#include <stdio.h>

#include "tvarchula.h"

enum { DEPTH = 1, RATE = 2, K0 = 1 };

int main(void)
{
    /* Planner and cell agree on the field and the code: depth, rate and k0, base row, two diagonals. */
    const bool field = TV_FIELD_1;
    const tv_parameters code = {DEPTH, RATE, K0};
    const uint32_t g[] = {1, 1}, t[] = {2, 3}, t2[] = {2147483645u, 2147483644u};

    /* Planner: a table of two clearances, its coefficients, the commitment. */
    const int32_t table[] = {1250, -300};
    uint32_t message[TV_MESSAGE_LEN(DEPTH, K0)], block[TV_BLOCK_LEN(DEPTH, RATE, K0)];
    if (tv_table_to_coefficients(field, code, table, 2, message, 2).number != TV_DONE)
        return 1;
    if (tv_encode(field, code, g, 2, t, 2, t2, 2, message, 2, block, 4).number != TV_DONE)
        return 1;

    /* Entry 1 is opened at the corner {1}, under the challenge r. */
    const uint32_t z[] = {1}, r[] = {77}, queries[] = {0, 1};
    uint32_t opening[TV_OPENING_LEN(DEPTH, RATE, K0)], work[2 * TV_MESSAGE_LEN(DEPTH, K0)], value;
    if (tv_write_opening(field, code, g, 2, t, 2, t2, 2, message, 2, z, 1, r, 1, opening, 6, work, 4, &value).number != TV_DONE)
        return 1;

    /* Cell: verifies, then reads. Only TV_ACCEPTED accepts. */
    tv_answer verdict = tv_verify_opening(field, code, g, 2, t, 2, t2, 2, block, 4, z, 1, value, r, 1, queries, 2, opening, 6);
    if (verdict.number != TV_ACCEPTED)
        return 1;
    tv_reading reading = tv_read_clearance(field, value);
    if (reading.answer.number != TV_DONE)
        return 1;
    switch (reading.kind) { /* Only TV_FREE may be passed. */
    case TV_FREE: printf("entry 1 accepted: free by %u\n", (unsigned)reading.amount); break;
    case TV_CONTACT: printf("entry 1 accepted: contact, must not be passed\n"); break;
    case TV_OVERLAP: printf("entry 1 accepted: overlap of %u, must not be passed\n", (unsigned)reading.amount); break;
    default: return 1;
    }

    /* The other entry's clearance instead. */
    verdict = tv_verify_opening(field, code, g, 2, t, 2, t2, 2, block, 4, z, 1, 1250, r, 1, queries, 2, opening, 6);
    printf("1250 instead: %u, %s\n", (unsigned)verdict.number, tv_number_text(verdict.number));
    return verdict.number == TV_FAILED_SUM ? 0 : 1;
}
