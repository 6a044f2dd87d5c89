/* NULL with length 0, for every pointer of every function. An output is then too short; an input is empty. */
#include <string.h>

#include "check.h"
#include "circuits.h"
#include "lent.h"
#include "tests.h"

#define NONE NULL, 0

static uint8_t weights[SULMEDRA_TABLE_BYTES], marks[SULMEDRA_TABLE_BYTES], rows[SULMEDRA_ROW_BYTES], gates[SULMEDRA_LIST_BYTES];
static uint8_t l[SULMEDRA_L_BYTES], q[SULMEDRA_Q_BYTES], c[SULMEDRA_C_BYTES], move[SULMEDRA_MOVE_BYTES], moves[SULMEDRA_LOG_BYTES];
static uint8_t answer[SULMEDRA_REPLY_BYTES];

static void reading(void)
{
    about("NULL: read");
    CHECK(sulmedra_read(1, NONE, WHOLE(weights), WHOLE(rows)).number == SULMEDRA_DONE);
    CHECK(rows[0] == 1);
    CHECK(sulmedra_read(1, NONE, NONE, WHOLE(rows)).number == SULMEDRA_FAULT_LENT_OUTPUT);
    CHECK(sulmedra_read(1, NONE, WHOLE(weights), NONE).number == SULMEDRA_FAULT_LENT_OUTPUT);
    CHECK(sulmedra_read(1, NONE, NONE, NONE).number == SULMEDRA_FAULT_LENT_OUTPUT);
}

static void tables(void)
{
    about("NULL: odd_set, coefficients, new_weights");
    CHECK(sulmedra_odd_set(1, NONE, WHOLE(marks)).number == SULMEDRA_FAULT_TABLE_RULE);
    CHECK(sulmedra_odd_set(1, WHOLE(weights), NONE).number == SULMEDRA_FAULT_LENT_OUTPUT);
    CHECK(sulmedra_odd_set(1, NONE, NONE).number == SULMEDRA_FAULT_LENT_OUTPUT);
    CHECK(sulmedra_coefficients(1, NONE, WHOLE(l), WHOLE(q), WHOLE(c)).number == SULMEDRA_FAULT_TABLE_RULE);
    CHECK(sulmedra_coefficients(1, WHOLE(weights), NONE, WHOLE(q), WHOLE(c)).number == SULMEDRA_FAULT_LENT_OUTPUT);
    CHECK(sulmedra_coefficients(1, WHOLE(weights), WHOLE(l), NONE, WHOLE(c)).number == SULMEDRA_FAULT_LENT_OUTPUT);
    CHECK(sulmedra_coefficients(1, WHOLE(weights), WHOLE(l), WHOLE(q), NONE).number == SULMEDRA_FAULT_LENT_OUTPUT);
    CHECK(sulmedra_coefficients(1, NONE, NONE, NONE, NONE).number == SULMEDRA_FAULT_LENT_OUTPUT);
    CHECK(sulmedra_new_weights(1, NONE, WHOLE(marks), WHOLE(weights)).number == SULMEDRA_FAULT_TABLE_RULE);
    CHECK(sulmedra_new_weights(1, WHOLE(weights), NONE, WHOLE(marks)).number == SULMEDRA_FAULT_TABLE_RULE);
    CHECK(sulmedra_new_weights(1, WHOLE(weights), WHOLE(marks), NONE).number == SULMEDRA_FAULT_LENT_OUTPUT);
    CHECK(sulmedra_new_weights(1, NONE, NONE, NONE).number == SULMEDRA_FAULT_LENT_OUTPUT);
}

static void comparing(void)
{
    const uint8_t gate[] = {T(0)};
    about("NULL: compare");
    CHECK(sulmedra_compare(1, NONE, NONE).number == SULMEDRA_DONE);
    CHECK(sulmedra_compare(1, NONE, NONE).same == 1);
    CHECK(sulmedra_compare(1, NONE, WHOLE(gate)).number == SULMEDRA_DONE);
    CHECK(sulmedra_compare(1, NONE, WHOLE(gate)).same == 0);
    CHECK(sulmedra_compare(1, WHOLE(gate), NONE).number == SULMEDRA_DONE);
    CHECK(sulmedra_compare(1, WHOLE(gate), NONE).same == 0);
    CHECK(sulmedra_compare(0, NONE, NONE).number == SULMEDRA_FAULT_WIRE_COUNT);
}

static void writing(void)
{
    about("NULL: write");
    CHECK(sulmedra_write(1, NONE, WHOLE(rows), WHOLE(gates)).number == SULMEDRA_FAULT_TABLE_RULE);
    CHECK(sulmedra_write(1, WHOLE(weights), NONE, WHOLE(gates)).number == SULMEDRA_FAULT_ROW_RULE);
    CHECK(sulmedra_write(1, WHOLE(weights), WHOLE(rows), NONE).number == SULMEDRA_FAULT_LENT_OUTPUT);
    CHECK(sulmedra_write(1, NONE, NONE, NONE).number == SULMEDRA_FAULT_LENT_OUTPUT);
}

static void moving(void)
{
    about("NULL: carry_out, find, move_at");
    CHECK(sulmedra_carry_out(1, NONE, WHOLE(move)).number == SULMEDRA_FAULT_LENT_OUTPUT);
    CHECK(sulmedra_carry_out(1, WHOLE(marks), NONE).number == SULMEDRA_FAULT_BAD_MOVE);
    CHECK(sulmedra_carry_out(1, NONE, NONE).number == SULMEDRA_FAULT_LENT_OUTPUT);
    CHECK(sulmedra_carry_out(1, WHOLE(marks), NONE).differ == 0);
    CHECK(sulmedra_carry_out(1, NONE, NONE).differ == 0);
    CHECK(sulmedra_find(1, NONE, WHOLE(move)).number == SULMEDRA_FAULT_TABLE_RULE);
    CHECK(sulmedra_find(1, WHOLE(marks), NONE).number == SULMEDRA_FAULT_LENT_OUTPUT);
    CHECK(sulmedra_find(1, NONE, NONE).number == SULMEDRA_FAULT_LENT_OUTPUT);
    CHECK(sulmedra_move_at(NONE, 0).length == 0);
}

static void trimming(void)
{
    about("NULL: trim");
    CHECK(sulmedra_trim(1, NONE, WHOLE(gates), WHOLE(moves)).number == SULMEDRA_DONE);
    CHECK(sulmedra_trim(1, NONE, NONE, WHOLE(moves)).number == SULMEDRA_FAULT_LENT_OUTPUT);
    CHECK(sulmedra_trim(1, NONE, WHOLE(gates), NONE).number == SULMEDRA_FAULT_LENT_OUTPUT);
    CHECK(sulmedra_trim(1, NONE, NONE, NONE).number == SULMEDRA_FAULT_LENT_OUTPUT);
}

static void texts(void)
{
    about("NULL: read_text, answer");
    CHECK(sulmedra_read_text(NONE, WHOLE(gates)).number == SULMEDRA_FAULT_MALFORMED);
    CHECK(sulmedra_read_text(NONE, NONE).number == SULMEDRA_FAULT_LENT_OUTPUT);
    CHECK(sulmedra_read_text((const uint8_t *)"01\n", 3, NONE).number == SULMEDRA_FAULT_LENT_OUTPUT);
    CHECK(sulmedra_answer(NONE, WHOLE(answer)).number == SULMEDRA_DONE);
    CHECK(memcmp(answer, "refused 09 0001\n", 16) == 0);
    CHECK(sulmedra_answer(NONE, NONE).number == SULMEDRA_FAULT_LENT_OUTPUT);
}

void test_null(void)
{
    reading();
    tables();
    comparing();
    writing();
    moving();
    trimming();
    texts();
}
