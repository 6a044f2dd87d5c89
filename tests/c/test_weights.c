/* sulmedra_odd_set, sulmedra_coefficients and sulmedra_new_weights. */
#include <string.h>

#include "check.h"
#include "circuits.h"
#include "faulty.h"
#include "lent.h"
#include "tests.h"

/* ---- odd_set */

static sulmedra_reply call_odd_set(size_t n, const lent *weights, const lent *marks)
{
    return sulmedra_odd_set(n, weights->bytes, weights->len, marks->bytes, marks->len);
}

static void odd_set_is(size_t n, table weights, table due)
{
    lent given = lend_table(weights), marks = lend(SULMEDRA_TABLE_BYTES);
    sulmedra_reply reply = call_odd_set(n, &given, &marks);
    CHECK(reply.number == SULMEDRA_DONE);
    CHECK(reply.place == 0);
    CHECK(untouched(&given));
    CHECK(starts_with(&marks, due.at, SULMEDRA_TABLE_BYTES));
    take_back();
}

static void odd_set_refused(size_t n, lent weights, size_t marks_len, uint64_t number)
{
    lent marks = lend(marks_len);
    sulmedra_reply reply = call_odd_set(n, &weights, &marks);
    CHECK(reply.number == number);
    CHECK(reply.place == 0);
    CHECK(untouched(&weights));
    CHECK(untouched(&marks));
    take_back();
}

static void odd_sets(void)
{
    table all = zeros(), odd = zeros();
    for (unsigned p = 1; p < SULMEDRA_TABLE_BYTES; p++) {
        all.at[p] = (uint8_t)(p % 8);
        odd.at[p] = (uint8_t)(p % 2);
    }
    about("odd_set: M7");
    odd_set_is(4, ones(1, 15), ones(1, 15));
    about("odd_set: M6");
    odd_set_is(3, doubly_controlled_z(), ones(1, 7));
    about("odd_set: every weight");
    odd_set_is(8, all, odd);
    about("odd_set: 1 before 8 before 6");
    for (size_t i = 0; i < WIRE_COUNTS; i++)
        odd_set_refused(faulty_wire_counts[i], lend(1), 1, SULMEDRA_FAULT_WIRE_COUNT);
    odd_set_refused(2, lend(1), SULMEDRA_TABLE_BYTES - 1, SULMEDRA_FAULT_LENT_OUTPUT);
    odd_set_refused(2, lend_table(zeros()), SULMEDRA_TABLE_BYTES + 1, SULMEDRA_FAULT_LENT_OUTPUT);
    for (size_t i = 0; i < FAULTY_TABLES; i++)
        odd_set_refused(2, lend_faulty_table(i, MOST_WEIGHT), SULMEDRA_TABLE_BYTES, SULMEDRA_FAULT_TABLE_RULE);
}

/* ---- coefficients */

typedef struct {
    uint8_t l[SULMEDRA_L_BYTES], q[SULMEDRA_Q_BYTES], c[SULMEDRA_C_BYTES];
} coefficients;

typedef struct {
    lent weights, l, q, c;
    sulmedra_reply reply;
} coefficients_call;

static coefficients_call call_coefficients(size_t n, lent weights, size_t l_len, size_t q_len, size_t c_len)
{
    coefficients_call call = {weights, lend(l_len), lend(q_len), lend(c_len), {0, 0}};
    call.reply = sulmedra_coefficients(n, weights.bytes, weights.len, call.l.bytes, l_len, call.q.bytes, q_len, call.c.bytes, c_len);
    CHECK(call.reply.place == 0);
    CHECK(untouched(&call.weights));
    return call;
}

static void coefficients_are(size_t n, table weights, const coefficients *due)
{
    coefficients_call call = call_coefficients(n, lend_table(weights), SULMEDRA_L_BYTES, SULMEDRA_Q_BYTES, SULMEDRA_C_BYTES);
    CHECK(call.reply.number == SULMEDRA_DONE);
    CHECK(starts_with(&call.l, due->l, SULMEDRA_L_BYTES));
    CHECK(starts_with(&call.q, due->q, SULMEDRA_Q_BYTES));
    CHECK(starts_with(&call.c, due->c, SULMEDRA_C_BYTES));
    take_back();
}

static void coefficients_refused(coefficients_call call, uint64_t number)
{
    CHECK(call.reply.number == number);
    CHECK(untouched(&call.l));
    CHECK(untouched(&call.q));
    CHECK(untouched(&call.c));
    take_back();
}

static void coefficients_of_three_wires(void)
{
    coefficients due;
    memset(&due, 0, sizeof due);
    about("coefficients: M7");
    coefficients_are(4, ones(1, 15), &due);
    about("coefficients: M6");
    due.c[64 * 2 + 8 * 1 + 0] = 1;
    coefficients_are(3, doubly_controlled_z(), &due);
    about("coefficients: wires 1, 3 and 6 of eight, weight 5");
    memset(&due, 0, sizeof due);
    due.l[1] = due.l[3] = due.l[6] = 5;
    due.q[8 * 3 + 1] = due.q[8 * 6 + 1] = due.q[8 * 6 + 3] = 3;
    due.c[64 * 6 + 8 * 3 + 1] = 1;
    coefficients_are(8, only(2 + 8 + 64, 5), &due);
    about("coefficients: wires 2 and 5, weight 2: a controlled Z and more");
    memset(&due, 0, sizeof due);
    due.l[2] = due.l[5] = 2;
    due.q[8 * 5 + 2] = 2;
    coefficients_are(6, only(4 + 32, 2), &due);
}

static void coefficients_refusals(void)
{
    const size_t l = SULMEDRA_L_BYTES, q = SULMEDRA_Q_BYTES, c = SULMEDRA_C_BYTES;
    about("coefficients: 1 before 8 before 6");
    for (size_t i = 0; i < WIRE_COUNTS; i++)
        coefficients_refused(call_coefficients(faulty_wire_counts[i], lend(1), 0, 0, 0), SULMEDRA_FAULT_WIRE_COUNT);
    coefficients_refused(call_coefficients(2, lend(1), l - 1, q, c), SULMEDRA_FAULT_LENT_OUTPUT);
    coefficients_refused(call_coefficients(2, lend_table(zeros()), l + 1, q, c), SULMEDRA_FAULT_LENT_OUTPUT);
    coefficients_refused(call_coefficients(2, lend_table(zeros()), l, q - 1, c), SULMEDRA_FAULT_LENT_OUTPUT);
    coefficients_refused(call_coefficients(2, lend_table(zeros()), l, q + 1, c), SULMEDRA_FAULT_LENT_OUTPUT);
    coefficients_refused(call_coefficients(2, lend_table(zeros()), l, q, c - 1), SULMEDRA_FAULT_LENT_OUTPUT);
    coefficients_refused(call_coefficients(2, lend_table(zeros()), l, q, c + 1), SULMEDRA_FAULT_LENT_OUTPUT);
    for (size_t i = 0; i < FAULTY_TABLES; i++)
        coefficients_refused(call_coefficients(2, lend_faulty_table(i, MOST_WEIGHT), l, q, c), SULMEDRA_FAULT_TABLE_RULE);
}

/* ---- new_weights */

static sulmedra_reply call_new_weights(size_t n, const lent *weights, const lent *marks, const lent *out)
{
    return sulmedra_new_weights(n, weights->bytes, weights->len, marks->bytes, marks->len, out->bytes, out->len);
}

static void new_weights_are(size_t n, table weights, table marks, table due)
{
    lent given = lend_table(weights), members = lend_table(marks), out = lend(SULMEDRA_TABLE_BYTES);
    sulmedra_reply reply = call_new_weights(n, &given, &members, &out);
    CHECK(reply.number == SULMEDRA_DONE);
    CHECK(reply.place == 0);
    CHECK(untouched(&given));
    CHECK(untouched(&members));
    CHECK(starts_with(&out, due.at, SULMEDRA_TABLE_BYTES));
    take_back();
}

static void new_weights_refused(size_t n, lent weights, lent marks, size_t out_len, uint64_t number)
{
    lent out = lend(out_len);
    sulmedra_reply reply = call_new_weights(n, &weights, &marks, &out);
    CHECK(reply.number == number);
    CHECK(reply.place == 0);
    CHECK(untouched(&weights));
    CHECK(untouched(&marks));
    CHECK(untouched(&out));
    take_back();
}

static void new_weights_of_one_signature(void)
{
    about("new_weights: M6 keeps its weights");
    new_weights_are(3, doubly_controlled_z(), ones(1, 7), doubly_controlled_z());
    about("new_weights: M7, nothing left");
    new_weights_are(4, ones(1, 15), zeros(), zeros());
    about("new_weights: M7 without parity 1");
    new_weights_are(4, ones(2, 15), ones(1, 1), only(1, 7));
    about("new_weights: an S is not lost where a T stands");
    new_weights_are(1, only(1, 3), ones(1, 1), only(1, 3));
}

/* On one wire, weight 0 and mark 1: l asks for 7 more, which is odd, so that nothing is left of the mark. On three wires, weight 0 and
 * the mark of all three: 3 on each pair and 1 on each wire settle l and q, but c stays, and with it another phase. */
static void new_weights_of_another_signature(void)
{
    table due = ones(1, 7);
    due.at[3] = due.at[5] = due.at[6] = 3;
    about("new_weights: another l");
    new_weights_are(1, zeros(), ones(1, 1), zeros());
    about("new_weights: another c");
    new_weights_are(3, zeros(), only(7, 1), due);
}

static void new_weights_refusals(void)
{
    about("new_weights: 1 before 8 before 6");
    for (size_t i = 0; i < WIRE_COUNTS; i++)
        new_weights_refused(faulty_wire_counts[i], lend(1), lend(1), 1, SULMEDRA_FAULT_WIRE_COUNT);
    new_weights_refused(2, lend(1), lend(1), SULMEDRA_TABLE_BYTES - 1, SULMEDRA_FAULT_LENT_OUTPUT);
    new_weights_refused(2, lend_table(zeros()), lend_table(zeros()), SULMEDRA_TABLE_BYTES + 1, SULMEDRA_FAULT_LENT_OUTPUT);
    for (size_t i = 0; i < FAULTY_TABLES; i++) {
        new_weights_refused(2, lend_faulty_table(i, MOST_WEIGHT), lend_table(zeros()), SULMEDRA_TABLE_BYTES,
                            SULMEDRA_FAULT_TABLE_RULE);
        new_weights_refused(2, lend_table(zeros()), lend_faulty_table(i, MOST_MARK), SULMEDRA_TABLE_BYTES,
                            SULMEDRA_FAULT_TABLE_RULE);
    }
}

void test_weights(void)
{
    odd_sets();
    coefficients_of_three_wires();
    coefficients_refusals();
    new_weights_of_one_signature();
    new_weights_of_another_signature();
    new_weights_refusals();
}
