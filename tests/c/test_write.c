/* sulmedra_write, and reading back what it wrote. */
#include "check.h"
#include "circuits.h"
#include "faulty.h"
#include "lent.h"
#include "tests.h"

typedef struct {
    lent weights, rows, gates;
    sulmedra_written reply;
} write_call;

static write_call call_write(size_t n, lent weights, lent rows, size_t gates_len)
{
    write_call call = {weights, rows, lend(gates_len), {0, 0, 0}};
    call.reply = sulmedra_write(n, weights.bytes, weights.len, rows.bytes, rows.len, call.gates.bytes, call.gates.len);
    CHECK(call.reply.place == 0);
    CHECK(untouched(&call.weights));
    CHECK(untouched(&call.rows));
    return call;
}

static lent lend_rows(row_list given)
{
    return lend_copy(given.of, SULMEDRA_ROW_BYTES);
}

/* On one wire no CNOT is free to choose, so that every byte is known. */
static void spelled(unsigned weight, const uint8_t *due, size_t len)
{
    write_call call = call_write(1, lend_table(only(1, weight)), lend_rows(same_wires(1)), SULMEDRA_WRITE_BYTES);
    CHECK(call.reply.number == SULMEDRA_DONE);
    CHECK(call.reply.gates == len / SULMEDRA_GATE_BYTES);
    CHECK(starts_with(&call.gates, due, len));
    take_back();
}

static void spellings(void)
{
    about("write: the spelling of a weight");
    spelled(1, LIST(T(0)));
    spelled(2, LIST(ON(SULMEDRA_S, 0)));
    spelled(3, LIST(ON(SULMEDRA_S, 0), T(0)));
    spelled(4, LIST(ON(SULMEDRA_S, 0), ON(SULMEDRA_S, 0)));
    spelled(5, LIST(ON(SULMEDRA_S_DAGGER, 0), ON(SULMEDRA_T_DAGGER, 0)));
    spelled(6, LIST(ON(SULMEDRA_S_DAGGER, 0)));
    spelled(7, LIST(ON(SULMEDRA_T_DAGGER, 0)));
}

/* Weights and rows of a list of noise, written and read again. */
static void written_and_read(size_t n)
{
    table weights, again;
    row_list rows, rows_again;
    gate_list list = noise_gates(n, 400);
    sulmedra_read(n, list.bytes, list.len, weights.at, sizeof weights.at, rows.of, sizeof rows.of);
    write_call call = call_write(n, lend_table(weights), lend_rows(rows), SULMEDRA_WRITE_BYTES);
    CHECK(call.reply.number == SULMEDRA_DONE);
    CHECK(call.reply.gates <= n * (1u << n) + n * n);
    CHECK(rack_runs(call.gates.bytes, SULMEDRA_GATE_BYTES * call.reply.gates));
    CHECK(untouched_after(&call.gates, SULMEDRA_GATE_BYTES * call.reply.gates));
    sulmedra_read(n, call.gates.bytes, SULMEDRA_GATE_BYTES * call.reply.gates, again.at, sizeof again.at, rows_again.of,
                  sizeof rows_again.of);
    CHECK(starts_with(&call.weights, again.at, sizeof again.at));
    CHECK(starts_with(&call.rows, rows_again.of, sizeof rows_again.of));
    take_back();
}

static void refused(write_call call, uint64_t number)
{
    CHECK(call.reply.number == number);
    CHECK(call.reply.gates == 0);
    CHECK(untouched(&call.gates));
    take_back();
}

static void rows_refused(const uint8_t *rows, size_t len)
{
    refused(call_write(2, lend_table(zeros()), lend_copy(rows, len), SULMEDRA_WRITE_BYTES), SULMEDRA_FAULT_ROW_RULE);
}

static void faulty_rows(void)
{
    about("write: M9, rows that cancel");
    rows_refused(LIST(1, 1, 0, 0, 0, 0, 0, 0));
    about("write: a row of 0");
    rows_refused(LIST(1, 0, 0, 0, 0, 0, 0, 0));
    about("write: a bit beyond n");
    rows_refused(LIST(1, 6, 0, 0, 0, 0, 0, 0));
    about("write: a row beyond n");
    rows_refused(LIST(1, 2, 1, 0, 0, 0, 0, 0));
    about("write: seven and nine rows");
    rows_refused(LIST(1, 2, 0, 0, 0, 0, 0));
    rows_refused(LIST(1, 2, 0, 0, 0, 0, 0, 0, 0));
}

static void refusals(void)
{
    about("write: 1 before 8 before 6 before 7");
    for (size_t i = 0; i < WIRE_COUNTS; i++)
        refused(call_write(faulty_wire_counts[i], lend(1), lend(1), 0), SULMEDRA_FAULT_WIRE_COUNT);
    refused(call_write(2, lend(1), lend(1), SULMEDRA_WRITE_BYTES - 1), SULMEDRA_FAULT_LENT_OUTPUT);
    refused(call_write(2, lend(1), lend(1), SULMEDRA_WRITE_BYTES), SULMEDRA_FAULT_TABLE_RULE);
    for (size_t i = 0; i < FAULTY_TABLES; i++)
        refused(call_write(2, lend_faulty_table(i, MOST_WEIGHT), lend_rows(same_wires(2)), SULMEDRA_WRITE_BYTES),
                SULMEDRA_FAULT_TABLE_RULE);
}

/* More may be lent than is needed. */
static void more_room(void)
{
    about("write: more room");
    write_call call = call_write(1, lend_table(only(1, 1)), lend_rows(same_wires(1)), SULMEDRA_WRITE_BYTES + 1);
    CHECK(call.reply.number == SULMEDRA_DONE);
    CHECK(starts_with(&call.gates, LIST(T(0))));
    take_back();
}

void test_write(void)
{
    spellings();
    about("write: read back");
    for (size_t n = 1; n <= SULMEDRA_MAX_WIRES; n++)
        written_and_read(n);
    more_room();
    refusals();
    faulty_rows();
}
