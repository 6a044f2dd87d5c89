/* sulmedra_read. */
#include "check.h"
#include "circuits.h"
#include "faulty.h"
#include "lent.h"
#include "tests.h"

typedef struct {
    const char *name;
    size_t n;
    const uint8_t *gates;
    size_t len;
    unsigned parity, weight; /* the one weight that is not 0, if there is one */
    uint8_t rows[SULMEDRA_ROW_BYTES];
} sound_list;

static const sound_list sound_lists[] = {
    {"M1: the empty list", 1, EMPTY_LIST, 0, 0, {1}},
    {"M2: one T", 1, LIST(T(0)), 1, 1, {1}},
    {"M3: T, T dagger", 1, LIST(T(0), ON(SULMEDRA_T_DAGGER, 0)), 0, 0, {1}},
    {"M4: T behind a CNOT", 2, LIST(CNOT(0, 1), T(1)), 3, 1, {1, 3}},
    {"M5: wires exchanged", 2, LIST(CNOT(0, 1), CNOT(1, 0), CNOT(0, 1)), 0, 0, {2, 1}},
    {"S", 1, LIST(ON(SULMEDRA_S, 0)), 1, 2, {1}},
    {"Z", 1, LIST(ON(SULMEDRA_Z, 0)), 1, 4, {1}},
    {"S dagger", 1, LIST(ON(SULMEDRA_S_DAGGER, 0)), 1, 6, {1}},
    {"the last of eight wires", 8, LIST(CNOT(0, 7), T(7)), 129, 1, {1, 2, 4, 8, 16, 32, 64, 129}},
};

typedef struct {
    lent gates, weights, rows;
    sulmedra_reply reply;
} read_call;

static read_call call_read(size_t n, const uint8_t *list, size_t len, size_t weights_len, size_t rows_len)
{
    read_call call = {lend_copy(list, len), lend(weights_len), lend(rows_len), {0, 0}};
    call.reply = sulmedra_read(n, call.gates.bytes, call.gates.len, call.weights.bytes, call.weights.len, call.rows.bytes,
                               call.rows.len);
    return call;
}

static read_call call_with_room(size_t n, const uint8_t *list, size_t len)
{
    return call_read(n, list, len, SULMEDRA_TABLE_BYTES, SULMEDRA_ROW_BYTES);
}

static void sound(const sound_list *due)
{
    about(due->name);
    read_call call = call_with_room(due->n, due->gates, due->len);
    CHECK(call.reply.number == SULMEDRA_DONE);
    CHECK(call.reply.place == 0);
    CHECK(starts_with(&call.weights, only(due->parity, due->weight).at, SULMEDRA_TABLE_BYTES));
    CHECK(starts_with(&call.rows, due->rows, SULMEDRA_ROW_BYTES));
    CHECK(untouched(&call.gates));
    take_back();
}

static void refused(read_call call, uint64_t number, uint64_t place)
{
    CHECK(call.reply.number == number);
    CHECK(call.reply.place == place);
    CHECK(untouched(&call.gates));
    CHECK(untouched(&call.weights));
    CHECK(untouched(&call.rows));
    take_back();
}

static void faulty_counts_and_lists(void)
{
    about("wire count");
    for (size_t i = 0; i < WIRE_COUNTS; i++)
        refused(call_with_room(faulty_wire_counts[i], EMPTY_LIST), SULMEDRA_FAULT_WIRE_COUNT, 0);
    for (size_t i = 0; i < FAULTY_LISTS; i++) {
        const faulty_list *faulty = &faulty_lists[i];
        about(faulty->name);
        refused(call_with_room(2, faulty->gates, faulty->len), faulty->number, faulty->place);
    }
}

static void faulty_outputs(void)
{
    about("lent outputs");
    refused(call_read(1, EMPTY_LIST, SULMEDRA_TABLE_BYTES - 1, SULMEDRA_ROW_BYTES), SULMEDRA_FAULT_LENT_OUTPUT, 0);
    refused(call_read(1, EMPTY_LIST, SULMEDRA_TABLE_BYTES + 1, SULMEDRA_ROW_BYTES), SULMEDRA_FAULT_LENT_OUTPUT, 0);
    refused(call_read(1, EMPTY_LIST, SULMEDRA_TABLE_BYTES, SULMEDRA_ROW_BYTES - 1), SULMEDRA_FAULT_LENT_OUTPUT, 0);
    refused(call_read(1, EMPTY_LIST, SULMEDRA_TABLE_BYTES, SULMEDRA_ROW_BYTES + 1), SULMEDRA_FAULT_LENT_OUTPUT, 0);
    about("1 before 2 before 8 before 3");
    refused(call_read(9, LIST(7, 9), 0, 0), SULMEDRA_FAULT_WIRE_COUNT, 0);
    refused(call_read(1, LIST(7, 9), 0, 0), SULMEDRA_FAULT_LIST_LENGTH, 0);
    refused(call_read(1, LIST(7, 9, 9), 0, 0), SULMEDRA_FAULT_LENT_OUTPUT, 0);
    refused(call_with_room(1, LIST(7, 9, 9)), SULMEDRA_FAULT_GATE_KIND, 0);
}

/* The weights and rows of a list say what running it does. */
static void said_as_run(size_t n, size_t gates)
{
    gate_list list = noise_gates(n, gates);
    read_call call = call_with_room(n, list.bytes, list.len);
    CHECK(call.reply.number == SULMEDRA_DONE);
    for (unsigned x = 0; x < 1u << n; x++)
        CHECK(same_outcome(said(n, call.weights.bytes, call.rows.bytes, x), run(list.bytes, list.len, x)));
    CHECK(untouched_after(&call.weights, SULMEDRA_TABLE_BYTES));
    CHECK(untouched_after(&call.rows, SULMEDRA_ROW_BYTES));
    take_back();
}

void test_read(void)
{
    for (size_t i = 0; i < sizeof sound_lists / sizeof *sound_lists; i++)
        sound(&sound_lists[i]);
    faulty_counts_and_lists();
    faulty_outputs();
    about("lists of noise");
    for (size_t n = 1; n <= SULMEDRA_MAX_WIRES; n++)
        said_as_run(n, 60);
    said_as_run(SULMEDRA_MAX_WIRES, SULMEDRA_MAX_GATES);
}
