/* sulmedra_trim. */
#include <string.h>

#include "check.h"
#include "circuits.h"
#include "faulty.h"
#include "lent.h"
#include "tests.h"

typedef struct {
    size_t n;
    lent gates, out, log;
    sulmedra_trimmed reply;
} trim_call;

static trim_call call_trim(size_t n, const uint8_t *list, size_t len, size_t out_len, size_t log_len)
{
    trim_call call = {n, lend_copy(list, len), lend(out_len), lend(log_len), {0, 0, 0, 0, 0, 0, 0}};
    call.reply = sulmedra_trim(n, call.gates.bytes, call.gates.len, call.out.bytes, call.out.len, call.log.bytes, call.log.len);
    CHECK(untouched(&call.gates));
    return call;
}

static trim_call call_with_room(size_t n, const uint8_t *list, size_t len)
{
    return call_trim(n, list, len, SULMEDRA_WRITE_BYTES, SULMEDRA_LOG_BYTES);
}

static size_t written(const trim_call *call)
{
    return SULMEDRA_GATE_BYTES * call->reply.gates;
}

/* ---- what holds of every trim */

static table odd_set_of(size_t n, const uint8_t *gates, size_t len)
{
    table weights, marks;
    row_list rows;
    sulmedra_read(n, gates, len, weights.at, sizeof weights.at, rows.of, sizeof rows.of);
    sulmedra_odd_set(n, weights.at, sizeof weights.at, marks.at, sizeof marks.at);
    return marks;
}

static void acts_as_before(const trim_call *call)
{
    for (unsigned x = 0; x < 1u << call->n; x++)
        CHECK(same_outcome(run(call->gates.bytes, call->gates.len, x), run(call->out.bytes, written(call), x)));
}

static void has_its_counts(const trim_call *call)
{
    const sulmedra_trimmed *reply = &call->reply;
    CHECK(reply->number == SULMEDRA_DONE);
    CHECK(reply->place == 0);
    CHECK(reply->t_in == t_gates(call->gates.bytes, call->gates.len));
    CHECK(reply->odd_size == members(odd_set_of(call->n, call->gates.bytes, call->gates.len).at));
    CHECK(reply->t_out == t_gates(call->out.bytes, written(call)));
    CHECK(reply->t_out == members(odd_set_of(call->n, call->out.bytes, written(call)).at));
    CHECK(reply->t_out <= (call->n * call->n + call->n) / 2 + 1);
    CHECK(reply->t_out + reply->moves <= reply->odd_size);
}

/* The logged moves lead from the one odd set to the other, each tells how many marks differ, and no move is left. */
static void log_leads_there(const trim_call *call)
{
    table marks = odd_set_of(call->n, call->gates.bytes, call->gates.len);
    table last = odd_set_of(call->n, call->out.bytes, written(call));
    uint8_t move[SULMEDRA_MOVE_BYTES];
    for (size_t k = 0; k < call->reply.moves; k++) {
        sulmedra_part part = sulmedra_move_at(call->log.bytes, call->log.len, k);
        CHECK(part.start == SULMEDRA_MOVE_BYTES * k);
        table before = marks;
        sulmedra_carried carried = sulmedra_carry_out(call->n, WHOLE(marks.at), call->log.bytes + part.start, part.length);
        CHECK(carried.number == SULMEDRA_DONE);
        CHECK(carried.differ == differing(before.at, marks.at));
    }
    CHECK(memcmp(marks.at, last.at, sizeof marks.at) == 0);
    CHECK(sulmedra_find(call->n, last.at, sizeof last.at, move, sizeof move).found == 0);
}

/* What was written is a circuit to trim like any other. With as much lent as before, all of it stays. */
static void stays_when_trimmed_again(const trim_call *call)
{
    trim_call again = call_trim(call->n, call->out.bytes, written(call), call->out.len, call->log.len);
    CHECK(again.reply.number == SULMEDRA_DONE);
    CHECK(again.reply.place == 0);
    CHECK(again.reply.t_in == call->reply.t_out);
    CHECK(again.reply.odd_size == call->reply.t_out);
    CHECK(again.reply.t_out == call->reply.t_out);
    CHECK(again.reply.moves == 0);
    CHECK(again.reply.gates == call->reply.gates);
    CHECK(starts_with(&again.out, call->out.bytes, written(call)));
    CHECK(untouched(&again.log));
}

static void trimmed(const trim_call *call)
{
    has_its_counts(call);
    acts_as_before(call);
    log_leads_there(call);
    stays_when_trimmed_again(call);
    CHECK(rack_runs(call->out.bytes, written(call)));
    CHECK(untouched_after(&call->out, written(call)));
    CHECK(untouched_after(&call->log, SULMEDRA_MOVE_BYTES * call->reply.moves));
}

/* ---- circuits */

static void empty_circuit(void)
{
    about("trim: M1");
    trim_call call = call_with_room(1, EMPTY_LIST);
    trimmed(&call);
    CHECK(call.reply.t_in == 0 && call.reply.odd_size == 0 && call.reply.t_out == 0);
    CHECK(call.reply.moves == 0 && call.reply.gates == 0);
    CHECK(untouched(&call.out));
    CHECK(untouched(&call.log));
    take_back();
}

static void trims_to(const char *name, size_t n, table weights, uint64_t t_in, uint64_t t_out, uint64_t moves)
{
    uint8_t gates[SULMEDRA_WRITE_BYTES];
    row_list rows = same_wires(n);
    about(name);
    sulmedra_written list = sulmedra_write(n, weights.at, sizeof weights.at, rows.of, sizeof rows.of, gates, sizeof gates);
    trim_call call = call_with_room(n, gates, SULMEDRA_GATE_BYTES * list.gates);
    trimmed(&call);
    CHECK(call.reply.t_in == t_in);
    CHECK(call.reply.t_out == t_out);
    CHECK(call.reply.moves == moves);
    take_back();
}

/* T gates that meet on one parity: more T gates than members, and more gates than T gates. */
static void all_counts_differ(void)
{
    about("trim: five T on one wire, one behind a CNOT");
    trim_call call = call_with_room(2, LIST(T(0), T(0), T(0), T(0), T(0), CNOT(0, 1), T(1)));
    trimmed(&call);
    CHECK(call.reply.t_in == 6);
    CHECK(call.reply.odd_size == 2);
    CHECK(call.reply.moves == 0);
    CHECK(call.reply.gates > call.reply.t_out);
    take_back();
}

/* Z is read, and written as S S. */
static void z_alone(void)
{
    about("trim: a Z");
    trim_call call = call_with_room(1, LIST(ON(SULMEDRA_Z, 0)));
    trimmed(&call);
    CHECK(call.reply.gates == 2);
    CHECK(starts_with(&call.out, LIST(ON(SULMEDRA_S, 0), ON(SULMEDRA_S, 0))));
    take_back();
}

/* The fourteen-T block has one move; what is left is one gate, and nothing in it is free. More may be lent than is needed. */
static void fourteen(const char *name, size_t out_len, size_t log_len)
{
    uint8_t gates[SULMEDRA_WRITE_BYTES];
    table weights = ones(2, 15);
    row_list rows = same_wires(4);
    about(name);
    sulmedra_written list = sulmedra_write(4, weights.at, sizeof weights.at, rows.of, sizeof rows.of, gates, sizeof gates);
    trim_call call = call_trim(4, gates, SULMEDRA_GATE_BYTES * list.gates, out_len, log_len);
    trimmed(&call);
    CHECK(call.reply.t_in == 14);
    CHECK(call.reply.odd_size == 14);
    CHECK(call.reply.t_out == 1);
    CHECK(call.reply.moves == 1);
    CHECK(call.reply.gates == 1);
    CHECK(starts_with(&call.out, LIST(ON(SULMEDRA_T_DAGGER, 0))));
    take_back();
}

static void of_noise(size_t n, size_t gates)
{
    gate_list list = noise_gates(n, gates);
    about("trim: a circuit of noise");
    trim_call call = call_with_room(n, list.bytes, list.len);
    trimmed(&call);
    take_back();
}

/* ---- refusals */

static void refused(trim_call call, uint64_t number, uint64_t place)
{
    CHECK(call.reply.number == number);
    CHECK(call.reply.place == place);
    CHECK(call.reply.t_in == 0 && call.reply.odd_size == 0 && call.reply.t_out == 0);
    CHECK(call.reply.moves == 0 && call.reply.gates == 0);
    CHECK(untouched(&call.out));
    CHECK(untouched(&call.log));
    take_back();
}

static void refusals(void)
{
    about("trim: wire count");
    for (size_t i = 0; i < WIRE_COUNTS; i++)
        refused(call_with_room(faulty_wire_counts[i], EMPTY_LIST), SULMEDRA_FAULT_WIRE_COUNT, 0);
    for (size_t i = 0; i < FAULTY_LISTS; i++) {
        about(faulty_lists[i].name);
        refused(call_with_room(2, faulty_lists[i].gates, faulty_lists[i].len), faulty_lists[i].number, faulty_lists[i].place);
    }
    about("trim: lent outputs");
    refused(call_trim(1, LIST(T(0)), SULMEDRA_WRITE_BYTES - 1, SULMEDRA_LOG_BYTES), SULMEDRA_FAULT_LENT_OUTPUT, 0);
    refused(call_trim(1, LIST(T(0)), SULMEDRA_WRITE_BYTES, SULMEDRA_LOG_BYTES - 1), SULMEDRA_FAULT_LENT_OUTPUT, 0);
    about("trim: 1 before 2 before 8 before 3");
    refused(call_trim(9, LIST(7, 9), 0, 0), SULMEDRA_FAULT_WIRE_COUNT, 0);
    refused(call_trim(1, LIST(7, 9), 0, 0), SULMEDRA_FAULT_LIST_LENGTH, 0);
    refused(call_trim(1, LIST(7, 9, 9), 0, 0), SULMEDRA_FAULT_LENT_OUTPUT, 0);
    refused(call_with_room(1, LIST(7, 9, 9)), SULMEDRA_FAULT_GATE_KIND, 0);
}

void test_trim(void)
{
    empty_circuit();
    all_counts_differ();
    z_alone();
    fourteen("trim: the fourteen-T block", SULMEDRA_WRITE_BYTES, SULMEDRA_LOG_BYTES);
    fourteen("trim: more room for gates", SULMEDRA_WRITE_BYTES + 1, SULMEDRA_LOG_BYTES);
    fourteen("trim: more room for the log", SULMEDRA_WRITE_BYTES, SULMEDRA_LOG_BYTES + 1);
    trims_to("trim: M6", 3, doubly_controlled_z(), 7, 7, 0);
    trims_to("trim: M7", 4, ones(1, 15), 15, 0, 1);
    for (size_t n = 1; n <= SULMEDRA_MAX_WIRES; n++)
        of_noise(n, 200);
    of_noise(SULMEDRA_MAX_WIRES, SULMEDRA_MAX_GATES);
    refusals();
}
