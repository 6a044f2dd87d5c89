/* sulmedra_carry_out, sulmedra_find and sulmedra_move_at. */
#include <string.h>

#include "check.h"
#include "circuits.h"
#include "faulty.h"
#include "lent.h"
#include "tests.h"

/* The forty bytes of a move whose first bytes are given. */
typedef struct {
    uint8_t bytes[SULMEDRA_MOVE_BYTES];
} move;

static move move_of(const uint8_t *first, size_t len)
{
    move whole;
    memset(whole.bytes, 0, sizeof whole.bytes);
    memcpy(whole.bytes, first, len);
    return whole;
}

/* M8: z = 1 and seven members, for all 15 parities of four wires. */
static move marked_move(void)
{
    return move_of(LIST(1, 7, 2, 4, 6, 8, 10, 12, 14));
}

static lent lend_move(move given)
{
    return lend_copy(given.bytes, SULMEDRA_MOVE_BYTES);
}

/* The marks with one of them set, or with one of them cleared. */
static table with(table marks, unsigned parity)
{
    marks.at[parity] = 1;
    return marks;
}

static table without(table marks, unsigned parity)
{
    marks.at[parity] = 0;
    return marks;
}

/* ---- carry_out */

typedef struct {
    lent marks, move;
    sulmedra_carried reply;
} carry_call;

static carry_call call_carry_out(size_t n, lent marks, lent given)
{
    carry_call call = {marks, given, {0, 0, 0}};
    call.reply = sulmedra_carry_out(n, marks.bytes, marks.len, given.bytes, given.len);
    CHECK(call.reply.place == 0);
    CHECK(untouched(&call.move));
    return call;
}

static void carried_out(size_t n, table marks, move given, table due, uint64_t differ)
{
    carry_call call = call_carry_out(n, lend_table(marks), lend_move(given));
    CHECK(call.reply.number == SULMEDRA_DONE);
    CHECK(call.reply.differ == differ);
    CHECK(call.reply.differ == differing(marks.at, call.marks.bytes));
    CHECK(starts_with(&call.marks, due.at, SULMEDRA_TABLE_BYTES));
    take_back();
}

static void carry_refused(carry_call call, uint64_t number)
{
    CHECK(call.reply.number == number);
    CHECK(call.reply.differ == 0);
    CHECK(untouched(&call.marks));
    take_back();
}

static void carry_refusals(void)
{
    about("carry_out: 1 before 8 before 6 before 10");
    for (size_t i = 0; i < WIRE_COUNTS; i++)
        carry_refused(call_carry_out(faulty_wire_counts[i], lend(1), lend(1)), SULMEDRA_FAULT_WIRE_COUNT);
    carry_refused(call_carry_out(4, lend(SULMEDRA_TABLE_BYTES - 1), lend(1)), SULMEDRA_FAULT_LENT_OUTPUT);
    carry_refused(call_carry_out(4, lend(SULMEDRA_TABLE_BYTES + 1), lend(1)), SULMEDRA_FAULT_LENT_OUTPUT);
    carry_refused(call_carry_out(4, lend_table(only(1, 2)), lend(1)), SULMEDRA_FAULT_TABLE_RULE);
    carry_refused(call_carry_out(4, lend_table(only(0, 1)), lend(1)), SULMEDRA_FAULT_TABLE_RULE);
    carry_refused(call_carry_out(4, lend_table(only(16, 1)), lend(1)), SULMEDRA_FAULT_TABLE_RULE);
}

/* No legal move for the marks of all 15 parities of four wires. */
static void bad_bytes(const char *name, const uint8_t *bytes, size_t len)
{
    about(name);
    carry_refused(call_carry_out(4, lend_table(ones(1, 15)), lend_copy(bytes, len)), SULMEDRA_FAULT_BAD_MOVE);
}

static void bad_move(const char *name, const uint8_t *first, size_t len)
{
    bad_bytes(name, move_of(first, len).bytes, SULMEDRA_MOVE_BYTES);
}

/* M8 for marks without one of its members. */
static void no_member(void)
{
    about("carry_out: one of Y is no member");
    carry_refused(call_carry_out(4, lend_table(without(ones(1, 15), 14)), lend_move(marked_move())), SULMEDRA_FAULT_BAD_MOVE);
}

static void bad_moves(void)
{
    uint8_t longer[SULMEDRA_MOVE_BYTES + 1] = {0};
    memcpy(longer, marked_move().bytes, SULMEDRA_MOVE_BYTES);
    bad_bytes("carry_out: 39 bytes", longer, SULMEDRA_MOVE_BYTES - 1);
    bad_bytes("carry_out: 41 bytes", longer, SULMEDRA_MOVE_BYTES + 1);
    bad_move("carry_out: no Y", LIST(1, 0));
    bad_move("carry_out: 39 in Y", LIST(1, 39, 2, 4, 6, 8, 10, 12, 14));
    bad_move("carry_out: not ascending", LIST(1, 7, 4, 2, 6, 8, 10, 12, 14));
    bad_move("carry_out: a byte after Y", LIST(1, 7, 2, 4, 6, 8, 10, 12, 14, 1));
    bad_move("carry_out: the XOR of Y is not 0", LIST(1, 6, 2, 4, 6, 8, 10, 12));
    bad_move("carry_out: z from no two members", LIST(0, 7, 2, 4, 6, 8, 10, 12, 14));
    bad_move("carry_out: an odd triple", LIST(1, 3, 2, 4, 6));
    no_member();
}

/* Moves with z = 1. A mark that is flipped twice is as before. That of z is flipped by itself where Y has an odd number. */
static void flips_that_meet(void)
{
    about("carry_out: an even number in Y, so that z stays");
    carried_out(5, ones(16, 31), move_of(LIST(1, 8, 16, 18, 20, 22, 24, 26, 28, 30)), zeros(), 16);
    carried_out(5, with(ones(16, 31), 1), move_of(LIST(1, 8, 16, 18, 20, 22, 24, 26, 28, 30)), only(1, 1), 16);
    about("carry_out: z in Y, and mark 0 is flipped and cleared");
    carried_out(4, ones(1, 15), move_of(LIST(1, 8, 1, 3, 4, 6, 8, 10, 12, 14)), zeros(), 15);
    about("carry_out: z in Y and an odd number, so that z is flipped twice");
    carried_out(5, with(ones(16, 31), 1), move_of(LIST(1, 9, 1, 17, 18, 20, 22, 24, 26, 28, 30)), only(1, 1), 16);
    about("carry_out: 16 and 17 both in Y, each flipped twice");
    carried_out(5, ones(2, 17), move_of(LIST(1, 9, 3, 4, 6, 8, 10, 12, 14, 16, 17)), with(ones(16, 17), 1), 15);
    about("carry_out: 16 and 17 both in Y, and z");
    carried_out(5, ones(1, 17), move_of(LIST(1, 10, 1, 2, 4, 6, 8, 10, 12, 14, 16, 17)), ones(16, 17), 15);
}

/* No two of the 38 differ by z, and z is not among them: no move makes more marks differ. */
static void most_that_differ(void)
{
    move most = move_of(LIST(5, 38, 2, 12, 21, 27, 29, 36, 37, 38, 42, 55, 60, 62, 74, 101, 102, 110, 112, 113, 121, 122, 131, 139, 147,
                             148, 154, 167, 172, 190, 195, 201, 205, 210, 213, 218, 221, 224, 242, 245));
    table due = ones(1, 255);
    for (size_t i = 2; i < SULMEDRA_MOVE_BYTES; i++)
        due = without(without(due, most.bytes[i]), most.bytes[i] ^ 5u);
    about("carry_out: 38 in Y, and 76 marks differ");
    carried_out(8, ones(1, 255), most, due, 76);
}

static void carrying_out(void)
{
    about("carry_out: M8");
    carried_out(4, ones(1, 15), marked_move(), zeros(), 15);
    about("carry_out: M8 without parity 1, which is z and is flipped");
    carried_out(4, ones(2, 15), marked_move(), ones(1, 1), 15);
    flips_that_meet();
    most_that_differ();
    carry_refusals();
    bad_moves();
}

/* ---- find */

typedef struct {
    lent marks, move;
    sulmedra_found reply;
} find_call;

static find_call call_find(size_t n, lent marks, size_t move_len)
{
    find_call call = {marks, lend(move_len), {0, 0, 0}};
    call.reply = sulmedra_find(n, marks.bytes, marks.len, call.move.bytes, call.move.len);
    CHECK(call.reply.place == 0);
    CHECK(untouched(&call.marks));
    return call;
}

/* What is found is legal, and takes a member away at least. */
static void found(size_t n, table marks)
{
    find_call call = call_find(n, lend_table(marks), SULMEDRA_MOVE_BYTES);
    CHECK(call.reply.number == SULMEDRA_DONE);
    CHECK(call.reply.found == 1);
    CHECK(untouched_after(&call.move, SULMEDRA_MOVE_BYTES));
    table after = marks;
    sulmedra_carried carried = sulmedra_carry_out(n, after.at, sizeof after.at, call.move.bytes, call.move.len);
    CHECK(carried.number == SULMEDRA_DONE);
    CHECK(carried.differ == differing(marks.at, after.at));
    CHECK(members(after.at) < members(marks.at));
    take_back();
}

static void none(find_call call, uint64_t number)
{
    CHECK(call.reply.number == number);
    CHECK(call.reply.found == 0);
    CHECK(untouched(&call.move));
    take_back();
}

static void finding(void)
{
    about("find: M7, and M7 without parity 1");
    found(4, ones(1, 15));
    found(4, ones(2, 15));
    about("find: every parity of eight wires");
    found(8, ones(1, 255));
    about("find: no move for M6, for one member, for none");
    none(call_find(3, lend_table(ones(1, 7)), SULMEDRA_MOVE_BYTES), SULMEDRA_DONE);
    none(call_find(8, lend_table(ones(255, 255)), SULMEDRA_MOVE_BYTES), SULMEDRA_DONE);
    none(call_find(1, lend_table(zeros()), SULMEDRA_MOVE_BYTES), SULMEDRA_DONE);
    about("find: 1 before 8 before 6");
    for (size_t i = 0; i < WIRE_COUNTS; i++)
        none(call_find(faulty_wire_counts[i], lend(1), 1), SULMEDRA_FAULT_WIRE_COUNT);
    none(call_find(2, lend(1), SULMEDRA_MOVE_BYTES - 1), SULMEDRA_FAULT_LENT_OUTPUT);
    none(call_find(4, lend_table(ones(1, 15)), SULMEDRA_MOVE_BYTES + 1), SULMEDRA_FAULT_LENT_OUTPUT);
    for (size_t i = 0; i < FAULTY_TABLES; i++)
        none(call_find(2, lend_faulty_table(i, MOST_MARK), SULMEDRA_MOVE_BYTES), SULMEDRA_FAULT_TABLE_RULE);
}

/* ---- move_at */

static void part_is(size_t log_len, size_t k, uint64_t start, uint64_t length)
{
    lent log = lend(log_len);
    sulmedra_part part = sulmedra_move_at(log.bytes, log.len, k);
    CHECK(part.start == start);
    CHECK(part.length == length);
    CHECK(untouched(&log));
    take_back();
}

static void parts(void)
{
    about("move_at: a log of three moves");
    part_is(3 * SULMEDRA_MOVE_BYTES, 0, 0, SULMEDRA_MOVE_BYTES);
    part_is(3 * SULMEDRA_MOVE_BYTES, 2, 2 * SULMEDRA_MOVE_BYTES, SULMEDRA_MOVE_BYTES);
    part_is(3 * SULMEDRA_MOVE_BYTES, 3, 0, 0);
    about("move_at: a byte less, a byte more, no byte");
    part_is(3 * SULMEDRA_MOVE_BYTES - 1, 2, 0, 0);
    part_is(3 * SULMEDRA_MOVE_BYTES + 1, 2, 2 * SULMEDRA_MOVE_BYTES, SULMEDRA_MOVE_BYTES);
    part_is(0, 0, 0, 0);
    about("move_at: k so large that 40 k would wrap to a small number");
    part_is(SULMEDRA_LOG_BYTES, SIZE_MAX, 0, 0);
    part_is(SULMEDRA_LOG_BYTES, SIZE_MAX / SULMEDRA_MOVE_BYTES + 1, 0, 0);
}

void test_moves(void)
{
    carrying_out();
    finding();
    parts();
}
