/* sulmedra_compare. */
#include <string.h>

#include "check.h"
#include "circuits.h"
#include "faulty.h"
#include "lent.h"
#include "tests.h"

enum { NOISE_PAIRS = 200 };

/* Two eighths where both wires are 1, and four: l stays, and q differs by 1 and by 2. */
static const uint8_t controlled_s[] = {T(0), T(1), CNOT(0, 1), ON(SULMEDRA_T_DAGGER, 1), CNOT(0, 1)};
static const uint8_t controlled_z[] = {
    ON(SULMEDRA_S, 0), ON(SULMEDRA_S, 1), CNOT(0, 1), ON(SULMEDRA_S_DAGGER, 1), CNOT(0, 1),
};

/* Four eighths where all three wires are 1, examples/ccz.txt: l and q stay, and c differs. */
static const uint8_t twice_controlled_z[] = {
    CNOT(1, 2), ON(SULMEDRA_T_DAGGER, 2), CNOT(0, 2), T(2), CNOT(1, 2), ON(SULMEDRA_T_DAGGER, 2), CNOT(0, 2),
    T(1), T(2), CNOT(0, 1), T(0), ON(SULMEDRA_T_DAGGER, 1), CNOT(0, 1),
};

/* ---- calls */

/* What each basis state comes to by the one list and by the other: 1 where it is the same. */
static uint64_t alike(size_t n, const lent *first, const lent *second)
{
    for (unsigned x = 0; x < 1u << n; x++)
        if (!same_outcome(run(first->bytes, first->len, x), run(second->bytes, second->len, x)))
            return 0;
    return 1;
}

static void replies(size_t n, const lent *first, const lent *second, sulmedra_compared due)
{
    sulmedra_compared reply = sulmedra_compare(n, first->bytes, first->len, second->bytes, second->len);
    CHECK(reply.number == due.number);
    CHECK(reply.place == due.place);
    CHECK(reply.same == due.same);
    CHECK(untouched(first));
    CHECK(untouched(second));
}

/* Two lists without a fault, either of them first. */
static void compared(size_t n, lent first, lent second, uint64_t same)
{
    const sulmedra_compared due = {SULMEDRA_DONE, 0, same};
    CHECK(alike(n, &first, &second) == same);
    replies(n, &first, &second, due);
    replies(n, &second, &first, due);
    take_back();
}

static void refused(size_t n, lent first, lent second, uint64_t number, uint64_t place)
{
    const sulmedra_compared due = {number, place, 0};
    replies(n, &first, &second, due);
    take_back();
}

/* ---- lists without a fault */

typedef struct {
    const char *name;
    size_t n;
    const uint8_t *first;
    size_t first_len;
    const uint8_t *second;
    size_t second_len;
    uint64_t same;
} list_pair;

static const list_pair pairs[] = {
    {"compare: empty lists", 1, EMPTY_LIST, EMPTY_LIST, 1},
    {"compare: equal lists", 2, LIST(CNOT(0, 1), T(1)), LIST(CNOT(0, 1), T(1)), 1},
    {"compare: T, T is S", 1, LIST(T(0), T(0)), LIST(ON(SULMEDRA_S, 0)), 1},
    {"compare: S, S is Z", 1, LIST(ON(SULMEDRA_S, 0), ON(SULMEDRA_S, 0)), LIST(ON(SULMEDRA_Z, 0)), 1},
    {"compare: Z twice is nothing", 1, LIST(ON(SULMEDRA_Z, 0), ON(SULMEDRA_Z, 0)), EMPTY_LIST, 1},
    {"compare: a CNOT twice is nothing", 2, LIST(CNOT(0, 1), CNOT(0, 1)), EMPTY_LIST, 1},
    {"compare: wires exchanged in two ways", 2, LIST(CNOT(0, 1), CNOT(1, 0), CNOT(0, 1)), LIST(CNOT(1, 0), CNOT(0, 1), CNOT(1, 0)), 1},
    {"compare: T before and behind a CNOT from its wire", 2, LIST(T(0), CNOT(0, 1)), LIST(CNOT(0, 1), T(0)), 1},
    {"compare: T before and behind a CNOT onto its wire", 2, LIST(T(1), CNOT(0, 1)), LIST(CNOT(0, 1), T(1)), 0},
    {"compare: another end state, no phase", 2, LIST(CNOT(0, 1)), EMPTY_LIST, 0},
    {"compare: another end state, the same phase", 2, LIST(T(0), CNOT(0, 1)), LIST(T(0)), 0},
    {"compare: the CNOT the other way round", 2, LIST(CNOT(0, 1)), LIST(CNOT(1, 0)), 0},
    {"compare: wires exchanged, or not", 2, LIST(CNOT(0, 1), CNOT(1, 0), CNOT(0, 1)), EMPTY_LIST, 0},
    {"compare: the same gate on another wire", 2, LIST(T(0)), LIST(T(1)), 0},
    {"compare: a T more, l by 1", 1, LIST(T(0), T(0)), LIST(T(0)), 0},
    {"compare: an S more, l by 2", 1, LIST(T(0), ON(SULMEDRA_S, 0)), LIST(T(0)), 0},
    {"compare: a Z more, l by 4", 1, LIST(T(0), ON(SULMEDRA_Z, 0)), LIST(T(0)), 0},
    {"compare: the controlled S, q by 1", 2, WHOLE(controlled_s), EMPTY_LIST, 0},
    {"compare: the controlled Z, q by 2", 2, WHOLE(controlled_z), EMPTY_LIST, 0},
    {"compare: the controlled S and the controlled Z", 2, WHOLE(controlled_s), WHOLE(controlled_z), 0},
    {"compare: the doubly controlled Z, c by 1", 3, WHOLE(twice_controlled_z), EMPTY_LIST, 0},
};

static void sound(const list_pair *due)
{
    about(due->name);
    compared(due->n, lend_copy(due->first, due->first_len), lend_copy(due->second, due->second_len), due->same);
}

/* What is only read may overlap: the same bytes twice, and a list beside its own last gate. */
static void shared_bytes(void)
{
    const sulmedra_compared due = {SULMEDRA_DONE, 0, 1};
    about("compare: the same bytes twice");
    gate_list longest = noise_gates(SULMEDRA_MAX_WIRES, SULMEDRA_MAX_GATES);
    lent list = lend_copy(longest.bytes, longest.len);
    replies(SULMEDRA_MAX_WIRES, &list, &list, due);
    take_back();
    about("compare: a list and its own last gate");
    lent whole = lend_copy(LIST(CNOT(0, 1), CNOT(0, 1), T(1)));
    sulmedra_compared reply = sulmedra_compare(2, whole.bytes, whole.len, whole.bytes + 2 * SULMEDRA_GATE_BYTES, SULMEDRA_GATE_BYTES);
    CHECK(reply.number == SULMEDRA_DONE);
    CHECK(reply.same == 1);
    CHECK(untouched(&whole));
    take_back();
}

/* The list with wires 0, 1 and 2 named otherwise. */
static gate_list moved_to(const uint8_t *wires, const uint8_t *gates, size_t len)
{
    gate_list moved;
    moved.len = len;
    memcpy(moved.bytes, gates, len);
    for (size_t i = 0; i < len; i += SULMEDRA_GATE_BYTES) {
        moved.bytes[i + 1] = wires[gates[i + 1]];
        if (gates[i] == SULMEDRA_CNOT)
            moved.bytes[i + 2] = wires[gates[i + 2]];
    }
    return moved;
}

static void not_nothing(const uint8_t *wires, const uint8_t *gates, size_t len)
{
    gate_list moved = moved_to(wires, gates, len);
    compared(SULMEDRA_MAX_WIRES, lend_copy(moved.bytes, moved.len), lend(0), 0);
}

/* No row, no wire, no pair and no triple is left out: each is the only one that tells once. */
static void on_every_wire(void)
{
    about("compare: one difference, on every wire, pair and triple of eight");
    for (unsigned i = 0; i < 512; i++) {
        const uint8_t wires[] = {(uint8_t)(i % 8), (uint8_t)(i / 8 % 8), (uint8_t)(i / 64)};
        if (wires[0] == wires[1] || wires[0] == wires[2] || wires[1] == wires[2])
            continue;
        not_nothing(wires, LIST(CNOT(0, 1)));
        not_nothing(wires, LIST(ON(SULMEDRA_Z, 0)));
        not_nothing(wires, WHOLE(controlled_z));
        not_nothing(wires, WHOLE(twice_controlled_z));
    }
}

/* Short lists on one wire and on two, so that some of them act alike. */
static void noise_beside_noise(size_t n)
{
    uint64_t same = 0;
    for (int i = 0; i < NOISE_PAIRS; i++) {
        gate_list one = noise_gates(n, 3), other = noise_gates(n, 3);
        lent first = lend_copy(one.bytes, one.len), second = lend_copy(other.bytes, other.len);
        uint64_t due = alike(n, &first, &second);
        compared(n, first, second, due);
        same += due;
    }
    CHECK(same > 0);
    CHECK(same < NOISE_PAIRS);
}

/* A list beside its trim, and beside its trim with a Z behind it. */
static void beside_its_trim(size_t n, const uint8_t *gates, size_t len)
{
    uint8_t out[SULMEDRA_WRITE_BYTES + SULMEDRA_GATE_BYTES], log[SULMEDRA_LOG_BYTES];
    const uint8_t more[] = {ON(SULMEDRA_Z, 0)};
    sulmedra_trimmed trimmed = sulmedra_trim(n, gates, len, out, SULMEDRA_WRITE_BYTES, WHOLE(log));
    size_t end = SULMEDRA_GATE_BYTES * trimmed.gates;
    CHECK(trimmed.number == SULMEDRA_DONE);
    compared(n, lend_copy(gates, len), lend_copy(out, end), 1);
    memcpy(out + end, more, sizeof more);
    compared(n, lend_copy(gates, len), lend_copy(out, end + sizeof more), 0);
}

static void written_beside_its_trim(const char *name, size_t n, table weights)
{
    uint8_t gates[SULMEDRA_WRITE_BYTES];
    row_list rows = same_wires(n);
    about(name);
    sulmedra_written list = sulmedra_write(n, WHOLE(weights.at), WHOLE(rows.of), WHOLE(gates));
    CHECK(list.number == SULMEDRA_DONE);
    beside_its_trim(n, gates, SULMEDRA_GATE_BYTES * list.gates);
}

static void noise_beside_its_trim(size_t n, size_t gates)
{
    gate_list list = noise_gates(n, gates);
    beside_its_trim(n, list.bytes, list.len);
}

static void trims(void)
{
    written_beside_its_trim("compare: M6 and its trim", 3, doubly_controlled_z());
    written_beside_its_trim("compare: M7 and its trim", 4, ones(1, 15));
    written_beside_its_trim("compare: the fourteen-T block and its trim", 4, ones(2, 15));
    about("compare: noise and its trim");
    for (size_t n = 1; n <= SULMEDRA_MAX_WIRES; n++)
        noise_beside_its_trim(n, 200);
    noise_beside_its_trim(SULMEDRA_MAX_WIRES, SULMEDRA_MAX_GATES);
}

/* ---- refusals */

static lent lend_faulty_list(const faulty_list *faulty)
{
    return lend_copy(faulty->gates, faulty->len);
}

/* On two wires: the fault in the first list, in the second, and in both. */
static void faulty_lists_refused(const faulty_list *faulty)
{
    about(faulty->name);
    refused(2, lend_faulty_list(faulty), lend_copy(LIST(T(0))), faulty->number, faulty->place);
    refused(2, lend_copy(LIST(T(0))), lend_faulty_list(faulty), SULMEDRA_FAULT_SECOND_LIST, faulty->place);
    refused(2, lend_faulty_list(faulty), lend_faulty_list(faulty), faulty->number, faulty->place);
    refused(2, lend_faulty_list(faulty), lend_copy(LIST(SULMEDRA_T)), faulty->number, faulty->place);
    refused(2, lend_copy(LIST(T(0), 7, 0, 0)), lend_faulty_list(faulty), SULMEDRA_FAULT_GATE_KIND, 1);
}

/* The longest list, and a fault in its last gate alone. */
static void last_gate_faulty(void)
{
    about("compare: gate 4,095");
    gate_list list = noise_gates(SULMEDRA_MAX_WIRES, SULMEDRA_MAX_GATES);
    list.bytes[list.len - SULMEDRA_GATE_BYTES] = 7;
    refused(SULMEDRA_MAX_WIRES, lend_copy(list.bytes, list.len), lend(0), SULMEDRA_FAULT_GATE_KIND, SULMEDRA_MAX_GATES - 1);
    refused(SULMEDRA_MAX_WIRES, lend(0), lend_copy(list.bytes, list.len), SULMEDRA_FAULT_SECOND_LIST, SULMEDRA_MAX_GATES - 1);
}

static void refusals(void)
{
    about("compare: 1 before 2 before 3 before 11");
    for (size_t i = 0; i < WIRE_COUNTS; i++) {
        refused(faulty_wire_counts[i], lend(0), lend(0), SULMEDRA_FAULT_WIRE_COUNT, 0);
        refused(faulty_wire_counts[i], lend_copy(LIST(7, 9)), lend_copy(LIST(7, 9)), SULMEDRA_FAULT_WIRE_COUNT, 0);
    }
    refused(1, lend_copy(LIST(7, 9)), lend_copy(LIST(7, 9)), SULMEDRA_FAULT_LIST_LENGTH, 0);
    refused(1, lend_copy(LIST(7, 9, 9)), lend_copy(LIST(7, 9)), SULMEDRA_FAULT_GATE_KIND, 0);
    refused(1, lend_copy(LIST(T(0))), lend_copy(LIST(7, 9)), SULMEDRA_FAULT_SECOND_LIST, 0);
    for (size_t i = 0; i < FAULTY_LISTS; i++)
        faulty_lists_refused(&faulty_lists[i]);
    last_gate_faulty();
}

void test_compare(void)
{
    for (size_t i = 0; i < sizeof pairs / sizeof *pairs; i++)
        sound(&pairs[i]);
    shared_bytes();
    on_every_wire();
    about("compare: short lists of noise");
    noise_beside_noise(1);
    noise_beside_noise(2);
    trims();
    refusals();
}
