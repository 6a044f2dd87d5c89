#include "faulty.h"

#include "check.h"
#include "circuits.h"

/* 257 would be 1 if it were cut to a byte. */
const size_t faulty_wire_counts[WIRE_COUNTS] = {0, 9, 257, SIZE_MAX};

static const uint8_t too_long[SULMEDRA_LIST_BYTES + SULMEDRA_GATE_BYTES] = {T(0)};

const faulty_list faulty_lists[FAULTY_LISTS] = {
    {"one byte", LIST(SULMEDRA_T), SULMEDRA_FAULT_LIST_LENGTH, 0},
    {"a gate and a byte", LIST(T(0), SULMEDRA_T), SULMEDRA_FAULT_LIST_LENGTH, 0},
    {"4,097 gates", too_long, sizeof too_long, SULMEDRA_FAULT_LIST_LENGTH, 0},
    {"kind 0", LIST(0, 0, 0), SULMEDRA_FAULT_GATE_KIND, 0},
    {"kind 7", LIST(T(0), 7, 0, 0), SULMEDRA_FAULT_GATE_KIND, 1},
    {"kind 255", LIST(T(0), T(1), 255, 0, 0), SULMEDRA_FAULT_GATE_KIND, 2},
    {"T on wire n", LIST(T(1), T(2)), SULMEDRA_FAULT_GATE_WIRE, 1},
    {"T with b", LIST(SULMEDRA_T, 0, 1), SULMEDRA_FAULT_GATE_WIRE, 0},
    {"T dagger with b", LIST(SULMEDRA_T_DAGGER, 0, 1), SULMEDRA_FAULT_GATE_WIRE, 0},
    {"CNOT from wire n", LIST(CNOT(2, 1)), SULMEDRA_FAULT_GATE_WIRE, 0},
    {"CNOT to wire n", LIST(CNOT(0, 1), CNOT(1, 2)), SULMEDRA_FAULT_GATE_WIRE, 1},
    {"M10: CNOT with a = b", LIST(CNOT(1, 1)), SULMEDRA_FAULT_SAME_WIRE, 0},
    {"CNOT with a = b, later", LIST(T(0), T(0), T(0), CNOT(0, 0)), SULMEDRA_FAULT_SAME_WIRE, 3},
    {"2 before 3", LIST(7, 9, 9, 9), SULMEDRA_FAULT_LIST_LENGTH, 0},
    {"3 before 4", LIST(7, 9, 9), SULMEDRA_FAULT_GATE_KIND, 0},
    {"4 before 5", LIST(CNOT(2, 2)), SULMEDRA_FAULT_GATE_WIRE, 0},
    {"the first gate before 3", LIST(CNOT(1, 1), 7, 0, 0), SULMEDRA_FAULT_SAME_WIRE, 0},
    {"the first gate before 4", LIST(CNOT(0, 0), T(9)), SULMEDRA_FAULT_SAME_WIRE, 0},
};

static const char *const table_names[FAULTY_TABLES] = {"a table of 255 bytes", "a table of 257 bytes", "a byte above the most",
                                                       "a byte at parity 0", "a byte at parity 2^n"};

lent lend_faulty_table(size_t which, unsigned most)
{
    const table none = zeros(), faulty[FAULTY_TABLES] = {none, none, only(1, most + 1), only(0, 1), only(4, 1)};
    uint8_t longer[SULMEDRA_TABLE_BYTES + 1] = {0};
    about(table_names[which]);
    if (which == 0)
        return lend_copy(none.at, SULMEDRA_TABLE_BYTES - 1);
    if (which == 1)
        return lend_copy(longer, sizeof longer);
    return lend_copy(faulty[which].at, SULMEDRA_TABLE_BYTES);
}
