/* The numbers of the header against each other, and those of faults against docs/RULES.md. That the library means the same ones is seen
 * where they are lent. */
#include <stdio.h>
#include <string.h>

#include "check.h"
#include "sulmedra.h"
#include "tests.h"

/* The version that pkg-config tells, given by scripts/test-c. */
#ifndef PACKAGE_VERSION
#error "build with -DPACKAGE_VERSION, a string"
#endif

static void one_version(void)
{
    char numbers[32];
    about("the version");
    snprintf(numbers, sizeof numbers, "%d.%d.%d", SULMEDRA_VERSION_MAJOR, SULMEDRA_VERSION_MINOR, SULMEDRA_VERSION_PATCH);
    CHECK(strcmp(SULMEDRA_VERSION, numbers) == 0);
    CHECK(strcmp(SULMEDRA_VERSION, PACKAGE_VERSION) == 0);
}

static void lengths(void)
{
    about("lengths");
    CHECK(SULMEDRA_LIST_BYTES == SULMEDRA_GATE_BYTES * SULMEDRA_MAX_GATES);
    CHECK(SULMEDRA_WRITE_BYTES == SULMEDRA_GATE_BYTES * SULMEDRA_MAX_WRITTEN_GATES);
    CHECK(SULMEDRA_TABLE_BYTES == 1 << SULMEDRA_MAX_WIRES);
    CHECK(SULMEDRA_ROW_BYTES == SULMEDRA_MAX_WIRES);
    CHECK(SULMEDRA_L_BYTES == SULMEDRA_MAX_WIRES);
    CHECK(SULMEDRA_Q_BYTES == SULMEDRA_MAX_WIRES * SULMEDRA_L_BYTES);
    CHECK(SULMEDRA_C_BYTES == SULMEDRA_MAX_WIRES * SULMEDRA_Q_BYTES);
    CHECK(SULMEDRA_MOVE_BYTES == 2 + SULMEDRA_MAX_MEMBERS);
    CHECK(SULMEDRA_MAX_MOVES == SULMEDRA_TABLE_BYTES - 1);
    CHECK(SULMEDRA_LOG_BYTES == SULMEDRA_MOVE_BYTES * SULMEDRA_MAX_MOVES);
}

/* The programs print them, so that they are known by number too. */
static void faults(void)
{
    about("the numbers of faults");
    CHECK(SULMEDRA_DONE == 0);
    CHECK(SULMEDRA_FAULT_WIRE_COUNT == 1);
    CHECK(SULMEDRA_FAULT_LIST_LENGTH == 2);
    CHECK(SULMEDRA_FAULT_GATE_KIND == 3);
    CHECK(SULMEDRA_FAULT_GATE_WIRE == 4);
    CHECK(SULMEDRA_FAULT_SAME_WIRE == 5);
    CHECK(SULMEDRA_FAULT_TABLE_RULE == 6);
    CHECK(SULMEDRA_FAULT_ROW_RULE == 7);
    CHECK(SULMEDRA_FAULT_LENT_OUTPUT == 8);
    CHECK(SULMEDRA_FAULT_MALFORMED == 9);
    CHECK(SULMEDRA_FAULT_BAD_MOVE == 10);
    CHECK(SULMEDRA_FAULT_SECOND_LIST == 11);
}

void test_numbers(void)
{
    one_version();
    lengths();
    faults();
}
