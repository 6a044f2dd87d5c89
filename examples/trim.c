/* Trims a circuit through the C interface and prints what became of it.
 *
 * The circuit: T on every parity of four wires but that of wire 0 alone. Fourteen T gates become one T dagger on wire 0.
 *
 * Once Sulmedra is installed (scripts/install):
 *
 *     cc -std=c11 examples/trim.c $(pkg-config --cflags --libs sulmedra) -o trim_example
 */
#include <inttypes.h>
#include <stdio.h>

#include "sulmedra.h"

enum { CNOT = SULMEDRA_CNOT, T = SULMEDRA_T, WIRES = 4 };

/* Three bytes to a gate: kind, a, b. Beside each T stands the parity that its wire holds there; ^ is XOR. */
static const uint8_t circuit[] = {
    T, 1, 0,                /* x1 */
    CNOT, 0, 1, T, 1, 0,    /* x0 ^ x1 */
    CNOT, 0, 1,

    T, 2, 0,                /* x2 */
    CNOT, 0, 2, T, 2, 0,    /* x0 ^ x2 */
    CNOT, 1, 2, T, 2, 0,    /* x0 ^ x1 ^ x2 */
    CNOT, 0, 2, T, 2, 0,    /* x1 ^ x2 */
    CNOT, 1, 2,

    T, 3, 0,                /* x3 */
    CNOT, 0, 3, T, 3, 0,    /* x0 ^ x3 */
    CNOT, 1, 3, T, 3, 0,    /* x0 ^ x1 ^ x3 */
    CNOT, 0, 3, T, 3, 0,    /* x1 ^ x3 */
    CNOT, 2, 3, T, 3, 0,    /* x1 ^ x2 ^ x3 */
    CNOT, 0, 3, T, 3, 0,    /* x0 ^ x1 ^ x2 ^ x3 */
    CNOT, 1, 3, T, 3, 0,    /* x0 ^ x2 ^ x3 */
    CNOT, 0, 3, T, 3, 0,    /* x2 ^ x3 */
    CNOT, 2, 3,
};

/* By kind; no gate has kind 0. */
static const char *const names[] = {"", "CNOT", "T", "S", "Z", "S dagger", "T dagger"};

static void print_gate(const uint8_t *gate)
{
    if (gate[0] == SULMEDRA_CNOT)
        printf("%s %d -> %d\n", names[gate[0]], gate[1], gate[2]);
    else
        printf("%s on %d\n", names[gate[0]], gate[1]);
}

int main(void)
{
    uint8_t out[SULMEDRA_WRITE_BYTES], log[SULMEDRA_LOG_BYTES];
    sulmedra_trimmed trimmed = sulmedra_trim(WIRES, circuit, sizeof circuit, out, sizeof out, log, sizeof log);

    if (trimmed.number != SULMEDRA_DONE) {
        printf("refused: fault %" PRIu64 ", place %" PRIu64 "\n", trimmed.number, trimmed.place);
        return 1;
    }
    printf("T gates in: %" PRIu64 "\n", trimmed.t_in);
    printf("odd set size: %" PRIu64 "\n", trimmed.odd_size);
    printf("T gates out: %" PRIu64 "\n", trimmed.t_out);
    printf("moves: %" PRIu64 "\n", trimmed.moves);
    printf("gates: %zu before, %" PRIu64 " after\n", sizeof circuit / SULMEDRA_GATE_BYTES, trimmed.gates);
    for (size_t k = 0; k < trimmed.gates; k++)
        print_gate(out + SULMEDRA_GATE_BYTES * k);
    return 0;
}
