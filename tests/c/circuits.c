#include "circuits.h"

#include <string.h>

unsigned noise(unsigned limit)
{
    static uint64_t word = 20261116;
    word = word * 6364136223846793005u + 1442695040888963407u;
    return (unsigned)(word >> 33) % limit;
}

table zeros(void)
{
    table none;
    memset(none.at, 0, sizeof none.at);
    return none;
}

table ones(unsigned first, unsigned last)
{
    table some = zeros();
    for (unsigned p = first; p <= last; p++)
        some.at[p] = 1;
    return some;
}

table only(unsigned parity, unsigned value)
{
    table one = zeros();
    one.at[parity] = (uint8_t)value;
    return one;
}

table doubly_controlled_z(void)
{
    table weights = ones(1, 7);
    weights.at[3] = weights.at[5] = weights.at[6] = 7;
    return weights;
}

size_t members(const uint8_t *marks)
{
    size_t count = 0;
    for (size_t p = 0; p < SULMEDRA_TABLE_BYTES; p++)
        count += marks[p] != 0;
    return count;
}

size_t differing(const uint8_t *before, const uint8_t *after)
{
    size_t count = 0;
    for (size_t p = 0; p < SULMEDRA_TABLE_BYTES; p++)
        count += before[p] != after[p];
    return count;
}

row_list same_wires(size_t n)
{
    row_list rows;
    for (size_t i = 0; i < SULMEDRA_ROW_BYTES; i++)
        rows.of[i] = (uint8_t)(i < n ? 1u << i : 0);
    return rows;
}

static void put_noise_gate(size_t n, uint8_t *gate)
{
    gate[0] = (uint8_t)(1 + noise(SULMEDRA_T_DAGGER));
    gate[1] = (uint8_t)noise((unsigned)n);
    gate[2] = (uint8_t)noise((unsigned)n);
    if (gate[0] == SULMEDRA_CNOT && gate[1] == gate[2])
        gate[0] = SULMEDRA_T;
    if (gate[0] != SULMEDRA_CNOT)
        gate[2] = 0;
}

gate_list noise_gates(size_t n, size_t gates)
{
    gate_list list;
    list.len = SULMEDRA_GATE_BYTES * gates;
    for (size_t i = 0; i < list.len; i += SULMEDRA_GATE_BYTES)
        put_noise_gate(n, list.bytes + i);
    return list;
}

static unsigned bit(unsigned number, unsigned place)
{
    return number >> place & 1;
}

static outcome one_gate(const uint8_t *gate, outcome now)
{
    static const unsigned adds[] = {0, 0, 1, 2, 4, 6, 7};
    if (gate[0] == SULMEDRA_CNOT)
        now.state ^= bit(now.state, gate[1]) << gate[2];
    else
        now.phase = (now.phase + adds[gate[0]] * bit(now.state, gate[1])) % 8;
    return now;
}

outcome run(const uint8_t *gates, size_t len, unsigned state)
{
    outcome now = {state, 0};
    for (size_t i = 0; i < len; i += SULMEDRA_GATE_BYTES)
        now = one_gate(gates + i, now);
    return now;
}

/* p(x): the XOR of the bits of x that p names. */
static unsigned parity_of(unsigned p, unsigned x)
{
    unsigned odd = 0;
    for (unsigned i = 0; i < SULMEDRA_MAX_WIRES; i++)
        odd ^= bit(p & x, i);
    return odd;
}

outcome said(size_t n, const uint8_t *weights, const uint8_t *rows, unsigned state)
{
    outcome end = {0, 0};
    for (unsigned i = 0; i < n; i++)
        end.state |= parity_of(rows[i], state) << i;
    for (unsigned p = 0; p < SULMEDRA_TABLE_BYTES; p++)
        end.phase = (end.phase + weights[p] * parity_of(p, state)) % 8;
    return end;
}

int same_outcome(outcome one, outcome other)
{
    return one.state == other.state && one.phase == other.phase;
}

size_t t_gates(const uint8_t *gates, size_t len)
{
    size_t count = 0;
    for (size_t i = 0; i < len; i += SULMEDRA_GATE_BYTES)
        count += gates[i] == SULMEDRA_T || gates[i] == SULMEDRA_T_DAGGER;
    return count;
}

static int rack_knows(uint8_t kind)
{
    return kind == SULMEDRA_CNOT || kind == SULMEDRA_T || kind == SULMEDRA_S || kind == SULMEDRA_S_DAGGER || kind == SULMEDRA_T_DAGGER;
}

int rack_runs(const uint8_t *gates, size_t len)
{
    for (size_t i = 0; i < len; i += SULMEDRA_GATE_BYTES)
        if (!rack_knows(gates[i]))
            return 0;
    return 1;
}
