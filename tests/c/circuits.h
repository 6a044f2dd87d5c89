/* Tables and circuits to test with, and what a circuit does, gate by gate: written from docs/RULES.md, not from the library's code. */
#ifndef CIRCUITS_H
#define CIRCUITS_H

#include <stddef.h>
#include <stdint.h>

#include "sulmedra.h"

/* Three bytes of a list. */
#define CNOT(a, b) SULMEDRA_CNOT, a, b
#define ON(kind, a) kind, a, 0
#define T(a) ON(SULMEDRA_T, a)

/* A list and its length, for a table of cases. */
#define LIST(...) (const uint8_t[]){__VA_ARGS__}, sizeof((const uint8_t[]){__VA_ARGS__})
#define EMPTY_LIST NULL, 0

/* An array and its length, as lent. */
#define WHOLE(array) array, sizeof array

enum { MOST_WEIGHT = 7, MOST_MARK = 1 };

/* Weights or marks. */
typedef struct {
    uint8_t at[SULMEDRA_TABLE_BYTES];
} table;

typedef struct {
    uint8_t of[SULMEDRA_ROW_BYTES];
} row_list;

typedef struct {
    uint8_t bytes[SULMEDRA_LIST_BYTES];
    size_t len;
} gate_list;

/* A basis state and a phase in eighths of a turn. */
typedef struct {
    unsigned state, phase;
} outcome;

/* A number below `limit`, the next of a fixed row of noise. */
unsigned noise(unsigned limit);

/* 0 everywhere. */
table zeros(void);

/* 1 on the parities from first to last. */
table ones(unsigned first, unsigned last);

/* One weight or mark, 0 elsewhere. */
table only(unsigned parity, unsigned value);

/* Weight 1 on the parities 1, 2, 4 and 7, weight 7 on 3, 5 and 6: the doubly controlled Z. */
table doubly_controlled_z(void);

/* How many bytes are not 0. */
size_t members(const uint8_t *marks);

/* How many bytes of two tables are not the same. */
size_t differing(const uint8_t *before, const uint8_t *after);

/* Each wire ends as it began. */
row_list same_wires(size_t n);

gate_list noise_gates(size_t n, size_t gates);

/* What a list does to a basis state, gate by gate. */
outcome run(const uint8_t *gates, size_t len, unsigned state);

/* What weights and rows say of a basis state. */
outcome said(size_t n, const uint8_t *weights, const uint8_t *rows, unsigned state);

int same_outcome(outcome one, outcome other);

/* The T and T dagger gates of a list. */
size_t t_gates(const uint8_t *gates, size_t len);

/* Whether a rack without a native Z knows the kind of every gate. */
int rack_runs(const uint8_t *gates, size_t len);

#endif
