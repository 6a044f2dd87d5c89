/* Faulty arguments that several functions share. */
#ifndef FAULTY_H
#define FAULTY_H

#include <stddef.h>
#include <stdint.h>

#include "lent.h"

enum { WIRE_COUNTS = 4, FAULTY_LISTS = 18, FAULTY_TABLES = 5 };

/* Fault 1. */
extern const size_t faulty_wire_counts[WIRE_COUNTS];

/* Faults 2, 3, 4 and 5 of a list on two wires, and which of two faults is told. */
typedef struct {
    const char *name;
    const uint8_t *gates;
    size_t len;
    uint64_t number, place;
} faulty_list;

extern const faulty_list faulty_lists[FAULTY_LISTS];

/* Fault 6: a table for two wires that is faulty in its own way, `most` being the most that its bytes may be. Names its case too. */
lent lend_faulty_table(size_t which, unsigned most);

#endif
