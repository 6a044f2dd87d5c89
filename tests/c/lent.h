/* Buffers to lend to the library, with every byte watched. A buffer ends where a page begins that may not be touched, so that a read or
 * a write past its end stops the test. The bytes before it are watched as its own are. */
#ifndef LENT_H
#define LENT_H

#include <stddef.h>
#include <stdint.h>

#include "circuits.h"

typedef struct {
    uint8_t *bytes; /* what is lent */
    size_t len;
    uint8_t *open;  /* where the watched bytes start: those before the buffer, then the buffer */
    size_t watched;
    uint8_t *due;   /* what the watched bytes have to be */
} lent;

/* So many bytes of noise: an output, or an input that does not matter. */
lent lend(size_t len);

/* A copy of these bytes: an input. */
lent lend_copy(const uint8_t *bytes, size_t len);
lent lend_table(table given);

/* All bytes are as they were. */
int untouched(const lent *buffer);

/* The buffer starts with these bytes, and all others are as they were. They are due from now on. */
int starts_with(lent *buffer, const uint8_t *bytes, size_t count);

/* Whatever the first bytes are now, all others are as they were. */
int untouched_after(const lent *buffer, size_t count);

/* Gives back everything lent so far. */
void take_back(void);

#endif
