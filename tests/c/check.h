/* Checks that are counted. One that fails is told with the case that it belongs to, and the test goes on. */
#ifndef CHECK_H
#define CHECK_H

#include <stdint.h>

#define CHECK(fact) check((fact) != 0, #fact, __FILE__, __LINE__)

/* Names the case that the next checks belong to. The name is kept by its pointer. */
void about(const char *name);

/* From now on a crash of the calling thread is told with its case too; it ends the test with status 2. It is told on so many bytes lent
 * here, for as long as the thread runs, since the thread's own stack may be used up. */
enum { CRASH_STACK_BYTES = 65536 };
void tell_crashes(uint8_t *stack);

void check(int holds, const char *fact, const char *file, int line);

/* Tells how many checks there were; 0 where all of them held, else 1. */
int verdict(void);

#endif
