/* The tests, one for each file test_*.c. Each gives back what it has lent. */
#ifndef TESTS_H
#define TESTS_H

void test_numbers(void);
void test_read(void);
void test_weights(void);
void test_write(void);
void test_moves(void);
void test_trim(void);
void test_compare(void);
void test_text(void);
void test_null(void);
void test_threads(void);
void test_stack(void);

#endif
