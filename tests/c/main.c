/* Calls every function of include/sulmedra.h with sound and with faulty arguments. scripts/test-c builds and runs it. */
#include "check.h"
#include "tests.h"

int main(void)
{
    static uint8_t crash_stack[CRASH_STACK_BYTES];
    about("the start");
    tell_crashes(crash_stack);
    test_numbers();
    test_read();
    test_weights();
    test_write();
    test_moves();
    test_trim();
    test_compare();
    test_text();
    test_null();
    test_threads();
    test_stack();
    return verdict();
}
