#define _DEFAULT_SOURCE /* sigaltstack */

#include "check.h"

#include <signal.h>
#include <stdio.h>
#include <string.h>
#include <unistd.h>

static const char *volatile current = ""; /* a crash may come between any two steps */
static unsigned long made, failed;

void about(const char *name)
{
    current = name;
}

void check(int holds, const char *fact, const char *file, int line)
{
    made++;
    if (holds)
        return;
    failed++;
    fprintf(stderr, "%s:%d: %s: not so: %s\n", file, line, current, fact);
}

static void say(const char *words)
{
    if (write(STDERR_FILENO, words, strlen(words)) < 0)
        _exit(2);
}

/* Only calls that a handler may make. */
static void crashed(int signal_number)
{
    say(signal_number == SIGBUS ? "the C test: SIGBUS in: " : "the C test: SIGSEGV in: ");
    say(current);
    say("\n");
    _exit(2);
}

void tell_crashes(uint8_t *stack)
{
    stack_t old, own = {.ss_sp = stack, .ss_size = CRASH_STACK_BYTES};
    struct sigaction action = {.sa_flags = SA_ONSTACK};
    action.sa_handler = crashed;
    sigemptyset(&action.sa_mask);
    /* The address sanitizer gives a thread such a stack itself, and frees the one that it finds at the end: its own has to stay. */
    CHECK(sigaltstack(NULL, &old) == 0);
    CHECK(!(old.ss_flags & SS_DISABLE) || sigaltstack(&own, NULL) == 0);
    CHECK(sigaction(SIGSEGV, &action, NULL) == 0);
    CHECK(sigaction(SIGBUS, &action, NULL) == 0);
}

int verdict(void)
{
    printf("the C test: %lu checks, %lu failed\n", made, failed);
    return made == 0 || failed != 0;
}
