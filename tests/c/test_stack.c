/* The stack that a call takes. Each function is called on a thread whose whole stack is SULMEDRA_STACK_BYTES, with a page below it that
 * may not be touched. The stack is painted before; where the paint ends is how far the thread came. What lies between the caller's frame
 * and that place is counted. Bytes that the call reserves and never writes are not seen. */
#define _DEFAULT_SOURCE /* MAP_ANONYMOUS */

#include <pthread.h>
#include <stdio.h>
#include <string.h>
#include <sys/mman.h>
#include <unistd.h>

#include "check.h"
#include "circuits.h"
#include "tests.h"

/* The two bounds are those that the header names. */
enum { PAINT = 0xa5, ANSWER_STACK = 49152, SMALL_STACK = 16384, UNKNOWN = 99 };

/* All arguments lie outside the stack. */
static gate_list list;
static uint8_t weights[SULMEDRA_TABLE_BYTES], marks[SULMEDRA_TABLE_BYTES], new_weights[SULMEDRA_TABLE_BYTES], rows[SULMEDRA_ROW_BYTES];
static uint8_t l[SULMEDRA_L_BYTES], q[SULMEDRA_Q_BYTES], c[SULMEDRA_C_BYTES], move[SULMEDRA_MOVE_BYTES];
static uint8_t out[SULMEDRA_WRITE_BYTES], moves[SULMEDRA_LOG_BYTES], text_gates[SULMEDRA_LIST_BYTES];
static char text[SULMEDRA_TEXT_BYTES + 1];
static uint8_t answer[SULMEDRA_REPLY_BYTES];

/* What the last call replied. */
static uint64_t number;

static void read_it(void)
{
    number = sulmedra_read(SULMEDRA_MAX_WIRES, list.bytes, list.len, WHOLE(weights), WHOLE(rows)).number;
}

static void odd_set(void)
{
    number = sulmedra_odd_set(SULMEDRA_MAX_WIRES, WHOLE(weights), WHOLE(marks)).number;
}

static void coefficients(void)
{
    number = sulmedra_coefficients(SULMEDRA_MAX_WIRES, WHOLE(weights), WHOLE(l), WHOLE(q), WHOLE(c)).number;
}

static void renew(void)
{
    number = sulmedra_new_weights(SULMEDRA_MAX_WIRES, WHOLE(weights), WHOLE(marks), WHOLE(new_weights)).number;
}

/* The list beside itself: where the rows are the same, the coefficients are compared too. */
static void compare(void)
{
    number = sulmedra_compare(SULMEDRA_MAX_WIRES, list.bytes, list.len, list.bytes, list.len).number;
}

static void find(void)
{
    number = sulmedra_find(SULMEDRA_MAX_WIRES, WHOLE(marks), WHOLE(move)).number;
}

static void carry_out(void)
{
    number = sulmedra_carry_out(SULMEDRA_MAX_WIRES, WHOLE(marks), WHOLE(move)).number;
}

static void write_it(void)
{
    number = sulmedra_write(SULMEDRA_MAX_WIRES, WHOLE(weights), WHOLE(rows), WHOLE(out)).number;
}

static void trim(void)
{
    number = sulmedra_trim(SULMEDRA_MAX_WIRES, list.bytes, list.len, WHOLE(out), WHOLE(moves)).number;
}

static void move_at(void)
{
    number = sulmedra_move_at(WHOLE(moves), 0).length == SULMEDRA_MOVE_BYTES ? SULMEDRA_DONE : SULMEDRA_FAULT_BAD_MOVE;
}

static void read_text(void)
{
    number = sulmedra_read_text((const uint8_t *)text, strlen(text), WHOLE(text_gates)).number;
}

static void answer_it(void)
{
    number = sulmedra_answer((const uint8_t *)text, strlen(text), WHOLE(answer)).number;
}

typedef struct {
    const char *name;
    void (*make)(void);
} named_call;

static const named_call small[] = {
    {"stack: read", read_it},
    {"stack: odd_set", odd_set},
    {"stack: coefficients", coefficients},
    {"stack: new_weights", renew},
    {"stack: compare", compare},
    {"stack: find", find},
    {"stack: carry_out", carry_out},
    {"stack: write", write_it},
    {"stack: trim", trim},
    {"stack: move_at", move_at},
    {"stack: read_text", read_text},
};
static const named_call large = {"stack: answer", answer_it};

/* Circuits with moves to find, so that every call goes as deep as it can. */
static void prepare(void)
{
    list = noise_gates(SULMEDRA_MAX_WIRES, SULMEDRA_MAX_GATES);
    size_t end = (size_t)sprintf(text, "%02x\n", SULMEDRA_MAX_WIRES);
    for (size_t i = 0; i < list.len; i += SULMEDRA_GATE_BYTES)
        end += (size_t)sprintf(text + end, "%02x%02x%02x\n", list.bytes[i], list.bytes[i + 1], list.bytes[i + 2]);
}

typedef struct {
    void (*make)(void);
    const uint8_t *from; /* the frame that it was made from */
} call;

static void *make_call(void *given)
{
    static uint8_t crash_stack[CRASH_STACK_BYTES]; /* one thread runs at a time */
    call *one = given;
    tell_crashes(crash_stack);
    one->from = __builtin_frame_address(0);
    one->make();
    return NULL;
}

static void run_on(uint8_t *stack, call *given)
{
    pthread_attr_t attributes;
    pthread_t thread;
    CHECK(pthread_attr_init(&attributes) == 0);
    CHECK(pthread_attr_setstack(&attributes, stack, SULMEDRA_STACK_BYTES) == 0);
    int started = pthread_create(&thread, &attributes, make_call, given) == 0;
    CHECK(started);
    if (started)
        CHECK(pthread_join(thread, NULL) == 0);
    pthread_attr_destroy(&attributes);
}

static const uint8_t *lowest_without_paint(const uint8_t *stack)
{
    size_t i = 0;
    while (i < SULMEDRA_STACK_BYTES && stack[i] == PAINT)
        i++;
    return stack + i;
}

/* The bytes of stack that a call takes. */
static size_t stack_of(const named_call *given)
{
    about(given->name);
    size_t page = (size_t)sysconf(_SC_PAGESIZE);
    uint8_t *low = mmap(NULL, page + SULMEDRA_STACK_BYTES, PROT_READ | PROT_WRITE, MAP_PRIVATE | MAP_ANONYMOUS, -1, 0);
    CHECK(low != MAP_FAILED && mprotect(low, page, PROT_NONE) == 0);
    uint8_t *stack = low + page;
    memset(stack, PAINT, SULMEDRA_STACK_BYTES);
    number = UNKNOWN;
    call one = {given->make, stack};
    run_on(stack, &one);
    CHECK(number == SULMEDRA_DONE);
    CHECK(one.from > lowest_without_paint(stack));
    size_t taken = (size_t)(one.from - lowest_without_paint(stack));
    munmap(low, page + SULMEDRA_STACK_BYTES);
    return taken;
}

void test_stack(void)
{
    size_t most = 0;
    prepare();
    for (size_t i = 0; i < sizeof small / sizeof *small; i++) {
        size_t taken = stack_of(&small[i]);
        CHECK(taken < SMALL_STACK);
        most = taken > most ? taken : most;
    }
    size_t answers = stack_of(&large);
    CHECK(answers < ANSWER_STACK);
    printf("the C test: stack: sulmedra_answer %zu bytes, every other function at most %zu\n", answers, most);
}
