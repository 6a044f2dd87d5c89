/* Calls at the same time: each thread trims circuits of its own, compares them with their trims, and gets what it got alone. A race of
 * microseconds need not show here. What the header says of threads rests on the check in scripts/test-c that nothing in the library can
 * be written. */
#include <pthread.h>
#include <string.h>

#include "check.h"
#include "circuits.h"
#include "tests.h"

enum { THREADS = 4, ROUNDS = 50 };

typedef struct {
    sulmedra_trimmed reply;
    sulmedra_compared beside; /* the circuit beside its trim */
    uint8_t out[SULMEDRA_WRITE_BYTES], log[SULMEDRA_LOG_BYTES];
} trimmed;

typedef struct {
    gate_list list;
    trimmed alone, together;
    int same;
} work;

static void trim(const gate_list *list, trimmed *result)
{
    memset(result, 0, sizeof *result);
    result->reply = sulmedra_trim(SULMEDRA_MAX_WIRES, list->bytes, list->len, result->out, sizeof result->out, result->log,
                                  sizeof result->log);
    result->beside = sulmedra_compare(SULMEDRA_MAX_WIRES, list->bytes, list->len, result->out,
                                      SULMEDRA_GATE_BYTES * result->reply.gates);
}

static void *trim_again_and_again(void *given)
{
    work *mine = given;
    for (int round = 0; round < ROUNDS; round++) {
        trim(&mine->list, &mine->together);
        mine->same &= memcmp(&mine->alone, &mine->together, sizeof mine->alone) == 0;
    }
    return NULL;
}

void test_threads(void)
{
    static work works[THREADS];
    pthread_t threads[THREADS];
    int started[THREADS];
    about("calls at the same time");
    for (size_t i = 0; i < THREADS; i++) {
        works[i].list = noise_gates(SULMEDRA_MAX_WIRES, 500 + i);
        works[i].same = 1;
        trim(&works[i].list, &works[i].alone);
        CHECK(works[i].alone.reply.number == SULMEDRA_DONE);
        CHECK(works[i].alone.beside.same == 1);
    }
    for (size_t i = 0; i < THREADS; i++) {
        started[i] = pthread_create(&threads[i], NULL, trim_again_and_again, &works[i]) == 0;
        CHECK(started[i]);
    }
    for (size_t i = 0; i < THREADS; i++) {
        if (started[i])
            CHECK(pthread_join(threads[i], NULL) == 0);
        CHECK(works[i].same);
    }
}
