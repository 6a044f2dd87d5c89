#define _DEFAULT_SOURCE /* MAP_ANONYMOUS */

#include "lent.h"

#include <stdio.h>
#include <stdlib.h>
#include <string.h>
#include <sys/mman.h>
#include <unistd.h>

enum { MOST_LENT = 16, BYTES_BEFORE = 64 };

static lent out_on_loan[MOST_LENT];
static size_t loans;

static void give_up(const char *what)
{
    fprintf(stderr, "the C test: %s\n", what);
    exit(2);
}

static size_t page(void)
{
    return (size_t)sysconf(_SC_PAGESIZE);
}

/* Pages for the watched bytes, and one more that may not be touched. */
static uint8_t *pages(size_t watched)
{
    uint8_t *start = mmap(NULL, watched + page(), PROT_READ | PROT_WRITE, MAP_PRIVATE | MAP_ANONYMOUS, -1, 0);
    if (start == MAP_FAILED || mprotect(start + watched, page(), PROT_NONE) != 0)
        give_up("no pages to lend");
    return start;
}

lent lend(size_t len)
{
    lent buffer;
    buffer.len = len;
    buffer.watched = (len + BYTES_BEFORE + page() - 1) / page() * page();
    buffer.open = pages(buffer.watched);
    buffer.bytes = buffer.open + buffer.watched - len;
    buffer.due = malloc(buffer.watched);
    if (buffer.due == NULL || loans == MOST_LENT)
        give_up("nothing left to lend");
    for (size_t i = 0; i < buffer.watched; i++)
        buffer.open[i] = (uint8_t)noise(256);
    memcpy(buffer.due, buffer.open, buffer.watched);
    out_on_loan[loans++] = buffer;
    return buffer;
}

lent lend_copy(const uint8_t *bytes, size_t len)
{
    lent buffer = lend(len);
    if (len > 0) {
        memcpy(buffer.bytes, bytes, len);
        memcpy(buffer.due + buffer.watched - len, bytes, len);
    }
    return buffer;
}

lent lend_table(table given)
{
    return lend_copy(given.at, SULMEDRA_TABLE_BYTES);
}

int untouched(const lent *buffer)
{
    return memcmp(buffer->open, buffer->due, buffer->watched) == 0;
}

int starts_with(lent *buffer, const uint8_t *bytes, size_t count)
{
    if (count > buffer->len)
        return 0;
    memcpy(buffer->due + buffer->watched - buffer->len, bytes, count);
    return untouched(buffer);
}

int untouched_after(const lent *buffer, size_t count)
{
    size_t before = buffer->watched - buffer->len;
    if (count > buffer->len)
        return 0;
    return memcmp(buffer->open, buffer->due, before) == 0 &&
           memcmp(buffer->bytes + count, buffer->due + before + count, buffer->len - count) == 0;
}

void take_back(void)
{
    while (loans > 0) {
        lent buffer = out_on_loan[--loans];
        munmap(buffer.open, buffer.watched + page());
        free(buffer.due);
    }
}
