/* sulmedra_read_text and sulmedra_answer. */
#include <string.h>

#include "check.h"
#include "circuits.h"
#include "lent.h"
#include "tests.h"

enum { FIRST_LINE = 3, GATE_LINE = 7 };

static lent lend_text(const char *text)
{
    return lend_copy((const uint8_t *)text, strlen(text));
}

/* One wire, so many lines of T, and then these bytes. */
static lent lend_long_text(size_t gates, const char *rest)
{
    static char text[SULMEDRA_TEXT_BYTES + 2 * GATE_LINE];
    strcpy(text, "01\n");
    for (size_t i = 0; i < gates; i++)
        strcpy(text + FIRST_LINE + GATE_LINE * i, "020000\n");
    strcpy(text + FIRST_LINE + GATE_LINE * gates, rest);
    return lend_text(text);
}

/* ---- read_text */

typedef struct {
    lent text, gates;
    sulmedra_text reply;
} text_call;

static text_call call_read_text(lent text, size_t gates_len)
{
    text_call call = {text, lend(gates_len), {0, 0, 0, 0}};
    call.reply = sulmedra_read_text(text.bytes, text.len, call.gates.bytes, call.gates.len);
    CHECK(untouched(&call.text));
    return call;
}

static void reads_into(size_t gates_len, lent text, uint64_t wires, const uint8_t *gates, size_t len)
{
    text_call call = call_read_text(text, gates_len);
    CHECK(call.reply.number == SULMEDRA_DONE);
    CHECK(call.reply.place == 0);
    CHECK(call.reply.wires == wires);
    CHECK(call.reply.gates == len / SULMEDRA_GATE_BYTES);
    CHECK(starts_with(&call.gates, gates, len));
    take_back();
}

static void reads(lent text, uint64_t wires, const uint8_t *gates, size_t len)
{
    reads_into(SULMEDRA_LIST_BYTES, text, wires, gates, len);
}

static void not_read(text_call call, uint64_t number, uint64_t place)
{
    CHECK(call.reply.number == number);
    CHECK(call.reply.place == place);
    CHECK(call.reply.wires == 0);
    CHECK(call.reply.gates == 0);
    CHECK(untouched(&call.gates));
    take_back();
}

static void malformed(const char *text, uint64_t line)
{
    about(text);
    not_read(call_read_text(lend_text(text), SULMEDRA_LIST_BYTES), SULMEDRA_FAULT_MALFORMED, line);
}

static void malformed_texts(void)
{
    malformed("", 1);
    malformed("01", 1);
    malformed("1\n", 1);
    malformed("0A\n", 1);
    malformed("01\r\n", 1);
    malformed("01\n\n", 2);
    malformed("01\n020000", 2);
    malformed("01\n020000\n02000\n", 3);
    malformed("01\n020000\n020000 \n", 3);
    malformed("09 \n", 1);
}

static void longest_texts(void)
{
    static uint8_t gates[SULMEDRA_LIST_BYTES];
    for (size_t i = 0; i < SULMEDRA_LIST_BYTES; i += SULMEDRA_GATE_BYTES)
        gates[i] = SULMEDRA_T;
    about("read_text: 4,096 gates");
    lent text = lend_long_text(SULMEDRA_MAX_GATES, "");
    CHECK(text.len == SULMEDRA_TEXT_BYTES - 1);
    reads(text, 1, gates, sizeof gates);
    about("read_text: gate line 4,097");
    not_read(call_read_text(lend_long_text(SULMEDRA_MAX_GATES, "x"), SULMEDRA_LIST_BYTES), SULMEDRA_FAULT_LIST_LENGTH, 0);
    not_read(call_read_text(lend_long_text(SULMEDRA_MAX_GATES + 1, ""), SULMEDRA_LIST_BYTES), SULMEDRA_FAULT_LIST_LENGTH, 0);
}

static void reading_texts(void)
{
    about("read_text: sound texts");
    reads(lend_text("08\n"), 8, (const uint8_t *)"", 0);
    reads(lend_text("01\n020000\n030000\n"), 1, LIST(T(0), ON(SULMEDRA_S, 0)));
    about("read_text: gates are not judged");
    reads(lend_text("02\nffa09b\n"), 2, LIST(0xff, 0xa0, 0x9b));
    about("read_text: more room");
    reads_into(SULMEDRA_LIST_BYTES + 1, lend_text("01\n020000\n"), 1, LIST(T(0)));
    malformed_texts();
    about("read_text: wire count");
    not_read(call_read_text(lend_text("00\n"), SULMEDRA_LIST_BYTES), SULMEDRA_FAULT_WIRE_COUNT, 0);
    not_read(call_read_text(lend_text("09\nx"), SULMEDRA_LIST_BYTES), SULMEDRA_FAULT_WIRE_COUNT, 0);
    about("read_text: lent output, before any line");
    not_read(call_read_text(lend_text("01\n020000\n"), SULMEDRA_LIST_BYTES - 1), SULMEDRA_FAULT_LENT_OUTPUT, 0);
    not_read(call_read_text(lend_text("x"), SULMEDRA_LIST_BYTES - 1), SULMEDRA_FAULT_LENT_OUTPUT, 0);
    longest_texts();
}

/* ---- answer */

static void answers_into(size_t out_len, const char *name, lent text, const char *due)
{
    lent out = lend(out_len);
    about(name);
    sulmedra_answered reply = sulmedra_answer(text.bytes, text.len, out.bytes, out.len);
    CHECK(reply.number == SULMEDRA_DONE);
    CHECK(reply.place == 0);
    CHECK(reply.bytes == strlen(due));
    CHECK(untouched(&text));
    CHECK(starts_with(&out, (const uint8_t *)due, strlen(due)));
    take_back();
}

static void answers(const char *name, lent text, const char *due)
{
    answers_into(SULMEDRA_REPLY_BYTES, name, text, due);
}

static void not_answered(size_t out_len)
{
    lent text = lend_text("01\n"), out = lend(out_len);
    about("answer: lent output");
    sulmedra_answered reply = sulmedra_answer(text.bytes, text.len, out.bytes, out.len);
    CHECK(reply.number == SULMEDRA_FAULT_LENT_OUTPUT);
    CHECK(reply.place == 0);
    CHECK(reply.bytes == 0);
    CHECK(untouched(&text));
    CHECK(untouched(&out));
    take_back();
}

/* A T on every parity of four wires but that of wire 0: examples/fourteen.txt. */
static const char fourteen[] = "04\n"
                               "020100\n010001\n020100\n010001\n"
                               "020200\n010002\n020200\n010102\n020200\n010002\n020200\n010102\n"
                               "020300\n010003\n020300\n010103\n020300\n010003\n020300\n010203\n"
                               "020300\n010003\n020300\n010103\n020300\n010003\n020300\n010203\n";

static void answering(void)
{
    answers("answer: T, T is S", lend_text("01\n020000\n020000\n"), "01\n0002 0000 0000 0000\n030000\n");
    answers("answer: Z is S, S", lend_text("01\n040000\n"), "01\n0000 0000 0000 0000\n030000\n030000\n");
    answers("answer: the fourteen-T block", lend_text(fourteen), "04\n000e 000e 0001 0001\n060000\n");
    answers("answer: what is left of it, without the counts", lend_text("04\n060000\n"), "04\n0001 0001 0001 0000\n060000\n");
    answers("answer: fault 1", lend_text("09\n"), "refused 01 0000\n");
    answers("answer: fault 3", lend_text("01\n020000\n070000\n"), "refused 03 0001\n");
    answers("answer: fault 4", lend_text("01\n020100\n"), "refused 04 0000\n");
    answers("answer: fault 5", lend_text("02\n020000\n010101\n"), "refused 05 0001\n");
    answers("answer: fault 9", lend_text("01\n020000\n0200\n"), "refused 09 0003\n");
    answers("answer: no text", lend(0), "refused 09 0001\n");
    answers("answer: 4,096 gates", lend_long_text(SULMEDRA_MAX_GATES, ""), "01\n1000 0000 0000 0000\n");
    answers("answer: fault 2", lend_long_text(SULMEDRA_MAX_GATES, "\n"), "refused 02 0000\n");
    answers("answer: what comes later does not matter", lend_long_text(SULMEDRA_MAX_GATES, "xyz"), "refused 02 0000\n");
    answers_into(SULMEDRA_REPLY_BYTES + 1, "answer: more room", lend_text("01\n020000\n"), "01\n0001 0001 0001 0000\n020000\n");
    not_answered(SULMEDRA_REPLY_BYTES - 1);
    not_answered(0);
}

void test_text(void)
{
    reading_texts();
    answering();
}
