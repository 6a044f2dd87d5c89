/* Sulmedra: the proved T-count trimmer, for C. Each function is proved to keep the promise of the entry that it exports (crates/capi).
 * docs/RULES.md of the repository, installed as share/doc/sulmedra/RULES.md, tells the rules: gates, weights and rows, marks, moves and
 * logs, the text form, faults.
 *
 * Replies. Every call replies: number 0 and place 0 when it is done, else the fault's number and its place (sulmedra_move_at has no
 * fault). A refusal leaves every lent buffer as it was.
 *
 * Lent bytes. A pointer comes with the number of bytes lent there. Where that number is 0 the pointer is not used, and may be NULL; else
 * it must point to so many bytes. A call reads and writes nothing beyond what it is lent, and keeps no pointer. A buffer that is written
 * must not overlap another one of the same call; buffers that are only read may. Outputs need not be set before the call.
 *
 * Threads. The library keeps no state: it has constants, and no variable that outlives a call. Calls may run at the same time, as long as
 * none writes what another one is lent.
 *
 * Stack. A thread with SULMEDRA_STACK_BYTES of stack can make every call, whatever the arguments. No function of the library calls
 * itself, and no frame depends on an argument. tests/c/test_stack.c measures each call on a thread whose stack was painted before, and
 * holds sulmedra_answer below 49,152 bytes and every other function below 16,384. No call allocates memory or asks anything of the system;
 * of the C library the functions need memcpy and memset alone.
 */
#ifndef SULMEDRA_H
#define SULMEDRA_H

#include <stddef.h>
#include <stdint.h>

#ifdef __cplusplus
extern "C" {
#endif

/* The version stands here alone; the pkg-config file takes it from here. */
#define SULMEDRA_VERSION "0.1.0"
#define SULMEDRA_VERSION_MAJOR 0
#define SULMEDRA_VERSION_MINOR 1
#define SULMEDRA_VERSION_PATCH 0

/* Circuits: wires 0 to 7; a gate is three bytes, kind, a and b. */
#define SULMEDRA_MAX_WIRES 8
#define SULMEDRA_MAX_GATES 4096
#define SULMEDRA_GATE_BYTES 3
#define SULMEDRA_LIST_BYTES 12288 /* the longest list; what is lent to the text reader at least */

/* Weights, and marks of an odd set: one byte for each parity. Rows: one parity for each wire. */
#define SULMEDRA_TABLE_BYTES 256
#define SULMEDRA_ROW_BYTES 8

/* The coefficients of wires, of pairs and of triples of wires. */
#define SULMEDRA_L_BYTES 8
#define SULMEDRA_Q_BYTES 64
#define SULMEDRA_C_BYTES 512

/* A move: z, the number in Y, the members of Y, zeros. A log is lent for the most moves that a trim can make. */
#define SULMEDRA_MAX_MEMBERS 38 /* of Y */
#define SULMEDRA_MOVE_BYTES 40
#define SULMEDRA_MAX_MOVES 255
#define SULMEDRA_LOG_BYTES 10200

/* Written lists: the most gates, and what is lent for them at least. */
#define SULMEDRA_MAX_WRITTEN_GATES 2112
#define SULMEDRA_WRITE_BYTES 6336

/* Texts: so many bytes of a text decide its answer; the longest answer, which is what is lent for one at least. */
#define SULMEDRA_TEXT_BYTES 28676
#define SULMEDRA_REPLY_BYTES 14807

/* The stack that is enough for every call. */
#define SULMEDRA_STACK_BYTES 65536

/* The first byte of a gate. A CNOT has control a and target b; the others act on wire a, and b is 0. Z is read and never written. */
enum sulmedra_kind {
    SULMEDRA_CNOT = 1,
    SULMEDRA_T = 2,
    SULMEDRA_S = 3,
    SULMEDRA_Z = 4,
    SULMEDRA_S_DAGGER = 5,
    SULMEDRA_T_DAGGER = 6
};

/* The number of a reply. */
enum sulmedra_fault {
    SULMEDRA_DONE = 0,
    SULMEDRA_FAULT_WIRE_COUNT = 1,  /* the wire count is 0 or above 8 */
    SULMEDRA_FAULT_LIST_LENGTH = 2, /* the list is no multiple of three bytes, or over 12,288; in a text: more than 4,096 gate lines */
    SULMEDRA_FAULT_GATE_KIND = 3,   /* a kind is outside 1 to 6 */
    SULMEDRA_FAULT_GATE_WIRE = 4,   /* a is not below n; or b is not below n in a CNOT, not 0 elsewhere */
    SULMEDRA_FAULT_SAME_WIRE = 5,   /* a CNOT has a = b */
    SULMEDRA_FAULT_TABLE_RULE = 6,  /* weights or marks are not 256 bytes, or a byte is against its rule */
    SULMEDRA_FAULT_ROW_RULE = 7,    /* rows are not 8 bytes, have a bit or a row beyond n, or are not invertible */
    SULMEDRA_FAULT_LENT_OUTPUT = 8, /* a lent output has another length than it must have, or is too short */
    SULMEDRA_FAULT_MALFORMED = 9,   /* a line of the text is malformed */
    SULMEDRA_FAULT_BAD_MOVE = 10,   /* the move is not forty bytes, or not legal for these marks */
    SULMEDRA_FAULT_SECOND_LIST = 11 /* the second of two lists has a fault: its length, or the gate at the place told */
};

typedef struct {
    uint64_t number; /* 0, or the number of the fault */
    uint64_t place;  /* the index of the faulty gate, from 0, for faults 3, 4 and 5; else 0 */
} sulmedra_reply;

/* Reads a list of gates on n wires into 256 weights and 8 rows.
 *   gates    three bytes each: kind, a, b; at most 12,288 bytes, any bytes
 *   weights  256 bytes, written
 *   rows     8 bytes, written
 * Checks, in order: 1 wire count, 2 list length, 8 lent outputs, then gate by gate 3 kind, 4 wire, 5 CNOT on one wire. */
sulmedra_reply sulmedra_read(size_t n, const uint8_t *gates, size_t gates_len, uint8_t *weights, size_t weights_len,
                             uint8_t *rows, size_t rows_len);

/* The odd set of weights on n wires: 1 where a weight is odd, else 0.
 *   weights  256 bytes, each 0 to 7, 0 at parity 0 and from 2^n up
 *   marks    256 bytes, written
 * Checks, in order: 1 wire count, 8 lent output, 6 weights. */
sulmedra_reply sulmedra_odd_set(size_t n, const uint8_t *weights, size_t weights_len, uint8_t *marks, size_t marks_len);

/* The coefficients of weights on n wires: l modulo 8, q modulo 4, c modulo 2.
 *   weights  256 bytes, as above
 *   l        8 bytes, written: l(i) at i
 *   q        64 bytes, written: q(i, j) at 8 j + i, for i < j
 *   c        512 bytes, written: c(i, j, k) at 64 k + 8 j + i, for i < j < k
 * Every other byte of the three is written as 0. Checks, in order: 1, 8 (l, q or c of any other length), 6. */
sulmedra_reply sulmedra_coefficients(size_t n, const uint8_t *weights, size_t weights_len, uint8_t *l, size_t l_len, uint8_t *q,
                                     size_t q_len, uint8_t *c, size_t c_len);

/* The new weights for the weights of a circuit and an odd set with their signature: each member gets 1, and the even rest is added so
 * that the phases are those of the weights. For marks of another signature no weights at all have both these marks as odd set and the
 * phases of the weights given. The call is done all the same; what it writes, by the two formulas of docs/RULES.md, is a sound table of
 * weights without a meaning.
 *   weights  256 bytes, as above
 *   marks    256 bytes, each 0 or 1, 0 at parity 0 and from 2^n up
 *   out      256 bytes, written
 * Checks, in order: 1, 8, 6 (weights, then marks). */
sulmedra_reply sulmedra_new_weights(size_t n, const uint8_t *weights, size_t weights_len, const uint8_t *marks, size_t marks_len,
                                    uint8_t *out, size_t out_len);

typedef struct {
    uint64_t number; /* 0, or the number of the fault */
    uint64_t place;  /* the index of the faulty gate, from 0, for faults 3, 4, 5 and 11; 0 for a bad length, and else */
    uint64_t same;   /* 1: the lists act alike; 0: some basis state tells them apart, or a refusal */
} sulmedra_compared;

/* Compares two lists of gates on n wires. Where number is 0, same is 1 exactly when each of the 2^n basis states goes to the same state
 * with the same phase modulo 8 by both, and 0 exactly when some basis state goes to another state or has another phase. No state is tried:
 * rows, and the coefficients of the one list's weights less the other's, decide. Nothing is written, and the two lists may be the same
 * bytes. A circuit and what sulmedra_trim writes for it are the same.
 *   first   three bytes each: kind, a, b; at most 12,288 bytes, any bytes
 *   second  the same
 * Checks, in order: 1 wire count; of the first list 2 length, then gate by gate 3, 4, 5; of the second 11, with place 0 for a length that
 * would be fault 2, else the index of its first faulty gate. */
sulmedra_compared sulmedra_compare(size_t n, const uint8_t *first, size_t first_len, const uint8_t *second, size_t second_len);

typedef struct {
    uint64_t number; /* 0, or the number of the fault */
    uint64_t place;  /* 0 */
    uint64_t gates;  /* the number of gates written, 0 where none are */
} sulmedra_written;

/* Writes gates on n wires for weights and rows, from the first byte on: reading them gives exactly these weights and rows. Weight 1 to 7
 * is spelled T; S; S T; S S; S dagger T dagger; S dagger; T dagger, so that no Z is written. At most n * 2^n + n * n gates; every byte
 * after the last gate is as it was. Which CNOTs are used, and the order of parities, are free; but in one version equal n, weights and
 * rows give equal gates, whatever the lent bytes held.
 *   weights  256 bytes, each 0 to 7, 0 at parity 0 and from 2^n up
 *   rows     8 bytes: row i below 2^n, 0 from row n up, invertible
 *   gates    at least 6,336 bytes, written
 * Checks, in order: 1 wire count, 8 lent output, 6 weights, 7 rows. */
sulmedra_written sulmedra_write(size_t n, const uint8_t *weights, size_t weights_len, const uint8_t *rows, size_t rows_len,
                                uint8_t *gates, size_t gates_len);

typedef struct {
    uint64_t number; /* 0, or the number of the fault */
    uint64_t place;  /* 0 */
    uint64_t differ; /* the number of marks that differ from before, 0 after a refusal */
} sulmedra_carried;

/* Carries out a move on the marks of an odd set, which are flipped where they lie, and tells how many of them differ from before. At most
 * 2 |Y| + 1 do, where |Y| is the number in Y: those of y and y XOR z for each y in Y, and that of z. A mark that is flipped twice is as
 * before and does not count, nor does mark 0, which is 0 again at the end.
 *   marks  256 bytes, each 0 or 1, 0 at parity 0 and from 2^n up; changed
 *   move   40 bytes: z, the number in Y, Y ascending, zeros
 * Checks, in order: 1 wire count, 8 length of the marks, 6 a mark against its rule, 10 no legal move for these marks. */
sulmedra_carried sulmedra_carry_out(size_t n, uint8_t *marks, size_t marks_len, const uint8_t *move, size_t move_len);

typedef struct {
    uint64_t number; /* 0, or the number of the fault */
    uint64_t place;  /* 0 */
    uint64_t found;  /* 1: a legal move was written; 0: there is none, or a refusal */
} sulmedra_found;

/* Finds a legal move for the marks of an odd set, with the smallest z that any legal move for them has; or says that there is none, and
 * the forty bytes are then untouched. Equal marks give equal z, after every upgrade; the set Y is free.
 *   marks  256 bytes, as above
 *   move   40 bytes, written where a move is found
 * Checks, in order: 1, 8 (move), 6 (marks). */
sulmedra_found sulmedra_find(size_t n, const uint8_t *marks, size_t marks_len, uint8_t *move, size_t move_len);

typedef struct {
    uint64_t start;  /* where in the log the move starts, 40 k; 0 where the length is 0 */
    uint64_t length; /* 40, or 0 where the log has fewer than 40 k + 40 bytes */
} sulmedra_part;

/* The part of a log that move k takes, counted from 0. It has no fault.
 *   log  any bytes, only read
 *   k    any number */
sulmedra_part sulmedra_move_at(const uint8_t *log, size_t log_len, size_t k);

typedef struct {
    uint64_t number;   /* 0, or the number of the fault */
    uint64_t place;    /* the index of the faulty gate, from 0, for faults 3, 4 and 5; else 0 */
    uint64_t t_in;     /* T and T dagger gates of the circuit */
    uint64_t odd_size; /* members of its odd set */
    uint64_t t_out;    /* T and T dagger gates written */
    uint64_t moves;    /* moves in the log */
    uint64_t gates;    /* gates written */
} sulmedra_trimmed;

/* Trims a circuit on n wires: writes a circuit that sends each basis state to the same state with the same phase modulo 8, and the
 * moves that lead to it. It has no more T and T dagger gates than the circuit and no more than (n * n + n) / 2 + 1, and no legal move
 * is left for its odd set. Each move is legal on the marks that it gets, and no legal move there has a smaller z. The weights are
 * spelled as sulmedra_write spells them, so the circuit has no Z. Which CNOTs are used, the order of parities, and the set Y of each
 * move are free.
 * The circuit that is written, trimmed again into outputs that are long enough, stays: that call is done, with no move and the log as it
 * was; t_in, odd_size and t_out are the t_out of the first; the gates have the same weights and rows, and the same version writes the same
 * gates, byte for byte.
 *   gates  three bytes each, at most 12,288 bytes, any bytes
 *   out    at least 6,336 bytes; the gates are written from its start, and what comes after the last is untouched
 *   log    at least 10,200 bytes; the moves are written from its start, forty bytes each, and what comes after the last is untouched
 * Checks, in order: 1 wire count, 2 list length, 8 lent outputs, then gate by gate 3, 4, 5. A refusal's counts are 0. */
sulmedra_trimmed sulmedra_trim(size_t n, const uint8_t *gates, size_t gates_len, uint8_t *out, size_t out_len, uint8_t *log,
                               size_t log_len);

typedef struct {
    uint64_t number; /* 0, or the number of the fault */
    uint64_t place;  /* the line, from 1, for fault 9; else 0 */
    uint64_t wires;  /* the wire count, 0 after a refusal */
    uint64_t gates;  /* the number of gates, 0 after a refusal */
} sulmedra_text;

/* Reads the text form: line one is the wire count in two lower-case hex digits, each further line one gate in six.
 *   text   any bytes
 *   gates  at least 12,288 bytes; the gates are written from its start, and what comes after the last is untouched
 * Checks: 8, then lines in order: form (9), on line one the count (1); gate line 4,097 gives 2. The gates are not judged here. */
sulmedra_text sulmedra_read_text(const uint8_t *text, size_t text_len, uint8_t *gates, size_t gates_len);

typedef struct {
    uint64_t number; /* 0, or 8: the lent bytes are too few; a fault of the text is told by the line written */
    uint64_t place;  /* 0 */
    uint64_t bytes;  /* the bytes of the reply, 0 after a refusal */
} sulmedra_answered;

/* Answers a text with what the program `trim` prints for it: the wire count, the four counts and the gates of the trimmed circuit, or
 * one line `refused ` with the number and the place of the text's fault. The circuit and the counts are those of a trim with all that is
 * said of sulmedra_trim. The first 28,676 bytes of a text decide. The reply with a circuit, without its second line, is a text again; the
 * same version answers it with the same lines but for the second: T gates out, three times, and 0000.
 *   text  any bytes
 *   out   at least 14,807 bytes; the reply is written from its start, and what comes after it is untouched
 * Checks: 8. */
sulmedra_answered sulmedra_answer(const uint8_t *text, size_t text_len, uint8_t *out, size_t out_len);

#ifdef __cplusplus
}
#endif

#endif
