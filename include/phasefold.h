/* phasefold: checks, counts, shows, sorts, folds and runs netlist files, imports AIGER texts, and takes
 * traces of folded files back.
 *
 * A slice is a pointer and its length. With length 0 the pointer may be NULL; else it is not. All
 * memory is lent by the caller: nothing is allocated, and nothing is kept after the return. A part that
 * is written, `result`, `work`, `clocks` or `trace`, overlaps no other part of the same call. This is not
 * tested: with parts that overlap, pf_fold has left a wrong netlist and answered number 0.
 *
 * Every answer starts with a refusal: the number of the question whose answer was no, and its place
 * (a block for numbers 2 to 5, a row for 6 to 9, 13 and 22, else 0). Both are 0 on success; the answer's
 * other fields are 0 on a refusal. A refusal changes no lent memory but `work`, which is all zero
 * after every return. In pf_trace `result` is work, too.
 *
 * A call needs about 150 KiB of stack, pf_import about 400 KiB (`bench/run --stack` measures it; no
 * theorem bounds it). Several threads may call at the same time, as long as nobody else uses what a call
 * writes. The static library is for x86-64 Linux. docs/example.c is a whole program.
 */
#ifndef PHASEFOLD_H
#define PHASEFOLD_H

#include <stddef.h>
#include <stdint.h>

/* Another number for every change of this interface; pf_version() answers the library's own. */
#define PF_VERSION 6

/* A block's bytes and rows, and the bytes of the longest file. */
#define PF_BLOCK_SIZE 512
#define PF_BLOCK_ROWS 63
#define PF_FILE_MAX 262144

/* Where a row stands in a file: its first byte. A row has 8: kind, reset, then a, b and c, of two bytes
 * each, the low one first. */
#define PF_ROW_SIZE 8
#define PF_ROW_OFFSET(row) \
    ((size_t)PF_BLOCK_SIZE * ((size_t)(row) / PF_BLOCK_ROWS) + 4 + PF_ROW_SIZE * ((size_t)(row) % PF_BLOCK_ROWS))

/* The kinds of rows. A next value, an operand and what an output shows is a literal: twice a row's number,
 * and one more to have its value inverted. */
#define PF_CONSTANT 0 /* row 0 alone */
#define PF_INPUT 1    /* a label, b phase */
#define PF_REGISTER 2 /* a next value, b label; reset 0, 1, or 2 for X */
#define PF_AND 3      /* of a and b */
#define PF_XOR 4      /* of a and b */
#define PF_MUX 5      /* b if a is 1, c if a is 0 */
#define PF_OUTPUT 6   /* a what it shows, b label, c phase */

/* The bytes of a file of so many rows, as of the folded file from `after`. */
#define PF_FILE_SIZE(rows) ((size_t)PF_BLOCK_SIZE * (((size_t)(rows) + PF_BLOCK_ROWS - 1) / PF_BLOCK_ROWS))

/* What pf_fold and pf_trace need, at least: bytes of `result`, bytes of `work`; and pf_fold alone, entries
 * of `clocks`. */
#define PF_FOLD_RESULT 65536
#define PF_FOLD_WORK 49152
#define PF_FOLD_CLOCKS 256

/* The most groups of a trace, and what pf_trace needs for a file with so many registers that reset to X
 * and so many inputs, as pf_count tells them: bytes of `trace`. With N phases there are at most
 * groups * N steps. */
#define PF_TRACE_GROUPS 512
#define PF_TRACE_SIZE(unknown, inputs, steps) ((size_t)(unknown) + (size_t)(steps) * (size_t)(inputs))

/* What pf_run and pf_sort need, at least, for a file of so many rows: bytes of `work`. Files of at most
 * 65536 bytes have at most 8064 rows, longer ones more. */
#define PF_ROW_WORK(rows) ((size_t)((rows) > 8064 ? 65536 : 16384))

/* What is enough for every file: bytes of `work`. */
#define PF_RUN_WORK 65536
#define PF_SORT_WORK 65536

/* What pf_import needs, at least, for every text: bytes of `result`, bytes of `work`. */
#define PF_IMPORT_RESULT 262144
#define PF_IMPORT_WORK 196608

#ifdef __cplusplus
extern "C" {
#endif

typedef struct { uint32_t number, place; } pf_refusal;

/* The nodes include the constant; `unknown` counts the registers that reset to X. */
typedef struct { uint32_t number, place, nodes, inputs, registers, unknown, outputs; } pf_counts;

/* A part of the caller's file, by its first byte and its size. */
typedef struct { uint32_t number, place, offset, size; } pf_shown;

/* Lasso, phase count, used generators, and the rows of the file and of the folded file. */
typedef struct { uint32_t number, place, stem, cycle, phases, used, before, after; } pf_folded;

/* A used generator: its register's label, its period, bit k of `word` its value in phase k, and how
 * many bits of `word` are set. */
typedef struct { uint16_t label; uint8_t period, word; uint32_t ones; } pf_clock;

/* The rows of the file that was written. */
typedef struct { uint32_t number, place, rows; } pf_written;

/* The steps of the trace. */
typedef struct { uint32_t number, place, steps; } pf_traced;

/* Refusals, by number (B: the place is a block, R: a row):
 *  1    the length is not 512 times 1 to 512 bytes
 *  2 B  the block's 128 words do not sum to 4294967295 modulo 2 to the 32
 *  3 B  the block's head: its last-block mark (byte 0) or its number (bytes 1 and 3)
 *  4 B  the block's row count is not 63, or in the last block not 1 to 63
 *  5 B  a byte after the block's last row is not zero
 *  6 R  a kind above 6, a constant that is not row 0, a row 0 that is no constant, a node after an output
 *  7 R  a field that the kind does not use is not zero, or reset or phase is out of range
 *  8 R  an earlier row of the same kind has its label (for inputs and outputs: label and phase)
 *  9 R  a literal that names no node, or in a gate no earlier row (for pf_sort: no node)
 * 10    there is no output
 * 11    more than 1008 rows, for a fold
 * 12    more than 256 registers, for a fold
 * 13 R  an input or output of a netlist that is to be folded has a phase that is not 0
 * 14    the wish is above 8
 * 15    the memory that is lent to pf_fold, or `result` or `work` of pf_trace, is too small
 * 16    states 0 to 256 of the three-valued run all differ: there is no lasso
 * 17    more than 4096 steps
 * 18    a list of values that has not exactly its length
 * 19    a value that is not 0 or 1
 * 20    the memory that is lent to pf_run is too small
 * 21    there is no block of this number
 * 22 R  a loop of gates: the row is the lowest gate that is in one or behind one
 * 23    the memory that is lent to pf_sort or pf_import is too small
 * 24    the text is no ASCII AIGER as it is taken
 * 25    the text has more than 32256 rows
 * 26    not 1 to 512 groups, or a phase that the fold does not have
 * 27    a list of values for the folded file that has not exactly its length, or a value that is not 0 or 1
 * 28    the memory that is lent for the trace is too small
 */

/* The number of the interface that this library has: PF_VERSION of the header that belongs to it. */
uint32_t pf_version(void);

/* Is this a netlist file? Refusals 1 to 10. */
pf_refusal pf_check(const uint8_t *file, size_t file_len);

/* How many rows of each sort a file has. Refusals 1 to 10. */
pf_counts pf_count(const uint8_t *file, size_t file_len);

/* Where the rows of a block stand in the file: `size` bytes, 504, from byte `offset` on. Refusals 1 to
 * 10 and 21 (there is no such block). */
pf_shown pf_show(const uint8_t *file, size_t file_len, uint32_t block);

/* Folds a file into as many phases as `wish` says, 1 to 8, or into the best number, with 0.
 * `result` then starts with the folded file, PF_FILE_SIZE(after) bytes, and is zero after it; the first
 * `used` entries of `clocks` are set, in row order, and the others are unchanged. At least
 * PF_FOLD_RESULT bytes of `result`, PF_FOLD_WORK of `work` and PF_FOLD_CLOCKS entries of `clocks` are
 * needed. Refusals 1 to 16. */
pf_folded pf_fold(const uint8_t *file, size_t file_len, uint32_t wish, uint8_t *result, size_t result_len,
                  uint8_t *work, size_t work_len, pf_clock *clocks, size_t clocks_len);

/* Runs a file for `steps` steps, at most 4096. `choices` has a byte, 0 or 1, for each register that
 * resets to X; `inputs` has one for each input, step after step; `result` gets one for each output,
 * step after step, all in row order. Later bytes of `result` are unchanged. At least PF_ROW_WORK(rows)
 * bytes of `work` are needed; PF_RUN_WORK are always enough. Refusals 1 to 10 and 17 to 20. */
pf_refusal pf_run(const uint8_t *file, size_t file_len, uint32_t steps, const uint8_t *choices, size_t choices_len,
                  const uint8_t *inputs, size_t inputs_len, uint8_t *result, size_t result_len, uint8_t *work, size_t work_len);

/* Takes values for a folded file back to the file itself, which is folded as by pf_fold with this `wish`,
 * into N phases (`phases` of pf_folded). `choices` and `inputs` are what pf_run takes for the folded file
 * and `groups` steps: a byte, 0 or 1, for each of its registers that reset to X; one for each of its
 * inputs, group after group. `trace` gets what pf_run takes for `file` and `steps` steps, the choices and
 * then the inputs, PF_TRACE_SIZE(unknown, inputs, steps) bytes; what the fold has not kept is 0. Later
 * bytes of `trace` are unchanged. There are (groups - 1) * N + phase + 1 steps, so that the last one is
 * `phase` of the last group, and there every output of `file` shows what the folded file's does. `result`
 * is all zero after every return, as `work` is. At least PF_FOLD_RESULT bytes of `result` and PF_FOLD_WORK
 * of `work` are needed. Refusals 1 to 16, where 15 asks for no clocks, then 26 (1 to PF_TRACE_GROUPS
 * groups, a phase below N), 27 (values) and 28 (the memory for the trace). */
pf_traced pf_trace(const uint8_t *file, size_t file_len, uint32_t wish, uint32_t groups, uint32_t phase,
                   const uint8_t *choices, size_t choices_len, const uint8_t *inputs, size_t inputs_len,
                   uint8_t *result, size_t result_len, uint8_t *work, size_t work_len, uint8_t *trace, size_t trace_len);

/* Puts a file whose gates stand in any order into one that the others take: a gate may name any node.
 * The constant comes first, then inputs and registers in row order, then always the lowest-numbered
 * gate whose gate operands are all placed, then the outputs in row order. `result` then starts with
 * the sorted file, as long as `file`, and is zero after it. At least `file_len` bytes of `result` and
 * PF_ROW_WORK(rows) of `work` are needed; PF_SORT_WORK are always enough. Refusals 1 to 10, then 23
 * (memory) and 22 (a loop of gates; the place is the lowest gate that is in a loop or behind one). */
pf_written pf_sort(const uint8_t *file, size_t file_len, uint8_t *result, size_t result_len,
                   uint8_t *work, size_t work_len);

/* Makes a netlist file of an ASCII AIGER text: "aag ", the five numbers M I L O A, then a line for each
 * input, latch, output and gate; what follows these lines is ignored. The constant comes first, then
 * inputs, latches, gates as pf_sort puts them, outputs; labels are positions from 0 in each list.
 * `result` then starts with the file, PF_FILE_SIZE(rows) bytes, and is zero after it. At least
 * PF_IMPORT_RESULT bytes of `result` and PF_IMPORT_WORK of `work` are needed. Refusals, in this order:
 * 23 (memory), 24 (other text), 25 (more rows than a file has), 22 (a loop of gates; the place is the
 * row, before sorting, of the lowest gate that is in a loop or behind one).
 * The time is linear in the text's length where definitions count up, 2, 4, 6 and so on, as AIGER's own
 * tools write them. For other texts of more rows than a file has it grows with the square of the
 * length: whoever takes texts from strangers should limit their length. */
pf_written pf_import(const uint8_t *text, size_t text_len, uint8_t *result, size_t result_len,
                     uint8_t *work, size_t work_len);

#ifdef __cplusplus
}
#endif

#endif
