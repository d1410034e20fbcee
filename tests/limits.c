/* limits FILE: the numbers of phasefold.h are those at which the library refuses, and NULL is taken as it says. Prints each that is not. */
#include <stdio.h>
#include <string.h>

#include "phasefold.h"

static uint8_t file[PF_FILE_MAX + PF_BLOCK_SIZE];
static uint8_t result[PF_IMPORT_RESULT];
static uint8_t work[PF_IMPORT_WORK];
static pf_clock clocks[PF_FOLD_CLOCKS];
static uint8_t values[PF_TRACE_GROUPS + 1];
static uint8_t trace[PF_TRACE_SIZE(0, 1, 2 * PF_TRACE_GROUPS) + 16];
static int wrong;

static void expect(const char *name, size_t seen, size_t expected)
{
    if (seen != expected) {
        printf("%s: %zu, expected %zu\n", name, seen, expected);
        wrong = 1;
    }
}

static size_t fold(size_t size, size_t result_size, size_t work_size, size_t entries)
{
    return pf_fold(file, size, 0, result, result_size, work, work_size, clocks, entries).number;
}

static size_t run(size_t size, size_t work_size)
{
    uint8_t none[1] = {0};
    return pf_run(file, size, 0, none, 0, none, 0, result, sizeof result, work, work_size).number;
}

static size_t sort(size_t size, size_t result_size, size_t work_size)
{
    return pf_sort(file, size, result, result_size, work, work_size).number;
}

static void fill(uint8_t value)
{
    memset(result, value, sizeof result);
    memset(work, value, sizeof work);
    memset(clocks, value, sizeof clocks);
    memset(trace, value, sizeof trace);
}

static size_t count_of(uint8_t value, const uint8_t *from, size_t length)
{
    size_t found = 0;
    for (size_t k = 0; k < length; k++) found += from[k] == value;
    return found;
}

/* What a fold leaves: zeros after the file, which is accepted, and the clock entries after `used` as they were. */
static void expect_fold(size_t size)
{
    fill(0xa5);
    pf_folded folded = pf_fold(file, size, 0, result, sizeof result, work, sizeof work, clocks, PF_FOLD_CLOCKS);
    size_t length = PF_FILE_SIZE(folded.after), zeros = 0, kept = 0;
    for (size_t k = length; k < sizeof result; k++) zeros += result[k] == 0;
    for (size_t k = folded.used; k < PF_FOLD_CLOCKS; k++) kept += clocks[k].ones == 0xa5a5a5a5;
    expect("the folded file", pf_check(result, length).number, 0);
    expect("its rows", pf_count(result, length).nodes + pf_count(result, length).outputs, folded.after);
    expect("zeros after it", zeros, sizeof result - length);
    expect("clock entries that stay", kept, PF_FOLD_CLOCKS - folded.used);
}

/* The groups, the phase, how many values are given, and what is lent. */
struct tracing { uint32_t groups, phase; size_t inputs, result, work, trace; };

/* What a trace of the sample answers and leaves. The sample has one input and no X register, and its fold two phases, of which the second keeps the input. Only the trace's own bytes change in its memory; result and work are zero to their ends, and as they were behind them. */
static void expect_trace(const char *name, size_t size, struct tracing t, size_t number, size_t steps)
{
    fill(0xa5);
    pf_traced traced = pf_trace(file, size, 0, t.groups, t.phase, NULL, 0, values, t.inputs, result, t.result, work, t.work, trace, t.trace);
    size_t length = PF_TRACE_SIZE(0, 1, steps);
    expect(name, traced.number, number);
    expect("the place of a trace's refusal", traced.place, 0);
    expect("the steps of a trace", traced.steps, steps);
    expect("bytes that stay after a trace", count_of(0xa5, trace + length, sizeof trace - length), sizeof trace - length);
    expect("a trace's bytes that are 0 or 1", count_of(0, trace, length) + count_of(1, trace, length), length);
    expect("zeros in the result of a trace", count_of(0, result, t.result), t.result);
    expect("zeros in the work of a trace", count_of(0, work, t.work), t.work);
    expect("bytes behind that result", count_of(0xa5, result + t.result, sizeof result - t.result), sizeof result - t.result);
    expect("bytes behind that work", count_of(0xa5, work + t.work, sizeof work - t.work), sizeof work - t.work);
}

/* A trace that starts with the value 1 in group 0, taken back and run; then the limits of its refusals, and their order. */
static void expect_traces(size_t size)
{
    static const uint8_t steps[] = {0, 1, 0, 0}, shown[] = {0, 0, 0, 1};
    enum { R = PF_FOLD_RESULT, W = PF_FOLD_WORK, G = PF_TRACE_GROUPS };
    memset(values, 0, sizeof values);
    values[0] = 1;
    expect("the size of a trace", PF_TRACE_SIZE(3, 2, 5), 13);
    expect_trace("a trace, lent more than it needs", size, (struct tracing){2, 1, 2, sizeof result, sizeof work, sizeof trace}, 0, 4);
    expect_trace("a trace, lent the least", size, (struct tracing){2, 1, 2, R, W, 4}, 0, 4);
    expect("the trace's values", memcmp(trace, steps, sizeof steps), 0);
    expect("its run", pf_run(file, size, 4, NULL, 0, trace, 4, result, sizeof result, work, sizeof work).number, 0);
    expect("what its run shows", memcmp(result, shown, sizeof shown), 0);
    expect_trace("no group", size, (struct tracing){0, 1, 0, R, W, sizeof trace}, 26, 0);
    expect_trace("one group", size, (struct tracing){1, 1, 1, R, W, 2}, 0, 2);
    expect_trace("the most groups", size, (struct tracing){G, 1, G, R, W, 2 * G}, 0, 2 * G);
    expect_trace("a group more", size, (struct tracing){G + 1, 1, G + 1, R, W, sizeof trace}, 26, 0);
    expect_trace("the first phase", size, (struct tracing){2, 0, 2, R, W, 3}, 0, 3);
    expect_trace("a phase more", size, (struct tracing){2, 2, 2, R, W, sizeof trace}, 26, 0);
    expect_trace("a value more", size, (struct tracing){2, 1, 3, R, W, sizeof trace}, 27, 0);
    expect_trace("a value less", size, (struct tracing){2, 1, 1, R, W, sizeof trace}, 27, 0);
    expect_trace("a short trace", size, (struct tracing){2, 1, 2, R, W, 3}, 28, 0);
    expect_trace("a short result of a trace", size, (struct tracing){2, 1, 2, R - 1, W, 4}, 15, 0);
    expect_trace("short work of a trace", size, (struct tracing){2, 1, 2, R, W - 1, 4}, 15, 0);
    expect_trace("15 before 26", size, (struct tracing){0, 1, 2, R - 1, W, 4}, 15, 0);
    expect_trace("26 before 27", size, (struct tracing){2, 2, 3, R, W, 4}, 26, 0);
    expect_trace("27 before 28", size, (struct tracing){2, 1, 3, R, W, 3}, 27, 0);
    expect("a choice more", pf_trace(file, size, 0, 2, 1, values, 1, values, 2, result, R, work, W, trace, 4).number, 27);
    expect("trace, another wish", pf_trace(file, size, 1, 2, 0, NULL, 0, values, 2, result, R, work, W, trace, 4).steps, 2);
    expect("trace, a wish above 8", pf_trace(file, size, 9, 2, 1, NULL, 0, values, 2, result, R, work, W, trace, 4).number, 14);
    values[1] = 2;
    expect_trace("a value 2", size, (struct tracing){2, 1, 2, R, W, 4}, 27, 0);
    expect_trace("a value 2 of a later phase", size, (struct tracing){2, 0, 2, R, W, 4}, 27, 0);
}

static uint8_t *row_at(size_t row)
{
    return file + PF_ROW_OFFSET(row);
}

static void set_field(size_t row, size_t field, unsigned value)
{
    uint8_t *at = row_at(row) + 2 + 2 * field;
    at[0] = value & 255;
    at[1] = value >> 8;
}

/* The sample's rows stand where the header says, and have its kinds. */
static void expect_kinds(void)
{
    static const uint8_t kinds[] = {PF_CONSTANT, PF_INPUT, PF_REGISTER, PF_REGISTER, PF_REGISTER, PF_MUX, PF_MUX, PF_OUTPUT};
    for (size_t row = 0; row < sizeof kinds; row++) expect("a kind of the sample", *row_at(row), kinds[row]);
    expect("AND", PF_AND, 3);
    expect("XOR", PF_XOR, 4);
    expect("the last row of a block", PF_ROW_OFFSET(62), 500);
    expect("the first row of the next", PF_ROW_OFFSET(63), 516);
}

/* Makes the check of a block right. */
static void seal(uint8_t *block)
{
    uint32_t sum = 0;
    for (size_t k = 0; k < 508; k += 4) sum += block[k] | block[k + 1] << 8 | block[k + 2] << 16 | (uint32_t)block[k + 3] << 24;
    for (size_t k = 0; k < 4; k++) block[508 + k] = ~sum >> 8 * k & 255;
}

/* A file of inputs and an output, of so many rows; its size. */
static size_t make_long(size_t rows)
{
    size_t blocks = (rows + PF_BLOCK_ROWS - 1) / PF_BLOCK_ROWS;
    memset(file, 0, sizeof file);
    for (size_t row = 1; row < rows - 1; row++) {
        *row_at(row) = PF_INPUT;
        set_field(row, 0, row);
    }
    *row_at(rows - 1) = PF_OUTPUT;
    for (size_t k = 0; k < blocks; k++) {
        uint8_t *block = file + PF_BLOCK_SIZE * k;
        block[0] = k == blocks - 1 ? 2 : 1;
        block[1] = k & 255;
        block[2] = k == blocks - 1 ? rows - PF_BLOCK_ROWS * k : PF_BLOCK_ROWS;
        block[3] = k >> 8;
        seal(block);
    }
    return PF_BLOCK_SIZE * blocks;
}

/* The least work of run and of sort for so many rows. */
static void expect_work(size_t rows, size_t bytes)
{
    size_t size = make_long(rows);
    expect("work by rows", PF_ROW_WORK(rows), bytes);
    expect("run of many rows", run(size, bytes), 0);
    expect("short work of a run of many rows", run(size, bytes - 1), 20);
    expect("sort of many rows", sort(size, size, bytes), 0);
    expect("short work of a sort of many rows", sort(size, size, bytes - 1), 23);
}

/* The longest file, and a number that its blocks have in two bytes. */
static void expect_long(void)
{
    size_t size = make_long(32256);
    expect("the size of the longest file", size, PF_FILE_MAX);
    expect("the longest file", pf_check(file, size).number, 0);
    expect("its nodes", pf_count(file, size).nodes, 32255);
    expect("its last block", pf_show(file, size, 511).offset, 511 * PF_BLOCK_SIZE + 4);
    expect("a block too many", pf_show(file, size, 512).number, 21);
    expect("its fold", fold(size, PF_FOLD_RESULT, PF_FOLD_WORK, PF_FOLD_CLOCKS), 11);
    file[300 * PF_BLOCK_SIZE + 3] = 0;
    seal(file + 300 * PF_BLOCK_SIZE);
    expect("block 300 without its high byte", pf_check(file, size).number, 3);
    expect("the place of that refusal", pf_check(file, size).place, 300);
}

/* What a sort leaves, of the sample whose row 5 names row 6: zeros after the file, which is accepted, and in work; then with a loop of both. */
static void expect_sort(size_t size)
{
    size_t zeros = 0, clear = 0;
    set_field(5, 1, 12);
    seal(file);
    expect("gates in any order", pf_check(file, size).number, 9);
    fill(0xa5);
    pf_written sorted = pf_sort(file, size, result, sizeof result, work, PF_SORT_WORK);
    for (size_t k = size; k < sizeof result; k++) zeros += result[k] == 0;
    for (size_t k = 0; k < sizeof work; k++) clear += work[k] == 0;
    expect("sort", sorted.number, 0);
    expect("the sorted file's rows", sorted.rows, 8);
    expect("the sorted file", pf_check(result, size).number, 0);
    expect("zeros after the sorted file", zeros, sizeof result - size);
    expect("work that is zero after sort", clear, PF_SORT_WORK);
    expect("the least memory of sort", sort(size, size, PF_ROW_WORK(8)), 0);
    expect("a short result of sort", sort(size, size - 1, PF_SORT_WORK), 23);
    expect("short work of sort", sort(size, size, PF_ROW_WORK(8) - 1), 23);
    expect("sort, result NULL", pf_sort(file, size, NULL, 0, work, sizeof work).number, 23);
    expect("sort, work NULL", pf_sort(file, size, result, sizeof result, NULL, 0).number, 23);
    set_field(6, 1, 10);
    seal(file);
    fill(0xa5);
    sorted = pf_sort(file, size, result, sizeof result, work, PF_SORT_WORK);
    expect("a loop", sorted.number, 22);
    expect("its place", sorted.place, 5);
    expect("its rows", sorted.rows, 0);
    expect("its result", result[0] == 0xa5 && result[size - 1] == 0xa5, 1);
}

/* What an import leaves: the rows of the text, zeros after the file, which is accepted, and in work; then each refusal, which leaves the result as it was. */
static size_t import(const char *text, size_t result_size, size_t work_size)
{
    return pf_import((const uint8_t *)text, strlen(text), result, result_size, work, work_size).number;
}

static void expect_import(void)
{
    static const char text[] = "aag 3 1 1 1 1\n2\n4 6 1\n4\n6 2 5\n";
    size_t zeros = 0, clear = 0;
    fill(0xa5);
    pf_written imported = pf_import((const uint8_t *)text, strlen(text), result, sizeof result, work, sizeof work);
    size_t length = PF_FILE_SIZE(imported.rows);
    for (size_t k = length; k < sizeof result; k++) zeros += result[k] == 0;
    for (size_t k = 0; k < sizeof work; k++) clear += work[k] == 0;
    expect("import", imported.number, 0);
    expect("the imported file's rows", imported.rows, 5);
    expect("the imported file", pf_check(result, length).number, 0);
    expect("its registers", pf_count(result, length).registers, 1);
    expect("zeros after the imported file", zeros, sizeof result - length);
    expect("work that is zero after import", clear, sizeof work);
    expect("the least memory of import", import(text, PF_IMPORT_RESULT, PF_IMPORT_WORK), 0);
    fill(0xa5);
    expect("a short result of import", import(text, PF_IMPORT_RESULT - 1, PF_IMPORT_WORK), 23);
    expect("short work of import", import(text, PF_IMPORT_RESULT, PF_IMPORT_WORK - 1), 23);
    expect("other text", import("aig 0 0 0 1 0\n0\n", PF_IMPORT_RESULT, PF_IMPORT_WORK), 24);
    expect("a loop of the text", import("aag 1 0 0 1 1\n2\n2 2 2\n", PF_IMPORT_RESULT, PF_IMPORT_WORK), 22);
    expect("the result of a refused import", result[0] == 0xa5 && result[sizeof result - 1] == 0xa5, 1);
    expect("import of NULL", pf_import(NULL, 0, result, sizeof result, work, sizeof work).number, 24);
    expect("import, result NULL", pf_import(NULL, 0, NULL, 0, work, sizeof work).number, 23);
    expect("import, work NULL", pf_import(NULL, 0, result, sizeof result, NULL, 0).number, 23);
}

/* A text of inputs and an output, of so many rows. */
static pf_written import_long(size_t rows)
{
    static char text[400000];
    size_t inputs = rows - 2;
    size_t length = sprintf(text, "aag %zu %zu 0 1 0\n", inputs, inputs);
    for (size_t k = 1; k <= inputs; k++) length += sprintf(text + length, "%zu\n", 2 * k);
    length += sprintf(text + length, "2\n");
    return pf_import((const uint8_t *)text, length, result, PF_IMPORT_RESULT, work, PF_IMPORT_WORK);
}

static void expect_long_import(void)
{
    expect("the longest import", import_long(32256).rows, 32256);
    expect("its file", pf_check(result, PF_FILE_MAX).number, 0);
    expect("a longer import", import_long(32257).number, 25);
}

/* A part of length 0 may be NULL, and is refused or not as any other of that length. */
static void expect_null(size_t size)
{
    expect("check of NULL", pf_check(NULL, 0).number, 1);
    expect("count of NULL", pf_count(NULL, 0).number, 1);
    expect("show of NULL", pf_show(NULL, 0, 0).number, 1);
    expect("sort of NULL", pf_sort(NULL, 0, NULL, 0, NULL, 0).number, 1);
    expect("fold of NULL", pf_fold(NULL, 0, 0, NULL, 0, NULL, 0, NULL, 0).number, 1);
    expect("fold, result NULL", pf_fold(file, size, 0, NULL, 0, work, sizeof work, clocks, PF_FOLD_CLOCKS).number, 15);
    expect("fold, work NULL", pf_fold(file, size, 0, result, sizeof result, NULL, 0, clocks, PF_FOLD_CLOCKS).number, 15);
    expect("fold, clocks NULL", pf_fold(file, size, 0, result, sizeof result, work, sizeof work, NULL, 0).number, 15);
    expect("run of NULL", pf_run(NULL, 0, 0, NULL, 0, NULL, 0, NULL, 0, NULL, 0).number, 1);
    expect("run, no values, result NULL", pf_run(file, size, 0, NULL, 0, NULL, 0, NULL, 0, work, sizeof work).number, 0);
    expect("run, work NULL", pf_run(file, size, 0, NULL, 0, NULL, 0, result, sizeof result, NULL, 0).number, 20);
    expect("trace of NULL", pf_trace(NULL, 0, 0, 1, 0, NULL, 0, NULL, 0, NULL, 0, NULL, 0, NULL, 0).number, 1);
    expect("trace, result NULL", pf_trace(file, size, 0, 1, 0, NULL, 0, values, 1, NULL, 0, work, sizeof work, trace, sizeof trace).number, 15);
    expect("trace, work NULL", pf_trace(file, size, 0, 1, 0, NULL, 0, values, 1, result, sizeof result, NULL, 0, trace, sizeof trace).number, 15);
    expect("trace, inputs NULL", pf_trace(file, size, 0, 1, 0, NULL, 0, NULL, 0, result, sizeof result, work, sizeof work, trace, sizeof trace).number, 27);
    expect("trace, trace NULL", pf_trace(file, size, 0, 1, 0, NULL, 0, values, 1, result, sizeof result, work, sizeof work, NULL, 0).number, 28);
}

int main(int count, char **words)
{
    FILE *from = count == 2 ? fopen(words[1], "rb") : NULL;
    if (!from) return 2;
    size_t size = fread(file, 1, sizeof file, from);
    fclose(from);

    expect("version", PF_VERSION, 6);
    expect("the library's version", pf_version(), PF_VERSION);
    expect_kinds();
    expect("a file of 1 row", PF_FILE_SIZE(1), PF_BLOCK_SIZE);
    expect("a file of 63 rows", PF_FILE_SIZE(PF_BLOCK_ROWS), PF_BLOCK_SIZE);
    expect("a file of 64 rows", PF_FILE_SIZE(PF_BLOCK_ROWS + 1), 2 * PF_BLOCK_SIZE);
    expect("a file of 32256 rows", PF_FILE_SIZE(32256), PF_FILE_MAX);
    expect("a file with zeros up to the greatest length", pf_check(file, PF_FILE_MAX).number, 3);
    expect("a longer file", pf_check(file, PF_FILE_MAX + PF_BLOCK_SIZE).number, 1);
    expect("fold", fold(size, PF_FOLD_RESULT, PF_FOLD_WORK, PF_FOLD_CLOCKS), 0);
    expect("a short result", fold(size, PF_FOLD_RESULT - 1, PF_FOLD_WORK, PF_FOLD_CLOCKS), 15);
    expect("short work", fold(size, PF_FOLD_RESULT, PF_FOLD_WORK - 1, PF_FOLD_CLOCKS), 15);
    expect("few clocks", fold(size, PF_FOLD_RESULT, PF_FOLD_WORK, PF_FOLD_CLOCKS - 1), 15);
    expect("run", run(size, PF_ROW_WORK(8)), 0);
    expect("short work of run", run(size, PF_ROW_WORK(8) - 1), 20);
    expect("show", pf_show(file, size, 0).size, PF_BLOCK_ROWS * PF_ROW_SIZE);
    expect_fold(size);
    expect_null(size);
    expect_traces(size);
    expect_sort(size);
    expect_import();
    expect_work(8064, 16384);
    expect_work(8065, PF_RUN_WORK);
    expect_work(32256, PF_SORT_WORK);
    expect_long();
    expect_long_import();
    return wrong;
}
