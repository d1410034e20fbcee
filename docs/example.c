/* example FILE RESULT: folds a netlist file into as many phases as fit best, and writes the folded file.
 *
 *     tools/staticlib
 *     cc -Wall -Wextra -Werror -I include -o example docs/example.c target/staticlib/libphasefold.a
 *
 * Exit status: 0 done; 1 refused; 2 a wrong call, or a file that cannot be read or written.
 */
#include <stdio.h>

#include "phasefold.h"

/* A byte more than the longest file has, so that a longer one is seen and refused. */
static uint8_t file[PF_FILE_MAX + 1];
static uint8_t result[PF_FOLD_RESULT];
static uint8_t work[PF_FOLD_WORK];
static pf_clock clocks[PF_FOLD_CLOCKS];

static int failed(const char *name)
{
    perror(name);
    return 2;
}

static int read_file(const char *name, size_t *size)
{
    FILE *from = fopen(name, "rb");
    if (!from) return 0;
    *size = fread(file, 1, sizeof file, from);
    int right = !ferror(from);
    fclose(from);
    return right;
}

static int write_result(const char *name, size_t size)
{
    FILE *to = fopen(name, "wb");
    if (!to) return 0;
    int right = fwrite(result, 1, size, to) == size;
    return fclose(to) == 0 && right;
}

int main(int count, char **words)
{
    if (count != 3) {
        fputs("the form is: example FILE RESULT\n", stderr);
        return 2;
    }
    if (pf_version() != PF_VERSION) {
        fputs("the library is of another version than its header\n", stderr);
        return 2;
    }
    size_t size;
    if (!read_file(words[1], &size)) return failed(words[1]);

    pf_folded folded = pf_fold(file, size, 0, result, sizeof result, work, sizeof work, clocks, PF_FOLD_CLOCKS);
    if (folded.number != 0) {
        printf("refused %u %u\n", folded.number, folded.place);
        return 1;
    }
    printf("stem %u cycle %u phases %u used %u rows %u to %u\n", folded.stem, folded.cycle, folded.phases, folded.used,
           folded.before, folded.after);
    for (uint32_t k = 0; k < folded.used; k++)
        printf("clock %u period %u word %u ones %u\n", clocks[k].label, clocks[k].period, clocks[k].word, clocks[k].ones);
    if (!write_result(words[2], PF_FILE_SIZE(folded.after))) return failed(words[2]);
    return 0;
}
