/* Prints the report of a recording, or its refusal, as the printing program does: a host program over the library, to start from.
 *
 * Build and run it, from the repository's root, with the library that `rt lib` leaves in crates/ilvrotse/out:
 *
 *     gcc -I include -o target/print_report examples/print_report.c crates/ilvrotse/out/libilvrotse.a
 *     target/print_report recordings/c.rec
 *
 * The library is for x86-64 Linux. On another processor `tools/build-host examples/print_report.c target/print_report` takes the place of
 * the first command: it compiles with the compiler of the Rattle kit, and target/print_report then runs the program under its emulator. */
#include "ilvrotse.h"

#include <inttypes.h>
#include <stdio.h>

/* The longest recording that can be accepted has 65,536 bytes. One byte more tells that a file is longer; what follows changes nothing. */
#define MOST_BYTES 65537

/* A report has 9 bytes and 20 for each operation, of which there are at most 1,024. */
#define HEAD 9
#define ROW 20
#define LARGEST_REPORT (HEAD + ROW * 1024)

static uint8_t rec[MOST_BYTES];
static uint8_t out[LARGEST_REPORT];

/* The number in four bytes, highest first. */
static uint32_t number(const uint8_t *at)
{
    return (uint32_t)at[0] << 24 | (uint32_t)at[1] << 16 | (uint32_t)at[2] << 8 | (uint32_t)at[3];
}

static void print_row(const uint8_t *row)
{
    printf("%u %s %u %u", row[0], row[1] == 2 ? "read" : "add", row[2], row[3]);
    for (int column = 4; column < ROW; column += 4)
        printf(" %" PRIu32, number(row + column));
    printf("\n");
}

int main(int words, char **word)
{
    if (words != 2) {
        fprintf(stderr, "use: print_report FILE\n");
        return 2;
    }
    FILE *file = fopen(word[1], "rb");
    if (file == NULL) {
        perror(word[1]);
        return 2;
    }
    size_t len = fread(rec, 1, sizeof rec, file);
    if (ferror(file)) {
        perror(word[1]);
        return 2;
    }
    fclose(file);

    /* A host that wants no report asks `ilvrotse_check` alone. Nothing has to be checked before either call. */
    ilvrotse_answer answer = ilvrotse_check(rec, len);
    if (answer.number == 0)
        answer = ilvrotse_report(rec, len, out, sizeof out);
    if (answer.number != 0) {
        printf("refused %" PRIu32 " %" PRIu32 "\n", answer.number, answer.place);
        return 0;
    }
    uint32_t operations = (number(out + 1) - 4) / ROW;
    printf("operations %" PRIu32 " counter %" PRIu32 "\n", operations, number(out + 5));
    for (uint32_t i = 0; i < operations; i++)
        print_row(out + HEAD + ROW * i);
    return 0;
}
