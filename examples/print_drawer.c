/* Prints a line for each recording of a drawer: its number, its offset, and its refusal or its operations and counter; one line where the
 * drawer itself is refused. A host program over the library, to start from.
 *
 * Build and run it, from the repository's root, with the library that `rt lib` leaves in crates/ilvrotse/out:
 *
 *     gcc -I include -o target/print_drawer examples/print_drawer.c crates/ilvrotse/out/libilvrotse.a
 *     cat recordings/a.rec recordings/b.rec >target/two.drawer
 *     target/print_drawer target/two.drawer
 *
 * The library is for x86-64 Linux. On another processor `tools/build-host examples/print_drawer.c target/print_drawer` takes the place of
 * the first command: it compiles with the compiler of the Rattle kit, and target/print_drawer then runs the program under its emulator. */
#include "ilvrotse.h"

#include <inttypes.h>
#include <stdio.h>
#include <stdlib.h>

/* The longest drawer that can be accepted has 16,777,216 bytes. One byte more tells that a file is longer; what follows changes nothing. */
#define MOST_BYTES 16777217

/* Recordings and reports alike have in bytes 1 to 4 how many bytes follow these five. */
#define FRONT 5
#define ROW 20
#define MARK 5

static uint8_t drawer[MOST_BYTES];

/* The number in four bytes, highest first. */
static uint32_t number(const uint8_t *at)
{
    return (uint32_t)at[0] << 24 | (uint32_t)at[1] << 16 | (uint32_t)at[2] << 8 | (uint32_t)at[3];
}

/* Of an accepted drawer. Each recording has its mark; only an accepted one has a report. */
static void print_recordings(size_t len, const uint8_t *report, const uint8_t *mark)
{
    unsigned long count = 0;
    for (size_t offset = 0; offset < len; offset += FRONT + number(drawer + offset + 1)) {
        printf("recording %lu offset %zu ", ++count, offset);
        if (mark[0] != 0) {
            printf("refused %u %" PRIu32 "\n", mark[0], number(mark + 1));
        } else {
            uint32_t follows = number(report + 1);
            printf("operations %" PRIu32 " counter %" PRIu32 "\n", (follows - 4) / ROW, number(report + FRONT));
            report += FRONT + follows;
        }
        mark += MARK;
    }
}

int main(int words, char **word)
{
    if (words != 2) {
        fprintf(stderr, "use: print_drawer FILE\n");
        return 2;
    }
    FILE *file = fopen(word[1], "rb");
    if (file == NULL) {
        perror(word[1]);
        return 2;
    }
    size_t len = fread(drawer, 1, sizeof drawer, file);
    if (ferror(file)) {
        perror(word[1]);
        fclose(file);
        return 2;
    }
    fclose(file);

    /* This much is always enough, so that one call does, which runs each recording once; a host short of memory asks with no room first, and
     * is told by 11 how many bytes the reports need. */
    size_t room = 7 * len, marks_room = len;
    uint8_t *out = malloc(room), *marks = malloc(marks_room);
    if (len > 0 && (out == NULL || marks == NULL)) {
        fprintf(stderr, "print_drawer: no memory\n");
        free(out);
        free(marks);
        return 2;
    }
    ilvrotse_answer answer = ilvrotse_drawer(drawer, len, out, room, marks, marks_room);
    if (answer.number == 0)
        print_recordings(len, out, marks);
    else
        printf("refused %" PRIu32 " %" PRIu32 "\n", answer.number, answer.place);
    free(out);
    free(marks);
    return 0;
}
