/* libFuzzer's target: an input is a recording, and a drawer too, lent to the library's three entries and to the second program; where an
 * answer or a byte of a buffer differs, it stops, and libFuzzer keeps the input.
 *
 * The second program is linked here and tells libFuzzer which of its branches an input takes; linked.c or piped.c has the library and tells
 * what of its code is reached for the first time. */
#include "../bench/second.h"
#include "input.h"
#include "library.h"

#include <stdio.h>
#include <stdlib.h>
#include <string.h>

#define LARGEST_REPORT (9u + 20u * 1024u)
#define LONGEST_DRAWER (1u << 24)
#define MARK 5u
#define MOST_ROOM (7u * LONGEST + 64u)
#define FILL 0xa5

int LLVMFuzzerInitialize(int *words, char ***word);
int LLVMFuzzerTestOneInput(const uint8_t *data, size_t size);

/* What the run reached, printed at its end: how often each number was an answer, and a mark of an accepted drawer. */
static unsigned long inputs, of_recordings[256], of_drawers[256], marked[256];

void stop(const char *why)
{
    fprintf(stderr, "fuzz: input %lu: %s\n", inputs, why);
    abort();
}

/* ---- which of the library's code was reached */

#define MOST_CODE (1u << 16)
__attribute__((used, section("__libfuzzer_extra_counters"))) static uint8_t fresh[MOST_CODE];
static uint8_t reached[MOST_CODE];
static unsigned long code_first, code_after;

void code_is(unsigned long first, unsigned long after)
{
    if (after - first > MOST_CODE)
        stop("the library's code is too long");
    code_first = first;
    code_after = after;
}

void code_reached(unsigned long at, size_t bytes)
{
    for (; bytes > 0; at++, bytes--)
        if (at >= code_first && at < code_after)
            fresh[at - code_first] = reached[at - code_first] = 1;
}

static void print_counts(const char *what, const unsigned long *counts)
{
    for (int number = 0; number < 256; number++)
        if (counts[number] != 0)
            fprintf(stderr, "%s %d: %lu\n", what, number, counts[number]);
}

static void figures(void)
{
    size_t size = code_after - code_first, bytes = 0;
    for (size_t i = 0; i < size; i++)
        bytes += reached[i];
    fprintf(stderr, "inputs: %lu\n", inputs);
    print_counts("recordings answered by", of_recordings);
    print_counts("drawers answered by", of_drawers);
    print_counts("recordings of accepted drawers marked", marked);
    if (size == 0)
        return;
    fprintf(stderr, "bytes of the library's code reached: %zu of %zu; not reached:", bytes, size);
    for (size_t i = 0; i < size; i++)
        if (!reached[i] && (i == 0 || reached[i - 1])) {
            size_t end = i;
            while (end < size && !reached[end])
                end++;
            fprintf(stderr, " %lx+%zu", code_first + i, end - i);
        }
    fprintf(stderr, "\n");
}

int LLVMFuzzerInitialize(int *words, char ***word)
{
    (void)words;
    (void)word;
    library_begin();
    atexit(figures);
    return 0;
}

/* ---- one input */

static void agree(const char *what, ilvrotse_answer library, ilvrotse_answer second)
{
    if (library.number == second.number && library.place == second.place)
        return;
    fprintf(stderr, "fuzz: input %lu: %s: the library answers %u %u, the second program %u %u\n", inputs, what, library.number, library.place,
            second.number, second.place);
    abort();
}

/* A buffer with the bytes around it, for the second program and for the library. */
struct buffer {
    size_t room;
    uint8_t expected[2 * AROUND + MOST_ROOM], found[2 * AROUND + MOST_ROOM];
};
static struct buffer out, marks;

static void fill(struct buffer *buffer, size_t room)
{
    buffer->room = room;
    memset(buffer->expected, FILL, room + 2 * AROUND);
    memset(buffer->found, FILL, room + 2 * AROUND);
}

static void same(const struct buffer *buffer, const char *what)
{
    if (memcmp(buffer->expected, buffer->found, buffer->room + 2 * AROUND) != 0)
        stop(what);
}

static void compare_report(const uint8_t *rec, size_t len, size_t room)
{
    fill(&out, room);
    ilvrotse_answer second = second_report(rec, len, out.expected + AROUND, room);
    agree("report", library_report(out.found, room), second);
    same(&out, "the report's buffer differs");
    of_recordings[second.number % 256]++;
}

static void take_as_recording(const uint8_t *rec, size_t len)
{
    static uint8_t report[LARGEST_REPORT];
    ilvrotse_answer check = second_check(rec, len);
    agree("check", library_check(), check);
    agree("the second program's check and report", check, second_report(rec, len, report, sizeof report));
    if (check.number != 0) {
        compare_report(rec, len, 40);
    } else {
        size_t needed = 5 + number_at(report + 1);
        compare_report(rec, len, needed);
        compare_report(rec, len, needed - 1);
        compare_report(rec, len, needed + 17);
    }
}

static ilvrotse_answer compare_drawer(const uint8_t *drawer, size_t len, size_t room, size_t marks_room)
{
    fill(&out, room);
    fill(&marks, marks_room);
    ilvrotse_answer second = second_drawer(drawer, len, out.expected + AROUND, room, marks.expected + AROUND, marks_room);
    agree("drawer", library_drawer(out.found, room, marks.found, marks_room), second);
    same(&out, "the drawer's buffer for reports differs");
    same(&marks, "the drawer's buffer for marks differs");
    of_drawers[second.number % 256]++;
    return second;
}

/* First with more room than any drawer of this length needs, which tells what this one needs. */
static void take_as_drawer(const uint8_t *drawer, size_t len)
{
    if (compare_drawer(drawer, len, 7 * len + 17, len + 17).number != 0)
        return;
    const uint8_t *report = out.expected + AROUND, *mark = marks.expected + AROUND;
    size_t needed = 0, marks_needed = 0;
    for (size_t at = 0; at < len; at += 5 + number_at(drawer + at + 1)) {
        uint8_t number = mark[marks_needed];
        marked[number]++;
        marks_needed += MARK;
        needed += number == 0 ? 5 + number_at(report + needed + 1) : 0;
    }
    compare_drawer(drawer, len, needed, marks_needed);
    if (marks_needed > 0)
        compare_drawer(drawer, len, needed, marks_needed - 1);
    if (needed > 0) {
        compare_drawer(drawer, len, needed - 1, marks_needed);
        compare_drawer(drawer, len, needed - 1, marks_needed - 1);
    }
}

static void take_too_long_a_drawer(void)
{
    static uint8_t drawer[LONGEST_DRAWER + 1];
    library_lend(drawer, sizeof drawer);
    compare_drawer(drawer, sizeof drawer, 40, 40);
}

int LLVMFuzzerTestOneInput(const uint8_t *data, size_t size)
{
    static uint8_t back[LONGEST];
    static const uint8_t none[1];
    const uint8_t *rec = size == 0 ? none : data;
    if (size > LONGEST)
        return -1;
    inputs++;
    library_lend(rec, size);
    take_as_recording(rec, size);
    take_as_drawer(rec, size);
    library_give_back(back, size);
    if (memcmp(rec, back, size) != 0)
        stop("the library wrote to the recording or the drawer");
    if (size == 0) /* it has no byte to tell one by */
        take_too_long_a_drawer();
    library_tell_reached();
    return 0;
}
