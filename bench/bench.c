/* Times the proved library and the second program on the same buffers. Each file of recordings is gone through by the one and by the other
 * in turn, in several rounds; the medians are printed. The buffers are the same for all and are not cleared between calls. */
#define _POSIX_C_SOURCE 199309L /* for clock_gettime */

#include "ilvrotse.h"
#include "second.h"

#include <stdio.h>
#include <stdlib.h>
#include <string.h>
#include <time.h>

#define ROUNDS 11
#define DRAWER_ROUNDS 5
#define LEAST_SECONDS 0.03
#define ROOM (9 + 20 * 1024)
#define LONGEST_DRAWER 16777216
#define ENOUGH 7 /* bytes of reports for each byte of a drawer are always enough */

/* A recording or a drawer, and the bytes of the report buffer that is lent with it. */
struct recording {
    const uint8_t *bytes;
    size_t len;
    size_t room;
};

/* The count is of what is lent: a drawer is one, of several recordings. */
struct recordings {
    struct recording *each;
    size_t count;
    size_t in_drawers;
    size_t records;
};

struct buffers {
    uint8_t out[ENOUGH * LONGEST_DRAWER];
    uint8_t marks[LONGEST_DRAWER];
};

static struct buffers ours, other;

static void fail(const char *what, const char *name)
{
    fprintf(stderr, "bench: %s: %s\n", name, what);
    exit(1);
}

static size_t records_of(struct recording rec)
{
    size_t count = 0;
    if (rec.bytes[0] != 1)
        return 0;
    for (size_t place = 6; place < rec.len; place += 1u + rec.bytes[place])
        count++;
    return count;
}

static FILE *opened(const char *folder, const char *name)
{
    char path[512];
    if (snprintf(path, sizeof path, "%s/%s", folder, name) >= (int)sizeof path)
        fail("the path is too long", name);
    FILE *file = fopen(path, "rb");
    if (file == NULL)
        fail("cannot be opened", name);
    return file;
}

static struct recordings load(const char *folder, const char *name)
{
    FILE *file = opened(folder, name);
    struct recordings all = {NULL, 0, 0, 0};
    unsigned char head[4];
    while (fread(head, 1, 4, file) == 4) {
        size_t len = (size_t)head[0] | (size_t)head[1] << 8 | (size_t)head[2] << 16 | (size_t)head[3] << 24;
        uint8_t *bytes = malloc(len);
        all.each = realloc(all.each, (all.count + 1) * sizeof *all.each);
        if (bytes == NULL || all.each == NULL || fread(bytes, 1, len, file) != len)
            fail("cannot be read", name);
        struct recording rec = {bytes, len, ROOM};
        all.each[all.count++] = rec;
        all.records += records_of(rec);
    }
    fclose(file);
    if (all.count == 0)
        fail("is empty", name);
    return all;
}

static struct recording load_drawer(const char *folder, const char *name)
{
    FILE *file = opened(folder, name);
    uint8_t *bytes = malloc(LONGEST_DRAWER);
    if (bytes == NULL)
        fail("no memory", name);
    size_t len = fread(bytes, 1, LONGEST_DRAWER, file);
    fclose(file);
    if (len == 0)
        fail("is empty", name);
    struct recording drawer = {bytes, len, ENOUGH * len};
    return drawer;
}

/* The drawer as so many, cut between recordings into parts of about the same length. */
static struct recordings parts_of(struct recording drawer, size_t parts)
{
    struct recordings all = {calloc(parts, sizeof *all.each), 0, 0, 0};
    if (all.each == NULL)
        fail("no memory", "drawer");
    const uint8_t *end = drawer.bytes + drawer.len, *first = drawer.bytes;
    for (const uint8_t *at = first; at < end;) {
        struct recording rec = {at, 5 + ((size_t)at[1] << 24 | (size_t)at[2] << 16 | (size_t)at[3] << 8 | at[4]), 0};
        all.in_drawers++;
        all.records += records_of(rec);
        at += rec.len;
        if ((size_t)(at - drawer.bytes) >= (all.count + 1) * drawer.len / parts) {
            struct recording part = {first, (size_t)(at - first), ENOUGH * (size_t)(at - first)};
            all.each[all.count++] = part;
            first = at;
        }
    }
    return all;
}

enum entry { PROVED_CHECK, SECOND_CHECK, PROVED_REPORT, SECOND_REPORT, PROVED_DRAWER, SECOND_DRAWER };

static ilvrotse_answer call(enum entry entry, struct recording rec, struct buffers *to)
{
    switch (entry) {
    case PROVED_CHECK:
        return ilvrotse_check(rec.bytes, rec.len);
    case SECOND_CHECK:
        return second_check(rec.bytes, rec.len);
    case PROVED_REPORT:
        return ilvrotse_report(rec.bytes, rec.len, to->out, rec.room);
    case SECOND_REPORT:
        return second_report(rec.bytes, rec.len, to->out, rec.room);
    case PROVED_DRAWER:
        return ilvrotse_drawer(rec.bytes, rec.len, to->out, rec.room, to->marks, rec.len);
    default:
        return second_drawer(rec.bytes, rec.len, to->out, rec.room, to->marks, rec.len);
    }
}

/* The sum of the answers keeps the calls from being left out. */
static uint32_t go_through(enum entry entry, struct recordings all)
{
    uint32_t sum = 0;
    for (size_t i = 0; i < all.count; i++) {
        ilvrotse_answer answer = call(entry, all.each[i], &ours);
        sum += answer.number + answer.place;
    }
    return sum;
}

static double seconds(void)
{
    struct timespec now;
    clock_gettime(CLOCK_PROCESS_CPUTIME_ID, &now);
    return (double)now.tv_sec + 1e-9 * (double)now.tv_nsec;
}

static volatile uint32_t kept;

/* Nanoseconds for one going-through. */
static double timed(enum entry entry, struct recordings all, size_t times)
{
    double start = seconds();
    for (size_t i = 0; i < times; i++)
        kept += go_through(entry, all);
    return 1e9 * (seconds() - start) / (double)times;
}

static size_t times_enough(enum entry entry, struct recordings all)
{
    size_t times = 1;
    while (1e-9 * timed(entry, all, times) * (double)times < LEAST_SECONDS)
        times *= 2;
    return times;
}

static int by_size(const void *one, const void *another)
{
    double a = *(const double *)one, b = *(const double *)another;
    return (a > b) - (a < b);
}

static double median(double *of, size_t count)
{
    qsort(of, count, sizeof *of, by_size);
    return of[count / 2];
}

static void compare(const char *what, const char *unit, size_t units, enum entry proved, enum entry second, struct recordings all)
{
    double by_proved[ROUNDS], by_second[ROUNDS];
    size_t rounds = proved == PROVED_DRAWER ? DRAWER_ROUNDS : ROUNDS;
    size_t proved_times = times_enough(proved, all), second_times = times_enough(second, all);
    for (size_t round = 0; round < rounds; round++) {
        by_proved[round] = timed(proved, all, proved_times) / (double)units;
        by_second[round] = timed(second, all, second_times) / (double)units;
    }
    double p = median(by_proved, rounds), s = median(by_second, rounds);
    printf("%-50s %9.2f %9.2f ns per %-9s %7.2f\n", what, p, s, unit, p / s);
    fflush(stdout);
}

/* It touches the buffers too, so that no page of them is new to the calls that are timed. */
static void same_answers(const char *name, enum entry proved, enum entry second, struct recordings all)
{
    for (size_t i = 0; i < all.count; i++) {
        size_t len = all.each[i].len, room = all.each[i].room;
        memset(ours.out, 0, room);
        memset(other.out, 0, room);
        memset(ours.marks, 0, len);
        memset(other.marks, 0, len);
        ilvrotse_answer a = call(proved, all.each[i], &ours), b = call(second, all.each[i], &other);
        if (a.number != b.number || a.place != b.place || memcmp(ours.out, other.out, room) != 0 || memcmp(ours.marks, other.marks, len) != 0)
            fail("the two programs answer differently", name);
    }
}

static void bench(const char *folder, const char *name, const char *words, int per_call)
{
    struct recordings all = load(folder, name);
    same_answers(name, PROVED_REPORT, SECOND_REPORT, all);
    same_answers(name, PROVED_CHECK, SECOND_CHECK, all);
    const char *unit = per_call ? "call" : "record";
    size_t units = per_call ? all.count : all.records;
    char line[128];
    snprintf(line, sizeof line, "report, %s", words);
    compare(line, unit, units, PROVED_REPORT, SECOND_REPORT, all);
    snprintf(line, sizeof line, "check, %s", words);
    compare(line, unit, units, PROVED_CHECK, SECOND_CHECK, all);
    for (size_t i = 0; i < all.count; i++)
        free((void *)all.each[i].bytes);
    free(all.each);
}

/* Each part is lent exactly the bytes that its reports need. */
static void lend_exact_room(struct recordings all)
{
    for (size_t i = 0; i < all.count; i++) {
        all.each[i].room = 0;
        ilvrotse_answer answer = call(PROVED_DRAWER, all.each[i], &ours);
        if (answer.number != 11)
            fail("needs no room", "drawer");
        all.each[i].room = answer.place;
    }
}

static void bench_drawer(const char *folder, const char *name, const char *words, int per_recording)
{
    static const struct {
        size_t parts;
        int exact;
        const char *words;
    } lines[] = {{4, 0, "1/4"}, {2, 0, "1/2"}, {1, 0, "1"}, {1, 1, "1, exact room"}};
    struct recording drawer = load_drawer(folder, name);
    for (size_t i = 0; i < sizeof lines / sizeof *lines; i++) {
        struct recordings all = parts_of(drawer, lines[i].parts);
        if (lines[i].exact)
            lend_exact_room(all);
        same_answers(name, PROVED_DRAWER, SECOND_DRAWER, all);
        const char *unit = per_recording ? "recording" : "record";
        size_t units = per_recording ? all.in_drawers : all.records;
        char line[128];
        snprintf(line, sizeof line, "drawer, %s, %s", words, lines[i].words);
        compare(line, unit, units, PROVED_DRAWER, SECOND_DRAWER, all);
        free(all.each);
    }
    free((void *)drawer.bytes);
}

int main(int count, char **words)
{
    if (count != 2)
        fail("wants the folder of recordings", "usage");
    const char *folder = words[1];
    printf("medians of %d alternating rounds, for drawers of %d; no buffer is cleared between calls\n", ROUNDS, DRAWER_ROUNDS);
    printf("%-50s %9s %9s %16s %7s\n", "", "proved", "second", "", "ratio");
    bench(folder, "storm-6-full", "h = 6, 65,536 bytes", 0);
    bench(folder, "storm-1-full", "h = 1, 1,024 operations", 0);
    bench(folder, "small", "2,000 recordings of 6 to 60 bytes", 1);
    bench(folder, "refused", "refused at its first byte", 1);
    printf("the same rules at 1/4, 1/2 and 1 of the size:\n");
    bench(folder, "storm-6-quarter", "h = 6, 1/4", 0);
    bench(folder, "storm-6-half", "h = 6, 1/2", 0);
    bench(folder, "storm-6-full", "h = 6, 1", 0);
    bench(folder, "storm-1-quarter", "h = 1, 1/4", 0);
    bench(folder, "storm-1-half", "h = 1, 1/2", 0);
    bench(folder, "storm-1-full", "h = 1, 1", 0);
    printf("drawers at 1/4, 1/2 and 1 of 16 MiB, lent %d * len bytes for the reports, so that each recording is run once, or exact room:\n", ENOUGH);
    bench_drawer(folder, "drawer-6", "six bytes each", 1);
    bench_drawer(folder, "drawer-30", "storms of 30 bytes", 1);
    bench_drawer(folder, "drawer-full", "storms of 65,536 bytes", 0);
    return 0;
}
