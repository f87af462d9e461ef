/* A host in C: the calls at the library's boundary, with the answers written out. Every recording, drawer and buffer is lent three times: in
 * memory of its exact size from malloc, against an inaccessible page behind it, and against one in front of it; a long drawer is lent once, the
 * page behind it. The sanitizers do not see into the library, but the pages stop any access beyond what was lent. */
#define _DEFAULT_SOURCE /* for MAP_ANONYMOUS */

#include "ilvrotse.h"

#include <pthread.h>
#include <stdio.h>
#include <stdlib.h>
#include <string.h>
#include <sys/mman.h>
#include <unistd.h>

static const char *current = "the host itself";

#define CHECK(claim)                                                                        \
    do {                                                                                    \
        if (!(claim)) {                                                                     \
            fprintf(stderr, "host.c:%d: %s: not so: %s\n", __LINE__, current, #claim);      \
            exit(1);                                                                        \
        }                                                                                   \
    } while (0)

#define LONGEST 65536u
#define LONGEST_DRAWER 16777216u
#define MOST_OPERATIONS 1024u
#define HEAD 9u
#define ROW 20u
#define FILL 0xa5u

enum { STEP = 1, READ = 2, ADD = 3 };

/* Lent memory. */

enum placing { EXACT, BEFORE_PAGE, AFTER_PAGE, PLACINGS };

struct lent {
    uint8_t *bytes;
    size_t len;
    enum placing placing;
    uint8_t *mapping;
    size_t mapped;
};

static struct lent lend(size_t len, enum placing placing)
{
    struct lent lent = {NULL, len, placing, NULL, 0};
    if (placing == EXACT) {
        lent.bytes = malloc(len);
        CHECK(lent.bytes != NULL || len == 0);
        return lent;
    }
    size_t page = (size_t)sysconf(_SC_PAGESIZE);
    size_t body = (len + page - 1) / page * page;
    lent.mapped = body + page;
    lent.mapping = mmap(NULL, lent.mapped, PROT_READ | PROT_WRITE, MAP_PRIVATE | MAP_ANONYMOUS, -1, 0);
    CHECK(lent.mapping != MAP_FAILED);
    if (placing == BEFORE_PAGE) {
        CHECK(mprotect(lent.mapping + body, page, PROT_NONE) == 0);
        lent.bytes = lent.mapping + body - len;
    } else {
        CHECK(mprotect(lent.mapping, page, PROT_NONE) == 0);
        lent.bytes = lent.mapping + page;
    }
    return lent;
}

static void give_back(struct lent lent)
{
    if (lent.placing == EXACT)
        free(lent.bytes);
    else
        CHECK(munmap(lent.mapping, lent.mapped) == 0);
}

/* Recordings and reports. */

struct bytes {
    uint8_t *at;
    size_t len;
    size_t room;
};

static void put_all(struct bytes *bytes, const uint8_t *from, size_t len)
{
    if (bytes->room - bytes->len < len) {
        bytes->room = 2 * bytes->room + len + 64;
        bytes->at = realloc(bytes->at, bytes->room);
        CHECK(bytes->at != NULL);
    }
    memcpy(bytes->at + bytes->len, from, len);
    bytes->len += len;
}

static void put(struct bytes *bytes, uint8_t byte)
{
    put_all(bytes, &byte, 1);
}

static void put_number(struct bytes *bytes, uint32_t number)
{
    put(bytes, (uint8_t)(number >> 24));
    put(bytes, (uint8_t)(number >> 16));
    put(bytes, (uint8_t)(number >> 8));
    put(bytes, (uint8_t)number);
}

static void set_number(uint8_t *at, uint32_t number)
{
    at[0] = (uint8_t)(number >> 24);
    at[1] = (uint8_t)(number >> 16);
    at[2] = (uint8_t)(number >> 8);
    at[3] = (uint8_t)number;
}

static uint32_t number_at(const uint8_t *at)
{
    return (uint32_t)at[0] << 24 | (uint32_t)at[1] << 16 | (uint32_t)at[2] << 8 | at[3];
}

static struct bytes literal(const uint8_t *from, size_t len)
{
    struct bytes bytes = {NULL, 0, 0};
    put_all(&bytes, from, len);
    return bytes;
}

#define LITERAL(...) literal((const uint8_t[]){__VA_ARGS__}, sizeof((const uint8_t[]){__VA_ARGS__}))

static struct bytes begin(uint8_t height)
{
    return LITERAL(1, 0, 0, 0, 0, height);
}

static void step(struct bytes *rec, uint8_t process, int count)
{
    for (int i = 0; i < count; i++) {
        put(rec, 2);
        put(rec, STEP);
        put(rec, process);
    }
}

static void start_read(struct bytes *rec, uint8_t process)
{
    put(rec, 2);
    put(rec, READ);
    put(rec, process);
}

static void start_add(struct bytes *rec, uint8_t process, uint32_t delta)
{
    put(rec, 6);
    put(rec, ADD);
    put(rec, process);
    put_number(rec, delta);
}

static void set_true_length(struct bytes *rec)
{
    set_number(rec->at + 1, (uint32_t)rec->len - 5);
}

static struct bytes report_head(uint32_t operations, uint32_t counter)
{
    struct bytes report = {NULL, 0, 0};
    put(&report, 1);
    put_number(&report, 4 + ROW * operations);
    put_number(&report, counter);
    return report;
}

static void row(struct bytes *report, uint8_t process, uint8_t kind, uint8_t finished, uint8_t contention, uint32_t steps, uint32_t answer,
                uint32_t rank, uint32_t second_attempts)
{
    put(report, process);
    put(report, kind);
    put(report, finished);
    put(report, contention);
    put_number(report, steps);
    put_number(report, answer);
    put_number(report, rank);
    put_number(report, second_attempts);
}

/* The calls. */

static unsigned calls = 0;

static int is(ilvrotse_answer answer, uint32_t number, uint32_t place)
{
    calls++;
    if (answer.number == number && answer.place == place)
        return 1;
    fprintf(stderr, "host.c: %s: answered %lu %lu, expected %lu %lu\n", current, (unsigned long)answer.number,
            (unsigned long)answer.place, (unsigned long)number, (unsigned long)place);
    return 0;
}

static int all_are(const uint8_t *bytes, size_t len, uint8_t value)
{
    return len == 0 || (bytes[0] == value && memcmp(bytes, bytes + 1, len - 1) == 0);
}

static struct lent lend_buffer(size_t room, enum placing placing)
{
    struct lent out = lend(room, placing);
    if (room > 0)
        memset(out.bytes, FILL, room);
    return out;
}

/* On acceptance a buffer's front is `laid` and its tail stays, on refusal all of it stays. */
static void take_buffer(struct lent out, uint32_t number, const struct bytes *laid)
{
    size_t written = 0;
    if (number == 0) {
        written = laid->len;
        CHECK(written <= out.len);
        CHECK(written == 0 || memcmp(out.bytes, laid->at, written) == 0);
    }
    CHECK(written == out.len || all_are(out.bytes + written, out.len - written, FILL));
    give_back(out);
}

static void expect_report(struct lent rec, size_t room, uint32_t number, uint32_t place, const struct bytes *report)
{
    for (int placing = EXACT; placing < PLACINGS; placing++) {
        struct lent out = lend_buffer(room, (enum placing)placing);
        CHECK(is(ilvrotse_report(rec.bytes, rec.len, out.bytes, room), number, place));
        take_buffer(out, number, report);
    }
}

static void lent_recording(struct lent rec, uint32_t number, uint32_t place, const struct bytes *report)
{
    CHECK(is(ilvrotse_check(rec.bytes, rec.len), number, place));
    if (number != 0) {
        CHECK(is(ilvrotse_report(rec.bytes, rec.len, NULL, 0), number, place));
        const size_t rooms[] = {0, 1, HEAD - 1, HEAD, 100, HEAD + ROW * MOST_OPERATIONS + 100};
        for (size_t i = 0; i < sizeof rooms / sizeof rooms[0]; i++)
            expect_report(rec, rooms[i], number, place, NULL);
        return;
    }
    size_t needed = report->len;
    CHECK(is(ilvrotse_report(rec.bytes, rec.len, NULL, 0), 11, (uint32_t)needed));
    const size_t short_rooms[] = {0, 1, HEAD - 1, needed - 1};
    for (size_t i = 0; i < sizeof short_rooms / sizeof short_rooms[0]; i++)
        expect_report(rec, short_rooms[i], 11, (uint32_t)needed, NULL);
    const size_t rooms[] = {needed, needed + 1, needed + 333};
    for (size_t i = 0; i < sizeof rooms / sizeof rooms[0]; i++)
        expect_report(rec, rooms[i], 0, 0, report);
}

/* Drawers, each with what it gives where it is accepted. */

struct drawer {
    struct bytes bytes;
    struct bytes reports;
    struct bytes marks;
};

static void file(struct drawer *drawer, struct bytes rec, uint32_t number, uint32_t place, const struct bytes *report)
{
    put_all(&drawer->bytes, rec.at, rec.len);
    if (number == 0)
        put_all(&drawer->reports, report->at, report->len);
    put(&drawer->marks, (uint8_t)number);
    put_number(&drawer->marks, place);
}

static void throw_away(struct drawer drawer)
{
    free(drawer.bytes.at);
    free(drawer.reports.at);
    free(drawer.marks.at);
}

static void expect_drawn(struct lent lent, struct lent out, struct lent marks, uint32_t number, uint32_t place, const struct drawer *drawer)
{
    CHECK(is(ilvrotse_drawer(lent.bytes, lent.len, out.bytes, out.len, marks.bytes, marks.len), number, place));
    take_buffer(out, number, &drawer->reports);
    take_buffer(marks, number, &drawer->marks);
}

static const struct lent null = {NULL, 0, EXACT, NULL, 0};

static void expect_rooms(struct lent lent, size_t room, size_t marks_room, uint32_t number, uint32_t place, const struct drawer *drawer)
{
    for (int i = 0; i < PLACINGS * PLACINGS; i++) {
        struct lent out = lend_buffer(room, (enum placing)(i / PLACINGS));
        expect_drawn(lent, out, lend_buffer(marks_room, (enum placing)(i % PLACINGS)), number, place, drawer);
    }
    if (room == 0)
        expect_drawn(lent, null, lend_buffer(marks_room, EXACT), number, place, drawer);
    if (marks_room == 0)
        expect_drawn(lent, lend_buffer(room, EXACT), null, number, place, drawer);
    if (room == 0 && marks_room == 0)
        expect_drawn(lent, null, null, number, place, drawer);
}

static void lent_drawer(struct lent lent, uint32_t number, uint32_t place, const struct drawer *drawer)
{
    const size_t needed = drawer->reports.len, marks = drawer->marks.len;
    const size_t rooms[] = {needed, needed + 1, needed + 333}, marks_rooms[] = {marks, marks + 1, marks + 77};
    if (number != 0) {
        const size_t any[] = {0, 1, 5, HEAD, 100};
        for (size_t i = 0; i < 25; i++)
            expect_rooms(lent, any[i / 5], any[i % 5], number, place, drawer);
        return;
    }
    for (size_t i = 0; i < 9; i++)
        expect_rooms(lent, rooms[i / 3], marks_rooms[i % 3], 0, 0, drawer);
    for (size_t i = 0; i < 3 && marks > 0; i++) {
        expect_rooms(lent, rooms[i], marks - 1, 11, (uint32_t)marks, drawer);
        expect_rooms(lent, rooms[i], 0, 11, (uint32_t)marks, drawer);
    }
    for (size_t i = 0; i < 3 && needed > 0; i++) {
        expect_rooms(lent, needed - 1, marks - 1 + i, 11, (uint32_t)needed, drawer);
        expect_rooms(lent, needed - 1, i, 11, (uint32_t)needed, drawer);
        expect_rooms(lent, 0, marks - 1 + i, 11, (uint32_t)needed, drawer);
        expect_rooms(lent, 0, i, 11, (uint32_t)needed, drawer);
    }
}

/* With fewer buffers, against one page each. */
static void lent_long_drawer(struct lent lent, uint32_t number, uint32_t place, const struct drawer *drawer)
{
    const size_t needed = drawer->reports.len, marks = drawer->marks.len;
    if (number != 0) {
        expect_drawn(lent, null, null, number, place, drawer);
        expect_drawn(lent, lend_buffer(100, BEFORE_PAGE), lend_buffer(100, BEFORE_PAGE), number, place, drawer);
        return;
    }
    expect_drawn(lent, lend_buffer(needed, BEFORE_PAGE), lend_buffer(marks, BEFORE_PAGE), 0, 0, drawer);
    expect_drawn(lent, lend_buffer(needed - 1, BEFORE_PAGE), lend_buffer(marks, BEFORE_PAGE), 11, (uint32_t)needed, drawer);
    expect_drawn(lent, lend_buffer(needed, BEFORE_PAGE), lend_buffer(marks - 1, BEFORE_PAGE), 11, (uint32_t)marks, drawer);
}

static unsigned drawers = 0;

static void expect_drawer(const char *name, struct drawer drawer, uint32_t number, size_t place)
{
    int is_long = drawer.bytes.len > LONGEST;
    current = name;
    drawers++;
    for (int placing = EXACT; placing < PLACINGS; placing++) {
        if (is_long && placing != BEFORE_PAGE)
            continue;
        struct lent lent = lend(drawer.bytes.len, (enum placing)placing);
        if (drawer.bytes.len > 0)
            memcpy(lent.bytes, drawer.bytes.at, drawer.bytes.len);
        (is_long ? lent_long_drawer : lent_drawer)(lent, number, (uint32_t)place, &drawer);
        CHECK(drawer.bytes.len == 0 || memcmp(lent.bytes, drawer.bytes.at, drawer.bytes.len) == 0);
        give_back(lent);
    }
    if (drawer.bytes.len == 0)
        lent_drawer(null, number, (uint32_t)place, &drawer);
    throw_away(drawer);
}

/* Every recording of this host that a drawer can hold, since its L is true. */
static struct drawer every;

static unsigned recordings = 0;

static void expect(const char *name, struct bytes rec, uint32_t number, uint32_t place, const struct bytes *report)
{
    current = name;
    recordings++;
    for (int placing = EXACT; placing < PLACINGS; placing++) {
        struct lent lent = lend(rec.len, (enum placing)placing);
        if (rec.len > 0)
            memcpy(lent.bytes, rec.at, rec.len);
        lent_recording(lent, number, place, report);
        CHECK(rec.len == 0 || memcmp(lent.bytes, rec.at, rec.len) == 0);
        give_back(lent);
    }
    if (rec.len == 0)
        lent_recording(null, number, place, report);
    if (rec.len >= 5 && number_at(rec.at + 1) == rec.len - 5)
        file(&every, rec, number, place, report);
    free(rec.at);
}

static void refused(const char *name, struct bytes rec, uint32_t number, size_t place)
{
    expect(name, rec, number, (uint32_t)place, NULL);
}

static void accepted(const char *name, struct bytes rec, struct bytes report)
{
    expect(name, rec, 0, 0, &report);
    free(report.at);
}

/* The cases. */

static void headers(void)
{
    struct bytes empty = {NULL, 0, 0};
    refused("empty", empty, 1, 0);
    refused("5 zero bytes", LITERAL(0, 0, 0, 0, 0), 1, 0);
    refused("5 bytes of version 1", LITERAL(1, 0, 0, 0, 0), 1, 0);
    accepted("the six-byte recording", LITERAL(1, 0, 0, 0, 1, 1), LITERAL(1, 0, 0, 0, 4, 0, 0, 0, 0));
    refused("version 0", LITERAL(0, 0, 0, 0, 1, 1), 2, 0);
    refused("version 2", LITERAL(2, 0, 0, 0, 1, 1), 2, 0);
    refused("L one too large", LITERAL(1, 0, 0, 0, 2, 1), 3, 0);
    refused("L one too small", LITERAL(1, 0, 0, 0, 0, 1), 3, 0);
    refused("height 0", LITERAL(1, 0, 0, 0, 1, 0), 5, 0);
    refused("height 7", LITERAL(1, 0, 0, 0, 1, 7), 5, 0);
    accepted("height 6", LITERAL(1, 0, 0, 0, 1, 6), report_head(0, 0));
}

static void longest(void)
{
    struct bytes rec = begin(6);
    struct bytes report = report_head(797, 2307);
    for (uint32_t rank = 1; rank <= 769; rank++) {
        start_add(&rec, 5, 3);
        step(&rec, 5, 26);
        row(&report, 5, ADD, 1, 1, 26, 0, rank, 0);
    }
    for (uint32_t rank = 770; rank <= 796; rank++) {
        start_read(&rec, 63);
        step(&rec, 63, 1);
        row(&report, 63, READ, 1, 1, 1, 2307, rank, 0);
    }
    start_read(&rec, 0);
    row(&report, 0, READ, 0, 1, 0, 0, 0, 0);
    set_true_length(&rec);
    CHECK(rec.len == LONGEST);

    struct bytes cut = literal(rec.at, rec.len - 1);
    set_true_length(&cut);
    struct bytes over = literal(rec.at, rec.len);
    put(&over, 2);
    struct bytes over_true = literal(over.at, over.len);
    set_true_length(&over_true);

    accepted("65,536 bytes", rec, report);
    refused("65,535 bytes, the last record cut", cut, 6, LONGEST - 3);
    refused("65,537 bytes, L false", over, 4, 0);
    refused("65,537 bytes, L true", over_true, 4, 0);
}

static struct bytes after_good_records(const uint8_t *bytes, size_t len)
{
    struct bytes rec = begin(1);
    start_add(&rec, 0, 5);
    step(&rec, 0, 6);
    put_all(&rec, bytes, len);
    set_true_length(&rec);
    return rec;
}

#define AFTER_GOOD_RECORDS(...) after_good_records((const uint8_t[]){__VA_ARGS__}, sizeof((const uint8_t[]){__VA_ARGS__}))

static void records(void)
{
    refused("k is 0", AFTER_GOOD_RECORDS(0), 6, 31);
    refused("k is 1", AFTER_GOOD_RECORDS(1, 1), 6, 31);
    refused("k is 2, nothing behind it", AFTER_GOOD_RECORDS(2), 6, 31);
    refused("k is 2, one byte behind it", AFTER_GOOD_RECORDS(2, 1), 6, 31);
    refused("k is 6, five bytes behind it", AFTER_GOOD_RECORDS(6, 3, 0, 0, 0, 0), 6, 31);
    refused("k is 6, one byte behind it", AFTER_GOOD_RECORDS(6, 3), 6, 31);
    refused("k is 255", AFTER_GOOD_RECORDS(255, 3, 0), 6, 31);
    refused("kind 4", AFTER_GOOD_RECORDS(2, 4, 0), 6, 31);
    refused("kind 3 of length 2", AFTER_GOOD_RECORDS(2, 3, 0), 6, 31);
    refused("kind 1 of length 6", AFTER_GOOD_RECORDS(6, 1, 0, 0, 0, 0, 0), 6, 31);
    refused("process 2", AFTER_GOOD_RECORDS(2, 2, 2), 7, 31);
    refused("process 255", AFTER_GOOD_RECORDS(2, 1, 255), 7, 31);
    refused("a second start at once", AFTER_GOOD_RECORDS(2, 2, 1, 2, 2, 1), 8, 34);
    refused("a step of an idle process", AFTER_GOOD_RECORDS(2, 1, 0), 9, 31);
    struct bytes report = report_head(2, 5);
    row(&report, 0, ADD, 1, 1, 6, 0, 1, 0);
    row(&report, 1, READ, 1, 1, 1, 5, 2, 0);
    accepted("process 1", AFTER_GOOD_RECORDS(2, 2, 1, 2, 1, 1), report);

    struct bytes first_step = begin(1);
    step(&first_step, 0, 1);
    set_true_length(&first_step);
    refused("a step as first record", first_step, 9, 6);

    for (uint8_t height = 1; height <= 6; height++) {
        uint8_t n = (uint8_t)(1u << height);
        struct bytes pass = begin(height);
        start_read(&pass, (uint8_t)(n - 1));
        set_true_length(&pass);
        struct bytes unfinished = report_head(1, 0);
        row(&unfinished, (uint8_t)(n - 1), READ, 0, 1, 0, 0, 0, 0);
        accepted("process n - 1", pass, unfinished);
        struct bytes stop = begin(height);
        start_read(&stop, n);
        set_true_length(&stop);
        refused("process n", stop, 7, 6);
    }
}

static void operations(void)
{
    struct bytes rec = begin(1);
    struct bytes report = report_head(MOST_OPERATIONS, 0);
    for (uint32_t rank = 1; rank < MOST_OPERATIONS; rank++) {
        start_read(&rec, 0);
        step(&rec, 0, 1);
        row(&report, 0, READ, 1, 1, 1, 0, rank, 0);
    }
    start_read(&rec, 0);
    row(&report, 0, READ, 0, 1, 0, 0, 0, 0);
    set_true_length(&rec);

    struct bytes idle = literal(rec.at, rec.len);
    start_add(&idle, 1, 5);
    set_true_length(&idle);
    struct bytes busy = literal(rec.at, rec.len);
    start_read(&busy, 0);
    set_true_length(&busy);
    size_t place = rec.len;

    CHECK(report.len == 20489);
    accepted("1,024 operations", rec, report);
    refused("operation 1,025", idle, 10, place);
    refused("busy and operation 1,025", busy, 8, place);
}

static struct bytes b(uint32_t delta_0, uint32_t delta_1)
{
    struct bytes rec = begin(1);
    start_add(&rec, 0, delta_0);
    start_add(&rec, 1, delta_1);
    step(&rec, 0, 2);
    step(&rec, 1, 2);
    step(&rec, 0, 1);
    step(&rec, 1, 1);
    step(&rec, 0, 3);
    step(&rec, 1, 7);
    set_true_length(&rec);
    return rec;
}

static struct bytes report_of_b(uint32_t counter)
{
    struct bytes report = report_head(2, counter);
    row(&report, 0, ADD, 1, 2, 6, 0, 1, 0);
    row(&report, 1, ADD, 1, 2, 10, 0, 2, 1);
    return report;
}

static void lettered(void)
{
    accepted("A",
             LITERAL(1, 0, 0, 0, 0x20, 1, 6, 3, 0, 0, 0, 0, 5, 2, 1, 0, 2, 1, 0, 2, 1, 0, 2, 1, 0, 2, 1, 0, 2, 1, 0, 2, 2, 1, 2, 1, 1),
             LITERAL(1, 0, 0, 0, 44, 0, 0, 0, 5,                                   /* operations 2 counter 5 */
                     0, 3, 1, 1, 0, 0, 0, 6, 0, 0, 0, 0, 0, 0, 0, 1, 0, 0, 0, 0,   /* 0 add 1 1 6 0 1 0 */
                     1, 2, 1, 1, 0, 0, 0, 1, 0, 0, 0, 5, 0, 0, 0, 2, 0, 0, 0, 0)); /* 1 read 1 1 1 5 2 0 */
    accepted("B", b(5, 7), report_of_b(12));
    accepted("B with both deltas 0", b(0, 0), report_of_b(0));

    struct bytes c = begin(1);
    start_add(&c, 0, 5);
    step(&c, 0, 2);
    start_read(&c, 1);
    step(&c, 1, 1);
    step(&c, 0, 4);
    set_true_length(&c);
    struct bytes report = report_head(2, 5);
    row(&report, 0, ADD, 1, 2, 6, 0, 2, 0);
    row(&report, 1, READ, 1, 2, 1, 0, 1, 0);
    accepted("C", c, report);

    struct bytes d = begin(1);
    start_add(&d, 1, 7);
    step(&d, 1, 4);
    start_add(&d, 0, 5);
    step(&d, 0, 2);
    step(&d, 1, 2);
    start_read(&d, 1);
    step(&d, 1, 1);
    step(&d, 0, 4);
    set_true_length(&d);
    report = report_head(3, 12);
    row(&report, 1, ADD, 1, 2, 6, 0, 1, 0);
    row(&report, 0, ADD, 1, 2, 6, 0, 3, 0);
    row(&report, 1, READ, 1, 2, 1, 7, 2, 0);
    accepted("D", d, report);

    struct bytes e = begin(1);
    start_add(&e, 0, 4294967295u);
    step(&e, 0, 6);
    start_add(&e, 0, 2);
    step(&e, 0, 6);
    set_true_length(&e);
    report = report_head(2, 1);
    row(&report, 0, ADD, 1, 1, 6, 0, 1, 0);
    row(&report, 0, ADD, 1, 1, 6, 0, 2, 0);
    accepted("E", e, report);

    struct bytes f = begin(1);
    start_add(&f, 0, 5);
    step(&f, 0, 2);
    start_add(&f, 1, 7);
    step(&f, 1, 6);
    set_true_length(&f);
    report = report_head(2, 12);
    row(&report, 0, ADD, 0, 2, 2, 0, 1, 0);
    row(&report, 1, ADD, 1, 2, 6, 0, 2, 0);
    accepted("F", f, report);
}

/* Process 0 adds 1 at height 6, the others start reads when it has taken `taken` of its 26 steps. */
static void joined(const char *name, int taken, uint8_t own_contention, uint8_t others_contention)
{
    struct bytes rec = begin(6);
    struct bytes report = report_head(64, 1);
    start_add(&rec, 0, 1);
    row(&report, 0, ADD, 1, own_contention, 26, 0, 1, 0);
    step(&rec, 0, taken);
    for (uint8_t process = 1; process < 64; process++) {
        start_read(&rec, process);
        row(&report, process, READ, 0, others_contention, 0, 0, 0, 0);
    }
    step(&rec, 0, 26 - taken);
    set_true_length(&rec);
    accepted(name, rec, report);
}

static void contention(void)
{
    joined("64 busy right after its start", 0, 64, 64);
    joined("64 busy right before its last step", 25, 64, 64);
    joined("63 busy right after its last step", 26, 1, 63);

    struct bytes rec = begin(1);
    start_read(&rec, 0);
    start_read(&rec, 1);
    step(&rec, 0, 1);
    step(&rec, 1, 1);
    start_read(&rec, 0);
    set_true_length(&rec);
    struct bytes report = report_head(3, 0);
    row(&report, 0, READ, 1, 2, 1, 0, 1, 0);
    row(&report, 1, READ, 1, 2, 1, 0, 2, 0);
    row(&report, 0, READ, 0, 1, 0, 0, 0, 0);
    accepted("two at once, then one alone", rec, report);
}

/* Drawers. */

static void file_accepted(struct drawer *drawer, struct bytes rec, struct bytes report)
{
    file(drawer, rec, 0, 0, &report);
    free(rec.at);
    free(report.at);
}

static void file_refused(struct drawer *drawer, struct bytes rec, uint32_t number, uint32_t place)
{
    file(drawer, rec, number, place, NULL);
    free(rec.at);
}

static void file_six(struct drawer *drawer)
{
    file_accepted(drawer, LITERAL(1, 0, 0, 0, 1, 1), report_head(0, 0));
}

/* So many recordings before the cut that is tried. */
static struct drawer filed(int count)
{
    struct drawer drawer = {{NULL, 0, 0}, {NULL, 0, 0}, {NULL, 0, 0}};
    for (int i = 0; i < count; i++)
        switch (i % 4) {
        case 0:
            file_six(&drawer);
            break;
        case 1:
            file_refused(&drawer, LITERAL(2, 0, 0, 0, 1, 1), 2, 0);
            break;
        case 2:
            file_accepted(&drawer, b(5, 7), report_of_b(12));
            break;
        default:
            file_refused(&drawer, AFTER_GOOD_RECORDS(2, 1, 0), 9, 31);
        }
    return drawer;
}

/* Bytes behind the recordings, where a cut fails. */
static void not_cut(const char *name, int count, const uint8_t *bytes, size_t len, size_t from)
{
    struct drawer drawer = filed(count);
    size_t place = drawer.bytes.len + from;
    put_all(&drawer.bytes, bytes, len);
    expect_drawer(name, drawer, 12, place);
}

#define NOT_CUT(name, count, from, ...) \
    not_cut(name, count, (const uint8_t[]){__VA_ARGS__}, sizeof((const uint8_t[]){__VA_ARGS__}), from)

static void cuts(void)
{
    static const uint8_t bytes[3][5] = {{0, 0, 0, 0, 0}, {1, 0, 0, 0, 1}, {255, 255, 255, 255, 255}};
    static const int counts[] = {0, 1, 2, 9};
    for (size_t k = 0; k < sizeof counts / sizeof counts[0]; k++) {
        int count = counts[k];
        expect_drawer("no byte left", filed(count), 0, 0);
        for (size_t left = 1; left <= 4; left++)
            for (size_t i = 0; i < 3; i++)
                not_cut("1 to 4 bytes left", count, bytes[i], left, 0);
        struct drawer five = filed(count);
        file_refused(&five, LITERAL(1, 0, 0, 0, 0), 1, 0);
        expect_drawer("5 bytes left, L 0", five, 0, 0);
        struct drawer between = filed(count);
        file_refused(&between, LITERAL(0, 0, 0, 0, 0), 1, 0);
        file_six(&between);
        expect_drawer("L 0, then one that is accepted", between, 0, 0);
        NOT_CUT("5 bytes left, L 1", count, 0, 1, 0, 0, 0, 1);
        NOT_CUT("L one past the end", count, 0, 1, 0, 0, 0, 2, 1);
        NOT_CUT("L one short", count, 5, 1, 0, 0, 0, 0, 1);
        NOT_CUT("L 2^32 - 1", count, 0, 1, 255, 255, 255, 255, 1);
        NOT_CUT("5 + L is 2^32", count, 0, 1, 255, 255, 255, 251, 1);
        NOT_CUT("L little-endian", count, 0, 1, 1, 0, 0, 0, 1);
    }
}

static void refused_in_drawers(void)
{
    struct drawer all = filed(0);
    const struct {
        struct bytes rec;
        uint32_t number, place;
    } each[] = {
        {LITERAL(1, 0, 0, 0, 0), 1, 0},
        {LITERAL(0, 0, 0, 0, 1, 1), 2, 0},
        {LITERAL(1, 0, 0, 0, 1, 7), 5, 0},
        {AFTER_GOOD_RECORDS(2, 4, 0), 6, 31},
        {AFTER_GOOD_RECORDS(2, 2, 2), 7, 31},
        {AFTER_GOOD_RECORDS(2, 2, 1, 2, 2, 1), 8, 34},
        {AFTER_GOOD_RECORDS(2, 1, 0), 9, 31},
    };
    for (size_t i = 0; i < sizeof each / sizeof each[0]; i++) {
        struct drawer only = filed(0), between = filed(1);
        file(&only, each[i].rec, each[i].number, each[i].place, NULL);
        file(&between, each[i].rec, each[i].number, each[i].place, NULL);
        file_six(&between);
        file_refused(&all, each[i].rec, each[i].number, each[i].place);
        expect_drawer("the only recording refused", only, 0, 0);
        expect_drawer("refused between two that are accepted", between, 0, 0);
    }
    expect_drawer("all recordings refused", all, 0, 0);
}

static struct drawer repeated(struct drawer once, size_t count)
{
    struct drawer drawer = filed(0);
    for (size_t i = 0; i < count; i++) {
        put_all(&drawer.bytes, once.bytes.at, once.bytes.len);
        put_all(&drawer.reports, once.reports.at, once.reports.len);
        put_all(&drawer.marks, once.marks.at, once.marks.len);
    }
    throw_away(once);
    return drawer;
}

/* 6 times 2,796,202 and 4, or 5, make the longest drawer and one byte more. */
static void longest_drawers(void)
{
    const size_t sixes = 2796202;
    struct drawer longest = repeated(filed(1), sixes - 1);
    file_refused(&longest, LITERAL(0, 0, 0, 0, 0), 1, 0);
    file_refused(&longest, LITERAL(1, 0, 0, 0, 0), 1, 0);
    CHECK(longest.bytes.len == LONGEST_DRAWER);
    expect_drawer("16,777,216 bytes", longest, 0, 0);

    struct drawer left = repeated(filed(1), sixes);
    put_all(&left.bytes, (const uint8_t[]){0, 0, 0, 0}, 4);
    CHECK(left.bytes.len == LONGEST_DRAWER);
    expect_drawer("16,777,216 bytes, four left", left, 12, LONGEST_DRAWER - 4);

    struct drawer over = repeated(filed(1), sixes);
    file_refused(&over, LITERAL(0, 0, 0, 0, 0), 1, 0);
    CHECK(over.bytes.len == LONGEST_DRAWER + 1);
    expect_drawer("16,777,217 bytes", over, 19, 0);

    struct drawer over_not_cut = repeated(filed(1), sixes);
    put_all(&over_not_cut.bytes, (const uint8_t[]){255, 255, 255, 255, 255}, 5);
    expect_drawer("16,777,217 bytes that cannot be cut", over_not_cut, 19, 0);
    struct drawer far_over = repeated(filed(1), 2 * sixes);
    expect_drawer("33,554,424 bytes", far_over, 19, 0);
}

/* A drawer and both buffers in one piece of memory, next to each other: none reaches into another. */
static void side_by_side(void)
{
    struct drawer drawer = filed(9);
    size_t len = drawer.bytes.len, needed = drawer.reports.len, marks = drawer.marks.len;
    current = "a drawer and its buffers side by side";
    for (int placing = EXACT; placing < PLACINGS; placing++)
        for (int order = 0; order < 2; order++) {
            struct lent lent = lend_buffer(len + needed + marks, (enum placing)placing);
            uint8_t *out = lent.bytes + len + (order == 0 ? 0 : marks), *marked = lent.bytes + len + (order == 0 ? needed : 0);
            memcpy(lent.bytes, drawer.bytes.at, len);
            CHECK(is(ilvrotse_drawer(lent.bytes, len, out, needed, marked, marks), 0, 0));
            CHECK(memcmp(lent.bytes, drawer.bytes.at, len) == 0);
            CHECK(memcmp(out, drawer.reports.at, needed) == 0);
            CHECK(memcmp(marked, drawer.marks.at, marks) == 0);
            give_back(lent);
        }
    throw_away(drawer);
}

static void all_drawers(void)
{
    cuts();
    refused_in_drawers();
    expect_drawer("every recording of this host", every, 0, 0);
    expect_drawer("a thousand recordings", filed(1000), 0, 0);
    side_by_side();
    longest_drawers();
}

/* The header promises that several threads may call at once. */

struct work {
    struct bytes rec;
    struct bytes report;
    struct drawer drawer;
    int wrong;
};

static void *call_often(void *given)
{
    struct work *work = given;
    const struct drawer *drawer = &work->drawer;
    uint8_t out[64], reports[128], marks[16];
    CHECK(work->report.len <= sizeof out && drawer->reports.len <= sizeof reports && drawer->marks.len <= sizeof marks);
    for (int i = 0; i < 2000; i++) {
        memset(out, FILL, sizeof out);
        ilvrotse_answer checked = ilvrotse_check(work->rec.at, work->rec.len);
        ilvrotse_answer reported = ilvrotse_report(work->rec.at, work->rec.len, out, work->report.len);
        if (checked.number != 0 || reported.number != 0 || memcmp(out, work->report.at, work->report.len) != 0)
            work->wrong++;
        memset(reports, FILL, sizeof reports);
        memset(marks, FILL, sizeof marks);
        ilvrotse_answer drawn = ilvrotse_drawer(drawer->bytes.at, drawer->bytes.len, reports, sizeof reports, marks, sizeof marks);
        if (drawn.number != 0 || memcmp(reports, drawer->reports.at, drawer->reports.len) != 0 ||
            memcmp(marks, drawer->marks.at, drawer->marks.len) != 0)
            work->wrong++;
    }
    return NULL;
}

static void threads(void)
{
    enum { THREADS = 4 };
    pthread_t thread[THREADS];
    struct work work[THREADS];
    current = "several threads";
    for (uint32_t i = 0; i < THREADS; i++) {
        work[i].rec = b(i, 10 * i);
        work[i].report = report_of_b(11 * i);
        work[i].drawer = filed(0);
        file_accepted(&work[i].drawer, b(i, 20 * i), report_of_b(21 * i));
        file_refused(&work[i].drawer, AFTER_GOOD_RECORDS(2, 1, 255), 7, 31);
        file_accepted(&work[i].drawer, b(i, 30 * i), report_of_b(31 * i));
        work[i].wrong = 0;
        CHECK(pthread_create(&thread[i], NULL, call_often, &work[i]) == 0);
    }
    for (int i = 0; i < THREADS; i++) {
        CHECK(pthread_join(thread[i], NULL) == 0);
        CHECK(work[i].wrong == 0);
        free(work[i].rec.at);
        free(work[i].report.at);
        throw_away(work[i].drawer);
    }
}

int main(void)
{
    headers();
    longest();
    records();
    operations();
    lettered();
    contention();
    all_drawers();
    threads();
    printf("host: %u recordings, %u drawers, %u calls as expected\n", recordings, drawers, calls);
    return 0;
}
