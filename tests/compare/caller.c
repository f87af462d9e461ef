/* Calls the library for the comparing program, which need not be a program for the same processor; caller.h has how they speak. The recording or
 * the drawer, and each buffer with what is around it, end at an inaccessible page. */
#define _DEFAULT_SOURCE /* for MAP_ANONYMOUS */

#include "caller.h"
#include "guarded.h"
#include "ilvrotse.h"

#include <stdlib.h>
#include <string.h>
#include <unistd.h>

static void stop(int unless)
{
    if (!unless)
        _exit(3);
}

/* Whether there were any bytes at all; part of them is an error. */
static int take(void *to, size_t len)
{
    uint8_t *at = to;
    for (size_t taken = 0; taken < len;) {
        ssize_t more = read(0, at + taken, len - taken);
        if (more == 0 && taken == 0)
            return 0;
        stop(more > 0);
        taken += (size_t)more;
    }
    return 1;
}

static void give(const void *from, size_t len)
{
    const uint8_t *at = from;
    while (len > 0) {
        ssize_t given = write(1, at, len);
        stop(given > 0);
        at += given;
        len -= (size_t)given;
    }
}

/* Lent memory, among `around` bytes that end at an inaccessible page. */
struct lent {
    uint8_t *end;
    size_t around;
    uint8_t *at;
    size_t len;
};

static void lend(struct lent *lent, size_t front, size_t len, size_t back)
{
    lent->around = front + len + back;
    stop(lent->around <= LARGEST);
    lent->at = lent->end - lent->around + front;
    lent->len = len;
    stop(lent->around == 0 || take(lent->end - lent->around, lent->around));
}

static void lend_null(struct lent *lent)
{
    lent->around = 0;
    lent->at = NULL;
    lent->len = 0;
}

static uint8_t *reply_end;

static void reply(ilvrotse_answer answer, const struct lent *first, const struct lent *second)
{
    size_t whole = sizeof answer + first->around + second->around;
    stop(whole <= LARGEST);
    uint8_t *reply = reply_end - whole;
    memcpy(reply, &answer, sizeof answer);
    memcpy(reply + sizeof answer, first->end - first->around, first->around);
    memcpy(reply_end - second->around, second->end - second->around, second->around);
    give(reply, whole);
}

static struct lent rec, out, marks, nothing;

static void call(const uint32_t *told)
{
    if (told[0] == REPORT || told[0] == DRAWER)
        lend(&out, told[1], told[2], told[3]);
    else
        lend_null(&out);
    switch (told[0]) {
    case CHECK:
        reply(ilvrotse_check(rec.at, rec.len), &nothing, &nothing);
        break;
    case REPORT:
    case REPORT_NULL:
        reply(ilvrotse_report(rec.at, rec.len, out.at, out.len), &out, &nothing);
        break;
    case DRAWER:
    case DRAWER_NULL:
        reply(ilvrotse_drawer(rec.at, rec.len, out.at, out.len, marks.at, marks.len), &out, &marks);
        break;
    default:
        stop(0);
    }
}

int main(void)
{
    uint32_t told[4];
    rec.end = guarded_end();
    out.end = guarded_end();
    marks.end = guarded_end();
    reply_end = guarded_end();
    stop(rec.end != NULL && out.end != NULL && marks.end != NULL && reply_end != NULL);
    nothing.end = reply_end;
    while (take(told, sizeof told))
        switch (told[0]) {
        case LEND:
            lend(&rec, 0, told[1], 0);
            break;
        case LEND_NULL:
            lend_null(&rec);
            break;
        case GIVE_BACK:
            give(rec.at, rec.len);
            break;
        case MARKS:
            lend(&marks, told[1], told[2], told[3]);
            break;
        case MARKS_NULL:
            lend_null(&marks);
            break;
        default:
            call(told);
        }
    return 0;
}
