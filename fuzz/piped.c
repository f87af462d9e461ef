/* The library in the caller of tests/compare, over a pipe, since it is for another processor. There it runs under an emulator, and guides the
 * fuzzer: the emulator logs each block of code when it first comes to it, and that is read after each input.
 *
 *     FUZZ_CALLER    the program that runs the caller
 *     FUZZ_LOG       the emulator's log; none where there is no emulator
 *     FUZZ_PROGRAM   the caller's file, as the emulator maps it
 *     FUZZ_FIRST, FUZZ_AFTER   the places of the library's code in that file: its first byte and the byte after its last */
#define _DEFAULT_SOURCE

#include "../tests/compare/caller.h"
#include "library.h"

#include <stdio.h>
#include <stdlib.h>
#include <string.h>
#include <sys/types.h>
#include <unistd.h>

static int to_caller, from_caller;
static pid_t caller;

static void give(const void *from, size_t len)
{
    const uint8_t *at = from;
    while (len > 0) {
        ssize_t given = write(to_caller, at, len);
        if (given <= 0)
            stop("the caller takes nothing: did the library stop it?");
        at += given;
        len -= (size_t)given;
    }
}

static void take(void *to, size_t len)
{
    uint8_t *at = to;
    while (len > 0) {
        ssize_t taken = read(from_caller, at, len);
        if (taken <= 0)
            stop("the caller answers nothing: did the library stop it?");
        at += taken;
        len -= (size_t)taken;
    }
}

static void tell(uint32_t what, size_t a, size_t b, size_t c)
{
    uint32_t words[4] = {what, (uint32_t)a, (uint32_t)b, (uint32_t)c};
    give(words, sizeof words);
}

static ilvrotse_answer answered(void)
{
    ilvrotse_answer answer;
    take(&answer, sizeof answer);
    return answer;
}

void library_lend(const uint8_t *rec, size_t len)
{
    tell(LEND, len, 0, 0);
    give(rec, len);
}

void library_give_back(uint8_t *rec, size_t len)
{
    tell(GIVE_BACK, 0, 0, 0);
    take(rec, len);
}

ilvrotse_answer library_check(void)
{
    tell(CHECK, 0, 0, 0);
    return answered();
}

ilvrotse_answer library_report(uint8_t *bytes, size_t room)
{
    size_t whole = room + 2 * AROUND;
    tell(REPORT, AROUND, room, AROUND);
    give(bytes, whole);
    ilvrotse_answer answer = answered();
    take(bytes, whole);
    return answer;
}

ilvrotse_answer library_drawer(uint8_t *bytes, size_t room, uint8_t *marks, size_t marks_room)
{
    size_t whole = room + 2 * AROUND, marks_whole = marks_room + 2 * AROUND;
    tell(MARKS, AROUND, marks_room, AROUND);
    give(marks, marks_whole);
    tell(DRAWER, AROUND, room, AROUND);
    give(bytes, whole);
    ilvrotse_answer answer = answered();
    take(bytes, whole);
    take(marks, marks_whole);
    return answer;
}

static FILE *logged;
static unsigned long program;

/* Where the caller's file is mapped; 0 if that is not yet known. */
static unsigned long mapped(void)
{
    char path[64], line[4096];
    unsigned long at = 0;
    snprintf(path, sizeof path, "/proc/%ld/maps", (long)caller);
    FILE *maps = fopen(path, "r");
    while (maps != NULL && at == 0 && fgets(line, sizeof line, maps) != NULL)
        if (strstr(line, getenv("FUZZ_PROGRAM")) != NULL)
            at = strtoul(line, NULL, 16);
    if (maps != NULL)
        fclose(maps);
    return at;
}

/* Reads on in the log: a block's address, then lines of its bytes, two digits a byte. */
void library_tell_reached(void)
{
    char line[256];
    static unsigned long at;
    if (logged == NULL)
        return;
    if (program == 0)
        program = mapped();
    clearerr(logged);
    for (long place = ftell(logged); fgets(line, sizeof line, logged) != NULL; place = ftell(logged)) {
        if (strchr(line, '\n') == NULL) { /* the rest is not yet written */
            fseek(logged, place, SEEK_SET);
            return;
        }
        if (strncmp(line, "0x", 2) == 0) {
            at = strtoul(line, NULL, 16) - program;
        } else if (strncmp(line, "OBJD-T: ", 8) == 0) {
            size_t bytes = strspn(line + 8, "0123456789abcdef") / 2;
            code_reached(at, bytes);
            at += bytes;
        }
    }
}

void library_begin(void)
{
    int down[2], up[2];
    if (getenv("FUZZ_CALLER") == NULL)
        stop("FUZZ_CALLER is not set; fuzz/run sets it");
    if (pipe(down) != 0 || pipe(up) != 0)
        stop("no pipe");
    caller = fork();
    if (caller == 0) {
        dup2(down[0], 0);
        dup2(up[1], 1);
        close(down[1]);
        close(up[0]);
        execl(getenv("FUZZ_CALLER"), "caller", (char *)NULL);
        _exit(127);
    }
    close(down[0]);
    close(up[1]);
    to_caller = down[1];
    from_caller = up[0];
    /* One call, so that the caller is up and mapped before its log is read. */
    tell(LEND_NULL, 0, 0, 0);
    library_check();
    if (getenv("FUZZ_LOG") != NULL) {
        logged = fopen(getenv("FUZZ_LOG"), "r");
        if (logged == NULL)
            stop("the log cannot be read");
        code_is(strtoul(getenv("FUZZ_FIRST"), NULL, 16), strtoul(getenv("FUZZ_AFTER"), NULL, 16));
    }
}
