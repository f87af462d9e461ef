/* The library in the fuzzer itself, on x86-64. An access beyond what is lent is a signal, which libFuzzer takes as a failure of the input.
 *
 * The library comes compiled, without counters. So each of its instructions is made a breakpoint until it is first reached, and then guides
 * the fuzzer as a new branch of the second program does.
 *
 *     FUZZ_CODE   a file with a line for each instruction of the library: its address in hexadecimal, a colon, its number of bytes */
#define _GNU_SOURCE

#include "../tests/compare/guarded.h"
#include "library.h"

#include <limits.h>
#include <signal.h>
#include <stdio.h>
#include <stdlib.h>
#include <string.h>
#include <ucontext.h>

#define MOST_INSTRUCTIONS 16384u
#define BREAKPOINT 0xcc

static struct {
    uint8_t *at;
    unsigned bytes;
    uint8_t first; /* the byte that the breakpoint stands for */
} code[MOST_INSTRUCTIONS];
static size_t instructions;

static void reached(int number, siginfo_t *info, void *given)
{
    greg_t *next = &((ucontext_t *)given)->uc_mcontext.gregs[REG_RIP];
    (void)number;
    (void)info;
    *next -= 1;
    for (size_t i = 0; i < instructions; i++)
        if (code[i].at == (uint8_t *)*next && *code[i].at == BREAKPOINT) {
            *code[i].at = code[i].first;
            code_reached((unsigned long)code[i].at, code[i].bytes);
            return;
        }
    abort();
}

static void set_breakpoints(const char *path)
{
    unsigned long at;
    unsigned bytes;
    FILE *list = path == NULL ? NULL : fopen(path, "r");
    unsigned long first = ULONG_MAX, after = 0;
    while (list != NULL && instructions < MOST_INSTRUCTIONS && fscanf(list, "%lx: %u", &at, &bytes) == 2) {
        code[instructions].at = (uint8_t *)at;
        code[instructions++].bytes = bytes;
        first = at < first ? at : first;
        after = at + bytes > after ? at + bytes : after;
    }
    if (instructions == 0 || instructions == MOST_INSTRUCTIONS)
        stop("the library's instructions are not listed; fuzz/run lists them");
    fclose(list);
    unsigned long page = first - first % PAGE;
    struct sigaction action;
    memset(&action, 0, sizeof action);
    action.sa_sigaction = reached;
    action.sa_flags = SA_SIGINFO;
    if (sigaction(SIGTRAP, &action, NULL) != 0 || mprotect((void *)page, after - page, PROT_READ | PROT_WRITE | PROT_EXEC) != 0)
        stop("no breakpoints can be set");
    code_is(first, after);
    for (size_t i = 0; i < instructions; i++) {
        code[i].first = *code[i].at;
        *code[i].at = BREAKPOINT;
    }
}

static uint8_t *rec_end, *out_end, *marks_end;
static size_t rec_len;

void library_begin(void)
{
    rec_end = guarded_end();
    out_end = guarded_end();
    marks_end = guarded_end();
    if (rec_end == NULL || out_end == NULL || marks_end == NULL)
        stop("no memory");
    set_breakpoints(getenv("FUZZ_CODE"));
}

void library_lend(const uint8_t *rec, size_t len)
{
    rec_len = len;
    memcpy(rec_end - len, rec, len);
}

void library_give_back(uint8_t *rec, size_t len)
{
    memcpy(rec, rec_end - len, len);
}

ilvrotse_answer library_check(void)
{
    return ilvrotse_check(rec_end - rec_len, rec_len);
}

ilvrotse_answer library_report(uint8_t *bytes, size_t room)
{
    size_t whole = room + 2 * AROUND;
    memcpy(out_end - whole, bytes, whole);
    ilvrotse_answer answer = ilvrotse_report(rec_end - rec_len, rec_len, out_end - whole + AROUND, room);
    memcpy(bytes, out_end - whole, whole);
    return answer;
}

ilvrotse_answer library_drawer(uint8_t *bytes, size_t room, uint8_t *marks, size_t marks_room)
{
    size_t whole = room + 2 * AROUND, marks_whole = marks_room + 2 * AROUND;
    uint8_t *out = out_end - whole, *marked = marks_end - marks_whole;
    memcpy(out, bytes, whole);
    memcpy(marked, marks, marks_whole);
    ilvrotse_answer answer = ilvrotse_drawer(rec_end - rec_len, rec_len, out + AROUND, room, marked + AROUND, marks_room);
    memcpy(bytes, out, whole);
    memcpy(marks, marked, marks_whole);
    return answer;
}

void library_tell_reached(void)
{
}
