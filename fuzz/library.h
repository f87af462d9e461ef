/* The library as fuzz/target.c calls it: linked.c has it in the fuzzer itself, piped.c in the caller of tests/compare. What is lent to it ends
 * at an inaccessible page. */
#ifndef LIBRARY_H
#define LIBRARY_H

#include "ilvrotse.h"

#define AROUND 16u /* bytes before and after a buffer */

void library_begin(void);
/* The recording or the drawer of the calls that follow; and, after them, what it then is. */
void library_lend(const uint8_t *rec, size_t len);
void library_give_back(uint8_t *rec, size_t len);
ilvrotse_answer library_check(void);
/* `bytes` are a buffer of `room` bytes with those around it; afterwards they are as the library left them. So are `marks`. */
ilvrotse_answer library_report(uint8_t *bytes, size_t room);
ilvrotse_answer library_drawer(uint8_t *bytes, size_t room, uint8_t *marks, size_t marks_room);
/* After each input: tells what of the library's code it was the first to reach. */
void library_tell_reached(void);

/* Of target.c. `stop` says why, and stops, so that libFuzzer keeps the input. The library's code is told by the places of its first byte and
 * of the byte after its last, then piece by piece as it is reached. */
void stop(const char *why);
void code_is(unsigned long first, unsigned long after);
void code_reached(unsigned long at, size_t bytes);

#endif
