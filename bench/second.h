/* The second program with the library's entries, by bench/second.rs. */
#ifndef SECOND_H
#define SECOND_H

#include "ilvrotse.h"

ilvrotse_answer second_check(const uint8_t *rec, size_t len);
ilvrotse_answer second_report(const uint8_t *rec, size_t len, uint8_t *out, size_t room);
ilvrotse_answer second_drawer(const uint8_t *drawer, size_t len, uint8_t *out, size_t room, uint8_t *marks, size_t marks_room);

#endif
