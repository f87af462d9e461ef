/* What fuzz/target.c takes and fuzz/changes.c changes: an input is a recording, and a drawer too. */
#ifndef INPUT_H
#define INPUT_H

#include <stddef.h>
#include <stdint.h>

#define LONGEST (1u << 17) /* no longer input is taken */

/* The number in four bytes, highest first. */
static inline size_t number_at(const uint8_t *at)
{
    return (size_t)at[0] << 24 | (size_t)at[1] << 16 | (size_t)at[2] << 8 | at[3];
}

#endif
