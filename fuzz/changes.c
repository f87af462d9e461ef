/* libFuzzer's changes of an input, such that a recording often stays one, and a drawer is often cut where it was. */
#include "../bench/second.h"
#include "input.h"

#include <string.h>

#define MOST_CHECKED (1u << 20) /* bytes, in the repair of one recording */

size_t LLVMFuzzerMutate(uint8_t *data, size_t size, size_t most);
size_t LLVMFuzzerCustomMutator(uint8_t *data, size_t size, size_t most, unsigned seed);
size_t LLVMFuzzerCustomCrossOver(const uint8_t *one, size_t one_size, const uint8_t *other, size_t other_size, uint8_t *joined, size_t most,
                                 unsigned seed);

/* ---- a recording */

static void lay_length(uint8_t *s, size_t len)
{
    for (int i = 0; i < 4; i++)
        s[1 + i] = (uint8_t)((len - 5) >> (24 - 8 * i));
}

/* Makes the record that is refused into one that is not; the recording's length then. */
static size_t record_repaired(uint8_t *s, size_t len, size_t most, ilvrotse_answer refusal, int turn)
{
    uint8_t *at = s + refusal.place;
    size_t left = len - refusal.place;
    switch (refusal.number) {
    case 6:
        if (left < 3)
            return refusal.place;
        if (left >= 7 && at[0] % 4 == 3)
            at[0] = 6, at[1] = 3;
        else
            at[0] = 2, at[1] = 1;
        return len;
    case 7:
        at[2] &= (uint8_t)((1u << s[5]) - 1);
        return len;
    case 8: /* a step for the start */
        if (at[0] == 6) {
            memmove(at + 3, at + 7, left - 7);
            len -= 4;
        }
        at[0] = 2, at[1] = 1;
        return len;
    case 9: /* a start for the step: one in four a read */
        if (turn % 4 == 0 || len + 4 > most) {
            at[1] = 2;
            return len;
        }
        memmove(at + 7, at + 3, left - 3);
        at[0] = 6, at[1] = 3;
        memset(at + 3, turn % 3 == 0 ? 255 : 0, 3);
        at[6] = (uint8_t)(refusal.place + 1);
        return len + 4;
    default: /* 10 */
        return refusal.place;
    }
}

/* From the first record to the last, a few hundred times at most, less often in a long input. */
static size_t repaired(uint8_t *s, size_t len, size_t most)
{
    if (len < 6)
        return len;
    s[0] = 1;
    if (s[5] == 0 || s[5] > 6)
        s[5] = (uint8_t)(1 + s[5] % 6);
    for (int turn = 0; turn < 400 && turn * len < MOST_CHECKED; turn++) {
        lay_length(s, len);
        ilvrotse_answer answer = second_check(s, len);
        if (answer.number < 6 || answer.number > 10)
            return len;
        len = record_repaired(s, len, most, answer, turn);
    }
    return len;
}

static size_t changed(uint8_t *rec, size_t size, size_t most, unsigned seed)
{
    size = LLVMFuzzerMutate(rec, size, most);
    if (seed % 4 == 0)
        return size;
    if (seed % 4 == 1 && size >= 5) { /* a true length and nothing else */
        lay_length(rec, size);
        return size;
    }
    return repaired(rec, size, most);
}

/* ---- a drawer */

struct piece {
    size_t at;
    size_t size;
};

/* What the cut after `before` finds; up to the end where L passes it or is not there. */
static struct piece piece_after(struct piece before, const uint8_t *s, size_t len)
{
    struct piece piece = {before.at + before.size, len - before.at - before.size};
    if (piece.size >= 5 && number_at(s + piece.at + 1) <= piece.size - 5)
        piece.size = 5 + number_at(s + piece.at + 1);
    return piece;
}

/* Any one of the pieces of an input that is not empty. */
static struct piece picked(const uint8_t *s, size_t len, unsigned seed)
{
    unsigned count = 0;
    struct piece piece = {0, 0};
    while (piece.at + piece.size < len) {
        piece = piece_after(piece, s, len);
        count++;
    }
    piece.at = piece.size = 0;
    for (unsigned left = 1 + seed % count; left > 0; left--)
        piece = piece_after(piece, s, len);
    return piece;
}

/* The bytes of a piece are replaced; the drawer's length then. */
static size_t replaced(uint8_t *s, size_t len, struct piece piece, const uint8_t *by, size_t size)
{
    size_t end = piece.at + piece.size;
    memmove(s + piece.at + size, s + end, len - end);
    memcpy(s + piece.at, by, size);
    return len - piece.size + size;
}

size_t LLVMFuzzerCustomMutator(uint8_t *data, size_t size, size_t most, unsigned seed)
{
    static uint8_t bytes[2 * LONGEST];
    if (size == 0 || most > LONGEST)
        return LLVMFuzzerMutate(data, size, most);
    struct piece piece = picked(data, size, seed / 64);
    size_t others = size - piece.size, changed_size = 0;
    memcpy(bytes, data + piece.at, piece.size);
    switch (others == 0 ? 15 : seed / 4 % 16) {
    case 0: /* anywhere, over the cuts too */
        return LLVMFuzzerMutate(data, size, most);
    case 1: /* left out */
        break;
    case 2: /* laid twice */
        memcpy(bytes + piece.size, bytes, piece.size);
        changed_size = size + piece.size <= most ? 2 * piece.size : piece.size;
        break;
    case 3: /* its first five bytes, as they are where L is 0 */
        changed_size = piece.size < 5 ? piece.size : 5;
        if (changed_size == 5)
            lay_length(bytes, 5);
        break;
    default:
        changed_size = changed(bytes, piece.size, most - others, seed);
    }
    return replaced(data, size, piece, bytes, changed_size);
}

/* One input after the other, now and then; 0 asks libFuzzer for another change. */
size_t LLVMFuzzerCustomCrossOver(const uint8_t *one, size_t one_size, const uint8_t *other, size_t other_size, uint8_t *joined, size_t most,
                                 unsigned seed)
{
    if (seed % 8 != 0 || one_size + other_size > most)
        return 0;
    memcpy(joined, one, one_size);
    memcpy(joined + one_size, other, other_size);
    return one_size + other_size;
}
