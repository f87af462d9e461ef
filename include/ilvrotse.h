/* Ilvrotse: the replay of recordings of a mill's count. Three functions, no state, no allocation; safe to call from several threads.
 *
 * What a caller owes: `rec` or `drawer` points to `len` readable bytes, `out` to `room` writable ones, `marks` to `marks_room` writable ones,
 * no two of them overlap, and all stay so during the call. A pointer may be NULL where its length is 0. Nothing else: every byte string is
 * answered, and no input is checked by the caller first. */
#ifndef ILVROTSE_H
#define ILVROTSE_H

#include <stddef.h>
#include <stdint.h>

#ifdef __cplusplus
extern "C" {
#endif

/* The answer: number 0 and place 0 where the recording is accepted, else the refusal's number and place.
 *
 *   1  fewer than 6 bytes in all                                            place 0
 *   2  the version, byte 0, is not 1                                        place 0
 *   3  L, bytes 1 to 4, is not the total length minus 5                     place 0
 *   4  longer than 65,536 bytes                                             place 0
 *   5  the height, byte 5, is 0 or above 6                                  place 0
 *   6  a record's length byte is 0, or its bytes are not all there,
 *      or its kind and length are no pair of the format                     the record's offset
 *   7  a record's process is not of the tree                                the record's offset
 *   8  a start for a process that is busy                                   the record's offset
 *   9  a step for a process that is idle                                    the record's offset
 *  10  a start that would be operation 1,025                                the record's offset
 *  11  the report buffer is shorter than 9 + 20 * operations bytes          the bytes needed
 *
 * 1, 2, 4, 3, 5 are tried in that order, then the records from first to last, each by 6, 7, then 8 or 9, then 10; 11 comes last. */
typedef struct ilvrotse_answer {
    uint32_t number;
    uint32_t place;
} ilvrotse_answer;

/* Whether the recording is accepted. Writes nothing, and never answers 11. */
ilvrotse_answer ilvrotse_check(const uint8_t *rec, size_t len);

/* The same, and on acceptance the report of 9 + 20 * operations bytes at the front of `out`; bytes after it stay as they were. On any
 * refusal every byte of `out` stays as it was. */
ilvrotse_answer ilvrotse_report(const uint8_t *rec, size_t len, uint8_t *out, size_t room);

/* A drawer: recordings end to end, each answered exactly as if run alone. It is cut by each L into pieces of 5 + L bytes, up to its end. On
 * acceptance of the whole, number 0 and place 0,
 *
 *   `out`    has at its front the reports of the accepted pieces, one after another; a refused piece adds nothing
 *   `marks`  has at its front 5 bytes for each piece in drawer order: its number, 0 if accepted, then its place, counted from the piece's own
 *            byte 0, highest byte first
 *
 * and bytes after these stay as they were. An empty drawer is accepted and writes nothing. The whole drawer is refused, and every byte of both
 * buffers stays as it was, by
 *
 *  19  longer than 16,777,216 bytes                                         place 0
 *  12  1 to 4 bytes are left at a cut, or L passes the end                  the offset of that cut
 *  11  `out` is shorter than the reports; then `marks` than the marks       the bytes needed
 *
 * in that order. 7 * len bytes of `out` and len of `marks` are always enough, and then each piece is run once; where `out` is shorter,
 * pieces may be run a first time to measure. */
ilvrotse_answer ilvrotse_drawer(const uint8_t *drawer, size_t len, uint8_t *out, size_t room, uint8_t *marks, size_t marks_room);

#ifdef __cplusplus
}
#endif

#endif
