/* What the caller of this folder is told over its standard input, and what it answers over its standard output. Numbers are of 4 bytes,
 * little-endian.
 *
 *   LEND len 0 0, len bytes                   the recording, or the drawer, of the calls that follow
 *   LEND_NULL 0 0 0                           an empty one, lent as NULL
 *   GIVE_BACK 0 0 0                           answers its bytes as they are now
 *   CHECK 0 0 0                               answers number, place
 *   REPORT front room back, the bytes of      answers number, place, and the bytes of all three
 *     all three, the buffer in the middle
 *   REPORT_NULL 0 0 0                         the same with an empty buffer, lent as NULL; answers number, place
 *   MARKS front room back, the bytes of       the second buffer of the drawers that follow
 *     all three, the buffer in the middle
 *   MARKS_NULL 0 0 0                          an empty one, lent as NULL
 *   DRAWER front room back, the bytes of      answers number, place, the bytes of all three, and all the bytes that MARKS lent
 *     all three, the buffer in the middle
 *   DRAWER_NULL 0 0 0                         the same with an empty buffer, lent as NULL */
#ifndef CALLER_H
#define CALLER_H

enum { LEND, LEND_NULL, GIVE_BACK, CHECK, REPORT, REPORT_NULL, MARKS, MARKS_NULL, DRAWER, DRAWER_NULL };

#endif
