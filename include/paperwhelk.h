/* Paperwhelk for C: the bench controller's question, where one sample's speed lies against the tolerance band, and the sheet of a record.
 *
 * Both are in one library, proved and built from the project's folder, for x86-64, by the Rattle kit's command rt:
 *
 *     bin/library
 *     gcc -std=c11 -Iinclude CALLER.c target/staticlib/libpaperwhelk.a -o CALLER
 *
 * It needs nothing else but the C library's memcpy and memset: no memory of its own, no thread. Nothing is kept between calls, so that calls from several
 * threads do not meet.
 *
 * A caller, whole:
 *
 *     #include <stdio.h>
 *     #include "paperwhelk.h"
 *
 *     // two seconds, one phase, 10.0 km/h at every second
 *     static const uint8_t cycle[] = {
 *         1,                        // phase count
 *         0, 2,                     // phase ends in seconds; the last one is T
 *         0, 100, 0, 100, 0, 100,   // T + 1 points in 0.1 km/h
 *     };
 *
 *     int main(void) {
 *         // speed tolerance 3.0 km/h, time tolerance 1 s, allowance 300 samples; position 0, speed 13.1 km/h
 *         int32_t answer = paperwhelk_verdict(cycle, sizeof cycle, 30, 20, 300, 0, 131);
 *         if (answer < 0) {
 *             printf("the question was refused: %d\n", -answer);
 *             return 1;
 *         }
 *         puts(answer == PAPERWHELK_INSIDE ? "inside" : answer == PAPERWHELK_BELOW ? "too slow" : "too fast");
 *         return 0;
 *     }
 */
#ifndef PAPERWHELK_H
#define PAPERWHELK_H

#include <stddef.h>
#include <stdint.h>

/* The version of what this header says: one higher whenever a question, an argument or an answer is added or changes. */
#define PAPERWHELK_VERSION 2

#ifdef __cplusplus
extern "C" {
#endif

/* Every answer of paperwhelk_verdict. A negative one is minus the number of a refusal of document 01. */
enum {
    PAPERWHELK_INSIDE = 0,
    PAPERWHELK_BELOW = 1,          /* slower than the band allows */
    PAPERWHELK_ABOVE = 2,          /* faster than the band allows */
    PAPERWHELK_BAD_CYCLE = -2,     /* the bytes break a rule of field 3, or their number does not match */
    PAPERWHELK_BAD_TOLERANCE = -3, /* a tolerance is outside its limits */
    PAPERWHELK_BAD_POSITION = -6,  /* the position is 20 T or more */
    PAPERWHELK_BAD_SPEED = -5      /* the speed is above 1500 */
};

/* Where one sample's speed lies against the tolerance band.
 *
 * cycle, length   the bytes of field 3's value and their number:
 *                   phase count P (1 byte), 1..4;
 *                   P phase ends in seconds (2 bytes each): the first at least 1, each above the one before, the last is T, and T is 2..2400;
 *                   T + 1 points in 0.1 km/h (2 bytes each), 0..1500.
 *                 All numbers have their high byte first. The length is 1 + 2 P + 2 (T + 1), so 9..4811.
 *                 The caller owns the bytes: they are read during the call, not changed and not kept.
 *                 With length 0 nothing is read, and cycle may be NULL: the answer is PAPERWHELK_BAD_CYCLE.
 * speed_tol       0..100, in 0.1 km/h
 * time_tol        0..40, in positions of 50 ms
 * allowance       0..1200, in samples; its limits are tested, it has no part in the verdict on a single sample
 * position        0..20 T - 1, in 50 ms from the start of the cycle
 * speed           0..1500, in 0.1 km/h
 *
 * Of several faults the first in the order -2, -3, -6, -5 is answered. Every input is answered. */
int32_t paperwhelk_verdict(const uint8_t *cycle, size_t length, uint32_t speed_tol, uint32_t time_tol, uint32_t allowance,
                           uint32_t position, uint32_t speed);

/* No sheet has more bytes: the library's promise says so of every record, and it is proved. */
#define PAPERWHELK_MOST_SHEET 512

/* The one negative answer of paperwhelk_sheet. 16 is document 02's number for an output that does not fit. */
enum { PAPERWHELK_DOES_NOT_FIT = -16 };

/* The sheet of a record: the bytes that `bin/paperwhelk sheet` prints of it, lines that each end with a newline; no 0 stands behind them.
 *
 * record, length  a whole record, any number of bytes.
 *                 The caller owns the bytes: they are read during the call, not changed and not kept.
 *                 With length 0 nothing is read, and record may be NULL: the sheet is `refused 15 field 1`.
 * out, out_length the bytes that the sheet is written to. PAPERWHELK_MOST_SHEET are always enough.
 *                 They must not overlap the record: no byte may belong to both.
 *                 With out_length 0 nothing is written, and out may be NULL: no sheet is empty, so the answer is PAPERWHELK_DOES_NOT_FIT.
 *
 * The answer is how many bytes the sheet has, 1..512. They stand at the front of out, and what lies behind them is not touched. Where the sheet has more
 * bytes than out_length, the answer is PAPERWHELK_DOES_NOT_FIT, and nothing of out is touched.
 *
 * Every input is answered, whatever bytes it has. A record of which a field is refused has a sheet too, the one line `refused N field K`; a figure that is
 * refused is a line `refused N`, the sheet's last one. docs/SHEET.md has every line.
 *
 * The call takes some 18,000 bytes of the stack, of which 15,931 are room for the cycle, the ledger, the map and the lines. Its time grows with the length:
 * a record of 4,000,000 samples in blocks of 200, 24 million bytes, takes some hundredths of a second. */
int32_t paperwhelk_sheet(const uint8_t *record, size_t length, uint8_t *out, size_t out_length);

#ifdef __cplusplus
}
#endif

#endif
