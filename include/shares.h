/* shares.h - shares into an address load, for C and C++: out of a wanted number
 * of turns for each transmitter, a list for the address silo.
 *
 * A list that is answered has 20 to 50 addresses, each wanted address exactly as
 * often as it wants turns and no other address, and no two neighbours equal, the
 * last and the first being neighbours too. One load has one list: the same numbers
 * in the same order give the same. An even list is tried for, with the turns of
 * each transmitter apart; that is measured, not proved: docs/SHARES.md says how
 * even.
 *
 * So the master section takes it. A list is loaded by byte writes, at one unit:
 * pcl_write_byte at PCL_TMMR + 1 with AUT ADR and CLR ADR set, where the address
 * silo is not empty already; pcl_write_byte at PCL_TMMR with each address, in order;
 * and pcl_write_byte at PCL_TMMR + 1 with MASTER set, and AUT ADR and CLR ADR 0. Each
 * is answered 0, and then the slices go round the list, if
 *   - RD SILO is clear at the unit, from the first of these writes to the last;
 *   - no other unit has MASTER, and the last write carries MASTER.
 * In any W slices in a row of a list of L a transmitter with k turns then gets at
 * least k times the whole number of L in W, and at most k times W/L rounded up. That
 * ends at a pcl_fit, and at a write of TMMR, TX INIT or a reset at the master; every
 * other call is free. It is for byte writes that starting is proved. A word write
 * includes a low byte: where it clears AUT ADR, that byte is dropped, and it answers
 * 6 though the list starts, or 5 where the list may not start, as document 01 has it.
 *
 * What is lent. The numbers and the list are lent for one call and are the
 * caller's again when it returns. A pointer is not null and is aligned for its
 * type, and as many elements stand there as the length says; the length counts
 * elements, never bytes. The two do not overlap, and nothing else reads or writes
 * them while the call runs. The library has no state of its own: no globals, no
 * allocation, no input or output.
 *
 * What comes back. The call takes every argument, ends, and answers a number with
 * a value above it; shares_number() and shares_value() take an answer apart. A
 * number other than SHARES_DONE is a refusal: its value is 0, and it has changed
 * nothing that was lent. Where several refusals fit, the first of SHARES_BAD_ROOM,
 * SHARES_OUTSIDE, SHARES_TWICE, SHARES_WRONG_TOTAL, SHARES_NO_LIST is answered. */
#ifndef SHARES_H
#define SHARES_H

#include <stddef.h>
#include <stdint.h>

#ifdef __cplusplus
extern "C" {
#endif

enum {
    SHARES_DONE = 0,
    SHARES_OUTSIDE = 1,         /* an address outside 1 to 31 */
    SHARES_TWICE = 2,           /* an address named twice; one that wants no turns is named too */
    SHARES_WRONG_TOTAL = 3,     /* the sum of all turns is outside 20 to 50: no list exists */
    SHARES_NO_LIST = 4,         /* exactly where no list exists and no earlier refusal fits: one wants more than half of the turns */
    SHARES_BAD_ROOM = 9         /* too little room lent for a list, or an odd number of numbers */
};

/* Room, in elements: the addresses of a list, the numbers for so many transmitters. */
#define SHARES_LIST_LEAST 20
#define SHARES_LIST_MOST 50
#define SHARES_WANTED(transmitters) (2 * (size_t)(transmitters))

/* An answer taken apart. */
static inline unsigned shares_number(uint32_t answer) { return answer & 0xFFFF; }
static inline unsigned shares_value(uint32_t answer) { return answer >> 16; }

/* Plans a list. `wanted` has two numbers for each transmitter: its address, and
 * the turns that it wants, 0 too. SHARES_LIST_MOST words of room are asked,
 * whatever is wanted; words past the list stay as they were.
 * Answers 0 with the length of the list; 9, 1, 2, 3, 4, in this order. */
uint32_t shares_plan(const uint16_t *wanted, size_t wanted_length, uint16_t *list, size_t list_length);

#ifdef __cplusplus
}
#endif

#endif
