/* plain.h - whether a slice or a move goes the plain way, by the lent cells before
 * the call. These are the library's own tests, sentence by sentence: those of
 * crates/plain/src, which crates/plain/specs has in Turn, Idle, Tests and Moving,
 * in the order in which `bus` and `moves` ask them. They are here to count with.
 * Nothing is proved of them and nothing rests on them: a test that is changed
 * there and not here makes a count wrong, no more. */
#ifndef PLAIN_H
#define PLAIN_H

#include "state.h"

static inline unsigned bits_of(unsigned word, unsigned from, unsigned count) { return word >> from & ((1u << count) - 1); }

/* ---- whose slice it is */

/* Each number within its limits, and an address held where AUT ADR is clear. */
static inline bool turns(const uint16_t *section)
{
    unsigned word = section[SECTION_WORD], place = bits_of(word, 0, 5), counter_switch = bits_of(word, 5, 5);

    return section[RING] < 3264 && section[RING] % 64 < 50 && word < 8192 && 2 <= counter_switch && 1 <= place && place <= counter_switch
        && (bits_of(word, 10, 1) || 64 <= section[RING]);
}

/* The address that such a section gives next: the counter's, or the silo's oldest. */
static inline unsigned next_address(const uint16_t *section)
{
    return bits_of(section[SECTION_WORD], 10, 1) ? bits_of(section[SECTION_WORD], 0, 5) : section[ADDRESSES + section[RING] % 64] % 32;
}

/* The unit that the index has for an address, of transmitters or of receivers; the count of units where there is none. */
static inline size_t unit_with(const uint16_t *cells, unsigned side, unsigned address)
{
    return at_most(cells[entry_at(side, address)], cells[UNITS]);
}

/* ---- whether its transmitter acts, and whom it addresses */

/* An open one acts; a closed one with SND WD, a word, a nonzero destination and no error bit. */
static inline bool acts(const uint16_t *t)
{
    return bits_of(t[STATUS], 6, 1)
        || (bits_of(t[COMMAND], 13, 1) && 64 <= t[RING] && bits_of(t[COMMAND], 8, 5) != 0 && bits_of(t[STATUS], 9, 6) == 0);
}

/* The latched destination of an open one, else that of TCR. */
static inline unsigned addressed(const uint16_t *t)
{
    return bits_of(t[STATUS], 6, 1) ? t[LATCHED] % 32 : bits_of(t[COMMAND], 8, 5);
}

/* ---- the slice between two ends */

/* A transmitter open with ST TXM, not ending, with no error bit, which holds a word. */
static inline bool talks(const uint16_t *t)
{
    return 64 <= t[RING] && t[RING] < 4160 && t[LATCHED] < 32 && t[ADDRESS] < 32768 && t[COUNT_LEFT] < 32768
        && t[COMMAND] % 2 == 1 && t[STATUS] / 64 % 2 == 1 && t[STATUS] / 256 % 128 == 0;
}

/* A receiver open with the sender, with RCV DAT and without REJ, with no error bit and no bad parity. */
static inline bool listens(const uint16_t *r, unsigned from)
{
    return r[RING] < 4160 && r[TRUNCATED] < 2 && r[ADDRESS] < 32768 && r[COUNT_LEFT] < 32768
        && r[COMMAND] % 2 == 1 && r[COMMAND] < 32768 && r[COMMAND] / 256 % 32u == from
        && r[STATUS] / 16 % 2 == 1 && r[STATUS] < 512;
}

/* Open with each other, with the same count of 128 and the same CRC. */
static inline bool in_step(const uint16_t *t, const uint16_t *r, unsigned from)
{
    return talks(t) && listens(r, from) && t[WORDS] == r[WORDS] && t[CRC] == r[CRC];
}

/* The code B of a plain slice with nothing damaged, or 0 where it is not plain: a word that is stored; a due CRC that is taken; its
 * good verdict. */
static inline unsigned carried(const uint16_t *t, const uint16_t *r, unsigned from)
{
    bool awaited = t[STATUS] >= 32768, owed = r[STATUS] / 64 % 2, good = r[STATUS] / 256 % 2;

    if (!in_step(t, r, from))
        return 0;
    if (t[WORDS] < 128)
        return !awaited && r[RING] < 4096 ? 3 : 0;
    if (t[WORDS] != 128)
        return 0;
    if (!awaited)
        return !owed && !good ? 1 : 0;
    return owed && good ? 3 : 0;
}

/* ---- a move */

/* TX NPR, loaded, no error bit, room, RD SILO clear, and not ending, which only an open transmitter is. */
static inline bool may_move_out(const uint16_t *t)
{
    return t[COMMAND] / 16384 % 2 == 1 && t[COMMAND] / 2 % 2 == 1 && t[STATUS] / 512 % 64 == 0 && t[RING] < 4096
        && !(t[COMMAND] / 128 % 2 == 1) && !(t[STATUS] / 256 % 2 == 1 && t[STATUS] / 64 % 2 == 1);
}

/* RC NPR, a word, and no error bit. */
static inline bool may_move_in(const uint16_t *r)
{
    return r[COMMAND] / 16384 % 2 == 1 && 64 <= r[RING] && r[STATUS] / 512 % 64 == 0;
}

/* Numbers within their limits, a load that is loaded and goes on within its 15 bits with INH ADI clear, and a period's mark only where
 * it counts. */
static inline bool goes_on(const uint16_t *side, unsigned own_limit, bool busy)
{
    return side[WORDS] < 129 && side[2] < own_limit && side[ADDRESS] < 32767 && side[COUNT_LEFT] < 32767
        && side[COMMAND] / 2 % 4 == 1 && (side[COMMAND] / 8 % 2 == 0 || busy);
}

/* The word that the load names is one of the unit's memory. */
static inline bool names_word(const uint16_t *block, const uint16_t *side)
{
    return side[COMMAND] / 16 % 4 * 32768u + side[ADDRESS] < block[2] % 2 * 65536u + block[3] + 1;
}

static inline bool loads_plain(const uint16_t *block)
{
    const uint16_t *t = block + TRANSMITTER;

    return goes_on(t, 32, t[COMMAND] / 8192 % 2 == 1 || t[STATUS] / 64 % 2 == 1)
        && t[STATUS] / 256 % 2 != 1 && t[STATUS] <= 32767 && names_word(block, t);
}

static inline bool stores_plain(const uint16_t *block)
{
    const uint16_t *r = block + RECEIVER;

    return goes_on(r, 1, r[STATUS] / 16 % 2 == 1) && r[RING] < 4160 && names_word(block, r);
}

/* ---- a call: whether it goes the plain way, and the answer that it then has */

struct way { bool plain; uint32_t answer; };

static inline struct way plain_answer(unsigned address, unsigned a, unsigned b)
{
    return (struct way){ true, (address | a << 5 | b << 7) << 16 };
}

/* A slice with nothing damaged: the master's turn is plain, and no transmitter acts or the slice between the two ends is plain. */
static inline struct way slice_way(const uint16_t *cells)
{
    const uint16_t *section, *t;
    unsigned address, b;
    size_t unit, other;

    if (cells[MASTER] == 0)
        return (struct way){ false, 0 };
    section = cells + block_at(cells[MASTER] - 1u) + SECTION;
    if (!turns(section))
        return (struct way){ false, 0 };
    address = next_address(section);
    unit = unit_with(cells, PCL_TRANSMITTER, address);
    if (unit == cells[UNITS])
        return plain_answer(address, 0, 0);
    t = cells + block_at(unit) + TRANSMITTER;
    if (!acts(t))
        return plain_answer(address, 0, 0);
    other = unit_with(cells, PCL_RECEIVER, addressed(t));
    if (other == cells[UNITS])
        return (struct way){ false, 0 };
    b = carried(t, cells + block_at(other) + RECEIVER, address);
    return b ? plain_answer(address, 2, b) : (struct way){ false, 0 };
}

/* A move of a fitted unit: there is nothing to move, or the move is plain. */
static inline struct way move_way(const uint16_t *cells, uint32_t unit, uint32_t side)
{
    const uint16_t *block = cells + block_at(unit);
    bool sends = side == PCL_TRANSMITTER;

    if (!(sends ? may_move_out(block + TRANSMITTER) : may_move_in(block + RECEIVER)))
        return (struct way){ true, PCL_NOTHING };
    return (struct way){ sends ? loads_plain(block) : stores_plain(block), PCL_DONE };
}

#endif
