/* state.h - docs/STATE.md in C: where things lie in the lent cells, a state of the
 * second library as cells, and any cells as a state of the second library. */
#ifndef STATE_H
#define STATE_H

#include <string.h>
#include "pcl.h"
#include "second.h"

enum {
    UNITS = 0, MASTER = 1, INDEX = 2, FIRST_BLOCK = 66, BLOCK = 202,    /* cells of a link */
    TRANSMITTER = 4, RECEIVER = 77, SECTION = 150,                      /* .. of a block */
    RING = 0, WORDS = 1, LATCHED = 2, TRUNCATED = 2, ADDRESS = 3, COUNT_LEFT = 4,
    COMMAND = 5, STATUS = 6, CRC = 7, SERIAL = 8, SILO = 9,             /* .. of a side */
    SECTION_WORD = 1, ADDRESSES = 2                                     /* .. of a master section */
};

_Static_assert(PCL_CELLS_MOST == FIRST_BLOCK + BLOCK * PCL_UNITS_MOST, "pcl.h asks for other cells than these");

static inline size_t block_at(size_t unit) { return FIRST_BLOCK + BLOCK * unit; }

/* The index's entry of an address, of transmitters or of receivers. */
static inline size_t entry_at(unsigned side, unsigned address) { return INDEX + SECOND_ADDRESSES * side + address; }

/* Number 9 but for a memory: the header, and the room. */
static inline bool in_range(const uint16_t *cells, size_t length)
{
    return length >= FIRST_BLOCK && cells[UNITS] <= PCL_UNITS_MOST && length >= PCL_CELLS(cells[UNITS])
        && cells[MASTER] <= cells[UNITS];
}

static inline void side_as_cells(const struct second_side *s, uint16_t *c)
{
    c[RING] = (uint16_t)(s->silo.held << 6);
    c[WORDS] = s->words;
    c[ADDRESS] = s->bus_address / 2;
    c[COUNT_LEFT] = s->byte_count / 2;
    c[COMMAND] = (uint16_t)(s->command | s->loaded << 1 | s->mark << 3);
    c[STATUS] = s->status;
    c[CRC] = s->crc;
    c[SERIAL] = s->serial;
    for (unsigned i = 0; i < s->silo.held; i++)
        c[SILO + i] = s->silo.word[(s->silo.first + i) % SECOND_RING];
}

static inline void unit_as_cells(const struct second_unit *u, uint16_t *c)
{
    const struct second_transmitter *t = &u->transmitter;
    const struct second_receiver *r = &u->receiver;
    const struct second_master *m = &u->master;

    c[2] = (u->memory_length - 1) >> 16;
    c[3] = (uint16_t)(u->memory_length - 1);
    side_as_cells(&t->side, c + TRANSMITTER);
    c[TRANSMITTER + LATCHED] = t->destination;
    c[TRANSMITTER + STATUS] |= (uint16_t)(t->side.open << 6 | t->ending << 8 | t->crc_unanswered << 15);
    side_as_cells(&r->side, c + RECEIVER);
    c[RECEIVER + TRUNCATED] = r->truncated;
    c[RECEIVER + STATUS] |= (uint16_t)(r->side.open << 4 | (r->verdict != 0) << 6 | (r->verdict == 1) << 8
                                       | r->bad_parity << 15);
    c[SECTION + RING] = (uint16_t)(m->silo.held << 6);
    c[SECTION + SECTION_WORD] = (uint16_t)(m->counter | m->counter_switch << 5 | m->automatic << 10
                                           | m->secondary << 11 | m->now_master << 12);
    for (unsigned i = 0; i < m->silo.held; i++)
        c[SECTION + ADDRESSES + i] = m->silo.address[(m->silo.first + i) % SECOND_RING];
}

/* One of the second library's two tables, in which 0 is nobody, as half of the index. */
static inline void table_as_cells(const uint8_t *table, unsigned side, uint16_t *cells)
{
    for (unsigned address = 0; address < SECOND_ADDRESSES; address++) {
        cells[entry_at(side, address)] = table[address] ? table[address] - 1u : PCL_UNITS_MOST;
        if (address && table[address])
            cells[block_at(table[address] - 1u) + side] = (uint16_t)(address - 1);
    }
}

/* The PCL_CELLS(units) cells that hold what the second library's state holds, as after a fit: each silo's words from its first cell on,
 * and zeros behind them. */
static inline void as_cells(const struct second_link *l, uint16_t *cells)
{
    memset(cells, 0, PCL_CELLS(l->units) * sizeof *cells);
    cells[UNITS] = l->units;
    cells[MASTER] = l->master;
    for (size_t unit = 0; unit < l->units; unit++)
        unit_as_cells(&l->unit[unit], cells + block_at(unit));
    if (l->units) {                                         /* the unfitted state has an index of zeros */
        table_as_cells(l->transmitter_at, PCL_TRANSMITTER, cells);
        table_as_cells(l->receiver_at, PCL_RECEIVER, cells);
    }
}

static inline unsigned at_most(unsigned value, unsigned most) { return value < most ? value : most; }

/* A silo whose words stand from its first cell on, put in the place of the one before: the start goes on by as many places as there are
 * words fewer, or by one where the oldest went and came back at the end, and every cell without a word stays. */
static inline void lay_over(const uint16_t *before, uint16_t *after, size_t ring, unsigned size, bool turned)
{
    uint16_t words[SECOND_DATA_SILO];
    unsigned held = after[RING] >> 6, held_before = at_most(before[RING] >> 6, size),
             gone = turned ? 1 : held_before > held ? held_before - held : 0, start = (before[RING] % 64 % size + gone) % size;

    memcpy(words, after + ring, size * sizeof *words);
    memcpy(after + ring, before + ring, size * sizeof *after);
    for (unsigned i = 0; i < held; i++)
        after[ring + (start + i) % size] = words[i];
    after[RING] = (uint16_t)(start | held << 6);
}

/* Every silo of cells that as_cells made, in the place of the one before. `turned` says that a slice had a master: in silo mode its
 * oldest address went and came back. */
static inline void lay_all_over(const uint16_t *before, uint16_t *after, bool turned)
{
    for (size_t unit = 0; unit < after[UNITS]; unit++) {
        const uint16_t *b = before + block_at(unit);
        uint16_t *a = after + block_at(unit);

        lay_over(b + TRANSMITTER, a + TRANSMITTER, SILO, SECOND_DATA_SILO, false);
        lay_over(b + RECEIVER, a + RECEIVER, SILO, SECOND_DATA_SILO, false);
        lay_over(b + SECTION, a + SECTION, ADDRESSES, SECOND_ADDRESS_SILO,
                 turned && after[MASTER] == unit + 1 && !(a[SECTION + SECTION_WORD] & 1024));
    }
}

/* ---- and back: what every pattern of the cells means */

static inline void side_of_cells(const uint16_t *c, struct second_side *s)
{
    memset(s, 0, sizeof *s);
    s->silo.held = (uint8_t)at_most(c[RING] >> 6, SECOND_DATA_SILO);
    for (unsigned i = 0; i < s->silo.held; i++)
        s->silo.word[i] = c[SILO + (c[RING] % 64 + i) % SECOND_DATA_SILO];
    s->words = (uint8_t)at_most(c[WORDS], 128);
    s->bus_address = (uint16_t)(c[ADDRESS] % 32768 * 2);
    s->byte_count = (uint16_t)(c[COUNT_LEFT] % 32768 * 2);
    s->command = c[COMMAND] & (uint16_t)~(1u << 1 | 1u << 3);
    s->loaded = c[COMMAND] >> 1 & 1;
    s->crc = c[CRC];
    s->serial = c[SERIAL];
}

static inline void transmitter_of_cells(const uint16_t *c, struct second_transmitter *t)
{
    side_of_cells(c, &t->side);
    t->destination = c[LATCHED] % 32;
    t->side.status = c[STATUS] & (uint16_t)~(1u << 6 | 1u << 8 | 1u << 15);
    t->side.open = c[STATUS] >> 6 & 1;
    t->ending = (c[STATUS] >> 8 & 1) && t->side.open;
    t->crc_unanswered = (c[STATUS] >> 15 & 1) && t->side.words == 128;
    /* no mark where it is not BUSY */
    t->side.mark = (c[COMMAND] >> 3 & 1) && (t->side.open || (c[COMMAND] & PCL_TCR_SND_WD));
}

static inline void receiver_of_cells(const uint16_t *c, struct second_receiver *r)
{
    side_of_cells(c, &r->side);
    r->side.status = c[STATUS] & (uint16_t)~(1u << 4 | 1u << 6 | 1u << 8 | 1u << 15);
    r->side.open = c[STATUS] >> 4 & 1;
    r->truncated = c[TRUNCATED] % 2 && r->side.open;
    r->verdict = !(c[STATUS] >> 6 & 1) ? 0 : c[STATUS] >> 8 & 1 ? 1 : 2;
    r->bad_parity = c[STATUS] >> 15 & 1;
    /* no mark where it is not open */
    r->side.mark = (c[COMMAND] >> 3 & 1) && r->side.open;
}

static inline void master_of_cells(const uint16_t *c, struct second_master *m)
{
    unsigned word = c[SECTION_WORD], place = word & 31;

    memset(m, 0, sizeof *m);
    m->silo.held = (uint8_t)at_most(c[RING] >> 6, SECOND_ADDRESS_SILO);
    for (unsigned i = 0; i < m->silo.held; i++)
        m->silo.address[i] = c[ADDRESSES + (c[RING] % 64 + i) % SECOND_ADDRESS_SILO] % 32;
    m->counter_switch = (uint8_t)((word >> 5 & 31) < 2 ? 2 : word >> 5 & 31);
    m->counter = (uint8_t)(place < 1 || place > m->counter_switch ? m->counter_switch : place);
    /* "An empty address silo sets AUT ADR at once." */
    m->automatic = (word >> 10 & 1) || m->silo.held == 0;
    m->secondary = word >> 11 & 1;
    m->now_master = word >> 12 & 1;
}

/* An entry that is no fitted unit's number is nobody. The addresses in the units' own cells are not looked at. */
static inline void table_of_cells(const uint16_t *cells, unsigned side, uint8_t *table)
{
    for (unsigned address = 0; address < SECOND_ADDRESSES; address++) {
        uint16_t unit = cells[entry_at(side, address)];

        table[address] = unit < cells[UNITS] ? (uint8_t)(unit + 1) : 0;
    }
}

/* What the cells hold, whatever it is; the header and the room are in range. */
static inline void of_cells(const uint16_t *cells, struct second_link *l)
{
    memset(l, 0, sizeof *l);
    l->units = (uint8_t)cells[UNITS];
    l->master = (uint8_t)cells[MASTER];
    table_of_cells(cells, PCL_TRANSMITTER, l->transmitter_at);
    table_of_cells(cells, PCL_RECEIVER, l->receiver_at);
    for (size_t unit = 0; unit < l->units; unit++) {
        const uint16_t *c = cells + block_at(unit);
        struct second_unit *u = &l->unit[unit];

        u->memory_length = ((uint32_t)(c[2] % 2) << 16 | c[3]) + 1;
        transmitter_of_cells(c + TRANSMITTER, &u->transmitter);
        receiver_of_cells(c + RECEIVER, &u->receiver);
        master_of_cells(c + SECTION, &u->master);
    }
}

/* What no rule looks at, and what may therefore differ: the counter of a unit
 * that is not master in counter mode (it restarts before it is used), and
 * whether a closed transmitter awaits a verdict (it starts afresh at the
 * opening) or an ending one (it goes on with the last CRC in any case). */
static inline void forget_unseen(uint16_t *cells)
{
    for (size_t unit = 0; unit < cells[UNITS]; unit++) {
        uint16_t *block = cells + block_at(unit);

        if (cells[MASTER] != unit + 1 || !(block[SECTION + SECTION_WORD] & 1024))
            block[SECTION + SECTION_WORD] &= 0xFFE0;
        if ((block[TRANSMITTER + STATUS] & (64 | 256)) != 64)
            block[TRANSMITTER + STATUS] &= 0x7FFF;
    }
}

#endif
