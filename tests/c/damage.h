/* damage.h - a unit whose cells hold anything, or an index that does, on both libraries. */
#ifndef DAMAGE_H
#define DAMAGE_H

#include "both.h"
#include "random.h"

static uint16_t damaged(uint16_t cell)
{
    return once_in(3) ? (uint16_t)(cell ^ 1u << below(16)) : once_in(3) ? (uint16_t)below(140) : any_word();
}

/* The second library reads what the cells now mean. */
static void read_damage(void)
{
    untidy = true;
    of_cells(cells, &l);
    memcpy(cells_before, cells, sizeof cells);
}

/* One cell of its block from `least` on, some of them, or all behind one. */
static void damage_unit(uint32_t unit, uint32_t least)
{
    static const uint32_t heads[] = { 0, TRANSMITTER, RECEIVER, SECTION };
    uint32_t first = once_in(2) ? heads[below(4)] + below(SILO) : below(BLOCK);
    uint32_t count = once_in(3) ? 1 : once_in(3) ? BLOCK : 1 + below(12);
    uint16_t *block = cells + block_at(unit);

    for (uint32_t i = first < least ? least : first; i < first + count && i < BLOCK; i++)
        block[i] = damaged(block[i]);
    read_damage();
}

/* One entry of the index, or some in a row: units that there are, the one past them, and anything. */
static inline void damage_index(void)
{
    uint32_t first = INDEX + below(FIRST_BLOCK - INDEX), count = once_in(2) ? 1 : 1 + below(FIRST_BLOCK - INDEX);

    for (uint32_t i = first; i < first + count && i < FIRST_BLOCK; i++)
        cells[i] = once_in(3) ? damaged(cells[i]) : (uint16_t)below(l.units + 1u);
    read_damage();
}

#endif
