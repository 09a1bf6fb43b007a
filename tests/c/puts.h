/* puts.h - which parts of the units' blocks a call puts back: the last table of
 * docs/STATE.md, by the second library's state before the call. */
#ifndef PUTS_H
#define PUTS_H

#include "state.h"

static struct second_link l;

enum { OF_TRANSMITTER = 1, OF_RECEIVER = 2, OF_SECTION = 4 };
/* Of an address, which is read by its remainder, the cell may keep more. */
static const struct part { unsigned bit; uint32_t first, known, end; } parts[] = {
    { OF_TRANSMITTER, TRANSMITTER, RECEIVER, RECEIVER },
    { OF_RECEIVER, RECEIVER, SECTION, SECTION },
    { OF_SECTION, SECTION, SECTION + ADDRESSES, BLOCK }
};
enum { PARTS = sizeof parts / sizeof parts[0] };

static unsigned put_back[PCL_UNITS_MOST];       /* parts of each unit */

static void puts_nothing(void) { memset(put_back, 0, sizeof put_back); }

/* A unit that is not fitted has no parts. */
static void puts_back(uint32_t unit, unsigned which)
{
    if (unit < l.units)
        put_back[unit] |= which;
}

static const struct second_unit *looked_at(uint32_t unit) { return &l.unit[unit % PCL_UNITS_MOST]; }
static bool reads_silo(const struct second_unit *u) { return u->transmitter.side.command & PCL_TCR_RD_SILO; }

static void expect_read(uint32_t unit, uint32_t offset)
{
    const struct second_unit *u = looked_at(unit);
    const struct second_side *r = &u->receiver.side;

    puts_nothing();
    if (offset == PCL_TSDB && reads_silo(u) && u->transmitter.side.silo.held)
        puts_back(unit, OF_TRANSMITTER);
    if (offset == PCL_RDDB && !(r->command & PCL_RCR_RC_NPR) && r->silo.held)
        puts_back(unit, OF_RECEIVER);
    if (offset == PCL_TMMR && reads_silo(u) && u->master.automatic && u->master.silo.held)
        puts_back(unit, OF_SECTION);
}

static void expect_write(uint32_t unit, uint32_t offset, uint32_t word)
{
    puts_nothing();
    switch (offset) {
    case PCL_TCR: puts_back(unit, word & PCL_TCR_TX_INIT ? OF_TRANSMITTER | OF_SECTION : OF_TRANSMITTER); break;
    case PCL_TSR: case PCL_TSDB: case PCL_TSBC: case PCL_TSBA: puts_back(unit, OF_TRANSMITTER); break;
    case PCL_TMMR: puts_back(unit, OF_SECTION); break;
    case PCL_RCR: case PCL_RSR: case PCL_RDBC: case PCL_RDBA: puts_back(unit, OF_RECEIVER); break;
    default: break;                             /* TSCRC, RDDB, RDCRC, no register */
    }
}

/* Bytes of TSDB and RDDB are refused, and an address may be dropped. */
static void expect_write_byte(uint32_t unit, uint32_t offset, uint32_t byte)
{
    const struct second_unit *u = looked_at(unit);
    uint32_t even = offset - offset % 2;
    bool dropped = !u->master.automatic || reads_silo(u) || u->master.silo.held == SECOND_ADDRESS_SILO;

    puts_nothing();
    if (even != PCL_TSDB && even != PCL_RDDB && !(offset == PCL_TMMR && dropped))
        expect_write(unit, even, (byte & 255) << 8 * (offset % 2));
}

static void expect_reset(uint32_t unit)
{
    puts_nothing();
    puts_back(unit, OF_TRANSMITTER | OF_RECEIVER | OF_SECTION);
}

static void expect_move(uint32_t unit, uint32_t side, uint32_t number)
{
    puts_nothing();
    if (number == PCL_DONE)
        puts_back(unit, side == PCL_TRANSMITTER ? OF_TRANSMITTER : OF_RECEIVER);
}

static void expect_period(uint32_t unit)
{
    const struct second_side *t = &looked_at(unit)->transmitter.side;

    puts_nothing();
    if (t->open || (t->command & PCL_TCR_SND_WD))
        puts_back(unit, OF_TRANSMITTER);
    if (looked_at(unit)->receiver.side.open)
        puts_back(unit, OF_RECEIVER);
}

/* "T acts if its channel is open, or if it has SND WD, a word, a nonzero destination and no ERR" */
static bool acts(const struct second_side *t)
{
    return t->open || ((t->command & PCL_TCR_SND_WD) && t->silo.held && (t->command >> 8 & 31)
                       && !(t->status & 0x7E00));                       /* bits 9 to 14 */
}

/* The master's section; and where T acts T, and R unless it is open with another. */
static void expect_served(uint32_t address)
{
    uint32_t t = l.transmitter_at[address] - 1u, r;     /* a unit that is not fitted where there is none */
    const struct second_transmitter *sends = &looked_at(t)->transmitter;
    const struct second_side *hears;

    puts_back(l.master - 1u, OF_SECTION);
    if (t >= l.units || !acts(&sends->side))
        return;
    puts_back(t, OF_TRANSMITTER);
    r = l.receiver_at[sends->side.open ? sends->destination : sends->side.command >> 8 & 31] - 1u;
    hears = &looked_at(r)->receiver.side;
    if (!hears->open || (hears->command >> 8 & 31) == address)
        puts_back(r, OF_RECEIVER);
}

/* The section that takes over, or else every transmitter with SND WD and a word. */
static void expect_masterless(void)
{
    for (uint32_t unit = 0; unit < l.units; unit++)
        if (l.unit[unit].master.secondary) {
            puts_back(unit, OF_SECTION);
            return;
        }
    for (uint32_t unit = 0; unit < l.units; unit++) {
        const struct second_side *t = &l.unit[unit].transmitter.side;

        if ((t->command & PCL_TCR_SND_WD) && t->silo.held)
            puts_back(unit, OF_TRANSMITTER);
    }
}

static void expect_slice(uint32_t answer)
{
    puts_nothing();
    if (pcl_number(answer) == PCL_DONE)
        expect_served(pcl_address(answer));
    if (pcl_number(answer) == PCL_NO_MASTER)
        expect_masterless();
}

#endif
