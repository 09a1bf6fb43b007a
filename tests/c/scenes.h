/* scenes.h - scenes of some thousand calls each: two units in a long talk, a
 * crowd of units all sending, wild calls, and messages broken off. */
#ifndef SCENES_H
#define SCENES_H

#include "restarts.h"
#include "talk.h"

/* Three to sixteen units, each sending to some other, mostly over an address silo. */
static void crowd(void)
{
    uint32_t units = once_in(3) ? PCL_UNITS_MOST : 3 + below(14), quiet = 20u << below(8);

    fit_units(units, units);
    for (unsigned i = 0; i < STEPS; i++) {
        uint32_t u = fitted_unit();

        if (!l.master && !once_in(9)) {
            take_mastership(u);
            if (!once_in(3))
                load_addresses(u);
        }
        if (is_idle(&l.unit[u].receiver.side) && once_in(2))
            begin_receiving(u);
        if (is_idle(&l.unit[u].transmitter.side) && once_in(2))
            begin_sending(u, fitted_unit());
        for (unsigned moves = below(6); moves > 0; moves--)
            move_some(u, below(2));
        if (takes_words(&l.unit[u].transmitter) && once_in(2))
            call_write(u, PCL_TSDB, any_word());
        slice_some(quiet * 4);
        if (once_in(quiet))
            odd_call(some_unit());
    }
}

static bool nobody_open(void)
{
    for (uint32_t u = 0; u < l.units; u++)
        if (l.unit[u].transmitter.side.open)
            return false;
    return true;
}

/* A quiet scene writes no word that would be lost. */
static void usual_call(uint32_t u, unsigned calm)
{
    uint32_t what = below(20);

    if (what < 9)
        slice_some(30 + 300 * calm);
    else if (what < 18)
        move_some(u, some_side());
    else if (what == 18 && (calm < 2 || takes_words(&unit_at(u)->transmitter) || once_in(500)))
        call_write(u, PCL_TSDB, any_word());
    else
        call_read(u, PCL_RDDB);
}

static void wild_calls(unsigned steps)
{
    static const uint32_t odd[4] = { 3, 30, 300, 1000 };
    unsigned calm = below(4);

    for (unsigned i = 0; i < steps; i++) {
        if (once_in(odd[calm]))
            odd_call(some_unit());
        else
            usual_call(some_unit(), calm);
        if (once_in(calm < 2 || nobody_open() ? 100 : 5000))
            begin_message();
        if (once_in(20))
            forge_crc();
        if (once_in(40))
            upset_block();
        if (!l.master && !once_in(4))
            write_master(fitted_unit());
        if (once_in(calm < 2 ? 20 : 100))
            call_write_byte(some_unit(), PCL_RCR, PCL_RCR_RCV_DAT | PCL_RCR_INH_ADI);
    }
}

static void wild(void)
{
    for (unsigned i = below(3) + 1; i > 0; i--)
        fit_some();
    take_mastership(fitted_unit());
    wild_calls(STEPS);
}

static void restart_some(void)
{
    for (unsigned i = 0; i < 20; i++)
        restart(below(RESTARTS));
}

static inline void scene(void)
{
    switch (below(7)) {
    case 0: case 1: wild(); break;
    case 2: crowd(); break;
    case 3: talk(1000); break;
    case 4: restart_some(); break;
    default: talk(20u << below(6)); break;
    }
}

#endif
