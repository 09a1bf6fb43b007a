/* calls.c - what every call but fit has to refuse: each number, and the order of
 * numbers where several fit. */
#include "lent.h"

static const uint32_t numbers[] = { 0, 1, 2, 15, 16, 17, 255, 256, 65535, 65536, 0x10000000, 0x7FFFFFFF, 0x80000000, 0xFFFFFFFF };
enum { NUMBERS = sizeof numbers / sizeof numbers[0] };

/* Every call but fit, with arguments that are good or as bad as can be. */
static void all_answer(uint32_t number)
{
    for (uint32_t bad = 0; bad < 2; bad++) {
        uint32_t unit = bad ? 99 : 0, side = bad ? 2 : 1;

        REFUSED(rd(unit, bad ? 15 : PCL_TSR), number);
        REFUSED(wr(unit, bad ? 15 : PCL_TCR, 0xFFFF), number);
        REFUSED(wb(unit, bad ? PCL_TSDB : PCL_TCR, 0xFF), number);
        REFUSED(mv(unit, side), number);
        REFUSED(ma(unit, side), number);
        REFUSED(pd(unit), number);
        REFUSED(rs(unit), number);
        REFUSED(lv(unit, side), number);
        REFUSED(sn(unit, side), number);
        REFUSED(sl(1, bad ? 2 : 0), number == PCL_NOT_FITTED ? bad ? PCL_BAD_SETUP : PCL_NO_MASTER : number);
    }
    REFUSED(wm(), number == PCL_NOT_FITTED ? 0 : number);          /* no unit fitted: no side wants anything */
    REFUSED(wi(), number == PCL_NOT_FITTED ? 0 : number);
}

/* The cell of a side's serial. */
static size_t serial_at(uint32_t unit, uint32_t side)
{
    return block_at(unit) + (side == PCL_RECEIVER ? RECEIVER : TRANSMITTER) + SERIAL;
}

/* What changes nothing, whatever a unit's cells hold: reads that only show, serials, writes without effect, refusals. */
static void leave_all(uint32_t u)
{
    static const uint32_t shows[] = { PCL_TCR, PCL_TSR, PCL_TSBC, PCL_TSBA, PCL_TSCRC, PCL_RCR, PCL_RSR, PCL_RDBC, PCL_RDBA, PCL_RDCRC };
    static const uint32_t ignores[] = { PCL_TSCRC, PCL_RDDB, PCL_RDCRC };

    for (size_t i = 0; i < sizeof shows / sizeof shows[0]; i++)
        REFUSED(pcl_number(rd(u, shows[i])), 0);
    for (size_t i = 0; i < sizeof ignores / sizeof ignores[0]; i++)
        REFUSED(wr(u, ignores[i], 0xFFFF), 0);
    for (uint32_t half = 0; half < 2; half++) {
        REFUSED(pcl_number(lv(u, half)), 0);
        REFUSED(sn(u, half), shown(cells[serial_at(u, half)]));
        REFUSED(wb(u, PCL_TSCRC + half, 0xFF), 0);
        REFUSED(wb(u, PCL_RDCRC + half, 0xFF), 0);
        REFUSED(wb(u, PCL_TSDB + half, 0xFF), PCL_BYTE_REFUSED);
        REFUSED(wb(u, PCL_RDDB + half, 0xFF), PCL_BYTE_REFUSED);
        REFUSED(wb(u, 14 + half, 0xFF), PCL_NO_REGISTER);
        REFUSED(wb(u, 28 + half, 0xFF), PCL_NO_REGISTER);
        REFUSED(rd(u, 14 + half), PCL_NO_REGISTER);
        REFUSED(wr(u, 28 + half, 0xFFFF), PCL_NO_REGISTER);
    }
    REFUSED(sl(0, 2), PCL_BAD_SETUP);
    REFUSED(pcl_number(wm()), 0);
    REFUSED(pcl_number(wi()), 0);
}

/* What may find nothing to do: then nothing has changed, else it is undone. */
static void done_or_left(uint64_t answer)
{
    if (pcl_number(answer) != PCL_DONE)
        REFUSED(answer, pcl_number(answer));
    memcpy(cells, cells_before, length * sizeof *cells);
    memcpy(memory, memory_before, memory_length * sizeof *memory);
}

static void calls_that_may_leave_all(uint32_t u)
{
    done_or_left(mv(u, PCL_TRANSMITTER));
    done_or_left(mv(u, PCL_RECEIVER));
    done_or_left(ma(u, PCL_TRANSMITTER));
    done_or_left(ma(u, PCL_RECEIVER));
    done_or_left(rd(u, PCL_TSDB));
    done_or_left(rd(u, PCL_RDDB));
    done_or_left(wb(u, PCL_TMMR, 9));
}

/* A slice in which nobody sends: it steps the section of the master, which is the last unit, and leaves all else. */
static void idle_slice(uint32_t units)
{
    size_t section = block_at(units - 1) + SECTION;
    uint32_t answer = sl(0, 0);

    memcpy(cells + section, cells_before + section, (BLOCK - SECTION) * sizeof *cells);
    REFUSED(pcl_number(answer) | pcl_a(answer) | pcl_b(answer), 0);
}

/* One cell of the first unit or of the last that holds what no call may have written: no call is refused for it. */
static void cells_hold_anything(uint32_t units, bool sending)
{
    static const uint16_t patterns[] = { 0, 1, 31, 51, 65, 129, 0x7FFF, 0x8000, 0xFFFF };

    for (uint32_t u = 0; u < units; u += units > 1 ? units - 1 : 1)
        for (uint32_t i = 0; i < BLOCK; i++)
            for (size_t p = 0; p < sizeof patterns / sizeof patterns[0]; p++) {
                uint16_t *cell = &cells[block_at(u) + i], kept = *cell;

                *cell = patterns[p];
                keep();
                if (sending) {
                    leave_all(u);
                    calls_that_may_leave_all(u);
                    REFUSED(pcl_number(rd(units - 1 - u, PCL_TSR)), 0);
                } else if (i != TRANSMITTER + COMMAND && i != TRANSMITTER + STATUS) {   /* which tell whether it sends */
                    idle_slice(units);
                }
                *cell = kept;
            }
}

/* And one entry of the index: at most it is another's slice. */
static void index_holds_anything(uint32_t units, bool sending)
{
    static const uint16_t patterns[] = { 0, 1, 15, 16, 17, 31, 0x7FFF, 0x8000, 0xFFFF };

    for (uint32_t i = INDEX; i < FIRST_BLOCK; i++)
        for (size_t p = 0; p < sizeof patterns / sizeof patterns[0]; p++) {
            uint16_t kept = cells[i];

            cells[i] = patterns[p];
            keep();
            leave_all(units - 1);
            if (!sending)
                idle_slice(units);
            cells[i] = kept;
        }
}

static void damaged_units(uint32_t units)
{
    if (units == 0)
        return;
    state_of(units);
    cells_hold_anything(units, true);
    index_holds_anything(units, true);
    IS(fit(good(units), PCL_SETUP(units)), 0);
    IS(wb(units - 1, PCL_TMMR + 1, (PCL_TMMR_MASTER | PCL_TMMR_AUT_ADR) >> 8), 0);
    cells_hold_anything(units, false);
    index_holds_anything(units, false);
}

/* 9: the header; and the room, which is looked at before anything in it. */
static void header_out_of_range(uint32_t units)
{
    uint16_t kept = cells[MASTER];

    cells[MASTER] = (uint16_t)(units + 1);
    keep();
    all_answer(PCL_BAD_ROOM);
    cells[MASTER] = kept;
    cells[UNITS] = (uint16_t)(units + 1);
    keep();
    all_answer(PCL_BAD_ROOM);
    lend(PCL_CELLS(40));
    cells[UNITS] = 17;
    keep();
    all_answer(PCL_BAD_ROOM);
    cells[UNITS] = (uint16_t)units;
    lend(PCL_CELLS(units));
    for (size_t wanted = PCL_CELLS(units); wanted-- > 0; wanted -= wanted > 300 ? 97 : 0) {
        state_of(units);
        lend(wanted);
        all_answer(PCL_BAD_ROOM);
    }
}

static void all_nines(void)
{
    static const uint32_t counts[] = { 0, 1, 2, 16 };

    lend_memory(MEMORY + 15);
    for (size_t i = 0; i < sizeof counts / sizeof counts[0]; i++) {
        damaged_units(counts[i]);
        state_of(counts[i]);
        header_out_of_range(counts[i]);
    }
}

/* 1: a unit that is not fitted, before 2, 3 and whatever else. */
static void units_not_fitted(uint32_t units)
{
    for (size_t i = 0; i < NUMBERS; i++) {
        if (numbers[i] < units)
            continue;
        for (uint32_t offset = 0; offset < 40; offset++) {
            REFUSED(rd(numbers[i], offset), 1);
            REFUSED(wr(numbers[i], offset, 2), 1);
            REFUSED(wb(numbers[i], offset, 2), 1);
        }
        for (uint32_t side = 0; side < 4; side++) {
            REFUSED(mv(numbers[i], side), 1);
            REFUSED(ma(numbers[i], side), 1);
            REFUSED(lv(numbers[i], side), 1);
            REFUSED(sn(numbers[i], side), 1);
        }
        REFUSED(pd(numbers[i]), 1);
        REFUSED(rs(numbers[i]), 1);
    }
}

/* 1: a side that is neither; 2: no register, odd words; 3: bytes of TSDB and RDDB. */
static void bad_places(uint32_t unit)
{
    for (size_t i = 2; i < NUMBERS; i++) {
        REFUSED(mv(unit, numbers[i]), 1);
        REFUSED(ma(unit, numbers[i]), 1);
        REFUSED(lv(unit, numbers[i]), 1);
        REFUSED(sn(unit, numbers[i]), 1);
    }
    for (uint32_t offset = 0; offset < 600; offset++) {
        bool none = offset == 14 || offset == 15 || offset >= 28;

        if (none || offset % 2) {
            REFUSED(rd(unit, offset), 2);
            REFUSED(wr(unit, offset, 0xFFFF), 2);
        }
        if (none)
            REFUSED(wb(unit, offset, 0xFF), 2);
        else if (offset / 2 == PCL_TSDB / 2 || offset / 2 == PCL_RDDB / 2)
            REFUSED(wb(unit, offset, 0xFF), 3);
    }
    for (size_t i = 6; i < NUMBERS; i++) {
        REFUSED(rd(unit, numbers[i]), 2);
        REFUSED(wr(unit, numbers[i], 2), 2);
        REFUSED(wb(unit, numbers[i], 2), 2);
    }
}

/* 9 before 1: a memory shorter than the fitted length, at any side. */
static void short_memories(uint32_t units)
{
    for (size_t lent = 0; lent <= MEMORY + units; lent += lent < MEMORY - 2 ? 13 : 1) {
        lend_memory(lent);
        for (uint32_t unit = 0; unit < units; unit++)
            for (uint32_t side = 0; side < 3; side++)
                if (lent < MEMORY + unit) {
                    REFUSED(mv(unit, side), 9);
                    REFUSED(ma(unit, side), 9);
                }
        REFUSED(mv(units, 0), 1);
        REFUSED(ma(units, 0), 1);
    }
}

static void calls_refused(void)
{
    for (uint32_t units = 0; units <= 16; units += units < 2 ? 1 : 7) {
        lend_memory(MEMORY + 15);
        state_of(units);
        units_not_fitted(units);
        REFUSED(sl(0, 2), 7);
        REFUSED(sl(0xFFFF, 0xFFFFFFFF), 7);
        REFUSED(sl(0, 65536), 7);
        for (uint32_t unit = 0; unit < units; unit++)
            bad_places(unit);
        short_memories(units);
    }
    length = 0;
    lend(PCL_CELLS(0));
    lend_memory(0);
    all_answer(PCL_NOT_FITTED);
}

/* Every side's own serial, whatever it is and the others are, in cells of exactly the room asked; it changes nothing. */
static void serials_shown(void)
{
    static const uint16_t patterns[] = { 0, 1, 0xFF, 0x100, 0x7FFF, 0x8000, 0xFFFE, 0xFFFF };

    for (uint32_t units = 1; units <= 16; units += units < 2 ? 1 : 7) {
        state_of(units);
        for (size_t p = 0; p < sizeof patterns / sizeof patterns[0]; p++) {
            for (uint32_t place = 0; place < 2 * units; place++)
                cells[serial_at(place / 2, place % 2)] = (uint16_t)(patterns[p] + 77 * place);
            keep();
            for (uint32_t place = 0; place < 2 * units; place++)
                REFUSED(sn(place / 2, place % 2), shown((uint16_t)(patterns[p] + 77 * place)));
        }
    }
}

/* An INIT of either side, by a word and by a byte, a reset, and a fit that is refused keep the serials; a fit that is not gives 0. */
static void serials_kept(void)
{
    state_of(2);
    for (uint32_t place = 0; place < 4; place++)
        cells[serial_at(place / 2, place % 2)] = (uint16_t)(0xFFF0 + place);
    keep();
    REFUSED(fit(good(2), PCL_SETUP(2) - 1), 7);
    REFUSED(fit(good(3), PCL_SETUP(3)), 9);
    for (uint32_t u = 0; u < 2; u++) {
        IS(wr(u, PCL_TCR, PCL_TCR_TX_INIT), 0);
        IS(wb(u, PCL_TCR, PCL_TCR_TX_INIT), 0);
        IS(wr(u, PCL_RCR, PCL_RCR_RC_INIT), 0);
        IS(wb(u, PCL_RCR, PCL_RCR_RC_INIT), 0);
        IS(rs(u), 0);
    }
    for (uint32_t place = 0; place < 4; place++)
        IS(sn(place / 2, place % 2), shown(0xFFF0 + place));
    IS(fit(good(2), PCL_SETUP(2)), 0);
    for (uint32_t place = 0; place < 4; place++)
        IS(sn(place / 2, place % 2), shown(0));
}

/* 4: nothing to read, nothing to move. */
static void nothing_there(void)
{
    lend_memory(MEMORY + 1);
    length = 0;
    lend(PCL_CELLS(2));
    IS(fit(good(2), PCL_SETUP(2)), 0);
    keep();
    for (uint32_t unit = 0; unit < 2; unit++) {
        REFUSED(rd(unit, PCL_TSDB), 4);
        REFUSED(rd(unit, PCL_RDDB), 4);
        REFUSED(mv(unit, 0), 4);
        REFUSED(mv(unit, 1), 4);
        REFUSED(ma(unit, 0), 4);
        REFUSED(ma(unit, 1), 4);
    }
    REFUSED(wm(), 0);
    REFUSED(wi(), 0);
    state_of(2);
    REFUSED(mv(0, 1), 4);
    REFUSED(mv(1, 0), 4);
    REFUSED(mv(1, 1), 4);
    REFUSED(ma(0, 1), 4);
    REFUSED(ma(1, 0), 4);
    REFUSED(ma(1, 1), 4);
    REFUSED(wm(), (uint64_t)pcl_side_bit(0, PCL_TRANSMITTER) << 16);
    REFUSED(rd(1, PCL_RDDB), 4);
}

/* 5, 6 and 8: no refusals of the whole, and what they leave. */
static void partly_done(void)
{
    uint32_t tmmr = PCL_TMMR_SEC | PCL_TMMR_NOW_MST;

    length = 0;
    lend(PCL_CELLS(1));
    IS(fit(good(1), PCL_SETUP(1)), 0);
    IS(sl(0, 0), 8);
    IS(wr(0, PCL_TMMR, tmmr | 7), 5);
    IS(rd(0, PCL_TMMR), shown(tmmr | 7 | PCL_TMMR_AUT_ADR | PCL_TMMR_AIP_RDY | PCL_TMMR_AOP_RDY));
    IS(sl(0, 0), 8);
    IS(rd(0, PCL_TMMR), shown(PCL_TMMR_MASTER | PCL_TMMR_NOW_MST | 7 | PCL_TMMR_AUT_ADR | PCL_TMMR_AIP_RDY | PCL_TMMR_AOP_RDY));
    IS(wr(0, PCL_TCR, PCL_TCR_RD_SILO), 0);
    IS(wr(0, PCL_TMMR, PCL_TMMR_AUT_ADR | 9), 6);
    IS(rd(0, PCL_TMMR), shown(7 | PCL_TMMR_AUT_ADR | PCL_TMMR_AOP_RDY));
    IS(wr(0, PCL_TMMR, 9), 5);                                  /* both 5 and 6 */
    IS(wr(0, PCL_TCR, PCL_TCR_TX_NPR | PCL_TCR_SND_WD | PCL_TCR_ST_TXM), 0);
    IS(wr(0, PCL_TSDB, 1), 6);
    IS(rd(0, PCL_TSR), shown(PCL_TSR_ERR | PCL_TSR_OVERUN));
    IS(rd(0, PCL_TCR), shown(PCL_TCR_TX_NPR));
    IS(wr(0, PCL_TCR, PCL_TCR_TX_INIT), 0);
    IS(wr(0, PCL_TSDB, 1), 0);
    IS(wr(0, PCL_TCR, PCL_TCR_SND_WD), 0);
    IS(sl(0, 0), 8);
    IS(rd(0, PCL_TSR), shown(PCL_TSR_ERR | PCL_TSR_MST_DWN | PCL_TSR_DTIRDY));
}

int main(void)
{
    all_nines();
    calls_refused();
    serials_shown();
    serials_kept();
    nothing_there();
    partly_done();
    return finish("refusals, calls");
}
