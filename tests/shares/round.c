/* round.c - a planned list on the link: both archives in one program. It is loaded into a unit's address silo by writes of TMMR, starts,
 * and the slices go round it, whatever the other units do; in any slices in a row each transmitter has its share. */
#include <stdio.h>
#include <stdlib.h>
#include <string.h>

#include "pcl.h"
#include "random.h"
#include "shares.h"

enum { UNITS = 4, SLICES = 3 * SHARES_LIST_MOST + 7 };
static uint16_t cells[PCL_CELLS(UNITS)];
static uint16_t memory[64];
static unsigned long lists, slices, windows, past_a_round;

static void fail(const char *what)
{
    fprintf(stderr, "round: %s\n", what);
    exit(1);
}

static void expect(uint32_t answer, unsigned number, const char *what)
{
    if (pcl_number(answer) != number)
        fail(what);
}

/* What a host elsewhere may do between two slices: anything but a fit, and at the master but TMMR, TX INIT and a reset. */
static void meanwhile(unsigned master)
{
    unsigned unit = below(UNITS), offset = 2 * below(14), side = below(2);
    uint16_t word = any_word();
    if (unit == master && (offset == PCL_TMMR || offset == PCL_TCR))
        word &= (uint16_t)~PCL_TCR_TX_INIT, offset = PCL_TCR;
    switch (below(7)) {
    case 0: pcl_write(cells, PCL_CELLS(UNITS), unit, offset, word); break;
    case 1: pcl_read(cells, PCL_CELLS(UNITS), unit, 2 * below(14)); break;
    case 2: pcl_move(cells, PCL_CELLS(UNITS), memory, 64, unit, side); break;
    case 3: pcl_period(cells, PCL_CELLS(UNITS), unit); break;
    case 4: pcl_level(cells, PCL_CELLS(UNITS), unit, side); break;
    case 5: pcl_serial(cells, PCL_CELLS(UNITS), unit, side); break;
    default: if (unit != master) pcl_reset(cells, PCL_CELLS(UNITS), unit);
    }
}

static void shares(const uint16_t *answered, const uint16_t *wanted, unsigned count, unsigned length)
{
    for (unsigned k = 0; k < count; k++)
        for (unsigned from = 0; from < length; from++) {
            unsigned gets = 0, turns = wanted[2 * k + 1];
            for (unsigned w = 1; from + w <= SLICES && w <= 2 * length + 1; w++, windows++) {
                gets += answered[from + w - 1] == wanted[2 * k];
                if (gets < turns * (w / length) || gets > turns * ((w + length - 1) / length))
                    fail("a transmitter has not its share of the slices");
                past_a_round += w == length + 1 && gets > turns;
            }
        }
}

static void one_list(void)
{
    static const uint32_t setup[PCL_SETUP(UNITS)] = { 1, 1, 2, 64, 2, 2, 31, 64, 3, 3, 4, 64, 31, 31, 5, 64 };
    uint16_t wanted[10], list[SHARES_LIST_MOST], answered[SLICES];
    unsigned count = 2 + below(4), master = below(UNITS), length;
    uint32_t plan;
    do {
        for (unsigned k = 0; k < count; k++) {
            wanted[2 * k] = (uint16_t)(k == 4 ? 31 : k + 1);
            wanted[2 * k + 1] = (uint16_t)(1 + below(16));
        }
        plan = shares_plan(wanted, SHARES_WANTED(count), list, SHARES_LIST_MOST);
    } while (shares_number(plan) != SHARES_DONE);
    length = shares_value(plan);
    expect(pcl_fit(cells, PCL_CELLS(UNITS), setup, PCL_SETUP(UNITS)), PCL_DONE, "the fit is refused");
    for (unsigned k = below(60); k > 0; k--)                                /* addresses that stood there before */
        pcl_write_byte(cells, PCL_CELLS(UNITS), master, PCL_TMMR, (uint8_t)below(256));
    expect(pcl_write_byte(cells, PCL_CELLS(UNITS), master, PCL_TMMR + 1, (PCL_TMMR_MASTER | PCL_TMMR_AUT_ADR | PCL_TMMR_CLR_ADR) >> 8), PCL_DONE,
           "the silo is not emptied");
    for (unsigned place = 0; place < length; place++)
        expect(pcl_write_byte(cells, PCL_CELLS(UNITS), master, PCL_TMMR, (uint8_t)list[place]), PCL_DONE, "an address is dropped");
    expect(pcl_write_byte(cells, PCL_CELLS(UNITS), master, PCL_TMMR + 1, PCL_TMMR_MASTER >> 8), PCL_DONE, "the list does not start");
    for (unsigned k = 0; k < SLICES; k++) {
        uint32_t slice = pcl_slice(cells, PCL_CELLS(UNITS), once_in(4) ? any_word() : 0, below(2));
        expect(slice, PCL_DONE, "a slice is refused");
        answered[k] = (uint16_t)pcl_address(slice);
        if (answered[k] != list[k % length])
            fail("a slice has another address");
        while (!once_in(3))
            meanwhile(master);
        slices++;
    }
    shares(answered, wanted, count, length);
    lists++;
}

int main(int argc, char **argv)
{
    for (unsigned k = argc > 1 ? (unsigned)atoi(argv[1]) : 300; k > 0; k--)
        one_list();
    if (past_a_round == 0)
        fail("no transmitter had more than its turns in a slice more than a round");
    printf("round: %lu lists start and go round in %lu slices; %lu shares, %lu of them above the turns a slice past a round\n", lists, slices,
           windows, past_a_round);
    return 0;
}
