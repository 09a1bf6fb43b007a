/* drive.h - random calls that lead a link into deep states: what a host does at
 * one unit. talk.h and scenes.h make scenes of them.
 *
 * Who includes it defines the calls below and keeps `l`, the second library's
 * state after each of them, which is looked at to choose the next. put_serial is
 * no call: it gives a side a serial, as so many openings would, or does nothing
 * where nobody can. DRIVE_MEMORY is the length of every memory, or 0 for any;
 * DRIVE_MOST the largest number that a call can be given. */
#ifndef DRIVE_H
#define DRIVE_H

#include "pcl.h"
#include "random.h"
#include "second.h"

static struct second_link l;
static uint32_t call_fit(const uint32_t *setup, size_t length);
static uint32_t call_write(uint32_t unit, uint32_t offset, uint32_t word);
static uint32_t call_write_byte(uint32_t unit, uint32_t offset, uint32_t byte);
static uint32_t call_read(uint32_t unit, uint32_t offset);
static uint32_t call_slice(uint32_t data_mask, uint32_t parity_mask);
static uint64_t call_move(uint32_t unit, uint32_t side, size_t lent);
static uint64_t call_move_all(uint32_t unit, uint32_t side, size_t lent);
static void call_wants(void);                   /* both masks */
static uint32_t call_period(uint32_t unit);
static uint32_t call_reset(uint32_t unit);
static uint32_t call_level(uint32_t unit, uint32_t side);
static uint32_t call_serial(uint32_t unit, uint32_t side);
static void put_serial(uint32_t unit, uint32_t side, uint16_t serial);

enum { BOTH_COMMANDS = PCL_TCR_ST_TXM | PCL_TCR_SND_WD };   /* at R: RCV DAT, RCV WD */

/* A number that is most likely bad. */
static uint32_t bad_number(void)
{
    return (once_in(2) ? below(40) : once_in(2) ? below(0x7FFFFFFF) * 2 : ~below(3)) & DRIVE_MOST;
}

static uint32_t fitted_unit(void) { return below(l.units ? l.units : 2); }
static uint32_t some_unit(void) { return once_in(200) ? bad_number() : fitted_unit(); }
static uint32_t some_side(void) { return once_in(200) ? bad_number() : below(2); }
static const struct second_unit *unit_at(uint32_t unit) { return &l.unit[unit % SECOND_UNITS]; }

/* Transmitter u + 1 and receiver (u + 5) mod 31 + 1, so that the two differ. */
static uint32_t receiver_of(uint32_t unit) { return (unit + 5) % 31 + 1; }

static uint32_t some_memory(void)
{
    if (DRIVE_MEMORY)
        return DRIVE_MEMORY;
    return once_in(4) ? PCL_MEMORY_MOST : once_in(4) ? 1 + below(PCL_MEMORY_MOST) : 1 + below(300);
}

/* After a fit: a side's serial stays 0, is any, or soon goes round, for which
 * no scene is long enough from 0 on. No channel is open then, so that two ends of
 * one still have their serial from its opening. */
static void give_serials(void)
{
    for (uint32_t u = 0; u < l.units; u++)
        for (uint32_t side = 0; side < 2; side++)
            if (once_in(2))
                put_serial(u, side, once_in(2) ? (uint16_t)(0xFFFF - below(4)) : any_word());
}

static void fit_units(uint32_t units, uint32_t counter_switch)
{
    uint32_t setup[PCL_SETUP(PCL_UNITS_MOST)];

    for (uint32_t u = 0; u < units; u++) {
        setup[4 * u] = u + 1;
        setup[4 * u + 1] = receiver_of(u);
        setup[4 * u + 2] = counter_switch;
        setup[4 * u + 3] = some_memory();
    }
    call_fit(setup, PCL_SETUP(units));
    give_serials();
}

/* Set-ups of which some break a rule. */
static void fit_some(void)
{
    uint32_t setup[PCL_SETUP(20)], units = once_in(8) ? below(20) : 1 + below(3);

    for (uint32_t u = 0; u < 20; u++) {
        setup[4 * u] = once_in(40) ? once_in(2) ? 1 + below(2) : bad_number() : u + 1;
        setup[4 * u + 1] = once_in(40) ? once_in(2) ? receiver_of(below(2)) : bad_number() : receiver_of(u);
        setup[4 * u + 2] = once_in(60) ? bad_number() : 2 + below(once_in(4) ? 30 : 3);
        setup[4 * u + 3] = once_in(60) && !DRIVE_MEMORY ? below(PCL_MEMORY_MOST + 9) : some_memory();
    }
    if (call_fit(setup, once_in(50) && !DRIVE_MEMORY ? below(81) : PCL_SETUP(units)) == PCL_DONE)
        give_serials();
}

/* The word, or one of its bytes, or a byte in the wrong place. */
static void write_some(uint32_t unit, uint32_t offset, uint32_t word)
{
    if (once_in(6))
        call_write_byte(unit, offset + below(2), word >> (8 * below(2)) & 255);
    else
        call_write(unit, offset, word & 0xFFFF);
}

static void write_transmitter_command(uint32_t u)
{
    uint32_t c = PCL_TCR_DESTINATION(once_in(20) ? below(32) : receiver_of(fitted_unit()))
        | (unit_at(u)->transmitter.side.command & (PCL_TCR_EA16 | PCL_TCR_EA17))
        | perhaps(PCL_TCR_INH_ADI, 12) | perhaps(PCL_TCR_RD_SILO, 12) | perhaps(PCL_TCR_IE, 3)
        | perhaps(PCL_TCR_TX_NPR, 2) | perhaps(PCL_TCR_RIB, 4) | perhaps(PCL_TCR_TX_INIT, 30);

    if (!once_in(3)) c |= PCL_TCR_ST_TXM;
    if (!once_in(6)) c |= PCL_TCR_SND_WD;
    if (once_in(9)) c ^= below(4) << 4;
    write_some(u, PCL_TCR, once_in(20) ? any_word() : c);
}

static void write_receiver_command(uint32_t u)
{
    uint32_t c = (unit_at(u)->receiver.side.command & (PCL_RCR_EA16 | PCL_RCR_EA17))
        | perhaps(PCL_RCR_INH_ADI, 12) | perhaps(PCL_RCR_IE, 3) | perhaps(PCL_RCR_RC_NPR, 2)
        | perhaps(PCL_RCR_REJ, 6) | perhaps(PCL_RCR_RC_INIT, 40);

    if (!once_in(3)) c |= PCL_RCR_RCV_DAT;
    if (!once_in(5)) c |= PCL_RCR_RCV_WD;
    if (once_in(9)) c ^= below(4) << 4;
    write_some(u, PCL_RCR, once_in(20) ? any_word() : c);
}

/* As it stands, with a bit changed or none, or bits of any kind. */
static void write_status(uint32_t u, uint32_t offset)
{
    const struct second_side *s = offset == PCL_TSR ? &unit_at(u)->transmitter.side : &unit_at(u)->receiver.side;

    if (once_in(2))
        write_some(u, offset, s->status ^ perhaps(1u << below(16), 2));
    else
        write_some(u, offset, perhaps(any_word() & any_word() & any_word(), 4) | perhaps(PCL_TSR_OVERUN, 5)
                   | perhaps(PCL_TSR_TBS_BSY, 5));
}

static void write_master(uint32_t u)
{
    uint32_t w = perhaps(PCL_TMMR_SEC, 3) | perhaps(PCL_TMMR_NOW_MST, 6) | perhaps(PCL_TMMR_CLR_ADR, 12);

    if (!once_in(5)) w |= PCL_TMMR_MASTER;
    if (!once_in(3)) w |= PCL_TMMR_AUT_ADR;
    if (once_in(4))
        call_write(u, PCL_TMMR, w | below(256));
    else
        call_write_byte(u, PCL_TMMR + 1, w >> 8);
}

static void take_mastership(uint32_t u) { call_write_byte(u, PCL_TMMR + 1, (PCL_TMMR_MASTER | PCL_TMMR_AUT_ADR) >> 8); }

/* 17 to 51 addresses, mostly good, and then a try to start the silo. */
static void load_addresses(uint32_t u)
{
    uint32_t n = 17 + below(35), last = 32;

    if (once_in(2))
        call_write_byte(u, PCL_TMMR + 1, (PCL_TMMR_CLR_ADR | PCL_TMMR_AUT_ADR | perhaps(PCL_TMMR_MASTER, 2)) >> 8);
    for (uint32_t i = 0; i < n; i++) {
        uint32_t a = once_in(10) ? below(32) : 1 + below(l.units + 1u);

        if (a == last && !once_in(60))
            a = a % 31 + 1;
        call_write_byte(u, PCL_TMMR, a + 32 * below(8));
        last = a;
    }
    if (once_in(9)) {
        call_write_byte(u, PCL_TCR, PCL_TCR_RD_SILO);
        call_read(u, PCL_TMMR);
        call_write_byte(u, PCL_TMMR, below(256));
        call_write_byte(u, PCL_TCR, 0);
    }
    call_write_byte(u, PCL_TMMR + 1, (PCL_TMMR_MASTER | perhaps(PCL_TMMR_SEC, 2)) >> 8);
}

/* The master gives up MASTER; now and then with nobody to take over. */
static void depose_master(void)
{
    if (!l.master)
        return;
    if (!once_in(3))
        call_write_byte(fitted_unit(), PCL_TMMR + 1, (PCL_TMMR_SEC | perhaps(PCL_TMMR_AUT_ADR, 2)) >> 8);
    call_write_byte(l.master ? l.master - 1u : 0, PCL_TMMR + 1, perhaps(PCL_TMMR_AUT_ADR, 2) >> 8);
    call_slice(0, 0);
}

static void write_count(uint32_t u)
{
    write_some(u, once_in(2) ? PCL_TSBC : PCL_RDBC, once_in(3) ? any_word() : 0u - 2 * below(once_in(2) ? 400 : 8));
}

static void write_address(uint32_t u)
{
    if (once_in(6))
        call_write_byte(u, once_in(2) ? PCL_TCR : PCL_RCR, 0x30 | below(2));
    write_some(u, once_in(2) ? PCL_TSBA : PCL_RDBA, once_in(6) ? any_word() : once_in(3) ? 0xFFF0 + below(16) : below(100));
}

/* A load at the end of the memory, just past it, or at 777776, and moves that try it. */
static void miss_address(uint32_t u)
{
    uint32_t side = below(2), first = side ? PCL_RCR : PCL_TCR;
    uint32_t address = once_in(3) ? 0777776 : 2 * unit_at(u)->memory_length - 2 + 2 * below(3);

    call_write(u, first + PCL_TSR, 0);
    call_write(u, first + PCL_TSBC, 0xFFF0);
    call_write(u, first + PCL_TSBA, address & 0xFFFF);
    call_write(u, first, (unit_at(u)->transmitter.side.command & PCL_TCR_DESTINATION(31)) | PCL_TCR_TX_NPR
               | (address >> 16 & 3) << 4 | perhaps(PCL_TCR_INH_ADI, 2));
    if (once_in(2))
        call_move_all(u, side, PCL_MEMORY_MOST);
    for (unsigned i = 0; i < 3; i++)
        call_move(u, side, PCL_MEMORY_MOST);
}

static void begin_message(void)
{
    uint32_t t = fitted_unit(), r = fitted_unit();
    uint32_t n = once_in(6) ? 128 * (1 + below(2)) : 1 + below(once_in(3) ? 700 : 9);

    call_write(t, PCL_TSR, 0);
    call_write(r, PCL_RSR, 0);
    call_write(t, PCL_TSBA, 0);
    call_write(r, PCL_RDBA, 0);
    call_write(t, PCL_TSBC, -2 * n & 0xFFFF);
    call_write(r, PCL_RDBC, once_in(4) ? -n & 0xFFFF : 0);
    call_write(r, PCL_RCR, PCL_RCR_RCV_WD | !once_in(5) | (once_in(3) ? 0 : PCL_RCR_RC_NPR) | (once_in(4) ? 0 : PCL_RCR_INH_ADI));
    call_write(t, PCL_TCR, PCL_TCR_DESTINATION(receiver_of(r)) | PCL_TCR_SND_WD | !once_in(6)
               | (once_in(3) ? 0 : PCL_TCR_TX_NPR) | (once_in(4) ? 0 : PCL_TCR_INH_ADI));
}

/* A receiver whose block is full: its sender gets the CRC to send as a word, and
 * is restarted now and then so that it would be one. Since an opening word is
 * marked it passes for no CRC. */
static void forge_crc(void)
{
    for (uint32_t u = 0; u < l.units; u++) {
        const struct second_side *r = &l.unit[u].receiver.side;
        uint32_t t = l.transmitter_at[r->command >> 8 & 31];

        if (!r->open || r->words != 128 || !t || l.unit[t - 1].transmitter.side.silo.held)
            continue;
        if (l.unit[t - 1].transmitter.side.words == 128 && once_in(2)) {
            bool master = l.master == t;

            call_write(t - 1, PCL_TCR, PCL_TCR_TX_INIT);
            if (master)
                take_mastership(t - 1);
        }
        call_write(t - 1, PCL_TSDB, r->crc);
        call_write(t - 1, PCL_TCR, PCL_TCR_DESTINATION(receiver_of(u)) | PCL_TCR_SND_WD | below(2));
    }
}

/* At a full block or a CRC unanswered: change something at either end. */
static void upset_block(void)
{
    uint32_t u = fitted_unit();
    const struct second_transmitter *t = &l.unit[u].transmitter;
    uint32_t r = l.receiver_at[t->destination & 31];

    if (!t->side.open || !r || !(t->side.words == 128 || t->crc_unanswered || t->ending))
        return;
    switch (below(6)) {
    case 0: call_write(r - 1, PCL_RCR, PCL_RCR_RC_INIT); call_write(r - 1, PCL_RCR, PCL_RCR_RCV_WD | below(2)); break;
    case 1: call_write(r - 1, PCL_RCR, PCL_RCR_REJ | PCL_RCR_RC_NPR | BOTH_COMMANDS); call_slice(0, 0); break;
    case 2: call_write(r - 1, PCL_RCR, PCL_RCR_REJ); break;
    case 3: call_write(u, PCL_TCR, below(2) << 13 | below(2)); break;
    case 4: call_write(r - 1, PCL_RSR, 1u << (9 + below(5))); break;
    default: call_write_byte(r - 1, PCL_RCR, 0x30); call_write(r - 1, PCL_RDBA, 0xFFFE); break;
    }
}

/* Periods, and a transmitter that is BUSY and not BUSY again in between. */
static void pass_time(uint32_t u)
{
    uint32_t to = PCL_TCR_DESTINATION(receiver_of(fitted_unit()));

    call_period(u);
    for (unsigned i = below(3); i > 0; i--)
        call_write(u, PCL_TCR, to | below(2) << 13 | below(2));
    if (once_in(3))
        write_status(u, PCL_TSR);
    call_period(u);
}

static void odd_call(uint32_t u)
{
    switch (below(22)) {
    case 0: write_transmitter_command(u); break;
    case 1: write_receiver_command(u); break;
    case 2: write_status(u, PCL_TSR); break;
    case 3: write_status(u, PCL_RSR); break;
    case 4: write_master(u); break;
    case 5: if (once_in(4)) load_addresses(u); break;
    case 6: write_count(u); break;
    case 7: write_address(u); break;
    case 8: call_write(u, once_in(9) ? bad_number() : PCL_TSDB, any_word()); break;
    case 9: call_read(u, once_in(9) ? bad_number() : 2 * below(14)); break;
    case 10: call_period(u); break;
    case 11: if (once_in(10)) call_reset(once_in(9) ? bad_number() : u); break;
    case 12: case 13: call_level(u, some_side()); break;
    case 14: call_write_byte(u, once_in(9) ? bad_number() : below(28), below(256)); break;
    case 15: begin_message(); break;
    case 16: depose_master(); break;
    case 17: pass_time(u); break;
    case 18: if (once_in(4)) miss_address(u); break;
    case 19: call_serial(u, some_side()); break;
    case 20: call_wants(); break;
    default: forge_crc(); break;
    }
}

#endif
