/* talk.h - two units in a long talk, and what their hosts do to it. */
#ifndef TALK_H
#define TALK_H

#include "drive.h"

#ifndef STEPS
#define STEPS 2500              /* of a scene */
#endif

static bool is_idle(const struct second_side *s) { return !s->open && !(s->command & PCL_TCR_SND_WD); }

static bool takes_words(const struct second_transmitter *t)
{
    return !(t->side.command & (PCL_TCR_TX_NPR | PCL_TCR_RD_SILO)) && !t->ending && t->side.silo.held < SECOND_DATA_SILO;
}

/* What a move is lent: the fitted length, more, or too little. */
static size_t some_lent(uint32_t u)
{
    size_t fitted = unit_at(u)->memory_length;

    return once_in(500) ? below(PCL_MEMORY_MOST + 1) : once_in(9) ? PCL_MEMORY_MOST : fitted;
}

static uint64_t move_some(uint32_t u, uint32_t side)
{
    return once_in(8) ? call_move_all(u, side, some_lent(u)) : call_move(u, side, some_lent(u));
}

/* One in `quiet` slices is damaged. */
static void slice_some(uint32_t quiet)
{
    bool data = once_in(quiet), parity = once_in(2 * quiet);

    call_slice(data ? 1u << below(16) | 1u << below(16) : 0, parity ? once_in(9) ? bad_number() : 1 : 0);
}

/* Where a side moves words: toward the end of 64 K bytes or of the whole address
 * space, where the memory is that long; else one word again and again, or on. */
static uint32_t place_load(uint32_t u, uint32_t offset)
{
    uint32_t words = unit_at(u)->memory_length;

    if (words == PCL_MEMORY_MOST) {
        call_write(u, offset, 0xFFFE - 2 * below(300));
        return below(4) << 4 | perhaps(PCL_TCR_INH_ADI, 8);
    }
    call_write(u, offset, 2 * below(words < 0x8000 ? words : 0x8000));
    return once_in(4) ? 0 : PCL_TCR_INH_ADI;
}

static void begin_receiving(uint32_t r)
{
    uint32_t place = place_load(r, PCL_RDBA);

    if (!once_in(9))
        call_write(r, PCL_RSR, 0);
    call_write(r, PCL_RDBC, once_in(9) ? -2 * below(300) & 0xFFFF : 0);
    call_write(r, PCL_RCR, PCL_RCR_RC_NPR | BOTH_COMMANDS | place | perhaps(PCL_RCR_IE, 4));
}

/* About a block or two, short, or long. */
static uint32_t some_words(void)
{
    return once_in(2) ? 128 * (1 + below(2)) + below(3) - 1 : once_in(40) ? 1 + below(3000) : 1 + below(once_in(3) ? 4 : 600);
}

/* Answers whether the host is to write the words itself. */
static bool begin_sending(uint32_t t, uint32_t r)
{
    uint32_t n = some_words(), place = place_load(t, PCL_TSBA);
    bool by_hand = once_in(4);

    if (!once_in(9))
        call_write(t, PCL_TSR, 0);
    call_write(t, PCL_TSBC, -2 * n & 0xFFFF);
    call_write(t, PCL_TCR, PCL_TCR_DESTINATION(receiver_of(r)) | BOTH_COMMANDS | place | (by_hand ? 0 : PCL_TCR_TX_NPR)
               | perhaps(PCL_TCR_IE, 4));
    return by_hand;
}

/* TX INIT or a reset in mid-message, and a new message to the receiver left open. */
static void restart_sender(uint32_t t, uint32_t to)
{
    bool master = l.master == t + 1;

    if (once_in(8))
        call_reset(t);
    else
        call_write(t, PCL_TCR, PCL_TCR_TX_INIT);
    if (master)
        take_mastership(t);
    if (once_in(2))
        call_write(t, PCL_TSDB, any_word());
    else
        call_write(t, PCL_TSBC, -2 * some_words() & 0xFFFF);
    call_write(t, PCL_TCR, to | PCL_TCR_SND_WD | PCL_TCR_INH_ADI | perhaps(PCL_TCR_TX_NPR, 2) | below(2));
}

/* RC INIT or a reset in mid-message, and the receiver ready again. */
static void restart_receiver(uint32_t r)
{
    if (once_in(8))
        call_reset(r);
    else
        call_write(r, PCL_RCR, PCL_RCR_RC_INIT);
    if (!once_in(4))
        call_write(r, PCL_RDBC, 0);
    call_write(r, PCL_RCR, PCL_RCR_RC_NPR | PCL_RCR_RCV_WD | PCL_RCR_INH_ADI | !once_in(3));
}

/* What the hosts of a pair do to each other in the middle of a message. */
static void pair_call(uint32_t t, uint32_t r)
{
    uint32_t to = PCL_TCR_DESTINATION(receiver_of(r)), command = below(2) << 13 | below(2);

    switch (below(23)) {
    case 0: call_write(t, PCL_TCR, to | PCL_TCR_TX_NPR | PCL_TCR_INH_ADI | command); break;
    case 1: call_write(t, PCL_TCR, to | command); break;
    case 2: call_write(r, PCL_RCR, PCL_RCR_RC_NPR | PCL_RCR_INH_ADI | command); break;
    case 3: call_write(r, PCL_RCR, PCL_RCR_RC_NPR | PCL_RCR_INH_ADI | command | perhaps(PCL_RCR_REJ, 2)); break;
    case 4:
        restart_sender(t, to);
        if (once_in(3))
            call_write(r, PCL_RCR, PCL_RCR_REJ | below(2));
        break;
    case 5: restart_receiver(r); break;
    case 6: write_status(t, PCL_TSR); break;
    case 7: write_status(r, PCL_RSR); break;
    case 8: call_period(t); break;
    case 9: call_period(r); break;
    case 10: call_write(r, PCL_RDBC, 0); call_write(r, PCL_RSR, 0); break;
    case 11: call_write(t, PCL_TSBC, -2 * below(300) & 0xFFFF); break;
    case 12: call_write(t, PCL_TCR, to | PCL_TCR_RD_SILO | BOTH_COMMANDS); call_read(t, PCL_TSDB); break;
    case 13:
        call_slice(1u << below(16), below(2));
        call_slice(0, 1);
        if (once_in(4))
            call_write(r, PCL_RSR, 1u << (9 + below(5)));
        if (once_in(4))
            restart_sender(t, to);
        if (once_in(4))
            call_write(t, PCL_TSR, PCL_TSR_OVERUN);
        break;
    case 14: call_slice(3u << below(15), 0); break;
    case 15: odd_call(t); break;
    case 16: odd_call(r); break;
    case 17: call_write(r, PCL_RCR, PCL_RCR_REJ | PCL_RCR_RCV_DAT | perhaps(PCL_RCR_RCV_WD, 2)); break;
    case 18: call_write_byte(t, PCL_TMMR + 1, (PCL_TMMR_AUT_ADR | below(4) << 8) >> 8); break;
    case 19:
        call_write(t, PCL_TCR, command);
        if (once_in(3))
            call_write_byte(l.master ? l.master - 1u : 0, PCL_TMMR + 1, PCL_TMMR_AUT_ADR >> 8);
        call_slice(0, 0);
        break;
    case 20: call_level(t, 0); call_level(r, 1); break;
    default: upset_block(); break;
    }
}

/* Near the end of a block or right behind it: an end restarted, or the two stopped at the CRC. */
static void upset_pair(uint32_t t, uint32_t r)
{
    uint32_t to = PCL_TCR_DESTINATION(receiver_of(r));

    switch (below(6)) {
    case 0: restart_receiver(r); break;
    case 1: restart_sender(t, to); forge_crc(); break;
    case 2: call_write(t, PCL_TCR, to | PCL_TCR_TX_NPR | PCL_TCR_INH_ADI | perhaps(PCL_TCR_SND_WD, 2)); break;
    case 3:
        call_write(r, PCL_RCR, PCL_RCR_REJ | PCL_RCR_RC_NPR | PCL_RCR_RCV_DAT);
        call_slice(0, 0);
        if (once_in(3))
            call_write(r, PCL_RCR, PCL_RCR_REJ);
        break;
    case 4: upset_block(); break;
    default: pair_call(t, r); break;
    }
}

/* A block that is full when nothing is left to send: the CRC as a due one, and
 * then ST TXM again, before it is answered 11. */
static void upset_end(uint32_t t, uint32_t r)
{
    uint32_t to = PCL_TCR_DESTINATION(receiver_of(r));

    call_write(t, PCL_TCR, to | PCL_TCR_SND_WD);
    call_slice(0, 0);
    call_slice(0, 0);
    call_write(t, PCL_TCR, to | BOTH_COMMANDS);
}

/* Two units in a long talk, words by moves or by the host; disturbed once in
 * `quiet` steps. */
static void talk(uint32_t quiet)
{
    uint32_t t = 0, r = below(2);
    bool by_hand = false, lazy = once_in(4);

    fit_units(2, 2);
    for (unsigned i = 0; i < STEPS; i++) {
        const struct second_side *s = &l.unit[t].transmitter.side;

        if (!l.master && !once_in(5))
            take_mastership(below(2));
        if (is_idle(s) && !once_in(3)) {
            begin_receiving(r);
            by_hand = begin_sending(t, r);
        }
        while (!once_in(12) && pcl_number(move_some(t, PCL_TRANSMITTER)) == PCL_DONE)
            ;
        while ((lazy ? once_in(20) : !once_in(20)) && pcl_number(move_some(r, PCL_RECEIVER)) == PCL_DONE)
            ;
        if (by_hand && takes_words(&l.unit[t].transmitter) && once_in(3))
            call_write(t, PCL_TSDB, once_in(3) ? s->crc : any_word());
        call_slice(0, 0);
        if (once_in(quiet))
            pair_call(t, r);
        if (once_in(3 * quiet))
            forge_crc();
        if (s->open && s->words == 128 && !s->loaded && !s->silo.held && once_in(3))
            upset_end(t, r);
        if ((s->words > 120 || (s->open && !s->words)) && quiet < 1000 && once_in(s->words == 128 ? 4 : 60))
            upset_pair(t, r);
    }
}

#endif
