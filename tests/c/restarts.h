/* restarts.h - a message that is broken off in its middle at one end, and what
 * comes then: document 02's request No. 1. The answers that it asks for are
 * looked at here, in words that do not come from the second library's code; and
 * so are the serials of request No. 6, which an INIT, a reset and an opening that
 * is refused leave as they are. */
#ifndef RESTARTS_H
#define RESTARTS_H

#include <string.h>
#include "drive.h"

/* Who includes it says what is wrong, and ends. */
static void must(bool holds, const char *what);

/* How far the message has come: what T would send next, and what R has. At AT_NEXT_BLOCK a due CRC was answered 11: both ends'
 * counts and CRCs are 0, and nothing in them tells the rest of this message from a new one. */
enum { AT_OPENING, AT_WORD, AT_DUE_CRC, AT_VERDICT, AT_NEXT_BLOCK, AT_LAST_CRC, AT_LAST_VERDICT, AT_NOTHING, AT_ERROR,
       AT_BAD_PARITY, AT_TRUNCATION, AT_FULL_SILO, ATS };
/* A of T's next slice there, if it is not broken off at T. */
static const uint32_t next_a[ATS] = { [AT_OPENING] = 1, [AT_WORD] = 2, [AT_DUE_CRC] = 2, [AT_VERDICT] = 2, [AT_NEXT_BLOCK] = 1,
                                      [AT_LAST_CRC] = 3, [AT_LAST_VERDICT] = 3, [AT_NOTHING] = 1, [AT_ERROR] = 0,
                                      [AT_BAD_PARITY] = 1, [AT_TRUNCATION] = 3, [AT_FULL_SILO] = 1 };
/* What breaks it off. */
enum { BY_TX_INIT, BY_RC_INIT, BY_RESET_OF_T, BY_RESET_OF_R, BYS };
/* What the receiver's host leaves there. */
enum { LEFT_ALONE, LEFT_READY, LEFT_FOR_A_WORD, LEFT_IDLE, LEFT_REJECTING, LEFT_TRUNCATING, LEFT_BC_OFL, LEFT_TXM_ERR, LEFT_PAR,
       LEFT_TIMED, LEFT_TIM_OUT, LEFT_MEM_OFL, LEFT_NXL, LEFTS };
/* Who opens to whom. */
enum { TO_THE_SAME, TO_ANOTHER, FROM_ANOTHER, THENS };
enum { RESTARTS = 2 * ATS * BYS * LEFTS * THENS };

static struct { bool itself; uint32_t at, by, left, then, r, master; } broken;
static struct second_receiver r_before;         /* R before the slice last waited for */

/* Three units: T's with transmitter 1, another's with 2, and R's, with one that
 * the counter never gives; T may send to its own. Their memories end before the
 * last address, for NXL. */
enum { OF_T, OF_ANOTHER, OF_R };

static const struct second_transmitter *the_t(void) { return &l.unit[OF_T].transmitter; }
static const struct second_receiver *the_r(void) { return &l.unit[broken.r].receiver; }
static bool holds_channel_of(uint32_t unit) { return the_r()->side.open && (the_r()->side.command >> 8 & 31) == unit + 1; }
static uint16_t serial_at(uint32_t unit) { return l.unit[unit].transmitter.side.serial; }

static void fit_three(void)
{
    uint32_t setup[PCL_SETUP(3)];

    for (uint32_t u = 0; u < 3; u++) {
        setup[4 * u] = u == OF_R ? 31 : u + 1;
        setup[4 * u + 1] = receiver_of(u);
        setup[4 * u + 2] = 2;
        setup[4 * u + 3] = DRIVE_MEMORY ? DRIVE_MEMORY : 1 + below(300);
    }
    must(call_fit(setup, PCL_SETUP(3)) == PCL_DONE, "no fit");
    take_mastership(broken.master);
}

/* Slices until this unit's transmitter was served; damage is for its own alone. */
static uint32_t served(uint32_t unit, uint32_t data_mask, uint32_t parity_mask)
{
    for (unsigned i = 0; i < 2; i++) {
        bool own = l.unit[l.master - 1u].master.counter == unit + 1;
        uint32_t answer;

        r_before = *the_r();
        answer = call_slice(own ? data_mask : 0, own ? parity_mask : 0);
        if (own)
            return answer;
    }
    must(false, "not served");
    return 0;
}

static bool got(uint32_t answer, uint32_t a, uint32_t b) { return pcl_a(answer) == a && pcl_b(answer) == b; }

/* The words of a message as R's host reads them: none lost, none of another message. */
static void send_word_to_r(uint32_t word, bool drained)
{
    call_write(OF_T, PCL_TSDB, word);
    must(got(served(OF_T, 0, 0), 2, 3), "a word in mid-message is not taken");
    if (drained)
        must(call_read(broken.r, PCL_RDDB) == word << 16, "another word than was sent");
}

static void begin_broken(void)
{
    bool ends = broken.at == AT_LAST_CRC || broken.at == AT_LAST_VERDICT;
    bool block = broken.at == AT_DUE_CRC || broken.at == AT_VERDICT || broken.at == AT_NEXT_BLOCK;

    call_write(broken.r, PCL_RCR, BOTH_COMMANDS);
    if (!ends)
        call_write(OF_T, PCL_TSBC, 0);                      /* more words are to come */
    call_write(OF_T, PCL_TCR, PCL_TCR_DESTINATION(receiver_of(broken.r)) | BOTH_COMMANDS);
    send_word_to_r(any_word(), block);
}

/* To the point at which it is broken off. */
static void come_to_it(void)
{
    begin_broken();
    switch (broken.at) {
    case AT_WORD:
        send_word_to_r(any_word(), false);
        call_write(OF_T, PCL_TSDB, any_word());
        break;
    case AT_DUE_CRC: case AT_VERDICT: case AT_NEXT_BLOCK:
        for (unsigned i = 1; i < 128; i++)
            send_word_to_r(any_word(), i < 127 || broken.left != LEFT_NXL);
        if (broken.at != AT_DUE_CRC)
            must(got(served(OF_T, 0, 0), 2, 1), "the due CRC is not taken");
        if (broken.at == AT_NEXT_BLOCK)
            must(got(served(OF_T, 0, 0), 2, 3), "the due CRC is not found good");
        break;
    case AT_LAST_VERDICT: must(got(served(OF_T, 0, 0), 3, 1), "the last CRC is not taken"); break;
    case AT_NOTHING: call_write(OF_T, PCL_TCR, 0); break;
    case AT_ERROR: call_write(OF_T, PCL_TSR, PCL_TSR_TIM_OUT); break;
    case AT_BAD_PARITY:
        call_write(OF_T, PCL_TSDB, any_word());
        must(got(served(OF_T, 1u << below(16), 0), 2, 3), "a damaged word is not taken");
        break;
    case AT_TRUNCATION:
        call_write(broken.r, PCL_RCR, PCL_RCR_REJ | PCL_RCR_RCV_DAT);
        must(got(served(OF_T, 0, 0), 1, 1), "no truncation");
        break;
    case AT_FULL_SILO:
        for (unsigned i = 1; i < SECOND_DATA_SILO; i++)
            send_word_to_r(any_word(), false);
        break;
    default: break;
    }
}

static void break_off(uint32_t by)
{
    uint16_t of_t = serial_at(OF_T), of_r = the_r()->side.serial;

    switch (by) {
    case BY_TX_INIT: call_write(OF_T, PCL_TCR, PCL_TCR_TX_INIT); break;
    case BY_RC_INIT: call_write(broken.r, PCL_RCR, PCL_RCR_RC_INIT); break;
    case BY_RESET_OF_T: call_reset(OF_T); break;
    default: call_reset(broken.r); break;
    }
    must(serial_at(OF_T) == of_t && the_r()->side.serial == of_r, "an INIT or a reset changed a serial");
    if (!l.master)
        take_mastership(broken.master);
}

/* NXL is no bit that a host writes: a word in R's silo, and a move of it to the last address there is. */
static void meet_nxl(void)
{
    bool word = the_r()->side.silo.held;

    call_write(broken.r, PCL_RDBC, 0);
    call_write(broken.r, PCL_RDBA, 0xFFFE);
    call_write(broken.r, PCL_RCR, PCL_RCR_RC_NPR | PCL_RCR_EA16 | PCL_RCR_EA17);
    call_move(broken.r, PCL_RECEIVER, unit_at(broken.r)->memory_length);
    must(word == !!(the_r()->side.status & PCL_RSR_NXL), "NXL without a word, or none with one");
    must(word || !the_r()->side.open, "no word for NXL");
}

static void leave_receiver(void)
{
    static const uint32_t errors[LEFTS] = { [LEFT_BC_OFL] = PCL_RSR_BC_OFL, [LEFT_TXM_ERR] = PCL_RSR_TXM_ERR,
                                            [LEFT_PAR] = PCL_RSR_PAR, [LEFT_TIM_OUT] = PCL_RSR_TIM_OUT,
                                            [LEFT_MEM_OFL] = PCL_RSR_MEM_OFL };
    static const uint32_t commands[LEFTS] = { [LEFT_IDLE] = 0, [LEFT_FOR_A_WORD] = PCL_RCR_RCV_WD, [LEFT_REJECTING] = PCL_RCR_REJ,
                                              [LEFT_TRUNCATING] = PCL_RCR_REJ | PCL_RCR_RCV_DAT };
    bool other = broken.left >= LEFT_FOR_A_WORD && broken.left <= LEFT_TRUNCATING;

    if (broken.left == LEFT_ALONE)
        return;
    if (errors[broken.left])
        call_write(broken.r, PCL_RSR, errors[broken.left]);
    if (broken.left == LEFT_TIMED)
        call_period(broken.r);
    if (broken.left == LEFT_NXL)
        meet_nxl();
    call_write(broken.r, PCL_RCR, (other ? commands[broken.left] : BOTH_COMMANDS) | perhaps(PCL_RCR_IE, 2));
}

/* What rule 2 asks for beside the opening word. */
static bool would_open(const struct second_receiver *r)
{
    return !r->side.open && (r->side.command & PCL_RCR_RCV_WD) && !(r->side.status & 0x7E00)    /* bits 9 to 14 */
        && r->side.silo.held < SECOND_DATA_SILO;
}

/* A host's new message for a receiver; the slice is damaged where R takes nothing of it. */
static uint32_t opening_slice(uint32_t t, uint32_t r, bool taken)
{
    call_write(t, PCL_TSR, 0);
    if (!l.unit[t].transmitter.side.silo.held)
        call_write(t, PCL_TSDB, any_word());
    call_write(t, PCL_TCR, PCL_TCR_DESTINATION(receiver_of(r)) | BOTH_COMMANDS | (taken ? 0 : perhaps(PCL_TCR_RIB, 2)));
    return served(t, taken ? 0 : any_word(), taken ? 0 : below(2));
}

/* "At a receiver open with that same transmitter it sets TXM ERR, closes and gets 00, ahead of rule 3"; the closed T: TBS BSY. */
static void open_again(void)
{
    const struct second_side *before = &r_before.side, *after = &the_r()->side;
    uint16_t serial = serial_at(OF_T);

    must(got(opening_slice(OF_T, broken.r, false), 2, 0), "an opening word at the open receiver does not get 00");
    must(serial_at(OF_T) == serial && after->serial == before->serial, "an opening that is refused changed a serial");
    must(!after->open && !(after->command & (BOTH_COMMANDS | PCL_RCR_REJ)), "the receiver is not closed");
    must((after->status & ~15u) == ((before->status & ~15u) | PCL_RSR_TXM_ERR), "not TXM ERR alone");
    must((after->status & 15) == (before->status & 0x7E00 ? before->status & 15 : 2), "other codes than A 10 and B 00");
    must(!memcmp(&after->silo, &before->silo, sizeof after->silo) && after->crc == before->crc, "the receiver took something");
    must(!the_t()->side.open && (the_t()->side.status & (PCL_TSR_TBS_BSY | 0x7EAF)) == (PCL_TSR_TBS_BSY | 2),
         "not TBS BSY alone, or other codes");
}

/* T opens to R: again, where R still holds its channel; else by rules 1 and 2. */
static void open_to_r(uint32_t t)
{
    bool taken = would_open(the_r());
    uint16_t serial = (uint16_t)(serial_at(t) + taken);

    if (t == OF_T && holds_channel_of(OF_T)) {
        open_again();
        return;
    }
    must(got(opening_slice(t, broken.r, taken), 2, taken ? 3 : 0), "an opening word is not answered by rules 1 and 2");
    must(taken || !memcmp(the_r(), &r_before, sizeof r_before), "the receiver changed");
    must(serial_at(t) == serial && (!taken || the_r()->side.serial == serial), "not the next serial, or not at both ends");
}

/* "A closed receiver answers 00 to anything but an opening word, a CRC included", and so does one that another has opened since. T
 * sends what it would have sent, and closes: with TXM ERR, or where it sent 00 with the error it had. */
static void go_on(void)
{
    uint16_t serial = serial_at(OF_T);
    uint32_t before = the_t()->side.status, answer = served(OF_T, any_word(), below(2));
    uint32_t after = broken.at == AT_ERROR ? before : (before & ~15u) | PCL_TSR_TXM_ERR | next_a[broken.at];

    must(pcl_a(answer) == next_a[broken.at], "T goes on with another A");
    must(pcl_b(answer) == 0, "a word that is none of its channel is not answered 00");
    must(!memcmp(the_r(), &r_before, sizeof r_before), "a closed receiver changed");
    must(!the_t()->side.open && the_t()->side.status == after, "T is not closed with TXM ERR alone, or other codes");
    must(serial_at(OF_T) == serial, "closing changed a serial");
}

/* T opens to another receiver, and R, whether it still holds T's channel or not, has no part in it. */
static void open_to_another(void)
{
    struct second_receiver old = *the_r();
    uint16_t serial = (uint16_t)(serial_at(OF_T) + 1);

    call_write(OF_ANOTHER, PCL_RCR, BOTH_COMMANDS);
    must(got(opening_slice(OF_T, OF_ANOTHER, true), 2, 3), "another receiver does not open");
    must(!memcmp(the_r(), &old, sizeof old), "the old receiver changed");
    must(serial_at(OF_T) == serial && l.unit[OF_ANOTHER].receiver.side.serial == serial, "not the next serial at both ends");
}

/* The hosts begin anew, the other one keeps quiet, and the message is whole. */
static void begin_anew(void)
{
    call_write(OF_ANOTHER, PCL_TCR, PCL_TCR_TX_INIT);
    break_off(BY_TX_INIT);
    if (holds_channel_of(OF_ANOTHER))
        call_write(broken.r, PCL_RCR, PCL_RCR_RC_INIT);
    if (holds_channel_of(OF_T))
        open_again();
    call_write(broken.r, PCL_RSR, 0);
    call_write(broken.r, PCL_RCR, BOTH_COMMANDS);
    if (!would_open(the_r()))
        open_to_r(OF_T);                                    /* a full silo */
    while (pcl_number(call_read(broken.r, PCL_RDDB)) == PCL_DONE)
        ;
    break_off(BY_TX_INIT);
    call_write(OF_T, PCL_TCR, PCL_TCR_DESTINATION(receiver_of(broken.r)) | BOTH_COMMANDS);
    for (unsigned i = 0; i < 3; i++)
        send_word_to_r(any_word(), true);
    must(got(served(OF_T, 0, 0), 3, 1) && got(served(OF_T, 0, 0), 3, 3), "the message does not end");
    must((the_t()->side.status & 0x7EB0) == PCL_TSR_SUC_TXF && (the_r()->side.status & 0x7EA0) == PCL_RSR_SUC_TXF, "no success");
    must(serial_at(OF_T) == the_r()->side.serial, "the two ends show different serials at success");
}

/* One of the RESTARTS, all different. */
static void restart(uint32_t number)
{
    broken.then = number % THENS, number /= THENS;
    broken.left = number % LEFTS, number /= LEFTS;
    broken.by = number % BYS, number /= BYS;
    broken.at = number % ATS, number /= ATS;
    broken.itself = number % 2;
    broken.r = broken.itself ? OF_T : OF_R;
    broken.master = below(2);
    fit_three();
    give_serials();
    come_to_it();
    break_off(broken.by);
    leave_receiver();
    if (broken.then == FROM_ANOTHER)
        open_to_r(OF_ANOTHER);
    if (the_t()->side.open)
        go_on();
    if (broken.then == TO_ANOTHER)
        open_to_another();
    else
        open_to_r(OF_T);
    begin_anew();
}

#endif
