/* calls.c - messages broken off in every way, serials that go round, two ends that
 * only cells of other making put out of step, and random scenes, on the archive
 * and the second library, compared after every call; after each scene states that
 * number 9 refuses, on the archive alone, and units whose cells hold anything, on
 * both.
 *
 * calls [calls [seed]] */
#define DRIVE_MEMORY 0
#define DRIVE_MOST 0xFFFFFFFF
#include "damage.h"
#include "scenes.h"
#include "reached.h"

static unsigned long long refused, damages, in_a_row;
static uint16_t copy[PCL_CELLS_MOST], copy_before[PCL_CELLS_MOST];

static void must(bool holds, const char *what)
{
    if (holds)
        return;
    printf("calls: after call %llu: %s\n", calls, what);
    exit(1);
}

/* Any call but fit, at any unit, on the copy. */
static uint64_t any_call(size_t length)
{
    uint32_t unit = some_unit(), place = unit % PCL_UNITS_MOST, side = some_side();

    switch (below(12)) {
    case 0: return pcl_read(copy, length, unit, below(34));
    case 1: return pcl_write(copy, length, unit, below(34), any_word());
    case 2: return pcl_write_byte(copy, length, unit, below(34), (uint8_t)below(256));
    case 3: return pcl_slice(copy, length, any_word(), below(3));
    case 4: return pcl_move(copy, length, memory[place], PCL_MEMORY_MOST, unit, side);
    case 5: return pcl_period(copy, length, unit);
    case 6: return pcl_reset(copy, length, unit);
    case 7: return pcl_level(copy, length, unit, side);
    case 8: return pcl_move_all(copy, length, memory[place], PCL_MEMORY_MOST, unit, side);
    case 9: return pcl_wants_moves(copy, length);
    case 10: return pcl_wants_interrupts(copy, length);
    default: return pcl_serial(copy, length, unit, side);
    }
}

/* One thing out of its range: the room or the header. */
static size_t damage_header(void)
{
    switch (below(3)) {
    case 0: return below((uint32_t)PCL_CELLS(l.units));
    case 1: copy[UNITS] = (uint16_t)(17 + below(0x10000 - 17)); break;
    default: copy[MASTER] = (uint16_t)(l.units + 1 + below(0xFFFFu - l.units)); break;
    }
    return PCL_CELLS_MOST;
}

/* Number 9: every cell and the memories as they were. */
static void try_refused(void)
{
    size_t length;

    memcpy(copy, cells, sizeof copy);
    length = damage_header();
    refused++;
    memcpy(copy_before, copy, sizeof copy);
    must(any_call(length) == PCL_BAD_ROOM, "a damaged header is not answered 9");
    must(!memcmp(copy, copy_before, sizeof copy), "number 9 changed a cell");
}

static void between_scenes(void)
{
    static uint16_t kept[PCL_UNITS_MOST][PCL_MEMORY_MOST];

    look_everywhere("the end of a scene");
    look_at_moved_words("the end of a scene");
    memcpy(kept, memory, sizeof kept);
    for (unsigned i = 0; i < 100; i++)
        try_refused();
    must(!memcmp(memory, kept, sizeof kept), "number 9 changed a memory");
    for (unsigned i = 0; i < 20 && l.units; i++) {
        if (once_in(3))
            damage_index();
        else
            damage_unit(fitted_unit(), 0);
        damages++;
        look_everywhere("cells that were damaged");
        wild_calls(100);
    }
}

/* What no script reaches: the last word of the address space, and a memory lent too short. */
static void last_word(void)
{
    const uint32_t setup[] = { 1, 6, 2, PCL_MEMORY_MOST };

    call_fit(setup, 4);
    take_mastership(0);
    call_write(0, PCL_TSBA, 0xFFFE);
    call_write(0, PCL_TSBC, 0);
    call_write(0, PCL_TCR, PCL_TCR_DESTINATION(6) | PCL_TCR_TX_NPR | BOTH_COMMANDS | PCL_TCR_EA16 | PCL_TCR_EA17);
    call_write(0, PCL_RDBA, 0xFFFE);
    call_write(0, PCL_RDBC, 0);
    call_write(0, PCL_RCR, PCL_RCR_RC_NPR | BOTH_COMMANDS | PCL_RCR_EA16 | PCL_RCR_EA17);
    must(call_move(0, PCL_TRANSMITTER, PCL_MEMORY_MOST - 1) == PCL_BAD_ROOM, "a memory too short is taken");
    call_move(0, PCL_TRANSMITTER, PCL_MEMORY_MOST);
    call_write(0, PCL_TSR, 0);
    call_write(0, PCL_TCR, PCL_TCR_DESTINATION(6) | BOTH_COMMANDS);
    call_slice(0, 0);
    call_slice(0, 0);
    call_move(0, PCL_RECEIVER, PCL_MEMORY_MOST);
    must(was_reached("tx_move_overflow") && was_reached("rc_move_overflow"), "no memory overflow");
}

/* The same with all moves of a side at once: the third word from the end is the first. */
static void last_words_at_once(void)
{
    const uint32_t setup[] = { 1, 6, 2, PCL_MEMORY_MOST };
    const uint64_t three = (uint64_t)3 << 34;

    call_fit(setup, 4);
    take_mastership(0);
    call_write(0, PCL_TSBA, 0xFFFA);
    call_write(0, PCL_TSBC, 0);
    call_write(0, PCL_TCR, PCL_TCR_TX_NPR | PCL_TCR_EA16 | PCL_TCR_EA17);
    must(call_move_all(0, PCL_TRANSMITTER, PCL_MEMORY_MOST - 1) == PCL_BAD_ROOM, "a memory too short is taken");
    must(call_move_all(0, PCL_TRANSMITTER, PCL_MEMORY_MOST) == three, "not the last three words");
    call_write(0, PCL_TSR, 0);
    call_write(0, PCL_TCR, PCL_TCR_DESTINATION(6) | BOTH_COMMANDS);
    call_write(0, PCL_TSDB, any_word());                    /* a fourth */
    call_write(0, PCL_RDBA, 0xFFFA);
    call_write(0, PCL_RDBC, 0);
    call_write(0, PCL_RCR, PCL_RCR_RC_NPR | BOTH_COMMANDS | PCL_RCR_EA16 | PCL_RCR_EA17);
    for (unsigned slices = 0; slices < 8; slices++)
        call_slice(0, 0);
    must(call_move_all(0, PCL_RECEIVER, PCL_MEMORY_MOST) == three, "not three words to the end");
}

/* A unit that sends to itself, with so many words to move at each side, from the byte address on. */
static void load_both_sides(uint32_t words, uint32_t address, uint32_t room)
{
    const uint32_t setup[] = { 1, 6, 2, 200 };

    call_fit(setup, 4);
    take_mastership(0);
    call_write(0, PCL_TSBA, address);
    call_write(0, PCL_RDBA, address);
    call_write(0, PCL_TSBC, pcl_byte_count(words));
    call_write(0, PCL_RDBC, pcl_byte_count(room));
    call_write(0, PCL_TCR, PCL_TCR_DESTINATION(6) | PCL_TCR_TX_NPR | BOTH_COMMANDS);
    call_write(0, PCL_RCR, PCL_RCR_RC_NPR | BOTH_COMMANDS);
}

/* How many words all moves of a side moved, and that they end so: with the address, by the error bits, at once again or not. */
static void moves_end(uint32_t side, uint32_t words, uint32_t missing, uint32_t errors)
{
    uint64_t answer = call_move_all(0, side, 200);
    uint32_t status = side ? PCL_RSR : PCL_TSR;

    must(answer == ((uint64_t)missing << 16) + ((uint64_t)words << 34), "not so many words at once");
    must((pcl_value(call_read(0, status)) & (PCL_TSR_ERR | PCL_TSR_NXL | PCL_RSR_BC_OFL)) == errors, "not this end");
    must(call_move_all(0, side, 200) == PCL_NOTHING, "not all at once");
    call_write(0, status, 0);
    if (errors)
        must(call_move_all(0, side, 200) == (uint64_t)missing << 16, "not the same end again");
    call_write(0, status, 0);
}

static void send_words(uint32_t words)
{
    for (uint32_t slices = 0; slices < 2 * words; slices++)
        call_slice(0, 0);
}

static void moves_at_once(void)
{
    load_both_sides(70, 0, 70);
    moves_end(PCL_TRANSMITTER, 64, 0, 0);
    send_words(64);
    moves_end(PCL_TRANSMITTER, 6, 0, 0);
    moves_end(PCL_RECEIVER, 64, 0, 0);
    load_both_sides(9, 396, 9);
    moves_end(PCL_TRANSMITTER, 2, 400, PCL_TSR_ERR | PCL_TSR_NXL);
    call_write(0, PCL_TSBA, 0);
    call_write(0, PCL_TCR, PCL_TCR_DESTINATION(6) | PCL_TCR_TX_NPR | BOTH_COMMANDS);
    moves_end(PCL_TRANSMITTER, 7, 0, 0);
    send_words(9);
    moves_end(PCL_RECEIVER, 2, 400, PCL_RSR_ERR | PCL_RSR_NXL);
    load_both_sides(9, 0, 3);
    call_move_all(0, PCL_TRANSMITTER, 200);
    send_words(9);
    moves_end(PCL_RECEIVER, 3, 0, PCL_RSR_ERR | PCL_RSR_BC_OFL);
    must(all_reached("calls", "tx_all_") && all_reached("calls", "rc_all_") && was_reached("number_move_all_9"),
         "moves at once do not end in every way");
}

/* Document 02's request No. 3: a byte address tried by a load of its own at each side of a unit that sends to itself. */
static void try_address(uint32_t words, uint32_t address, uint32_t inhibit)
{
    const uint32_t setup[] = { 1, 6, 2, words };
    uint32_t low = address & 0xFFFF, bits = address >> 16 << 4 | inhibit, missing = address / 2 < words ? 0 : address & ~1u;

    call_fit(setup, 4);
    take_mastership(0);
    call_write(0, PCL_TSBA, low);
    call_write(0, PCL_TSBC, 0);
    call_write(0, PCL_TCR, PCL_TCR_TX_NPR | bits);
    must(pcl_missing(call_move(0, PCL_TRANSMITTER, words)) == missing, "another address from the transmitter's move");
    call_write(0, PCL_TSR, 0);
    call_write(0, PCL_TCR, PCL_TCR_DESTINATION(6) | PCL_TCR_SND_WD);
    call_write(0, PCL_TSDB, any_word());
    call_write(0, PCL_RDBA, low);
    call_write(0, PCL_RDBC, 0);
    call_write(0, PCL_RCR, PCL_RCR_RC_NPR | BOTH_COMMANDS | bits);
    call_slice(0, 0);
    call_slice(0, 0);
    must(pcl_missing(call_move(0, PCL_RECEIVER, words)) == missing, "another address from the receiver's move");
}

/* Every class of address, with memories of 1 word, of all 131,072, and between: the last word of the memory, the first past it and the next,
 * those at the changes of EA16 and EA17, 777776, and odd ones, whose bit 0 is dropped. */
static void missing_addresses(void)
{
    static const uint32_t lengths[] = { 1, 2, 64, 32768, 32769, 131071, 131072 };
    static const uint32_t fixed[] = { 0, 2, 3, 0xFFFE, 0x10000, 0x1FFFE, 0x20000, 0x2FFFE, 0x30000, 0777774, 0777776, 0777777 };

    for (size_t i = 0; i < sizeof lengths / sizeof lengths[0]; i++)
        for (uint32_t inhibit = 0; inhibit <= PCL_TCR_INH_ADI; inhibit += PCL_TCR_INH_ADI) {
            for (size_t k = 0; k < sizeof fixed / sizeof fixed[0]; k++)
                try_address(lengths[i], fixed[k], inhibit);
            for (uint32_t near = 2 * lengths[i] - 2; near < 2 * lengths[i] + 4 && near >> 18 == 0; near++)
                try_address(lengths[i], near, inhibit);
        }
    must(all_reached("calls", "tx_move_nxl") && all_reached("calls", "rc_move_nxl"), "an address is never missing");
}

/* Document 02's request No. 1: every restart, or one in so many, and each of its cases reached. */
static void break_messages(uint32_t step)
{
    depth = CELLS;
    for (uint32_t i = 0; i < RESTARTS; i += step) {
        restart(i);
        look_at_registers("a message broken off");
    }
    depth = EVERYTHING;
    must(all_reached("calls", "opening_") && all_reached("calls", "rule_1_open") && all_reached("calls", "rule_1_left_open")
         && all_reached("calls", "rule_2_") && all_reached("calls", "reset_open_") && was_reached("tx_init_open")
         && was_reached("rc_init_open"), "a restart leads nowhere");
}

/* Document 02's request No. 6, by the answers of its call: what T has to show, the receiver of its own unit, and R. A receiver that is
 * not opened keeps its own. */
static struct { uint16_t of_t, own, of_r; } serials;

static bool shows(uint32_t unit, uint32_t side, uint16_t serial) { return call_serial(unit, side) == (uint32_t)serial << 16; }

static void look_at_three_serials(const char *what)
{
    must(shows(OF_T, PCL_TRANSMITTER, serials.of_t) && shows(OF_T, PCL_RECEIVER, serials.own)
         && shows(OF_R, PCL_RECEIVER, serials.of_r), what);
}

static void fit_with_serials(uint16_t of_t, uint16_t own, uint16_t of_r)
{
    broken.master = OF_ANOTHER;
    fit_three();
    serials.of_t = serials.own = serials.of_r = 0;
    look_at_three_serials("a fit does not give 0");
    serials.of_t = of_t, serials.own = own, serials.of_r = of_r;
    put_serial(OF_T, PCL_TRANSMITTER, of_t);
    put_serial(OF_T, PCL_RECEIVER, own);
    put_serial(OF_R, PCL_RECEIVER, of_r);
}

/* T sends a word to one of the two, which does not want it yet, and then does. Lines of the opening slice may be damaged; the serial is
 * none of them. */
static void raise_serial(uint32_t r, uint32_t data_mask, uint32_t parity_mask)
{
    broken.r = r;
    call_write(OF_T, PCL_TSR, 0);
    call_write(r, PCL_RSR, 0);
    call_write(OF_T, PCL_TSDB, any_word());
    call_write(OF_T, PCL_TCR, PCL_TCR_DESTINATION(receiver_of(r)) | BOTH_COMMANDS | PCL_TCR_RIB);
    must(got(served(OF_T, 0, 0), 2, 0), "a receiver opens unasked");
    look_at_three_serials("an opening that is refused changed a serial");
    call_write(r, PCL_RCR, BOTH_COMMANDS);
    must(got(served(OF_T, data_mask, parity_mask), 2, 3), "no opening");
    serials.of_t = serials.of_t == 65535 ? 0 : serials.of_t + 1;
    *(r == OF_R ? &serials.of_r : &serials.own) = serials.of_t;
    look_at_three_serials("not one more at the transmitter, or not the same at the receiver");
}

/* How the channel closes. */
enum { BY_SUCCESS, BY_TRUNCATION, BY_REJECTION, BY_ERROR, BY_INITS, BY_RESETS, CLOSINGS };

static void close_by(uint32_t closing)
{
    uint32_t r = broken.r;

    switch (closing) {
    case BY_SUCCESS:
        call_read(r, PCL_RDDB);
        must(got(served(OF_T, 0, 0), 3, 1) && got(served(OF_T, 0, 0), 3, 3), "no success");
        break;
    case BY_TRUNCATION:
        call_write(OF_T, PCL_TCR, 0);
        call_write(r, PCL_RCR, PCL_RCR_REJ | PCL_RCR_RCV_DAT);
        must(got(served(OF_T, 0, 0), 1, 1) && got(served(OF_T, 0, 0), 3, 1) && got(served(OF_T, 0, 0), 3, 3), "no truncation");
        break;
    case BY_REJECTION: call_write(r, PCL_RCR, PCL_RCR_REJ); must(got(served(OF_T, 0, 0), 3, 1), "no rejection"); break;
    case BY_ERROR: call_write(OF_T, PCL_TSR, PCL_TSR_TIM_OUT); must(got(served(OF_T, 0, 0), 0, 0), "no error"); break;
    case BY_INITS: call_write(OF_T, PCL_TCR, PCL_TCR_TX_INIT); call_write(r, PCL_RCR, PCL_RCR_RC_INIT); break;
    default: call_reset(OF_T); call_reset(r); break;
    }
    must(!the_t()->side.open && !the_r()->side.open, "a channel stays open");
    look_at_three_serials("closing changed a serial");
    call_read(r, PCL_RDDB);                                 /* what it may have left there */
}

/* Every closing, from serials on at the ends of the range, of a half of it and of a byte, to receivers that had T's own, its next, or
 * any. */
static void serials_from_anywhere(void)
{
    static const uint16_t starts[] = { 0, 1, 0xFE, 0xFF, 0x7FFE, 0x7FFF, 0x8000, 0xFEFF, 0xFFFD, 0xFFFE, 0xFFFF };

    for (size_t i = 0; i < sizeof starts / sizeof starts[0]; i++)
        for (uint32_t closing = 0; closing < CLOSINGS; closing++) {
            /* A message that is to end well is not damaged, and where R's rules 5 and 6 are to be reached its parity is good. */
            uint32_t damage = closing <= BY_TRUNCATION ? 0 : closing <= BY_ERROR ? 3u << below(15) : any_word();

            fit_with_serials(starts[i], once_in(2) ? starts[i] : any_word(), once_in(2) ? (uint16_t)(starts[i] + 1) : any_word());
            for (uint32_t k = 0; k < 4; k++) {
                raise_serial(k % 2 ? OF_R : OF_T, damage, closing <= BY_ERROR ? 0 : below(2));
                close_by(closing);
            }
        }
    must(was_reached("serial_goes_round") && was_reached("serial_copied_over_another") && was_reached("tx_init_keeps_serial")
         && was_reached("rc_init_keeps_serial"), "no serial goes round, or none is kept");
}

/* 65,536 openings in a row since a fit, to the two receivers in turn, closed in every way: T is at 0 again. */
static void serials_go_round(void)
{
    fit_with_serials(0, 0, 0);
    depth = ANSWERS;                                        /* all else is looked at once in 4096 openings */
    in_a_row = calls;
    for (uint32_t i = 0; i < 65536; i++) {
        raise_serial(i % 2 ? OF_R : OF_T, 0, 0);
        close_by(i / 2 % CLOSINGS);
        if (i % 4096 == 4095)
            look_everywhere("openings in a row");
    }
    in_a_row = calls - in_a_row;
    depth = EVERYTHING;
    must(serials.of_t == 0 && serials.of_r == 0 && serials.own == 65535, "not 65,536 openings");
}

/* A channel in mid-message, T with a word to send, and one of the two ends' cells changed. */
static uint16_t *open_channel(uint32_t unit, uint32_t place)
{
    broken.at = AT_WORD;
    broken.r = OF_R;
    broken.master = OF_ANOTHER;
    fit_three();
    come_to_it();
    return cells + block_at(unit) + place;
}

/* What two ends do that are not in step. Since an opening word is marked no call leads there, but cells can hold it. */
static void out_of_step(void)
{
    *open_channel(OF_R, RECEIVER + WORDS) = 128;            /* the oldest word is what R takes for the due CRC .. */
    cells[block_at(OF_T) + TRANSMITTER + SILO + cells[block_at(OF_T) + TRANSMITTER + RING] % SECOND_DATA_SILO] =
        cells[block_at(OF_R) + RECEIVER + CRC];
    read_damage();
    must(got(served(OF_T, 0, 0), 2, 1) && got(served(OF_T, 0, 0), 2, 3), "a word is not taken as a good CRC");
    *open_channel(OF_R, RECEIVER + WORDS) = 128;            /* .. or a bad one */
    read_damage();
    must(got(served(OF_T, 1, 0), 2, 1) && got(served(OF_T, 0, 0), 2, 2), "a word is taken as a good CRC");
    *open_channel(OF_T, TRANSMITTER + WORDS) = 128;         /* T's CRC is what R takes for a word */
    read_damage();
    must(got(served(OF_T, 0, 0), 2, 3), "a CRC is not stored as a word");
    *open_channel(OF_R, RECEIVER + STATUS) |= 1 << 6;       /* a verdict on nothing is owed */
    read_damage();
    must(got(served(OF_T, 0, 0), 2, 3), "a word is not stored beside a verdict");
    *open_channel(OF_R, RECEIVER + TRUNCATED) = 1;          /* truncated, and T not ending */
    cells[block_at(OF_R) + RECEIVER + COMMAND] |= PCL_RCR_REJ;
    read_damage();
    must(got(served(OF_T, 0, 0), 2, 1), "no truncation again");
    must(was_reached("rule_7_again") && was_reached("rule_8_due_taken_is_a_word") && was_reached("rule_8_due_good_of_a_word")
         && was_reached("rule_9_stored_a_crc") && was_reached("rule_9_verdict_stands"), "ends out of step lead nowhere");
}

/* Two ends of a channel whose serials differ. No call leads there; no rule looks at them, each end shows its own, and the next opening
 * has T's next at both. */
static void serials_that_differ(void)
{
    *open_channel(OF_R, RECEIVER + SERIAL) = 0x1234;
    read_damage();
    must(got(served(OF_T, 0, 0), 2, 3), "a serial stops a word");
    must(shows(OF_T, PCL_TRANSMITTER, 1) && shows(OF_R, PCL_RECEIVER, 0x1234), "an end shows another serial than its cell's");
    call_write(OF_T, PCL_TCR, PCL_TCR_TX_INIT);
    call_write(OF_R, PCL_RCR, PCL_RCR_RC_INIT);
    must(shows(OF_T, PCL_TRANSMITTER, 1) && shows(OF_R, PCL_RECEIVER, 0x1234), "an INIT changed a serial");
    call_write(OF_R, PCL_RCR, BOTH_COMMANDS);
    must(got(opening_slice(OF_T, OF_R, true), 2, 3) && shows(OF_T, PCL_TRANSMITTER, 2) && shows(OF_R, PCL_RECEIVER, 2),
         "not T's next serial at both ends");
}

/* The transmitter address of one unit is another's now, which has its own no longer. */
static void take_address(uint32_t of, uint32_t by)
{
    cells[entry_at(PCL_TRANSMITTER, by + 1)] = PCL_UNITS_MOST;
    cells[entry_at(PCL_TRANSMITTER, of + 1)] = (uint16_t)by;
    read_damage();
}

/* "That same transmitter" is told by its address: another unit that has come to have it. */
static void another_with_its_address(void)
{
    open_channel(OF_T, 0);
    take_address(OF_T, OF_ANOTHER);
    call_write(OF_ANOTHER, PCL_TSDB, any_word());
    call_write(OF_ANOTHER, PCL_TCR, PCL_TCR_DESTINATION(receiver_of(OF_R)) | BOTH_COMMANDS);
    must(got(served(OF_T, 0, 0), 2, 0) && (the_r()->side.status & PCL_RSR_TXM_ERR) && !the_r()->side.open,
         "not the same transmitter");
    open_channel(OF_T, 0);                                  /* and T with another's address */
    take_address(OF_ANOTHER, OF_T);
    must(got(served(OF_ANOTHER, 0, 0), 2, 0) && the_r()->side.open && (the_t()->side.status & PCL_TSR_TXM_ERR),
         "the same transmitter");
}

/* A transmitter that is closed sends an opening word, and none of these answers it, whatever the cells hold. */
static void look_at_openings(void)
{
    static const char *const never[] = { "closed_01", "closed_10", "rule_6_closed_transmitter", "rule_7_closed_transmitter",
                                         "rule_8_due_good_of_a_closed_transmitters_word" };

    for (size_t i = 0; i < sizeof never / sizeof never[0]; i++)
        must(!was_reached(never[i]), "an opening word answered 01 or 10, or taken in mid-message");
}

int main(int count, char **arguments)
{
    unsigned long long wanted = count > 1 ? strtoull(arguments[1], NULL, 10) : 3000000;

    seed = count > 2 ? strtoull(arguments[2], NULL, 10) : 1;
    for (uint32_t unit = 0; unit < PCL_UNITS_MOST; unit++)
        for (uint32_t i = 0; i < PCL_MEMORY_MOST; i++)
            memory[unit][i] = memory_of_second[unit][i] = any_word();
    forget_both();
    wild_calls(STEPS);                          /* nothing fitted yet */
    last_word();
    last_words_at_once();
    moves_at_once();
    missing_addresses();
    break_messages(wanted < 1000000 ? 17 : 1);  /* 17 shares no divisor with RESTARTS */
    serials_from_anywhere();
    serials_go_round();
    out_of_step();
    serials_that_differ();
    another_with_its_address();
    wanted += calls;
    while (calls < wanted) {
        between_scenes();
        scene();
    }
    look_everywhere("the end");
    look_at_openings();
    printf("calls: %llu calls the same in every cell, register, serial and word, %llu damages on the way; %llu more in their answers, "
           "with 65,536 openings in a row; %llu bad headers refused\n", calls - in_a_row, damages, in_a_row, refused);
    return 0;
}
