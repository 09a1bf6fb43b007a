/* receive.c - board_receive on the archives against the second implementation over
 * the second library: messages that arrive, with a call after every slice, good ones
 * and ill ones; messages that do not arrive whole; messages told apart by their
 * serials; every refusal alone and every two at once; and random states of the link.
 *
 * receive [random calls [seed]] */
#define _DEFAULT_SOURCE
#define DRIVE_MEMORY 0
#define DRIVE_MOST 0xFFFFFFFF
#define STEPS 60                        /* of a random scene */
#include "board.h"
#include "orders.h"
#include "rows.h"
#include "second.h"                     /* the board's; the link's comes with both.h */
#include "damage.h"
#include "scenes.h"

#define COUNT(row) (sizeof (row) / sizeof (row)[0])
enum { ROOM_MOST = 80, WHATEVER = 99 };
enum { NUMBERS = BOARD_LINK + PCL_BAD_ROOM + 1 };

static struct row cells_row, memory_row, readings_row;
static uint32_t given[ROOM_MOST];       /* the room as the last call left it */
static unsigned serial_given;           /* and the serial that it answered */
static unsigned long long receives, by_number[NUMBERS], extended[4], with_serial;

static struct order receive_order = { .call = "receiving", .refusals = 7,
    .number = { BOARD_BAD_ROOM, BOARD_LINK + PCL_BAD_ROOM, BOARD_LINK + PCL_NOT_FITTED, BOARD_NOT_COMPLETE, BOARD_WRONG_LENGTH,
                BOARD_UNKNOWN_KIND, BOARD_WRONG_COUNT } };

static void must(bool holds, const char *what)
{
    if (holds)
        return;
    printf("board, after %llu receives and %llu calls of the link: %s\n", receives, calls, what);
    exit(1);
}

/* ---- one call on both */

static uint32_t read_second(void *link, uint32_t unit, uint32_t offset) { return second_read(link, unit, offset); }
static uint32_t serial_second(void *link, uint32_t unit) { return second_serial(link, unit, PCL_RECEIVER); }
static const struct second_board_link as_fitted = { read_second, serial_second };

/* What the link answers in a state out of range, which the second library has not. */
static uint32_t read_nothing(void *link, uint32_t unit, uint32_t offset)
{
    (void)link, (void)unit, (void)offset;
    return PCL_BAD_ROOM;
}

static uint32_t serial_nothing(void *link, uint32_t unit)
{
    (void)link, (void)unit;
    return PCL_BAD_ROOM;
}

static const struct second_board_link out_of_range = { read_nothing, serial_nothing };

static unsigned look_at_answer(uint64_t archive, uint64_t second, unsigned wanted)
{
    unsigned number = board_number(archive);

    if (archive != second || (wanted != WHATEVER && number != wanted)) {
        printf("board, after %llu receives and %llu calls of the link: the archive answers %#llx, the second %#llx, wanted is number %u\n",
               receives, calls, (unsigned long long)archive, (unsigned long long)second, wanted);
        exit(1);
    }
    must(number < NUMBERS, "an answer's number is none of the refusals");
    must(number == BOARD_DONE || archive == number, "a refusal has a value");
    receives++;
    by_number[number]++;
    return number;
}

/* The link's cells as lent, and the memory of a unit, of which the first words are lent. */
struct lent {
    const uint16_t *cells;
    size_t cells_length, memory_length;
    const struct second_board_link *link;
};

static unsigned receive_from(const struct lent *lent, uint32_t kind, uint32_t unit, uint32_t first, size_t room, unsigned wanted)
{
    static uint32_t before[ROOM_MOST], of_second[ROOM_MOST];
    const uint16_t *whole = memory[unit % PCL_UNITS_MOST];
    uint16_t *lent_cells = lend(&cells_row, lent->cells, lent->cells_length * sizeof *cells);
    const uint16_t *lent_memory = lend(&memory_row, whole, lent->memory_length * sizeof *whole);
    uint32_t *readings;
    uint64_t archive, second;
    unsigned number;
    size_t sensors;

    for (size_t i = 0; i < room; i++)
        of_second[i] = before[i] = below(0x7FFFFFFF) * 2 + below(2);
    readings = lend(&readings_row, before, room * sizeof *readings);
    archive = board_receive(kind, lent_cells, lent->cells_length, lent_memory, lent->memory_length, unit, first, readings, room);
    second = second_board_receive(kind, lent->link, &l, memory_of_second[unit % PCL_UNITS_MOST], lent->memory_length, unit, first,
                                  of_second, room);
    number = look_at_answer(archive, second, wanted);
    must(holds(&cells_row, lent->cells), "receiving changed a cell");
    must(holds(&memory_row, whole), "receiving changed a memory");
    must(holds(&readings_row, of_second), "another reading is given");
    must(is_alone(&cells_row) && is_alone(&memory_row) && is_alone(&readings_row), "receiving wrote beside what was lent");
    must(number != BOARD_DONE || board_serial(archive) == pcl_value(pcl_serial(lent->cells, lent->cells_length, unit, PCL_RECEIVER)),
         "the serial is not the receiver's");
    serial_given = board_serial(archive);
    with_serial += serial_given != 0;
    sensors = board_sensors(archive);
    must(sensors <= room && memcmp(readings + sensors, before + sensors, (room - sensors) * sizeof *readings) == 0,
         "a reading past the last is not as it was, or one after a refusal");
    memcpy(given, readings, room * sizeof *given);
    return number;
}

static unsigned receive(uint32_t kind, uint32_t unit, uint32_t first, size_t memory_length, size_t room, unsigned wanted)
{
    const struct lent lent = { cells, PCL_CELLS(l.units), memory_length, &as_fitted };

    return receive_from(&lent, kind, unit, first, room, wanted);
}

/* ---- a message of readings on its way */

/* The serial is T's, as its openings are counted here. */
static struct { uint32_t t, r, units, from, to, words, sensors; uint32_t reading[BOARD_SENSORS_MOST]; uint16_t serial; } sent;

static uint32_t bytes_of(uint32_t words) { return 2 * words; }
static uint32_t extended_bits(uint32_t word) { return (word >> 15) << 4; }
static uint32_t status_of_receiver(void) { return pcl_value(pcl_read(cells, PCL_CELLS_MOST, sent.r, PCL_RSR)); }
static unsigned serial_of_transmitter(void) { return pcl_value(pcl_serial(cells, PCL_CELLS_MOST, sent.t, PCL_TRANSMITTER)); }

/* What R has received of it; the memory is lent up to the message's last word. */
static void received(unsigned wanted)
{
    receive(BOARD_KIND, sent.r, bytes_of(sent.to), sent.to + sent.words, BOARD_SENSORS_MOST, wanted);
}

static void put_word(uint32_t unit, uint32_t place, uint16_t word) { memory[unit][place] = memory_of_second[unit][place] = word; }

/* Readings, one in four of them none, built into T's memory. */
static void build_message(uint32_t sensors)
{
    uint16_t message[BOARD_WORDS_MOST];

    sent.sensors = sensors;
    for (uint32_t i = 0; i < sensors; i++)
        sent.reading[i] = once_in(4) ? BOARD_ABSENT : once_in(4) ? 0 : below(65535);
    sent.words = board_value(board_build(BOARD_KIND, sent.reading, sensors, message, BOARD_WORDS_MOST));
    must(sent.words == BOARD_WORDS(sensors), "a message is not built");
    for (uint32_t i = 0; i < sent.words; i++)
        put_word(sent.t, sent.from + i, message[i]);
}

/* The same with words behind it that are sent too, so that its own words are not all. */
static void build_message_and_more(uint32_t sensors, uint32_t more)
{
    build_message(sensors);
    for (uint32_t i = 0; i < more; i++)
        put_word(sent.t, sent.from + sent.words++, any_word());
}

static void fit_link(uint32_t units, uint32_t t, uint32_t r)
{
    static const uint32_t setup[PCL_SETUP(3)] = { 1, 6, 3, PCL_MEMORY_MOST, 2, 7, 3, PCL_MEMORY_MOST, 3, 8, 3, PCL_MEMORY_MOST };

    sent.units = units;
    sent.t = t;
    sent.r = r;
    sent.from = 300;
    sent.to = 1000;
    sent.serial = 0;
    call_fit(setup, PCL_SETUP(units));
    take_mastership(units - 1);
}

/* The hosts' programs: R is ready for so many words, and T sends its own. What stood in RSR may be left there. */
static void ready(uint32_t words, bool clear)
{
    if (clear)
        call_write(sent.r, PCL_RSR, 0);
    call_write(sent.r, PCL_RDBA, bytes_of(sent.to) & 0xFFFF);
    call_write(sent.r, PCL_RDBC, -bytes_of(words) & 0xFFFF);
    call_write(sent.r, PCL_RCR, PCL_RCR_RC_NPR | BOTH_COMMANDS | extended_bits(sent.to));
}

static void send(void)
{
    call_write(sent.t, PCL_TSR, 0);
    call_write(sent.t, PCL_TSBA, bytes_of(sent.from) & 0xFFFF);
    call_write(sent.t, PCL_TSBC, -bytes_of(sent.words) & 0xFFFF);
    call_write(sent.t, PCL_TCR, PCL_TCR_DESTINATION(receiver_of(sent.r)) | PCL_TCR_TX_NPR | BOTH_COMMANDS | extended_bits(sent.from));
}

static void move_all(uint32_t unit, uint32_t side)
{
    while (pcl_number(call_move(unit, side, PCL_MEMORY_MOST)) == PCL_DONE)
        ;
}

/* A slice; before it T's words are moved, and R's where it takes them. Whether it was T's. */
static bool slice(bool takes)
{
    move_all(sent.t, PCL_TRANSMITTER);
    if (takes)
        move_all(sent.r, PCL_RECEIVER);
    return pcl_address(call_slice(0, 0)) == sent.t + 1;
}

/* Slices up to T's next; in the meantime, and so many times again, no message is complete. */
static void own_slice(bool takes)
{
    while (!slice(takes))
        received(BOARD_NOT_COMPLETE);
}

static void own_slices_in_vain(uint32_t count)
{
    for (; count > 0; count--) {
        own_slice(true);
        received(BOARD_NOT_COMPLETE);
    }
}

static uint32_t stored(void)
{
    uint32_t rdba = pcl_value(pcl_read(cells, PCL_CELLS_MOST, sent.r, PCL_RDBA));

    return (rdba / 2 - sent.to) % 32768;
}

/* Slices until R has stored and moved so many words. */
static void slices_until_stored(uint32_t words)
{
    for (uint32_t guard = 0; stored() < words; guard++) {
        must(guard < 4000, "the words do not come");
        slice(true);
        move_all(sent.r, PCL_RECEIVER);
        received(BOARD_NOT_COMPLETE);
    }
    must(stored() == words, "too many words came");
}

/* With the serial of their message. */
static void readings_are_those_sent(void)
{
    must(serial_given == sent.serial && serial_of_transmitter() == sent.serial, "the readings come with another serial");
    for (uint32_t i = 0; i < sent.sensors; i++)
        must(given[i] == sent.reading[i], "a reading received is not the one that was sent");
}

/* ---- messages that arrive */

/* "on exactly its transmitter's slice n - 1 + 2 x (n/128 rounded up) after the opening" */
static uint32_t last_slice(void) { return sent.words - 1 + 2 * ((sent.words + 127) / 128); }

/* After every slice before that one the message is not complete, and from it on it is what it is. */
static void arrives_as(unsigned number)
{
    uint32_t own = 0;

    received(BOARD_NOT_COMPLETE);
    own_slice(true);
    must(status_of_receiver() & PCL_RSR_CHN_OPN, "the message is not opened");
    sent.serial++;
    received(BOARD_NOT_COMPLETE);
    while (own < last_slice() + 5) {
        own += slice(true);
        received(own < last_slice() ? BOARD_NOT_COMPLETE : number);
        if (own >= last_slice() && number == BOARD_DONE)
            readings_are_those_sent();
    }
    must((status_of_receiver() & 0x80B0) == PCL_RSR_SUC_TXF && stored() == sent.words, "no success");
    extended[((sent.to + sent.words) >> 15) & 3]++;
}

static void arrives(void) { arrives_as(BOARD_DONE); }

/* What is lent too little, or named wrongly, of a message that has arrived. */
static void look_around(void)
{
    uint32_t first = bytes_of(sent.to), end = bytes_of(sent.to + sent.words);

    receive(BOARD_KIND, sent.r, first, end / 2, 64, BOARD_DONE);
    receive(BOARD_KIND, sent.r, first + 1, end / 2, 64, BOARD_DONE);            /* the byte above it is of the same word */
    readings_are_those_sent();
    receive(BOARD_KIND, sent.r, first, end / 2 - 1, 64, BOARD_WRONG_LENGTH);    /* the memory has not all the words */
    receive(BOARD_KIND, sent.r, first, 0, 64, BOARD_WRONG_LENGTH);
    receive(BOARD_KIND, sent.r, first + 2, PCL_MEMORY_MOST, 64, BOARD_WRONG_LENGTH);
    receive(BOARD_KIND, sent.r, first - 2, PCL_MEMORY_MOST, 64, BOARD_WRONG_LENGTH);
    for (uint32_t past = 0; past < 4; past++)
        receive(BOARD_KIND, sent.r, end + past, PCL_MEMORY_MOST, 64, BOARD_WRONG_LENGTH);
    receive(BOARD_KIND, sent.r, first + (1u << 18), PCL_MEMORY_MOST, 64, BOARD_WRONG_LENGTH);
    receive(BOARD_KIND, sent.r, first + (1u << 31), PCL_MEMORY_MOST, 64, BOARD_WRONG_LENGTH);
    receive(BOARD_KIND, sent.r, 0xFFFFFFFF, PCL_MEMORY_MOST, 64, BOARD_WRONG_LENGTH);
    receive(2, sent.r, first, PCL_MEMORY_MOST, 64, BOARD_UNKNOWN_KIND);
    receive(BOARD_KIND, sent.r, first, PCL_MEMORY_MOST, 63, BOARD_BAD_ROOM);
    receive(BOARD_KIND, sent.units, first, PCL_MEMORY_MOST, 64, BOARD_LINK + PCL_NOT_FITTED);
}

static void messages_that_arrive(void)
{
    static const uint32_t counts[] = { 1, 2, 63, 64 };
    /* low; across 64, 128 and 192 K bytes; as high as a message may lie, which is short of byte 777776 */
    static const uint32_t places[] = { 3, 32768 - 3, 65536 - 2, 98304 - 1, PCL_MEMORY_MOST - 1 };

    for (size_t count = 0; count < COUNT(counts); count++)
        for (size_t place = 0; place < COUNT(places); place++)
            for (uint32_t ends = 0; ends < 4; ends++) {
                fit_link(2, ends & 1, ends >> 1);
                sent.to = place + 1 < COUNT(places) ? places[place] : places[place] - (uint32_t)BOARD_WORDS(counts[count]);
                build_message(counts[count]);
                ready(sent.words, true);
                send();
                arrives();
                look_around();
                build_message(counts[count]);                   /* and another behind it */
                ready(32768, true);
                send();
                arrives();
                look_everywhere("a message received");
            }
}

/* ---- messages that arrive with success, and are ill */

static const struct { uint32_t words; uint16_t first_word, kind, count; unsigned number; } ill[] = {
    { 1, 1, 0, 0, BOARD_WRONG_LENGTH }, { 2, 2, 1, 0, BOARD_WRONG_LENGTH },                             /* under 3 words */
    { 8, 7, 1, 5, BOARD_WRONG_LENGTH }, { 8, 9, 1, 5, BOARD_WRONG_LENGTH }, { 8, 0, 1, 5, BOARD_WRONG_LENGTH },
    { 8, 65535, 1, 5, BOARD_WRONG_LENGTH }, { 8, 7, 1, 4, BOARD_WRONG_LENGTH }, { 8, 9, 1, 6, BOARD_WRONG_LENGTH },
    { 8, 8, 0, 5, BOARD_UNKNOWN_KIND }, { 8, 8, 2, 5, BOARD_UNKNOWN_KIND }, { 8, 8, 257, 5, BOARD_UNKNOWN_KIND },
    { 8, 8, 65535, 5, BOARD_UNKNOWN_KIND },
    { 3, 3, 1, 0, BOARD_WRONG_COUNT }, { 4, 4, 1, 0, BOARD_WRONG_COUNT }, { 8, 8, 1, 0, BOARD_WRONG_COUNT },
    { 8, 8, 1, 4, BOARD_WRONG_COUNT }, { 8, 8, 1, 6, BOARD_WRONG_COUNT }, { 8, 8, 1, 256 + 5, BOARD_WRONG_COUNT },
    { 8, 8, 1, 65, BOARD_WRONG_COUNT }, { 8, 8, 1, 65535, BOARD_WRONG_COUNT }, { 67, 67, 1, 65, BOARD_WRONG_COUNT },
    { 68, 68, 1, 65, BOARD_WRONG_COUNT }, { 68, 68, 1, 64, BOARD_WRONG_COUNT }, { 68, 67, 1, 64, BOARD_WRONG_LENGTH },  /* over 67 */
    { 200, 200, 1, 197, BOARD_WRONG_COUNT }, { 200, 200, 1, 64, BOARD_WRONG_COUNT }, { 200, 67, 1, 64, BOARD_WRONG_LENGTH },
    { 200, 200, 2, 197, BOARD_UNKNOWN_KIND },
    { 8, 9, 2, 5, BOARD_WRONG_LENGTH }, { 8, 8, 2, 65535, BOARD_UNKNOWN_KIND }, { 8, 7, 2, 0, BOARD_WRONG_LENGTH }      /* several fit */
};

static void ill_messages(void)
{
    for (size_t i = 0; i < COUNT(ill); i++)
        for (uint32_t ends = 0; ends < 4; ends++) {
            const uint32_t words[] = { ill[i].first_word, ill[i].kind, ill[i].count };

            fit_link(2, ends & 1, ends >> 1);
            sent.words = ill[i].words;
            for (uint32_t place = 0; place < sent.words; place++)
                put_word(sent.t, sent.from + place, place < COUNT(words) ? (uint16_t)words[place] : any_word());
            ready(sent.words, true);
            send();
            arrives_as(ill[i].number);
            receive(BOARD_KIND, sent.r, bytes_of(sent.to), PCL_MEMORY_MOST, BOARD_SENSORS_MOST, ill[i].number);
            receive(2, sent.r, bytes_of(sent.to), PCL_MEMORY_MOST, BOARD_SENSORS_MOST,
                    ill[i].number == BOARD_WRONG_LENGTH ? BOARD_WRONG_LENGTH : BOARD_UNKNOWN_KIND);
        }
}

/* ---- messages that do not arrive whole; the words that came are a message by themselves, wherever that can be */

/* The old link's accident: all words have come, and the last stand in the silo. */
static void words_in_the_silo(void)
{
    fit_link(2, 0, 1);
    build_message(60);
    ready(sent.words, true);
    send();
    for (uint32_t i = 0; i < 100; i++) {
        own_slice(false);
        received(BOARD_NOT_COMPLETE);
    }
    must(l.unit[sent.r].receiver.side.silo.held == sent.words, "the words do not stand in the silo");
    for (uint32_t left = sent.words; left > 0; left--) {
        own_slice(false);
        received(BOARD_NOT_COMPLETE);
        call_move(sent.r, PCL_RECEIVER, PCL_MEMORY_MOST);
        received(BOARD_NOT_COMPLETE);
    }
    own_slice(false);
    received(BOARD_DONE);
    sent.serial++;                                              /* by the one opening */
    readings_are_those_sent();
}

/* REJ with RCV DAT: success with truncation. */
static void truncated(void)
{
    fit_link(2, 0, 1);
    build_message_and_more(1, 6);
    ready(32768, true);
    send();
    slices_until_stored(BOARD_WORDS(1));
    call_write(sent.r, PCL_RCR, PCL_RCR_RC_NPR | BOTH_COMMANDS | PCL_RCR_REJ);
    own_slices_in_vain(20);
    must((status_of_receiver() & 0x80B0) == (PCL_RSR_SUC_TXF | PCL_RSR_RECOM), "no success with truncation");
    must(stored() == BOARD_WORDS(1), "not the words of a message");
    call_write(sent.r, PCL_RSR, PCL_RSR_SUC_TXF);               /* the host says that it was not: RECOM alone made the difference */
    received(BOARD_DONE);
}

/* REJ without RCV DAT: the receiver gives up. */
static void rejected(void)
{
    fit_link(2, 0, 1);
    build_message_and_more(1, 6);
    ready(32768, true);
    send();
    slices_until_stored(BOARD_WORDS(1));
    call_write(sent.r, PCL_RCR, PCL_RCR_RC_NPR | PCL_RCR_RCV_WD | PCL_RCR_REJ);
    own_slices_in_vain(20);
    must((status_of_receiver() & 0x80B0) == PCL_RSR_RECOM, "not rejected");
}

/* RDBC counts one word fewer than come: BC OFL, and the last word is for the host to read. The message succeeds, with ERR. */
static void error_at_success(void)
{
    fit_link(2, 0, 1);
    build_message_and_more(1, 1);
    ready(sent.words - 1, true);
    send();
    slices_until_stored(BOARD_WORDS(1));
    own_slices_in_vain(9);
    must(status_of_receiver() & PCL_RSR_BC_OFL, "no BC OFL");
    call_write(sent.r, PCL_RCR, 0);
    call_read(sent.r, PCL_RDDB);
    own_slices_in_vain(9);
    must((status_of_receiver() & 0x80B0) == (PCL_RSR_SUC_TXF | PCL_RSR_ERR), "no success with an error");
    must(stored() == BOARD_WORDS(1), "not the words of a message");
    call_write(sent.r, PCL_RSR, PCL_RSR_SUC_TXF);               /* the host clears it: ERR alone made the difference */
    received(BOARD_DONE);
}

/* Each error bit that a host may write, beside SUC TXF. */
static void errors_written(void)
{
    fit_link(2, 0, 1);
    build_message(5);
    ready(sent.words, true);
    send();
    arrives();
    for (unsigned bit = 0; bit < 15; bit++) {
        uint32_t status;

        call_write(sent.r, PCL_RSR, PCL_RSR_SUC_TXF | 1u << bit);
        status = status_of_receiver();
        received(status & (PCL_RSR_ERR | PCL_RSR_RECOM) ? BOARD_NOT_COMPLETE : BOARD_DONE);
        call_write(sent.r, PCL_RSR, 0);
        received(BOARD_NOT_COMPLETE);
    }
}

/* SUC TXF of the message before is left standing, and the next is under way. */
static void another_under_way(void)
{
    fit_link(2, 0, 1);
    build_message(64);
    ready(sent.words, true);
    send();
    arrives();
    sent.to += 100;
    build_message_and_more(1, 6);
    ready(32768, false);
    received(BOARD_WRONG_LENGTH);                               /* no word of it has come yet */
    send();
    while (!(status_of_receiver() & PCL_RSR_CHN_OPN))
        slice(true);
    slices_until_stored(BOARD_WORDS(1));
    must((status_of_receiver() & 0x80B0) == (PCL_RSR_SUC_TXF | PCL_RSR_CHN_OPN), "no message under way beside SUC TXF");
    call_write(sent.t, PCL_TCR, PCL_TCR_TX_INIT);               /* and it is broken off */
    build_message(1);
    send();
    own_slices_in_vain(1);
    must(status_of_receiver() & PCL_RSR_TXM_ERR, "not broken off");
    received(BOARD_NOT_COMPLETE);
}

/* A word damaged on its way: PAR at the CRC, and no success. */
static void damaged_on_the_way(void)
{
    fit_link(2, 0, 1);
    build_message(3);
    ready(sent.words, true);
    send();
    slices_until_stored(2);
    while (pcl_address(call_slice(3, 0)) != sent.t + 1)         /* two lines, so that the parity is good */
        ;
    received(BOARD_NOT_COMPLETE);
    own_slices_in_vain(20);
    must((status_of_receiver() & 0x80B0) == PCL_RSR_ERR && status_of_receiver() & PCL_RSR_PAR, "the CRC was good");
}

/* Two periods without a word: TIM OUT; RC INIT and reset: nothing was received. */
static void given_up(void)
{
    for (unsigned how = 0; how < 3; how++) {
        fit_link(3, 0, 1);
        build_message_and_more(1, 6);
        ready(32768, true);
        send();
        slices_until_stored(BOARD_WORDS(1));
        if (how == 0) {
            call_period(sent.r);
            call_period(sent.r);
        } else if (how == 1)
            call_write(sent.r, PCL_RCR, PCL_RCR_RC_INIT);
        else
            call_reset(sent.r);
        own_slices_in_vain(9);
        must(!(status_of_receiver() & PCL_RSR_SUC_TXF) && (how != 0 || status_of_receiver() & PCL_RSR_TIM_OUT), "not given up");
    }
}

/* The last word goes to byte 777776: memory overflow, an error, and RDBA is at 0 again. */
static void past_the_memory(void)
{
    fit_link(2, 0, 1);
    build_message(64);
    sent.to = PCL_MEMORY_MOST - sent.words;
    ready(sent.words, true);
    send();
    own_slices_in_vain(90);
    must(status_of_receiver() & PCL_RSR_MEM_OFL, "no memory overflow");
    must(memory[sent.r][PCL_MEMORY_MOST - 1] == memory[sent.t][sent.from + sent.words - 1], "the last word did not come");
    call_write(sent.r, PCL_RSR, PCL_RSR_SUC_TXF);
    received(BOARD_WRONG_LENGTH);
}

/* ---- this message and the last, told apart by the serial */

/* T's next message. The serial that its readings come with is looked at there, and here in a number. */
static void next_arrives(unsigned serial)
{
    build_message(1 + below(5));
    ready(sent.words, true);
    send();
    arrives();
    received(BOARD_DONE);                                       /* once more, and still the same */
    must(serial_given == serial, "not the serial of this message");
}

/* A second success is not the first; whatever R, and the other side of either unit, had before; after 65,535 comes 0. */
static void one_after_the_other(void)
{
    for (uint32_t ends = 0; ends < 4; ends++) {
        fit_link(2, ends & 1, ends >> 1);
        next_arrives(1);
        next_arrives(2);
        put_serial(sent.r, PCL_RECEIVER, 4711);
        put_serial(sent.r ^ 1, PCL_RECEIVER, 815);
        put_serial(sent.t ^ 1, PCL_TRANSMITTER, 333);
        put_serial(sent.t, PCL_TRANSMITTER, sent.serial = 65534);
        next_arrives(65535);
        next_arrives(0);
        next_arrives(1);
    }
}

/* Each transmitter counts by itself, and its openings to every receiver; each receiver has that of its own last message. */
static void three_hosts(void)
{
    fit_link(3, 0, 2);
    next_arrives(1);
    next_arrives(2);
    sent.t = 1;
    sent.serial = 0;
    next_arrives(1);                                            /* R's serial before it was 2 */
    sent.r = 0;
    next_arrives(2);
    sent.r = 2;
    receive(BOARD_KIND, sent.r, bytes_of(sent.to), PCL_MEMORY_MOST, BOARD_SENSORS_MOST, BOARD_DONE);
    must(serial_given == 1, "another receiver's message gave this one its serial");
    next_arrives(3);
}

/* A message broken off in its middle at either end. Nothing changes its serial but the next opening. */
static void after_a_restart(void)
{
    for (unsigned how = 0; how < 4; how++) {
        fit_link(3, 0, 1);
        next_arrives(1);
        build_message_and_more(1, 6);
        ready(32768, true);
        send();
        slices_until_stored(BOARD_WORDS(1));
        must(serial_of_transmitter() == 2, "not the second opening");
        switch (how) {
        case 0: call_write(sent.t, PCL_TCR, PCL_TCR_TX_INIT); break;
        case 1: call_write(sent.r, PCL_RCR, PCL_RCR_RC_INIT); break;
        case 2: call_reset(sent.t); break;
        default: call_reset(sent.r); break;
        }
        own_slices_in_vain(3);
        build_message(1);
        send();
        own_slices_in_vain(2);                                  /* R is still open, or not ready: this opens nothing */
        must(serial_of_transmitter() == 2, "an INIT, a reset or an opening that was refused changed a serial");
        call_write(sent.t, PCL_TCR, PCL_TCR_TX_INIT);
        call_write(sent.r, PCL_RCR, PCL_RCR_RC_INIT);
        sent.serial = 2;
        next_arrives(3);
    }
    fit_link(3, 0, 1);
    next_arrives(1);
}

/* ---- every refusal alone, and every two at once */

enum { PLACE = 40, END = PLACE + (int)BOARD_WORDS(5) };

/* Words at a place of the memory, and the registers as after a success; a message of 5 readings, or one that is wrong. Its first word
 * comes with each call. */
static void put_received(uint32_t kind, uint32_t count)
{
    put_word(0, PLACE - 1, 0);
    put_word(0, PLACE + 1, (uint16_t)kind);
    put_word(0, PLACE + 2, (uint16_t)count);
    for (uint32_t i = PLACE + 3; i < END + 1; i++)
        put_word(0, i, once_in(3) ? 65535 : any_word());
}

/* The cells as lent: as they are, or a state out of range. */
enum { GOOD, UNITS_17, UNITS_65535, MASTER_3, CELL_LESS, TWO_CELLS, ONE_CELL, NO_CELLS, STATES };

static struct lent state_lent(unsigned state, size_t memory_length)
{
    static uint16_t copy[PCL_CELLS(2)];
    struct lent lent = { copy, PCL_CELLS(2), memory_length, state == GOOD ? &as_fitted : &out_of_range };

    memcpy(copy, cells, sizeof copy);
    switch (state) {
    case UNITS_17: copy[UNITS] = 17; break;
    case UNITS_65535: copy[UNITS] = 65535; break;
    case MASTER_3: copy[MASTER] = 3; break;
    case CELL_LESS: lent.cells_length--; break;
    case TWO_CELLS: lent.cells_length = 2; break;
    case ONE_CELL: lent.cells_length = 1; break;
    case NO_CELLS: lent.cells_length = 0; break;
    default: break;
    }
    return lent;
}

/* RSR as the host wrote it: complete, or not. */
static const uint32_t statuses[] = { PCL_RSR_SUC_TXF, 0, PCL_RSR_SUC_TXF | PCL_RSR_RECOM, PCL_RSR_SUC_TXF | PCL_RSR_TIM_OUT };
/* The length: right, or the first word is another, or other words than those of the message are the received ones. */
static const struct { uint32_t first; size_t memory_length; uint16_t first_word; } stretches[] = {
    { 2 * PLACE, END, 8 }, { 2 * PLACE, END, 7 }, { 2 * PLACE, END, 9 }, { 2 * PLACE, END, 0 }, { 2 * PLACE, END - 1, 8 },
    { 2 * PLACE, 0, 8 }, { 2 * PLACE + 2, END, 8 }, { 2 * PLACE - 2, END, 8 }, { 2 * END, END, 8 }, { 0xFFFFFFFE, END, 8 }
};

/* A message with some of the faults, in the order of the refusals. A word that did not come is neither a wrong kind nor a wrong count. */
static void receive_faulty(size_t room, unsigned state, uint32_t unit, size_t status, size_t stretch, uint32_t kind)
{
    const struct lent lent = state_lent(state, stretches[stretch].memory_length);
    uint32_t first = stretches[stretch].first;
    size_t words = lent.memory_length < END || first > 2 * END ? 0 : END - first / 2;
    const uint16_t *at = memory[0] + (words ? first / 2 : 0);
    bool fits[] = { room < BOARD_SENSORS_MOST, state != GOOD, unit != 0, status != 0, stretch != 0,
                    kind != BOARD_KIND || (words > 1 && at[1] != BOARD_KIND),
                    words > 2 && (at[2] == 0 || at[2] > BOARD_SENSORS_MOST || words != BOARD_WORDS(at[2])) };

    receive_from(&lent, kind, unit, first, room, due(&receive_order, fits));
}

static void refusals_in_receiving(void)
{
    static const size_t rooms[] = { 64, 65, 63, 0 };
    static const uint32_t units[] = { 0, 2, 16, 65536, 0xFFFFFFFF };
    static const uint32_t kinds[][2] = { { 1, 1 }, { 0, 1 }, { 65537, 1 }, { 1, 2 }, { 2, 2 } };
    static const uint32_t counts[] = { 5, 0, 4, 6, 65 };

    fit_link(2, 1, 0);
    put_serial(0, PCL_RECEIVER, 4711);                          /* which no refusal shows */
    put_serial(0, PCL_TRANSMITTER, 815);
    call_write(0, PCL_RDBA, 2 * END);
    for (size_t status = 0; status < COUNT(statuses); status++) {
        call_write(0, PCL_RSR, 0);
        call_write(0, PCL_RSR, statuses[status]);
        for (size_t kind = 0; kind < COUNT(kinds); kind++)
            for (size_t count = 0; count < COUNT(counts); count++) {
                put_received(kinds[kind][1], counts[count]);
                for (size_t room = 0; room < COUNT(rooms); room++)
                    for (unsigned state = 0; state < STATES; state++)
                        for (size_t unit = 0; unit < COUNT(units); unit++)
                            for (size_t stretch = 0; stretch < COUNT(stretches); stretch++) {
                                put_word(0, PLACE, stretches[stretch].first_word);
                                receive_faulty(rooms[room], state, units[unit], status, stretch, kinds[kind][0]);
                            }
            }
    }
    must_be_tried(&receive_order);
}

/* Before any fit: no unit is fitted. */
static void nothing_fitted(void)
{
    forget_both();
    for (uint32_t unit = 0; unit < PCL_UNITS_MOST + 1; unit++)
        receive(BOARD_KIND, unit, 0, 64, 64, BOARD_LINK + PCL_NOT_FITTED);
}

/* ---- random states of the link */

/* The place where R's address stands. */
static uint32_t end_of_received(uint32_t unit)
{
    const struct second_side *r = &unit_at(unit)->receiver.side;

    return ((uint32_t)r->command >> 4 & 3) * 32768 + r->bus_address / 2;
}

/* A message before that place, mostly right. */
static uint32_t plant_message(uint32_t unit)
{
    uint32_t end = end_of_received(unit), sensors = 1 + below(64), first = end - sensors - 3;

    if (unit >= l.units || end < BOARD_WORDS(sensors))
        return once_in(2) ? bad_number() : 2 * below(300);
    for (uint32_t i = first; i < end; i++)
        put_word(unit, i, any_word());
    put_word(unit, first, (uint16_t)(once_in(9) ? any_word() : end - first));
    put_word(unit, first + 1, (uint16_t)(once_in(9) ? below(3) : 1));
    put_word(unit, first + 2, (uint16_t)(once_in(9) ? below(70) : sensors));
    return 2 * first + below(2);
}

static void receive_some(void)
{
    uint32_t unit = some_unit(), first, kind = once_in(20) ? bad_number() : BOARD_KIND;
    size_t memory_length = once_in(9) ? below(PCL_MEMORY_MOST + 1) : once_in(9) ? PCL_MEMORY_MOST : end_of_received(unit);
    size_t room = once_in(20) ? below(ROOM_MOST) : 64 + below(3);
    struct lent lent = { cells, PCL_CELLS(l.units), memory_length, &as_fitted };

    if (once_in(2))
        call_write(unit, PCL_RSR, PCL_RSR_SUC_TXF | perhaps(1u << below(16), 3));
    first = plant_message(unit);
    if (once_in(20)) {
        lent.cells_length -= 1 + below((uint32_t)lent.cells_length);
        lent.link = &out_of_range;
    }
    receive_from(&lent, kind, unit, first, room, WHATEVER);
}

static void random_states(unsigned long long wanted)
{
    static const unsigned numbers[] = { BOARD_DONE, BOARD_NOT_COMPLETE, BOARD_WRONG_LENGTH, BOARD_UNKNOWN_KIND, BOARD_WRONG_COUNT,
                                        BOARD_BAD_ROOM, BOARD_LINK + PCL_NOT_FITTED, BOARD_LINK + PCL_BAD_ROOM };
    unsigned long long before[COUNT(by_number)], serials = with_serial, end = receives + wanted;
    bool answered[COUNT(by_number)] = { false };

    memcpy(before, by_number, sizeof before);
    while (receives < end) {
        scene();
        if (l.units && once_in(4))
            damage_unit(fitted_unit(), 4);
        for (unsigned i = 0; i < 40; i++)
            receive_some();
    }
    look_everywhere("the end");
    for (size_t i = 0; i < COUNT(numbers); i++)
        answered[numbers[i]] = true;
    for (unsigned number = 0; number < NUMBERS; number++)
        must((by_number[number] > before[number]) == answered[number], "a number was never answered at random, or one that there is not");
    must(with_serial > serials, "no serial but 0 was answered at random");
}

int main(int count, char **arguments)
{
    unsigned long long wanted = count > 1 ? strtoull(arguments[1], NULL, 10) : 20000;

    seed = count > 2 ? strtoull(arguments[2], NULL, 10) : 1;
    cells_row = row_of(PCL_CELLS_MOST * sizeof *cells);
    memory_row = row_of(PCL_MEMORY_MOST * sizeof(uint16_t));
    readings_row = row_of(ROOM_MOST * sizeof(uint32_t));
    for (uint32_t unit = 0; unit < PCL_UNITS_MOST; unit++)
        for (uint32_t i = 0; i < PCL_MEMORY_MOST; i++)
            memory[unit][i] = memory_of_second[unit][i] = any_word();
    depth = ANSWERS;
    nothing_fitted();
    messages_that_arrive();
    must(extended[0] && extended[1] && extended[2] && extended[3], "EA17 and EA16 were not all in use");
    ill_messages();
    words_in_the_silo();
    truncated();
    rejected();
    error_at_success();
    errors_written();
    another_under_way();
    damaged_on_the_way();
    given_up();
    past_the_memory();
    one_after_the_other();
    three_hosts();
    after_a_restart();
    refusals_in_receiving();
    random_states(wanted);
    printf("board: %llu times received as by the second, over %llu calls of the link; %llu times with readings\n",
           receives, calls, by_number[BOARD_DONE]);
    return 0;
}
