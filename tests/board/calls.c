/* calls.c - board_build and board_read on the archive and on the second
 * implementation, with the same arguments on both: every refusal alone and every
 * two at once, lengths that lie, every kind of value, building and reading back,
 * and random calls.
 *
 * calls [random calls [seed]] */
#define _DEFAULT_SOURCE
#include "board.h"
#include "orders.h"
#include "random.h"
#include "rows.h"
#include "second.h"

enum { MOST = 66000 };                  /* elements of the longest row */
#define COUNT(row) (sizeof (row) / sizeof (row)[0])

static struct row message_row, readings_row;
static uint16_t some_words[MOST];       /* what room holds before a call */
static uint32_t some_numbers[MOST];
static uint16_t built[MOST];            /* the room as the last call left it */
static uint32_t given[MOST];
static unsigned long long builds, reads;
static unsigned long long built_by[BOARD_BAD_ROOM + 1], read_by[BOARD_BAD_ROOM + 1];   /* by the number answered */

static struct order build_order = { .call = "building", .refusals = 4,
    .number = { BOARD_UNKNOWN_KIND, BOARD_BAD_ROOM, BOARD_WRONG_COUNT, BOARD_RESERVED_VALUE } };
static struct order read_order = { .call = "reading", .refusals = 5,
    .number = { BOARD_BAD_ROOM, BOARD_NOT_COMPLETE, BOARD_WRONG_LENGTH, BOARD_UNKNOWN_KIND, BOARD_WRONG_COUNT } };

static void must(bool holds, const char *what)
{
    if (holds)
        return;
    printf("board, after %llu built and %llu read: %s\n", builds, reads, what);
    exit(1);
}

/* ---- one call on both; the number, which is also what was wanted of it where that is known */

enum { WHATEVER = 99 };

static unsigned look(const char *call, uint32_t archive, uint32_t second, unsigned wanted, unsigned long long *by)
{
    unsigned number = board_number(archive);

    if (archive != second || (wanted != WHATEVER && number != wanted)) {
        printf("board, after %llu built and %llu read: %s: the archive answers %#x, the second %#x, wanted is number %u\n", builds,
               reads, call, (unsigned)archive, (unsigned)second, wanted);
        exit(1);
    }
    must(number <= BOARD_BAD_ROOM, "an answer's number is none of the refusals");
    must(number == BOARD_DONE || board_value(archive) == 0, "a refusal has a value");
    by[number]++;
    return number;
}

static unsigned build(uint32_t kind, const uint32_t *readings, size_t count, size_t room, unsigned wanted)
{
    static uint16_t of_second[MOST];
    uint32_t *lent = lend(&readings_row, readings, count * sizeof *readings);
    uint16_t *message = lend(&message_row, some_words, room * sizeof *message);
    uint32_t archive, second;
    unsigned number;
    size_t written;

    memcpy(of_second, some_words, room * sizeof *of_second);
    archive = board_build(kind, lent, count, message, room);
    second = second_board_build(kind, readings, count, of_second, room);
    number = look("building", archive, second, wanted, built_by);
    must(holds(&message_row, of_second), "another message is built");
    must(holds(&readings_row, readings), "building changed the readings");
    must(is_alone(&message_row) && is_alone(&readings_row), "building wrote beside what was lent");
    written = number == BOARD_DONE ? board_value(archive) : 0;
    must(number != BOARD_DONE || written == BOARD_WORDS(count), "not as many words as a message has");
    must(written <= room && memcmp(message + written, some_words + written, (room - written) * sizeof *message) == 0,
         "a word past the message is not as it was, or one after a refusal");
    memcpy(built, message, room * sizeof *built);
    builds++;
    return number;
}

static unsigned read(uint32_t kind, uint32_t complete, const uint16_t *message, size_t words, size_t room, unsigned wanted)
{
    static uint32_t of_second[MOST];
    uint16_t *lent = lend(&message_row, message, words * sizeof *message);
    uint32_t *readings = lend(&readings_row, some_numbers, room * sizeof *readings);
    uint32_t archive, second;
    unsigned number;
    size_t sensors;

    memcpy(of_second, some_numbers, room * sizeof *of_second);
    archive = board_read(kind, complete, lent, words, readings, room);
    second = second_board_read(kind, complete, message, words, of_second, room);
    number = look("reading", archive, second, wanted, read_by);
    must(holds(&readings_row, of_second), "another reading is given");
    must(holds(&message_row, message), "reading changed the message");
    must(is_alone(&message_row) && is_alone(&readings_row), "reading wrote beside what was lent");
    sensors = board_sensors(archive);
    must(sensors == board_value(archive) && board_serial(archive) == 0, "reading answers more than the count of sensors");
    must(sensors <= room && memcmp(readings + sensors, some_numbers + sensors, (room - sensors) * sizeof *readings) == 0,
         "a reading past the last is not as it was, or one after a refusal");
    for (size_t i = 0; i < sensors; i++)
        must(readings[i] == (message[3 + i] == 0177777 ? BOARD_ABSENT : message[3 + i]), "a reading is not that of its word");
    memcpy(given, readings, room * sizeof *given);
    reads++;
    return number;
}

/* ---- every refusal alone, and every two at once */

/* A value that a message can carry, or none. */
static uint32_t some_reading(void) { return once_in(5) ? BOARD_ABSENT : once_in(5) ? 0 : below(0177777); }

/* A message that is right, of so many readings. */
static void put_message(uint16_t *message, size_t sensors)
{
    message[0] = (uint16_t)BOARD_WORDS(sensors);
    message[1] = BOARD_KIND;
    message[2] = (uint16_t)sensors;
    for (size_t i = 0; i < sensors; i++) {
        uint32_t reading = some_reading();

        message[3 + i] = reading == BOARD_ABSENT ? 0177777 : (uint16_t)reading;
    }
}

static const size_t some_counts[] = { 1, 2, 63, 64 };

/* How a message's length may be wrong: too few words received, or the first word another than their number. */
enum { RIGHT, NO_WORDS, ONE_WORD, TWO_WORDS, WORD_LESS, WORD_MORE, FIRST_LESS, FIRST_MORE, FIRST_0, FIRST_65535, LENGTHS };

static size_t words_received(unsigned length, size_t words)
{
    return length == NO_WORDS ? 0 : length == ONE_WORD ? 1 : length == TWO_WORDS ? 2 : length == WORD_LESS ? words - 1
        : length == WORD_MORE ? words + 1 : words;
}

static size_t first_word(unsigned length, size_t words)
{
    return length == FIRST_LESS ? words - 1 : length == FIRST_MORE ? words + 1 : length == FIRST_0 ? 0 : length == FIRST_65535 ? 65535
        : words;
}

/* A message with some of the faults, in the order of the refusals. A word that did not come is neither a wrong kind nor a wrong count. */
static void read_faulty(size_t sensors, size_t room, uint32_t complete, unsigned length, const uint32_t *kinds, uint32_t count)
{
    uint16_t message[BOARD_WORDS_MOST + 1];
    size_t words = BOARD_WORDS(sensors), received = words_received(length, words);
    bool fits[] = { room < BOARD_SENSORS_MOST, complete == 0, length != RIGHT,
                    kinds[0] != BOARD_KIND || (received > 1 && kinds[1] != BOARD_KIND),
                    received > 2 && (count == 0 || count > BOARD_SENSORS_MOST || received != BOARD_WORDS(count)) };

    put_message(message, sensors);
    message[words] = any_word();
    message[0] = (uint16_t)first_word(length, words);
    message[1] = (uint16_t)kinds[1];
    message[2] = (uint16_t)count;
    read(kinds[0], complete, message, received, room, due(&read_order, fits));
}

static void refusals_in_reading(void)
{
    static const size_t rooms[] = { 64, 65, 200, 63, 1, 0 };
    static const uint32_t completes[] = { 1, 2, 0x100, 0x10000, 0xFFFFFFFF, 0 };
    static const uint32_t kinds[][2] = { { 1, 1 }, { 0, 1 }, { 2, 1 }, { 2, 2 }, { 65537, 1 }, { 0xFFFFFFFF, 1 }, { 1, 0 }, { 1, 2 },
                                         { 1, 257 }, { 1, 65535 } };

    for (size_t s = 0; s < COUNT(some_counts); s++) {
        uint32_t k = (uint32_t)some_counts[s], counts[] = { k, 0, k - 1, k + 1, 65, 65535 };

        for (size_t room = 0; room < COUNT(rooms); room++)
            for (size_t complete = 0; complete < COUNT(completes); complete++)
                for (unsigned length = 0; length < LENGTHS; length++)
                    for (size_t kind = 0; kind < COUNT(kinds); kind++)
                        for (size_t count = 0; count < COUNT(counts); count++)
                            read_faulty(k, rooms[room], completes[complete], length, kinds[kind], counts[count]);
    }
    must_be_tried(&read_order);
}

/* No present value of 177777, one at the first, at the last or in the middle, or all. */
enum { NOWHERE, FIRST, LAST, MIDDLE, EVERYWHERE, PLACES };

static void build_faulty(uint32_t kind, size_t room, size_t sensors, unsigned place)
{
    static uint32_t readings[MOST];
    bool fits[] = { kind != BOARD_KIND, room < BOARD_WORDS_MOST, sensors == 0 || sensors > BOARD_SENSORS_MOST,
                    place != NOWHERE && sensors > 0 };

    for (size_t i = 0; i < sensors; i++)
        readings[i] = place == EVERYWHERE ? 0177777 : some_reading();
    if (sensors > 0 && place != NOWHERE)
        readings[place == FIRST ? 0 : place == LAST ? sensors - 1 : sensors / 2] = 0177777;
    build(kind, readings, sensors, room, due(&build_order, fits));
}

static void refusals_in_building(void)
{
    static const uint32_t kinds[] = { 1, 0, 2, 65537, 0xFFFFFFFF };
    static const size_t rooms[] = { 67, 68, 200, 66, 3, 1, 0 };
    static const size_t counts[] = { 1, 2, 63, 64, 0, 65, 66, 200, 65535, 65536, 65537, 65600 };

    for (size_t kind = 0; kind < COUNT(kinds); kind++)
        for (size_t room = 0; room < COUNT(rooms); room++)
            for (size_t count = 0; count < COUNT(counts); count++)
                for (unsigned place = 0; place < (counts[count] < 1000 ? (unsigned)PLACES : 2u); place++)
                    build_faulty(kinds[kind], rooms[room], counts[count], place);
    must_be_tried(&build_order);
}

/* ---- lengths that lie */

/* Every count of words received, with first words and sensor counts beside the right ones. */
static void lengths_that_lie(void)
{
    static const size_t more[] = { 127, 128, 255, 256, 257, 65535, 65536 + 3, 65536 + 4, 65536 + 67 };
    static uint16_t message[MOST];

    memcpy(message, some_words, sizeof message);
    message[1] = BOARD_KIND;
    for (size_t i = 0; i < 73 + COUNT(more); i++) {
        size_t words = i < 73 ? i : more[i - 73];
        uint32_t firsts[] = { (uint32_t)words, (uint32_t)words - 1, (uint32_t)words + 1, 0, 3, 65535 };

        for (size_t first = 0; first < COUNT(firsts); first++)
            for (uint32_t k = 0; k < 76; k++) {
                uint32_t count = k < 73 ? k : k == 73 ? (uint32_t)words - 3 : k == 74 ? 65535 : 256 + (uint32_t)words - 3;
                unsigned wanted = words < 3 || (firsts[first] & 0xFFFF) != words ? BOARD_WRONG_LENGTH
                    : (count & 0xFFFF) < 1 || (count & 0xFFFF) > 64 || words != (count & 0xFFFF) + 3 ? BOARD_WRONG_COUNT : BOARD_DONE;

                message[0] = (uint16_t)firsts[first];
                message[2] = (uint16_t)count;
                read(BOARD_KIND, 1, message, words, BOARD_SENSORS_MOST, wanted);
            }
    }
}

/* ---- every kind of value at every place, built, read back and built again */

static void there_and_back(const uint32_t *readings, size_t sensors)
{
    uint16_t message[BOARD_WORDS_MOST];

    build(BOARD_KIND, readings, sensors, BOARD_WORDS_MOST, BOARD_DONE);
    must(built[0] == BOARD_WORDS(sensors) && built[1] == BOARD_KIND && built[2] == sensors, "a message begins otherwise");
    memcpy(message, built, sizeof message);
    read(BOARD_KIND, 1, message, BOARD_WORDS(sensors), BOARD_SENSORS_MOST, BOARD_DONE);
    for (size_t i = 0; i < sensors; i++)
        must(given[i] == (readings[i] > 65535 ? BOARD_ABSENT : readings[i]), "a reading that was built is read as another");
    build(BOARD_KIND, given, sensors, BOARD_WORDS_MOST, BOARD_DONE);
    must(memcmp(built, message, BOARD_WORDS(sensors) * sizeof *message) == 0, "a message that was read is built otherwise");
}

static void values_there_and_back(void)
{
    static const uint32_t values[] = { 0, 1, 0x7FFF, 0x8000, 65534, 65536, 65537, 65536 + 65535, 0x80000000, 0xFFFFFFFF };
    uint32_t readings[BOARD_SENSORS_MOST];

    for (size_t sensors = 1; sensors <= BOARD_SENSORS_MOST; sensors++) {
        for (size_t i = 0; i < sensors; i++)
            readings[i] = some_reading();
        there_and_back(readings, sensors);
        for (size_t i = 0; i < sensors; i++)
            readings[i] = BOARD_ABSENT;                         /* no sensor gave anything */
        there_and_back(readings, sensors);
        for (size_t place = 0; place < sensors; place += sensors < 10 ? 1 : 7)
            for (size_t value = 0; value < COUNT(values); value++) {
                readings[place] = values[value];
                there_and_back(readings, sensors);
            }
        readings[sensors - 1] = 65535;
        build(BOARD_KIND, readings, sensors, BOARD_WORDS_MOST, BOARD_RESERVED_VALUE);
    }
}

/* ---- random calls */

static uint32_t some_kind(void) { return once_in(20) ? below(4) : once_in(40) ? 65537 : BOARD_KIND; }

static void build_some(void)
{
    uint32_t readings[80];
    size_t sensors = once_in(9) ? below(80) : 1 + below(64), room = once_in(9) ? below(80) : 67 + below(3);
    bool reserved = once_in(4);

    for (size_t i = 0; i < sensors; i++)
        readings[i] = once_in(20) ? 0xFFFFFFFF - below(3) : reserved && once_in(20) ? 65535 : some_reading();
    build(some_kind(), readings, sensors, room, WHATEVER);
}

static void read_some(void)
{
    uint16_t message[80];
    size_t sensors = once_in(9) ? below(70) : 1 + below(64), words = BOARD_WORDS(sensors);

    for (size_t i = 0; i < COUNT(message); i++)
        message[i] = any_word();
    put_message(message, sensors);
    if (once_in(4))
        message[below(3)] ^= (uint16_t)(1u << below(once_in(2) ? 2 : 16));
    if (once_in(9))
        words = once_in(2) ? below(80) : words + 1 - below(3);
    if (once_in(9))
        message[0] = (uint16_t)words;
    read(some_kind(), once_in(9) ? below(2) : 1 + below(9), message, words, once_in(9) ? below(80) : 64 + below(3), WHATEVER);
}

/* Each number that a call has was answered since `before`, and none that it has not. */
static void must_be_answered(const char *call, const unsigned long long *by, const unsigned long long *before, const char *numbers)
{
    for (unsigned number = 0; number <= BOARD_BAD_ROOM; number++)
        if ((by[number] > before[number]) != (strchr(numbers, '0' + (int)number) != NULL)) {
            printf("board, %s: number %u was %sanswered\n", call, number, by[number] > before[number] ? "" : "never ");
            exit(1);
        }
}

static void random_calls(unsigned long long wanted)
{
    unsigned long long built_before[COUNT(built_by)], read_before[COUNT(read_by)];

    memcpy(built_before, built_by, sizeof built_before);
    memcpy(read_before, read_by, sizeof read_before);
    for (unsigned long long i = 0; i < wanted; i++)
        if (once_in(2))
            build_some();
        else
            read_some();
    must_be_answered("building at random", built_by, built_before, "03479");
    must_be_answered("reading at random", read_by, read_before, "012349");
}

int main(int count, char **arguments)
{
    unsigned long long wanted = count > 1 ? strtoull(arguments[1], NULL, 10) : 200000;

    seed = count > 2 ? strtoull(arguments[2], NULL, 10) : 1;
    message_row = row_of(MOST * sizeof *some_words);
    readings_row = row_of(MOST * sizeof *some_numbers);
    for (size_t i = 0; i < MOST; i++) {
        some_words[i] = any_word();
        some_numbers[i] = below(0x7FFFFFFF) * 2 + below(2);
    }
    refusals_in_reading();
    refusals_in_building();
    lengths_that_lie();
    values_there_and_back();
    random_calls(wanted);
    printf("board: %llu messages built and %llu read as by the second; every refusal alone, and every two at once\n", builds, reads);
    return 0;
}
