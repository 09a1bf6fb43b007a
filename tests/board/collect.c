/* collect.c - board_collect on the archives against the second implementation over
 * the second library: silos with no word, one, and up to a full one, in memories that
 * end behind them, before them and among them, with every EA17 and EA16; counts that
 * run out; every refusal; and random states of the link.
 *
 * collect [random calls [seed]] */
#define _DEFAULT_SOURCE
#define DRIVE_MEMORY 0
#define DRIVE_MOST 0xFFFFFFFF
#define STEPS 60                        /* of a random scene */
#include "board.h"
#include "rows.h"
#include "second.h"                     /* the board's; the link's comes with both.h */
#include "damage.h"
#include "scenes.h"

#define COUNT(row) (sizeof (row) / sizeof (row)[0])
enum { FULL = 64, BAD_STATE = BOARD_LINK + PCL_BAD_ROOM, NO_UNIT = BOARD_LINK + PCL_NOT_FITTED, NUMBERS = BAD_STATE + 1 };
enum { T, R };

static struct row cells_row, memory_row;
static unsigned long long collects, by_number[NUMBERS], extended[4];

static void must(bool holds, const char *what)
{
    if (holds)
        return;
    printf("board, after %llu collects and %llu calls of the link: %s\n", collects, calls, what);
    exit(1);
}

/* ---- one call on both */

struct lent {
    const uint16_t *cells;
    size_t cells_length, memory_length;
};

static uint64_t move_second(void *link, uint32_t unit)
{
    const struct lent *lent = link;

    return second_move(&l, unit, PCL_RECEIVER, memory_of_second[unit % PCL_UNITS_MOST], lent->memory_length);
}

/* What the link answers in a state out of range, which the second library has not. */
static uint64_t move_nothing(void *link, uint32_t unit)
{
    (void)link, (void)unit;
    return PCL_BAD_ROOM;
}

/* The link's cells as they are lent; those that are left become the link's, if these were. */
static uint64_t collect_from(struct lent *lent, uint32_t unit)
{
    uint32_t place = unit % PCL_UNITS_MOST;
    size_t cells_bytes = lent->cells_length * sizeof *cells, memory_bytes = lent->memory_length * sizeof *memory[0];
    bool in_range = lent->cells == cells && lent->cells_length >= PCL_CELLS(l.units);
    uint16_t *lent_cells = lend(&cells_row, lent->cells, cells_bytes), *lent_memory = lend(&memory_row, memory[place], memory_bytes);
    uint64_t archive = board_collect(lent_cells, lent->cells_length, lent_memory, lent->memory_length, unit);
    uint64_t second = second_board_collect(in_range ? move_second : move_nothing, lent, unit);
    unsigned number = board_number(archive);

    if (archive != second) {
        printf("board, after %llu collects and %llu calls of the link: the archive answers %#llx, the second %#llx\n", collects, calls,
               (unsigned long long)archive, (unsigned long long)second);
        exit(1);
    }
    must(is_alone(&cells_row) && is_alone(&memory_row), "collecting wrote beside what was lent");
    must(number < NUMBERS, "an answer's number is none that there is");
    must(number < BOARD_LINK || board_value(archive) == 0, "a refusal has a value");
    must(number < BOARD_LINK || (holds(&cells_row, lent->cells) && holds(&memory_row, memory[place])), "a refusal changed something");
    must(holds(&memory_row, memory_of_second[place]), "another word of the memory is left");
    if (in_range) {
        memcpy(cells_before, cells, sizeof cells);
        memcpy(cells, lent_cells, cells_bytes);
        memcpy(memory[place], lent_memory, memory_bytes);
        look_at_cells("collect", PCL_DONE);
        memcpy(cells_before, cells, sizeof cells);
    }
    collects++;
    by_number[number]++;
    return archive;
}

static uint64_t collect(uint32_t unit, size_t memory_length)
{
    struct lent lent = { cells, PCL_CELLS(l.units), memory_length };

    return collect_from(&lent, unit);
}

static void collect_must(uint32_t unit, size_t memory_length, unsigned number, uint32_t value, const char *what)
{
    uint64_t answer = collect(unit, memory_length);

    if (board_number(answer) == number && board_value(answer) == value && board_missing(answer) == (number == BOARD_MISSING ? value : 0))
        return;
    printf("%s: number %u with %u, wanted is %u with %u\n", what, board_number(answer), board_value(answer), number, (unsigned)value);
    exit(1);
}

/* ---- words that stand in a silo */

static uint32_t held(void) { return l.unit[R].receiver.side.silo.held; }
static uint32_t status(void) { return pcl_value(pcl_read(cells, PCL_CELLS_MOST, R, PCL_RSR)); }
static uint32_t address(void)
{
    uint32_t rcr = pcl_value(pcl_read(cells, PCL_CELLS_MOST, R, PCL_RCR)), rdba = pcl_value(pcl_read(cells, PCL_CELLS_MOST, R, PCL_RDBA));

    return (rcr >> 4 & 3) << 16 | rdba;
}

/* R has a memory of so many words, is to store from a place of it on, so many words by its count, and holds some in its silo. */
static void fill(uint32_t length, uint32_t to, uint32_t count, uint32_t words)
{
    const uint32_t setup[] = { 1, receiver_of(0), 3, 300, 2, receiver_of(1), 3, length };

    call_fit(setup, COUNT(setup));
    take_mastership(T);
    call_write(R, PCL_RDBA, 2 * to & 0xFFFF);
    call_write(R, PCL_RDBC, -2 * count & 0xFFFF);
    call_write(R, PCL_RCR, PCL_RCR_RC_NPR | BOTH_COMMANDS | (to >> 15) << 4);
    if (words == 0)
        return;
    for (uint32_t i = 0; i < words; i++)
        memory[T][i] = memory_of_second[T][i] = any_word();
    call_write(T, PCL_TSBA, 0);
    call_write(T, PCL_TSBC, -2 * words & 0xFFFF);
    call_write(T, PCL_TCR, PCL_TCR_DESTINATION(receiver_of(R)) | PCL_TCR_TX_NPR | BOTH_COMMANDS);
    for (unsigned guard = 0; held() < words; guard++) {
        must(guard < 2000, "the words do not come into the silo");
        while (pcl_number(call_move(T, PCL_TRANSMITTER, 300)) == PCL_DONE)
            ;
        call_slice(0, 0);
    }
}

/* That so many words were stored from a place on, and the rest stands in the silo. */
static void must_be_stored(uint32_t to, uint32_t stored, uint32_t left)
{
    must(held() == left, "not so many words are left in the silo");
    must(memcmp(memory[R] + to, memory[T], stored * sizeof *memory[R]) == 0, "the words stored are not those that came");
    look_everywhere("collect");
}

static const uint32_t counts[] = { 0, 1, 2, 63, 64 };

static void all_is_stored(void)
{
    for (size_t i = 0; i < COUNT(counts); i++)
        for (uint32_t room = 0; room < 3; room++) {
            fill(100 + counts[i] + room, 100, 32768, counts[i]);
            collect_must(R, 100 + counts[i] + room, BOARD_DONE, counts[i], "a silo");
            must(!(status() & PCL_RSR_ERR), "an error");
            must_be_stored(100, counts[i], 0);
            collect_must(R, 100 + counts[i] + room, BOARD_DONE, 0, "an empty silo");
            collect_must(T, 300, BOARD_DONE, 0, "a receiver that nobody made ready");
        }
}

/* The memory ends so many words behind the place where the first goes: low, and at every EA17 and EA16. */
static void an_address_is_missing(void)
{
    static const uint32_t lengths[] = { 70, 32767, 32768, 32769, 65536, 70000, 98304, 110000, PCL_MEMORY_MOST - 1 };

    for (size_t i = 0; i < COUNT(lengths); i++)
        for (size_t k = 0; k < COUNT(counts); k++)
            for (uint32_t words = counts[k] + 1; words <= FULL; words += 1 + words / 8) {
                uint32_t stored = counts[k], to = lengths[i] - stored;

                fill(lengths[i], to, 32768, words);
                collect_must(R, lengths[i], BOARD_MISSING, 2 * lengths[i], "a memory that ends");
                must(address() == 2 * lengths[i] && (status() & (PCL_RSR_NXL | PCL_RSR_ERR)) == (PCL_RSR_NXL | PCL_RSR_ERR), "no NXL");
                must_be_stored(to, stored, words - stored);
                extended[lengths[i] >> 15]++;
                collect_must(R, lengths[i], BOARD_DONE, 0, "again with NXL");
                call_write(R, PCL_RSR, 0);
                collect_must(R, PCL_MEMORY_MOST, BOARD_MISSING, 2 * lengths[i], "again without NXL, with more lent than was fitted");
            }
    must(extended[0] && extended[1] && extended[2] && extended[3], "EA17 and EA16 were not all in use");
}

/* The first address lies anywhere past the memory; bit 0 is dropped. */
static void far_past(void)
{
    for (uint32_t length = 1; length < 4; length++)
        for (uint32_t to = length; to < PCL_MEMORY_MOST; to += 1 + to / 2) {
            fill(length, to, 32768, 3);
            call_write(R, PCL_RDBA, (2 * to & 0xFFFF) | 1);
            collect_must(R, length, BOARD_MISSING, 2 * to, "far past");
            must(held() == 3, "a word is gone");
        }
}

/* RDBC runs out: a move is answered 0 with BC OFL, and the rest stays in the silo. The address is not looked at. */
static void the_count_runs_out(void)
{
    for (uint32_t words = 1; words <= FULL; words++)
        for (uint32_t count = 1; count <= words; count += 1 + count / 4) {
            fill(count, 0, count, words);
            collect_must(R, count, BOARD_DONE, count + (count < words), "a count that runs out");
            must(!(status() & PCL_RSR_BC_OFL) == (count == words), "BC OFL where it is not, or none where it is");
            must_be_stored(0, count, words - count);
        }
}

/* The word at 777776 is stored, with memory overflow, and then nothing is to be moved. */
static void past_777776(void)
{
    for (uint32_t stored = 1; stored < 4; stored++) {
        fill(PCL_MEMORY_MOST, PCL_MEMORY_MOST - stored, 32768, 5);
        collect_must(R, PCL_MEMORY_MOST, BOARD_DONE, stored, "memory overflow");
        must(status() & PCL_RSR_MEM_OFL, "no memory overflow");
        must_be_stored(PCL_MEMORY_MOST - stored, stored, 5 - stored);
    }
}

/* Without RC NPR the words are the host's. */
static void for_the_host(void)
{
    fill(100, 0, 32768, 7);
    call_write(R, PCL_RCR, BOTH_COMMANDS);
    collect_must(R, 100, BOARD_DONE, 0, "RC NPR clear");
    must(held() == 7, "a word is gone");
}

/* ---- refusals */

static void refused(void)
{
    static const uint32_t units[] = { 2, 15, 16, 65535, 65536, 65537, 0xFFFFFFFF };
    static uint16_t copy[PCL_CELLS(2)];
    static const struct { size_t place; uint16_t cell; } headers[] = { { UNITS, 17 }, { UNITS, 65535 }, { MASTER, 3 }, { MASTER, 65535 } };

    forget_both();
    for (uint32_t unit = 0; unit < PCL_UNITS_MOST + 1; unit++)
        collect_must(unit, unit, NO_UNIT, 0, "before any fit");
    fill(100, 97, 32768, FULL);
    for (size_t i = 0; i < COUNT(units); i++)
        for (size_t length = 0; length < 200; length += 99)
            collect_must(units[i], length, NO_UNIT, 0, "a unit that is not fitted");
    for (size_t length = 0; length < 100; length += 11)
        collect_must(R, length, BAD_STATE, 0, "a memory that is too short");
    for (size_t fewer = 1; fewer <= PCL_CELLS(2); fewer++)
        for (uint32_t unit = 0; unit < 3; unit++) {
            struct lent lent = { cells, PCL_CELLS(2) - fewer, 100 };

            must(board_number(collect_from(&lent, unit)) == BAD_STATE, "too few cells");
        }
    for (size_t i = 0; i < COUNT(headers); i++)
        for (uint32_t unit = 0; unit < 3; unit++) {
            struct lent lent = { copy, PCL_CELLS(2), unit == 0 ? 0 : 100 };

            memcpy(copy, cells, sizeof copy);
            copy[headers[i].place] = headers[i].cell;
            must(board_number(collect_from(&lent, unit)) == BAD_STATE, "a header out of range");
        }
    collect_must(R, 100, BOARD_MISSING, 200, "after all refusals");
    must_be_stored(97, 3, FULL - 3);
}

/* ---- random states of the link */

static void random_states(unsigned long long wanted)
{
    static const unsigned numbers[] = { BOARD_DONE, BOARD_MISSING, NO_UNIT, BAD_STATE };
    unsigned long long before[NUMBERS], end = collects + wanted;

    memcpy(before, by_number, sizeof before);
    while (collects < end) {
        scene();
        if (l.units && once_in(4))
            damage_unit(fitted_unit(), 4);
        memcpy(cells_before, cells, sizeof cells);
        for (unsigned i = 0; i < 8; i++) {
            uint32_t unit = once_in(9) ? bad_number() : fitted_unit(), length = unit_at(unit)->memory_length;

            if (once_in(4)) {
                call_write(unit, PCL_RSR, 0);
                call_write(unit, PCL_RCR, PCL_RCR_RC_NPR | BOTH_COMMANDS | below(4) << 4);
            }
            collect(unit, once_in(9) ? below(length + 1) : once_in(9) ? PCL_MEMORY_MOST : length);
        }
        look_everywhere("random states");
    }
    for (size_t i = 0; i < COUNT(numbers); i++)
        must(by_number[numbers[i]] > before[numbers[i]], "a number was never answered at random");
}

int main(int count, char **arguments)
{
    unsigned long long wanted = count > 1 ? strtoull(arguments[1], NULL, 10) : 5000, answered;

    seed = count > 2 ? strtoull(arguments[2], NULL, 10) : 1;
    cells_row = row_of(PCL_CELLS_MOST * sizeof *cells);
    memory_row = row_of(PCL_MEMORY_MOST * sizeof(uint16_t));
    for (uint32_t unit = 0; unit < PCL_UNITS_MOST; unit++)
        for (uint32_t i = 0; i < PCL_MEMORY_MOST; i++)
            memory[unit][i] = memory_of_second[unit][i] = any_word();
    depth = ANSWERS;
    refused();
    all_is_stored();
    an_address_is_missing();
    far_past();
    the_count_runs_out();
    past_777776();
    for_the_host();
    random_states(wanted);
    answered = by_number[BOARD_DONE] + by_number[BOARD_MISSING] + by_number[NO_UNIT] + by_number[BAD_STATE];
    must(answered == collects, "a number was answered that there is not");
    printf("board: %llu times collected as by the second, over %llu calls of the link; %llu times an address was missing\n", collects, calls,
           by_number[BOARD_MISSING]);
    return 0;
}
