/* both.h - the archive and the second library side by side. Each call is made on
 * both; then the two answers have to be equal, the archive's cells have to be
 * docs/STATE.md's form of the second library's state, and the registers, levels,
 * serials and memories have to show the same. After a slice the calls for all
 * sides and for all words of a side have to be what the single calls are. The
 * first difference ends the program.
 *
 * Where cells were damaged, the second library reads them by docs/STATE.md, and
 * from then to the next fit the archive's cells have to be read as its state.
 * What a call does not put back has to stay as it is, cell by cell, and what it
 * puts back has to have its normal form. */
#ifndef BOTH_H
#define BOTH_H

#include <stdio.h>
#include <stdlib.h>
#include "puts.h"
#include "state.h"

static struct second_link l;
static uint16_t cells[PCL_CELLS_MOST], cells_before[PCL_CELLS_MOST];
/* Each unit's memory twice: the archive's, the second library's. */
static uint16_t memory[PCL_UNITS_MOST][PCL_MEMORY_MOST], memory_of_second[PCL_UNITS_MOST][PCL_MEMORY_MOST];
static unsigned long long calls;
/* How much is compared after each call; look_everywhere compares the rest. */
static enum { ANSWERS, CELLS, EVERYTHING } depth = EVERYTHING;
/* Cells hold patterns that no call writes. */
static bool untidy;
/* How the last call leaves the silos: anew, with the master's gone on by one, or each in the place of the one before. */
static enum { ANEW, TURNED, IN_PLACE } laid = IN_PLACE;

static void differ(const char *call, const char *what, uint64_t archive, uint64_t second)
{
    fprintf(stderr, "call %llu, %s: %s: the archive has %#llx, the second library %#llx\n", calls, call, what,
            (unsigned long long)archive, (unsigned long long)second);
    exit(1);
}

static void must_agree(const char *call, const char *what, uint32_t place, uint32_t unit, uint32_t archive, uint32_t second)
{
    char text[40];

    if (archive == second)
        return;
    snprintf(text, sizeof text, "%s %u of unit %u", what, (unsigned)place, (unsigned)unit);
    differ(call, text, archive, second);
}

/* The cells that the second library's state asks for; after a refusal those of before. */
static void look_at_cells(const char *call, uint32_t number)
{
    static uint16_t wanted[PCL_CELLS_MOST], got[PCL_CELLS_MOST];

    memcpy(got, cells, sizeof got);
    memcpy(wanted, cells_before, sizeof wanted);
    if (number == PCL_DONE || number == PCL_NOT_STARTED || number == PCL_DROPPED || number == PCL_NO_MASTER) {
        if (untidy) {
            static struct second_link read;

            of_cells(cells, &read);
            as_cells(&read, got);
        }
        as_cells(&l, wanted);
        if (!untidy && laid != ANEW)
            lay_all_over(cells_before, wanted, laid == TURNED);
        forget_unseen(wanted);
        forget_unseen(got);
    }
    if (!memcmp(got, wanted, sizeof got))
        return;
    for (uint32_t i = 0; i < FIRST_BLOCK; i++)
        if (got[i] != wanted[i])
            differ(call, i == UNITS ? "the count of units" : i == MASTER ? "who has MASTER" : "the index", got[i], wanted[i]);
    for (uint32_t i = FIRST_BLOCK; i < PCL_CELLS_MOST; i++)
        must_agree(call, "cell", (i - FIRST_BLOCK) % BLOCK, (i - FIRST_BLOCK) / BLOCK, got[i], wanted[i]);
}

/* That a receiver's verdict is good where none is owed is a bit that nothing looks at. */
static uint16_t in_normal_form(const uint16_t *normal, size_t place, uint32_t cell)
{
    bool owed = cells[place + RECEIVER + STATUS] & 1u << 6;

    return cell == RECEIVER + STATUS && !owed ? normal[place + cell] | (cells[place + cell] & 1u << 8) : normal[place + cell];
}

static void look_at_damaged_cells(const char *call)
{
    static struct second_link read;
    static uint16_t normal[PCL_CELLS_MOST];

    of_cells(cells, &read);
    as_cells(&read, normal);
    lay_all_over(cells_before, normal, laid == TURNED);
    for (uint32_t i = INDEX; i < FIRST_BLOCK; i++)
        if (cells[i] != cells_before[i])
            differ(call, "a cell of the index, left alone", cells[i], cells_before[i]);
    for (uint32_t unit = 0; unit < l.units; unit++) {
        size_t place = block_at(unit);

        for (uint32_t i = 0; i < TRANSMITTER; i++)
            must_agree(call, "own cell", i, unit, cells[place + i], cells_before[place + i]);
        for (size_t k = 0; k < PARTS; k++)
            if (put_back[unit] & parts[k].bit)
                for (uint32_t i = parts[k].first; i < parts[k].known; i++)
                    must_agree(call, "cell put back,", i, unit, cells[place + i], in_normal_form(normal, place, i));
            else
                for (uint32_t i = parts[k].first; i < parts[k].end; i++)
                    must_agree(call, "cell left alone,", i, unit, cells[place + i], cells_before[place + i]);
    }
}

/* Registers whose read may remove something come last; all reads are on copies. */
static void look_at_registers(const char *call)
{
    static const uint32_t offsets[] = { PCL_TCR, PCL_TSR, PCL_TSBC, PCL_TSBA, PCL_TSCRC, PCL_RCR, PCL_RSR, PCL_RDBC, PCL_RDBA,
                                        PCL_RDCRC, PCL_TMMR, PCL_TSDB, PCL_RDDB };
    static uint16_t copy[PCL_CELLS_MOST];
    static struct second_link copy_of_second;

    memcpy(copy, cells, sizeof copy);
    copy_of_second = l;
    for (uint32_t unit = 0; unit < l.units; unit++) {
        for (uint32_t side = 0; side < 2; side++)
            must_agree(call, "level", side, unit, pcl_level(copy, PCL_CELLS_MOST, unit, side),
                       second_interrupt_level(&copy_of_second, unit, side));
        for (size_t i = 0; i < sizeof offsets / sizeof offsets[0]; i++)
            must_agree(call, "register", offsets[i], unit, pcl_read(copy, PCL_CELLS_MOST, unit, offsets[i]),
                       second_read(&copy_of_second, unit, offsets[i]));
    }
}

/* The serial of every side, as the call for it shows it. */
static void look_at_serials(const char *call)
{
    for (uint32_t unit = 0; unit < l.units; unit++)
        for (uint32_t side = 0; side < 2; side++)
            must_agree(call, "serial", side, unit, pcl_serial(cells, PCL_CELLS_MOST, unit, side),
                       second_serial(&l, unit, side));
}

static void look_at_memory(const char *call, uint32_t unit, size_t words)
{
    if (!memcmp(memory[unit], memory_of_second[unit], words * sizeof(uint16_t)))
        return;
    for (size_t i = 0; i < words; i++)
        if (memory[unit][i] != memory_of_second[unit][i])
            differ(call, "a word of a memory", memory[unit][i], memory_of_second[unit][i]);
}

static inline void look_everywhere(const char *call)
{
    if (depth == ANSWERS)
        memcpy(cells_before, cells, sizeof cells);
    look_at_cells(call, PCL_DONE);
    look_at_serials(call);
    look_at_registers(call);
    for (uint32_t unit = 0; unit < PCL_UNITS_MOST; unit++)
        look_at_memory(call, unit, PCL_MEMORY_MOST);
}

static uint32_t look(const char *call, uint64_t archive, uint64_t second)
{
    calls++;
    if (archive != second)
        differ(call, "the answer", archive, second);
    if (depth >= CELLS) {
        if (untidy)
            look_at_damaged_cells(call);
        look_at_cells(call, pcl_number(archive));
        look_at_serials(call);
        memcpy(cells_before, cells, sizeof cells);
    }
    laid = IN_PLACE;
    if (depth >= EVERYTHING)
        look_at_registers(call);
    return (uint32_t)archive;
}

/* Both unfitted, whatever was there. */
static inline void forget_both(void)
{
    memset(cells, 0, sizeof cells);
    memset(cells_before, 0, sizeof cells);
    memset(&l, 0, sizeof l);
    untidy = false;
}

static uint32_t call_fit(const uint32_t *setup, size_t length)
{
    uint32_t archive = pcl_fit(cells, PCL_CELLS_MOST, setup, length);

    puts_nothing();
    untidy = untidy && archive != PCL_DONE;
    laid = archive == PCL_DONE ? ANEW : IN_PLACE;
    return look("fit", archive, second_fit(&l, setup, length));
}

static uint32_t call_write(uint32_t unit, uint32_t offset, uint32_t word)
{
    expect_write(unit, offset, word);
    return look("write", pcl_write(cells, PCL_CELLS_MOST, unit, offset, (uint16_t)word),
                second_write(&l, unit, offset, (uint16_t)word));
}

static uint32_t call_write_byte(uint32_t unit, uint32_t offset, uint32_t byte)
{
    expect_write_byte(unit, offset, byte);
    return look("byte write", pcl_write_byte(cells, PCL_CELLS_MOST, unit, offset, (uint8_t)byte),
                second_write_byte(&l, unit, offset, (uint8_t)byte));
}

static uint32_t call_read(uint32_t unit, uint32_t offset)
{
    expect_read(unit, offset);
    return look("read", pcl_read(cells, PCL_CELLS_MOST, unit, offset), second_read(&l, unit, offset));
}

/* Both masks, and each of their bits by the call at its side, on a copy: what a move leaves at one side is nothing to another. Cells that
 * were damaged may ask for more memory than there is: of such a move nothing is known. The words do not matter here. */
static void look_at_wants(const char *call)
{
    static uint16_t copy[PCL_CELLS_MOST], scratch[PCL_MEMORY_MOST];
    uint64_t moves = pcl_wants_moves(cells, PCL_CELLS_MOST), levels = pcl_wants_interrupts(cells, PCL_CELLS_MOST);

    memcpy(copy, cells, sizeof copy);
    if (moves != second_wants_moves(&l))
        differ(call, "the sides that want moves", moves, second_wants_moves(&l));
    if (levels != second_wants_interrupts(&l))
        differ(call, "the sides that want interrupts", levels, second_wants_interrupts(&l));
    for (uint32_t unit = 0; unit < PCL_UNITS_MOST; unit++)
        for (uint32_t side = 0; side < 2; side++) {
            uint32_t bit = pcl_side_bit(unit, side);
            uint32_t number = pcl_number(pcl_move(copy, PCL_CELLS_MOST, scratch, PCL_MEMORY_MOST, unit, side));

            must_agree(call, "the level's bit", side, unit, (pcl_sides(levels) & bit) != 0,
                       pcl_level(cells, PCL_CELLS_MOST, unit, side) == (1u << 16 | PCL_DONE));
            if (number != PCL_BAD_ROOM)
                must_agree(call, "the move's bit", side, unit, (pcl_sides(moves) & bit) != 0, number == PCL_DONE);
        }
}

/* All moves of every side at once, and one after the other until 4, on copies: the answers, every cell, and every word of a memory, of
 * which there are two that take the same words all the time. */
static uint16_t words_at_once[PCL_MEMORY_MOST], words_in_turn[PCL_MEMORY_MOST];

static uint64_t moves_in_turn(uint16_t *in, uint32_t unit, uint32_t side)
{
    uint64_t first = pcl_move(in, PCL_CELLS_MOST, words_in_turn, PCL_MEMORY_MOST, unit, side), answer = first, words = 0;

    if (pcl_number(first) != PCL_DONE)
        return first;
    for (uint64_t next = first; pcl_number(next) == PCL_DONE;
         next = pcl_move(in, PCL_CELLS_MOST, words_in_turn, PCL_MEMORY_MOST, unit, side)) {
        uint32_t status = pcl_value(pcl_read(in, PCL_CELLS_MOST, unit, side ? PCL_RSR : PCL_TSR));

        answer = next;
        if (!(status & PCL_TSR_NXL) && !(side && status & PCL_RSR_BC_OFL))
            words++;
    }
    return answer + (words << 34);
}

static void look_at_transfers(const char *call)
{
    static uint16_t at_once[PCL_CELLS_MOST], in_turn[PCL_CELLS_MOST];

    memcpy(at_once, cells, sizeof at_once);
    memcpy(in_turn, cells, sizeof in_turn);
    for (uint32_t unit = 0; unit < l.units; unit++)
        for (uint32_t side = 0; side < 2; side++) {
            uint64_t answer = pcl_move_all(at_once, PCL_CELLS_MOST, words_at_once, PCL_MEMORY_MOST, unit, side);
            uint64_t wanted = moves_in_turn(in_turn, unit, side);

            if (answer != wanted)
                differ(call, "all moves at once, and one after the other", answer, wanted);
        }
    for (uint32_t i = FIRST_BLOCK; i < PCL_CELLS(l.units); i++)
        must_agree(call, "moved at once, cell", (i - FIRST_BLOCK) % BLOCK, (i - FIRST_BLOCK) / BLOCK, at_once[i], in_turn[i]);
    if (memcmp(at_once, in_turn, sizeof at_once))
        differ(call, "moved at once, a cell of no unit", 1, 0);
}

static inline void look_at_moved_words(const char *call)
{
    for (uint32_t i = 0; i < PCL_MEMORY_MOST; i++)
        if (words_at_once[i] != words_in_turn[i])
            differ(call, "moved at once, a word of a memory", words_at_once[i], words_in_turn[i]);
}

static uint32_t call_slice(uint32_t data_mask, uint32_t parity_mask)
{
    uint32_t archive = pcl_slice(cells, PCL_CELLS_MOST, (uint16_t)data_mask, parity_mask);

    expect_slice(archive);
    laid = pcl_number(archive) == PCL_DONE ? TURNED : IN_PLACE;
    look("slice", archive, second_slice(&l, (uint16_t)data_mask, parity_mask));
    if (depth >= EVERYTHING) {
        look_at_wants("slice");
        look_at_transfers("slice");
    }
    return archive;
}

/* A move, and all moves of a side, are lent a memory, and answer 64 bits. */
typedef uint64_t archive_mover(uint16_t *, size_t, uint16_t *, size_t, uint32_t, uint32_t);
typedef uint64_t second_mover(struct second_link *, uint32_t, uint32_t, uint16_t *, size_t);

static uint64_t call_mover(const char *call, archive_mover *archive_moves, second_mover *second_moves, uint32_t unit, uint32_t side, size_t lent)
{
    uint32_t place = unit % PCL_UNITS_MOST;
    uint64_t archive = archive_moves(cells, PCL_CELLS_MOST, memory[place], lent, unit, side);

    expect_move(unit, side, pcl_number(archive));
    look(call, archive, second_moves(&l, unit, side, memory_of_second[place], lent));
    if (depth >= CELLS)
        look_at_memory(call, place, lent);
    return archive;
}

static uint64_t call_move(uint32_t unit, uint32_t side, size_t lent)
{
    return call_mover("move", pcl_move, second_move, unit, side, lent);
}

static inline uint64_t call_move_all(uint32_t unit, uint32_t side, size_t lent)
{
    return call_mover("all moves", pcl_move_all, second_move_all, unit, side, lent);
}

static inline void call_wants(void)
{
    puts_nothing();
    look("wants moves", pcl_wants_moves(cells, PCL_CELLS_MOST), second_wants_moves(&l));
    look("wants interrupts", pcl_wants_interrupts(cells, PCL_CELLS_MOST), second_wants_interrupts(&l));
}

static uint32_t call_period(uint32_t unit)
{
    expect_period(unit);
    return look("period", pcl_period(cells, PCL_CELLS_MOST, unit), second_period(&l, unit));
}

static uint32_t call_reset(uint32_t unit)
{
    expect_reset(unit);
    return look("reset", pcl_reset(cells, PCL_CELLS_MOST, unit), second_reset(&l, unit));
}

static uint32_t call_level(uint32_t unit, uint32_t side)
{
    puts_nothing();
    return look("level", pcl_level(cells, PCL_CELLS_MOST, unit, side), second_interrupt_level(&l, unit, side));
}

static inline uint32_t call_serial(uint32_t unit, uint32_t side)
{
    puts_nothing();
    return look("serial", pcl_serial(cells, PCL_CELLS_MOST, unit, side), second_serial(&l, unit, side));
}

/* No call, but the cell written: every value of it is one that calls leave. */
static inline void put_serial(uint32_t unit, uint32_t side, uint16_t serial)
{
    struct second_unit *u = &l.unit[unit];
    size_t place = block_at(unit) + (side == PCL_RECEIVER ? RECEIVER : TRANSMITTER) + SERIAL;

    *(side == PCL_RECEIVER ? &u->receiver.side.serial : &u->transmitter.side.serial) = serial;
    cells[place] = cells_before[place] = serial;
}

#endif
