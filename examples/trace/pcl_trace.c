/* pcl_trace.c - each call of pcl.h, made and written down; pcl_trace.h says how it
 * is used. A record is its length, its kind and its body, low byte first; the
 * length counts the kind and the body. */
#define PCL_TRACE_ITSELF
#include <string.h>
#include "pcl_trace.h"

enum { FIT = 1, WRITE, READ, SLICE, MOVE, PERIOD, RESET, WRITE_BYTE, LEVEL };
enum { BODY_MOST = 1 + 3 * PCL_UNITS_MOST };

static const uint16_t *traced;
static FILE *records_file, *lines_file;
static int lost;

void pcl_trace_start(const uint16_t *cells, FILE *records, FILE *lines)
{
    traced = cells;
    records_file = records;
    lines_file = lines;
    lost = 0;
}

static void finish(FILE *file)
{
    if (file != NULL && (fflush(file) != 0 || ferror(file)))
        lost = 1;
}

int pcl_trace_end(void)
{
    finish(records_file);
    finish(lines_file);
    traced = NULL;
    records_file = lines_file = NULL;
    return lost ? -1 : 0;
}

/* Whether a call is to be written: it changed something, or was refused for what a record can say. */
static int is_traced(const uint16_t *cells, uint64_t answer)
{
    return traced != NULL && cells == traced && pcl_number(answer) != PCL_BAD_ROOM;
}

/* A field of one byte. All that a call takes is below 255, so 255 is refused as what is above it. */
static uint8_t field(uint32_t number) { return (uint8_t)(number < 255 ? number : 255); }

static void write_record(unsigned kind, const uint8_t *body, size_t size)
{
    uint8_t record[4 + BODY_MOST] = { (uint8_t)(2 + size), 0, (uint8_t)kind, 0 };

    if (records_file == NULL)
        return;
    memcpy(record + 4, body, size);
    if (fwrite(record, 1, 4 + size, records_file) != 4 + size)
        lost = 1;
}

/* The line of a call whose values are none, or one, as they stand in the answer. */
static void write_line(unsigned kind, uint64_t answer, int with_value)
{
    if (lines_file == NULL)
        return;
    if (with_value ? fprintf(lines_file, "%u %u %u\n", kind, pcl_number(answer), pcl_value(answer)) < 0
                   : fprintf(lines_file, "%u %u\n", kind, pcl_number(answer)) < 0)
        lost = 1;
}

static void write_slice_line(uint32_t answer)
{
    if (pcl_number(answer) != PCL_DONE)
        write_line(SLICE, answer, 0);
    else if (lines_file != NULL
             && fprintf(lines_file, "%d 0 %u %u %u\n", SLICE, pcl_address(answer), pcl_a(answer), pcl_b(answer)) < 0)
        lost = 1;
}

uint32_t pcl_trace_fit(uint16_t *cells, size_t cells_length, const uint32_t *setup, size_t setup_length)
{
    uint32_t answer = pcl_fit(cells, cells_length, setup, setup_length);
    size_t units = pcl_number(answer) == PCL_DONE ? setup_length / 4 : 0;
    uint8_t body[BODY_MOST] = { (uint8_t)units };

    if (is_traced(cells, answer)) {
        for (size_t unit = 0; unit < units; unit++)
            for (size_t k = 0; k < 3; k++)
                body[1 + 3 * unit + k] = field(setup[4 * unit + k]);
        write_record(FIT, body, 1 + 3 * units);
        write_line(FIT, answer, 0);
    }
    return answer;
}

uint32_t pcl_trace_read(uint16_t *cells, size_t cells_length, uint32_t unit, uint32_t offset)
{
    uint32_t answer = pcl_read(cells, cells_length, unit, offset);
    const uint8_t body[] = { field(unit), field(offset) };

    if (is_traced(cells, answer)) {
        write_record(READ, body, sizeof body);
        write_line(READ, answer, pcl_number(answer) == PCL_DONE);
    }
    return answer;
}

uint32_t pcl_trace_write(uint16_t *cells, size_t cells_length, uint32_t unit, uint32_t offset, uint16_t word)
{
    uint32_t answer = pcl_write(cells, cells_length, unit, offset, word);
    const uint8_t body[] = { field(unit), field(offset), (uint8_t)word, (uint8_t)(word >> 8) };

    if (is_traced(cells, answer)) {
        write_record(WRITE, body, sizeof body);
        write_line(WRITE, answer, 0);
    }
    return answer;
}

uint32_t pcl_trace_write_byte(uint16_t *cells, size_t cells_length, uint32_t unit, uint32_t offset, uint8_t byte)
{
    uint32_t answer = pcl_write_byte(cells, cells_length, unit, offset, byte);
    const uint8_t body[] = { field(unit), field(offset), byte };

    if (is_traced(cells, answer)) {
        write_record(WRITE_BYTE, body, sizeof body);
        write_line(WRITE_BYTE, answer, 0);
    }
    return answer;
}

uint32_t pcl_trace_slice(uint16_t *cells, size_t cells_length, uint16_t data_mask, uint32_t parity_mask)
{
    uint32_t answer = pcl_slice(cells, cells_length, data_mask, parity_mask);
    const uint8_t body[] = { (uint8_t)data_mask, (uint8_t)(data_mask >> 8), field(parity_mask) };

    if (is_traced(cells, answer)) {
        write_record(SLICE, body, sizeof body);
        write_slice_line(answer);
    }
    return answer;
}

uint64_t pcl_trace_move(uint16_t *cells, size_t cells_length, uint16_t *memory, size_t memory_length, uint32_t unit, uint32_t side)
{
    uint64_t answer = pcl_move(cells, cells_length, memory, memory_length, unit, side);
    const uint8_t body[] = { field(unit), field(side) };

    if (is_traced(cells, answer)) {
        write_record(MOVE, body, sizeof body);
        write_line(MOVE, answer, pcl_missing(answer) != 0);
    }
    return answer;
}

/* A move of no word that is not answered 4 set NXL, whose address the answer has, or BC OFL, which stands in RSR. */
static uint64_t last_move(uint16_t *cells, size_t cells_length, uint32_t unit, uint32_t side, uint64_t answer)
{
    uint32_t rsr = side == PCL_RECEIVER ? pcl_value(pcl_read(cells, cells_length, unit, PCL_RSR)) : 0;

    if (pcl_number(answer) != PCL_DONE)
        return answer;
    if (pcl_missing(answer) != 0)
        return (uint64_t)pcl_missing(answer) << 16;
    return rsr & PCL_RSR_BC_OFL ? PCL_DONE : PCL_NOTHING;
}

uint64_t pcl_trace_move_all(uint16_t *cells, size_t cells_length, uint16_t *memory, size_t memory_length, uint32_t unit, uint32_t side)
{
    uint64_t answer = pcl_move_all(cells, cells_length, memory, memory_length, unit, side);
    const uint8_t body[] = { field(unit), field(side) };

    if (is_traced(cells, answer)) {
        uint64_t last = last_move(cells, cells_length, unit, side, answer);

        for (uint32_t words = pcl_words_moved(answer); words > 0; words--) {
            write_record(MOVE, body, sizeof body);
            write_line(MOVE, PCL_DONE, 0);
        }
        write_record(MOVE, body, sizeof body);
        write_line(MOVE, last, pcl_missing(last) != 0);
    }
    return answer;
}

uint32_t pcl_trace_period(uint16_t *cells, size_t cells_length, uint32_t unit)
{
    uint32_t answer = pcl_period(cells, cells_length, unit);
    const uint8_t body[] = { field(unit) };

    if (is_traced(cells, answer)) {
        write_record(PERIOD, body, sizeof body);
        write_line(PERIOD, answer, 0);
    }
    return answer;
}

uint32_t pcl_trace_reset(uint16_t *cells, size_t cells_length, uint32_t unit)
{
    uint32_t answer = pcl_reset(cells, cells_length, unit);
    const uint8_t body[] = { field(unit) };

    if (is_traced(cells, answer)) {
        write_record(RESET, body, sizeof body);
        write_line(RESET, answer, 0);
    }
    return answer;
}

uint32_t pcl_trace_level(const uint16_t *cells, size_t cells_length, uint32_t unit, uint32_t side)
{
    uint32_t answer = pcl_level(cells, cells_length, unit, side);
    const uint8_t body[] = { field(unit), field(side) };

    if (is_traced(cells, answer)) {
        write_record(LEVEL, body, sizeof body);
        write_line(LEVEL, answer, pcl_number(answer) == PCL_DONE);
    }
    return answer;
}
