/* trace.c - random scenes on the archive, every call traced by pcl_trace.h. No host
 * writes into a memory, and where each is 64 words long, as it is unless DRIVE_MEMORY
 * says otherwise, a replay has to print every line again. The calls are also made with
 * numbers that are out of reach of a record, and with too little memory. The second
 * library only says where the scenes are.
 *
 * trace RECORDS LINES CALLS SEED */
#include <stdio.h>
#include <stdlib.h>
#include <string.h>
#ifndef DRIVE_MEMORY
#define DRIVE_MEMORY 64
#endif
#define DRIVE_MOST 0xFFFFFFFFu
#include "scenes.h"
#include "pcl_trace.h"

static uint16_t cells[PCL_CELLS_MOST], memory[PCL_UNITS_MOST][2 * DRIVE_MEMORY];
static unsigned long long calls;

static void must(bool holds, const char *what)
{
    if (holds)
        return;
    printf("trace: after call %llu: %s\n", calls, what);
    exit(1);
}

static uint64_t both(uint64_t answer, uint64_t second)
{
    calls++;
    must(answer == second, "the second library answers otherwise");
    return answer;
}

static uint32_t call_fit(const uint32_t *setup, size_t length)
{
    uint32_t answer = (uint32_t)both(pcl_fit(cells, PCL_CELLS_MOST, setup, length), second_fit(&l, setup, length));

    if (answer == PCL_DONE)
        memset(memory, 0, sizeof memory);
    return answer;
}

static uint32_t call_write(uint32_t unit, uint32_t offset, uint32_t word)
{
    return (uint32_t)both(pcl_write(cells, PCL_CELLS_MOST, unit, offset, (uint16_t)word), second_write(&l, unit, offset, (uint16_t)word));
}

static uint32_t call_write_byte(uint32_t unit, uint32_t offset, uint32_t byte)
{
    return (uint32_t)both(pcl_write_byte(cells, PCL_CELLS_MOST, unit, offset, (uint8_t)byte),
                          second_write_byte(&l, unit, offset, (uint8_t)byte));
}

static uint32_t call_read(uint32_t unit, uint32_t offset)
{
    return (uint32_t)both(pcl_read(cells, PCL_CELLS_MOST, unit, offset), second_read(&l, unit, offset));
}

static uint32_t call_slice(uint32_t data_mask, uint32_t parity_mask)
{
    return (uint32_t)both(pcl_slice(cells, PCL_CELLS_MOST, (uint16_t)data_mask, parity_mask),
                          second_slice(&l, (uint16_t)data_mask, parity_mask));
}

/* The second library moves in a copy: the memory's words are the archive's. */
static uint64_t call_move(uint32_t unit, uint32_t side, size_t lent)
{
    uint16_t *words = memory[unit % PCL_UNITS_MOST], copy[2 * DRIVE_MEMORY];
    size_t length = lent < 2 * DRIVE_MEMORY ? lent : 2 * DRIVE_MEMORY;

    memcpy(copy, words, sizeof copy);
    return both(pcl_move(cells, PCL_CELLS_MOST, words, length, unit, side), second_move(&l, unit, side, copy, length));
}

static uint64_t call_move_all(uint32_t unit, uint32_t side, size_t lent)
{
    uint16_t *words = memory[unit % PCL_UNITS_MOST], copy[2 * DRIVE_MEMORY];
    size_t length = lent < 2 * DRIVE_MEMORY ? lent : 2 * DRIVE_MEMORY;

    memcpy(copy, words, sizeof copy);
    return both(pcl_move_all(cells, PCL_CELLS_MOST, words, length, unit, side), second_move_all(&l, unit, side, copy, length));
}

static void call_wants(void)
{
    both(pcl_wants_moves(cells, PCL_CELLS_MOST), second_wants_moves(&l));
    both(pcl_wants_interrupts(cells, PCL_CELLS_MOST), second_wants_interrupts(&l));
}

static uint32_t call_period(uint32_t unit)
{
    return (uint32_t)both(pcl_period(cells, PCL_CELLS_MOST, unit), second_period(&l, unit));
}

static uint32_t call_reset(uint32_t unit)
{
    return (uint32_t)both(pcl_reset(cells, PCL_CELLS_MOST, unit), second_reset(&l, unit));
}

static uint32_t call_level(uint32_t unit, uint32_t side)
{
    return (uint32_t)both(pcl_level(cells, PCL_CELLS_MOST, unit, side), second_interrupt_level(&l, unit, side));
}

static uint32_t call_serial(uint32_t unit, uint32_t side)
{
    return (uint32_t)both(pcl_serial(cells, PCL_CELLS_MOST, unit, side), second_serial(&l, unit, side));
}

static void put_serial(uint32_t unit, uint32_t side, uint16_t serial) { (void)unit, (void)side, (void)serial; }

/* What is not to be written: too little room, other cells. */
static void leave_out(void)
{
    uint16_t others[PCL_CELLS_MOST];

    memcpy(others, cells, sizeof others);
    pcl_slice(others, PCL_CELLS_MOST, 0, 0);
    pcl_reset(others, PCL_CELLS_MOST, 0);
    pcl_write(cells, 1, 0, PCL_TCR, PCL_TCR_TX_INIT);
}

int main(int count, char **words)
{
    FILE *records, *lines;
    unsigned long long wanted;

    if (count != 5)
        return 2;
    records = fopen(words[1], "wb");
    lines = fopen(words[2], "w");
    wanted = strtoull(words[3], NULL, 10);
    seed = strtoull(words[4], NULL, 10);
    if (!records || !lines)
        return 2;
    pcl_trace_start(cells, records, lines);
    wild_calls(STEPS);                          /* nothing fitted yet */
    while (calls < wanted) {
        scene();
        leave_out();
    }
    if (pcl_trace_end() != 0 || fclose(records) != 0 || fclose(lines) != 0)
        return 2;
    call_reset(0);                              /* no longer traced */
    printf("trace: %llu calls\n", calls);
    return 0;
}
