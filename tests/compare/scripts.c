/* scripts.c - writes scripts that lead the script program into deep states, each
 * with another end, and counts what the second library reached on them.
 *
 * scripts FOLDER FILES RECORDS SEED */
#include <stdio.h>
#include <stdlib.h>
#include <string.h>
#define DRIVE_MEMORY 64
#define DRIVE_MOST 255
#include "scenes.h"
#include "reached.h"

enum { FIT = 1, WRITE, READ, SLICE, MOVE, PERIOD, RESET, WRITE_BYTE, LEVEL, KINDS };

static uint16_t memory[PCL_UNITS_MOST][DRIVE_MEMORY];
static FILE *file;
static unsigned long long records;

static void put_word(uint32_t word)
{
    putc(word & 255, file);
    putc(word >> 8 & 255, file);
}

static void put_record(uint32_t kind, size_t bytes, const uint32_t *body)
{
    put_word((uint32_t)bytes + 2);
    put_word(kind);
    for (size_t i = 0; i < bytes; i++)
        putc((int)body[i], file);
    records++;
}

#define RECORD(kind, ...) put_record(kind, sizeof (uint32_t[]){ __VA_ARGS__ } / 4, (uint32_t[]){ __VA_ARGS__ })

static void must(bool holds, const char *what)
{
    if (holds)
        return;
    printf("scripts: after record %llu: %s\n", records, what);
    exit(1);
}

static uint32_t call_fit(const uint32_t *setup, size_t length)
{
    uint32_t body[1 + 3 * 255] = { (uint32_t)length / 4 }, answer = second_fit(&l, setup, length);

    for (size_t i = 0; i < length; i++)
        if (i % 4 < 3)
            body[1 + i / 4 * 3 + i % 4] = setup[i];
    put_record(FIT, 1 + length / 4 * 3, body);
    if (answer == PCL_DONE)
        memset(memory, 0, sizeof memory);
    return answer;
}

static uint32_t call_write(uint32_t unit, uint32_t offset, uint32_t word)
{
    RECORD(WRITE, unit, offset, word & 255, word >> 8 & 255);
    return second_write(&l, unit, offset, (uint16_t)word);
}

static uint32_t call_write_byte(uint32_t unit, uint32_t offset, uint32_t byte)
{
    RECORD(WRITE_BYTE, unit, offset, byte);
    return second_write_byte(&l, unit, offset, (uint8_t)byte);
}

static uint32_t call_read(uint32_t unit, uint32_t offset)
{
    RECORD(READ, unit, offset);
    return second_read(&l, unit, offset);
}

static uint32_t call_slice(uint32_t data_mask, uint32_t parity_mask)
{
    RECORD(SLICE, data_mask & 255, data_mask >> 8 & 255, parity_mask);
    return second_slice(&l, (uint16_t)data_mask, parity_mask);
}

static uint64_t call_move(uint32_t unit, uint32_t side, size_t lent)
{
    (void)lent;                                 /* the script program lends the whole memory */
    RECORD(MOVE, unit, side);
    return second_move(&l, unit, side, memory[unit % PCL_UNITS_MOST], DRIVE_MEMORY);
}

/* A script has no record for it: its single moves, of which the last moves no word, by NXL, by BC OFL or since it is answered 4. */
static uint64_t call_move_all(uint32_t unit, uint32_t side, size_t lent)
{
    uint64_t answer = second_move_all(&l, unit, side, memory[unit % PCL_UNITS_MOST], DRIVE_MEMORY);

    (void)lent;
    for (uint32_t records_left = pcl_words_moved(answer) + 1; records_left > 0; records_left--)
        RECORD(MOVE, unit, side);
    return answer;
}

/* No record shows them. */
static void call_wants(void)
{
    second_wants_moves(&l);
    second_wants_interrupts(&l);
}

static uint32_t call_period(uint32_t unit)
{
    RECORD(PERIOD, unit);
    return second_period(&l, unit);
}

static uint32_t call_reset(uint32_t unit)
{
    RECORD(RESET, unit);
    return second_reset(&l, unit);
}

static uint32_t call_level(uint32_t unit, uint32_t side)
{
    RECORD(LEVEL, unit, side);
    return second_interrupt_level(&l, unit, side);
}

/* No record shows a serial or sets one. */
static uint32_t call_serial(uint32_t unit, uint32_t side) { return second_serial(&l, unit, side); }
static void put_serial(uint32_t unit, uint32_t side, uint16_t serial) { (void)unit, (void)side, (void)serial; }

/* Every register of every unit, by reads: what the scenes have left. */
static void read_all(void)
{
    for (uint32_t unit = 0; unit < l.units; unit++)
        for (uint32_t offset = 0; offset < 28; offset += 2)
            call_read(unit, offset);
}

static void put_bytes(uint32_t count)
{
    while (count-- > 0)
        putc((int)below(256), file);
}

/* The end of the input between two records, or a record that cannot be read; the
 * bytes behind it would be a good one. */
static void put_end(unsigned which)
{
    static const uint32_t bytes[KINDS] = { [WRITE] = 4, [READ] = 2, [SLICE] = 3, [MOVE] = 2, [PERIOD] = 1, [RESET] = 1,
                                           [WRITE_BYTE] = 3, [LEVEL] = 2 };
    uint32_t kind = WRITE + below(KINDS - WRITE);

    switch (which % 9) {
    case 0: return;
    case 1: RECORD(once_in(2) ? 0 : KINDS + below(3), 0, 0); break;                     /* unknown kinds */
    case 2: RECORD(256 * (1 + below(255)) + kind, 0, 0); break;
    case 3: put_word(bytes[kind] + 3); put_word(kind); put_bytes(bytes[kind] + 1); break;       /* too long */
    case 4: put_word(bytes[kind] + 1); put_word(kind); put_bytes(bytes[kind] - 1); break;       /* too short */
    case 5: put_word(below(2)); put_word(kind); break;
    case 6: put_word(bytes[kind] + 2); put_word(kind); put_bytes(below(bytes[kind])); return;   /* cut short */
    case 7: put_bytes(1 + below(3)); return;
    default: RECORD(FIT, 2, 1, 2, 3, 3, 4); break;                                      /* count and length differ */
    }
    RECORD(PERIOD, 0);
}

int main(int count, char **arguments)
{
    unsigned files = count == 5 ? (unsigned)strtoul(arguments[2], NULL, 10) : 0;
    unsigned long long wanted = files ? strtoull(arguments[3], NULL, 10) : 0;
    char name[4096];

    seed = files ? strtoull(arguments[4], NULL, 10) : 1;
    for (unsigned i = 0; i < files; i++) {
        unsigned long long end = records + wanted;

        snprintf(name, sizeof name, "%s/%u", arguments[1], i);
        file = fopen(name, "wb");
        if (!file)
            return 2;
        memset(&l, 0, sizeof l);
        memset(memory, 0, sizeof memory);
        if (i % 2)
            wild_calls(STEPS);                  /* nothing fitted yet */
        while (records < end) {
            scene();
            read_all();
        }
        put_end(i);
        if (fclose(file) != 0)
            return 2;
    }
    if (wrongly_reached("scripts", "tx_move_overflow rc_move_overflow tx_all_overflow rc_all_overflow number_move_9 number_move_all_9 serial_goes_round "))
        return 1;
    printf("scripts: %llu records in %u scripts, everything reached that %d words of memory allow\n", records, files, DRIVE_MEMORY);
    return 0;
}
