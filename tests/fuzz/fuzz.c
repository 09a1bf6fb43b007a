/* fuzz.c - one script for both: its records are read by the second program's own
 * parser, and each call is made on the archive and on the second library.
 *
 * For libFuzzer, with a mutator that knows records; with KEPT a program that
 * runs the files it is given. */
#include "both.h"

enum { SCRIPT_MEMORY = 64 };

/* A fit answered 0 gives memories of zero words. Its serials are 0, which call_fit
 * has looked at; then each side gets one of its own here, and a transmitter one
 * that soon goes round, for which no script is long enough from 0 on. */
static uint32_t fit_both(const uint32_t *setup, size_t length)
{
    uint32_t answer = call_fit(setup, length);

    for (uint32_t unit = 0; answer == PCL_DONE && unit < PCL_UNITS_MOST; unit++) {
        memset(memory[unit], 0, SCRIPT_MEMORY * sizeof(uint16_t));
        memset(memory_of_second[unit], 0, SCRIPT_MEMORY * sizeof(uint16_t));
    }
    for (uint32_t unit = 0; answer == PCL_DONE && unit < l.units; unit++) {
        put_serial(unit, PCL_TRANSMITTER, (uint16_t)(0xFFFF - unit));
        put_serial(unit, PCL_RECEIVER, (uint16_t)(0x8000 + unit));
    }
    return answer;
}

/* The script program of the second library, its calls led here. */
#define main script_main
#define memory script_memory
#define second_fit(link, setup, length) fit_both(setup, length)
#define second_write(link, unit, offset, word) call_write(unit, offset, word)
#define second_write_byte(link, unit, offset, byte) call_write_byte(unit, offset, byte)
#define second_read(link, unit, offset) call_read(unit, offset)
#define second_slice(link, data_mask, parity_mask) call_slice(data_mask, parity_mask)
#define second_move(link, unit, side, memory, length) call_move(unit, side, length)
#define second_period(link, unit) call_period(unit)
#define second_reset(link, unit) call_reset(unit)
#define second_interrupt_level(link, unit, side) call_level(unit, side)
#include "script.c"
#undef main
#undef memory

#ifdef KEPT
static void note_reached(void) { }
#else
#include "mutate.h"
#endif

int LLVMFuzzerTestOneInput(const uint8_t *data, size_t size)
{
    static FILE *nowhere;

    if (size == 0)
        return 0;
    if (!nowhere)
        nowhere = stdout = fopen("/dev/null", "w");
    stdin = fmemopen((void *)(uintptr_t)data, size, "rb");
    if (!stdin || !nowhere)
        abort();
    depth = CELLS;
    forget_both();
    while (record())
        ;
    fclose(stdin);
    note_reached();
    return 0;
}

#ifdef KEPT
static const char *running;

static void say_which(void)
{
    if (running)
        fprintf(stderr, "fuzz: in %s\n", running);
}

int main(int count, char **files)
{
    static uint8_t bytes[1 << 20];

    atexit(say_which);
    for (int i = 1; i < count; i++) {
        FILE *file = fopen(running = files[i], "rb");
        size_t size = file ? fread(bytes, 1, sizeof bytes, file) : 0;

        if (!file || fclose(file) != 0)
            return 2;
        LLVMFuzzerTestOneInput(bytes, size);
    }
    running = NULL;
    fprintf(stderr, "fuzz: %d kept cases, %llu calls the same\n", count - 1, calls);
    return 0;
}
#endif
