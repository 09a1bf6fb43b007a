/* bench.c - slices with their memory moves: the archive beside the second library,
 * which is plain C. A load runs on both in turn, several times: the lowest time
 * of each is printed, and the median of the ratios of two runs that followed
 * each other. How many slices and moves the archive does in place, by the plain
 * way of crates/plain, is counted in one more run, which is not timed. The table
 * goes on with the archive's calls for all sides, or for all words of a side, beside
 * what they stand for.
 *
 * bench table SCALE    for 2 units and for 16
 * bench curve SCALE    a line for each count of units: units, then for each load the time of a slice of the archive and of plain C,
 *                      and the ratio
 *
 * SCALE is ns; or relative, where a time means something only beside another: then the table has no times, and the curve's unit is the
 * time of plain C with 2 units at the first load. */
#define _POSIX_C_SOURCE 199309L
#include <stdio.h>
#include <stdlib.h>
#include <string.h>
#include <time.h>
#include "plain.h"

enum { ROUNDS = 15, SLICES = 200000, MESSAGE = 32768 };

static void fail(const char *what, uint32_t number)
{
    fprintf(stderr, "bench: %s: %lu\n", what, (unsigned long)number);
    exit(1);
}

static void must(uint32_t answer)
{
    if (answer != PCL_DONE)
        fail("an answer that is not 0", answer);
}

static uint16_t cells[PCL_CELLS_MOST];
static struct second_link l;
static uint16_t memory[PCL_UNITS_MOST][PCL_MEMORY_MOST];

static uint32_t archive_fit(const uint32_t *setup, size_t length) { return pcl_fit(cells, PCL_CELLS_MOST, setup, length); }
static uint32_t archive_write(uint32_t u, uint32_t o, uint16_t w) { return pcl_write(cells, PCL_CELLS_MOST, u, o, w); }
static uint32_t archive_write_byte(uint32_t u, uint32_t o, uint8_t b) { return pcl_write_byte(cells, PCL_CELLS_MOST, u, o, b); }
static uint32_t archive_slice(void) { return pcl_slice(cells, PCL_CELLS_MOST, 0, 0); }
static uint64_t archive_move(uint32_t u, uint32_t s) { return pcl_move(cells, PCL_CELLS_MOST, memory[u], PCL_MEMORY_MOST, u, s); }

static uint32_t plain_fit(const uint32_t *setup, size_t length) { return second_fit(&l, setup, length); }
static uint32_t plain_write(uint32_t u, uint32_t o, uint16_t w) { return second_write(&l, u, o, w); }
static uint32_t plain_write_byte(uint32_t u, uint32_t o, uint8_t b) { return second_write_byte(&l, u, o, b); }
static uint32_t plain_slice(void) { return second_slice(&l, 0, 0); }
static uint64_t plain_move(uint32_t u, uint32_t s) { return second_move(&l, u, s, memory[u], PCL_MEMORY_MOST); }

/* The archive's calls again, and how many of them go the plain way. The answer of such a call is known before. */
static struct count { uint32_t all, plain; } slices, moves;

static uint64_t count_call(struct count *count, struct way way, uint64_t answer)
{
    count->all++;
    count->plain += way.plain;
    if (way.plain && answer != way.answer)
        fail("a plain call has another answer", (uint32_t)answer);
    return answer;
}

static uint32_t counted_slice(void)
{
    struct way way = slice_way(cells);

    return (uint32_t)count_call(&slices, way, archive_slice());
}

static uint64_t counted_move(uint32_t u, uint32_t s)
{
    struct way way = move_way(cells, u, s);

    return count_call(&moves, way, archive_move(u, s));
}

static const struct library {
    uint32_t (*fit)(const uint32_t *setup, size_t length);
    uint32_t (*write)(uint32_t unit, uint32_t offset, uint16_t word);
    uint32_t (*write_byte)(uint32_t unit, uint32_t offset, uint8_t byte);
    uint32_t (*slice)(void);
    uint64_t (*move)(uint32_t unit, uint32_t side);
} archive = { archive_fit, archive_write, archive_write_byte, archive_slice, archive_move },
  counted = { archive_fit, archive_write, archive_write_byte, counted_slice, counted_move },
  plain = { plain_fit, plain_write, plain_write_byte, plain_slice, plain_move };

/* What comes after each slice: moves at both ends until 4, a move at either end, or nothing on a bus where nobody sends. */
static const struct load { const char *name; enum { UNTIL_4, ONE_MOVE, IDLE } kind; } loads[] = {
    { "all sending, moves until 4", UNTIL_4 },
    { "all sending, one move at each end", ONE_MOVE },
    { "idle slices", IDLE }
};
enum { LOADS = sizeof loads / sizeof loads[0] };

struct result { double archive, plain, ratio; };        /* ns a slice; how many times as fast as plain C */

/* Unit u has transmitter u + 1 and receiver u + 1, and sends to the unit behind it. */
static uint32_t partner(uint32_t units, uint32_t u) { return (u + 1) % units; }

static void begin_message(const struct library *library, uint32_t units, uint32_t u)
{
    uint32_t r = partner(units, u);

    must(library->write(r, PCL_RSR, 0));
    must(library->write(r, PCL_RDBA, 0));
    must(library->write(r, PCL_RDBC, (uint16_t)(-2 * MESSAGE)));
    must(library->write(r, PCL_RCR, PCL_RCR_RC_NPR | PCL_RCR_IE | PCL_RCR_RCV_WD | PCL_RCR_RCV_DAT | PCL_RCR_EA17));
    must(library->write(u, PCL_TSR, 0));
    must(library->write(u, PCL_TSBA, 0));
    must(library->write(u, PCL_TSBC, (uint16_t)(-2 * MESSAGE)));
    must(library->write(u, PCL_TCR, (uint16_t)PCL_TCR_DESTINATION(r + 1) | PCL_TCR_TX_NPR | PCL_TCR_IE | PCL_TCR_SND_WD | PCL_TCR_ST_TXM));
}

/* Up to 2 units the master counts; with more its address silo has 50 addresses, or the largest multiple of the units below that. */
static void set_up(const struct library *library, uint32_t units, const struct load *load)
{
    uint32_t setup[PCL_SETUP(PCL_UNITS_MOST)], silo = units > 2 ? 50 / units * units : 0;

    for (uint32_t u = 0; u < units; u++) {
        setup[4 * u] = setup[4 * u + 1] = u + 1;
        setup[4 * u + 2] = units < 2 ? 2 : units;
        setup[4 * u + 3] = PCL_MEMORY_MOST;
    }
    must(library->fit(setup, PCL_SETUP(units)));
    must(library->write_byte(0, PCL_TMMR + 1, (PCL_TMMR_MASTER | PCL_TMMR_AUT_ADR) >> 8));
    for (uint32_t i = 0; i < silo; i++)
        must(library->write_byte(0, PCL_TMMR, (uint8_t)(i % units + 1)));
    if (silo)
        must(library->write_byte(0, PCL_TMMR + 1, PCL_TMMR_MASTER >> 8));
    for (uint32_t u = 0; load->kind != IDLE && u < units; u++)
        begin_message(library, units, u);
}

static void move_words(const struct library *library, const struct load *load, uint32_t u, uint32_t side)
{
    if (load->kind == ONE_MOVE)
        library->move(u, side);
    else
        while (library->move(u, side) == PCL_DONE)
            ;
}

/* After a message the next one. */
static uint32_t run(const struct library *library, uint32_t units, const struct load *load)
{
    uint32_t delivered = 0;

    for (uint32_t i = 0; i < SLICES; i++) {
        uint32_t answer = library->slice(), u = pcl_address(answer) - 1;

        if (load->kind == IDLE || u >= units)
            continue;
        move_words(library, load, u, PCL_TRANSMITTER);
        move_words(library, load, partner(units, u), PCL_RECEIVER);
        if (pcl_a(answer) == 3 && pcl_b(answer) == 3) {
            delivered++;
            begin_message(library, units, u);
        }
    }
    return delivered;
}

/* The processor's time, which is the same whoever else uses the machine. */
static double now(void)
{
    struct timespec t;

    clock_gettime(CLOCK_PROCESS_CPUTIME_ID, &t);
    return (double)t.tv_sec * 1e9 + (double)t.tv_nsec;
}

static double time_of(const struct library *library, uint32_t units, const struct load *load, uint32_t *delivered)
{
    double begun;

    set_up(library, units, load);
    begun = now();
    *delivered = run(library, units, load);
    return (now() - begun) / SLICES;
}

static int by_size(const void *a, const void *b)
{
    double x = *(const double *)a, y = *(const double *)b;

    return (x > y) - (x < y);
}

static struct result measure(uint32_t units, const struct load *load)
{
    double archives[ROUNDS], plains[ROUNDS], ratios[ROUNDS];

    for (unsigned i = 0; i < ROUNDS; i++) {
        uint32_t delivered, expected;

        archives[i] = time_of(&archive, units, load, &delivered);
        plains[i] = time_of(&plain, units, load, &expected);
        ratios[i] = plains[i] / archives[i];
        if (delivered != expected)
            fail("not as many messages as with plain C", delivered);
    }
    qsort(archives, ROUNDS, sizeof archives[0], by_size);
    qsort(plains, ROUNDS, sizeof plains[0], by_size);
    qsort(ratios, ROUNDS, sizeof ratios[0], by_size);
    return (struct result){ archives[0], plains[0], ratios[ROUNDS / 2] };
}

static void count(uint32_t units, const struct load *load)
{
    slices = moves = (struct count){ 0, 0 };
    set_up(&counted, units, load);
    run(&counted, units, load);
}

/* Per cent, rounded down: 100 is all of them. */
static void print_share(const struct count *count)
{
    if (count->all)
        printf(" %10.2f", (double)((uint64_t)count->plain * 10000 / count->all) / 100);
    else
        printf(" %10s", "-");
}

/* ---- a call for all, beside single ones */

enum { SERVED = 16, A_SILO = 64, TIMES = 20000 };

static uint16_t prepared[PCL_CELLS_MOST];
static size_t prepared_size;

static void again(void) { memcpy(cells, prepared, prepared_size); }

static void ask_for_all(void)
{
    if (pcl_number(pcl_wants_moves(cells, PCL_CELLS_MOST) | pcl_wants_interrupts(cells, PCL_CELLS_MOST)) != PCL_DONE)
        fail("sides refused", 0);
}

static void ask_each(void)
{
    for (uint32_t u = 0; u < SERVED; u++)
        for (uint32_t side = 0; side < 2; side++) {
            if (archive_move(u, side) != PCL_NOTHING)
                fail("there is something to move", u);
            pcl_level(cells, PCL_CELLS_MOST, u, side);
        }
}

/* A slice, and its moves. */
static void serve_one(void)
{
    uint32_t answer = archive_slice(), u = pcl_address(answer) - 1;

    if (u >= SERVED)
        fail("a slice of nobody", answer);
    move_words(&archive, &loads[0], u, PCL_TRANSMITTER);
    move_words(&archive, &loads[0], partner(SERVED, u), PCL_RECEIVER);
}

static uint32_t moving_side;

static void move_at_once(void)
{
    again();
    if (pcl_words_moved(pcl_move_all(cells, PCL_CELLS_MOST, memory[0], PCL_MEMORY_MOST, 0, moving_side)) != A_SILO)
        fail("not a silo of words", moving_side);
}

static void move_in_turn(void)
{
    uint32_t words = 0;

    again();
    while (archive_move(0, moving_side) == PCL_DONE)
        words++;
    if (words != A_SILO)
        fail("not a silo of words", words);
}

static void prepare(uint32_t units)
{
    prepared_size = PCL_CELLS(units) * sizeof cells[0];
    memcpy(prepared, cells, prepared_size);
}

/* Every side of every unit in mid-message, with nothing more to move. */
static void prepare_sides(void)
{
    set_up(&archive, SERVED, &loads[0]);
    for (uint32_t i = 0; i < 10 * SERVED; i++)
        serve_one();
    prepare(SERVED);
}

/* Unit 0 sends to itself, and has a silo of words to fetch, or to store. */
static void prepare_words(uint32_t side)
{
    set_up(&archive, 1, &loads[0]);
    for (uint32_t i = 0; side == PCL_RECEIVER && i < A_SILO; ) {
        move_words(&archive, &loads[0], 0, PCL_TRANSMITTER);
        i += pcl_b(archive_slice()) == PCL_B_ACKNOWLEDGE;
    }
    moving_side = side;
    prepare(1);
}

static double time_of_call(void (*call)(void))
{
    double begun = now();

    for (uint32_t i = 0; i < TIMES; i++)
        call();
    return (now() - begun) / TIMES;
}

static void print_beside(const char *name, uint32_t units, bool relative, void (*all)(void), void (*single)(void))
{
    double alls[ROUNDS], singles[ROUNDS], ratios[ROUNDS];

    for (unsigned i = 0; i < ROUNDS; i++) {
        again();
        alls[i] = time_of_call(all);
        again();
        singles[i] = time_of_call(single);
        ratios[i] = singles[i] / alls[i];
    }
    qsort(alls, ROUNDS, sizeof alls[0], by_size);
    qsort(singles, ROUNDS, sizeof singles[0], by_size);
    qsort(ratios, ROUNDS, sizeof ratios[0], by_size);
    printf("%-36s %5u", name, (unsigned)units);
    if (!relative)
        printf(" %12.1f %12.1f", alls[0], singles[0]);
    printf(" %8.2f\n", ratios[ROUNDS / 2]);
}

static void table_of_calls_for_all(bool relative)
{
    printf("%-36s %5s", "one call, beside", "units");
    if (!relative)
        printf(" %12s %12s", "one, ns", "beside, ns");
    printf(" %8s\n", "ratio");
    prepare_sides();
    print_beside("who wants service, 64 calls", SERVED, relative, ask_for_all, ask_each);
    print_beside("who wants service, a slice", SERVED, relative, ask_for_all, serve_one);
    prepare_words(PCL_TRANSMITTER);
    print_beside("64 words fetched, 65 moves", 1, relative, move_at_once, move_in_turn);
    prepare_words(PCL_RECEIVER);
    print_beside("64 words stored, 65 moves", 1, relative, move_at_once, move_in_turn);
    printf("who wants service: pcl_wants_moves and pcl_wants_interrupts together, all units sending; a slice is with its moves until 4\n");
}

static void table(bool relative)
{
    printf("%-36s %5s", "load", "units");
    if (!relative)
        printf(" %12s %12s", "archive, ns", "plain C, ns");
    printf(" %8s %10s %10s\n", "ratio", "slices, %", "moves, %");
    for (size_t i = 0; i < LOADS; i++)
        for (uint32_t units = 2; units <= 16; units += 14) {
            struct result r = measure(units, &loads[i]);

            count(units, &loads[i]);
            printf("%-36s %5u", loads[i].name, (unsigned)units);
            if (!relative)
                printf(" %12.1f %12.1f", r.archive, r.plain);
            printf(" %8.2f", r.ratio);
            print_share(&slices);
            print_share(&moves);
            printf("\n");
            fflush(stdout);
        }
    printf("ratio: how many times as fast as plain C the archive is, the median of %d pairs of runs\n", ROUNDS);
    printf("slices and moves: how many of the archive's are done in place, by the plain way of crates/plain, rounded down\n");
    table_of_calls_for_all(relative);
}

static void curve(bool relative)
{
    double unit = relative ? measure(2, &loads[0]).plain : 1;

    for (uint32_t units = 1; units <= PCL_UNITS_MOST; units++) {
        printf("%u", (unsigned)units);
        for (size_t i = 0; i < LOADS; i++) {
            struct result r = measure(units, &loads[i]);

            printf(" %.3f %.3f %.3f", r.archive / unit, r.plain / unit, r.ratio);
        }
        printf("\n");
        fflush(stdout);
    }
}

int main(int count, char **arguments)
{
    bool relative = count == 3 && !strcmp(arguments[2], "relative");

    if (count == 3 && (relative || !strcmp(arguments[2], "ns"))) {
        if (!strcmp(arguments[1], "table"))
            return table(relative), 0;
        if (!strcmp(arguments[1], "curve"))
            return curve(relative), 0;
    }
    fprintf(stderr, "bench: table or curve, and ns or relative\n");
    return 1;
}
