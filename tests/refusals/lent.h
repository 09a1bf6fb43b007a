/* lent.h - cells, memories and set-ups lent in blocks of exactly their length, so
 * that a tool sees an access past them, and what a refusal must leave. */
#ifndef LENT_H
#define LENT_H

#include <stdio.h>
#include <stdlib.h>
#include "state.h"

static unsigned long checks;

#define IS(got, want) is(__FILE__, __LINE__, #got, (got), (want))

static inline void is(const char *file, int line, const char *what, uint64_t got, uint64_t want)
{
    checks++;
    if (got == want)
        return;
    printf("%s:%d: %s is %#llx, wanted %#llx\n", file, line, what, (unsigned long long)got, (unsigned long long)want);
    exit(1);
}

static uint16_t *cells, *memory;
static size_t length, memory_length;    /* of both, as lent */
static uint16_t *cells_before, *memory_before;

static inline uint16_t *block_of(size_t words)
{
    uint16_t *block = malloc(words ? words * sizeof *block : 1);

    if (!block)
        abort();
    return block;
}

static inline uint16_t *block_like(const uint16_t *words, size_t count)
{
    return count ? memcpy(block_of(count), words, count * sizeof *words) : block_of(0);
}

static inline void keep(void)
{
    free(cells_before);
    free(memory_before);
    cells_before = block_like(cells, length);
    memory_before = block_like(memory, memory_length);
}

/* An answer that leaves everything as it was. */
#define REFUSED(call, number) refused(__FILE__, __LINE__, #call, (call), (number))

static inline void refused(const char *file, int line, const char *call, uint64_t answer, uint32_t number)
{
    is(file, line, call, answer, number);
    is(file, line, "what it changed of the cells", length && memcmp(cells, cells_before, length * sizeof *cells), 0);
    is(file, line, "what it changed of the memory", memory_length && memcmp(memory, memory_before, memory_length * sizeof *memory), 0);
}

/* Cells of another length with the same content, as far as it goes; zero behind it. */
static inline void lend(size_t wanted)
{
    uint16_t *block = block_of(wanted);

    if (wanted)
        memset(block, 0, wanted * sizeof *block);
    if (wanted && length)
        memcpy(block, cells, (wanted < length ? wanted : length) * sizeof *block);
    free(cells);
    cells = block;
    length = wanted;
    keep();
}

static inline void lend_memory(size_t wanted)
{
    free(memory);
    memory = block_of(wanted);
    for (size_t i = 0; i < wanted; i++)
        memory[i] = (uint16_t)(0x1234 + 7 * i);
    memory_length = wanted;
    keep();
}

/* A set-up lent in a block of its own. */
static inline uint32_t fit(const uint32_t *numbers, size_t count)
{
    uint32_t *setup = calloc(count ? count : 1, count ? sizeof *setup : 1), answer;

    if (!setup)
        abort();
    if (count)
        memcpy(setup, numbers, count * sizeof *setup);
    answer = pcl_fit(cells, length, setup, count);
    IS(count && memcmp(setup, numbers, count * sizeof *setup), 0);
    free(setup);
    return answer;
}

/* Number 0 with a word. */
static inline uint32_t shown(uint32_t word) { return word << 16; }

static inline uint32_t rd(uint32_t u, uint32_t o) { return pcl_read(cells, length, u, o); }
static inline uint32_t wr(uint32_t u, uint32_t o, unsigned w) { return pcl_write(cells, length, u, o, (uint16_t)w); }
static inline uint32_t wb(uint32_t u, uint32_t o, unsigned b) { return pcl_write_byte(cells, length, u, o, (uint8_t)b); }
static inline uint32_t sl(unsigned data, uint32_t parity) { return pcl_slice(cells, length, (uint16_t)data, parity); }
static inline uint64_t mv(uint32_t u, uint32_t side) { return pcl_move(cells, length, memory, memory_length, u, side); }
static inline uint64_t ma(uint32_t u, uint32_t side) { return pcl_move_all(cells, length, memory, memory_length, u, side); }
static inline uint64_t wm(void) { return pcl_wants_moves(cells, length); }
static inline uint64_t wi(void) { return pcl_wants_interrupts(cells, length); }
static inline uint32_t pd(uint32_t u) { return pcl_period(cells, length, u); }
static inline uint32_t rs(uint32_t u) { return pcl_reset(cells, length, u); }
static inline uint32_t lv(uint32_t u, uint32_t side) { return pcl_level(cells, length, u, side); }
static inline uint32_t sn(uint32_t u, uint32_t side) { return pcl_serial(cells, length, u, side); }

enum { MEMORY = 40 };
/* A good set-up of n units. */
static inline const uint32_t *good(uint32_t n)
{
    static uint32_t setup[4 * 40];

    for (uint32_t u = 0; u < n; u++) {
        setup[4 * u] = u % 31 + 1;
        setup[4 * u + 1] = 31 - u % 31;
        setup[4 * u + 2] = 2 + u % 30;
        setup[4 * u + 3] = MEMORY + u;
    }
    return setup;
}

/* The unfitted state (no units), or units in the middle of a message. */
static inline void state_of(uint32_t units)
{
    length = 0;
    lend(PCL_CELLS(units));
    if (units == 0)
        return;
    IS(fit(good(units), PCL_SETUP(units)), 0);
    for (uint32_t u = 0; u < units; u++) {
        IS(wb(u, PCL_TMMR, u + 5), 0);
        IS(wr(u, PCL_TSDB, 0x1111 * u + 3), 0);
        IS(wr(u, PCL_TSBC, 0xFF00), 0);
        IS(wr(u, PCL_RCR, PCL_RCR_RCV_WD | PCL_RCR_RCV_DAT), 0);
    }
    IS(wb(units - 1, PCL_TMMR + 1, (PCL_TMMR_MASTER | PCL_TMMR_AUT_ADR) >> 8), 0);
    IS(wr(0, PCL_TCR, PCL_TCR_DESTINATION(31) | PCL_TCR_SND_WD | PCL_TCR_ST_TXM | PCL_TCR_TX_NPR), 0);
    for (unsigned i = 0; i < 33; i++)
        IS(pcl_number(sl(0, 0)), 0);
    IS(pcl_value(rd(0, PCL_TMMR)) & PCL_TMMR_CHN_OPN, PCL_TMMR_CHN_OPN);
    for (uint32_t u = 0; u < units; u++)
        IS(pd(u), 0);
    keep();
}

/* The end of a test: how much it checked, and nothing kept. */
static inline int finish(const char *name)
{
    printf("%s: %lu checks\n", name, checks);
    free(cells);
    free(memory);
    free(cells_before);
    free(memory_before);
    return 0;
}

#endif
