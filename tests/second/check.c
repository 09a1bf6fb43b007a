/* check.c - tests of second.c through its calls alone. */
#include <stdio.h>
#include <stdlib.h>
#include <string.h>
#include "second.h"

enum { TCR = 0, TSR = 2, TSDB = 4, TSBC = 6, TSBA = 8, TMMR = 10, TSCRC = 12,
       RCR = 16, RSR = 18, RDDB = 20, RDBC = 22, RDBA = 24, RDCRC = 26 };
enum { ST_TXM = 1, TX_INIT = 2, INH_ADI = 4, EA = 0x30, IE = 0x40, RD_SILO = 0x80,
       SND_WD = 0x2000, TX_NPR = 0x4000, RIB = 0x8000 };
enum { RCV_DAT = 1, RC_INIT = 2, RCV_WD = 0x2000, RC_NPR = 0x4000, REJ = 0x8000 };
enum { TBS_BSY = 0x10, SORE = 0x20, BUSY = 0x40, SUC = 0x80, DTIRDY = 0x100,
       OVERUN = 0x200, TIM_OUT = 0x400, MST_DWN = 0x800, TXM_ERR = 0x1000,
       MEM_OFL = 0x2000, NXL = 0x4000, ERR = 0x8000 };
enum { CHN_OPN = 0x10, RECOM = 0x20, DTORDY = 0x100, BC_OFL = 0x200, PAR = 0x800 };
enum { MASTER = 0x100, SEC = 0x200, NOW_MST = 0x400, T_OPEN = 0x800, AUT_ADR = 0x1000,
       CLR_ADR = 0x2000, AIP = 0x4000, AOP = 0x8000 };

static struct second_link l, kept;
static uint16_t memory[16][131072], wanted[131072];
static int failures;
static unsigned long checks;

#define IS(got, want) is(__LINE__, #got, (got), (want))

static void is(int line, const char *what, uint64_t got, uint64_t want)
{
    checks++;
    if (got == want)
        return;
    failures++;
    printf("check.c:%d: %s is %#llx, wanted %#llx\n", line, what, (unsigned long long)got, (unsigned long long)want);
}

static uint32_t no(uint32_t answer) { return answer & 0xFFFF; }
static uint32_t wr(uint32_t u, uint32_t o, uint32_t w) { return second_write(&l, u, o, (uint16_t)w); }
static uint32_t wb(uint32_t u, uint32_t o, uint32_t b) { return second_write_byte(&l, u, o, (uint8_t)b); }
static uint32_t rd(uint32_t u, uint32_t o) { return second_read(&l, u, o) >> 16; }
static uint32_t rn(uint32_t u, uint32_t o) { return no(second_read(&l, u, o)); }
static uint32_t level(uint32_t u, uint32_t s) { return second_interrupt_level(&l, u, s) >> 16; }
static uint32_t serial(uint32_t u, uint32_t s) { return second_serial(&l, u, s) >> 16; }
static uint64_t mv(uint32_t u, uint32_t s) { return second_move(&l, u, s, memory[u], 131072); }
static uint64_t move_all(uint32_t u, uint32_t s) { return second_move_all(&l, u, s, memory[u], 131072); }

/* The answer of a slice in the form of the document: address, A, B. */
static uint32_t sl(uint32_t address, uint32_t a, uint32_t b)
{
    return (address + 32 * a + 128 * b) << 16;
}

/* The answer of a move that set NXL: number 0 with the address. */
static uint64_t at(uint32_t address)
{
    return (uint64_t)address << 16;
}

/* The answer of all moves of a side: the words moved, and the address that was missing, or 0. */
static uint64_t moved(uint64_t words, uint32_t address)
{
    return at(address) + (words << 34);
}

/* The answer of the calls for all sides: those of unit 0 first. */
static uint64_t sides(uint32_t transmitters, uint32_t receivers)
{
    return (uint64_t)(transmitters | receivers << 16) << 16;
}

/* Slices until transmitter address `address` was served; its answer. */
static uint32_t serve_damaged(uint32_t address, uint16_t data, uint32_t parity)
{
    for (int i = 0; i < 100; i++) {
        uint32_t a = second_slice(&l, data, parity);
        if (no(a) != 0)
            return a;
        if ((a >> 16) % 32 == address)
            return a;
    }
    return ~0u;
}

static uint32_t serve(uint32_t address)
{
    return serve_damaged(address, 0, 0);
}

/* Units with transmitter 1.., receiver 11.., switch `s`, memory `words`. */
static void fit_plain(uint32_t units, uint32_t s, uint32_t words)
{
    uint32_t setup[64];

    for (uint32_t u = 0; u < units; u++) {
        setup[4 * u] = u + 1;
        setup[4 * u + 1] = u + 11;
        setup[4 * u + 2] = s;
        setup[4 * u + 3] = words;
    }
    IS(second_fit(&l, setup, 4 * units), 0);
}

/* Two units, unit 0 master, transmitter 1 (unit 0) to receiver 12 (unit 1). */
static void plain(void)
{
    fit_plain(2, 2, 131072);
    IS(wb(0, TMMR + 1, (MASTER | AUT_ADR) >> 8), 0);
}

/* Transmitter 1 has `n` words in its silo, destination 12, the command bits. */
static void sender(unsigned n, unsigned command)
{
    for (unsigned i = 0; i < n; i++)
        IS(wr(0, TSDB, 0x1111 * (i + 1)), 0);
    IS(wr(0, TCR, (12 << 8) | command), 0);
}

static void keep(void) { memcpy(&kept, &l, sizeof l); }
static void same(int line) { is(line, "state unchanged", memcmp(&kept, &l, sizeof l) != 0, 0); }

/* ------------------------------------------------------------------ tests */

static void set_ups(void)
{
    uint32_t good[4] = { 1, 1, 2, 1 }, s[68];
    static const uint32_t bad[][4] = {
        { 0, 1, 2, 1 }, { 32, 1, 2, 1 }, { 1, 0, 2, 1 }, { 1, 32, 2, 1 }, { 1, 1, 1, 1 },
        { 1, 1, 32, 1 }, { 1, 1, 2, 0 }, { 1, 1, 2, 131073 }, { 0x10001, 1, 2, 1 },
        { 1, 0x10001, 2, 1 }, { 1, 1, 0x10002, 1 }, { 1, 1, 2, 0x10000001 },
        { 0xFFFFFFFF, 1, 2, 1 }, { 33, 1, 2, 1 }, { 257, 1, 2, 1 } };

    memset(&l, 0, sizeof l);
    keep();
    for (size_t i = 0; i < sizeof bad / sizeof bad[0]; i++)
        IS(second_fit(&l, bad[i], 4), 7);
    IS(second_fit(&l, NULL, 0), 7);
    for (size_t n = 1; n < 4; n++)
        IS(second_fit(&l, good, n), 7);
    for (uint32_t u = 0; u < 17; u++) {
        s[4 * u] = 31 - u; s[4 * u + 1] = u + 1; s[4 * u + 2] = 31; s[4 * u + 3] = 131072;
    }
    IS(second_fit(&l, s, 68), 7);
    IS(second_fit(&l, s, 63), 7);
    /* unfitted */
    IS(second_write(&l, 0, 0, 0), 1);
    IS(second_write_byte(&l, 0, 4, 0), 1);
    IS(second_read(&l, 0, 99), 1);
    IS(second_move(&l, 0, 0, NULL, 0), 1);
    IS(second_period(&l, 0), 1);
    IS(second_reset(&l, 0), 1);
    IS(second_interrupt_level(&l, 0, 0), 1);
    IS(second_serial(&l, 0, 0), 1);
    IS(second_slice(&l, 0, 0), 8);
    IS(second_slice(&l, 0, 2), 7);
    same(__LINE__);
    IS(second_fit(&l, s, 64), 0);
    s[4] = s[0];
    keep();
    IS(second_fit(&l, s, 64), 7);
    s[4] = 30; s[5] = s[1];
    IS(second_fit(&l, s, 64), 7);
    same(__LINE__);
    IS(rn(15, TCR), 0);
    IS(rn(16, TCR), 1);
    IS(rn(0xFFFFFFFF, TCR), 1);
    IS(second_fit(&l, good, 4), 0);
    IS(rn(1, TCR), 1);
    /* the initial state */
    static const uint32_t initial[][2] = { { TCR, 0 }, { TSR, DTIRDY }, { TSBC, 0 },
        { TSBA, 0 }, { TMMR, AUT_ADR | AIP }, { TSCRC, 0 }, { RCR, 8 }, { RSR, 0 },
        { RDBC, 0 }, { RDBA, 0 }, { RDCRC, 0 } };
    for (size_t i = 0; i < sizeof initial / sizeof initial[0]; i++)
        IS(second_read(&l, 0, initial[i][0]), initial[i][1] << 16);
}

static void refusals(void)
{
    static const uint32_t none[] = { 14, 15, 28, 29, 30, 31, 32, 33, 100, 0x10000, 0x10004,
        0xFFFFFFFE, 0xFFFFFFFF };

    plain();
    keep();
    for (size_t i = 0; i < sizeof none / sizeof none[0]; i++) {
        IS(wr(0, none[i], 0xFFFF), 2);
        IS(wb(0, none[i], 0xFF), 2);
        IS(second_read(&l, 0, none[i]), 2);
    }
    for (uint32_t o = 1; o < 32; o += 2) {
        IS(wr(0, o, 0xFFFF), 2);
        IS(second_read(&l, 0, o), 2);
    }
    IS(wb(0, TSDB, 1), 3); IS(wb(0, TSDB + 1, 1), 3);
    IS(wb(1, RDDB, 1), 3); IS(wb(1, RDDB + 1, 1), 3);
    IS(wb(2, TSDB, 1), 1); IS(wr(2, 15, 1), 1); IS(wb(0xFFFFFFFF, 15, 1), 1);
    IS(wb(0, TSCRC, 255), 0); IS(wb(0, TSCRC + 1, 255), 0); IS(wr(0, TSCRC, 0xFFFF), 0);
    IS(wb(0, RDCRC, 255), 0); IS(wb(0, RDCRC + 1, 255), 0); IS(wr(0, RDCRC, 0xFFFF), 0);
    IS(wr(0, RDDB, 0xFFFF), 0);
    IS(second_read(&l, 0, TSDB), 4); IS(second_read(&l, 0, RDDB), 4);
    IS(mv(0, 0), 4); IS(mv(0, 1), 4);
    IS(mv(0, 2), 1); IS(mv(0, 0xFFFFFFFF), 1);
    IS(second_interrupt_level(&l, 0, 2), 1); IS(second_interrupt_level(&l, 2, 0), 1);
    for (uint32_t s = 0; s < 2; s++) {
        IS(second_serial(&l, 2, s), 1); IS(second_serial(&l, 16, s), 1); IS(second_serial(&l, 0x10000, s), 1);
        IS(second_serial(&l, 0xFFFFFFFF, s), 1); IS(second_serial(&l, s, 2), 1); IS(second_serial(&l, s, 3), 1);
        IS(second_serial(&l, s, 0x10000), 1); IS(second_serial(&l, s, 0xFFFFFFFF), 1);
    }
    IS(second_serial(&l, 2, 2), 1); IS(second_serial(&l, 0, 0), 0); IS(second_serial(&l, 1, 1), 0);
    IS(second_period(&l, 2), 1); IS(second_reset(&l, 0x10000), 1);
    IS(second_move(&l, 0, 0, memory[0], 131071), 9);
    IS(second_move(&l, 0, 7, memory[0], 131071), 9);
    IS(second_move(&l, 0, 7, NULL, 0), 9);
    IS(second_move(&l, 2, 0, NULL, 0), 1);
    IS(second_move_all(&l, 0, 0, memory[0], 131071), 9); IS(second_move_all(&l, 0, 7, memory[0], 131071), 9);
    IS(second_move_all(&l, 0, 7, NULL, 0), 9); IS(second_move_all(&l, 2, 0, NULL, 0), 1);
    IS(move_all(0, 2), 1); IS(move_all(0, 0xFFFFFFFF), 1); IS(move_all(0, 0), 4); IS(move_all(1, 1), 4);
    IS(second_slice(&l, 0, 2), 7);
    IS(second_slice(&l, 0xFFFF, 0x10000), 7);
    same(__LINE__);
    IS(second_slice(&l, 0xFFFF, 1), sl(2, 0, 0));
}

static void register_bits(void)
{
    plain();
    IS(wr(0, TCR, 0xFFFD), 0); IS(rd(0, TCR), 0xFFF5);
    IS(wb(0, TCR, 0x04), 0); IS(rd(0, TCR), 0xFF04);
    IS(wb(0, TCR + 1, 0x02), 0); IS(rd(0, TCR), 0x0204);
    IS(wr(0, RCR, 0xFFFD), 0); IS(rd(0, RCR), 0xE0FD);
    IS(wb(0, RCR + 1, 0x1F), 0); IS(rd(0, RCR), 0x00FD);
    IS(wb(0, RCR, 0), 0); IS(rd(0, RCR), 0x0008);
    IS(wr(0, TSR, 0xFFFF), 0); IS(rd(0, TSR), 0xBFB0);
    IS(wr(0, RSR, 0xFFFF), 0); IS(rd(0, RSR), 0xBEA0);
    IS(wb(0, TSR, 0), 0); IS(rd(0, TSR), 0xBF00);
    IS(wb(0, TSR + 1, 0x40), 0); IS(rd(0, TSR), DTIRDY);
    IS(wb(0, RSR + 1, 0), 0); IS(rd(0, RSR), 0x00A0);
    IS(wr(0, TSBC, 0xFFFF), 0); IS(rd(0, TSBC), 0xFFFE);
    IS(wb(0, TSBC, 0x13), 0); IS(rd(0, TSBC), 0xFF12);
    IS(wb(0, TSBC + 1, 0x13), 0); IS(rd(0, TSBC), 0x1312);
    IS(wr(0, TSBA, 0x8001), 0); IS(rd(0, TSBA), 0x8000);
    IS(wb(0, TSBA, 0xFF), 0); IS(rd(0, TSBA), 0x80FE);
    IS(wr(0, RDBC, 0x8001), 0); IS(wb(0, RDBC, 5), 0); IS(rd(0, RDBC), 0x8004);
    IS(wr(0, RDBA, 0x8001), 0); IS(wb(0, RDBA + 1, 5), 0); IS(rd(0, RDBA), 0x0500);
    /* TX INIT: that side alone, the rest of the write ignored */
    IS(wr(0, TCR, 0xFFFF), 0); IS(rd(0, TCR), 0); IS(rd(0, TSBC), 0); IS(rd(0, TSBA), 0);
    IS(rd(0, TMMR), AUT_ADR | AIP); IS(rd(0, RDBA), 0x0500);
    IS(wb(0, RCR, RC_INIT | 1), 0); IS(rd(0, RDBA), 0); IS(rd(0, RCR), 8);
    /* reset does both */
    wr(0, TSBA, 2); wr(0, RDBA, 2);
    IS(second_reset(&l, 0), 0); IS(rd(0, TSBA), 0); IS(rd(0, RDBA), 0);
    /* a count byte marks the register loaded: 256 bytes */
    wr(0, TCR, TX_NPR);
    IS(mv(0, 0), 4);
    IS(wb(0, TSBC + 1, 0xFF), 0); IS(mv(0, 0), 0); IS(rd(0, TSBC), 0xFF02);
}

static void data_silos(void)
{
    plain();
    for (int i = 0; i < 64; i++)
        IS(wr(0, TSDB, 100 + i), 0);
    IS(rd(0, TSR), 0); IS(rd(0, TCR), 8);
    wr(0, TCR, ST_TXM | SND_WD);
    IS(wr(0, TSDB, 7), 6); IS(rd(0, TSR), ERR | OVERUN); IS(rd(0, TCR), 8);
    IS(second_read(&l, 0, TSDB), 100u << 16); IS(second_read(&l, 0, TSDB), 100u << 16);
    /* an event makes its request though the bit stands */
    wr(0, TCR, ST_TXM | SND_WD | RD_SILO);
    IS(rd(0, TSDB), 100); IS(rd(0, TSDB), 101);
    IS(wr(0, TSDB, 7), 6); IS(rd(0, TCR), RD_SILO | 8);
    wr(0, TCR, TX_NPR); IS(wr(0, TSDB, 7), 6);
    wr(0, TCR, 0); IS(wr(0, TSDB, 7), 0);
    wr(0, TCR, RD_SILO);
    for (int i = 2; i < 64; i++)
        IS(rd(0, TSDB), 100u + i);
    IS(rd(0, TSDB), 7); IS(rn(0, TSDB), 4);
}

/* Addresses first, second, first, .. into unit 0's address silo. */
static void alternate(unsigned count, unsigned first, unsigned second)
{
    for (unsigned i = 0; i < count; i++)
        IS(wb(0, TMMR, i % 2 ? second : first), 0);
}

static void master_section(void)
{
    plain();
    IS(rd(0, TMMR), MASTER | AUT_ADR | AIP);
    /* one master; the holder clears */
    IS(wb(1, TMMR + 1, (MASTER | SEC | AUT_ADR) >> 8), 0);
    IS(rd(1, TMMR), SEC | AUT_ADR | AIP);
    IS(serve(2), sl(2, 0, 0));
    IS(wb(0, TMMR + 1, (MASTER | AUT_ADR) >> 8), 0);     /* restarts nothing */
    IS(second_slice(&l, 0, 0), sl(1, 0, 0));
    IS(second_slice(&l, 0, 0), sl(2, 0, 0));
    IS(wb(0, TMMR + 1, AUT_ADR >> 8), 0);
    IS(wb(0, TMMR + 1, (MASTER | AUT_ADR) >> 8), 0);     /* restarts */
    IS(second_slice(&l, 0, 0), sl(2, 0, 0));
    /* takeover: number 8, the next slice served */
    IS(wb(0, TMMR + 1, AUT_ADR >> 8), 0);
    IS(second_slice(&l, 0, 0), 8);
    IS(rd(1, TMMR), MASTER | NOW_MST | AUT_ADR | AIP);
    IS(second_slice(&l, 0, 0), sl(2, 0, 0)); IS(second_slice(&l, 0, 0), sl(1, 0, 0));
    IS(wr(1, TCR, TX_INIT), 0); IS(rd(1, TMMR), AUT_ADR | AIP);
    /* no master and no secondary: MST DWN where SND WD and a word */
    sender(1, SND_WD | ST_TXM); wr(1, TCR, SND_WD);
    IS(second_slice(&l, 0, 0), 8);
    IS(rd(0, TSR), ERR | MST_DWN | DTIRDY); IS(rd(0, TCR), (12 << 8) | 8);
    IS(rd(1, TSR), BUSY | DTIRDY);
    IS(wr(0, TCR, SND_WD), 0); IS(second_slice(&l, 0, 0), 8); IS(rd(0, TCR), 8);
}

static void address_silo(void)
{
    plain();
    IS(wb(0, TMMR + 1, (CLR_ADR | MASTER | AUT_ADR) >> 8), 0);
    alternate(19, 1, 2);
    IS(wb(0, TMMR + 1, MASTER >> 8), 5);
    IS(rd(0, TMMR), MASTER | AUT_ADR | AIP | AOP | 1);
    alternate(1, 2, 2);
    /* a word write that would clear it and is refused loads; one that clears drops */
    IS(wr(0, TMMR, MASTER | SEC | 2), 6);
    IS(rd(0, TMMR), MASTER | SEC | AOP | 1);
    IS(wb(0, TMMR, 3), 6);
    IS(second_slice(&l, 0, 0), sl(1, 0, 0)); IS(rd(0, TMMR), MASTER | SEC | AOP | 2);
    for (int i = 0; i < 40; i++)
        IS(second_slice(&l, 0, 0), sl(2 - i % 2, 0, 0));
    /* AUT ADR set: the counter starts anew; the 21st makes first and last equal */
    IS(wb(0, TMMR + 1, (MASTER | AUT_ADR) >> 8), 0);
    IS(second_slice(&l, 0, 0), sl(2, 0, 0));
    alternate(1, 2, 2);
    IS(wb(0, TMMR + 1, MASTER >> 8), 5);
    IS(wr(0, TMMR, MASTER | 0xE0), 5);          /* refused, and loads 0 */
    IS(wb(0, TMMR + 1, MASTER >> 8), 0);
    for (int i = 0; i < 21; i++)
        second_slice(&l, 0, 0);
    IS(second_slice(&l, 0, 0), sl(0, 0, 0));
    /* CLR ADR empties first: AUT ADR, and bit 12 = 0 is a try */
    IS(wr(0, TMMR, MASTER | CLR_ADR | 9), 5);
    IS(rd(0, TMMR), MASTER | AUT_ADR | AIP | AOP | 9);
    IS(second_slice(&l, 0, 0), sl(2, 0, 0));
    /* 50 held; RD SILO: none loaded, a read removes; 5 and 6 is 5 */
    for (int i = 0; i < 49; i++)
        IS(wr(0, TMMR, MASTER | AUT_ADR | (unsigned)(i % 2)), 0);
    IS(rd(0, TMMR), MASTER | AUT_ADR | AOP | 9);
    IS(wr(0, TMMR, MASTER | AUT_ADR | 3), 6);
    IS(wr(0, TCR, RD_SILO), 0); IS(wb(0, TMMR, 3), 6);
    IS(rd(0, TMMR), MASTER | AUT_ADR | AOP | 9);
    IS(wb(0, TMMR + 1, MASTER >> 8), 5);    /* 0 stands at both ends */
    IS(wr(0, TMMR, MASTER | 2), 5);         /* and RD SILO: 5, nothing loaded */
    IS(rd(0, TMMR), MASTER | AUT_ADR | AOP | 0);
    IS(wb(0, TMMR + 1, MASTER >> 8), 0);
    IS(rd(0, TMMR), MASTER | AOP | 1);      /* AUT ADR clear: removes nothing */
    IS(rd(0, TMMR), MASTER | AOP | 1);
    IS(wr(0, TMMR, MASTER | 2), 6);
    IS(wr(0, TCR, 0), 0);
    IS(wb(0, TMMR + 1, (MASTER | CLR_ADR) >> 8), 5);
    alternate(10, 3, 4); IS(wb(0, TMMR, 4), 0); alternate(9, 3, 4); IS(wb(0, TMMR + 1, MASTER >> 8), 5);
}

/* ST TXM clear: one word each time, SUC TXF, a request at both ends. */
static void single_words(void)
{
    plain();
    sender(2, SND_WD | IE);
    IS(serve(1), sl(1, 2, 0));                  /* R does not want it */
    IS(rd(0, TSR), TBS_BSY | DTIRDY | 2); IS(rd(0, TCR), (12 << 8) | IE | 8);
    IS(level(0, 0), 1);
    IS(serve(1), sl(1, 0, 0));
    wr(0, TCR, (12 << 8) | SND_WD | RIB | IE); IS(level(0, 0), 0);
    IS(serve(1), sl(1, 2, 0)); IS(rd(0, TCR), (12 << 8) | SND_WD | RIB | IE | 8);
    wr(1, RCR, RCV_WD | IE); IS(level(1, 1), 0);
    IS(serve(1), sl(1, 2, 3));
    IS(rd(0, TSR), SUC | BUSY | DTIRDY);        /* opening clears TBS BSY; bits cleared */
    IS(rd(0, TCR), (12 << 8) | RIB | IE | 8);
    IS(rd(0, TMMR) & T_OPEN, T_OPEN);
    IS(rd(1, RSR), CHN_OPN | BUSY | DTORDY | 0xE);
    IS(rd(1, RCR), (1 << 8) | IE | 8); IS(level(1, 1), 1);
    IS(rd(1, RDDB), 0x1111); IS(level(1, 1), 0);
    IS(serve(1), sl(1, 1, 1)); IS(rd(0, TSR), SUC | BUSY | DTIRDY | 5);
    IS(rd(1, RSR), CHN_OPN | BUSY | 5);
    /* the destination is latched; SUC TXF stands and a new word is a new event */
    wr(0, TCR, (11 << 8) | SND_WD); IS(serve(1), sl(1, 2, 1));
    wr(1, RCR, RCV_WD | RC_NPR | IE); IS(serve(1), sl(1, 2, 3));
    IS(rd(0, TCR), 11 << 8); IS(rd(1, RCR), (1 << 8) | RC_NPR | IE | 8); IS(level(1, 1), 0);
    IS(rd(1, RDDB), 0x2222); IS(rd(1, RDDB), 0x2222);
    /* ST TXM ends it, the silo of R still full: 01 until it is read */
    wr(0, TCR, (11 << 8) | ST_TXM);
    IS(serve(1), sl(1, 3, 1)); IS(serve(1), sl(1, 3, 1)); IS(serve(1), sl(1, 3, 1));
    wr(1, RCR, IE); IS(rd(1, RDDB), 0x2222);
    IS(serve(1), sl(1, 3, 3));
    IS(rd(0, TSR), SUC | DTIRDY); IS(rd(1, RSR), SUC); IS(level(1, 1), 1);
    IS(rd(0, TSCRC), rd(1, RDCRC));
    IS(serve(1), sl(1, 0, 0));
}

static unsigned reference_crc(const uint16_t *w, unsigned n)
{
    unsigned crc = 0;

    for (unsigned i = 0; i < n; i++)
        for (unsigned b = 0; b < 16; b++) {
            unsigned x = (crc ^ w[i] >> b) & 1;
            crc = crc >> 1 ^ (x ? 0xA001 : 0);
        }
    return crc;
}

static void table(void)
{
    static const uint16_t words[4] = { 0, 1, 7, 0xFFFF };

    plain();
    IS(rd(0, TSCRC), 0);
    wr(0, TSDB, 1); wr(0, TCR, (12 << 8) | SND_WD); wr(1, RCR, RCV_WD);
    serve(1);
    IS(rd(0, TSCRC), 0x9001); IS(rd(1, RDCRC), 0x9001);
    uint16_t w[40];
    plain();
    wr(1, RCR, RCV_WD | RCV_DAT);
    for (unsigned i = 0; i < 40; i++) {
        w[i] = (uint16_t)(i * 40503u + 977u);
        wr(0, TSDB, w[i]); wr(0, TCR, (12 << 8) | SND_WD); serve(1);
        IS(rd(0, TSCRC), reference_crc(w, i + 1)); IS(rd(1, RDCRC), reference_crc(w, i + 1));
    }
    /* undamaged words of both parities: no parity mark (damage() has the others) */
    for (int i = 0; i < 4; i++) {
        plain();
        wr(0, TSDB, words[i]); wr(0, TCR, (12 << 8) | SND_WD); wr(1, RCR, RCV_WD);
        serve(1); IS(serve(1), sl(1, 1, 1));
    }
    /* words left for TSBC 177776, 100000, 0 */
    static const uint32_t count[3] = { 0xFFFE, 0x8000, 0 }, left[3] = { 1, 16384, 32768 };
    for (int i = 0; i < 3; i++) {
        uint32_t moved = 0;
        plain();
        wr(0, TSBC, count[i]); wr(0, TCR, TX_NPR);
        while (mv(0, 0) == 0) {
            if (++moved == 32768 || rd(0, TCR) == 8)
                break;
            if (moved % 64 == 0) {
                wr(0, TCR, RD_SILO | TX_NPR | (rd(0, TCR) & EA));
                while (rn(0, TSDB) == 0)
                    ;
                wr(0, TCR, TX_NPR | (rd(0, TCR) & EA));
            }
        }
        IS(moved, left[i]); IS(rd(0, TSBC), 0); IS(mv(0, 0), 4); IS(rd(0, TCR) & TX_NPR, 0);
    }
}

static void damage(void)
{
    /* the opening word, one line or the parity line: stored, then PAR and 10 */
    for (int i = 0; i < 17; i++) {
        plain(); sender(2, SND_WD | ST_TXM); wr(1, RCR, RCV_WD | RCV_DAT | RC_NPR);
        IS(serve_damaged(1, (uint16_t)(i < 16 ? 1 << i : 0), i == 16), sl(1, 2, 3));
        IS(rd(1, RDDB), i < 16 ? 0x1111 ^ 1u << i : 0x1111);
        IS(serve(1), sl(1, 2, 2));
        IS(rd(0, TSR), ERR | TXM_ERR | DTIRDY | 0xA); IS(rd(0, TCR), (12 << 8) | 8);
        IS(rd(1, RSR), ERR | PAR | DTORDY | 0xA); IS(rd(1, RCR), (1 << 8) | RC_NPR | 8);
        IS(serve(1), sl(1, 0, 0));
    }
    /* two lines pass parity and fail the CRC */
    plain(); sender(1, SND_WD | ST_TXM); wr(1, RCR, RCV_WD | RCV_DAT);
    IS(serve_damaged(1, 3, 0), sl(1, 2, 3));
    IS(serve(1), sl(1, 3, 1)); IS(serve(1), sl(1, 3, 2));
    IS(rd(1, RSR), ERR | PAR | DTORDY | 0xB); IS(rd(0, TSR), ERR | TXM_ERR | DTIRDY | 0xB);
    /* the CRC damaged when first taken: bad; its parity not checked */
    plain(); sender(1, SND_WD | ST_TXM); wr(1, RCR, RCV_WD | RCV_DAT);
    serve(1); IS(serve_damaged(1, 4, 0), sl(1, 3, 1)); IS(serve(1), sl(1, 3, 2));
    plain(); sender(1, SND_WD | ST_TXM); wr(1, RCR, RCV_WD | RCV_DAT);
    serve(1); IS(serve_damaged(1, 0, 1), sl(1, 3, 1)); rd(1, RDDB);
    IS(serve_damaged(1, 0xFFFF, 0), sl(1, 3, 3));
    /* a word answered 01 leaves no mark */
    plain(); sender(2, SND_WD | ST_TXM); wr(1, RCR, RCV_WD);
    IS(serve(1), sl(1, 2, 3)); IS(serve_damaged(1, 1, 0), sl(1, 2, 1));
    wr(1, RCR, RCV_WD); IS(serve(1), sl(1, 2, 3)); IS(serve(1), sl(1, 3, 1));
}

static void rejection(void)
{
    plain(); sender(3, SND_WD | ST_TXM); wr(1, RCR, RCV_WD);
    serve(1); wr(1, RCR, REJ | RC_NPR);
    IS(serve(1), sl(1, 2, 1));
    IS(rd(0, TSR), SORE | DTIRDY | 6); IS(rd(0, TCR), (12 << 8) | 8);
    IS(rd(1, RSR), RECOM | DTORDY | 6); IS(rd(1, RCR), (1 << 8) | RC_NPR | 8);
    IS(serve(1), sl(1, 0, 0));
}

static void truncation(void)
{
    plain(); sender(3, SND_WD | ST_TXM); wr(1, RCR, RCV_WD | RCV_DAT);
    serve(1); wr(1, RCR, RCV_DAT | RCV_WD | REJ);
    IS(serve(1), sl(1, 2, 1)); IS(rd(0, TSR), BUSY | 6);
    IS(wr(0, TSR, 0), 0); IS(serve(1), sl(1, 3, 1));
    IS(serve(1), sl(1, 3, 3));                  /* a word stands in R's silo */
    IS(rd(0, TSR), SUC | SORE | DTIRDY); IS(rd(1, RSR), SUC | RECOM | DTORDY);
    IS(rd(1, RCR), (1 << 8) | 8);
    IS(rd(0, TSDB), 0x2222);                    /* the silo is not cleared */
    /* again and again; then the host takes RCV DAT away: rule 6 at A 11 */
    plain(); sender(3, SND_WD); wr(1, RCR, RCV_WD | RCV_DAT);
    serve(1); wr(1, RCR, RCV_DAT | RCV_WD | REJ); IS(serve(1), sl(1, 1, 1));
    IS(wr(0, TSDB, 1), 6); IS(rd(0, TSR), ERR | OVERUN | SUC | BUSY | 5); wr(0, TSR, 0);
    wr(1, RCR, REJ); IS(serve(1), sl(1, 3, 1));
    IS(rd(0, TSR), SORE | DTIRDY | 7); IS(rd(1, RSR), RECOM | DTORDY | 7);
    /* while a verdict is owed rule 8 goes on: no truncation at A 11 */
    plain(); sender(1, SND_WD | ST_TXM); wr(1, RCR, RCV_WD | RCV_DAT);
    serve(1); wr(1, RCR, RCV_DAT | REJ); rd(1, RDDB);
    IS(serve(1), sl(1, 3, 1)); IS(serve(1), sl(1, 3, 3));
    IS(rd(0, TSR), SUC | DTIRDY); IS(rd(1, RSR), SUC);
}

static void periods(void)
{
    plain(); wr(0, TCR, (12 << 8) | SND_WD); wr(1, RCR, RCV_WD);
    second_period(&l, 0); second_period(&l, 1); IS(rd(0, TSR), BUSY | DTIRDY); IS(rd(1, RSR), BUSY);
    second_period(&l, 1); IS(rd(1, RSR), BUSY);         /* closed: no mark */
    second_period(&l, 0); IS(rd(0, TSR), ERR | TIM_OUT | DTIRDY); IS(rd(0, TCR), 12 << 8);
    wr(0, TSR, 0); wr(0, TCR, (12 << 8) | SND_WD);
    second_period(&l, 0); IS(rd(0, TSR), BUSY | DTIRDY);   /* the mark fell with BUSY */
    wr(0, TCR, 0); wr(0, TCR, SND_WD); second_period(&l, 0); IS(rd(0, TSR), BUSY | DTIRDY);
    /* a word accepted clears it; a CRC does not; TIM OUT leaves it */
    plain(); sender(3, SND_WD | ST_TXM); wr(1, RCR, RCV_WD | RCV_DAT | RC_NPR);
    serve(1); second_period(&l, 0); second_period(&l, 1); IS(serve(1), sl(1, 2, 3));
    second_period(&l, 0); second_period(&l, 1); IS(serve(1), sl(1, 2, 3));
    IS(rd(0, TSR) & ERR, 0); IS(rd(1, RSR) & ERR, 0);
    second_period(&l, 1); IS(serve(1), sl(1, 3, 1)); second_period(&l, 1);
    IS(rd(1, RSR), ERR | TIM_OUT | CHN_OPN | BUSY | DTORDY | 7);
    wr(1, RSR, 0); wr(1, RCR, RCV_DAT); second_period(&l, 1);
    IS(rd(1, RSR), ERR | TIM_OUT | CHN_OPN | BUSY | DTORDY | 7); IS(rd(1, RCR), (1 << 8) | 8);
    IS(serve(1), sl(1, 3, 0));
    IS(rd(1, RSR), ERR | TIM_OUT | DTORDY | 7); IS(rd(0, TSR), ERR | TXM_ERR | DTIRDY | 3);
    /* T open: the mark outlives TIM OUT, A 00 closes */
    plain(); sender(1, SND_WD); wr(1, RCR, RCV_WD | RCV_DAT); serve(1);
    second_period(&l, 0); second_period(&l, 0); IS(rd(0, TSR), ERR | TIM_OUT | SUC | BUSY | DTIRDY);
    wr(0, TSR, 0); second_period(&l, 0); IS(rd(0, TSR), ERR | TIM_OUT | BUSY | DTIRDY);
    IS(serve(1), sl(1, 0, 0)); IS(rd(0, TSR), ERR | TIM_OUT | DTIRDY);
    IS(rd(1, RSR), ERR | TXM_ERR | DTORDY);
}

static void requests(void)
{
    plain();
    static const uint16_t raising[] = { TBS_BSY, SORE, SUC, OVERUN, TIM_OUT, MST_DWN,
        TXM_ERR, MEM_OFL };
    for (size_t i = 0; i < 8; i++) {
        wr(0, TSR, 0); wr(0, TCR, SND_WD | ST_TXM | IE);
        wr(0, TSR, raising[i]); IS(rd(0, TCR), IE); IS(level(0, 0), 1);
        wr(0, TCR, SND_WD | ST_TXM | IE); wr(0, TSR, raising[i]);
        IS(rd(0, TCR), SND_WD | ST_TXM | IE);           /* standing: none */
        wr(0, TCR, SND_WD | ST_TXM); IS(level(0, 0), 0);
    }
    wr(0, TSR, 0); wr(0, TCR, SND_WD | RIB | IE); wr(0, TSR, TBS_BSY);
    IS(rd(0, TCR), SND_WD | RIB | IE); IS(level(0, 0), 0);
    wr(0, TCR, SND_WD | IE); IS(rd(0, TCR), SND_WD | IE); IS(level(0, 0), 1);
    wr(0, TSR, OVERUN); wr(0, TCR, SND_WD); wr(0, TSR, TIM_OUT); IS(rd(0, TCR), SND_WD);
    wr(0, TSR, NXL); IS(rd(0, TSR), BUSY | DTIRDY);      /* a written 1 is ignored */
    static const uint16_t raised[] = { RECOM, SUC, BC_OFL, TIM_OUT, PAR, TXM_ERR, MEM_OFL };
    for (size_t i = 0; i < 7; i++) {
        wr(1, RSR, 0); wr(1, RCR, RCV_WD | RCV_DAT | REJ | IE);
        wr(1, RSR, raised[i]); IS(rd(1, RCR), REJ | IE | 8); IS(level(1, 1), 1);
        wr(1, RCR, RCV_WD | RCV_DAT | IE); wr(1, RSR, raised[i]);
        IS(rd(1, RCR), RCV_WD | RCV_DAT | IE | 8);
    }
    /* a host's SUC TXF clears bits 0 to 3 */
    plain(); sender(1, SND_WD); serve(1); IS(rd(0, TSR), TBS_BSY | DTIRDY | 2);
    wb(0, TSR, TBS_BSY | SUC); IS(rd(0, TSR), TBS_BSY | SUC | DTIRDY);
}

static void moves(void)
{
    fit_plain(2, 2, 100);
    wb(0, TMMR + 1, 0x11);
    memory[0][99] = 0xABCD; memory[1][99] = 0;
    wr(0, TSBA, 198); wr(0, TSBC, 0xFFFC); wr(0, TCR, (12 << 8) | TX_NPR | SND_WD | ST_TXM);
    IS(mv(0, 0), 0); IS(rd(0, TSBA), 200); IS(rd(0, TSBC), 0xFFFE);
    IS(mv(0, 0), at(200)); IS(rd(0, TSR), ERR | NXL); IS(rd(0, TCR), (12 << 8) | TX_NPR | 8);
    IS(rd(0, TSBA), 200); IS(rd(0, TSBC), 0xFFFE); IS(mv(0, 0), 4);
    wr(0, TSR, 0); wr(0, TSBA, 198); wr(0, TCR, (12 << 8) | TX_NPR | SND_WD | ST_TXM | INH_ADI);
    IS(mv(0, 0), 0); IS(rd(0, TSBA), 198); IS(rd(0, TSBC), 0);
    IS(rd(0, TCR), (12 << 8) | SND_WD | ST_TXM | INH_ADI | 8); IS(mv(0, 0), 4);
    /* receiver: BC OFL before NXL; the word stays; channel stays open */
    wr(1, RCR, RCV_WD | RCV_DAT | RC_NPR); IS(serve(1), sl(1, 2, 3));
    wr(1, RDBA, 200); IS(mv(1, 1), 0); IS(rd(1, RSR), ERR | BC_OFL | CHN_OPN | BUSY | DTORDY | 0xE);
    IS(rd(1, RCR), (1 << 8) | RC_NPR | 8); IS(mv(1, 1), 4);
    IS(serve(1), sl(1, 2, 1)); IS(rd(1, RSR) & 15, 0xE);      /* frozen */
    IS(rd(0, TSR), BUSY | DTIRDY | 6);
    wr(1, RSR, 0); wr(1, RDBC, 0xFFFE); IS(mv(1, 1), at(200));
    IS(rd(1, RSR), ERR | NXL | CHN_OPN | BUSY | DTORDY | 0xE);
    wb(1, RSR + 1, 0); wr(1, RDBA, 198); IS(mv(1, 1), 0); IS(memory[1][99], 0xABCD);
    IS(rd(1, RDBA), 200); IS(rd(1, RDBC), 0); IS(rd(1, RCR), (1 << 8) | RC_NPR | 8);
    IS(mv(1, 1), 4);
    /* 777776: the word is moved, the address 0, EA clear, memory overflow */
    plain();
    memory[0][131071] = 0x4321;
    wr(0, TSBA, 0xFFFE); wr(0, TSBC, 0); wr(0, TCR, EA | TX_NPR | SND_WD);
    IS(mv(0, 0), 0); IS(rd(0, TCR), TX_NPR | 8); IS(rd(0, TSBA), 0);
    IS(rd(0, TSR), ERR | MEM_OFL); IS(rd(0, TSDB), 0x4321); IS(rd(0, TSBC), 2);
    wr(0, TSR, 0); wr(0, TSBA, 0xFFFE); wr(0, TCR, EA | TX_NPR | INH_ADI);
    IS(mv(0, 0), 0); IS(rd(0, TSR), 0); IS(rd(0, TCR), EA | TX_NPR | INH_ADI | 8);
    wr(0, TSBA, 0xFFFE); wr(0, TCR, 0x10 | TX_NPR); IS(mv(0, 0), 0);
    IS(rd(0, TCR), 0x20 | TX_NPR | 8); IS(rd(0, TSR), 0);
    wr(0, TCR, 0x20 | TX_NPR | RD_SILO); IS(mv(0, 0), 4);
    /* the receiver's */
    plain(); sender(1, SND_WD); wr(1, RCR, RCV_WD | RCV_DAT | RC_NPR | EA); serve(1);
    wr(1, RDBA, 0xFFFE); wr(1, RDBC, 0xFFFE); IS(mv(1, 1), 0);
    IS(memory[1][131071], 0x1111); IS(rd(1, RDBA), 0); IS(rd(1, RCR), (1 << 8) | RC_NPR | 8);
    IS(rd(1, RSR), ERR | MEM_OFL | CHN_OPN | BUSY | 0xE);
    IS(serve(1), sl(1, 1, 0)); IS(rd(1, RSR), ERR | MEM_OFL | 0xE);
    IS(rd(0, TSR), ERR | TXM_ERR | SUC | DTIRDY | 1);
}

/* A byte address tried by a fresh load at each side of unit 0, which sends to itself: "Address outside the memory: NXL", and then, by
 * document 02, "the 18-bit byte address it tried". The address stays where it was, with and without INH ADI. */
static void try_address(uint32_t words, uint32_t address, uint32_t inhibit)
{
    uint32_t low = address & 0xFFFF, extended = address >> 16 << 4, outside = address / 2 >= words;
    uint64_t answer = outside ? at(address & ~1u) : 0;

    /* unit 0, whose transmitter has address 1 and whose receiver 11 */
    fit_plain(1, 2, words);
    wb(0, TMMR + 1, 0x11);
    wr(0, TSBA, low); wr(0, TSBC, 0xFFFC); wr(0, TCR, TX_NPR | extended | inhibit);
    IS(mv(0, 0), answer);
    IS(rd(0, TSR) & NXL, outside ? NXL : 0);
    if (outside) {
        IS(rd(0, TSBA), low & ~1u); IS(rd(0, TCR) & (EA | INH_ADI), extended | inhibit);
        IS(rd(0, TSBC), 0xFFFC);
        IS(mv(0, 0), 4);                        /* ERR stands: nothing is tried, and no address told */
    }
    wr(0, TSR, 0); wr(0, TCR, TX_INIT); wb(0, TMMR + 1, 0x11);
    wr(0, TSDB, 0x1234); wr(0, TCR, (11 << 8) | SND_WD);
    wr(0, RDBA, low); wr(0, RDBC, 0xFFFC); wr(0, RCR, RCV_WD | RCV_DAT | RC_NPR | extended | inhibit);
    IS(serve(1), sl(1, 2, 3));
    IS(mv(0, 1), answer);
    IS(rd(0, RSR) & NXL, outside ? NXL : 0); IS(rd(0, RSR) & DTORDY, outside ? DTORDY : 0);
    if (outside) {
        IS(rd(0, RDBA), low & ~1u); IS(rd(0, RCR) & (EA | INH_ADI), extended | inhibit);
        IS(rd(0, RDBC), 0xFFFC);
        IS(mv(0, 1), 4);
    }
}

/* Document 02, No. 3: the first word past the memory and the next, the last of it, those around each change of EA16 and EA17, 777776,
 * and odd addresses, whose bit 0 is dropped. A memory of 131,072 words has them all. */
static void missing(void)
{
    static const uint32_t lengths[] = { 1, 2, 64, 32767, 32768, 32769, 65536, 98304, 131071, 131072 };
    static const uint32_t fixed[] = { 0, 2, 3, 0x7FFE, 0xFFFE, 0x10000, 0x10001, 0x1FFFE, 0x20000, 0x2FFFE, 0x30000, 0x3FFFC, 0777776, 0777777 };

    for (size_t i = 0; i < sizeof lengths / sizeof lengths[0]; i++)
        for (uint32_t inhibit = 0; inhibit <= INH_ADI; inhibit += INH_ADI) {
            for (size_t k = 0; k < sizeof fixed / sizeof fixed[0]; k++)
                try_address(lengths[i], fixed[k], inhibit);
            for (uint32_t near = 2 * lengths[i] - 2; near < 2 * lengths[i] + 4 && near >> 18 == 0; near++)
                try_address(lengths[i], near, inhibit);
        }
    /* BC OFL goes before NXL, and has no address */
    fit_plain(1, 2, 1); wb(0, TMMR + 1, 0x11);
    wr(0, TSDB, 7); wr(0, TCR, (11 << 8) | SND_WD); wr(0, RDBA, 2); wr(0, RCR, RCV_WD | RCV_DAT | RC_NPR);
    IS(serve(1), sl(1, 2, 3)); IS(mv(0, 1), 0); IS(rd(0, RSR) & (BC_OFL | NXL), BC_OFL);
    /* memory overflow neither: the word at 777776 was moved */
    fit_plain(1, 2, 131072); wr(0, TSBA, 0xFFFE); wr(0, TSBC, 0); wr(0, TCR, EA | TX_NPR);
    IS(mv(0, 0), 0); IS(rd(0, TSR) & (MEM_OFL | NXL), MEM_OFL);
}

/* All moves of a side: what ends them, and how many words that were. A word of so many at each side of unit 0, which sends to itself. */
static void load_both(uint32_t words, uint32_t address)
{
    fit_plain(1, 2, 200);
    wb(0, TMMR + 1, 0x11);
    wr(0, TSBA, address); wr(0, TSBC, -2 * words & 0xFFFF);
    wr(0, RDBA, address); wr(0, RDBC, -2 * words & 0xFFFF);
    wr(0, TCR, (11 << 8) | TX_NPR | SND_WD | ST_TXM);
    wr(0, RCR, RCV_WD | RCV_DAT | RC_NPR);
}

static void move_all_words(void)
{
    /* a silo's 64 words, then none until some are sent; the last of the load */
    for (uint32_t k = 0; k < 200; k++)
        memory[0][k] = (uint16_t)(0x4000 + k);
    load_both(70, 0);
    IS(move_all(0, 1), 4);
    IS(move_all(0, 0), moved(64, 0)); IS(rd(0, TSBC), -2 * 6 & 0xFFFF); IS(rd(0, TSBA), 128); IS(move_all(0, 0), 4);
    for (unsigned k = 0; k < 3; k++)
        IS(serve(1), sl(1, 2, 3));
    IS(move_all(0, 0), moved(3, 0)); IS(move_all(0, 1), moved(3, 0)); IS(move_all(0, 1), 4); IS(rd(0, RDBA), 6);
    for (unsigned k = 0; k < 64; k++)
        IS(serve(1), sl(1, 2, 3));
    IS(move_all(0, 0), moved(3, 0)); IS(rd(0, TCR) & TX_NPR, 0); IS(move_all(0, 0), 4);
    IS(move_all(0, 1), moved(64, 0)); IS(rd(0, RDBA), 134);
    for (uint32_t k = 0; k < 67; k++)
        IS(memory[0][k], 0x4000 + k);
    /* NXL after two words, and at once; the same address until it is changed */
    load_both(9, 396);
    IS(move_all(0, 0), moved(2, 400)); IS(rd(0, TSR) & (ERR | NXL), ERR | NXL); IS(move_all(0, 0), 4);
    wr(0, TSR, 0); IS(move_all(0, 0), moved(0, 400)); IS(rd(0, TSBC), -2 * 7 & 0xFFFF);
    wr(0, TSR, 0); wr(0, TSBA, 0); wr(0, TCR, (11 << 8) | TX_NPR | SND_WD | ST_TXM); IS(move_all(0, 0), moved(7, 0));
    for (unsigned k = 0; k < 9; k++)
        IS(serve(1), sl(1, 2, 3));
    IS(move_all(0, 1), moved(2, 400)); IS(rd(0, RSR) & (ERR | NXL | DTORDY), ERR | NXL | DTORDY); IS(move_all(0, 1), 4);
    wr(0, RSR, 0); IS(move_all(0, 1), moved(0, 400));
    /* BC OFL after three words, at once, and until RDBC is loaded */
    load_both(8, 0); wr(0, RDBC, 0xFFFA);
    IS(move_all(0, 0), moved(8, 0));
    for (unsigned k = 0; k < 8; k++)
        IS(serve(1), sl(1, 2, 3));
    IS(move_all(0, 1), moved(3, 0)); IS(rd(0, RSR) & (ERR | BC_OFL | DTORDY), ERR | BC_OFL | DTORDY); IS(move_all(0, 1), 4);
    wr(0, RSR, 0); IS(move_all(0, 1), moved(0, 0)); IS(rd(0, RSR) & BC_OFL, BC_OFL);
    wr(0, RSR, 0); wr(0, RDBC, 0xFFF0); IS(move_all(0, 1), moved(5, 0)); IS(rd(0, RSR) & (ERR | DTORDY), 0);
    /* memory overflow, at the third word, which is moved; and INH ADI, which does not come there */
    plain();
    wr(0, TSBA, 0xFFFA); wr(0, TSBC, 0); wr(0, TCR, EA | TX_NPR);
    IS(move_all(0, 0), moved(3, 0)); IS(rd(0, TSR), ERR | MEM_OFL); IS(rd(0, TSBA), 0); IS(move_all(0, 0), 4);
    wr(0, TSR, 0); wr(0, TSBA, 0xFFFE); wr(0, TCR, EA | TX_NPR | INH_ADI);
    IS(move_all(0, 0), moved(61, 0)); IS(rd(0, TSR), 0); IS(rd(0, TSBA), 0xFFFE);
    plain(); sender(2, SND_WD | ST_TXM); wr(1, RCR, RCV_WD | RCV_DAT | RC_NPR | EA); serve(1); serve(1);
    wr(1, RDBA, 0xFFFE); wr(1, RDBC, 0xFFF0);
    IS(move_all(1, 1), moved(1, 0)); IS(memory[1][131071], 0x1111); IS(rd(1, RSR) & (ERR | MEM_OFL | DTORDY), ERR | MEM_OFL | DTORDY);
}

/* Each bit by what sets and clears it, and none of a unit that is not fitted. */
static void sides_that_want(void)
{
    uint32_t every = 0xFFFF;

    l = (struct second_link){ 0 };
    IS(second_wants_moves(&l), 0); IS(second_wants_interrupts(&l), 0);
    fit_plain(16, 2, 131072);
    IS(second_wants_moves(&l), 0); IS(second_wants_interrupts(&l), 0);
    for (uint32_t u = 0; u < 16; u++) {
        wr(u, TSBC, 0xFFFC); wr(u, TCR, TX_NPR | IE); IS(second_wants_moves(&l), sides(every >> (15 - u), 0));
        wr(u, TSR, SORE); IS(second_wants_interrupts(&l), sides(every >> (15 - u), 0));
    }
    for (uint32_t u = 0; u < 16; u++) {
        wr(u, RCR, IE); wr(u, RSR, RECOM); IS(second_wants_interrupts(&l), sides(every, every >> (15 - u)));
    }
    /* a word at a receiver: with RC NPR it is to be moved, without it asks for an interrupt */
    fit_plain(2, 2, 131072);
    wb(0, TMMR + 1, 0x11); sender(1, SND_WD); wr(1, RCR, RCV_WD | RC_NPR | IE); IS(serve(1), sl(1, 2, 3));
    IS(second_wants_moves(&l), sides(0, 2)); IS(second_wants_interrupts(&l), 0);
    wr(1, RCR, RCV_WD | IE); IS(second_wants_moves(&l), 0); IS(second_wants_interrupts(&l), sides(0, 2));
    wr(1, RCR, RC_NPR | IE); IS(move_all(1, 1), moved(0, 0)); IS(second_wants_moves(&l), 0); IS(second_wants_interrupts(&l), sides(0, 2));
    wr(0, TCR, IE); IS(second_wants_interrupts(&l), sides(1, 2));
    /* all that stops a transmitter's moves: a full silo, an error, RD SILO, no load, no TX NPR */
    plain(); wr(0, TSBC, 0); wr(0, TCR, TX_NPR); IS(second_wants_moves(&l), sides(1, 0));
    IS(move_all(0, 0), moved(64, 0)); IS(second_wants_moves(&l), 0);
    plain(); wr(0, TSBC, 0); wr(0, TSR, TIM_OUT); wr(0, TCR, TX_NPR); IS(second_wants_moves(&l), 0);
    wr(0, TSR, 0); IS(second_wants_moves(&l), sides(1, 0));
    wr(0, TCR, TX_NPR | RD_SILO); IS(second_wants_moves(&l), 0);
    wr(0, TCR, 0); IS(second_wants_moves(&l), 0);
    plain(); wr(1, TCR, TX_NPR); IS(second_wants_moves(&l), 0); wr(1, TSBC, 0xFFFE); IS(second_wants_moves(&l), sides(2, 0));
    IS(move_all(1, 0), moved(1, 0)); IS(second_wants_moves(&l), 0);
    keep(); second_wants_moves(&l); second_wants_interrupts(&l); same(__LINE__);
}

/* 128 words by ST TXM, RCV DAT; the word count of the block is full at both. */
static void full_block(void)
{
    plain();
    wr(0, TCR, (12 << 8) | SND_WD | ST_TXM); wr(1, RCR, RCV_WD | RCV_DAT);
    for (int i = 0; i < 128; i++) {
        wr(0, TSDB, i); IS(serve(1), sl(1, 2, 3)); rd(1, RDDB);
    }
}

static void blocks(void)
{
    /* with a word more: the due CRC, 01 and 11, then the word */
    full_block(); wr(0, TSDB, 5);
    IS(serve(1), sl(1, 2, 1)); IS(serve(1), sl(1, 2, 3)); IS(rd(0, TSCRC), 0); IS(rd(1, RDCRC), 0);
    IS(rd(0, TSR) & SUC, 0); IS(serve(1), sl(1, 2, 3)); IS(rd(1, RDDB), 5);
    /* without: the last CRC goes before it */
    full_block(); IS(serve(1), sl(1, 3, 1)); IS(serve(1), sl(1, 3, 3));
    /* a due CRC unanswered goes before the end, though the silo empties */
    full_block(); wr(0, TSDB, 5); IS(serve(1), sl(1, 2, 1));
    wr(0, TCR, RD_SILO); IS(serve(1), sl(1, 1, 1)); rd(0, TSDB); wr(0, TCR, ST_TXM);
    IS(serve(1), sl(1, 2, 3)); IS(serve(1), sl(1, 3, 1)); IS(serve(1), sl(1, 3, 3));
    /* by SND WD; the CRC sets no SUC TXF */
    full_block(); wr(0, TCR, 0); IS(serve(1), sl(1, 1, 1)); wr(0, TCR, SND_WD);
    IS(serve(1), sl(1, 2, 1)); IS(serve(1), sl(1, 2, 3)); IS(rd(0, TCR), SND_WD);
    IS(serve(1), sl(1, 1, 1)); wr(0, TSDB, 6); IS(serve(1), sl(1, 2, 3)); IS(rd(0, TCR), 0);
    /* the due CRC bad */
    full_block(); wr(0, TSDB, 5); IS(serve_damaged(1, 1, 0), sl(1, 2, 1)); IS(serve(1), sl(1, 2, 2));
    IS(rd(1, RSR), ERR | PAR | 0xA);
    /* REJ with RCV DAT while the verdict is owed: first the verdict */
    full_block(); wr(0, TSDB, 5); IS(serve(1), sl(1, 2, 1)); wr(1, RCR, RCV_DAT | REJ);
    IS(serve(1), sl(1, 2, 3)); IS(serve(1), sl(1, 2, 1)); IS(serve(1), sl(1, 3, 1));
    IS(serve(1), sl(1, 3, 3)); IS(rd(1, RSR), SUC | RECOM);
}

static void others(void)
{
    /* rule 1: no such receiver; open with another */
    fit_plain(3, 3, 131072); wb(2, TMMR + 1, 0x11);
    wr(0, TSDB, 9); wr(0, TCR, (31 << 8) | SND_WD | RIB); IS(serve(1), sl(1, 2, 0));
    wr(0, TCR, (12 << 8) | SND_WD); wr(1, RCR, RCV_WD | RCV_DAT); IS(serve(1), sl(1, 2, 3));
    wr(2, TSDB, 9); wr(2, TCR, (12 << 8) | SND_WD); keep();
    IS(serve(3), sl(3, 2, 0)); IS(rd(2, TSR), TBS_BSY | DTIRDY | 2);
    IS(memcmp(&kept.unit[1], &l.unit[1], sizeof l.unit[1]) != 0, 0);
    /* RC INIT closes R alone: T meets a closed receiver, TXM ERR */
    wr(1, RCR, RC_INIT); IS(rd(0, TMMR) & T_OPEN, T_OPEN); IS(serve(1), sl(1, 1, 0));
    IS(rd(0, TSR), ERR | TXM_ERR | SUC | DTIRDY | 1); IS(rd(1, RCR), 8);
    /* a closed R with ERR, or full, says 00 */
    plain(); sender(1, SND_WD | RIB); wr(1, RSR, BC_OFL); wr(1, RCR, RCV_WD);
    IS(serve(1), sl(1, 2, 0)); wr(1, RSR, 0); IS(serve(1), sl(1, 2, 3));
    /* success with BC OFL standing clears the frozen bits; R full answers 01 */
    plain(); wr(0, TCR, (12 << 8) | SND_WD | ST_TXM); wr(1, RCR, RCV_WD | RCV_DAT);
    for (int i = 0; i < 64; i++) { wr(0, TSDB, i); IS(serve(1), sl(1, 2, 3)); }
    wr(0, TSDB, 64); IS(serve(1), sl(1, 2, 1)); rd(1, RDDB); IS(serve(1), sl(1, 2, 3));
    wr(1, RSR, BC_OFL); IS(rd(1, RSR) & 15, 0xE); IS(rd(1, RCR), (1 << 8));
    for (int i = 0; i < 64; i++) IS(rd(1, RDDB), i + 1u);
    IS(serve(1), sl(1, 3, 1)); IS(rd(1, RSR) & 15, 0xE); IS(serve(1), sl(1, 3, 3));
    IS(rd(1, RSR), ERR | BC_OFL | SUC);
}

/* --------------------------------------------------- document 02, request 1 */

/* T in mid-message with 12: two words taken, ST TXM and SND WD set. */
static void two_words(void)
{
    sender(2, SND_WD | ST_TXM); wr(1, RCR, RCV_WD | RCV_DAT);
    IS(serve(1), sl(1, 2, 3)); IS(serve(1), sl(1, 2, 3));
}

static void mid_message(void) { plain(); two_words(); }

/* TX INIT at unit 0, which is master again, and a new message of `n` words. */
static void restart(unsigned n, unsigned command)
{
    wr(0, TCR, TX_INIT); wb(0, TMMR + 1, (MASTER | AUT_ADR) >> 8);
    sender(n, command);
}

/* T's slice is the opening word that 12 may not take: "At a receiver open with
 * that same transmitter it sets TXM ERR, closes and gets 00".  `before` is what
 * RSR's bits 5 to 14 then show besides, `codes` its bits 0 to 3. */
static void refused_opening(int line, unsigned before, unsigned codes)
{
    unsigned held = rd(1, RSR) & DTORDY, crc = rd(1, RDCRC), sent = rd(0, TCR) & ~(SND_WD | ST_TXM);

    is(line, "T is closed", rd(0, TMMR) & T_OPEN, 0);
    is(line, "R is open", rd(1, RSR) & CHN_OPN, CHN_OPN);
    is(line, "the slice", serve(1), sl(1, 2, 0));
    is(line, "RSR", rd(1, RSR), ERR | TXM_ERR | before | held | codes);
    is(line, "RCR", rd(1, RCR) & (REJ | RCV_WD | RCV_DAT | 0x1F00), 1 << 8);
    is(line, "RDCRC", rd(1, RDCRC), crc);
    is(line, "TSR", rd(0, TSR), TBS_BSY | DTIRDY | 2);      /* A 10, B 00 */
    is(line, "TCR", rd(0, TCR), sent);                      /* the word stays in the silo */
    is(line, "TMMR", rd(0, TMMR) & T_OPEN, 0);
}

/* "it sets TXM ERR, closes and gets 00, ahead of rule 3", and so of all behind it. */
static void opening_at_an_open_receiver(void)
{
    /* where rule 9 would have stored it: with RCV DAT, with RCV WD */
    mid_message(); restart(1, SND_WD | ST_TXM); refused_opening(__LINE__, 0, 2);
    mid_message(); wr(1, RCR, RCV_WD); restart(1, SND_WD); refused_opening(__LINE__, 0, 2);
    /* where it would have answered 01: no command; no room */
    mid_message(); wr(1, RCR, 0); restart(1, SND_WD | ST_TXM); refused_opening(__LINE__, 0, 2);
    mid_message();
    for (unsigned i = 0; i < 62; i++) { wr(0, TSDB, i); IS(serve(1), sl(1, 2, 3)); }
    IS(rd(1, RCR) & 8, 0); restart(1, SND_WD | ST_TXM); refused_opening(__LINE__, 0, 2);
    /* rule 3 would have closed it and set nothing; ERR stood, so the codes stay */
    static const unsigned errors[] = { TIM_OUT, PAR, MEM_OFL, TIM_OUT | BC_OFL };
    for (size_t i = 0; i < 4; i++) {
        mid_message(); wr(1, RSR, errors[i]); wr(1, RCR, RCV_WD | RCV_DAT);
        restart(1, SND_WD | ST_TXM); refused_opening(__LINE__, errors[i], 0xE);
    }
    /* NXL is no bit that a host writes: a move to the second word of a memory of one */
    fit_plain(2, 2, 1); wb(0, TMMR + 1, (MASTER | AUT_ADR) >> 8); two_words();
    wr(1, RDBC, 0); wr(1, RDBA, 2); wr(1, RCR, RC_NPR); IS(mv(1, 1), at(2)); wr(1, RCR, RCV_WD | RCV_DAT);
    restart(1, SND_WD | ST_TXM); refused_opening(__LINE__, NXL, 0xE);
    /* TXM ERR stands, and the host has set its bits again: a new event, though rule 3 would have left the same */
    mid_message(); wr(1, RSR, TXM_ERR); wr(1, RCR, RCV_WD | RCV_DAT | REJ);
    restart(1, SND_WD | ST_TXM); refused_opening(__LINE__, 0, 0xE);
    /* BC OFL alone, which rule 3 lets pass, freezes too */
    mid_message(); wr(1, RSR, BC_OFL); wr(1, RCR, RCV_WD | RCV_DAT);
    restart(1, SND_WD | ST_TXM); refused_opening(__LINE__, BC_OFL, 0xE);
    /* rule 4 would have answered 10 with PAR */
    plain(); sender(2, SND_WD | ST_TXM); wr(1, RCR, RCV_WD | RCV_DAT);
    IS(serve_damaged(1, 1, 0), sl(1, 2, 3)); restart(1, SND_WD | ST_TXM); refused_opening(__LINE__, 0, 2);
    /* rule 6 would have set RECOM, rule 7 truncated; both with 01 */
    mid_message(); wr(1, RCR, REJ); restart(1, SND_WD | ST_TXM); refused_opening(__LINE__, 0, 2);
    mid_message(); wr(1, RCR, REJ | RCV_DAT); restart(1, SND_WD | ST_TXM); refused_opening(__LINE__, 0, 2);
    /* truncated already: the mark falls with the channel */
    mid_message(); wr(0, TSDB, 3); wr(1, RCR, REJ | RCV_DAT); IS(serve(1), sl(1, 2, 1));
    restart(1, SND_WD | ST_TXM); refused_opening(__LINE__, 0, 2);
    /* rule 8: a due CRC not yet taken, taken, and the last CRC taken */
    full_block(); restart(1, SND_WD | ST_TXM); refused_opening(__LINE__, 0, 2);
    full_block(); wr(0, TSDB, 5); IS(serve(1), sl(1, 2, 1));
    restart(1, SND_WD | ST_TXM); refused_opening(__LINE__, 0, 2);
    full_block(); IS(serve(1), sl(1, 3, 1)); restart(1, SND_WD | ST_TXM); refused_opening(__LINE__, 0, 2);
    /* .. though the word is the very CRC that is due */
    full_block();
    unsigned crc = rd(1, RDCRC);
    restart(0, 0); wr(0, TSDB, crc); wr(0, TCR, (12 << 8) | SND_WD); refused_opening(__LINE__, 0, 2);
    /* right behind a due CRC answered 11, where both counts and both CRCs are 0 */
    full_block(); wr(0, TSDB, 5); IS(serve(1), sl(1, 2, 1)); IS(serve(1), sl(1, 2, 3));
    restart(1, SND_WD | ST_TXM); refused_opening(__LINE__, 0, 2);
    /* no line carries the mark: no damage makes the word another */
    for (int i = 0; i < 18; i++) {
        mid_message(); restart(1, SND_WD | ST_TXM);
        IS(serve_damaged(1, (uint16_t)(i < 16 ? 1 << i : 0xFFFF), i >= 16), sl(1, 2, 0));
        IS(rd(1, RSR), ERR | TXM_ERR | DTORDY | 2); IS(rd(0, TSR), TBS_BSY | DTIRDY | 2);
    }
    /* a request at R, at T with RIB clear; with RIB set T tries on, and is busy */
    mid_message(); wr(1, RCR, RCV_WD | RCV_DAT | RC_NPR | IE); IS(level(1, 1), 0);
    restart(1, SND_WD | ST_TXM | IE); IS(serve(1), sl(1, 2, 0)); IS(level(1, 1), 1); IS(level(0, 0), 1);
    mid_message(); restart(1, SND_WD | ST_TXM | IE | RIB); IS(serve(1), sl(1, 2, 0)); IS(level(0, 0), 0);
    IS(rd(0, TCR), (12 << 8) | SND_WD | ST_TXM | IE | RIB | 8); IS(rd(0, TSR), TBS_BSY | BUSY | DTIRDY | 2);
    IS(serve(1), sl(1, 2, 0)); IS(rd(1, RSR), ERR | TXM_ERR | DTORDY | 2);   /* rule 2: ERR */
    wr(1, RSR, 0); wr(1, RCR, RCV_WD | RCV_DAT); IS(serve(1), sl(1, 2, 3));
    IS(rd(0, TSR), BUSY | DTIRDY | 0xE);
    /* the period's mark falls with the channel */
    mid_message(); second_period(&l, 1); restart(1, SND_WD | ST_TXM); IS(serve(1), sl(1, 2, 0));
    IS(l.unit[1].receiver.side.mark, 0);
}

/* T, open, finds 12 closed: "a closed receiver answers 00 to anything but an
 * opening word, a CRC included", and nothing of it changes.  T closes with TXM
 * ERR, by the chart. */
static void refused_going_on(int line, uint32_t a)
{
    is(line, "T is open", rd(0, TMMR) & T_OPEN, T_OPEN);
    is(line, "R is closed", rd(1, RSR) & CHN_OPN, 0);
    keep();
    is(line, "the slice", serve(1), sl(1, a, 0));
    is(line, "R unchanged", memcmp(&kept.unit[1].receiver, &l.unit[1].receiver, sizeof kept.unit[1].receiver) != 0, 0);
    is(line, "TSR", rd(0, TSR), ERR | TXM_ERR | DTIRDY | a);
    is(line, "T is closed", rd(0, TMMR) & T_OPEN, 0);
    is(line, "TCR", rd(0, TCR) & (SND_WD | ST_TXM), 0);
}

/* "A restarted receiver can likewise pick up a message at its middle." */
static void no_opening_at_a_closed_receiver(void)
{
    /* a word, with ST TXM and with SND WD; a due CRC, sent first and again */
    mid_message(); wr(0, TSDB, 3); wr(1, RCR, RC_INIT); wr(1, RCR, RCV_WD | RCV_DAT); refused_going_on(__LINE__, 2);
    mid_message(); wr(0, TSDB, 3); wr(0, TCR, SND_WD); wr(1, RCR, RC_INIT); wr(1, RCR, RCV_WD); refused_going_on(__LINE__, 2);
    full_block(); wr(0, TSDB, 5); wr(1, RCR, RC_INIT); wr(1, RCR, RCV_WD | RCV_DAT); refused_going_on(__LINE__, 2);
    full_block(); wr(0, TSDB, 5); IS(serve(1), sl(1, 2, 1)); wr(1, RCR, RC_INIT); wr(1, RCR, RCV_WD | RCV_DAT);
    refused_going_on(__LINE__, 2);
    /* reset is RC INIT too */
    mid_message(); wr(0, TSDB, 3); second_reset(&l, 1); wr(1, RCR, RCV_WD | RCV_DAT); refused_going_on(__LINE__, 2);
    /* no damage makes an opening word of it */
    for (int i = 0; i < 18; i++) {
        mid_message(); wr(0, TSDB, 3); wr(1, RCR, RC_INIT); wr(1, RCR, RCV_WD | RCV_DAT);
        IS(serve_damaged(1, (uint16_t)(i < 16 ? 1 << i : 0xFFFF), i >= 16), sl(1, 2, 0));
        IS(rd(1, RSR), BUSY); IS(rd(1, RCR), RCV_WD | RCV_DAT | 8); IS(rn(1, RDDB), 4);
    }
    /* as before it: a null cycle, the last CRC, and 00, which closes T and sets nothing */
    mid_message(); wr(0, TCR, 0); wr(1, RCR, RC_INIT); wr(1, RCR, RCV_WD | RCV_DAT); refused_going_on(__LINE__, 1);
    mid_message(); wr(1, RCR, RC_INIT); wr(1, RCR, RCV_WD | RCV_DAT); refused_going_on(__LINE__, 3);
    mid_message(); wr(0, TSR, TIM_OUT); wr(1, RCR, RC_INIT); wr(1, RCR, RCV_WD | RCV_DAT); keep();
    IS(serve(1), sl(1, 0, 0)); IS(rd(0, TSR), ERR | TIM_OUT | DTIRDY | 0xE); IS(rd(0, TMMR) & T_OPEN, 0);
    IS(memcmp(&kept.unit[1], &l.unit[1], sizeof l.unit[1]) != 0, 0);
    /* the next message of that T opens R, and is whole */
    mid_message(); wr(0, TSDB, 3); wr(1, RCR, RC_INIT); wr(1, RCR, RCV_WD | RCV_DAT); IS(serve(1), sl(1, 2, 0));
    IS(rd(0, TSDB), 3); wr(0, TSR, 0); wr(0, TCR, RD_SILO); IS(rd(0, TSDB), 3); wr(0, TCR, 0);
    sender(1, SND_WD | ST_TXM);
    IS(serve(1), sl(1, 2, 3)); IS(serve(1), sl(1, 3, 1)); IS(rd(1, RDDB), 0x1111); IS(rn(1, RDDB), 4);
    IS(serve(1), sl(1, 3, 3)); IS(rd(1, RSR), SUC); IS(rd(0, TSR), SUC | DTIRDY);
}

/* The accident itself, and the message sent again. */
static void nothing_glued(void)
{
    mid_message(); IS(rd(1, RDDB), 0x1111); IS(rd(1, RDDB), 0x2222);
    restart(3, SND_WD | ST_TXM); refused_opening(__LINE__, 0, 2);
    IS(rn(1, RDDB), 4);                                     /* none of the new words */
    wr(1, RSR, 0); wr(1, RCR, RCV_WD | RCV_DAT); wr(0, TCR, (12 << 8) | SND_WD | ST_TXM);
    for (unsigned i = 0; i < 3; i++) { IS(serve(1), sl(1, 2, 3)); IS(rd(1, RDDB), 0x1111 * (i + 1)); }
    IS(serve(1), sl(1, 3, 1)); IS(serve(1), sl(1, 3, 3));
    IS(rd(1, RSR), SUC); IS(rd(0, TSR), SUC | DTIRDY);
    IS(rd(1, RDCRC), reference_crc((uint16_t[]){ 0x1111, 0x2222, 0x3333 }, 3));
    /* what R's host has not taken stays, and comes before the next message; RC INIT takes it away */
    mid_message(); restart(0, 0); wr(0, TSDB, 7); wr(0, TCR, (12 << 8) | SND_WD | ST_TXM); refused_opening(__LINE__, 0, 2);
    wr(1, RSR, 0); wr(1, RCR, RCV_WD | RCV_DAT); wr(0, TCR, (12 << 8) | SND_WD | ST_TXM); IS(serve(1), sl(1, 2, 3));
    IS(rd(1, RDDB), 0x1111); IS(rd(1, RDDB), 0x2222); IS(rd(1, RDDB), 7); IS(rn(1, RDDB), 4);
    mid_message(); restart(0, 0); wr(0, TSDB, 7); wr(0, TCR, (12 << 8) | SND_WD | ST_TXM); refused_opening(__LINE__, 0, 2);
    wr(1, RCR, RC_INIT); wr(1, RCR, RCV_WD | RCV_DAT); wr(0, TCR, (12 << 8) | SND_WD | ST_TXM); IS(serve(1), sl(1, 2, 3));
    IS(rd(1, RDDB), 7); IS(rn(1, RDDB), 4);
    /* TX INIT when the last CRC had been taken: no second message ends the first */
    mid_message(); IS(serve(1), sl(1, 3, 1)); restart(1, SND_WD | ST_TXM); refused_opening(__LINE__, 0, 2);
    IS(rd(1, RSR) & SUC, 0);
    /* reset at either end is as INIT of its side */
    mid_message(); second_reset(&l, 0); wb(0, TMMR + 1, (MASTER | AUT_ADR) >> 8); sender(1, SND_WD | ST_TXM);
    refused_opening(__LINE__, 0, 2);
}

/* "that same transmitter": others, and other receivers. */
static void opening_elsewhere(void)
{
    fit_plain(3, 3, 131072); wb(2, TMMR + 1, 0x11);
    wr(1, RCR, RCV_WD | RCV_DAT); wr(2, RCR, RCV_WD | RCV_DAT); sender(1, SND_WD | ST_TXM); IS(serve(1), sl(1, 2, 3));
    wr(0, TCR, TX_INIT);
    /* 12 is left open with transmitter 1: to 3 it is open with another, no change */
    wr(2, TSDB, 9); wr(2, TCR, (12 << 8) | SND_WD | ST_TXM); keep(); IS(serve(3), sl(3, 2, 0));
    IS(memcmp(&kept.unit[1], &l.unit[1], sizeof l.unit[1]) != 0, 0); IS(rd(2, TSR), TBS_BSY | DTIRDY | 2);
    /* transmitter 1 opens to 13: 12 is not asked, and keeps its channel */
    wr(0, TSDB, 7); wr(0, TCR, (13 << 8) | SND_WD | ST_TXM); keep(); IS(serve(1), sl(1, 2, 3));
    IS(memcmp(&kept.unit[1], &l.unit[1], sizeof l.unit[1]) != 0, 0);
    IS(serve(1), sl(1, 3, 1)); IS(rd(2, RDDB), 7); IS(serve(1), sl(1, 3, 3)); IS(rd(2, RSR), SUC);
    /* and then to 12, where its old channel still stands */
    wr(0, TSR, 0); wr(0, TSDB, 8); wr(0, TCR, (12 << 8) | SND_WD | ST_TXM); refused_opening(__LINE__, 0, 2);
    IS(rd(1, RDDB), 0x1111); IS(rn(1, RDDB), 4);
    /* 12 is free: transmitter 3 opens it */
    wr(1, RSR, 0); wr(1, RCR, RCV_WD | RCV_DAT); wr(2, TCR, (12 << 8) | SND_WD | ST_TXM); IS(serve(3), sl(3, 2, 3));
    /* an open T whose R another has opened since: 00, no change at R, TXM ERR at T */
    fit_plain(3, 3, 131072); wb(2, TMMR + 1, 0x11);
    wr(1, RCR, RCV_WD | RCV_DAT); sender(2, SND_WD | ST_TXM); IS(serve(1), sl(1, 2, 3)); wr(1, RCR, RC_INIT);
    wr(1, RCR, RCV_WD | RCV_DAT); wr(2, TSDB, 9); wr(2, TCR, (12 << 8) | SND_WD | ST_TXM); IS(serve(3), sl(3, 2, 3));
    keep(); IS(serve(1), sl(1, 2, 0)); IS(rd(0, TSR), ERR | TXM_ERR | DTIRDY | 2);
    IS(memcmp(&kept.unit[1], &l.unit[1], sizeof l.unit[1]) != 0, 0);
}

/* Unit 0 sends to its own receiver, 11; unit 1 is master. */
static void to_itself(void)
{
    fit_plain(2, 2, 131072); wb(1, TMMR + 1, 0x11);
    wr(0, RCR, RCV_WD | RCV_DAT); wr(0, TSDB, 1); wr(0, TCR, (11 << 8) | SND_WD | ST_TXM); IS(serve(1), sl(1, 2, 3));
    wr(0, TCR, TX_INIT); wr(0, TSDB, 2); wr(0, TCR, (11 << 8) | SND_WD | ST_TXM);
    IS(serve(1), sl(1, 2, 0)); IS(rd(0, RSR), ERR | TXM_ERR | DTORDY | 2); IS(rd(0, TSR), TBS_BSY | DTIRDY | 2);
    /* its reset closes both sides: the next opening is a first one */
    wr(0, RSR, 0); wr(0, RCR, RCV_WD | RCV_DAT); wr(0, TCR, (11 << 8) | SND_WD | ST_TXM); IS(serve(1), sl(1, 2, 3));
    second_reset(&l, 0); wr(0, RCR, RCV_WD | RCV_DAT); wr(0, TSDB, 3); wr(0, TCR, (11 << 8) | SND_WD | ST_TXM);
    IS(serve(1), sl(1, 2, 3)); IS(rd(0, RDDB), 3); IS(rn(0, RDDB), 4);
    /* RC INIT alone: its own open transmitter finds it closed */
    wr(0, TSDB, 4); wr(0, RCR, RC_INIT); wr(0, RCR, RCV_WD | RCV_DAT); IS(serve(1), sl(1, 2, 0));
    IS(rd(0, TSR), ERR | TXM_ERR | DTIRDY | 2); IS(rd(0, RSR), BUSY); IS(rn(0, RDDB), 4);
}

static void restarts(void)
{
    opening_at_an_open_receiver(); no_opening_at_a_closed_receiver(); nothing_glued(); opening_elsewhere(); to_itself();
}

/* --------------------------------------------------- document 02, request 6 */

/* T's serial, and that of 12; the other two sides of the units have opened nothing. */
static void both_show(int line, uint32_t of_t, uint32_t of_r)
{
    is(line, "T's serial", second_serial(&l, 0, 0), (uint64_t)of_t << 16);
    is(line, "R's serial", second_serial(&l, 1, 1), (uint64_t)of_r << 16);
    is(line, "R's serial of T's unit", second_serial(&l, 0, 1), 0);
    is(line, "T's serial of R's unit", second_serial(&l, 1, 0), 0);
}

/* "raises by one at each opening": not before, not with a word, a CRC or a success after it, and "kept after closing". */
static void serial_of_a_message(void)
{
    plain(); both_show(__LINE__, 0, 0);
    for (uint32_t i = 1; i <= 3; i++) {
        sender(3, SND_WD | ST_TXM); wr(1, RCR, RCV_WD | RCV_DAT); both_show(__LINE__, i - 1, i - 1);
        for (int k = 0; k < 3; k++) { IS(serve(1), sl(1, 2, 3)); both_show(__LINE__, i, i); rd(1, RDDB); }
        IS(serve(1), sl(1, 3, 1)); both_show(__LINE__, i, i);
        IS(serve(1), sl(1, 3, 3)); IS(rd(0, TSR) & rd(1, RSR) & SUC, SUC); both_show(__LINE__, i, i);
        IS(serve(1), sl(1, 0, 0)); wr(0, TSR, 0); wr(1, RSR, 0); both_show(__LINE__, i, i);
    }
    /* due CRCs; a null cycle; one word after the other by SND WD, of which each sets SUC TXF on the one channel */
    full_block(); wr(0, TSDB, 5); IS(serve(1), sl(1, 2, 1)); IS(serve(1), sl(1, 2, 3)); IS(serve(1), sl(1, 2, 3));
    both_show(__LINE__, 1, 1);
    plain(); sender(3, SND_WD); wr(1, RCR, RCV_WD); IS(serve(1), sl(1, 2, 3)); IS(serve(1), sl(1, 1, 1));
    for (int k = 0; k < 2; k++) {
        IS(rd(0, TSR) & SUC, SUC); wr(0, TSR, 0);
        wr(0, TCR, (12 << 8) | SND_WD); wr(1, RCR, RCV_WD); IS(serve(1), sl(1, 2, 3)); both_show(__LINE__, 1, 1);
    }
}

/* The ways in which a channel closes, or one end of it. */
enum { BY_ERR_AT_T, BY_ERR_AT_R, BY_PARITY, BY_BAD_CRC, BY_REJECTION, BY_TRUNCATION, BY_TX_INIT, BY_RC_INIT, BY_INIT_BYTES, BY_RESET_OF_T,
       BY_RESET_OF_R, BY_RESETS, CLOSINGS };

/* The channel of two_words, on which T has sent what it had. */
static void close_by(unsigned way)
{
    switch (way) {
    case BY_ERR_AT_T: wr(0, TSR, TIM_OUT); IS(serve(1), sl(1, 0, 0)); break;
    case BY_ERR_AT_R: wr(1, RSR, TIM_OUT); IS(serve(1), sl(1, 3, 0)); break;
    case BY_PARITY: wr(0, TSDB, 3); IS(serve_damaged(1, 4, 0), sl(1, 2, 3)); IS(serve(1), sl(1, 3, 2)); break;
    case BY_BAD_CRC: IS(serve_damaged(1, 4, 0), sl(1, 3, 1)); IS(serve(1), sl(1, 3, 2)); break;
    case BY_REJECTION: wr(1, RCR, REJ); IS(serve(1), sl(1, 3, 1)); IS(rd(1, RSR) & RECOM, RECOM); break;
    case BY_TRUNCATION:
        wr(0, TSDB, 3); wr(1, RCR, REJ | RCV_DAT); IS(serve(1), sl(1, 2, 1)); IS(serve(1), sl(1, 3, 1));
        IS(serve(1), sl(1, 3, 3)); IS(rd(1, RSR) & (RECOM | SUC), RECOM | SUC); break;
    case BY_TX_INIT: wr(0, TCR, TX_INIT); break;
    case BY_RC_INIT: wr(1, RCR, RC_INIT); IS(serve(1), sl(1, 3, 0)); break;
    case BY_INIT_BYTES: wb(0, TCR, TX_INIT); wb(1, RCR, RC_INIT); break;
    case BY_RESET_OF_T: second_reset(&l, 0); break;
    case BY_RESET_OF_R: second_reset(&l, 1); IS(serve(1), sl(1, 3, 0)); break;
    default: second_reset(&l, 0); second_reset(&l, 1); break;
    }
}

/* "kept after closing. Only a new fit resets it": whatever closes the channel, and whatever the hosts do to a side that is closed. */
static void serial_kept(void)
{
    for (unsigned way = 0; way < CLOSINGS; way++) {
        mid_message(); both_show(__LINE__, 1, 1);
        close_by(way); both_show(__LINE__, 1, 1);
        wr(0, TCR, TX_INIT); wr(1, RCR, RC_INIT); both_show(__LINE__, 1, 1);
        second_reset(&l, 0); second_reset(&l, 1); both_show(__LINE__, 1, 1);
        wb(0, TMMR + 1, (MASTER | AUT_ADR) >> 8); two_words(); both_show(__LINE__, 2, 2);
    }
    /* writes of every register, reads, moves, periods and levels, with a channel open and without */
    for (unsigned open = 0; open < 2; open++) {
        mid_message();
        if (!open)
            close_by(BY_INIT_BYTES);
        for (uint32_t u = 0; u < 2; u++)
            for (uint32_t o = 0; o < 28; o++) {
                wr(u, o, 0xFFFD); wb(u, o, o % 2 ? 0xFF : 0xFD); second_read(&l, u, o);
                second_period(&l, u); mv(u, o % 2); level(u, o % 2); both_show(__LINE__, 1, 1);
            }
    }
    /* a master that goes: MST DWN, and a takeover */
    mid_message(); wr(0, TSDB, 3); wb(0, TMMR + 1, AUT_ADR >> 8); IS(second_slice(&l, 0, 0), 8); both_show(__LINE__, 1, 1);
    wb(1, TMMR + 1, (SEC | AUT_ADR) >> 8); IS(second_slice(&l, 0, 0), 8); both_show(__LINE__, 1, 1);
}

/* An opening word that gets 00 opens nothing: the same serial goes with it again, until R takes it. */
static void serial_not_raised(void)
{
    plain(); sender(1, SND_WD | RIB);
    /* no RCV WD; an error, BC OFL too; no such receiver; T idle, for want of a destination, with ERR, for want of a word; no room */
    for (int i = 0; i < 5; i++) { IS(serve(1), sl(1, 2, 0)); both_show(__LINE__, 0, 0); }
    wr(1, RSR, PAR); wr(1, RCR, RCV_WD); IS(serve(1), sl(1, 2, 0)); both_show(__LINE__, 0, 0);
    wr(1, RSR, BC_OFL); wr(1, RCR, RCV_WD); IS(serve(1), sl(1, 2, 0)); both_show(__LINE__, 0, 0); wr(1, RSR, 0);
    wr(0, TCR, (31 << 8) | SND_WD | RIB); IS(serve(1), sl(1, 2, 0)); both_show(__LINE__, 0, 0);
    wr(0, TCR, SND_WD); IS(serve(1), sl(1, 0, 0)); both_show(__LINE__, 0, 0);
    wr(0, TCR, (12 << 8) | SND_WD); wr(0, TSR, TIM_OUT); IS(serve(1), sl(1, 0, 0)); both_show(__LINE__, 0, 0); wr(0, TSR, 0);
    wr(0, TCR, (12 << 8) | SND_WD); wr(1, RCR, RCV_WD); IS(serve(1), sl(1, 2, 3)); both_show(__LINE__, 1, 1);
    plain(); wr(0, TCR, (12 << 8) | SND_WD | ST_TXM); wr(1, RCR, RCV_WD | RCV_DAT); IS(serve(1), sl(1, 0, 0)); both_show(__LINE__, 0, 0);
    for (int i = 0; i < 64; i++) { wr(0, TSDB, i); IS(serve(1), sl(1, 2, 3)); }
    wr(0, TCR, TX_INIT); wb(0, TMMR + 1, (MASTER | AUT_ADR) >> 8); sender(1, SND_WD | RIB);
    IS(serve(1), sl(1, 2, 0)); wr(1, RSR, 0); wr(1, RCR, RCV_WD); IS(rd(1, RCR) & 8, 0);    /* closed, and full */
    IS(serve(1), sl(1, 2, 0)); both_show(__LINE__, 1, 1);
    rd(1, RDDB); IS(serve(1), sl(1, 2, 3)); both_show(__LINE__, 2, 2);
    /* at a receiver that is open with another */
    fit_plain(3, 3, 131072); wb(2, TMMR + 1, 0x11); sender(1, SND_WD); wr(1, RCR, RCV_WD | RCV_DAT); IS(serve(1), sl(1, 2, 3));
    wr(2, TSDB, 9); wr(2, TCR, (12 << 8) | SND_WD | RIB); IS(serve(3), sl(3, 2, 0)); IS(serial(2, 0), 0); both_show(__LINE__, 1, 1);
}

/* A restarted T at an R that is still open: R keeps the serial of the message that it had, and the next opening has the next one. */
static void serial_of_a_restart(void)
{
    static const unsigned starts[] = { SND_WD, SND_WD | ST_TXM };

    for (int i = 0; i < 2; i++) {
        mid_message(); restart(1, starts[i]); both_show(__LINE__, 1, 1);
        refused_opening(__LINE__, 0, 2); both_show(__LINE__, 1, 1);
        wr(1, RSR, 0); wr(1, RCR, RCV_WD | RCV_DAT); wr(0, TCR, (12 << 8) | starts[i]); IS(serve(1), sl(1, 2, 3));
        both_show(__LINE__, 2, 2);
    }
    mid_message(); wr(0, TSDB, 3); wr(1, RCR, RC_INIT); wr(1, RCR, RCV_WD | RCV_DAT); refused_going_on(__LINE__, 2);
    both_show(__LINE__, 1, 1);
    /* transmitter 1 opens to 13, and 12 still holds the channel of the message before */
    fit_plain(3, 3, 131072); wb(2, TMMR + 1, 0x11); two_words(); wr(0, TCR, TX_INIT);
    wr(2, RCR, RCV_WD | RCV_DAT); wr(0, TSDB, 7); wr(0, TCR, (13 << 8) | SND_WD | ST_TXM); IS(serve(1), sl(1, 2, 3));
    both_show(__LINE__, 2, 1); IS(serial(2, 1), 2);
    IS(serve(1), sl(1, 3, 1)); rd(2, RDDB); IS(serve(1), sl(1, 3, 3)); both_show(__LINE__, 2, 1); IS(serial(2, 1), 2);
}

/* "It is copied to the receiver": R has the serial of the T that opens it, which may be less than the one that it had. */
static void serial_of_the_sender(void)
{
    fit_plain(3, 3, 131072); wb(1, TMMR + 1, 0x11);
    for (uint32_t i = 1; i <= 5; i++) {
        sender(1, SND_WD); wr(1, RCR, RCV_WD); IS(serve(1), sl(1, 2, 3)); IS(serial(0, 0), i); IS(serial(1, 1), i);
        wr(0, TCR, TX_INIT); wr(1, RCR, RC_INIT);
    }
    for (uint32_t i = 1; i <= 2; i++) {
        wr(2, TSDB, 9); wr(2, TCR, (12 << 8) | SND_WD); wr(1, RCR, RCV_WD); IS(serve(3), sl(3, 2, 3));
        IS(serial(2, 0), i); IS(serial(1, 1), i); IS(serial(0, 0), 5);
        wr(2, TCR, TX_INIT); wr(1, RCR, RC_INIT);
    }
    sender(1, SND_WD); wr(1, RCR, RCV_WD); IS(serve(1), sl(1, 2, 3)); IS(serial(0, 0), 6); IS(serial(1, 1), 6); IS(serial(2, 0), 2);
    /* a unit that sends to itself: both of its sides have one serial, and it is theirs */
    fit_plain(2, 2, 131072); wb(1, TMMR + 1, 0x11);
    for (uint32_t i = 1; i <= 3; i++) {
        wr(0, RCR, RCV_WD | RCV_DAT); wr(0, TSDB, 1); wr(0, TCR, (11 << 8) | SND_WD | ST_TXM); IS(serve(1), sl(1, 2, 3));
        IS(serial(0, 0), i); IS(serial(0, 1), i);
        IS(serve(1), sl(1, 3, 1)); rd(0, RDDB); IS(serve(1), sl(1, 3, 3)); IS(serial(0, 0), i); IS(serial(0, 1), i);
        second_reset(&l, 0); IS(serial(0, 0), i); IS(serial(0, 1), i);
    }
    wr(0, RCR, RCV_WD | RCV_DAT); wr(0, TSDB, 1); wr(0, TCR, (11 << 8) | SND_WD | ST_TXM); IS(serve(1), sl(1, 2, 3));
    wr(0, TCR, TX_INIT); wr(0, TSDB, 2); wr(0, TCR, (11 << 8) | SND_WD | ST_TXM); IS(serve(1), sl(1, 2, 0));
    IS(serial(0, 0), 4); IS(serial(0, 1), 4); IS(serial(1, 0), 0); IS(serial(1, 1), 0);
}

/* "Only a new fit resets it, to 0": one that is answered 0, with as many units and with fewer. */
static void serial_after_a_fit(void)
{
    static const uint32_t bad[][4] = { { 0, 11, 2, 1 }, { 1, 32, 2, 1 }, { 1, 11, 1, 1 }, { 1, 11, 2, 0 }, { 1, 11, 2, 131073 } };

    mid_message(); close_by(BY_INIT_BYTES); wb(0, TMMR + 1, (MASTER | AUT_ADR) >> 8); two_words();
    for (size_t i = 0; i < sizeof bad / sizeof bad[0]; i++) {
        IS(second_fit(&l, bad[i], 4), 7); both_show(__LINE__, 2, 2);
    }
    IS(second_fit(&l, bad[0], 3), 7); IS(second_fit(&l, NULL, 0), 7); both_show(__LINE__, 2, 2);
    plain(); both_show(__LINE__, 0, 0);
    two_words(); both_show(__LINE__, 1, 1);
    fit_plain(1, 2, 1); IS(second_serial(&l, 0, 0), 0); IS(second_serial(&l, 0, 1), 0); IS(second_serial(&l, 1, 1), 1);
    fit_plain(16, 2, 1);
    for (uint32_t u = 0; u < 16; u++) { IS(second_serial(&l, u, 0), 0); IS(second_serial(&l, u, 1), 0); }
}

/* "starting again at 0 after 65,535": 65,536 openings and four more, to 12 and 13 in turn, and between them an INIT or a reset at either
 * end.  Whoever is not opened keeps its own.  Every mask over the sixteen data lines damages one of the opening slices, and no mask
 * the serial that is copied. */
static void serial_goes_round(void)
{
    uint32_t now = 0, at_receiver[3] = { 0 };

    fit_plain(3, 3, 131072); wb(2, TMMR + 1, 0x11);
    for (uint32_t i = 1; i <= 65540; i++) {
        uint32_t r = 1 + i % 2;

        wr(0, TSDB, i); wr(0, TCR, ((r + 11) << 8) | SND_WD); wr(r, RCR, RCV_WD);
        IS(serve_damaged(1, (uint16_t)i, i >> 4 & 1), sl(1, 2, 3));
        now = now == 65535 ? 0 : now + 1;
        at_receiver[r] = now;
        IS(serial(0, 0), now); IS(serial(1, 1), at_receiver[1]); IS(serial(2, 1), at_receiver[2]);
        if (i % 4 < 2) { wr(0, TCR, TX_INIT); second_reset(&l, 1); wr(2, RCR, RC_INIT); }
        else { second_reset(&l, 0); wr(1, RCR, RC_INIT); wr(2, RCR, RC_INIT); }
        IS(serial(0, 0), now); IS(serial(1, 1), at_receiver[1]); IS(serial(2, 1), at_receiver[2]);
        if (i == 65536) { IS(now, 0); IS(at_receiver[2], 65535); }
    }
    IS(now, 4); IS(serial(0, 1), 0); IS(serial(1, 0), 0); IS(serial(2, 0), 0);
}

static void serials(void)
{
    serial_of_a_message(); serial_kept(); serial_not_raised(); serial_of_a_restart(); serial_of_the_sender(); serial_after_a_fit();
    serial_goes_round();
}

/* ---------------------------------------------------------------- demand 3 */

struct message {
    uint32_t n, units, from, to, cycle;     /* cycle: switch, or addresses */
    bool silo;
};

static uint32_t move_both(const struct message *m, uint16_t *source, uint16_t *target)
{
    while (second_move(&l, m->from, 0, source, 131072) == 0)
        ;
    while (second_move(&l, m->to, 1, target, 131072) == 0)
        ;
    return 0;
}

/* The master section of unit 0: the counter, or a silo in which transmitter
 * address from + 1 stands in every second place. */
static void start_master(const struct message *m)
{
    wb(0, TMMR + 1, (CLR_ADR | MASTER | AUT_ADR) >> 8);
    if (!m->silo)
        return;
    for (uint32_t i = 0; i < m->cycle; i++)
        IS(wb(0, TMMR, i % 2 ? m->from + 1 : 20 + i % 3), 0);
    IS(wb(0, TMMR + 1, MASTER >> 8), 0);
}

static void message(const struct message *m)
{
    uint32_t address = m->from + 1, formula = m->n + 1 + 2 * ((m->n - 1) / 128);
    uint32_t own = 0, all = 0, seed = m->n * 2654435761u + m->cycle;
    uint32_t source = 64, target = 66000;       /* words */
    uint16_t *s = memory[m->from], *t = memory[m->to];
    bool open = false;

    fit_plain(m->units, m->silo ? 2 : m->cycle, 131072);
    start_master(m);
    for (uint32_t i = 0; i < 131072; i++) {
        seed = seed * 1103515245u + 12345u;
        s[i] = (uint16_t)(seed >> 16);
        t[i] ^= (uint16_t)(seed >> 12);
    }
    memcpy(wanted, t, sizeof wanted);
    memcpy(wanted + target, s + source, 2 * m->n);
    wr(m->from, TSBA, 2 * source); wr(m->from, TSBC, 0x10000 - 2 * m->n);
    wr(m->to, RDBA, 2 * target); wr(m->to, RDBC, m->n % 2 ? 0 : 0x10000 - 2 * m->n);
    wr(m->to, RCR, RCV_WD | RCV_DAT | RC_NPR | (2 * target >> 16 << 4));
    move_both(m, s, t);
    wr(m->from, TCR, ((m->to + 11) << 8) | TX_NPR | SND_WD | ST_TXM | (2 * source >> 16 << 4));
    for (;;) {
        move_both(m, s, t);
        uint32_t a = second_slice(&l, 0, 0);
        bool mine = (a >> 16) % 32 == address;
        IS(no(a), 0);
        own += open && mine;
        all += open;
        if (mine && !open) { IS(a, sl(address, 2, 3)); open = true; }
        if (own == formula || failures)
            break;
        if (rd(m->from, TSR) & (SUC | SORE | ERR | TBS_BSY)) { IS(own, formula); break; }
        if (rd(m->to, RSR) & (SUC | RECOM | ERR)) { IS(own, formula); break; }
    }
    IS(rd(m->from, TSR), SUC | DTIRDY); IS(rd(m->to, RSR), SUC);
    IS(rd(m->from, TCR) & (TX_NPR | SND_WD | ST_TXM | 8), 0);
    IS(serial(m->from, 0), 1); IS(serial(m->to, 1), 1);     /* one opening since the fit */
    IS(memcmp(wanted, t, sizeof wanted) != 0, 0);
    if (!m->silo)
        IS(all, m->cycle * formula);
}

static void demand_3(void)
{
    static const uint32_t n[] = { 1, 2, 63, 64, 65, 127, 128, 129, 255, 256, 257, 5000, 32768 };

    for (size_t i = 0; i < sizeof n / sizeof n[0]; i++) {
        bool small = n[i] < 1000;
        struct message m[] = {
            { n[i], 2, 0, 1, 2, false }, { n[i], 2, 1, 1, 2, false },
            { n[i], 3, 2, 0, small ? 31 : 3, false }, { n[i], 1, 0, 0, small ? 17 : 3, false },
            { n[i], 2, 1, 0, 20, true }, { n[i], 2, 0, 0, 50, true },
            { n[i], 16, 7, 15, 34, true }, { n[i], 16, 7, 7, small ? 16 : 8, false } };
        for (size_t j = 0; j < sizeof m / sizeof m[0]; j++)
            message(&m[j]);
    }
}

int main(void)
{
    set_ups(); refusals(); register_bits(); data_silos(); master_section(); address_silo();
    single_words(); table(); damage(); rejection(); truncation(); periods(); requests();
    moves(); missing(); move_all_words(); sides_that_want(); blocks(); others(); restarts(); serials(); demand_3();
    printf("check: %lu checks, %d failures\n", checks, failures);
    return failures != 0;
}
