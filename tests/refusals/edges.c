/* edges.c - moves at the first and last word of memories of every kind of length,
 * each lent exactly: the word, and NXL or memory overflow past it; one by one, and
 * all at once. */
#include "lent.h"

static void start_moves(uint32_t offset, uint32_t word, unsigned command)
{
    IS(wr(0, offset + 8, 2 * word & 0xFFFF), 0);                                /* TSBA, RDBA */
    IS(wr(0, offset + 6, 0), 0);                                                /* TSBC, RDBC */
    IS(wr(0, offset, command | (word >> 15) << 4), 0);                          /* TCR, RCR */
}

/* A unit with a memory of so many words, and T's address at one of them. */
static void memory_of(uint32_t words, uint32_t from)
{
    const uint32_t setup[] = { 1, 1, 2, words };

    length = 0;
    lend(PCL_CELLS(1));
    lend_memory(words);
    IS(fit(setup, 4), 0);
    start_moves(PCL_TCR, from, PCL_TCR_TX_NPR);
    keep();
}

/* A move past the memory changes no word of it: NXL, or memory overflow at its very end. */
static void past_the_end(uint32_t words, uint32_t side)
{
    uint32_t offset = side ? PCL_RSR : PCL_TSR;
    uint64_t answer;

    if (words == PCL_MEMORY_MOST) {
        IS(pcl_value(rd(0, offset)) & PCL_TSR_ERR, PCL_TSR_ERR);
        IS(pcl_value(rd(0, offset)) & PCL_TSR_MEM_OFL, PCL_TSR_MEM_OFL);
        return;
    }
    answer = mv(0, side);
    IS(pcl_number(answer), 0);
    IS(pcl_missing(answer), 2 * words);
    IS(answer, (uint64_t)2 * words << 16);
    IS(pcl_value(rd(0, offset)) & PCL_TSR_NXL, PCL_TSR_NXL);
}

/* T's move from a word, the word sent to the unit itself, and R's move to a word. */
static void at_word(uint32_t words, uint32_t from, uint32_t to)
{
    uint16_t word;

    memory_of(words, from);
    word = memory[from];
    IS(mv(0, PCL_TRANSMITTER), 0);
    if (from + 1 == words)
        past_the_end(words, PCL_TRANSMITTER);
    IS(wr(0, PCL_TSR, 0), 0);
    IS(rd(0, PCL_TSDB), shown(word));
    start_moves(PCL_RCR, to, PCL_RCR_RC_NPR | PCL_RCR_RCV_WD | PCL_RCR_RCV_DAT);
    IS(wr(0, PCL_TCR, PCL_TCR_DESTINATION(1) | PCL_TCR_SND_WD), 0);
    IS(wb(0, PCL_TMMR + 1, (PCL_TMMR_MASTER | PCL_TMMR_AUT_ADR) >> 8), 0);
    IS(pcl_number(sl(0, 0)), 0);
    IS(pcl_number(sl(0, 0)), 0);
    IS(mv(0, PCL_RECEIVER), 0);
    memory_before[to] = word;
    IS(memcmp(memory, memory_before, words * sizeof *memory), 0);
    if (to + 1 == words && words == PCL_MEMORY_MOST)
        past_the_end(words, PCL_RECEIVER);
}

/* All moves of the last words of a memory: as many as there are, at most a silo's, and no word past the end. */
static void up_to_the_end(uint32_t words, uint32_t last)
{
    uint32_t wanted = last < 64 ? last : 64;
    uint64_t missing = last < 64 && words < PCL_MEMORY_MOST ? 2 * words : 0;

    memory_of(words, words - last);
    IS(ma(0, PCL_TRANSMITTER), (missing << 16) + ((uint64_t)wanted << 34));
    IS(memcmp(memory, memory_before, words * sizeof *memory), 0);
    IS(ma(0, PCL_TRANSMITTER), 4);
    IS(wr(0, PCL_TSR, 0), 0);
    start_moves(PCL_RCR, words - last, PCL_RCR_RC_NPR | PCL_RCR_RCV_WD | PCL_RCR_RCV_DAT);
    IS(wr(0, PCL_TSBC, 0), 0);
    IS(wr(0, PCL_TCR, PCL_TCR_DESTINATION(1) | PCL_TCR_SND_WD | PCL_TCR_ST_TXM), 0);
    IS(wb(0, PCL_TMMR + 1, (PCL_TMMR_MASTER | PCL_TMMR_AUT_ADR) >> 8), 0);
    IS(pcl_number(sl(0, 0)), 0);
    for (uint32_t i = 0; i < 2 * wanted; i++)
        IS(pcl_number(sl(0, 0)), 0);
    memset(memory + (words - last), 0, wanted * sizeof *memory);
    IS(ma(0, PCL_RECEIVER), (uint64_t)wanted << 34);
    IS(memcmp(memory, memory_before, words * sizeof *memory), 0);
    IS(ma(0, PCL_RECEIVER), 4);
}

int main(void)
{
    static const uint32_t lengths[] = { 1, 2, 3, 64, 32767, 32768, 32769, 65535, 65536, 65537, 98304, 131071, 131072 };

    for (size_t i = 0; i < sizeof lengths / sizeof lengths[0]; i++)
        for (unsigned ends = 0; ends < 4; ends++)
            at_word(lengths[i], ends & 1 ? lengths[i] - 1 : 0, ends & 2 ? lengths[i] - 1 : 0);
    for (size_t i = 0; i < sizeof lengths / sizeof lengths[0]; i++)
        for (uint32_t last = 1; last <= 66 && last <= lengths[i]; last += last < 62 ? 6 : 1)
            up_to_the_end(lengths[i], last);
    return finish("refusals, edges");
}
