/* fields.c - the bits and helpers of pcl.h by themselves: every value that they take, or the edges where there are too many. */
#include <assert.h>
#include <stdio.h>
#include "pcl.h"
#include "trial.h"

/* Constants stay constants. */
static_assert(PCL_TCR_DESTINATION(1) == 0400, "the lowest destination");
static_assert(PCL_TCR_DESTINATION(31) == 017400, "the highest destination");
static_assert(PCL_TCR_DESTINATION(32) == 0, "32 is no destination, and does not set SND WD");
static_assert(PCL_TCR_DESTINATION(-1) == 017400, "five bits of any number");
static_assert(PCL_CELLS(0) == 66 && PCL_CELLS(1) == 268 && PCL_CELLS_MOST == PCL_CELLS(16) && PCL_CELLS_MOST == 3298, "cells");
static_assert(PCL_SETUP(0) == 0 && PCL_SETUP(16) == 64, "numbers of a set-up");
static_assert(PCL_LAYOUT >= 1 && PCL_VERSION >= 100, "versions");
static_assert(PCL_UNIBUS_RECEIVER - PCL_UNIBUS_TRANSMITTER == PCL_RCR && PCL_RCR == +PCL_UNIBUS_ROOM, "the manual's places");
static_assert(PCL_UNIBUS_TRANSMITTER == 0764200 && PCL_UNIBUS_RECEIVER == 0764220, "the manual's addresses");
static_assert(PCL_VECTOR_TRANSMITTER == 0170 && PCL_VECTOR_RECEIVER == 0174 && PCL_PRIORITY == 5, "the manual's vectors and priority");
static_assert(PCL_RDCRC < 2 * PCL_UNIBUS_ROOM, "all registers in their room");
static_assert(PCL_TCR_EA16 == +PCL_RCR_EA16 && PCL_TCR_EA17 == +PCL_RCR_EA17, "EA at the same places");
static_assert(PCL_TSR_RSP_A == +PCL_RSR_RSP_A && PCL_TSR_RSP_B == +PCL_RSR_RSP_B, "codes at the same places");

/* Every bit has one name: masks that do not meet, and together leave no bit out. */
#define ONE_NAME_EACH(register, all, ...) \
    do { \
        static const unsigned masks[] = { __VA_ARGS__ }; \
        unsigned seen = 0; \
        for (size_t i = 0; i < sizeof masks / sizeof masks[0]; i++) { \
            expect("bits of " #register " with two names", i, seen & masks[i], 0); \
            seen |= masks[i]; \
        } \
        expect("bits of " #register " with a name", 0, seen, all); \
    } while (0)

static void check_bits(void)
{
    ONE_NAME_EACH(TCR, 0177777, PCL_TCR_ST_TXM, PCL_TCR_TX_INIT, PCL_TCR_INH_ADI, PCL_TCR_DT_O_RDY, PCL_TCR_EA16, PCL_TCR_EA17,
                  PCL_TCR_IE, PCL_TCR_RD_SILO, PCL_TCR_DC, PCL_TCR_SND_WD, PCL_TCR_TX_NPR, PCL_TCR_RIB);
    ONE_NAME_EACH(TSR, 0177777, PCL_TSR_RSP_A, PCL_TSR_RSP_B, PCL_TSR_TBS_BSY, PCL_TSR_SORE, PCL_TSR_BUSY, PCL_TSR_SUC_TXF,
                  PCL_TSR_DTIRDY, PCL_TSR_OVERUN, PCL_TSR_TIM_OUT, PCL_TSR_MST_DWN, PCL_TSR_TXM_ERR, PCL_TSR_MEM_OFL, PCL_TSR_NXL,
                  PCL_TSR_ERR);
    ONE_NAME_EACH(TMMR, 0177437, PCL_TMMR_TXM_AD, PCL_TMMR_MASTER, PCL_TMMR_SEC, PCL_TMMR_NOW_MST, PCL_TMMR_CHN_OPN, PCL_TMMR_AUT_ADR,
                  PCL_TMMR_CLR_ADR, PCL_TMMR_AIP_RDY, PCL_TMMR_AOP_RDY);
    ONE_NAME_EACH(RCR, 0177777, PCL_RCR_RCV_DAT, PCL_RCR_RC_INIT, PCL_RCR_INH_ADI, PCL_RCR_DTIRDY, PCL_RCR_EA16, PCL_RCR_EA17,
                  PCL_RCR_IE, PCL_RCR_LD_SILO, PCL_RCR_IB, PCL_RCR_RCV_WD, PCL_RCR_RC_NPR, PCL_RCR_REJ);
    ONE_NAME_EACH(RSR, 0177777, PCL_RSR_RSP_A, PCL_RSR_RSP_B, PCL_RSR_CHN_OPN, PCL_RSR_RECOM, PCL_RSR_BUSY, PCL_RSR_SUC_TXF,
                  PCL_RSR_DTORDY, PCL_RSR_BC_OFL, PCL_RSR_TIM_OUT, PCL_RSR_PAR, PCL_RSR_TXM_ERR, PCL_RSR_MEM_OFL, PCL_RSR_NXL,
                  PCL_RSR_ERR);
}

static void check_words(void)
{
    for (unsigned word = 0; word <= 0177777; word++) {
        expect("destination of", word, pcl_destination(word), (word & PCL_TCR_DC) / 0400);
        expect("sender of", word, pcl_sender(word), (word & PCL_RCR_IB) / 0400);
        expect("RSP A of", word, pcl_rsp_a(word), (word & PCL_TSR_RSP_A));
        expect("RSP B of", word, pcl_rsp_b(word), (word & PCL_TSR_RSP_B) / 4);
    }
    for (unsigned address = 0; address < 100; address++) {
        expect("TCR for", address, PCL_TCR_DESTINATION(address), address % 32 * 0400);
        expect("destination again", address, pcl_destination(PCL_TCR_DESTINATION(address)), address % 32);
    }
}

static void check_counts(void)
{
    expect("count of 1 word", 1, pcl_byte_count(1), 0177776);
    expect("count of 16,384 words", 16384, pcl_byte_count(16384), 0100000);
    expect("count of 32,767 words", 32767, pcl_byte_count(32767), 2);
    expect("count of 32,768 words", 32768, pcl_byte_count(PCL_WORDS_MOST), 0);
    expect("count of no words", 0, pcl_byte_count(0), 0);
    expect("count of a word too many", 32769, pcl_byte_count(PCL_WORDS_MOST + 1), 0177776);
    expect("count of the most that can be asked", UINT32_MAX, pcl_byte_count(UINT32_MAX), 2);
    for (uint32_t words = 1; words <= PCL_WORDS_MOST; words++)
        expect("words again", words, pcl_words_left(pcl_byte_count(words)), words);
    for (uint32_t count = 0; count <= 0177777; count++)
        expect("count again", count, pcl_byte_count(pcl_words_left((uint16_t)count)), count & 0177776);
}

static void check_addresses(void)
{
    const unsigned both = PCL_TCR_EA16 | PCL_TCR_EA17;

    for (uint32_t address = 0; address <= 0777777; address++) {
        unsigned ea = pcl_bus_ea(address);

        expect("EA bits alone", address, ea & ~both, 0);
        expect("word of", address, pcl_bus_word(address), address & 0177776);
        expect("address again", address, pcl_bus_address(ea, pcl_bus_word(address)), address & 0777776);
        expect("address beside other bits", address, pcl_bus_address(ea | (0177777 & ~both), pcl_bus_word(address)), address & 0777776);
    }
    expect("EA of", 0200000, pcl_bus_ea(0200000), PCL_TCR_EA16);
    expect("EA of", 0400000, pcl_bus_ea(0400000), PCL_TCR_EA17);
    expect("EA of 18 bits of", UINT32_MAX, pcl_bus_ea(UINT32_MAX), both);
    expect("EA of 18 bits of", 01000000, pcl_bus_ea(01000000), 0);
    expect("an odd word", 1, pcl_bus_address(0, 1), 0);
}

/* The 32 bits of an answer, and the 64 of a move's. */
static void check_answers(void)
{
    for (uint32_t address = 0; address < 32; address++)
        for (uint32_t codes = 0; codes < 16; codes++) {
            uint32_t answer = (address | codes << 5) << 16;

            expect("number of a slice", answer, pcl_number(answer), PCL_DONE);
            expect("address of a slice", answer, pcl_address(answer), address);
            expect("A of a slice", answer, pcl_a(answer), codes % 4);
            expect("B of a slice", answer, pcl_b(answer), codes / 4);
        }
    expect("number of a move", 0, pcl_number((uint64_t)0777776 << 16), PCL_DONE);
    expect("missing address", 0, pcl_missing((uint64_t)0777776 << 16), 0777776);
    expect("no missing address", 0, pcl_missing(PCL_NOTHING), 0);
    expect("value of the largest word", 0, pcl_value((uint32_t)0177777 << 16), 0177777);
    for (uint64_t words = 0; words <= 64; words++)
        for (uint64_t address = 0; address <= 0777776; address = address * 2 + 2) {
            uint64_t answer = address << 16 | words << 34;

            expect("number of all moves", words, pcl_number(answer), PCL_DONE);
            expect("words moved", words, pcl_words_moved(answer), words);
            expect("missing address after words", words, pcl_missing(answer), address);
        }
    expect("no words moved", 0, pcl_words_moved(PCL_NOTHING), 0);
    for (uint32_t unit = 0; unit < PCL_UNITS_MOST; unit++) {
        expect("bit of a transmitter", unit, pcl_side_bit(unit, PCL_TRANSMITTER), 1ul << unit);
        expect("bit of a receiver", unit, pcl_side_bit(unit, PCL_RECEIVER), 1ul << (16 + unit));
        expect("sides of an answer", unit, pcl_sides((uint64_t)pcl_side_bit(unit, PCL_RECEIVER) << 16), 1ul << (16 + unit));
    }
    expect("sides of all", 0, pcl_sides((uint64_t)UINT32_MAX << 16), UINT32_MAX);
    expect("no sides of a refusal", 0, pcl_sides(PCL_BAD_ROOM), 0);
}

void check_fields(void)
{
    char version[16];

    snprintf(version, sizeof version, "%d.%d", PCL_VERSION / 100, PCL_VERSION % 100);
    expect_text("the version", 0, PCL_VERSION_TEXT, version);
    check_bits();
    check_words();
    check_counts();
    check_addresses();
    check_answers();
}
