/* texts.c - pcl_text.h: every text against the name that it is for, no bit without one, and the buffer's edges. */
#include <stdio.h>
#include <string.h>
#include "pcl_text.h"
#include "trial.h"

struct named { uint32_t is; const char *text; };

static const struct named numbers[] = {
    { PCL_DONE, "done" }, { PCL_NOT_FITTED, "unit not fitted, or no such side" },
    { PCL_NO_REGISTER, "no such register, or an odd offset" }, { PCL_BYTE_REFUSED, "no byte write there" },
    { PCL_NOTHING, "nothing to read or move" }, { PCL_NOT_STARTED, "address silo may not start" }, { PCL_DROPPED, "dropped" },
    { PCL_BAD_SETUP, "set-up or parity mask breaks a rule" }, { PCL_NO_MASTER, "no master" }, { PCL_BAD_ROOM, "state or room is bad" }
};
static const struct named a_codes[] = {
    { PCL_A_OFF_LINE, "off line or error" }, { PCL_A_NULL, "null" }, { PCL_A_WORD, "word or CRC" }, { PCL_A_LAST_CRC, "last CRC" }
};
static const struct named b_codes[] = {
    { PCL_B_BUSY, "busy or off line" }, { PCL_B_NULL, "null" }, { PCL_B_CHECK_FAILURE, "check failure" },
    { PCL_B_ACKNOWLEDGE, "acknowledge" }
};
static const struct named registers[] = {
    { PCL_TCR, "TCR" }, { PCL_TSR, "TSR" }, { PCL_TSDB, "TSDB" }, { PCL_TSBC, "TSBC" }, { PCL_TSBA, "TSBA" }, { PCL_TMMR, "TMMR" },
    { PCL_TSCRC, "TSCRC" }, { PCL_RCR, "RCR" }, { PCL_RSR, "RSR" }, { PCL_RDDB, "RDDB" }, { PCL_RDBC, "RDBC" },
    { PCL_RDBA, "RDBA" }, { PCL_RDCRC, "RDCRC" }
};

/* A mask of pcl.h set in full, and what is said of it. */
static const struct { uint32_t offset; unsigned mask; const char *text; } bits[] = {
    { PCL_TCR, PCL_TCR_ST_TXM, "ST TXM" }, { PCL_TCR, PCL_TCR_TX_INIT, "TX INIT" }, { PCL_TCR, PCL_TCR_INH_ADI, "INH ADI" },
    { PCL_TCR, PCL_TCR_DT_O_RDY, "DT O RDY" }, { PCL_TCR, PCL_TCR_EA16, "EA 16" }, { PCL_TCR, PCL_TCR_EA17, "EA 17" },
    { PCL_TCR, PCL_TCR_IE, "IE" }, { PCL_TCR, PCL_TCR_RD_SILO, "RD SILO" }, { PCL_TCR, PCL_TCR_DC, "DC 37" },
    { PCL_TCR, PCL_TCR_SND_WD, "SND WD" }, { PCL_TCR, PCL_TCR_TX_NPR, "TX NPR" }, { PCL_TCR, PCL_TCR_RIB, "RIB" },
    { PCL_TCR, PCL_TCR_DESTINATION(2) | PCL_TCR_ST_TXM | PCL_TCR_SND_WD, "DC 2, ST TXM, SND WD" },

    { PCL_TSR, PCL_TSR_RSP_A, "RSP A 11" }, { PCL_TSR, PCL_TSR_RSP_B, "RSP B 11" }, { PCL_TSR, PCL_TSR_TBS_BSY, "TBS BSY" },
    { PCL_TSR, PCL_TSR_SORE, "SORE" }, { PCL_TSR, PCL_TSR_BUSY, "BUSY" }, { PCL_TSR, PCL_TSR_SUC_TXF, "SUC TXF" },
    { PCL_TSR, PCL_TSR_DTIRDY, "DTIRDY" }, { PCL_TSR, PCL_TSR_OVERUN, "OVERUN" }, { PCL_TSR, PCL_TSR_TIM_OUT, "TIM OUT" },
    { PCL_TSR, PCL_TSR_MST_DWN, "MST DWN" }, { PCL_TSR, PCL_TSR_TXM_ERR, "TXM ERR" }, { PCL_TSR, PCL_TSR_MEM_OFL, "MEM OFL" },
    { PCL_TSR, PCL_TSR_NXL, "NXL" }, { PCL_TSR, PCL_TSR_ERR, "ERR" },

    { PCL_TMMR, PCL_TMMR_TXM_AD, "TXM AD 37" }, { PCL_TMMR, PCL_TMMR_MASTER, "MASTER" }, { PCL_TMMR, PCL_TMMR_SEC, "SEC" },
    { PCL_TMMR, PCL_TMMR_NOW_MST, "NOW MST" }, { PCL_TMMR, PCL_TMMR_CHN_OPN, "CHN OPN" }, { PCL_TMMR, PCL_TMMR_AUT_ADR, "AUT ADR" },
    { PCL_TMMR, PCL_TMMR_CLR_ADR, "CLR ADR" }, { PCL_TMMR, PCL_TMMR_AIP_RDY, "AIP RDY" }, { PCL_TMMR, PCL_TMMR_AOP_RDY, "AOP RDY" },

    { PCL_RCR, PCL_RCR_RCV_DAT, "RCV DAT" }, { PCL_RCR, PCL_RCR_RC_INIT, "RC INIT" }, { PCL_RCR, PCL_RCR_INH_ADI, "INH ADI" },
    { PCL_RCR, PCL_RCR_DTIRDY, "DTIRDY" }, { PCL_RCR, PCL_RCR_EA16, "EA 16" }, { PCL_RCR, PCL_RCR_EA17, "EA 17" },
    { PCL_RCR, PCL_RCR_IE, "IE" }, { PCL_RCR, PCL_RCR_LD_SILO, "LD SILO" }, { PCL_RCR, PCL_RCR_IB, "IB 37" },
    { PCL_RCR, PCL_RCR_RCV_WD, "RCV WD" }, { PCL_RCR, PCL_RCR_RC_NPR, "RC NPR" }, { PCL_RCR, PCL_RCR_REJ, "REJ" },

    { PCL_RSR, PCL_RSR_RSP_A, "RSP A 11" }, { PCL_RSR, PCL_RSR_RSP_B, "RSP B 11" }, { PCL_RSR, PCL_RSR_CHN_OPN, "CHN OPN" },
    { PCL_RSR, PCL_RSR_RECOM, "RECOM" }, { PCL_RSR, PCL_RSR_BUSY, "BUSY" }, { PCL_RSR, PCL_RSR_SUC_TXF, "SUC TXF" },
    { PCL_RSR, PCL_RSR_DTORDY, "DTORDY" }, { PCL_RSR, PCL_RSR_BC_OFL, "BC OFL" }, { PCL_RSR, PCL_RSR_TIM_OUT, "TIM OUT" },
    { PCL_RSR, PCL_RSR_PAR, "PAR" }, { PCL_RSR, PCL_RSR_TXM_ERR, "TXM ERR" }, { PCL_RSR, PCL_RSR_MEM_OFL, "MEM OFL" },
    { PCL_RSR, PCL_RSR_NXL, "NXL" }, { PCL_RSR, PCL_RSR_ERR, "ERR" }
};

#define COUNT(table) (sizeof(table) / sizeof(table)[0])

/* Each text for its number, one for every number below the count, and none from there on. */
static void check_named(const char *what, const char *(*text)(uint32_t), const struct named *table, size_t count, const char *none)
{
    for (size_t i = 0; i < count; i++) {
        expect(what, i, table[i].is, i);
        expect_text(what, i, text(table[i].is), table[i].text);
    }
    expect_text(what, count, text((uint32_t)count), none);
    expect_text(what, UINT32_MAX, text(UINT32_MAX), none);
}

static void check_registers(void)
{
    size_t found = 0;

    for (uint32_t offset = 0; offset < 64; offset++) {
        char wanted[16] = "no register";

        if (found < COUNT(registers) && registers[found].is == (offset & ~1u))
            snprintf(wanted, sizeof wanted, offset & 1 ? "%s+1" : "%s", registers[found].text);
        found += offset & 1 && found < COUNT(registers) && registers[found].is == offset - 1;
        expect_text("register", offset, pcl_register_text(offset), wanted);
    }
    expect("registers found", 0, found, COUNT(registers));
    expect_text("register", UINT32_MAX, pcl_register_text(UINT32_MAX), "no register");
}

static const char *bits_text(uint32_t offset, unsigned word)
{
    static char buffer[PCL_BITS_TEXT_MOST];
    size_t length = pcl_bits_text(buffer, sizeof buffer, offset, (uint16_t)word);

    expect("the length said", word, length, strlen(buffer));
    return buffer;
}

static void check_bits(void)
{
    char wanted[32];

    for (size_t i = 0; i < COUNT(bits); i++)
        expect_text("bits", i, bits_text(bits[i].offset, bits[i].mask), bits[i].text);
    for (unsigned value = 1; value < 32; value++) {
        snprintf(wanted, sizeof wanted, "DC %o", value);
        expect_text("destination", value, bits_text(PCL_TCR, PCL_TCR_DESTINATION(value)), wanted);
        snprintf(wanted, sizeof wanted, "IB %o", value);
        expect_text("sender", value, bits_text(PCL_RCR, value << 8), wanted);
        snprintf(wanted, sizeof wanted, "TXM AD %o", value);
        expect_text("address", value, bits_text(PCL_TMMR, value), wanted);
    }
    expect_text("A of TSR", 1, bits_text(PCL_TSR, PCL_A_NULL), "RSP A 01");
    expect_text("A and B of RSR", 2, bits_text(PCL_RSR, PCL_A_WORD | PCL_B_NULL << 2), "RSP A 10, RSP B 01");
    for (uint32_t offset = 0; offset < 64; offset++) {
        int with_names = offset == PCL_TCR || offset == PCL_TSR || offset == PCL_TMMR || offset == PCL_RCR || offset == PCL_RSR;

        expect_text("nothing set", offset, bits_text(offset, 0), "");
        for (unsigned bit = 0; bit < 16; bit++) {
            int named = with_names && !(offset == PCL_TMMR && bit >= 5 && bit <= 7);

            expect("a name for bit", offset * 16 + bit, *bits_text(offset, 1u << bit) != '\0', (unsigned)named);
        }
    }
}

/* A buffer of every size gets the beginning of the text, its end, and nothing behind that. */
static void check_buffer(void)
{
    char whole[PCL_BITS_TEXT_MOST], part[PCL_BITS_TEXT_MOST + 1];
    size_t length, longest = 0;

    for (uint32_t offset = 0; offset < 32; offset += 2) {
        length = pcl_bits_text(whole, sizeof whole, offset, 0177777);
        longest = length > longest ? length : longest;
        for (size_t size = 0; size <= length + 2; size++) {
            memset(part, '?', sizeof part);
            expect("the whole length", size, pcl_bits_text(part, size, offset, 0177777), length);
            expect("nothing behind the room", size, (unsigned char)part[size], '?');
            if (size == 0)
                continue;
            expect("an end", size, strlen(part), size <= length ? size - 1 : length);
            expect("a beginning", size, !strncmp(part, whole, strlen(part)), 1);
        }
    }
    expect("room for the longest", longest, longest < PCL_BITS_TEXT_MOST, 1);
    expect("no room at all", 0, pcl_bits_text(NULL, 0, PCL_TCR, PCL_TCR_IE), 2);
}

static const struct named sides[] = { { PCL_TRANSMITTER, "transmitter" }, { PCL_RECEIVER, "receiver" } };

void check_texts(void)
{
    check_named("number", pcl_number_text, numbers, COUNT(numbers), "no such number");
    check_named("side", pcl_side_text, sides, COUNT(sides), "no such side");
    check_named("A", pcl_a_text, a_codes, COUNT(a_codes), "no such code");
    check_named("B", pcl_b_text, b_codes, COUNT(b_codes), "no such code");
    check_registers();
    check_bits();
    check_buffer();
}

/* Numbers and codes, each offset's register, and for each even one what is said of some words, for a comparison. */
void print_texts(void)
{
    for (uint32_t number = 0; number <= PCL_BAD_ROOM; number++)
        printf("number %u %s\n", (unsigned)number, pcl_number_text(number));
    for (uint32_t code = 0; code < 4; code++)
        printf("a %u %s\nb %u %s\n", (unsigned)code, pcl_a_text(code), (unsigned)code, pcl_b_text(code));
    for (uint32_t offset = 0; offset < 40; offset++) {
        printf("%u %s\n", (unsigned)offset, pcl_register_text(offset));
        for (unsigned word = 0; offset % 2 == 0 && word <= 0177777; word = word * 3 + 1)
            printf("%u %u %s\n", (unsigned)offset, word, bits_text(offset, word));
        for (unsigned bit = 0; offset % 2 == 0 && bit < 16; bit++)
            printf("%u %u %s\n", (unsigned)offset, 1u << bit, bits_text(offset, 1u << bit));
    }
}
