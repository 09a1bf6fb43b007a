/* pcl_text.h - names as text, for the traces and SHOW commands of an emulator:
 * numbers, sides, response codes, registers, and what is set in a register. For C
 * and C++; there is nothing to link. A text is never null: what has no name is
 * said to be none. */
#ifndef PCL_TEXT_H
#define PCL_TEXT_H

#include "pcl.h"

#ifdef __cplusplus
extern "C" {
#endif

static const char *const pcl_number_texts[] = {
    "done", "unit not fitted, or no such side", "no such register, or an odd offset", "no byte write there",
    "nothing to read or move", "address silo may not start", "dropped", "set-up or parity mask breaks a rule",
    "no master", "state or room is bad"
};
static const char *const pcl_side_texts[] = { "transmitter", "receiver" };
static const char *const pcl_a_texts[] = { "off line or error", "null", "word or CRC", "last CRC" };
static const char *const pcl_b_texts[] = { "busy or off line", "null", "check failure", "acknowledge" };

/* By offset, low and high byte in turn. */
static const char *const pcl_register_texts[] = {
    "TCR", "TCR+1", "TSR", "TSR+1", "TSDB", "TSDB+1", "TSBC", "TSBC+1", "TSBA", "TSBA+1", "TMMR", "TMMR+1",
    "TSCRC", "TSCRC+1", "no register", "no register",
    "RCR", "RCR+1", "RSR", "RSR+1", "RDDB", "RDDB+1", "RDBC", "RDBC+1", "RDBA", "RDBA+1", "RDCRC", "RDCRC+1"
};

/* The bits of the five registers that have names, by the manual's; a field of
 * several bits is one of them. */
struct pcl_field { uint8_t offset, low, width; const char *name; };
static const struct pcl_field pcl_fields[] = {
    { PCL_TCR, 8, 5, "DC" },
    { PCL_TCR, 0, 1, "ST TXM" }, { PCL_TCR, 1, 1, "TX INIT" }, { PCL_TCR, 2, 1, "INH ADI" }, { PCL_TCR, 3, 1, "DT O RDY" },
    { PCL_TCR, 4, 1, "EA 16" }, { PCL_TCR, 5, 1, "EA 17" }, { PCL_TCR, 6, 1, "IE" }, { PCL_TCR, 7, 1, "RD SILO" },
    { PCL_TCR, 13, 1, "SND WD" }, { PCL_TCR, 14, 1, "TX NPR" }, { PCL_TCR, 15, 1, "RIB" },

    { PCL_TSR, 0, 2, "RSP A" }, { PCL_TSR, 2, 2, "RSP B" },
    { PCL_TSR, 4, 1, "TBS BSY" }, { PCL_TSR, 5, 1, "SORE" }, { PCL_TSR, 6, 1, "BUSY" }, { PCL_TSR, 7, 1, "SUC TXF" },
    { PCL_TSR, 8, 1, "DTIRDY" }, { PCL_TSR, 9, 1, "OVERUN" }, { PCL_TSR, 10, 1, "TIM OUT" }, { PCL_TSR, 11, 1, "MST DWN" },
    { PCL_TSR, 12, 1, "TXM ERR" }, { PCL_TSR, 13, 1, "MEM OFL" }, { PCL_TSR, 14, 1, "NXL" }, { PCL_TSR, 15, 1, "ERR" },

    { PCL_TMMR, 0, 5, "TXM AD" },
    { PCL_TMMR, 8, 1, "MASTER" }, { PCL_TMMR, 9, 1, "SEC" }, { PCL_TMMR, 10, 1, "NOW MST" }, { PCL_TMMR, 11, 1, "CHN OPN" },
    { PCL_TMMR, 12, 1, "AUT ADR" }, { PCL_TMMR, 13, 1, "CLR ADR" }, { PCL_TMMR, 14, 1, "AIP RDY" }, { PCL_TMMR, 15, 1, "AOP RDY" },

    { PCL_RCR, 8, 5, "IB" },
    { PCL_RCR, 0, 1, "RCV DAT" }, { PCL_RCR, 1, 1, "RC INIT" }, { PCL_RCR, 2, 1, "INH ADI" }, { PCL_RCR, 3, 1, "DTIRDY" },
    { PCL_RCR, 4, 1, "EA 16" }, { PCL_RCR, 5, 1, "EA 17" }, { PCL_RCR, 6, 1, "IE" }, { PCL_RCR, 7, 1, "LD SILO" },
    { PCL_RCR, 13, 1, "RCV WD" }, { PCL_RCR, 14, 1, "RC NPR" }, { PCL_RCR, 15, 1, "REJ" },

    { PCL_RSR, 0, 2, "RSP A" }, { PCL_RSR, 2, 2, "RSP B" },
    { PCL_RSR, 4, 1, "CHN OPN" }, { PCL_RSR, 5, 1, "RECOM" }, { PCL_RSR, 6, 1, "BUSY" }, { PCL_RSR, 7, 1, "SUC TXF" },
    { PCL_RSR, 8, 1, "DTORDY" }, { PCL_RSR, 9, 1, "BC OFL" }, { PCL_RSR, 10, 1, "TIM OUT" }, { PCL_RSR, 11, 1, "PAR" },
    { PCL_RSR, 12, 1, "TXM ERR" }, { PCL_RSR, 13, 1, "MEM OFL" }, { PCL_RSR, 14, 1, "NXL" }, { PCL_RSR, 15, 1, "ERR" }
};

#define PCL_TEXT_COUNT(table) (sizeof(table) / sizeof(table)[0])

static inline const char *pcl_number_text(uint32_t number)
{
    return number < PCL_TEXT_COUNT(pcl_number_texts) ? pcl_number_texts[number] : "no such number";
}

static inline const char *pcl_side_text(uint32_t side)
{
    return side < PCL_TEXT_COUNT(pcl_side_texts) ? pcl_side_texts[side] : "no such side";
}

static inline const char *pcl_a_text(uint32_t a) { return a < PCL_TEXT_COUNT(pcl_a_texts) ? pcl_a_texts[a] : "no such code"; }
static inline const char *pcl_b_text(uint32_t b) { return b < PCL_TEXT_COUNT(pcl_b_texts) ? pcl_b_texts[b] : "no such code"; }

/* A register by its offset; TMMR+1 is the high byte of TMMR. */
static inline const char *pcl_register_text(uint32_t offset)
{
    return offset < PCL_TEXT_COUNT(pcl_register_texts) ? pcl_register_texts[offset] : "no register";
}

/* For pcl_bits_text: a text behind what stands there, as far as there is room. */
static inline size_t pcl_text_add(char *buffer, size_t size, size_t length, const char *text)
{
    for (; *text != '\0'; text++, length++)
        if (length + 1 < size)
            buffer[length] = *text;
    return length;
}

/* What is set in a word of the register at an even offset, as `DC 2, ST TXM, SND
 * WD`: a code in binary, an address in octal. Of a byte written to an odd offset,
 * hand in the offset below it and the byte times 256. The text of a register that is
 * a whole word is empty. The buffer gets as much as there is room for and, unless
 * its size is 0, an end; what comes back is the length of the whole text, as
 * snprintf has it. PCL_BITS_TEXT_MOST is a size that is enough for every word. */
#define PCL_BITS_TEXT_MOST 128
static inline size_t pcl_bits_text(char *buffer, size_t size, uint32_t offset, uint16_t word)
{
    size_t length = 0;

    for (size_t i = 0; i < PCL_TEXT_COUNT(pcl_fields); i++) {
        const struct pcl_field *field = &pcl_fields[i];
        unsigned value = (unsigned)word >> field->low & ((1u << field->width) - 1), base = field->width == 2 ? 2 : 8;
        const char digits[] = { (char)('0' + value / base), (char)('0' + value % base), '\0' };

        if (field->offset != offset || value == 0)
            continue;
        if (length != 0)
            length = pcl_text_add(buffer, size, length, ", ");
        length = pcl_text_add(buffer, size, length, field->name);
        if (field->width == 1)
            continue;
        length = pcl_text_add(buffer, size, length, " ");
        length = pcl_text_add(buffer, size, length, base == 8 && value < 8 ? digits + 1 : digits);
    }
    if (size != 0)
        buffer[length < size ? length : size - 1] = '\0';
    return length;
}

#ifdef __cplusplus
}
#endif

#endif
