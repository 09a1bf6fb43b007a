/* pcl.h - the PCL11-B link for C and C++: up to sixteen interfaces on one bus.
 *
 * A link is one row of 16-bit cells that the caller owns. The library has no
 * other state: no globals, no allocation, no input or output. All cells zero,
 * PCL_CELLS(0) of them or more, is the unfitted link; pcl_fit makes a link out of
 * cells that hold anything.
 *
 * What is lent. Cells, memories and set-ups are lent for one call and are the
 * caller's again when it returns. A pointer is not null and is aligned for its
 * type, and as many elements stand there as the length says; the length counts
 * elements, never bytes. The cells and the memory lent to one call do not overlap,
 * and nothing else reads or writes what is lent while a call runs. So calls on one
 * link come one after the other; calls on different links may run at the same
 * time. Between calls the cells may be copied, stored and loaded again, in another
 * process too: docs/STATE.md says what each of them holds. Only the first two
 * cells can be out of range. Whatever the others hold has a meaning.
 * Two calls can answer PCL_BAD_ROOM for it: pcl_move and pcl_move_all, which ask as
 * much memory as the cells of their unit say.
 *
 * What comes back. Every call takes every argument, ends, and answers a number
 * with a value above it; pcl_number() and pcl_value() take an answer apart. A
 * call answered PCL_NOT_FITTED, PCL_NO_REGISTER, PCL_BYTE_REFUSED, PCL_NOTHING,
 * PCL_BAD_SETUP or PCL_BAD_ROOM has changed no cell and no word of a memory,
 * whatever they hold. What any other call changes is in docs/STATE.md too.
 * Where several numbers fit, the first of PCL_BAD_ROOM, PCL_BAD_SETUP,
 * PCL_NOT_FITTED, PCL_NO_REGISTER, PCL_BYTE_REFUSED is answered.
 *
 * What stays with the host, the emulator around the calls:
 *
 * - Time. Nothing here measures it: a slice is served when pcl_slice is called,
 *   and words move when pcl_move or pcl_move_all is. On the hardware a slice
 *   takes 2 microseconds, up to 5 on a long bus (the manual's 2.3 and 3.3.1), and
 *   every NPR cycle is a move. pcl_period has the time-outs.
 * - Service. After a slice pcl_wants_moves says at which sides of all units a move
 *   is due, pcl_move_all makes the moves of a side, and then pcl_wants_interrupts
 *   says which sides ask for an interrupt.
 * - Interrupts. They are levels and no edges; at pcl_level stands what follows.
 * - The Unibus. With the manual's own addresses an offset here is an address
 *   there less PCL_UNIBUS_TRANSMITTER, at both sides, but for one register: RDCRC
 *   is at 26 here, and at 28 in the manual's map. Where PCL_NO_REGISTER comes at
 *   one of the addresses that the manual's 3.2.7 leaves empty, its device reads 0
 *   and writes nothing. A read answered PCL_NOTHING gives the program 0.
 *   PCL_NOT_STARTED and PCL_DROPPED need nothing of the host: the program sees
 *   them in the registers.
 * - Instructions that read and write back, as BIS. They are a pcl_read and a
 *   pcl_write or pcl_write_byte; a byte is read as a half of its word. A read of
 *   TSDB, RDDB or TMMR may remove what it shows: whoever wants to look and remove
 *   nothing, say for an EXAMINE, reads a copy of the cells.
 * - The master. One host sets MASTER in its TMMR. Until then, and after TX INIT
 *   or pcl_reset at the unit that has it, there is none, and the bus stands still:
 *   pcl_slice answers PCL_NO_MASTER. A unit with SEC takes over in the first such
 *   slice, which answers so too.
 * - Errors. ERR stops the moves of its side. Where a program clears the bit
 *   without INIT and the host goes on moving, the same move is tried again: NXL
 *   comes again at the same address, and BC OFL until RDBC is loaded, each with a
 *   request that clears the command bits. Memory overflow makes such a request too;
 *   after it the word was moved, and the moves go on at address 0.
 *
 * docs/MANUAL.md has each place where a PDP-11 program sees something else than
 * the PCL11-B manual says, with what to write instead. pcl_text.h has the names
 * of registers, bits, numbers and codes as text, for traces. */
#ifndef PCL_H
#define PCL_H

#include <stddef.h>
#include <stdint.h>

#ifdef __cplusplus
extern "C" {
#endif

enum {
    PCL_DONE = 0,
    PCL_NOT_FITTED = 1,     /* the unit is not fitted, or the side is neither 0 nor 1 */
    PCL_NO_REGISTER = 2,    /* no such register, or an odd offset in a word access */
    PCL_BYTE_REFUSED = 3,   /* a byte write to TSDB or RDDB */
    PCL_NOTHING = 4,        /* nothing to read or to move */
    PCL_NOT_STARTED = 5,    /* the address silo may not start: AUT ADR stays set, the rest of the write is done */
    PCL_DROPPED = 6,        /* TSDB: the word is lost, OVERUN is set; TMMR: no address is loaded, the high byte is done */
    PCL_BAD_SETUP = 7,      /* the set-up breaks a rule, or the parity mask is above 1 */
    PCL_NO_MASTER = 8,      /* no master: a secondary took over, or who wants to send has MST DWN; nothing was sent */
    PCL_BAD_ROOM = 9        /* too little room lent; except at pcl_fit, a header of more than 16 units, or with a master that is
                             * not one of its units */
};

enum { PCL_TRANSMITTER = 0, PCL_RECEIVER = 1 };

/* The version of what this header declares and promises: 100 x 1 + 1 is 1.1, from
 * which on there are pcl_wants_moves, pcl_wants_interrupts and pcl_move_all. */
#define PCL_VERSION 101
#define PCL_VERSION_TEXT "1.1"

/* The layout of the cells, the one that docs/STATE.md describes. It rises when a
 * cell comes to mean something else. The cells do not hold it, and no call tells
 * cells of another layout from these: a host that saves a link writes PCL_LAYOUT
 * beside the cells, and lends them again only where it reads the same number. */
#define PCL_LAYOUT 3

/* Room, in elements: the cells of a link, the numbers of a set-up. */
#define PCL_UNITS_MOST 16
#define PCL_CELLS(units) (66 + 202 * (size_t)(units))
#define PCL_CELLS_MOST PCL_CELLS(PCL_UNITS_MOST)
#define PCL_SETUP(units) (4 * (size_t)(units))
#define PCL_MEMORY_MOST 131072

/* Where the manual puts the registers on the Unibus, of 18 bits (a program of 16
 * bits has 164200 and 164220), the vectors, and the priority of both: Tables 2.1
 * to 2.3 with their notes, 3.2.7, and BR5 in 1.3 d). Both sides take PCL_UNIBUS_ROOM
 * bytes; the transmitter's interrupt goes before the receiver's (4.2.2, 4.3.2). */
enum {
    PCL_UNIBUS_TRANSMITTER = 0764200, PCL_UNIBUS_RECEIVER = 0764220, PCL_UNIBUS_ROOM = 020,
    PCL_VECTOR_TRANSMITTER = 0170, PCL_VECTOR_RECEIVER = 0174, PCL_PRIORITY = 5
};

/* Registers, by byte offset. The odd offset above is the high byte. */
enum {
    PCL_TCR = 0, PCL_TSR = 2, PCL_TSDB = 4, PCL_TSBC = 6, PCL_TSBA = 8, PCL_TMMR = 10, PCL_TSCRC = 12,
    PCL_RCR = 16, PCL_RSR = 18, PCL_RDDB = 20, PCL_RDBC = 22, PCL_RDBA = 24, PCL_RDCRC = 26
};

/* Their bits, by the manual's names. Those of several bits are masks: DC, the
 * destination; RSP A and RSP B, the codes of the last slice, at the same places in
 * TSR and RSR; TXM AD, an address of the silo; IB, the sender of the last opening. */
enum {
    PCL_TCR_ST_TXM = 1 << 0, PCL_TCR_TX_INIT = 1 << 1, PCL_TCR_INH_ADI = 1 << 2, PCL_TCR_DT_O_RDY = 1 << 3,
    PCL_TCR_EA16 = 1 << 4, PCL_TCR_EA17 = 1 << 5, PCL_TCR_IE = 1 << 6, PCL_TCR_RD_SILO = 1 << 7,
    PCL_TCR_DC = 31 << 8, PCL_TCR_SND_WD = 1 << 13, PCL_TCR_TX_NPR = 1 << 14, PCL_TCR_RIB = 1 << 15
};
enum {
    PCL_TSR_RSP_A = 3 << 0, PCL_TSR_RSP_B = 3 << 2, PCL_TSR_TBS_BSY = 1 << 4, PCL_TSR_SORE = 1 << 5,
    PCL_TSR_BUSY = 1 << 6, PCL_TSR_SUC_TXF = 1 << 7,
    PCL_TSR_DTIRDY = 1 << 8, PCL_TSR_OVERUN = 1 << 9, PCL_TSR_TIM_OUT = 1 << 10, PCL_TSR_MST_DWN = 1 << 11,
    PCL_TSR_TXM_ERR = 1 << 12, PCL_TSR_MEM_OFL = 1 << 13, PCL_TSR_NXL = 1 << 14, PCL_TSR_ERR = 1 << 15
};
enum {
    PCL_TMMR_TXM_AD = 31 << 0, PCL_TMMR_MASTER = 1 << 8, PCL_TMMR_SEC = 1 << 9, PCL_TMMR_NOW_MST = 1 << 10,
    PCL_TMMR_CHN_OPN = 1 << 11, PCL_TMMR_AUT_ADR = 1 << 12, PCL_TMMR_CLR_ADR = 1 << 13, PCL_TMMR_AIP_RDY = 1 << 14,
    PCL_TMMR_AOP_RDY = 1 << 15
};
enum {
    PCL_RCR_RCV_DAT = 1 << 0, PCL_RCR_RC_INIT = 1 << 1, PCL_RCR_INH_ADI = 1 << 2, PCL_RCR_DTIRDY = 1 << 3,
    PCL_RCR_EA16 = 1 << 4, PCL_RCR_EA17 = 1 << 5, PCL_RCR_IE = 1 << 6, PCL_RCR_LD_SILO = 1 << 7,
    PCL_RCR_IB = 31 << 8, PCL_RCR_RCV_WD = 1 << 13, PCL_RCR_RC_NPR = 1 << 14, PCL_RCR_REJ = 1 << 15
};
enum {
    PCL_RSR_RSP_A = 3 << 0, PCL_RSR_RSP_B = 3 << 2, PCL_RSR_CHN_OPN = 1 << 4, PCL_RSR_RECOM = 1 << 5,
    PCL_RSR_BUSY = 1 << 6, PCL_RSR_SUC_TXF = 1 << 7,
    PCL_RSR_DTORDY = 1 << 8, PCL_RSR_BC_OFL = 1 << 9, PCL_RSR_TIM_OUT = 1 << 10, PCL_RSR_PAR = 1 << 11,
    PCL_RSR_TXM_ERR = 1 << 12, PCL_RSR_MEM_OFL = 1 << 13, PCL_RSR_NXL = 1 << 14, PCL_RSR_ERR = 1 << 15
};

/* The codes of a slice: what a transmitter sends, what it is answered. */
enum { PCL_A_OFF_LINE = 0, PCL_A_NULL = 1, PCL_A_WORD = 2 /* or a CRC */, PCL_A_LAST_CRC = 3 };
enum { PCL_B_BUSY = 0 /* or off line */, PCL_B_NULL = 1, PCL_B_CHECK_FAILURE = 2, PCL_B_ACKNOWLEDGE = 3 };

/* The fields of a register: the destination as TCR takes it, of which five bits
 * count, and back; the sender out of RCR; the codes out of TSR or RSR. */
#define PCL_TCR_DESTINATION(address) (((address) & 31) << 8)
static inline unsigned pcl_destination(unsigned tcr) { return tcr >> 8 & 31; }
static inline unsigned pcl_sender(unsigned rcr) { return rcr >> 8 & 31; }
static inline unsigned pcl_rsp_a(unsigned status) { return status & 3; }
static inline unsigned pcl_rsp_b(unsigned status) { return status >> 2 & 3; }

/* Byte counts: n words, 1 to PCL_WORDS_MOST, as TSBC and RDBC take them, and how
 * many words a loaded register has left. The most are a written 0; other numbers
 * count by their remainder. No count says no words. A load that is used up reads 0
 * as well: at a transmitter its last word clears TX NPR, and at a receiver the
 * next word sets BC OFL. */
#define PCL_WORDS_MOST 32768
static inline uint16_t pcl_byte_count(uint32_t words) { return (uint16_t)(0x10000u - 2 * (words & 0x7FFF)); }
static inline uint32_t pcl_words_left(uint16_t byte_count) { return PCL_WORDS_MOST - (byte_count >> 1); }

/* Byte addresses of 18 bits, of which bit 0 does not count: the word for TSBA or
 * RDBA, the bits EA 17 and EA 16 for TCR or RCR, where they have the same places,
 * and the address out of both registers. */
static inline uint16_t pcl_bus_word(uint32_t address) { return (uint16_t)(address & 0xFFFE); }
static inline unsigned pcl_bus_ea(uint32_t address) { return address >> 12 & (PCL_TCR_EA16 | PCL_TCR_EA17); }
static inline uint32_t pcl_bus_address(unsigned command, uint16_t word)
{
    return (uint32_t)(command & (PCL_TCR_EA16 | PCL_TCR_EA17)) << 12 | (word & 0xFFFEu);
}

/* An answer taken apart. The value is 0 but with PCL_DONE from pcl_read (the
 * word), pcl_level (0 or 1), pcl_serial (the serial), pcl_slice (the address
 * served, and the response codes A and B, 0 to 3), pcl_move (the address that was
 * missing), pcl_move_all (that address and the words moved), pcl_wants_moves and
 * pcl_wants_interrupts (the sides). The last four answer 64 bits, since their
 * values have more than 16; an answer of 32 bits is taken too. Keep such an answer
 * in 64 bits, and compare pcl_number(answer), not the answer, with a number:
 * PCL_DONE has a value where a move set NXL, where words were moved at once, and
 * where a side wants service. */
static inline unsigned pcl_number(uint64_t answer) { return (unsigned)(answer & 0xFFFF); }
static inline unsigned pcl_value(uint64_t answer) { return (unsigned)(answer >> 16); }
static inline unsigned pcl_address(uint32_t answer) { return pcl_value(answer) & 31; }
static inline unsigned pcl_a(uint32_t answer) { return pcl_value(answer) >> 5 & 3; }
static inline unsigned pcl_b(uint32_t answer) { return pcl_value(answer) >> 7 & 3; }

/* The byte address that a pcl_move or pcl_move_all tried, where that call set NXL:
 * TSBA or RDBA with EA17 and EA16 above it, as they still stand, 18 bits and even.
 * 0 where the call did not set NXL: address 0 lies inside every memory. */
static inline uint32_t pcl_missing(uint64_t answer) { return pcl_value(answer) & 0777777; }

/* How many words a pcl_move_all moved, 0 to 64. */
static inline uint32_t pcl_words_moved(uint64_t answer) { return pcl_value(answer) >> 18; }

/* The sides that pcl_wants_moves or pcl_wants_interrupts names, one bit each, and the
 * bit of a side: bit u is the transmitter of unit u, bit 16 + u its receiver. A unit
 * is below 16 and a side 0 or 1: others count by their remainders. */
static inline uint32_t pcl_sides(uint64_t answer) { return pcl_value(answer); }
static inline uint32_t pcl_side_bit(uint32_t unit, uint32_t side) { return (uint32_t)1 << ((unit & 15) + 16 * (side & 1)); }

/* Makes a link. The set-up has four numbers for each unit: transmitter address
 * and receiver address (1 to 31; no two transmitters have the same, and no two
 * receivers), counter switch (2 to 31), and memory length in words (1 to
 * PCL_MEMORY_MOST). Units are numbered from 0 in this order. The cells may hold
 * anything before; PCL_CELLS(units) of them are asked (at most PCL_CELLS_MOST),
 * and those past that are left alone. No unit is master after it.
 * Answers 0, 7, 9. */
uint32_t pcl_fit(uint16_t *cells, size_t cells_length, const uint32_t *setup, size_t setup_length);

/* A host's word read. A read of TSDB, RDDB or TMMR may remove what it shows, so
 * that the cells change. Answers 0 with the word, 1, 2, 4, 9. */
uint32_t pcl_read(uint16_t *cells, size_t cells_length, uint32_t unit, uint32_t offset);

/* A host's word write. TX INIT in TCR makes the transmitter initial and with it
 * the unit's master section, MASTER included. A word written to TMMR also loads its
 * low byte, 0 too, into the address silo: a program that means the bits alone
 * writes the high byte, with AUT ADR set in it unless it means to clear that.
 * Answers 0, 1, 2, 5, 6, 9. */
uint32_t pcl_write(uint16_t *cells, size_t cells_length, uint32_t unit, uint32_t offset, uint16_t word);

/* A host's byte write; an odd offset is the high byte. Answers 0, 1, 2, 3, 5, 6, 9. */
uint32_t pcl_write_byte(uint16_t *cells, size_t cells_length, uint32_t unit, uint32_t offset, uint8_t byte);

/* One slice of the bus. The masks name the lines to be damaged, that is
 * inverted: sixteen data lines, and parity (0 or 1); an emulator that damages
 * nothing hands in 0 and 0. The host calls it as often as its time asks, for all units
 * together. A slice in which nobody sends, with A and B 00, is no failure, and
 * neither is 8: it says that a unit with SEC took over, or that there is none and
 * the bus stands still until a program sets MASTER.
 * Answers 0 with the address, A and B; 7, 8, 9. */
uint32_t pcl_slice(uint16_t *cells, size_t cells_length, uint16_t data_mask, uint32_t parity_mask);

/* Moves one word between a unit's memory and a silo of it: from memory at side
 * PCL_TRANSMITTER, to memory at side PCL_RECEIVER. The memory is that of the
 * named unit; it has at least the fitted length, else 9, and what stands past
 * that is left alone. The fitted length is the one that the unit's cells hold,
 * whoever wrote them. NXL, BC OFL and memory overflow come with number 0; where
 * this call set NXL, so does the address that lies outside the memory, which
 * pcl_missing() gives. On the hardware it is one NPR cycle: the host calls it
 * between slices at every side that has NPR set, until 4 or as often as its time
 * has room. Answers 0 with that address or 0; 1, 4, 9. */
uint64_t pcl_move(uint16_t *cells, size_t cells_length, uint16_t *memory, size_t memory_length, uint32_t unit, uint32_t side);

/* All the moves of a side at once: what pcl_move does, again and again until it
 * would answer 4, or has set NXL, BC OFL or memory overflow, each of which stops the
 * moves of its side. It is lent what pcl_move is lent, and leaves what so many
 * single calls leave. pcl_words_moved() is how many words were moved, at most the 64
 * of a silo, and pcl_missing() the address where NXL was set; that word, and one that
 * met BC OFL, is not counted. A word at 777776, after which memory overflow is set
 * unless INH ADI stands, is. 0 with no word and no address is BC OFL at once; with
 * words and no address the status register says whether BC OFL or memory overflow
 * ended it, or nothing did but that there was no more to move. 4 where the first move
 * would answer 4. Answers 0 with both; 1, 4, 9. */
uint64_t pcl_move_all(uint16_t *cells, size_t cells_length, uint16_t *memory, size_t memory_length, uint32_t unit, uint32_t side);

/* At which sides of all units a move is due: a bit is set where a pcl_move that is
 * lent enough memory would not answer 4, be it that the move only sets NXL or BC OFL,
 * or brings words that an earlier message left; where less is lent it answers 9, and
 * the bit stays. So a host that has done these moves, by pcl_move_all, needs no other
 * before the next slice; between slices a write of a program may start a transfer,
 * and then its bit is set too. pcl_sides() has the bits, those of units that are not
 * fitted clear. Asking changes nothing.
 * Answers 0 with the sides; 9. */
uint64_t pcl_wants_moves(const uint16_t *cells, size_t cells_length);

/* A period of time has passed for a unit, at both of its sides: at a transmitter
 * that is BUSY, or a receiver whose channel is open, the second in a row sets TIM
 * OUT, unless a word was accepted in between or it was not BUSY or not open. On
 * the hardware TIM OUT comes after some 2 seconds at a transmitter and 1.5 at a
 * receiver (the manual's 3.1.2 and 3.2.2). Here one call serves both sides: made
 * every p seconds it sets TIM OUT after p to 2p, at either.
 * Answers 0, 1, 9. */
uint32_t pcl_period(uint16_t *cells, size_t cells_length, uint32_t unit);

/* TX INIT and RC INIT of a unit: what BUS INIT or a RESET instruction of its host
 * does. At the master it clears MASTER, and the bus stops: slices answer 8 until a
 * program sets MASTER again, or one slice long where a unit with SEC takes over.
 * The other units, and channels of theirs, are as they were. Answers 0, 1, 9. */
uint32_t pcl_reset(uint16_t *cells, size_t cells_length, uint32_t unit);

/* Whether a side asks for an interrupt. It is a level and no edge: it stands as
 * long as IE stands with ERR, SUC TXF, SORE, or TBS BSY without RIB; at a receiver
 * with ERR, SUC TXF, RECOM, or DTORDY without RC NPR. Asking changes nothing. A
 * host that looks at it between two instructions enters the routine while it
 * stands and the processor is below PCL_PRIORITY; a routine that returns with a
 * cause standing is entered again. A host that keeps a request of its own instead
 * sets it again from the level when the routine has returned, or the second of two
 * events in one routine is lost. Answers 0 with 0 or 1; 1, 9. */
uint32_t pcl_level(const uint16_t *cells, size_t cells_length, uint32_t unit, uint32_t side);

/* The level of every side of all units at once, one bit each, as pcl_wants_moves has
 * them: set where pcl_level would answer 0 with 1, clear where it would answer 0 with
 * 0, or PCL_NOT_FITTED. They are the levels of this moment. A slice may change that of
 * any side, a move that of its own; a write, a read of RDDB, a period and a reset
 * those of their unit, and a fit all: after each a host asks again, or asks pcl_level.
 * Answers 0 with the sides; 9. */
uint64_t pcl_wants_interrupts(const uint16_t *cells, size_t cells_length);

/* The serial of the last opening at a side, also after the channel closed. The
 * slice of an opening adds one at the transmitter, and after 65,535 starts again
 * at 0; the receiver takes the transmitter's new one with the opening word. A try
 * that is answered 00 uses no number up. Nothing else changes either serial, no
 * TX INIT, RC INIT or reset: only a fit answered 0, which makes all of them 0.
 * From a fit on, while a channel is open at both ends, and after whatever closes
 * it but a fit, both ends show the same, until either opens again.
 *
 * So an interrupt routine tells this message from the last one: it remembers the
 * serial that it has dealt with, and forgets it at a fit. It reads the status and
 * the serial with no slice between them, and clears SUC TXF, SORE and RECOM before
 * the side may open again: the serial is that of the last opening, and an opening
 * leaves those bits as they stand. A transmitter counts its openings to every
 * receiver, and shows a number again after 65,536 of them; until the opening slice
 * it shows the last one's. A receiver has the serial of whoever opened it last, so
 * that there a message is told by RCR 8 to 12 with the serial, read before RC INIT,
 * which clears those bits. With ST TXM clear each word sets SUC TXF, and all of one
 * channel have one serial: there it does not tell one success from the next.
 * Answers 0 with the serial; 1, 9. */
uint32_t pcl_serial(const uint16_t *cells, size_t cells_length, uint32_t unit, uint32_t side);

#ifdef __cplusplus
}
#endif

#endif
