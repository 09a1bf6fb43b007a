/* board.h - the readings board for C and C++: messages of sensor readings,
 * built, read, and received from the link of pcl.h; and the words of one collected
 * into a memory.
 *
 * A message is a row of 16-bit words: its length in words (itself included), its
 * kind, the count of sensors, 1 to BOARD_SENSORS_MOST, and then a word for each
 * sensor. A word of 177777 octal, 65,535, is no reading. There is one kind,
 * BOARD_KIND.
 *
 * A reading is a number of 32 bits: 0 to 65,535 is a value, BOARD_ABSENT is none.
 * For a sensor that gave nothing the sender hands in BOARD_ABSENT, and the receiver
 * is given BOARD_ABSENT, never 0. Nobody but the sender can tell: an array that was
 * only cleared is 64 sensors with the value 0.
 *
 * What is lent. Messages, readings, a link's cells and a unit's memory are lent
 * for one call and are the caller's again when it returns. A pointer is not null
 * and is aligned for its type, and as many elements stand there as the length
 * says; the length counts elements, never bytes. Nothing that is lent to one call
 * overlaps, and nothing else reads or writes what is lent while a call runs. The
 * library has no state of its own: no globals, no allocation, no input or output.
 *
 * What comes back. Every call takes every argument, ends, and answers a number
 * with a value above it; board_number() and board_value() take an answer apart.
 * A number other than BOARD_DONE and BOARD_MISSING is a refusal: its value is 0,
 * and it has changed no word of a message and no reading. Where several refusals
 * fit, the first in the order that stands with the call is answered. */
#ifndef BOARD_H
#define BOARD_H

#include <stddef.h>
#include <stdint.h>

#ifdef __cplusplus
extern "C" {
#endif

enum {
    BOARD_DONE = 0,
    BOARD_NOT_COMPLETE = 1,     /* no success yet, or truncated, or ERR, or the channel still open */
    BOARD_WRONG_LENGTH = 2,     /* under 3 words, or the first word is not the number received; also where the lent memory
                                 * does not hold all words up to RDBA, which counts as no words */
    BOARD_UNKNOWN_KIND = 3,     /* the message is not of the reader's kind, or there is no such kind */
    BOARD_WRONG_COUNT = 4,      /* the sensor count is outside 1 to 64, or the length is not the count and 3 */
    BOARD_RESERVED_VALUE = 7,   /* a value of 177777 octal, which a message can't carry */
    BOARD_MISSING = 8,          /* an address outside the memory stopped it; the value is that address */
    BOARD_BAD_ROOM = 9,         /* too little room lent */
    BOARD_LINK = 16             /* plus a number of pcl.h, with which the link refused a call: 17, PCL_NOT_FITTED,
                                 * the unit is not fitted; 25, PCL_BAD_ROOM, too few cells, a header out of range, or at
                                 * board_collect a memory shorter than the fitted one. No others */
};

/* The kind of a message. */
#define BOARD_KIND 1

/* No reading. */
#define BOARD_ABSENT UINT32_C(65536)

/* Room, in elements: the readings of a message, the words of one. */
#define BOARD_SENSORS_MOST 64
#define BOARD_WORDS(sensors) (3 + (size_t)(sensors))
#define BOARD_WORDS_MOST BOARD_WORDS(BOARD_SENSORS_MOST)

/* An answer taken apart. board_receive and board_collect answer 64 bits, since a
 * serial stands above the count of sensors, and an address has 18; an answer of 32
 * bits is taken too. Keep an answer of 64 bits in 64: in 32 the serial is lost. */
static inline unsigned board_number(uint64_t answer) { return (unsigned)(answer & 0xFFFF); }
static inline unsigned board_value(uint64_t answer) { return (unsigned)(answer >> 16); }

/* The count of sensors that board_read or board_receive answered, and the serial
 * that board_receive answered with it, of the receiver's last opening. Both are 0
 * with a refusal, and 0 is a serial too: look at the number first. After
 * board_receive board_value() is the count with 65,536 times the serial added, so
 * use board_sensors() for a loop over the readings, and compare board_number(), not
 * the answer, with a number. */
static inline unsigned board_sensors(uint64_t answer) { return board_value(answer) & 0xFFFF; }
static inline unsigned board_serial(uint64_t answer) { return board_value(answer) >> 16; }

/* The byte address outside the memory that stopped a board_collect, 18 bits and
 * even. 0 where none did: address 0 lies inside every memory. */
static inline uint32_t board_missing(uint64_t answer) { return board_number(answer) == BOARD_MISSING ? board_value(answer) : 0; }

/* Builds the message of the readings, one for each sensor. A reading above
 * BOARD_ABSENT is none too. BOARD_WORDS_MOST words of room are asked, whatever
 * the count; words past the message stay as they were.
 * Answers 0 with the words written; 3, 9, 4, 7, in this order. */
uint32_t board_build(uint32_t kind, const uint32_t *readings, size_t readings_length, uint16_t *message, size_t message_length);

/* Reads what was received: as many words as came. `complete` is 1 where they came
 * with success: RSR had SUC TXF and neither RECOM, which is a truncation, nor ERR
 * nor CHN OPN. Else it is 0; any number but 0 is 1.
 * BOARD_SENSORS_MOST readings of room are asked, whatever the message; readings
 * past the count stay as they were. Of a message that is refused no reading is
 * given.
 * Answers 0 with the count of sensors; 9, 1, 2, 3, 4, in this order. */
uint32_t board_read(uint32_t kind, uint32_t complete, const uint16_t *message, size_t message_length, uint32_t *readings, size_t readings_length);

/* The same from the link itself, by its own calls: reads the message that a unit
 * has received into its memory by pcl_move. It makes three register reads at the
 * unit, RSR, RCR, RDBA, asks pcl_serial of its receiver, and changes no cell. The
 * message is complete where RSR has SUC TXF and neither RECOM, ERR nor CHN OPN. Its
 * words are those from byte address `first`, where RDBA with EA17 and EA16 stood
 * before the message, up to where they stand now; bit 0 of an address is not looked
 * at. The memory is that of the unit, and is only read. It holds all these words:
 * where it is lent shorter, or `first` lies past where RDBA stands, no word counts
 * as received, and the answer is 2. Readings are as with board_read.
 *
 * With the readings comes the serial of the receiver's last opening, as pcl_serial
 * has it. The transmitter that opened it raised it by one there, as at each of its
 * openings, to whatever receiver; after 65,535 comes 0, and a fit begins anew. So an
 * interrupt routine tells this message from the last one: a success that it saw
 * before has the serial that it had then. Each transmitter counts by itself: where
 * several send to one receiver, the sender's address, which RCR shows in bits 8 to
 * 12 until RC INIT, belongs to the serial; read it with no slice between. After a
 * refusal pcl_serial at the receiver shows the serial.
 *
 * Before each message clear RSR, or do RC INIT: SUC TXF stands until the host does.
 * Until the receiver opens again, a second call gives the same message again with 0
 * and with the same serial, however old it is by then. A SUC TXF that is left over
 * an opening that is then rejected or broken off comes back with the new serial,
 * once RECOM or ERR alone is cleared: clear all of RSR. If it is left standing and the
 * receiver is made ready again, the answer is 2 and not 1 until the next message
 * opens the channel.
 *
 * 1 is "not yet" and "never" alike, so that a loop until another number comes may
 * not end. RSR tells them apart: while ERR or RECOM stands, no message will be given.
 * With neither it may still come; pcl_period sets TIM OUT, an error, at a channel
 * that stays open without a word, but how long to wait for a message that nobody
 * opens is for the host to say.
 *
 * Answers 0 with the count of sensors and, 65,536 times over it, the serial; 9; 25,
 * 17; 1, 2, 3, 4, in this order. */
uint64_t board_receive(uint32_t kind, uint16_t *cells, size_t cells_length, const uint16_t *memory, size_t memory_length, uint32_t unit, uint32_t first, uint32_t *readings, size_t readings_length);

/* Collects the words that a unit's receiver holds: makes moves at that side, as
 * pcl_move does, until one is answered PCL_NOTHING, 65 at most (a silo has 64
 * words). Whatever it answers, cells and memory are left as these moves leave them:
 * words that were moved stand in the memory.
 *
 * 0: nothing more is to be moved. The value is how many moves were answered 0; each
 * stored a word, but for one that met BC OFL, which is the last of them, is counted,
 * and leaves its word in the silo. Nothing more to move may be for an error: RSR
 * tells, and so it does at a memory overflow. A message is complete when
 * board_receive says so.
 * 8: an address outside the memory stopped it. The value is the byte address that
 * was tried, RDBA with EA17 and EA16 above it, which stay there; the word that met
 * it stays in the silo, and NXL is set. The words before it stand in the memory.
 * Until the host clears NXL a further call answers 0 with value 0.
 * 25, 17, in this order: nothing was moved, and nothing is changed. The memory has
 * the fitted length of the unit, or more; what stands past that is left alone.
 *
 * Answers 0 with the moves; 8 with the address; 25, 17. */
uint64_t board_collect(uint16_t *cells, size_t cells_length, uint16_t *memory, size_t memory_length, uint32_t unit);

#ifdef __cplusplus
}
#endif

#endif
