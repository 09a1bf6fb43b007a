/* second.h - a second implementation of the link of document 01 (PCL11-B), with
 * document 02's requests No. 1, No. 3 and No. 6.
 *
 * The caller owns one `struct second_link`; zeroed memory is the unfitted
 * state.  Every call answers one number: number + 65536 * value.  The value is
 * the word of a read answered 0, the 0 or 1 of an interrupt level answered 0,
 * the serial of a serial call answered 0, for a slice answered 0: address + 32 * A
 * + 128 * B, for a move that set NXL the byte address it tried, for all moves of a
 * side that address + 2^18 * the words moved, and for the sides that want service a
 * mask of 32 bits.  Else it is 0.  These last need more than 16 bits, so that their
 * calls answer 64. */
#ifndef SECOND_H
#define SECOND_H

#include <stdbool.h>
#include <stddef.h>
#include <stdint.h>

enum {
    SECOND_UNITS = 16,          /* "1 to 16 units on one bus" */
    SECOND_ADDRESSES = 32,      /* five address lines */
    SECOND_DATA_SILO = 64,      /* "Data silos hold 64 words, ... */
    SECOND_ADDRESS_SILO = 50,   /* ... address silos 50" */
    SECOND_RING = 64            /* room of both rings, a power of two */
};

/* A data silo: a ring of 64 words. */
struct second_data_silo {
    uint16_t word[SECOND_RING];
    uint8_t first;              /* where the oldest word stands */
    uint8_t held;               /* 0 to 64 */
};

/* An address silo: a ring of which at most 50 places are held. */
struct second_address_silo {
    uint8_t address[SECOND_RING];
    uint8_t first;
    uint8_t held;               /* 0 to 50 */
};

/* What a transmitter and a receiver have alike. */
struct second_side {
    uint16_t command;           /* TCR or RCR: the stored bits */
    uint16_t status;            /* TSR or RSR: the stored bits */
    uint16_t byte_count;        /* TSBC or RDBC: minus the bytes left */
    uint16_t bus_address;       /* TSBA or RDBA: bits 0 to 15 of the address */
    uint16_t crc;               /* TSCRC or RDCRC */
    uint16_t serial;            /* of the last message opened here, any value */
    uint8_t words;              /* words since the last CRC: 0 to 128 */
    bool loaded;                /* the byte count stands loaded */
    bool open;                  /* CHN OPN of this side */
    bool mark;                  /* the mark of the period */
    struct second_data_silo silo;
};

struct second_transmitter {
    struct second_side side;
    uint8_t destination;        /* latched at opening */
    bool ending;                /* sends the last CRC until closed */
    bool crc_unanswered;        /* a CRC sent and not yet answered 11 */
};

struct second_receiver {
    struct second_side side;    /* RCR 8 to 12 name the sender, while open too */
    uint8_t verdict;            /* on the CRC as first taken: none, good, bad */
    bool bad_parity;            /* the word before had bad parity */
    bool truncated;             /* marked truncated until it closes */
};

struct second_master {
    struct second_address_silo silo;
    uint8_t counter_switch;     /* 2 to 31 */
    uint8_t counter;            /* the address the counter gives next */
    bool secondary;             /* SEC */
    bool now_master;            /* NOW MST */
    bool automatic;             /* AUT ADR */
};

struct second_unit {
    uint32_t memory_length;     /* words, 1 to 131072 */
    struct second_transmitter transmitter;
    struct second_receiver receiver;
    struct second_master master;
};

struct second_link {
    uint8_t units;                              /* fitted units */
    uint8_t master;                             /* unit with MASTER + 1, or 0 */
    uint8_t transmitter_at[SECOND_ADDRESSES];   /* unit + 1, or 0 */
    uint8_t receiver_at[SECOND_ADDRESSES];      /* unit + 1, or 0 */
    struct second_unit unit[SECOND_UNITS];
};

/* set-up: transmitter address, receiver address, counter switch and memory
 * length in words for each unit; length counts the numbers. */
uint32_t second_fit(struct second_link *l, const uint32_t *setup, size_t length);
uint32_t second_write(struct second_link *l, uint32_t unit, uint32_t offset, uint16_t word);
uint32_t second_write_byte(struct second_link *l, uint32_t unit, uint32_t offset, uint8_t byte);
uint32_t second_read(struct second_link *l, uint32_t unit, uint32_t offset);
uint32_t second_slice(struct second_link *l, uint16_t data_mask, uint32_t parity_mask);
/* side 0 transmits, 1 receives; memory is that of the named unit. */
uint64_t second_move(struct second_link *l, uint32_t unit, uint32_t side,
                     uint16_t *memory, size_t memory_length);
/* "moves until 4, or until a move sets NXL, BC OFL or memory overflow" */
uint64_t second_move_all(struct second_link *l, uint32_t unit, uint32_t side,
                         uint16_t *memory, size_t memory_length);
/* "sides at which a move would not answer 4", and "sides whose interrupt level
 * stands": bit u the transmitter of unit u, bit 16 + u its receiver. */
uint64_t second_wants_moves(const struct second_link *l);
uint64_t second_wants_interrupts(const struct second_link *l);
uint32_t second_period(struct second_link *l, uint32_t unit);
uint32_t second_reset(struct second_link *l, uint32_t unit);
uint32_t second_interrupt_level(struct second_link *l, uint32_t unit, uint32_t side);
uint32_t second_serial(const struct second_link *l, uint32_t unit, uint32_t side);

#ifdef SECOND_COUNT
/* Prints "name count" for every counter to stderr; fit for atexit. */
void second_print_counts(void);
/* The counters by place, for a caller that wants them itself. */
size_t second_counters(void);
const char *second_counter_name(size_t place);
unsigned long long second_counter(size_t place);
#endif

#endif
