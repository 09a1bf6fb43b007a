/* hosts.h - machines with a PCL11-B, whose programs are those of the manual's 3.4.1
 * to 3.4.3, driven by interrupts. Each side has a program and a vector of its own, so
 * that a host can send and receive at once.
 *
 * A program is here what it is in an operating system's driver: a start, and what
 * it does at each interrupt, from state to state. All that it knows is numbers, so
 * that a host can be saved in mid-message. */
#ifndef HOSTS_H
#define HOSTS_H

#include "device.h"

enum { HOSTS_MOST = 4, HOST_WORDS = 512 };

enum program {
    NO_PROGRAM,
    SEND_WORDS, RECEIVE_WORDS,          /* 3.4.1: a word at a time, through TSDB and RDDB */
    SEND_MESSAGE, RECEIVE_MESSAGE,      /* 3.4.2: a block, by NPR transfers */
    SEND_PREFACED, RECEIVE_CHOOSING     /* 3.4.3-1: its length first; the receiver rejects or truncates */
};

/* Where a program stands: waiting in one of these .. */
enum state {
    RESTING, WAITING_WORD, WAITING_CRC, WAITING_MESSAGE, WAITING_REST, REJECTING, TRUNCATING,
    COMPLETE, REJECTED, TRUNCATED, BUSY_END, FAILED     /* .. or ended so */
};

/* One side's program. What it is told: partner, point, words, retry. */
struct job {
    uint16_t program, state;
    uint16_t partner;           /* the receiver's address, for a sender */
    uint16_t point;             /* the byte address of its block or buffer .. */
    uint16_t words;             /* .. and the words in it */
    uint16_t retry;             /* RIB or 0: whether a sender tries again where the receiver is busy */
    uint16_t done;              /* words sent or received one at a time */
};

struct host {
    const char *name;
    uint32_t unit;
    uint16_t memory[HOST_WORDS];
    struct job job[2];
    uint16_t serial;            /* of its transmitter's last opening that was said */
};

struct machines {               /* all hosts, and their bus */
    struct bus bus;
    struct host host[HOSTS_MOST];
    FILE *out;                  /* where what each host sees is said */
};

/* The next host, with its addresses on the bus and as much of its memory as the link is to reach. */
struct host *host_add(struct machines *machines, const char *name, uint32_t transmitter, uint32_t receiver, size_t memory_words);

/* Starts a program at the side that it is for. */
void host_start(struct machines *machines, struct host *host, enum program program, unsigned point, unsigned words, unsigned partner);

/* One slice of the bus, and what comes of it at every host; and slices until every program has ended, but no more than so many. */
void hosts_turn(struct machines *machines);
void hosts_run(struct machines *machines, unsigned long slices_most);

/* Takes the interrupts that stand, those of the transmitter first; each says what the host saw. */
void host_interrupts(struct machines *machines, struct host *host);

/* What a host's master section shows. */
void host_say_master(struct machines *machines, const struct host *host);

/* 3.4.3-2: MASTER, and a list of addresses in the address silo; or with none, the counter. */
void host_be_master(struct machines *machines, struct host *host, const uint8_t *addresses, unsigned count);

/* The word in a register, as a program reads it; a program's writes; bits set and cleared as BIS and BIC do. */
uint16_t host_read(struct machines *machines, const struct host *host, uint32_t address);
void host_write(struct machines *machines, const struct host *host, uint32_t address, unsigned word);
void host_write_byte(struct machines *machines, const struct host *host, uint32_t address, unsigned byte);
void host_set(struct machines *machines, const struct host *host, uint32_t address, unsigned bits);
void host_clear(struct machines *machines, const struct host *host, uint32_t address, unsigned bits);

bool host_is_done(const struct host *host);
const char *host_state_text(unsigned state);

/* The link, and the memories and programs of all hosts, in a file for this kind of machine. */
bool hosts_save(const struct machines *machines, FILE *file);
bool hosts_restore(struct machines *machines, FILE *file);

/* The manual's addresses. */
enum {
    TCR = PCL_UNIBUS_TRANSMITTER, TCRH = TCR + 1, TSR = TCR + PCL_TSR, TSDB = TCR + PCL_TSDB, TSBC = TCR + PCL_TSBC, TSBA = TCR + PCL_TSBA,
    TMMR = TCR + PCL_TMMR, TMMRH = TMMR + 1, TSCRC = TCR + PCL_TSCRC,
    RCR = PCL_UNIBUS_RECEIVER, RSR = RCR + PCL_RSR - PCL_RCR, RDDB = RCR + PCL_RDDB - PCL_RCR, RDBC = RCR + PCL_RDBC - PCL_RCR,
    RDBA = RCR + PCL_RDBA - PCL_RCR, RDCRC = RCR + DEVICE_RDCRC - PCL_RCR
};

#endif
