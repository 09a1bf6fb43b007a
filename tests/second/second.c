/* second.c - the link of document 01 with document 02's changes No. 1, No. 3 and
 * No. 6, written apart from the first program.
 *
 * Quoted sentences are document 01's, or where it says so document 02's; "reading
 * n" is one of docs/DECISIONS.md. */
#include "second.h"
#include "count.h"
#ifdef SECOND_COUNT
#include <stdio.h>
#endif

/* "Byte offsets: TCR 0, TSR 2, .." */
enum {
    TCR = 0, TSR = 2, TSDB = 4, TSBC = 6, TSBA = 8, TMMR = 10, TSCRC = 12,
    RCR = 16, RSR = 18, RDDB = 20, RDBC = 22, RDBA = 24, RDCRC = 26
};

/* Bits that both command registers have in one place.  SND WD and RCV WD share
 * bit 13, ST TXM and RCV DAT bit 0: the two a request clears. */
enum {
    ALL_WORDS = 1 << 0,         /* ST TXM, RCV DAT */
    INITIALIZE = 1 << 1,        /* TX INIT, RC INIT */
    INHIBIT_INCREMENT = 1 << 2, /* INH ADI */
    EXTENDED_ADDRESS = 3 << 4,  /* EA 16, EA 17 */
    EXTENDED_SHIFT = 4,
    INTERRUPT_ENABLE = 1 << 6,  /* IE */
    ONE_WORD = 1 << 13,         /* SND WD, RCV WD */
    NPR = 1 << 14               /* TX NPR, RC NPR */
};

enum {                          /* TCR alone */
    TCR_OUTPUT_READY = 1 << 3,
    READ_SILO = 1 << 7,
    RETRY_IF_BUSY = 1 << 15,
    DESTINATION_SHIFT = 8,
    TCR_WRITABLE = 0xFFF5       /* all but TX INIT and DT O RDY */
};

enum {                          /* RCR alone */
    RCR_INPUT_READY = 1 << 3,
    REJECT = 1 << 15,
    SENDER_SHIFT = 8,
    SENDER = 31 << SENDER_SHIFT,
    RCR_WRITABLE = 0xE0F5       /* LD SILO is stored, without effect: reading 4 */
};

enum {                          /* TSR and RSR */
    RESPONSES = 15,             /* A in bits 0 and 1, B in bits 2 and 3 */
    RESPONSE_B_SHIFT = 2,
    TDM_BUSY = 1 << 4,          /* TBS BSY, TSR alone */
    RSR_CHANNEL_OPEN = 1 << 4,  /* RSR alone */
    REJECTED = 1 << 5,          /* SORE, RECOM */
    BUSY = 1 << 6,
    SUCCESS = 1 << 7,           /* SUC TXF */
    TSR_INPUT_READY = 1 << 8,
    RSR_OUTPUT_READY = 1 << 8,
    OVERRUN = 1 << 9,           /* TSR alone */
    COUNT_OVERFLOW = 1 << 9,    /* BC OFL, RSR alone */
    TIME_OUT = 1 << 10,
    MASTER_DOWN = 1 << 11,      /* TSR alone */
    PARITY = 1 << 11,           /* RSR alone */
    TRANSMISSION_ERROR = 1 << 12,
    MEMORY_OVERFLOW = 1 << 13,
    NON_EXISTENT = 1 << 14,     /* NXL */
    ERROR = 1 << 15,
    ERRORS = 0x7E00,            /* bits 9 to 14 */
    TSR_WRITABLE = 0x3EB0,      /* bits 4, 5, 7 and 9 to 13 */
    RSR_WRITABLE = 0x3EA0       /* bits 5, 7 and 9 to 13 */
};

enum {                          /* TMMR */
    MASTER = 1 << 8, SECONDARY = 1 << 9, NOW_MASTER = 1 << 10,
    TMMR_CHANNEL_OPEN = 1 << 11, AUTO_ADDRESS = 1 << 12,
    CLEAR_ADDRESSES = 1 << 13, ADDRESS_INPUT_READY = 1 << 14,
    ADDRESS_OUTPUT_READY = 1 << 15
};

enum { OFF = 0, NULL_CYCLE = 1, WORD = 2, LAST_CRC = 3 };           /* A */
enum { BUSY_REPLY = 0, NULL_REPLY = 1, CHECK_FAIL = 2, TAKEN = 3 }; /* B */

enum { NO_VERDICT = 0, GOOD = 1, BAD = 2 };

enum {
    BLOCK = 128,                /* words to a due CRC */
    FEWEST_ADDRESSES = 20,      /* "only with 20 to 50 addresses" */
    MOST_MEMORY = 131072,
    LOW_BYTE = 0x00FF, HIGH_BYTE = 0xFF00, BOTH_BYTES = 0xFFFF
};

/* What T puts on the lines, as it arrives at R (damage done).  Document 02: "An
 * opening word must be marked as such", and the serial "is copied to the receiver
 * with the opening word".  Neither is a line, so no damage touches them. */
struct sent {
    uint8_t a;
    bool opening;               /* the word of a T that is not open */
    uint16_t serial;            /* with it: the serial that the opening would have */
    bool crc;                   /* T meant a CRC; else a word, or nothing */
    bool parity;
    uint16_t data;
};

/* What R answers, and what of it goes over the chart. */
struct reply {
    uint8_t b;
    bool rejects;               /* rule 6 */
    bool truncates;             /* rule 7 */
    bool restarts;              /* rule 8, a good due CRC: both counts restart */
    bool success;               /* rule 8, the last CRC answered 11 */
    bool truncated;             /* .. of a truncated message */
};

/* ------------------------------------------------------------------ silos */

/* "Data silos hold 64 words". */
static bool room(const struct second_data_silo *s)
{
    return s->held < SECOND_DATA_SILO;
}

/* A word at the end; the caller has seen to the room. */
static void put(struct second_data_silo *s, uint16_t word)
{
    s->word[(s->first + s->held) % SECOND_RING] = word;
    s->held++;
}

/* The oldest word; of no meaning in an empty silo. */
static uint16_t oldest(const struct second_data_silo *s)
{
    return s->word[s->first];
}

/* The oldest word removed. */
static void drop_oldest(struct second_data_silo *s)
{
    s->first = (uint8_t)((s->first + 1) % SECOND_RING);
    s->held--;
}

/* The address i places behind the oldest. */
static uint8_t address_at(const struct second_address_silo *s, unsigned i)
{
    return s->address[(s->first + i) % SECOND_RING];
}

/* An address at the end; the caller has seen to the room. */
static void put_address(struct second_address_silo *s, uint8_t address)
{
    s->address[(s->first + s->held) % SECOND_RING] = address;
    s->held++;
}

/* The oldest address removed. */
static void drop_address(struct second_address_silo *s)
{
    s->first = (uint8_t)((s->first + 1) % SECOND_RING);
    s->held--;
}

/* -------------------------------------------------------- parity and CRC */

/* Whether the count of ones in a word is odd. */
static bool odd_ones(uint16_t word)
{
    unsigned w = word;

    w ^= w >> 8;
    w ^= w >> 4;
    w ^= w >> 2;
    w ^= w >> 1;
    return w & 1;
}

/* "CRC: x^16+x^15+x^2+1, start 0, least bit first": four bits at a time. */
static uint16_t crc_step(uint16_t crc, uint16_t word)
{
    static const uint16_t table[16] = {
        0x0000, 0xCC01, 0xD801, 0x1400, 0xF001, 0x3C00, 0x2800, 0xE401,
        0xA001, 0x6C00, 0x7800, 0xB401, 0x5000, 0x9C01, 0x8801, 0x4400
    };
    unsigned c = crc ^ word;

    c = (c >> 4) ^ table[c & 15];
    c = (c >> 4) ^ table[c & 15];
    c = (c >> 4) ^ table[c & 15];
    c = (c >> 4) ^ table[c & 15];
    return (uint16_t)c;
}

/* ------------------------------------------------- requests, events, marks */

/* Any of these command bits set. */
static bool has(const struct second_side *s, unsigned command)
{
    return (s->command & command) != 0;
}

/* "ERR is the or of the register's error bits." */
static bool error(const struct second_side *s)
{
    return (s->status & ERRORS) != 0;
}

/* BUSY is CHN OPN or SND WD; at the receiver CHN OPN or RCV WD (reading 5). */
static bool busy(const struct second_side *s)
{
    return s->open || has(s, ONE_WORD);
}

/* Reading 31: "Any call that leaves T not BUSY clears its mark at once." */
static void settle_mark(struct second_transmitter *t)
{
    if (!busy(&t->side))
        t->side.mark = false;
}

/* A request "clears ST TXM and SND WD". */
static void transmitter_request(struct second_transmitter *t)
{
    t->side.command &= (uint16_t)~(ALL_WORDS | ONE_WORD);
    settle_mark(t);
}

/* A request "clears RCV WD and RCV DAT". */
static void receiver_request(struct second_receiver *r)
{
    r->side.command &= (uint16_t)~(ALL_WORDS | ONE_WORD);
}

/* "A call that sets ERR, SUC TXF, SORE .. makes a request"; an event makes one
 * each time, also where the bit stands (reading 11). */
static void transmitter_event(struct second_transmitter *t, unsigned bits)
{
    t->side.status |= (uint16_t)bits;
    transmitter_request(t);
}

/* "At the receiver: ERR, SUC TXF, RECOM"; alike. */
static void receiver_event(struct second_receiver *r, unsigned bits)
{
    r->side.status |= (uint16_t)bits;
    receiver_request(r);
}

/* ".. or TBS BSY with RIB clear": with RIB set the bit alone. */
static void transmitter_busy_event(struct second_transmitter *t)
{
    COUNT_IF(has(&t->side, RETRY_IF_BUSY), closed_00_rib_set);
    COUNT_IF(!has(&t->side, RETRY_IF_BUSY), closed_00_rib_clear);
    t->side.status |= TDM_BUSY;
    if (!has(&t->side, RETRY_IF_BUSY))
        transmitter_request(t);
}

/* "TSR bits 0 to 3 show the last own slice". */
static void show_responses(struct second_side *s, unsigned a, unsigned b)
{
    s->status = (uint16_t)((s->status & ~RESPONSES) | a | b << RESPONSE_B_SHIFT);
}

/* ".. and cleared by SUC TXF" (reading 16). */
static void clear_responses(struct second_side *s)
{
    s->status &= (uint16_t)~RESPONSES;
}

/* ------------------------------------------------- closing and initial state */

/* Reading 27: closing T clears neither ST TXM nor SND WD by itself. */
static void close_transmitter(struct second_transmitter *t)
{
    t->side.open = false;
    t->ending = false;
    settle_mark(t);
}

/* "Closing R clears RCV WD, RCV DAT, REJ"; the mark of the period falls
 * (reading 31), and "R is marked truncated until it closes". */
static void close_receiver(struct second_receiver *r)
{
    r->side.open = false;
    r->side.command &= (uint16_t)~(ALL_WORDS | ONE_WORD | REJECT);
    r->side.mark = false;
    r->truncated = false;
}

/* AUT ADR set; the counter "restarts when MASTER or AUT ADR goes from clear to
 * set". */
static void set_auto_address(struct second_master *m)
{
    COUNT_IF(!m->automatic, aut_adr_restarts_counter);
    if (!m->automatic)
        m->counter = m->counter_switch;
    m->automatic = true;
}

/* "An empty address silo sets AUT ADR at once." */
static void clear_addresses(struct second_master *m)
{
    COUNT_IF(!m->automatic, clr_adr_sets_aut_adr);
    m->silo.first = 0;
    m->silo.held = 0;
    set_auto_address(m);
}

/* MASTER goes from clear to set: the counter restarts (reading 21). */
static void take_mastership(struct second_link *l, uint32_t unit)
{
    struct second_master *m = &l->unit[unit].master;

    l->master = (uint8_t)(unit + 1);
    m->counter = m->counter_switch;
}

/* "its holder may clear it"; for another unit nothing. */
static void give_up_mastership(struct second_link *l, uint32_t unit)
{
    if (l->master == unit + 1)
        l->master = 0;
}

/* "TX INIT .. gives that side its initial state, closing only its own side of a
 * channel"; it "also clears MASTER, SEC, NOW MST, empties the address silo and
 * sets AUT ADR".  The serial is kept: see fit. */
static void initialize_transmitter(struct second_link *l, uint32_t unit)
{
    struct second_unit *u = &l->unit[unit];
    uint16_t serial = u->transmitter.side.serial;

    COUNT(tx_init);
    COUNT_IF(u->transmitter.side.open, tx_init_open);
    COUNT_IF(l->master == unit + 1, tx_init_master);
    COUNT_IF(serial, tx_init_keeps_serial);
    u->transmitter = (struct second_transmitter){ .side = { .serial = serial } };
    give_up_mastership(l, unit);
    u->master.secondary = false;
    u->master.now_master = false;
    clear_addresses(&u->master);
}

/* RC INIT alike: the whole side is initial (reading 10), but for the serial. */
static void initialize_receiver(struct second_link *l, uint32_t unit)
{
    struct second_unit *u = &l->unit[unit];
    uint16_t serial = u->receiver.side.serial;

    COUNT(rc_init);
    COUNT_IF(u->receiver.side.open, rc_init_open);
    COUNT_IF(serial, rc_init_keeps_serial);
    u->receiver = (struct second_receiver){ .side = { .serial = serial } };
}

/* -------------------------------------------------------------------- fit */

/* A number of a set-up, 1 to 31 and not yet taken. */
static bool free_address(uint32_t address, const uint8_t *taken)
{
    return address >= 1 && address < SECOND_ADDRESSES && !taken[address];
}

/* "Transmitter addresses are 1 to 31, no two equal; receivers' likewise;
 * counter switches 2 to 31", memories of 1 to 131,072 words, 1 to 16 units. */
static bool rules_kept(const uint32_t *setup, size_t length)
{
    uint8_t transmitters[SECOND_ADDRESSES] = { 0 };
    uint8_t receivers[SECOND_ADDRESSES] = { 0 };

    if (length % 4 != 0 || length < 4 || length > 4 * SECOND_UNITS)
        return false;
    for (const uint32_t *s = setup; s < setup + length; s += 4) {
        if (!free_address(s[0], transmitters) || !free_address(s[1], receivers))
            return false;
        if (s[2] < 2 || s[2] > 31 || s[3] < 1 || s[3] > MOST_MEMORY)
            return false;
        transmitters[s[0]] = 1;
        receivers[s[1]] = 1;
    }
    return true;
}

/* "Fit gives every side its initial state, memories unchanged."  Document 02, of
 * the serial: "Only a new fit resets it, to 0." */
static uint32_t fit(struct second_link *l, const uint32_t *setup, size_t length)
{
    if (!rules_kept(setup, length))
        return 7;
    *l = (struct second_link){ .units = (uint8_t)(length / 4) };
    for (uint32_t unit = 0; unit < l->units; unit++) {
        const uint32_t *s = setup + 4 * unit;
        struct second_unit *u = &l->unit[unit];

        l->transmitter_at[s[0]] = (uint8_t)(unit + 1);
        l->receiver_at[s[1]] = (uint8_t)(unit + 1);
        u->master.counter_switch = (uint8_t)s[2];
        u->master.counter = (uint8_t)s[2];
        u->master.automatic = true;
        u->memory_length = s[3];
    }
    return 0;
}

/* ------------------------------------------------------------------ reads */

/* Number 0 with a value. */
static uint32_t done(uint32_t value)
{
    return value << 16;
}

/* "DTIRDY (silo not full, TX NPR and RD SILO clear, not ending)". */
static bool input_ready(const struct second_transmitter *t)
{
    return room(&t->side.silo) && !has(&t->side, NPR | READ_SILO) && !t->ending;
}

/* Reading 3: TCR bit 3 is a word held.  TX INIT reads 0 (reading 4). */
static unsigned read_transmitter_command(const struct second_transmitter *t)
{
    return t->side.command | (t->side.silo.held ? TCR_OUTPUT_READY : 0);
}

/* TSR: BUSY, DTIRDY and ERR are no stored bits. */
static unsigned read_transmitter_status(const struct second_transmitter *t)
{
    return t->side.status | (busy(&t->side) ? BUSY : 0)
        | (input_ready(t) ? TSR_INPUT_READY : 0) | (error(&t->side) ? ERROR : 0);
}

/* Reading 3: RCR bit 3 is room in the silo. */
static unsigned read_receiver_command(const struct second_receiver *r)
{
    return r->side.command | (room(&r->side.silo) ? RCR_INPUT_READY : 0);
}

/* RSR: CHN OPN, BUSY, DTORDY (a word held, reading 3) and ERR alike. */
static unsigned read_receiver_status(const struct second_receiver *r)
{
    return r->side.status | (r->side.open ? RSR_CHANNEL_OPEN : 0)
        | (busy(&r->side) ? BUSY : 0)
        | (r->side.silo.held ? RSR_OUTPUT_READY : 0) | (error(&r->side) ? ERROR : 0);
}

/* "TSDB read shows the oldest word, removing it only with RD SILO set". */
static uint32_t read_source_data(struct second_transmitter *t)
{
    struct second_data_silo *s = &t->side.silo;
    uint16_t word = oldest(s);

    if (!s->held)
        return 4;
    COUNT_IF(has(&t->side, READ_SILO), tsdb_read_removes);
    COUNT_IF(!has(&t->side, READ_SILO), tsdb_read_stays);
    if (has(&t->side, READ_SILO))
        drop_oldest(s);
    return done(word);
}

/* "RDDB alike, removing it unless RC NPR is set. Data silo empty: 4." */
static uint32_t read_destination_data(struct second_receiver *r)
{
    struct second_data_silo *s = &r->side.silo;
    uint16_t word = oldest(s);

    if (!s->held)
        return 4;
    COUNT_IF(has(&r->side, NPR), rddb_read_stays);
    COUNT_IF(!has(&r->side, NPR), rddb_read_removes);
    if (!has(&r->side, NPR))
        drop_oldest(s);
    return done(word);
}

/* Reading 3: AIP RDY, an address would be taken now. */
static bool address_input_ready(const struct second_unit *u)
{
    return u->master.automatic && !has(&u->transmitter.side, READ_SILO)
        && u->master.silo.held < SECOND_ADDRESS_SILO;
}

/* TMMR but for the address: AOP RDY is at least one held, bit 11 the
 * transmitter's channel (reading 3). */
static unsigned mastership(const struct second_link *l, uint32_t unit)
{
    const struct second_unit *u = &l->unit[unit];

    return (l->master == unit + 1 ? MASTER : 0)
        | (u->master.secondary ? SECONDARY : 0)
        | (u->master.now_master ? NOW_MASTER : 0)
        | (u->transmitter.side.open ? TMMR_CHANNEL_OPEN : 0)
        | (u->master.automatic ? AUTO_ADDRESS : 0)
        | (address_input_ready(u) ? ADDRESS_INPUT_READY : 0)
        | (u->master.silo.held ? ADDRESS_OUTPUT_READY : 0);
}

/* "TMMR read answers number 0 and shows the oldest address, or 0, removing it
 * only with RD SILO and AUT ADR set" - and what stood before (reading 9). */
static uint32_t read_mastership(struct second_link *l, uint32_t unit)
{
    struct second_unit *u = &l->unit[unit];
    struct second_address_silo *s = &u->master.silo;
    unsigned shown = mastership(l, unit);

    if (!s->held)
        return done(shown);
    shown |= address_at(s, 0);
    if (has(&u->transmitter.side, READ_SILO) && u->master.automatic) {
        COUNT(address_removed);
        drop_address(s);
    }
    return done(shown);
}

/* "1: unit not fitted". */
static bool fitted(const struct second_link *l, uint32_t unit)
{
    return unit < l->units;
}

/* Reading 1: 14, 28, 30, their odd halves and all from 32 on are no register. */
static bool no_register(uint32_t offset)
{
    return offset > RDCRC + 1 || offset == 14 || offset == 15;
}

/* "2: no such register; odd offset in a word access". */
static uint32_t refuse_word(const struct second_link *l, uint32_t unit, uint32_t offset)
{
    if (!fitted(l, unit))
        return 1;
    return no_register(offset) || offset % 2 != 0 ? 2 : 0;
}

/* A word read: the register at an even offset. */
static uint32_t read_word(struct second_link *l, uint32_t unit, uint32_t offset)
{
    uint32_t refused = refuse_word(l, unit, offset);
    struct second_transmitter *t;
    struct second_receiver *r;

    if (refused)
        return refused;
    t = &l->unit[unit].transmitter;
    r = &l->unit[unit].receiver;
    switch (offset) {
    case TCR: return done(read_transmitter_command(t));
    case TSR: return done(read_transmitter_status(t));
    case TSDB: return read_source_data(t);
    case TSBC: return done(t->side.byte_count);
    case TSBA: return done(t->side.bus_address);
    case TMMR: return read_mastership(l, unit);
    case TSCRC: return done(t->side.crc);
    case RCR: return done(read_receiver_command(r));
    case RSR: return done(read_receiver_status(r));
    case RDDB: return read_destination_data(r);
    case RDBC: return done(r->side.byte_count);
    case RDBA: return done(r->side.bus_address);
    default: return done(r->side.crc);          /* RDCRC */
    }
}

/* ----------------------------------------------------------------- writes */

/* The bits of `mask` from `word`, the others as they were. */
static uint16_t merge(uint16_t old, uint16_t word, unsigned mask)
{
    return (uint16_t)((old & ~mask) | (word & mask));
}

/* TCR: "TX INIT .. the rest of the write is ignored"; "Read-only bits ignore
 * writes."  A write that leaves T not BUSY clears its mark (reading 31). */
static void write_transmitter_command(struct second_link *l, uint32_t unit,
                                      uint16_t word, unsigned mask)
{
    struct second_transmitter *t = &l->unit[unit].transmitter;

    if (word & mask & INITIALIZE) {
        initialize_transmitter(l, unit);
        return;
    }
    t->side.command = merge(t->side.command, word, mask & TCR_WRITABLE);
    settle_mark(t);
}

/* RCR alike; bits 8 to 12 are read-only. */
static void write_receiver_command(struct second_link *l, uint32_t unit,
                                   uint16_t word, unsigned mask)
{
    struct second_receiver *r = &l->unit[unit].receiver;

    if (word & mask & INITIALIZE) {
        initialize_receiver(l, unit);
        return;
    }
    r->side.command = merge(r->side.command, word, mask & RCR_WRITABLE);
}

/* TSR or RSR.  NXL: a written 0 clears it, a written 1 is ignored (reading 2).
 * SUC TXF raised by the host clears bits 0 to 3 too (reading 16).  Answers
 * whether the write makes a request: ERR, or one of the bits `requesting`, from
 * clear to set (reading 11). */
static bool write_status(struct second_side *s, uint16_t word, unsigned mask,
                         unsigned writable, unsigned requesting)
{
    uint16_t before = s->status;
    uint16_t after = merge(before, word, mask & writable);
    unsigned raised;

    COUNT_IF(before & mask & ~word & NON_EXISTENT, write_clears_nxl);
    after &= (uint16_t)~(mask & ~word & NON_EXISTENT);
    raised = after & ~before;
    if (raised & SUCCESS) {
        COUNT(write_sets_suc_txf);
        after &= (uint16_t)~RESPONSES;
    }
    s->status = after;
    COUNT_IF((before & ERRORS) && (raised & ERRORS), write_second_error);
    COUNT_IF((writable & TDM_BUSY) && (raised & TDM_BUSY & ~requesting),
             write_tbs_bsy_rib_set);
    return (raised & requesting) || (!(before & ERRORS) && (after & ERRORS));
}

/* "sets ERR, SUC TXF, SORE, or TBS BSY with RIB clear". */
static void write_transmitter_status(struct second_transmitter *t, uint16_t word,
                                     unsigned mask)
{
    unsigned busy_bit = has(&t->side, RETRY_IF_BUSY) ? 0 : TDM_BUSY;

    if (write_status(&t->side, word, mask, TSR_WRITABLE, SUCCESS | REJECTED | busy_bit)) {
        COUNT(write_requests_transmitter);
        transmitter_request(t);
    }
}

/* "At the receiver: ERR, SUC TXF, RECOM". */
static void write_receiver_status(struct second_receiver *r, uint16_t word, unsigned mask)
{
    if (write_status(&r->side, word, mask, RSR_WRITABLE, SUCCESS | REJECTED)) {
        COUNT(write_requests_receiver);
        receiver_request(r);
    }
}

/* "bit 0 is dropped. Writing marks the register loaded"; a byte write too, the
 * other half kept (reading 6). */
static void write_byte_count(struct second_side *s, uint16_t word, unsigned mask)
{
    s->byte_count = merge(s->byte_count, word, mask) & 0xFFFE;
    s->loaded = true;
}

/* "bit 0 dropped"; EA 16 and EA 17 stand in the command register. */
static void write_bus_address(struct second_side *s, uint16_t word, unsigned mask)
{
    s->bus_address = merge(s->bus_address, word, mask) & 0xFFFE;
}

/* "TSDB write: taken if DTIRDY ..; else 6": OVERUN set, with its request. */
static uint32_t write_source_data(struct second_transmitter *t, uint16_t word)
{
    if (input_ready(t)) {
        COUNT(tsdb_taken);
        put(&t->side.silo, word);
        return 0;
    }
    COUNT_IF(!room(&t->side.silo), tsdb_full);
    COUNT_IF(has(&t->side, NPR), tsdb_tx_npr);
    COUNT_IF(has(&t->side, READ_SILO), tsdb_rd_silo);
    COUNT_IF(t->ending, tsdb_ending);
    transmitter_event(t, OVERRUN);
    return 6;
}

/* "succeeds only with 20 to 50 addresses, no two neighbours equal around the
 * ring". */
static bool may_start(const struct second_address_silo *s)
{
    if (s->held < FEWEST_ADDRESSES) {
        COUNT(start_too_few);
        return false;
    }
    for (unsigned i = 0; i + 1 < s->held; i++)
        if (address_at(s, i) == address_at(s, i + 1)) {
            COUNT(start_neighbours);
            return false;
        }
    COUNT_IF(address_at(s, 0) == address_at(s, s->held - 1u), start_first_and_last);
    return address_at(s, 0) != address_at(s, s->held - 1u);
}

/* AUT ADR of a TMMR write.  Bit 12 written 0 while it is set is a try at every
 * such write (reading 17): "else 5". */
static uint32_t write_auto_address(struct second_master *m, bool set)
{
    if (set) {
        set_auto_address(m);
        return 0;
    }
    if (!m->automatic)
        return 0;
    if (!may_start(&m->silo))
        return 5;
    COUNT(aut_adr_cleared);
    m->automatic = false;
    return 0;
}

/* "Setting MASTER while any unit has it changes no MASTER bit; its holder may
 * clear it." */
static void write_master(struct second_link *l, uint32_t unit, bool set)
{
    COUNT_IF(set && !l->master, master_set);
    COUNT_IF(set && l->master && l->master != unit + 1, master_refused);
    COUNT_IF(set && l->master == unit + 1, master_written_by_holder);
    COUNT_IF(!set && l->master == unit + 1, master_cleared);
    if (!set)
        give_up_mastership(l, unit);
    else if (!l->master)
        take_mastership(l, unit);
}

/* The high byte: "CLR ADR empties the address silo before AUT ADR is looked
 * at".  In a write answered 5 the rest is done (reading 18). */
static uint32_t write_mastership(struct second_link *l, uint32_t unit, uint16_t word)
{
    struct second_master *m = &l->unit[unit].master;

    if (word & CLEAR_ADDRESSES)
        clear_addresses(m);
    write_master(l, unit, word & MASTER);
    m->secondary = word & SECONDARY;
    m->now_master = word & NOW_MASTER;
    return write_auto_address(m, word & AUTO_ADDRESS);
}

/* "the low byte .. is loaded as an address (mod 32), or dropped (6) if AUT ADR
 * is clear, RD SILO set or 50 held". */
static uint32_t load_address(struct second_unit *u, uint16_t word)
{
    if (!address_input_ready(u)) {
        COUNT_IF(!u->master.automatic, address_dropped_aut_adr);
        COUNT_IF(has(&u->transmitter.side, READ_SILO), address_dropped_rd_silo);
        COUNT_IF(u->master.silo.held == SECOND_ADDRESS_SILO, address_dropped_full);
        return 6;
    }
    COUNT(address_loaded);
    put_address(&u->master.silo, (uint8_t)(word % SECOND_ADDRESSES));
    return 0;
}

/* "high byte first ..; then the low byte, if included"; "A TMMR write meeting
 * both 5 and 6 answers 5." */
static uint32_t write_master_maintenance(struct second_link *l, uint32_t unit,
                                         uint16_t word, unsigned mask)
{
    uint32_t high = 0, low = 0;

    if (mask & HIGH_BYTE)
        high = write_mastership(l, unit, word);
    if (mask & LOW_BYTE)
        low = load_address(&l->unit[unit], word);
    COUNT_IF(high && low, tmmr_5_and_6);
    return high ? high : low;
}

/* The bytes of `mask` of the register at an even offset.  "Writing RDDB, TSCRC
 * or RDCRC changes nothing." */
static uint32_t write_register(struct second_link *l, uint32_t unit, uint32_t offset,
                               uint16_t word, unsigned mask)
{
    struct second_transmitter *t = &l->unit[unit].transmitter;
    struct second_receiver *r = &l->unit[unit].receiver;

    switch (offset) {
    case TCR: write_transmitter_command(l, unit, word, mask); break;
    case TSR: write_transmitter_status(t, word, mask); break;
    case TSDB: return write_source_data(t, word);
    case TSBC: write_byte_count(&t->side, word, mask); break;
    case TSBA: write_bus_address(&t->side, word, mask); break;
    case TMMR: return write_master_maintenance(l, unit, word, mask);
    case RCR: write_receiver_command(l, unit, word, mask); break;
    case RSR: write_receiver_status(r, word, mask); break;
    case RDBC: write_byte_count(&r->side, word, mask); break;
    case RDBA: write_bus_address(&r->side, word, mask); break;
    default: break;                             /* RDDB, TSCRC, RDCRC */
    }
    return 0;
}

/* A word write: both bytes of the register. */
static uint32_t write_word(struct second_link *l, uint32_t unit, uint32_t offset,
                           uint16_t word)
{
    uint32_t refused = refuse_word(l, unit, offset);

    return refused ? refused : write_register(l, unit, offset, word, BOTH_BYTES);
}

/* "The odd offset above is the high byte"; "3: byte write to TSDB or RDDB". */
static uint32_t write_byte(struct second_link *l, uint32_t unit, uint32_t offset,
                           uint8_t byte)
{
    uint32_t even = offset & ~(uint32_t)1;

    if (!fitted(l, unit))
        return 1;
    if (no_register(offset))
        return 2;
    if (even == TSDB || even == RDDB)
        return 3;
    if (offset != even)
        return write_register(l, unit, even, (uint16_t)(byte << 8), HIGH_BYTE);
    return write_register(l, unit, even, byte, LOW_BYTE);
}

/* -------------------------------------------------------- the master section */

/* "the lowest unit with SEC takes MASTER and NOW MST and loses SEC". */
static bool take_over(struct second_link *l)
{
    for (uint32_t unit = 0; unit < l->units; unit++) {
        struct second_master *m = &l->unit[unit].master;

        if (!m->secondary)
            continue;
        COUNT(takeover);
        COUNT_IF(!m->automatic, takeover_in_silo_mode);
        take_mastership(l, unit);
        m->now_master = true;
        m->secondary = false;
        return true;
    }
    return false;
}

/* "if there is none, every transmitter with SND WD and a word gets MST DWN",
 * also with destination 0 or ERR standing (reading 20). */
static void master_is_down(struct second_link *l)
{
    COUNT(no_master_nothing);
    for (uint32_t unit = 0; unit < l->units; unit++) {
        struct second_transmitter *t = &l->unit[unit].transmitter;

        if (!has(&t->side, ONE_WORD) || !t->side.silo.held)
            continue;
        COUNT(master_down);
        COUNT_IF(error(&t->side), master_down_err_stood);
        COUNT_IF(!(t->side.command >> DESTINATION_SHIFT & 31), master_down_no_destination);
        transmitter_event(t, MASTER_DOWN);
    }
}

/* "Counter mode (AUT ADR set) gives switch, switch - 1, .. 1, switch"; else
 * "each slice takes the oldest address and returns it to the end". */
static uint8_t next_address(struct second_master *m)
{
    uint8_t address;

    if (m->automatic) {
        COUNT(counter_steps);
        COUNT_IF(m->counter == 1, counter_wraps);
        address = m->counter;
        m->counter = address > 1 ? (uint8_t)(address - 1) : m->counter_switch;
        return address;
    }
    COUNT(silo_steps);
    address = address_at(&m->silo, 0);
    drop_address(&m->silo);
    put_address(&m->silo, address);
    return address;
}

/* ------------------------------------------------------ a slice: T sends A */

/* Closed: the destination of the moment; open: the latched one (reading 29). */
static uint8_t destination(const struct second_transmitter *t)
{
    return t->side.open ? t->destination : t->side.command >> DESTINATION_SHIFT & 31;
}

/* "T acts if its channel is open, or if it has SND WD, a word, a nonzero
 * destination and no ERR; else idle." */
static bool acts(const struct second_transmitter *t)
{
    const struct second_side *s = &t->side;

    return s->open
        || (has(s, ONE_WORD) && s->silo.held && destination(t) && !error(s));
}

/* A 00 or 01: nothing on the data lines. */
static struct sent send_nothing(uint8_t a)
{
    return (struct sent){ .a = a };
}

/* A 10 with the oldest word. */
static struct sent send_word(const struct second_transmitter *t)
{
    return (struct sent){ .a = WORD, .data = oldest(&t->side.silo) };
}

/* Document 02: "a 16-bit serial that the transmitter side raises by one at each
 * opening, starting again at 0 after 65,535". */
static uint16_t next_serial(const struct second_transmitter *t)
{
    return (uint16_t)(t->side.serial + 1);
}

/* "not open, 10 with a word", marked as an opening word; nothing else is. */
static struct sent send_opening_word(const struct second_transmitter *t)
{
    struct sent s = send_word(t);

    COUNT(a_not_open);
    s.opening = true;
    s.serial = next_serial(t);
    return s;
}

/* From here on a CRC is sent and not yet answered 11. */
static struct sent send_crc(struct second_transmitter *t, uint8_t a)
{
    t->crc_unanswered = true;
    return (struct sent){ .a = a, .crc = true, .data = t->side.crc };
}

/* "ST TXM set, no bytes left, silo empty": not loaded is none left. */
static bool message_sent(const struct second_side *s)
{
    return has(s, ALL_WORDS) && !s->loaded && !s->silo.held;
}

/* "A sent, first that fits", of an open T.  A CRC not yet answered 11 goes
 * before the end of the message, 128 words go behind it. */
static struct sent send_open(struct second_transmitter *t)
{
    const struct second_side *s = &t->side;
    bool command = has(s, ALL_WORDS | ONE_WORD);

    if (error(s)) {
        COUNT(a_err);
        return send_nothing(OFF);
    }
    if (t->ending) {
        COUNT(a_ending);
        return send_crc(t, LAST_CRC);
    }
    COUNT_IF(t->crc_unanswered && !command, a_crc_unanswered_without_command);
    if (t->crc_unanswered && command) {
        COUNT(a_crc_unanswered);
        return send_crc(t, WORD);
    }
    if (message_sent(s)) {
        COUNT(a_last);
        COUNT_IF(s->words == BLOCK, a_last_at_128);
        t->ending = true;
        return send_crc(t, LAST_CRC);
    }
    COUNT_IF(s->words == BLOCK && !command, a_128_without_command);
    if (s->words == BLOCK && command) {
        COUNT(a_due);
        COUNT_IF(!has(s, ALL_WORDS), a_due_by_snd_wd);
        return send_crc(t, WORD);
    }
    if (command && s->silo.held) {
        COUNT_IF(has(s, ALL_WORDS), a_word_by_st_txm);
        COUNT_IF(!has(s, ALL_WORDS), a_word_by_snd_wd);
        return send_word(t);
    }
    COUNT(a_null);
    return send_nothing(NULL_CYCLE);
}

/* What T sends, and then the lines: "The parity bit makes the count of ones in
 * seventeen lines odd", and the damage inverts lines (reading 22). */
static struct sent send(struct second_transmitter *t, uint16_t data_mask,
                        uint32_t parity_mask)
{
    struct sent s;

    s = t->side.open ? send_open(t) : send_opening_word(t);
    s.parity = !odd_ones(s.data) ^ parity_mask;
    s.data ^= data_mask;
    return s;
}

/* --------------------------- counting of a slice: nothing without SECOND_COUNT */

static void count_idle(const struct second_transmitter *t)
{
    const struct second_side *s = &t->side;
    bool word = has(s, ONE_WORD) && s->silo.held;

    COUNT_IF(!has(s, ONE_WORD), idle_no_snd_wd);
    COUNT_IF(has(s, ONE_WORD) && !s->silo.held, idle_no_word);
    COUNT_IF(word && !destination(t), idle_no_destination);
    COUNT_IF(word && destination(t) && error(s), idle_err);
}

/* Rule 1: whose slice it is that R does not listen to. */
static void count_another(const struct sent *s)
{
    COUNT(rule_1_open_with_another);
    COUNT_IF(s->opening, rule_1_opening_word);
    COUNT_IF(!s->opening, rule_1_open_transmitter);
}

/* Rule 2: an opening word, and what R lacks for it; or what is no opening word,
 * also at an R that would have opened for one. */
static void count_not_opened(const struct second_receiver *r, const struct sent *s)
{
    bool wanted = has(&r->side, ONE_WORD);
    bool ready = wanted && !error(&r->side) && room(&r->side.silo);

    COUNT_IF(s->opening && !wanted, rule_2_no_rcv_wd);
    COUNT_IF(s->opening && wanted && error(&r->side), rule_2_err);
    COUNT_IF(s->opening && wanted && (r->side.status & ERRORS) == COUNT_OVERFLOW,
             rule_2_bc_ofl_alone);
    COUNT_IF(s->opening && wanted && !error(&r->side), rule_2_no_room);
    COUNT_IF(s->a == OFF, rule_2_at_00);
    COUNT_IF(s->a == NULL_CYCLE, rule_2_at_01);
    COUNT_IF(s->a == WORD && !s->opening && !s->crc, rule_2_at_open_transmitters_word);
    COUNT_IF(s->a == WORD && s->crc, rule_2_at_due_crc);
    COUNT_IF(s->a == LAST_CRC, rule_2_at_last_crc);
    COUNT_IF(ready && s->a == WORD && !s->crc, rule_2_ready_at_open_transmitters_word);
    COUNT_IF(ready && s->a == WORD && s->crc, rule_2_ready_at_due_crc);
    COUNT_IF(ready && s->a == LAST_CRC, rule_2_ready_at_last_crc);
}

/* Rule 2 opens, or the rules from 3 on. */
static void count_opened(const struct second_receiver *r)
{
    COUNT_IF(!r->side.open, rule_2_opens);
    COUNT_IF(!r->side.open && !has(&r->side, ALL_WORDS), rule_2_opens_without_rcv_dat);
}

/* Document 02's rule, and each of the rules behind it that would have fitted. */
static void count_opening_again(const struct second_receiver *r)
{
    const struct second_side *side = &r->side;
    bool rejects = has(side, REJECT), whole = has(side, ALL_WORDS);

    COUNT(opening_again);
    COUNT_IF(!error(side), opening_again_no_err);
    COUNT_IF((side->status & ERRORS) == COUNT_OVERFLOW, opening_again_bc_ofl_alone);
    COUNT_IF(side->status & TRANSMISSION_ERROR, opening_again_txm_err_stands);
    COUNT_IF(side->status & ERRORS & ~(COUNT_OVERFLOW | TRANSMISSION_ERROR),
             opening_again_another_error_stands);
    COUNT_IF(r->bad_parity, opening_again_parity_mark_stands);
    COUNT_IF(rejects && !whole, opening_again_before_rule_6);
    COUNT_IF(rejects && whole && r->verdict == NO_VERDICT, opening_again_before_rule_7);
    COUNT_IF(r->truncated, opening_again_truncated);
    COUNT_IF(side->words == BLOCK && r->verdict == NO_VERDICT, opening_again_at_128);
    COUNT_IF(r->verdict != NO_VERDICT, opening_again_verdict_owed);
    COUNT_IF(side->words == 0, opening_again_right_behind_a_crc);
    COUNT_IF(has(side, ALL_WORDS | ONE_WORD) && room(&side->silo),
             opening_again_would_have_been_stored);
    COUNT_IF(!room(&side->silo), opening_again_silo_full);
    COUNT_IF(side->mark, opening_again_period_mark_stands);
}

static void count_reply(const struct reply *reply, const struct sent *s)
{
    COUNT_IF(reply->rejects && !s->opening, rule_6_open_transmitter);
    COUNT_IF(reply->rejects && s->opening, rule_6_closed_transmitter);
    COUNT_IF(reply->truncates && !s->opening, rule_7_open_transmitter);
    COUNT_IF(reply->truncates && s->opening, rule_7_closed_transmitter);
    COUNT_IF(reply->restarts && s->opening,
             rule_8_due_good_of_a_closed_transmitters_word);
}

static void count_crc_taken(const struct second_receiver *r, const struct sent *s)
{
    COUNT_IF(s->a == LAST_CRC && r->verdict == GOOD, rule_8_last_taken_good);
    COUNT_IF(s->a == LAST_CRC && r->verdict == BAD, rule_8_last_taken_bad);
    COUNT_IF(s->a == WORD && r->verdict == GOOD, rule_8_due_taken_good);
    COUNT_IF(s->a == WORD && r->verdict == BAD, rule_8_due_taken_bad);
    COUNT_IF(s->a == WORD && !s->crc, rule_8_due_taken_is_a_word);
}

static void count_success(const struct second_receiver *r)
{
    COUNT(rule_8_success);
    COUNT_IF(r->truncated, rule_8_success_truncated);
    COUNT_IF(r->truncated && r->side.silo.held, rule_8_success_truncated_words_in_silo);
    COUNT_IF(r->side.status & COUNT_OVERFLOW, rule_8_success_with_bc_ofl);
}

static void count_word_answered(const struct second_receiver *r, const struct sent *s)
{
    const struct second_side *side = &r->side;
    bool stored = has(side, ALL_WORDS | ONE_WORD) && room(&side->silo);

    COUNT_IF(r->verdict != NO_VERDICT, rule_9_verdict_stands);
    COUNT_IF(!has(side, ALL_WORDS | ONE_WORD), rule_9_no_command);
    COUNT_IF(has(side, ALL_WORDS | ONE_WORD) && !stored, rule_9_no_room);
    COUNT_IF(stored && has(side, ALL_WORDS), rule_9_stored_by_rcv_dat);
    COUNT_IF(stored && !has(side, ALL_WORDS), rule_9_stored_by_rcv_wd);
    COUNT_IF(stored && s->crc, rule_9_stored_a_crc);
}

static void count_truncation(const struct second_receiver *r, const struct sent *s)
{
    COUNT_IF(s->a == NULL_CYCLE, rule_7_at_01);
    COUNT_IF(s->a == WORD && !s->crc, rule_7_at_word);
    COUNT_IF(s->a == WORD && s->crc, rule_7_at_crc);
    COUNT_IF(r->truncated, rule_7_again);
}

/* ---------------------------------------------------- a slice: R answers B */

/* B, and nothing over the chart. */
static struct reply answer_b(uint8_t b)
{
    return (struct reply){ .b = b };
}

/* A word stored: it counts in the CRC and in the 128; its parity is marked if
 * bad (reading 22); it clears the period's mark; "a word stored with RCV DAT
 * clear" makes a request. */
static void store(struct second_receiver *r, const struct sent *s)
{
    put(&r->side.silo, s->data);
    r->side.crc = crc_step(r->side.crc, s->data);
    r->side.words++;
    r->bad_parity = odd_ones(s->data) == s->parity;
    r->side.mark = false;
    COUNT_IF(r->bad_parity, parity_bad);
    COUNT_IF(!r->bad_parity, parity_good);
    if (!has(&r->side, ALL_WORDS))
        receiver_request(r);
}

/* "At opening each end starts CRC, count of 128 and verdict, parity and
 * truncation marks afresh"; RCR 8 to 12 hold the opening's sender address.  The
 * serial is the one that came, whatever R's own was. */
static void open_receiver(struct second_receiver *r, uint8_t sender, uint16_t serial)
{
    COUNT_IF((uint16_t)(r->side.serial + 1) != serial, serial_copied_over_another);
    r->side.open = true;
    r->side.serial = serial;
    r->side.command = merge(r->side.command, (uint16_t)(sender << SENDER_SHIFT), SENDER);
    r->side.crc = 0;
    r->side.words = 0;
    r->verdict = NO_VERDICT;
    r->bad_parity = false;
    r->truncated = false;
}

/* Rule 2: "Closed: A 10, RCV WD, no ERR, room: opens, stores, 11. Else 00."
 * Document 02: "a closed receiver answers 00 to anything but an opening word, a
 * CRC included"; an opening word is A 10. */
static bool may_open(const struct second_receiver *r, const struct sent *s)
{
    return s->opening && has(&r->side, ONE_WORD) && !error(&r->side)
        && room(&r->side.silo);
}

/* Rule 2: "opens, stores, 11". */
static struct reply open_and_store(struct second_receiver *r, uint8_t sender,
                                   const struct sent *s)
{
    open_receiver(r, sender, s->serial);
    store(r, s);
    COUNT_IF(r->bad_parity, parity_bad_at_opening);
    return answer_b(TAKEN);
}

/* An error bit set, or none (0), and R closes. */
static struct reply close_with(struct second_receiver *r, unsigned bits, uint8_t b)
{
    if (bits)
        receiver_event(r, bits);
    close_receiver(r);
    return answer_b(b);
}

/* Document 02, of an opening word: "At a receiver open with that same
 * transmitter it sets TXM ERR, closes and gets 00, ahead of rule 3". */
static struct reply opened_again(struct second_receiver *r)
{
    count_opening_again(r);
    return close_with(r, TRANSMISSION_ERROR, BUSY_REPLY);
}

/* Rule 6: "REJ without RCV DAT: RECOM, closes; T gets SORE and closes; B 01." */
static struct reply reject(struct second_receiver *r)
{
    struct reply reply;

    COUNT_IF(r->truncated, rule_6_after_truncation);
    reply = close_with(r, REJECTED, NULL_REPLY);
    reply.rejects = true;
    return reply;
}

/* Rule 7: "T becomes ending, R is marked truncated until it closes, nothing is
 * stored; B 01." */
static struct reply truncate(struct second_receiver *r)
{
    r->truncated = true;
    return (struct reply){ .b = NULL_REPLY, .truncates = true };
}

/* Rule 8, "first time it is taken, 01": "a verdict is on the CRC as first
 * taken"; its parity isn't checked. */
static struct reply take_crc(struct second_receiver *r, const struct sent *s)
{
    r->verdict = s->data == r->side.crc ? GOOD : BAD;
    count_crc_taken(r, s);
    return answer_b(NULL_REPLY);
}

/* Rule 8, "for a due CRC 11 and both counts restart": CRC, count and verdict
 * mark (reading 25). */
static struct reply acknowledge_block(struct second_receiver *r)
{
    r->side.crc = 0;
    r->side.words = 0;
    r->verdict = NO_VERDICT;
    return (struct reply){ .b = TAKEN, .restarts = true };
}

/* Rule 8, "for A 11 .. 11, success and R closes": SUC TXF, and RECOM if
 * truncated. */
static struct reply succeed(struct second_receiver *r)
{
    struct reply reply = { .b = TAKEN, .success = true, .truncated = r->truncated };

    count_success(r);
    receiver_event(r, r->truncated ? SUCCESS | REJECTED : SUCCESS);
    close_receiver(r);
    return reply;
}

/* Rule 8: the CRC first taken; the next time the verdict on that one, for a CRC
 * of either kind (reading 25).  "A truncated message doesn't wait for the
 * silo." */
static struct reply check_crc(struct second_receiver *r, const struct sent *s)
{
    if (r->verdict == NO_VERDICT)
        return take_crc(r, s);
    if (r->verdict == BAD) {
        COUNT_IF(s->a == LAST_CRC, rule_8_last_bad);
        COUNT_IF(s->a == WORD, rule_8_due_bad);
        return close_with(r, PARITY, CHECK_FAIL);
    }
    if (s->a == WORD) {
        COUNT_IF(s->crc, rule_8_due_good_of_a_crc);
        COUNT_IF(!s->crc, rule_8_due_good_of_a_word);
        return acknowledge_block(r);
    }
    if (r->side.silo.held && !r->truncated) {
        COUNT(rule_8_last_good_waits_for_silo);
        return answer_b(NULL_REPLY);
    }
    return succeed(r);
}

/* Rule 9: "A 10: stored with 11 if RCV DAT or RCV WD and room; else 01." */
static struct reply answer_word(struct second_receiver *r, const struct sent *s)
{
    count_word_answered(r, s);
    if (!has(&r->side, ALL_WORDS | ONE_WORD) || !room(&r->side.silo))
        return answer_b(NULL_REPLY);
    store(r, s);
    return answer_b(TAKEN);
}

/* R open with this T: document 02's rule, then 3 to 10. */
static struct reply answer_open(struct second_receiver *r, const struct sent *s)
{
    struct second_side *side = &r->side;

    if (s->opening)
        return opened_again(r);
    if (side->status & ERRORS & ~COUNT_OVERFLOW) {              /* 3 */
        COUNT(rule_3);
        COUNT_IF(side->status & COUNT_OVERFLOW, rule_3_with_bc_ofl_too);
        COUNT_IF(r->bad_parity, rule_3_parity_mark_stands);
        return close_with(r, 0, BUSY_REPLY);
    }
    if (r->bad_parity) {                                        /* 4 */
        COUNT(rule_4);
        COUNT_IF(s->a == OFF, rule_4_at_00);
        COUNT_IF(error(side), rule_4_with_bc_ofl);
        return close_with(r, PARITY, CHECK_FAIL);
    }
    if (s->a == OFF) {                                          /* 5 */
        COUNT(rule_5);
        COUNT_IF(error(side), rule_5_with_bc_ofl);
        return close_with(r, TRANSMISSION_ERROR, BUSY_REPLY);
    }
    if (has(side, REJECT) && !has(side, ALL_WORDS)) {           /* 6 */
        COUNT_IF(s->a == LAST_CRC, rule_6_at_11);
        return reject(r);
    }
    if (has(side, REJECT) && s->a != LAST_CRC && r->verdict == NO_VERDICT) {   /* 7 */
        count_truncation(r, s);
        return truncate(r);
    }
    COUNT_IF(has(side, REJECT) && s->a != LAST_CRC, rule_7_not_for_a_verdict_owed);
    if (s->a == LAST_CRC || (s->a == WORD && side->words == BLOCK))     /* 8 */
        return check_crc(r, s);
    if (s->a == WORD)                                           /* 9 */
        return answer_word(r, s);
    COUNT(rule_10);                                             /* 10 */
    return answer_b(NULL_REPLY);
}

/* RSR's bits 0 to 3 do as TSR's "for slices of R's channel", the opening one
 * included: frozen where ERR stood before the slice, cleared by success. */
static void show_receiver(struct second_receiver *r, bool frozen, const struct sent *s,
                          const struct reply *reply)
{
    COUNT_IF(frozen, receiver_bits_frozen);
    if (!frozen)
        show_responses(&r->side, s->a, reply->b);
    if (reply->success)
        clear_responses(&r->side);
}

/* "The receiver R addressed, first that fits"; rule 1: "None, or open with
 * another: B 00, no change."  A closed R's 00 leaves its bits (reading 14). */
static struct reply answer(struct second_receiver *r, uint8_t sender, const struct sent *s)
{
    struct reply reply;
    bool frozen;

    COUNT_IF(!r, rule_1_none);
    if (!r)
        return answer_b(BUSY_REPLY);
    if (r->side.open && (r->side.command & SENDER) >> SENDER_SHIFT != sender) {
        count_another(s);
        return answer_b(BUSY_REPLY);
    }
    if (!r->side.open && !may_open(r, s)) {
        count_not_opened(r, s);
        return answer_b(BUSY_REPLY);
    }
    frozen = error(&r->side);
    count_opened(r);
    reply = r->side.open ? answer_open(r, s) : open_and_store(r, sender, s);
    count_reply(&reply, s);
    show_receiver(r, frozen, s, &reply);
    return reply;
}

/* ------------------------------------------------------- a slice: T on B */

/* SUC TXF (and SORE) by an event; it clears bits 0 to 3 (reading 16). */
static void transmitter_success(struct second_transmitter *t, unsigned bits)
{
    transmitter_event(t, SUCCESS | bits);
    clear_responses(&t->side);
}

/* "11 to a word removes it .. and, if ST TXM is clear, sets SUC TXF"; a word
 * accepted clears the period's mark; the word counts in TSCRC and the 128. */
static void word_taken(struct second_transmitter *t)
{
    struct second_side *s = &t->side;

    s->crc = crc_step(s->crc, oldest(&s->silo));
    s->words++;
    drop_oldest(&s->silo);
    s->mark = false;
    COUNT_IF(has(s, ALL_WORDS), word_taken_st_txm);
    COUNT_IF(!has(s, ALL_WORDS), word_taken_suc_txf);
    if (!has(s, ALL_WORDS))
        transmitter_success(t, 0);
}

/* T's CRC and count of 128 restart. */
static void restart_block(struct second_transmitter *t)
{
    t->side.crc = 0;
    t->side.words = 0;
}

/* 11 to an open T's word or CRC.  11 to a CRC restarts T's CRC and count, and
 * so does R's good verdict on a due CRC where T sent a word, which T then
 * removes and counts (reading 24). */
static void acknowledged(struct second_transmitter *t, const struct sent *s,
                         const struct reply *reply)
{
    if (s->crc || reply->restarts)
        restart_block(t);
    if (s->crc) {
        COUNT(crc_taken);
        t->crc_unanswered = false;
    } else {
        word_taken(t);
    }
}

/* "11 to a word .. opens a closed T"; "The destination is latched at opening";
 * "Opening clears TBS BSY"; the serial is raised; CRC, count and marks start
 * afresh. */
static void open_transmitter(struct second_transmitter *t)
{
    COUNT_IF(t->side.status & TDM_BUSY, closed_11_opens_tbs_bsy_stood);
    COUNT_IF(next_serial(t) == 0, serial_goes_round);
    t->destination = destination(t);
    t->side.open = true;
    t->side.serial = next_serial(t);
    t->side.status &= (uint16_t)~TDM_BUSY;
    t->ending = false;
    t->crc_unanswered = false;
    restart_block(t);
}

/* "Closed and 00: TBS BSY. But for TSR bits 0 to 3, a closed T is left
 * unchanged by 01, by 10 and by rules 6 and 7."  Since document 02's No. 1 the
 * second sentence has no case left: a closed T sends an opening word, and that
 * gets 11 or 00.  It is followed all the same, and counted to show that it is
 * never met. */
static void closed_on_b(struct second_transmitter *t, uint8_t b)
{
    COUNT_IF(b == NULL_REPLY, closed_01);
    COUNT_IF(b == CHECK_FAIL, closed_10);
    if (b == BUSY_REPLY)
        transmitter_busy_event(t);
    if (b != TAKEN)
        return;
    COUNT(closed_11_opens);
    open_transmitter(t);
    word_taken(t);
}

enum { STAYS, CLOSES, FAILS, SUCCEEDS };

/* "An open T follows a four-by-four chart, A down and B across". */
static const uint8_t chart[4][4] = {
    { CLOSES, CLOSES, CLOSES, CLOSES },
    { FAILS, STAYS, FAILS, STAYS },
    { FAILS, STAYS, FAILS, STAYS },
    { FAILS, STAYS, FAILS, SUCCEEDS }
};

/* "row 00 closes, B setting nothing; in other rows columns 00 and 10 close with
 * TXM ERR; 11 with 11 closes with success; rest stay." */
static void follow_chart(struct second_transmitter *t, const struct sent *s,
                         const struct reply *reply)
{
    switch (chart[s->a][reply->b]) {
    case STAYS:
        if (s->a == WORD && reply->b == TAKEN)
            acknowledged(t, s, reply);
        return;
    case FAILS:
        transmitter_event(t, TRANSMISSION_ERROR);
        break;
    case SUCCEEDS:
        transmitter_success(t, reply->truncated ? REJECTED : 0);
        break;
    default:
        break;
    }
    close_transmitter(t);
}

/* "Rules 6 and 7 come over it": SORE and closed; ending. */
static void open_on_b(struct second_transmitter *t, const struct sent *s,
                      const struct reply *reply)
{
    COUNT_CHART(s->a, reply->b);
    if (reply->rejects) {
        transmitter_event(t, REJECTED);
        close_transmitter(t);
    } else if (reply->truncates) {
        t->ending = true;
    } else {
        follow_chart(t, s, reply);
    }
}

/* T on B; its bits 0 to 3 frozen where ERR stood before (reading 15). */
static void on_b(struct second_transmitter *t, const struct sent *s,
                 const struct reply *reply)
{
    COUNT_IF(error(&t->side), transmitter_bits_frozen);
    if (!error(&t->side))
        show_responses(&t->side, s->a, reply->b);
    if (t->side.open)
        open_on_b(t, s, reply);
    else
        closed_on_b(t, reply->b);
}

/* "The receiver R addressed", or none. */
static struct second_receiver *receiver_at(struct second_link *l, uint8_t address)
{
    uint8_t unit = l->receiver_at[address];

    return unit ? &l->unit[unit - 1].receiver : NULL;
}

/* Counting alone: an opening word of a T that R, or another receiver, still
 * holds a channel of; and one for an R that holds a channel whose T has closed. */
static void count_left_open(const struct second_link *l, const struct second_transmitter *t,
                            const struct second_receiver *r, uint8_t address,
                            const struct sent *s)
{
    if (!s->opening)
        return;
    for (uint32_t unit = 0; unit < l->units; unit++) {
        const struct second_receiver *held = &l->unit[unit].receiver;
        uint8_t holder = (held->side.command & SENDER) >> SENDER_SHIFT;
        uint8_t sender = l->transmitter_at[holder];

        if (!held->side.open)
            continue;
        COUNT_IF(held == r && holder == address && t == &l->unit[unit].transmitter,
                 opening_again_to_itself);
        COUNT_IF(held != r && holder == address, opening_elsewhere);
        COUNT_IF(held == r && holder != address && sender
                 && !l->unit[sender - 1].transmitter.side.open, rule_1_left_open);
    }
}

/* The slice of a T that acts; answers A + 4 * B. */
static uint32_t acted_slice(struct second_link *l, struct second_transmitter *t,
                            uint8_t address, uint16_t data_mask, uint32_t parity_mask)
{
    struct second_receiver *r = receiver_at(l, destination(t));
    struct sent s = send(t, data_mask, parity_mask);
    struct reply reply;

    count_left_open(l, t, r, address, &s);
    reply = answer(r, address, &s);
    on_b(t, &s, &reply);
    return s.a + 4u * reply.b;
}

/* "T is the transmitter addressed (or none: idle, A and B 00, nothing else)." */
static uint32_t slice(struct second_link *l, uint16_t data_mask, uint32_t parity_mask)
{
    struct second_transmitter *t;
    uint8_t address, unit;

    if (parity_mask > 1)
        return 7;
    if (!l->master) {
        if (!take_over(l))
            master_is_down(l);
        return 8;
    }
    address = next_address(&l->unit[l->master - 1].master);
    unit = l->transmitter_at[address];
    COUNT_IF(!unit, idle_no_transmitter);
    if (!unit)
        return done(address);
    t = &l->unit[unit - 1].transmitter;
    if (!acts(t)) {
        count_idle(t);
        return done(address);
    }
    return done(address + 32 * acted_slice(l, t, address, data_mask, parity_mask));
}

/* ------------------------------------------------------- moves and periods */

/* "TSBA or RDBA with EA17, EA16 is an 18-bit byte address". */
static uint32_t full_address(const struct second_side *s)
{
    return (uint32_t)(s->command & EXTENDED_ADDRESS) >> EXTENDED_SHIFT << 16 | s->bus_address;
}

/* Counting alone. */
static void count_missing(const struct second_side *s, uint32_t memory_length, bool transmits)
{
    uint32_t address = full_address(s);

    COUNT_IF(transmits, tx_move_nxl);
    COUNT_IF(!transmits, rc_move_nxl);
    COUNT_IF(transmits && address == 2 * memory_length, tx_move_nxl_first_past);
    COUNT_IF(!transmits && address == 2 * memory_length, rc_move_nxl_first_past);
    COUNT_IF(transmits && address == 0777776, tx_move_nxl_777776);
    COUNT_IF(!transmits && address == 0777776, rc_move_nxl_777776);
    COUNT_IF(transmits && has(s, EXTENDED_ADDRESS), tx_move_nxl_extended);
    COUNT_IF(!transmits && has(s, EXTENDED_ADDRESS), rc_move_nxl_extended);
    COUNT_IF(transmits && has(s, INHIBIT_INCREMENT), tx_move_nxl_inhibited);
    COUNT_IF(!transmits && has(s, INHIBIT_INCREMENT), rc_move_nxl_inhibited);
}

/* Document 02, No. 3: "the 18-bit byte address it tried" goes up with answer 0. */
static uint64_t missing(const struct second_side *s)
{
    return (uint64_t)full_address(s) << 16;
}

/* 2 added to the address "unless INH ADI"; answers whether it wrapped past
 * 777776 (octal). */
static bool advance_address(struct second_side *s)
{
    uint32_t next = full_address(s) + 2;

    if (has(s, INHIBIT_INCREMENT))
        return false;
    s->bus_address = (uint16_t)next;
    s->command = merge(s->command, (uint16_t)((next >> 16 & 3) << EXTENDED_SHIFT),
                       EXTENDED_ADDRESS);
    return next == 01000000;
}

/* "Each word moved adds 2, and the sum wraps to zero on purpose, which ends the
 * load."  Answers whether it ended. */
static bool advance_count(struct second_side *s)
{
    s->byte_count = (uint16_t)(s->byte_count + 2);
    if (s->byte_count == 0)
        s->loaded = false;
    return s->byte_count == 0;
}

/* Counting alone. */
static void count_source_refused(const struct second_transmitter *t)
{
    const struct second_side *s = &t->side;
    bool loaded = has(s, NPR) && s->loaded;

    COUNT_IF(!has(s, NPR), tx_move_npr);
    COUNT_IF(has(s, NPR) && !s->loaded, tx_move_not_loaded);
    COUNT_IF(loaded && error(s), tx_move_err);
    COUNT_IF(loaded && !room(&s->silo), tx_move_full);
    COUNT_IF(loaded && has(s, READ_SILO), tx_move_rd_silo);
    COUNT_IF(loaded && t->ending, tx_move_ending);
}

/* Counting alone. */
static void count_destination_refused(const struct second_side *s)
{
    COUNT_IF(!has(s, NPR), rc_move_npr);
    COUNT_IF(has(s, NPR) && !s->silo.held, rc_move_empty);
    COUNT_IF(has(s, NPR) && s->silo.held && error(s), rc_move_err);
}

/* "TX NPR, loaded, no ERR, room, RD SILO clear, not ending; else 4." */
static bool source_may_move(const struct second_transmitter *t)
{
    const struct second_side *s = &t->side;

    return has(s, NPR) && s->loaded && !error(s) && room(&s->silo)
        && !has(s, READ_SILO) && !t->ending;
}

/* The transmitter's move: "the word is loaded, 2 added to count and, unless INH
 * ADI, to the address. Count 0 clears TX NPR." */
static uint64_t move_source(struct second_unit *u, const uint16_t *memory)
{
    struct second_transmitter *t = &u->transmitter;
    uint32_t place = full_address(&t->side) / 2;

    if (!source_may_move(t)) {
        count_source_refused(t);
        return 4;
    }
    if (place >= u->memory_length) {
        count_missing(&t->side, u->memory_length, true);
        transmitter_event(t, NON_EXISTENT);
        return missing(&t->side);
    }
    COUNT(tx_move_word);
    COUNT_IF(has(&t->side, INHIBIT_INCREMENT), tx_move_inhibited);
    put(&t->side.silo, memory[place]);
    if (advance_count(&t->side)) {
        COUNT(tx_move_count_0);
        t->side.command &= (uint16_t)~NPR;
    }
    if (advance_address(&t->side)) {
        COUNT(tx_move_overflow);
        transmitter_event(t, MEMORY_OVERFLOW);
    }
    return 0;
}

/* "Receiver: RC NPR, a word, no ERR; else 4." */
static bool destination_may_move(const struct second_receiver *r)
{
    return has(&r->side, NPR) && r->side.silo.held && !error(&r->side);
}

/* An error met by the receiver's move: "the word stays where it was; these ..
 * come with number 0". */
static uint64_t destination_error(struct second_receiver *r, unsigned bit)
{
    receiver_event(r, bit);
    return bit == NON_EXISTENT ? missing(&r->side) : 0;
}

/* "Not loaded: BC OFL. Else alike, storing, but count 0 leaves RC NPR set." */
static uint64_t move_destination(struct second_unit *u, uint16_t *memory)
{
    struct second_receiver *r = &u->receiver;
    uint32_t place = full_address(&r->side) / 2;

    if (!destination_may_move(r)) {
        count_destination_refused(&r->side);
        return 4;
    }
    if (!r->side.loaded) {
        COUNT(rc_move_bc_ofl);
        return destination_error(r, COUNT_OVERFLOW);
    }
    if (place >= u->memory_length) {
        count_missing(&r->side, u->memory_length, false);
        return destination_error(r, NON_EXISTENT);
    }
    COUNT(rc_move_word);
    COUNT_IF(has(&r->side, INHIBIT_INCREMENT), rc_move_inhibited);
    memory[place] = oldest(&r->side.silo);
    drop_oldest(&r->side.silo);
    if (advance_count(&r->side))
        COUNT(rc_move_count_0);
    if (advance_address(&r->side)) {
        COUNT(rc_move_overflow);
        receiver_event(r, MEMORY_OVERFLOW);
    }
    return 0;
}

/* Order "9, 7, 1": the lent room counts for a fitted unit alone (reading 33). */
static uint64_t move(struct second_link *l, uint32_t unit, uint32_t side,
                     uint16_t *memory, size_t memory_length)
{
    if (!fitted(l, unit))
        return 1;
    if (memory_length < l->unit[unit].memory_length)
        return 9;
    if (side > 1)
        return 1;
    return side ? move_destination(&l->unit[unit], memory)
                : move_source(&l->unit[unit], memory);
}

/* Counting alone: what ended the moves of a side, after so many words. */
static void count_transfer(const struct second_side *s, bool transmits, uint64_t words)
{
    COUNT_IF(transmits && !room(&s->silo), tx_all_full);
    COUNT_IF(transmits && !s->loaded && !error(s), tx_all_count_0);
    COUNT_IF(transmits && words && s->status & NON_EXISTENT, tx_all_nxl);
    COUNT_IF(transmits && !words, tx_all_nxl_at_once);
    COUNT_IF(transmits && s->status & MEMORY_OVERFLOW, tx_all_overflow);
    COUNT_IF(!transmits && !s->silo.held, rc_all_empty);
    COUNT_IF(!transmits && words && s->status & COUNT_OVERFLOW, rc_all_bc_ofl);
    COUNT_IF(!transmits && !words && s->status & COUNT_OVERFLOW, rc_all_bc_ofl_at_once);
    COUNT_IF(!transmits && words && s->status & NON_EXISTENT, rc_all_nxl);
    COUNT_IF(!transmits && !words && s->status & NON_EXISTENT, rc_all_nxl_at_once);
    COUNT_IF(!transmits && s->status & MEMORY_OVERFLOW, rc_all_overflow);
}

/* "moves until 4, or until a move sets NXL, BC OFL or memory overflow": each of
 * these is an error, and before a move that is done there is none.  "A word meeting
 * NXL or BC OFL stays where it was", and is none of those moved. */
static uint64_t move_all(struct second_link *l, uint32_t unit, uint32_t side,
                         uint16_t *memory, size_t memory_length)
{
    const struct second_unit *u = &l->unit[unit % SECOND_UNITS];
    const struct second_side *s = side ? &u->receiver.side : &u->transmitter.side;
    uint64_t answer = move(l, unit, side, memory, memory_length), words = 0;

    if (answer & 0xFFFF)
        return answer;
    for (uint64_t next = answer; next != 4;
         next = error(s) ? 4 : move(l, unit, side, memory, memory_length)) {
        answer = next;
        if (!(s->status & (NON_EXISTENT | COUNT_OVERFLOW)))
            words++;
    }
    count_transfer(s, !side, words);
    return answer + (words << 34);
}

/* "A period call on a BUSY transmitter .. sets a mark; with the mark standing,
 * TIM OUT", which does not use the mark up (reading 31). */
static void transmitter_period(struct second_transmitter *t)
{
    COUNT_IF(!busy(&t->side), tx_period_not_busy);
    if (!busy(&t->side))
        return;
    if (t->side.mark) {
        COUNT(tx_tim_out);
        transmitter_event(t, TIME_OUT);
        COUNT_IF(t->side.mark, tx_tim_out_mark_stays);
        return;
    }
    COUNT(tx_period_mark);
    t->side.mark = true;
}

/* ".. or open receiver"; a closed one with RCV WD gets no mark (reading 31). */
static void receiver_period(struct second_receiver *r)
{
    COUNT_IF(!r->side.open, rc_period_not_open);
    if (!r->side.open)
        return;
    COUNT_IF(r->side.mark, rc_tim_out);
    COUNT_IF(!r->side.mark, rc_period_mark);
    if (r->side.mark)
        receiver_event(r, TIME_OUT);
    r->side.mark = true;
}

/* "Interrupt level is IE and one of those bits standing": ERR, SUC TXF, SORE,
 * or TBS BSY with RIB clear. */
static bool transmitter_level(const struct second_side *s)
{
    bool busy_bit = (s->status & TDM_BUSY) && !has(s, RETRY_IF_BUSY);
    bool others = (s->status & (ERRORS | SUCCESS | REJECTED)) != 0;
    bool level = has(s, INTERRUPT_ENABLE) && (others || busy_bit);

    COUNT_IF(!level, tx_level_0);
    COUNT_IF(level, tx_level_1);
    COUNT_IF(level && !others, tx_level_by_tbs_bsy_alone);
    return level;
}

/* At the receiver ERR, SUC TXF, RECOM, "DAT O RDY with RC NPR clear", whatever
 * RCV DAT is (reading 13). */
static bool receiver_level(const struct second_side *s)
{
    bool ready = s->silo.held && !has(s, NPR);
    bool others = (s->status & (ERRORS | SUCCESS | REJECTED)) != 0;
    bool level = has(s, INTERRUPT_ENABLE) && (others || ready);

    COUNT_IF(!level, rc_level_0);
    COUNT_IF(level, rc_level_1);
    COUNT_IF(level && !others, rc_level_by_dtordy_alone);
    return level;
}

/* A mask out of what is asked of each side: "bit u the transmitter of unit u, bit
 * 16 + u its receiver". */
static uint64_t side_bits(uint32_t unit, bool transmitter, bool receiver)
{
    return (uint64_t)transmitter << unit | (uint64_t)receiver << (16 + unit);
}

/* "sides at which a move would not answer 4": those of the fitted units. */
static uint64_t wants_moves(const struct second_link *l)
{
    uint64_t sides = 0;

    for (uint32_t unit = 0; unit < l->units; unit++)
        sides |= side_bits(unit, source_may_move(&l->unit[unit].transmitter),
                           destination_may_move(&l->unit[unit].receiver));
    return sides << 16;
}

/* "sides whose interrupt level stands". */
static uint64_t wants_interrupts(const struct second_link *l)
{
    uint64_t sides = 0;

    for (uint32_t unit = 0; unit < l->units; unit++)
        sides |= side_bits(unit, transmitter_level(&l->unit[unit].transmitter.side),
                           receiver_level(&l->unit[unit].receiver.side));
    return sides << 16;
}

/* Period (unit): both its sides. */
static uint32_t period(struct second_link *l, uint32_t unit)
{
    if (!fitted(l, unit))
        return 1;
    transmitter_period(&l->unit[unit].transmitter);
    receiver_period(&l->unit[unit].receiver);
    return 0;
}

/* "Reset does both sides." */
static uint32_t reset(struct second_link *l, uint32_t unit)
{
    if (!fitted(l, unit))
        return 1;
    COUNT_IF(l->unit[unit].transmitter.side.open, reset_open_transmitter);
    COUNT_IF(l->unit[unit].receiver.side.open, reset_open_receiver);
    initialize_transmitter(l, unit);
    initialize_receiver(l, unit);
    return 0;
}

/* Interrupt level (unit, side): 0 or 1. */
static uint32_t interrupt_level(const struct second_link *l, uint32_t unit, uint32_t side)
{
    if (!fitted(l, unit) || side > 1)
        return 1;
    return done(side ? receiver_level(&l->unit[unit].receiver.side)
                     : transmitter_level(&l->unit[unit].transmitter.side));
}

/* Serial (unit, side).  Document 02: "A call with unit and side shows it."; its
 * refusals are "as number 1". */
static uint32_t serial(const struct second_link *l, uint32_t unit, uint32_t side)
{
    if (!fitted(l, unit) || side > 1)
        return 1;
    return done(side ? l->unit[unit].receiver.side.serial
                     : l->unit[unit].transmitter.side.serial);
}

/* -------------------------------------------------------------- the calls */

/* Every answer of every call passes here, to be counted by its number. */
static uint32_t answered(enum second_call call, uint32_t answer)
{
    COUNT_NUMBER(call, answer & 0xFFFF);
    return answer;
}

uint32_t second_fit(struct second_link *l, const uint32_t *setup, size_t length)
{
    return answered(CALL_fit, fit(l, setup, length));
}

uint32_t second_write(struct second_link *l, uint32_t unit, uint32_t offset, uint16_t word)
{
    return answered(CALL_write, write_word(l, unit, offset, word));
}

uint32_t second_write_byte(struct second_link *l, uint32_t unit, uint32_t offset, uint8_t byte)
{
    return answered(CALL_write_byte, write_byte(l, unit, offset, byte));
}

uint32_t second_read(struct second_link *l, uint32_t unit, uint32_t offset)
{
    return answered(CALL_read, read_word(l, unit, offset));
}

uint32_t second_slice(struct second_link *l, uint16_t data_mask, uint32_t parity_mask)
{
    return answered(CALL_slice, slice(l, data_mask, parity_mask));
}

uint64_t second_move(struct second_link *l, uint32_t unit, uint32_t side,
                     uint16_t *memory, size_t memory_length)
{
    uint64_t answer = move(l, unit, side, memory, memory_length);

    answered(CALL_move, (uint32_t)(answer & 0xFFFF));
    return answer;
}

uint64_t second_move_all(struct second_link *l, uint32_t unit, uint32_t side,
                         uint16_t *memory, size_t memory_length)
{
    uint64_t answer = move_all(l, unit, side, memory, memory_length);

    answered(CALL_move_all, (uint32_t)(answer & 0xFFFF));
    return answer;
}

uint64_t second_wants_moves(const struct second_link *l)
{
    answered(CALL_wants_moves, 0);
    return wants_moves(l);
}

uint64_t second_wants_interrupts(const struct second_link *l)
{
    answered(CALL_wants_interrupts, 0);
    return wants_interrupts(l);
}

uint32_t second_period(struct second_link *l, uint32_t unit)
{
    return answered(CALL_period, period(l, unit));
}

uint32_t second_reset(struct second_link *l, uint32_t unit)
{
    return answered(CALL_reset, reset(l, unit));
}

uint32_t second_interrupt_level(struct second_link *l, uint32_t unit, uint32_t side)
{
    return answered(CALL_interrupt_level, interrupt_level(l, unit, side));
}

uint32_t second_serial(const struct second_link *l, uint32_t unit, uint32_t side)
{
    return answered(CALL_serial, serial(l, unit, side));
}

/* --------------------------------------------------- the table of SECOND_COUNT */

#ifdef SECOND_COUNT
unsigned long long second_counts[COUNTERS];
unsigned long long second_chart_counts[4][4];
unsigned long long second_number_counts[CALLS][10];

#define TEXT(name) #name,
static const char *const counter_names[] = { SECOND_COUNTERS(TEXT) };
static const char *const call_names[] = { SECOND_CALLS(TEXT) };

enum { CHART = COUNTERS, NUMBERS = CHART + 16, ALL = NUMBERS + CALLS * 10 };

/* Places: the named counters, the chart row by row, the numbers call by call. */
size_t second_counters(void)
{
    return ALL;
}

unsigned long long second_counter(size_t place)
{
    if (place < CHART)
        return second_counts[place];
    if (place < NUMBERS)
        return second_chart_counts[(place - CHART) / 4][(place - CHART) % 4];
    if (place < ALL)
        return second_number_counts[(place - NUMBERS) / 10][(place - NUMBERS) % 10];
    return 0;
}

/* The text stands until the next call. */
const char *second_counter_name(size_t place)
{
    static char text[64];
    static const char *const code[4] = { "00", "01", "10", "11" };

    if (place < CHART)
        return counter_names[place];
    if (place < NUMBERS)
        snprintf(text, sizeof text, "chart_A_%s_B_%s",
                 code[(place - CHART) / 4], code[(place - CHART) % 4]);
    else if (place < ALL)
        snprintf(text, sizeof text, "number_%s_%zu",
                 call_names[(place - NUMBERS) / 10], (place - NUMBERS) % 10);
    else
        return "";
    return text;
}

void second_print_counts(void)
{
    for (size_t place = 0; place < ALL; place++)
        fprintf(stderr, "%s %llu\n", second_counter_name(place), second_counter(place));
}
#endif
