/* hosts.c - the manual's programs as interrupt routines; hosts.h says what a host
 * is. They are meant as the manual has them with the slips of the copy put right,
 * which docs/MANUAL.md lists; IE is added to each, and RIB where a job asks for it.
 * Where a program here is another one, a comment says why. */
#include <stdlib.h>
#include <string.h>
#include "hosts.h"
#include "pcl_text.h"

/* ---- what a processor does */

static void trap(const struct host *host, uint32_t address)
{
    fprintf(stderr, "host %s: trap to 4 at %06o\n", host->name, (unsigned)address);
    exit(EXIT_FAILURE);
}

uint16_t host_read(struct machines *machines, const struct host *host, uint32_t address)
{
    uint16_t word = 0;

    if (!device_read(&machines->bus, host->unit, address, &word))
        trap(host, address);
    return word;
}

void host_write(struct machines *machines, const struct host *host, uint32_t address, unsigned word)
{
    if (!device_write(&machines->bus, host->unit, address, (uint16_t)word))
        trap(host, address);
}

void host_write_byte(struct machines *machines, const struct host *host, uint32_t address, unsigned byte)
{
    if (!device_write_byte(&machines->bus, host->unit, address, (uint8_t)byte))
        trap(host, address);
}

void host_set(struct machines *machines, const struct host *host, uint32_t address, unsigned bits)
{
    host_write(machines, host, address, host_read(machines, host, address) | bits);
}

void host_clear(struct machines *machines, const struct host *host, uint32_t address, unsigned bits)
{
    host_write(machines, host, address, host_read(machines, host, address) & ~bits);
}

static uint16_t *word_at(struct host *host, const struct job *job) { return &host->memory[job->point / 2 + job->done]; }

/* ---- 3.4.1: words one at a time */

/* The manual loads TSBC too. Here it is left alone: a word written to TSDB does not count in it, so that the message would never end.
 * And it moves the destination to the high byte of TCR, where here a word is written: TX INIT has cleared TCR, so nothing in it is lost,
 * and RIB and IE, one in each half, are set along with it. */
static void start_words(struct machines *machines, struct host *host, struct job *job)
{
    host_write(machines, host, TCR, PCL_TCR_TX_INIT);
    host_write(machines, host, TCR, job->retry | PCL_TCR_DESTINATION(job->partner) | PCL_TCR_IE);
    host_write(machines, host, TSDB, *word_at(host, job));
    host_set(machines, host, TCR, PCL_TCR_SND_WD);
    job->state = WAITING_WORD;
}

/* SUC TXF of one word made a request, which cleared SND WD. */
static void next_word(struct machines *machines, struct host *host, struct job *job)
{
    job->done++;
    host_clear(machines, host, TSR, PCL_TSR_SUC_TXF);
    if (job->done < job->words) {
        host_write(machines, host, TSDB, *word_at(host, job));
        host_set(machines, host, TCR, PCL_TCR_SND_WD);
    } else {
        host_set(machines, host, TCR, PCL_TCR_ST_TXM);      /* and now the CRC of them all */
        job->state = WAITING_CRC;
    }
}

static void words_sent(struct machines *machines, struct host *host, struct job *job, unsigned tsr)
{
    if (tsr & (PCL_TSR_ERR | PCL_TSR_SORE))
        job->state = FAILED;
    else if (tsr & PCL_TSR_TBS_BSY)
        job->state = BUSY_END;
    else if (job->state == WAITING_CRC)
        job->state = COMPLETE;
    else
        next_word(machines, host, job);
}

static void start_receiving_words(struct machines *machines, struct host *host, struct job *job)
{
    host_write(machines, host, RCR, PCL_RCR_RC_INIT);
    host_write(machines, host, RCR, PCL_RCR_RCV_WD | PCL_RCR_IE);
    job->state = WAITING_WORD;
}

/* A word is looked for before SUC TXF, as in the manual. The request for a word cleared RCV WD: until it is set again the sender waits. */
static void words_received(struct machines *machines, struct host *host, struct job *job, unsigned rsr)
{
    if (rsr & PCL_RSR_DTORDY) {
        *word_at(host, job) = host_read(machines, host, RDDB);
        job->done++;
        host_set(machines, host, RCR, PCL_RCR_RCV_WD);
    } else {
        job->state = rsr & (PCL_RSR_ERR | PCL_RSR_RECOM) ? FAILED : COMPLETE;
    }
}

/* ---- 3.4.2: a message */

static void start_message(struct machines *machines, struct host *host, struct job *job)
{
    host_write(machines, host, TSR, 0);                     /* no SUC TXF of the message before */
    host_write(machines, host, TSBA, job->point);
    host_write(machines, host, TSBC, pcl_byte_count(job->words));
    host_write_byte(machines, host, TCRH, job->partner);
    host_set(machines, host, TCR, job->retry | PCL_TCR_TX_NPR | PCL_TCR_SND_WD | PCL_TCR_ST_TXM | PCL_TCR_IE);
    job->state = WAITING_MESSAGE;
}

/* Also the end of a prefaced message: SORE alone is a rejection, with SUC TXF a truncation. */
static void message_sent(struct machines *machines, struct host *host, struct job *job, unsigned tsr)
{
    (void)machines, (void)host;
    if (tsr & PCL_TSR_ERR)
        job->state = FAILED;
    else if (tsr & PCL_TSR_TBS_BSY)
        job->state = BUSY_END;
    else if (tsr & PCL_TSR_SORE)
        job->state = tsr & PCL_TSR_SUC_TXF ? TRUNCATED : REJECTED;
    else
        job->state = COMPLETE;
}

static void start_receiving(struct machines *machines, struct host *host, struct job *job)
{
    host_write(machines, host, RCR, PCL_RCR_RC_INIT);
    host_write(machines, host, RDBC, pcl_byte_count(job->words));
    host_write(machines, host, RDBA, job->point);
    host_write(machines, host, RCR, PCL_RCR_RC_NPR | PCL_RCR_RCV_WD | PCL_RCR_RCV_DAT | PCL_RCR_IE);
    job->state = WAITING_MESSAGE;
}

static void message_received(struct machines *machines, struct host *host, struct job *job, unsigned rsr)
{
    (void)machines, (void)host;
    job->state = rsr & (PCL_RSR_ERR | PCL_RSR_RECOM) ? FAILED : COMPLETE;
}

/* ---- 3.4.3-1: a message that begins with its length */

/* The manual loads TSBC for one word more, the one that is written to TSDB. Here only moved words count in it. */
static void start_prefaced(struct machines *machines, struct host *host, struct job *job)
{
    host_write(machines, host, TCR, PCL_TCR_TX_INIT);
    host_write(machines, host, TSBC, pcl_byte_count(job->words));
    host_write(machines, host, TSDB, job->words);
    host_write(machines, host, TSBA, job->point);
    host_write_byte(machines, host, TCRH, job->partner);
    host_set(machines, host, TCR, job->retry | PCL_TCR_TX_NPR | PCL_TCR_SND_WD | PCL_TCR_ST_TXM | PCL_TCR_IE);
    job->state = WAITING_MESSAGE;
}

static void start_choosing(struct machines *machines, struct host *host, struct job *job)
{
    host_write(machines, host, RCR, PCL_RCR_RC_INIT);
    host_write(machines, host, RDBC, pcl_byte_count(job->words));
    host_write(machines, host, RDBA, job->point);
    host_write(machines, host, RCR, PCL_RCR_RCV_WD | PCL_RCR_IE);
    job->state = WAITING_WORD;
}

/* "It will not accept any messages from odd numbered transmitters", and none of ten (octal) words or less. */
static void choose(struct machines *machines, struct host *host, struct job *job)
{
    unsigned words = host_read(machines, host, RDDB), sender = pcl_sender(host_read(machines, host, RCR));

    if (words <= 010 || sender & 1) {
        host_set(machines, host, RCR, PCL_RCR_REJ);
        job->state = REJECTING;
    } else {
        host_set(machines, host, RCR, PCL_RCR_RC_NPR | PCL_RCR_RCV_DAT);
        job->state = WAITING_REST;
    }
}

/* The buffer is full. The manual clears BC OFL, for which the copy has the bit of PAR, and sets REJ and RCV DAT. Here RC NPR is cleared
 * with that write: else the next move would set BC OFL again, and its request would clear RCV DAT, which makes a rejection of it. */
static void truncate_message(struct machines *machines, struct host *host, struct job *job)
{
    host_clear(machines, host, RSR, PCL_RSR_BC_OFL);
    host_write(machines, host, RCR, (host_read(machines, host, RCR) & ~(unsigned)PCL_RCR_RC_NPR) | PCL_RCR_REJ | PCL_RCR_RCV_DAT);
    job->state = TRUNCATING;
}

/* Without RC NPR the words that had no room ask for interrupts: they are taken and let go. */
static void drop_words(struct machines *machines, struct host *host, struct job *job)
{
    (void)job;
    while (host_read(machines, host, RSR) & PCL_RSR_DTORDY)
        host_read(machines, host, RDDB);
}

static void chosen(struct machines *machines, struct host *host, struct job *job, unsigned rsr)
{
    if (job->state == WAITING_REST && rsr & PCL_RSR_BC_OFL)
        truncate_message(machines, host, job);
    else if (rsr & PCL_RSR_ERR)
        job->state = FAILED;
    else if (job->state == REJECTING)
        job->state = rsr & PCL_RSR_RECOM ? REJECTED : FAILED;
    else if (rsr & PCL_RSR_SUC_TXF)
        job->state = rsr & PCL_RSR_RECOM ? TRUNCATED : COMPLETE;
    else if (rsr & PCL_RSR_RECOM)
        job->state = FAILED;
    else if (job->state == TRUNCATING)
        drop_words(machines, host, job);
    else
        choose(machines, host, job);
}

/* ---- the programs, and the interrupts that drive them */

struct routines {
    uint32_t side;
    void (*start)(struct machines *machines, struct host *host, struct job *job);
    void (*interrupt)(struct machines *machines, struct host *host, struct job *job, unsigned status);
};

static const struct routines programs[] = {
    { 0, NULL, NULL },
    { PCL_TRANSMITTER, start_words, words_sent },
    { PCL_RECEIVER, start_receiving_words, words_received },
    { PCL_TRANSMITTER, start_message, message_sent },
    { PCL_RECEIVER, start_receiving, message_received },
    { PCL_TRANSMITTER, start_prefaced, message_sent },
    { PCL_RECEIVER, start_choosing, chosen },
};

static const uint32_t status_address[2] = { TSR, RSR };
static const uint32_t command_address[2] = { TCR, RCR };
static const uint32_t status_offset[2] = { PCL_TSR, PCL_RSR };

void host_start(struct machines *machines, struct host *host, enum program program, unsigned point, unsigned words, unsigned partner)
{
    struct job *job = &host->job[programs[program].side];

    job->program = (uint16_t)program;
    job->point = (uint16_t)point;
    job->words = (uint16_t)words;
    job->partner = (uint16_t)partner;
    job->done = 0;
    programs[program].start(machines, host, job);
}

const char *host_state_text(unsigned state)
{
    static const char *const text[] = {
        "resting", "waits for a word", "waits for the check", "waits for the message", "waits for the rest", "rejects", "truncates",
        "complete", "rejected", "truncated", "busy", "failed"
    };
    return text[state];
}

static void say_what_it_saw(struct machines *machines, const struct host *host, uint32_t side, unsigned status)
{
    const struct job *job = &host->job[side];

    fprintf(machines->out, "%6lu  %-2s %03o  %s %06o", machines->bus.slices, host->name, machines->bus.device[host->unit].vector[side],
            pcl_register_text(status_offset[side]), status);
    device_show_bits(machines->out, status_offset[side], (uint16_t)status);
    fprintf(machines->out, "; %s\n", host_state_text(job->state));
}

/* An interrupt is a level: it ends only when the program has cleared what it was asked for. A program that has ended leaves its status
 * bits standing, so that one can look at them, and clears IE instead. */
static void interrupt(struct machines *machines, struct host *host, uint32_t side)
{
    struct job *job = &host->job[side];
    unsigned status = host_read(machines, host, status_address[side]);

    if (job->program != NO_PROGRAM)
        programs[job->program].interrupt(machines, host, job, status);
    if (job->program == NO_PROGRAM || job->state >= COMPLETE)
        host_clear(machines, host, command_address[side], PCL_TCR_IE);      /* the same bit in TCR and RCR */
    say_what_it_saw(machines, host, side, status);
}

void host_interrupts(struct machines *machines, struct host *host)
{
    const uint16_t *vector = machines->bus.device[host->unit].vector;

    if (device_vector(&machines->bus, host->unit) == vector[PCL_TRANSMITTER])
        interrupt(machines, host, PCL_TRANSMITTER);
    if (device_vector(&machines->bus, host->unit) == vector[PCL_RECEIVER])
        interrupt(machines, host, PCL_RECEIVER);
}

static bool side_is_done(const struct job *job) { return job->state == RESTING || job->state >= COMPLETE; }

bool host_is_done(const struct host *host)
{
    return side_is_done(&host->job[PCL_TRANSMITTER]) && side_is_done(&host->job[PCL_RECEIVER]);
}

/* ---- what happens in a slice */

static void say_opening(struct machines *machines, struct host *host)
{
    uint16_t serial = device_serial(&machines->bus, host->unit, PCL_TRANSMITTER);

    if (serial != host->serial)
        fprintf(machines->out, "%6lu  %-2s      opens to %u, serial %u\n", machines->bus.slices, host->name,
                host->job[PCL_TRANSMITTER].partner, serial);
    host->serial = serial;
}

static void say_slice(struct machines *machines, uint32_t answer)
{
    if (pcl_number(answer) == PCL_NO_MASTER)
        fprintf(machines->out, "%6lu          no master\n", machines->bus.slices);
    if (machines->bus.missing != 0)
        fprintf(machines->out, "%6lu          no memory at %06o\n", machines->bus.slices, (unsigned)machines->bus.missing);
    machines->bus.missing = 0;
}

void hosts_turn(struct machines *machines)
{
    say_slice(machines, device_slice(&machines->bus));
    for (uint32_t unit = 0; unit < machines->bus.units; unit++)
        say_opening(machines, &machines->host[unit]);
    for (uint32_t unit = 0; unit < machines->bus.units; unit++)
        host_interrupts(machines, &machines->host[unit]);
}

static bool all_done(const struct machines *machines)
{
    for (uint32_t unit = 0; unit < machines->bus.units; unit++)
        if (!host_is_done(&machines->host[unit]))
            return false;
    return true;
}

void hosts_run(struct machines *machines, unsigned long slices_most)
{
    while (slices_most-- > 0 && !all_done(machines))
        hosts_turn(machines);
}

/* ---- 3.4.3-2: the address silo */

void host_say_master(struct machines *machines, const struct host *host)
{
    uint16_t word = host_read(machines, host, TMMR);

    fprintf(machines->out, "%6lu  %-2s      TMMR %06o", machines->bus.slices, host->name, word);
    device_show_bits(machines->out, PCL_TMMR, word);
    fputc('\n', machines->out);
}

/* All by bytes: a word written to TMMR loads its low byte as an address. MASTER stays clear where another unit has it. */
void host_be_master(struct machines *machines, struct host *host, const uint8_t *addresses, unsigned count)
{
    host_write_byte(machines, host, TMMRH, (PCL_TMMR_MASTER | PCL_TMMR_AUT_ADR | PCL_TMMR_CLR_ADR) >> 8);
    for (unsigned k = 0; k < count; k++)
        host_write_byte(machines, host, TMMR, addresses[k]);
    if (count > 0)
        host_write_byte(machines, host, TMMRH, PCL_TMMR_MASTER >> 8);       /* AUT ADR clear: the silo goes round */
    host_say_master(machines, host);
}

/* ---- making, saving and restoring */

struct host *host_add(struct machines *machines, const char *name, uint32_t transmitter, uint32_t receiver, size_t memory_words)
{
    struct host *host = &machines->host[machines->bus.units];

    host->name = name;
    host->unit = machines->bus.units;
    device_add(&machines->bus, transmitter, receiver, host->memory, memory_words)->counter_switch = 4;
    return host;
}

/* The link first: where its layout is another one, nothing has changed. The rest is plain numbers. */
bool hosts_save(const struct machines *machines, FILE *file)
{
    if (!device_save(&machines->bus, file) || fwrite(&machines->bus.slices, sizeof machines->bus.slices, 1, file) != 1)
        return false;
    for (uint32_t unit = 0; unit < machines->bus.units; unit++) {
        const struct host *host = &machines->host[unit];

        if (fwrite(host->memory, sizeof host->memory, 1, file) != 1 || fwrite(host->job, sizeof host->job, 1, file) != 1)
            return false;
    }
    return true;
}

bool hosts_restore(struct machines *machines, FILE *file)
{
    if (!device_restore(&machines->bus, file) || fread(&machines->bus.slices, sizeof machines->bus.slices, 1, file) != 1)
        return false;
    for (uint32_t unit = 0; unit < machines->bus.units; unit++) {
        struct host *host = &machines->host[unit];

        if (fread(host->memory, sizeof host->memory, 1, file) != 1 || fread(host->job, sizeof host->job, 1, file) != 1)
            return false;
        host->serial = device_serial(&machines->bus, unit, PCL_TRANSMITTER);
    }
    return true;
}
