/* scenes.c - what the hosts of hosts.c see of one another over the device of device.c.
 *
 *     device                              every scene but the one that is saved and restored
 *     device SCENE                        one of them
 *     device trace SCENE RECORDS LINES    with a trace of it, as pcl_trace.h has it
 *     device save FILE                    that one up to the middle of a message, and into a file
 *     device restore FILE                 out of the file, in a process of its own, to its end
 *
 * Each line is a slice's number, a host, the vector of the interrupt that it took, and
 * what it read in its status register; then where its program stands after that.
 *
 * In this folder:
 *     cc -I../../include -I../trace *.c ../trace/pcl_trace.c ../../target/staticlib/libpcl.a -o device */
#include <stdlib.h>
#include <string.h>
#include "hosts.h"
#include "pcl_trace.h"

enum { SMALL = 64, BLOCK = 0100, BUFFER = 0100, LONG_BUFFER = 0400, LONG = 300 };
enum { ADDRESS_A = 2, ADDRESS_B = 4, ADDRESS_C = 3, ADDRESS_D = 1, ADDRESS_NOBODY = 31 };

static struct machines machines;
static struct host *a, *b, *c, *d;

/* Four machines with so much memory. C is the master of the bus and does nothing else: TX INIT, with which some programs begin, clears
 * MASTER too. Its counter goes 4, 3, 2, 1, 4, .. */
static void set_up(size_t memory_words)
{
    memset(&machines, 0, sizeof machines);
    machines.out = stdout;
    a = host_add(&machines, "A", ADDRESS_A, ADDRESS_A, memory_words);
    b = host_add(&machines, "B", ADDRESS_B, ADDRESS_B, memory_words);
    c = host_add(&machines, "C", ADDRESS_C, ADDRESS_C, memory_words);
    d = host_add(&machines, "D", ADDRESS_D, ADDRESS_D, memory_words);
    for (uint32_t unit = 0; unit < machines.bus.units; unit++)
        memset(machines.host[unit].memory, 0377, sizeof machines.host[unit].memory);    /* so that a word too many is seen */
}

static void fit(size_t memory_words)
{
    set_up(memory_words);
    if (!device_fit(&machines.bus)) {
        fputs("device: the link does not take this set-up\n", stderr);
        exit(EXIT_FAILURE);
    }
}

static void begin(size_t memory_words)
{
    fit(memory_words);
    host_be_master(&machines, c, NULL, 0);
}

/* ---- blocks of words, and what became of them */

/* Words that tell where they stand, and of which message they are. */
static void fill(struct host *host, unsigned point, unsigned words, unsigned message)
{
    for (unsigned k = 0; k < words; k++)
        host->memory[point / 2 + k] = (uint16_t)(message << 12 | (k + 1));
}

static unsigned equal_words(const struct host *from, unsigned block, const struct host *to, unsigned buffer, unsigned most)
{
    unsigned k = 0;

    while (k < most && from->memory[block / 2 + k] == to->memory[buffer / 2 + k])
        k++;
    return k;
}

static void say_ends(const struct host *from, const struct host *to)
{
    printf("        %s %s, %s %s; serials %u and %u, CRC %06o and %06o\n",
           from->name, host_state_text(from->job[PCL_TRANSMITTER].state), to->name, host_state_text(to->job[PCL_RECEIVER].state),
           device_serial(&machines.bus, from->unit, PCL_TRANSMITTER), device_serial(&machines.bus, to->unit, PCL_RECEIVER),
           host_read(&machines, from, TSCRC), host_read(&machines, to, RDCRC));
}

static void say_words(const struct host *from, const struct host *to)
{
    const struct job *sent = &from->job[PCL_TRANSMITTER], *received = &to->job[PCL_RECEIVER];

    say_ends(from, to);
    printf("        %u words of %s's block stand in %s's buffer; the word behind it is %06o\n",
           equal_words(from, sent->point, to, received->point, sent->words), from->name, to->name,
           to->memory[received->point / 2 + received->words]);
}

/* What a program finds at the addresses of 3.2.7 that have no register, once it has written there, in words and in bytes; and in RDCRC
 * beside them. */
static void say_empty_addresses(const struct host *host)
{
    static const uint32_t empty[] = { 0764216, 0764232, 0764236 };

    printf("        %s's RDCRC, at %o, is %06o;", host->name, (unsigned)RDCRC, host_read(&machines, host, RDCRC));
    for (unsigned k = 0; k < 3; k++) {
        host_write(&machines, host, empty[k], 0177777);
        host_write_byte(&machines, host, empty[k], 0377);
        host_write_byte(&machines, host, empty[k] + 1, 0377);
        printf(" %o reads %06o,", (unsigned)empty[k], host_read(&machines, host, empty[k]));
    }
    printf(" and RDCRC is still %06o\n", host_read(&machines, host, RDCRC));
}

/* ---- 3.4.1 */

static void play_words(void)
{
    begin(SMALL);
    fill(a, BLOCK, 3, 1);
    host_start(&machines, b, RECEIVE_WORDS, BUFFER, 3, 0);
    host_start(&machines, a, SEND_WORDS, BLOCK, 3, ADDRESS_B);
    hosts_run(&machines, 200);
    say_words(a, b);
}

/* ---- 3.4.2 */

static void play_message(void)
{
    begin(SMALL);
    fill(a, BLOCK, 20, 1);
    host_start(&machines, b, RECEIVE_MESSAGE, BUFFER, 24, 0);
    host_start(&machines, a, SEND_MESSAGE, BLOCK, 20, ADDRESS_B);
    hosts_run(&machines, 400);
    say_words(a, b);
    say_empty_addresses(b);
}

/* 300 words: success on the transmitter's slice 305 after the opening, and it has every fourth. */
static void play_long(void)
{
    begin(HOST_WORDS);
    fill(a, BLOCK, LONG, 1);
    host_start(&machines, b, RECEIVE_MESSAGE, LONG_BUFFER, LONG, 0);
    host_start(&machines, a, SEND_MESSAGE, BLOCK, LONG, ADDRESS_B);
    hosts_run(&machines, 2000);
    say_words(a, b);
}

/* ---- 3.4.3 */

static void pass_prefaced(struct host *from, unsigned words, unsigned buffer_words)
{
    fill(from, BLOCK, words, 2);
    host_start(&machines, b, RECEIVE_CHOOSING, BUFFER, buffer_words, 0);
    host_start(&machines, from, SEND_PREFACED, BLOCK, words, ADDRESS_B);
    hosts_run(&machines, 400);
    say_words(from, b);
}

static void play_reject(void)
{
    begin(SMALL);
    puts("   -- too short");
    pass_prefaced(a, 5, 24);
    puts("   -- from an odd transmitter");
    pass_prefaced(d, 20, 24);
    puts("   -- neither");
    pass_prefaced(a, 20, 24);
}

static void play_truncate(void)
{
    begin(SMALL);
    pass_prefaced(a, 30, 16);
}

/* Every other turn is A's: 300 words take half the slices that the counter's cycle takes. */
static void play_address_silo(void)
{
    uint8_t addresses[50];

    fit(HOST_WORDS);
    for (unsigned k = 0; k < 50; k++)
        addresses[k] = k % 2 == 0 ? ADDRESS_A : ADDRESS_B;
    host_be_master(&machines, c, addresses, 50);
    fill(a, BLOCK, LONG, 3);
    host_start(&machines, b, RECEIVE_MESSAGE, LONG_BUFFER, LONG, 0);
    host_start(&machines, a, SEND_MESSAGE, BLOCK, LONG, ADDRESS_B);
    hosts_run(&machines, 2000);
    say_words(a, b);
}

/* ---- what goes wrong */

static void play_absent(void)
{
    begin(SMALL);
    puts("   -- nobody has the address");
    fill(a, BLOCK, 4, 1);
    host_start(&machines, a, SEND_MESSAGE, BLOCK, 4, ADDRESS_NOBODY);
    hosts_run(&machines, 40);
    puts("   -- B is not enabled, and A tries again by itself: RIB");
    host_write(&machines, a, TCR, PCL_TCR_TX_INIT);
    a->job[PCL_TRANSMITTER].retry = PCL_TCR_RIB;
    host_start(&machines, a, SEND_MESSAGE, BLOCK, 4, ADDRESS_B);
    hosts_run(&machines, 40);
    host_start(&machines, b, RECEIVE_MESSAGE, BUFFER, 4, 0);
    hosts_run(&machines, 100);
    say_words(a, b);
}

static void play_nxl(void)
{
    const unsigned last_words = 2 * (HOST_WORDS - 100);

    begin(HOST_WORDS);
    puts("   -- 100 words of A's block lie in its memory");
    fill(a, last_words, 100, 1);
    host_start(&machines, b, RECEIVE_MESSAGE, LONG_BUFFER, LONG, 0);
    host_start(&machines, a, SEND_MESSAGE, last_words, LONG, ADDRESS_B);
    hosts_run(&machines, 2000);
    say_ends(a, b);
    puts("   -- 100 words of B's buffer lie in its memory");
    fill(a, BLOCK, LONG, 2);
    host_write(&machines, a, TCR, PCL_TCR_TX_INIT);
    host_start(&machines, b, RECEIVE_MESSAGE, last_words, LONG, 0);
    host_start(&machines, a, SEND_MESSAGE, BLOCK, LONG, ADDRESS_B);
    hosts_run(&machines, 2000);
    say_ends(a, b);
}

/* No word of the first message is taken for one of the second. */
static void play_init(void)
{
    begin(SMALL);
    fill(a, BLOCK, 20, 1);
    host_start(&machines, b, RECEIVE_MESSAGE, BUFFER, 24, 0);
    host_start(&machines, a, SEND_MESSAGE, BLOCK, 20, ADDRESS_B);
    hosts_run(&machines, 30);
    puts("   -- A does TX INIT in mid-message, and sends again");
    host_write(&machines, a, TCR, PCL_TCR_TX_INIT);
    fill(a, BLOCK, 20, 2);
    host_start(&machines, a, SEND_MESSAGE, BLOCK, 20, ADDRESS_B);
    hosts_run(&machines, 100);
    say_ends(a, b);
    puts("   -- both begin anew");
    host_start(&machines, b, RECEIVE_MESSAGE, BUFFER, 24, 0);
    host_write(&machines, a, TCR, PCL_TCR_TX_INIT);
    host_start(&machines, a, SEND_MESSAGE, BLOCK, 20, ADDRESS_B);
    hosts_run(&machines, 400);
    say_words(a, b);
}

static void period(void)
{
    printf("%6lu          a period\n", machines.bus.slices);
    for (uint32_t unit = 0; unit < machines.bus.units; unit++)
        device_period(&machines.bus, unit);
}

static void play_time_out(void)
{
    begin(SMALL);
    fill(a, BLOCK, 20, 1);
    host_start(&machines, b, RECEIVE_MESSAGE, BUFFER, 24, 0);
    host_start(&machines, a, SEND_MESSAGE, BLOCK, 20, ADDRESS_B);
    puts("   -- while words come, periods do nothing");
    for (unsigned k = 0; k < 3; k++) {
        hosts_run(&machines, 10);
        period();
    }
    puts("   -- B takes no more words: this is the second period in a row without one");
    host_clear(&machines, b, RCR, PCL_RCR_RCV_WD | PCL_RCR_RCV_DAT);
    hosts_run(&machines, 10);
    period();
    hosts_run(&machines, 10);
    say_ends(a, b);
}

static void play_master(void)
{
    begin(SMALL);
    host_write_byte(&machines, b, TMMRH, (PCL_TMMR_SEC | PCL_TMMR_AUT_ADR) >> 8);
    host_say_master(&machines, b);
    fill(a, BLOCK, 20, 1);
    host_start(&machines, b, RECEIVE_MESSAGE, BUFFER, 24, 0);
    host_start(&machines, a, SEND_MESSAGE, BLOCK, 20, ADDRESS_B);
    hosts_run(&machines, 30);
    puts("   -- C, the master, is reset in mid-message; B is the secondary");
    device_reset(&machines.bus, c->unit);
    hosts_run(&machines, 400);
    say_words(a, b);
    host_say_master(&machines, c);
    host_say_master(&machines, b);
    puts("   -- B gives MASTER up, and there is no secondary");
    host_write_byte(&machines, b, TMMRH, PCL_TMMR_AUT_ADR >> 8);
    host_start(&machines, a, SEND_MESSAGE, BLOCK, 4, ADDRESS_B);
    hosts_run(&machines, 4);
    host_say_master(&machines, b);
}

/* ---- saved and restored */

static void play_first_half(void)
{
    begin(HOST_WORDS);
    fill(a, BLOCK, LONG, 4);
    host_start(&machines, b, RECEIVE_MESSAGE, LONG_BUFFER, LONG, 0);
    host_start(&machines, a, SEND_MESSAGE, BLOCK, LONG, ADDRESS_B);
    hosts_run(&machines, 600);
}

static void play_second_half(void)
{
    puts("   -- B's registers");
    device_show(&machines.bus, b->unit, stdout);
    hosts_run(&machines, 2000);
    say_words(a, b);
}

static int save(const char *name)
{
    FILE *file = fopen(name, "wb");
    bool saved;

    puts("== saved in mid-message");
    play_first_half();
    saved = file != NULL && hosts_save(&machines, file);
    if (file == NULL || fclose(file) != 0 || !saved) {
        printf("%s cannot be written\n", name);
        return EXIT_FAILURE;
    }
    return EXIT_SUCCESS;
}

static int restore(const char *name)
{
    FILE *file = fopen(name, "rb");
    bool restored;

    puts("== restored in another process");
    set_up(HOST_WORDS);
    restored = file != NULL && hosts_restore(&machines, file);
    if (file != NULL)
        fclose(file);
    if (!restored) {
        printf("%s is no state of this layout\n", name);
        return EXIT_FAILURE;
    }
    play_second_half();
    return EXIT_SUCCESS;
}

/* ---- which scene */

static const struct scene {
    const char *name, *title;
    void (*play)(void);
} scenes[] = {
    { "words", "3.4.1, three words one at a time, from A to B", play_words },
    { "message", "3.4.2, a message of 20 words", play_message },
    { "long", "3.4.2, a message of 300 words", play_long },
    { "reject", "3.4.3-1, messages that are rejected, and one that is not", play_reject },
    { "truncate", "3.4.3-1, a message of 30 words into a buffer of 16", play_truncate },
    { "silo", "3.4.3-2, 300 words by the address silo", play_address_silo },
    { "absent", "the destination is absent", play_absent },
    { "nxl", "memory that is not there", play_nxl },
    { "init", "TX INIT in mid-message", play_init },
    { "timeout", "a time-out", play_time_out },
    { "master", "the master goes down", play_master },
};

static void play(const struct scene *scene)
{
    printf("== %s\n", scene->title);
    scene->play();
}

static const struct scene *scene_called(const char *name)
{
    for (size_t k = 0; k < sizeof scenes / sizeof scenes[0]; k++)
        if (strcmp(scenes[k].name, name) == 0)
            return &scenes[k];
    fprintf(stderr, "device: there is no scene %s\n", name);
    exit(EXIT_FAILURE);
}

static int trace(const struct scene *scene, const char *records_name, const char *lines_name)
{
    FILE *records = fopen(records_name, "wb"), *lines = fopen(lines_name, "w");
    int lost;

    pcl_trace_start(machines.bus.cells, records, lines);
    play(scene);
    lost = records == NULL || lines == NULL || pcl_trace_end() != 0;
    if (records == NULL || fclose(records) != 0 || lines == NULL || fclose(lines) != 0 || lost) {
        fputs("device: the trace could not be written\n", stderr);
        return EXIT_FAILURE;
    }
    return EXIT_SUCCESS;
}

int main(int count, char **words)
{
    if (count == 5 && strcmp(words[1], "trace") == 0)
        return trace(scene_called(words[2]), words[3], words[4]);
    if (count == 3 && strcmp(words[1], "save") == 0)
        return save(words[2]);
    if (count == 3 && strcmp(words[1], "restore") == 0)
        return restore(words[2]);
    if (count == 2)
        play(scene_called(words[1]));
    else
        for (size_t k = 0; k < sizeof scenes / sizeof scenes[0]; k++)
            play(&scenes[k]);
    return EXIT_SUCCESS;
}
