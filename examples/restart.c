/* restart.c - a host is restarted in mid-message: document 02's request No. 1.
 *
 * Host A sends host B a report of methane readings, and its transmitter is
 * restarted (TX INIT) when the first 128 words have gone. Then A sends another
 * message to the same receiver, which knows nothing of the restart and still
 * holds the old channel. It once took the new words as the rest of the old
 * message; and since a CRC had just been answered, all that followed was right,
 * and both ends reported success. Now it refuses them: an opening word is marked
 * as such on the bus. The second half is the same accident at the other end: B's
 * receiver is restarted (RC INIT), and may not pick a message up at its middle.
 *
 * Each step prints what the two hosts can read in their registers. */
#include <stdio.h>
#include <stdlib.h>
#include <string.h>
#include "pcl.h"

enum { A, B, HOSTS };
enum { TRANSMITTER_A = 1, RECEIVER_A, TRANSMITTER_B, RECEIVER_B };      /* addresses on the bus */
enum { MEMORY = 512, POINT = 01000, BUFFER = 0400 };                    /* words; byte addresses */

/* A reading has 32 letters, two in a word; a block of 128 words has the first eight. */
#define READING(heading, percent) "Heading " heading ": methane " percent " percent."
enum { LETTERS = 32, BLOCK_TURNS = 128 + 2 };                           /* turns: the words, and the CRC twice */
static const char report[] =
    READING("01", "0.1") READING("02", "0.2") READING("03", "0.1") READING("04", "0.3") READING("05", "0.1") READING("06", "0.1")
    READING("07", "0.2") READING("08", "0.1") READING("09", "0.4") READING("10", "2.1") READING("11", "0.3") READING("12", "0.2");
static const char one_reading[] = READING("12", "0.2");

static uint16_t cells[PCL_CELLS(HOSTS)];
static uint16_t memory[HOSTS][MEMORY];

static uint32_t checked(uint32_t answer)
{
    if (pcl_number(answer) != PCL_DONE) {
        printf("refused: number %u\n", pcl_number(answer));
        exit(EXIT_FAILURE);
    }
    return answer;
}

static void host_write(uint32_t host, uint32_t offset, unsigned word)
{
    checked(pcl_write(cells, PCL_CELLS(HOSTS), host, offset, (uint16_t)word));
}

static unsigned host_read(uint32_t host, uint32_t offset)
{
    return pcl_value(checked(pcl_read(cells, PCL_CELLS(HOSTS), host, offset)));
}

/* ---- the programs of the two hosts */

/* A's transmitter is given a message for B. */
static void send(const char *text)
{
    unsigned words = (unsigned)strlen(text) / 2;

    for (unsigned i = 0; i < words; i++)                        /* the low byte first */
        memory[A][POINT / 2 + i] = (uint16_t)(text[2 * i] | text[2 * i + 1] << 8);
    host_write(A, PCL_TSBA, POINT);
    host_write(A, PCL_TSBC, pcl_byte_count(words));
    host_write(A, PCL_TCR, PCL_TCR_DESTINATION(RECEIVER_B) | PCL_TCR_TX_NPR | PCL_TCR_SND_WD | PCL_TCR_ST_TXM);
}

static void restart_transmitter(void) { host_write(A, PCL_TCR, PCL_TCR_TX_INIT); }

/* After TBS BSY: the message still stands in A's silo, or is loaded, and is tried once more. */
static void try_again(void)
{
    host_write(A, PCL_TSR, 0);
    host_write(A, PCL_TCR, host_read(A, PCL_TCR) | PCL_TCR_SND_WD | PCL_TCR_ST_TXM);
}

/* B's receiver gets an empty buffer, and is ready for a message. RC INIT empties its silo too: what is left there of a message that
 * was broken off would come before the words of the next, and clearing RSR does not take it away. */
static void receive(void)
{
    memset(memory[B], 0, sizeof memory[B]);
    host_write(B, PCL_RCR, PCL_RCR_RC_INIT);
    host_write(B, PCL_RDBC, pcl_byte_count(MEMORY / 2));
    host_write(B, PCL_RDBA, BUFFER);
    host_write(B, PCL_RCR, PCL_RCR_RC_NPR | PCL_RCR_RCV_WD | PCL_RCR_RCV_DAT);
}

/* ---- the bus */

/* All the words that a silo has room for, or has to give. */
static void move_all(uint32_t host, uint32_t side)
{
    pcl_move_all(cells, PCL_CELLS(HOSTS), memory[host], MEMORY, host, side);
}

/* Slices up to A's turn; B's buffer has what came. The answer of that slice. */
static uint32_t turn_of_a(void)
{
    uint32_t answer;

    do {
        move_all(A, PCL_TRANSMITTER);
        answer = checked(pcl_slice(cells, PCL_CELLS(HOSTS), 0, 0));
        move_all(B, PCL_RECEIVER);
    } while (pcl_address(answer) != TRANSMITTER_A);
    return answer;
}

static void turns_of_a(unsigned turns)
{
    while (turns-- > 0)
        turn_of_a();
}

/* Until A or B has something to report. */
static void wait_for_report(void)
{
    do
        turn_of_a();
    while (!(host_read(A, PCL_TSR) & (PCL_TSR_ERR | PCL_TSR_SUC_TXF | PCL_TSR_SORE | PCL_TSR_TBS_BSY))
           && !(host_read(B, PCL_RSR) & (PCL_RSR_ERR | PCL_RSR_SUC_TXF | PCL_RSR_RECOM)));
}

/* ---- what the registers show */

static void show_sender(void)
{
    unsigned tsr = host_read(A, PCL_TSR);

    printf("   A's transmitter, TSR %06o: ", tsr);
    if (tsr & PCL_TSR_TXM_ERR)
        printf("TXM ERR, the message was broken off at the other end");
    else if (tsr & PCL_TSR_ERR)
        printf("ERR, another error");
    else if (tsr & PCL_TSR_TBS_BSY)
        printf("TBS BSY, the receiver did not accept the message; it can be sent again");
    else if (tsr & PCL_TSR_SUC_TXF)
        printf("SUC TXF, the whole message has arrived");
    else if (host_read(A, PCL_TMMR) & PCL_TMMR_CHN_OPN)
        printf("a message is under way");
    else
        printf("at rest, no message under way");
    printf(".\n");
}

static void show_receiver(void)
{
    unsigned rsr = host_read(B, PCL_RSR), words = (host_read(B, PCL_RDBA) - BUFFER) / 2;

    printf("   B's receiver,    RSR %06o: ", rsr);
    if (rsr & PCL_RSR_TXM_ERR)
        printf("TXM ERR, the message was broken off, what came of it is not to be used");
    else if (rsr & PCL_RSR_ERR)
        printf("ERR, another error, what came is not to be used");
    else if (rsr & PCL_RSR_SUC_TXF)
        printf("SUC TXF, a whole message has come");
    else if (rsr & PCL_RSR_CHN_OPN)
        printf("a message from transmitter %u is under way", pcl_sender(host_read(B, PCL_RCR)));
    else
        printf("at rest, ready for a message");
    printf(".\n   B's buffer, %u words: %s", words, words ? "headings" : "empty");
    for (unsigned i = 0; i + LETTERS / 2 <= words; i += LETTERS / 2)
        printf(" %c%c", memory[B][BUFFER / 2 + i + 4] & 255, memory[B][BUFFER / 2 + i + 4] >> 8);
    printf(".\n");
}

static void show(void)
{
    show_sender();
    show_receiver();
}

/* Word by word, what B has and what A sent. */
static void compare(const char *text)
{
    size_t same = 0, words = strlen(text) / 2;

    while (same < words && memory[B][BUFFER / 2 + same] == (text[2 * same] | text[2 * same + 1] << 8))
        same++;
    printf("   %zu words of %zu are as A sent them.\n", same, words);
}

/* B answers 11 where it took the word, 00 where it did not. */
static void show_answer(uint32_t answer)
{
    printf("   A's word was %s by B (response %u%u).\n", pcl_b(answer) == 3 ? "taken" : "refused", pcl_b(answer) >> 1,
           pcl_b(answer) & 1);
}

int main(void)
{
    static const uint32_t setup[PCL_SETUP(HOSTS)] = {
        TRANSMITTER_A, RECEIVER_A, 3, MEMORY,
        TRANSMITTER_B, RECEIVER_B, 3, MEMORY
    };

    checked(pcl_fit(cells, PCL_CELLS(HOSTS), setup, PCL_SETUP(HOSTS)));
    checked(pcl_write_byte(cells, PCL_CELLS(HOSTS), B, PCL_TMMR + 1, (PCL_TMMR_MASTER | PCL_TMMR_AUT_ADR) >> 8));

    printf("The sender is restarted.\n\n1. A sends its report of %zu headings, %zu words.", strlen(report) / LETTERS,
           strlen(report) / 2);
    printf(" A block of 128 words has gone, its CRC was right.\n");
    receive();
    send(report);
    turns_of_a(BLOCK_TURNS);
    show();

    printf("2. A is restarted. B is told nothing.\n");
    restart_transmitter();
    show();

    printf("3. A sends the reading of heading 12 alone, %zu words.\n", strlen(one_reading) / 2);
    send(one_reading);
    show_answer(turn_of_a());
    show();
    printf("   Before, B took these words as the rest of the report. Both ends showed SUC TXF, and B had a report of the\n"
           "   headings 01 to 08 and 12, in which nothing said that heading 10 was missing.\n");

    printf("4. B throws away what came and is ready again. A, told that it was not accepted, tries again.\n"
           "   Words of the broken-off message stay in the silo of B's receiver until its host takes them or does RC INIT, and\n"
           "   would come before those of the new one. Here each was moved as it came; B does RC INIT all the same.\n");
    receive();
    try_again();
    wait_for_report();
    show();
    compare(one_reading);

    printf("\nThe receiver is restarted.\n\n5. A sends its report again. A block of 128 words has gone, its CRC was right.\n");
    restart_transmitter();
    receive();
    send(report);
    turns_of_a(BLOCK_TURNS);
    show();

    printf("6. B is restarted and ready for a message. A is told nothing, and sends its next word.\n");
    receive();
    show_answer(turn_of_a());
    show();
    printf("   Before, B took what was left for a message. Both ends showed SUC TXF, and B had a report of the headings\n"
           "   09 to 12.\n");

    printf("7. A, told that it was broken off, sends it again from its beginning.\n");
    restart_transmitter();
    send(report);
    wait_for_report();
    show();
    compare(report);
    return EXIT_SUCCESS;
}
