/* board.c - sixteen methane readings go from one host to another: document 02's
 * request No. 2, the readings board, and No. 6, the serials by which a message is
 * told from the last one.
 *
 * Host A builds a message of them and sends it; host B receives it, and takes the
 * board's answer apart: it has the readings, or the name of a refusal. One sensor
 * is dead. B is slow, so that for a while the last words stand in the silo of its
 * receiver, between the bus and its memory. The old link reported a message
 * complete at that moment, and a table that was made of the memory then had zeros
 * for readings that nobody had read. What it would have shown is read out of B's
 * memory here, before the rest is moved, and stands beside what the board gives.
 * In the end A sends its readings once more, and B tells the two successes apart. */
#include <stdbool.h>
#include <stdio.h>
#include <stdlib.h>
#include "board.h"
#include "pcl.h"

enum { A, B, HOSTS };
enum { TRANSMITTER_A = 1, RECEIVER_A, TRANSMITTER_B, RECEIVER_B };      /* addresses on the bus */
enum { MEMORY = 512, POINT = 01000, BUFFER = 0400 };                    /* words; byte addresses */

/* Hundredths of a percent of methane; sensor 13 gives nothing. */
enum { SENSORS = 16, DEAD = 13, HIGHEST = 15 };
static const uint32_t readings[SENSORS] = { 21, 8, 0, 34, 12, 15, 40, 9, 27, 5, 33, 18, BOARD_ABSENT, 61, 210, 24 };

static uint16_t cells[PCL_CELLS(HOSTS)];
static uint16_t memory[HOSTS][MEMORY];

/* Ends the program where it is not as the text that it prints says. */
static void must(bool holds, const char *what)
{
    if (!holds) {
        printf("not so: %s\n", what);
        exit(EXIT_FAILURE);
    }
}

static uint32_t checked(uint32_t answer)
{
    if (pcl_number(answer) != PCL_DONE) {
        printf("refused: number %u\n", pcl_number(answer));
        exit(EXIT_FAILURE);
    }
    return answer;
}

static void host_write(uint32_t host, uint32_t offset, unsigned word)
{
    checked(pcl_write(cells, PCL_CELLS(HOSTS), host, offset, (uint16_t)word));
}

static unsigned host_read(uint32_t host, uint32_t offset)
{
    return pcl_value(checked(pcl_read(cells, PCL_CELLS(HOSTS), host, offset)));
}

/* ---- the programs of the two hosts */

/* A builds the message in its memory and sends it. How many words it has. */
static unsigned send(void)
{
    uint32_t answer = board_build(BOARD_KIND, readings, SENSORS, memory[A] + POINT / 2, MEMORY - POINT / 2);
    unsigned words = board_value(answer);

    if (board_number(answer) != BOARD_DONE) {
        printf("not built: number %u\n", board_number(answer));
        exit(EXIT_FAILURE);
    }
    host_write(A, PCL_TSR, 0);                                  /* what an earlier message left there */
    host_write(A, PCL_TSBA, POINT);
    host_write(A, PCL_TSBC, pcl_byte_count(words));
    host_write(A, PCL_TCR, PCL_TCR_DESTINATION(RECEIVER_B) | PCL_TCR_TX_NPR | PCL_TCR_SND_WD | PCL_TCR_ST_TXM);
    return words;
}

/* B's buffer has room for the longest message; before each message RC INIT clears what an earlier one left in RSR and in the silo. */
static void get_ready(void)
{
    host_write(B, PCL_RCR, PCL_RCR_RC_INIT);
    host_write(B, PCL_RDBC, pcl_byte_count(BOARD_WORDS_MOST));
    host_write(B, PCL_RDBA, BUFFER);
    host_write(B, PCL_RCR, PCL_RCR_RC_NPR | PCL_RCR_RCV_WD | PCL_RCR_RCV_DAT);
}

/* What B has received, by the board. */
static uint64_t receive(uint32_t *received)
{
    return board_receive(BOARD_KIND, cells, PCL_CELLS(HOSTS), memory[B], MEMORY, B, BUFFER, received, BOARD_SENSORS_MOST);
}

/* ---- the bus */

static unsigned move_one(uint32_t host, uint32_t side)
{
    return pcl_number(pcl_move(cells, PCL_CELLS(HOSTS), memory[host], MEMORY, host, side));
}

/* Slices up to A's turn; A's words are all in its silo by then. The answer of that slice. */
static uint32_t turn_of_a(void)
{
    uint32_t answer;

    do {
        while (move_one(A, PCL_TRANSMITTER) == PCL_DONE)
            ;
        answer = checked(pcl_slice(cells, PCL_CELLS(HOSTS), 0, 0));
    } while (pcl_address(answer) != TRANSMITTER_A);
    return answer;
}

/* Until A has sent its last word and then the CRC; B moves a word to its memory at every second turn. */
static void until_all_is_sent(void)
{
    for (unsigned turn = 1; pcl_a(turn_of_a()) != 3; turn++)
        if (turn % 2 == 0)
            move_one(B, PCL_RECEIVER);
}

static unsigned words_in_memory(void) { return (host_read(B, PCL_RDBA) - BUFFER) / 2; }

/* B moves a word at every turn. As long as one is missing B does not acknowledge the CRC, and the board gives no reading. */
static void until_success(unsigned words, uint32_t *received)
{
    while (!(host_read(B, PCL_RSR) & PCL_RSR_SUC_TXF)) {
        bool acknowledged, missing;

        move_one(B, PCL_RECEIVER);
        acknowledged = pcl_b(turn_of_a()) == 3;
        missing = words_in_memory() < words;
        must(!missing || !acknowledged, "the CRC is not acknowledged while words are missing");
        must(!missing || board_number(receive(received)) == BOARD_NOT_COMPLETE, "no reading is given while words are missing");
    }
}

/* ---- what is shown */

static const char *name_of(unsigned number)
{
    switch (number) {
    case BOARD_NOT_COMPLETE: return "message not complete";
    case BOARD_WRONG_LENGTH: return "wrong length";
    case BOARD_UNKNOWN_KIND: return "unknown kind";
    case BOARD_WRONG_COUNT: return "wrong sensor count";
    case BOARD_BAD_ROOM: return "too little room";
    default: return "refused by the link";
    }
}

static void show_receiver(uint64_t answer)
{
    unsigned rsr = host_read(B, PCL_RSR);

    printf("   B's receiver: %s (RSR %06o). The board: ", rsr & PCL_RSR_SUC_TXF ? "success" : "a message is under way", rsr);
    if (board_number(answer) == BOARD_DONE)
        printf("%u readings, serial %u.\n", board_sensors(answer), board_serial(answer));
    else
        printf("refused, %s (number %u). It gives no reading.\n", name_of(board_number(answer)), board_number(answer));
}

/* The old table has a zero here that no sensor gave. */
static bool is_false_zero(uint16_t old, uint32_t reading) { return old == 0 && reading != 0; }

static void show_reading(uint32_t reading)
{
    if (reading == BOARD_ABSENT)
        printf("  %18s", "no reading");
    else
        printf("  %15u.%02u", (unsigned)reading / 100, (unsigned)reading % 100);
}

int main(void)
{
    static const uint32_t setup[PCL_SETUP(HOSTS)] = {
        TRANSMITTER_A, RECEIVER_A, 3, MEMORY,
        TRANSMITTER_B, RECEIVER_B, 3, MEMORY
    };
    uint32_t received[BOARD_SENSORS_MOST];
    uint64_t answer;
    uint16_t old_table[SENSORS];
    unsigned words, there, seen, false_zeros = 0;

    checked(pcl_fit(cells, PCL_CELLS(HOSTS), setup, PCL_SETUP(HOSTS)));
    checked(pcl_write_byte(cells, PCL_CELLS(HOSTS), A, PCL_TMMR + 1, (PCL_TMMR_MASTER | PCL_TMMR_AUT_ADR) >> 8));

    printf("Sixteen methane sensors report to host A. Sensor %u is dead: it gives nothing.\n\n", DEAD);
    get_ready();
    words = send();
    printf("1. A builds a message of the %u readings, %u words, and sends it to B. For sensor %u it has the word for no\n"
           "   reading, 177777 octal. B's computer is slow: it takes one word to its memory while two come.\n", SENSORS, words, DEAD);

    until_all_is_sent();
    there = words_in_memory();
    printf("2. A has sent its last word and its CRC. Of the %u words %u are in B's memory; %u still stand in the silo of B's\n"
           "   receiver.\n", words, there, words - there);
    for (unsigned i = 0; i < SENSORS; i++)
        old_table[i] = memory[B][BUFFER / 2 + 3 + i];
    answer = receive(received);
    show_receiver(answer);
    must(board_number(answer) == BOARD_NOT_COMPLETE, "the message is not complete before success");
    printf("   The old link reported the message complete at this moment. A table made of B's memory now has zeros for all\n"
           "   readings that are not there yet, and nothing tells them from readings of zero.\n");

    until_success(words, received);
    must(words_in_memory() == words, "all words are in B's memory");
    printf("3. The other %u words are in B's memory too, and then, not before, the CRC is acknowledged.\n", words - there);
    answer = receive(received);
    show_receiver(answer);
    must(board_number(answer) == BOARD_DONE && board_sensors(answer) == SENSORS, "the readings are given");
    seen = board_serial(answer);

    printf("\n   Methane, in percent:\n\n   sensor      old link, at 2     the board, at 3\n");
    for (unsigned i = 0; i < SENSORS; i++) {
        must(received[i] == readings[i], "each reading is the one that was sent");
        printf("   %6u", i + 1);
        show_reading(old_table[i]);
        show_reading(received[i]);
        printf("%s\n", is_false_zero(old_table[i], received[i]) ? "  *" : "");
        false_zeros += is_false_zero(old_table[i], received[i]);
    }
    printf("\n   * In %u rows the old table has a zero that no sensor gave. Sensor %u stands at %u.%02u percent; and of sensor %u\n"
           "     nobody knows the methane, so that its heading must not be cleared.\n",
           false_zeros, HIGHEST, (unsigned)received[HIGHEST - 1] / 100, (unsigned)received[HIGHEST - 1] % 100, DEAD);

    printf("\n4. The success stands until B clears it. Asked once more, the board gives the same message:\n");
    answer = receive(received);
    show_receiver(answer);
    must(board_number(answer) == BOARD_DONE && board_serial(answer) == seen, "the same message has the same serial");
    get_ready();
    words = send();
    until_all_is_sent();
    until_success(words, received);
    printf("   B gets ready again, and A sends its readings again. By the serial B tells this message from the last:\n");
    answer = receive(received);
    show_receiver(answer);
    must(board_number(answer) == BOARD_DONE && board_serial(answer) != seen, "the next message has another serial");
    return EXIT_SUCCESS;
}
