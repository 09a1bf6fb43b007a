/* host.c - two hosts pass two messages over the link, each as in the PCL11-B
 * manual's 3.4.2: host A sends a block of its memory by NPR transfers, host B
 * receives it into a buffer, and both wait for SUC TXF. By the serial both can
 * tell the second message from the first.
 *
 * The emulator's part is `bus`: one slice, and the memory moves that the silos
 * ask for in between. */
#include <stdio.h>
#include <stdlib.h>
#include "pcl.h"

enum { A, B, HOSTS };
enum { TRANSMITTER_A = 1, RECEIVER_A, TRANSMITTER_B, RECEIVER_B };      /* addresses on the bus */
enum { MEMORY = 512, POINT = 01000, BUFFER = 0400 };                    /* words; byte addresses */

static uint16_t cells[PCL_CELLS(HOSTS)];
static uint16_t memory[HOSTS][MEMORY];

static uint32_t checked(uint32_t answer)
{
    if (pcl_number(answer) != PCL_DONE) {
        printf("refused: number %u\n", pcl_number(answer));
        exit(EXIT_FAILURE);
    }
    return answer;
}

static void host_write(uint32_t host, uint32_t offset, unsigned word)
{
    checked(pcl_write(cells, PCL_CELLS(HOSTS), host, offset, (uint16_t)word));
}

static unsigned host_read(uint32_t host, uint32_t offset)
{
    return pcl_value(checked(pcl_read(cells, PCL_CELLS(HOSTS), host, offset)));
}

/* By which an interrupt routine tells this message from the last one. */
static unsigned serial(uint32_t host, uint32_t side)
{
    return pcl_value(checked(pcl_serial(cells, PCL_CELLS(HOSTS), host, side)));
}

/* This host's master section serves addresses 3, 2, 1, 3, .. from now on. */
static void be_master(uint32_t host)
{
    checked(pcl_write_byte(cells, PCL_CELLS(HOSTS), host, PCL_TMMR + 1, (PCL_TMMR_MASTER | PCL_TMMR_AUT_ADR) >> 8));
}

/* Computer B's program: a buffer, and ready for a message. */
static void receive(unsigned buffer, unsigned words)
{
    host_write(B, PCL_RCR, PCL_RCR_RC_INIT);
    host_write(B, PCL_RDBC, pcl_byte_count(words));
    host_write(B, PCL_RDBA, buffer);
    host_write(B, PCL_RCR, PCL_RCR_RC_NPR | PCL_RCR_RCV_WD | PCL_RCR_RCV_DAT);
}

/* Computer A's program: the block, where to, and go. */
static void send(unsigned point, unsigned words, unsigned receiver)
{
    host_write(A, PCL_TSBA, point);
    host_write(A, PCL_TSBC, pcl_byte_count(words));
    host_write(A, PCL_TCR, PCL_TCR_DESTINATION(receiver) | PCL_TCR_TX_NPR | PCL_TCR_SND_WD | PCL_TCR_ST_TXM);
}

/* All the words that the silos have room for, or have to give. */
static void move_words(void)
{
    uint32_t sides = pcl_sides(pcl_wants_moves(cells, PCL_CELLS(HOSTS)));

    for (uint32_t host = 0; host < HOSTS; host++)
        for (uint32_t side = 0; side < 2; side++)
            if (sides & pcl_side_bit(host, side))
                pcl_move_all(cells, PCL_CELLS(HOSTS), memory[host], MEMORY, host, side);
}

static void bus(void)
{
    move_words();
    checked(pcl_slice(cells, PCL_CELLS(HOSTS), 0, 0));
}

/* Both programs' WAIT: slices until A and B have SUC TXF; how many, or 0 at an unexpected bit. */
static unsigned wait_for_success(void)
{
    for (unsigned slices = 1;; slices++) {
        unsigned tsr, rsr;

        bus();
        tsr = host_read(A, PCL_TSR);
        rsr = host_read(B, PCL_RSR);
        if (tsr & (PCL_TSR_ERR | PCL_TSR_SORE | PCL_TSR_TBS_BSY) || rsr & (PCL_RSR_ERR | PCL_RSR_RECOM))
            return 0;
        if (tsr & PCL_TSR_SUC_TXF && rsr & PCL_RSR_SUC_TXF)
            return slices;
    }
}

/* One message from A to B: whether it came with success. */
static int pass(const char *text, unsigned words)
{
    unsigned slices;

    for (unsigned i = 0; i < words; i++)                        /* two letters in a word, the low byte first */
        memory[A][POINT / 2 + i] = (uint16_t)(text[2 * i] | text[2 * i + 1] << 8);
    host_write(A, PCL_TSR, 0);                                  /* no SUC TXF of the message before */
    receive(BUFFER, MEMORY / 2);
    send(POINT, words, RECEIVER_B);

    slices = wait_for_success();
    if (slices == 0) {
        printf("failed: TSR %06o, RSR %06o\n", host_read(A, PCL_TSR), host_read(B, PCL_RSR));
        return 0;
    }
    printf("%u words from transmitter %u, complete after %u slices:\n", words, pcl_sender(host_read(B, PCL_RCR)), slices);
    for (unsigned i = 0; i < words; i++)
        printf("%c%c", memory[B][BUFFER / 2 + i] & 255, memory[B][BUFFER / 2 + i] >> 8);
    printf("\nCRC sent %06o, received %06o\n", host_read(A, PCL_TSCRC), host_read(B, PCL_RDCRC));
    printf("serial %u at the sender, %u at the receiver\n", serial(A, PCL_TRANSMITTER), serial(B, PCL_RECEIVER));
    return 1;
}

int main(void)
{
    static const uint32_t setup[PCL_SETUP(HOSTS)] = {
        TRANSMITTER_A, RECEIVER_A, 3, MEMORY,
        TRANSMITTER_B, RECEIVER_B, 3, MEMORY
    };
    static const char first[] = "Heading 4 north: methane 0.3 percent at 06:40, fan on.";
    static const char second[] = "Heading 4 north: methane 0.2 percent at 06:50, fan on.";

    checked(pcl_fit(cells, PCL_CELLS(HOSTS), setup, PCL_SETUP(HOSTS)));
    be_master(A);
    if (!pass(first, sizeof first / 2) || !pass(second, sizeof second / 2))
        return EXIT_FAILURE;
    return EXIT_SUCCESS;
}
