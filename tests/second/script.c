/* script.c - the script program of document 01 over second.c.
 *
 * Records on standard input: length (2 bytes, little-endian, of kind and body),
 * kind (2), body.  One line for each record on standard output. */
#include <stdio.h>
#include <stdlib.h>
#include <string.h>
#include "second.h"

enum { FIT = 1, WRITE, READ, SLICE, MOVE, PERIOD, RESET, WRITE_BYTE, LEVEL, KINDS };

enum {
    KIND_BYTES = 2,             /* the length counts the kind too */
    LONGEST_BODY = 1 + 3 * 255, /* a fit of 255 units */
    MEMORY_WORDS = 64           /* "memories 64 zero words" */
};

/* "words 2 bytes, all else one": the body of each kind but fit. */
static const uint8_t body_bytes[KINDS] = {
    [WRITE] = 4, [READ] = 2, [SLICE] = 3, [MOVE] = 2, [PERIOD] = 1, [RESET] = 1,
    [WRITE_BYTE] = 3, [LEVEL] = 2
};

static struct second_link link_state;
static uint16_t memory[SECOND_UNITS][MEMORY_WORDS];
static char input[1 << 16], output[1 << 16];

static unsigned word_at(const uint8_t *bytes)
{
    return bytes[0] | (unsigned)bytes[1] << 8;
}

static bool take(uint8_t *bytes, size_t count)
{
    return fread(bytes, 1, count, stdin) == count;
}

/* "Kind 1 fit: count, then transmitter, receiver, switch per unit".  A fit
 * answered 0 gives zero memories again, one answered 7 leaves them. */
static uint32_t run_fit(const uint8_t *body)
{
    uint32_t setup[4 * 255];
    size_t units = body[0];
    uint32_t answer;

    for (size_t unit = 0; unit < units; unit++) {
        for (size_t i = 0; i < 3; i++)
            setup[4 * unit + i] = body[1 + 3 * unit + i];
        setup[4 * unit + 3] = MEMORY_WORDS;
    }
    answer = second_fit(&link_state, setup, 4 * units);
    if (answer == 0)
        memset(memory, 0, sizeof memory);
    return answer;
}

/* A unit that no set-up can fit is lent nothing (reading 33). */
static uint64_t run_move(unsigned unit, unsigned side)
{
    if (unit >= SECOND_UNITS)
        return second_move(&link_state, unit, side, NULL, 0);
    return second_move(&link_state, unit, side, memory[unit], MEMORY_WORDS);
}

static uint64_t run(unsigned kind, const uint8_t *body)
{
    struct second_link *l = &link_state;

    switch (kind) {
    case FIT: return run_fit(body);
    case WRITE: return second_write(l, body[0], body[1], (uint16_t)word_at(body + 2));
    case READ: return second_read(l, body[0], body[1]);
    case SLICE: return second_slice(l, (uint16_t)word_at(body), body[2]);
    case MOVE: return run_move(body[0], body[1]);
    case PERIOD: return second_period(l, body[0]);
    case RESET: return second_reset(l, body[0]);
    case WRITE_BYTE: return second_write_byte(l, body[0], body[1], body[2]);
    default: return second_interrupt_level(l, body[0], body[1]);
    }
}

/* "Each line is the kind and the number, in decimal; with 0, a read adds the
 * word, an interrupt level 0 or 1, a slice address, A and B."  Document 02: "The
 * script line of a move with NXL gains it as a third field, in decimal": such an
 * address is never 0, which lies inside every memory. */
static void print_line(unsigned kind, uint64_t answer)
{
    unsigned number = answer & 0xFFFF, value = (unsigned)(answer >> 16);

    if (number == 0 && (kind == READ || kind == LEVEL || (kind == MOVE && value != 0)))
        printf("%u 0 %u\n", kind, value);
    else if (number == 0 && kind == SLICE)
        printf("%u 0 %u %u %u\n", kind, value & 31, value >> 5 & 3, value >> 7 & 3);
    else
        printf("%u %u\n", kind, number);
}

/* The body of a record whose length is right for its kind. */
static bool take_body(unsigned kind, size_t bytes, uint8_t *body)
{
    if (kind < FIT || kind >= KINDS)
        return false;
    if (kind != FIT)
        return bytes == body_bytes[kind] && take(body, bytes);
    return bytes >= 1 && take(body, 1) && bytes == 1 + 3 * (size_t)body[0]
        && take(body + 1, bytes - 1);
}

/* One record; "An unknown kind or a record cut short or of wrong length prints
 * `stop` and ends; end of input between records just ends." */
static bool record(void)
{
    uint8_t head[4], body[LONGEST_BODY];
    size_t got = fread(head, 1, 4, stdin);
    unsigned kind;

    if (got == 0)
        return false;
    kind = got == 4 ? word_at(head + 2) : 0;
    if (got < 4 || word_at(head) < KIND_BYTES
        || !take_body(kind, word_at(head) - KIND_BYTES, body)) {
        puts("stop");
        return false;
    }
    print_line(kind, run(kind, body));
    return true;
}

int main(void)
{
    setvbuf(stdin, input, _IOFBF, sizeof input);
    setvbuf(stdout, output, _IOFBF, sizeof output);
#ifdef SECOND_COUNT
    atexit(second_print_counts);
#endif
    while (record())
        ;
    return fflush(stdout) == 0 ? EXIT_SUCCESS : EXIT_FAILURE;
}
