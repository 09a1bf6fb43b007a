/* channels.c - a script on standard input, run by the second library; what became of each channel, by what both ends hold.
 *
 * A line for each slice answered 0: idle or not, and where a transmitter's channel ended in it, how. Beside these a line for each channel
 * that ended otherwise, at its record. */
#include <stdio.h>
#include <string.h>

#include "second.h"

enum { FIT = 1, WRITE, READ, SLICE, MOVE, PERIOD, RESET, WRITE_BYTE, LEVEL };

static struct second_link l, before;
static uint16_t memory[SECOND_UNITS][64];
static unsigned words[SECOND_UNITS], slices, opened[SECOND_UNITS];

static unsigned word_at(const uint8_t *bytes) { return bytes[0] | (unsigned)bytes[1] << 8; }

static uint32_t perform(unsigned kind, const uint8_t *body)
{
    uint32_t setup[4 * 255];

    switch (kind) {
    case FIT:
        for (unsigned i = 0; i < 4u * body[0]; i++)
            setup[i] = i % 4 == 3 ? 64 : body[1 + i / 4 * 3 + i % 4];
        return second_fit(&l, setup, 4 * (size_t)body[0]);
    case WRITE: return second_write(&l, body[0], body[1], (uint16_t)word_at(body + 2));
    case READ: return second_read(&l, body[0], body[1]);
    case SLICE: return second_slice(&l, (uint16_t)word_at(body), body[2]);
    case MOVE: return (uint32_t)second_move(&l, body[0], body[1], memory[body[0] % SECOND_UNITS], 64);
    case PERIOD: return second_period(&l, body[0]);
    case RESET: return second_reset(&l, body[0]);
    case WRITE_BYTE: return second_write_byte(&l, body[0], body[1], body[2]);
    default: return second_interrupt_level(&l, body[0], body[1]);
    }
}

static void ended(const char *how, unsigned unit)
{
    const struct second_transmitter *t = &before.unit[unit].transmitter;

    printf("%s %u %d %u %u\n", how, unit, before.receiver_at[t->destination] - 1, words[unit], slices - opened[unit] + 1);
}

/* What a call other than a slice left of the channels. */
static void look(unsigned kind)
{
    for (unsigned unit = 0; unit < before.units; unit++)
        if (before.unit[unit].transmitter.side.open && (kind == FIT || !l.unit[unit].transmitter.side.open))
            ended("unended", unit);
}

static void look_at_slice(uint32_t answer)
{
    unsigned address = answer >> 16 & 31, a = answer >> 21 & 3, b = answer >> 23 & 3;
    int unit = before.transmitter_at[address] - 1;
    bool was_open, is_open;

    slices++;
    was_open = unit >= 0 && before.unit[unit].transmitter.side.open;
    is_open = unit >= 0 && l.unit[unit].transmitter.side.open;
    puts(!was_open && a == 0 ? "idle" : "slice");
    if (unit < 0)
        return;
    if (!was_open && is_open)
        opened[unit] = slices, words[unit] = 0;
    words[unit] += before.unit[unit].transmitter.side.silo.held - l.unit[unit].transmitter.side.silo.held;
    if (was_open && !is_open) {
        int receiver = before.receiver_at[before.unit[unit].transmitter.destination] - 1;

        ended(a != 3 || b != 3 ? "unended" : before.unit[receiver].receiver.truncated ? "truncated" : "delivered", (unsigned)unit);
    }
}

int main(void)
{
    static uint8_t said[65536];
    uint8_t length[2];

    while (fread(length, 1, 2, stdin) == 2 && fread(said, 1, word_at(length), stdin) == word_at(length)) {
        unsigned kind = word_at(said);
        uint32_t answer;

        before = l;
        answer = perform(kind, said + 2);
        if (kind == SLICE && (answer & 0xFFFF) == 0)
            look_at_slice(answer);
        else if (kind != FIT || answer == 0)
            look(kind);
    }
    before = l;
    look(FIT);
    return 0;
}
