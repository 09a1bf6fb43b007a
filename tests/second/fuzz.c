/* fuzz.c - random calls on second.c: what must hold after every call, that
 * refusals change nothing, and (with SECOND_COUNT) that everything was reached.
 *
 * fuzz [calls [seed]] */
#include <stdio.h>
#include <stdlib.h>
#include <string.h>
#define DRIVE_MEMORY 0
#define DRIVE_MOST 0xFFFFFFFF
#include "scenes.h"
#include "reached.h"

static struct second_link before;
static uint16_t memory[16][131072];
static unsigned long long calls;
static unsigned long long opened[SECOND_UNITS][2];      /* the call in which each side last opened */
static uint16_t serial_of[SECOND_UNITS][2];             /* what document 02's No. 6 has each side show */

static void must(bool holds, const char *what)
{
    if (holds)
        return;
    printf("fuzz: call %llu: %s\n", calls, what);
    exit(1);
}

static void side_holds(const struct second_side *s)
{
    must(s->silo.held <= 64 && s->silo.first < 64, "silo");
    must(s->words <= 128, "words of a block");
    must(!(s->byte_count & 1) && !(s->bus_address & 1), "bit 0");
    must(!(s->status & 0x8140), "status holds computed bits");
    must(!(s->command & 0x000A), "command holds computed bits");
    must(s->loaded || s->byte_count == 0, "not loaded, none left");
}

static void ring_holds(const struct second_master *m)
{
    const struct second_address_silo *s = &m->silo;

    must(s->held <= 50 && s->first < 64, "address silo");
    must(m->counter >= 1 && m->counter <= m->counter_switch, "counter");
    if (m->automatic)
        return;
    must(s->held >= 20, "AUT ADR clear with fewer than 20");
    for (unsigned i = 0; i < s->held; i++)
        must(s->address[(s->first + i) % 64] != s->address[(s->first + (i + 1) % s->held) % 64],
             "equal neighbours");
}

/* The sides that were closed before this call and are open now. */
static void note_openings(void)
{
    for (uint32_t u = 0; u < l.units; u++) {
        if (l.unit[u].transmitter.side.open && !before.unit[u].transmitter.side.open)
            opened[u][PCL_TRANSMITTER] = calls;
        if (l.unit[u].receiver.side.open && !before.unit[u].receiver.side.open)
            opened[u][PCL_RECEIVER] = calls;
    }
}

/* Two ends that are open with each other opened in one slice, so that no word is of another message; and they count the same words.
 * The counts alone do not show it: right behind a block's CRC both are 0, whatever end is restarted there. */
static void channel_holds(uint8_t address)
{
    uint32_t sends = l.transmitter_at[address] - 1u;
    const struct second_transmitter *t = &l.unit[sends].transmitter;
    uint32_t hears = l.receiver_at[t->destination] - 1u;    /* no unit where there is none */
    const struct second_side *r = &l.unit[hears % SECOND_UNITS].receiver.side;

    if (!t->side.open || hears >= l.units || !r->open || (r->command >> 8 & 31) != address)
        return;
    must(opened[sends][PCL_TRANSMITTER] == opened[hears][PCL_RECEIVER], "two ends of a channel not opened in the same slice");
    must(r->words == t->side.words, "two ends of a channel are out of step");
    must(r->serial == t->side.serial, "two ends of a channel have different serials");
}

static void serials_hold(void)
{
    for (uint32_t u = 0; u < l.units; u++)
        for (uint32_t side = 0; side < 2; side++)
            must(second_serial(&l, u, side) == (uint32_t)serial_of[u][side] << 16, "another serial than the openings have made");
}

static void everything_holds(void)
{
    must(l.master <= l.units, "master");
    for (uint32_t u = 0; u < l.units; u++) {
        const struct second_transmitter *t = &l.unit[u].transmitter;
        const struct second_receiver *r = &l.unit[u].receiver;

        side_holds(&t->side);
        side_holds(&r->side);
        ring_holds(&l.unit[u].master);
        must(t->side.open || !t->ending, "ending and closed");
        must(t->side.open || (t->side.command & 0x2000) || !t->side.mark, "mark, not BUSY");
        must(r->side.open || !r->side.mark, "mark, closed");
        must(r->side.open || !r->truncated, "truncated and closed");
        must(!(r->side.status & 0x10), "RSR bit 4 stored");
        must(!t->side.open || t->destination != 0, "destination 0");
    }
    for (uint8_t address = 1; address < SECOND_ADDRESSES; address++)
        if (l.transmitter_at[address])
            channel_holds(address);
    serials_hold();
}

static uint64_t tally(uint64_t answer)
{
    uint32_t number = answer & 0xFFFF;

    calls++;
    must(number <= 9, "number");
    must(number == 0 || answer < 10, "a value with a refusal");
    if (number == 1 || number == 2 || number == 3 || number == 4 || number == 7 || number == 9)
        must(memcmp(&before, &l, sizeof l) == 0, "a refusal changed the state");
    note_openings();
    everything_holds();
    memcpy(&before, &l, sizeof l);
    return answer;
}

/* Document 02, of the serial: "Only a new fit resets it, to 0." */
static uint32_t call_fit(const uint32_t *setup, size_t length)
{
    uint32_t answer = second_fit(&l, setup, length);

    if (answer == PCL_DONE)
        memset(serial_of, 0, sizeof serial_of);
    return (uint32_t)tally(answer);
}

static uint32_t call_write(uint32_t u, uint32_t o, uint32_t w) { return (uint32_t)tally(second_write(&l, u, o, (uint16_t)w)); }
static uint32_t call_write_byte(uint32_t u, uint32_t o, uint32_t b) { return (uint32_t)tally(second_write_byte(&l, u, o, (uint8_t)b)); }
static uint32_t call_read(uint32_t u, uint32_t o) { return (uint32_t)tally(second_read(&l, u, o)); }

/* One more at T, "starting again at 0 after 65,535", and the same at the R that it opens to. */
static void raise_serials(uint32_t t, uint32_t r)
{
    uint16_t old = serial_of[t][PCL_TRANSMITTER];

    serial_of[t][PCL_TRANSMITTER] = serial_of[r][PCL_RECEIVER] = old == 65535 ? 0 : old + 1;
}

/* Document 02: "both ends show the same one at success". */
static void look_at_success(uint32_t t, uint32_t r)
{
    must(l.unit[t].transmitter.side.status & l.unit[r].receiver.side.status & PCL_TSR_SUC_TXF, "no success at both ends");
    must(second_serial(&l, t, PCL_TRANSMITTER) == second_serial(&l, r, PCL_RECEIVER), "different serials at success");
}

/* A slice answered B 11, told by its codes and by what stood before it: to a T that was closed it is an opening, and to the last CRC a
 * message's success. No other slice, and no other call, changes a serial: everything_holds looks at that. */
static void look_at_taken(uint32_t answer)
{
    uint32_t t = before.transmitter_at[pcl_address(answer)] - 1u, r;
    const struct second_transmitter *sends = &before.unit[t % SECOND_UNITS].transmitter;

    r = before.receiver_at[sends->side.open ? sends->destination : sends->side.command >> 8 & 31] - 1u;
    must(t < l.units && r < l.units, "11 from nobody, or to nobody");
    if (!sends->side.open)
        raise_serials(t, r);
    if (pcl_a(answer) == 3)
        look_at_success(t, r);
}

static uint32_t call_slice(uint32_t data, uint32_t parity)
{
    uint32_t answer = second_slice(&l, (uint16_t)data, parity);

    if (pcl_number(answer) == PCL_DONE && pcl_b(answer) == 3)
        look_at_taken(answer);
    return (uint32_t)tally(answer);
}

/* A move's value is there exactly where it set NXL, and is the address that it tried. */
static uint64_t call_move(uint32_t u, uint32_t side, size_t lent)
{
    const struct second_unit *was = &before.unit[u % SECOND_UNITS], *is = &l.unit[u % SECOND_UNITS];
    uint64_t answer = second_move(&l, u, side, memory[u % 16], lent), value = answer >> 16;
    const struct second_side *old = side ? &was->receiver.side : &was->transmitter.side;
    const struct second_side *now = side ? &is->receiver.side : &is->transmitter.side;

    must((value != 0) == (~old->status & now->status & PCL_TSR_NXL) / PCL_TSR_NXL, "an address without NXL, or NXL without one");
    must(value == 0 || value == ((old->command >> 4 & 3u) << 16 | old->bus_address), "another address than the one tried");
    must(value == 0 || (value % 2 == 0 && value >> 18 == 0 && value / 2 >= was->memory_length), "no address outside the memory");
    return tally(answer);
}

/* So many single moves, on copies: the answer, the state, and the words. */
static uint64_t call_move_all(uint32_t u, uint32_t side, size_t lent)
{
    static struct second_link copy;
    static uint16_t words[131072];
    size_t size = unit_at(u)->memory_length * sizeof words[0];
    uint64_t answer, single;

    copy = l;
    memcpy(words, memory[u % 16], size);
    answer = second_move_all(&l, u, side, memory[u % 16], lent);
    for (uint64_t next = single = second_move(&copy, u, side, words, lent); pcl_number(next) == PCL_DONE;
         next = second_move(&copy, u, side, words, lent))
        single = next;
    must(pcl_number(answer) == pcl_number(single) && pcl_missing(answer) == pcl_missing(single), "not the single moves' answer");
    must(!memcmp(&copy, &l, sizeof l) && !memcmp(words, memory[u % 16], size), "not the single moves' state");
    must(pcl_words_moved(answer) <= 64, "more words than a silo holds");
    return tally(answer);
}

/* Each bit by the call at its side, on a copy. */
static void call_wants(void)
{
    static struct second_link copy;
    static uint16_t words[131072];
    uint64_t moves = tally(second_wants_moves(&l)), levels = tally(second_wants_interrupts(&l));

    copy = l;
    for (uint32_t u = 0; u < SECOND_UNITS; u++)
        for (uint32_t side = 0; side < 2; side++) {
            bool moved = pcl_number(second_move(&copy, u, side, words, 131072)) == PCL_DONE;

            must(((pcl_sides(moves) & pcl_side_bit(u, side)) != 0) == moved, "not the bit of the move");
            must(((pcl_sides(levels) & pcl_side_bit(u, side)) != 0) == (second_interrupt_level(&l, u, side) >> 16), "not the level's bit");
        }
}

static uint32_t call_period(uint32_t u) { return (uint32_t)tally(second_period(&l, u)); }
static uint32_t call_reset(uint32_t u) { return (uint32_t)tally(second_reset(&l, u)); }
static uint32_t call_level(uint32_t u, uint32_t side) { return (uint32_t)tally(second_interrupt_level(&l, u, side)); }

static uint32_t call_serial(uint32_t u, uint32_t side)
{
    uint32_t answer = second_serial(&l, u, side);

    must(memcmp(&before, &l, sizeof l) == 0, "showing a serial changed the state");
    return (uint32_t)tally(answer);
}

static void put_serial(uint32_t u, uint32_t side, uint16_t serial)
{
    struct second_unit *unit = &l.unit[u];

    serial_of[u][side] = serial;
    *(side == PCL_RECEIVER ? &unit->receiver.side.serial : &unit->transmitter.side.serial) = serial;
    memcpy(&before, &l, sizeof l);
}

int main(int count, char **arguments)
{
    unsigned long long wanted = count > 1 ? strtoull(arguments[1], NULL, 10) : 2000000;

    seed = count > 2 ? strtoull(arguments[2], NULL, 10) : 1;
    while (calls < wanted)
        scene();
    printf("fuzz: %llu calls, nothing broken\n", calls);
    if (count > 3)
        second_print_counts();
    int wrong = wrongly_reached("fuzz", "");
    printf("fuzz: %zu counters, %d not as they should be\n", second_counters(), wrong);
    return wrong != 0;
}
