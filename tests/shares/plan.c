/* plan.c - shares_plan against the second one: whether there is a list against the complete search, each list by itself and against the
 * second's, every refusal and its order, and what stays as it was. */
#include <stdio.h>
#include <stdlib.h>
#include <string.h>

#include "random.h"
#include "second.h"
#include "shares.h"

enum { ROOM = 64, UNTOUCHED = 0xA5A5 };
static unsigned long asked, listed, refused[10];

static void fail(const char *what, const uint16_t *wanted, size_t length)
{
    fprintf(stderr, "plan: %s:", what);
    for (size_t k = 0; k < length && k < 64; k++)
        fprintf(stderr, " %u", wanted[k]);
    fprintf(stderr, "\n");
    exit(1);
}

/* Asks for a list in so much room, and compares everything with the second plan. The numbers that are lent stand between others. */
static unsigned ask(const uint16_t *wanted, size_t length, size_t room)
{
    static uint16_t lent[2 + 140000];
    uint16_t list[ROOM + 2];
    second_answer wanted_answer = second_plan(wanted, length, room);
    uint32_t answer;
    if (length > 140000 || room > ROOM)
        fail("too long a load for this test", wanted, 0);
    for (unsigned k = 0; k < ROOM + 2; k++)
        list[k] = UNTOUCHED;
    memcpy(lent + 1, wanted, length * sizeof *wanted);
    answer = shares_plan(lent + 1, length, list + 1, room);
    asked++;
    refused[shares_number(answer) % 10]++;
    if (memcmp(lent + 1, wanted, length * sizeof *wanted))
        fail("the numbers were changed", wanted, length);
    if (shares_number(answer) != wanted_answer.number)
        fail("another number is answered", wanted, length);
    if (shares_value(answer) != wanted_answer.length)
        fail("another length is answered", wanted, length);
    for (unsigned k = 0; k < ROOM + 2; k++)
        if (list[k] != (k >= 1 && k <= wanted_answer.length ? wanted_answer.list[k - 1] : UNTOUCHED))
            fail("another word stands in the room", wanted, length);
    if (shares_number(answer) == 0 && !second_is_list(wanted, length, list + 1, shares_value(answer)))
        fail("the list is none that is asked for", wanted, length);
    listed += shares_number(answer) == 0;
    return shares_number(answer);
}

/* ---- loads of up to four transmitters, and the complete search */

static void shuffle(uint16_t *wanted, unsigned count)
{
    for (unsigned k = count - 1; k > 0; k--) {
        unsigned j = below(k + 1);
        uint16_t address = wanted[2 * k], turns = wanted[2 * k + 1];
        wanted[2 * k] = wanted[2 * j];
        wanted[2 * k + 1] = wanted[2 * j + 1];
        wanted[2 * j] = address;
        wanted[2 * j + 1] = turns;
    }
}

static void searched(void)
{
    unsigned t[4], loads = 0;
    second_search();
    for (t[0] = 0; t[0] <= 50; t[0]++)
        for (t[1] = 0; t[1] <= t[0] && t[0] + t[1] <= 50; t[1]++)
            for (t[2] = 0; t[2] <= t[1] && t[0] + t[1] + t[2] <= 50; t[2]++)
                for (t[3] = 0; t[3] <= t[2] && t[0] + t[1] + t[2] + t[3] <= 50; t[3]++) {
                    unsigned total = t[0] + t[1] + t[2] + t[3];
                    uint16_t wanted[8];
                    if (total < 20)
                        continue;
                    for (unsigned k = 0; k < 4; k++) {
                        wanted[2 * k] = (uint16_t)(1 + 8 * k + below(7));
                        wanted[2 * k + 1] = (uint16_t)t[k];
                    }
                    shuffle(wanted, 4);
                    if (ask(wanted, 8, SHARES_LIST_MOST) != (second_exists(t) ? 0 : SHARES_NO_LIST))
                        fail("the complete search says otherwise", wanted, 8);
                    loads++;
                }
    printf("plan: %u loads of up to four transmitters, as the complete search has them\n", loads);
}

/* ---- random loads: up to 31 transmitters, some that want nothing */

static unsigned some_load(uint16_t *wanted, unsigned total)
{
    unsigned count = 2 + below(30);
    bool used[32] = { false };
    for (unsigned k = 0; k < count; k++) {
        unsigned address;
        do
            address = 1 + below(31);
        while (used[address]);
        used[address] = true;
        wanted[2 * k] = (uint16_t)address;
        wanted[2 * k + 1] = 0;
    }
    for (unsigned turn = 0; turn < total; turn++)
        wanted[2 * (once_in(3) ? below(count) : below(count) / (1 + below(4))) + 1]++;
    return count;
}

static void random_loads(unsigned loads)
{
    for (unsigned k = 0; k < loads; k++) {
        uint16_t wanted[62];
        unsigned count = some_load(wanted, 18 + below(35));
        if (once_in(30))
            wanted[2 * below(count)] = (uint16_t)(once_in(2) ? 0 : 32 + below(1000));
        if (once_in(30))
            wanted[0] = wanted[2 * (count - 1)];
        if (once_in(30))
            wanted[2 * below(count) + 1] = (uint16_t)(65536 - below(60));
        ask(wanted, 2 * count - once_in(50), ROOM - (once_in(50) ? 15 + below(50) : below(15)));
    }
}

/* ---- every set of refusals together: the first is answered */

static void refusals(void)
{
    for (unsigned set = 0; set < 64; set++) {
        /* bit 0: too little room; 1: odd; 2: outside; 3: twice; 4: total; 5: no such list */
        bool bad_total = set >> 4 & 1, none = set >> 5 & 1;
        uint16_t wanted[11] = { 7, 10, 8, 10, 9, 1, 10, 0, 11, 0, 12 };
        unsigned expected = set & 3 ? 9 : set & 4 ? 1 : set & 8 ? 2 : set & 16 ? 3 : set & 32 ? 4 : 0;
        if (bad_total)
            wanted[1] = none ? 60 : 8, wanted[3] = none ? 10 : 8;
        else if (none)
            wanted[1] = 12;
        if (set >> 2 & 1)
            wanted[8] = once_in(2) ? 0 : 32;
        if (set >> 3 & 1)
            wanted[6] = 7;
        if (ask(wanted, set >> 1 & 1 ? 11 : 10, set & 1 ? SHARES_LIST_MOST - 1 : SHARES_LIST_MOST) != expected)
            fail("another refusal goes first", wanted, 10);
    }
}

/* ---- at the edges */

static void edges(void)
{
    static uint16_t many[140000];
    const uint16_t nearly_half[] = { 1, 10, 2, 10, 3, 1 }, half[] = { 1, 10, 2, 10 }, more[] = { 1, 11, 2, 10 }, one[] = { 1, 20 };
    const uint16_t wraps[] = { 1, 65535, 2, 11, 3, 10 }, wraps_to_half[] = { 1, 32768, 2, 32768, 3, 20 };
    uint16_t all[62];
    struct { const uint16_t *wanted; size_t length; unsigned number; } cases[] = {
        { nearly_half, 6, 0 }, { half, 4, 0 }, { more, 4, 4 }, { one, 2, 4 }, { one, 0, 3 }, { wraps, 6, 3 }, { wraps_to_half, 6, 3 },
    };
    for (unsigned k = 0; k < sizeof cases / sizeof *cases; k++)
        if (ask(cases[k].wanted, cases[k].length, SHARES_LIST_MOST) != cases[k].number)
            fail("another number is wanted", cases[k].wanted, cases[k].length);
    for (unsigned k = 0; k < 31; k++)
        all[2 * k] = (uint16_t)(k + 1), all[2 * k + 1] = 65535;
    if (ask(all, 62, ROOM) != 3)
        fail("the true sum is outside", all, 62);
    for (unsigned k = 0; k < 31; k++)
        all[2 * k + 1] = 1;
    if (ask(all, 62, ROOM) != 0)
        fail("31 transmitters with a turn each have a list", all, 62);
    for (size_t room = 0; room <= ROOM; room++)
        if (ask(half, 4, room) != (room < 50 ? 9 : 0))
            fail("another room is asked", half, 4);
    for (size_t k = 0; k < 140000; k++)
        many[k] = (uint16_t)(1 + k % 2);                                   /* address 1 and 2 turns, over and over */
    if (ask(many, 140000, ROOM) != 2)
        fail("an address is named 70,000 times", many, 8);
    many[139998] = 0;
    if (ask(many, 140000, ROOM) != 1)
        fail("the last address is outside", many, 8);
    if (ask(many, 139999, ROOM) != 9)
        fail("there is a number too many", many, 8);
}

int main(int argc, char **argv)
{
    refusals();
    edges();
    searched();
    random_loads(argc > 1 ? (unsigned)atoi(argv[1]) : 20000);
    printf("plan: %lu calls, %lu lists; refused as 1 %lu, as 2 %lu, as 3 %lu, as 4 %lu, as 9 %lu\n", asked, listed, refused[1], refused[2],
           refused[3], refused[4], refused[9]);
    return 0;
}
