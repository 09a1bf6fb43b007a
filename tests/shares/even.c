/* even.c - the second plan by itself. Its complete search against every list written out, of few places; and every load there is, but for
 * the names of the addresses: each has a list that was spread, and no transmitter waits twice as long as its share would have it. The last
 * three lines are sentences of docs/SHARES.md, as they stand there. */
#include <stdio.h>
#include <stdlib.h>
#include <string.h>

#include "second.h"

static void fail(const char *what)
{
    fprintf(stderr, "even: %s\n", what);
    exit(1);
}

/* ---- lists of up to 9 places over four addresses, one by one */

enum { PLACES = 9 };
static bool written[PLACES + 1][PLACES + 1][PLACES + 1][PLACES + 1];

static void write_out(unsigned length)
{
    unsigned list[PLACES], turns[4];
    unsigned long lists = 1ul << (2 * length);
    for (unsigned long k = 0; k < lists; k++) {
        bool apart = true;
        memset(turns, 0, sizeof turns);
        for (unsigned place = 0; place < length; place++)
            turns[list[place] = k >> (2 * place) & 3]++;
        for (unsigned place = 0; place < length; place++)
            apart &= list[place] != list[(place + 1) % length];
        if (apart)
            written[turns[0]][turns[1]][turns[2]][turns[3]] = true;
    }
}

static unsigned compare_search(void)
{
    unsigned loads = 0, t[4];
    for (unsigned length = 1; length <= PLACES; length++)
        write_out(length);
    for (t[0] = 0; t[0] <= PLACES; t[0]++)
        for (t[1] = 0; t[0] + t[1] <= PLACES; t[1]++)
            for (t[2] = 0; t[0] + t[1] + t[2] <= PLACES; t[2]++)
                for (t[3] = 0; t[0] + t[1] + t[2] + t[3] <= PLACES; t[3]++, loads++)
                    if (second_exists(t) != written[t[0]][t[1]][t[2]][t[3]])
                        fail("the search misses a list, or finds one that there is not");
    return loads;
}

/* ---- every load of 20 to 50 turns, the larger shares first */

static unsigned long loads, early, above[3];

static void look_at(const uint16_t *wanted, unsigned count, unsigned total)
{
    second_answer answer = second_plan(wanted, 2 * count, SECOND_MOST);
    unsigned worst = 0;
    loads++;
    early += answer.early;
    if (answer.arranged)
        fail("a load needs the arrangement, and docs/SHARES.md says that none does");
    if (answer.number != 0 || answer.length != total || !second_is_list(wanted, 2 * count, answer.list, total))
        fail("a load with a list has none");
    for (unsigned k = 0; k < count; k++) {
        unsigned hundredths = 100 * second_gap(answer.list, total, wanted[2 * k]) * wanted[2 * k + 1] / total;
        if (hundredths > worst)
            worst = hundredths;
    }
    if (worst >= 200)
        fail("a transmitter waits twice its share");
    above[0] += worst >= 125;
    above[1] += worst >= 150;
    above[2] += worst >= 175;
}

static void all_loads(uint16_t *wanted, unsigned count, unsigned left, unsigned most, unsigned total)
{
    if (left == 0)
        look_at(wanted, count, total);
    else if (count < 31)
        for (unsigned turns = most < left ? most : left; turns >= 1; turns--) {
            wanted[2 * count] = (uint16_t)(count + 1);
            wanted[2 * count + 1] = (uint16_t)turns;
            all_loads(wanted, count + 1, left - turns, turns, total);
        }
}

/* A number as the document writes it, with a comma before each three digits. */
static const char *written_out(unsigned long number)
{
    static char texts[8][32];
    static unsigned next;
    char *text = texts[next++ % 8], digits[24];
    unsigned length = (unsigned)sprintf(digits, "%lu", number), at = 0;
    for (unsigned k = 0; k < length; k++) {
        if (k > 0 && (length - k) % 3 == 0)
            text[at++] = ',';
        text[at++] = digits[k];
    }
    text[at] = 0;
    return text;
}

int main(void)
{
    uint16_t wanted[62];
    second_search();
    printf("even: the search is right on %u loads of up to %d turns\n", compare_search(), PLACES);
    for (unsigned total = 20; total <= SECOND_MOST; total++)
        all_loads(wanted, 0, total, total / 2, total);
    printf("There are %s loads of 20 to 50 turns that have a list, but for the names of the addresses\n", written_out(loads));
    printf("%s need the second try, none needs the arrangement, and no transmitter ever waits as long as 2 x L/k from one turn to the next.\n",
           written_out(early));
    printf("In %s loads somebody waits 1.25 x L/k or longer, in %s 1.5 x L/k, in %s 1.75 x L/k.\n", written_out(above[0]),
           written_out(above[1]), written_out(above[2]));
    return 0;
}
