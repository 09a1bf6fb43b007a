/* orders.h - the refusals of a call in their order: which one is due where several
 * fit, and whether each was tried alone, and every two with no third beside them. */
#ifndef ORDERS_H
#define ORDERS_H

#include <stdbool.h>
#include <stdio.h>
#include <stdlib.h>

enum { REFUSALS_MOST = 7 };

struct order {
    const char *call;
    unsigned refusals, number[REFUSALS_MOST];
    unsigned long none, alone[REFUSALS_MOST], both[REFUSALS_MOST][REFUSALS_MOST];       /* how often nothing else fitted */
};

/* The number that is due; fits[i] says whether the refusal at place i fits. */
static unsigned due(struct order *o, const bool *fits)
{
    unsigned how_many = 0, first = 0, last = 0;

    for (unsigned i = 0; i < o->refusals; i++)
        if (fits[i]) {
            first = how_many == 0 ? i : first;
            last = i;
            how_many++;
        }
    if (how_many == 0) {
        o->none++;
        return 0;
    }
    if (how_many == 1)
        o->alone[first]++;
    if (how_many == 2)
        o->both[first][last]++;
    return o->number[first];
}

/* Ends the program where something was never tried. */
static void must_be_tried(const struct order *o)
{
    bool all = o->none > 0;

    for (unsigned i = 0; i < o->refusals; i++) {
        all = all && o->alone[i] > 0;
        for (unsigned later = i + 1; later < o->refusals; later++)
            all = all && o->both[i][later] > 0;
    }
    if (all)
        return;
    printf("%s: not every refusal was tried, alone and with every other alone\n", o->call);
    exit(1);
}

#endif
