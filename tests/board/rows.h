/* rows.h - rows of numbers to be lent, each between two stretches of addresses
 * that nobody may touch. A row begins right behind the one or ends right before
 * the other, in turn, so that an access past that end of it ends the program; the
 * bytes on its other side are canaries, looked at after the call.
 *
 * Who includes it defines _DEFAULT_SOURCE before all else, for MAP_ANONYMOUS. */
#ifndef ROWS_H
#define ROWS_H

#include <stdbool.h>
#include <stdint.h>
#include <stdio.h>
#include <stdlib.h>
#include <string.h>
#include <sys/mman.h>

enum { NO_ACCESS = 65536, BESIDE = 64, CANARY = 0xA5 };         /* bytes; a multiple of every page's length */

struct row {
    unsigned char *first, *end;         /* what can be touched */
    unsigned char *lent;                /* of that, the row that is lent now */
    size_t bytes;
    bool at_end;
};

static struct row row_of(size_t most)
{
    size_t room = (most / NO_ACCESS + 1) * NO_ACCESS;
    unsigned char *all = mmap(NULL, room + 2 * NO_ACCESS, PROT_NONE, MAP_PRIVATE | MAP_ANONYMOUS, -1, 0);
    struct row row = { .first = all + NO_ACCESS, .end = all + NO_ACCESS + room };

    if (all == MAP_FAILED || mprotect(row.first, room, PROT_READ | PROT_WRITE) != 0) {
        printf("there is no room for a row of %zu bytes\n", most);
        exit(1);
    }
    return row;
}

/* The canaries beside the row: the bytes before one at the end, the bytes behind one at the front. */
static unsigned char *beside(const struct row *row, size_t *count)
{
    size_t left = (size_t)(row->end - row->first) - row->bytes;

    *count = left < BESIDE ? left : BESIDE;
    return row->at_end ? row->lent - *count : row->lent + row->bytes;
}

static void *lend(struct row *row, const void *content, size_t bytes)
{
    size_t canaries;
    unsigned char *first;

    row->at_end = !row->at_end;
    row->bytes = bytes;
    row->lent = row->at_end ? row->end - bytes : row->first;
    if (bytes)
        memcpy(row->lent, content, bytes);
    first = beside(row, &canaries);
    memset(first, CANARY, canaries);
    return row->lent;
}

/* Nothing beside the row was written. */
static bool is_alone(const struct row *row)
{
    size_t canaries;
    const unsigned char *first = beside(row, &canaries);

    for (size_t i = 0; i < canaries; i++)
        if (first[i] != CANARY)
            return false;
    return true;
}

/* The row holds these bytes. */
static bool holds(const struct row *row, const void *content) { return row->bytes == 0 || memcmp(row->lent, content, row->bytes) == 0; }

#endif
