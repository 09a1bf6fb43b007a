/* second.h - document 02, No. 5, once more in plain C: the refusals, the list, what a list has to be, and a complete search. */
#ifndef SHARES_SECOND_H
#define SHARES_SECOND_H

#include <stdbool.h>
#include <stddef.h>
#include <stdint.h>

#define SECOND_MOST 50

typedef struct {
    unsigned number;
    unsigned length;
    uint16_t list[SECOND_MOST];
    bool early;                 /* turns had to come a place early */
    bool arranged;              /* no spread list was one that is asked for */
} second_answer;

/* What a call with so much room for a list answers. */
second_answer second_plan(const uint16_t *wanted, size_t wanted_length, size_t list_length);

/* Whether a list has 20 to 50 addresses, each wanted one its turns and no other, and no two neighbours equal around the ring. No address
 * is named twice. */
bool second_is_list(const uint16_t *wanted, size_t wanted_length, const uint16_t *list, unsigned length);

/* Over how many slices an address waits at most, from one turn to the next. */
unsigned second_gap(const uint16_t *list, unsigned length, uint16_t address);

/* Whether there is any list at all with these turns of four addresses and no two neighbours equal around the ring, by trying every list:
 * second_search tries them once, for all turns that are 50 or fewer together. */
void second_search(void);
bool second_exists(const unsigned turns[4]);

#endif
