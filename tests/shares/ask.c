/* ask.c - a line of numbers on standard input, address and turns for each transmitter; a line on standard output: the number that
 * shares_plan answers, and the list. */
#include <stdio.h>
#include <stdlib.h>

#include "shares.h"

int main(void)
{
    char line[1024];
    while (fgets(line, sizeof line, stdin)) {
        uint16_t wanted[128], list[SHARES_LIST_MOST];
        size_t length = 0;
        char *at = line, *end;
        uint32_t answer;
        for (;;) {
            unsigned long number = strtoul(at, &end, 10);
            if (end == at)
                break;
            wanted[length++] = (uint16_t)number;
            at = end;
        }
        answer = shares_plan(wanted, length, list, SHARES_LIST_MOST);
        printf("%u", shares_number(answer));
        for (unsigned place = 0; place < shares_value(answer); place++)
            printf(" %u", list[place]);
        printf("\n");
    }
    return 0;
}
