/* reached.h - whether everything was reached that SECOND_COUNT counts. */
#ifndef REACHED_H
#define REACHED_H

#include <stdio.h>
#include <string.h>
#include "second.h"

/* Cells of the chart that no rule of the receiver leads to; what two ends do that
 * are not in one channel, and none are from a fit on, since an opening word is
 * marked as such; and the numbers that a sentence gives to each call. */
static inline bool is_unreachable(const char *name)
{
    static const char *const none[] = { "chart_A_00_B_01", "chart_A_00_B_11", "chart_A_01_B_11",
        "rule_6_closed_transmitter", "rule_7_closed_transmitter", "rule_7_again", "rule_8_due_taken_is_a_word",
        "rule_8_due_good_of_a_word", "rule_8_due_good_of_a_closed_transmitters_word", "rule_9_stored_a_crc",
        "rule_9_verdict_stands", "closed_01", "closed_10" };
    static const char *const numbers[] = { "fit 07", "write 01256", "write_byte 012356",
        "read 0124", "slice 078", "move 0149", "period 01", "reset 01", "interrupt_level 01", "serial 01",
        "move_all 0149", "wants_moves 0", "wants_interrupts 0" };
    size_t length = strlen(name);

    for (size_t i = 0; i < sizeof none / sizeof none[0]; i++)
        if (!strcmp(name, none[i]))
            return true;
    if (strncmp(name, "number_", 7) != 0)
        return false;
    for (size_t i = 0; i < sizeof numbers / sizeof numbers[0]; i++) {
        size_t call = strcspn(numbers[i], " ");
        if (call == length - 9 && !strncmp(name + 7, numbers[i], call))
            return !strchr(numbers[i] + call, name[length - 1]);
    }
    return false;
}

/* Counts what was reached and should not have been, or was not; `never` names, with a space
 * behind each, what the test cannot reach for a reason of its own. */
static inline int wrongly_reached(const char *who, const char *never)
{
    int wrong = 0;

    for (size_t i = 0; i < second_counters(); i++) {
        const char *name = second_counter_name(i), *found = strstr(never, name);
        bool cannot = is_unreachable(name) || (found && found[strlen(name)] == ' ');

        if ((second_counter(i) == 0) == cannot)
            continue;
        printf("%s: %s %s\n", who, name, cannot ? "reached" : "not reached");
        wrong++;
    }
    return wrong;
}

/* Whether everything was reached whose name begins so, but for what cannot be. */
static inline bool all_reached(const char *who, const char *beginning)
{
    bool all = true;

    for (size_t i = 0; i < second_counters(); i++) {
        const char *name = second_counter_name(i);

        if (strncmp(name, beginning, strlen(beginning)) != 0 || second_counter(i) != 0 || is_unreachable(name))
            continue;
        printf("%s: %s not reached\n", who, name);
        all = false;
    }
    return all;
}

static inline bool was_reached(const char *name)
{
    for (size_t i = 0; i < second_counters(); i++)
        if (!strcmp(name, second_counter_name(i)))
            return second_counter(i) != 0;
    return false;
}

#endif
