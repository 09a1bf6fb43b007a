#include "second.h"

#include <string.h>

static unsigned times_in(const uint16_t *list, unsigned length, uint16_t address)
{
    unsigned times = 0;
    for (unsigned place = 0; place < length; place++)
        times += list[place] == address;
    return times;
}

bool second_is_list(const uint16_t *wanted, size_t wanted_length, const uint16_t *list, unsigned length)
{
    unsigned turns = 0;
    if (length < 20 || length > SECOND_MOST)
        return false;
    for (size_t k = 0; k < wanted_length; k += 2) {
        if (times_in(list, length, wanted[k]) != wanted[k + 1])
            return false;
        turns += wanted[k + 1];
    }
    if (turns != length)                            /* some other address stands in it */
        return false;
    for (unsigned place = 0; place < length; place++)
        if (list[place] == list[(place + 1) % length])
            return false;
    return true;
}

unsigned second_gap(const uint16_t *list, unsigned length, uint16_t address)
{
    unsigned most = 0, since = 0;
    for (unsigned place = 0; place < 2 * length; place++) {
        since++;
        if (list[place % length] == address) {
            if (place >= length && since > most)
                most = since;
            since = 0;
        }
    }
    return most;
}

/* ---- the list */

/* The transmitter, by its number, that speaks at a place, or `count` where none may. */
static unsigned speaker(const uint16_t *wanted, unsigned count, const unsigned *had, unsigned last, unsigned place, unsigned total, unsigned early)
{
    unsigned best = count;
    bool best_has_come = false;
    for (unsigned k = 0; k < count; k++) {
        unsigned turns = wanted[2 * k + 1];
        bool has_come = had[k] * total <= (place + early) * turns;
        if (had[k] == turns || k == last)
            continue;
        if (best < count) {
            unsigned mine = (had[k] + 1) * wanted[2 * best + 1], other = (had[best] + 1) * turns;
            bool sooner = mine < other || (mine == other && turns > wanted[2 * best + 1]);
            if (has_come != best_has_come ? best_has_come : !sooner)
                continue;
        }
        best = k;
        best_has_come = has_come;
    }
    return best;
}

static bool spread(const uint16_t *wanted, size_t wanted_length, unsigned total, unsigned early, uint16_t *list)
{
    unsigned count = (unsigned)(wanted_length / 2), had[31] = { 0 }, last = count;
    for (unsigned place = 0; place < total; place++) {
        unsigned now = speaker(wanted, count, had, last, place, total, early);
        if (now == count)
            return false;
        list[place] = wanted[2 * now];
        had[now]++;
        last = now;
    }
    return second_is_list(wanted, wanted_length, list, total);
}

static void arrange(const uint16_t *wanted, size_t wanted_length, unsigned total, uint16_t *list)
{
    uint16_t row[SECOND_MOST];
    size_t largest = 0;
    unsigned long_so_far = 0;
    for (size_t k = 2; k < wanted_length; k += 2)
        if (wanted[k + 1] > wanted[largest + 1])
            largest = k;
    for (unsigned turn = 0; turn < wanted[largest + 1]; turn++)
        row[long_so_far++] = wanted[largest];
    for (size_t k = 0; k < wanted_length; k += 2)
        for (unsigned turn = 0; k != largest && turn < wanted[k + 1]; turn++)
            row[long_so_far++] = wanted[k];
    for (unsigned place = 0; place < total; place++)
        list[place] = row[place % 2 == 0 ? place / 2 : (total + 1) / 2 + place / 2];
}

second_answer second_plan(const uint16_t *wanted, size_t wanted_length, size_t list_length)
{
    second_answer answer = { .number = 0 };
    bool outside = false, twice = false, half = false;
    uint64_t total = 0;
    for (size_t k = 0; k + 1 < wanted_length; k += 2) {
        outside |= wanted[k] < 1 || wanted[k] > 31;
        total += wanted[k + 1];
    }
    for (size_t k = 0; k + 1 < wanted_length && !outside && !twice; k += 2)
        for (size_t j = 0; j < k; j += 2)
            twice |= wanted[j] == wanted[k];
    for (size_t k = 0; k + 1 < wanted_length; k += 2)
        half |= 2 * (uint64_t)wanted[k + 1] > total;
    if (list_length < SECOND_MOST || wanted_length % 2)
        answer.number = 9;
    else if (outside)
        answer.number = 1;
    else if (twice)
        answer.number = 2;
    else if (total < 20 || total > 50)
        answer.number = 3;
    else if (half)
        answer.number = 4;
    if (answer.number)
        return answer;
    answer.length = (unsigned)total;
    if (!spread(wanted, wanted_length, answer.length, 0, answer.list)) {
        answer.early = true;
        if (!spread(wanted, wanted_length, answer.length, 1, answer.list)) {
            answer.arranged = true;
            arrange(wanted, wanted_length, answer.length, answer.list);
        }
    }
    return answer;
}

/* ---- the complete search. For the turns that are left, a bit for each last and first address: the list can be gone on with and closed.
 * What is tried for one list is remembered for all that go on alike. */

#define SIDE (SECOND_MOST + 1)
static uint16_t goes_on[SIDE][SIDE][SIDE][SIDE];

static uint16_t *left(const unsigned turns[4]) { return &goes_on[turns[0]][turns[1]][turns[2]][turns[3]]; }

static bool can(const unsigned turns[4], unsigned last, unsigned first)
{
    unsigned rest[4], all = turns[0] + turns[1] + turns[2] + turns[3];
    if (all == 0)
        return last != first;
    for (unsigned next = 0; next < 4; next++) {
        if (next == last || turns[next] == 0)
            continue;
        memcpy(rest, turns, sizeof rest);
        rest[next]--;
        if (*left(rest) >> (4 * next + first) & 1)
            return true;
    }
    return false;
}

void second_search(void)
{
    unsigned t[4];
    for (t[0] = 0; t[0] <= SECOND_MOST; t[0]++)
        for (t[1] = 0; t[0] + t[1] <= SECOND_MOST; t[1]++)
            for (t[2] = 0; t[0] + t[1] + t[2] <= SECOND_MOST; t[2]++)
                for (t[3] = 0; t[0] + t[1] + t[2] + t[3] <= SECOND_MOST; t[3]++)
                    for (unsigned last = 0; last < 4; last++)
                        for (unsigned first = 0; first < 4; first++)
                            *left(t) |= (uint16_t)(can(t, last, first) << (4 * last + first));
}

bool second_exists(const unsigned turns[4])
{
    unsigned rest[4];
    for (unsigned first = 0; first < 4; first++) {
        if (turns[first] == 0)
            continue;
        memcpy(rest, turns, sizeof rest);
        rest[first]--;
        if (*left(rest) >> (4 * first + first) & 1)
            return true;
    }
    return false;
}
