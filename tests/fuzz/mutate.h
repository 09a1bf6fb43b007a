/* mutate.h - for libFuzzer: what counts as reached beside the branches of the
 * code, and changes to a script that mostly leave it one: records put in, taken
 * out, repeated, and changed in their bodies. */
#include "random.h"

/* A byte for each counter of SECOND_COUNT: whether this script has moved it. */
__attribute__((used, section("__libfuzzer_extra_counters"))) static uint8_t moved[512];

static void note_reached(void)
{
    static unsigned long long before[sizeof moved];

    for (size_t i = 0; i < second_counters() && i < sizeof moved; i++) {
        moved[i] = second_counter(i) != before[i];
        before[i] = second_counter(i);
    }
}

size_t LLVMFuzzerMutate(uint8_t *data, size_t size, size_t max_size);

enum { RECORDS_MOST = 4096 };
static size_t starts[RECORDS_MOST + 1];         /* where each record starts, and the last one ends */

static size_t find_records(const uint8_t *data, size_t size)
{
    size_t count = 0, at = 0;

    while (count < RECORDS_MOST && at + 4 <= size && word_at(data + at) >= KIND_BYTES && at + 2 + word_at(data + at) <= size) {
        starts[count++] = at;
        at += 2 + word_at(data + at);
    }
    starts[count] = at;
    return count;
}

/* Puts bytes in at a place; none where they do not fit. */
static size_t put_in(uint8_t *data, size_t size, size_t most, size_t at, const uint8_t *bytes, size_t count)
{
    if (size + count > most)
        return size;
    memmove(data + at + count, data + at, size - at);
    memcpy(data + at, bytes, count);
    return size + count;
}

/* A record of any kind that has a good chance to do something. */
static size_t make_record(uint8_t *r)
{
    static const uint8_t registers[] = { PCL_TCR, PCL_TSR, PCL_TSDB, PCL_TSBC, PCL_TSBA, PCL_TMMR, PCL_RCR, PCL_RSR, PCL_RDDB,
                                         PCL_RDBC, PCL_RDBA };
    static const uint16_t words[] = { 0x6601, 0x6001, 0x2601, 0xE001, 0x8000, 0x0002, 0xFFFE, 0xFF00, 0x1100, 0x0200, 0x0080 };
    uint32_t kind = 1 + below(KINDS - 1), word = once_in(2) ? words[below(sizeof words / 2)] : any_word();

    if (kind == FIT) {
        static const uint8_t fit[] = { 9, 0, 1, 0, 2, 1, 6, 2, 2, 7, 2 };

        memcpy(r, fit, sizeof fit);
        return sizeof fit;
    }
    r[0] = (uint8_t)(body_bytes[kind] + KIND_BYTES);
    r[1] = r[3] = 0;
    r[2] = (uint8_t)kind;
    r[4] = (uint8_t)below(2);
    r[5] = kind == MOVE || kind == LEVEL ? (uint8_t)below(2) : registers[below(sizeof registers)];
    r[6] = (uint8_t)word;
    r[7] = (uint8_t)(word >> 8);
    if (kind == WRITE_BYTE && once_in(2)) {
        r[5]++;
        r[6] = r[7];
    }
    if (kind == SLICE && !once_in(5))
        r[4] = r[5] = r[6] = 0;
    return 2u + r[0];
}

size_t LLVMFuzzerCustomMutator(uint8_t *data, size_t size, size_t max_size, unsigned int with_seed)
{
    static uint8_t bytes[1 << 16];
    size_t count = find_records(data, size), first, last, at;

    seed = with_seed;
    if (count == 0 || once_in(20))
        return LLVMFuzzerMutate(data, size, max_size);
    first = below((uint32_t)count);
    last = first + 1 + below(once_in(2) ? 2 : 40);
    last = last < count ? last : count;
    at = starts[below((uint32_t)count + 1)];
    switch (below(4)) {
    case 0:                                     /* out */
        memmove(data + starts[first], data + starts[last], size - starts[last]);
        return size - (starts[last] - starts[first]);
    case 1:                                     /* again, elsewhere */
        if (starts[last] - starts[first] > sizeof bytes)
            return size;
        memcpy(bytes, data + starts[first], starts[last] - starts[first]);
        return put_in(data, size, max_size, at, bytes, starts[last] - starts[first]);
    case 2:                                     /* in */
        return put_in(data, size, max_size, at, bytes, make_record(bytes));
    default:                                    /* one byte of one body */
        at = starts[first] + 4 + below((uint32_t)(starts[first + 1] - starts[first] > 4 ? starts[first + 1] - starts[first] - 4 : 1));
        if (at < size)
            data[at] = once_in(2) ? (uint8_t)below(256) : data[at] ^ (uint8_t)(1 << below(8));
        return size;
    }
}
