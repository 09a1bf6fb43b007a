/* fits.c - what a fit has to refuse, and what it leaves of the room it is lent. */
#include "lent.h"

/* One number of one unit is bad. */
static void numbers_refused(uint32_t units)
{
    static const uint32_t bad[4][8] = {
        { 0, 32, 33, 256 + 1, 65536 + 1, 0x80000001, 0xFFFFFFFF, 0 }, { 0, 32, 33, 256 + 1, 65536 + 1, 0x80000001, 0xFFFFFFFF, 0 },
        { 0, 1, 32, 33, 256 + 2, 65536 + 2, 0x80000002, 0xFFFFFFFF }, { 0, 131073, 0x40000, 0x1000001, 0x80000001, 0xFFFFFFFF, 0, 0 }
    };
    uint32_t setup[PCL_SETUP(PCL_UNITS_MOST)];

    for (size_t place = 0; place < PCL_SETUP(units); place++)
        for (size_t i = 0; i < 8; i++) {
            memcpy(setup, good(units), PCL_SETUP(units) * sizeof *setup);
            setup[place] = bad[place % 4][i];
            REFUSED(fit(setup, PCL_SETUP(units)), 7);
        }
    for (size_t place = 4; place < PCL_SETUP(units); place++)
        if (place % 4 < 2) {                                    /* two addresses equal */
            memcpy(setup, good(units), PCL_SETUP(units) * sizeof *setup);
            setup[place] = setup[place % 4];
            REFUSED(fit(setup, PCL_SETUP(units)), 7);
        }
}

/* 7 for every count that is not 4 for each of 1 to 16 units; 9 before it where the room is too small. */
static void counts_refused(const uint16_t *content, size_t content_length)
{
    for (size_t count = 0; count <= 4 * 40; count++) {
        size_t units = count / 4 < 16 ? count / 4 : 16;
        bool breaks = count % 4 != 0 || count < 4 || count > 64;

        if (breaks || count % 8 == 0)
            for (unsigned less = 0; less < 2; less++) {
                size_t wanted = PCL_CELLS(units) - less;

                length = 0;
                lend(wanted);
                memcpy(cells, content, (wanted < content_length ? wanted : content_length) * sizeof *cells);
                keep();
                if (less)
                    REFUSED(fit(good(40), count), 9);
                else if (breaks)
                    REFUSED(fit(good(40), count), 7);
                else
                    IS(fit(good(40), count), 0);
            }
    }
}

/* The cells past the units' own stay as they were, whatever they hold; a fit asks nothing of what it finds. */
static void room_behind(void)
{
    static const uint32_t counts[] = { 1, 5, 16 };

    for (size_t i = 0; i < sizeof counts / sizeof counts[0]; i++) {
        uint16_t *fresh;

        length = 0;
        lend(PCL_CELLS(counts[i]));
        IS(fit(good(counts[i]), PCL_SETUP(counts[i])), 0);
        fresh = block_like(cells, length);
        lend(PCL_CELLS(counts[i]) + 9);
        memset(cells, 0xA5, length * sizeof *cells);
        keep();
        IS(fit(good(counts[i]), PCL_SETUP(counts[i])), 0);
        IS(memcmp(cells, fresh, (length - 9) * sizeof *cells), 0);
        IS(memcmp(cells + length - 9, cells_before + length - 9, 9 * sizeof *cells), 0);
        IS(in_range(cells, length), true);
        free(fresh);
    }
}

static void fits_refused(void)
{
    uint16_t *content;
    size_t content_length;

    for (uint32_t units = 1; units <= 16; units += 5) {
        state_of(units);
        numbers_refused(units);
    }
    state_of(16);
    content = block_like(cells, length);
    content_length = length;
    counts_refused(content, content_length);
    memset(content, 0xFF, content_length * sizeof *content);
    counts_refused(content, content_length);
    free(content);
    room_behind();
}

int main(void)
{
    fits_refused();
    return finish("refusals, fits");
}
