/* device.c - the PCL11-B as a device; device.h says how an emulator uses it.
 *
 * It includes pcl_trace.h, so that the emulator can have every call written down.
 * Without a trace include pcl.h, and nothing else changes. */
#include <stdlib.h>
#include <string.h>
#include "device.h"
#include "pcl_text.h"
#include "pcl_trace.h"

/* ---- the registers */

/* In the order in which they are shown. */
static const uint8_t registers[] = {
    PCL_TCR, PCL_TSR, PCL_TSDB, PCL_TSBC, PCL_TSBA, PCL_TMMR, PCL_TSCRC, PCL_RCR, PCL_RSR, PCL_RDDB, PCL_RDBC, PCL_RDBA, PCL_RDCRC
};

static size_t cells_length(const struct bus *bus) { return PCL_CELLS(bus->units); }

/* Numbers 1, 7 and 9 are never a program's doing: the emulator has lent the wrong thing, or named a unit that is not there. */
static uint64_t checked(uint64_t answer)
{
    unsigned number = pcl_number(answer);

    if (number == PCL_NOT_FITTED || number == PCL_BAD_SETUP || number == PCL_BAD_ROOM) {
        fprintf(stderr, "device: the link refuses a call: %s\n", pcl_number_text(number));
        exit(EXIT_FAILURE);
    }
    return answer;
}

/* ---- set-up */

struct device *device_add(struct bus *bus, uint32_t transmitter, uint32_t receiver, uint16_t *memory, size_t memory_words)
{
    struct device *device = &bus->device[bus->units++];

    device->transmitter = transmitter;
    device->receiver = receiver;
    device->counter_switch = 2;
    device->address[PCL_TRANSMITTER] = PCL_UNIBUS_TRANSMITTER;
    device->address[PCL_RECEIVER] = PCL_UNIBUS_RECEIVER;
    device->vector[PCL_TRANSMITTER] = PCL_VECTOR_TRANSMITTER;
    device->vector[PCL_RECEIVER] = PCL_VECTOR_RECEIVER;
    device->memory = memory;
    device->memory_words = memory_words;
    device->request[PCL_TRANSMITTER] = device->request[PCL_RECEIVER] = false;
    return device;
}

bool device_fit(struct bus *bus)
{
    uint32_t setup[PCL_SETUP(PCL_UNITS_MOST)];

    for (uint32_t unit = 0; unit < bus->units; unit++) {
        const struct device *device = &bus->device[unit];

        setup[4 * unit] = device->transmitter;
        setup[4 * unit + 1] = device->receiver;
        setup[4 * unit + 2] = device->counter_switch;
        setup[4 * unit + 3] = (uint32_t)device->memory_words;
    }
    bus->slices = 0;
    bus->missing = 0;
    return pcl_number(pcl_fit(bus->cells, cells_length(bus), setup, PCL_SETUP(bus->units))) == PCL_DONE;
}

/* ---- interrupts */

/* A side asks as long as its status bits stand, and no longer: so its level is asked again after every call that may change it, and a
 * program that returns from its interrupt without having cleared them is interrupted at once again. */
static void ask_level(struct bus *bus, uint32_t unit, uint32_t side)
{
    bus->device[unit].request[side] = pcl_value(checked(pcl_level(bus->cells, cells_length(bus), unit, side))) != 0;
}

static void ask_levels(struct bus *bus, uint32_t unit)
{
    ask_level(bus, unit, PCL_TRANSMITTER);
    ask_level(bus, unit, PCL_RECEIVER);
}

/* An access changes the level of the side whose register it reaches, and of no other; a read does so where it takes the last word. */
static void ask_after(struct bus *bus, uint32_t unit, uint32_t offset)
{
    ask_level(bus, unit, offset < PCL_RCR ? PCL_TRANSMITTER : PCL_RECEIVER);
}

/* The transmitter is the closer one to the processor (manual, 4.2.2 and 4.3.2). */
uint16_t device_vector(const struct bus *bus, uint32_t unit)
{
    const struct device *device = &bus->device[unit];

    if (device->request[PCL_TRANSMITTER])
        return device->vector[PCL_TRANSMITTER];
    return device->request[PCL_RECEIVER] ? device->vector[PCL_RECEIVER] : 0;
}

uint16_t device_serial(const struct bus *bus, uint32_t unit, uint32_t side)
{
    return (uint16_t)pcl_value(checked(pcl_serial(bus->cells, cells_length(bus), unit, side)));
}

/* ---- a program's accesses */

/* The link's offset for one of the manual's map. RDCRC is at 28 there and at 26 in the link; no register is at 26 there, for which the
 * link is handed 28, where it has none. */
static uint32_t offset_in_link(uint32_t offset)
{
    uint32_t half = offset & 1;

    switch (offset - half) {
    case DEVICE_RDCRC: return PCL_RDCRC + half;
    case PCL_RDCRC: return DEVICE_RDCRC + half;
    default: return offset;
    }
}

/* The link's offset for an address on the Unibus. The link has the receiver's registers 16 bytes above the transmitter's; the jumpers
 * of a machine may have them anywhere. */
static bool offset_of(const struct device *device, uint32_t address, uint32_t *offset)
{
    for (uint32_t side = 0; side < 2; side++) {
        if (address >= device->address[side] && address < device->address[side] + PCL_UNIBUS_ROOM) {
            *offset = offset_in_link(address - device->address[side] + side * PCL_UNIBUS_ROOM);
            return true;
        }
    }
    return false;
}

/* Within its span the device always answers (manual, 3.2.7). Where there is no register, number 2, a read gives zeros and a write has no
 * effect. A byte to TSDB, 3, changes nothing. What came of 4, 5 and 6 the program finds in the registers: a ready bit, AUT ADR, OVERUN. */
bool device_read(struct bus *bus, uint32_t unit, uint32_t address, uint16_t *word)
{
    uint32_t offset;

    if (!offset_of(&bus->device[unit], address, &offset))
        return false;
    *word = (uint16_t)pcl_value(checked(pcl_read(bus->cells, cells_length(bus), unit, offset & ~1u)));
    ask_after(bus, unit, offset);
    return true;
}

bool device_write(struct bus *bus, uint32_t unit, uint32_t address, uint16_t word)
{
    uint32_t offset;

    if (!offset_of(&bus->device[unit], address, &offset))
        return false;
    checked(pcl_write(bus->cells, cells_length(bus), unit, offset, word));
    ask_after(bus, unit, offset);
    return true;
}

bool device_write_byte(struct bus *bus, uint32_t unit, uint32_t address, uint8_t byte)
{
    uint32_t offset;

    if (!offset_of(&bus->device[unit], address, &offset))
        return false;
    checked(pcl_write_byte(bus->cells, cells_length(bus), unit, offset, byte));
    ask_after(bus, unit, offset);
    return true;
}

void device_reset(struct bus *bus, uint32_t unit)
{
    checked(pcl_reset(bus->cells, cells_length(bus), unit));
    ask_levels(bus, unit);
}

void device_period(struct bus *bus, uint32_t unit)
{
    checked(pcl_period(bus->cells, cells_length(bus), unit));
    ask_levels(bus, unit);
}

/* ---- the service routine */

/* All the words that a silo has room for, or has to give. */
static void move_words(struct bus *bus, uint32_t unit, uint32_t side)
{
    const struct device *device = &bus->device[unit];
    uint64_t answer = checked(pcl_move_all(bus->cells, cells_length(bus), device->memory, device->memory_words, unit, side));

    if (pcl_missing(answer) != 0)
        bus->missing = pcl_missing(answer);
}

/* Words are moved before a slice, at the sides that have any. */
static void move_all_words(struct bus *bus)
{
    uint32_t sides = pcl_sides(checked(pcl_wants_moves(bus->cells, cells_length(bus))));

    for (uint32_t unit = 0; sides != 0 && unit < bus->units; unit++)
        for (uint32_t side = 0; side < 2; side++)
            if (sides & pcl_side_bit(unit, side))
                move_words(bus, unit, side);
}

/* After it the levels of all machines are asked at once. */
static void ask_all_levels(struct bus *bus)
{
    uint32_t sides = pcl_sides(checked(pcl_wants_interrupts(bus->cells, cells_length(bus))));

    for (uint32_t unit = 0; unit < bus->units; unit++)
        for (uint32_t side = 0; side < 2; side++)
            bus->device[unit].request[side] = (sides & pcl_side_bit(unit, side)) != 0;
}

uint32_t device_slice(struct bus *bus)
{
    uint32_t answer;

    move_all_words(bus);
    answer = (uint32_t)checked(pcl_slice(bus->cells, cells_length(bus), 0, 0));
    bus->slices++;
    ask_all_levels(bus);
    return answer;
}

/* ---- saving and restoring */

/* What tells the cells of this layout from those of another, which the library itself cannot tell apart. */
enum { FILE_MARK = 0x4350, HEADER = 3 };

/* Words go low byte first, so that a file is the same on every machine. */
static bool put_words(FILE *file, const uint16_t *words, size_t count)
{
    for (size_t k = 0; k < count; k++)
        if (putc(words[k] & 255, file) == EOF || putc(words[k] >> 8, file) == EOF)
            return false;
    return true;
}

static bool get_words(FILE *file, uint16_t *words, size_t count)
{
    for (size_t k = 0; k < count; k++) {
        int low = getc(file), high = getc(file);

        if (low == EOF || high == EOF)
            return false;
        words[k] = (uint16_t)(low | high << 8);
    }
    return true;
}

static void make_header(const struct bus *bus, uint16_t *header)
{
    header[0] = FILE_MARK;
    header[1] = PCL_LAYOUT;
    header[2] = (uint16_t)bus->units;
}

bool device_save(const struct bus *bus, FILE *file)
{
    uint16_t header[HEADER];

    make_header(bus, header);
    return put_words(file, header, HEADER) && put_words(file, bus->cells, cells_length(bus));
}

/* Whether cells have every unit of the bus: a call at the last one is not refused. */
static bool holds_all(const struct bus *bus, const uint16_t *cells)
{
    return pcl_number(pcl_level(cells, cells_length(bus), bus->units - 1, PCL_TRANSMITTER)) == PCL_DONE;
}

/* The levels are not in the file: they follow from the cells. */
bool device_restore(struct bus *bus, FILE *file)
{
    uint16_t header[HEADER], wanted[HEADER], cells[PCL_CELLS_MOST];

    make_header(bus, wanted);
    if (!get_words(file, header, HEADER) || memcmp(header, wanted, sizeof header) != 0)
        return false;
    if (!get_words(file, cells, cells_length(bus)) || !holds_all(bus, cells))
        return false;
    memcpy(bus->cells, cells, cells_length(bus) * sizeof cells[0]);
    ask_all_levels(bus);
    return true;
}

/* ---- showing */

void device_show_bits(FILE *file, uint32_t offset, uint16_t word)
{
    char text[PCL_BITS_TEXT_MOST];

    if (pcl_bits_text(text, sizeof text, offset, word) != 0)
        fprintf(file, "  %s", text);
}

void device_show(const struct bus *bus, uint32_t unit, FILE *file)
{
    uint16_t copy[PCL_CELLS_MOST];      /* a read of TSDB, RDDB or TMMR may take what it shows */

    for (size_t k = 0; k < sizeof registers; k++) {
        uint16_t word;

        memcpy(copy, bus->cells, sizeof copy);
        word = (uint16_t)pcl_value(checked(pcl_read(copy, cells_length(bus), unit, registers[k])));
        fprintf(file, "  %-5s %06o", pcl_register_text(registers[k]), word);
        device_show_bits(file, registers[k], word);
        putc('\n', file);
    }
}
