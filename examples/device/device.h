/* device.h - the PCL11-B as a device of emulated PDP-11s, in the shape that devices
 * of SIMH have: registers at their addresses, vectors, a service routine, a state that
 * can be shown and saved.
 *
 * One `struct bus` is the link, and has a `struct device` for each machine on it.
 * What is left to the emulator:
 *   - when a program reaches an address of the device, it calls device_read,
 *     device_write or device_write_byte; for a RESET instruction, device_reset;
 *   - it calls device_slice once for each slice of the bus, 2 microseconds on the
 *     hardware, and device_period every p seconds: TIM OUT comes after p to 2p, see
 *     pcl_period;
 *   - between two instructions it looks at device_vector: where that is not 0 and
 *     the processor's priority is below PCL_PRIORITY, the program is interrupted.
 *
 * Registers stand where the manual has them, RDCRC at 764234 too, whose offset in the
 * link is 26. The manual's addresses without a register, 764216, 764232 and 764236,
 * read 0, and a write there has no effect. */
#ifndef DEVICE_H
#define DEVICE_H

#include <stdbool.h>
#include <stdio.h>
#include "pcl.h"

/* RDCRC in the manual's map, as an offset from TCR: 764234. */
enum { DEVICE_RDCRC = 28 };

/* What one machine has of it. The first four lines are the switches and jumpers. */
struct device {
    uint32_t transmitter, receiver;     /* addresses on the bus */
    uint32_t counter_switch;
    uint32_t address[2];                /* of TCR and of RCR on the Unibus */
    uint16_t vector[2];
    uint16_t *memory;
    size_t memory_words;
    bool request[2];                    /* whether a side asks for an interrupt: a level, as of the last call */
};

struct bus {
    uint16_t cells[PCL_CELLS_MOST];
    struct device device[PCL_UNITS_MOST];
    uint32_t units;
    unsigned long slices;               /* since the fit */
    uint32_t missing;                   /* the byte address that the last move with NXL tried */
};

/* Makes the next device of a bus, with the manual's addresses and vectors. */
struct device *device_add(struct bus *bus, uint32_t transmitter, uint32_t receiver, uint16_t *memory, size_t memory_words);

/* Fits all that were added: whether the link takes them. */
bool device_fit(struct bus *bus);

/* A program's access. False: nothing answers at this address, and the processor traps to 4. */
bool device_read(struct bus *bus, uint32_t unit, uint32_t address, uint16_t *word);
bool device_write(struct bus *bus, uint32_t unit, uint32_t address, uint16_t word);
bool device_write_byte(struct bus *bus, uint32_t unit, uint32_t address, uint8_t byte);

void device_reset(struct bus *bus, uint32_t unit);
void device_period(struct bus *bus, uint32_t unit);

/* One slice, with the memory moves before it and the interrupt requests after it.
 * The answer is that of pcl_slice. */
uint32_t device_slice(struct bus *bus);

/* The vector of the interrupt that a machine is asked for, or 0. */
uint16_t device_vector(const struct bus *bus, uint32_t unit);

/* The serial of the last opening at a side, by which a program can tell this message from the last. */
uint16_t device_serial(const struct bus *bus, uint32_t unit, uint32_t side);

/* The link in a file, and back out of it, in another process too. Memories are the
 * emulator's to save. Restoring asks for the same devices; false: the file cannot be
 * written or read, or is of another layout, and then nothing was changed. */
bool device_save(const struct bus *bus, FILE *file);
bool device_restore(struct bus *bus, FILE *file);

/* What is set in a register's word, by the manual's names; nothing where no bit is. */
void device_show_bits(FILE *file, uint32_t offset, uint16_t word);

/* All registers of a machine. This takes no word out of a silo, as a program's read may. */
void device_show(const struct bus *bus, uint32_t unit, FILE *file);

#endif
