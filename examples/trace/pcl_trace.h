/* pcl_trace.h - a trace of a running emulator, for C and C++.
 *
 * A file that includes this header instead of pcl.h makes the same calls under
 * the same names; while a trace is on, each call on the traced link is written
 * twice: as a record of a script, and as the line that the script program prints
 * for it. So
 *
 *     tools/explain RECORDS LINES          shows what the emulator did, in the manual's names
 *     target/bin/link <RECORDS >REPLAYED   does it again; REPLAYED should equal LINES
 *
 * What a replay shows. The trace begins before the fit and has every call since,
 * in the order in which they were made. Then each line of the replay is the same,
 * but for what no record says:
 *   - Memories. A script's memories are 64 zero words, and what a host writes into
 *     its own is no record. So words that a move fetches are zeros in the replay,
 *     unless the link itself stored them there, and reads of TSDB, RDDB, TSCRC and
 *     RDCRC show other words. Nothing else depends on what the words are, damaged
 *     slices included: codes, status bits, counts, levels and numbers are the same.
 *     With words written to TSDB every line is the same.
 *   - Memory lengths. Where the emulator's memories are not 64 words long, a move
 *     beyond byte 176 (octal) sets NXL in the replay alone, and from there on the
 *     lines differ. Such a trace can be explained, not replayed.
 *   - A state that was not left by the call before, as one restored from a file. The
 *     trace has to have all the calls that led to it, and none that came after it
 *     was saved.
 *
 * A pcl_move_all is written as its single moves: those that moved a word, and the one
 * that moved none, since it met NXL, BC OFL or nothing more to move.
 *
 * What is not written, since a script has no record for it and it changes nothing:
 * pcl_serial, pcl_wants_moves and pcl_wants_interrupts; a call answered
 * PCL_BAD_ROOM; a call on other cells, as on a copy. A set-up that was refused is
 * written as one of no units, which is refused too: what was wrong may be a memory
 * length. A number above 255 is written as 255, which gets the same answer. */
#ifndef PCL_TRACE_H
#define PCL_TRACE_H

#include <stdio.h>
#include "pcl.h"

#ifdef __cplusplus
extern "C" {
#endif

/* From now on the calls on the link in these cells are written; either file may be
 * null. The files stay the caller's. Each record is one fwrite, so that several
 * processes may append to one unbuffered file, in the order of their lock. */
void pcl_trace_start(const uint16_t *cells, FILE *records, FILE *lines);

/* Ends the trace. 0 where everything since the start was written, else -1. */
int pcl_trace_end(void);

uint32_t pcl_trace_fit(uint16_t *cells, size_t cells_length, const uint32_t *setup, size_t setup_length);
uint32_t pcl_trace_read(uint16_t *cells, size_t cells_length, uint32_t unit, uint32_t offset);
uint32_t pcl_trace_write(uint16_t *cells, size_t cells_length, uint32_t unit, uint32_t offset, uint16_t word);
uint32_t pcl_trace_write_byte(uint16_t *cells, size_t cells_length, uint32_t unit, uint32_t offset, uint8_t byte);
uint32_t pcl_trace_slice(uint16_t *cells, size_t cells_length, uint16_t data_mask, uint32_t parity_mask);
uint64_t pcl_trace_move(uint16_t *cells, size_t cells_length, uint16_t *memory, size_t memory_length, uint32_t unit, uint32_t side);
uint64_t pcl_trace_move_all(uint16_t *cells, size_t cells_length, uint16_t *memory, size_t memory_length, uint32_t unit, uint32_t side);
uint32_t pcl_trace_period(uint16_t *cells, size_t cells_length, uint32_t unit);
uint32_t pcl_trace_reset(uint16_t *cells, size_t cells_length, uint32_t unit);
uint32_t pcl_trace_level(const uint16_t *cells, size_t cells_length, uint32_t unit, uint32_t side);

#ifdef __cplusplus
}
#endif

#ifndef PCL_TRACE_ITSELF
#define pcl_fit pcl_trace_fit
#define pcl_read pcl_trace_read
#define pcl_write pcl_trace_write
#define pcl_write_byte pcl_trace_write_byte
#define pcl_slice pcl_trace_slice
#define pcl_move pcl_trace_move
#define pcl_move_all pcl_trace_move_all
#define pcl_period pcl_trace_period
#define pcl_reset pcl_trace_reset
#define pcl_level pcl_trace_level
#endif

#endif
