/* second.h - a second implementation of document 02's readings board, Nos. 2, 3 and 6.
 * Answers and arguments are those of include/board.h. */
#ifndef SECOND_BOARD_H
#define SECOND_BOARD_H

#include <stddef.h>
#include <stdint.h>

uint32_t second_board_build(uint32_t kind, const uint32_t *readings, size_t readings_length, uint16_t *message, size_t message_length);
uint32_t second_board_read(uint32_t kind, uint32_t complete, const uint16_t *message, size_t message_length, uint32_t *readings, size_t readings_length);

/* The link that a message is received from: a host's word read of a register, and the serial of a unit's receiver. Each answers
 * number + 65536 * what it shows. */
struct second_board_link {
    uint32_t (*read)(void *link, uint32_t unit, uint32_t offset);
    uint32_t (*serial)(void *link, uint32_t unit);
};

uint64_t second_board_receive(uint32_t kind, const struct second_board_link *ask, void *link, const uint16_t *memory, size_t memory_length,
                              uint32_t unit, uint32_t first, uint32_t *readings, size_t readings_length);

/* The link whose words are collected: a memory move at a unit's receiver. It answers number + 65536 * the address that was missing, or 0. */
typedef uint64_t second_board_move(void *link, uint32_t unit);

uint64_t second_board_collect(second_board_move *move, void *link, uint32_t unit);

#endif
