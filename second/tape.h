/* Tapes: checking, reading and writing (document 01, "The tape", with request [1] of
   document 02). */
#ifndef TAPE_H
#define TAPE_H

#include "run.h"

#include <stddef.h>

enum {
    TAPE_BYTES = 4096,
    HEADER_BYTES = 2,
    END_BITS = 3,
    /* No tape holds more steps: the shortest step has 6 bits. */
    TAPE_STEPS = (8 * (TAPE_BYTES - HEADER_BYTES) - END_BITS) / 6
};

/* The kinds on a tape are those of steps, then the long Ask, for an Ask with one of the tablet's
   last eight notes and for no other, and the end mark, which is no step. */
enum { LONG_ASK = 6, END_MARK = 7, TAPE_KINDS = 7 };

/* A step as a 64-bit word has its tape bits at the top, zeros below. */
uint64_t word_of_step(Step step);
Step step_of_word(uint64_t word);
unsigned bits_of_step(Step step);
unsigned kind_of_word(uint64_t word);

Number check_tape(const uint8_t *tape, size_t length);

/* The kind of the step at which a tape is refused with 13 or 14; END_MARK where the tape has
   too few bits for a kind. */
unsigned kind_refused(const uint8_t *tape, size_t length);

/* Writes *first, *steps and the row's first *steps places when the number is 0. */
Number read_tape(const uint8_t *tape, size_t length, uint64_t *row, size_t row_length,
                 uint16_t *first, size_t *steps);

/* Writes *length and the buffer's first *length bytes when the number is 0. */
Number write_tape(uint16_t first, const uint64_t *row, size_t steps, uint8_t *buffer,
                  size_t buffer_length, size_t *length);

#endif
