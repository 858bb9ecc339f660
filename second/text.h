/* Steps and answers as text. */
#ifndef TEXT_H
#define TEXT_H

#include "tape.h"

#include <stdio.h>

/* In 32 digits. */
void print_notes(FILE *out, Notes notes);

/* One line of the program's output (document 01, "The tape", last part). */
void print_step(FILE *out, size_t number, Step step, Answer answer);

/* The messages in the table, one line: for whoever writes a tape by hand. */
void print_slots(FILE *out, const Run *run);

/* The words of the text form of a tape (second/README.md), by kind of step. */
extern const char *const step_words[STEP_KINDS];

/* Reads the text form of a tape. Gives null and writes *length and the tape's first *length bytes,
   or gives what is wrong and writes the number of the wrong line, 0 where no one line is. */
const char *assemble(FILE *in, uint8_t *tape, size_t room, size_t *length, unsigned long *line);

/* Prints a tape that the check accepts in its text form, with the answer of each step. */
void print_text_form(FILE *out, uint16_t first, const uint64_t *row, size_t steps);

#endif
