/* Playing tapes: printed, counted, or measured. Each gives the program's exit status. */
#ifndef PLAY_H
#define PLAY_H

#include "text.h"

enum { STATUS_OK = 0, STATUS_USAGE = 1, STATUS_FILE = 2, STATUS_PROMISE_BROKEN = 3,
       STATUS_RULE_BROKEN = 4 };

/* Room for the longest tape and one byte more, which shows that it is too long. */
enum { INPUT_ROOM = TAPE_BYTES + 1 };

/* Ends the program where reading fails. */
size_t read_input(FILE *in, uint8_t tape[INPUT_ROOM]);

/* Plays as document 01 says; tablets start idle in `round` (0 for a fresh run). */
int play(const uint8_t *tape, size_t length, unsigned round, bool show_slots);

/* Plays DIRECTORY/0000.tape and those that follow, and counts what happens. */
int print_stats(const char *directory);

/* Plays, checks or reads a tape so many times; prints how much and how long. */
int bench(const char *what, const char *file, unsigned long repeats);

#endif
