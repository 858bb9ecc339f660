/* Random tapes: sound ones that get far, and damaged ones; damaged texts. */
#ifndef RANDOM_H
#define RANDOM_H

#include "dice.h"
#include "tape.h"

#include <stdio.h>

enum { DAMAGED_ROOM = TAPE_BYTES + 64 };

/* Each gives the length of the tape it writes. */
size_t make_sound_tape(Dice *dice, uint8_t tape[TAPE_BYTES]);
size_t make_damaged_tape(Dice *dice, uint8_t tape[DAMAGED_ROOM]);

/* Some characters of a text, in a file that can be read and written, become others. */
void damage_text(Dice *dice, FILE *text);

/* A tape of nearly 4,096 bytes with few refusals, for measuring. */
size_t make_long_tape(Dice *dice, uint8_t tape[TAPE_BYTES]);

#endif
