/* Damaged tapes: a sound tape with one fault of a kind that the check must see,
   or that turns it into another tape. Damaged texts. */
#include "random.h"

#include <string.h>

static size_t random_bytes(Dice *dice, uint8_t *tape, size_t length)
{
    for (size_t i = 0; i < length; i++)
        tape[i] = (uint8_t)roll(dice);
    return length;
}

static size_t flip_bits(Dice *dice, uint8_t *tape, size_t length)
{
    for (unsigned times = 1 + below(dice, 4); times > 0; times--) {
        unsigned place = below(dice, (unsigned)length);
        tape[place] ^= (uint8_t)(1u << below(dice, 8));
    }
    return length;
}

static size_t append_bytes(Dice *dice, uint8_t *tape, size_t length)
{
    size_t more = 1 + below(dice, 3);
    memset(tape + length, chance(dice, 50) ? 0 : (int)below(dice, 256), more);
    return length + more;
}

/* The bit position of the tape's step `which`, header included. */
static size_t position_of(const uint64_t *row, size_t which)
{
    size_t at = 8 * HEADER_BYTES;
    for (size_t i = 0; i < which; i++)
        at += bits_of_step(step_of_word(row[i]));
    return at;
}

static void set_bits(uint8_t *tape, size_t at, unsigned width, unsigned value)
{
    for (unsigned i = 0; i < width; i++) {
        uint8_t weight = (uint8_t)(0x80 >> (at + i) % 8);
        if (value >> (width - 1 - i) & 1)
            tape[(at + i) / 8] |= weight;
        else
            tape[(at + i) / 8] &= (uint8_t)~weight;
    }
}

/* The steps of a sound tape. */
static const uint64_t *steps_of(const uint8_t *tape, size_t length, size_t *steps)
{
    static uint64_t row[TAPE_STEPS];
    uint16_t first = 0;
    read_tape(tape, length, row, TAPE_STEPS, &first, steps);
    return row;
}

/* A long Ask of any notes or without the last eight, an early end mark, or Stop of a device 24
   to 31, in place of a step or of the end mark, where the tape may have too few bits for it. */
static size_t spoil_a_step(Dice *dice, uint8_t *tape, size_t length)
{
    size_t steps = 0;
    const uint64_t *row = steps_of(tape, length, &steps);
    size_t at = position_of(row, below(dice, (unsigned)steps + 1));
    switch (below(dice, 4)) {
    case 0:
        set_bits(tape, at, 3, LONG_ASK);
        break;
    case 1:
        set_bits(tape, at, 3, LONG_ASK);
        set_bits(tape, at + 6, 8, 0);
        break;
    case 2:
        set_bits(tape, at, 3, END_MARK);
        break;
    default:
        set_bits(tape, at, 8, (unsigned)STOP << 5 | (24 + below(dice, 8)));
        break;
    }
    return length;
}

/* The tape ends within a long Ask, behind its kind, if there is one. */
static size_t cut_a_long_ask(Dice *dice, const uint8_t *tape, size_t length)
{
    size_t steps = 0;
    const uint64_t *row = steps_of(tape, length, &steps);
    size_t start = below(dice, (unsigned)steps);
    for (size_t i = 0; i < steps; i++) {
        size_t which = (start + i) % steps;
        if (kind_of_word(row[which]) != LONG_ASK)
            continue;
        size_t at = position_of(row, which);
        size_t fewest = (at + 3 + 7) / 8;
        size_t most = (at + bits_of_step(step_of_word(row[which])) - 1) / 8;
        return fewest + below(dice, (unsigned)(most - fewest) + 1);
    }
    return length;
}

/* Sets the last bit of the tape, which most often lies behind the end mark. */
static size_t set_last_bit(Dice *dice, uint8_t *tape, size_t length)
{
    tape[length - 1] |= (uint8_t)(1u << below(dice, 3));
    return length;
}

static size_t make_too_long(Dice *dice, uint8_t *tape, size_t length)
{
    size_t longer = TAPE_BYTES - 1 + below(dice, 4);
    if (longer <= length)
        return length;
    random_bytes(dice, tape + length, longer - length);
    return longer;
}

size_t make_damaged_tape(Dice *dice, uint8_t tape[DAMAGED_ROOM])
{
    size_t length = make_sound_tape(dice, tape);
    switch (below(dice, 12)) {
    case 0:
        return below(dice, 4);
    case 1:
        return random_bytes(dice, tape, below(dice, 200));
    case 2:
        tape[0] = tape[1] = 0;
        return length;
    case 3:
        return below(dice, (unsigned)length + 1);
    case 4:
        return append_bytes(dice, tape, length);
    case 5:
        return set_last_bit(dice, tape, length);
    case 6:
        return make_too_long(dice, tape, length);
    case 7:
        return flip_bits(dice, tape, length);
    case 8:
        return cut_a_long_ask(dice, tape, length);
    default:
        return spoil_a_step(dice, tape, length);
    }
}

/* A place among the numbers of the next Ask of a text, or the place given where none follows. */
static long place_in_an_ask(Dice *dice, FILE *text, long from)
{
    char line[128];
    fseek(text, from, SEEK_SET);
    while (fgets(line, sizeof line, text) != NULL)
        if (strncmp(line, "ask ", 4) == 0)
            return ftell(text) - (long)strlen(line) + 4 + (long)below(dice, 16);
    return from;
}

/* So words are cut in two or run together, and numbers become others, too large or none. Few
   lines are Asks, so every other place is looked for in one: own notes then grow over ffff. */
void damage_text(Dice *dice, FILE *text)
{
    static const char characters[] = "0123456789 afx\n\r\t#:-";
    unsigned length = (unsigned)ftell(text);
    for (unsigned times = 1 + below(dice, 3); times > 0; times--) {
        long place = (long)below(dice, length);
        if (chance(dice, 50))
            place = place_in_an_ask(dice, text, place);
        fseek(text, place, SEEK_SET);
        fputc(characters[below(dice, sizeof characters - 1)], text);
    }
}
