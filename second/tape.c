/* Tapes: every reading ends as a step with the next bit position, as the end of
   the tape, or as a refusal; nothing lent is written before all is read. */
#include "tape.h"

#include <string.h>

enum { KIND_BITS = 3 };

typedef enum { A_STEP, THE_END, A_REFUSAL } ReadingCase;

typedef struct {
    ReadingCase is;
    Number number;
    uint64_t word;
    size_t next;
} Reading;

static unsigned bits_of_kind(unsigned kind)
{
    static const unsigned bits[TAPE_KINDS] = { 46, 6, 10, 10, 10, 8, 54 };
    return bits[kind];
}

static unsigned kind_of_step(Step step)
{
    return step.kind == ASK && step.own_notes > UINT8_MAX ? LONG_ASK : (unsigned)step.kind;
}

unsigned bits_of_step(Step step)
{
    return bits_of_kind(kind_of_step(step));
}

/* The `width` bits of a word that stand `from` bits below its top. */
static unsigned field(uint64_t word, unsigned from, unsigned width)
{
    return (unsigned)(word << from >> (64 - width));
}

static uint64_t top_bits(unsigned width)
{
    return ~UINT64_C(0) << (64 - width);
}

unsigned kind_of_word(uint64_t word)
{
    return field(word, 0, KIND_BITS);
}

/* Both Asks have the same fields; own notes are the first eight of the sixteen, or all. */
static Step ask_of_word(uint64_t word, unsigned notes_width)
{
    return (Step){
        .kind = ASK,
        .target = field(word, 3, 3),
        .own_notes = (uint16_t)field(word, 6, notes_width),
        .change.added = (uint16_t)field(word, 6 + notes_width, 16),
        .change.removed = (uint16_t)field(word, 22 + notes_width, 16),
    };
}

Step step_of_word(uint64_t word)
{
    unsigned kind = kind_of_word(word);
    switch (kind) {
    case ASK:
        return ask_of_word(word, 8);
    case LONG_ASK:
        return ask_of_word(word, 16);
    case ADVANCE:
        return (Step){ .kind = ADVANCE, .target = field(word, 3, 3) };
    case STOP:
        return (Step){ .kind = STOP, .target = field(word, 3, 5) };
    default:
        return (Step){ .kind = (StepKind)kind, .target = field(word, 3, 7) };
    }
}

uint64_t word_of_step(Step step)
{
    unsigned kind = kind_of_step(step);
    uint64_t word = (uint64_t)kind << 61;
    uint64_t target = step.target;
    uint64_t notes = step.own_notes;
    uint64_t change = (uint64_t)step.change.added << 16 | step.change.removed;
    switch (kind) {
    case ASK:
        return word | target << 58 | notes << 50 | change << 18;
    case LONG_ASK:
        return word | target << 58 | notes << 42 | change << 10;
    case ADVANCE:
        return word | target << 58;
    case STOP:
        return word | target << 56;
    default:
        return word | target << 54;
    }
}

/* Words that have a kind and are no step all the same: Stop of a device over 23, and a long Ask
   whose last eight notes are all absent. */
static bool is_forbidden(uint64_t word)
{
    switch (kind_of_word(word)) {
    case STOP:
        return step_of_word(word).target >= DEVICES;
    case LONG_ASK:
        return step_of_word(word).own_notes <= UINT8_MAX;
    default:
        return false;
    }
}

/* The next bits from a position on, at the top; at least 57, zeros behind the end. */
static uint64_t window(const uint8_t *part, size_t length, size_t at)
{
    uint64_t bits = 0;
    for (size_t i = at / 8; i < at / 8 + 8; i++)
        bits = bits << 8 | (i < length ? part[i] : 0);
    return bits << at % 8;
}

static Reading refused(Number number)
{
    return (Reading){ .is = A_REFUSAL, .number = number };
}

/* After the end mark: zero bits to the byte's edge and no further byte. */
static Reading read_end(const uint8_t *part, size_t length, size_t at)
{
    size_t last = (at - 1) / 8;
    unsigned used = (unsigned)(at - 8 * last);
    if (last + 1 < length || (part[last] & 0xff >> used) != 0)
        return refused(SET_AFTER_END);
    return (Reading){ .is = THE_END };
}

static Reading read_step(const uint8_t *part, size_t length, size_t at)
{
    size_t left = 8 * length - at;
    uint64_t bits = window(part, length, at);
    unsigned kind = kind_of_word(bits);
    if (left < KIND_BITS)
        return refused(TAPE_TOO_SHORT);
    if (kind == END_MARK)
        return read_end(part, length, at + KIND_BITS);
    unsigned width = bits_of_kind(kind);
    if (left < width)
        return refused(TAPE_TOO_SHORT);
    uint64_t word = bits & top_bits(width);
    if (is_forbidden(word))
        return refused(NO_SUCH_STEP);
    return (Reading){ A_STEP, DONE, word, at + width };
}

/* Reads the step part to its end; a row of null only counts the steps. */
static Number read_steps(const uint8_t *part, size_t length, uint64_t *row, size_t *steps)
{
    size_t at = 0;
    size_t taken = 0;
    for (;;) {
        Reading reading = read_step(part, length, at);
        if (reading.is == A_REFUSAL)
            return reading.number;
        if (reading.is == THE_END)
            break;
        if (row != NULL)
            row[taken] = reading.word;
        taken++;
        at = reading.next;
    }
    *steps = taken;
    return DONE;
}

static uint16_t first_boxes(const uint8_t *tape)
{
    return (uint16_t)(tape[0] << 8 | tape[1]);
}

static Number check_and_count(const uint8_t *tape, size_t length, size_t *steps)
{
    if (length > TAPE_BYTES)
        return TAPE_TOO_LONG;
    if (length <= HEADER_BYTES)
        return TAPE_TOO_SHORT;
    if (first_boxes(tape) == 0)
        return NO_FIRST_BOX;
    return read_steps(tape + HEADER_BYTES, length - HEADER_BYTES, NULL, steps);
}

Number check_tape(const uint8_t *tape, size_t length)
{
    size_t steps = 0;
    return check_and_count(tape, length, &steps);
}

unsigned kind_refused(const uint8_t *tape, size_t length)
{
    Reading reading = { .is = A_STEP, .next = 0 };
    size_t at = 0;
    if (length <= HEADER_BYTES)
        return END_MARK;
    while (reading.is == A_STEP) {
        at = reading.next;
        reading = read_step(tape + HEADER_BYTES, length - HEADER_BYTES, at);
    }
    if (8 * (length - HEADER_BYTES) - at < KIND_BITS)
        return END_MARK;
    return kind_of_word(window(tape + HEADER_BYTES, length - HEADER_BYTES, at));
}

Number read_tape(const uint8_t *tape, size_t length, uint64_t *row, size_t row_length,
                 uint16_t *first, size_t *steps)
{
    size_t found = 0;
    Number number = check_and_count(tape, length, &found);
    if (number != DONE)
        return number;
    if (found > row_length)
        return ROOM_TOO_SHORT;
    *first = first_boxes(tape);
    return read_steps(tape + HEADER_BYTES, length - HEADER_BYTES, row, steps);
}

/* A word is a step when its own bits are one and zeros stand below. */
static bool is_step(uint64_t word)
{
    unsigned kind = kind_of_word(word);
    return kind != END_MARK && (word & ~top_bits(bits_of_kind(kind))) == 0
        && !is_forbidden(word);
}

/* Sets a word's bits from a position on in a part whose bits there are zero. */
static void pack(uint8_t *part, size_t at, uint64_t word, unsigned width)
{
    uint64_t bits = word >> at % 8;
    for (size_t i = at / 8; i < (at + width + 7) / 8; i++) {
        part[i] |= (uint8_t)(bits >> 56);
        bits <<= 8;
    }
}

static void pack_steps(uint8_t *part, size_t length, const uint64_t *row, size_t steps)
{
    size_t at = 0;
    memset(part, 0, length);
    for (size_t i = 0; i < steps; i++) {
        unsigned width = bits_of_kind(kind_of_word(row[i]));
        pack(part, at, row[i], width);
        at += width;
    }
    pack(part, at, top_bits(END_BITS), END_BITS);
}

Number write_tape(uint16_t first, const uint64_t *row, size_t steps, uint8_t *buffer,
                  size_t buffer_length, size_t *length)
{
    size_t bits = END_BITS;
    if (first == 0)
        return NO_FIRST_BOX;
    for (size_t i = 0; i < steps; i++) {
        if (!is_step(row[i]))
            return NO_SUCH_STEP;
        bits += bits_of_kind(kind_of_word(row[i]));
    }
    size_t bytes = HEADER_BYTES + (bits + 7) / 8;
    if (bytes > TAPE_BYTES)
        return TAPE_TOO_LONG;
    if (bytes > buffer_length)
        return ROOM_TOO_SHORT;
    buffer[0] = (uint8_t)(first >> 8);
    buffer[1] = (uint8_t)first;
    pack_steps(buffer + HEADER_BYTES, bytes - HEADER_BYTES, row, steps);
    *length = bytes;
    return DONE;
}
