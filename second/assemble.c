/* The text form of a tape, read. Every number is held to its form and its range; the first line
   that is wrong is named. */
#include "text.h"

#include <ctype.h>
#include <limits.h>
#include <stdlib.h>
#include <string.h>

enum { WORD_ROOM = 64, DECIMAL = 10, HEX = 16 };

typedef struct {
    FILE *in;
    char word[WORD_ROOM]; /* the word last read, empty where the line has no more */
} Text;

typedef struct {
    uint8_t *tape;
    size_t room;
    bool has_bytes; /* `bytes` lines stand alone */
    size_t bytes;
    bool has_first;
    uint16_t first;
    size_t steps;
    bool too_long; /* more steps than the row holds */
    uint64_t row[TAPE_STEPS];
} Assembly;

static bool is_blank(int c)
{
    return c == ' ' || c == '\t' || c == '\r';
}

static bool is_in_a_word(int c)
{
    return !is_blank(c) && c != '\n' && c != '#' && c != ':' && c != EOF;
}

/* Whether the line has one more word. '?' stands for what is neither letter nor digit, and
   begins a word that is too long: no word and no number of a text has one. */
static bool next_word(Text *text)
{
    size_t length = 0;
    int c = getc(text->in);
    while (is_blank(c))
        c = getc(text->in);
    for (; is_in_a_word(c); c = getc(text->in))
        if (length < WORD_ROOM - 1)
            text->word[length++] = (char)(isalnum(c) ? c : '?');
        else
            text->word[0] = '?';
    if (c != EOF)
        ungetc(c, text->in);
    text->word[length] = '\0';
    return length > 0;
}

/* Passes over the rest of a line; no where the text has ended. */
static bool next_line(Text *text)
{
    int c = getc(text->in);
    while (c != '\n' && c != EOF)
        c = getc(text->in);
    return c == '\n';
}

/* The word as a number, which may not be over `most`; gives null, or what is wrong. */
static const char *number_of_word(const Text *text, int base, unsigned most, const char *over,
                                  unsigned *number)
{
    const char *digits = base == HEX ? "0123456789abcdefABCDEF" : "0123456789";
    if (text->word[strspn(text->word, digits)] != '\0')
        return base == HEX ? "a word that is no hex number" : "a word that is no number";
    unsigned long long value = strtoull(text->word, NULL, base);
    if (value > most)
        return over;
    *number = (unsigned)value;
    return NULL;
}

static const char *read_number(Text *text, int base, unsigned most, const char *over,
                               unsigned *number)
{
    if (!next_word(text))
        return "a number is missing";
    return number_of_word(text, base, most, over, number);
}

static const char *read_first(Text *text, Assembly *assembly)
{
    unsigned first = 0;
    if (assembly->has_first)
        return "the first boxes stand there already";
    if (assembly->has_bytes)
        return "first boxes beside bytes";
    const char *wrong = read_number(text, HEX, UINT16_MAX, "first boxes over ffff", &first);
    assembly->has_first = true;
    assembly->first = (uint16_t)first;
    return wrong;
}

/* The fields of an Ask behind its tablet. */
static const char *read_asked(Text *text, Step *step)
{
    unsigned notes = 0;
    unsigned added = 0;
    unsigned removed = 0;
    const char *wrong = read_number(text, HEX, UINT16_MAX, "own notes over ffff", &notes);
    if (wrong == NULL)
        wrong = read_number(text, HEX, UINT16_MAX, "boxes added over ffff", &added);
    if (wrong == NULL)
        wrong = read_number(text, HEX, UINT16_MAX, "boxes removed over ffff", &removed);
    step->own_notes = (uint16_t)notes;
    step->change = (Configuration){ (uint16_t)added, (uint16_t)removed };
    return wrong;
}

/* The step that begins with the word last read. */
static const char *read_step(Text *text, Step *step)
{
    static const unsigned last[STEP_KINDS] = { TABLETS - 1, TABLETS - 1, SLOTS - 1,
                                               SLOTS - 1, SLOTS - 1, DEVICES - 1 };
    static const char *const over[STEP_KINDS] = { "tablet over 7", "tablet over 7",
                                                  "slot over 127", "slot over 127",
                                                  "slot over 127", "device over 23" };
    unsigned kind = 0;
    while (kind < STEP_KINDS && strcmp(step_words[kind], text->word) != 0)
        kind++;
    if (kind == STEP_KINDS)
        return "no such step";
    step->kind = (StepKind)kind;
    const char *wrong = read_number(text, DECIMAL, last[kind], over[kind], &step->target);
    return wrong == NULL && kind == ASK ? read_asked(text, step) : wrong;
}

static const char *read_steps(Text *text, Assembly *assembly, unsigned times)
{
    Step step = { 0 };
    const char *wrong = read_step(text, &step);
    if (wrong != NULL)
        return wrong;
    if (!assembly->has_first)
        return "the first boxes come first";
    if (times > TAPE_STEPS - assembly->steps)
        assembly->too_long = true;
    else
        for (; times > 0; times--)
            assembly->row[assembly->steps++] = word_of_step(step);
    return NULL;
}

/* "bytes 00 07 e1" gives these very bytes, for tapes that are refused. */
static const char *read_bytes(Text *text, Assembly *assembly, unsigned times)
{
    size_t from = assembly->bytes;
    unsigned byte = 0;
    if (assembly->has_first)
        return "bytes beside first boxes";
    assembly->has_bytes = true;
    while (next_word(text)) {
        const char *wrong = number_of_word(text, HEX, UINT8_MAX, "a byte over ff", &byte);
        if (wrong != NULL)
            return wrong;
        if (assembly->bytes == assembly->room)
            return "more bytes than there is room for";
        assembly->tape[assembly->bytes++] = (uint8_t)byte;
    }
    size_t length = assembly->bytes - from;
    if (length * times > assembly->room - from)
        return "more bytes than there is room for";
    for (size_t i = length; i < length * times; i++)
        assembly->tape[from + i] = assembly->tape[from + i - length];
    assembly->bytes = from + length * times;
    return NULL;
}

/* "N times" before a step or bytes; the word behind it is then the word last read. */
static const char *read_times(Text *text, unsigned *times)
{
    if (!isdigit((unsigned char)text->word[0]))
        return NULL;
    const char *wrong = number_of_word(text, DECIMAL, UINT_MAX, "more times than fit", times);
    if (wrong != NULL)
        return wrong;
    if (!next_word(text) || strcmp(text->word, "times") != 0)
        return "no such step";
    return next_word(text) ? NULL : "a step is missing";
}

static const char *read_words(Text *text, Assembly *assembly)
{
    unsigned times = 1;
    if (strcmp(text->word, "first") == 0)
        return read_first(text, assembly);
    const char *wrong = read_times(text, &times);
    if (wrong != NULL)
        return wrong;
    if (strcmp(text->word, "bytes") == 0)
        return read_bytes(text, assembly, times);
    return read_steps(text, assembly, times);
}

static const char *read_line(Text *text, Assembly *assembly)
{
    if (!next_word(text))
        return NULL;
    const char *wrong = read_words(text, assembly);
    if (wrong == NULL && next_word(text))
        return "something stands behind the step";
    return wrong;
}

const char *assemble(FILE *in, uint8_t *tape, size_t room, size_t *length, unsigned long *line)
{
    static Assembly assembly;
    Text text = { .in = in };
    assembly = (Assembly){ .tape = tape, .room = room };
    const char *wrong = NULL;
    *line = 0;
    do {
        ++*line;
        wrong = read_line(&text, &assembly);
    } while (wrong == NULL && next_line(&text));
    if (wrong != NULL && !ferror(in))
        return wrong;
    *line = 0;
    if (ferror(in))
        return "the text cannot be read";
    *length = assembly.bytes;
    if (assembly.has_bytes)
        return NULL;
    Number number = write_tape(assembly.first, assembly.row, assembly.steps, tape, room, length);
    if (number == NO_FIRST_BOX)
        return "no first box";
    if (number != DONE || assembly.too_long)
        return "the tape is over 4,096 bytes";
    return NULL;
}
