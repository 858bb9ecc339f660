/* The command line of the second program. */
#include "play.h"
#include "random.h"

#include <stdlib.h>
#include <string.h>

static const char usage[] =
    "second play [ROUND]                  plays the tape on standard input\n"
    "second trace                         the same, with the messages after each step\n"
    "second check                         prints the check's number\n"
    "second majority ADDED REMOVED ANSWERED   (hex) prints 1 or 0\n"
    "second assemble                      text form on standard input to a tape\n"
    "second list                          tape on standard input to its text form\n"
    "second random SEED COUNT DIR [sound|damaged|texts]   writes DIR/NNNN.tape, or .text\n"
    "second long SEED                     a long sound tape, for measuring\n"
    "second stats DIR                     plays DIR/NNNN.tape and counts\n"
    "second bench play|play-unscanned|check|read FILE REPEATS\n";

static uint8_t input[INPUT_ROOM];

/* Prints the text form of a tape, or gives why it is refused. */
static Number print_text_of(FILE *out, const uint8_t *tape, size_t length)
{
    static uint64_t row[TAPE_STEPS];
    uint16_t first = 0;
    size_t steps = 0;
    Number number = read_tape(tape, length, row, TAPE_STEPS, &first, &steps);
    if (number == DONE)
        print_text_form(out, first, row, steps);
    return number;
}

static void write_random_one(FILE *file, Dice *dice, const char *making)
{
    static uint8_t tape[DAMAGED_ROOM];
    bool damaged = strcmp(making, "damaged") == 0;
    size_t length = damaged ? make_damaged_tape(dice, tape) : make_sound_tape(dice, tape);
    if (strcmp(making, "texts") != 0) {
        fwrite(tape, 1, length, file);
        return;
    }
    print_text_of(file, tape, length);
    damage_text(dice, file);
}

static int write_random(uint64_t seed, unsigned long many, const char *directory,
                        const char *making)
{
    char name[1024];
    const char *ending = strcmp(making, "texts") == 0 ? "text" : "tape";
    for (unsigned long i = 0; i < many; i++) {
        Dice dice = { seed * UINT64_C(1000003) + i };
        snprintf(name, sizeof name, "%s/%04lu.%s", directory, i, ending);
        FILE *file = fopen(name, "w+b");
        if (file != NULL)
            write_random_one(file, &dice, making);
        if (file == NULL || ferror(file) || fclose(file) != 0) {
            fprintf(stderr, "cannot write %s\n", name);
            return STATUS_FILE;
        }
    }
    return STATUS_OK;
}

static int write_out(const uint8_t *tape, size_t length)
{
    return fwrite(tape, 1, length, stdout) == length ? STATUS_OK : STATUS_FILE;
}

static int print_assembled(void)
{
    size_t length = 0;
    unsigned long line = 0;
    const char *wrong = assemble(stdin, input, sizeof input, &length, &line);
    if (wrong == NULL)
        return write_out(input, length);
    if (line != 0)
        fprintf(stderr, "line %lu: ", line);
    fprintf(stderr, "%s\n", wrong);
    return STATUS_FILE;
}

static int print_list(void)
{
    size_t length = read_input(stdin, input);
    Number number = print_text_of(stdout, input, length);
    if (number == DONE)
        return STATUS_OK;
    fprintf(stderr, "the tape is refused by %d\n", (int)number);
    return STATUS_FILE;
}

static int print_long_tape(uint64_t seed)
{
    Dice dice = { seed };
    return write_out(input, make_long_tape(&dice, input));
}

static uint16_t boxes_of(const char *text)
{
    return (uint16_t)strtoul(text, NULL, 16);
}

static uint64_t number_of(const char *text)
{
    return strtoull(text, NULL, 10);
}

static int run_command(int arguments, char **argument)
{
    const char *command = arguments > 1 ? argument[1] : "";
    if (strcmp(command, "play") == 0 && arguments <= 3)
        return play(input, read_input(stdin, input),
                    arguments == 3 ? (unsigned)number_of(argument[2]) : 0, false);
    if (strcmp(command, "trace") == 0 && arguments == 2)
        return play(input, read_input(stdin, input), 0, true);
    if (strcmp(command, "check") == 0 && arguments == 2)
        return printf("%d\n", (int)check_tape(input, read_input(stdin, input))) < 0;
    if (strcmp(command, "majority") == 0 && arguments == 5)
        return printf("%d\n", majority(boxes_of(argument[2]), boxes_of(argument[3]),
                                       boxes_of(argument[4]))) < 0;
    if (strcmp(command, "assemble") == 0 && arguments == 2)
        return print_assembled();
    if (strcmp(command, "list") == 0 && arguments == 2)
        return print_list();
    if (strcmp(command, "random") == 0 && (arguments == 5 || arguments == 6))
        return write_random(number_of(argument[2]), number_of(argument[3]), argument[4],
                            arguments == 6 ? argument[5] : "sound");
    if (strcmp(command, "long") == 0 && arguments == 3)
        return print_long_tape(number_of(argument[2]));
    if (strcmp(command, "stats") == 0 && arguments == 3)
        return print_stats(argument[2]);
    if (strcmp(command, "bench") == 0 && arguments == 5)
        return bench(argument[2], argument[3], (unsigned long)number_of(argument[4]));
    fputs(usage, stderr);
    return STATUS_USAGE;
}

int main(int arguments, char **argument)
{
    int status = run_command(arguments, argument);
    if (fflush(stdout) == 0 && !ferror(stdout))
        return status;
    perror("not all could be written");
    return STATUS_FILE;
}
