/* Measuring: the tape lies in memory, nothing is printed while the clock runs. */
#include "play.h"

#include <inttypes.h>
#include <string.h>
#include <time.h>

typedef struct {
    uint8_t bytes[INPUT_ROOM];
    size_t length;
    uint16_t first;
    size_t steps;
    uint64_t row[TAPE_STEPS];
} Tape;

/* What a repeat gives goes here, so that no repeat can be left out. */
static volatile uint64_t sink;

static void play_once(const Tape *tape, Answer (*take)(Run *, Step))
{
    static Run run;
    start_run(&run, tape->first);
    for (size_t i = 0; i < tape->steps; i++)
        sink += take(&run, step_of_word(tape->row[i])).number;
    sink += run.handed_back.notes.high + run.handed_back.notes.low;
}

/* Does the named work once; gives how many steps or bytes it is, 0 for no such work. */
static size_t work_once(const char *what, const Tape *tape)
{
    static uint64_t row[TAPE_STEPS];
    uint16_t first = 0;
    size_t steps = 0;
    if (strcmp(what, "play") == 0) {
        play_once(tape, take_step);
        return tape->steps;
    }
    if (strcmp(what, "play-unscanned") == 0) {
        play_once(tape, take_step_unscanned);
        return tape->steps;
    }
    if (strcmp(what, "check") == 0) {
        sink += check_tape(tape->bytes, tape->length);
        return tape->length;
    }
    if (strcmp(what, "read") == 0) {
        sink += read_tape(tape->bytes, tape->length, row, TAPE_STEPS, &first, &steps);
        sink += row[0];
        return tape->length;
    }
    return 0;
}

static uint64_t nanoseconds(void)
{
    struct timespec now;
    timespec_get(&now, TIME_UTC);
    return (uint64_t)now.tv_sec * 1000000000 + (uint64_t)now.tv_nsec;
}

int bench(const char *what, const char *file, unsigned long repeats)
{
    static Tape tape;
    uint64_t amount = 0;
    FILE *in = fopen(file, "rb");
    if (in == NULL)
        return STATUS_FILE;
    tape.length = read_input(in, tape.bytes);
    fclose(in);
    Number number = read_tape(tape.bytes, tape.length, tape.row, TAPE_STEPS, &tape.first,
                              &tape.steps);
    if (number != DONE) {
        printf("BAD %d\n", (int)number);
        return STATUS_FILE;
    }
    uint64_t start = nanoseconds();
    for (; repeats > 0; repeats--)
        amount += work_once(what, &tape);
    uint64_t taken = nanoseconds() - start;
    if (amount == 0)
        return STATUS_USAGE;
    printf("%" PRIu64 " %s %" PRIu64 " nanoseconds\n", amount,
           strncmp(what, "play", 4) == 0 ? "steps" : "bytes", taken);
    return STATUS_OK;
}
