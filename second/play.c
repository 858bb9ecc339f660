#include "play.h"
#include "promise.h"

#include <stdlib.h>

size_t read_input(FILE *in, uint8_t tape[INPUT_ROOM])
{
    size_t length = fread(tape, 1, INPUT_ROOM, in);
    if (ferror(in)) {
        perror("the tape cannot be read");
        exit(STATUS_FILE);
    }
    return length;
}

int play(const uint8_t *tape, size_t length, unsigned round, bool show_slots)
{
    static uint64_t row[TAPE_STEPS];
    static Run run;
    static Promise promise;
    uint16_t first = 0;
    size_t steps = 0;
    size_t books = 0;
    int status = STATUS_OK;
    Number number = read_tape(tape, length, row, TAPE_STEPS, &first, &steps);
    if (number != DONE) {
        printf("BAD %d\n", (int)number);
        return STATUS_OK;
    }
    start_run(&run, first);
    for (unsigned t = 0; t < TABLETS; t++)
        run.tablets[t].round = (uint16_t)round;
    start_promise(&promise, first);
    for (size_t i = 0; i < steps; i++) {
        Step step = step_of_word(row[i]);
        Answer answer = take_step(&run, step);
        print_step(stdout, i, step, answer);
        if (show_slots)
            print_slots(stdout, &run);
        books += answer.outcome == COMMITTED || answer.outcome == ADOPTED;
        const char *broken = watch_step(&promise, step, answer);
        if (broken != NULL) {
            fprintf(stderr, "step %zu: %s\n", i, broken);
            status = STATUS_PROMISE_BROKEN;
        }
    }
    printf("END %zu %zu\n", steps, books);
    return status;
}
