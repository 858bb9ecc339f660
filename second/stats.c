/* Plays many tapes and counts, so that one sees how far they get. On the way it
   looks at demands 1 to 3: a refused step changes nothing, an accepted tape writes
   again as the same bytes, a step has one word, and the promise holds. */
#include "play.h"
#include "promise.h"

#include <string.h>

enum { NUMBERS = ROOM_TOO_SHORT + 1 };

typedef struct {
    unsigned long tapes[NUMBERS]; /* by the check's number */
    unsigned long faults[NUMBERS][TAPE_KINDS + 1]; /* 13 and 14 by the kind that is refused */
    unsigned long answers[TAPE_KINDS][NUMBERS];
    Notes handed_back; /* of all books */
    unsigned long outcomes[ADOPTED + 1];
    unsigned long tapes_with[ADOPTED + 1];
    unsigned highest_round;
    unsigned long promise_broken;
    unsigned long rule_broken;
} Tally;

static void complain(unsigned tape, size_t step, const char *what)
{
    fprintf(stderr, "tape %04u step %zu: %s\n", tape, step, what);
}

static void count_broken_rule(Tally *tally, unsigned tape, size_t step, const char *what)
{
    tally->rule_broken++;
    complain(tape, step, what);
}

/* Plays a tape to learn which steps are refused: a copy of the run costs more than a step, and
   is needed only before these. */
static void find_refused(uint16_t first, const uint64_t *row, size_t steps, bool *refused)
{
    static Run run;
    start_run(&run, first);
    for (size_t i = 0; i < steps; i++)
        refused[i] = take_step_unscanned(&run, step_of_word(row[i])).number != DONE;
}

static void count_steps(Tally *tally, unsigned tape, uint16_t first, const uint64_t *row,
                        size_t steps)
{
    static Run run;
    static Run before;
    static Promise promise;
    static bool refused[TAPE_STEPS];
    bool seen[ADOPTED + 1] = { false };
    find_refused(first, row, steps, refused);
    start_run(&run, first);
    start_promise(&promise, first);
    for (size_t i = 0; i < steps; i++) {
        Step step = step_of_word(row[i]);
        if (refused[i])
            before = run;
        Answer answer = take_step(&run, step);
        tally->answers[kind_of_word(row[i])][answer.number]++;
        tally->handed_back = join_notes(tally->handed_back, answer.book.notes);
        tally->outcomes[answer.outcome]++;
        seen[answer.outcome] = true;
        if (answer.round > tally->highest_round)
            tally->highest_round = answer.round;
        if (answer.number != DONE && memcmp(&run, &before, sizeof run) != 0)
            count_broken_rule(tally, tape, i, "a refused step changed the state");
        if (word_of_step(step) != row[i])
            count_broken_rule(tally, tape, i, "a step has two words");
        const char *broken = watch_step(&promise, step, answer);
        if (broken != NULL) {
            tally->promise_broken++;
            complain(tape, i, broken);
        }
    }
    for (unsigned outcome = 0; outcome <= ADOPTED; outcome++)
        tally->tapes_with[outcome] += seen[outcome];
}

static void count_tape(Tally *tally, unsigned tape, const uint8_t *bytes, size_t length)
{
    static uint64_t row[TAPE_STEPS];
    static uint8_t again[TAPE_BYTES];
    uint16_t first = 0;
    size_t steps = 0;
    size_t written = 0;
    Number number = read_tape(bytes, length, row, TAPE_STEPS, &first, &steps);
    tally->tapes[number]++;
    if (number != check_tape(bytes, length))
        count_broken_rule(tally, tape, 0, "check and reader differ");
    if (number == TAPE_TOO_SHORT || number == NO_SUCH_STEP)
        tally->faults[number][kind_refused(bytes, length)]++;
    if (number != DONE)
        return;
    if (write_tape(first, row, steps, again, sizeof again, &written) != DONE
        || written != length || memcmp(again, bytes, length) != 0)
        count_broken_rule(tally, tape, 0, "an accepted tape does not write again as the same bytes");
    count_steps(tally, tape, first, row, steps);
}

static void print_counts(const char *name, const unsigned long counts[NUMBERS])
{
    printf("%s", name);
    for (unsigned number = 0; number < NUMBERS; number++)
        if (counts[number] > 0)
            printf("  %u: %lu", number, counts[number]);
    printf("\n");
}

static void print_tally(const Tally *tally)
{
    static const char *const names[TAPE_KINDS + 1] = { "short ASK", "ADV", "DLV", "LOS",
                                                       "REP", "STP", "long ASK", "no kind" };
    print_counts("tapes by number:", tally->tapes);
    for (unsigned number = TAPE_TOO_SHORT; number <= NO_SUCH_STEP; number++) {
        if (tally->tapes[number] == 0)
            continue;
        printf("refused by %u in", number);
        for (unsigned kind = 0; kind <= TAPE_KINDS; kind++)
            if (tally->faults[number][kind] > 0)
                printf("  %s: %lu", names[kind], tally->faults[number][kind]);
        printf("\n");
    }
    for (unsigned kind = 0; kind < TAPE_KINDS; kind++)
        print_counts(names[kind], tally->answers[kind]);
    printf("notes handed back ");
    print_notes(stdout, tally->handed_back);
    printf("\nnew rounds %lu in %lu tapes, committed %lu in %lu tapes, adopted %lu in %lu tapes\n",
           tally->outcomes[NEW_ROUND], tally->tapes_with[NEW_ROUND], tally->outcomes[COMMITTED],
           tally->tapes_with[COMMITTED], tally->outcomes[ADOPTED], tally->tapes_with[ADOPTED]);
    printf("highest round by Advance %u, promise broken %lu, rule broken %lu\n",
           tally->highest_round, tally->promise_broken, tally->rule_broken);
}

int print_stats(const char *directory)
{
    static Tally tally;
    static uint8_t bytes[INPUT_ROOM];
    char name[1024];
    for (unsigned tape = 0;; tape++) {
        snprintf(name, sizeof name, "%s/%04u.tape", directory, tape);
        FILE *file = fopen(name, "rb");
        if (file == NULL)
            break;
        size_t length = read_input(file, bytes);
        fclose(file);
        count_tape(&tally, tape, bytes, length);
    }
    print_tally(&tally);
    if (tally.promise_broken > 0)
        return STATUS_PROMISE_BROKEN;
    return tally.rule_broken > 0 ? STATUS_RULE_BROKEN : STATUS_OK;
}
