#include "text.h"

#include <inttypes.h>

static const char *const names[STEP_KINDS] = { "ASK", "ADV", "DLV", "LOS", "REP", "STP" };
const char *const step_words[STEP_KINDS] = { "ask", "advance", "deliver",
                                             "lose", "repeat", "stop" };

void print_notes(FILE *out, Notes notes)
{
    fprintf(out, "%016" PRIx64 "%016" PRIx64, notes.high, notes.low);
}

static void print_book(FILE *out, Book book)
{
    print_notes(out, book.notes);
    fprintf(out, " %04x %04x", book.boxes.added, book.boxes.removed);
}

/* The number and what comes with it, to the end of the line. */
static void print_answer(FILE *out, Answer answer)
{
    fprintf(out, " %d", (int)answer.number);
    if (answer.outcome == NEW_ROUND)
        fprintf(out, " R %u", answer.round);
    if (answer.outcome == COMMITTED || answer.outcome == ADOPTED) {
        fputs(answer.outcome == COMMITTED ? " C " : " A ", out);
        print_book(out, answer.book);
    }
    fputc('\n', out);
}

void print_step(FILE *out, size_t number, Step step, Answer answer)
{
    fprintf(out, "%zu %s", number, names[step.kind]);
    print_answer(out, answer);
}

static void print_device(FILE *out, unsigned device)
{
    if (device < TABLETS)
        fprintf(out, "tablet %u", device);
    else
        fprintf(out, "box %u", device - TABLETS);
}

void print_slots(FILE *out, const Run *run)
{
    static const char *const kinds[] = { "", "request", "answer", "commit" };
    for (unsigned slot = 0; slot < SLOTS; slot++) {
        const Message *message = &run->slots[slot];
        if (message->kind == NO_MESSAGE)
            continue;
        fprintf(out, "    slot %u: %s ", slot, kinds[message->kind]);
        print_device(out, message->sender);
        fputs(" to ", out);
        print_device(out, message->addressee);
        if (message->kind != COMMIT) {
            fprintf(out, " round %u candidates ", message->round);
            print_notes(out, message->contents.candidates);
            fprintf(out, " changes %x", message->contents.changes);
        }
        fputs(" v ", out);
        print_book(out, message->contents.v);
        fputc('\n', out);
    }
}

void print_text_form(FILE *out, uint16_t first, const uint64_t *row, size_t steps)
{
    static Run run;
    start_run(&run, first);
    fprintf(out, "first %04x\n", first);
    for (size_t i = 0; i < steps; i++) {
        Step step = step_of_word(row[i]);
        fprintf(out, "%s %u", step_words[step.kind], step.target);
        if (step.kind == ASK)
            fprintf(out, " %0*x %04x %04x", step.own_notes > UINT8_MAX ? 4 : 2, step.own_notes,
                    step.change.added, step.change.removed);
        fputs(" :", out);
        print_answer(out, take_step(&run, step));
    }
}
