/* Demand 3, watched while a run is played:
   of any two books handed back one contains the other; each contains what its own
   ask brought; every note, box added and box removed came from an accepted earlier
   ask (of the note's owner) or, for boxes added, from the first boxes. */
#ifndef PROMISE_H
#define PROMISE_H

#include "tape.h"

typedef struct {
    Book asked[TABLETS]; /* what each tablet's last accepted ask brought */
    Book sources;        /* all accepted asks and the first boxes, joined */
    size_t books;
    Book book[TAPE_STEPS];
} Promise;

void start_promise(Promise *promise, uint16_t first_boxes);

/* Gives null, or what the step's answer breaks. */
const char *watch_step(Promise *promise, Step step, Answer answer);

#endif
