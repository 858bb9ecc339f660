/* The steps of document 01. A refused step changes nothing: every refusal is
   found before the first write. */
#include "run.h"

static const Answer done = { .number = DONE };

static Answer refuse(Number number)
{
    return (Answer){ .number = number };
}

/* A configuration joined with every change of a set. */
static Configuration joined(const Changes *changes, Configuration start, unsigned set)
{
    for (unsigned i = 0; i < CHANGES; i++)
        if (set >> i & 1)
            start = join_configurations(start, changes->at[i]);
    return start;
}

/* Those changes of a set that are not contained in a configuration (line 20). */
static uint8_t trimmed(const Changes *changes, Configuration c, unsigned set)
{
    unsigned kept = 0;
    for (unsigned i = 0; i < CHANGES; i++)
        if (set >> i & 1 && !configuration_contains(c, changes->at[i]))
            kept |= 1u << i;
    return (uint8_t)kept;
}

/* Lines 18 to 20. */
static void merge(const Changes *changes, Contents *own, Contents incoming)
{
    own->v = join_books(own->v, incoming.v);
    own->candidates = join_notes(own->candidates, incoming.candidates);
    own->changes = trimmed(changes, own->v.boxes, own->changes | incoming.changes);
}

/* The boxes that are a member of any queried configuration (lines 7 and 8). */
static uint16_t queried_boxes(const Changes *changes, const Contents *contents)
{
    uint16_t boxes = 0;
    unsigned subset = contents->changes;
    for (;;) {
        boxes |= members(joined(changes, contents->v.boxes, subset));
        if (subset == 0)
            return boxes;
        subset = (subset - 1) & contents->changes;
    }
}

/* Every queried configuration has a majority among those that answered (line 9). */
static bool every_majority(const Changes *changes, const Contents *saved, uint16_t answered)
{
    unsigned subset = saved->changes;
    for (;;) {
        Configuration queried = joined(changes, saved->v.boxes, subset);
        if (!majority(queried.added, queried.removed, answered))
            return false;
        if (subset == 0)
            return true;
        subset = (subset - 1) & saved->changes;
    }
}

unsigned free_slots(const Run *run)
{
    unsigned free = 0;
    for (unsigned slot = 0; slot < SLOTS; slot++)
        free += run->slots[slot].kind == NO_MESSAGE;
    return free;
}

/* Puts a message into the lowest free slot from a place on; gives the place behind. */
static unsigned put(Run *run, unsigned place, const Message *message)
{
    while (run->slots[place].kind != NO_MESSAGE)
        place++;
    run->slots[place] = *message;
    return place + 1;
}

static Number round_refusal(const Run *run, unsigned t, uint16_t boxes)
{
    if (run->tablets[t].round >= LAST_ROUND)
        return NO_ROUND_LEFT;
    if (free_slots(run) < count(boxes))
        return TOO_FEW_SLOTS;
    return DONE;
}

/* Begin a round (lines 4 to 8); the caller has seen that it is not refused. */
static void begin_round(Run *run, unsigned t, Floor floor, uint16_t boxes)
{
    Tablet *tablet = &run->tablets[t];
    tablet->round++;
    tablet->asking = true;
    tablet->saved = run->devices[t];
    tablet->answered = 0;
    tablet->floor = floor;
    Message request = { REQUEST, (uint8_t)t, 0, tablet->round, run->devices[t] };
    unsigned place = 0;
    for (unsigned box = 0; box < BOXES; box++)
        if (boxes >> box & 1) {
            request.addressee = (uint8_t)(TABLETS + box);
            place = put(run, place, &request);
        }
}

static unsigned place_of(const Changes *changes, Configuration change)
{
    unsigned place = 0;
    while (place < changes->length && !same_configuration(changes->at[place], change))
        place++;
    return place;
}

static Answer ask(Run *run, unsigned t, Notes notes, Configuration change)
{
    if (is_stopped(run, t))
        return refuse(IS_STOPPED);
    if (run->tablets[t].asking)
        return refuse(ASK_WHILE_ASKING);
    Changes changes = run->changes;
    Contents now = run->devices[t];
    Contents brought = { now.v, notes, 0 };
    if (!configuration_contains(now.v.boxes, change)) {
        unsigned place = place_of(&changes, change);
        if (place == CHANGES)
            return refuse(SEVENTH_CHANGE);
        if (place == changes.length)
            changes.at[changes.length++] = change;
        brought.changes = (uint8_t)(1u << place);
    }
    merge(&changes, &now, brought);
    uint16_t boxes = queried_boxes(&changes, &now);
    Number refusal = round_refusal(run, t, boxes);
    if (refusal != DONE)
        return refuse(refusal);
    run->changes = changes;
    run->devices[t] = now;
    begin_round(run, t, (Floor){ .set = false }, boxes);
    return done;
}

static void hand_back(Run *run, unsigned t, Book book)
{
    run->tablets[t].asking = false;
    run->handed_back = join_books(run->handed_back, book);
}

static Answer commit(Run *run, unsigned t, Book book)
{
    if (free_slots(run) < DEVICES)
        return refuse(TOO_FEW_SLOTS);
    Message notice = { .kind = COMMIT, .sender = (uint8_t)t, .contents.v = book };
    unsigned place = 0;
    for (unsigned device = 0; device < DEVICES; device++) {
        notice.addressee = (uint8_t)device;
        place = put(run, place, &notice);
    }
    hand_back(run, t, book);
    return (Answer){ DONE, COMMITTED, 0, book };
}

static Answer next_round(Run *run, unsigned t, Floor floor)
{
    uint16_t boxes = queried_boxes(&run->changes, &run->devices[t]);
    Number refusal = round_refusal(run, t, boxes);
    if (refusal != DONE)
        return refuse(refusal);
    begin_round(run, t, floor, boxes);
    return (Answer){ .number = DONE, .outcome = NEW_ROUND, .round = run->tablets[t].round };
}

bool advance_allowed(const Run *run, unsigned t)
{
    const Tablet *tablet = &run->tablets[t];
    return !same_configuration(run->devices[t].v.boxes, tablet->saved.v.boxes)
        || every_majority(&run->changes, &tablet->saved, tablet->answered);
}

static Answer advance(Run *run, unsigned t)
{
    if (is_stopped(run, t))
        return refuse(IS_STOPPED);
    if (!run->tablets[t].asking)
        return refuse(ADVANCE_WHILE_IDLE);
    if (!advance_allowed(run, t))
        return refuse(NOT_ALLOWED_YET);
    const Contents *now = &run->devices[t];
    const Contents *saved = &run->tablets[t].saved;
    Floor floor = run->tablets[t].floor;
    if (same_configuration(now->v.boxes, saved->v.boxes) && now->changes == saved->changes) {
        Book decided = { now->candidates, joined(&run->changes, now->v.boxes, now->changes) };
        if (!floor.set)
            floor = (Floor){ true, decided };
        if (same_notes(now->candidates, saved->candidates))
            return commit(run, t, decided);
    }
    if (floor.set && book_contains(now->v, floor.book)) {
        Book adopted = now->v;
        hand_back(run, t, adopted);
        return (Answer){ DONE, ADOPTED, 0, adopted };
    }
    return next_round(run, t, floor);
}

/* What the addressee merges: a commit of book B as v = B, B's notes, no changes. */
static Contents incoming(const Message *message)
{
    if (message->kind == COMMIT)
        return (Contents){ message->contents.v, message->contents.v.notes, 0 };
    return message->contents;
}

static Answer deliver(Run *run, unsigned slot)
{
    Message message = run->slots[slot];
    if (message.kind == NO_MESSAGE)
        return refuse(EMPTY_SLOT);
    unsigned device = message.addressee;
    if (is_stopped(run, device))
        return refuse(IS_STOPPED);
    run->slots[slot].kind = NO_MESSAGE;
    merge(&run->changes, &run->devices[device], incoming(&message));
    if (message.kind == REQUEST) {
        Message answer = { ANSWER, (uint8_t)device, message.sender, message.round,
                           run->devices[device] };
        put(run, 0, &answer);
    }
    if (message.kind == ANSWER) {
        Tablet *tablet = &run->tablets[device];
        if (tablet->asking && tablet->round == message.round)
            tablet->answered |= (uint16_t)(1u << (message.sender - TABLETS));
    }
    return done;
}

static Answer lose(Run *run, unsigned slot)
{
    if (run->slots[slot].kind == NO_MESSAGE)
        return refuse(EMPTY_SLOT);
    run->slots[slot].kind = NO_MESSAGE;
    return done;
}

static Answer repeat(Run *run, unsigned slot)
{
    if (run->slots[slot].kind == NO_MESSAGE)
        return refuse(EMPTY_SLOT);
    if (free_slots(run) == 0)
        return refuse(TOO_FEW_SLOTS);
    Message copy = run->slots[slot];
    put(run, 0, &copy);
    return done;
}

static Answer stop(Run *run, unsigned device)
{
    if (is_stopped(run, device))
        return refuse(IS_STOPPED);
    run->stopped |= 1u << device;
    return done;
}

Answer take_step_unscanned(Run *run, Step step)
{
    static const unsigned above[STEP_KINDS] = { TABLETS, TABLETS, SLOTS, SLOTS, SLOTS, DEVICES };
    if (step.target >= above[step.kind])
        return refuse(BAD_NUMBER);
    switch (step.kind) {
    case ASK:
        return ask(run, step.target, notes_of(step.target, step.own_notes), step.change);
    case ADVANCE:
        return advance(run, step.target);
    case DELIVER:
        return deliver(run, step.target);
    case LOSE:
        return lose(run, step.target);
    case REPEAT:
        return repeat(run, step.target);
    default:
        return stop(run, step.target);
    }
}

Answer take_step(Run *run, Step step)
{
    if (!state_is_sound(run))
        return refuse(BAD_STATE);
    return take_step_unscanned(run, step);
}
