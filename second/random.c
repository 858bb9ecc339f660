/* Makes sound tapes by taking the steps as it chooses them. A style, chosen once
   for each tape, says how calm or wild the run is. */
#include "random.h"

typedef struct {
    size_t bits;        /* the tape's length */
    uint32_t tablets;   /* those that ask */
    uint16_t first;
    unsigned ask;       /* the rest in percent */
    unsigned change;    /* asks with a change */
    unsigned hold;      /* messages kept for a late delivery */
    unsigned release;   /* deliveries of such a message */
    unsigned lose;
    unsigned repeat;
    unsigned stop;      /* in a thousand */
    unsigned wild;      /* any step at all */
    unsigned early;     /* Advance before it is allowed */
    unsigned tidy;      /* commits lost when the table fills up */
} Style;

typedef struct {
    Dice *dice;
    Style style;
    Run run;
    bool held[SLOTS];
    unsigned in_vain;   /* deliveries refused; a run that is stuck ends */
    size_t bits;
    size_t steps;
    uint64_t row[TAPE_STEPS];
} Maker;

static uint16_t random_boxes(Dice *dice, unsigned most)
{
    uint16_t boxes = 0;
    for (unsigned i = below(dice, most) + 1; i > 0; i--)
        boxes |= (uint16_t)(1u << below(dice, most < 3 ? 16 : most + 2 < 16 ? most + 2 : 16));
    return boxes;
}

/* One assignment after the other: the order of the rolls is part of what a seed means. */
static Style random_style(Dice *dice)
{
    static const size_t bytes[] = { 40, 120, 400, 1200, 4094, 4094 };
    static const unsigned asking[] = { 1, 2, 2, 3, 3, 4, 6, 8 };
    Style style = { .hold = 5, .lose = 1, .repeat = 1, .wild = 1, .early = 1 };
    bool calm = chance(dice, 40);
    unsigned tablets = asking[below(dice, 8)];
    style.bits = 8 * bytes[below(dice, 6)];
    style.tablets = (uint32_t)((1u << tablets) - 1) << below(dice, 9 - tablets);
    style.first = random_boxes(dice, 1 + below(dice, chance(dice, 85) ? 4 : 16));
    style.ask = 5 + below(dice, 40);
    style.change = chance(dice, 30) ? 0 : 10 + below(dice, 60);
    style.release = 5 + below(dice, 20);
    style.tidy = chance(dice, 80) ? 90 : 50;
    if (calm)
        return style;
    style.hold = below(dice, 50);
    style.lose = below(dice, 15);
    style.repeat = below(dice, 12);
    style.stop = below(dice, 8);
    style.wild = below(dice, 8);
    style.early = below(dice, 8);
    return style;
}

/* Messages in the table before and after tell which are new. */
static void hold_new_messages(Maker *maker, const bool before[SLOTS])
{
    for (unsigned slot = 0; slot < SLOTS; slot++)
        if (!before[slot] && maker->run.slots[slot].kind != NO_MESSAGE)
            maker->held[slot] = chance(maker->dice, maker->style.hold);
}

/* Takes the step and puts it on the tape, if the tape's length allows. */
static bool emit(Maker *maker, Step step)
{
    bool before[SLOTS];
    if (maker->bits + bits_of_step(step) + END_BITS > maker->style.bits)
        return false;
    for (unsigned slot = 0; slot < SLOTS; slot++)
        before[slot] = maker->run.slots[slot].kind != NO_MESSAGE;
    if (step.kind == DELIVER || step.kind == LOSE)
        before[step.target] = false;
    maker->bits += bits_of_step(step);
    maker->row[maker->steps++] = word_of_step(step);
    Number number = take_step_unscanned(&maker->run, step).number;
    maker->in_vain += step.kind == DELIVER && number != DONE;
    hold_new_messages(maker, before);
    return maker->in_vain < 40;
}

/* Any own notes, for a short Ask or a long one. */
static uint16_t random_notes(Dice *dice)
{
    uint16_t among = chance(dice, 50) ? UINT8_MAX : UINT16_MAX;
    return (uint16_t)(roll(dice) & among);
}

static Step wild_step(Dice *dice)
{
    static const unsigned above[STEP_KINDS] = { TABLETS, TABLETS, SLOTS, SLOTS, SLOTS, DEVICES };
    StepKind kind = (StepKind)below(dice, chance(dice, 5) ? STEP_KINDS : STOP);
    unsigned target = below(dice, kind >= DELIVER && chance(dice, 50) ? 20 : above[kind]);
    Step step = { .kind = kind, .target = target };
    if (kind != ASK)
        return step;
    step.own_notes = random_notes(dice);
    step.change.added = (uint16_t)roll(dice);
    step.change.removed = (uint16_t)(roll(dice) & roll(dice));
    return step;
}

/* Adds a box, removes one, swaps, or brings one that is listed or contained. */
static Configuration random_change(Maker *maker, unsigned tablet)
{
    Dice *dice = maker->dice;
    const Changes *changes = &maker->run.changes;
    Configuration now = maker->run.devices[tablet].v.boxes;
    uint16_t absent = (uint16_t)~now.added;
    Configuration change = { 0, 0 };
    bool full = changes->length == CHANGES && chance(dice, 90);
    if (changes->length > 0 && (full || chance(dice, 20)))
        return changes->at[below(dice, changes->length)];
    if (chance(dice, 10)) {
        now.added &= (uint16_t)roll(dice);
        now.removed &= (uint16_t)roll(dice);
        return now;
    }
    unsigned shape = below(dice, 8);
    if (shape < 6 && absent != 0)
        change.added = (uint16_t)(1u << member_of(dice, absent));
    if (shape < 2 && absent != 0)
        change.added |= (uint16_t)(1u << member_of(dice, absent));
    if (shape > 2 && members(now) != 0)
        change.removed = (uint16_t)(1u << member_of(dice, members(now)));
    if (shape == 7)
        change.added |= (uint16_t)(roll(dice) & roll(dice) & 0x1ff);
    return change;
}

static Step random_ask(Maker *maker, unsigned tablet)
{
    Dice *dice = maker->dice;
    Step step = { ASK, tablet, 0, { 0, 0 } };
    if (chance(dice, 85))
        step.own_notes = (uint16_t)(1u << below(dice, 16));
    if (chance(dice, 10))
        step.own_notes = random_notes(dice);
    if (chance(dice, maker->style.change))
        step.change = random_change(maker, tablet);
    return step;
}

/* Whether a delivery still moves somebody's round on. */
static bool is_useful(const Run *run, const Message *message)
{
    if (message->kind == NO_MESSAGE || is_stopped(run, message->addressee))
        return false;
    if (message->kind == COMMIT) {
        Book v = run->devices[message->addressee].v;
        return !book_contains(v, message->contents.v)
            && (message->addressee >= TABLETS || run->tablets[message->addressee].asking);
    }
    unsigned t = message->kind == REQUEST ? message->sender : message->addressee;
    return run->tablets[t].asking && run->tablets[t].round == message->round;
}

/* A useful message that is not held, else a filled slot, from a random place on. */
static unsigned slot_to_deliver(Maker *maker)
{
    unsigned start = below(maker->dice, SLOTS);
    bool held = chance(maker->dice, maker->style.release);
    bool to_stopped = chance(maker->dice, 5);
    unsigned filled = start;
    for (unsigned i = 0; i < SLOTS; i++) {
        unsigned slot = (start + i) % SLOTS;
        const Message *message = &maker->run.slots[slot];
        if (message->kind == NO_MESSAGE)
            continue;
        if (to_stopped || !is_stopped(&maker->run, message->addressee))
            filled = slot;
        if (held ? maker->held[slot] : is_useful(&maker->run, message) && !maker->held[slot])
            return slot;
    }
    return filled;
}

/* A commit that nobody waits for, or any message. */
static unsigned slot_to_lose(Maker *maker)
{
    unsigned start = below(maker->dice, SLOTS);
    for (unsigned i = 0; i < SLOTS; i++) {
        unsigned slot = (start + i) % SLOTS;
        const Message *message = &maker->run.slots[slot];
        if (message->kind != NO_MESSAGE && !is_useful(&maker->run, message))
            return slot;
    }
    return start;
}

/* The asking tablets, those among them that may advance, and the idle ones. */
typedef struct {
    uint32_t asking;
    uint32_t ready;
    uint32_t idle;
} Tablets;

static Tablets look_at_tablets(const Maker *maker)
{
    Tablets tablets = { 0, 0, 0 };
    for (unsigned t = 0; t < TABLETS; t++) {
        if (is_stopped(&maker->run, t))
            continue;
        if (!maker->run.tablets[t].asking)
            tablets.idle |= (1u << t) & maker->style.tablets;
        else if (advance_allowed(&maker->run, t))
            tablets.ready |= 1u << t;
        else
            tablets.asking |= 1u << t;
    }
    return tablets;
}

static Step choose_step(Maker *maker)
{
    Dice *dice = maker->dice;
    const Style *style = &maker->style;
    Tablets tablets = look_at_tablets(maker);
    unsigned free = free_slots(&maker->run);
    if (chance(dice, style->wild))
        return wild_step(dice);
    if (below(dice, 1000) < style->stop)
        return (Step){ .kind = STOP, .target = below(dice, DEVICES) };
    if (free < 34 && chance(dice, style->tidy))
        return (Step){ .kind = LOSE, .target = slot_to_lose(maker) };
    if (tablets.ready != 0 && chance(dice, 40))
        return (Step){ .kind = ADVANCE, .target = member_of(dice, tablets.ready) };
    if (tablets.asking != 0 && chance(dice, style->early))
        return (Step){ .kind = ADVANCE, .target = member_of(dice, tablets.asking) };
    if (tablets.idle != 0 && (free == SLOTS || chance(dice, style->ask)))
        return random_ask(maker, member_of(dice, tablets.idle));
    if (chance(dice, style->lose))
        return (Step){ .kind = LOSE, .target = slot_to_deliver(maker) };
    if (chance(dice, style->repeat))
        return (Step){ .kind = REPEAT, .target = slot_to_deliver(maker) };
    return (Step){ .kind = DELIVER, .target = slot_to_deliver(maker) };
}

static size_t make_tape(Dice *dice, Style style, uint8_t tape[TAPE_BYTES])
{
    static Maker maker;
    size_t length = 0;
    maker = (Maker){ .dice = dice, .style = style };
    start_run(&maker.run, style.first);
    while (emit(&maker, choose_step(&maker)))
        continue;
    write_tape(style.first, maker.row, maker.steps, tape, TAPE_BYTES, &length);
    return length;
}

size_t make_sound_tape(Dice *dice, uint8_t tape[TAPE_BYTES])
{
    return make_tape(dice, random_style(dice), tape);
}

size_t make_long_tape(Dice *dice, uint8_t tape[TAPE_BYTES])
{
    Style style = {
        .bits = 8 * (TAPE_BYTES - HEADER_BYTES), .tablets = 0x0f, .first = 0x1f, .ask = 20,
        .change = 5, .hold = 5, .release = 10, .lose = 1, .repeat = 1, .tidy = 100,
    };
    return make_tape(dice, style, tape);
}
