/* One run of the parlour and its steps (document 01, "What each device keeps",
   "The steps", "Numbers a caller gets back"; paper 001, Figure 2). */
#ifndef RUN_H
#define RUN_H

#include "books.h"

enum {
    TABLETS = 8,
    BOXES = 16,
    DEVICES = 24,
    SLOTS = 128,
    CHANGES = 6,
    LAST_ROUND = 1023
};

/* Numbers a caller gets back, in the order of document 01's table. */
typedef enum {
    DONE,
    BAD_STATE,
    BAD_NUMBER,
    IS_STOPPED,
    ASK_WHILE_ASKING,
    ADVANCE_WHILE_IDLE,
    NOT_ALLOWED_YET,
    EMPTY_SLOT,
    SEVENTH_CHANGE,
    NO_ROUND_LEFT,
    TOO_FEW_SLOTS,
    TAPE_TOO_LONG,
    NO_FIRST_BOX,
    TAPE_TOO_SHORT,
    NO_SUCH_STEP,
    SET_AFTER_END,
    ROOM_TOO_SHORT
} Number;

/* The list of changes; a set of listed changes has weight 2^i for place i. */
typedef struct {
    uint8_t length;
    Configuration at[CHANGES];
} Changes;

/* What a device keeps and what requests and answers carry: v, candidates, T. */
typedef struct {
    Book v;
    Notes candidates;
    uint8_t changes;
} Contents;

typedef struct {
    bool set;
    Book book;
} Floor;

/* `saved`, `answered` and `floor` have a meaning only while asking. */
typedef struct {
    uint16_t round;
    bool asking;
    Contents saved;
    uint16_t answered;
    Floor floor;
} Tablet;

typedef enum { NO_MESSAGE, REQUEST, ANSWER, COMMIT } MessageKind;

/* A commit carries a book only, in contents.v. */
typedef struct {
    uint8_t kind;
    uint8_t sender;
    uint8_t addressee;
    uint16_t round;
    Contents contents;
} Message;

typedef struct {
    Changes changes;
    uint32_t stopped;
    Book handed_back;
    Contents devices[DEVICES];
    Tablet tablets[TABLETS];
    Message slots[SLOTS];
} Run;

typedef enum { ASK, ADVANCE, DELIVER, LOSE, REPEAT, STOP, STEP_KINDS } StepKind;

/* `target` is the tablet, slot or device; notes and change belong to Ask, in own notes the
   tablet's lowest number having weight 1. */
typedef struct {
    StepKind kind;
    unsigned target;
    uint16_t own_notes;
    Configuration change;
} Step;

typedef enum { NOTHING_MORE, NEW_ROUND, COMMITTED, ADOPTED } Outcome;

typedef struct {
    Number number;
    Outcome outcome;
    unsigned round;
    Book book;
} Answer;

Number start_run(Run *run, uint16_t first_boxes);

/* Number 1 is given exactly when this is false. */
bool state_is_sound(const Run *run);

Answer take_step(Run *run, Step step);

/* Like take_step, without the look for number 1: for a state known to be sound. */
Answer take_step_unscanned(Run *run, Step step);

/* The unplug question: *yes is written when the number is 0. */
Number may_unplug(const Run *run, unsigned box, bool *yes);

/* Whether number 6 would not be given; the tablet must be asking. */
bool advance_allowed(const Run *run, unsigned tablet);

unsigned free_slots(const Run *run);

static inline bool is_stopped(const Run *run, unsigned device)
{
    return (run->stopped >> device & 1) != 0;
}

/* The notes among 16t to 16t+15 that an Ask of tablet t brings. */
static inline Notes notes_of(unsigned tablet, uint16_t own_notes)
{
    uint64_t notes = (uint64_t)own_notes << 16 * tablet % 64;
    return 16 * tablet < 64 ? (Notes){ 0, notes } : (Notes){ notes, 0 };
}

#endif
