/* The fresh run, the states that number 1 refuses, and the unplug question. */
#include "run.h"

#include <string.h>

Number start_run(Run *run, uint16_t first_boxes)
{
    if (first_boxes == 0)
        return NO_FIRST_BOX;
    memset(run, 0, sizeof *run);
    run->handed_back.boxes.added = first_boxes;
    for (unsigned device = 0; device < DEVICES; device++)
        run->devices[device].v = run->handed_back;
    return DONE;
}

static bool changes_are_sound(const Changes *changes)
{
    if (changes->length > CHANGES)
        return false;
    for (unsigned i = 0; i < changes->length; i++)
        for (unsigned j = i + 1; j < changes->length; j++)
            if (same_configuration(changes->at[i], changes->at[j]))
                return false;
    return true;
}

/* A set of changes is sound when it names listed ones only. */
static bool names_listed(const Changes *changes, uint8_t set)
{
    return set >> changes->length == 0;
}

static bool is_tablet(unsigned device)
{
    return device < TABLETS;
}

static bool is_box(unsigned device)
{
    return device >= TABLETS && device < DEVICES;
}

static bool message_is_sound(const Changes *changes, const Message *message)
{
    switch (message->kind) {
    case NO_MESSAGE:
        return true;
    case COMMIT:
        return is_tablet(message->sender) && message->addressee < DEVICES;
    case REQUEST:
        if (!is_tablet(message->sender) || !is_box(message->addressee))
            return false;
        break;
    default:
        if (!is_box(message->sender) || !is_tablet(message->addressee))
            return false;
        break;
    }
    return message->round <= LAST_ROUND && names_listed(changes, message->contents.changes);
}

bool state_is_sound(const Run *run)
{
    if (!changes_are_sound(&run->changes))
        return false;
    for (unsigned device = 0; device < DEVICES; device++)
        if (!names_listed(&run->changes, run->devices[device].changes))
            return false;
    for (unsigned t = 0; t < TABLETS; t++) {
        const Tablet *tablet = &run->tablets[t];
        if (tablet->round > LAST_ROUND)
            return false;
        if (tablet->asking && !names_listed(&run->changes, tablet->saved.changes))
            return false;
    }
    for (unsigned slot = 0; slot < SLOTS; slot++)
        if (!message_is_sound(&run->changes, &run->slots[slot]))
            return false;
    return true;
}

Number may_unplug(const Run *run, unsigned box, bool *yes)
{
    if (!state_is_sound(run))
        return BAD_STATE;
    if (box >= BOXES)
        return BAD_NUMBER;
    *yes = (run->handed_back.boxes.removed >> box & 1) != 0;
    return DONE;
}
