/* Compares the two calls of the tablet app with the second program's:
     compare-calls SEED TAPE..
   The tape check on each tape and on each beginning of it near both ends; the majority test on
   every set of members with every set of them that answered. Status 1 where they differ. */
#include "../include/parlour.h"
#include "../second/dice.h"
#include "../second/tape.h"

#include <stdio.h>
#include <stdlib.h>

/* Beginnings this close to the start or the end of a tape are checked too. */
enum { NEAR = 8, ROOM = TAPE_BYTES + 4096 };

static unsigned long differences;

static void compare_check(const char *name, const uint8_t *tape, size_t length)
{
    unsigned proved = parlour_tape_check(tape, length);
    unsigned second = check_tape(tape, length);
    if (proved == second)
        return;
    differences++;
    printf("%s, its first %zu bytes: the tape check gives %u, the second program %u\n", name,
           length, proved, second);
}

/* How many beginnings of the tape were checked; 0 where the file cannot be read. */
static unsigned long compare_tape(const char *name)
{
    static uint8_t tape[ROOM];
    unsigned long checked = 0;
    FILE *file = fopen(name, "rb");
    if (file == NULL) {
        printf("%s cannot be read\n", name);
        differences++;
        return 0;
    }
    size_t length = fread(tape, 1, ROOM, file);
    fclose(file);
    for (size_t part = 0; part <= length; part++) {
        if (part > NEAR && part + NEAR < length)
            continue;
        compare_check(name, tape, part);
        checked++;
    }
    return checked;
}

static void compare_majority(uint16_t added, uint16_t removed, uint16_t answered)
{
    bool proved = parlour_majority(added, removed, answered);
    bool second = majority(added, removed, answered);
    if (proved == second)
        return;
    differences++;
    printf("majority of added %04x, removed %04x, answered %04x: %d, the second program %d\n",
           added, removed, answered, proved, second);
}

/* Once with no other bit in the three sets, once with thrown ones that must count for nothing. */
static void compare_majority_twice(Dice *dice, uint16_t members, uint16_t answered)
{
    uint64_t thrown = roll(dice);
    uint16_t removed = (uint16_t)(thrown & ~members);
    uint16_t added = (uint16_t)(members | (removed & thrown >> 16));
    compare_majority(members, 0, answered);
    compare_majority(added, removed, (uint16_t)(answered | (~members & thrown >> 32)));
}

/* Every set of members with every set of them that answered; gives how many were compared. */
static unsigned long compare_majorities(Dice *dice)
{
    unsigned long compared = 0;
    for (unsigned members = 0; members <= UINT16_MAX; members++) {
        uint16_t answered = (uint16_t)members;
        do {
            compare_majority_twice(dice, (uint16_t)members, answered);
            compared += 2;
            answered = (uint16_t)((answered - 1) & members);
        } while (answered != members);
    }
    return compared;
}

int main(int arguments, char **argument)
{
    unsigned long checked = 0;
    if (arguments < 2)
        return 2;
    Dice dice = { strtoull(argument[1], NULL, 10) };
    for (int i = 2; i < arguments; i++)
        checked += compare_tape(argument[i]);
    unsigned long asked = compare_majorities(&dice);
    printf("compare: %lu tape checks, %lu majorities, %lu differences\n", checked, asked,
           differences);
    return differences == 0 && checked > 0 ? 0 : 1;
}
