/* A small generator of its own (splitmix64), so that a seed gives the same tapes
   everywhere. */
#ifndef DICE_H
#define DICE_H

#include <stdbool.h>
#include <stdint.h>

typedef struct {
    uint64_t state;
} Dice;

static inline uint64_t roll(Dice *dice)
{
    uint64_t z = dice->state += UINT64_C(0x9e3779b97f4a7c15);
    z = (z ^ z >> 30) * UINT64_C(0xbf58476d1ce4e5b9);
    z = (z ^ z >> 27) * UINT64_C(0x94d049bb133111eb);
    return z ^ z >> 31;
}

/* A number below a limit. */
static inline unsigned below(Dice *dice, unsigned limit)
{
    return (unsigned)((roll(dice) >> 32) * limit >> 32);
}

/* Yes in so many of a hundred cases. */
static inline bool chance(Dice *dice, unsigned percent)
{
    return below(dice, 100) < percent;
}

/* One of the members of a set that is not empty. */
static inline unsigned member_of(Dice *dice, uint32_t set)
{
    unsigned size = 0;
    for (uint32_t rest = set; rest != 0; rest &= rest - 1)
        size++;
    for (unsigned skip = below(dice, size); skip > 0; skip--)
        set &= set - 1;
    unsigned member = 0;
    while ((set >> member & 1) == 0)
        member++;
    return member;
}

#endif
