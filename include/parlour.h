/* The two calls of the parlour library that the tablet app makes. Both are proved.

   Link with the archive that `tools/build app` writes, for x86-64:

       cc -I include my-app.c target/staticlib/libapp.a

   Both calls take any input at all, always return, keep nothing between calls, write to no memory
   but their own stack, and may run in any number of threads at once. */
#ifndef PARLOUR_APP_H
#define PARLOUR_APP_H

#include <stdbool.h>
#include <stddef.h>
#include <stdint.h>

#ifdef __cplusplus
extern "C" {
#endif

/* Whether the boxes that answered are a majority of a configuration.

   Each argument is a set of the boxes 0 to 15, box b having weight 2^b: the boxes added, the boxes
   removed, and the boxes that answered. The members are the boxes added and not removed. The
   result is true exactly when twice the number of members that answered exceeds the number of
   members. So it is false where there are no members, and boxes that answered and are no members
   count for nothing. */
bool parlour_majority(uint16_t added, uint16_t removed, uint16_t answered);

/* What parlour_tape_check gives. */
enum parlour_tape_number {
    PARLOUR_TAPE_GOOD = 0,           /* the tape can be played */
    PARLOUR_TAPE_TOO_LONG = 11,      /* it has over 4,096 bytes */
    PARLOUR_TAPE_NO_FIRST_BOX = 12,  /* its set of first boxes is empty */
    PARLOUR_TAPE_ENDS_TOO_SOON = 13, /* under three bytes, or a step or the end mark is cut off */
    PARLOUR_TAPE_NO_STEP = 14,       /* a long Ask (kind 6) whose last eight notes are all absent,
                                        or a Stop of a device 24 to 31 */
    PARLOUR_TAPE_AFTER_END = 15      /* after the end mark a bit is set or a byte follows */
};

/* Whether a recorded tape can be read: 0, or the number of the one reason why not, one of those
   above and no other. Where several reasons hold, it is the first in this order: 11; 13 for under
   three bytes; 12; 13 or 14 at the first step that has it, 13 where it has too few bits; 15.

   `tape` points to `length` bytes, which no thread changes during the call; no other byte is read.
   A length of 0 gives 13; `tape` must then too be a valid pointer, to anything, and not NULL. */
uint8_t parlour_tape_check(const uint8_t *tape, size_t length);

#ifdef __cplusplus
}
#endif

#endif
