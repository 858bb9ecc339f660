/* What an app does with a tape before it is played: reads the file, has it checked, and says in
   words why it is refused:
     check-tape TAPE..
   Status: 0 every tape is good; 1 one is refused; 2 one could not be read. */
#include "parlour.h"

#include <errno.h>
#include <stdio.h>
#include <string.h>

enum { GOOD = 0, REFUSED = 1, UNREADABLE = 2 };

/* One byte more than the longest tape, so that a longer file is seen to be too long. */
enum { ROOM = 4096 + 1 };

/* Reads a file up to its end or the end of the room; no where that fails, and errno says why. */
static bool read_file(const char *name, uint8_t bytes[ROOM], size_t *length)
{
    FILE *file = fopen(name, "rb");
    if (file == NULL)
        return false;
    *length = fread(bytes, 1, ROOM, file);
    /* A folder opens and cannot be read: without this test it would be a tape of no bytes. */
    bool whole = !ferror(file);
    int reason = errno;
    fclose(file);
    errno = reason;
    return whole;
}

static const char *reason_of(uint8_t number)
{
    switch (number) {
    case PARLOUR_TAPE_TOO_LONG:
        return "it has over 4,096 bytes";
    case PARLOUR_TAPE_NO_FIRST_BOX:
        return "it names no first box";
    case PARLOUR_TAPE_ENDS_TOO_SOON:
        return "it ends too soon: a part of it is missing";
    case PARLOUR_TAPE_NO_STEP:
        return "it holds something that is no step: a long Ask with none of its last eight notes, "
               "or a Stop of a device over 23";
    case PARLOUR_TAPE_AFTER_END:
        return "something follows its end mark";
    default:
        return "for a reason that this program does not know";
    }
}

static int check_file(const char *name)
{
    static uint8_t tape[ROOM];
    size_t length = 0;
    if (!read_file(name, tape, &length)) {
        printf("%s: could not be read: %s\n", name, strerror(errno));
        return UNREADABLE;
    }
    uint8_t number = parlour_tape_check(tape, length);
    if (number != PARLOUR_TAPE_GOOD) {
        printf("%s: refused by %u: %s\n", name, (unsigned)number, reason_of(number));
        return REFUSED;
    }
    printf("%s: good\n", name);
    return GOOD;
}

int main(int arguments, char **argument)
{
    int status = GOOD;
    for (int i = 1; i < arguments; i++) {
        int found = check_file(argument[i]);
        status = found > status ? found : status;
    }
    /* Boxes 0, 1 and 2 were added, none was removed, boxes 0 and 2 answered. */
    printf("2 of 3 boxes: %s\n",
           parlour_majority(0x0007, 0x0000, 0x0005) ? "a majority" : "no majority");
    return status;
}
