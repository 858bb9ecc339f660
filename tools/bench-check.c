/* Measures the proved tape check as `second bench check` measures the second program's:
     bench-check TAPE REPEATS
   prints how many bytes were checked and in how many nanoseconds. */
#include "../include/parlour.h"

#include <inttypes.h>
#include <stdio.h>
#include <stdlib.h>
#include <time.h>

/* What a repeat gives goes here, so that no repeat can be left out. */
static volatile uint64_t sink;

static uint64_t nanoseconds(void)
{
    struct timespec now;
    timespec_get(&now, TIME_UTC);
    return (uint64_t)now.tv_sec * 1000000000 + (uint64_t)now.tv_nsec;
}

int main(int arguments, char **argument)
{
    static uint8_t tape[4097];
    uint64_t amount = 0;
    FILE *file = arguments == 3 ? fopen(argument[1], "rb") : NULL;
    if (file == NULL)
        return 2;
    size_t length = fread(tape, 1, sizeof tape, file);
    fclose(file);
    uint64_t start = nanoseconds();
    for (unsigned long repeats = strtoul(argument[2], NULL, 10); repeats > 0; repeats--) {
        sink += parlour_tape_check(tape, length);
        amount += length;
    }
    printf("%" PRIu64 " bytes %" PRIu64 " nanoseconds\n", amount, nanoseconds() - start);
    return 0;
}
