/* Books, boxes and containment (document 01, section of that name, with request [1] of
   document 02). */
#ifndef BOOKS_H
#define BOOKS_H

#include <stdbool.h>
#include <stdint.h>

/* A set of notes 0 to 127, note n having weight 2^n: notes 64 to 127, and notes 0 to 63. */
typedef struct {
    uint64_t high;
    uint64_t low;
} Notes;

/* A configuration is two sets of boxes, box b having weight 2^b. */
typedef struct {
    uint16_t added;
    uint16_t removed;
} Configuration;

/* A book is notes and a configuration. */
typedef struct {
    Notes notes;
    Configuration boxes;
} Book;

/* Members are those added and not removed. */
static inline uint16_t members(Configuration c)
{
    return (uint16_t)(c.added & ~c.removed);
}

static inline unsigned count(uint16_t set)
{
    unsigned size = 0;
    for (; set != 0; set = (uint16_t)(set & (set - 1)))
        size++;
    return size;
}

/* Twice the number of members that answered exceeds the number of members. */
static inline bool majority(uint16_t added, uint16_t removed, uint16_t answered)
{
    Configuration c = { added, removed };
    return 2 * count(members(c) & answered) > count(members(c));
}

static inline bool same_notes(Notes a, Notes b)
{
    return a.high == b.high && a.low == b.low;
}

static inline Notes join_notes(Notes a, Notes b)
{
    return (Notes){ a.high | b.high, a.low | b.low };
}

static inline bool notes_contain(Notes whole, Notes part)
{
    return same_notes(join_notes(whole, part), whole);
}

static inline bool same_configuration(Configuration a, Configuration b)
{
    return a.added == b.added && a.removed == b.removed;
}

static inline Configuration join_configurations(Configuration a, Configuration b)
{
    return (Configuration){ a.added | b.added, a.removed | b.removed };
}

static inline bool configuration_contains(Configuration whole, Configuration part)
{
    return same_configuration(join_configurations(whole, part), whole);
}

static inline Book join_books(Book a, Book b)
{
    return (Book){ join_notes(a.notes, b.notes), join_configurations(a.boxes, b.boxes) };
}

static inline bool book_contains(Book whole, Book part)
{
    return notes_contain(whole.notes, part.notes)
        && configuration_contains(whole.boxes, part.boxes);
}

#endif
