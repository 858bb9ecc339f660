#include "promise.h"

#include <string.h>

void start_promise(Promise *promise, uint16_t first_boxes)
{
    memset(promise->asked, 0, sizeof promise->asked);
    promise->sources = (Book){ .boxes.added = first_boxes };
    promise->books = 0;
}

static const char *watch_book(Promise *promise, unsigned tablet, Book book)
{
    for (size_t i = 0; i < promise->books; i++)
        if (!book_contains(book, promise->book[i]) && !book_contains(promise->book[i], book))
            return "two books, neither contains the other";
    if (!book_contains(book, promise->asked[tablet]))
        return "a book without what its own ask brought";
    if (!book_contains(promise->sources, book))
        return "a book with a note or box that no accepted ask brought";
    promise->book[promise->books++] = book;
    return NULL;
}

const char *watch_step(Promise *promise, Step step, Answer answer)
{
    if (answer.number != DONE)
        return NULL;
    if (step.kind == ASK) {
        Book brought = { notes_of(step.target, step.own_notes), step.change };
        promise->asked[step.target] = brought;
        promise->sources = join_books(promise->sources, brought);
    }
    if (answer.outcome == COMMITTED || answer.outcome == ADOPTED)
        return watch_book(promise, step.target, answer.book);
    return NULL;
}
