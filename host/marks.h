/* Lists of marks. */
#ifndef MARKS_H
#define MARKS_H
#include "election.h"

/* Marks, none of them twice, in the order in which they were added. */
struct marks {
    uint32_t at[MOST_BALLOTS];
    size_t count;
};

/* The place of a mark; the count where it is not among them. */
size_t marks_find(const struct marks *marks, uint32_t mark);
bool marks_have(const struct marks *marks, uint32_t mark);
/* Adds a mark; false where it is there already, or there is no room for it. */
bool marks_add(struct marks *marks, uint32_t mark);
/* Adds them to a text, with commas between: lines that are indented, and not too long to be read. */
void text_add_marks(struct text *text, const struct marks *marks);

#endif
