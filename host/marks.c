/* Lists of marks: found by going through them, since there are 4,096 at most. */
#include "marks.h"

#include <stdio.h>

/* How wide a line of marks is. */
#define WIDTH 78

size_t marks_find(const struct marks *marks, uint32_t mark) {
    size_t i = 0;
    while (i < marks->count && marks->at[i] != mark) i++;
    return i;
}

bool marks_have(const struct marks *marks, uint32_t mark) {
    return marks_find(marks, mark) < marks->count;
}

bool marks_add(struct marks *marks, uint32_t mark) {
    if (marks->count == MOST_BALLOTS || marks_have(marks, mark)) return false;
    marks->at[marks->count++] = mark;
    return true;
}

void text_add_marks(struct text *text, const struct marks *marks) {
    size_t width = 0;
    for (size_t i = 0; i < marks->count; i++) {
        char word[16];
        size_t length = (size_t)snprintf(word, sizeof word, " %u%s", (unsigned)marks->at[i], i + 1 < marks->count ? "," : "");
        bool ends = width && width + length > WIDTH;
        text_add(text, "%s%s%s", ends ? "\n" : "", ends || !width ? " " : "", word);
        width = ends || !width ? 1 + length : width + length;
    }
    text_add(text, "\n");
}
