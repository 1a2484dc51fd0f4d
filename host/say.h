/* What the host says on standard error: one line for each complaint, and progress where a person watches. */
#ifndef SAY_H
#define SAY_H
#include <stddef.h>
#include <stdint.h>
#include <time.h>

#include "bytes.h"
#include "status.h"

/* One line, with the program's name in front. */
void say(const char *form, ...) __attribute__((format(printf, 1, 2)));

/* Says which refusal a call answered, in words, and where: `what` names the file or the step. Answers REFUSED. */
enum status say_refused(uint64_t reply, const char *what, ...) __attribute__((format(printf, 2, 3)));

/* Says that there is no memory. Answers TROUBLE. */
enum status say_no_memory(void);

/* What this thread says from now on is kept in a text, and it shows no progress; with none it is said at once again. */
void say_later(struct text *kept);
/* Says what was kept, and frees the text. */
void say_kept(struct text *kept);

/* Shows how far long work has come, on one line that is written over. Nothing where standard error is no terminal. */
void progress(const char *what, size_t done, size_t all);
/* Clears that line. */
void progress_end(void);

/* When long work began, and how much of it was done before that. */
struct pace {
    struct timespec began;
    size_t before;
};
void pace_start(struct pace *pace, size_t before);
/* The same line with the time that is left, by the pace so far; without it while nothing was done at this pace. */
void progress_at_pace(const struct pace *pace, const char *what, size_t done, size_t all);

#endif
