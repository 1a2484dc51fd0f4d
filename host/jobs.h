/* Rounds that are worked on side by side. Each is made by one of several threads, and taken by the thread that began the work, in the
 * order of rounds: what is taken, what is written and what is said are the same for any number of threads. */
#ifndef JOBS_H
#define JOBS_H
#include "rounds.h"

#define MOST_JOBS MOST_ROUNDS

struct jobs {
    const char *what;  /* for the line of progress */
    size_t first, end; /* the rounds `first` to `end` - 1 */
    size_t most;       /* so many rounds at most are held at a time, being made, made or being taken; with 1 no thread is started */
    void *with;        /* what both are lent */
    /* Makes a round, in a thread of its own: it writes into the round, and only reads what others may read at the same time. */
    enum status (*make)(void *with, struct round *round);
    /* Takes a round that was made. */
    enum status (*take)(void *with, struct round *round);
};

/* Makes and takes them all. Where a round fails no later one is taken, and the status is its own. */
enum status jobs_do(const struct jobs *jobs);

/* How many rounds are worked on side by side: as many as were asked for, or, with 0, as there are processors, and as fit, with `length`
 * bytes each, in half of this machine's memory. */
size_t jobs_count(size_t asked, size_t length);
/* A part of this machine's memory, in bytes. */
size_t memory_share(size_t parts);

#endif
