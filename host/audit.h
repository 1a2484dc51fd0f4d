/* The check that a result is made from: the whole transcript, from the files, in a session of its own (transcript.h). It goes on in a
 * thread of its own while rounds are answered, and takes each round once it is on disk. */
#ifndef AUDIT_H
#define AUDIT_H
#include <pthread.h>

#include "transcript.h"

struct audit {
    struct transcript transcript;
    const char *folder;
    size_t rounds;
    bool beside; /* whether a thread is at it */
    pthread_t thread;
    /* of what follows, all but what is said and how it ended is read and written under the lock */
    pthread_mutex_t lock;
    pthread_cond_t changed;
    size_t answered, checked; /* rounds that are on disk, and rounds that are done */
    bool given_up;            /* no more will be on disk */
    bool ended;
    struct text said;
    enum status status;
};

/* Begins, once the session is drawn. With 1 for jobs, where all rounds are answered, or where no thread is to be had, all of it is left for
 * the end. */
void audit_start(struct audit *audit, const struct election *election, size_t jobs);
/* A round is on disk, and those before it. */
void audit_answered(struct audit *audit, size_t round);
/* Waits for the end, once all rounds are answered: DONE only where the transcript is accepted. It is then in `transcript`. */
enum status audit_finish(struct audit *audit, size_t jobs);
/* Gives up where it is not finished, and frees it. */
void audit_end(struct audit *audit);

#endif
