/* A transcript, gone through as a member does on another machine: the session is built anew from the published files, and nothing that the
 * counting side says of itself is taken over. */
#ifndef TRANSCRIPT_H
#define TRANSCRIPT_H
#include "account.h"
#include "ballots.h"
#include "election.h"
#include "paper.h"

struct transcript {
    struct election election;
    struct ballots ballots;
    struct account account;
    struct paper paper;
    struct bytes claims;
    size_t jobs; /* rounds that are held at a time: 1, or 2 where one is read while another is checked */
    uint8_t commitment[DIGEST], fingerprint[DIGEST];
    /* where rounds are still being answered: waits until the files of a round can be read, and is false where they will not come */
    bool (*may_read)(void *lent, size_t round);
    void *lent;
};

/* Reads the files of a folder and takes the session from the log to the draw: after this commitment and fingerprint are known. jobs: 1
 * where nothing is to be read ahead. */
enum status transcript_read(struct transcript *transcript, const char *folder, size_t jobs);
/* Checks every round: DONE only where the session ends accepted. */
enum status transcript_check(struct transcript *transcript);
void transcript_end(struct transcript *transcript);

#endif
