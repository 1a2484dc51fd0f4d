/* The counting side: what it holds while it counts, and its rounds. */
#ifndef COUNTING_H
#define COUNTING_H
#include "account.h"
#include "audit.h"
#include "ballots.h"
#include "commands.h"
#include "paper.h"
#include "rounds.h"

struct counting {
    struct election *election;
    const struct draw *draw;
    const struct origin *origin;
    struct ballots ballots;
    struct account account;
    struct paper paper;
    struct key key; /* none where it is not needed, or not there while ballots are gathered */
    struct batch batch;
    struct bytes claims; /* none before they are claimed */
    size_t jobs;         /* rounds that are worked on side by side */
    /* the election as it stood when the making of rounds began, for the threads that make them while the session goes on */
    struct election seen;
    /* the material of rounds whose second message is made by the same command, for as many as there is memory */
    struct material kept[MOST_ROUNDS];
    bool keeps;         /* whether any is kept */
    size_t may_keep;    /* bytes that may be kept yet */
    struct audit audit; /* from the draw on */
};

/* Produces, writes and commits the first messages that are due. */
enum status commit_rounds(struct counting *counting);
/* Produces and writes the second messages that are due, and checks each round. The audit is told of each. */
enum status answer_rounds(struct counting *counting);
void counting_free(struct counting *counting);

#endif
