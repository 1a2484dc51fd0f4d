/* The state of an election on disk: session image, register, how far the log is taken, the producer's seeds with their streams, and the
 * digests by which lists and enrolment are kept, in one file, so that they change together. */
#ifndef STATE_H
#define STATE_H
#include "election.h"

#define STATE "state.bin"

/* Takes the state from disk, also one that an earlier release stored; REFUSED where the file is damaged, is of another sheet,
 * or names a stream for a round that this release does not know. The sheet is read already. */
enum status state_load(struct election *election);
enum status state_save(const struct election *election);

#endif
