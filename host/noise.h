/* The noise of ballots: how far a ciphertext lies from the ones that are made by the rules. It takes the key to see it. */
#ifndef NOISE_H
#define NOISE_H
#include "ballots.h"
#include "material.h"

/* Looks at the standing ballots that were not looked at yet, and names the mark of each one whose noise is larger than the sheet's bound:
 * no round can be shown with such a ballot, so that the election cannot close before it is withdrawn. Saves how far it came. REFUSED where
 * there is one. */
enum status noise_examine(struct election *election, const struct ballots *ballots, const struct key *key);

#endif
