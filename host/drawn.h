/* The draw: which seed is taken, and that none is taken twice. */
#ifndef DRAWN_H
#define DRAWN_H
#include "commands.h"
#include "election.h"

/* Whether a seed that was named can be the one of this session: all rounds are committed, and no other seed was drawn. A seed that is
 * known before the first messages are made shows nothing. */
enum status seed_may_be_named(const struct election *election, const struct draw *draw);

/* Draws once all rounds are committed: the seed of seed.bin, or the one that was named, or one that this machine draws where that was
 * asked for. It is on disk, as seed.bin, before the session is drawn. */
enum status draw_seed(struct election *election, const struct draw *draw, const struct origin *origin);

#endif
