/* Two digests that people compare. The commitment covers all that has to stand before the seed is drawn; the fingerprint covers that and
 * the seed, and so names the whole election: whoever sees the same fingerprint sees the same sheet, lists, enrolment, log, ballots,
 * claims, first messages and draw. docs/ELECTIONS.md has the bytes that are hashed. */
#ifndef FINGERPRINT_H
#define FINGERPRINT_H
#include "election.h"
#include "paper.h"

/* Of a session with all rounds committed, whose log is taken. */
void commitment_of(const struct election *election, const struct paper *paper, uint8_t *commitment);
/* Of a session that is drawn. */
void fingerprint_of(const struct election *election, const uint8_t *commitment, uint8_t *fingerprint);

#endif
