/* Making a ballot, as a voter's device does, and filing it. */
#ifndef CAST_H
#define CAST_H
#include "election.h"

/* Encrypts a message, a byte a coefficient, under the sheet, behind the mark. */
enum status ballot_make(struct election *election, uint32_t mark, const struct bytes *message, const struct origin *origin,
                        struct bytes *ballot);
/* Writes the ballot's file, and then its admission's line to the log. */
enum status ballot_file(const struct election *election, const struct bytes *ballot);

#endif
