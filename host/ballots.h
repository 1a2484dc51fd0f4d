/* The ballots of a folder, and the batch: the ballots admitted and not withdrawn, in order of admission. */
#ifndef BALLOTS_H
#define BALLOTS_H
#include "election.h"
#include "marks.h"

/* Where ballots are found: one to a file in ballots/, or all in ballots.bin, which is then held whole with its marks. */
struct ballots {
    bool whole;
    struct bytes all;
    struct marks marks;
};

/* The closed batch, end to end as the library is lent it. */
struct batch {
    struct bytes all;
    size_t count, length; /* of one ballot */
};

/* Finds out which of the two the folder has. */
enum status ballots_open(const struct election *election, struct ballots *ballots);
/* The ballot with a mark. */
enum status ballots_take(const struct election *election, const struct ballots *ballots, uint32_t mark, struct bytes *ballot);
/* The ballot of an entry of the register: the one that was admitted, by its digest. */
enum status ballots_of_entry(const struct election *election, const struct ballots *ballots, size_t entry, struct bytes *ballot);
/* Names every ballot that is there and that no line of the log, which is taken, admits: it is not counted. `no_ballot` are the marks that
 * have an entry by a withdrawal alone. */
enum status ballots_name_unlogged(const struct election *election, const struct ballots *ballots, const struct marks *no_ballot);
void ballots_close(struct ballots *ballots);

/* Closes the ballots: the entries that stand are the batch. */
enum status batch_close(struct election *election);
/* The ballots of the register's standing entries. */
enum status batch_make(const struct election *election, const struct ballots *ballots, struct batch *batch);
void batch_free(struct batch *batch);
/* Says the mark of the ballot that a refusal names by its place in the batch. */
void batch_say_mark(const struct batch *batch, uint64_t reply);

/* The name of a ballot's file. */
#define BALLOT_FOLDER "ballots"
#define BALLOT_END ".ballot"
#define BALLOT_NAME_ROOM 32
void ballot_name(char *name, uint32_t mark);
/* Whether a file of that folder has the name of the ballot with a mark. */
bool is_ballot_name(const char *name, uint32_t *mark);

#endif
