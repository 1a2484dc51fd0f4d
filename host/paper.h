/* What the votes are read by: the names of the lists, and the number enrolled. A vote is a mark at the place of a line of lists.txt, so
 * the lists are kept, by digest, from the first ballot on; the number enrolled is kept from the closing on. A file that was changed after
 * that is refused. */
#ifndef PAPER_H
#define PAPER_H
#include "election.h"
#include "lists.h"

struct paper {
    struct lists lists;
    struct enrolment enrolment;
    uint64_t turnout; /* of the entries that stand, per thousand */
};

/* Reads both files and judges them. */
enum status paper_read(const struct election *election, struct paper *paper);
void paper_free(struct paper *paper);

/* Keeps the lists from now on, or refuses other ones than are kept. `fresh` is set where they were not kept before: the state has then to
 * be saved. */
enum status lists_keep(struct election *election, const struct lists *lists, bool *fresh);
/* The same of the number enrolled. */
enum status enrolment_keep(struct election *election, const struct enrolment *enrolment, bool *fresh);

#endif
