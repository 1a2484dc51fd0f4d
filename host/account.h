/* The ballot account: what became of the ballots and the withdrawals of a log. A withdrawal may come before its ballot. The ballot that
 * comes then is refused 33, as is one that comes back after it was admitted and withdrawn: it is passed over, told of, and not counted. */
#ifndef ACCOUNT_H
#define ACCOUNT_H
#include "election.h"
#include "marks.h"

struct account {
    size_t standing;
    size_t withdrawn;       /* ballots that were admitted and then withdrawn */
    struct marks late;      /* of ballots that came after their withdrawal */
    struct marks no_ballot; /* withdrawn, and no ballot came */
};

/* Standing and withdrawn alone, as the register has them. */
void account_count(const struct election *election, struct account *account);
/* The whole account, of the lines of the log that are taken. The log is gone through again from its first line on, so that it is the same
 * from whatever state a command went on. */
enum status account_make(const struct election *election, struct account *account);

/* A list of the account, with the words under which it is told. */
struct account_list {
    const char *words;
    const struct marks *marks;
};
#define ACCOUNT_LISTS 2
/* Fills in the lists that are not empty. Answers how many there are. */
size_t account_lists(const struct account *account, struct account_list *lists);

/* Adds these lists to a text. */
void text_add_lists(struct text *text, const struct account *account);
/* The same behind the numbers of ballots, while it is not counted yet. */
void text_add_account(struct text *text, const struct account *account);

#endif
