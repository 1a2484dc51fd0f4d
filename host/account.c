/* Making the ballot account, from the register and the log, and telling it. */
#include "account.h"

#include <string.h>

#include "log.h"

void account_count(const struct election *election, struct account *account) {
    size_t used = election_used(election);
    memset(account, 0, sizeof *account);
    for (size_t i = 0; i < used; i++) {
        account->standing += entry_stands(election, i);
        account->withdrawn += !entry_stands(election, i) && !entry_is_early(election, i);
    }
}

enum status account_make(const struct election *election, struct account *account) {
    size_t used = election_used(election);
    account_count(election, account);
    enum status status = log_late(election, &account->late);
    for (size_t i = 0; i < used && !status; i++) {
        uint32_t mark = entry_mark(election, i);
        if (entry_is_early(election, i) && !marks_have(&account->late, mark)) marks_add(&account->no_ballot, mark);
    }
    return status;
}

size_t account_lists(const struct account *account, struct account_list *lists) {
    const struct account_list all[ACCOUNT_LISTS] = {
        {"Ballots that came after their withdrawal, not counted", &account->late},
        {"Withdrawn marks with which no ballot came", &account->no_ballot},
    };
    size_t count = 0;
    for (size_t i = 0; i < ACCOUNT_LISTS; i++)
        if (all[i].marks->count) lists[count++] = all[i];
    return count;
}

void text_add_lists(struct text *text, const struct account *account) {
    struct account_list lists[ACCOUNT_LISTS];
    size_t count = account_lists(account, lists);
    for (size_t i = 0; i < count; i++) {
        text_add(text, "%s: %zu\n", lists[i].words, lists[i].marks->count);
        text_add_marks(text, lists[i].marks);
    }
}

void text_add_account(struct text *text, const struct account *account) {
    text_add(text, "Ballots standing    %zu\nBallots withdrawn   %zu\n", account->standing, account->withdrawn);
    text_add_lists(text, account);
}
