/* The log: which ballots are admitted and which are withdrawn, in order. */
#ifndef LOG_H
#define LOG_H
#include "ballots.h"
#include "election.h"
#include "marks.h"

#define LOG "log.txt"

/* Takes the lines of log.txt that are not taken yet, by admit and withdraw. The state is saved as it goes, and at the end. Every line has
 * to be taken: a log is the record of what was admitted and withdrawn. One kind of line is passed over instead, and goes as taken: a
 * ballot whose mark is withdrawn (33), since withdrawals and ballots arrive in no fixed order. Nothing is taken from the first line on
 * that is refused otherwise; the lines behind it are looked at all the same, so that every wrong one is named at once. */
enum status log_take(struct election *election, const struct ballots *ballots);

/* What the session would be with the whole log taken: `after` is `election` with the lines that are left, and nothing is saved. The marks
 * and their order are judged; of the ballots themselves nothing is read. Where there is no log yet it is `election`. */
enum status log_rehearse(const struct election *election, struct election *after);

/* The marks of the ballots that were passed over, in the lines that are taken: each once, in the order of the log. They are found by going
 * through these lines again on a newly cleared session, and so do not depend on which of them the state had taken before. */
enum status log_late(const struct election *election, struct marks *late);

/* Adds a line, `WORD MARK`, to log.txt, whose lines are whole; makes the file where there is none. */
enum status log_add(const struct folder *folder, const char *word, uint32_t mark);

#endif
