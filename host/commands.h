/* The commands of the program, each over the folder of an election. */
#ifndef COMMANDS_H
#define COMMANDS_H
#include "bytes.h"
#include "random.h"
#include "sheet.h"
#include "status.h"

/* How far a run goes. */
enum goal {
    GATHERED,  /* the log so far is taken */
    COMMITTED, /* the ballots are closed, claims and first messages are on disk: the seed can be drawn */
    COUNTED    /* the result is there */
};

/* A digest or a seed that was named on the command line. */
struct named {
    bool given;
    uint8_t digest[DIGEST];
};

/* Where the seed of the draw comes from, where seed.bin is not there: it was named, or this machine draws it, which convinces nobody who
 * does not trust it. */
struct draw {
    struct named seed;
    bool here;
};

/* Runs an election from where it stands on disk. jobs: how many rounds are worked on side by side, 0 for all processors (jobs.h). */
enum status run(const char *folder, enum goal goal, const struct draw *draw, const struct origin *origin, size_t jobs);

/* What a member holds a transcript against, where it was named, and a ballot to look for. */
struct expected {
    struct named fingerprint, committed, seed;
    bool mark_given;
    uint32_t mark;
};

/* Checks a published transcript, with no key, and compares the result with what follows from it. jobs: 1 where nothing is to be read
 * ahead. */
enum status check(const char *folder, const struct expected *expected, size_t jobs);

/* Writes what a member may have of an election to the folder `out`. */
enum status publish(const char *folder, const char *out);

/* Tells where an election stands and what is to be done next. */
enum status report(const char *folder);

/* Makes a key and its sheet. repeats 0: the least that the library takes. */
enum status keygen(const char *folder, const struct new_sheet *numbers, const struct origin *origin);

/* Makes a ballot for the named lists and adds its admission to the log. */
enum status vote(const char *folder, uint32_t mark, char *const *names, size_t count, const struct origin *origin);
/* Adds a withdrawal to the log, also one that comes before its ballot. */
enum status withdraw(const char *folder, uint32_t mark);

/* Makes a whole small election, ready to run: `ballots` to be counted, one that is withdrawn, and one that comes after its withdrawal. */
enum status sample(const char *folder, const struct new_sheet *numbers, size_t ballots, const struct origin *origin);

#endif
