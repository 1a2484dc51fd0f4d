/* The options and words of a command line. */
#ifndef OPTIONS_H
#define OPTIONS_H
#include "commands.h"

/* Which options a command takes. */
enum takes {
    TAKES_NUMBERS = 1,      /* --ring, --rounds, --repeats, --drown, --modulus */
    TAKES_BALLOTS = 2,      /* --ballots */
    TAKES_SEED = 4,         /* --seed */
    TAKES_DRAW = 8,         /* --draw-here */
    TAKES_EXPECTED = 16,    /* --fingerprint, --committed, --mark */
    TAKES_UNSAFE_SEED = 32, /* --unsafe-test-seed */
    TAKES_JOBS = 64,        /* --jobs */
};

struct options {
    struct new_sheet numbers;
    uint64_t ballots;
    uint64_t jobs; /* 0: all processors */
    struct origin origin;
    struct draw draw;
    struct expected expected;
    bool help;
};

/* Parts the words of a command line, behind the command: options, wherever they stand, are read, and what is left is moved to the front,
 * `count` of them. Behind `--` nothing is an option. Says which option or value is wrong, and answers false. */
bool options_read(struct options *options, unsigned takes, char **words, size_t *count);

/* Reads a mark; says what is wrong with it. */
bool mark_read(const char *text, uint32_t *mark);

#endif
