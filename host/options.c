/* Reading options: each has a row, with what it is read into. */
#include "options.h"

#include <string.h>

#include "election.h"
#include "jobs.h"
#include "say.h"

/* How the value of an option is read. */
enum kind { NUMBER, DIGITS, MARK, ORIGIN, SWITCH };

struct option {
    const char *name;
    unsigned takes;
    enum kind kind;
    void *place;
    uint64_t least, most; /* of a number */
};

/* Numbers of a sheet are judged together (sheet.h), so that here any will do. */
#define ANY_NUMBER 0, UINT64_MAX

bool mark_read(const char *text, uint32_t *mark) {
    uint64_t number = 0;
    if (!read_decimal(text, strlen(text), UINT32_MAX, &number)) {
        say("%s is no mark: a mark is a whole number from 0 to 4294967295, in digits alone and with no zero before them", text);
        return false;
    }
    *mark = (uint32_t)number;
    return true;
}

static bool read_number(const struct option *option, const char *value) {
    uint64_t *number = option->place;
    if (read_decimal(value, strlen(value), option->most, number) && *number >= option->least) return true;
    if (option->most == UINT64_MAX)
        say("%s %s: that is no whole number, in digits alone and with no zero before them", option->name, value);
    else
        say("%s %s: a whole number from %llu to %llu is due", option->name, value, (unsigned long long)option->least,
            (unsigned long long)option->most);
    return false;
}

static bool read_named(const struct option *option, const char *value) {
    struct named *named = option->place;
    named->given = read_digest(value, named->digest);
    if (!named->given) say("%s %s: 64 hexadecimal digits are due, alone or with hyphens, colons or blanks between", option->name, value);
    return named->given;
}

static bool read_origin(const struct option *option, const char *value) {
    struct origin *origin = option->place;
    origin->given = read_digest(value, origin->seed);
    if (origin->given)
        say("UNSAFE: the random numbers follow from a given seed. For tests only.");
    else
        say("%s: 64 hexadecimal digits are due", option->name);
    return origin->given;
}

static bool read_value(struct options *options, const struct option *option, const char *value) {
    switch (option->kind) {
    case NUMBER: return read_number(option, value);
    case DIGITS: return read_named(option, value);
    case ORIGIN: return read_origin(option, value);
    case MARK: options->expected.mark_given = true; return mark_read(value, option->place);
    default: *(bool *)option->place = true; return true;
    }
}

/* Reads the option that begins the words, and its value. Answers how many words that were, 0 where something is wrong. */
static size_t read_option(struct options *options, unsigned takes, char **words, size_t count) {
    const struct option rows[] = {
        {"--help", takes, SWITCH, &options->help, ANY_NUMBER},
        {"--draw-here", TAKES_DRAW, SWITCH, &options->draw.here, ANY_NUMBER},
        {"--ring", TAKES_NUMBERS, NUMBER, &options->numbers.ring, ANY_NUMBER},
        {"--modulus", TAKES_NUMBERS, NUMBER, &options->numbers.modulus, ANY_NUMBER},
        {"--drown", TAKES_NUMBERS, NUMBER, &options->numbers.drown, ANY_NUMBER},
        {"--rounds", TAKES_NUMBERS, NUMBER, &options->numbers.rounds, ANY_NUMBER},
        {"--repeats", TAKES_NUMBERS, NUMBER, &options->numbers.repeats, 1, UINT64_MAX},
        {"--ballots", TAKES_BALLOTS, NUMBER, &options->ballots, 1, MOST_BALLOTS - 2},
        {"--jobs", TAKES_JOBS, NUMBER, &options->jobs, 1, MOST_JOBS},
        {"--seed", TAKES_SEED, DIGITS, &options->draw.seed, ANY_NUMBER},
        {"--fingerprint", TAKES_EXPECTED, DIGITS, &options->expected.fingerprint, ANY_NUMBER},
        {"--committed", TAKES_EXPECTED, DIGITS, &options->expected.committed, ANY_NUMBER},
        {"--mark", TAKES_EXPECTED, MARK, &options->expected.mark, ANY_NUMBER},
        {"--unsafe-test-seed", TAKES_UNSAFE_SEED, ORIGIN, &options->origin, ANY_NUMBER},
    };
    const struct option *row = rows, *end = rows + sizeof rows / sizeof *rows;
    while (row < end && strcmp(row->name, words[0])) row++;
    size_t used = row < end && row->kind == SWITCH ? 1 : 2;
    if (row == end)
        say("%s is no option", words[0]);
    else if (row->takes != takes && !(row->takes & takes))
        say("%s is no option of this command", words[0]);
    else if (used > count)
        say("%s has no value behind it", words[0]);
    else if (read_value(options, row, used == 2 ? words[1] : ""))
        return used;
    return 0;
}

bool options_read(struct options *options, unsigned takes, char **words, size_t *count) {
    size_t kept = 0, next = 0;
    bool ended = false;
    while (next < *count) {
        bool option = !ended && !strncmp(words[next], "--", 2);
        if (option && !words[next][2]) {
            ended = true;
            next++;
        } else if (option) {
            size_t used = read_option(options, takes, words + next, *count - next);
            if (!used) return false;
            next += used;
        } else {
            words[kept++] = words[next++];
        }
    }
    *count = kept;
    /* the seed that a society drew is what a run draws with, and what a check expects */
    options->expected.seed = options->draw.seed;
    return true;
}
