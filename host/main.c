/* election: runs an election from the files of a folder, and checks a published one. */
#include <stdio.h>
#include <string.h>

#include "commands.h"
#include "election.h"
#include "options.h"
#include "say.h"

/* The release, which the Makefile names. */
#ifndef ELECTION_VERSION
#define ELECTION_VERSION "of no release"
#endif

/* A prime near 2^55 (document 000, table 1) with 4096 dividing it less one, which fits every ring. */
#define MODULUS 36028797018820609
#define DROWN 40

static enum status do_keygen(const struct options *options, char **words, size_t count) {
    (void)count;
    return keygen(words[0], &options->numbers, &options->origin);
}

static enum status do_vote(const struct options *options, char **words, size_t count) {
    uint32_t mark = 0;
    return mark_read(words[1], &mark) ? vote(words[0], mark, words + 2, count - 2, &options->origin) : USAGE;
}

static enum status do_withdraw(const struct options *options, char **words, size_t count) {
    uint32_t mark = 0;
    (void)options, (void)count;
    return mark_read(words[1], &mark) ? withdraw(words[0], mark) : USAGE;
}

static enum status do_gather(const struct options *options, char **words, size_t count) {
    (void)count;
    return run(words[0], GATHERED, &options->draw, &options->origin, 1);
}

static enum status do_commit(const struct options *options, char **words, size_t count) {
    (void)count;
    return run(words[0], COMMITTED, &options->draw, &options->origin, (size_t)options->jobs);
}

static enum status do_run(const struct options *options, char **words, size_t count) {
    (void)count;
    return run(words[0], COUNTED, &options->draw, &options->origin, (size_t)options->jobs);
}

static enum status do_publish(const struct options *options, char **words, size_t count) {
    (void)options, (void)count;
    return publish(words[0], words[1]);
}

static enum status do_check(const struct options *options, char **words, size_t count) {
    (void)count;
    return check(words[0], &options->expected, (size_t)options->jobs);
}

static enum status do_status(const struct options *options, char **words, size_t count) {
    (void)options, (void)count;
    return report(words[0]);
}

static enum status do_sample(const struct options *options, char **words, size_t count) {
    (void)count;
    return sample(words[0], &options->numbers, (size_t)options->ballots, &options->origin);
}

/* A command: the words behind it, as many as it needs, the options that it takes, and what is said of it. */
struct command {
    const char *name, *words;
    size_t least, most;
    unsigned takes;
    enum status (*act)(const struct options *options, char **words, size_t count);
    const char *line, *more;
};

#define NO_LIMIT 100000

static const char numbers_help[] =
    "  --ring N       2048 by default: a power of two from 4 to 2048. Below 1024 it is for trying only\n"
    "  --rounds R     40 by default: 1 to 128. Below 40 it is for trying only\n"
    "  --repeats M    the least for the rounds by default, 256 at most\n"
    "  --drown D      40 by default: 0 to 40\n"
    "  --modulus Q    a prime near 2^55 by default; twice the ring divides Q less one\n";

#define JOBS_HELP "  --jobs N       rounds that are made side by side: by default as many as there are processors, where memory allows\n"

/* In the order of an election. */
static const struct command commands[] = {
    {"keygen", "FOLDER", 1, 1, TAKES_NUMBERS | TAKES_UNSAFE_SEED, do_keygen, "makes key/s, key/e and sheet.txt", numbers_help},
    {"vote", "FOLDER MARK LIST..", 2, NO_LIMIT, TAKES_UNSAFE_SEED, do_vote,
     "makes a ballot for the named lists and adds its admission to the log",
     "Prints the digest of the ballot: with the mark it finds the ballot again in what is published. Where a ballot with this mark\n"
     "is there and in no line of the log, that one is admitted as it is. From the first ballot on lists.txt may not be changed.\n"
     "A list whose name begins with -- goes behind --.\n"},
    {"withdraw", "FOLDER MARK", 2, 2, 0, do_withdraw, "adds a withdrawal to the log",
     "Possible until the ballots are closed, and also before the ballot comes: one that comes later with this mark is not counted.\n"},
    {"gather", "FOLDER", 1, 1, TAKES_UNSAFE_SEED, do_gather, "takes the log so far, and names every ballot that is no good",
     "Reads and judges lists.txt and enrolled.txt too. The noise of the ballots is looked at where key/ is there, all else without it.\n"},
    {"commit", "FOLDER", 1, 1, TAKES_JOBS | TAKES_UNSAFE_SEED, do_commit,
     "closes the ballots, makes the first messages and prints the commitment to publish",
     JOBS_HELP "The commitment is to be public before the seed is drawn.\n"},
    {"run", "FOLDER", 1, 1, TAKES_SEED | TAKES_DRAW | TAKES_JOBS | TAKES_UNSAFE_SEED, do_run,
     "runs the election from where it stands, to result.txt and result.html",
     "  --seed SEED    the seed that was drawn in public after the commitment was: 64 hexadecimal digits. Or seed.bin holds it, 32 bytes\n"
     "  --draw-here    for trying only: this machine draws the seed, which is no public draw\n" JOBS_HELP},
    {"publish", "FOLDER OUT", 2, 2, 0, do_publish, "writes to the folder OUT exactly what a member may have",
     "Never key/ and never state.bin. OUT is made; what is there already may only be an earlier publication of this election.\n"},
    {"check", "FOLDER", 1, 1, TAKES_SEED | TAKES_EXPECTED | TAKES_JOBS, do_check,
     "checks a published election, with no key: exit status 0 only if it is accepted",
     "  --committed C    the commitment, as the society published it before the draw\n"
     "  --seed SEED      the seed, as it was drawn in public\n"
     "  --fingerprint F  the fingerprint that another member, or the society, reads out\n"
     "  --mark M         finds the ballot with this mark: exit status 0 only if it is counted, too\n"
     "  --jobs 1         reads no round while another one is checked, and so needs less memory\n"
     "Without --committed and --seed an acceptance holds only if this seed was drawn after this commitment was public.\n"},
    {"status", "FOLDER", 1, 1, 0, do_status, "tells where an election stands and what to do next", ""},
    {"sample", "FOLDER", 1, 1, TAKES_NUMBERS | TAKES_BALLOTS | TAKES_UNSAFE_SEED, do_sample,
     "makes a small election to try: its ring is too small for a real one",
     "  --ballots K    12 by default. Two more are not counted: one is withdrawn, and one comes after its withdrawal\n"
     "and the options of keygen, with a ring of 64 and 2 rounds by default. To run it: election run --draw-here FOLDER\n"},
};
#define COMMANDS (sizeof commands / sizeof *commands)

static const char usage_end[] =
    "\n`election help COMMAND` says more of a command; `election --version` names the release. Options stand before or after the folder.\n"
    "--unsafe-test-seed HEX      for tests only: all random numbers follow from these 64 digits, and so does the key\n"
    "\n"
    "FOLDER has sheet.txt, lists.txt, enrolled.txt, log.txt (admit MARK, withdraw MARK), ballots/MARK.ballot or ballots.bin,\n"
    "claims.bin, seed.bin, rounds/ and the result. key/ and state.bin are never given away, and an old state.bin is never put back.\n"
    "docs/ELECTIONS.md leads through an election.\n"
    "exit status: 0 done or accepted, 1 refused, 2 usage, 3 a file is missing or cannot be read or written\n";

static const struct command *find_command(const char *name) {
    for (size_t i = 0; i < COMMANDS; i++)
        if (!strcmp(commands[i].name, name)) return &commands[i];
    return NULL;
}

static void add_usage(struct text *text) {
    text_add(text, "usage: election COMMAND [OPTION..] FOLDER ..\n\n");
    for (size_t i = 0; i < COMMANDS; i++) text_add(text, "  %-8s %-19s %s\n", commands[i].name, commands[i].words, commands[i].line);
    text_add(text, "%s", usage_end);
}

static void add_help(struct text *text, const struct command *command) {
    text_add(text, "usage: election %s [OPTION..] %s\n\n%s\n%s%s", command->name, command->words, command->line,
             command->more[0] ? "\n" : "", command->more);
}

/* Help that was asked for: of a command, or of all. */
static enum status help(const char *name) {
    struct text text = {0};
    const struct command *command = name ? find_command(name) : NULL;
    if (name && !command) {
        say("%s is no command: `election help` lists them", name);
        return USAGE;
    }
    if (command)
        add_help(&text, command);
    else
        add_usage(&text);
    return text_print(&text);
}

/* Help where nothing was asked for that can be done. */
static enum status show_usage(void) {
    struct text text = {0};
    add_usage(&text);
    fputs(text.failed ? usage_end : text.at, stderr);
    text_free(&text);
    return USAGE;
}

static enum status act(const struct command *command, char **words, size_t count) {
    bool small = !strcmp(command->name, "sample");
    struct options options = {.numbers = {.modulus = MODULUS, .drown = DROWN, .ring = small ? 64 : 2048, .rounds = small ? 2 : 40},
                              .ballots = 12};
    enum status status = USAGE;
    bool read = options_read(&options, command->takes, words, &count);
    if (read && options.help) {
        status = help(command->name);
    } else if (read && count >= command->least && count <= command->most) {
        status = command->act(&options, words, count);
    } else {
        if (read)
            say("%s needs %s, and %s words are here", command->name, command->words, count < command->least ? "too few" : "too many");
        say("`election help %s` says more", command->name);
    }
    explicit_bzero(&options, sizeof options);
    return status;
}

static enum status read_command(char **words, size_t count) {
    struct text text = {0};
    if (!count) return show_usage();
    if (!strcmp(words[0], "help") && count <= 2) return help(words[1]);
    if (!strcmp(words[0], "--help")) return help(NULL);
    if (!strcmp(words[0], "--version")) {
        text_add(&text, "election (Jackdawnail) " ELECTION_VERSION "\n");
        return text_print(&text);
    }
    const struct command *command = find_command(words[0]);
    if (command) return act(command, words + 1, count - 1);
    say("%s is no command: `election help` lists them", words[0]);
    return USAGE;
}

/* Whether the header that this was compiled with and the library that it was linked with agree on the fixed lengths. */
static bool library_fits(void) {
    return jdn_image_length() == JDN_IMAGE && jdn_register_length() == JDN_REGISTER && jdn_scratch_length() == JDN_SCRATCH;
}

int main(int count, char **words) {
    if (!library_fits()) {
        say("the library is another one than its header");
        return TROUBLE;
    }
    enum status status = streams_ready();
    return (int)(status ? status : read_command(words + 1, (size_t)(count > 1 ? count - 1 : 0)));
}
