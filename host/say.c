/* Complaints, refusals in words, progress. */
#include "say.h"

#include <stdarg.h>
#include <stdio.h>
#include <unistd.h>

#include "jackdawnail.h"

/* What the place of a refusal counts. */
enum place { NOWHERE, REPETITION, BALLOT };

struct refusal {
    unsigned number;
    enum place place;
    const char *sentence;
};

/* The numbers of document 01 ("Refused because of the input", "Refused because of the state") and, from 37 on, of document 02. */
static const struct refusal refusals[] = {
    {1, NOWHERE, "something has the wrong length"},
    {2, NOWHERE, "the sheet does not have the form of ten lines, from ring= to k3="},
    {3, NOWHERE, "a number is outside its range"},
    {4, NOWHERE, "the modulus does not fit the ring (2N must divide q - 1), or leaves no room for noise and masks"},
    {5, NOWHERE, "a number is out of range: a coefficient, a vote, a ternary byte, or how many a list of the sheet has"},
    {6, NOWHERE, "the halves of the public key do not add up to the public key of the sheet"},
    {7, NOWHERE, "the opened half of the key does not give its half of the public key"},
    {8, NOWHERE, "an opened commitment does not open to what was committed"},
    {9, REPETITION, "the answer's permutation is no permutation"},
    {10, REPETITION, "the answer does not hold as many of each of -1, 0 and 1"},
    {11, REPETITION, "the answer does not give the digests of the first message"},
    {12, BALLOT, "a mask is larger than the sheet allows"},
    {13, BALLOT, "the claimed vote is not what the shares decrypt to"},
    {14, NOWHERE, "the secret key does not match the public key of the sheet"},
    {15, BALLOT, "the noise is larger than that of any honestly made ballot"},
    {16, NOWHERE, "the sheet, the ballots, the claims or the first message are not those that the session holds by digest"},
    {31, NOWHERE, "this step is not due now, or the session is damaged"},
    {32, NOWHERE, "a ballot with this mark stands already"},
    {33, NOWHERE, "this mark was withdrawn"},
    {35, NOWHERE, "the register is full: 4,096 entries are used"},
    {36, NOWHERE, "no ballot stands"},
    {37, NOWHERE, "the root does not fit the sheet: it is not below q, or its N-th power is not -1 modulo q"},
};

/* The longest line that is said; a longer one is cut off. */
#define LINE_ROOM 8192

/* Where the lines of this thread are kept, where they are. */
static _Thread_local struct text *kept_lines;

/* Puts a line on standard error, or keeps it. What it quotes may come from somebody else's files: a control character in it, which a
 * terminal would obey, is shown as a question mark. */
static void put_line(char *line) {
    for (char *at = line; *at; at++)
        if ((unsigned char)*at < 32 || *at == 127) *at = '?';
    if (kept_lines) {
        text_add(kept_lines, "election: %s\n", line);
        return;
    }
    progress_end();
    fprintf(stderr, "election: %s\n", line);
}

void say_later(struct text *kept) {
    kept_lines = kept;
}

void say_kept(struct text *kept) {
    if (kept->length) {
        progress_end();
        fputs(kept->at, stderr);
    }
    if (kept->failed) say_no_memory();
    text_free(kept);
}

void say(const char *form, ...) {
    char line[LINE_ROOM];
    va_list values;
    va_start(values, form);
    vsnprintf(line, sizeof line, form, values);
    va_end(values);
    put_line(line);
}

static const struct refusal *find(unsigned number) {
    for (size_t i = 0; i < sizeof refusals / sizeof *refusals; i++)
        if (refusals[i].number == number) return &refusals[i];
    return NULL;
}

enum status say_refused(uint64_t reply, const char *what, ...) {
    const struct refusal *refusal = find(JDN_NUMBER(reply));
    char line[LINE_ROOM], place[64] = "";
    unsigned long long value = (unsigned long long)JDN_VALUE(reply);
    va_list values;
    va_start(values, what);
    vsnprintf(line, sizeof line, what, values);
    va_end(values);
    if (refusal && refusal->place == REPETITION) snprintf(place, sizeof place, " (repetition %llu)", value);
    if (refusal && refusal->place == BALLOT) snprintf(place, sizeof place, " (ballot %llu of the batch)", value);
    say("%s: refused %u: %s%s", line, JDN_NUMBER(reply), refusal ? refusal->sentence : "a number that no paper has", place);
    return REFUSED;
}

enum status say_no_memory(void) {
    say("there is not enough memory");
    return TROUBLE;
}

static void show(const char *what, size_t done, size_t all, const char *left) {
    if (kept_lines || !isatty(STDERR_FILENO)) return;
    fprintf(stderr, "\r\033[K%s: %zu of %zu%s", what, done, all, left);
    fflush(stderr);
}

void progress(const char *what, size_t done, size_t all) {
    show(what, done, all, "");
}

void pace_start(struct pace *pace, size_t before) {
    clock_gettime(CLOCK_MONOTONIC, &pace->began);
    pace->before = before;
}

void progress_at_pace(const struct pace *pace, const char *what, size_t done, size_t all) {
    static const struct unit {
        double seconds;
        const char *name;
    } units[] = {{3600, "hour"}, {60, "minute"}, {1, "second"}};
    struct timespec now;
    char left[64] = "";
    clock_gettime(CLOCK_MONOTONIC, &now);
    if (done > pace->before && done < all) {
        double passed = (double)(now.tv_sec - pace->began.tv_sec) + (double)(now.tv_nsec - pace->began.tv_nsec) / 1e9;
        double due = passed / (double)(done - pace->before) * (double)(all - done);
        /* from one and a half on a unit is used; what is left of it is rounded up */
        const struct unit *unit = due >= 5400 ? units : due >= 90 ? units + 1 : units + 2;
        unsigned long count = (unsigned long)(due / unit->seconds) + 1;
        snprintf(left, sizeof left, ", about %lu %s%s left", count, unit->name, count == 1 ? "" : "s");
    }
    show(what, done, all, left);
}

void progress_end(void) {
    if (!kept_lines && isatty(STDERR_FILENO)) fputs("\r\033[K", stderr);
}
