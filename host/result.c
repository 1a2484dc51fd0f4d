/* The tally, and the result as a text. */
#include "result.h"

#include <stdio.h>
#include <stdlib.h>
#include <string.h>

#include "assurance.h"
#include "say.h"

/* The most that a result of any form may have. */
#define MOST_RESULT 1048576

/* Adds the claims up: coefficient i of a ballot is a vote for list i. */
static void add_votes(struct result *result) {
    const struct bytes *claims = &result->transcript->claims;
    size_t ring = result->transcript->election.numbers.ring;
    for (size_t i = 0; i < claims->length; i++) {
        size_t list = i % ring;
        if (list < result->transcript->paper.lists.count)
            result->votes[list] += claims->at[i];
        else
            result->elsewhere += claims->at[i];
    }
}

enum status result_make(const struct transcript *transcript, struct result *result) {
    const struct election *election = &transcript->election;
    *result = (struct result){.transcript = transcript};
    result->counted = election_closed(election);
    if (election_phase(election) != ENDED_ACCEPTED) {
        say("%s: the session did not end accepted, and has no result", election->folder.name);
        return REFUSED;
    }
    result->votes = calloc(transcript->paper.lists.count, sizeof *result->votes);
    if (!result->votes) return say_no_memory();
    add_votes(result);
    return DONE;
}

void result_free(struct result *result) {
    free(result->votes);
    result->votes = NULL;
}

size_t result_digests(const struct result *result, struct result_digest *digests) {
    const struct election *election = &result->transcript->election;
    const struct paper *paper = &result->transcript->paper;
    const struct result_digest parts[] = {{"sheet", election_sheet_digest(election)},     {"lists", paper->lists.digest},
                                          {"enrolment", paper->enrolment.digest},         {"log", election->log_digest},
                                          {"closing", election_closing_digest(election)}, {"claims", election_claim_digest(election)}};
    size_t count = sizeof parts / sizeof *parts;
    memcpy(digests, parts, sizeof parts);
    for (size_t i = 0; i < election->numbers.rounds; i++, count++) {
        snprintf(digests[count].name, sizeof digests[count].name, "round %zu", i);
        digests[count].digest = election_round_digest(election, i);
    }
    return count;
}

static void groups_line(struct text *text, const char *name, const uint8_t *digest) {
    text_add(text, "%-11s ", name);
    text_add_groups(text, digest);
    text_add(text, "\n");
}

/* What names the election. */
static void text_names(const struct result *result, struct text *text) {
    struct result_digest digests[MOST_RESULT_DIGESTS];
    size_t count = result_digests(result, digests);
    text_add(text, "\nWhat names this election\n");
    groups_line(text, "Fingerprint", result->transcript->fingerprint);
    groups_line(text, "Commitment", result->transcript->commitment);
    groups_line(text, "Seed", election_seed(&result->transcript->election));
    text_add(text, "\nWhat the commitment covers (SHA3-256)\n");
    for (size_t i = 0; i < count; i++) {
        text_add(text, "  %-10s ", digests[i].name);
        text_add_hex(text, digests[i].digest, DIGEST);
        text_add(text, "\n");
    }
}

/* How the count was shown, and how far that holds. */
static void text_assurance(const struct numbers *numbers, struct text *text) {
    char words[WORDS_ROOM];
    chance_in_words(numbers, words);
    text_add(text, "\nRounds              %zu, of %zu repetitions each\n", numbers->rounds, numbers->repeats);
    text_add(text, "All rounds accepted yes\n\nHow far this holds\n");
    text_add(text, "  %s\n  %s\n", condition_sentence, condition_reason);
    text_add(text, "  The chance that a false result passes is at most %s.\n", words);
    if (is_for_trying(numbers->ring, numbers->rounds, words)) text_add(text, "  FOR TRYING ONLY: %s.\n", words);
}

void result_text(const struct result *result, struct text *text) {
    const struct paper *paper = &result->transcript->paper;
    const struct account *account = &result->transcript->account;
    text_add(text, RESULT_FORM "\nResult of the election\n\n");
    text_add(text, "Enrolled            %llu\n", (unsigned long long)paper->enrolment.number);
    text_add(text, "Ballots counted     %zu\n", result->counted);
    text_add(text, "Ballots withdrawn   %zu\n", account->withdrawn);
    text_add_lists(text, account);
    text_add(text, "Turnout             %llu per thousand\n\nVotes\n", (unsigned long long)paper->turnout);
    for (size_t i = 0; i < paper->lists.count; i++) text_add(text, "%7zu  %s\n", result->votes[i], paper->lists.names[i]);
    if (result->elsewhere) text_add(text, "%7zu  marks for no list\n", result->elsewhere);
    text_assurance(&result->transcript->election.numbers, text);
    text_names(result, text);
}

/* One of the two files. */
struct form {
    const char *name;
    void (*write)(const struct result *, struct text *);
    const char *title;  /* what a file of this form begins with */
    const char *other;  /* what one of any other form of this kind begins with */
    const char *before; /* what one of a release began with that named no form */
};

static const struct form text_form = {RESULT_TEXT, result_text, RESULT_FORM "\n", RESULT_TITLE, "Result of the election\n"};
static const struct form page_form = {RESULT_PAGE, result_page, PAGE_START RESULT_FORM " -->\n", PAGE_START RESULT_TITLE, PAGE_BEFORE};

static bool begins(const struct bytes *file, const char *start) {
    return file->length >= strlen(start) && !memcmp(file->at, start, strlen(start));
}

/* Compares a file with the text that it has to be, where it is of the same form. */
static enum status compare(const struct folder *folder, const struct form *form, const struct bytes *file, const struct text *text) {
    bool same = file->length == text->length && !memcmp(file->at, text->at, text->length);
    bool other = !begins(file, form->title) && (begins(file, form->other) || begins(file, form->before));
    if (other)
        say("WARNING: %s/%s is of another form than `" RESULT_FORM "`, and was NOT COMPARED. What holds is printed here", folder->name,
            form->name);
    if (same || other) return DONE;
    say("%s/%s is not the result of this transcript%s", folder->name, form->name,
        form == &page_form ? "; without the page the rest can be checked" : "");
    return REFUSED;
}

/* Writes one of the two, or compares the file with it. */
static enum status each(const struct result *result, const struct form *form, bool write) {
    const struct folder *folder = &result->transcript->election.folder;
    struct text text = {0};
    struct bytes file = {0};
    form->write(result, &text);
    enum status status = text.failed ? say_no_memory() : DONE;
    if (!status && write) status = file_write(folder, form->name, FOR_ALL, text.at, text.length);
    if (!status && !write) status = file_read(folder, form->name, ANY_LENGTH, MOST_RESULT, &file);
    if (!status && !write) status = compare(folder, form, &file, &text);
    bytes_free(&file);
    text_free(&text);
    return status;
}

enum status result_print(const struct result *result) {
    struct text text = {0};
    result_text(result, &text);
    return text_print(&text);
}

enum status result_write(const struct result *result) {
    enum status status = each(result, &page_form, true);
    return status ? status : each(result, &text_form, true);
}

enum status result_compare(const struct result *result) {
    bool there = false;
    enum status status = each(result, &text_form, false);
    if (!status) status = file_find(&result->transcript->election.folder, RESULT_PAGE, &there);
    return status || !there ? status : each(result, &page_form, false);
}
