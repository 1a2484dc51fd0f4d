/* The check of a published transcript, as a member runs it on another machine. */
#include <stdio.h>
#include <string.h>

#include "assurance.h"
#include "commands.h"
#include "result.h"
#include "say.h"
#include "state.h"
#include "transcript.h"

/* Says what stands in the folder and must never be given away. */
static enum status warn_secrets(const char *name) {
    static const char *const secrets[] = {"key", STATE};
    struct folder folder;
    enum status status = folder_open(&folder, name);
    for (size_t i = 0; i < sizeof secrets / sizeof *secrets && !status; i++) {
        bool there = false;
        status = file_find(&folder, secrets[i], &there);
        if (there) say("WARNING: %s/%s is here. It is never given away: `election publish` leaves it out", name, secrets[i]);
    }
    folder_close(&folder);
    if (status) say("%s is not accepted", name);
    return status;
}

/* Whether a digest of the transcript is the one that the member named, where one was named. */
static enum status compare(const struct named *named, const uint8_t *found, const char *what) {
    struct text text = {0};
    if (!named->given || !memcmp(named->digest, found, DIGEST)) return DONE;
    text_add(&text, "the %s is ", what);
    text_add_groups(&text, found);
    text_add(&text, ", and not the one that you named, ");
    text_add_groups(&text, named->digest);
    say("%s", text.failed ? what : text.at);
    text_free(&text);
    return REFUSED;
}

static enum status compare_named(const struct transcript *transcript, const struct expected *expected) {
    enum status status = compare(&expected->committed, transcript->commitment, "commitment");
    if (!status) status = compare(&expected->seed, election_seed(&transcript->election), "seed");
    return status ? status : compare(&expected->fingerprint, transcript->fingerprint, "fingerprint of the election");
}

/* The first lines of an acceptance: on what condition it holds, or that what the condition is about was named. */
static void add_verdict(struct text *text, const struct expected *expected) {
    if (expected->committed.given && expected->seed.given)
        text_add(text,
                 "accepted: commitment and seed are the ones that you named.\nIt holds if that commitment was public before that seed was "
                 "drawn.\n\n");
    else
        text_add(text, "accepted, on one condition. %s\n%s Check again with --committed and --seed, as the society published them.\n\n",
                 condition_sentence, condition_reason);
}

/* The lists that a counted ballot marked, by its place in the batch. */
static void add_marks(struct text *text, const struct transcript *transcript, size_t place) {
    size_t ring = transcript->election.numbers.ring, marks = 0;
    const uint8_t *claim = transcript->claims.at + ring * place;
    const struct lists *lists = &transcript->paper.lists;
    for (size_t i = 0; i < ring; i++) {
        if (!claim[i]) continue;
        text_add(text, "%s%s", marks++ ? ", " : " It marks: ", i < lists->count ? lists->names[i] : "(no list)");
    }
    text_add(text, marks ? "\n" : " It marks no list.\n");
}

/* A mark with which no ballot was admitted. */
static enum status add_none(struct text *text, const struct transcript *transcript, uint32_t mark) {
    if (marks_have(&transcript->account.late, mark))
        text_add(text, "The ballot with the mark %u came after its withdrawal, and is NOT COUNTED.\n\n", (unsigned)mark);
    else if (marks_have(&transcript->account.no_ballot, mark))
        text_add(text, "The mark %u was withdrawn, and no ballot came with it: NOT COUNTED.\n\n", (unsigned)mark);
    else
        text_add(text, "The ballot with the mark %u is in no line of the log, and is NOT COUNTED.\n\n", (unsigned)mark);
    return REFUSED;
}

/* Finds a ballot by its mark. REFUSED where it is not counted. */
static enum status add_ballot(struct text *text, const struct transcript *transcript, uint32_t mark) {
    const struct election *election = &transcript->election;
    size_t entry = entry_find(election, mark), place = 0;
    if (!has_entry(election, mark) || entry_is_early(election, entry)) return add_none(text, transcript, mark);
    text_add(text, "The ballot with the mark %u has the digest\n  ", (unsigned)mark);
    text_add_groups(text, entry_digest(election, entry));
    if (!entry_stands(election, entry)) {
        bool again = marks_have(&transcript->account.late, mark);
        text_add(text, "\nIt was withdrawn, and is NOT COUNTED.%s\n\n", again ? " Nor is the one that came with this mark later." : "");
        return REFUSED;
    }
    for (size_t i = 0; i < entry; i++) place += entry_stands(election, i);
    text_add(text, "\nIt is counted.");
    add_marks(text, transcript, place);
    text_add(text, "\n");
    return DONE;
}

/* The verdict, the ballot that was asked for, and the result. */
static enum status print_verdict(const struct transcript *transcript, const struct result *result, const struct expected *expected) {
    struct text text = {0};
    add_verdict(&text, expected);
    enum status found = expected->mark_given ? add_ballot(&text, transcript, expected->mark) : DONE;
    result_text(result, &text);
    enum status status = text_print(&text);
    return status ? status : found;
}

enum status check(const char *folder, const struct expected *expected, size_t jobs) {
    struct transcript transcript;
    struct result result = {0};
    enum status status = warn_secrets(folder);
    if (status) return status;
    status = transcript_read(&transcript, folder, jobs);
    if (!status) status = ballots_name_unlogged(&transcript.election, &transcript.ballots, &transcript.account.no_ballot);
    if (!status) status = compare_named(&transcript, expected);
    if (!status) status = transcript_check(&transcript);
    if (!status) status = result_make(&transcript, &result);
    if (!status) status = result_compare(&result);
    if (status)
        say("%s is not accepted", folder);
    else
        status = print_verdict(&transcript, &result, expected);
    result_free(&result);
    transcript_end(&transcript);
    return status;
}
