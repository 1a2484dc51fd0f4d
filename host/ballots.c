/* Finding ballots by their marks, and laying out the closed batch. */
#include "ballots.h"

#include <stdio.h>
#include <string.h>

#include "say.h"

void ballot_name(char *name, uint32_t mark) {
    snprintf(name, BALLOT_NAME_ROOM, BALLOT_FOLDER "/%u" BALLOT_END, (unsigned)mark);
}

/* Whether a name ends as those of ballots do. */
static bool has_ballot_end(const char *name) {
    size_t length = strlen(name), end = strlen(BALLOT_END);
    return length > end && !strcmp(name + length - end, BALLOT_END);
}

bool is_ballot_name(const char *name, uint32_t *mark) {
    uint64_t number = 0;
    if (!has_ballot_end(name) || !read_decimal(name, strlen(name) - strlen(BALLOT_END), UINT32_MAX, &number)) return false;
    *mark = (uint32_t)number;
    return true;
}

/* Reads ballots.bin: whole ballots, at most 4,096, no mark twice. */
static enum status read_whole(const struct election *election, struct ballots *ballots) {
    size_t length = ballot_length(&election->numbers);
    enum status status = file_read(&election->folder, "ballots.bin", length, MOST_BALLOTS * length, &ballots->all);
    if (status) return status;
    if (ballots->all.length % length) {
        say("%s/ballots.bin: refused 1: it is no whole number of ballots of %zu bytes", election->folder.name, length);
        return REFUSED;
    }
    for (size_t i = 0; i < ballots->all.length / length; i++) {
        uint32_t mark = read32(ballots->all.at + i * length);
        if (marks_add(&ballots->marks, mark)) continue;
        say("%s/ballots.bin has two ballots with the mark %u", election->folder.name, (unsigned)mark);
        return REFUSED;
    }
    return DONE;
}

enum status ballots_open(const struct election *election, struct ballots *ballots) {
    bool single = false;
    memset(ballots, 0, sizeof *ballots);
    enum status status = file_find(&election->folder, "ballots.bin", &ballots->whole);
    if (!status) status = file_find(&election->folder, BALLOT_FOLDER, &single);
    if (!status && ballots->whole == single) {
        say("%s has %s ballots.bin: one of the two is due", election->folder.name, single ? "both ballots/ and" : "neither ballots/ nor");
        return TROUBLE;
    }
    return !status && ballots->whole ? read_whole(election, ballots) : status;
}

/* The ballot of a mark out of ballots.bin. */
static enum status take_of_whole(const struct election *election, const struct ballots *ballots, uint32_t mark, struct bytes *ballot) {
    size_t length = ballot_length(&election->numbers);
    size_t place = marks_find(&ballots->marks, mark);
    if (place == ballots->marks.count) {
        say("%s/ballots.bin has no ballot with the mark %u", election->folder.name, (unsigned)mark);
        return TROUBLE;
    }
    enum status status = bytes_make(ballot, length);
    if (!status) memcpy(ballot->at, ballots->all.at + place * length, length);
    return status;
}

enum status ballots_take(const struct election *election, const struct ballots *ballots, uint32_t mark, struct bytes *ballot) {
    char name[BALLOT_NAME_ROOM];
    size_t length = ballot_length(&election->numbers);
    if (ballots->whole) return take_of_whole(election, ballots, mark, ballot);
    ballot_name(name, mark);
    enum status status = file_read(&election->folder, name, length, length, ballot);
    if (!status && read32(ballot->at) != mark) {
        say("%s/%s has the mark %u inside", election->folder.name, name, (unsigned)read32(ballot->at));
        status = REFUSED;
        bytes_free(ballot);
    }
    return status;
}

enum status ballots_of_entry(const struct election *election, const struct ballots *ballots, size_t entry, struct bytes *ballot) {
    uint8_t digest[DIGEST];
    enum status status = ballots_take(election, ballots, entry_mark(election, entry), ballot);
    if (status) return status;
    jdn_digest(LENT(*ballot), digest, sizeof digest);
    if (!memcmp(digest, entry_digest(election, entry), sizeof digest)) return DONE;
    say("%s: the ballot with the mark %u is not the one that was admitted", election->folder.name, (unsigned)entry_mark(election, entry));
    bytes_free(ballot);
    return REFUSED;
}

/* Whether a line of the log is for a ballot with this mark. */
static bool is_logged(const struct election *election, const struct marks *no_ballot, uint32_t mark) {
    return has_entry(election, mark) && !marks_have(no_ballot, mark);
}

/* Whether a file of the folder of ballots is a ballot that no line admits: one that is written under the name of no mark, too. */
static bool is_unlogged_file(const struct election *election, const struct marks *no_ballot, const char *name) {
    uint32_t mark = 0;
    return has_ballot_end(name) && (!is_ballot_name(name, &mark) || !is_logged(election, no_ballot, mark));
}

static enum status name_unlogged_files(const struct election *election, const struct marks *no_ballot) {
    struct names names = {0};
    enum status status = folder_list(&election->folder, BALLOT_FOLDER, &names);
    for (size_t i = 0; i < names.count && !status; i++)
        if (is_unlogged_file(election, no_ballot, names.at[i]))
            say("%s/" BALLOT_FOLDER "/%s is admitted by no line of log.txt, and is not counted", election->folder.name, names.at[i]);
    names_free(&names);
    return status;
}

enum status ballots_name_unlogged(const struct election *election, const struct ballots *ballots, const struct marks *no_ballot) {
    if (!ballots->whole) return name_unlogged_files(election, no_ballot);
    for (size_t i = 0; i < ballots->marks.count; i++)
        if (!is_logged(election, no_ballot, ballots->marks.at[i]))
            say("%s/ballots.bin: the ballot with the mark %u is admitted by no line of log.txt, and is not counted", election->folder.name,
                (unsigned)ballots->marks.at[i]);
    return DONE;
}

void ballots_close(struct ballots *ballots) {
    bytes_free(&ballots->all);
}

enum status batch_close(struct election *election) {
    uint64_t reply = jdn_close(election->image, JDN_IMAGE, election->reg, JDN_REGISTER);
    return reply ? say_refused(reply, "closing the ballots") : DONE;
}

/* Puts the ballot of a standing entry at the end of the batch. */
static enum status batch_add(const struct election *election, const struct ballots *ballots, size_t entry, struct batch *batch) {
    struct bytes ballot = {0};
    enum status status = ballots_of_entry(election, ballots, entry, &ballot);
    if (!status) memcpy(batch->all.at + batch->count++ * batch->length, ballot.at, batch->length);
    bytes_free(&ballot);
    return status;
}

enum status batch_make(const struct election *election, const struct ballots *ballots, struct batch *batch) {
    size_t used = election_used(election), closed = election_closed(election), standing = 0;
    batch->count = 0;
    batch->length = ballot_length(&election->numbers);
    enum status status = bytes_make(&batch->all, closed * batch->length);
    for (size_t i = 0; i < used && !status; i++) {
        if (!entry_stands(election, i)) continue;
        progress("Ballots of the batch", ++standing, closed);
        if (standing <= closed) status = batch_add(election, ballots, i, batch);
    }
    progress_end();
    if (!status && standing != closed) {
        say("%s: %zu entries of the register stand, but %zu ballots were closed", election->folder.name, standing, closed);
        status = REFUSED;
    }
    return status;
}

void batch_free(struct batch *batch) {
    bytes_free(&batch->all);
}

void batch_say_mark(const struct batch *batch, uint64_t reply) {
    unsigned number = JDN_NUMBER(reply);
    if ((number != 12 && number != 13 && number != 15) || JDN_VALUE(reply) >= batch->count) return;
    const uint8_t *ballot = batch->all.at + JDN_VALUE(reply) * batch->length;
    say("ballot %llu of the batch has the mark %u", (unsigned long long)JDN_VALUE(reply), (unsigned)read32(ballot));
}
