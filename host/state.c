/* The state file: the name of its form, the parts, and SHA3-256 of all that, so that a damaged file is not gone on from.
 * Form 1 ends with the seeds; form 2 has what is kept of lists.txt and enrolled.txt, and how many entries were looked at, behind them;
 * form 3 has behind that the stream that each seed is for. The releases of forms 1 and 2 had one stream, that of SHA3-256. */
#include "state.h"

#include <string.h>

#include "say.h"

#define TITLE 16
#define FORMS 3
static const uint8_t titles[FORMS][TITLE] = {"jackdawnail 1\n", "jackdawnail 2\n", "jackdawnail 3\n"};

/* A release whose images have another length has another form, and reads these by the length that they have. */
_Static_assert(JDN_IMAGE == 4297, "forms 1 to 3 hold an image of 4,297 bytes");

/* Where the parts stand in the file. */
enum {
    AT_IMAGE = TITLE,
    AT_REGISTER = AT_IMAGE + JDN_IMAGE,
    AT_LENGTH = AT_REGISTER + JDN_REGISTER,
    AT_LINES = AT_LENGTH + 8,
    AT_LOG = AT_LINES + 8,
    AT_SEEDS = AT_LOG + 32,
    AT_LISTS = AT_SEEDS + MOST_ROUNDS * SEED,
    AT_ENROLMENT = AT_LISTS + DIGEST,
    AT_EXAMINED = AT_ENROLMENT + DIGEST,
    AT_STREAMS = AT_EXAMINED + 8,
    AT_DIGEST = AT_STREAMS + MOST_ROUNDS
};

/* Where each form has its digest, with which it ends: where the parts begin that it has not. */
static const size_t digest_at[FORMS] = {AT_LISTS, AT_STREAMS, AT_DIGEST};

/* The part of an image that clear writes from the sheet: its numbers and its digest. */
#define SHEET_AT 1
#define SHEET_LENGTH 72

enum status state_save(const struct election *election) {
    struct bytes file = {0};
    enum status status = bytes_make(&file, AT_DIGEST + DIGEST);
    if (status) return status;
    memcpy(file.at, titles[FORMS - 1], TITLE);
    memcpy(file.at + AT_IMAGE, election->image, JDN_IMAGE);
    memcpy(file.at + AT_REGISTER, election->reg, JDN_REGISTER);
    write64(file.at + AT_LENGTH, election->log_length);
    write64(file.at + AT_LINES, election->log_lines);
    memcpy(file.at + AT_LOG, election->log_digest, 32);
    memcpy(file.at + AT_SEEDS, election->seeds, sizeof election->seeds);
    memcpy(file.at + AT_LISTS, election->lists_kept, DIGEST);
    memcpy(file.at + AT_ENROLMENT, election->enrolment_kept, DIGEST);
    write64(file.at + AT_EXAMINED, election->examined);
    memcpy(file.at + AT_STREAMS, election->streams, sizeof election->streams);
    jdn_digest(file.at, AT_DIGEST, file.at + AT_DIGEST, DIGEST);
    status = file_write(&election->folder, STATE, FOR_OWNER, LENT(file));
    bytes_free(&file);
    return status;
}

/* The form of a file that is whole, from 1 on; 0 where it is not. */
static size_t form_of(const struct bytes *file) {
    uint8_t digest[DIGEST];
    size_t form = 0, digested = file->length - DIGEST;
    while (form < FORMS && digested != digest_at[form]) form++;
    if (form == FORMS) return 0;
    jdn_digest(file->at, digested, digest, sizeof digest);
    return !memcmp(file->at, titles[form], TITLE) && !memcmp(digest, file->at + digested, sizeof digest) ? form + 1 : 0;
}

/* Whether the file is whole, and its session is one of this sheet that the library takes. */
static enum status state_fits(const struct election *election, const struct bytes *file) {
    const uint8_t *image = file->at + AT_IMAGE;
    if (!form_of(file)) {
        say("%s/%s is damaged, or of a later release", election->folder.name, STATE);
        return REFUSED;
    }
    if (memcmp(image + SHEET_AT, election->image + SHEET_AT, SHEET_LENGTH)) {
        say("%s/%s belongs to another sheet than sheet.txt", election->folder.name, STATE);
        return REFUSED;
    }
    /* a turnout is refused 31 for exactly the sessions that no step takes */
    uint64_t reply = jdn_turnout(image, JDN_IMAGE, file->at + AT_REGISTER, JDN_REGISTER, 1);
    return JDN_NUMBER(reply) ? say_refused(reply, "%s/%s", election->folder.name, STATE) : DONE;
}

/* The streams of the rounds that are to be answered yet: each has to be one that this release can answer with. */
static enum status take_streams(struct election *election, const struct bytes *file) {
    size_t committed = election_committed(election);
    if (form_of(file) == FORMS)
        memcpy(election->streams, file->at + AT_STREAMS, sizeof election->streams);
    else
        memset(election->streams, SHA3_STREAM, committed);
    for (size_t round = election_checked(election); round < committed; round++) {
        unsigned stream = election->streams[round];
        if (stream == SHA3_STREAM || stream == CHACHA20_STREAM) continue;
        say("%s/%s: round %zu is committed with random numbers of stream %u, which this release does not have. To be answered it needs "
            "the release that committed it, or a later one",
            election->folder.name, STATE, round, stream);
        return REFUSED;
    }
    return DONE;
}

/* Takes the parts that all forms have, and those of form 2. */
static void take_parts(struct election *election, const struct bytes *file) {
    memcpy(election->image, file->at + AT_IMAGE, JDN_IMAGE);
    memcpy(election->reg, file->at + AT_REGISTER, JDN_REGISTER);
    election->log_length = read64(file->at + AT_LENGTH);
    election->log_lines = read64(file->at + AT_LINES);
    memcpy(election->log_digest, file->at + AT_LOG, 32);
    memcpy(election->seeds, file->at + AT_SEEDS, sizeof election->seeds);
    if (form_of(file) < 2) return;
    memcpy(election->lists_kept, file->at + AT_LISTS, DIGEST);
    memcpy(election->enrolment_kept, file->at + AT_ENROLMENT, DIGEST);
    election->examined = read64(file->at + AT_EXAMINED);
}

enum status state_load(struct election *election) {
    struct bytes file = {0};
    enum status status = file_read(&election->folder, STATE, digest_at[0] + DIGEST, digest_at[FORMS - 1] + DIGEST, &file);
    if (!status) status = state_fits(election, &file);
    if (!status) take_parts(election, &file);
    if (!status) status = take_streams(election, &file);
    bytes_free(&file);
    return status;
}
