/* The steps of a session over a transcript. */
#include "transcript.h"

#include <string.h>

#include "fingerprint.h"
#include "jobs.h"
#include "log.h"
#include "say.h"

/* Clear is done; the log is taken and the ballots are closed. */
static enum status gather(struct transcript *transcript) {
    struct election *election = &transcript->election;
    enum status status = ballots_open(election, &transcript->ballots);
    if (!status) status = log_take(election, &transcript->ballots);
    if (!status) status = account_make(election, &transcript->account);
    return status ? status : batch_close(election);
}

static enum status claim(struct election *election, struct bytes *claims) {
    enum status status = claims_read(election, claims);
    if (status) return status;
    uint64_t reply = jdn_claim(election->image, JDN_IMAGE, LENT(*claims));
    return reply ? say_refused(reply, CLAIMS_FILE) : DONE;
}

/* What the rounds are gone through with. The thread that reads ahead goes by the session as it was when that began. */
struct going {
    struct transcript *transcript;
    struct batch batch;
    struct election seen;
};

static enum status go_through(struct going *going, struct jobs *jobs) {
    const struct election *election = &going->transcript->election;
    going->seen = *election;
    jobs->end = election->numbers.rounds;
    jobs->most = going->transcript->jobs;
    jobs->with = going;
    return jobs_do(jobs);
}

static enum status read_first(void *with, struct round *round) {
    const struct going *going = with;
    return first_read(&going->seen, round->number, &round->first);
}

static enum status take_first(void *with, struct round *round) {
    struct going *going = with;
    return round_commit(&going->transcript->election, round->number, &round->first);
}

static enum status commit_all(struct transcript *transcript) {
    struct going going = {.transcript = transcript};
    struct jobs jobs = {.what = "First messages", .make = read_first, .take = take_first};
    return go_through(&going, &jobs);
}

static enum status draw(struct election *election) {
    struct bytes seed = {0};
    enum status status = file_read(&election->folder, SEED_FILE, SEED, SEED, &seed);
    if (!status) {
        uint64_t reply = jdn_draw(election->image, JDN_IMAGE, LENT(seed));
        if (reply) status = say_refused(reply, SEED_FILE);
    }
    bytes_free(&seed);
    return status;
}

enum status transcript_read(struct transcript *transcript, const char *folder, size_t jobs) {
    struct election *election = &transcript->election;
    memset(transcript, 0, sizeof *transcript);
    transcript->jobs = jobs == 1 ? 1 : 2;
    enum status status = election_start(election, folder);
    if (!status) status = gather(transcript);
    if (!status) status = paper_read(election, &transcript->paper);
    if (!status) status = claim(election, &transcript->claims);
    if (!status) status = commit_all(transcript);
    if (!status) status = draw(election);
    if (status) return status;
    commitment_of(election, &transcript->paper, transcript->commitment);
    fingerprint_of(election, transcript->commitment, transcript->fingerprint);
    return DONE;
}

static enum status read_both(void *with, struct round *round) {
    const struct going *going = with;
    const struct transcript *transcript = going->transcript;
    if (transcript->may_read && !transcript->may_read(transcript->lent, round->number)) return TROUBLE;
    enum status status = first_read(&going->seen, round->number, &round->first);
    return status ? status : second_read(&going->seen, round->number, &round->second);
}

static enum status take_both(void *with, struct round *round) {
    struct going *going = with;
    struct transcript *transcript = going->transcript;
    return round_check(&transcript->election, round->number, &going->batch, &transcript->claims, &round->first, &round->second);
}

enum status transcript_check(struct transcript *transcript) {
    struct going going = {.transcript = transcript};
    struct jobs jobs = {.what = "Checks", .make = read_both, .take = take_both};
    enum status status = batch_make(&transcript->election, &transcript->ballots, &going.batch);
    if (!status) status = go_through(&going, &jobs);
    batch_free(&going.batch);
    if (!status && election_phase(&transcript->election) != ENDED_ACCEPTED) {
        say("%s: the session did not end accepted", transcript->election.folder.name);
        status = REFUSED;
    }
    return status;
}

void transcript_end(struct transcript *transcript) {
    bytes_free(&transcript->claims);
    paper_free(&transcript->paper);
    ballots_close(&transcript->ballots);
    election_end(&transcript->election);
}
