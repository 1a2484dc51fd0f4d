/* The rounds of the counting side. Threads make the messages of several rounds (jobs.h); the steps of the session, and all that is written,
 * follow in the order of rounds. Each step is saved when it is taken, and what it needs from disk was written before it. A round that was
 * made and not yet taken leaves nothing behind a crash: a first message is made anew from another seed, a second one again from the same.
 */
#include "counting.h"

#include <string.h>

#include "jobs.h"
#include "say.h"

/* A first message from a fresh seed. Nobody but this round knows the seed before the message is committed. */
static enum status make_first(void *with, struct round *round) {
    const struct counting *counting = with;
    enum status status = origin_seed(counting->origin, FOR_ROUND, (uint32_t)round->number, round->seed);
    if (!status) status = first_produce(&counting->seen, &counting->key, &counting->batch, round);
    if (!counting->keeps) material_free(&round->material);
    return status;
}

/* The claims come with the first message of round 0, and are the same in every round. */
static enum status take_claims(struct counting *counting, struct first *first) {
    struct election *election = counting->election;
    if (election_phase(election) == CLAIMED) {
        if (!memcmp(counting->claims.at, first->claims.at, first->claims.length)) return DONE;
        say("%s/" CLAIMS_FILE " is not what the key decrypts the ballots to", election->folder.name);
        return REFUSED;
    }
    enum status status = file_write(&election->folder, CLAIMS_FILE, FOR_ALL, LENT(first->claims));
    if (status) return status;
    uint64_t reply = jdn_claim(election->image, JDN_IMAGE, LENT(first->claims));
    if (reply) return say_refused(reply, "the claims");
    counting->claims = first->claims;
    first->claims = (struct bytes){0};
    return DONE;
}

/* Keeps the material for the second message, where there is still memory for it. */
static void keep_material(struct counting *counting, struct round *round) {
    size_t length = material_length(&counting->election->numbers, counting->batch.count);
    if (!counting->keeps || length > counting->may_keep) return;
    counting->may_keep -= length;
    counting->kept[round->number] = round->material;
    round->material = (struct material){0};
}

/* Writes and commits a first message. Its seed is saved with the commitment, and not before. */
static enum status take_first(void *with, struct round *round) {
    struct counting *counting = with;
    struct election *election = counting->election;
    enum status status = take_claims(counting, &round->first);
    if (!status) status = first_write(election, round->number, &round->first);
    if (!status) status = round_commit(election, round->number, &round->first);
    if (status) return status;
    memcpy(election->seeds + SEED * round->number, round->seed, SEED);
    election->streams[round->number] = STREAM_OF_TODAY;
    keep_material(counting, round);
    return election_save(election);
}

enum status commit_rounds(struct counting *counting) {
    struct election *election = counting->election;
    struct jobs jobs = {.what = "First messages",
                        .first = election_committed(election),
                        .end = election->numbers.rounds,
                        .most = counting->jobs,
                        .with = counting,
                        .make = make_first,
                        .take = take_first};
    bool early = false;
    if (election_phase(election) > CLAIMED || jobs.first == jobs.end) return DONE;
    enum status status = file_find(&election->folder, SEED_FILE, &early);
    if (early) say(SEED_FILE " is there before the first messages are: it convinces only those who know that nobody here had seen it");
    counting->seen = *election;
    return status ? status : jobs_do(&jobs);
}

/* A second message, with the first, which the check needs again. */
static enum status make_second(void *with, struct round *round) {
    struct counting *counting = with;
    struct material *kept = &counting->kept[round->number];
    enum status status = first_read(&counting->seen, round->number, &round->first);
    round->material = *kept;
    *kept = (struct material){0};
    if (!status) status = second_produce(&counting->seen, &counting->key, &counting->batch, round);
    material_free(&round->material);
    return status;
}

/* Writes a second message, and checks the round. */
static enum status take_second(void *with, struct round *round) {
    struct counting *counting = with;
    struct election *election = counting->election;
    enum status status = second_write(election, round->number, &round->second);
    if (!status) status = round_check(election, round->number, &counting->batch, &counting->claims, &round->first, &round->second);
    if (!status) {
        /* an answered round needs its seed no more */
        explicit_bzero(election->seeds + SEED * round->number, SEED);
        election->streams[round->number] = NO_STREAM;
    }
    /* a check that refuses may have ended the session, and is saved too */
    enum status saved = election_save(election);
    if (!status && !saved) audit_answered(&counting->audit, round->number);
    return status ? status : saved;
}

enum status answer_rounds(struct counting *counting) {
    struct election *election = counting->election;
    struct jobs jobs = {.what = "Second messages and checks",
                        .first = election_checked(election),
                        .end = election->numbers.rounds,
                        .most = counting->jobs,
                        .with = counting,
                        .make = make_second,
                        .take = take_second};
    if (election_phase(election) != DRAWN) return DONE;
    counting->seen = *election;
    return jobs_do(&jobs);
}

void counting_free(struct counting *counting) {
    for (size_t i = 0; i < MOST_ROUNDS; i++) material_free(&counting->kept[i]);
    explicit_bzero(&counting->seen, sizeof counting->seen);
    bytes_free(&counting->claims);
    batch_free(&counting->batch);
    key_free(&counting->key);
    paper_free(&counting->paper);
    ballots_close(&counting->ballots);
}
