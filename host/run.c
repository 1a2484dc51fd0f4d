/* A whole election, step by step; its rounds are in counting.c. Each step is saved when it is taken, and what a step needs from disk was
 * written before it; so that after a crash the next run goes on from the last step that was saved. */
#include <string.h>

#include "counting.h"
#include "drawn.h"
#include "fingerprint.h"
#include "jobs.h"
#include "log.h"
#include "noise.h"
#include "result.h"
#include "say.h"

/* The result is made from the files, as a member's check has it, and not from what the state says: every round is checked again. */
static enum status check_and_write(struct counting *counting) {
    struct election *election = counting->election;
    const struct transcript *transcript = &counting->audit.transcript;
    struct result result = {0};
    uint8_t own[DIGEST];
    enum status status = audit_finish(&counting->audit, counting->jobs);
    commitment_of(election, &counting->paper, own);
    fingerprint_of(election, own, own);
    if (!status && memcmp(own, transcript->fingerprint, DIGEST)) {
        say("%s: state.bin is of another transcript than the files", election->folder.name);
        status = REFUSED;
    }
    if (!status) status = result_make(transcript, &result);
    if (!status) status = result_write(&result);
    if (!status) status = result_print(&result);
    result_free(&result);
    return status;
}

static enum status write_result(struct counting *counting) {
    const struct election *election = counting->election;
    if (election_phase(election) != ENDED_ACCEPTED) {
        say("%s: the session did not end accepted, and has no result", election->folder.name);
        return REFUSED;
    }
    enum status status = check_and_write(counting);
    if (status) say("%s: no result is written", election->folder.name);
    return status;
}

/* A commitment shows nothing of the ballot account: what an officer would want to know is said beside it. */
static void say_lists(const struct counting *counting) {
    struct account_list lists[ACCOUNT_LISTS];
    size_t count = account_lists(&counting->account, lists);
    for (size_t i = 0; i < count; i++)
        say("%s: %zu. `election status %s` tells which", lists[i].words, lists[i].marks->count, counting->election->folder.name);
}

/* What has to be public before the seed is drawn: no claim, no first message, no list and no enrolment can be changed after that. */
static enum status print_committed(const struct counting *counting) {
    const struct election *election = counting->election;
    struct text text = {0};
    uint8_t commitment[DIGEST];
    say_lists(counting);
    commitment_of(election, &counting->paper, commitment);
    text_add(&text, "Commitment  ");
    text_add_groups(&text, commitment);
    if (election_phase(election) == CLAIMED)
        text_add(&text,
                 "\n\nPublish this commitment now. When it is public, draw a seed of 64 hexadecimal digits before witnesses, and then:\n"
                 "  election run %s --seed SEED\n",
                 election->folder.name);
    else
        text_add(&text, "\n\nThe seed is drawn already: to publish this commitment now shows nothing.\n");
    return text_print(&text);
}

static enum status print_gathered(const struct account *account) {
    struct text text = {0};
    text_add_account(&text, account);
    return text_print(&text);
}

/* Reads and judges lists and enrolment. The lists are kept from the first time on; the enrolment from the closing on, or, in an election
 * that a release closed which kept none, from now on. */
static enum status hold_paper(struct counting *counting) {
    struct election *election = counting->election;
    bool fresh = false, closed = election_phase(election) != GATHERING;
    enum status status = paper_read(election, &counting->paper);
    if (!status) status = lists_keep(election, &counting->paper.lists, &fresh);
    if (!status && closed) status = enrolment_keep(election, &counting->paper.enrolment, &fresh);
    if (!status && fresh && closed)
        say("an earlier release closed the ballots, and kept neither lists nor enrolment then: they are kept from now on");
    return !status && fresh ? election_save(election) : status;
}

/* Looks at the noise of the ballots, where that is still to be done and the key is there: while ballots are only gathered it may be
 * elsewhere. */
static enum status look_over(struct counting *counting, enum goal goal) {
    struct election *election = counting->election;
    bool keyed = true;
    enum status status = goal == GATHERED ? key_find(election, &keyed) : DONE;
    if (!status && !keyed && election_phase(election) == GATHERING)
        say("key/ is not here: the noise of the ballots is looked at where it is, before they are closed. All else was");
    if (status || !keyed || election_phase(election) >= ENDED_REFUSED) return status;
    status = key_read(election, &counting->key);
    if (status || election_phase(election) != GATHERING) return status;
    return noise_examine(election, &counting->ballots, &counting->key);
}

/* Takes the log, and looks at the ballots. Where a line is refused, the ballots of the lines before it are looked at all the same. */
static enum status gather(struct counting *counting, enum goal goal) {
    struct election *election = counting->election;
    enum status status = hold_paper(counting);
    if (!status) status = ballots_open(election, &counting->ballots);
    if (status) return status;
    status = log_take(election, &counting->ballots);
    if (!status) status = account_make(election, &counting->account);
    if (!status) status = ballots_name_unlogged(election, &counting->ballots, &counting->account.no_ballot);
    enum status looked = look_over(counting, goal);
    return status ? status : looked;
}

/* The closing and what is kept from it on are saved together. */
static enum status close_ballots(struct counting *counting) {
    bool fresh = false;
    enum status status = batch_close(counting->election);
    if (!status) status = enrolment_keep(counting->election, &counting->paper.enrolment, &fresh);
    return status ? status : election_save(counting->election);
}

/* From the closed ballots to the goal. A quarter of the memory is for keeping material. */
static enum status count(struct counting *counting, enum goal goal) {
    struct election *election = counting->election;
    enum status status = batch_make(election, &counting->ballots, &counting->batch);
    if (!status && election_phase(election) != CLOSED) status = claims_read(election, &counting->claims);
    counting->jobs = jobs_count(counting->jobs, round_length(&election->numbers, counting->batch.count));
    counting->keeps = goal == COUNTED;
    counting->may_keep = memory_share(4);
    if (!status) status = commit_rounds(counting);
    if (!status && goal == COMMITTED) return print_committed(counting);
    if (!status && election_phase(election) == CLAIMED) status = draw_seed(election, counting->draw, counting->origin);
    if (status) return status;
    audit_start(&counting->audit, election, counting->jobs);
    status = answer_rounds(counting);
    if (!status) status = write_result(counting);
    audit_end(&counting->audit);
    return status;
}

enum status run(const char *folder, enum goal goal, const struct draw *draw, const struct origin *origin, size_t jobs) {
    struct election election;
    struct counting counting = {.election = &election, .draw = draw, .origin = origin, .jobs = jobs};
    enum status status = election_resume(&election, folder);
    if (!status) status = seed_may_be_named(&election, draw);
    if (!status) status = gather(&counting, goal);
    if (!status && goal == GATHERED) status = print_gathered(&counting.account);
    if (!status && goal > GATHERED && election_phase(&election) == GATHERING) status = close_ballots(&counting);
    if (!status && goal > GATHERED) status = count(&counting, goal);
    counting_free(&counting);
    election_end(&election);
    return status;
}
