/* The check of the files beside the answers: a thread that waits for each round to be on disk. */
#include "audit.h"

#include <string.h>

#include "say.h"

/* Waits for a round, with those before it done; false where it will not come. */
static bool may_read(void *lent, size_t round) {
    struct audit *audit = lent;
    pthread_mutex_lock(&audit->lock);
    audit->checked = round;
    pthread_cond_broadcast(&audit->changed);
    while (round >= audit->answered && !audit->given_up) pthread_cond_wait(&audit->changed, &audit->lock);
    bool answered = round < audit->answered;
    pthread_mutex_unlock(&audit->lock);
    return answered;
}

static enum status go_through(struct audit *audit, size_t jobs) {
    enum status status = transcript_read(&audit->transcript, audit->folder, jobs);
    audit->transcript.may_read = audit->beside ? may_read : NULL;
    audit->transcript.lent = audit;
    return status ? status : transcript_check(&audit->transcript);
}

/* Reads nothing ahead: the rounds come one by one. */
static void *work(void *lent) {
    struct audit *audit = lent;
    say_later(&audit->said);
    audit->status = go_through(audit, 1);
    say_later(NULL);
    pthread_mutex_lock(&audit->lock);
    audit->ended = true;
    pthread_cond_broadcast(&audit->changed);
    pthread_mutex_unlock(&audit->lock);
    return NULL;
}

void audit_start(struct audit *audit, const struct election *election, size_t jobs) {
    memset(audit, 0, sizeof *audit);
    audit->folder = election->folder.name;
    audit->rounds = election->numbers.rounds;
    audit->answered = election_checked(election);
    audit->transcript.election.folder.handle = -1;
    pthread_mutex_init(&audit->lock, NULL);
    pthread_cond_init(&audit->changed, NULL);
    audit->beside = jobs > 1 && election_phase(election) == DRAWN;
    if (audit->beside && pthread_create(&audit->thread, NULL, work, audit)) audit->beside = false;
}

static void tell(struct audit *audit, size_t answered, bool given_up) {
    pthread_mutex_lock(&audit->lock);
    audit->answered = answered;
    audit->given_up = given_up;
    pthread_cond_broadcast(&audit->changed);
    pthread_mutex_unlock(&audit->lock);
}

void audit_answered(struct audit *audit, size_t round) {
    tell(audit, round + 1, false);
}

/* Shows how far it has come, until it ends. */
static void watch(struct audit *audit) {
    struct pace pace;
    pthread_mutex_lock(&audit->lock);
    pace_start(&pace, audit->checked);
    while (!audit->ended) {
        progress_at_pace(&pace, "Checks", audit->checked, audit->rounds);
        pthread_cond_wait(&audit->changed, &audit->lock);
    }
    pthread_mutex_unlock(&audit->lock);
    progress_end();
}

enum status audit_finish(struct audit *audit, size_t jobs) {
    if (!audit->beside) return go_through(audit, jobs);
    /* what is not on disk by now is missing */
    tell(audit, SIZE_MAX, false);
    watch(audit);
    pthread_join(audit->thread, NULL);
    audit->beside = false;
    say_kept(&audit->said);
    return audit->status;
}

void audit_end(struct audit *audit) {
    if (audit->beside) {
        tell(audit, 0, true);
        pthread_join(audit->thread, NULL);
    }
    text_free(&audit->said);
    transcript_end(&audit->transcript);
    pthread_cond_destroy(&audit->changed);
    pthread_mutex_destroy(&audit->lock);
}
