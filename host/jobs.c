/* Rounds side by side: a place for each round that is held, threads that make the next round in a free place, and the thread that began,
 * which takes them in order. */
#include "jobs.h"

#include <pthread.h>
#include <stdlib.h>
#include <unistd.h>

#include "say.h"

/* A round that is held; what its thread says waits until it is its turn. */
struct place {
    struct round round;
    struct text said;
    enum status status;
    bool made;
};

/* What the threads share. All but the rounds themselves is read and written under the lock. */
struct crew {
    const struct jobs *jobs;
    pthread_mutex_t lock;
    pthread_cond_t changed;
    struct place *places; /* of round r: r modulo the most that are held */
    size_t begun, taken;  /* the next round to be made, and to be taken */
    bool ended;           /* no more is begun */
};

static enum status make(const struct jobs *jobs, struct round *round, size_t number) {
    round->number = number;
    enum status status = round->scratch.at ? DONE : bytes_make(&round->scratch, JDN_SCRATCH);
    return status ? status : jobs->make(jobs->with, round);
}

static enum status one_by_one(const struct jobs *jobs, const struct pace *pace) {
    struct round round = {0};
    enum status status = DONE;
    for (size_t i = jobs->first; i < jobs->end && !status; i++) {
        progress_at_pace(pace, jobs->what, i, jobs->end);
        status = make(jobs, &round, i);
        if (!status) status = jobs->take(jobs->with, &round);
        round_clear(&round);
    }
    bytes_free(&round.scratch);
    return status;
}

static struct place *place_of(const struct crew *crew, size_t round) {
    return &crew->places[round % crew->jobs->most];
}

/* A thread: makes the next round for as long as there is one, and a place for it. Where one fails no later one is begun. */
static void *work(void *lent) {
    struct crew *crew = lent;
    const struct jobs *jobs = crew->jobs;
    pthread_mutex_lock(&crew->lock);
    while (!crew->ended && crew->begun < jobs->end) {
        if (crew->begun == crew->taken + jobs->most) {
            pthread_cond_wait(&crew->changed, &crew->lock);
            continue;
        }
        size_t round = crew->begun++;
        struct place *place = place_of(crew, round);
        pthread_mutex_unlock(&crew->lock);
        say_later(&place->said);
        enum status status = make(jobs, &place->round, round);
        say_later(NULL);
        pthread_mutex_lock(&crew->lock);
        place->status = status;
        place->made = true;
        if (status) crew->ended = true;
        pthread_cond_broadcast(&crew->changed);
    }
    pthread_mutex_unlock(&crew->lock);
    return NULL;
}

/* Waits for a round, takes it, and gives its place to the next one. */
static enum status take(struct crew *crew, size_t round) {
    struct place *place = place_of(crew, round);
    pthread_mutex_lock(&crew->lock);
    while (!place->made) pthread_cond_wait(&crew->changed, &crew->lock);
    enum status status = place->status;
    pthread_mutex_unlock(&crew->lock);
    say_kept(&place->said);
    if (!status) status = crew->jobs->take(crew->jobs->with, &place->round);
    round_clear(&place->round);
    pthread_mutex_lock(&crew->lock);
    place->made = false;
    crew->taken = round + 1;
    pthread_cond_broadcast(&crew->changed);
    pthread_mutex_unlock(&crew->lock);
    return status;
}

/* Has the threads end, each with the round that it is at, and frees what they leave. */
static void dismiss(struct crew *crew, const pthread_t *threads, size_t count) {
    pthread_mutex_lock(&crew->lock);
    crew->ended = true;
    pthread_cond_broadcast(&crew->changed);
    pthread_mutex_unlock(&crew->lock);
    for (size_t i = 0; i < count; i++) pthread_join(threads[i], NULL);
    for (size_t i = 0; i < crew->jobs->most; i++) {
        round_clear(&crew->places[i].round);
        bytes_free(&crew->places[i].round.scratch);
        text_free(&crew->places[i].said);
    }
    free(crew->places);
    pthread_cond_destroy(&crew->changed);
    pthread_mutex_destroy(&crew->lock);
}

/* With as many threads as can be had; without one the caller does it alone. */
static enum status side_by_side(const struct jobs *jobs, const struct pace *pace) {
    struct crew crew = {.jobs = jobs, .begun = jobs->first, .taken = jobs->first};
    pthread_t threads[MOST_JOBS];
    size_t count = 0;
    enum status status = DONE;
    crew.places = calloc(jobs->most, sizeof *crew.places);
    if (!crew.places) return say_no_memory();
    pthread_mutex_init(&crew.lock, NULL);
    pthread_cond_init(&crew.changed, NULL);
    while (count < jobs->most && !pthread_create(&threads[count], NULL, work, &crew)) count++;
    for (size_t i = jobs->first; count && i < jobs->end && !status; i++) {
        progress_at_pace(pace, jobs->what, i, jobs->end);
        status = take(&crew, i);
    }
    dismiss(&crew, threads, count);
    return count ? status : one_by_one(jobs, pace);
}

enum status jobs_do(const struct jobs *jobs) {
    struct jobs all = *jobs;
    struct pace pace;
    size_t rounds = all.end > all.first ? all.end - all.first : 0;
    if (all.most > rounds) all.most = rounds;
    if (all.most > MOST_JOBS) all.most = MOST_JOBS;
    if (!rounds) return DONE;
    pace_start(&pace, all.first);
    enum status status = all.most == 1 ? one_by_one(&all, &pace) : side_by_side(&all, &pace);
    if (!status) progress_at_pace(&pace, all.what, all.end, all.end);
    progress_end();
    return status;
}

size_t memory_share(size_t parts) {
    long pages = sysconf(_SC_PHYS_PAGES), page = sysconf(_SC_PAGE_SIZE);
    return pages > 0 && page > 0 ? (size_t)pages / parts * (size_t)page : 0;
}

size_t jobs_count(size_t asked, size_t length) {
    long processors = sysconf(_SC_NPROCESSORS_ONLN);
    size_t most = memory_share(2) / length, count = processors > 0 ? (size_t)processors : 1;
    if (asked) return asked;
    if (count > most) count = most;
    return count ? count : 1;
}
