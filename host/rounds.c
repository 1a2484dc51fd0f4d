/* The messages of a round: their files, and the two steps that take them. Producing them is in produce.c. */
#include "rounds.h"

#include <stdio.h>
#include <string.h>

#include "say.h"

#define NAME_ROOM 40

void round_part_name(char *name, size_t room, size_t round, enum round_part part) {
    static const char *const parts[ROUND_PARTS] = {"head", "shares0", "shares1", "opening", "answers"};
    snprintf(name, room, "rounds/%03zu/%s.bin", round % 1000, parts[part]);
}

static enum status part_write(const struct election *election, size_t round, enum round_part part, const struct bytes *bytes) {
    char name[NAME_ROOM];
    round_part_name(name, sizeof name, round, part);
    return file_write(&election->folder, name, FOR_ALL, LENT(*bytes));
}

static enum status part_read(const struct election *election, size_t round, enum round_part part, size_t length, struct bytes *bytes) {
    char name[NAME_ROOM];
    round_part_name(name, sizeof name, round, part);
    return file_read(&election->folder, name, length, length, bytes);
}

static enum status part_remove(const struct election *election, size_t round, enum round_part part) {
    char name[NAME_ROOM];
    round_part_name(name, sizeof name, round, part);
    return file_remove(&election->folder, name);
}

enum status first_write(const struct election *election, size_t round, const struct first *first) {
    char name[NAME_ROOM];
    snprintf(name, sizeof name, "rounds/%03zu", round % 1000);
    enum status status = folder_add(&election->folder, "rounds", FOR_ALL);
    if (!status) status = folder_add(&election->folder, name, FOR_ALL);
    if (!status) status = part_remove(election, round, OPENING);
    if (!status) status = part_remove(election, round, ANSWERS);
    if (!status) status = part_write(election, round, HEAD, &first->head);
    if (!status) status = part_write(election, round, SHARES0, &first->shares0);
    if (!status) status = part_write(election, round, SHARES1, &first->shares1);
    return status;
}

enum status second_write(const struct election *election, size_t round, const struct second *second) {
    enum status status = part_write(election, round, OPENING, &second->opening);
    return status ? status : part_write(election, round, ANSWERS, &second->answers);
}

enum status round_answered(const struct election *election, size_t round, bool *answered) {
    char name[NAME_ROOM];
    round_part_name(name, sizeof name, round, OPENING);
    return file_find(&election->folder, name, answered);
}

enum status first_read(const struct election *election, size_t round, struct first *first) {
    size_t shares = 8 * election->numbers.ring * election_closed(election);
    enum status status = part_read(election, round, HEAD, head_length(&election->numbers), &first->head);
    if (!status) status = part_read(election, round, SHARES0, shares, &first->shares0);
    if (!status) status = part_read(election, round, SHARES1, shares, &first->shares1);
    return status;
}

enum status second_read(const struct election *election, size_t round, struct second *second) {
    uint8_t drawn[1 + MOST_REPEATS];
    uint64_t reply = jdn_challenges(election->image, JDN_IMAGE, round, drawn, 1 + election->numbers.repeats);
    if (reply) return say_refused(reply, "the challenges of round %zu", round);
    enum status status = part_read(election, round, OPENING, opening_length(&election->numbers), &second->opening);
    if (!status) status = part_read(election, round, ANSWERS, answers_length(&election->numbers, drawn + 1), &second->answers);
    return status;
}

void first_free(struct first *first) {
    bytes_free(&first->head);
    bytes_free(&first->shares0);
    bytes_free(&first->shares1);
    bytes_free(&first->claims);
}

void second_free(struct second *second) {
    bytes_free(&second->opening);
    bytes_free(&second->answers);
}

void round_clear(struct round *round) {
    explicit_bzero(round->seed, sizeof round->seed);
    material_free(&round->material);
    first_free(&round->first);
    second_free(&round->second);
}

size_t round_length(const struct numbers *numbers, size_t ballots) {
    size_t first = head_length(numbers) + 17 * numbers->ring * ballots;
    size_t second = opening_length(numbers) + (504 * numbers->ring + 64) * numbers->repeats;
    return material_length(numbers, ballots) + first + second + JDN_SCRATCH;
}

enum status claims_read(const struct election *election, struct bytes *claims) {
    size_t length = election->numbers.ring * election_closed(election);
    return file_read(&election->folder, CLAIMS_FILE, length, length, claims);
}

enum status round_commit(struct election *election, size_t round, const struct first *first) {
    uint64_t reply = jdn_commit(election->image, JDN_IMAGE, round, LENT(first->head), LENT(first->shares0), LENT(first->shares1));
    return reply ? say_refused(reply, "the first message of round %zu", round) : DONE;
}

enum status round_check(struct election *election, size_t round, const struct batch *batch, const struct bytes *claims,
                        const struct first *first, const struct second *second) {
    uint64_t reply =
        jdn_check(election->image, JDN_IMAGE, LENT(election->sheet), LENT(batch->all), LENT(*claims), round, LENT(first->head),
                  LENT(first->shares0), LENT(first->shares1), LENT(second->opening), LENT(second->answers), LENT(election->scratch));
    if (!reply) return DONE;
    batch_say_mark(batch, reply);
    return say_refused(reply, "round %zu", round);
}
