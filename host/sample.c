/* A whole small election to try things with: a key, lists, ballots with votes drawn at random, two withdrawals. */
#include <stdio.h>
#include <string.h>

#include "cast.h"
#include "commands.h"
#include "election.h"
#include "lists.h"
#include "log.h"
#include "say.h"

#define LISTS 4
#define FIRST_MARK 1001
#define ENROLLED 40

static const char lists[] = "Jackdaw\nMagpie\nRook\nJay & Nutcracker\n";

/* Lists and enrolment: 40, or twice the ballots where these are more. */
static enum status write_lists(const struct folder *folder, size_t ballots) {
    char enrolled[32];
    int length = snprintf(enrolled, sizeof enrolled, "%zu\n", 2 * ballots > ENROLLED ? 2 * ballots : ENROLLED);
    enum status status = file_write_new(folder, LISTS_FILE, FOR_ALL, lists, strlen(lists));
    return status ? status : file_write_new(folder, ENROLLED_FILE, FOR_ALL, enrolled, (size_t)length);
}

/* One voter, who marks one list, or now and then two. */
static enum status cast_one(struct election *election, uint32_t mark, struct source *votes, const struct origin *origin) {
    struct bytes message = {0}, ballot = {0};
    enum status status = bytes_make(&message, election->numbers.ring);
    if (status) return status;
    message.at[source_below(votes, LISTS)] = 1;
    if (source_below(votes, 4) == 0) message.at[source_below(votes, LISTS)] = 1;
    status = ballot_make(election, mark, &message, origin, &ballot);
    if (!status) status = ballot_file(election, &ballot);
    bytes_free(&message);
    bytes_free(&ballot);
    return status;
}

/* One withdrawal of a ballot that is there, the second, and one that comes before its ballot, the last. */
static enum status withdraw_two(const struct folder *folder, size_t ballots) {
    enum status status = log_add(folder, "withdraw", FIRST_MARK + 1);
    return status ? status : log_add(folder, "withdraw", (uint32_t)(FIRST_MARK + ballots + 1));
}

/* The ballots, and two more that are not counted. The withdrawals come after the third ballot. */
static enum status cast_all(struct election *election, size_t ballots, const struct origin *origin) {
    struct source votes;
    uint8_t seed[SEED];
    enum status status = origin_seed(origin, FOR_VOTES, 0, seed);
    if (status) return status;
    source_start(&votes, STREAM_OF_TODAY, seed);
    for (size_t i = 0; i < ballots + 2 && !status; i++) {
        progress("Ballots", i + 1, ballots + 2);
        status = cast_one(election, (uint32_t)(FIRST_MARK + i), &votes, origin);
        if (!status && i == (ballots < 2 ? ballots : 2)) status = withdraw_two(&election->folder, ballots);
    }
    progress_end();
    source_end(&votes);
    return status;
}

enum status sample(const char *folder, const struct new_sheet *numbers, size_t ballots, const struct origin *origin) {
    struct election election;
    enum status status = keygen(folder, numbers, origin);
    if (status) return status;
    status = election_start(&election, folder);
    if (!status) status = folder_lock(&election.folder);
    if (!status) status = write_lists(&election.folder, ballots);
    if (!status) status = cast_all(&election, ballots, origin);
    election_end(&election);
    return status;
}
