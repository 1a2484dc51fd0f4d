/* The messages of a round, on disk and as the library is lent them. */
#ifndef ROUNDS_H
#define ROUNDS_H
#include "ballots.h"
#include "election.h"
#include "material.h"

/* The first message, and the claims that the producer writes with it. */
struct first {
    struct bytes head, shares0, shares1, claims;
};

/* The second message. */
struct second {
    struct bytes opening, answers;
};

/* A round that is worked on, and what there is of it. */
struct round {
    size_t number;
    uint8_t seed[SEED]; /* of a first message that is not committed yet */
    struct material material;
    struct first first;
    struct second second;
    struct bytes scratch; /* JDN_SCRATCH bytes, for the library */
};

/* Frees, zeroed, all of it but the scratch. */
void round_clear(struct round *round);
/* How many bytes a round that is worked on has at most. */
size_t round_length(const struct numbers *numbers, size_t ballots);

#define CLAIMS_FILE "claims.bin"

/* The files of a round: the parts of the first message, then those of the second. */
enum round_part { HEAD, SHARES0, SHARES1, OPENING, ANSWERS, ROUND_PARTS };
#define FIRST_PARTS OPENING
void round_part_name(char *name, size_t room, size_t round, enum round_part part);

/* Produces the first message of a round from its seed. The material is left in the round. */
enum status first_produce(const struct election *election, const struct key *key, const struct batch *batch, struct round *round);
/* Produces the second message for what was drawn: from the material that is in the round, or else from the stored seed and its stream. */
enum status second_produce(const struct election *election, const struct key *key, const struct batch *batch, struct round *round);

/* A first message takes the place of all that stood in the round's folder. */
enum status first_write(const struct election *election, size_t round, const struct first *first);
enum status second_write(const struct election *election, size_t round, const struct second *second);
/* Claims are no part of the folder of a round, and are not read. */
enum status first_read(const struct election *election, size_t round, struct first *first);
enum status second_read(const struct election *election, size_t round, struct second *second);
/* Whether a second message was written for the first message that stands in the folder of a round. */
enum status round_answered(const struct election *election, size_t round, bool *answered);
void first_free(struct first *first);
void second_free(struct second *second);

enum status claims_read(const struct election *election, struct bytes *claims);

/* The steps of a session with the messages of a round. */
enum status round_commit(struct election *election, size_t round, const struct first *first);
enum status round_check(struct election *election, size_t round, const struct batch *batch, const struct bytes *claims,
                        const struct first *first, const struct second *second);

#endif
