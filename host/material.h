/* What the producer of a round is lent beside sheet and ballots: the key, and the round's random numbers (document 01, "One round"). */
#ifndef MATERIAL_H
#define MATERIAL_H
#include "election.h"

/* The secret key, ternary bytes. */
struct key {
    struct bytes s, e;
};

/* Whether the folder has one. */
enum status key_find(const struct election *election, bool *there);
/* Reads it; REFUSED where it is not the key of the sheet. */
enum status key_read(struct election *election, struct key *key);
void key_free(struct key *key);

struct material {
    struct bytes secrets, s0, e0, masks0, masks1, vectors, permutations, salts;
};

/* The material as the producer's calls are lent it. */
#define LENT_MATERIAL(m)                                                                                                          \
    LENT((m).secrets), LENT((m).s0), LENT((m).e0), LENT((m).masks0), LENT((m).masks1), LENT((m).vectors), LENT((m).permutations), \
        LENT((m).salts)

/* All of a round's random numbers from its seed: the same seed gives the same ones in the same stream, for the first and the second
 * message. They are megabytes, so that what is stored between the two is the seed, and not the numbers. */
enum status material_make(struct material *material, const struct numbers *numbers, const struct key *key, size_t ballots,
                          enum stream stream, const uint8_t *seed);
/* How many bytes that are. */
size_t material_length(const struct numbers *numbers, size_t ballots);
void material_free(struct material *material);

#endif
