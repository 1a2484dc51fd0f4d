/* Noise: the size of v - s u, centred, as refusal 15 of the producer has it (document 01). */
#include "noise.h"

#include "say.h"

/* What the product s u is worked out with, for one ballot after another. */
struct room {
    struct bytes s;    /* the key as a polynomial */
    struct bytes mask; /* zeros, so that a share is s u alone */
    struct bytes share;
};

/* The ternary bytes 0, 1, 2 as the coefficients 0, 1, q - 1. */
static void fill_polynomial(const struct numbers *numbers, const struct bytes *ternary, struct bytes *polynomial) {
    const uint64_t meaning[] = {0, 1, numbers->modulus - 1};
    for (size_t i = 0; i < numbers->ring; i++) write64(polynomial->at + 8 * i, meaning[ternary->at[i] % 3]);
}

static enum status room_make(struct room *room, const struct numbers *numbers, const struct key *key) {
    enum status status = bytes_make(&room->s, 8 * numbers->ring);
    if (!status) status = bytes_make(&room->mask, 8 * numbers->ring);
    if (!status) status = bytes_make(&room->share, 8 * numbers->ring);
    if (!status) fill_polynomial(numbers, &key->s, &room->s);
    return status;
}

static void room_free(struct room *room) {
    bytes_free(&room->s);
    bytes_free(&room->mask);
    bytes_free(&room->share);
}

/* Whether each coefficient of v - s u is at most the bound in size: v and s u are below q, and of the two distances between them around q
 * the shorter counts. */
static bool within(const struct numbers *numbers, const uint8_t *v, const struct bytes *share) {
    bool all = true;
    for (size_t i = 0; i < numbers->ring; i++) {
        uint64_t left = read64(v + 8 * i), right = read64(share->at + 8 * i);
        uint64_t apart = left > right ? left - right : right - left;
        uint64_t around = numbers->modulus - apart;
        all = all && (apart < around ? apart : around) <= numbers->noise_bound;
    }
    return all;
}

/* Looks at the ballot of one entry, which stands. */
static enum status examine(struct election *election, const struct ballots *ballots, size_t entry, struct room *room) {
    struct bytes ballot = {0};
    size_t polynomial = 8 * election->numbers.ring;
    enum status status = ballots_of_entry(election, ballots, entry, &ballot);
    if (status) return status;
    uint64_t reply = jdn_share(LENT(election->sheet), LENT(room->s), ballot.at + 4, polynomial, LENT(room->mask), LENT(room->share),
                               LENT(election->scratch));
    if (reply) status = say_refused(reply, "the ballot with the mark %u", (unsigned)entry_mark(election, entry));
    if (!status && !within(&election->numbers, ballot.at + 4 + polynomial, &room->share)) {
        say("the ballot with the mark %u: refused 15: its noise is larger than that of any honestly made ballot. Withdraw this mark",
            (unsigned)entry_mark(election, entry));
        status = REFUSED;
    }
    bytes_free(&ballot);
    return status;
}

enum status noise_examine(struct election *election, const struct ballots *ballots, const struct key *key) {
    struct room room = {0};
    size_t used = election_used(election), fine = (size_t)election->examined;
    enum status found = DONE, status = room_make(&room, &election->numbers, key);
    for (size_t i = fine; i < used && !status; i++) {
        progress("Noise of the ballots", i + 1, used);
        enum status one = entry_stands(election, i) ? examine(election, ballots, i, &room) : DONE;
        if (one == TROUBLE) status = one;
        if (one) found = one;
        if (!found) fine = i + 1;
    }
    progress_end();
    room_free(&room);
    if (!status && fine > election->examined) {
        election->examined = fine;
        status = election_save(election);
    }
    return status ? status : found;
}
