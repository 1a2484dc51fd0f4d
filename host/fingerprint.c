/* Commitment and fingerprint: SHA3-256 of a title that names the form, and parts of fixed lengths behind it, so that no two elections give
 * the same string. */
#include "fingerprint.h"

#include <string.h>

static const char commitment_title[] = "jackdawnail commitment 1\n";
static const char fingerprint_title[] = "jackdawnail fingerprint 1\n";

/* Sheet, lists, enrolment, log, closing, claims, then the rounds' number and their digests. */
#define PARTS 6
#define MOST_MESSAGE (sizeof commitment_title + PARTS * DIGEST + 8 + MOST_ROUNDS * DIGEST)

void commitment_of(const struct election *election, const struct paper *paper, uint8_t *commitment) {
    const uint8_t *const parts[PARTS] = {
        election_sheet_digest(election),   paper->lists.digest,
        paper->enrolment.digest,           election->log_digest,
        election_closing_digest(election), election_claim_digest(election),
    };
    uint8_t message[MOST_MESSAGE], *end = message;
    size_t rounds = election->numbers.rounds;
    memcpy(end, commitment_title, sizeof commitment_title - 1);
    end += sizeof commitment_title - 1;
    for (size_t i = 0; i < PARTS; i++, end += DIGEST) memcpy(end, parts[i], DIGEST);
    write64(end, rounds);
    /* the digests of the rounds stand side by side in the image */
    memcpy(end + 8, election_round_digest(election, 0), DIGEST * rounds);
    jdn_digest(message, (size_t)(end - message) + 8 + DIGEST * rounds, commitment, DIGEST);
}

void fingerprint_of(const struct election *election, const uint8_t *commitment, uint8_t *fingerprint) {
    uint8_t message[sizeof fingerprint_title - 1 + 2 * DIGEST];
    uint8_t *end = message + sizeof fingerprint_title - 1;
    memcpy(message, fingerprint_title, sizeof fingerprint_title - 1);
    memcpy(end, commitment, DIGEST);
    memcpy(end + DIGEST, election_seed(election), DIGEST);
    jdn_digest(message, sizeof message, fingerprint, DIGEST);
}
