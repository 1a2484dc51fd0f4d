/* A session's own cost at 2048 coefficients: admitting into a register with 4,000 entries beside the ballot's digest, and a check beside the round's own work and the hashing of
 * what the session holds. All are ours and run interleaved, by the best round of each. The secret and all that is drawn are zeros: a check costs the same whatever they are. */
#include <stddef.h>
#include <stdint.h>
#include <stdio.h>
#include <stdlib.h>
#include <string.h>

#include "../include/jackdawnail.h"
#include "clock.h"

enum { n = 2048, unknowns = 42 * n, entries = 4000, opening_length = 22 * n, ballot_length = 4 + 16 * n, head_length = 80 * n + 96, longest = 504 * n + 64 };
static const char *modulus = "36028797018820609"; /* a prime below 2^55 with 4096 dividing q - 1 */
static const double limit = 1.2;

uint64_t test_check_round(const uint8_t *sheet, size_t sheet_length, uint64_t side, const uint8_t *challenges, size_t challenges_length, const uint8_t *ballots,
                             size_t ballots_length, const uint8_t *claims, size_t claims_length, const uint8_t *head, size_t head_size, const uint8_t *shares0,
                             size_t shares0_length, const uint8_t *shares1, size_t shares1_length, const uint8_t *opening, size_t opening_size, const uint8_t *answers,
                             size_t answers_length, uint8_t *scratch, size_t scratch_length);

static uint8_t image[JDN_IMAGE], reg[JDN_REGISTER], kept_image[JDN_IMAGE], kept_reg[JDN_REGISTER], scratch[JDN_SCRATCH], ballot[ballot_length], digest[32], seed[32];
static uint8_t secrets[14 * n], zero[8 * n], vectors[8 * unknowns], permutation[4 * unknowns], salts[96], claims[n];
static uint8_t head[head_length], shares0[8 * n], shares1[8 * n], drawn[2], opening[opening_length], answers[longest];
static char sheet[65536];
static size_t sheet_length, answers_length;

/* A call that must be taken. */
static void taken(const char *call, uint64_t reply) {
    if (!reply) return;
    fprintf(stderr, "bench: %s answers %u\n", call, JDN_NUMBER(reply));
    exit(1);
}

static void list(const char *key, int first) {
    sheet_length += (size_t)sprintf(sheet + sheet_length, "%s=%d", key, first);
    for (int i = 1; i < n; i++) sheet_length += (size_t)sprintf(sheet + sheet_length, ",0");
    sheet[sheet_length++] = '\n';
}

static void write_sheet(void) {
    const char *zeros[] = {"b", "k1", "k2", "k3"};
    sheet_length = (size_t)sprintf(sheet, "ring=%d\nmodulus=%s\ndrown=0\nrounds=1\nrepeats=1\n", n, modulus);
    list("a", 1);
    for (int i = 0; i < 4; i++) list(zeros[i], 0);
}

static void mark(uint32_t m) { memcpy(ballot, &m, 4); }

/* Admission, with the image and the register as they were put back before each; and the digest of the same ballot. */
static void admission(void) {
    double admit = 1e9, hash = 1e9;
    taken("clear", jdn_clear(image, sizeof image, reg, sizeof reg, (uint8_t *)sheet, sheet_length));
    for (uint32_t i = 0; i < entries; i++) mark(i), taken("admit", jdn_admit(image, sizeof image, reg, sizeof reg, ballot, sizeof ballot));
    memcpy(kept_image, image, sizeof image), memcpy(kept_reg, reg, sizeof reg);
    mark(entries);
    for (int round = 0; round < 50; round++) {
        memcpy(image, kept_image, sizeof image), memcpy(reg, kept_reg, sizeof reg);
        double start = seconds();
        taken("admit", jdn_admit(image, sizeof image, reg, sizeof reg, ballot, sizeof ballot));
        double middle = seconds();
        taken("digest", jdn_digest(ballot, sizeof ballot, digest, sizeof digest));
        admit = least(admit, middle - start), hash = least(hash, seconds() - middle);
    }
    printf("admit with %d entries: %.3f ms, of which the ballot's digest %.3f ms; the search, the ranges and the image %.3f ms\n", entries, 1e3 * admit, 1e3 * hash, 1e3 * (admit - hash));
}

/* A session with one ballot and one round, drawn. */
static void prepare(void) {
    for (uint32_t i = 0; i < unknowns; i++) memcpy(permutation + 4 * i, &i, 4);
    taken("clear", jdn_clear(image, sizeof image, reg, sizeof reg, (uint8_t *)sheet, sheet_length));
    taken("admit", jdn_admit(image, sizeof image, reg, sizeof reg, ballot, sizeof ballot));
    taken("close", jdn_close(image, sizeof image, reg, sizeof reg));
    taken("produce first", jdn_produce_first((uint8_t *)sheet, sheet_length, secrets, sizeof secrets, zero, 8 * n, zero, 8 * n, zero, 8 * n, zero, 8 * n, vectors, sizeof vectors,
                                             permutation, sizeof permutation, salts, sizeof salts, ballot, sizeof ballot, head, sizeof head, shares0, sizeof shares0, shares1,
                                             sizeof shares1, claims, sizeof claims, scratch, sizeof scratch));
    taken("claim", jdn_claim(image, sizeof image, claims, sizeof claims));
    taken("commit", jdn_commit(image, sizeof image, 0, head, sizeof head, shares0, sizeof shares0, shares1, sizeof shares1));
    taken("draw", jdn_draw(image, sizeof image, seed, sizeof seed));
    taken("challenges", jdn_challenges(image, sizeof image, 0, drawn, sizeof drawn));
    answers_length = drawn[1] == 1 ? 378 * n + 64 : longest;
    taken("produce second", jdn_produce_second((uint8_t *)sheet, sheet_length, secrets, sizeof secrets, zero, 8 * n, zero, 8 * n, zero, 8 * n, zero, 8 * n, vectors, sizeof vectors,
                                               permutation, sizeof permutation, salts, sizeof salts, ballot, sizeof ballot, drawn[0], drawn + 1, 1, opening, sizeof opening, answers,
                                               answers_length, scratch, sizeof scratch));
    memcpy(kept_image, image, sizeof image);
}

/* What the session hashes in a check: the sheet, the ballot, the claims and the first message. */
static void hashing(void) {
    taken("digest", jdn_digest((uint8_t *)sheet, sheet_length, digest, sizeof digest));
    taken("digest", jdn_digest(ballot, sizeof ballot, digest, sizeof digest));
    taken("digest", jdn_digest(claims, sizeof claims, digest, sizeof digest));
    taken("digest", jdn_digest(head, sizeof head, digest, sizeof digest));
    taken("digest", jdn_digest(shares0, sizeof shares0, digest, sizeof digest));
    taken("digest", jdn_digest(shares1, sizeof shares1, digest, sizeof digest));
}

int main(void) {
    double check = 1e9, alone = 1e9, hash = 1e9;
    write_sheet();
    admission();
    mark(0);
    prepare();
    for (int round = 0; round < 20; round++) {
        memcpy(image, kept_image, sizeof image);
        double start = seconds();
        taken("check", jdn_check(image, sizeof image, (uint8_t *)sheet, sheet_length, ballot, sizeof ballot, claims, sizeof claims, 0, head, sizeof head, shares0, sizeof shares0,
                                 shares1, sizeof shares1, opening, sizeof opening, answers, answers_length, scratch, sizeof scratch));
        double first = seconds();
        taken("round", test_check_round((uint8_t *)sheet, sheet_length, drawn[0], drawn + 1, 1, ballot, sizeof ballot, claims, sizeof claims, head, sizeof head, shares0,
                                           sizeof shares0, shares1, sizeof shares1, opening, sizeof opening, answers, answers_length, scratch, sizeof scratch));
        double second = seconds();
        hashing();
        check = least(check, first - start), alone = least(alone, second - first), hash = least(hash, seconds() - second);
    }
    printf("check of one ballot and one repetition: %.2f ms; the round alone %.2f ms, the session's hashing %.2f ms; ratio %.2f (limit %.1f)\n", 1e3 * check, 1e3 * alone, 1e3 * hash,
           check / (alone + hash), limit);
    return check > limit * (alone + hash);
}
