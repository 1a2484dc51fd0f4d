/* The words that say what an acceptance is worth. They are part of the result, which is compared byte for byte: the sums below are exact
 * in the same way on every machine, since they are single steps of IEEE arithmetic. */
#include "assurance.h"

#include <stdio.h>

#include "say.h"

/* A session whose challenges come from a drawn seed. A kind of session that needs no draw has a sentence of its own. */
const char condition_sentence[] =
    "The challenges of this election come from a drawn seed: "
    "acceptance holds only if this seed was drawn after this commitment was public.";
const char condition_reason[] = "Whoever knew the seed before that could have made any result pass.";

/* x to the n. */
static double power(double x, size_t n) {
    double product = 1;
    for (size_t i = 0; i < n; i++) product *= x;
    return product;
}

/* Writes a number of two digits and then zeros, with a comma before each three. */
static void write_grouped(char *words, unsigned lead, unsigned zeros) {
    char digits[8];
    unsigned left = (unsigned)snprintf(digits, sizeof digits, "%u", lead) + zeros;
    const char *next = digits;
    for (; left; left--) {
        *words++ = *next ? *next++ : '0';
        if (left > 1 && left % 3 == 1) *words++ = ',';
    }
    *words = 0;
}

void chance_in_words(const struct numbers *numbers, char *words) {
    double chance = power(0.5, numbers->rounds) + power(2.0 / 3.0, numbers->repeats);
    double odds = 1 / chance;
    unsigned zeros = 0;
    if (chance >= 0.01) {
        unsigned percent = chance >= 1 ? 100 : (unsigned)(100 * chance) + 1;
        snprintf(words, WORDS_ROOM, "%u in 100", percent > 100 ? 100 : percent);
        return;
    }
    for (; odds >= 100; odds /= 10) zeros++;
    write_grouped(words + snprintf(words, WORDS_ROOM, "1 in "), (unsigned)odds, zeros);
}

bool is_for_trying(size_t ring, size_t rounds, char *why) {
    bool small = ring < LEAST_RING, few = rounds < LEAST_ROUNDS;
    char ring_words[80] = "", round_words[80] = "";
    if (small) snprintf(ring_words, sizeof ring_words, "its ring is %zu, below 1,024", ring);
    if (few) snprintf(round_words, sizeof round_words, "its rounds are %zu, fewer than 40", rounds);
    snprintf(why, WORDS_ROOM, "%s%s%s", ring_words, small && few ? ", and " : "", round_words);
    return small || few;
}

void say_if_for_trying(size_t ring, size_t rounds) {
    char why[WORDS_ROOM];
    if (is_for_trying(ring, rounds, why)) say("this sheet is for trying only: %s", why);
}
