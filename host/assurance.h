/* What an acceptance rests on, in words: the chance that a false result passes, the floor below which a sheet is for trying only, and what
 * the draw has to be. */
#ifndef ASSURANCE_H
#define ASSURANCE_H
#include "election.h"

#define WORDS_ROOM 256

/* The floor (docs/DECISIONS.md gives the reasons). */
#define LEAST_RING 1024
#define LEAST_ROUNDS 40

/* The bound of document 000, theorem 2, on the chance that a false result passes all rounds: 2^-rounds + (2/3)^repeats, as "1 in
 * 500,000,000,000" or, where it is one in a hundred or more, as "55 in 100". Always rounded so that the chance is no larger than what is
 * said. */
void chance_in_words(const struct numbers *numbers, char *words);

/* Whether a sheet with these numbers lies below the floor. `why` says where. */
bool is_for_trying(size_t ring, size_t rounds, char *why);
/* Says so on standard error, where it does. */
void say_if_for_trying(size_t ring, size_t rounds);

/* What has to be true of how the challenges came about, for an acceptance to mean anything: sentences for the result, and for a check. */
extern const char condition_sentence[];
extern const char condition_reason[];

#endif
