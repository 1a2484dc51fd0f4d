/* Random numbers. The library takes all of them from its host. */
#ifndef RANDOM_H
#define RANDOM_H
#include <stdbool.h>
#include <stddef.h>
#include <stdint.h>

#include "status.h"

#define SEED 32

/* Where seeds come from: the operating system. For tests only they can be made from one that is given, so that a run can be had twice:
 * whoever knows that one knows the key. */
struct origin {
    bool given;
    uint8_t seed[SEED];
};

/* What a seed is for; with a number, so that seeds made from a given one differ. */
enum purpose { FOR_SHEET = 1, FOR_KEY, FOR_BALLOT, FOR_ROUND, FOR_DRAW, FOR_VOTES };

/* A fresh seed of 32 bytes. */
enum status origin_seed(const struct origin *origin, enum purpose purpose, uint32_t number, uint8_t *out);

/* The streams that numbers are made from a seed with. state.bin names for each round the one that it was committed with, by these numbers:
 * the same seed gives other numbers in another stream, and the round could not be answered. */
enum stream {
    NO_STREAM = 0,
    SHA3_STREAM = 1,    /* SHA3-256 of the seed and a counter: of rounds that were committed before release 0.12 */
    CHACHA20_STREAM = 2 /* ChaCha20 with the seed as its key, by libsodium: of all else */
};
#define STREAM_OF_TODAY CHACHA20_STREAM

/* Readies the library of the streams, once, before any is started. */
enum status streams_ready(void);

/* Where the numbers of one seed come from. No seed is the start of two: the nonce of ChaCha20 is always zero. */
#define STREAM_PART 16384
struct source {
    enum stream stream;
    uint8_t seed[SEED];
    uint64_t blocks;     /* of the stream, made so far */
    size_t used, length; /* of the part that was made last */
    uint8_t part[STREAM_PART];
};

void source_start(struct source *source, enum stream stream, const uint8_t *seed);
/* Zeroes it. */
void source_end(struct source *source);
/* The next 64 bits of the stream. */
uint64_t source_word(struct source *source);
/* The number below the bound that an evenly chosen word gives; false where the word is to be passed over, so that all numbers are equally
 * likely. */
bool word_below(uint64_t word, uint64_t bound, uint64_t *number);
/* Evenly 0 to bound - 1. */
uint64_t source_below(struct source *source, uint64_t bound);
/* Evenly chosen bytes 0, 1, 2. */
void source_ternary(struct source *source, uint8_t *at, size_t count);
/* Bytes. */
void source_bytes(struct source *source, uint8_t *at, size_t count);
/* Numbers below the modulus, 8 bytes each. */
void source_coefficients(struct source *source, uint8_t *at, size_t count, uint64_t modulus);
/* Signed numbers of size at most the bound, in two's complement, 8 bytes each. */
void source_masks(struct source *source, uint8_t *at, size_t count, uint64_t bound);
/* A permutation of 0 to count - 1, 4 bytes to an entry. */
void source_permutation(struct source *source, uint8_t *at, size_t count);

#endif
