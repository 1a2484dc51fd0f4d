/* The three digests of a repetition at 2048 coefficients, beside what they are made of: the hashing of their three strings, and the six products of the equations. All are
 * ours and run interleaved, by the best round of each. The call for the digests also tests what it is lent and zeroes its scratch. */
#include <stddef.h>
#include <stdint.h>
#include <stdio.h>

#include "../include/jackdawnail.h"
#include "clock.h"

enum { n = 2048, entries = 42 * n, scratch_length = 1048576 };
static const uint64_t q = 36028797018820609; /* a prime below 2^55 with 4096 dividing q - 1 */
static const double limit = 1.3;

uint64_t stern_digests(const uint8_t *keys, size_t keys_length, const uint8_t *x, size_t x_length, const uint8_t *r, size_t r_length, const uint8_t *p, size_t p_length,
                       const uint8_t *salts, size_t salts_length, uint8_t *out, size_t out_length, uint8_t *scratch, size_t length, size_t ring, uint64_t modulus);
uint64_t ring_polynomials(uint64_t operation, uint8_t *work, size_t work_length, const uint8_t *a, size_t a_length, const uint8_t *b, size_t b_length, size_t ring,
                          uint64_t modulus);

static uint8_t keys[24 * n], x[14 * n], r[8 * entries], p[4 * entries], salts[96], out[96], scratch[scratch_length], work[32 * n], strings[3][33 + 8 * entries];
static const size_t lengths[3] = {33 + 4 * entries + 32 * n, 33 + 8 * entries, 33 + 8 * entries};

/* Numbers that look random and are the same in each run. */
static uint64_t next(void) {
    static uint64_t seed = 1;
    seed ^= seed << 13, seed ^= seed >> 7, seed ^= seed << 17;
    return seed;
}

static void coefficients(uint8_t *to, size_t count) {
    for (size_t i = 0; i < count; i++) {
        uint64_t c = next() % q;
        for (int k = 0; k < 8; k++) to[8 * i + (size_t)k] = (uint8_t)(c >> (8 * k));
    }
}

static void permutation(void) {
    static uint32_t shuffled[entries];
    for (uint32_t i = 0; i < entries; i++) shuffled[i] = i;
    for (uint32_t i = entries - 1; i > 0; i--) {
        uint32_t j = (uint32_t)(next() % (i + 1)), kept = shuffled[i];
        shuffled[i] = shuffled[j], shuffled[j] = kept;
    }
    for (size_t i = 0; i < entries; i++)
        for (int k = 0; k < 4; k++) p[4 * i + (size_t)k] = (uint8_t)(shuffled[i] >> (8 * k));
}

int main(void) {
    uint8_t hash[32];
    double digests = 1e9, hashing = 1e9, products = 1e9;
    uint64_t reply = 0;
    coefficients(keys, 3 * n);
    coefficients(r, entries);
    permutation();
    for (size_t i = 0; i < sizeof x; i++) x[i] = (uint8_t)(next() % 3);
    for (size_t i = 0; i < sizeof salts; i++) salts[i] = (uint8_t)next();
    for (int k = 0; k < 3; k++)
        for (size_t i = 0; i < lengths[k]; i++) strings[k][i] = (uint8_t)next();
    for (int round = 0; round < 20; round++) {
        double start = seconds();
        reply |= stern_digests(keys, sizeof keys, x, sizeof x, r, sizeof r, p, sizeof p, salts, sizeof salts, out, sizeof out, scratch, sizeof scratch, n, q);
        double hashed = seconds();
        for (int k = 0; k < 3; k++) reply |= jdn_digest(strings[k], lengths[k], hash, sizeof hash);
        double multiplied = seconds();
        for (int k = 0; k < 6; k++) reply |= ring_polynomials(2, work, sizeof work, keys, 8 * n, r, 8 * n, n, q);
        double end = seconds();
        digests = least(digests, hashed - start);
        hashing = least(hashing, multiplied - hashed);
        products = least(products, end - multiplied);
    }
    double ratio = digests / (hashing + products);
    printf("digests of a repetition, 2048 coefficients: %.2f ms; their hashing %.2f ms, six products %.2f ms, ratio %.2f (limit %.1f)\n", digests * 1e3, hashing * 1e3,
           products * 1e3, ratio, limit);
    if (reply != 0) puts("a call was refused");
    if (ratio > limit) puts("the ratio is above its limit");
    return reply != 0 || ratio > limit;
}
