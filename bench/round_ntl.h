/* A round's producer and checker over NTL and OpenSSL, as document 01 has them: what bench/round.cpp measures ours beside. Polynomials and vectors are 64-bit words; NTL
 * multiplies (ntl.h), OpenSSL hashes. */
#ifndef BENCH_ROUND_NTL_H
#define BENCH_ROUND_NTL_H
#include <openssl/evp.h>

#include <cstdlib>
#include <cstring>
#include <utility>

#include "ntl.h"

namespace theirs {

typedef std::vector<uint8_t> Bytes;

static const size_t unknowns = 14 * n, entries = 3 * unknowns, ballot_length = 4 + 16 * n;
static const uint64_t noise = 2 * (2 * n + 1) + 1;

struct Sheet {
    uint64_t mask_bound;
    Words a, b, k[3];
};

/* What is drawn for a repetition: P, R and three salts. */
struct Drawn {
    std::vector<uint32_t> p;
    Words r;
    Bytes salts;
};

/* What a producer is lent. */
struct Material {
    Bytes secrets, ballots;
    Words s0, e0, masks[2];
    std::vector<Drawn> drawn;
};

/* What a round has after both of its calls. */
struct Round {
    Words head, shares[2];
    Bytes digests, claims, opening, answers;
};

/* ---- polynomials */

static uint64_t add(uint64_t x, uint64_t y) { return x + y < q ? x + y : x + y - q; }

static Words plus(const Words &x, const Words &y) {
    Words z(x.size());
    for (size_t i = 0; i < z.size(); i++) z[i] = add(x[i], y[i]);
    return z;
}

static Words minus(const Words &x, const Words &y) {
    Words z(x.size());
    for (size_t i = 0; i < z.size(); i++) z[i] = subtract(x[i], y[i]);
    return z;
}

static Words short_words(const uint8_t *ternary, size_t count) {
    static const uint64_t meaning[3] = {0, 1, q - 1};
    Words z(count);
    for (size_t i = 0; i < count; i++) z[i] = meaning[ternary[i]];
    return z;
}

static Words part(const Words &x, size_t number) { return Words(x.begin() + (long)(number * n), x.begin() + (long)((number + 1) * n)); }

static int64_t centred(uint64_t x) { return x > (q - 1) / 2 ? (int64_t)x - (int64_t)q : (int64_t)x; }

static bool within(const Words &x, uint64_t bound) {
    for (uint64_t c : x)
        if ((uint64_t)std::llabs(centred(c)) > bound) return false;
    return true;
}

static void vote(Bytes &to, const Words &x) {
    for (uint64_t c : x) to.push_back((uint8_t)(centred(c) & 1));
}

static Words signed_words(const uint64_t *masks) {
    Words z(n);
    for (size_t i = 0; i < n; i++) z[i] = (int64_t)masks[i] < 0 ? masks[i] + q : masks[i];
    return z;
}

static std::pair<Words, Words> ballot(const Bytes &ballots, size_t j) {
    Words u(n), v(n);
    memcpy(u.data(), &ballots[ballot_length * j + 4], 8 * n);
    memcpy(v.data(), &ballots[ballot_length * j + 4 + 8 * n], 8 * n);
    return {u, v};
}

static Words key(const Sheet &t, const Words &s, const Words &e) { return plus(times(t.a, s), plus(e, e)); }

/* r1 + k1 r2 + k2 r3, then r2 + k3 r3 + m, of three r that stand from a number on. */
static void pair(Words &to, const Sheet &t, const Words &r, size_t at, const Words &m) {
    Words r2 = part(r, at + 1), r3 = part(r, at + 2);
    Words row = plus(part(r, at), plus(times(t.k[0], r2), times(t.k[1], r3))), second = plus(plus(r2, times(t.k[2], r3)), m);
    to.insert(to.end(), row.begin(), row.end());
    to.insert(to.end(), second.begin(), second.end());
}

/* ---- the shortness argument */

/* The equations' left-hand sides: for s and for e the pair made from the summed r. */
static Words equations(const Sheet &t, const Words &x) {
    Words to;
    for (size_t half = 0; half < 2; half++) {
        Words summed;
        for (size_t i = 2 + 6 * half; i < 5 + 6 * half; i++) {
            Words r = plus(part(x, i), part(x, i + 3));
            summed.insert(summed.end(), r.begin(), r.end());
        }
        pair(to, t, summed, 0, part(x, half));
    }
    return to;
}

/* Their right-hand sides, from the committed pairs, which follow b0 and b1 in the head. */
static Words sides(const Words &head) {
    Words to;
    for (size_t i : {0, 1, 4, 5}) {
        Words sum = plus(part(head, 2 + i), part(head, 4 + i));
        to.insert(to.end(), sum.begin(), sum.end());
    }
    return to;
}

struct Part {
    const void *bytes;
    size_t length;
};

static Bytes hash(uint8_t lead, std::initializer_list<Part> parts) {
    Bytes out(32);
    EVP_MD_CTX *context = EVP_MD_CTX_new();
    EVP_DigestInit_ex(context, EVP_sha3_256(), NULL);
    EVP_DigestUpdate(context, &lead, 1);
    for (const Part &p : parts) EVP_DigestUpdate(context, p.bytes, p.length);
    EVP_DigestFinal_ex(context, out.data(), NULL);
    EVP_MD_CTX_free(context);
    return out;
}

static Part all(const Words &x) { return {x.data(), 8 * x.size()}; }
static Part all(const std::vector<uint32_t> &p) { return {p.data(), 4 * p.size()}; }

static Bytes extended(const Bytes &x) {
    Bytes to = x;
    size_t counts[3] = {0, 0, 0};
    for (uint8_t b : x) counts[b]++;
    for (uint8_t value : {2, 0, 1}) to.insert(to.end(), unknowns - counts[value], value);
    return to;
}

template <class T> static std::vector<T> permuted(const std::vector<uint32_t> &p, const std::vector<T> &x) {
    std::vector<T> to(p.size());
    for (size_t i = 0; i < p.size(); i++) to[i] = x[p[i]];
    return to;
}

static bool permutes(const std::vector<uint32_t> &p) {
    std::vector<bool> seen(p.size(), false);
    for (uint32_t i : p) {
        if (i >= p.size() || seen[i]) return false;
        seen[i] = true;
    }
    return true;
}

static bool below(const Words &x) {
    for (uint64_t c : x)
        if (c >= q) return false;
    return true;
}

template <class T> static void append(Bytes &to, const T *from, size_t count) {
    to.insert(to.end(), (const uint8_t *)from, (const uint8_t *)(from + count));
}

} // namespace theirs
#endif
