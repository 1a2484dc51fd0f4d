/* A round at 2048 coefficients with q near 2^55: the producer's two calls and the check, ours and the same work over NTL and OpenSSL, interleaved in one run, by the best
 * pass of each, beside what document 000 measured (table 1). Each row has limits that its two ratios must reach. A ballot's time is the difference that sixteen ballots make, a repetition's that of three more repetitions. */
#include <algorithm>
#include <cstdio>
#include <string>

#include "../include/jackdawnail.h"
#include "clock.h"
#include "lent.h"
#include "round_other.h"

using theirs::Bytes;
using theirs::Drawn;
using theirs::Material;
using theirs::n;
using theirs::q;
using theirs::Round;
using theirs::Words;

extern "C" uint64_t test_check_round(JDN_IN(sheet), uint64_t side, JDN_IN(challenges), JDN_IN(ballots), JDN_IN(claims), JDN_IN(head), JDN_IN(shares0),
                                        JDN_IN(shares1), JDN_IN(opening), JDN_IN(answers), JDN_OUT(scratch));

static const size_t rounds = 2, least_repeats = 3, drown = 40, passes = 20;
static const double document_ballot = 4, document_repetition = 30, repetition_limit = 1.5, limit = 2, folded_limit = 0.9;
static Bytes scratch(1048576);
static bool wrong = false, slow = false;

/* ---- material */

/* Numbers that look random and are the same in each run. */
static uint64_t next() {
    static uint64_t seed = 6;
    seed ^= seed << 13, seed ^= seed >> 7, seed ^= seed << 17;
    return seed;
}

static Words coefficients(size_t count) {
    Words x(count);
    for (uint64_t &c : x) c = next() % q;
    return x;
}

static Bytes below(uint64_t end, size_t count) {
    Bytes x(count);
    for (uint8_t &b : x) b = (uint8_t)(next() % end);
    return x;
}

static Words masks(size_t count, uint64_t bound) {
    Words x(count);
    for (uint64_t &c : x) c = next() % (2 * bound + 1) - bound;
    return x;
}

static Drawn drawn() {
    Drawn d = {std::vector<uint32_t>(theirs::entries), coefficients(theirs::entries), below(256, 96)};
    for (uint32_t i = 0; i < theirs::entries; i++) d.p[i] = i;
    for (uint32_t i = theirs::entries - 1; i > 0; i--) std::swap(d.p[i], d.p[next() % (i + 1)]);
    return d;
}

/* An encryption of random votes, with the mark 0. */
static void encrypted(Bytes &ballots, const theirs::Sheet &t) {
    Words r = theirs::short_words(below(3, n).data(), n), v = theirs::times(t.b, r), e = theirs::short_words(below(3, n).data(), n), u = theirs::key(t, r, e);
    for (uint64_t &c : v) c = theirs::add(c, next() % 2);
    ballots.insert(ballots.end(), 4, 0);
    theirs::append(ballots, u.data(), n);
    theirs::append(ballots, v.data(), n);
}

/* What one measurement is made on: a sheet, and for each round the material, its side and challenges, and what ours and theirs write. */
struct Setup {
    theirs::Sheet sheet;
    std::string text;
    std::vector<Material> material;
    std::vector<Bytes> challenges;
    std::vector<Round> ours, other;
};

static Setup setup(size_t ballots, size_t repeats) {
    Setup x;
    theirs::Sheet &t = x.sheet;
    Bytes key = below(3, 2 * n), cast;
    t.a = coefficients(n);
    for (Words &k : t.k) k = coefficients(n);
    t.b = theirs::key(t, theirs::short_words(&key[0], n), theirs::short_words(&key[n], n));
    t.mask_bound = (theirs::noise << drown) / 4;
    x.text = sheet_text(drown, rounds, repeats, {&t.a, &t.b, &t.k[0], &t.k[1], &t.k[2]});
    for (size_t j = 0; j < ballots; j++) encrypted(cast, t);
    for (size_t k = 0; k < rounds; k++) {
        Material m = {key, cast, coefficients(n), coefficients(n), {masks(n * ballots, t.mask_bound), masks(n * ballots, t.mask_bound)}, {}};
        Bytes hides = below(3, 12 * n), challenges;
        m.secrets.insert(m.secrets.end(), hides.begin(), hides.end());
        for (size_t i = 0; i < repeats; i++) m.drawn.push_back(drawn()), challenges.push_back((uint8_t)(1 + (i + k) % 3));
        x.material.push_back(m), x.challenges.push_back(challenges);
    }
    x.ours.resize(rounds), x.other.resize(rounds);
    return x;
}

/* ---- ours */

template <class T> static Bytes joined(const std::vector<Drawn> &all, std::vector<T> Drawn::*part) {
    Bytes x;
    for (const Drawn &d : all) theirs::append(x, (d.*part).data(), (d.*part).size());
    return x;
}

/* The seconds of both calls of round k. */
static double produced(Setup &x, size_t k) {
    const Material &m = x.material[k];
    const size_t count = m.ballots.size() / theirs::ballot_length, repeats = m.drawn.size();
    const Bytes vectors = joined(m.drawn, &Drawn::r), permutations = joined(m.drawn, &Drawn::p), salts = joined(m.drawn, &Drawn::salts);
    Round y;
    Bytes head(80 * n + 96 * repeats);
    for (Words &shares : y.shares) shares.resize(n * count);
    y.claims.resize(n * count), y.opening.resize(22 * n);
    for (uint8_t challenge : x.challenges[k]) y.answers.resize(y.answers.size() + (challenge == 1 ? 378 : 504) * n + 64);
    double start = seconds();
    uint64_t reply = jdn_produce_first(IN(x.text), IN(m.secrets), IN(m.s0), IN(m.e0), IN(m.masks[0]), IN(m.masks[1]), IN(vectors), IN(permutations), IN(salts),
                                       IN(m.ballots), OUT(head), OUT(y.shares[0]), OUT(y.shares[1]), OUT(y.claims), OUT(scratch));
    reply |= jdn_produce_second(IN(x.text), IN(m.secrets), IN(m.s0), IN(m.e0), IN(m.masks[0]), IN(m.masks[1]), IN(vectors), IN(permutations), IN(salts), IN(m.ballots),
                                k % 2, IN(x.challenges[k]), OUT(y.opening), OUT(y.answers), OUT(scratch));
    double taken = seconds() - start;
    y.head.resize(10 * n), y.digests.assign(head.begin() + 80 * n, head.end());
    memcpy(y.head.data(), head.data(), 80 * n);
    wrong |= reply != 0;
    x.ours[k] = y;
    return taken;
}

static double checked(Setup &x, size_t k) {
    const Round &y = x.ours[k];
    Bytes head;
    theirs::append(head, y.head.data(), y.head.size());
    theirs::append(head, y.digests.data(), y.digests.size());
    double start = seconds();
    wrong |= 0 != test_check_round(IN(x.text), k % 2, IN(x.challenges[k]), IN(x.material[k].ballots), IN(y.claims), IN(head), IN(y.shares[0]), IN(y.shares[1]),
                                      IN(y.opening), IN(y.answers), OUT(scratch));
    return seconds() - start;
}

/* ---- theirs */

static double produced_by_other(Setup &x, size_t k) {
    x.other[k] = Round();
    double start = seconds();
    wrong |= !theirs::first(x.sheet, x.material[k], x.other[k]) || !theirs::second(x.sheet, x.material[k], k % 2, x.challenges[k], x.other[k]);
    return seconds() - start;
}

static double checked_by_other(Setup &x, size_t k) {
    double start = seconds();
    wrong |= !theirs::check(x.sheet, x.material[k].ballots, k % 2, x.challenges[k], x.other[k]);
    return seconds() - start;
}

static bool same(const Round &x, const Round &y) {
    return x.head == y.head && x.digests == y.digests && x.shares[0] == y.shares[0] && x.shares[1] == y.shares[1] && x.claims == y.claims && x.opening == y.opening &&
           x.answers == y.answers;
}

/* ---- the measurement */

enum { ours, with_rem, with_fold, kinds };

static void row(const char *what, const double *ms, double least_ratio, const char *document) {
    printf("%s: ours %.2f ms, NTL and OpenSSL %.2f ms, ratio %.2f, folded by hand %.2f ms, ratio %.2f%s\n", what, ms[ours], ms[with_rem], ms[with_rem] / ms[ours],
           ms[with_fold], ms[with_fold] / ms[ours], document);
    if (ms[with_rem] / ms[ours] >= least_ratio && ms[with_fold] / ms[ours] >= folded_limit) return;
    printf("a ratio of %s is below its limit, %.1f or %.1f\n", what, least_ratio, folded_limit);
    slow = true;
}

/* The best pass of each round, by what it was made on and by whom. */
typedef double Best[3][kinds][rounds];

static double milliseconds(const double *best) {
    double sum = 0;
    for (size_t k = 0; k < rounds; k++) sum += best[k];
    return 1e3 * sum / (double)rounds;
}

/* The rows of producer or checker, from the times without ballots, with sixteen, and with three more repetitions. */
static void rows(const std::string &who, const Best &best, size_t ballots) {
    double ballot[kinds], repetition[kinds], rest[kinds];
    for (int k = 0; k < kinds; k++) {
        const double least_ms = milliseconds(best[0][k]);
        ballot[k] = (milliseconds(best[1][k]) - least_ms) / (double)ballots;
        repetition[k] = (milliseconds(best[2][k]) - least_ms) / (double)least_repeats;
        rest[k] = least_ms - (double)least_repeats * repetition[k];
    }
    char ballot_document[64], repetition_document[64];
    snprintf(ballot_document, sizeof ballot_document, "; document 000 %.0f ms, ratio %.2f", document_ballot, document_ballot / ballot[ours]);
    snprintf(repetition_document, sizeof repetition_document, "; document 000 %.0f ms, ratio %.2f", document_repetition, document_repetition / repetition[ours]);
    row((who + ", round and ballot").c_str(), ballot, limit, ballot_document);
    row((who + ", round and repetition").c_str(), repetition, repetition_limit, repetition_document);
    row((who + ", rest of a round").c_str(), rest, limit, "");
}

/* Each round once, ours or theirs; what theirs makes is compared with what ours made. */
static void one_pass(Setup &x, int kind, double *produce, double *check) {
    theirs::folded = kind == with_fold;
    for (size_t r = 0; r < rounds; r++) {
        produce[r] = least(produce[r], kind == ours ? produced(x, r) : produced_by_other(x, r));
        check[r] = least(check[r], kind == ours ? checked(x, r) : checked_by_other(x, r));
        wrong |= kind != ours && !same(x.ours[r], x.other[r]);
    }
}

int main() {
    NTL::zz_p::init((long)q);
    theirs::folded = true;
    const size_t ballots = 16;
    Setup setups[3] = {setup(0, least_repeats), setup(ballots, least_repeats), setup(0, 2 * least_repeats)};
    Best produce, check;
    std::fill(&produce[0][0][0], &produce[0][0][0] + 3 * kinds * rounds, 1e9);
    std::fill(&check[0][0][0], &check[0][0][0] + 3 * kinds * rounds, 1e9);
    for (size_t pass = 0; pass < passes; pass++)
        for (int i = 0; i < 3; i++)
            for (int k = 0; k < kinds; k++) one_pass(setups[i], k, produce[i][k], check[i][k]);
    rows("producer", produce, ballots);
    rows("checker", check, ballots);
    if (wrong) puts("a call was refused, or the rounds differ");
    return wrong || slow;
}
