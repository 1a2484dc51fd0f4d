/* The producer's two calls and the check of a round over round_ntl.h. */
#ifndef BENCH_ROUND_OTHER_H
#define BENCH_ROUND_OTHER_H
#include "round_ntl.h"

namespace theirs {

/* ---- the producer */

/* Its tests: ranges, the secret, masks, permutations, noise. The opened ballots, v - s u, are kept for whoever needs them. */
static bool tested(const Sheet &t, const Material &m, std::vector<Words> &opened) {
    Words s = short_words(m.secrets.data(), n), e = short_words(&m.secrets[n], n);
    if (!below(m.s0) || !below(m.e0) || key(t, s, e) != t.b) return false;
    for (const Words &masks : m.masks)
        for (uint64_t c : masks)
            if ((uint64_t)std::llabs((int64_t)c) > t.mask_bound) return false;
    for (const Drawn &d : m.drawn)
        if (!below(d.r) || !permutes(d.p)) return false;
    for (size_t j = 0; j < m.ballots.size() / ballot_length; j++) {
        std::pair<Words, Words> c = ballot(m.ballots, j);
        if (!below(c.first) || !below(c.second)) return false;
        opened.push_back(minus(c.second, times(s, c.first)));
        if (!within(opened.back(), noise)) return false;
    }
    return true;
}

static void digests(Bytes &to, const Sheet &t, const Bytes &secrets, const Drawn &d) {
    Words masked = plus(short_words(extended(secrets).data(), entries), d.r), applied = equations(t, d.r);
    Bytes one = hash(1, {{&d.salts[0], 32}, all(d.p), all(applied)});
    Bytes two = hash(2, {{&d.salts[32], 32}, all(permuted(d.p, d.r))}), three = hash(3, {{&d.salts[64], 32}, all(permuted(d.p, masked))});
    for (const Bytes *digest : {&one, &two, &three}) to.insert(to.end(), digest->begin(), digest->end());
}

static bool first(const Sheet &t, const Material &m, Round &round) {
    std::vector<Words> opened;
    if (!tested(t, m, opened)) return false;
    Words short_all = short_words(m.secrets.data(), unknowns);
    Words s[2] = {m.s0, minus(part(short_all, 0), m.s0)}, e[2] = {m.e0, minus(part(short_all, 1), m.e0)};
    Words b0 = key(t, s[0], e[0]), b1 = minus(t.b, b0);
    round.head = b0;
    round.head.insert(round.head.end(), b1.begin(), b1.end());
    for (size_t i = 0; i < 2; i++) pair(round.head, t, short_all, 2 + 3 * i, s[i]);
    for (size_t i = 0; i < 2; i++) pair(round.head, t, short_all, 8 + 3 * i, e[i]);
    for (const Drawn &d : m.drawn) digests(round.digests, t, m.secrets, d);
    for (size_t j = 0; j < opened.size(); j++) {
        std::pair<Words, Words> c = ballot(m.ballots, j);
        Words plain = times(s[0], c.first), other = minus(minus(c.second, opened[j]), plain);
        for (size_t i = 0; i < 2; i++) {
            Words mask = signed_words(&m.masks[i][n * j]), share = plus(i ? other : plain, plus(mask, mask));
            round.shares[i].insert(round.shares[i].end(), share.begin(), share.end());
        }
        vote(round.claims, opened[j]);
    }
    return true;
}

static void answer(Bytes &to, uint8_t challenge, const Bytes &secrets, const Drawn &d) {
    Bytes x = challenge == 3 ? Bytes() : extended(secrets);
    if (challenge == 1) {
        append(to, permuted(d.p, x).data(), entries);
        append(to, permuted(d.p, d.r).data(), entries);
    } else {
        append(to, d.p.data(), entries);
        append(to, (challenge == 2 ? plus(short_words(x.data(), entries), d.r) : d.r).data(), entries);
    }
    append(to, &d.salts[challenge == 1 ? 32 : 0], 32);
    append(to, &d.salts[challenge == 3 ? 32 : 64], 32);
}

static bool second(const Sheet &t, const Material &m, size_t side, const Bytes &challenges, Round &round) {
    std::vector<Words> opened;
    if (!tested(t, m, opened)) return false;
    Words s = side ? minus(short_words(m.secrets.data(), n), m.s0) : m.s0, e = side ? minus(short_words(&m.secrets[n], n), m.e0) : m.e0;
    append(round.opening, s.data(), n);
    append(round.opening, e.data(), n);
    append(round.opening, &m.secrets[(2 + 3 * side) * n], 3 * n);
    append(round.opening, &m.secrets[(8 + 3 * side) * n], 3 * n);
    for (size_t i = 0; i < challenges.size(); i++) answer(round.answers, challenges[i], m.secrets, m.drawn[i]);
    return true;
}

/* ---- the check */

static bool answered1(const uint8_t *a, const uint8_t *digests) {
    Bytes w(a, a + entries);
    Words r(entries);
    memcpy(r.data(), a + entries, 8 * entries);
    size_t counts[3] = {0, 0, 0};
    for (uint8_t b : w) {
        if (b > 2) return false;
        counts[b]++;
    }
    if (!below(r) || counts[0] != unknowns || counts[1] != unknowns) return false;
    Words sum = plus(short_words(w.data(), entries), r);
    const uint8_t *salts = a + 9 * entries;
    return !memcmp(hash(2, {{salts, 32}, all(r)}).data(), digests + 32, 32) && !memcmp(hash(3, {{salts + 32, 32}, all(sum)}).data(), digests + 64, 32);
}

static bool answered(const Sheet &t, const Words &head, uint8_t challenge, const uint8_t *a, const uint8_t *digests) {
    std::vector<uint32_t> p(entries);
    Words r(entries);
    memcpy(p.data(), a, 4 * entries);
    memcpy(r.data(), a + 4 * entries, 8 * entries);
    if (!below(r) || !permutes(p)) return false;
    Words applied = equations(t, r);
    if (challenge == 2) applied = minus(applied, sides(head));
    const uint8_t *salts = a + 12 * entries;
    uint8_t other = challenge == 2 ? 3 : 2;
    return !memcmp(hash(1, {{salts, 32}, all(p), all(applied)}).data(), digests, 32) &&
           !memcmp(hash(other, {{salts + 32, 32}, all(permuted(p, r))}).data(), digests + 32 * (other - 1), 32);
}

/* 12 and 13 of ballot j: the mask that the opened share has, and the claim. */
static bool counted(const Sheet &t, const Bytes &ballots, size_t side, const Round &round, const Words &s, size_t j) {
    std::pair<Words, Words> c = ballot(ballots, j);
    Words mask = minus(part(round.shares[side], j), times(s, c.first)), left = minus(minus(c.second, part(round.shares[0], j)), part(round.shares[1], j));
    for (uint64_t &x : mask) x = x % 2 ? (x + q) / 2 : x / 2;
    Bytes votes;
    vote(votes, left);
    return below(c.first) && below(c.second) && within(mask, t.mask_bound) && !memcmp(votes.data(), &round.claims[n * j], n);
}

static bool check(const Sheet &t, const Bytes &ballots, size_t side, const Bytes &challenges, const Round &round) {
    Words s(n), e(n), pairs, hides = short_words(&round.opening[16 * n], 6 * n);
    memcpy(s.data(), &round.opening[0], 8 * n);
    memcpy(e.data(), &round.opening[8 * n], 8 * n);
    if (!below(round.head) || !below(round.shares[0]) || !below(round.shares[1]) || !below(s) || !below(e)) return false;
    if (plus(part(round.head, 0), part(round.head, 1)) != t.b || part(round.head, side) != key(t, s, e)) return false;
    pair(pairs, t, hides, 0, s);
    pair(pairs, t, hides, 3, e);
    for (size_t i = 0; i < 4; i++)
        if (part(pairs, i) != part(round.head, 2 + 2 * side + (i < 2 ? i : i + 2))) return false;
    const uint8_t *a = round.answers.data();
    for (size_t i = 0; i < challenges.size(); i++) {
        const uint8_t *digests = &round.digests[96 * i];
        if (!(challenges[i] == 1 ? answered1(a, digests) : answered(t, round.head, challenges[i], a, digests))) return false;
        a += (challenges[i] == 1 ? 9 : 12) * entries + 64;
    }
    for (size_t j = 0; j < ballots.size() / ballot_length; j++)
        if (!counted(t, ballots, side, round, s, j)) return false;
    return true;
}

} // namespace theirs
#endif
