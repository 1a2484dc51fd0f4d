/* The product of two polynomials modulo X^2048 + 1, q near 2^55: the library's own, which looks for a root and multiplies by transform, ours
 * by the plain method and by transform with a given root, and NTL's, `mul` followed by `rem` or folded by hand; and the two exported calls,
 * which read a sheet and test what they are lent. All run interleaved, by the best round of each. */
#include <algorithm>
#include <cstdio>

#include "../include/jackdawnail.h"
#include "clock.h"
#include "lent.h"

using theirs::n;
using theirs::q;
using theirs::Words;

extern "C" uint64_t ring_polynomials(uint64_t operation, JDN_OUT(work), JDN_IN(a), JDN_IN(b), size_t ring, uint64_t modulus);
extern "C" uint64_t ring_by_transform(JDN_OUT(work), JDN_IN(a), JDN_IN(b), size_t ring, uint64_t w, uint64_t modulus);

static const uint64_t root = 15999091420952219; /* its 2048th power is -1 modulo q */
static const double product_limit = 6, method_limit = 8, call_limit = 4;

enum { own, plain, transform, with_rem, with_fold, plain_call, transform_call, kinds };

/* Coefficients that look random and are the same in each run. */
static Words coefficients() {
    static uint64_t seed = 1;
    Words x(n);
    for (uint64_t &c : x) {
        seed ^= seed << 13, seed ^= seed >> 7, seed ^= seed << 17;
        c = seed % q;
    }
    return x;
}

/* What is multiplied, and the room that each kind writes its product to. */
struct Setup {
    Words x, y, product, rooms[kinds];
    std::string sheet;
    std::vector<uint8_t> scratch;
    bool wrong;
};

static Setup setup() {
    Setup s = {coefficients(), coefficients(), {}, {}, "", std::vector<uint8_t>(JDN_SCRATCH), false};
    const Words a = coefficients(), b = coefficients(), k1 = coefficients(), k2 = coefficients(), k3 = coefficients();
    s.sheet = sheet_text(40, 1, 1, {&a, &b, &k1, &k2, &k3});
    theirs::folded = false;
    s.product = theirs::times(s.x, s.y);
    s.rooms[own].resize(4 * n), s.rooms[plain].resize(4 * n), s.rooms[transform].resize(2 * n), s.rooms[plain_call].resize(n), s.rooms[transform_call].resize(n);
    return s;
}

static uint64_t multiply(Setup &s, int kind) {
    Words &room = s.rooms[kind];
    if (kind == own) return ring_polynomials(2, OUT(room), IN(s.x), IN(s.y), n, q);
    if (kind == plain) return ring_polynomials(3, OUT(room), IN(s.x), IN(s.y), n, q);
    if (kind == transform) return ring_by_transform(OUT(room), IN(s.x), IN(s.y), n, root, q);
    if (kind == plain_call) return jdn_product(IN(s.sheet), IN(s.x), IN(s.y), OUT(room), OUT(s.scratch));
    if (kind == transform_call) return jdn_multiply(IN(s.sheet), IN(s.x), IN(s.y), root, OUT(room), OUT(s.scratch));
    theirs::folded = kind == with_fold;
    room = theirs::times(s.x, s.y);
    return 0;
}

/* The seconds of one product, which is then compared with NTL's. */
static double measured(Setup &s, int kind) {
    double start = seconds();
    uint64_t reply = multiply(s, kind);
    double taken = seconds() - start;
    s.wrong |= reply != 0 || !std::equal(s.product.begin(), s.product.end(), s.rooms[kind].begin());
    std::fill(s.rooms[kind].begin(), s.rooms[kind].end(), 0);
    return taken;
}

static void row(const char *what, const double *ms, int ours) {
    printf("%s, 2048 coefficients: ours %.2f ms, NTL %.2f ms, ratio %.2f, folded by hand %.2f ms, ratio %.2f\n", what, ms[ours],
           ms[with_rem], ms[with_rem] / ms[ours], ms[with_fold], ms[with_fold] / ms[ours]);
}

/* The row of two of ours; whether the second is as many times as fast as it has to be. */
static bool limited(const char *what, const double *ms, int slow, int fast, double limit) {
    double ratio = ms[slow] / ms[fast];
    printf("%s, 2048 coefficients: by transform %.2f ms, plain %.2f ms, ratio %.2f (limit %.1f, or more)\n", what, ms[fast], ms[slow],
           ratio, limit);
    if (ratio < limit) puts("the ratio is below its limit");
    return ratio >= limit;
}

int main() {
    NTL::zz_p::init((long)q);
    Setup s = setup();
    double ms[kinds];
    for (double &best : ms) best = 1e9;
    for (int round = 0; round < 40; round++)
        for (int kind = 0; kind < kinds; kind++) ms[kind] = least(ms[kind], 1e3 * measured(s, kind));
    row("ring product", ms, own);
    row("ring product by the plain method", ms, plain);
    row("ring product by transform", ms, transform);
    bool kept = ms[with_rem] / ms[own] >= product_limit;
    if (!kept) printf("the ring product has less than %.0f times the speed of NTL's\n", product_limit);
    kept &= limited("the two methods", ms, plain, transform, method_limit);
    kept &= limited("the two calls, jdn_multiply and jdn_product", ms, plain_call, transform_call, call_limit);
    if (s.wrong) puts("a call was refused, or the products differ");
    return s.wrong || !kept;
}
