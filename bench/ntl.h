/* The product of polynomials modulo X^2048 + 1 and a prime near 2^55 over NTL: what ours is measured beside. Polynomials are 64-bit words;
 * NTL multiplies, and reduces either by its own `rem` or folded, the upper half subtracted from the lower by hand, which is faster. */
#ifndef BENCH_NTL_H
#define BENCH_NTL_H
#include <NTL/lzz_pX.h>

#include <cstddef>
#include <cstdint>
#include <vector>

namespace theirs {

typedef std::vector<uint64_t> Words;

static const size_t n = 2048;
static const uint64_t q = 36028797018820609; /* a prime below 2^55 with 4096 dividing q - 1 */
static bool folded = false;

static uint64_t subtract(uint64_t x, uint64_t y) { return x < y ? x + q - y : x - y; }

static NTL::zz_pX loaded(const Words &x) {
    NTL::zz_pX f;
    f.rep.SetLength((long)n);
    for (size_t i = 0; i < n; i++) f.rep[(long)i].LoopHole() = (long)x[i];
    f.normalize();
    return f;
}

static Words times(const Words &x, const Words &y) {
    static const NTL::zz_pX modulus = NTL::zz_pX(NTL::INIT_MONO, (long)n) + 1;
    NTL::zz_pX product = loaded(x) * loaded(y);
    Words z(n, 0);
    if (!folded) NTL::rem(product, product, modulus);
    for (long i = 0; i <= NTL::deg(product); i++) {
        uint64_t c = (uint64_t)NTL::rep(product.rep[i]);
        z[(size_t)i % n] = i < (long)n ? c : subtract(z[(size_t)i % n], c);
    }
    return z;
}

} // namespace theirs
#endif
