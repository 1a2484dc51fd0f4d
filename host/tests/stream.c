/* The numbers of random.c: the stream beside the published vectors of ChaCha20 (RFC 8439, appendix A.1, those with a nonce of zeros), its
 * parts end to end, and that the numbers below a bound are exactly even. The last line is 'N passed, M failed'. */
#include <sodium.h>
#include <stdio.h>
#include <stdlib.h>
#include <string.h>

#include "../bytes.h"
#include "../random.h"

static unsigned passed, failed;

static void tally(bool good, const char *what, uint64_t which) {
    passed += good;
    failed += !good;
    if (!good) printf("FAILED: %s %llu\n", what, (unsigned long long)which);
}

/* A block of the stream of a key, in hexadecimal digits as they are published. */
struct vector {
    uint8_t key[SEED];
    size_t block;
    const char *stream;
};

static const struct vector vectors[] = {
    {{0},
     0,
     "76b8e0ada0f13d90405d6ae55386bd28bdd219b8a08ded1aa836efcc8b770dc7"
     "da41597c5157488d7724e03fb8d84a376a43b8f41518a11cc387b669b2ee6586"},
    {{0},
     1,
     "9f07e7be5551387a98ba977c732d080dcb0f29a048e3656912c6533e32ee7aed"
     "29b721769ce64e43d57133b074d839d531ed1f28510afb45ace10a1f4b794d6f"},
    {{[31] = 1},
     1,
     "3aeb5224ecf849929b9d828db1ced4dd832025e8018b8160b82284f3c949aa5a"
     "8eca00bbb4a73bdad192b5c42f73f2fd4e273644c8b36125a64addeb006c13a0"},
    {{[1] = 0xff},
     2,
     "72d54dfbf12ec44b362692df94137f328fea8da73990265ec1bbbea1ae9af0ca"
     "13b25aa26cb4a648cb9b9d1be65b2c0924a66c54d545ec1b7374f4872e99f096"},
};

static void published(void) {
    for (size_t i = 0; i < sizeof vectors / sizeof *vectors; i++) {
        struct source source;
        struct text text = {0};
        uint8_t block[64];
        source_start(&source, CHACHA20_STREAM, vectors[i].key);
        for (size_t word = 0; word < 8 * vectors[i].block; word++) source_word(&source);
        for (size_t word = 0; word < 8; word++) write64(block + 8 * word, source_word(&source));
        text_add_hex(&text, block, sizeof block);
        tally(!strcmp(text.at, vectors[i].stream), "vector", i);
        text_free(&text);
        source_end(&source);
    }
}

/* Part after part is the stream as libsodium makes it in one go. */
static void end_to_end(void) {
    static uint8_t whole[3 * STREAM_PART + 8];
    static const uint8_t seed[SEED] = {1, 2, 3}, nonce[crypto_stream_chacha20_NONCEBYTES];
    struct source source;
    bool same = true;
    crypto_stream_chacha20(whole, sizeof whole, nonce, seed);
    source_start(&source, CHACHA20_STREAM, seed);
    for (size_t i = 0; i < sizeof whole; i += 8) same = same && read64(whole + i) == source_word(&source);
    tally(same, "parts end to end", 0);
    source_end(&source);
}

/* The first word whose upper half of the product with the bound is `number`: number 2^64 / bound, rounded up. */
static uint64_t first_word(uint64_t number, uint64_t bound) {
    unsigned __int128 least = (unsigned __int128)number << 64;
    return (uint64_t)((least + bound - 1) / bound);
}

/* Each number has a stretch of words, one behind the other, of which none but the first is ever passed over: the lower half of the product
 * grows by the bound from each word to the next. So many words are left of each stretch. */
static bool even(uint64_t bound, uint64_t number) {
    uint64_t first = first_word(number, bound), last = number + 1 == bound ? UINT64_MAX : first_word(number + 1, bound) - 1;
    uint64_t got = 0, whole = (uint64_t)(((unsigned __int128)1 << 64) / bound);
    bool taken = word_below(first, bound, &got);
    bool good = got == number && word_below(first + 1, bound, &got) && got == number && word_below(last, bound, &got) && got == number;
    return good && last - first + taken == whole;
}

static void evenly(void) {
    static const uint64_t large[] = {3, 36028797018820609, (UINT64_C(1) << 55) - 1, UINT64_C(1) << 55, UINT64_C(3) << 40, 86016};
    bool small = true;
    for (uint64_t bound = 2; bound <= 300; bound++)
        for (uint64_t number = 0; number < bound; number++) small = small && even(bound, number);
    tally(small, "evenly below every bound up to", 300);
    for (size_t i = 0; i < sizeof large / sizeof *large; i++) {
        bool good = even(large[i], 0) && even(large[i], large[i] - 1);
        for (uint64_t number = 1; number < 1000; number++) good = good && even(large[i], large[i] / 1000 * number % large[i]);
        tally(good, "evenly below", large[i]);
    }
}

/* Every entry once. */
static void permutations(void) {
    static const uint8_t seed[SEED] = {7};
    static uint8_t at[4 * 1000];
    struct source source;
    bool seen[1000] = {false}, moved = false;
    source_start(&source, CHACHA20_STREAM, seed);
    source_permutation(&source, at, 1000);
    for (size_t i = 0; i < 1000; i++) {
        uint32_t entry = read32(at + 4 * i);
        if (entry < 1000) seen[entry] = true;
        moved = moved || entry != i;
    }
    bool all = moved;
    for (size_t i = 0; i < 1000; i++) all = all && seen[i];
    tally(all, "a permutation", 1000);
    source_end(&source);
}

int main(void) {
    tally(!streams_ready(), "libsodium starts", 0);
    published();
    end_to_end();
    evenly();
    permutations();
    printf("%u passed, %u failed\n", passed, failed);
    return failed ? 1 : 0;
}
