/* Seeds from the operating system, and the numbers made from them. */
#include "random.h"

#include <errno.h>
#include <sodium.h>
#include <string.h>
#include <sys/random.h>

#include "bytes.h"
#include "jackdawnail.h"
#include "say.h"

/* A seed from the given one: its digest with purpose and number. */
static void derive(const uint8_t *seed, enum purpose purpose, uint32_t number, uint8_t *out) {
    uint8_t message[SEED + 8];
    memcpy(message, seed, SEED);
    write32(message + SEED, (uint32_t)purpose);
    write32(message + SEED + 4, number);
    jdn_digest(message, sizeof message, out, SEED);
}

enum status origin_seed(const struct origin *origin, enum purpose purpose, uint32_t number, uint8_t *out) {
    size_t done = 0;
    if (origin->given) {
        derive(origin->seed, purpose, number, out);
        return DONE;
    }
    while (done < SEED) {
        ssize_t part = getrandom(out + done, SEED - done, 0);
        if (part < 0 && errno == EINTR) continue;
        if (part < 0) {
            say("the operating system gives no random numbers: %s", strerror(errno));
            return TROUBLE;
        }
        done += (size_t)part;
    }
    return DONE;
}

enum status streams_ready(void) {
    if (sodium_init() >= 0) return DONE;
    say("libsodium, which the random numbers are made with, does not start");
    return TROUBLE;
}

void source_start(struct source *source, enum stream stream, const uint8_t *seed) {
    source->stream = stream;
    memcpy(source->seed, seed, SEED);
    source->blocks = 0;
    source->used = source->length = 0;
}

void source_end(struct source *source) {
    explicit_bzero(source, sizeof *source);
}

/* The next 32 bytes of the stream of SHA3-256. A digest into 32 bytes is never refused. */
static void next_digest(struct source *source) {
    uint8_t message[SEED + 8];
    memcpy(message, source->seed, SEED);
    write64(message + SEED, source->blocks);
    jdn_digest(message, sizeof message, source->part, DIGEST);
    explicit_bzero(message, sizeof message);
    source->blocks++;
    source->length = DIGEST;
}

/* The next part of the stream of ChaCha20: what it makes of zeros, from the block on that is due. */
#define CHACHA20_BLOCK 64
static void next_part(struct source *source) {
    static const uint8_t nonce[crypto_stream_chacha20_NONCEBYTES];
    _Static_assert(crypto_stream_chacha20_KEYBYTES == SEED, "the seed is the key");
    memset(source->part, 0, STREAM_PART);
    crypto_stream_chacha20_xor_ic(source->part, source->part, STREAM_PART, nonce, source->blocks, source->seed);
    source->blocks += STREAM_PART / CHACHA20_BLOCK;
    source->length = STREAM_PART;
}

uint64_t source_word(struct source *source) {
    if (source->used == source->length) {
        if (source->stream == SHA3_STREAM)
            next_digest(source);
        else
            next_part(source);
        source->used = 0;
    }
    uint64_t word = read64(source->part + source->used);
    source->used += 8;
    return word;
}

/* The stream of SHA3-256 goes by remainders: as many words as 2^64 leaves over are passed over. */
static uint64_t remainder_below(struct source *source, uint64_t bound) {
    uint64_t spare = (UINT64_MAX % bound + 1) % bound; /* 2^64 modulo the bound */
    uint64_t word = source_word(source);
    while (word > UINT64_MAX - spare) word = source_word(source);
    return word % bound;
}

/* The upper half of word times bound. Each number has the words of a stretch of about 2^64 / bound; in those stretches that have one word
 * more than others the first is passed over, whose lower half is below 2^64 modulo the bound (Lemire, Fast Random Integer Generation in
 * an Interval, 2019). */
bool word_below(uint64_t word, uint64_t bound, uint64_t *number) {
    unsigned __int128 product = (unsigned __int128)word * bound;
    uint64_t low = (uint64_t)product;
    *number = (uint64_t)(product >> 64);
    return low >= bound || low >= (UINT64_MAX % bound + 1) % bound;
}

uint64_t source_below(struct source *source, uint64_t bound) {
    uint64_t number = 0;
    if (source->stream == SHA3_STREAM) return remainder_below(source, bound);
    while (!word_below(source_word(source), bound, &number)) continue;
    return number;
}

void source_ternary(struct source *source, uint8_t *at, size_t count) {
    for (size_t i = 0; i < count; i++) at[i] = (uint8_t)source_below(source, 3);
}

void source_bytes(struct source *source, uint8_t *at, size_t count) {
    for (size_t i = 0; i < count; i++) at[i] = (uint8_t)source_below(source, 256);
}

void source_coefficients(struct source *source, uint8_t *at, size_t count, uint64_t modulus) {
    for (size_t i = 0; i < count; i++) write64(at + 8 * i, source_below(source, modulus));
}

void source_masks(struct source *source, uint8_t *at, size_t count, uint64_t bound) {
    /* below 2^64, a negative number is written as itself plus 2^64 */
    for (size_t i = 0; i < count; i++) write64(at + 8 * i, source_below(source, 2 * bound + 1) - bound);
}

void source_permutation(struct source *source, uint8_t *at, size_t count) {
    for (size_t i = 0; i < count; i++) write32(at + 4 * i, (uint32_t)i);
    for (size_t i = count; i > 1; i--) {
        size_t j = (size_t)source_below(source, i);
        uint32_t last = read32(at + 4 * (i - 1));
        write32(at + 4 * (i - 1), read32(at + 4 * j));
        write32(at + 4 * j, last);
    }
}
