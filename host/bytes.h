/* Runs of bytes, texts that grow, and numbers as the layouts write them: little-endian (document 01, "Layouts"). */
#ifndef BYTES_H
#define BYTES_H
#include <endian.h>
#include <stdbool.h>
#include <stddef.h>
#include <stdint.h>
#include <string.h>

#include "status.h"

/* The length of a digest, SHA3-256. */
#define DIGEST 32

/* A run of bytes that its holder frees. All zero: none. */
struct bytes {
    uint8_t *at;
    size_t length;
};

/* A run as a call of the library is lent it: the pointer and the length. */
#define LENT(run) (run).at, (run).length

/* A run of zeros. */
enum status bytes_make(struct bytes *run, size_t length);
/* Frees a run, zeroed first, since it may have held a secret. It is then none. */
void bytes_free(struct bytes *run);

/* A text that grows as it is written. Where memory fails it is marked so, and stays as it was. */
struct text {
    char *at;
    size_t length, room;
    bool failed;
};

void text_add(struct text *text, const char *form, ...) __attribute__((format(printf, 2, 3)));
/* Bytes as hexadecimal digits. */
void text_add_hex(struct text *text, const uint8_t *at, size_t length);
/* A digest, or a seed, as 16 groups of 4 hexadecimal digits with hyphens between: one word to a shell, and fit for being read aloud. */
void text_add_groups(struct text *text, const uint8_t *digest);
/* Shows the text on standard output, and frees it. */
enum status text_print(struct text *text);
void text_free(struct text *text);

/* A round has millions of these numbers, so that they are read and written in line. */
static inline uint32_t read32(const uint8_t *at) {
    uint32_t value;
    memcpy(&value, at, sizeof value);
    return le32toh(value);
}

static inline uint64_t read64(const uint8_t *at) {
    uint64_t value;
    memcpy(&value, at, sizeof value);
    return le64toh(value);
}

static inline void write32(uint8_t *at, uint32_t value) {
    value = htole32(value);
    memcpy(at, &value, sizeof value);
}

static inline void write64(uint8_t *at, uint64_t value) {
    value = htole64(value);
    memcpy(at, &value, sizeof value);
}

/* Reads a digest: 64 hexadecimal digits of either case, with or without blanks, hyphens and colons between. False, and no digest, where it
 * is none. */
bool read_digest(const char *text, uint8_t *digest);

/* Reads a decimal of digits alone with no leading zero, at most `most`. False, and no value, where it is none. */
bool read_decimal(const char *at, size_t length, uint64_t most, uint64_t *value);

#endif
