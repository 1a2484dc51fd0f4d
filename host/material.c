/* The key from its files, and the producer's material from a seed. */
#include "material.h"

#include <string.h>

#include "say.h"
#include "sheet.h"

enum status key_find(const struct election *election, bool *there) {
    return file_find(&election->folder, "key/s", there);
}

/* The refusal of a secret key that does not match the sheet (document 01). */
#define NO_MATCH 14

/* Whether the key gives the public key of the sheet: the line of b that is made from it stands in the sheet. */
static enum status key_fits(struct election *election, const struct key *key) {
    struct bytes b = {0};
    struct text line = {0};
    enum status status = bytes_make(&b, 8 * election->numbers.ring);
    uint64_t reply = status ? 0 : jdn_keygen(LENT(election->sheet), LENT(key->s), LENT(key->e), LENT(b), LENT(election->scratch));
    text_add(&line, "\n");
    if (!status && !reply) sheet_add_polynomial(&line, "b", b.at, election->numbers.ring);
    if (!status && line.failed) status = say_no_memory();
    if (!status && !reply && !memmem(LENT(election->sheet), line.at, line.length)) reply = NO_MATCH;
    bytes_free(&b);
    text_free(&line);
    return reply ? say_refused(reply, "%s/key", election->folder.name) : status;
}

enum status key_read(struct election *election, struct key *key) {
    size_t ring = election->numbers.ring;
    enum status status = file_read(&election->folder, "key/s", ring, ring, &key->s);
    if (!status) status = file_read(&election->folder, "key/e", ring, ring, &key->e);
    return status ? status : key_fits(election, key);
}

void key_free(struct key *key) {
    bytes_free(&key->s);
    bytes_free(&key->e);
}

size_t material_length(const struct numbers *numbers, size_t ballots) {
    return (30 + 16 * ballots + 504 * numbers->repeats) * numbers->ring + 96 * numbers->repeats;
}

/* Runs of the lengths that document 01 gives. */
static enum status material_room(struct material *material, const struct numbers *numbers, size_t ballots) {
    size_t ring = numbers->ring, repeats = numbers->repeats;
    enum status status = bytes_make(&material->secrets, 14 * ring);
    if (!status) status = bytes_make(&material->s0, 8 * ring);
    if (!status) status = bytes_make(&material->e0, 8 * ring);
    if (!status) status = bytes_make(&material->masks0, 8 * ring * ballots);
    if (!status) status = bytes_make(&material->masks1, 8 * ring * ballots);
    if (!status) status = bytes_make(&material->vectors, 336 * ring * repeats);
    if (!status) status = bytes_make(&material->permutations, 168 * ring * repeats);
    if (!status) status = bytes_make(&material->salts, 96 * repeats);
    return status;
}

/* The secrets are s, e and the twelve r; the halves s1 and e1 follow from s0 and e0. A permutation has
 * 3L = 42N entries, as a vector has. */
static void material_fill(struct material *material, const struct numbers *numbers, const struct key *key, struct source *source) {
    size_t ring = numbers->ring, entries = 42 * ring;
    memcpy(material->secrets.at, key->s.at, ring);
    memcpy(material->secrets.at + ring, key->e.at, ring);
    source_ternary(source, material->secrets.at + 2 * ring, 12 * ring);
    source_coefficients(source, material->s0.at, ring, numbers->modulus);
    source_coefficients(source, material->e0.at, ring, numbers->modulus);
    source_masks(source, material->masks0.at, material->masks0.length / 8, numbers->mask_bound);
    source_masks(source, material->masks1.at, material->masks1.length / 8, numbers->mask_bound);
    source_coefficients(source, material->vectors.at, material->vectors.length / 8, numbers->modulus);
    for (size_t i = 0; i < numbers->repeats; i++) source_permutation(source, material->permutations.at + 4 * entries * i, entries);
    source_bytes(source, LENT(material->salts));
}

enum status material_make(struct material *material, const struct numbers *numbers, const struct key *key, size_t ballots,
                          enum stream stream, const uint8_t *seed) {
    struct source source;
    enum status status = material_room(material, numbers, ballots);
    if (status) return status;
    source_start(&source, stream, seed);
    material_fill(material, numbers, key, &source);
    source_end(&source);
    return DONE;
}

void material_free(struct material *material) {
    bytes_free(&material->secrets);
    bytes_free(&material->s0);
    bytes_free(&material->e0);
    bytes_free(&material->masks0);
    bytes_free(&material->masks1);
    bytes_free(&material->vectors);
    bytes_free(&material->permutations);
    bytes_free(&material->salts);
}
