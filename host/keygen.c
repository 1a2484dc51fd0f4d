/* A key and its sheet. */
#include <stdio.h>
#include <string.h>

#include "assurance.h"
#include "commands.h"
#include "election.h"
#include "say.h"
#include "sheet.h"

/* Random s and e, and all polynomials of the sheet: b stays zero until the key is made. */
static enum status draw_key(const struct new_sheet *numbers, const struct origin *origin, struct bytes *key, struct bytes *polynomials) {
    struct source source;
    uint8_t seed[SEED];
    size_t ring = (size_t)numbers->ring;
    enum status status = bytes_make(key, 2 * ring);
    if (!status) status = bytes_make(polynomials, POLYNOMIALS * 8 * ring);
    if (!status) status = origin_seed(origin, FOR_KEY, 0, seed);
    if (status) return status;
    source_start(&source, STREAM_OF_TODAY, seed);
    source_ternary(&source, LENT(*key));
    status = origin_seed(origin, FOR_SHEET, 0, seed);
    source_start(&source, STREAM_OF_TODAY, seed);
    source_coefficients(&source, polynomials->at, ring, numbers->modulus);
    source_coefficients(&source, polynomials->at + 16 * ring, 3 * ring, numbers->modulus);
    source_end(&source);
    explicit_bzero(seed, sizeof seed);
    return status;
}

/* Works b out on a sheet that has none yet, and puts it among the polynomials. */
static enum status make_public_key(const struct new_sheet *numbers, const struct bytes *key, struct bytes *polynomials) {
    struct text text = {0};
    struct bytes scratch = {0}, b = {0};
    size_t ring = (size_t)numbers->ring;
    sheet_write(&text, numbers, polynomials->at);
    enum status status = text.failed ? say_no_memory() : bytes_make(&scratch, JDN_SCRATCH);
    if (!status) status = bytes_make(&b, 8 * ring);
    if (!status) {
        uint64_t reply = jdn_keygen((uint8_t *)text.at, text.length, key->at, ring, key->at + ring, ring, LENT(b), LENT(scratch));
        if (reply) sheet_explain(&(struct bytes){.at = (uint8_t *)text.at, .length = text.length}, JDN_NUMBER(reply), "--");
        if (reply) status = say_refused(reply, "the numbers for a new sheet");
    }
    if (!status) memcpy(polynomials->at + 8 * ring, b.at, b.length);
    bytes_free(&b);
    bytes_free(&scratch);
    text_free(&text);
    return status;
}

/* The key first: a sheet whose key is lost would be of no use. */
static enum status write_files(const struct folder *folder, const struct new_sheet *numbers, const struct bytes *key,
                               const struct bytes *polynomials) {
    size_t ring = (size_t)numbers->ring;
    struct text text = {0};
    sheet_write(&text, numbers, polynomials->at);
    enum status status = text.failed ? say_no_memory() : folder_add(folder, "key", FOR_OWNER);
    if (!status) status = file_write_new(folder, "key/s", FOR_OWNER, key->at, ring);
    if (!status) status = file_write_new(folder, "key/e", FOR_OWNER, key->at + ring, ring);
    if (!status) status = file_write_new(folder, "sheet.txt", FOR_ALL, text.at, text.length);
    text_free(&text);
    return status;
}

enum status keygen(const char *name, const struct new_sheet *numbers, const struct origin *origin) {
    struct new_sheet chosen = *numbers;
    struct folder folder = {.handle = -1};
    struct bytes key = {0}, polynomials = {0};
    if (!chosen.repeats) chosen.repeats = least_repeats(chosen.rounds);
    if (!sheet_numbers_fit(&chosen, "--")) return USAGE;
    enum status status = draw_key(&chosen, origin, &key, &polynomials);
    if (!status) status = make_public_key(&chosen, &key, &polynomials);
    if (!status) status = folder_make(&folder, name);
    if (!status) status = folder_lock(&folder);
    if (!status) status = write_files(&folder, &chosen, &key, &polynomials);
    if (!status) say_if_for_trying((size_t)chosen.ring, (size_t)chosen.rounds);
    bytes_free(&key);
    bytes_free(&polynomials);
    folder_close(&folder);
    return status;
}
