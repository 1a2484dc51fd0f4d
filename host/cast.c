/* Ballots: encrypting a vote, and filing it. */
#include "cast.h"

#include <string.h>

#include "ballots.h"
#include "log.h"
#include "say.h"

/* The ciphertext of a message with fresh r, e', e'', behind the mark. */
static enum status encrypt(struct election *election, const struct bytes *message, const uint8_t *seed, struct bytes *ballot) {
    struct source source;
    struct bytes noise = {0}; /* r, e', e'' */
    size_t ring = election->numbers.ring;
    enum status status = bytes_make(&noise, 3 * ring);
    if (status) return status;
    source_start(&source, STREAM_OF_TODAY, seed);
    source_ternary(&source, LENT(noise));
    source_end(&source);
    uint64_t reply = jdn_encrypt(LENT(election->sheet), noise.at, ring, noise.at + ring, ring, noise.at + 2 * ring, ring, LENT(*message),
                                 ballot->at + 4, ballot->length - 4, LENT(election->scratch));
    bytes_free(&noise);
    return reply ? say_refused(reply, "making the ballot") : DONE;
}

enum status ballot_make(struct election *election, uint32_t mark, const struct bytes *message, const struct origin *origin,
                        struct bytes *ballot) {
    uint8_t seed[SEED];
    enum status status = bytes_make(ballot, ballot_length(&election->numbers));
    if (!status) status = origin_seed(origin, FOR_BALLOT, mark, seed);
    if (!status) {
        write32(ballot->at, mark);
        status = encrypt(election, message, seed, ballot);
    }
    explicit_bzero(seed, sizeof seed);
    return status;
}

enum status ballot_file(const struct election *election, const struct bytes *ballot) {
    char name[BALLOT_NAME_ROOM];
    uint32_t mark = read32(ballot->at);
    ballot_name(name, mark);
    enum status status = folder_add(&election->folder, BALLOT_FOLDER, FOR_ALL);
    if (!status) status = file_write_new(&election->folder, name, FOR_ALL, LENT(*ballot));
    return status ? status : log_add(&election->folder, "admit", mark);
}
