/* The session of an election: its numbers, the fields of its image, its start. The state on disk is in state.c. */
#include "election.h"

#include <string.h>

#include "say.h"
#include "sheet.h"
#include "state.h"

#define MOST_SHEET 262144

/* Where the image has its fields (docs/INTERFACE.md). */
enum field {
    PHASE = 0,
    RING = 1,
    MODULUS = 9,
    ROUNDS = 25,
    REPEATS = 33,
    SHEET_DIGEST = 41,
    USED = 73,
    BALLOTS_CLOSED = 81,
    CLOSING_DIGEST = 89,
    CLAIM_DIGEST = 121,
    COMMITTED = 153,
    DRAWN_SEED = 161,
    CHECKED = 193,
    ROUND_DIGESTS = 201
};

/* Where an entry of the register has its fields. */
#define ENTRY 40
#define ENTRY_STATE 4
#define ENTRY_DIGEST 8
#define STANDING 1

static size_t count_at(const struct election *election, enum field field) {
    return (size_t)read64(election->image + field);
}

enum phase election_phase(const struct election *election) {
    return (enum phase)election->image[PHASE];
}

size_t election_used(const struct election *election) {
    return count_at(election, USED);
}

size_t election_closed(const struct election *election) {
    return count_at(election, BALLOTS_CLOSED);
}

size_t election_committed(const struct election *election) {
    return count_at(election, COMMITTED);
}

size_t election_checked(const struct election *election) {
    return count_at(election, CHECKED);
}

const uint8_t *election_sheet_digest(const struct election *election) {
    return election->image + SHEET_DIGEST;
}

const uint8_t *election_closing_digest(const struct election *election) {
    return election->image + CLOSING_DIGEST;
}

const uint8_t *election_claim_digest(const struct election *election) {
    return election->image + CLAIM_DIGEST;
}

const uint8_t *election_seed(const struct election *election) {
    return election->image + DRAWN_SEED;
}

const uint8_t *election_round_digest(const struct election *election, size_t round) {
    return election->image + ROUND_DIGESTS + 32 * round;
}

uint32_t entry_mark(const struct election *election, size_t entry) {
    return read32(election->reg + ENTRY * entry);
}

bool entry_stands(const struct election *election, size_t entry) {
    return election->reg[ENTRY * entry + ENTRY_STATE] == STANDING;
}

const uint8_t *entry_digest(const struct election *election, size_t entry) {
    return election->reg + ENTRY * entry + ENTRY_DIGEST;
}

bool entry_is_early(const struct election *election, size_t entry) {
    static const uint8_t none[DIGEST];
    return !entry_stands(election, entry) && !memcmp(entry_digest(election, entry), none, DIGEST);
}

size_t entry_find(const struct election *election, uint32_t mark) {
    size_t entry = 0, used = election_used(election);
    while (entry < used && entry_mark(election, entry) != mark) entry++;
    return entry;
}

bool has_entry(const struct election *election, uint32_t mark) {
    return entry_find(election, mark) < election_used(election);
}

size_t ballot_length(const struct numbers *numbers) {
    return 4 + 16 * numbers->ring;
}

size_t head_length(const struct numbers *numbers) {
    return 80 * numbers->ring + 96 * numbers->repeats;
}

size_t opening_length(const struct numbers *numbers) {
    return 22 * numbers->ring;
}

size_t answers_length(const struct numbers *numbers, const uint8_t *challenges) {
    size_t length = 0;
    for (size_t i = 0; i < numbers->repeats; i++) length += (challenges[i] == 1 ? 378 : 504) * numbers->ring + 64;
    return length;
}

enum status numbers_read(const struct bytes *sheet, uint8_t *image, uint8_t *reg, struct numbers *numbers) {
    uint8_t about[32]; /* N, D, B, L */
    uint64_t reply = jdn_sheet(LENT(*sheet), about, sizeof about);
    if (!reply) reply = jdn_clear(image, JDN_IMAGE, reg, JDN_REGISTER, LENT(*sheet));
    if (reply) {
        sheet_explain(sheet, JDN_NUMBER(reply), "sheet.txt: ");
        return say_refused(reply, "sheet.txt");
    }
    numbers->ring = (size_t)read64(image + RING);
    numbers->modulus = read64(image + MODULUS);
    numbers->rounds = (size_t)read64(image + ROUNDS);
    numbers->repeats = (size_t)read64(image + REPEATS);
    numbers->noise_bound = read64(about + 8);
    numbers->mask_bound = read64(about + 16);
    return DONE;
}

enum status election_start(struct election *election, const char *folder) {
    memset(election, 0, sizeof *election);
    enum status status = folder_open(&election->folder, folder);
    /* an empty sheet is for the library to refuse */
    if (!status) status = file_read(&election->folder, "sheet.txt", ANY_LENGTH, MOST_SHEET, &election->sheet);
    if (!status) status = bytes_make(&election->scratch, JDN_SCRATCH);
    if (!status) status = numbers_read(&election->sheet, election->image, election->reg, &election->numbers);
    /* the digest of no log yet */
    if (!status) jdn_digest(NULL, 0, election->log_digest, sizeof election->log_digest);
    return status;
}

/* Goes on from the state on disk, where there is one. */
static enum status load_state(struct election *election, bool *there) {
    enum status status = file_find(&election->folder, STATE, there);
    return status || !*there ? status : state_load(election);
}

enum status election_resume(struct election *election, const char *folder) {
    bool there = false;
    enum status status = election_start(election, folder);
    if (!status) status = folder_lock(&election->folder);
    election->stored = true;
    return status ? status : load_state(election, &there);
}

enum status election_look(struct election *election, const char *folder, bool *there) {
    enum status status = election_start(election, folder);
    return status ? status : load_state(election, there);
}

enum status election_save(const struct election *election) {
    return election->stored ? state_save(election) : DONE;
}

void election_end(struct election *election) {
    bytes_free(&election->sheet);
    bytes_free(&election->scratch);
    folder_close(&election->folder);
    explicit_bzero(election->seeds, sizeof election->seeds);
}
