/* An election in a folder: what every command that follows a session shares.
 *
 * The folder, with the names that the host reads and writes:
 *   sheet.txt                the parameter sheet
 *   lists.txt                the names of the lists, one a line: coefficient i of a vote is a mark for line i
 *   enrolled.txt             how many are enrolled
 *   ballots/MARK.ballot      a ballot: mark, u, v; or ballots.bin, all ballots end to end
 *   log.txt                  `admit MARK` and `withdraw MARK`, a line each, in order
 *   claims.bin               the claimed votes of the batch
 *   rounds/ROUND/            head.bin, shares0.bin, shares1.bin: the first message; opening.bin, answers.bin: the second
 *   seed.bin                 the seed of the draw, 32 bytes
 *   result.txt, result.html  the result
 * and two that are never given away:
 *   key/s, key/e             the secret key
 *   state.bin                the session where it stands, and the seeds of rounds that are not answered yet. An old one is never put back
 */
#ifndef ELECTION_H
#define ELECTION_H
#include <stdbool.h>

#include "bytes.h"
#include "files.h"
#include "jackdawnail.h"
#include "random.h"
#include "status.h"

/* The numbers of a sheet, and its bounds D and B. */
struct numbers {
    size_t ring, rounds, repeats;
    uint64_t modulus, noise_bound, mask_bound;
};

#define SEED_FILE "seed.bin"
#define MOST_BALLOTS 4096
#define MOST_ROUNDS 128
#define MOST_REPEATS 256

enum phase { GATHERING, CLOSED, CLAIMED, DRAWN, ENDED_REFUSED, ENDED_ACCEPTED };

struct election {
    struct folder folder;
    bool stored; /* whether the state is stored on disk */
    struct bytes sheet, scratch;
    struct numbers numbers;
    uint8_t image[JDN_IMAGE];
    uint8_t reg[JDN_REGISTER];
    /* how far the log is taken, and SHA3-256 of that */
    uint64_t log_length, log_lines;
    uint8_t log_digest[32];
    /* the seed of each round that the producer has to answer yet, and the stream that it is for (random.h) */
    uint8_t seeds[MOST_ROUNDS * SEED], streams[MOST_ROUNDS];
    /* SHA3-256 of lists.txt and of enrolled.txt, from when they are kept on; zeros before */
    uint8_t lists_kept[DIGEST], enrolment_kept[DIGEST];
    /* entries of the register, from the first on, whose noise was looked at */
    uint64_t examined;
};

/* Opens the folder, reads the sheet and clears a session on it. */
enum status election_start(struct election *election, const char *folder);
/* The same for a command that writes: locks the folder and goes on from the state on disk, where there is one. */
enum status election_resume(struct election *election, const char *folder);
/* Goes on from the state on disk where there is one, and locks nothing, for a command that only reads. `there`: whether there is one. */
enum status election_look(struct election *election, const char *folder, bool *there);
/* Has the state on disk, where it is stored. A step is taken for good once this is done. */
enum status election_save(const struct election *election);
void election_end(struct election *election);

/* Fields of the image (docs/INTERFACE.md). */
enum phase election_phase(const struct election *election);
size_t election_used(const struct election *election);
size_t election_closed(const struct election *election);
size_t election_committed(const struct election *election);
size_t election_checked(const struct election *election);
const uint8_t *election_sheet_digest(const struct election *election);
const uint8_t *election_closing_digest(const struct election *election);
const uint8_t *election_claim_digest(const struct election *election);
const uint8_t *election_seed(const struct election *election);
const uint8_t *election_round_digest(const struct election *election, size_t round);

/* The entries of the register, in the order in which they were made (docs/INTERFACE.md). */
uint32_t entry_mark(const struct election *election, size_t entry);
bool entry_stands(const struct election *election, size_t entry);
/* Whether a withdrawal made it, before any ballot came: it is withdrawn, and has zeros where the digest of a ballot would be. */
bool entry_is_early(const struct election *election, size_t entry);
/* SHA3-256 of the ballot. */
const uint8_t *entry_digest(const struct election *election, size_t entry);
/* The first entry of a mark, which decides; the number used where there is none. */
size_t entry_find(const struct election *election, uint32_t mark);
bool has_entry(const struct election *election, uint32_t mark);

/* Lengths of what is lent (document 01, "Layouts"). */
size_t ballot_length(const struct numbers *numbers);
size_t head_length(const struct numbers *numbers);
size_t opening_length(const struct numbers *numbers);
/* One challenge a repetition. */
size_t answers_length(const struct numbers *numbers, const uint8_t *challenges);

/* The numbers of a sheet; REFUSED where the library refuses it. `image` and `reg` are cleared on it. */
enum status numbers_read(const struct bytes *sheet, uint8_t *image, uint8_t *reg, struct numbers *numbers);

#endif
