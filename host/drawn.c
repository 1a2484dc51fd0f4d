/* Where the seed comes from. */
#include "drawn.h"

#include <string.h>

#include "rounds.h"
#include "say.h"

enum status seed_may_be_named(const struct election *election, const struct draw *draw) {
    if (!draw->seed.given) return DONE;
    if (election_phase(election) < CLAIMED || election_committed(election) < election->numbers.rounds) {
        say("--seed: the first messages are not all made, and a seed that is known before shows nothing. First `election commit %s`; "
            "publish the commitment "
            "that it prints; then draw the seed",
            election->folder.name);
        return REFUSED;
    }
    if (election_phase(election) == CLAIMED || !memcmp(draw->seed.digest, election_seed(election), SEED)) return DONE;
    say("--seed: %s was drawn with another seed. A second draw on the same first messages would give the key away", election->folder.name);
    return REFUSED;
}

/* Two answers to one first message give the key away. A session that is drawn once answers once; but an old state.bin that is put back
 * could be drawn anew. So nothing is drawn where second messages are there already. */
static enum status not_answered(const struct election *election) {
    for (size_t round = 0; round < election->numbers.rounds; round++) {
        bool answered = false;
        enum status status = round_answered(election, round, &answered);
        if (status) return status;
        if (!answered) continue;
        say("%s: round %zu was answered before it is drawn. An old state.bin is never put back: that can give the key away. "
            "To start anew, remove state.bin and seed.bin",
            election->folder.name, round);
        return REFUSED;
    }
    return DONE;
}

/* Writes seed.bin where it is not there. */
static enum status find_seed(const struct election *election, const struct draw *draw, const struct origin *origin) {
    uint8_t fresh[SEED];
    bool there = false;
    enum status status = file_find(&election->folder, SEED_FILE, &there);
    if (status || there) return status;
    if (draw->seed.given) return file_write(&election->folder, SEED_FILE, FOR_ALL, draw->seed.digest, SEED);
    if (!draw->here && !origin->given) {
        say("the seed is not drawn yet. Publish the commitment (`election commit %s` prints it), draw the seed in public, and run again "
            "with --seed SEED. "
            "To try things, --draw-here has this machine draw it",
            election->folder.name);
        return TROUBLE;
    }
    say("this machine draws the seed: that is no public draw, and convinces nobody who does not trust this machine");
    status = origin_seed(origin, FOR_DRAW, 0, fresh);
    return status ? status : file_write(&election->folder, SEED_FILE, FOR_ALL, fresh, sizeof fresh);
}

enum status draw_seed(struct election *election, const struct draw *draw, const struct origin *origin) {
    struct bytes seed = {0};
    enum status status = not_answered(election);
    if (!status) status = find_seed(election, draw, origin);
    if (!status) status = file_read(&election->folder, SEED_FILE, SEED, SEED, &seed);
    if (!status && draw->seed.given && memcmp(seed.at, draw->seed.digest, SEED)) {
        say("--seed: %s/" SEED_FILE " holds another seed", election->folder.name);
        status = REFUSED;
    }
    if (!status) {
        uint64_t reply = jdn_draw(election->image, JDN_IMAGE, LENT(seed));
        status = reply ? say_refused(reply, "drawing the challenges") : election_save(election);
    }
    bytes_free(&seed);
    return status;
}
