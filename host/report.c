/* Where an election stands, and what is to be done next. */
#include <string.h>

#include "account.h"
#include "commands.h"
#include "election.h"
#include "log.h"
#include "material.h"
#include "paper.h"
#include "result.h"
#include "rounds.h"
#include "say.h"

/* Where an election stands, seen by a person who wants to go on with it. */
enum stand {
    OPEN,            /* ballots are taken */
    COMMITTING,      /* the ballots are closed, and not every first message is made */
    AWAITING_SEED,   /* the first messages are made, and no seed is drawn */
    ANSWERING,       /* drawn, and not every round is answered */
    REFUSED_AT_LAST, /* a round was refused */
    ACCEPTED,        /* accepted, and the result is not written */
    FINISHED,        /* the result is there */
    PUBLISHED        /* no session is stored and no key is there, but claims are */
};

static const struct {
    const char *phase, *next;
} words[] = {
    [OPEN] = {"gathering ballots", "take votes and withdrawals; when the poll ends, `election commit FOLDER`"},
    [COMMITTING] = {"the ballots are closed", "`election commit FOLDER` makes the first messages that are left"},
    [AWAITING_SEED] =
        {"committed",
         "publish the commitment, which `election commit FOLDER` prints; draw the seed in public; `election run FOLDER --seed SEED`"},
    [ANSWERING] = {"drawn", "`election run FOLDER` answers and checks the rounds that are left"},
    [REFUSED_AT_LAST] = {"ended, refused", "a round was refused: nothing of this count may be published as a result (docs/ELECTIONS.md)"},
    [ACCEPTED] = {"ended, accepted", "`election run FOLDER` checks all rounds again and writes the result"},
    [FINISHED] = {"ended, accepted", "`election publish FOLDER OUT`, and have OUT checked on another machine: `election check OUT`"},
    [PUBLISHED] = {"a published election", "`election check FOLDER` checks it, when all of it is there"},
};

/* Whether lists, enrolment and log are such that the election can go on; says what is wrong. `after` is the session with the whole log
 * taken, and this its account: without the lists where the log is not as it should be. */
static bool is_ready(const struct election *election, struct election *after, struct account *account) {
    struct paper paper = {0};
    bool fresh = false;
    bool ready = !log_rehearse(election, after);
    if (ready)
        ready = !account_make(after, account);
    else
        account_count(after, account);
    ready = ready && !paper_read(election, &paper) && !lists_keep(after, &paper.lists, &fresh);
    if (ready && election_phase(election) != GATHERING) ready = !enrolment_keep(after, &paper.enrolment, &fresh);
    paper_free(&paper);
    return ready;
}

/* What else there is beside the session. */
struct found {
    bool stored, key, claims, result;
};

static enum stand stand_of(const struct election *election, const struct found *found) {
    switch (election_phase(election)) {
    case GATHERING: return !found->stored && !found->key && found->claims ? PUBLISHED : OPEN;
    case CLOSED: return COMMITTING;
    case CLAIMED: return election_committed(election) < election->numbers.rounds ? COMMITTING : AWAITING_SEED;
    case DRAWN: return ANSWERING;
    case ENDED_ACCEPTED: return found->result ? FINISHED : ACCEPTED;
    default: return REFUSED_AT_LAST;
    }
}

/* `waiting`: lines of the log that are not gathered yet. */
static enum status print(const struct election *election, const struct account *account, uint64_t waiting, enum stand stand, bool ready) {
    struct text text = {0};
    size_t rounds = election->numbers.rounds;
    text_add(&text, "Phase               %s\n", words[stand].phase);
    if (stand != PUBLISHED) {
        text_add_account(&text, account);
        if (waiting) text_add(&text, "Lines of the log    %llu more than were gathered\n", (unsigned long long)waiting);
        text_add(&text, "Rounds committed    %zu of %zu\n", election_committed(election), rounds);
        text_add(&text, "Rounds checked      %zu of %zu\n", election_checked(election), rounds);
    }
    text_add(&text, "Next                %s%s\n", ready ? "" : "put right what is said above; then ", words[stand].next);
    return text_print(&text);
}

enum status report(const char *folder) {
    struct election election, after = {0};
    struct account account = {0};
    struct found found = {0};
    enum status status = election_look(&election, folder, &found.stored);
    if (!status) status = key_find(&election, &found.key);
    if (!status) status = file_find(&election.folder, CLAIMS_FILE, &found.claims);
    if (!status) status = file_find(&election.folder, RESULT_TEXT, &found.result);
    if (!status) {
        enum stand stand = stand_of(&election, &found);
        after = election;
        bool ready = stand == PUBLISHED || is_ready(&election, &after, &account);
        status = print(&election, &account, after.log_lines - election.log_lines, stand, ready);
    }
    explicit_bzero(&after, sizeof after);
    election_end(&election);
    return status;
}
