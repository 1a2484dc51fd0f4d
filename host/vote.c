/* Voting for lists, and withdrawing. Both look at the state and at the whole log before they write, so that no line is added that would
 * block the election. */
#include <string.h>

#include "ballots.h"
#include "cast.h"
#include "commands.h"
#include "log.h"
#include "paper.h"
#include "say.h"

/* Nothing is admitted or withdrawn once the ballots are closed. */
static enum status still_open(const struct election *election) {
    if (election_phase(election) == GATHERING) return DONE;
    say("%s: the ballots are closed: no ballot is taken and none is withdrawn any more", election->folder.name);
    return REFUSED;
}

/* A one at the coefficient of each named list. */
static enum status fill_message(const struct election *election, const struct lists *lists, char *const *names, size_t count,
                                struct bytes *message) {
    enum status status = bytes_make(message, election->numbers.ring);
    for (size_t i = 0; i < count && !status; i++) {
        size_t place = lists_find(lists, names[i]);
        if (place < lists->count) {
            message->at[place] = 1;
        } else {
            say("%s/%s has no list with the name %s", election->folder.name, LISTS_FILE, names[i]);
            status = REFUSED;
        }
    }
    return status;
}

/* Whether the register that the whole log gives takes this ballot. */
static enum status would_admit(struct election *after, const struct bytes *ballot) {
    uint64_t reply = jdn_admit(after->image, JDN_IMAGE, after->reg, JDN_REGISTER, LENT(*ballot));
    return reply ? say_refused(reply, "a vote with the mark %u", (unsigned)read32(ballot->at)) : DONE;
}

/* A ballot with this mark is there, and no line of the log admits it: the vote before this one stopped between its two writes, or another
 * device left it. It is admitted as it is. It is not written over, since it may be the only copy of somebody's vote. */
static enum status complete(const struct election *election, struct election *after, uint32_t mark, struct bytes *ballot) {
    const struct ballots single = {0};
    enum status status = ballots_take(election, &single, mark, ballot);
    if (!status) status = would_admit(after, ballot);
    if (!status) status = log_add(&election->folder, "admit", mark);
    if (!status)
        say("a ballot with the mark %u was there and was in no line of the log. It is admitted as it was made then: no other one is made",
            (unsigned)mark);
    return status;
}

/* What a vote is made from. */
struct choice {
    uint32_t mark;
    char *const *names;
    size_t count;
    const struct origin *origin;
};

/* Makes the ballot; once all has been looked at, keeps the lists and files it. */
static enum status make(struct election *election, struct election *after, const struct choice *choice, struct bytes *ballot) {
    struct lists lists = {0};
    struct bytes message = {0};
    bool fresh = false;
    enum status status = lists_read(&election->folder, election->numbers.ring, &lists);
    if (!status) status = lists_keep(election, &lists, &fresh);
    if (!status) status = fill_message(election, &lists, choice->names, choice->count, &message);
    if (!status) status = ballot_make(election, choice->mark, &message, choice->origin, ballot);
    if (!status) status = would_admit(after, ballot);
    if (!status && fresh) status = election_save(election);
    if (!status) status = ballot_file(election, ballot);
    bytes_free(&message);
    lists_free(&lists);
    return status;
}

/* Where the ballots are single files. */
static enum status takes_single(const struct election *election) {
    bool whole = false;
    enum status status = file_find(&election->folder, "ballots.bin", &whole);
    if (status || !whole) return status;
    say("%s has its ballots in ballots.bin, and takes no single one", election->folder.name);
    return REFUSED;
}

/* What the voter keeps, to find the ballot again in what is published. */
static enum status print_ballot(const struct bytes *ballot) {
    struct text text = {0};
    uint8_t digest[DIGEST];
    jdn_digest(LENT(*ballot), digest, sizeof digest);
    text_add(&text, "Mark     %u\nBallot   ", (unsigned)read32(ballot->at));
    text_add_groups(&text, digest);
    text_add(&text, "\n");
    return text_print(&text);
}

enum status vote(const char *folder, uint32_t mark, char *const *names, size_t count, const struct origin *origin) {
    struct election election, after = {0};
    struct bytes ballot = {0};
    const struct choice choice = {.mark = mark, .names = names, .count = count, .origin = origin};
    char name[BALLOT_NAME_ROOM];
    bool there = false;
    ballot_name(name, mark);
    enum status status = election_resume(&election, folder);
    if (!status) status = still_open(&election);
    if (!status) status = takes_single(&election);
    if (!status) status = log_rehearse(&election, &after);
    if (!status) status = file_find(&election.folder, name, &there);
    if (!status && there && !has_entry(&after, mark))
        status = complete(&election, &after, mark, &ballot);
    else if (!status)
        status = make(&election, &after, &choice, &ballot);
    if (!status) status = print_ballot(&ballot);
    bytes_free(&ballot);
    explicit_bzero(&after, sizeof after);
    election_end(&election);
    return status;
}

/* Whether the register that the whole log gives takes this withdrawal. */
static enum status would_withdraw(struct election *after, uint32_t mark) {
    uint64_t reply = jdn_withdraw(after->image, JDN_IMAGE, after->reg, JDN_REGISTER, mark);
    return reply ? say_refused(reply, "a withdrawal of the mark %u", (unsigned)mark) : DONE;
}

/* A withdrawal may be the first that comes to an election: its ballots have their folder from then on, as they have from a vote on. */
static enum status make_place(const struct folder *folder) {
    bool whole = false;
    enum status status = file_find(folder, "ballots.bin", &whole);
    return status || whole ? status : folder_add(folder, BALLOT_FOLDER, FOR_ALL);
}

/* A withdrawal that comes before its ballot is no fault; but a mark that was mistyped looks the same. */
static void say_early(const struct election *election, uint32_t mark) {
    say("no ballot with the mark %u is admitted yet. The mark is withdrawn all the same: one that comes later will not be counted",
        (unsigned)mark);
    say("if that is the wrong mark, take the line `withdraw %u` out of %s/" LOG " before the log is gathered; it cannot be undone "
        "after that. `election status %s` lists such marks",
        (unsigned)mark, election->folder.name, election->folder.name);
}

enum status withdraw(const char *folder, uint32_t mark) {
    struct election election, after = {0};
    enum status status = election_resume(&election, folder);
    if (!status) status = still_open(&election);
    if (!status) status = log_rehearse(&election, &after);
    bool early = !status && !has_entry(&after, mark);
    if (!status) status = would_withdraw(&after, mark);
    if (!status && early) status = make_place(&election.folder);
    if (!status) status = log_add(&election.folder, "withdraw", mark);
    if (!status && early) say_early(&election, mark);
    explicit_bzero(&after, sizeof after);
    election_end(&election);
    return status;
}
