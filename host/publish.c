/* Publishing: a copy of what a member may have, file by file, and of nothing else. Each file is whole when it gets its name, and a
 * publication that was cut short is completed by the next one. */
#include <stdint.h>
#include <stdio.h>
#include <string.h>

#include "ballots.h"
#include "commands.h"
#include "election.h"
#include "lists.h"
#include "log.h"
#include "result.h"
#include "rounds.h"
#include "say.h"
#include "state.h"

#define PATH_ROOM 300

/* What may be published of a session: how many rounds of each message, and which of the other files. */
struct extent {
    bool claimed, drawn, ended;
    size_t committed, checked;
};

/* A session that is stored says how far it is, so that what an earlier count left is not given away as if it were this one's. Where none
 * is stored, what is there was published before. */
static struct extent extent_of(const struct election *election, bool stored) {
    enum phase phase = election_phase(election);
    size_t rounds = election->numbers.rounds;
    if (!stored) return (struct extent){true, true, true, rounds, rounds};
    return (struct extent){.claimed = phase >= CLAIMED,
                           .drawn = phase >= DRAWN,
                           .ended = phase == ENDED_ACCEPTED,
                           .committed = election_committed(election),
                           .checked = election_checked(election)};
}

/* Adds a name where there is a file of that name. */
static enum status add_there(const struct folder *folder, const char *name, struct names *names) {
    bool there = false;
    enum status status = file_find(folder, name, &there);
    return status || !there ? status : names_add(names, name);
}

static enum status add_single(const struct folder *folder, const struct extent *extent, struct names *names) {
    const struct {
        const char *name;
        bool due;
    } single[] = {{"sheet.txt", true},         {LISTS_FILE, true},
                  {ENROLLED_FILE, true},       {LOG, true},
                  {"ballots.bin", true},       {CLAIMS_FILE, extent->claimed},
                  {SEED_FILE, extent->drawn},  {RESULT_TEXT, extent->ended},
                  {RESULT_PAGE, extent->ended}};
    enum status status = DONE;
    for (size_t i = 0; i < sizeof single / sizeof *single && !status; i++)
        if (single[i].due) status = add_there(folder, single[i].name, names);
    return status;
}

static enum status add_ballots(const struct folder *folder, struct names *names) {
    struct names found = {0};
    bool there = false;
    uint32_t mark = 0;
    char path[PATH_ROOM];
    enum status status = file_find(folder, BALLOT_FOLDER, &there);
    if (!status && there) status = folder_list(folder, BALLOT_FOLDER, &found);
    for (size_t i = 0; i < found.count && !status; i++) {
        if (!is_ballot_name(found.at[i], &mark)) continue;
        snprintf(path, sizeof path, BALLOT_FOLDER "/%s", found.at[i]);
        status = names_add(names, path);
    }
    names_free(&found);
    return status;
}

static enum status add_rounds(const struct folder *folder, const struct extent *extent, struct names *names) {
    char path[PATH_ROOM];
    enum status status = DONE;
    for (size_t i = 0; i < ROUND_PARTS * extent->committed && !status; i++) {
        size_t round = i / ROUND_PARTS;
        enum round_part part = (enum round_part)(i % ROUND_PARTS);
        if (part >= FIRST_PARTS && round >= extent->checked) continue;
        round_part_name(path, sizeof path, round, part);
        status = add_there(folder, path, names);
    }
    return status;
}

/* Whether some name lies inside this folder. */
static bool names_inside(const struct names *names, const char *path) {
    size_t length = strlen(path);
    for (size_t i = 0; i < names->count; i++)
        if (!strncmp(names->at[i], path, length) && names->at[i][length] == '/') return true;
    return false;
}

/* A file that is written is `NAME.new` until it is whole. */
static bool is_unfinished(const struct names *names, const char *path) {
    char whole[PATH_ROOM];
    size_t length = strlen(path);
    if (length < 4 || length >= sizeof whole || strcmp(path + length - 4, ".new")) return false;
    snprintf(whole, sizeof whole, "%.*s", (int)length - 4, path);
    return names_have(names, whole);
}

/* Whether a folder holds nothing that is not among the names; the names of what stands in folders inside have those before them. */
static enum status holds_only(const struct folder *out, const char *inside, const struct names *names) {
    struct names found = {0};
    char path[PATH_ROOM];
    enum status status = folder_list(out, inside[0] ? inside : ".", &found);
    for (size_t i = 0; i < found.count && !status; i++) {
        snprintf(path, sizeof path, "%s%s%s", inside, inside[0] ? "/" : "", found.at[i]);
        if (names_inside(names, path)) {
            status = holds_only(out, path, names);
        } else if (!names_have(names, path) && !is_unfinished(names, path)) {
            say("%s/%s is no part of this publication: name a folder that is empty or not there yet", out->name, path);
            status = REFUSED;
        }
    }
    names_free(&found);
    return status;
}

/* Makes the folders on the way to a file. */
static enum status make_folders(const struct folder *out, const char *path) {
    char part[PATH_ROOM];
    enum status status = DONE;
    for (const char *slash = strchr(path, '/'); slash && !status; slash = strchr(slash + 1, '/')) {
        snprintf(part, sizeof part, "%.*s", (int)(slash - path), path);
        status = folder_add(out, part, FOR_ALL);
    }
    return status;
}

/* Writes a copy of a file beside its place. */
static enum status stage(const struct folder *from, const struct folder *out, const char *path) {
    struct bytes file = {0};
    enum status status = file_read(from, path, ANY_LENGTH, SIZE_MAX, &file);
    if (!status) status = make_folders(out, path);
    if (!status) status = file_stage(out, path, FOR_ALL, LENT(file));
    bytes_free(&file);
    return status;
}

/* A disk is asked twice to have all of it, and not twice for each file of some thousands. */
static enum status copy_all(const struct folder *from, const struct folder *out, const struct names *names) {
    enum status status = DONE;
    for (size_t i = 0; i < names->count && !status; i++) {
        progress("Files", i + 1, names->count);
        status = stage(from, out, names->at[i]);
    }
    progress_end();
    if (!status) status = folder_sync_all(out);
    for (size_t i = 0; i < names->count && !status; i++) status = file_place(out, names->at[i]);
    return status ? status : folder_sync_all(out);
}

/* What is published, and what is not there yet. */
static enum status print_published(const struct folder *out, const struct names *names) {
    struct text text = {0};
    text_add(&text, "%zu files are published in %s.\n", names->count, out->name);
    if (!names_have(names, RESULT_TEXT)) text_add(&text, "There is no result among them yet: publish again when it is there.\n");
    return text_print(&text);
}

enum status publish(const char *folder, const char *out_name) {
    struct election election;
    struct folder out = {.handle = -1};
    struct names names = {0};
    bool stored = false;
    enum status status = election_resume(&election, folder);
    if (!status) status = file_find(&election.folder, STATE, &stored);
    struct extent extent = status ? (struct extent){0} : extent_of(&election, stored);
    if (!status) status = add_single(&election.folder, &extent, &names);
    if (!status) status = add_ballots(&election.folder, &names);
    if (!status) status = add_rounds(&election.folder, &extent, &names);
    names_sort(&names);
    if (!status) status = folder_make(&out, out_name);
    if (!status) status = holds_only(&out, "", &names);
    if (!status) status = copy_all(&election.folder, &out, &names);
    if (!status) status = print_published(&out, &names);
    names_free(&names);
    folder_close(&out);
    election_end(&election);
    return status;
}
