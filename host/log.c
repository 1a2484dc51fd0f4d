/* Reading and taking the log. */
#include "log.h"

#include <stdio.h>
#include <stdlib.h>
#include <string.h>

#include "say.h"

/* 4,096 admissions and withdrawals, and many more ballots that came after their withdrawal, are below this. */
#define MOST_LOG 1048576
/* How many lines are taken between two savings. A crash between them loses nothing: the lines are still in the log. */
#define LINES_TO_SAVE 64
/* The refusal of a ballot whose mark is withdrawn. */
#define MARK_WITHDRAWN 33

/* A line of the log. */
struct line {
    const char *fault; /* what is wrong with it; NULL where it reads */
    bool withdraws;
    uint32_t mark;
    size_t end; /* where the next line begins */
};

/* Whether a line begins with this word and a blank; if so its mark is read, or the line has a fault. */
static bool has_word(const char *at, size_t length, const char *word, struct line *line) {
    uint64_t number = 0;
    size_t skip = strlen(word);
    if (length < skip || memcmp(at, word, skip)) return false;
    if (!read_decimal(at + skip, length - skip, UINT32_MAX, &number))
        line->fault = "has a mark that is no whole number from 0 to 4294967295, in digits alone and with no zero before them";
    line->mark = (uint32_t)number;
    return true;
}

/* Reads the line that begins at a place of the log, before its end. */
static struct line line_read(const struct bytes *log, size_t place) {
    struct line line = {.end = log->length};
    const char *at = (const char *)log->at + place;
    const char *end = memchr(at, '\n', log->length - place);
    if (!end) {
        line.fault = "has no line end";
        return line;
    }
    line.end = (size_t)(end + 1 - (const char *)log->at);
    line.withdraws = has_word(at, (size_t)(end - at), "withdraw ", &line);
    if (!line.withdraws && !has_word(at, (size_t)(end - at), "admit ", &line)) line.fault = "is not `admit MARK` or `withdraw MARK`";
    return line;
}

/* A ballot that has the mark and is otherwise zeros: it is in range, and the register goes by the mark. */
static enum status blank_ballot(const struct election *election, uint32_t mark, struct bytes *ballot) {
    enum status status = bytes_make(ballot, ballot_length(&election->numbers));
    if (!status) write32(ballot->at, mark);
    return status;
}

/* What the lines of a log are gone through with. */
struct reading {
    const struct bytes *log;
    const struct ballots *ballots; /* with none, blank ones are admitted */
    struct marks *late;            /* where the marks of the ballots go that are passed over; NULL where nobody asks */
};

/* Takes a line that reads, or passes its ballot over. */
static enum status line_take(struct election *election, const struct reading *reading, const struct line *line) {
    unsigned long long number = (unsigned long long)election->log_lines + 1;
    struct bytes ballot = {0};
    uint64_t reply;
    if (line->withdraws) {
        reply = jdn_withdraw(election->image, JDN_IMAGE, election->reg, JDN_REGISTER, line->mark);
        return reply ? say_refused(reply, LOG ", line %llu, withdraw %u", number, (unsigned)line->mark) : DONE;
    }
    enum status status =
        reading->ballots ? ballots_take(election, reading->ballots, line->mark, &ballot) : blank_ballot(election, line->mark, &ballot);
    if (status) return status;
    reply = jdn_admit(election->image, JDN_IMAGE, election->reg, JDN_REGISTER, LENT(ballot));
    bytes_free(&ballot);
    bool late = JDN_NUMBER(reply) == MARK_WITHDRAWN;
    if (late && reading->late) marks_add(reading->late, line->mark);
    return reply && !late ? say_refused(reply, LOG ", line %llu, admit %u", number, (unsigned)line->mark) : DONE;
}

/* Whether the log still begins with what was taken of it. */
static enum status log_continues(const struct election *election, const struct bytes *log) {
    uint8_t digest[DIGEST];
    bool same = election->log_length <= log->length;
    if (same) {
        jdn_digest(log->at, (size_t)election->log_length, digest, sizeof digest);
        same = !memcmp(digest, election->log_digest, sizeof digest);
    }
    if (!same) {
        say("%s/" LOG " was changed in the lines that are taken already", election->folder.name);
        return REFUSED;
    }
    if (election_phase(election) != GATHERING && election->log_length < log->length) {
        say("%s/" LOG " has grown since the ballots were closed", election->folder.name);
        return REFUSED;
    }
    return DONE;
}

/* Goes past a line. */
static void line_pass(struct election *election, const struct line *line) {
    election->log_length = line->end;
    election->log_lines++;
}

/* Takes the next line of the log, which is not at its end. */
static enum status log_step(struct election *election, const struct reading *reading) {
    struct line line = line_read(reading->log, (size_t)election->log_length);
    if (line.fault) {
        say("%s/" LOG ", line %llu %s", election->folder.name, (unsigned long long)election->log_lines + 1, line.fault);
        return REFUSED;
    }
    enum status status = line_take(election, reading, &line);
    if (status) return status;
    line_pass(election, &line);
    progress("Log, bytes", (size_t)election->log_length, reading->log->length);
    return DONE;
}

/* Has what is taken of the log on disk. */
static enum status log_save(struct election *election, const struct bytes *log) {
    jdn_digest(log->at, (size_t)election->log_length, election->log_digest, sizeof election->log_digest);
    return election_save(election);
}

/* Goes past a line that was refused, in a session that is thrown away. A ballot that is no good has a blank one in its place, so that the
 * lines behind it are judged as they will be once it is put right. */
static void skip_line(struct election *election, const struct bytes *log) {
    struct bytes blank = {0};
    struct line line = line_read(log, (size_t)election->log_length);
    if (!line.fault && !line.withdraws && !blank_ballot(election, line.mark, &blank))
        jdn_admit(election->image, JDN_IMAGE, election->reg, JDN_REGISTER, LENT(blank));
    bytes_free(&blank);
    line_pass(election, &line);
}

/* Names every wrong line behind one that was refused. */
static void name_others(const struct election *election, const struct reading *reading) {
    struct election *other = malloc(sizeof *other);
    if (!other) return;
    *other = *election;
    skip_line(other, reading->log);
    while (other->log_length < reading->log->length)
        if (log_step(other, reading)) skip_line(other, reading->log);
    explicit_bzero(other, sizeof *other);
    free(other);
}

/* Takes what is left of the log; the lines before one that is refused are taken all the same, and saved. */
static enum status log_rest(struct election *election, const struct reading *reading) {
    enum status status = DONE, saved = DONE;
    uint64_t on_disk = election->log_lines;
    while (!status && !saved && election->log_length < reading->log->length) {
        status = log_step(election, reading);
        if (election->log_lines - on_disk < LINES_TO_SAVE) continue;
        saved = log_save(election, reading->log);
        on_disk = election->log_lines;
    }
    if (status) name_others(election, reading);
    progress_end();
    if (!saved && election->log_lines != on_disk) saved = log_save(election, reading->log);
    return status ? status : saved;
}

/* Reads the log, which still begins with what was taken of it. */
static enum status log_open(const struct election *election, struct bytes *log) {
    enum status status = file_read(&election->folder, LOG, ANY_LENGTH, MOST_LOG, log);
    return status ? status : log_continues(election, log);
}

enum status log_take(struct election *election, const struct ballots *ballots) {
    struct bytes log = {0};
    enum status status = log_open(election, &log);
    if (!status) status = log_rest(election, &(struct reading){.log = &log, .ballots = ballots});
    bytes_free(&log);
    return status;
}

enum status log_rehearse(const struct election *election, struct election *after) {
    bool there = false;
    enum status status = file_find(&election->folder, LOG, &there);
    *after = *election;
    after->stored = false;
    return status || !there ? status : log_take(after, NULL);
}

enum status log_late(const struct election *election, struct marks *late) {
    struct election again = {.folder = election->folder, .numbers = election->numbers};
    struct bytes log = {0};
    const struct reading reading = {.log = &log, .late = late};
    late->count = 0;
    if (!election->log_length) return DONE;
    enum status status = log_open(election, &log);
    uint64_t reply = jdn_clear(again.image, JDN_IMAGE, again.reg, JDN_REGISTER, LENT(election->sheet));
    if (!status && reply) status = say_refused(reply, "sheet.txt");
    while (!status && again.log_length < election->log_length) status = log_step(&again, &reading);
    progress_end();
    if (status) late->count = 0;
    bytes_free(&log);
    return status;
}

enum status log_add(const struct folder *folder, const char *word, uint32_t mark) {
    struct bytes log = {0}, longer = {0};
    char line[32];
    bool there = false;
    int length = snprintf(line, sizeof line, "%s %u\n", word, (unsigned)mark);
    enum status status = file_find(folder, LOG, &there);
    if (!status && there) status = file_read(folder, LOG, ANY_LENGTH, MOST_LOG - sizeof line, &log);
    if (!status) status = bytes_make(&longer, log.length + (size_t)length);
    if (!status) {
        if (log.length) memcpy(longer.at, log.at, log.length);
        memcpy(longer.at + log.length, line, (size_t)length);
        status = file_write(folder, LOG, FOR_ALL, LENT(longer));
    }
    bytes_free(&log);
    bytes_free(&longer);
    return status;
}
