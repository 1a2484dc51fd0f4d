/* Reading lists.txt and enrolled.txt. */
#include "lists.h"

#include <stdio.h>
#include <stdlib.h>
#include <string.h>

#include "jackdawnail.h"
#include "letters.h"
#include "say.h"

/* 2,048 names of 128 bytes. */
#define MOST_NAMES 262144
#define MOST_DIGITS 10

size_t lists_find(const struct lists *lists, const char *name) {
    size_t i = 0;
    while (i < lists->count && strcmp(lists->names[i], name)) i++;
    return i;
}

/* What a name of the file looks like. */
static char *looks_of(const struct lists *lists, const char *name) {
    return (char *)lists->looks.at + (name - (const char *)lists->file.at);
}

/* The place of a name that looks like this one, or the count. */
static size_t find_alike(const struct lists *lists, const char *name) {
    size_t i = 0;
    while (i < lists->count && strcmp(looks_of(lists, lists->names[i]), looks_of(lists, name))) i++;
    return i;
}

/* Whether the line from `at` to `end`, where its line feed stands, is a name for the next list. The line feed gives way to a zero. */
static bool line_names(const struct lists *lists, uint8_t *at, uint8_t *end, size_t most, char *fault) {
    if (!end) {
        snprintf(fault, FAULT_ROOM, "has no line end");
        return false;
    }
    *end = 0;
    if (!name_reads(at, (size_t)(end - at), fault)) return false;
    name_looks((char *)at, looks_of(lists, (char *)at));
    size_t alike = find_alike(lists, (char *)at);
    if (alike < lists->count)
        snprintf(fault, FAULT_ROOM, "looks like line %zu", alike + 1);
    else if (lists->count == most)
        snprintf(fault, FAULT_ROOM, "is one more than the ring has coefficients (%zu)", most);
    return alike == lists->count && lists->count < most;
}

/* Adds the line that begins at `at`; answers where the next one begins, or NULL where this one is wrong. */
static uint8_t *add_line(const struct folder *folder, struct lists *lists, uint8_t *at, size_t most) {
    char fault[FAULT_ROOM];
    uint8_t *end = memchr(at, '\n', (size_t)(lists->file.at + lists->file.length - at));
    if (!line_names(lists, at, end, most, fault)) {
        say("%s/%s, line %zu %s", folder->name, LISTS_FILE, lists->count + 1, fault);
        return NULL;
    }
    lists->names[lists->count++] = (char *)at;
    return end + 1;
}

enum status lists_read(const struct folder *folder, size_t most, struct lists *lists) {
    enum status status = file_read(folder, LISTS_FILE, 2, MOST_NAMES, &lists->file);
    if (!status) status = bytes_make(&lists->looks, lists->file.length);
    if (status) return status;
    jdn_digest(LENT(lists->file), lists->digest, sizeof lists->digest);
    lists->count = 0;
    lists->names = calloc(most, sizeof *lists->names);
    if (!lists->names) return say_no_memory();
    uint8_t *at = lists->file.at, *end = at + lists->file.length;
    while (at && at < end) at = add_line(folder, lists, at, most);
    return at ? DONE : REFUSED;
}

void lists_free(struct lists *lists) {
    free(lists->names);
    bytes_free(&lists->file);
    bytes_free(&lists->looks);
    *lists = (struct lists){0};
}

enum status enrolment_read(const struct folder *folder, struct enrolment *enrolment) {
    struct bytes file = {0};
    enum status status = file_read(folder, ENROLLED_FILE, 1, MOST_DIGITS + 1, &file);
    if (status) return status;
    bool ended = file.at[file.length - 1] == '\n';
    if (!ended) say("%s/%s, line 1 has no line end", folder->name, ENROLLED_FILE);
    if (ended && !read_decimal((char *)file.at, file.length - 1, UINT64_MAX, &enrolment->number)) {
        say("%s/%s is not one decimal number on a line, of digits alone", folder->name, ENROLLED_FILE);
        ended = false;
    }
    jdn_digest(LENT(file), enrolment->digest, sizeof enrolment->digest);
    bytes_free(&file);
    return ended ? DONE : REFUSED;
}
