/* The folder of an election and the files in it. What is written replaces the old file in one go, so that a crash leaves the old one or
 * the new one. */
#ifndef FILES_H
#define FILES_H
#include <stdbool.h>

#include "bytes.h"
#include "status.h"

/* An open folder; the names of files are taken from it. */
struct folder {
    const char *name;
    int handle;
};

/* Who may read a file that is written. */
enum readers { FOR_ALL = 0644, FOR_OWNER = 0600 };

/* No limit from below. */
#define ANY_LENGTH 0

enum status folder_open(struct folder *folder, const char *name);
/* Makes the folder where it is missing, and opens it. */
enum status folder_make(struct folder *folder, const char *name);
/* Keeps other commands that write out of the folder for as long as it is open. Where another one is at work it is waited for, some
 * seconds. */
enum status folder_lock(const struct folder *folder);
void folder_close(struct folder *folder);
/* Makes a folder inside, where it is missing; `readers` as of files. */
enum status folder_add(const struct folder *folder, const char *name, enum readers readers);

/* Names of files, each of its own memory. */
struct names {
    char **at;
    size_t count, room;
};

/* Adds a copy of a name. */
enum status names_add(struct names *names, const char *name);
/* Puts them in the order of their bytes. */
void names_sort(struct names *names);
/* Whether a name is among them, which are sorted. */
bool names_have(const struct names *names, const char *name);
void names_free(struct names *names);
/* Adds the names of what stands in a folder inside, `.` for the folder itself, sorted. */
enum status folder_list(const struct folder *folder, const char *name, struct names *names);

/* Whether there is a file of this name; TROUBLE where that cannot be told. */
enum status file_find(const struct folder *folder, const char *name, bool *there);
/* Reads a whole file of `least` to `most` bytes. One of another length is REFUSED, as 1 of document 01. */
enum status file_read(const struct folder *folder, const char *name, size_t least, size_t most, struct bytes *out);
/* Writes a file whole, in the place of what was there: it is on disk, under its name, when this is done. */
enum status file_write(const struct folder *folder, const char *name, enum readers readers, const void *at, size_t length);
/* The same, but REFUSED where the file is there already. */
enum status file_write_new(const struct folder *folder, const char *name, enum readers readers, const void *at, size_t length);
/* Writes many files, in three steps: each is written beside its place; all of them are then put on disk at once; and each gets its name,
 * in the place of what was there. The names are on disk once that is done again. */
enum status file_stage(const struct folder *folder, const char *name, enum readers readers, const void *at, size_t length);
enum status folder_sync_all(const struct folder *folder);
enum status file_place(const struct folder *folder, const char *name);
/* Removes a file where it is there. */
enum status file_remove(const struct folder *folder, const char *name);

#endif
