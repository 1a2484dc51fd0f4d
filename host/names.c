/* Names of what stands in a folder. */
#include <dirent.h>
#include <errno.h>
#include <fcntl.h>
#include <stdlib.h>
#include <string.h>
#include <unistd.h>

#include "files.h"
#include "say.h"

enum status names_add(struct names *names, const char *name) {
    if (names->count == names->room) {
        size_t room = names->room ? 2 * names->room : 64;
        char **at = realloc(names->at, room * sizeof *at);
        if (!at) return say_no_memory();
        names->at = at;
        names->room = room;
    }
    names->at[names->count] = strdup(name);
    if (!names->at[names->count]) return say_no_memory();
    names->count++;
    return DONE;
}

static int in_order(const void *left, const void *right) {
    return strcmp(*(char *const *)left, *(char *const *)right);
}

void names_sort(struct names *names) {
    if (names->count) qsort(names->at, names->count, sizeof *names->at, in_order);
}

bool names_have(const struct names *names, const char *name) {
    return names->count && bsearch(&name, names->at, names->count, sizeof *names->at, in_order);
}

void names_free(struct names *names) {
    for (size_t i = 0; i < names->count; i++) free(names->at[i]);
    free(names->at);
    *names = (struct names){0};
}

/* Reads the stream to its end. `.` and `..` are no names of what stands there. */
static enum status read_names(DIR *stream, struct names *names) {
    enum status status = DONE;
    const struct dirent *next;
    errno = 0;
    while (!status && (next = readdir(stream))) {
        if (strcmp(next->d_name, ".") && strcmp(next->d_name, "..")) status = names_add(names, next->d_name);
        errno = 0;
    }
    if (status || !errno) return status;
    say("a folder cannot be read: %s", strerror(errno));
    return TROUBLE;
}

enum status folder_list(const struct folder *folder, const char *name, struct names *names) {
    int handle = openat(folder->handle, name, O_RDONLY | O_DIRECTORY | O_CLOEXEC);
    DIR *stream = handle < 0 ? NULL : fdopendir(handle);
    if (!stream) {
        say("%s/%s: %s", folder->name, name, strerror(errno));
        if (handle >= 0) close(handle);
        return TROUBLE;
    }
    enum status status = read_names(stream, names);
    closedir(stream);
    names_sort(names);
    return status;
}
