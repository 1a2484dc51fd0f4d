/* Folders and files: every answer of the operating system is looked at, and a complaint names the file. */
#include "files.h"

#include <errno.h>
#include <fcntl.h>
#include <stdio.h>
#include <string.h>
#include <sys/file.h>
#include <sys/stat.h>
#include <time.h>
#include <unistd.h>

#include "say.h"

/* The longest name inside a folder; the host makes none longer than 30. A folder that is made may have any name that the system takes. */
#define NAME_ROOM 4096
/* How long another command is waited for: so many times a tenth of a second. */
#define LOCK_TRIES 50

static enum status trouble(const struct folder *folder, const char *name) {
    if (errno == ENOENT)
        say("%s/%s is missing", folder->name, name);
    else
        say("%s/%s: %s", folder->name, name, strerror(errno));
    return TROUBLE;
}

enum status folder_open(struct folder *folder, const char *name) {
    folder->name = name;
    folder->handle = open(name, O_RDONLY | O_DIRECTORY | O_CLOEXEC);
    if (folder->handle >= 0) return DONE;
    say("the folder %s: %s", name, strerror(errno));
    return TROUBLE;
}

/* Puts on disk which names the folder that holds the file has: a new name lasts only then. */
static int sync_names(const struct folder *folder, const char *name) {
    char parent[NAME_ROOM];
    size_t length = strlen(name);
    while (length && name[length - 1] == '/') length--; /* a folder may be named with a slash at its end */
    while (length && name[length - 1] != '/') length--;
    snprintf(parent, sizeof parent, "%.*s", length ? (int)length : 1, length ? name : ".");
    int handle = openat(folder->handle, parent, O_RDONLY | O_DIRECTORY | O_CLOEXEC);
    if (handle < 0) return -1;
    int failed = fsync(handle);
    return close(handle) || failed ? -1 : 0;
}

enum status folder_make(struct folder *folder, const char *name) {
    const struct folder here = {.name = ".", .handle = AT_FDCWD};
    if (!mkdirat(AT_FDCWD, name, 0755) ? sync_names(&here, name) : errno != EEXIST) {
        say("the folder %s: %s", name, strerror(errno));
        return TROUBLE;
    }
    return folder_open(folder, name);
}

enum status folder_lock(const struct folder *folder) {
    const struct timespec pause = {.tv_nsec = 100000000};
    for (int i = 0; i < LOCK_TRIES; i++) {
        if (!flock(folder->handle, LOCK_EX | LOCK_NB)) return DONE;
        if (errno != EWOULDBLOCK) break;
        nanosleep(&pause, NULL);
    }
    say("the folder %s is in use by another command: %s", folder->name, strerror(errno));
    return TROUBLE;
}

void folder_close(struct folder *folder) {
    if (folder->handle >= 0) close(folder->handle);
    folder->handle = -1;
}

enum status folder_add(const struct folder *folder, const char *name, enum readers readers) {
    mode_t mode = readers == FOR_ALL ? 0755 : 0700;
    if (!mkdirat(folder->handle, name, mode) ? !sync_names(folder, name) : errno == EEXIST) return DONE;
    return trouble(folder, name);
}

enum status file_find(const struct folder *folder, const char *name, bool *there) {
    *there = !faccessat(folder->handle, name, F_OK, 0);
    return *there || errno == ENOENT ? DONE : trouble(folder, name);
}

/* Whether a file has a length that is asked for; says so where it has not. */
static enum status length_fits(const struct folder *folder, const char *name, off_t length, size_t least, size_t most) {
    if (length >= 0 && (uint64_t)length >= least && (uint64_t)length <= most) return DONE;
    if (least == most)
        say("%s/%s: refused 1: it has %lld bytes where %zu are due", folder->name, name, (long long)length, most);
    else
        say("%s/%s: refused 1: it has %lld bytes where %zu to %zu are due", folder->name, name, (long long)length, least, most);
    return REFUSED;
}

/* Reads until the run is full; false where the file ends before or cannot be read. */
static bool read_full(int handle, struct bytes *out) {
    size_t done = 0;
    while (done < out->length) {
        ssize_t part = read(handle, out->at + done, out->length - done);
        if (part < 0 && errno == EINTR) continue;
        if (part == 0) errno = EIO; /* the file shrank while it was read */
        if (part <= 0) return false;
        done += (size_t)part;
    }
    return true;
}

enum status file_read(const struct folder *folder, const char *name, size_t least, size_t most, struct bytes *out) {
    struct stat about;
    /* not to wait for a writer, should the name be that of a pipe */
    int handle = openat(folder->handle, name, O_RDONLY | O_NONBLOCK | O_CLOEXEC);
    if (handle < 0) return trouble(folder, name);
    if (fstat(handle, &about)) {
        close(handle);
        return trouble(folder, name);
    }
    enum status status = DONE;
    if (!S_ISREG(about.st_mode)) {
        say("%s/%s is no file", folder->name, name);
        status = TROUBLE;
    }
    if (!status) status = length_fits(folder, name, about.st_size, least, most);
    if (!status) status = bytes_make(out, (size_t)about.st_size);
    if (!status && !read_full(handle, out)) {
        status = trouble(folder, name);
        bytes_free(out);
    }
    close(handle);
    return status;
}

/* Writes all bytes. */
static bool write_full(int handle, const uint8_t *at, size_t length) {
    size_t done = 0;
    while (done < length) {
        ssize_t part = write(handle, at + done, length - done);
        if (part < 0 && errno == EINTR) continue;
        if (part < 0) return false;
        done += (size_t)part;
    }
    return true;
}

/* Writes the file under a name of its own beside its place, NAME.new; has its bytes on disk where it is to be synced. */
static enum status write_beside(const struct folder *folder, const char *beside, enum readers readers, const void *at, size_t length,
                                bool synced) {
    if (unlinkat(folder->handle, beside, 0) && errno != ENOENT) return trouble(folder, beside); /* what a crash left */
    int handle = openat(folder->handle, beside, O_WRONLY | O_CREAT | O_EXCL | O_CLOEXEC, (mode_t)readers);
    if (handle < 0) return trouble(folder, beside);
    bool written = write_full(handle, at, length) && (!synced || !fsync(handle));
    return !close(handle) && written ? DONE : trouble(folder, beside);
}

static void name_beside(char *beside, const char *name) {
    snprintf(beside, NAME_ROOM, "%s.new", name);
}

enum status file_stage(const struct folder *folder, const char *name, enum readers readers, const void *at, size_t length) {
    char beside[NAME_ROOM];
    name_beside(beside, name);
    return write_beside(folder, beside, readers, at, length, false);
}

enum status folder_sync_all(const struct folder *folder) {
    if (!syncfs(folder->handle)) return DONE;
    say("the folder %s: %s", folder->name, strerror(errno));
    return TROUBLE;
}

enum status file_place(const struct folder *folder, const char *name) {
    char beside[NAME_ROOM];
    name_beside(beside, name);
    return renameat(folder->handle, beside, folder->handle, name) ? trouble(folder, name) : DONE;
}

enum status file_write(const struct folder *folder, const char *name, enum readers readers, const void *at, size_t length) {
    char beside[NAME_ROOM];
    name_beside(beside, name);
    enum status status = write_beside(folder, beside, readers, at, length, true);
    if (!status) status = file_place(folder, name);
    if (status) return status;
    return sync_names(folder, name) ? trouble(folder, name) : DONE;
}

enum status file_write_new(const struct folder *folder, const char *name, enum readers readers, const void *at, size_t length) {
    char beside[NAME_ROOM];
    name_beside(beside, name);
    enum status status = write_beside(folder, beside, readers, at, length, true);
    if (status) return status;
    int failed = linkat(folder->handle, beside, folder->handle, name, 0);
    bool there = failed && errno == EEXIST;
    if (failed && !there) return trouble(folder, name);
    if (unlinkat(folder->handle, beside, 0)) return trouble(folder, beside);
    if (there) {
        say("%s/%s is there already and is not written over", folder->name, name);
        return REFUSED;
    }
    return sync_names(folder, name) ? trouble(folder, name) : DONE;
}

enum status file_remove(const struct folder *folder, const char *name) {
    if (unlinkat(folder->handle, name, 0)) return errno == ENOENT ? DONE : trouble(folder, name);
    return sync_names(folder, name) ? trouble(folder, name) : DONE;
}
