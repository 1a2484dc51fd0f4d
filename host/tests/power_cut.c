/* A power cut, for tests: preloaded before the host program, it ends it just before its K-th operation on files (POWER_CUT=K), and takes
 * back what was not on disk by then: bytes that were written and not synced (half of the file is cut off), and names that were given in a
 * folder that was not synced since. With POWER_CUT=0 the cut comes at the end of the program, so that what the program called done has to
 * be on disk. POWER_COUNT=FILE writes down how many operations there were. What is on disk is decided here alone: the real disk is not
 * waited for. */
#include <dlfcn.h>
#include <fcntl.h>
#include <pthread.h>
#include <signal.h>
#include <stdarg.h>
#include <stdbool.h>
#include <stdio.h>
#include <stdlib.h>
#include <string.h>
#include <sys/stat.h>
#include <sys/syscall.h>
#include <unistd.h>

#define MOST 256

/* A name that was given to a file or a folder. What a rename puts it in the place of is kept, under a name of its own, until the folder
 * around it, `parent`, is synced. */
struct given {
    int folder;
    ino_t parent;
    char name[128], kept[160];
    bool replaced, is_folder;
};

/* Threads of the program read files while another one writes: one operation is looked at at a time. */
static pthread_mutex_t lock = PTHREAD_MUTEX_INITIALIZER;
static long operations;
static int dirty[MOST]; /* handles with bytes that are not synced; a duplicate where the program closed it */
static int dirty_count;
static struct given names[MOST];
static int name_count;

static long due(void) {
    const char *text = getenv("POWER_CUT");
    return text ? atol(text) : -1;
}

static void lose(void) {
    for (int i = name_count - 1; i >= 0; i--) {
        if (names[i].replaced)
            syscall(SYS_renameat, names[i].folder, names[i].kept, names[i].folder, names[i].name);
        else if (names[i].is_folder)
            syscall(SYS_renameat, names[i].folder, names[i].name, names[i].folder, names[i].kept);
        else
            syscall(SYS_unlinkat, names[i].folder, names[i].name, 0);
    }
    for (int i = 0; i < dirty_count; i++) {
        struct stat about;
        if (!fstat(dirty[i], &about) && ftruncate(dirty[i], about.st_size / 2)) abort();
    }
}

static void step(void) {
    if (++operations != due()) return;
    lose();
    syscall(SYS_kill, getpid(), SIGKILL);
}

__attribute__((destructor)) static void end(void) {
    const char *file = getenv("POWER_COUNT");
    FILE *stream = file ? fopen(file, "w") : NULL;
    if (stream) {
        fprintf(stream, "%ld\n", operations);
        fclose(stream);
    }
    if (due() == 0) lose();
}

ssize_t write(int handle, const void *at, size_t length) {
    struct stat about;
    bool file = !fstat(handle, &about) && S_ISREG(about.st_mode) && handle > 2;
    pthread_mutex_lock(&lock);
    if (file) step();
    if (file && dirty_count < MOST) dirty[dirty_count++] = handle;
    ssize_t written = syscall(SYS_write, handle, at, length);
    pthread_mutex_unlock(&lock);
    return written;
}

int close(int handle) {
    bool kept = false;
    pthread_mutex_lock(&lock);
    for (int i = 0; i < dirty_count; i++) {
        if (dirty[i] != handle) continue;
        dirty[i] = (int)syscall(SYS_dup, handle);
        kept = true;
    }
    if (kept) step();
    int failed = (int)syscall(SYS_close, handle);
    pthread_mutex_unlock(&lock);
    return failed;
}

/* The names in a folder that is synced last. */
static void settle(ino_t folder) {
    int left = 0;
    for (int i = 0; i < name_count; i++) {
        if (names[i].parent != folder)
            names[left++] = names[i];
        else if (names[i].replaced)
            syscall(SYS_unlinkat, names[i].folder, names[i].kept, 0);
    }
    name_count = left;
}

int fsync(int handle) {
    struct stat about;
    pthread_mutex_lock(&lock);
    step();
    if (!fstat(handle, &about) && S_ISDIR(about.st_mode)) settle(about.st_ino);
    int left = 0;
    for (int i = 0; i < dirty_count; i++)
        if (dirty[i] != handle) dirty[left++] = dirty[i];
    dirty_count = left;
    pthread_mutex_unlock(&lock);
    return 0;
}

/* Everything is on disk after this. */
int syncfs(int handle) {
    (void)handle;
    step();
    for (int i = 0; i < name_count; i++)
        if (names[i].replaced) syscall(SYS_unlinkat, names[i].folder, names[i].kept, 0);
    name_count = dirty_count = 0;
    return 0;
}

/* Before a name is given. */
static struct given *remember(int folder, const char *name) {
    struct stat about;
    char parent[128];
    const char *slash = strrchr(name, '/');
    if (name_count == MOST) abort();
    struct given *given = &names[name_count++];
    snprintf(parent, sizeof parent, "%.*s", slash ? (int)(slash - name) : 1, slash ? name : ".");
    if (fstatat(folder, parent, &about, 0)) abort();
    given->folder = folder;
    given->parent = about.st_ino;
    given->is_folder = false;
    snprintf(given->name, sizeof given->name, "%s", name);
    snprintf(given->kept, sizeof given->kept, "%s.kept", name);
    given->replaced = false;
    return given;
}

int renameat(int old_folder, const char *old_name, int folder, const char *name) {
    step();
    struct given *given = remember(folder, name);
    given->replaced = !syscall(SYS_linkat, folder, name, folder, given->kept, 0);
    return (int)syscall(SYS_renameat, old_folder, old_name, folder, name);
}

int linkat(int old_folder, const char *old_name, int folder, const char *name, int flags) {
    step();
    int failed = (int)syscall(SYS_linkat, old_folder, old_name, folder, name, flags);
    if (!failed) remember(folder, name);
    return failed;
}

int unlinkat(int folder, const char *name, int flags) {
    step();
    return (int)syscall(SYS_unlinkat, folder, name, flags);
}

int mkdirat(int folder, const char *name, mode_t mode) {
    step();
    int failed = (int)syscall(SYS_mkdirat, folder, name, mode);
    if (!failed) remember(folder, name)->is_folder = true;
    return failed;
}
