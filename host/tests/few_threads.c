/* A system that is short of threads, for tests: preloaded before the host program, it gives it no more than THREADS of them. */
#define _GNU_SOURCE
#include <dlfcn.h>
#include <errno.h>
#include <pthread.h>
#include <stdlib.h>

int pthread_create(pthread_t *thread, const pthread_attr_t *attributes, void *(*begin)(void *), void *lent) {
    static int given;
    const char *most = getenv("THREADS");
    int (*real)(pthread_t *, const pthread_attr_t *, void *(*)(void *), void *);
    if (most && given++ >= atoi(most)) return EAGAIN;
    *(void **)&real = dlsym(RTLD_NEXT, "pthread_create");
    return real(thread, attributes, begin, lent);
}
