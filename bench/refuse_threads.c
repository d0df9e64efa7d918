// Refuses threads that a program starts, as a system does that has no room for them. To be preloaded.
//
// Each call of pthread_create writes a byte to the end of the file that THREADS_ASKED names. The call of the number FIRST_REFUSED,
// from 1, is refused; with ALL_BEHIND all behind it are refused too.

#define _GNU_SOURCE
#include <dlfcn.h>
#include <errno.h>
#include <fcntl.h>
#include <pthread.h>
#include <stdatomic.h>
#include <stdlib.h>
#include <unistd.h>

static atomic_long asked;

static void note(void) {
    const char *path = getenv("THREADS_ASKED");
    int file = path ? open(path, O_WRONLY | O_CREAT | O_APPEND, 0600) : -1;
    if (file < 0 || write(file, "+", 1) != 1) abort();
    close(file);
}

static int is_refused(long number) {
    const char *first = getenv("FIRST_REFUSED");
    long refused = first ? atol(first) : 0;
    if (refused == 0) return 0;
    return getenv("ALL_BEHIND") ? refused <= number : refused == number;
}

int pthread_create(pthread_t *thread, const pthread_attr_t *attributes, void *(*run)(void *), void *word) {
    int (*create)(pthread_t *, const pthread_attr_t *, void *(*)(void *), void *);
    *(void **)&create = dlsym(RTLD_NEXT, "pthread_create");
    note();
    if (create == NULL || is_refused(atomic_fetch_add(&asked, 1) + 1)) return EAGAIN;
    return create(thread, attributes, run, word);
}
