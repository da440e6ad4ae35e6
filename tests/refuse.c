/* Stands between a program and the C library (LD_PRELOAD): call number REFUSE_ALLOC of malloc and realloc is refused,
   so is thread number REFUSE_THREAD, call number REFUSE_READ and REFUSE_WRITE fails and so do all later ones, and with SHORT_IO a read or a write moves
   one byte at most. REFUSE_TELL names a file that has "reached" in it where the numbered call came. */
#define _GNU_SOURCE
#include <dlfcn.h>
#include <errno.h>
#include <fcntl.h>
#include <pthread.h>
#include <stdlib.h>
#include <sys/uio.h>
#include <unistd.h>

static long alloc_at, thread_at, read_at, write_at, short_io, allocs, threads, reads, writes;
static const char *tell;
static void *(*real_malloc)(size_t), *(*real_realloc)(void *, size_t);
static int (*real_create)(pthread_t *, const pthread_attr_t *, void *(*)(void *), void *);
static ssize_t (*real_read)(int, void *, size_t), (*real_write)(int, const void *, size_t);
static ssize_t (*real_writev)(int, const struct iovec *, int);

static long number(const char *name) { const char *word = getenv(name); return word ? atol(word) : 0; }

__attribute__((constructor)) static void start(void) {
    real_malloc = dlsym(RTLD_NEXT, "malloc");
    real_realloc = dlsym(RTLD_NEXT, "realloc");
    real_create = dlsym(RTLD_NEXT, "pthread_create");
    real_read = dlsym(RTLD_NEXT, "read");
    real_write = dlsym(RTLD_NEXT, "write");
    real_writev = dlsym(RTLD_NEXT, "writev");
    read_at = number("REFUSE_READ");
    write_at = number("REFUSE_WRITE");
    short_io = number("SHORT_IO");
    tell = getenv("REFUSE_TELL");
    thread_at = number("REFUSE_THREAD");
    alloc_at = number("REFUSE_ALLOC");
}

static void reached(void) {
    int file = tell ? open(tell, O_WRONLY | O_CREAT | O_TRUNC, 0600) : -1;
    if (file >= 0) { real_write(file, "reached", 7); close(file); }
}

static int refuses(void) {
    if (!alloc_at || __sync_add_and_fetch(&allocs, 1) != alloc_at) return 0;
    reached();
    errno = ENOMEM;
    return 1;
}

static int fails(long at, long *calls) {
    long call = __sync_add_and_fetch(calls, 1);
    if (!at || call < at) return 0;
    if (call == at) reached();
    errno = EIO;
    return 1;
}

void *malloc(size_t size) {
    if (!real_malloc) real_malloc = dlsym(RTLD_NEXT, "malloc");
    return refuses() ? NULL : real_malloc(size);
}

void *realloc(void *old, size_t size) {
    if (!real_realloc) real_realloc = dlsym(RTLD_NEXT, "realloc");
    return refuses() ? NULL : real_realloc(old, size);
}

int pthread_create(pthread_t *thread, const pthread_attr_t *how, void *(*work)(void *), void *what) {
    if (thread_at && __sync_add_and_fetch(&threads, 1) == thread_at) { reached(); return EAGAIN; }
    return real_create(thread, how, work, what);
}

ssize_t read(int file, void *place, size_t size) {
    if (file == 0 && fails(read_at, &reads)) return -1;
    return real_read(file, place, file == 0 && short_io && size ? 1 : size);
}

ssize_t write(int file, const void *place, size_t size) {
    if (file == 1 && fails(write_at, &writes)) return -1;
    return real_write(file, place, file == 1 && short_io && size ? 1 : size);
}

ssize_t writev(int file, const struct iovec *parts, int count) {
    for (int i = 0; i < count && (file == 1); i++)
        if (parts[i].iov_len) return write(file, parts[i].iov_base, parts[i].iov_len);
    return real_writev(file, parts, count);
}
