/* Runs a program on one input after the other (LD_PRELOAD, with FEED the seconds that a run may take): before the
   program's main is called, a copy of the process is made for each input, and goes on into main. Each input comes on
   standard input as its length, four bytes, the low one first, and its bytes. The answer to each goes to standard output
   as two bytes, the exit status and 1 where a signal or the end of the time ended the run, and then what it wrote and
   what it told, each with its length in front. The copy reads a file in memory, and writes two of them. */
#define _GNU_SOURCE
#include <fcntl.h>
#include <signal.h>
#include <stdint.h>
#include <stdio.h>
#include <stdlib.h>
#include <sys/mman.h>
#include <sys/stat.h>
#include <sys/wait.h>
#include <time.h>
#include <unistd.h>

static unsigned char bytes[1 << 20];

static void stop(const char *what) { perror(what); _exit(3); }

static int is_filled(int file, void *place, size_t size) {
    for (unsigned char *at = place; size;) {
        ssize_t count = read(file, at, size);
        if (count <= 0) return 0;
        at += count;
        size -= count;
    }
    return 1;
}

static void put(int file, const void *place, size_t size) {
    for (const unsigned char *at = place; size;) {
        ssize_t count = write(file, at, size);
        if (count <= 0) stop("write");
        at += count;
        size -= count;
    }
}

static void empty(int file) {
    if (ftruncate(file, 0) || lseek(file, 0, SEEK_SET)) stop("empty");
}

static size_t taken(int file, unsigned char *place, size_t room) {
    struct stat about;
    if (fstat(file, &about)) stop("fstat");
    uint32_t size = about.st_size;
    if (size + 4 > room) stop("a long answer");
    for (int i = 0; i < 4; i++) place[i] = size >> (8 * i);
    if (size && pread(file, place + 4, size, 0) != size) stop("pread");
    return size + 4;
}

__attribute__((constructor)) static void feed(void) {
    const char *seconds = getenv("FEED");
    if (!seconds) return;
    struct timespec patience = { atol(seconds), 0 }, none = { 0, 0 };
    int in = fcntl(0, F_DUPFD_CLOEXEC, 10), out = fcntl(1, F_DUPFD_CLOEXEC, 10), files[3];
    for (int i = 0; i < 3; i++) if ((files[i] = memfd_create("feed", MFD_CLOEXEC)) < 0) stop("memfd_create");
    sigset_t child;
    sigemptyset(&child);
    sigaddset(&child, SIGCHLD);
    sigprocmask(SIG_BLOCK, &child, NULL);
    uint32_t size;
    while (is_filled(in, &size, 4)) {
        if (size > sizeof bytes || !is_filled(in, bytes, size)) stop("a long input");
        for (int i = 0; i < 3; i++) empty(files[i]);
        if (size && pwrite(files[0], bytes, size, 0) != size) stop("pwrite");
        pid_t run = fork();
        if (run < 0) stop("fork");
        if (!run) {
            for (int i = 0; i < 3; i++) dup2(files[i], i);
            sigprocmask(SIG_UNBLOCK, &child, NULL);
            return;
        }
        int status = 0, late = sigtimedwait(&child, NULL, &patience) < 0;
        if (late) kill(run, SIGKILL);
        if (waitpid(run, &status, 0) != run) stop("waitpid");
        while (sigtimedwait(&child, NULL, &none) > 0) {}
        bytes[0] = WEXITSTATUS(status);
        bytes[1] = late || !WIFEXITED(status);
        size_t all = 2 + taken(files[1], bytes + 2, sizeof bytes - 2);
        all += taken(files[2], bytes + all, sizeof bytes - all);
        put(out, bytes, all);
    }
    _exit(0);
}
