/* Preloaded into a program, this starts the program anew for each line of standard input, and lets some of its calls
 * fail. A line is `KIND FIRST LAST`: of the calls of that kind, counted from 1, those from FIRST to LAST fail. Of
 * the kind `space` the program has FIRST bytes of address space more than it has when it starts; of the kind `closed`
 * those of its standard streams are closed whose bits are set in FIRST; behind a line of the kind `file` stand FIRST
 * bytes, which the file `file` of the current folder holds then, and no call fails. Of the kinds `kill` and `kill_amid`
 * the process is killed at the FIRST of the calls that change files: before it, or when half the bytes of a write, or
 * all of another call, are done. The answer is a line `CALLS FAILED STATUS KILOBYTES OUT ERR`, and then OUT bytes that
 * the program printed and ERR bytes that it wrote to standard error. STATUS is 256 more than the number of a signal, if
 * one ended it. The program's standard input is the file `stdin` of the current folder, or nothing. It has at most 60
 * seconds.
 */
#define _GNU_SOURCE
#include <errno.h>
#include <fcntl.h>
#include <malloc.h>
#include <signal.h>
#include <stdarg.h>
#include <stdint.h>
#include <stdio.h>
#include <stdlib.h>
#include <string.h>
#include <sys/mman.h>
#include <sys/resource.h>
#include <sys/syscall.h>
#include <sys/wait.h>
#include <unistd.h>

/* Growths of memory that are refused; reads and writes that fail, move one byte, or are interrupted; files that don't
 * open, or take no other name; the end of the process at a call. */
enum kind {
    NONE, GROWTH, READ, WRITE, OPEN, RENAME, SHORT_READ, SHORT_WRITE, READ_AGAIN, WRITE_AGAIN, KILL, KILL_AMID, CLOSED,
    SPACE, FILED, KINDS
};
static const char *const names[KINDS] = {
    "none",        "growth",     "read",        "write", "open",      "rename", "short_read",
    "short_write", "read_again", "write_again", "kill",  "kill_amid", "closed", "space",      "file",
};

/* What a run is asked for and tells, in memory that it shares with its parent. */
struct tally {
    enum kind kind;
    uint64_t first, last, calls, failed;
};
static struct tally *tally;

extern void *__libc_malloc(size_t size);
extern void *__libc_realloc(void *old, size_t size);

/* Counts a call, and says whether it fails. */
static int fails(enum kind kind) {
    if (tally == NULL || tally->kind != kind)
        return 0;
    tally->calls++;
    if (tally->calls < tally->first || tally->calls > tally->last)
        return 0;
    tally->failed++;
    return 1;
}

void *malloc(size_t size) {
    if (fails(GROWTH)) {
        errno = ENOMEM;
        return NULL;
    }
    return __libc_malloc(size);
}

void *realloc(void *old, size_t size) {
    if (fails(GROWTH)) {
        errno = ENOMEM;
        return NULL;
    }
    return __libc_realloc(old, size);
}

ssize_t read(int file, void *bytes, size_t size) {
    if (fails(READ) || fails(READ_AGAIN)) {
        errno = tally->kind == READ ? EIO : EINTR;
        return -1;
    }
    return syscall(SYS_read, file, bytes, size > 1 && fails(SHORT_READ) ? 1 : size);
}

static void end_process(void) {
    syscall(SYS_kill, getpid(), SIGKILL);
}

/* Ends the process before the call that is asked for. */
static void may_end(void) {
    if (fails(KILL))
        end_process();
}

/* Gives the result of a call, but ends the process if it's the one that is asked for. */
static long ended(long result) {
    if (fails(KILL_AMID))
        end_process();
    return result;
}

ssize_t write(int file, const void *bytes, size_t size) {
    may_end();
    if (fails(KILL_AMID)) {
        syscall(SYS_write, file, bytes, size / 2);
        end_process();
    }
    if (fails(WRITE) || fails(WRITE_AGAIN)) {
        errno = tally->kind == WRITE ? EIO : EINTR;
        return -1;
    }
    return syscall(SYS_write, file, bytes, size > 1 && fails(SHORT_WRITE) ? 1 : size);
}

ssize_t __write(int file, const void *bytes, size_t size) { return write(file, bytes, size); }

int open(const char *path, int flags, ...) {
    may_end();
    if (fails(OPEN)) {
        errno = EACCES;
        return -1;
    }
    va_list rest;
    va_start(rest, flags);
    int mode = flags & (O_CREAT | O_TMPFILE) ? va_arg(rest, int) : 0;
    va_end(rest);
    return ended(syscall(SYS_openat, AT_FDCWD, path, flags, mode));
}

int rename(const char *from, const char *to) {
    may_end();
    if (fails(RENAME)) {
        errno = EXDEV;
        return -1;
    }
    return ended(syscall(SYS_renameat2, AT_FDCWD, from, AT_FDCWD, to, 0));
}

int unlink(const char *path) {
    may_end();
    return ended(syscall(SYS_unlinkat, AT_FDCWD, path, 0));
}

int ftruncate(int file, off_t size) {
    may_end();
    return ended(syscall(SYS_ftruncate, file, size));
}

static void give_up(const char *what) {
    perror(what);
    _exit(125);
}

/* Puts the next bytes of the requests into the file. */
static void fill(size_t size, FILE *requests) {
    char piece[65536];
    int file = syscall(SYS_openat, AT_FDCWD, "file", O_WRONLY | O_CREAT | O_TRUNC, 0644);
    for (size_t part; size > 0; size -= part) {
        part = size < sizeof piece ? size : sizeof piece;
        if (fread(piece, 1, part, requests) != part || syscall(SYS_write, file, piece, part) != (ssize_t)part)
            give_up("file");
    }
    close(file);
}

/* Reads a request; it's false where there is none left. */
static int asked(FILE *requests) {
    char name[16];
    unsigned long first, last;
    if (fscanf(requests, "%15s %lu %lu", name, &first, &last) != 3)
        return 0;
    *tally = (struct tally){.first = first, .last = last};
    while (tally->kind < KINDS && strcmp(name, names[tally->kind]) != 0)
        tally->kind++;
    if (tally->kind == FILED) {
        getc(requests);
        fill(first, requests);
    }
    return tally->kind < KINDS;
}

/* Gives the new process its files, but for those whose bits are set. */
static void become(int out, int err, unsigned closed) {
    int in = syscall(SYS_openat, AT_FDCWD, "stdin", O_RDONLY);
    if (in < 0)
        in = syscall(SYS_openat, AT_FDCWD, "/dev/null", O_RDONLY);
    if (in < 0 || dup2(in, 0) < 0 || dup2(out, 1) < 0 || dup2(err, 2) < 0)
        give_up("dup2");
    close(in);
    close(out);
    close(err);
    for (int file = 0; file < 3; file++)
        if (closed >> file & 1)
            close(file);
    alarm(60);
}

/* Leaves the process so many bytes of address space more than it has. */
static void limit_space(uint64_t more) {
    unsigned long pages = 0;
    /* What is free goes back, and no growth takes more than it needs. */
    mallopt(M_TOP_PAD, 0);
    malloc_trim(0);
    FILE *file = fopen("/proc/self/statm", "r");
    if (file == NULL || fscanf(file, "%lu", &pages) != 1)
        give_up("statm");
    fclose(file);
    struct rlimit limit = {.rlim_cur = pages * 4096 + more, .rlim_max = pages * 4096 + more};
    if (setrlimit(RLIMIT_AS, &limit) != 0)
        give_up("setrlimit");
}

/* Appends what a file holds to the answer, and empties it. */
static void tell(int file, off_t size, FILE *answers) {
    char piece[65536];
    for (off_t at = 0; at < size;) {
        ssize_t got = pread(file, piece, sizeof piece, at);
        if (got <= 0)
            give_up("pread");
        fwrite(piece, 1, got, answers);
        at += got;
    }
    if (ftruncate(file, 0) != 0 || lseek(file, 0, SEEK_SET) != 0)
        give_up("ftruncate");
}

/* Waits for a run, and tells it. */
static void answer(pid_t child, int out, int err, FILE *answers) {
    int ended;
    struct rusage used;
    if (wait4(child, &ended, 0, &used) != child)
        give_up("wait4");
    tally->kind = NONE;
    int status = WIFEXITED(ended) ? WEXITSTATUS(ended) : 256 + WTERMSIG(ended);
    off_t printed = lseek(out, 0, SEEK_END), told = lseek(err, 0, SEEK_END);
    fprintf(answers, "%lu %lu %d %ld %ld %ld\n", tally->calls, tally->failed, status, used.ru_maxrss, (long)printed,
            (long)told);
    tell(out, printed, answers);
    tell(err, told, answers);
    fflush(answers);
}

/* Comes back in each new process alone, and there only to run the program. */
__attribute__((constructor)) static void serve(void) {
    unsetenv("LD_PRELOAD");
    struct tally *shared = mmap(NULL, sizeof *shared, PROT_READ | PROT_WRITE, MAP_SHARED | MAP_ANONYMOUS, -1, 0);
    int out = memfd_create("out", 0), err = memfd_create("err", 0);
    FILE *requests = fdopen(dup(0), "r"), *answers = fdopen(dup(1), "w");
    if (shared == MAP_FAILED || out < 0 || err < 0 || requests == NULL || answers == NULL)
        give_up("serve");
    tally = shared;
    while (asked(requests)) {
        enum kind kind = tally->kind;
        /* Nothing fails while the process is made ready. */
        tally->kind = NONE;
        pid_t child = fork();
        if (child < 0)
            give_up("fork");
        if (child == 0) {
            close(fileno(requests));
            close(fileno(answers));
            become(out, err, kind == CLOSED ? tally->first : 0);
            if (kind == SPACE)
                limit_space(tally->first);
            tally->kind = kind;
            return;
        }
        answer(child, out, err, answers);
    }
    _exit(0);
}
