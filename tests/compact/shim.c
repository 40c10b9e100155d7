/* Makes the reads and writes of one program short, interrupted or failing; loaded before libc by LD_PRELOAD. Other programs that inherit it are left alone.
 *
 *   SHIM_PROGRAM=compact SHIM_CALL=read SHIM_FILE=0 SHIM_HOW=short|EINTR|EIO|ENOSPC SHIM_AFTER=N SHIM_MARK=FILE
 *
 * The first N calls on what that descriptor is open for are as they are: on the descriptor itself, or on another one for the same file, as a program that
 * opens /dev/fd/3 has it. Behind them a call is cut to a few bytes of what it asks for (short), every second one is interrupted (EINTR), or all fail. FILE is
 * made when that was done once, so that a test can tell. */
#include <dlfcn.h>
#include <errno.h>
#include <fcntl.h>
#include <stdbool.h>
#include <stdlib.h>
#include <string.h>
#include <sys/stat.h>
#include <sys/types.h>
#include <unistd.h>

typedef ssize_t call(int, void *, size_t);

static const char *told(const char *name) {
    const char *word = getenv(name);
    return word ? word : "";
}

/* Whether both descriptors are open for the same file. */
static bool alike(int one, int other) {
    struct stat a, b;
    return one == other || (fstat(one, &a) == 0 && fstat(other, &b) == 0 && a.st_dev == b.st_dev && a.st_ino == b.st_ino);
}

/* What to do with a call: 0 or an error number; `n` may be cut. */
static int meddle(const char *name, int file, size_t *n) {
    static unsigned long calls, state = 1;
    if (strcmp(told("SHIM_PROGRAM"), program_invocation_short_name) != 0 || strcmp(told("SHIM_CALL"), name) != 0 || !alike(file, atoi(told("SHIM_FILE"))))
        return 0;
    if (calls++ < strtoul(told("SHIM_AFTER"), NULL, 10))
        return 0;
    const char *how = told("SHIM_HOW");
    int mark = open(told("SHIM_MARK"), O_WRONLY | O_CREAT, 0644);
    if (mark >= 0)
        close(mark);
    if (strcmp(how, "short") == 0) {
        state = state * 6364136223846793005u + 1442695040888963407u;
        size_t most = 1 + (state >> 33) % 30000;
        if (*n > most)
            *n = most;
        return 0;
    }
    if (strcmp(how, "EINTR") == 0)
        return calls % 2 ? EINTR : 0;
    return strcmp(how, "ENOSPC") == 0 ? ENOSPC : EIO;
}

static call *real(const char *name) {
    call *found;
    void *at = dlsym(RTLD_NEXT, name);
    memcpy(&found, &at, sizeof found);
    return found;
}

ssize_t read(int file, void *p, size_t n) {
    static call *next;
    if (!next)
        next = real("read");
    errno = meddle("read", file, &n);
    return errno ? -1 : next(file, p, n);
}

ssize_t write(int file, const void *p, size_t n) {
    static call *next;
    if (!next)
        next = real("write");
    errno = meddle("write", file, &n);
    return errno ? -1 : next(file, (void *)p, n);
}
