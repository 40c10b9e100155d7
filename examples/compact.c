/* Compacts a capture file by shares, `compact IN OUT BUDGET`: each share writes at most BUDGET bytes. They go into OUT.part, which takes the name OUT only
 * when all of it is on disk and was read back: OUT may be IN itself, and only then is the original replaced. Whatever fails is told, with status 2, and
 * leaves IN and OUT as they were. Over include/aveluafi.h. examples/run builds and runs it; compact.rs does the same in Rust and prints the same text. */
#define _POSIX_C_SOURCE 200809L
#include "aveluafi.h"

#include <errno.h>
#include <fcntl.h>
#include <libgen.h>
#include <stdarg.h>
#include <stdio.h>
#include <stdlib.h>
#include <string.h>
#include <sys/mman.h>
#include <sys/stat.h>
#include <unistd.h>

static const char *part; /* the new file, from when it is there until it is renamed */

static _Noreturn void fail(const char *form, ...) {
    va_list given;
    va_start(given, form);
    fprintf(stderr, "compact: ");
    vfprintf(stderr, form, given);
    fprintf(stderr, "\n");
    if (part)
        unlink(part);
    exit(2);
}

/* Maps a whole file, which must not be changed or cut before the program has ended. */
static const uint8_t *map(const char *path, size_t *n, mode_t *mode) {
    struct stat is;
    int file = open(path, O_RDONLY);
    if (file < 0 || fstat(file, &is) != 0)
        fail("%s: %s", path, strerror(errno));
    if (!S_ISREG(is.st_mode))
        fail("%s: no regular file", path);
    *n = (size_t)is.st_size;
    *mode = is.st_mode & 0777;
    if (*n == 0)
        return NULL; /* nothing can be mapped, and every call takes NULL with 0 */
    void *data = mmap(NULL, *n, PROT_READ, MAP_PRIVATE, file, 0);
    if (data == MAP_FAILED)
        fail("%s: %s", path, strerror(errno));
    return data;
}

/* Compaction strips dirty padding quietly: so it is looked for first. */
static void judge(const uint8_t *data, size_t n) {
    struct aveluafi_record r = aveluafi_next_record(data, n, 0);
    for (; r.length > 0; r = aveluafi_next_record(data, n, r.place + AVELUAFI_RECORD_HEAD + r.length))
        if (aveluafi_packet_judge(data + r.place + AVELUAFI_RECORD_HEAD, r.length, false).verdict == AVELUAFI_DIRTY)
            fail("the record at %zu has dirty padding: ask what its bytes are before they are stripped", r.place);
}

/* The share from a place on, in dst. */
static struct aveluafi_share share(const uint8_t *data, size_t n, size_t start, uint8_t *dst, size_t budget) {
    struct aveluafi_share s = aveluafi_compact(data, n, start, dst, budget, budget);
    if (s.number == AVELUAFI_OVER_BUDGET)
        fail("the record at %zu is longer than the budget of %zu bytes: give more, %d is enough for any", aveluafi_next_record(data, n, start).place, budget,
             AVELUAFI_MOST_RECORD);
    if (s.number < 0)
        fail("refused by %d", (int)s.number);
    return s;
}

int main(int argc, char **argv) {
    char *end = "";
    errno = 0;
    unsigned long long given = argc == 4 ? strtoull(argv[3], &end, 10) : 0;
    if (argc != 4 || argv[3][0] < '0' || argv[3][0] > '9' || *end || errno)
        fail("give IN, OUT and BUDGET, a number of bytes");
    if (aveluafi_version() != AVELUAFI_VERSION)
        fail("the archive is of version %d, the header of %d", (int)aveluafi_version(), AVELUAFI_VERSION);
    const char *in = argv[1], *out = argv[2];
    size_t n;
    mode_t mode;
    const uint8_t *data = map(in, &n, &mode);
    judge(data, n);

    /* A compacted capture is never longer, so a budget above its length is as good as its length. */
    size_t budget = given < n ? (size_t)given : n;
    uint8_t *dst = malloc(budget + 1), *back = malloc(budget + 1);
    char *name = malloc(strlen(out) + sizeof ".part"), *copy = strdup(out);
    if (!dst || !back || !name || !copy)
        fail("%s", strerror(errno));
    sprintf(name, "%s.part", out);
    const char *parent = dirname(copy);
    int folder = open(parent, O_RDONLY | O_DIRECTORY);
    if (folder < 0)
        fail("%s: %s", parent, strerror(errno));

    /* A new file that no more people can read than IN. If there is one, another run is making it, or was killed: then remove it. */
    int made = open(name, O_RDWR | O_CREAT | O_EXCL, mode);
    if (made < 0)
        fail("%s: %s", name, strerror(errno));
    part = name;
    FILE *file = fdopen(made, "w+");
    if (!file)
        fail("%s: %s", part, strerror(errno));

    struct aveluafi_share s, all = {0};
    size_t shares = 0;
    for (size_t at = 0; at < n; at = s.resume) {
        s = share(data, n, at, dst, budget);
        if (fwrite(dst, 1, s.written, file) != s.written)
            fail("%s: %s", part, strerror(errno));
        printf("share %zu: records %zu, written %zu, reclaimed %zu, passed %zu, resume %zu\n", ++shares, s.records, s.written, s.reclaimed, s.passed, s.resume);
        all.records += s.records;
        all.written += s.written;
        all.reclaimed += s.reclaimed;
        all.passed += s.passed;
    }
    if (fflush(file) != 0 || fsync(made) != 0)
        fail("%s: %s", part, strerror(errno));

    /* The same shares once more, held against what is read back; nothing stands behind the last. */
    rewind(file);
    for (size_t at = 0; at < n; at = s.resume) {
        s = share(data, n, at, dst, budget);
        if (fread(back, 1, s.written, file) != s.written || memcmp(dst, back, s.written) != 0)
            fail("%s: not read back as it was written", part);
    }
    if (getc(file) != EOF || ferror(file))
        fail("%s: not read back as it was written", part);

    printf("in all: records %zu, written %zu, reclaimed %zu, passed %zu, of %zu bytes\n", all.records, all.written, all.reclaimed, all.passed, n);
    if (fflush(stdout) != 0)
        fail("standard output: %s", strerror(errno));
    if (rename(part, out) != 0)
        fail("%s: %s", out, strerror(errno));
    part = NULL;
    if (fsync(folder) != 0)
        fail("%s: %s; %s is whole and compacted, but after a power cut it may be the old one", parent, strerror(errno), out);
    return 0;
}
