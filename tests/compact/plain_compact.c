/* Compaction of a capture in plain C: what the proved program's output is held against, and its stand-in where the launcher alone is tried.
 *
 *   plain_compact [BUDGET] <IN 3>NEW       done records R written W reclaimed X passed S resume P end
 *
 * With a budget, the most bytes to write, it stops before the first record that does not fit; 'refused -21' where that is the first one of all. */
#include "../survey/reading.h"

static struct source in;
static unsigned char held[ROOM];
static size_t waiting;

static void drain(void) {
    for (size_t at = 0; at < waiting;) {
        ssize_t n = write(3, held + at, waiting - at);
        if (n < 0 && errno == EINTR)
            continue;
        if (n <= 0) {
            fprintf(stderr, "aveluafi: writing the new file failed\n");
            exit(0);
        }
        at += (size_t)n;
    }
    waiting = 0;
}

static void put(const unsigned char *p, size_t n) {
    memcpy(held + waiting, p, n);
    waiting += n;
}

static void put_byte(size_t b) {
    held[waiting++] = (unsigned char)b;
}

static void put_length(size_t n) {
    if (n < 252) {
        put_byte(n);
        return;
    }
    put_byte(252 + n % 4);
    put_byte((n - 252) / 4);
}

/* The head of a record whose packet has n bytes. */
static void put_head(unsigned line, size_t n) {
    put_byte(0x4b);
    put_byte(0x9d);
    put_byte(line);
    put_byte(n >> 8);
    put_byte(n & 255);
}

/* The shortest packet of the frames of one that was read. */
static void put_shortest(const struct packet *k, const unsigned char *p, size_t length) {
    unsigned code = k->count > 2 ? 3 : k->count == 1 ? 0 : k->equal ? 1 : 2;
    put_byte((p[0] & 0xfc) | code);
    if (code == 3)
        put_byte(k->count | (k->equal ? 0 : 128));
    if (!k->equal)
        for (size_t i = 0; i + 1 < k->count; i++)
            put_length(k->lengths[i]);
    put(p + k->first, length - k->first - k->padding);
}

/* A number of bytes in decimals; no where it is none. */
static bool number(const char *word, uint64_t *n) {
    *n = 0;
    for (const char *c = word; *c; c++) {
        if (*c < '0' || *c > '9' || *n > (UINT64_MAX - 9) / 10)
            return false;
        *n = 10 * *n + (uint64_t)(*c - '0');
    }
    return *word != 0;
}

int main(int argc, char **argv) {
    uint64_t budget = UINT64_MAX, records = 0, written = 0, reclaimed = 0;
    if (argc > 2 || (argc == 2 && !number(argv[1], &budget))) {
        puts("refused -1");
        return 0;
    }
    struct record r;
    struct packet k;
    while (next_record(&in, &r)) {
        bool good = read_packet(&k, r.packet, r.length);
        size_t more = good ? surplus(&k) : 0, size = HEAD + r.length - more;
        if (size > budget - written) {
            if (records == 0) {
                puts("refused -21");
                return 0;
            }
            break;
        }
        if (size > ROOM - waiting)
            drain();
        put_head(r.line, r.length - more);
        if (more > 0)
            put_shortest(&k, r.packet, r.length);
        else
            put(r.packet, r.length);
        records++;
        written += size;
        reclaimed += more;
    }
    drain();
    printf("done records %" PRIu64 " written %" PRIu64 " reclaimed %" PRIu64 " passed %" PRIu64 " resume %" PRIu64 " end\n", records, written, reclaimed,
           in.passed, written + reclaimed + in.passed);
    if (fflush(stdout) != 0)
        fprintf(stderr, "aveluafi: writing standard output failed\n");
    return 0;
}
