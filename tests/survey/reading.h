/* Capture files of any size and the packets in them, read in plain C: written from M-101, M-103 and M-110 of document 02 and from RFC 6716, section 3.
 * It shares nothing with the proved programs, which are held against it. */
#ifndef READING_H
#define READING_H
#include <errno.h>
#include <inttypes.h>
#include <stdbool.h>
#include <stdint.h>
#include <stdio.h>
#include <stdlib.h>
#include <string.h>
#include <unistd.h>

enum { ROOM = 262144, HEAD = 5, MOST_RECORD = HEAD + 65535, MOST_FRAMES = 48, MOST_FRAME = 1275 };

/* ---- a capture, of which the bytes from `at` to `held` are here and not looked at yet */

struct source {
    int file;
    size_t at, held;
    bool last;       /* nothing comes behind what is held */
    uint64_t read;   /* bytes that came */
    uint64_t passed; /* bytes that belong to no record */
    unsigned char bytes[ROOM];
};

struct record {
    unsigned line;
    size_t length;
    const unsigned char *packet;
};

/* Moves what is held to the front and reads until the room is full or the file ends. Whatever fails is told, and ends the program without its last line. */
static inline void fill(struct source *s) {
    memmove(s->bytes, s->bytes + s->at, s->held - s->at);
    s->held -= s->at;
    s->at = 0;
    while (s->held < ROOM && !s->last) {
        ssize_t n = read(s->file, s->bytes + s->held, ROOM - s->held);
        if (n < 0 && errno == EINTR)
            continue;
        if (n < 0) {
            const char *name = s->file == 0 ? "standard input" : "the new file";
            fprintf(stderr, "aveluafi: reading %s failed after %" PRIu64 " bytes\n", name, s->read);
            exit(0);
        }
        s->last = n == 0;
        s->held += (size_t)n;
        s->read += (uint64_t)n;
    }
}

/* The record that is next, or none where the file has ended. A place where no whole record is held is given up only when the longest record would be held
 * whole, or nothing comes any more. */
static inline bool next_record(struct source *s, struct record *r) {
    for (;;) {
        size_t left = s->held - s->at;
        const unsigned char *p = s->bytes + s->at;
        if (left >= HEAD && p[0] == 0x4b && p[1] == 0x9d) {
            size_t n = (size_t)p[3] << 8 | p[4];
            if (n > 0 && n <= left - HEAD) {
                *r = (struct record){p[2], n, p + HEAD};
                s->at += HEAD + n;
                return true;
            }
        }
        if (left < MOST_RECORD && !s->last) {
            fill(s);
            continue;
        }
        if (left == 0)
            return false;
        const unsigned char *mark = memchr(p + 1, 0x4b, left - 1);
        size_t over = mark ? (size_t)(mark - p) : left;
        s->at += over;
        s->passed += over;
    }
}

/* ---- a packet in ordinary form */

struct packet {
    size_t count;
    size_t first;   /* where the first frame begins; the others lie right behind it */
    size_t padding; /* bytes behind the last one */
    bool equal;     /* all frames have one length */
    uint16_t lengths[MOST_FRAMES];
};

/* The duration of a frame in tenths of a millisecond (RFC 6716, 3.1). */
static inline size_t tenths(unsigned char toc) {
    static const unsigned short silk[4] = {100, 200, 400, 600}, celt[4] = {25, 50, 100, 200};
    unsigned configuration = toc >> 3;
    if (configuration < 12)
        return silk[configuration % 4];
    if (configuration < 16)
        return silk[configuration % 2];
    return celt[configuration % 4];
}

/* `count` frames of one length take the bytes from `first` to `end`. */
static inline bool read_equal(struct packet *k, size_t first, size_t end, size_t count) {
    size_t each = (end - first) / count;
    if (each * count != end - first || each > MOST_FRAME)
        return false;
    for (size_t i = 0; i < count; i++)
        k->lengths[i] = (uint16_t)each;
    k->count = count;
    k->first = first;
    k->equal = true;
    return true;
}

/* All frames but the last say their lengths, from `at` on (3.2.1); the last takes what is left up to `end`. */
static inline bool read_unequal(struct packet *k, const unsigned char *p, size_t at, size_t end, size_t count) {
    size_t sum = 0;
    k->equal = true;
    for (size_t i = 0; i + 1 < count; i++) {
        if (at >= end)
            return false;
        size_t n = p[at++];
        if (n >= 252) {
            if (at >= end)
                return false;
            n += 4 * (size_t)p[at++];
        }
        sum += n;
        k->lengths[i] = (uint16_t)n;
        k->equal &= n == k->lengths[0];
    }
    if (sum > end - at || end - at - sum > MOST_FRAME)
        return false;
    k->lengths[count - 1] = (uint16_t)(end - at - sum);
    k->equal &= k->lengths[count - 1] == k->lengths[0];
    k->count = count;
    k->first = at;
    return true;
}

/* Reads a packet of n bytes, 1 at least; no where it breaks a rule of 3.4. */
static inline bool read_packet(struct packet *k, const unsigned char *p, size_t n) {
    k->padding = 0;
    switch (p[0] & 3) {
    case 0:
        return read_equal(k, 1, n, 1);
    case 1:
        return read_equal(k, 1, n, 2);
    case 2:
        return read_unequal(k, p, 1, n, 2);
    }
    if (n < 2)
        return false;
    size_t count = p[1] & 63, at = 2;
    if (count == 0 || count * tenths(p[0]) > 1200)
        return false;
    if (p[1] & 64) {
        unsigned char byte;
        do {
            if (at >= n)
                return false;
            byte = p[at++];
            k->padding += byte == 255 ? 254 : byte;
        } while (byte == 255);
        if (k->padding > n - at)
            return false;
    }
    return p[1] & 128 ? read_unequal(k, p, at, n - k->padding, count) : read_equal(k, at, n - k->padding, count);
}

/* The bytes of a length field. */
static inline size_t width(size_t n) {
    return n < 252 ? 1 : 2;
}

/* The bytes before the first frame in the shortest packet of these frames: codes 0, 1 and 2 for one frame, two of a length and two others, code 3 for more. */
static inline size_t least_header(const struct packet *k) {
    size_t bytes = k->count > 2 ? 2 : 1;
    if (!k->equal)
        for (size_t i = 0; i + 1 < k->count; i++)
            bytes += width(k->lengths[i]);
    return bytes;
}

/* Bytes by which a packet is longer than the shortest of its frames. */
static inline size_t surplus(const struct packet *k) {
    return k->first - least_header(k) + k->padding;
}
#endif
