/* Compacts a capture of a kind of records, by the archive's call or by a plain loop in C over libopus's opus_packet_unpad:

     compaction list                     each kind: key and words, a tab between
     compaction check KIND BYTES         sees that both write the same bytes, and prints records, bytes, bytes written and shortened records; exits 1 if not
     compaction time KIND BYTES          seconds of a pass for ours, libopus and memcpy of the whole: 25 rounds take turns, and the least counts
     compaction SIDE KIND BYTES PASSES   passes for an instruction counter; SIDE is ours, libopus or memcpy

   The capture has at most BYTES bytes. All passes of `time` write to the same destination. */
#define _POSIX_C_SOURCE 200809L
#include "aveluafi.h"

#include <stdio.h>
#include <stdlib.h>
#include <string.h>
#include <time.h>

int32_t opus_packet_unpad(uint8_t *, int32_t);

enum { LONGEST = 1200, ROUNDS = 25 };

static uint8_t *capture, *out, *other;
static size_t length;

static uint32_t next_random(uint32_t below) {
    static uint32_t x = 1;
    x = x * 1664525u + 1013904223u;
    return (uint32_t)((uint64_t)x * below >> 32);
}

/* ---- packets of 20 to 200 bytes, 20 ms frames, and long ones; each function is lent n random bytes and answers the packet's length */

static size_t voice(uint8_t *p, size_t n) {
    p[0] = 0x78;
    return n;
}
static size_t padded(uint8_t *p, size_t n) {
    size_t padding = 5 + next_random(12);
    p[0] = 0x7B;
    p[1] = 0x41;
    p[2] = (uint8_t)padding;
    memset(p + n - padding, 0, padding);
    return n;
}
static size_t equal_two(uint8_t *p, size_t n) {
    n -= n % 2;
    p[0] = 0x7A;
    p[1] = (uint8_t)((n - 2) / 2);
    return n;
}
static size_t unequal_two(uint8_t *p, size_t n) {
    p[0] = 0x7A;
    p[1] = (uint8_t)((n - 2) / 3);
    return n;
}
static size_t six(uint8_t *p, size_t n) {
    p[0] = 0x7B;
    p[1] = 0x86;
    for (int i = 0; i < 5; i++)
        p[2 + i] = (uint8_t)((n - 8) / 8 + i % 2);
    return n;
}

static const struct kind {
    const char *key, *words;
    size_t least, most;
    size_t (*make)(uint8_t *, size_t);
} kinds[] = {
    {"voice", "20 to 200 bytes, code 0: stay", 20, 200, voice},
    {"padded", "20 to 200 bytes, code 3 of one frame, padded: change", 20, 200, padded},
    {"equal", "20 to 200 bytes, code 2 of equal frames: change", 20, 200, equal_two},
    {"unequal", "20 to 200 bytes, code 2: stay", 20, 200, unequal_two},
    {"six", "20 to 200 bytes, code 3 of six unequal frames: stay", 20, 200, six},
    {"long", "200 to 1,200 bytes, code 0: stay", 200, LONGEST, voice},
};
enum { KINDS = sizeof kinds / sizeof *kinds };

static void make(const struct kind *k, size_t most) {
    uint8_t p[LONGEST];
    for (length = 0; most - length >= AVELUAFI_RECORD_HEAD + LONGEST;) {
        size_t n = k->least + next_random((uint32_t)(k->most - k->least + 1));
        for (size_t i = 0; i < n; i++)
            p[i] = (uint8_t)next_random(256);
        n = k->make(p, n);
        uint8_t head[AVELUAFI_RECORD_HEAD] = {0x4B, 0x9D, (uint8_t)next_random(256), (uint8_t)(n >> 8), (uint8_t)n};
        memcpy(capture + length, head, sizeof head);
        memcpy(capture + length + sizeof head, p, n);
        length += sizeof head + n;
    }
}

/* ---- the sides: each compacts the capture into `to` and answers the bytes written */

__attribute__((noinline)) static size_t ours(uint8_t *to) { return aveluafi_compact(capture, length, 0, to, length, length).written; }

__attribute__((noinline)) static size_t libopus(uint8_t *to) {
    size_t at = 0, done = 0;
    while (at + AVELUAFI_RECORD_HEAD < length) {
        if (capture[at] != 0x4B || capture[at + 1] != 0x9D) {
            at++;
            continue;
        }
        size_t n = (size_t)capture[at + 3] << 8 | capture[at + 4];
        if (n == 0 || n > length - at - AVELUAFI_RECORD_HEAD) {
            at++;
            continue;
        }
        memcpy(to + done, capture + at, AVELUAFI_RECORD_HEAD + n);
        int32_t left = opus_packet_unpad(to + done + AVELUAFI_RECORD_HEAD, (int32_t)n);
        if (left > 0) {
            to[done + 3] = (uint8_t)(left >> 8);
            to[done + 4] = (uint8_t)left;
        } else
            left = (int32_t)n;
        done += AVELUAFI_RECORD_HEAD + (size_t)left;
        at += AVELUAFI_RECORD_HEAD + n;
    }
    return done;
}

__attribute__((noinline)) static size_t plain_copy(uint8_t *to) {
    memcpy(to, capture, length);
    __asm__ volatile("" ::"r"(to) : "memory");
    return length;
}

static size_t (*const sides[])(uint8_t *) = {ours, libopus, plain_copy};
static const char *const side_names[] = {"ours", "libopus", "memcpy"};
enum { SIDES = 3 };

static int check(void) {
    memset(out, 0xEE, length);
    memset(other, 0xEE, length);
    struct aveluafi_share s = aveluafi_compact(capture, length, 0, out, length, length);
    size_t written = libopus(other);
    size_t changed = 0;
    for (size_t at = 0, to = 0; at < length && to < written;) {
        size_t n = (size_t)capture[at + 3] << 8 | capture[at + 4], m = (size_t)out[to + 3] << 8 | out[to + 4];
        changed += m < n;
        at += AVELUAFI_RECORD_HEAD + n;
        to += AVELUAFI_RECORD_HEAD + m;
    }
    printf("%zu %zu %zu %zu\n", s.records, length, s.written, changed);
    return s.number != 0 || s.resume != length || s.written != written || memcmp(out, other, written) != 0;
}

static double seconds(void) {
    struct timespec t;
    clock_gettime(CLOCK_MONOTONIC, &t);
    return (double)t.tv_sec + (double)t.tv_nsec / 1e9;
}

static void measure(void) {
    double least[SIDES];
    size_t passes = 1 + 4000000 / length;
    for (int round = 0; round < ROUNDS; round++)
        for (int side = 0; side < SIDES; side++) {
            double start = seconds();
            for (size_t i = 0; i < passes; i++)
                sides[side](out);
            double took = (seconds() - start) / (double)passes;
            if (round == 0 || took < least[side])
                least[side] = took;
        }
    printf("%.9g %.9g %.9g\n", least[0], least[1], least[2]);
}

int main(int n, char **word) {
    if (n == 2 && !strcmp(word[1], "list")) {
        for (int i = 0; i < KINDS; i++)
            printf("%s\t%s\n", kinds[i].key, kinds[i].words);
        return 0;
    }
    const struct kind *k = kinds;
    while (n >= 4 && k < kinds + KINDS && strcmp(word[2], k->key))
        k++;
    if (n < 4 || k == kinds + KINDS) {
        fprintf(stderr, "compaction: see the top of compaction.c\n");
        return 2;
    }
    size_t most = strtoul(word[3], NULL, 10);
    capture = malloc(most);
    out = malloc(most);
    other = malloc(most);
    if (!capture || !out || !other)
        return 2;
    make(k, most);
    if (!strcmp(word[1], "check"))
        return check();
    memset(out, 0xEE, length);
    if (!strcmp(word[1], "time"))
        measure();
    for (int side = 0; n == 5 && side < SIDES; side++)
        for (long i = !strcmp(word[1], side_names[side]) ? atol(word[4]) : 0; i > 0; i--)
            sides[side](out);
    return 0;
}
