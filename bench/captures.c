/* Walks 65,536 bytes of a kind of capture from record to record, by the archive's call or by a plain reader in C:

     captures KIND ours|plain WALKS     prints the records of one walk and the bytes passed over; bench/captures counts its instructions
     captures KIND time WALKS           prints nanoseconds of a walk of both: rounds of so many walks take turns, and the least counts */
#define _POSIX_C_SOURCE 199309L
#include "aveluafi.h"

#include <stdio.h>
#include <stdlib.h>
#include <string.h>
#include <time.h>

enum { BYTES = 65536 };
static uint8_t capture[BYTES];

/* The plain reader: what one would write by hand, with the same answer. */
__attribute__((noinline)) static struct aveluafi_record plain_next_record(const uint8_t *data, size_t data_len, size_t start) {
    struct aveluafi_record r = {0, 0, 0, 0, 0};
    if (start > data_len) {
        r.number = AVELUAFI_BAD_ARG;
        return r;
    }
    size_t at = start;
    for (; at < data_len; at++) {
        if (data[at] != 0x4B || data_len - at < AVELUAFI_RECORD_HEAD || data[at + 1] != 0x9D)
            continue;
        size_t n = (size_t)data[at + 3] << 8 | data[at + 4];
        if (n == 0 || n > data_len - at - AVELUAFI_RECORD_HEAD)
            continue;
        r.line = data[at + 2];
        r.length = n;
        break;
    }
    r.place = at;
    r.passed = at - start;
    return r;
}

static void fill(const uint8_t *pattern, size_t n) {
    for (size_t i = 0; i < BYTES; i++)
        capture[i] = pattern[i % n];
}

static void make(const char *kind) {
    static const uint8_t half[] = {0x4B}, past[] = {0x4B, 0x9D, 0, 0xFF, 0xFF}, one[] = {0x4B, 0x9D, 1, 0, 1, 0x4B}, voice[45] = {0x4B, 0x9D, 1, 0, 40};
    if (!strcmp(kind, "voice"))
        fill(voice, sizeof voice);
    else if (!strcmp(kind, "one"))
        fill(one, sizeof one);
    else if (!strcmp(kind, "half"))
        fill(half, sizeof half);
    else if (!strcmp(kind, "past"))
        fill(past, sizeof past);
    else if (!strcmp(kind, "gaps"))
        for (size_t i = 0, n = 0; i + 85 <= BYTES; i += 45 + n) {
            memcpy(capture + i, voice, sizeof voice);
            n = 1 + (i * 7 + 3) % 40;
            for (size_t k = 0; k < n; k++) capture[i + 45 + k] = (uint8_t)(i + 31 * k);
        }
    else
        for (uint32_t i = 0, x = 1; i < BYTES; i++)
            capture[i] = (uint8_t)((x = x * 1664525u + 1013904223u) >> 24);
}

typedef struct aveluafi_record reader(const uint8_t *, size_t, size_t);
struct walked {
    size_t records, passed;
};

__attribute__((noinline)) static struct walked walk(reader *next, int walks) {
    size_t records = 0, passed = 0;
    for (; walks > 0; walks--) {
        size_t at = 0;
        records = passed = 0;
        for (;;) {
            struct aveluafi_record r = next(capture, BYTES, at);
            passed += r.passed;
            if (r.length == 0)
                break;
            records++;
            at = r.place + AVELUAFI_RECORD_HEAD + r.length;
        }
    }
    return (struct walked){records, passed};
}

static double nanoseconds(void) {
    struct timespec t;
    clock_gettime(CLOCK_MONOTONIC, &t);
    return t.tv_sec * 1e9 + t.tv_nsec;
}

int main(int n, char **word) {
    if (n != 4)
        return 2;
    make(word[1]);
    int walks = atoi(word[3]);
    if (strcmp(word[2], "time")) {
        struct walked told = walk(strcmp(word[2], "ours") ? plain_next_record : aveluafi_next_record, walks);
        printf("%zu %zu\n", told.records, told.passed);
        return 0;
    }
    reader *sides[] = {aveluafi_next_record, plain_next_record};
    double least[2];
    for (int round = 0; round < 25; round++)
        for (int side = 0; side < 2; side++) {
            double start = nanoseconds();
            walk(sides[side], walks);
            double took = (nanoseconds() - start) / walks;
            if (round == 0 || took < least[side])
                least[side] = took;
        }
    printf("%.3f %.3f\n", least[0], least[1]);
    return 0;
}
