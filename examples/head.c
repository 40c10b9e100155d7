/* Reads the identification header of an Ogg Opus stream, turns its gain down by 3 dB, writes it and reads it back, and sees headers refused: one of a
 * version to come, one without its last entry, one whose field breaks a rule, and fields that cannot be written. Over include/aveluafi.h. examples/run
 * builds and runs it; head.rs does the same in Rust and prints the same text. */
#include "aveluafi.h"

#include <stdio.h>
#include <stdlib.h>
#include <string.h>

/* Version 1, six channels, 312 samples to be left out, 44,100 Hz, a gain of 1 dB, family 1: four streams, of which two are pairs, and the channels' places. */
static const uint8_t six[] = {'O', 'p', 'u', 's', 'H', 'e', 'a', 'd', 1, 6, 0x38, 1, 0x44, 0xac, 0, 0, 0, 1, 1, 4, 2, 0, 4, 1, 2, 3, 5};

static const char *why(int32_t number) {
    switch (number) {
    case AVELUAFI_BUFFER_TOO_SMALL: return "buffer too small";
    case AVELUAFI_BAD_HEADER: return "no identification header";
    case AVELUAFI_UNKNOWN_VERSION: return "header of an unknown version";
    case AVELUAFI_BAD_FIELD: return "header field against the rules of RFC 7845";
    default: return "a number of another version";
    }
}

static void show(const struct aveluafi_head *h) {
    printf("version %d, %d channels, pre-skip %d, %lu Hz, gain %d/256 dB, family %d, streams %d, coupled %d, mapping", h->version, h->channels, h->pre_skip,
           (unsigned long)h->rate, h->gain, h->family, h->streams, h->coupled);
    for (int i = 0; i < h->channels; i++)
        printf(" %d", h->mapping[i]);
    printf("\n");
}

/* The fields of a header that must be one. */
static struct aveluafi_head read(const uint8_t *data, size_t bytes) {
    struct aveluafi_head_record r = aveluafi_head_read(data, bytes);
    if (r.number < 0) {
        fprintf(stderr, "head_read: refused by %d, %s\n", (int)r.number, why(r.number));
        exit(1);
    }
    return r.head;
}

/* A header that must be refused. */
static void refused(const char *what, const uint8_t *data, size_t bytes) {
    struct aveluafi_head_record r = aveluafi_head_read(data, bytes);
    printf("%s: %d, %s\n", what, (int)r.number, why(r.number));
}

static int same(const struct aveluafi_head *a, const struct aveluafi_head *b) {
    return a->version == b->version && a->channels == b->channels && a->pre_skip == b->pre_skip && a->rate == b->rate && a->gain == b->gain &&
           a->family == b->family && a->streams == b->streams && a->coupled == b->coupled && memcmp(a->mapping, b->mapping, sizeof a->mapping) == 0;
}

int main(void) {
    if (aveluafi_version() != AVELUAFI_VERSION) {
        fprintf(stderr, "the archive is of version %d, the header of %d\n", (int)aveluafi_version(), AVELUAFI_VERSION);
        return 1;
    }
    struct aveluafi_head head = read(six, sizeof six);
    show(&head);

    /* 3 dB less; the rest as it was read. */
    head.gain -= 3 * 256;
    uint8_t bytes[AVELUAFI_MOST_HEAD];
    int32_t n = aveluafi_head_write(&head, bytes, sizeof bytes);
    if (n < 0) {
        fprintf(stderr, "head_write: refused by %d, %s\n", (int)n, why(n));
        return 1;
    }
    printf("written: %d bytes:", (int)n);
    for (int i = 0; i < n; i++)
        printf(" %02x", bytes[i]);
    printf("\n");
    struct aveluafi_head again = read(bytes, (size_t)n);
    show(&again);
    printf("read back: %s\n", same(&again, &head) ? "the same fields" : "NOT the same fields");

    /* Headers that are refused, each with one byte changed or missing. */
    bytes[8] = 16;
    refused("version 16", bytes, (size_t)n);
    bytes[8] = 1;
    refused("without its last entry", bytes, (size_t)n - 1);
    bytes[26] = 6;
    refused("entry 6 of 6 places", bytes, (size_t)n);

    /* Fields that no header of version 1 has, and a destination that is too short; nothing is written. */
    head.mapping[6] = 1;
    n = aveluafi_head_write(&head, bytes, sizeof bytes);
    printf("an entry for a seventh channel: %d, %s\n", (int)n, why(n));
    head.mapping[6] = 0;
    n = aveluafi_head_write(&head, bytes, 26);
    printf("into 26 bytes: %d, %s\n", (int)n, why(n));
    return 0;
}
