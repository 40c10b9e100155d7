/* Joins the packets of three streams into one multistream packet, sees one that lasts longer and one that is cut short refused, takes the streams out again and
 * joins them once more, over include/aveluafi.h. examples/run builds and runs it; streams.rs does the same in Rust and prints the same text. */
#include "aveluafi.h"

#include <stdio.h>
#include <stdlib.h>
#include <string.h>

/* A pair of channels, 20 ms in one frame; a channel, 20 ms in two frames of 10, with a padding byte; a silent one, 20 ms in a frame without a byte. */
static const uint8_t front[] = {0x7c, 0xa1, 0xa2, 0xa3, 0xa4}, centre[] = {0x73, 0xc2, 1, 2, 0xb1, 0xb2, 0xb3, 0}, low[] = {0x78};
static const uint8_t longer[] = {0x79, 0xc1, 0xc2}, cut[] = {0x7a, 3, 0xd1};

/* Ends the program at a refusal that was not expected. */
static size_t needs(const char *call, struct aveluafi_report r) {
    if (r.number < 0) {
        fprintf(stderr, "%s: refused by %d, rule %d at byte %d\n", call, (int)r.number, r.rule, r.place);
        exit(1);
    }
    return (size_t)r.number;
}

static void show(const char *what, const uint8_t *packet, size_t bytes) {
    printf("%s: %d byte%s:", what, (int)bytes, bytes == 1 ? "" : "s");
    for (size_t i = 0; i < bytes; i++)
        printf(" %02x", packet[i]);
    printf("\n");
}

/* A packet behind those that stand in a buffer, and its length behind theirs. */
static size_t add(uint8_t *packets, size_t at, uint16_t *length, const uint8_t *packet, size_t bytes) {
    memcpy(packets + at, packet, bytes);
    *length = (uint16_t)bytes;
    return at + bytes;
}

int main(void) {
    if (aveluafi_version() != AVELUAFI_VERSION) {
        fprintf(stderr, "the archive is of version %d, the header of %d\n", (int)aveluafi_version(), AVELUAFI_VERSION);
        return 1;
    }

    /* The packets lie one behind another, and their lengths stand beside them. */
    uint8_t packets[64], joined[64], packet[64], again[64];
    uint16_t lengths[3];
    size_t at = add(packets, 0, &lengths[0], front, sizeof front);
    at = add(packets, at, &lengths[1], centre, sizeof centre);

    /* Streams of one packet last equally long: 40 ms do not go with 20. Nothing is written beside a refusal. */
    size_t end = add(packets, at, &lengths[2], longer, sizeof longer);
    struct aveluafi_report r = aveluafi_multistream_join(packets, end, lengths, 3, joined, sizeof joined);
    if (r.number == AVELUAFI_INVALID_PACKET && r.rule == 0)
        printf("refused: invalid packet: the streams do not last equally long\n");

    /* One that cannot be read: the rule that it breaks, and the byte, counted from the first of all. */
    end = add(packets, at, &lengths[2], cut, sizeof cut);
    r = aveluafi_multistream_join(packets, end, lengths, 3, joined, sizeof joined);
    printf("refused: invalid packet: RFC 6716 rule R%d at byte %d\n", r.rule, r.place);

    end = add(packets, at, &lengths[2], low, sizeof low);
    size_t bytes = needs("join", aveluafi_multistream_join(packets, end, lengths, 3, joined, sizeof joined));
    show("joined", joined, bytes);

    /* Each stream's packet, in its shortest form, and all of them joined again. */
    at = 0;
    for (int k = 0; k < 3; k++) {
        size_t taken = needs("take", aveluafi_multistream_take(joined, bytes, 3, k, packet, sizeof packet));
        show("taken out", packet, taken);
        at = add(packets, at, &lengths[k], packet, taken);
    }
    size_t once_more = needs("join", aveluafi_multistream_join(packets, at, lengths, 3, again, sizeof again));
    printf("joined again: %s\n", once_more == bytes && memcmp(again, joined, bytes) == 0 ? "the same bytes" : "NOT the same bytes");
    printf("refused stream 3 of 3: %d\n", (int)aveluafi_multistream_take(joined, bytes, 3, 3, packet, sizeof packet).number);
    return 0;
}
