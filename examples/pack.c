/* Packs three packets into one, sees three others refused, pads and strips the packet in place, reads its frames back, cuts one out again, then all of them
 * in one call, and restores one of the packets, over include/aveluafi.h. examples/run builds and runs it; pack.rs does the same in Rust and prints the same
 * text. */
#include "aveluafi.h"

#include <stdio.h>
#include <stdlib.h>
#include <string.h>

enum {
    TOC = 0x78,    /* hybrid, 20 ms, one channel; code 0: one frame */
    STEREO = 0x04, /* one of the upper six bits, which must agree within a collector */
    HEADERS = 40,  /* bytes that each packet on the wire costs beside itself: IPv4 20, UDP 8, RTP 12 */
};

/* A packet of one frame: the TOC byte, then the frame. */
static void make(uint8_t *packet, int bytes, uint8_t toc, uint8_t fill) {
    packet[0] = toc;
    memset(packet + 1, fill, (size_t)bytes - 1);
}

/* Ends the program at a refusal that was not expected; any other answer goes through. */
static int32_t need(const char *call, int32_t number) {
    if (number < 0) {
        fprintf(stderr, "%s: refused by %d\n", call, (int)number);
        exit(1);
    }
    return number;
}

/* The same of a call that reads a packet, whose refusal may name a rule of RFC 6716 and the byte. */
static int32_t needs(const char *call, struct aveluafi_report r) {
    if (r.rule > 0)
        fprintf(stderr, "%s: RFC 6716 rule R%d at byte %d\n", call, r.rule, r.place);
    return need(call, r.number);
}

static const char *same(const uint8_t *a, const uint8_t *b, size_t n) {
    return memcmp(a, b, n) == 0 ? "as added" : "NOT as added";
}

int main(void) {
    if (aveluafi_version() != AVELUAFI_VERSION) {
        fprintf(stderr, "the archive is of version %d, the header of %d\n", (int)aveluafi_version(), AVELUAFI_VERSION);
        return 1;
    }

    /* All memory is the caller's: the collector, the store that it copies frames into, the buffer that packets are written to. */
    struct aveluafi_repacketizer rp;
    static uint8_t store[AVELUAFI_LEAST_STORE];
    uint8_t buffer[200];

    static const int bytes[3] = {40, 45, 38};
    uint8_t packets[3][45];
    int before = 0;

    aveluafi_repacketizer_init(&rp);
    for (int i = 0; i < 3; i++) {
        make(packets[i], bytes[i], TOC, (uint8_t)(0xa1 + i));
        needs("cat", aveluafi_repacketizer_cat(&rp, packets[i], (size_t)bytes[i], store, sizeof store));
        int held = aveluafi_repacketizer_get_nb_frames(&rp);
        printf("added %d bytes: %d frame%s held\n", bytes[i], held, held == 1 ? "" : "s");
        before += bytes[i];
    }

    /* A refusal changes nothing: the collector and its store are as they were, and can be used on. */
    uint8_t other[30];
    make(other, sizeof other, TOC | STEREO, 0xdd);
    struct aveluafi_report r = aveluafi_repacketizer_cat(&rp, other, sizeof other, store, sizeof store);
    printf("refused a packet with other TOC bits: %d, still %d frames held\n", (int)r.number, (int)aveluafi_repacketizer_get_nb_frames(&rp));

    /* A packet that cannot be read: the rule that it breaks, and the byte. Here the length of the first of two frames is cut short. */
    static const uint8_t broken[2] = {TOC | 2, 252};
    r = aveluafi_repacketizer_cat(&rp, broken, sizeof broken, store, sizeof store);
    printf("refused a packet that is cut short: invalid packet: RFC 6716 rule R%d at byte %d\n", r.rule, r.place);

    /* A strict add refuses a packet whose padding is not zeros, which packing would drop: one frame of one byte, and one padding byte, 07. */
    static const uint8_t dirty[5] = {TOC | 3, 0x41, 1, 0xaa, 0x07};
    r = aveluafi_repacketizer_cat_strict(&rp, dirty, sizeof dirty, store, sizeof store);
    printf("refused a packet with dirty padding: %d, still %d frames held\n", (int)r.number, (int)aveluafi_repacketizer_get_nb_frames(&rp));

    /* All frames held, as one packet in its shortest form. */
    int32_t packed = need("out", aveluafi_repacketizer_out(&rp, store, sizeof store, buffer, sizeof buffer));
    printf("packed 3 packets, %d bytes in all, into 1 packet of %d bytes\n", before, (int)packed);
    int more = packed - before;
    printf("reclaimed %d bytes on the wire: 2 headers of %d bytes fewer, %d byte more in the packet\n", 2 * HEADERS - more, HEADERS, more);

    /* Padding, as a sender at a constant rate adds it, and the same packet stripped of it where it stands. */
    needs("pad", aveluafi_packet_pad(buffer, sizeof buffer, packed, sizeof buffer));
    printf("padded to %d bytes\n", (int)sizeof buffer);
    int32_t stripped = needs("unpad", aveluafi_packet_unpad(buffer, sizeof buffer, sizeof buffer));
    printf("stripped to %d bytes in place\n", (int)stripped);
    printf("reclaimed %d bytes of padding\n", (int)sizeof buffer - (int)stripped);

    /* The first frame's place is answered; each next frame stands right behind the one before. */
    struct aveluafi_packet read = aveluafi_packet_parse(buffer, (size_t)stripped);
    need("parse", read.number);
    printf("read %d frames in %d bytes, TOC byte %d\n", (int)read.number, (int)read.packet_offset, read.toc);
    size_t at = read.payload_offset;
    for (int i = 0; i < read.number; i++) {
        printf("frame %d: %d bytes at %d, %s\n", i, read.lengths[i], (int)at, same(buffer + at, packets[i] + 1, read.lengths[i]));
        at += read.lengths[i];
    }

    /* Any range of the frames held can be written, again and again; here the second alone. */
    int32_t cut = need("out_range", aveluafi_repacketizer_out_range(&rp, store, sizeof store, 1, 2, buffer, sizeof buffer));
    printf("cut frame 1 out: a packet of %d bytes, %s\n", (int)cut, same(buffer, packets[1], (size_t)cut));

    /* Many ranges in one call, up to 48, their packets one behind another: here each frame by itself. If one is refused, nothing is written, and the answer
     * says which, from 1. */
    struct aveluafi_order orders[3] = {{0, 1, 0}, {1, 2, 0}, {2, 3, 0}};
    struct aveluafi_order_report cuts = aveluafi_repacketizer_out_many(&rp, store, sizeof store, orders, 3, buffer, (size_t)before - 1);
    if (cuts.number == AVELUAFI_BUFFER_TOO_SMALL)
        printf("refused 3 cuts into %d bytes: order %d: destination too small\n", before - 1, (int)cuts.position);
    cuts = aveluafi_repacketizer_out_many(&rp, store, sizeof store, orders, 3, buffer, (size_t)before);
    printf("made 3 cuts into %d bytes\n", (int)need("out_many", cuts.number));
    at = 0;
    for (int i = 0; i < 3; i++) {
        printf("order %d: a packet of %d bytes at %d, %s\n", i + 1, (int)orders[i].length, (int)at, same(buffer + at, packets[i], orders[i].length));
        at += orders[i].length;
    }

    /* Or the packets that were added, by their numbers: the refused ones have none, so the third that was accepted is number 2. */
    int32_t third = need("out_packet", aveluafi_repacketizer_out_packet(&rp, store, sizeof store, 2, buffer, sizeof buffer));
    printf("restored packet 2: %d bytes, %s\n", (int)third, same(buffer, packets[2], (size_t)third));
    printf("refused packet 3: %d\n", (int)aveluafi_repacketizer_out_packet(&rp, store, sizeof store, 3, buffer, sizeof buffer));
    return 0;
}
