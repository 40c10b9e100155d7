/* Walks a capture file from standard input: each record, what is in its packet and how short that packet could be, and the bytes that are in no
 * record. Over include/aveluafi.h. examples/run builds and runs it; walk.rs does the same in Rust and prints the same text. */
#include "aveluafi.h"

#include <stdio.h>
#include <string.h>

enum { MOST_CAPTURE = 1 << 20 };

/* The bytes that the packet has without padding, or the refusal. Unpad writes where it reads, so it gets a copy. */
static int32_t stripped(const uint8_t *packet, size_t n) {
    static uint8_t copy[AVELUAFI_MOST_PACKET];
    memcpy(copy, packet, n);
    return aveluafi_packet_unpad(copy, n, (int32_t)n).number;
}

static void show(const uint8_t *capture, struct aveluafi_record r) {
    const uint8_t *packet = capture + r.place + AVELUAFI_RECORD_HEAD;
    printf("record at %zu: line %d, %zu bytes, ", r.place, r.line, r.length);
    struct aveluafi_packet p = aveluafi_packet_parse(packet, r.length);
    if (p.number < 0)
        printf("invalid packet: RFC 6716 rule R%d at byte %d\n", p.rule, p.place);
    else
        printf("%d frame%s, %d without padding\n", (int)p.number, p.number == 1 ? "" : "s", (int)stripped(packet, r.length));
}

int main(void) {
    static uint8_t capture[MOST_CAPTURE];
    size_t n = fread(capture, 1, sizeof capture, stdin);
    if (ferror(stdin) || getchar() != EOF) {
        fprintf(stderr, "walk: standard input cannot be read, or has over %d bytes\n", MOST_CAPTURE);
        return 1;
    }
    size_t records = 0, passed = 0, at = 0;
    for (;;) {
        struct aveluafi_record r = aveluafi_next_record(capture, n, at);
        if (r.passed > 0)
            printf("passed over %zu byte%s at %zu\n", r.passed, r.passed == 1 ? "" : "s", at);
        passed += r.passed;
        if (r.length == 0)
            break;
        show(capture, r);
        records++;
        at = r.place + AVELUAFI_RECORD_HEAD + r.length;
    }
    printf("%zu records and %zu bytes passed over in %zu\n", records, passed, n);
    printf("a start past the end: %d\n", (int)aveluafi_next_record(capture, n, n + 1).number);
    return 0;
}
