/* Asks the archive through include/aveluafi.h for every field of every struct, each of a value of its own, and calls every call once; besides, the cases at
 * the edges that no program reaches (the others are in the folder edges); then every call that takes a pointer and a count, with NULL and 0. A line for each:
 * 'ok' or 'FAILED' and what it was. Ends with 1 where one failed. */
#include "aveluafi.h"

long write(int file, const void *bytes, size_t count);

static int failures;

static void text(const char *s) {
    size_t n = 0;
    while (s[n])
        n++;
    if (write(1, s, n) != (long)n)
        failures++;
}

static void number(long x) {
    char digits[24];
    int at = 24;
    unsigned long left = x < 0 ? -(unsigned long)x : (unsigned long)x;
    digits[--at] = 0;
    do
        digits[--at] = (char)('0' + left % 10);
    while ((left /= 10) > 0);
    if (x < 0)
        digits[--at] = '-';
    text(digits + at);
}

static void field(const char *what, const char *name, long found, long expected) {
    text(found == expected ? "ok " : "FAILED ");
    text(what);
    text(name);
    if (found != expected) {
        text(": ");
        number(found);
        text(", expected ");
        number(expected);
        failures++;
    }
    text("\n");
}

static void is(const char *what, long found, long expected) {
    field(what, "", found, expected);
}

static void reports(const char *what, struct aveluafi_report r, long number, long rule, long place) {
    field(what, ".number", r.number, number);
    field(what, ".rule", r.rule, rule);
    field(what, ".place", r.place, place);
}

static int zeros(const uint16_t *lengths, int from) {
    for (int i = from; i < AVELUAFI_MOST_FRAMES; i++)
        if (lengths[i] != 0)
            return 0;
    return 1;
}

/* Code 3, three frames of 6, 7 and 9 bytes, 4 bytes of padding: 5 bytes of head, 31 in all. */
static uint8_t packet[31] = {0x0B, 0xC3, 4, 6, 7};
static uint8_t store[AVELUAFI_LEAST_STORE], out[64];

static void reading(void) {
    static const uint8_t length[2] = {253, 2};
    struct aveluafi_size s = aveluafi_parse_size(length, 2, 7);
    is("size.number", s.number, 2);
    is("size.size", s.size, 261);
    is("size has no rule and no place", s.rule == 0 && s.place == 0, 1);
    s = aveluafi_parse_size(length, 1, 8);
    is("size.number refused", s.number, AVELUAFI_BAD_ARG);
    is("size.rule refused", s.rule, 8);
    is("size.place refused", s.place, 0);
    is("size.size refused", s.size, 0);
    s = aveluafi_parse_size(length, 1, 5);
    is("size told rule 5", s.number == AVELUAFI_BAD_ARG && s.rule == 0 && s.place == 0 && s.size == 0, 1);
    is("encode_size", aveluafi_encode_size(261, out, 2), 2);
    is("encode_size first", out[0], 253);
    is("encode_size second", out[1], 2);

    struct aveluafi_packet p = aveluafi_packet_parse(packet, sizeof packet);
    is("packet.number", p.number, 3);
    is("packet has no rule and no place", p.rule == 0 && p.place == 0, 1);
    is("packet.toc", p.toc, 0x0B);
    is("packet.lengths[0]", p.lengths[0], 6);
    is("packet.lengths[1]", p.lengths[1], 7);
    is("packet.lengths[2]", p.lengths[2], 9);
    is("packet.lengths behind", zeros(p.lengths, 3), 1);
    is("packet.payload_offset", (long)p.payload_offset, 5);
    is("packet.packet_offset", (long)p.packet_offset, 31);
    /* the same bytes self-delimited: no padding, the last length in the head, a byte behind */
    static const uint8_t own[] = {0x0B, 0x82, 1, 2, 10, 11, 12, 99};
    p = aveluafi_packet_parse_impl(own, sizeof own, true);
    is("packet_parse_impl number", p.number, 2);
    is("packet_parse_impl packet_offset", (long)p.packet_offset, 7);
    /* the second length is longer than what is behind it */
    static const uint8_t broken[] = {0x0B, 0x83, 1, 200, 10, 11, 12};
    p = aveluafi_packet_parse(broken, sizeof broken);
    is("packet.number refused", p.number, AVELUAFI_INVALID_PACKET);
    is("packet.rule refused", p.rule, 7);
    is("packet.place refused", p.place, 3);
    is("packet refused is zeros", p.toc == 0 && zeros(p.lengths, 0) && p.payload_offset == 0 && p.packet_offset == 0, 1);
    is("packet_get_nb_frames", aveluafi_packet_get_nb_frames(packet, sizeof packet), 3);
    is("packet_get_samples_per_frame", aveluafi_packet_get_samples_per_frame(packet, sizeof packet, 8000), 160);
}

static void collecting(void) {
    struct aveluafi_repacketizer rp;
    uint8_t *bytes = (uint8_t *)&rp;
    for (size_t i = 0; i < sizeof rp; i++)
        bytes[i] = 0xA5;
    aveluafi_repacketizer_init(&rp);
    is("repacketizer empty is zeros", rp.toc == 0 && rp.nb_frames == 0 && rp.framesize == 0 && zeros(rp.len, 0) && rp.packet[0] == 0 && rp.packet[47] == 0, 1);
    reports("repacketizer_cat", aveluafi_repacketizer_cat(&rp, packet, sizeof packet, store, sizeof store), AVELUAFI_OK, 0, 0);
    is("repacketizer.toc", rp.toc, 0x0B);
    is("repacketizer.nb_frames", rp.nb_frames, 3);
    is("repacketizer.framesize", rp.framesize, 160);
    is("repacketizer.len[0]", rp.len[0], 6);
    is("repacketizer.len[1]", rp.len[1], 7);
    is("repacketizer.len[2]", rp.len[2], 9);
    is("repacketizer.len behind", zeros(rp.len, 3), 1);
    reports("repacketizer_cat broken", aveluafi_repacketizer_cat(&rp, packet, 3, store, sizeof store), AVELUAFI_INVALID_PACKET, 7, 2);
    /* one frame of one byte and one padding byte, zero and not; the frames held stay 3, and 20 ms more go with them */
    static const uint8_t dirty[] = {0x0B, 0x41, 1, 10, 7};
    reports("repacketizer_cat_strict dirty", aveluafi_repacketizer_cat_strict(&rp, dirty, sizeof dirty, store, sizeof store), AVELUAFI_DIRTY_PADDING, 0, 0);
    is("repacketizer_cat_strict dirty holds", rp.nb_frames, 3);
    reports("repacketizer_cat_strict broken", aveluafi_repacketizer_cat_strict(&rp, packet, 3, store, sizeof store), AVELUAFI_INVALID_PACKET, 7, 2);
    is("repacketizer_get_nb_frames", aveluafi_repacketizer_get_nb_frames(&rp), 3);
    is("repacketizer_out", aveluafi_repacketizer_out(&rp, store, sizeof store, out, sizeof out), 26);
    is("repacketizer_out_range", aveluafi_repacketizer_out_range(&rp, store, sizeof store, 1, 2, out, sizeof out), 8);
    is("repacketizer_out_range_impl", aveluafi_repacketizer_out_range_impl(&rp, store, sizeof store, 1, 2, out, sizeof out, true, false), 9);
    is("repacketizer_out_range_impl padded", aveluafi_repacketizer_out_range_impl(&rp, store, sizeof store, 1, 2, out, 40, false, true), 40);
    static const uint8_t clean[] = {0x0B, 0x41, 1, 10, 0};
    reports("repacketizer_cat_strict", aveluafi_repacketizer_cat_strict(&rp, clean, sizeof clean, store, sizeof store), AVELUAFI_OK, 0, 0);
    is("repacketizer_cat_strict holds", rp.nb_frames, 4);
    is("repacketizer.packet", rp.packet[0] == 0 && rp.packet[2] == 0 && rp.packet[3] == 1 && rp.packet[4] == 0, 1);
    is("repacketizer size", sizeof rp, 150);
    is("repacketizer_out_packet", aveluafi_repacketizer_out_packet(&rp, store, sizeof store, 1, out, sizeof out), 2);
    is("repacketizer_out_packet bytes", out[0] == 0x08 && out[1] == 10, 1);
    is("repacketizer_out_packet room", aveluafi_repacketizer_out_packet(&rp, store, sizeof store, 0, out, 25), AVELUAFI_BUFFER_TOO_SMALL);
    is("repacketizer_out_packet not held", aveluafi_repacketizer_out_packet(&rp, store, sizeof store, 2, out, 0), AVELUAFI_BAD_ARG);
    rp.packet[3] = 2;
    is("repacketizer unsound numbers", aveluafi_repacketizer_get_nb_frames(&rp), AVELUAFI_INVALID_STATE);
    rp.nb_frames = 49;
    is("repacketizer unsound", aveluafi_repacketizer_get_nb_frames(&rp), AVELUAFI_INVALID_STATE);
}

/* ---- many cuts in one call */

enum { UNSET = 0xEE };
static struct aveluafi_order orders[AVELUAFI_MOST_ORDERS + 1], given[AVELUAFI_MOST_ORDERS + 1];
static uint8_t cuts[AVELUAFI_MOST_PACKET + 1];

/* Makes all orders those of begins and ends, the last of them again and again. */
static void order(int n, const int32_t ranges[][2]) {
    for (int i = 0; i <= AVELUAFI_MOST_ORDERS; i++) {
        orders[i].begin = ranges[i < n ? i : n - 1][0];
        orders[i].end = ranges[i < n ? i : n - 1][1];
        orders[i].length = UNSET;
        given[i] = orders[i];
    }
}

/* Whether begin and end of every order, the lengths from the n-th order on and the bytes from a place on are as they were. */
static int stays(size_t n, size_t bytes) {
    for (size_t i = 0; i <= AVELUAFI_MOST_ORDERS; i++)
        if (orders[i].begin != given[i].begin || orders[i].end != given[i].end || (i >= n && orders[i].length != given[i].length))
            return 0;
    for (size_t i = bytes; i < sizeof cuts; i++)
        if (cuts[i] != UNSET)
            return 0;
    return 1;
}

/* The first n orders into so much room; a refusal leaves the list and the destination, an answer what stands behind the total. */
static void cuts_to(const char *what, const struct aveluafi_repacketizer *rp, size_t lent, size_t n, size_t room, long number, long position) {
    for (size_t i = 0; i < sizeof cuts; i++)
        cuts[i] = UNSET;
    struct aveluafi_order_report r = aveluafi_repacketizer_out_many(rp, store, lent, orders, n, cuts, room);
    field(what, ".number", r.number, number);
    field(what, ".position", (long)r.position, position);
    if (number < 0) {
        field(what, " leaves list and destination", stays(0, 0), 1);
        return;
    }
    long sum = 0;
    for (size_t i = 0; i < n; i++)
        sum += (long)orders[i].length;
    field(what, ".number is the sum of the lengths", sum, number);
    field(what, " leaves the rest of list and destination", stays(n, (size_t)number), 1);
}

static void cutting(void) {
    is("order size", sizeof(struct aveluafi_order), 12);
    is("order.begin at", offsetof(struct aveluafi_order, begin), 0);
    is("order.end at", offsetof(struct aveluafi_order, end), 4);
    is("order.length at", offsetof(struct aveluafi_order, length), 8);
    is("order_report size", sizeof(struct aveluafi_order_report), 8);
    is("order_report.number at", offsetof(struct aveluafi_order_report, number), 0);
    is("order_report.position at", offsetof(struct aveluafi_order_report, position), 4);
    static const uint8_t first[] = {0, 0xAA}, second[] = {0, 0xBB, 0xCC}, third[] = {1, 0xDD, 0xEE};
    struct aveluafi_repacketizer rp;
    aveluafi_repacketizer_init(&rp);
    order(1, (const int32_t[][2]){{0, 1}});
    cuts_to("out_many nothing held, no order", &rp, sizeof store, 0, 5, 0, 0);
    cuts_to("out_many nothing held, one order", &rp, sizeof store, 1, 5, AVELUAFI_BAD_ARG, 1);
    is("repacketizer_cat first", aveluafi_repacketizer_cat(&rp, first, sizeof first, store, sizeof store).number, AVELUAFI_OK);
    is("repacketizer_cat second", aveluafi_repacketizer_cat(&rp, second, sizeof second, store, sizeof store).number, AVELUAFI_OK);
    is("repacketizer_cat third", aveluafi_repacketizer_cat(&rp, third, sizeof third, store, sizeof store).number, AVELUAFI_OK);
    cuts_to("out_many no order", &rp, sizeof store, 0, 5, 0, 0);
    cuts_to("out_many no order, no room", &rp, sizeof store, 0, 0, 0, 0);

    order(2, (const int32_t[][2]){{0, 1}, {1, 2}});
    cuts_to("out_many two frames", &rp, sizeof store, 2, 5, 5, 0);
    is("order.length first", orders[0].length, 2);
    is("order.length second", orders[1].length, 3);
    is("out_many bytes", cuts[0] == 0 && cuts[1] == 0xAA && cuts[2] == 0 && cuts[3] == 0xBB && cuts[4] == 0xCC, 1);
    order(2, (const int32_t[][2]){{0, 1}, {1, 2}});
    cuts_to("out_many a room of 4", &rp, sizeof store, 2, 4, AVELUAFI_BUFFER_TOO_SMALL, 2);
    cuts_to("out_many a room of 1", &rp, sizeof store, 2, 1, AVELUAFI_BUFFER_TOO_SMALL, 1);
    order(3, (const int32_t[][2]){{0, 4}, {0, 4}, {2, 3}});
    cuts_to("out_many ranges that repeat and overlap", &rp, sizeof store, 3, 64, 22, 0);
    is("order.length all", orders[0].length == 10 && orders[1].length == 10 && orders[2].length == 2, 1);
    order(2, (const int32_t[][2]){{0, 1}, {1, 1}});
    cuts_to("out_many a range of nothing", &rp, sizeof store, 2, 5, AVELUAFI_BAD_ARG, 2);
    order(3, (const int32_t[][2]){{0, 1}, {0, 4}, {9, 9}});
    cuts_to("out_many too long before a wrong range", &rp, sizeof store, 3, 6, AVELUAFI_BUFFER_TOO_SMALL, 2);
    order(2, (const int32_t[][2]){{0, 1}, {0, 5}});
    cuts_to("out_many more than is held, without room", &rp, sizeof store, 2, 2, AVELUAFI_BAD_ARG, 2);
    order(1, (const int32_t[][2]){{-1, 1}});
    cuts_to("out_many a negative begin", &rp, sizeof store, 1, 5, AVELUAFI_BAD_ARG, 1);
    order(1, (const int32_t[][2]){{0, 1}});
    cuts_to("out_many 48 orders", &rp, sizeof store, 48, 96, 96, 0);
    order(1, (const int32_t[][2]){{0, 1}});
    cuts_to("out_many 48 orders, a byte too few", &rp, sizeof store, 48, 95, AVELUAFI_BUFFER_TOO_SMALL, 48);
    order(1, (const int32_t[][2]){{0, 1}});
    cuts_to("out_many 49 orders", &rp, sizeof store, 49, 98, AVELUAFI_BAD_ARG, 0);
    order(1, (const int32_t[][2]){{0, 1}});
    cuts_to("out_many a destination of 65,535", &rp, sizeof store, 1, AVELUAFI_MOST_PACKET, 2, 0);
    /* one thing wrong after another, each before those that follow */
    order(1, (const int32_t[][2]){{9, 9}});
    cuts_to("out_many a wrong range before 49 orders", &rp, sizeof store, 49, 5, AVELUAFI_BAD_ARG, 0);
    cuts_to("out_many a destination of 65,536", &rp, sizeof store, 1, AVELUAFI_MOST_PACKET + 1, AVELUAFI_BAD_ARG, 0);
    cuts_to("out_many a short store", &rp, sizeof store - 1, 1, 5, AVELUAFI_BAD_ARG, 0);
    cuts_to("out_many a short store, no order", &rp, sizeof store - 1, 0, 5, AVELUAFI_BAD_ARG, 0);
    rp.nb_frames = 49;
    cuts_to("out_many unsound", &rp, sizeof store, 1, 5, AVELUAFI_INVALID_STATE, 0);
    cuts_to("out_many unsound, all wrong", &rp, 0, 49, AVELUAFI_MOST_PACKET + 1, AVELUAFI_INVALID_STATE, 0);
}

/* ---- all frames held, and ranges of them */

/* What an output answered and left in `out`, which was 238 throughout: the packet expected, or nothing beside a refusal. */
static void written_as(const char *what, long found, long number, const uint8_t *expected) {
    field(what, ".number", found, number);
    size_t wrong = 0;
    for (size_t i = 0; i < sizeof out; i++)
        wrong += out[i] != ((long)i < number ? expected[i] : UNSET);
    field(what, " bytes", (long)wrong, 0);
}

static uint8_t *unset(void) {
    for (size_t i = 0; i < sizeof out; i++)
        out[i] = UNSET;
    return out;
}

/* Document 01's two packets; replay, which has the call with a delimiting and padding, answers the same (edges/collecting.txt). */
static void writing(void) {
    static const uint8_t first[] = {0, 0xAA}, second[] = {0, 0xBB, 0xCC}, both[] = {2, 1, 0xAA, 0xBB, 0xCC};
    struct aveluafi_repacketizer rp;
    aveluafi_repacketizer_init(&rp);
    is("repacketizer_cat 00 AA", aveluafi_repacketizer_cat(&rp, first, sizeof first, store, sizeof store).number, AVELUAFI_OK);
    is("repacketizer_cat 00 BB CC", aveluafi_repacketizer_cat(&rp, second, sizeof second, store, sizeof store).number, AVELUAFI_OK);
    written_as("repacketizer_out of both", aveluafi_repacketizer_out(&rp, store, sizeof store, unset(), 5), 5, both);
    written_as("repacketizer_out, a byte too few", aveluafi_repacketizer_out(&rp, store, sizeof store, unset(), 4), AVELUAFI_BUFFER_TOO_SMALL, NULL);
    written_as("repacketizer_out_range 1 2", aveluafi_repacketizer_out_range(&rp, store, sizeof store, 1, 2, unset(), 3), 3, second);
    written_as("repacketizer_out_range 0 1", aveluafi_repacketizer_out_range(&rp, store, sizeof store, 0, 1, unset(), 3), 2, first);
    written_as("repacketizer_out_range 1 1", aveluafi_repacketizer_out_range(&rp, store, sizeof store, 1, 1, unset(), 3), AVELUAFI_BAD_ARG, NULL);
    written_as("repacketizer_out_range 0 3", aveluafi_repacketizer_out_range(&rp, store, sizeof store, 0, 3, unset(), 3), AVELUAFI_BAD_ARG, NULL);
    written_as("repacketizer_out_range -1 1", aveluafi_repacketizer_out_range(&rp, store, sizeof store, -1, 1, unset(), 3), AVELUAFI_BAD_ARG, NULL);
}

static void in_place(void) {
    for (size_t i = 0; i < sizeof packet; i++)
        out[i] = packet[i];
    reports("packet_pad", aveluafi_packet_pad(out, sizeof out, 31, 40), AVELUAFI_OK, 0, 0);
    reports("packet_unpad", aveluafi_packet_unpad(out, sizeof out, 40), 26, 0, 0);
    reports("multistream_packet_pad", aveluafi_multistream_packet_pad(out, sizeof out, 26, 50, 1), AVELUAFI_OK, 0, 0);
    reports("multistream_packet_unpad", aveluafi_multistream_packet_unpad(out, sizeof out, 50, 1), 26, 0, 0);
    /* one stream of three bytes, then a second one without its count byte */
    static uint8_t streams[5] = {0, 1, 0xAA, 3};
    reports("packet_pad broken", aveluafi_packet_pad(streams + 3, 2, 1, 2), AVELUAFI_INVALID_PACKET, 5, 1);
    reports("packet_unpad broken", aveluafi_packet_unpad(streams + 3, 2, 1), AVELUAFI_INVALID_PACKET, 5, 1);
    reports("multistream_packet_pad broken", aveluafi_multistream_packet_pad(streams, 5, 4, 5, 2), AVELUAFI_INVALID_PACKET, 5, 4);
    reports("multistream_packet_unpad broken", aveluafi_multistream_packet_unpad(streams, 5, 4, 2), AVELUAFI_INVALID_PACKET, 5, 4);
}

static uint8_t joint[512];

/* joins packets into a destination of room bytes that was 238 throughout; expected is what its front must hold */
static void joins(const char *what, const uint8_t *data, size_t bytes, const uint16_t *lengths, size_t n, size_t room, struct aveluafi_report must,
                  const uint8_t *expected) {
    for (size_t i = 0; i < sizeof joint; i++)
        joint[i] = 238;
    reports(what, aveluafi_multistream_join(data, bytes, lengths, n, joint, room), must.number, must.rule, must.place);
    size_t wrong = 0;
    for (size_t i = 0; i < sizeof joint; i++)
        wrong += joint[i] != (must.number > 0 && i < (size_t)must.number ? expected[i] : 238);
    is(what, (long)wrong, 0);
}

/* the same of a stream taken out */
static void takes(const char *what, const uint8_t *data, size_t bytes, int32_t streams, int32_t k, size_t room, struct aveluafi_report must,
                  const uint8_t *expected) {
    for (size_t i = 0; i < sizeof joint; i++)
        joint[i] = 238;
    reports(what, aveluafi_multistream_take(data, bytes, streams, k, joint, room), must.number, must.rule, must.place);
    size_t wrong = 0;
    for (size_t i = 0; i < sizeof joint; i++)
        wrong += joint[i] != (must.number > 0 && i < (size_t)must.number ? expected[i] : 238);
    is(what, (long)wrong, 0);
}

static void streams(void) {
    typedef struct aveluafi_report report;
    const report bad = {AVELUAFI_BAD_ARG, 0, 0}, unequal = {AVELUAFI_INVALID_PACKET, 0, 0}, small = {AVELUAFI_BUFFER_TOO_SMALL, 0, 0};
    static const uint8_t two[] = {0, 0xAA, 0, 0xBB, 0xCC}, joined[] = {0, 1, 0xAA, 0, 0xBB, 0xCC};
    joins("join", two, 5, (const uint16_t[]){2, 3}, 2, sizeof joint, (report){6, 0, 0}, joined);
    joins("join exactly", two, 5, (const uint16_t[]){2, 3}, 2, 6, (report){6, 0, 0}, joined);
    joins("join into 5", two, 5, (const uint16_t[]){2, 3}, 2, 5, small, NULL);
    joins("join a short sum", two, 5, (const uint16_t[]){2, 2}, 2, sizeof joint, bad, NULL);
    joins("join a long sum", two, 5, (const uint16_t[]){2, 4}, 2, sizeof joint, bad, NULL);
    joins("join none", two, 0, NULL, 0, sizeof joint, bad, NULL);
    /* 20 ms by two frames and by one */
    static const uint8_t times[] = {1, 0xAA, 0xBB, 8, 0xCC}, both[] = {1, 1, 0xAA, 0xBB, 8, 0xCC};
    joins("join two configurations", times, 5, (const uint16_t[]){3, 2}, 2, sizeof joint, (report){6, 0, 0}, both);
    joins("join other times", (const uint8_t[]){0, 0xAA, 8, 0xBB}, 4, (const uint16_t[]){2, 2}, 2, sizeof joint, unequal, NULL);
    joins("join an unreadable one", (const uint8_t[]){0, 0xAA, 3, 0, 1, 0xAA}, 6, (const uint16_t[]){2, 2, 2}, 3, sizeof joint,
          (report){AVELUAFI_INVALID_PACKET, 5, 3}, NULL);
    joins("join an empty one", two, 2, (const uint16_t[]){2, 0}, 2, sizeof joint, (report){AVELUAFI_INVALID_PACKET, 1, 2}, NULL);
    /* an ordinary packet without a byte in its frame, 256 times */
    static const uint8_t empties[256];
    static uint16_t ones[256];
    static uint8_t all[509];
    for (size_t i = 0; i < 256; i++)
        ones[i] = 1;
    joins("join 255", empties, 255, ones, 255, 509, (report){509, 0, 0}, all);
    joins("join 256", empties, 256, ones, 256, 511, bad, NULL);
    takes("take the first", joined, 6, 2, 0, sizeof joint, (report){2, 0, 0}, two);
    takes("take the last", joined, 6, 2, 1, 3, (report){3, 0, 0}, two + 2);
    takes("take into 2", joined, 6, 2, 1, 2, small, NULL);
    takes("take stream 2 of 2", joined, 6, 2, 2, 0, bad, NULL);
    takes("take stream -1", joined, 6, 2, -1, 0, bad, NULL);
    takes("take of no stream", joined, 6, 0, 0, 0, bad, NULL);
    takes("take of 256 streams", joined, 6, 256, 0, 0, bad, NULL);
    takes("take of other times", (const uint8_t[]){0, 1, 0xAA, 8, 0xBB}, 5, 2, 0, 0, unequal, NULL);
    takes("take before an unreadable one", (const uint8_t[]){0, 1, 0xAA, 3}, 4, 2, 0, 0, (report){AVELUAFI_INVALID_PACKET, 5, 4}, NULL);
}

static void judging(void) {
    static const uint8_t dirty[] = {3, 0x41, 1, 0xAA, 7}, longer[] = {3, 0x41, 1, 0xAA, 0}, self[] = {0, 1, 0xAA, 0x55, 0x66};
    struct aveluafi_verdict v = aveluafi_packet_judge(packet, 3, false);
    is("verdict unreadable", v.number == 0 && v.verdict == AVELUAFI_UNREADABLE && v.rule == 7 && v.place == 2 && v.least == 0, 1);
    v = aveluafi_packet_judge(dirty, sizeof dirty, false);
    is("verdict dirty", v.number == 0 && v.verdict == AVELUAFI_DIRTY && v.rule == 0 && v.place == 0 && v.least == 0, 1);
    v = aveluafi_packet_judge(longer, sizeof longer, false);
    is("verdict longer", v.number == 0 && v.verdict == AVELUAFI_LONGER && v.rule == 0 && v.place == 0 && v.least == 2, 1);
    v = aveluafi_packet_judge(self, sizeof self, true);
    is("verdict clean", v.number == 0 && v.verdict == AVELUAFI_CLEAN && v.rule == 0 && v.place == 0 && v.least == 0, 1);
    static const uint8_t long_one[65536];
    v = aveluafi_packet_judge(long_one, sizeof long_one, false);
    is("verdict refused is zeros", v.number == AVELUAFI_BAD_ARG && v.verdict == 0 && v.rule == 0 && v.place == 0 && v.least == 0, 1);
    v = aveluafi_packet_judge(NULL, 0, true);
    is("NULL packet_judge", v.number == 0 && v.verdict == AVELUAFI_UNREADABLE && v.rule == 1 && v.place == 0, 1);
}

/* The record, or none, from a start place on. */
static void finds(const char *what, const uint8_t *data, size_t n, size_t start, struct aveluafi_record must) {
    struct aveluafi_record r = aveluafi_next_record(data, n, start);
    is(what, r.number == must.number && r.line == must.line && r.place == must.place && r.length == must.length && r.passed == must.passed, 1);
}

static void captures(void) {
    static const uint8_t file[] = {1, 2, 3, 4, 5, 0x4B, 0x9D, 41, 0, 6, 20, 21, 22, 23, 24, 25, 7};
    struct aveluafi_record r = aveluafi_next_record(file, sizeof file, 2);
    is("record.number", r.number, 0);
    is("record.line", r.line, 41);
    is("record.place", (long)r.place, 5);
    is("record.length", (long)r.length, 6);
    is("record.passed", (long)r.passed, 3);
    r = aveluafi_next_record(file, sizeof file, 16);
    is("record none", r.number == 0 && r.line == 0 && r.place == 17 && r.length == 0 && r.passed == 1, 1);
    r = aveluafi_next_record(file, sizeof file, 18);
    is("record.number refused", r.number, AVELUAFI_BAD_ARG);
    is("record refused is zeros", r.line == 0 && r.place == 0 && r.length == 0 && r.passed == 0, 1);

    /* start places (document 02, M-101): a byte, a record of two bytes, a byte that could begin a mark */
    typedef struct aveluafi_record record;
    static const uint8_t one[9] = {0, 0x4B, 0x9D, 1, 0, 2, 0xAA, 0xBB, 0x4B};
    const record past = {AVELUAFI_BAD_ARG, 0, 0, 0, 0};
    finds("record from 0", one, sizeof one, 0, (record){0, 1, 1, 2, 1});
    finds("record from its mark", one, sizeof one, 1, (record){0, 1, 1, 2, 0});
    finds("record from within it", one, sizeof one, 2, (record){0, 0, 9, 0, 7});
    finds("record from behind it", one, sizeof one, 8, (record){0, 0, 9, 0, 1});
    finds("record from the end", one, sizeof one, 9, (record){0, 0, 9, 0, 0});
    finds("record from past the end", one, sizeof one, 10, past);
    finds("record from the greatest place", one, sizeof one, (size_t)-1, past);
    finds("record in nothing", one, 0, 0, (record){0, 0, 0, 0, 0});
    const uint8_t *lent = one + aveluafi_next_record(one, sizeof one, 0).place + AVELUAFI_RECORD_HEAD;
    is("record's packet behind its head", lent[0] == 0xAA && lent[1] == 0xBB, 1);
    /* the longest packet, and the same without its last byte */
    static const uint8_t full[AVELUAFI_MOST_RECORD] = {0x4B, 0x9D, 7, 255, 255};
    finds("record of 65,535 bytes", full, sizeof full, 0, (record){0, 7, 0, 65535, 0});
    finds("record of 65,535 bytes, cut", full, sizeof full - 1, 0, (record){0, 0, 65539, 0, 65539});
}

/* ---- compaction by shares */

/* Three records: two frames as code 3, which are a byte shorter as code 1; a packet that cannot be read; a compact one. Behind the first stand two bytes that
 * could begin a mark, behind the last a zero. */
static const uint8_t capture[26] = {0x4B, 0x9D, 1, 0, 4, 3, 2, 0xAA, 0xBB, 0x4B, 0x4B, 0x4B, 0x9D, 2, 0, 2, 3, 0, 0x4B, 0x9D, 3, 0, 2, 0, 0xAA, 0};
static const uint8_t compacted[22] = {0x4B, 0x9D, 1, 0, 3, 1, 0xAA, 0xBB, 0x4B, 0x9D, 2, 0, 2, 3, 0, 0x4B, 0x9D, 3, 0, 2, 0, 0xAA};
static uint8_t dst[AVELUAFI_MOST_RECORD + 60], longest[AVELUAFI_MOST_RECORD + 26];

/* Whether dst has these bytes in front, and behind them what it had. */
static int holds(const uint8_t *bytes, size_t n) {
    for (size_t i = 0; i < sizeof dst; i++)
        if (dst[i] != (i < n ? bytes[i] : UNSET))
            return 0;
    return 1;
}

static struct aveluafi_share shared(const uint8_t *data, size_t n, size_t start, size_t room, size_t budget) {
    for (size_t i = 0; i < sizeof dst; i++)
        dst[i] = UNSET;
    return aveluafi_compact(data, n, start, dst, room, budget);
}

static void tells(const char *what, struct aveluafi_share s, long resume, long records, long written, long reclaimed, long passed) {
    field(what, ".number", s.number, AVELUAFI_OK);
    field(what, ".resume", (long)s.resume, resume);
    field(what, ".records", (long)s.records, records);
    field(what, ".written", (long)s.written, written);
    field(what, ".reclaimed", (long)s.reclaimed, reclaimed);
    field(what, ".passed", (long)s.passed, passed);
}

/* A refusal is zeros, and leaves the destination. */
static void refuses(const char *what, struct aveluafi_share s, long number) {
    field(what, ".number", s.number, number);
    field(what, " is zeros", s.resume == 0 && s.records == 0 && s.written == 0 && s.reclaimed == 0 && s.passed == 0, 1);
    field(what, " leaves the destination", holds(NULL, 0), 1);
}

static void compacting(void) {
    is("share size", sizeof(struct aveluafi_share), 48);
    is("share.number at", offsetof(struct aveluafi_share, number), 0);
    is("share.resume at", offsetof(struct aveluafi_share, resume), 8);
    is("share.records at", offsetof(struct aveluafi_share, records), 16);
    is("share.written at", offsetof(struct aveluafi_share, written), 24);
    is("share.reclaimed at", offsetof(struct aveluafi_share, reclaimed), 32);
    is("share.passed at", offsetof(struct aveluafi_share, passed), 40);

    tells("compact budget 99", shared(capture, 26, 0, 99, 99), 26, 3, 22, 1, 3);
    is("compact budget 99 bytes", holds(compacted, 22), 1);
    tells("compact budget 22", shared(capture, 26, 0, 22, 22), 26, 3, 22, 1, 3);
    is("compact budget 22 bytes", holds(compacted, 22), 1);
    tells("compact budget 8", shared(capture, 26, 0, 8, 8), 11, 1, 8, 1, 2);
    is("compact budget 8 bytes", holds(compacted, 8), 1);
    tells("compact budget 14", shared(capture, 26, 0, 14, 14), 11, 1, 8, 1, 2);
    is("compact budget 14 bytes", holds(compacted, 8), 1);
    refuses("compact budget 7", shared(capture, 26, 0, 7, 7), AVELUAFI_OVER_BUDGET);
    refuses("compact budget 7, a longer destination", shared(capture, 26, 0, 99, 7), AVELUAFI_OVER_BUDGET);
    tells("compact budget 15", shared(capture, 26, 0, 15, 15), 18, 2, 15, 1, 2);
    is("compact budget 15 bytes", holds(compacted, 15), 1);
    tells("compact budget 15, a longer destination", shared(capture, 26, 0, 99, 15), 18, 2, 15, 1, 2);
    is("compact budget 15, a longer destination bytes", holds(compacted, 15), 1);
    refuses("compact start 11 budget 6", shared(capture, 26, 11, 6, 6), AVELUAFI_OVER_BUDGET);
    /* resumed behind budget 8: the rest of the same bytes */
    tells("compact start 11 budget 8", shared(capture, 26, 11, 8, 8), 18, 1, 7, 0, 0);
    is("compact start 11 budget 8 bytes", holds(compacted + 8, 7), 1);
    tells("compact start 18 budget 8", shared(capture, 26, 18, 8, 8), 26, 1, 7, 0, 1);
    is("compact start 18 budget 8 bytes", holds(compacted + 15, 7), 1);
    tells("compact start 25 budget 0", shared(capture, 26, 25, 0, 0), 26, 0, 0, 0, 1);
    is("compact start 25 budget 0 bytes", holds(NULL, 0), 1);
    tells("compact start 26 budget 0", shared(capture, 26, 26, 0, 0), 26, 0, 0, 0, 0);
    is("compact start 26 budget 0 bytes", holds(NULL, 0), 1);
    refuses("compact start 0 budget 0", shared(capture, 26, 0, 0, 0), AVELUAFI_OVER_BUDGET);
    /* one thing wrong after another, each before those that follow */
    refuses("compact start 27, destination 0, budget 5", shared(capture, 26, 27, 0, 5), AVELUAFI_BAD_ARG);
    refuses("compact destination 5, budget 6", shared(capture, 26, 0, 5, 6), AVELUAFI_BUFFER_TOO_SMALL);
    refuses("compact start 26, destination 5, budget 6", shared(capture, 26, 26, 5, 6), AVELUAFI_BUFFER_TOO_SMALL);

    /* the longest record, of a packet that cannot be read, and the three behind it: a capture, a destination and counts above 65,535 */
    longest[0] = 0x4B, longest[1] = 0x9D, longest[2] = 9, longest[3] = 0xFF, longest[4] = 0xFF;
    for (size_t i = 0; i < sizeof capture; i++)
        longest[AVELUAFI_MOST_RECORD + i] = capture[i];
    refuses("compact the longest record, a byte too few", shared(longest, sizeof longest, 0, sizeof dst, AVELUAFI_MOST_RECORD - 1), AVELUAFI_OVER_BUDGET);
    tells("compact the longest record", shared(longest, sizeof longest, 0, AVELUAFI_MOST_RECORD, AVELUAFI_MOST_RECORD), 65540, 1, 65540, 0, 0);
    is("compact the longest record bytes", holds(longest, AVELUAFI_MOST_RECORD), 1);
    tells("compact all behind it", shared(longest, sizeof longest, 0, sizeof dst, sizeof dst), 65566, 4, 65562, 1, 3);
    for (size_t i = 0; i < sizeof compacted; i++)
        longest[AVELUAFI_MOST_RECORD + i] = compacted[i];
    is("compact all behind it bytes", holds(longest, 65562), 1);
}

/* ---- identification headers */

/* The header of version 1 with these channels, pre-skip 312, 48,000 Hz, gain -256 and this family; the streams and the mapping are put behind it. */
static uint8_t header[AVELUAFI_MOST_HEAD + 1], written[AVELUAFI_MOST_HEAD + 9];

static void header_of(uint8_t version, uint8_t channels, uint8_t family) {
    static const uint8_t front[19] = {'O', 'p', 'u', 's', 'H', 'e', 'a', 'd', 1, 2, 0x38, 0x01, 0x80, 0xBB, 0, 0, 0, 0xFF, 0};
    for (size_t i = 0; i < sizeof header; i++)
        header[i] = i < sizeof front ? front[i] : 0;
    header[8] = version, header[9] = channels, header[18] = family;
}

/* Of a family that has them, with each channel at its own place. */
static void streams_of(uint8_t streams, uint8_t coupled) {
    header[19] = streams, header[20] = coupled;
    for (size_t i = 0; i < header[9]; i++)
        header[21 + i] = (uint8_t)i;
}

static int same_head(const struct aveluafi_head *a, const struct aveluafi_head *b) {
    for (size_t i = 0; i < sizeof a->mapping; i++)
        if (a->mapping[i] != b->mapping[i])
            return 0;
    return a->version == b->version && a->channels == b->channels && a->pre_skip == b->pre_skip && a->rate == b->rate && a->gain == b->gain
           && a->family == b->family && a->streams == b->streams && a->coupled == b->coupled;
}

/* The first n bytes of the header are refused, beside zeros. */
static void refuses_head(const char *what, size_t n, long number) {
    static const struct aveluafi_head none;
    struct aveluafi_head_record r = aveluafi_head_read(header, n);
    field(what, ".number", r.number, number);
    field(what, " is zeros", same_head(&r.head, &none), 1);
}

/* They are read, with version, channels, family, streams and coupled streams that are told, and the other fields of `header_of`. The mapping: the bytes of the
 * channels at `entries`, then zeros. */
static struct aveluafi_head reads_head(const char *what, size_t n, uint8_t streams, uint8_t coupled, const uint8_t *entries) {
    struct aveluafi_head_record r = aveluafi_head_read(header, n);
    field(what, ".number", r.number, AVELUAFI_OK);
    field(what, ".version", r.head.version, header[8]);
    field(what, ".channels", r.head.channels, header[9]);
    field(what, ".pre_skip", r.head.pre_skip, 312);
    field(what, ".rate", r.head.rate, 48000);
    field(what, ".gain", r.head.gain, -256);
    field(what, ".family", r.head.family, header[18]);
    field(what, ".streams", r.head.streams, streams);
    field(what, ".coupled", r.head.coupled, coupled);
    long wrong = 0;
    for (size_t i = 0; i < sizeof r.head.mapping; i++)
        wrong += r.head.mapping[i] != (i < header[9] ? entries[i] : 0);
    field(what, ".mapping", wrong, 0);
    return r.head;
}

/* Fields written into so much room: the first bytes of the header, or a refusal; every other byte of the destination stays, and so do the fields. */
static void writes_head(const char *what, const struct aveluafi_head *head, size_t room, long number) {
    struct aveluafi_head before = *head;
    for (size_t i = 0; i < sizeof written; i++)
        written[i] = UNSET;
    field(what, ".number", aveluafi_head_write(head, written, room), number);
    long wrong = 0;
    for (size_t i = 0; i < sizeof written; i++)
        wrong += written[i] != ((long)i < number ? header[i] : UNSET);
    field(what, " bytes", wrong, 0);
    field(what, " leaves the fields", same_head(head, &before), 1);
}

static void heading(void) {
    is("head size", sizeof(struct aveluafi_head), 268);
    is("head.version at", offsetof(struct aveluafi_head, version), 0);
    is("head.channels at", offsetof(struct aveluafi_head, channels), 1);
    is("head.pre_skip at", offsetof(struct aveluafi_head, pre_skip), 2);
    is("head.rate at", offsetof(struct aveluafi_head, rate), 4);
    is("head.gain at", offsetof(struct aveluafi_head, gain), 8);
    is("head.family at", offsetof(struct aveluafi_head, family), 10);
    is("head.streams at", offsetof(struct aveluafi_head, streams), 11);
    is("head.coupled at", offsetof(struct aveluafi_head, coupled), 12);
    is("head.mapping at", offsetof(struct aveluafi_head, mapping), 13);
    is("head_record size", sizeof(struct aveluafi_head_record), 272);
    is("head_record.number at", offsetof(struct aveluafi_head_record, number), 0);
    is("head_record.head at", offsetof(struct aveluafi_head_record, head), 4);

    /* document 02's header, there and back; what family 0 means is in none of its bytes */
    static const uint8_t own[2] = {0, 1};
    header_of(1, 2, 0);
    struct aveluafi_head h = reads_head("head stereo", 19, 1, 1, own), wrong;
    writes_head("head stereo written", &h, sizeof written, 19);
    writes_head("head stereo written exactly", &h, 19, 19);
    writes_head("head stereo into 18", &h, 18, AVELUAFI_BUFFER_TOO_SMALL);
    writes_head("head stereo into 0", &h, 0, AVELUAFI_BUFFER_TOO_SMALL);
    refuses_head("head 18 bytes", 18, AVELUAFI_BAD_HEADER);
    refuses_head("head a byte more", 20, AVELUAFI_BAD_HEADER);
    refuses_head("head no byte", 0, AVELUAFI_BAD_HEADER);
    header[7] = 'D';
    refuses_head("head other letters", 19, AVELUAFI_BAD_HEADER);
    header_of(1, 1, 0);
    h = reads_head("head mono", 19, 1, 0, own);
    writes_head("head mono written", &h, 19, 19);
    h.mapping[0] = 255;
    writes_head("head mono, silent", &h, 19, AVELUAFI_BAD_FIELD);
    header_of(1, 3, 0);
    refuses_head("head family 0, 3 channels", 19, AVELUAFI_BAD_FIELD);
    header_of(1, 0, 0);
    refuses_head("head family 0, no channel", 19, AVELUAFI_BAD_FIELD);

    /* versions: another than 1 is read, may be longer, and is not written */
    header_of(2, 2, 0);
    h = reads_head("head version 2, a byte more", 20, 1, 1, own);
    writes_head("head version 2 written", &h, sizeof written, AVELUAFI_BAD_FIELD);
    header_of(0, 2, 0);
    reads_head("head version 0", 19, 1, 1, own);
    header_of(15, 2, 0);
    reads_head("head version 15", 19, 1, 1, own);
    header_of(16, 2, 0);
    refuses_head("head version 16", 19, AVELUAFI_UNKNOWN_VERSION);
    refuses_head("head version 16, 18 bytes", 18, AVELUAFI_BAD_HEADER);
    header_of(2, 2, 1), streams_of(1, 1);
    refuses_head("head version 2, too short", 22, AVELUAFI_BAD_HEADER);

    /* family 1: six channels, of which two pairs are coupled */
    header_of(1, 6, 1), streams_of(4, 2);
    h = reads_head("head six channels", 27, 4, 2, header + 21);
    writes_head("head six channels written", &h, 27, 27);
    writes_head("head six channels into 26", &h, 26, AVELUAFI_BUFFER_TOO_SMALL);
    refuses_head("head six channels cut", 26, AVELUAFI_BAD_HEADER);
    refuses_head("head six channels and a byte", 28, AVELUAFI_BAD_HEADER);
    header[26] = 255;
    h = reads_head("head a silent channel", 27, 4, 2, header + 21);
    writes_head("head a silent channel written", &h, 27, 27);
    header[26] = 6;
    refuses_head("head an entry that is the sum", 27, AVELUAFI_BAD_FIELD);
    header_of(1, 6, 1), streams_of(2, 4);
    refuses_head("head coupled above streams", 27, AVELUAFI_BAD_FIELD);
    header_of(1, 0, 1), streams_of(1, 0);
    refuses_head("head family 1, no channel", 21, AVELUAFI_BAD_FIELD);
    refuses_head("head family 1, no channel, 20 bytes", 20, AVELUAFI_BAD_HEADER);
    header_of(1, 8, 1), streams_of(5, 3);
    reads_head("head family 1, 8 channels", 29, 5, 3, header + 21);
    header_of(1, 9, 1), streams_of(5, 4);
    refuses_head("head family 1, 9 channels", 30, AVELUAFI_BAD_FIELD);

    /* the longest, of the last family: a sum of 255 is read, one of 256 is not */
    header_of(1, 255, 255), streams_of(128, 127);
    h = reads_head("head 255 channels", AVELUAFI_MOST_HEAD, 128, 127, header + 21);
    writes_head("head 255 channels written", &h, AVELUAFI_MOST_HEAD, AVELUAFI_MOST_HEAD);
    writes_head("head 255 channels, a byte too few", &h, AVELUAFI_MOST_HEAD - 1, AVELUAFI_BUFFER_TOO_SMALL);
    header[20] = 128;
    refuses_head("head 128 and 128", AVELUAFI_MOST_HEAD, AVELUAFI_BAD_FIELD);
    header_of(1, 1, 255), streams_of(0, 0), header[21] = 255;
    refuses_head("head no stream", 22, AVELUAFI_BAD_FIELD);

    /* numbers low byte first, and their ends; a field of its own for each */
    header_of(1, 2, 0);
    h = aveluafi_head_read(header, 19).head;
    h.pre_skip = 0xFEDC, h.rate = 0x89ABCDEF, h.gain = 32767;
    static const uint8_t numbers[8] = {0xDC, 0xFE, 0xEF, 0xCD, 0xAB, 0x89, 0xFF, 0x7F};
    for (size_t i = 0; i < sizeof numbers; i++)
        header[10 + i] = numbers[i];
    writes_head("head numbers written", &h, 19, 19);
    wrong = aveluafi_head_read(header, 19).head;
    is("head numbers read", same_head(&wrong, &h), 1);
    h.gain = -32768, header[16] = 0, header[17] = 0x80;
    writes_head("head the least gain written", &h, 19, 19);
    is("head the least gain read", aveluafi_head_read(header, 19).head.gain, -32768);

    /* fields that the bytes do not carry: -24 before -2 */
    wrong = h, wrong.streams = 2;
    writes_head("head family 0, streams 2", &wrong, sizeof written, AVELUAFI_BAD_FIELD);
    wrong = h, wrong.coupled = 0;
    writes_head("head family 0, coupled 0", &wrong, sizeof written, AVELUAFI_BAD_FIELD);
    wrong.mapping[1] = 0;
    writes_head("head family 0, coupled 0, mapped 0, 0", &wrong, sizeof written, AVELUAFI_BAD_FIELD);
    wrong = h, wrong.mapping[1] = 0;
    writes_head("head family 0, mapped 0, 0", &wrong, sizeof written, AVELUAFI_BAD_FIELD);
    wrong = h, wrong.mapping[2] = 1;
    writes_head("head an entry past the channels", &wrong, sizeof written, AVELUAFI_BAD_FIELD);
    wrong = h, wrong.mapping[254] = 1;
    writes_head("head the last entry", &wrong, sizeof written, AVELUAFI_BAD_FIELD);
    wrong = h, wrong.version = 0;
    writes_head("head version 0 into 0", &wrong, 0, AVELUAFI_BAD_FIELD);
    wrong = h, wrong.channels = 3;
    writes_head("head family 0, 3 channels written", &wrong, sizeof written, AVELUAFI_BAD_FIELD);
}

/* An empty std::vector may have no address: NULL with a count of 0 is an empty slice, for every call that takes one. */
static void nothing(void) {
    struct aveluafi_repacketizer rp;
    aveluafi_repacketizer_init(&rp);
    is("NULL encode_size", aveluafi_encode_size(7, NULL, 0), AVELUAFI_BUFFER_TOO_SMALL);
    is("NULL parse_size", aveluafi_parse_size(NULL, 0, 4).number, AVELUAFI_BAD_ARG);
    is("NULL packet_get_samples_per_frame", aveluafi_packet_get_samples_per_frame(NULL, 0, 8000), AVELUAFI_BAD_ARG);
    is("NULL packet_get_nb_frames", aveluafi_packet_get_nb_frames(NULL, 0), AVELUAFI_BAD_ARG);
    is("NULL packet_parse", aveluafi_packet_parse(NULL, 0).number, AVELUAFI_INVALID_PACKET);
    is("NULL packet_parse_impl", aveluafi_packet_parse_impl(NULL, 0, true).number, AVELUAFI_INVALID_PACKET);
    is("NULL repacketizer_cat packet", aveluafi_repacketizer_cat(&rp, NULL, 0, store, sizeof store).number, AVELUAFI_INVALID_PACKET);
    is("NULL repacketizer_cat_strict both", aveluafi_repacketizer_cat_strict(&rp, NULL, 0, NULL, 0).number, AVELUAFI_BAD_ARG);
    is("NULL repacketizer_cat store", aveluafi_repacketizer_cat(&rp, packet, sizeof packet, NULL, 0).number, AVELUAFI_BAD_ARG);
    is("NULL repacketizer_cat both", aveluafi_repacketizer_cat(&rp, NULL, 0, NULL, 0).number, AVELUAFI_BAD_ARG);
    is("repacketizer_cat for the outputs", aveluafi_repacketizer_cat(&rp, packet, sizeof packet, store, sizeof store).number, AVELUAFI_OK);
    is("NULL repacketizer_out", aveluafi_repacketizer_out(&rp, store, sizeof store, NULL, 0), AVELUAFI_BUFFER_TOO_SMALL);
    is("NULL repacketizer_out store", aveluafi_repacketizer_out(&rp, NULL, 0, out, sizeof out), AVELUAFI_BAD_ARG);
    is("NULL repacketizer_out_range", aveluafi_repacketizer_out_range(&rp, store, sizeof store, 0, 1, NULL, 0), AVELUAFI_BUFFER_TOO_SMALL);
    is("NULL repacketizer_out_packet", aveluafi_repacketizer_out_packet(&rp, store, sizeof store, 0, NULL, 0), AVELUAFI_BUFFER_TOO_SMALL);
    is("NULL repacketizer_out_packet store", aveluafi_repacketizer_out_packet(&rp, NULL, 0, 0, out, sizeof out), AVELUAFI_BAD_ARG);
    is("NULL repacketizer_out_range_impl", aveluafi_repacketizer_out_range_impl(&rp, store, sizeof store, 0, 1, NULL, 0, true, true),
       AVELUAFI_BUFFER_TOO_SMALL);
    struct aveluafi_order one = {0, 1, UNSET};
    struct aveluafi_order_report cut = aveluafi_repacketizer_out_many(&rp, store, sizeof store, &one, 1, NULL, 0);
    is("NULL repacketizer_out_many", cut.number == AVELUAFI_BUFFER_TOO_SMALL && cut.position == 1 && one.length == UNSET, 1);
    cut = aveluafi_repacketizer_out_many(&rp, NULL, 0, &one, 1, out, sizeof out);
    is("NULL repacketizer_out_many store", cut.number == AVELUAFI_BAD_ARG && cut.position == 0 && one.length == UNSET, 1);
    cut = aveluafi_repacketizer_out_many(&rp, store, sizeof store, NULL, 0, out, sizeof out);
    is("NULL repacketizer_out_many orders", cut.number == 0 && cut.position == 0, 1);
    cut = aveluafi_repacketizer_out_many(&rp, store, sizeof store, NULL, 0, NULL, 0);
    is("NULL repacketizer_out_many both", cut.number == 0 && cut.position == 0, 1);
    is("NULL packet_pad", aveluafi_packet_pad(NULL, 0, 1, 2).number, AVELUAFI_BAD_ARG);
    is("NULL packet_unpad", aveluafi_packet_unpad(NULL, 0, 1).number, AVELUAFI_BAD_ARG);
    is("NULL multistream_packet_pad", aveluafi_multistream_packet_pad(NULL, 0, 1, 2, 1).number, AVELUAFI_BAD_ARG);
    is("NULL multistream_packet_unpad", aveluafi_multistream_packet_unpad(NULL, 0, 1, 1).number, AVELUAFI_BAD_ARG);
    is("NULL multistream_join", aveluafi_multistream_join(NULL, 0, NULL, 0, NULL, 0).number, AVELUAFI_BAD_ARG);
    is("NULL multistream_join of no byte", aveluafi_multistream_join(NULL, 0, (const uint16_t[]){0}, 1, NULL, 0).number, AVELUAFI_INVALID_PACKET);
    is("NULL multistream_take", aveluafi_multistream_take(NULL, 0, 1, 0, NULL, 0).number, AVELUAFI_INVALID_PACKET);
    struct aveluafi_record r = aveluafi_next_record(NULL, 0, 0);
    is("NULL next_record", r.number == 0 && r.place == 0 && r.length == 0 && r.passed == 0, 1);
    tells("NULL compact both", aveluafi_compact(NULL, 0, 0, NULL, 0, 0), 0, 0, 0, 0, 0);
    is("NULL compact both, start 1", aveluafi_compact(NULL, 0, 1, NULL, 0, 0).number, AVELUAFI_BAD_ARG);
    is("NULL compact both, budget 1", aveluafi_compact(NULL, 0, 0, NULL, 0, 1).number, AVELUAFI_BUFFER_TOO_SMALL);
    tells("NULL compact capture", shared(NULL, 0, 0, 5, 5), 0, 0, 0, 0, 0);
    is("NULL compact capture bytes", holds(NULL, 0), 1);
    is("NULL compact destination", aveluafi_compact(capture, sizeof capture, 0, NULL, 0, 0).number, AVELUAFI_OVER_BUDGET);
    tells("NULL compact destination at the end", aveluafi_compact(capture, sizeof capture, 26, NULL, 0, 0), 26, 0, 0, 0, 0);
    is("NULL head_read", aveluafi_head_read(NULL, 0).number, AVELUAFI_BAD_HEADER);
    header_of(1, 2, 0);
    struct aveluafi_head h = aveluafi_head_read(header, 19).head;
    is("NULL head_write", aveluafi_head_write(&h, NULL, 0), AVELUAFI_BUFFER_TOO_SMALL);
    h.version = 2;
    is("NULL head_write version 2", aveluafi_head_write(&h, NULL, 0), AVELUAFI_BAD_FIELD);
}

/* ---- the stack
 * README: under 1 KB a call. Blocks go through a local of 65,536 bytes, which the compiler leaves out (crates/blocks); a compiler that did not would fault a
 * node with small stacks. The memory below the caller is painted, the call is made, and the deepest byte that is not paint any more tells. */
enum { DEEP = 98304, PAINT = 0xA5, MOST_STACK = 1024 };

static __attribute__((noinline)) void paint(void) {
    volatile uint8_t area[DEEP];
    for (int i = 0; i < DEEP; i++)
        area[i] = PAINT;
}

static __attribute__((noinline)) int deepest(void) {
    volatile uint8_t area[DEEP];
    int i = 0;
    while (i < DEEP && area[i] == PAINT)
        i++;
    return DEEP - i;
}

/* What takes more is seen. */
static __attribute__((noinline)) void takes_more(void) {
    volatile uint8_t area[MOST_STACK + 64];
    for (size_t i = 0; i < sizeof area; i++)
        area[i] = 0;
}

/* The call must be accepted; it is made from the frame in which paint and deepest are called. */
#define SHALLOW(what, call, accepted)                                        \
    do {                                                                     \
        paint();                                                             \
        long answer = (call);                                                \
        int used = deepest();                                                \
        is("stack " what ", answer", answer, accepted);                      \
        is("stack " what ", under 1 KB", used <= MOST_STACK ? 1 : used, 1);  \
    } while (0)

static void stack(void) {
    enum { FRAMES = AVELUAFI_MOST_FRAMES * 1275, LONG = FRAMES + 2 };
    static uint8_t large[AVELUAFI_MOST_PACKET], made[AVELUAFI_MOST_PACKET], file[AVELUAFI_RECORD_HEAD + LONG], rewritten[sizeof file];
    static const uint16_t length = LONG;
    struct aveluafi_repacketizer rp;
    struct aveluafi_order all = {0, AVELUAFI_MOST_FRAMES, 0};
    struct aveluafi_head_record h;
    /* 48 frames of 2.5 ms and 1275 bytes */
    large[0] = 0x83, large[1] = AVELUAFI_MOST_FRAMES;
    static const uint8_t head[AVELUAFI_RECORD_HEAD] = {0x4B, 0x9D, 1, LONG >> 8, LONG & 255};
    for (size_t i = 0; i < sizeof file; i++)
        file[i] = i < sizeof head ? head[i] : large[i - sizeof head];
    aveluafi_repacketizer_init(&rp);
    paint();
    takes_more();
    is("stack of more than 1 KB is seen", deepest() > MOST_STACK, 1);
    SHALLOW("packet_parse", aveluafi_packet_parse(large, LONG).number, AVELUAFI_MOST_FRAMES);
    SHALLOW("packet_judge", aveluafi_packet_judge(large, LONG, false).number, AVELUAFI_OK);
    SHALLOW("repacketizer_cat", aveluafi_repacketizer_cat(&rp, large, LONG, store, sizeof store).number, AVELUAFI_OK);
    SHALLOW("repacketizer_get_nb_frames", aveluafi_repacketizer_get_nb_frames(&rp), AVELUAFI_MOST_FRAMES);
    SHALLOW("repacketizer_out", aveluafi_repacketizer_out(&rp, store, sizeof store, made, sizeof made), LONG);
    SHALLOW("repacketizer_out_packet", aveluafi_repacketizer_out_packet(&rp, store, sizeof store, 0, made, sizeof made), LONG);
    SHALLOW("repacketizer_out_many", aveluafi_repacketizer_out_many(&rp, store, sizeof store, &all, 1, made, sizeof made).number, LONG);
    aveluafi_repacketizer_init(&rp);
    SHALLOW("repacketizer_cat_strict", aveluafi_repacketizer_cat_strict(&rp, large, LONG, store, sizeof store).number, AVELUAFI_OK);
    SHALLOW("packet_pad", aveluafi_packet_pad(large, sizeof large, LONG, sizeof large).number, AVELUAFI_OK);
    SHALLOW("packet_unpad", aveluafi_packet_unpad(large, sizeof large, sizeof large).number, LONG);
    SHALLOW("multistream_packet_pad", aveluafi_multistream_packet_pad(large, sizeof large, LONG, sizeof large, 1).number, AVELUAFI_OK);
    SHALLOW("multistream_packet_unpad", aveluafi_multistream_packet_unpad(large, sizeof large, sizeof large, 1).number, LONG);
    SHALLOW("multistream_join", aveluafi_multistream_join(large, LONG, &length, 1, made, sizeof made).number, LONG);
    SHALLOW("multistream_take", aveluafi_multistream_take(large, LONG, 1, 0, made, sizeof made).number, LONG);
    SHALLOW("next_record", aveluafi_next_record(file, sizeof file, 0).length, LONG);
    SHALLOW("compact", aveluafi_compact(file, sizeof file, 0, rewritten, sizeof rewritten, sizeof file).number, AVELUAFI_OK);
    header_of(1, 255, 255), streams_of(128, 127);
    SHALLOW("head_read", (h = aveluafi_head_read(header, AVELUAFI_MOST_HEAD), h.number), AVELUAFI_OK);
    SHALLOW("head_write", aveluafi_head_write(&h.head, made, sizeof made), AVELUAFI_MOST_HEAD);
}

int main(void) {
    for (size_t i = 5; i < 27; i++)
        packet[i] = (uint8_t)(100 + i);
    is("version", aveluafi_version(), AVELUAFI_VERSION);
    reading();
    collecting();
    cutting();
    writing();
    in_place();
    streams();
    judging();
    captures();
    compacting();
    heading();
    nothing();
    stack();
    is("the last", failures, 0);
    return failures > 0;
}
