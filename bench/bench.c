/* Calls of three sides on the same packets, for `run` to count: this project's archive, the crate unopus 0.0.1 and libopus 1.3.1.

     bench list              each set of the table: key, call, packets, bytes moved, frames, padding length bytes read (tabs between)
     bench list growth       the same for the sets KEY:LENGTH:FRAMES of the growth table
     bench check             sees that every side answers the same number and the same bytes on every set; says where not, and exits 1
     bench SIDE KEY N        N calls, for an instruction counter; SIDE is none, ours, crate or libopus
     bench time KEY N        nanoseconds of a call for each side: rounds of N calls take turns, and the least counts
     bench stack             the bytes of stack below the caller that our side uses, the most over the sets of each call

   `none` is the loop with a call of an empty function in place of the side's: its count, the harness's own, is taken off by `run`.

   Bytes moved are the least that the call has to move or write, whoever does it: the bytes of frames that change place (for a collector's output,
   all of them, once), and for padding the padding lengths and the zeros. Headers are left out. */
#include <inttypes.h>
#include <stdbool.h>
#include <stdio.h>
#include <stdlib.h>
#include <string.h>
#include <time.h>

#include "aveluafi.h"

/* ---- the crate (crate.rs) and libopus (opus.h and opus_private.h) */

int32_t crate_packet_get_nb_frames(const uint8_t *, int32_t);
int32_t crate_packet_parse(const uint8_t *, int32_t, uint8_t *, const uint8_t **, int16_t *, int32_t *);
int32_t crate_packet_parse_impl(const uint8_t *, int32_t, int32_t, uint8_t *, const uint8_t **, int16_t *, int32_t *, int32_t *);
int32_t crate_repacketizer_get_size(void);
void crate_repacketizer_init(void *);
int32_t crate_repacketizer_cat(void *, const uint8_t *, int32_t);
int32_t crate_repacketizer_out(void *, uint8_t *, int32_t);
int32_t crate_repacketizer_out_range(void *, int32_t, int32_t, uint8_t *, int32_t);
int32_t crate_repacketizer_out_delimited(void *, int32_t, uint8_t *, int32_t, int32_t);
int32_t crate_packet_pad(uint8_t *, int32_t, int32_t);
int32_t crate_packet_unpad(uint8_t *, int32_t);
int32_t crate_multistream_packet_pad(uint8_t *, int32_t, int32_t, int32_t);
int32_t crate_multistream_packet_unpad(uint8_t *, int32_t, int32_t);

int opus_packet_get_nb_frames(const uint8_t *, int32_t);
int opus_packet_parse(const uint8_t *, int32_t, uint8_t *, const uint8_t **, int16_t *, int *);
int opus_packet_parse_impl(const uint8_t *, int32_t, int, uint8_t *, const uint8_t **, int16_t *, int *, int32_t *);
int opus_repacketizer_get_size(void);
void *opus_repacketizer_init(void *);
int opus_repacketizer_cat(void *, const uint8_t *, int32_t);
int32_t opus_repacketizer_out(void *, uint8_t *, int32_t);
int32_t opus_repacketizer_out_range(void *, int, int, uint8_t *, int32_t);
int32_t opus_repacketizer_out_range_impl(void *, int, int, uint8_t *, int32_t, int, int);
int opus_packet_pad(uint8_t *, int32_t, int32_t);
int32_t opus_packet_unpad(uint8_t *, int32_t);
int opus_multistream_packet_pad(uint8_t *, int32_t, int32_t, int);
int32_t opus_multistream_packet_unpad(uint8_t *, int32_t, int);

/* ---- a set */

enum kind { COUNT, READ, READ_SELF, PACK, PACK_STRICT, PACK_LOOKED, CUT, CUT_SINGLY, NUMBER, JUDGE, UNPAD, PAD, STREAMS_UNPAD, STREAMS_PAD, JOIN, TAKE, KINDS };
enum side { NONE, OURS, CRATE, LIBOPUS, SIDES };
static const char *side_names[] = {"none", "ours", "crate", "libopus"};

#define ROOM 65535

struct set {
    enum kind kind;
    const char *what;                 /* the packets, in words */
    int packets;                      /* for PACK, CUT and JOIN; each call else has one */
    const uint8_t *packet[48];
    int len[48];
    int new_len, streams;             /* for PAD and the multistream calls */
    int cuts;                         /* for CUT: the frames held are cut in so many parts of the same number of frames; for NUMBER, one a packet */
    int number;                       /* for NUMBER: that of the packet */
    long moved;
    int frames, chain;                /* frames in all, and padding length bytes that are read */
};

static uint8_t buffer[ROOM];          /* where a call works in place, or an output goes */
static uint8_t store[AVELUAFI_LEAST_STORE];
static struct aveluafi_repacketizer our_rp;
static uint64_t crate_rp[128], libopus_rp[128];

/* ---- the calls */

static int none(const struct set *s) { return s->new_len; }

static int ours_count(const struct set *s) { return aveluafi_packet_get_nb_frames(s->packet[0], s->len[0]); }
static int crate_count(const struct set *s) { return crate_packet_get_nb_frames(s->packet[0], s->len[0]); }
static int libopus_count(const struct set *s) { return opus_packet_get_nb_frames(s->packet[0], s->len[0]); }

static int ours_read(const struct set *s) {
    struct aveluafi_packet p = aveluafi_packet_parse(s->packet[0], s->len[0]);
    return p.number;
}
static int crate_read(const struct set *s) {
    uint8_t toc;
    const uint8_t *frames[48];
    int16_t size[48];
    int32_t first;
    return crate_packet_parse(s->packet[0], s->len[0], &toc, frames, size, &first);
}
static int libopus_read(const struct set *s) {
    uint8_t toc;
    const uint8_t *frames[48];
    int16_t size[48];
    int first;
    return opus_packet_parse(s->packet[0], s->len[0], &toc, frames, size, &first);
}

static int ours_read_self(const struct set *s) {
    struct aveluafi_packet p = aveluafi_packet_parse_impl(s->packet[0], s->len[0], true);
    return p.number;
}
static int crate_read_self(const struct set *s) {
    uint8_t toc;
    const uint8_t *frames[48];
    int16_t size[48];
    int32_t first, taken;
    return crate_packet_parse_impl(s->packet[0], s->len[0], 1, &toc, frames, size, &first, &taken);
}
static int libopus_read_self(const struct set *s) {
    uint8_t toc;
    const uint8_t *frames[48];
    int16_t size[48];
    int first;
    int32_t taken;
    return opus_packet_parse_impl(s->packet[0], s->len[0], 1, &toc, frames, size, &first, &taken);
}

static int ours_pack(const struct set *s) {
    aveluafi_repacketizer_init(&our_rp);
    for (int i = 0; i < s->packets; i++) {
        int r = aveluafi_repacketizer_cat(&our_rp, s->packet[i], s->len[i], store, sizeof store).number;
        if (r != 0) return r;
    }
    return aveluafi_repacketizer_out(&our_rp, store, sizeof store, buffer, ROOM);
}
/* Strict adds; the other sides have none, and add as ever (PACK_STRICT) or look at the padding before they add (PACK_LOOKED). */
static int ours_pack_strict(const struct set *s) {
    aveluafi_repacketizer_init(&our_rp);
    for (int i = 0; i < s->packets; i++) {
        int r = aveluafi_repacketizer_cat_strict(&our_rp, s->packet[i], s->len[i], store, sizeof store).number;
        if (r != 0) return r;
    }
    return aveluafi_repacketizer_out(&our_rp, store, sizeof store, buffer, ROOM);
}
static int crate_pack(const struct set *s) {
    crate_repacketizer_init(crate_rp);
    for (int i = 0; i < s->packets; i++) {
        int r = crate_repacketizer_cat(crate_rp, s->packet[i], s->len[i]);
        if (r != 0) return r;
    }
    return crate_repacketizer_out(crate_rp, buffer, ROOM);
}
static int libopus_pack(const struct set *s) {
    opus_repacketizer_init(libopus_rp);
    for (int i = 0; i < s->packets; i++) {
        int r = opus_repacketizer_cat(libopus_rp, s->packet[i], s->len[i]);
        if (r != 0) return r;
    }
    return opus_repacketizer_out(libopus_rp, buffer, ROOM);
}

/* What a caller of the other sides has to do for a strict add: read the packet, and see that all bytes behind its last frame are zero. */
static bool all_zero(const uint8_t *p, const uint8_t *end) {
    for (; p < end; p++)
        if (*p) return false;
    return true;
}
/* -4 for a packet that cannot be read, 0 for dirty padding, 1 for a packet that has none. */
static int crate_look(const uint8_t *packet, int len) {
    uint8_t toc;
    const uint8_t *frames[48];
    int16_t size[48];
    int32_t first, taken;
    int n = crate_packet_parse_impl(packet, len, 0, &toc, frames, size, &first, &taken);
    return n < 0 ? n : all_zero(frames[n - 1] + size[n - 1], packet + taken);
}
static int libopus_look(const uint8_t *packet, int len) {
    uint8_t toc;
    const uint8_t *frames[48];
    int16_t size[48];
    int first;
    int32_t taken;
    int n = opus_packet_parse_impl(packet, len, 0, &toc, frames, size, &first, &taken);
    return n < 0 ? n : all_zero(frames[n - 1] + size[n - 1], packet + taken);
}
static int crate_pack_looked(const struct set *s) {
    crate_repacketizer_init(crate_rp);
    for (int i = 0; i < s->packets; i++) {
        int r = crate_look(s->packet[i], s->len[i]);
        if (r != 1) return r < 0 ? r : AVELUAFI_DIRTY_PADDING;
        r = crate_repacketizer_cat(crate_rp, s->packet[i], s->len[i]);
        if (r != 0) return r;
    }
    return crate_repacketizer_out(crate_rp, buffer, ROOM);
}
static int libopus_pack_looked(const struct set *s) {
    opus_repacketizer_init(libopus_rp);
    for (int i = 0; i < s->packets; i++) {
        int r = libopus_look(s->packet[i], s->len[i]);
        if (r != 1) return r < 0 ? r : AVELUAFI_DIRTY_PADDING;
        r = opus_repacketizer_cat(libopus_rp, s->packet[i], s->len[i]);
        if (r != 0) return r;
    }
    return opus_repacketizer_out(libopus_rp, buffer, ROOM);
}

/* Cuts of a collector that holds the set's packets already: all sides hold them before the first call. The orders are those of `orders`; the other sides
   have single outputs alone, and ours has both. */
static struct aveluafi_order orders[AVELUAFI_MOST_ORDERS];

static void hold(const struct set *s) {
    aveluafi_repacketizer_init(&our_rp);
    crate_repacketizer_init(crate_rp);
    opus_repacketizer_init(libopus_rp);
    for (int i = 0; i < s->packets; i++) {
        aveluafi_repacketizer_cat(&our_rp, s->packet[i], s->len[i], store, sizeof store);
        crate_repacketizer_cat(crate_rp, s->packet[i], s->len[i]);
        opus_repacketizer_cat(libopus_rp, s->packet[i], s->len[i]);
    }
    for (int i = 0; i < s->cuts; i++) {
        orders[i].begin = i * (s->frames / s->cuts);
        orders[i].end = (i + 1) * (s->frames / s->cuts);
    }
}

/* Output by packet number. The other sides keep no numbers: their caller has kept the range of each packet's frames, which ours looks for. */
static int ours_number(const struct set *s) { return aveluafi_repacketizer_out_packet(&our_rp, store, sizeof store, s->number, buffer, ROOM); }
static int crate_number(const struct set *s) {
    return crate_repacketizer_out_range(crate_rp, orders[s->number].begin, orders[s->number].end, buffer, ROOM);
}
static int libopus_number(const struct set *s) {
    return opus_repacketizer_out_range(libopus_rp, orders[s->number].begin, orders[s->number].end, buffer, ROOM);
}

/* The judge, as one number: -4 unreadable, 0 dirty, else the least length. The other sides have none: their caller reads the packet, looks at its padding, and
   has the repacketizer write it anew, elsewhere, for its length. That reads the packet twice and copies its frames once; rule and place they do not tell. */
static uint8_t elsewhere[ROOM];

static int ours_judge(const struct set *s) {
    struct aveluafi_verdict v = aveluafi_packet_judge(s->packet[0], s->len[0], false);
    if (v.number < 0) return v.number;
    return v.verdict == AVELUAFI_UNREADABLE ? AVELUAFI_INVALID_PACKET : v.verdict == AVELUAFI_CLEAN ? s->len[0] : (int)v.least;
}
static int crate_judge(const struct set *s) {
    int r = crate_look(s->packet[0], s->len[0]);
    if (r != 1) return r;
    crate_repacketizer_init(crate_rp);
    r = crate_repacketizer_cat(crate_rp, s->packet[0], s->len[0]);
    return r != 0 ? r : crate_repacketizer_out(crate_rp, elsewhere, ROOM);
}
static int libopus_judge(const struct set *s) {
    int r = libopus_look(s->packet[0], s->len[0]);
    if (r != 1) return r;
    opus_repacketizer_init(libopus_rp);
    r = opus_repacketizer_cat(libopus_rp, s->packet[0], s->len[0]);
    return r != 0 ? r : opus_repacketizer_out(libopus_rp, elsewhere, ROOM);
}

static int ours_cut(const struct set *s) {
    return aveluafi_repacketizer_out_many(&our_rp, store, sizeof store, orders, s->cuts, buffer, ROOM).number;
}
static int ours_cut_singly(const struct set *s) {
    int at = 0;
    for (int i = 0; i < s->cuts; i++) {
        int n = aveluafi_repacketizer_out_range(&our_rp, store, sizeof store, orders[i].begin, orders[i].end, buffer + at, ROOM - at);
        if (n < 0) return n;
        orders[i].length = n;
        at += n;
    }
    return at;
}
static int crate_cut(const struct set *s) {
    int at = 0;
    for (int i = 0; i < s->cuts; i++) {
        int n = crate_repacketizer_out_range(crate_rp, orders[i].begin, orders[i].end, buffer + at, ROOM - at);
        if (n < 0) return n;
        orders[i].length = n;
        at += n;
    }
    return at;
}
static int libopus_cut(const struct set *s) {
    int at = 0;
    for (int i = 0; i < s->cuts; i++) {
        int n = opus_repacketizer_out_range(libopus_rp, orders[i].begin, orders[i].end, buffer + at, ROOM - at);
        if (n < 0) return n;
        orders[i].length = n;
        at += n;
    }
    return at;
}

static int ours_unpad(const struct set *s) { return aveluafi_packet_unpad(buffer, ROOM, s->len[0]).number; }
static int crate_unpad(const struct set *s) { return crate_packet_unpad(buffer, s->len[0]); }
static int libopus_unpad(const struct set *s) { return opus_packet_unpad(buffer, s->len[0]); }

static int ours_pad(const struct set *s) { return aveluafi_packet_pad(buffer, ROOM, s->len[0], s->new_len).number; }
static int crate_pad(const struct set *s) { return crate_packet_pad(buffer, s->len[0], s->new_len); }
static int libopus_pad(const struct set *s) { return opus_packet_pad(buffer, s->len[0], s->new_len); }

static int ours_streams_unpad(const struct set *s) { return aveluafi_multistream_packet_unpad(buffer, ROOM, s->len[0], s->streams).number; }
static int crate_streams_unpad(const struct set *s) { return crate_multistream_packet_unpad(buffer, s->len[0], s->streams); }
static int libopus_streams_unpad(const struct set *s) { return opus_multistream_packet_unpad(buffer, s->len[0], s->streams); }

static int ours_streams_pad(const struct set *s) { return aveluafi_multistream_packet_pad(buffer, ROOM, s->len[0], s->new_len, s->streams).number; }
static int crate_streams_pad(const struct set *s) { return crate_multistream_packet_pad(buffer, s->len[0], s->new_len, s->streams); }
static int libopus_streams_pad(const struct set *s) { return opus_multistream_packet_pad(buffer, s->len[0], s->new_len, s->streams); }

/* Packets that lie one behind another, joined into a multistream packet. The other sides have no such call: each packet goes through their repacketizer, in one
   pass and without a look at the others' times, so that a late refusal would leave bytes. */
static uint16_t joined_lengths[48];

static int ours_join(const struct set *s) {
    size_t bytes = s->packet[s->packets - 1] + s->len[s->packets - 1] - s->packet[0];
    return aveluafi_multistream_join(s->packet[0], bytes, joined_lengths, s->packets, buffer, ROOM).number;
}
static int crate_join(const struct set *s) {
    int at = 0;
    for (int i = 0; i < s->packets; i++) {
        crate_repacketizer_init(crate_rp);
        int r = crate_repacketizer_cat(crate_rp, s->packet[i], s->len[i]);
        if (r != 0) return r;
        int n = crate_repacketizer_out_delimited(crate_rp, s->frames / s->packets, buffer + at, ROOM - at, i + 1 < s->packets);
        if (n < 0) return n;
        at += n;
    }
    return at;
}
static int libopus_join(const struct set *s) {
    int at = 0;
    for (int i = 0; i < s->packets; i++) {
        opus_repacketizer_init(libopus_rp);
        int r = opus_repacketizer_cat(libopus_rp, s->packet[i], s->len[i]);
        if (r != 0) return r;
        int n = opus_repacketizer_out_range_impl(libopus_rp, 0, s->frames / s->packets, buffer + at, ROOM - at, i + 1 < s->packets, 0);
        if (n < 0) return n;
        at += n;
    }
    return at;
}

/* The last stream of a multistream packet: the other sides pass over those before it, and read nothing else of them. */
static int ours_take(const struct set *s) { return aveluafi_multistream_take(s->packet[0], s->len[0], s->streams, s->streams - 1, buffer, ROOM).number; }
static int crate_take(const struct set *s) {
    uint8_t toc;
    const uint8_t *frames[48];
    int16_t size[48];
    int32_t first, taken, at = 0;
    for (int i = 0; i < s->streams - 1; i++) {
        int r = crate_packet_parse_impl(s->packet[0] + at, s->len[0] - at, 1, &toc, frames, size, &first, &taken);
        if (r < 0) return r;
        at += taken;
    }
    crate_repacketizer_init(crate_rp);
    int r = crate_repacketizer_cat(crate_rp, s->packet[0] + at, s->len[0] - at);
    return r != 0 ? r : crate_repacketizer_out(crate_rp, buffer, ROOM);
}
static int libopus_take(const struct set *s) {
    uint8_t toc;
    const uint8_t *frames[48];
    int16_t size[48];
    int first;
    int32_t taken, at = 0;
    for (int i = 0; i < s->streams - 1; i++) {
        int r = opus_packet_parse_impl(s->packet[0] + at, s->len[0] - at, 1, &toc, frames, size, &first, &taken);
        if (r < 0) return r;
        at += taken;
    }
    opus_repacketizer_init(libopus_rp);
    int r = opus_repacketizer_cat(libopus_rp, s->packet[0] + at, s->len[0] - at);
    return r != 0 ? r : opus_repacketizer_out(libopus_rp, buffer, ROOM);
}

typedef int call(const struct set *);

static const struct {
    const char *name;
    bool in_place;
    call *side[SIDES];
} calls[] = {
    [COUNT] = {"frame count", false, {none, ours_count, crate_count, libopus_count}},
    [READ] = {"reader", false, {none, ours_read, crate_read, libopus_read}},
    [READ_SELF] = {"reader, self-delimited", false, {none, ours_read_self, crate_read_self, libopus_read_self}},
    [PACK] = {"init, add, output", false, {none, ours_pack, crate_pack, libopus_pack}},
    [PACK_STRICT] = {"init, strict add, output", false, {none, ours_pack_strict, crate_pack, libopus_pack}},
    [PACK_LOOKED] = {"strict add; others: look, add", false, {none, ours_pack_strict, crate_pack_looked, libopus_pack_looked}},
    [CUT] = {"many cuts in one call", false, {none, ours_cut, crate_cut, libopus_cut}},
    [CUT_SINGLY] = {"the same by single outputs", false, {none, ours_cut_singly, crate_cut, libopus_cut}},
    [NUMBER] = {"output by packet number", false, {none, ours_number, crate_number, libopus_number}},
    [JUDGE] = {"judge; others: look, rewrite", false, {none, ours_judge, crate_judge, libopus_judge}},
    [UNPAD] = {"unpad", true, {none, ours_unpad, crate_unpad, libopus_unpad}},
    [PAD] = {"pad", true, {none, ours_pad, crate_pad, libopus_pad}},
    [STREAMS_UNPAD] = {"multistream unpad", true, {none, ours_streams_unpad, crate_streams_unpad, libopus_streams_unpad}},
    [STREAMS_PAD] = {"multistream pad", true, {none, ours_streams_pad, crate_streams_pad, libopus_streams_pad}},
    [JOIN] = {"streams joined", false, {none, ours_join, crate_join, libopus_join}},
    [TAKE] = {"stream taken out", false, {none, ours_take, crate_take, libopus_take}},
};

/* One call of a side, from the packet as it was. */
static inline int once(const struct set *s, enum side side) {
    if (calls[s->kind].in_place) memcpy(buffer, s->packet[0], s->len[0]);
    return calls[s->kind].side[side](s);
}

static long __attribute__((noinline)) repeat(const struct set *s, enum side side, long n) {
    long sum = 0;
    for (long i = 0; i < n; i++) sum += once(s, side);
    return sum;
}

/* ---- packets, made here without help of any side */

static uint8_t memory[1 << 20];
static size_t used;
static uint32_t seed = 1;

static uint8_t any_byte(void) {
    seed = seed * 1664525 + 1013904223;
    return seed >> 24;
}

static int put_size(uint8_t *p, int size) {
    if (size < 252) {
        p[0] = size;
        return 1;
    }
    p[0] = 252 + size % 4;
    p[1] = (size - p[0]) / 4;
    return 2;
}

/* A packet with these frames; `padding` bytes of it are padding lengths and padding (code 3 alone). */
static void add_packet(struct set *s, int toc, int code, const int *sizes, int n, bool equal, int padding, bool self) {
    uint8_t *start = memory + used, *p = start;
    *p++ = toc | code;
    if (code == 3) *p++ = n | (equal ? 0 : 0x80) | (padding ? 0x40 : 0);
    int chain = padding ? (padding - 1) / 255 + 1 : 0;
    for (int i = 0; i < chain; i++) *p++ = i < chain - 1 ? 255 : padding - 1 - 255 * (chain - 1);
    for (int i = 0; i < n - 1 && !equal; i++) p += put_size(p, sizes[i]);
    if (self) p += put_size(p, sizes[n - 1]);
    for (int i = 0; i < n; i++)
        for (int k = 0; k < sizes[i]; k++) *p++ = any_byte();
    for (int i = 0; i < padding - chain; i++) *p++ = 0;
    used += p - start;
    s->packet[s->packets] = start;
    s->len[s->packets++] = p - start;
    s->frames += n;
    s->chain += chain;
}

/* A packet of these bytes and then of any, n in all. */
static void add_front(struct set *s, int n, const uint8_t *front, int len) {
    uint8_t *start = memory + used;
    for (int i = 0; i < n; i++) start[i] = i < len ? front[i] : any_byte();
    used += n;
    s->packet[s->packets] = start;
    s->len[s->packets++] = n;
}

static long total(const int *sizes, int n) {
    long t = 0;
    for (int i = 0; i < n; i++) t += sizes[i];
    return t;
}

static int fields(const int *sizes, int n) {
    int t = 0;
    for (int i = 0; i < n - 1; i++) t += sizes[i] < 252 ? 1 : 2;
    return t;
}

/* ---- the table's sets */

enum { SILK_20 = 0x08, CELT_2_5 = 0x80, CELT_10 = 0x90, CELT_20 = 0x98 };   /* TOC bytes by frame duration in ms */

static const int six[] = {40, 45, 38, 52, 47, 41};

static void six_frames(struct set *s) { add_packet(s, SILK_20, 3, six, 6, false, 200, false); }

/* Six streams, each with three unequal frames and 60 bytes of padding; all but the last self-delimited. */
static long six_streams(struct set *s, int padding) {
    long all = 0;
    const uint8_t *start = memory + used;
    int len = 0;
    for (int i = 0; i < 6; i++) {
        int sizes[] = {30 + i, 41, 36 + 2 * i};
        s->packets = 0;
        add_packet(s, SILK_20, 3, sizes, 3, false, padding, i < 5);
        len += s->len[0];
        all = all + total(sizes, 3);
    }
    s->packet[0] = start;
    s->len[0] = len;
    s->packets = 1;
    s->streams = 6;
    return all;
}

/* 48 frames of 15 to 25 bytes. */
static void small_sizes(int *sizes) {
    for (int i = 0; i < 48; i++) sizes[i] = 15 + i % 11;
}

static void forty(struct set *s) {
    int n = 39;
    add_packet(s, SILK_20, 0, &n, 1, false, 0, false);
}

static enum kind pack_kind(const char *key) { return key[0] == 's' ? PACK_STRICT : key[0] == 'l' ? PACK_LOOKED : PACK; }

static void make(struct set *s, const char *key) {
    int sizes[48], length, count;
    char call[16];
    if (!strcmp(key, "voice")) {
        s->kind = READ, s->what = "voice, 40 bytes, code 0";
        forty(s);
    } else if (!strcmp(key, "voice-count")) {
        s->kind = COUNT, s->what = "voice, 40 bytes, code 0";
        forty(s);
    } else if (!strcmp(key, "read-2")) {
        s->kind = READ, s->what = "2 frames of 39 and 44 bytes, code 2";
        add_packet(s, SILK_20, 2, (const int[]){39, 44}, 2, false, 0, false);
    } else if (!strcmp(key, "read-3-equal")) {
        s->kind = READ, s->what = "3 equal frames of 40 bytes";
        add_packet(s, SILK_20, 3, (const int[]){40, 40, 40}, 3, true, 0, false);
    } else if (!strcmp(key, "self-0")) {
        s->kind = READ_SELF, s->what = "one frame of 39 bytes, code 0";
        add_packet(s, SILK_20, 0, (const int[]){39}, 1, false, 0, true);
    } else if (!strcmp(key, "self-3-equal")) {
        s->kind = READ_SELF, s->what = "3 equal frames of 40 bytes";
        add_packet(s, SILK_20, 3, (const int[]){40, 40, 40}, 3, true, 0, true);
    } else if (!strcmp(key, "self-6")) {
        s->kind = READ_SELF, s->what = "6 unequal frames, 200 bytes of padding";
        add_packet(s, SILK_20, 3, six, 6, false, 200, true);
    } else if (!strcmp(key, "pack-6") || !strcmp(key, "strict-6") || !strcmp(key, "looked-6")) {
        s->kind = pack_kind(key), s->what = "6 unequal frames, 200 bytes of padding";
        int n[] = {39, 44, 37, 41, 40, 38};
        add_packet(s, SILK_20, 3, n, 6, false, 200, false);
        s->moved = total(n, 6);
    } else if (!strcmp(key, "pack-3") || !strcmp(key, "strict-3") || !strcmp(key, "looked-3")) {
        s->kind = pack_kind(key), s->what = "3 packets of 40, 45, 38 bytes";
        int n[] = {39, 44, 37};
        for (int i = 0; i < 3; i++) add_packet(s, SILK_20, 0, n + i, 1, false, 0, false);
        s->moved = total(n, 3);
    } else if (!strcmp(key, "read-48-equal") || !strcmp(key, "read-48-unequal")) {
        bool equal = !strcmp(key, "read-48-equal");
        s->kind = READ, s->what = equal ? "48 equal frames of 2.5 ms" : "48 unequal frames of 2.5 ms";
        small_sizes(sizes);
        for (int i = 0; i < 48 && equal; i++) sizes[i] = 20;
        add_packet(s, CELT_2_5, 3, sizes, 48, equal, 0, false);
    } else if (!strcmp(key, "pack-48") || !strcmp(key, "strict-48") || !strcmp(key, "looked-48")) {
        s->kind = pack_kind(key), s->what = "48 packets of one frame of 2.5 ms";
        small_sizes(sizes);
        for (int i = 0; i < 48; i++) add_packet(s, CELT_2_5, 0, sizes + i, 1, false, 0, false);
        s->moved = total(sizes, 48);
    } else if (!strcmp(key, "pack-12")) {
        s->kind = PACK, s->what = "12 packets of one frame of 670 to 692 bytes";
        for (int i = 0; i < 12; i++) {
            sizes[i] = 670 + 2 * (5 * i % 12);
            add_packet(s, CELT_10, 0, sizes + i, 1, false, 0, false);
        }
        s->moved = total(sizes, 12);
    } else if (!strcmp(key, "number-3") || !strcmp(key, "number-48")) {
        s->kind = NUMBER;
        s->cuts = !strcmp(key, "number-3") ? 3 : 48;
        s->number = s->cuts - 1;
        s->what = s->cuts == 3 ? "the last of 3 packets of one frame" : "the last of 48 packets of one frame of 2.5 ms";
        small_sizes(sizes);
        for (int i = 0; i < s->cuts; i++) add_packet(s, s->cuts == 3 ? SILK_20 : CELT_2_5, 0, sizes + i, 1, false, 0, false);
        s->moved = sizes[s->number];
    } else if (!strcmp(key, "number-8")) {
        s->kind = NUMBER, s->cuts = 8, s->number = 4, s->what = "the fifth of 8 packets of 6 frames of 2.5 ms";
        small_sizes(sizes);
        for (int i = 0; i < 8; i++) add_packet(s, CELT_2_5, 3, sizes + 6 * i, 6, false, 0, false);
        s->moved = total(sizes + 6 * s->number, 6);
    } else if (!strcmp(key, "judge-voice")) {
        s->kind = JUDGE, s->what = "clean: voice, 40 bytes, code 0";
        forty(s);
    } else if (!strcmp(key, "judge-48")) {
        s->kind = JUDGE, s->what = "clean: 48 unequal frames of 2.5 ms";
        small_sizes(sizes);
        add_packet(s, CELT_2_5, 3, sizes, 48, false, 0, false);
    } else if (!strcmp(key, "judge-6")) {
        s->kind = JUDGE, s->what = "longer: 6 unequal frames, 200 bytes of padding";
        six_frames(s);
    } else if (!strcmp(key, "judge-dirty")) {
        s->kind = JUDGE, s->what = "dirty: 6 unequal frames, the last of 200 bytes of padding";
        six_frames(s);
        memory[used - 1] = 1;
    } else if (!strcmp(key, "judge-refused")) {
        s->kind = JUDGE, s->what = "unreadable, R7: 6 unequal frames, the fifth too long";
        add_front(s, 40, (const uint8_t[]){SILK_20 | 3, 6 | 0x80, 7, 7, 7, 7, 7}, 7);
    } else if (!strcmp(key, "unpad-0")) {
        s->kind = UNPAD, s->what = "nothing to strip: voice, 40 bytes, code 0";
        forty(s);
    } else if (!strcmp(key, "unpad-1")) {
        s->kind = UNPAD, s->what = "one frame of 40 bytes, 60 bytes of padding";
        s->moved = 40;
        add_packet(s, SILK_20, 3, (const int[]){40}, 1, true, 60, false);
    } else if (!strcmp(key, "unpad-3-equal")) {
        s->kind = UNPAD, s->what = "3 equal frames of 40 bytes, 60 bytes of padding";
        s->moved = 120;
        add_packet(s, SILK_20, 3, (const int[]){40, 40, 40}, 3, true, 60, false);
    } else if (!strcmp(key, "unpad-48")) {
        s->kind = UNPAD, s->what = "48 unequal frames of 2.5 ms, 200 bytes of padding";
        small_sizes(sizes);
        s->moved = total(sizes, 48);
        add_packet(s, CELT_2_5, 3, sizes, 48, false, 200, false);
    } else if (!strncmp(key, "cut-", 4) || !strncmp(key, "singly-", 7)) {
        s->kind = key[0] == 's' ? CUT_SINGLY : CUT;
        const char *which = strchr(key, '-') + 1;
        int frames = 48;
        if (!strcmp(which, "3-3")) s->what = "3 frames in 3", frames = s->cuts = 3;
        else if (!strcmp(which, "48-48")) s->what = "48 frames of 2.5 ms in 48", s->cuts = 48;
        else if (!strcmp(which, "48-8")) s->what = "48 frames of 2.5 ms in 8", s->cuts = 8;
        else if (!strcmp(which, "48-1")) s->what = "48 frames of 2.5 ms in 1", s->cuts = 1;
        else goto unknown;
        for (int i = 0; i < frames; i++) {
            sizes[i] = frames == 3 ? (const int[]){39, 44, 37}[i] : 15 + i % 11;
            add_packet(s, frames == 3 ? SILK_20 : CELT_2_5, 0, sizes + i, 1, false, 0, false);
        }
        s->moved = total(sizes, frames);
    } else if (!strcmp(key, "read-6")) {
        s->kind = READ, s->what = "6 unequal frames, 200 bytes of padding";
        six_frames(s);
    } else if (!strcmp(key, "unpad-6")) {
        s->kind = UNPAD, s->what = "6 unequal frames, 200 bytes of padding";
        six_frames(s);
        s->moved = total(six, 6);
    } else if (!strcmp(key, "pad-6-1275") || !strcmp(key, "pad-6-65535")) {
        s->kind = PAD;
        s->new_len = !strcmp(key, "pad-6-1275") ? 1275 : 65535;
        s->what = s->new_len == 1275 ? "6 unequal frames to 1,275 bytes" : "6 unequal frames to 65,535 bytes";
        six_frames(s);
        s->moved = s->new_len - 2 - fields(six, 6);
    } else if (!strcmp(key, "read-1275")) {
        s->kind = READ, s->what = "2 frames of 1,275 bytes, code 1";
        int n[] = {1275, 1275};
        add_packet(s, CELT_20, 1, n, 2, true, 0, false);
    } else if (!strcmp(key, "unpad-1275")) {
        s->kind = UNPAD, s->what = "2 frames of 1,275 bytes, 200 bytes of padding";
        int n[] = {1275, 1275};
        add_packet(s, CELT_20, 3, n, 2, true, 200, false);
        s->moved = total(n, 2);
    } else if (!strcmp(key, "streams-unpad")) {
        s->kind = STREAMS_UNPAD, s->what = "6 streams of 3 frames, 60 bytes of padding each";
        s->moved = six_streams(s, 60);
    } else if (!strcmp(key, "streams-pad")) {
        s->kind = STREAMS_PAD, s->what = "6 streams of 3 frames, by 200 bytes";
        six_streams(s, 60);
        s->new_len = s->len[0] + 200;
        s->moved = 35 + 41 + 46 + 60 + 200;
    } else if (!strcmp(key, "join-6")) {
        s->kind = JOIN, s->what = "6 packets of 3 frames, 60 bytes of padding each";
        for (int i = 0; i < 6; i++) {
            int n[] = {30 + i, 41, 36 + 2 * i};
            add_packet(s, SILK_20, 3, n, 3, false, 60, false);
            s->moved += total(n, 3);
        }
    } else if (!strcmp(key, "join-4")) {
        s->kind = JOIN, s->what = "4 packets of one frame, 80 bytes";
        for (int i = 0; i < 4; i++) {
            int n = 80;
            add_packet(s, CELT_20, 0, &n, 1, false, 0, false);
            s->moved += n;
        }
    } else if (!strcmp(key, "take-6")) {
        s->kind = TAKE, s->what = "the last of 6 streams of 3 frames, 60 bytes of padding each";
        six_streams(s, 60);
        s->moved = 35 + 41 + 46;
    } else if (!strcmp(key, "refused-R1")) {
        s->kind = READ, s->what = "refused, R1: no byte";
        add_front(s, 0, NULL, 0);
    } else if (!strcmp(key, "refused-R2")) {
        s->kind = READ, s->what = "refused, R2: a frame of 1,276 bytes";
        add_front(s, 1277, (const uint8_t[]){SILK_20}, 1);
    } else if (!strcmp(key, "refused-R3")) {
        s->kind = READ, s->what = "refused, R3: code 1, 40 bytes";
        add_front(s, 40, (const uint8_t[]){SILK_20 | 1}, 1);
    } else if (!strcmp(key, "refused-R4")) {
        s->kind = READ, s->what = "refused, R4: code 2, length above the rest";
        add_front(s, 40, (const uint8_t[]){SILK_20 | 2, 39}, 2);
    } else if (!strcmp(key, "refused-R5-none")) {
        s->kind = READ, s->what = "refused, R5: no frame";
        add_front(s, 40, (const uint8_t[]){SILK_20 | 3, 0}, 2);
    } else if (!strcmp(key, "refused-R5-long")) {
        s->kind = READ, s->what = "refused, R5: over 120 ms";
        add_front(s, 40, (const uint8_t[]){SILK_20 | 3, 7}, 2);
    } else if (!strcmp(key, "refused-R6")) {
        s->kind = READ, s->what = "refused, R6: 38 bytes for 6 equal frames";
        add_front(s, 40, (const uint8_t[]){SILK_20 | 3, 6}, 2);
    } else if (!strcmp(key, "refused-R6-padding")) {
        s->kind = READ, s->what = "refused, R6: padding longer than the packet";
        add_front(s, 40, (const uint8_t[]){SILK_20 | 3, 6 | 0x40, 38}, 3);
    } else if (!strcmp(key, "refused-R7")) {
        s->kind = READ, s->what = "refused, R7: 6 unequal frames, the fifth too long";
        add_front(s, 40, (const uint8_t[]){SILK_20 | 3, 6 | 0x80, 7, 7, 7, 7, 7}, 7);
    } else if (!strcmp(key, "refused-self")) {
        s->kind = READ_SELF, s->what = "refused, appendix B: length above the rest";
        add_front(s, 40, (const uint8_t[]){SILK_20, 39}, 2);
    } else if (sscanf(key, "%15[a-z]:%d:%d", call, &length, &count) == 3 && 1 <= count && count <= 48 && length <= ROOM) {
        /* A packet of `length` bytes with so many frames of nearly equal lengths, which have half of it or 1275 each, and padding. For a collector's
           output one packet for each frame; for pad, what is padded to `length` has no padding. */
        int header = 2 + count - 1 + (length > 252 ? count - 1 : 0), half = (length - header) / 2;
        if (half > 1274 * count) half = 1274 * count;
        for (int i = 0; i < count; i++) {
            sizes[i] = half / count;
            if (i % 2 && sizes[i] > 0) sizes[i]--;
        }
        s->what = key;
        s->moved = total(sizes, count);
        int padding = length - 2 - fields(sizes, count) - s->moved;
        if (!strcmp(call, "reader")) {
            s->kind = READ;
            add_packet(s, CELT_2_5, 3, sizes, count, false, padding, false);
        } else if (!strcmp(call, "unpad")) {
            s->kind = UNPAD;
            add_packet(s, CELT_2_5, 3, sizes, count, false, padding, false);
        } else if (!strcmp(call, "pad")) {
            s->kind = PAD;
            add_packet(s, CELT_2_5, 3, sizes, count, false, 0, false);
            s->new_len = length;
            s->moved += padding;
        } else if (!strcmp(call, "pack")) {
            s->kind = PACK;
            for (int i = 0; i < count; i++) add_packet(s, CELT_2_5, 0, sizes + i, 1, false, 0, false);
        } else {
            goto unknown;
        }
    } else {
    unknown:
        fprintf(stderr, "bench: no set %s\n", key);
        exit(2);
    }
}

static const char *keys[] = {
    "voice", "voice-count", "read-2", "read-1275", "read-3-equal", "read-6", "read-48-equal", "read-48-unequal", "self-0", "self-3-equal", "self-6",
    "pack-3", "pack-48", "pack-6", "pack-12", "strict-3", "strict-48", "strict-6", "looked-3", "looked-48", "looked-6",
    "cut-3-3", "singly-3-3", "cut-48-48", "singly-48-48", "cut-48-8", "singly-48-8", "cut-48-1", "singly-48-1", "number-3", "number-8", "number-48",
    "judge-voice", "judge-48", "judge-6", "judge-dirty", "judge-refused", "unpad-0", "unpad-1", "unpad-3-equal", "unpad-6", "unpad-48", "unpad-1275",
    "streams-unpad", "pad-6-1275", "pad-6-65535", "streams-pad", "join-4", "join-6", "take-6",
    "refused-R1", "refused-R2", "refused-R3", "refused-R4", "refused-R5-none",
    "refused-R5-long", "refused-R6", "refused-R6-padding", "refused-R7", "refused-self", NULL};
static const char *growing[] = {"reader", "pack", "unpad", "pad", NULL};
static const int lengths[] = {64, 256, 1024, 4096, 16384, 65535, 0};
static const int counts[] = {1, 2, 6, 12, 24, 48, 0};

static void of(const char *key, struct set *s) {
    used = 0, seed = 1;
    memset(s, 0, sizeof *s);
    make(s, key);
    if (s->cuts) hold(s);
    for (int i = 0; i < s->packets; i++) joined_lengths[i] = s->len[i];
}

static void each_key(void (*f)(const char *), bool growth) {
    for (int i = 0; keys[i] && !growth; i++) f(keys[i]);
    for (int i = 0; growing[i] && growth; i++)
        for (int l = 0; lengths[l]; l++)
            for (int c = 0; counts[c]; c++) {
                char key[40];
                snprintf(key, sizeof key, "%s:%d:%d", growing[i], lengths[l], counts[c]);
                f(key);
            }
}

static void show(const char *key) {
    struct set s;
    of(key, &s);
    printf("%s\t%s\t%s\t%ld\t%d\t%d\n", key, calls[s.kind].name, s.what, s.moved, s.frames, s.chain);
}

/* ---- the same answers */

struct answer {
    int number;
    uint8_t toc;
    int sizes[48];
    int first, taken;
};

static void read_answer(const struct set *s, enum side side, struct answer *a) {
    bool self = s->kind == READ_SELF;
    memset(a, 0, sizeof *a);
    if (side == OURS) {
        struct aveluafi_packet p = self ? aveluafi_packet_parse_impl(s->packet[0], s->len[0], true) : aveluafi_packet_parse(s->packet[0], s->len[0]);
        a->number = p.number, a->toc = p.toc, a->first = p.payload_offset, a->taken = p.packet_offset;
        for (int i = 0; i < p.number; i++) a->sizes[i] = p.lengths[i];
        return;
    }
    uint8_t toc = 0;
    const uint8_t *frames[48];
    int16_t size[48];
    int first = 0;
    int32_t taken = 0;
    if (side == CRATE) a->number = crate_packet_parse_impl(s->packet[0], s->len[0], self, &toc, frames, size, &first, &taken);
    else a->number = opus_packet_parse_impl(s->packet[0], s->len[0], self, &toc, frames, size, &first, &taken);
    if (a->number < 0) return;
    a->toc = toc, a->first = first, a->taken = taken;
    for (int i = 0; i < a->number; i++) a->sizes[i] = size[i];
}

static int differ, compared;

static void compare(const char *key) {
    static uint8_t kept[ROOM];
    struct set s;
    struct answer want, got;
    int number = 0;
    bool same = true;
    of(key, &s);
    for (enum side side = OURS; side < SIDES; side++) {
        memset(buffer, 0xee, ROOM);
        int n = once(&s, side);
        bool reads = s.kind == READ || s.kind == READ_SELF;
        if (reads) read_answer(&s, side, &got);
        if (side == OURS) {
            number = n, want = got;
            memcpy(kept, buffer, ROOM);
        } else if (n != number || memcmp(kept, buffer, ROOM) || (reads && memcmp(&want, &got, sizeof got))) {
            fprintf(stderr, "bench: %s: %s answers %d, ours %d%s\n", key, side_names[side], n, number, n == number ? ", and other bytes" : "");
            same = false;
        }
    }
    if (strstr(key, "refused") ? number >= 0 : number < 0) {
        fprintf(stderr, "bench: %s: answered %d\n", key, number);
        same = false;
    }
    compared++;
    differ += !same;
}

/* ---- time, where the processor is this one */

static double seconds(void) {
    struct timespec t;
    clock_gettime(CLOCK_MONOTONIC, &t);
    return t.tv_sec + t.tv_nsec / 1e9;
}

static void measure(const char *key, long n) {
    struct set s;
    double least[SIDES];
    of(key, &s);
    for (int round = 0; round < 25; round++)
        for (enum side side = NONE; side < SIDES; side++) {
            double start = seconds();
            repeat(&s, side, n);
            double took = (seconds() - start) / n;
            if (round == 0 || took < least[side]) least[side] = took;
        }
    for (enum side side = OURS; side < SIDES; side++) printf("%.3f%c", 1e9 * (least[side] - least[NONE]), side == LIBOPUS ? '\n' : ' ');
}

/* ---- stack: the memory below this frame is painted, the call is made, and the deepest byte that is not paint any more tells */

enum { DEEP = 32768, PAINT = 0xa5 };

static __attribute__((noinline)) void paint(void) {
    volatile uint8_t area[DEEP];
    for (int i = 0; i < DEEP; i++) area[i] = PAINT;
}
static __attribute__((noinline)) int deepest(void) {
    volatile uint8_t area[DEEP];
    int i = 0;
    while (i < DEEP && area[i] == PAINT) i++;
    return DEEP - i;
}

static int most[KINDS];

static void stack_of(const char *key) {
    struct set s;
    of(key, &s);
    if (calls[s.kind].in_place) memcpy(buffer, s.packet[0], s.len[0]);
    call *ours = calls[s.kind].side[OURS];
    paint();
    ours(&s);
    int used = deepest();
    if (used > most[s.kind]) most[s.kind] = used;
}

/* The same of a share of compaction, over the packets of all sets as the records of one capture. */

static uint8_t capture[1 << 20], compacted[sizeof capture];
static size_t captured;

static void as_record(const char *key) {
    struct set s;
    of(key, &s);
    size_t len = (size_t)s.len[0];
    if (len == 0 || sizeof capture - captured < AVELUAFI_RECORD_HEAD + len) return;
    const uint8_t head[AVELUAFI_RECORD_HEAD] = {0x4B, 0x9D, 1, (uint8_t)(len >> 8), (uint8_t)len};
    memcpy(capture + captured, head, sizeof head);
    memcpy(capture + captured + sizeof head, s.packet[0], len);
    captured += sizeof head + len;
}

static int stack_of_compaction(void) {
    each_key(as_record, false);
    each_key(as_record, true);
    paint();
    struct aveluafi_share share = aveluafi_compact(capture, captured, 0, compacted, sizeof compacted, captured);
    int used = deepest();
    return share.number == 0 ? used : -1;
}

int main(int n, char **word) {
    if (crate_repacketizer_get_size() > (int)sizeof crate_rp || opus_repacketizer_get_size() > (int)sizeof libopus_rp) {
        fprintf(stderr, "bench: a collector is larger than its place here\n");
        return 2;
    }
    bool growth = n == 3 && !strcmp(word[2], "growth");
    if ((n == 2 || growth) && !strcmp(word[1], "list")) {
        each_key(show, growth);
        return 0;
    }
    if (n == 2 && !strcmp(word[1], "check")) {
        each_key(compare, false);
        each_key(compare, true);
        printf("%d sets: each side answers the same number and bytes on %d\n", compared, compared - differ);
        return differ != 0;
    }
    if (n == 2 && !strcmp(word[1], "stack")) {
        each_key(stack_of, false);
        each_key(stack_of, true);
        for (int i = 0; i < KINDS; i++) printf("%s\t%d\n", calls[i].name, most[i]);
        printf("share of compaction\t%d\n", stack_of_compaction());
        return 0;
    }
    if (n == 4 && !strcmp(word[1], "time")) {
        measure(word[2], atol(word[3]));
        return 0;
    }
    for (enum side side = NONE; n == 4 && side < SIDES; side++)
        if (!strcmp(word[1], side_names[side])) {
            struct set s;
            of(word[2], &s);
            return repeat(&s, side, atol(word[3])) == -1;
        }
    fprintf(stderr, "bench: see the top of bench.c\n");
    return 2;
}
