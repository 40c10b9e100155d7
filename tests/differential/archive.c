// Answers cases of the replay protocol by the proved archive, through include/aveluafi.h, as a caller in C sees it. It adds no bound of its own: every
// answer, refusals too, is the archive's.
//
// What no line shows ends the program, with status 1: two calls that must agree and differ, a record beside a refusal that is not all zeros, a length
// past the count that is not zero.
#include "protocol.h"
#include "aveluafi.h"

static void require(bool holds, const char *what) {
    if (!holds) {
        fprintf(stderr, "case %ld: %s\n", case_number, what);
        exit(1);
    }
}

// Rule and place stand beside -4 alone, and a place only beside a rule, within the packet or at its end. (The length reader's -1 has a rule too.)
static void require_report(int32_t number, uint16_t rule, uint16_t place, int32_t len) {
    require(rule <= AVELUAFI_MOST_RULE, "a rule above 8");
    require(rule == 0 || number == AVELUAFI_INVALID_PACKET, "a rule beside another number than -4");
    require(rule > 0 || place == 0, "a place without a rule");
    require(place == 0 || place <= len, "a place past the end of the packet");
}

// The number alone: the crate has no more, and the lines of kinds 1 to 10 are its own.
static int number_of(struct aveluafi_report r, int32_t len) {
    require_report(r.number, r.rule, r.place, len);
    return r.number;
}

static bool same_packet(const struct aveluafi_packet *a, const struct aveluafi_packet *b) {
    return a->number == b->number && a->rule == b->rule && a->place == b->place && a->toc == b->toc && memcmp(a->lengths, b->lengths, sizeof a->lengths) == 0 &&
           a->payload_offset == b->payload_offset && a->packet_offset == b->packet_offset;
}

static int read_packet(int delim, Bytes p, Packet *packet) {
    struct aveluafi_packet r = aveluafi_packet_parse_impl(p.at, p.len, delim);
    if (!delim) {
        struct aveluafi_packet plain = aveluafi_packet_parse(p.at, p.len);
        require(same_packet(&r, &plain), "aveluafi_packet_parse and aveluafi_packet_parse_impl differ");
    }
    require_report(r.number, r.rule, r.place, p.len);
    if (r.number < 0) {
        struct aveluafi_packet zeros = {.number = r.number, .rule = r.rule, .place = r.place};
        require(r.rule > 0 || r.number != AVELUAFI_INVALID_PACKET, "aveluafi_packet_parse_impl: -4 without a rule");
        require(same_packet(&r, &zeros), "aveluafi_packet_parse_impl: a refusal beside which more than rule and place is not 0");
        return r.number;
    }
    require(r.number <= AVELUAFI_MOST_FRAMES, "aveluafi_packet_parse_impl: over 48 frames");
    for (int i = r.number; i < AVELUAFI_MOST_FRAMES; i++) {
        require(r.lengths[i] == 0, "aveluafi_packet_parse_impl: a length past the count is not 0");
    }
    packet->toc = r.toc;
    packet->first = r.payload_offset;
    packet->taken = r.packet_offset;
    for (int i = 0; i < r.number; i++) {
        packet->lengths[i] = r.lengths[i];
    }
    return r.number;
}

// The three outputs must agree where they are asked the same: the case's range, then all frames, in an ordinary packet without padding.
static void agree(const struct aveluafi_repacketizer *rp, Bytes store, int32_t begin, int32_t end, int32_t held, int32_t room) {
    Bytes a = block(room, 0xee), b = block(room, 0xee);
    int32_t n = aveluafi_repacketizer_out_range_impl(rp, store.at, store.len, begin, end, a.at, a.len, false, false);
    int32_t m = aveluafi_repacketizer_out_range(rp, store.at, store.len, begin, end, b.at, b.len);
    require(n == m && memcmp(a.at, b.at, room) == 0, "aveluafi_repacketizer_out_range and aveluafi_repacketizer_out_range_impl differ");
    memset(a.at, 0xee, room);
    memset(b.at, 0xee, room);
    n = aveluafi_repacketizer_out_range(rp, store.at, store.len, 0, held, a.at, a.len);
    m = aveluafi_repacketizer_out(rp, store.at, store.len, b.at, b.len);
    require(n == m && memcmp(a.at, b.at, room) == 0, "aveluafi_repacketizer_out and aveluafi_repacketizer_out_range differ");
    free(a.at);
    free(b.at);
}

static bool same_collector(const struct aveluafi_repacketizer *a, const struct aveluafi_repacketizer *b) {
    return a->toc == b->toc && a->nb_frames == b->nb_frames && a->framesize == b->framesize && memcmp(a->len, b->len, sizeof a->len) == 0
        && memcmp(a->packet, b->packet, sizeof a->packet) == 0;
}

// Whether a packet that can be read has a byte other than zero behind its frames.
static bool dirty(Bytes p) {
    struct aveluafi_packet r = aveluafi_packet_parse(p.at, p.len);
    size_t at = r.payload_offset;
    for (int i = 0; i < r.number; i++) {
        at += r.lengths[i];
    }
    for (; r.number > 0 && at < r.packet_offset; at++) {
        if (p.at[at] != 0) {
            return true;
        }
    }
    return false;
}

// The packet that was accepted last can be had back by its number: what unpadding it gives, into a room of so many bytes, -2 into one less, and -1 for the
// number behind it, whatever the room.
static void restored(const struct aveluafi_repacketizer *rp, Bytes store, Bytes p, int32_t number) {
    Bytes alone = block(p.len, 0), out = block(p.len, 0xee);
    memcpy(alone.at, p.at, p.len);
    int32_t n = aveluafi_packet_unpad(alone.at, alone.len, p.len).number;
    require(n > 0 && aveluafi_repacketizer_out_packet(rp, store.at, store.len, number, out.at, n - 1) == AVELUAFI_BUFFER_TOO_SMALL,
            "aveluafi_repacketizer_out_packet: a room too short by one is not -2");
    require(aveluafi_repacketizer_out_packet(rp, store.at, store.len, number + 1, out.at, 0) == AVELUAFI_BAD_ARG,
            "aveluafi_repacketizer_out_packet: a number that is not held is not -1");
    for (int32_t i = 0; i < p.len; i++) {
        require(out.at[i] == 0xee, "aveluafi_repacketizer_out_packet: a refusal has written");
    }
    require(aveluafi_repacketizer_out_packet(rp, store.at, store.len, number, out.at, n) == n && memcmp(out.at, alone.at, n) == 0,
            "aveluafi_repacketizer_out_packet is not what unpadding the packet gives");
    free(alone.at);
    free(out.at);
}

// An ordinary add, held against a strict one to a copy of the collector: the same number, rule, place, collector and store, or -20 and nothing changed, where
// the packet is accepted and dirty.
static int add(struct aveluafi_repacketizer *rp, Bytes p, Bytes store) {
    struct aveluafi_repacketizer before = *rp, strict = *rp;
    Bytes kept = block(store.len, 0), other = block(store.len, 0);
    memcpy(kept.at, store.at, store.len);
    memcpy(other.at, store.at, store.len);
    struct aveluafi_report r = aveluafi_repacketizer_cat(rp, p.at, p.len, store.at, store.len);
    struct aveluafi_report s = aveluafi_repacketizer_cat_strict(&strict, p.at, p.len, other.at, other.len);
    if (r.number == AVELUAFI_OK && dirty(p)) {
        require(s.number == AVELUAFI_DIRTY_PADDING && s.rule == 0 && s.place == 0, "aveluafi_repacketizer_cat_strict: dirty padding is not -20");
        require(same_collector(&strict, &before) && memcmp(other.at, kept.at, store.len) == 0, "aveluafi_repacketizer_cat_strict: -20, and something changed");
    } else {
        require(s.number == r.number && s.rule == r.rule && s.place == r.place, "aveluafi_repacketizer_cat_strict answers another number, rule or place");
        require(same_collector(&strict, rp) && memcmp(other.at, store.at, store.len) == 0, "aveluafi_repacketizer_cat_strict leaves something else");
    }
    free(kept.at);
    free(other.at);
    return number_of(r, p.len);
}

// Each packet is written over once it is added: the archive promises that it is needed no longer.
static void collect(Collection *c) {
    struct aveluafi_repacketizer rp;
    memset(&rp, 0xcc, sizeof rp);
    aveluafi_repacketizer_init(&rp);
    Bytes store = block(AVELUAFI_LEAST_STORE, 0xcc);
    int32_t accepted = 0;
    for (int i = 0; i < c->count; i++) {
        c->added[i] = add(&rp, c->packets[i], store);
        if (c->added[i] == AVELUAFI_OK) {
            restored(&rp, store, c->packets[i], accepted++);
        }
        memset(c->packets[i].at, 0x99, c->packets[i].len);
    }
    c->held = aveluafi_repacketizer_get_nb_frames(&rp);
    agree(&rp, store, c->begin, c->end, c->held, c->out.len);
    c->number = aveluafi_repacketizer_out_range_impl(&rp, store.at, store.len, c->begin, c->end, c->out.at, c->out.len, c->delim, c->pad);
    free(store.at);
}

static int call_in_place(int kind, Bytes buffer, int32_t len, int32_t new_len, int32_t streams) {
    if (kind == PAD) {
        return number_of(aveluafi_packet_pad(buffer.at, buffer.len, len, new_len), len);
    }
    if (kind == UNPAD) {
        return number_of(aveluafi_packet_unpad(buffer.at, buffer.len, len), len);
    }
    if (kind == MULTISTREAM_PAD) {
        return number_of(aveluafi_multistream_packet_pad(buffer.at, buffer.len, len, new_len, streams), len);
    }
    return number_of(aveluafi_multistream_packet_unpad(buffer.at, buffer.len, len, streams), len);
}

// The call is lent more bytes than its lengths say, and must leave those.
static int in_place(int kind, Bytes buffer, int32_t len, int32_t new_len, int32_t streams) {
    enum { BEHIND = 9 };
    Bytes lent = block(buffer.len + BEHIND, 0xdd);
    memcpy(lent.at, buffer.at, buffer.len);
    int n = call_in_place(kind, lent, len, new_len, streams);
    for (int i = 0; i < BEHIND; i++) {
        require(lent.at[buffer.len + i] == 0xdd, "a call in place has written behind the lengths it was given");
    }
    memcpy(buffer.at, lent.at, buffer.len);
    free(lent.at);
    return n;
}

static int write_length(int32_t size, Bytes out) {
    return aveluafi_encode_size(size, out.at, out.len);
}

static int read_length(Bytes b, int *size) {
    struct aveluafi_size r = aveluafi_parse_size(b.at, b.len, 7);
    require(r.number >= 0 || r.size == 0, "aveluafi_parse_size: a refusal beside which the size is not 0");
    require(r.rule == (r.number < 0 ? 7 : 0) && r.place == 0, "aveluafi_parse_size: not the rule that was told, or a place");
    struct aveluafi_size untold = aveluafi_parse_size(b.at, b.len, 5);
    require(untold.number == AVELUAFI_BAD_ARG && untold.rule == 0 && untold.place == 0 && untold.size == 0, "aveluafi_parse_size: told rule 5");
    *size = r.size;
    return r.number;
}

static int frame_count(Bytes p) {
    return aveluafi_packet_get_nb_frames(p.at, p.len);
}

static int samples(Bytes p, int32_t rate) {
    return aveluafi_packet_get_samples_per_frame(p.at, p.len, rate);
}

// The orders one by one: single outputs, each into what is left, must be accepted with the lengths and the bytes of the many, or up to the order that is
// refused, and that one by the same number.
static void agree_singly(const struct aveluafi_repacketizer *rp, const Cuts *c) {
    Bytes out = block(c->out.len, 0xee);
    int32_t at = 0, last = c->number < 0 ? (int32_t)c->position : c->orders;
    for (int32_t i = 0; i < last; i++) {
        int32_t n = aveluafi_repacketizer_out_range(rp, c->store.at, c->store.len, c->order[i].begin, c->order[i].end, out.at + at, out.len - at);
        if (c->number < 0 && i + 1 == last) {
            require(n == c->number, "aveluafi_repacketizer_out_many: the single output of the refused order answers another number");
            break;
        }
        require(n > 0, "aveluafi_repacketizer_out_many: the single output of an order before the refused one is refused");
        require(c->number < 0 || n == (int32_t)c->order[i].length, "aveluafi_repacketizer_out_many: another length than that of the single output");
        at += n;
    }
    require(c->number < 0 || (at == c->number && memcmp(out.at, c->out.at, out.len) == 0),
            "aveluafi_repacketizer_out_many: other bytes than those of the single outputs");
    free(out.at);
}

// The call is lent a list and a destination that go on behind what it is told of, and must leave that, and the collector and its store as well.
static int cut(Cuts *c) {
    enum { BEHIND = 9, MARK = 0x5a5a5a5a };
    struct aveluafi_repacketizer rp, before;
    memset(&rp, 0, sizeof rp);
    rp.toc = c->toc;
    rp.nb_frames = c->count;
    rp.framesize = c->framesize;
    memcpy(rp.len, c->lengths, sizeof rp.len);
    before = rp;
    Bytes store = block(c->store.len, 0), out = block(c->out.len + BEHIND, 0xdd);
    memcpy(store.at, c->store.at, store.len);
    memcpy(out.at, c->out.at, c->out.len);
    struct aveluafi_order orders[256];
    for (int i = 0; i < c->orders; i++) {
        orders[i] = (struct aveluafi_order){c->order[i].begin, c->order[i].end, c->order[i].length};
    }
    orders[c->orders] = (struct aveluafi_order){MARK, MARK, MARK};
    struct aveluafi_order_report r = aveluafi_repacketizer_out_many(&rp, store.at, store.len, orders, c->orders, out.at, c->out.len);
    require(same_collector(&rp, &before) && memcmp(store.at, c->store.at, store.len) == 0, "aveluafi_repacketizer_out_many: collector or store has changed");
    struct aveluafi_order behind = orders[c->orders];
    require(behind.begin == MARK && behind.end == MARK && behind.length == MARK, "aveluafi_repacketizer_out_many has written behind the list");
    for (int i = 0; i < BEHIND; i++) {
        require(out.at[c->out.len + i] == 0xdd, "aveluafi_repacketizer_out_many has written behind the destination");
    }
    for (int i = 0; i < c->orders; i++) {
        c->order[i].begin = orders[i].begin;
        c->order[i].end = orders[i].end;
        c->order[i].length = orders[i].length;
    }
    memcpy(c->out.at, out.at, c->out.len);
    c->number = r.number;
    c->position = r.position;
    if (r.number >= 0 || r.position > 0) {
        agree_singly(&rp, c);
    }
    free(store.at);
    free(out.at);
    return 1;
}

// ---- streams joined and taken apart

static Bytes copy(const unsigned char *at, int32_t len) {
    Bytes b = block(len, 0);
    memcpy(b.at, at, len);
    return b;
}

// All streams of a packet that was accepted, one behind another, and their lengths.
static Bytes taken_apart(Bytes p, int streams, uint16_t *lengths) {
    Bytes parts = block(p.len, 0xee);
    int32_t at = 0;
    for (int k = 0; k < streams; k++) {
        struct aveluafi_report r = aveluafi_multistream_take(p.at, p.len, streams, k, parts.at + at, parts.len - at);
        require(r.number > 0, "aveluafi_multistream_take: a stream of an accepted packet is refused");
        lengths[k] = r.number;
        at += r.number;
    }
    parts.len = at;
    return parts;
}

// The parts, joined again, are these bytes.
static void require_joined(Bytes parts, const uint16_t *lengths, int streams, Bytes whole, const char *what) {
    Bytes again = block(whole.len, 0xee);
    struct aveluafi_report r = aveluafi_multistream_join(parts.at, parts.len, lengths, streams, again.at, again.len);
    require(r.number == whole.len && memcmp(again.at, whole.at, whole.len) == 0, what);
    free(again.at);
}

// Each stream of the packet that was joined is what unpadding the packet that was given leaves; and they can be joined again.
static void agree_apart(const Streams *s) {
    Bytes whole = {s->out.at, s->number};
    uint16_t lengths[AVELUAFI_MOST_STREAMS];
    Bytes parts = taken_apart(whole, s->count, lengths);
    int32_t from = 0, at = 0;
    for (int i = 0; i < s->count; i++) {
        Bytes alone = copy(s->data.at + from, s->lengths[i]);
        int32_t n = aveluafi_packet_unpad(alone.at, alone.len, alone.len).number;
        require(n == lengths[i] && memcmp(alone.at, parts.at + at, n) == 0, "aveluafi_multistream_take is not what unpadding the joined packet gives");
        free(alone.at);
        from += s->lengths[i];
        at += n;
    }
    require_joined(parts, lengths, s->count, whole, "aveluafi_multistream_join: the streams taken out, joined again, are other bytes");
    free(parts.at);
}

// All streams of the packet, joined, are what unpadding it leaves; the one that was asked for is among them.
static void agree_unpadded(const Streams *s) {
    uint16_t lengths[AVELUAFI_MOST_STREAMS];
    Bytes parts = taken_apart(s->data, s->streams, lengths), whole = copy(s->data.at, s->data.len);
    whole.len = aveluafi_multistream_packet_unpad(whole.at, whole.len, whole.len, s->streams).number;
    require_joined(parts, lengths, s->streams, whole, "aveluafi_multistream_join: the streams of a packet, joined, are not what unpadding it gives");
    int32_t at = 0;
    for (int k = 0; k < s->k; k++) {
        at += lengths[k];
    }
    require(s->number == lengths[s->k] && memcmp(s->out.at, parts.at + at, s->number) == 0, "aveluafi_multistream_take: other bytes into another room");
    free(parts.at);
    free(whole.at);
}

// A call is lent a destination that goes on behind its room, and must leave that, and the packets and their lengths as well.
static void ask_streams(Streams *s, bool join) {
    enum { BEHIND = 9 };
    Bytes data = copy(s->data.at, s->data.len), lengths = copy((unsigned char *)s->lengths, sizeof s->lengths), out = block(s->out.len + BEHIND, 0xdd);
    memcpy(out.at, s->out.at, s->out.len);
    struct aveluafi_report r = join ? aveluafi_multistream_join(s->data.at, s->data.len, s->lengths, s->count, out.at, s->out.len)
                                    : aveluafi_multistream_take(s->data.at, s->data.len, s->streams, s->k, out.at, s->out.len);
    require_report(r.number, r.rule, r.place, s->data.len);
    require(memcmp(data.at, s->data.at, data.len) == 0, "streams: the packets have changed");
    require(memcmp(lengths.at, s->lengths, lengths.len) == 0, "streams: the lengths have changed");
    for (int i = 0; i < BEHIND; i++) {
        require(out.at[s->out.len + i] == 0xdd, "streams: a call has written behind the destination");
    }
    memcpy(s->out.at, out.at, s->out.len);
    s->number = r.number;
    s->rule = r.rule;
    s->place = r.place;
    free(data.at);
    free(lengths.at);
    free(out.at);
}

static void join(Streams *s) {
    ask_streams(s, true);
    if (s->number >= 0) {
        agree_apart(s);
    }
}

static void take(Streams *s) {
    ask_streams(s, false);
    if (s->number >= 0) {
        agree_unpadded(s);
    }
}

// ---- identification headers

static bool same_head(const struct aveluafi_head *a, const struct aveluafi_head *b) {
    return a->version == b->version && a->channels == b->channels && a->pre_skip == b->pre_skip && a->rate == b->rate && a->gain == b->gain
        && a->family == b->family && a->streams == b->streams && a->coupled == b->coupled && memcmp(a->mapping, b->mapping, sizeof a->mapping) == 0;
}

// Lends a destination that goes on behind its room, which must stay, and so must the fields.
static int32_t put_head(const struct aveluafi_head *head, Bytes out) {
    enum { BEHIND = 9 };
    struct aveluafi_head before = *head;
    Bytes lent = block(out.len + BEHIND, 0xdd);
    memcpy(lent.at, out.at, out.len);
    int32_t n = aveluafi_head_write(head, lent.at, out.len);
    require(same_head(head, &before), "aveluafi_head_write: the fields have changed");
    for (int i = 0; i < BEHIND; i++) {
        require(lent.at[out.len + i] == 0xdd, "aveluafi_head_write has written behind the destination");
    }
    memcpy(out.at, lent.at, out.len);
    free(lent.at);
    return n;
}

// The fields that were read, written into as many bytes as were read: those bytes, of version 1; -2 into one less. Another version is not written.
static void written_again(const struct aveluafi_head *head, Bytes data) {
    Bytes again = block(data.len, 0xee);
    if (head->version != 1) {
        require(put_head(head, again) == AVELUAFI_BAD_FIELD, "aveluafi_head_write: a version other than 1 is not -24");
    } else {
        again.len--;
        require(put_head(head, again) == AVELUAFI_BUFFER_TOO_SMALL, "aveluafi_head_write: a room too short by one is not -2");
        again.len++;
        for (int32_t i = 0; i < data.len; i++) {
            require(again.at[i] == 0xee, "aveluafi_head_write: a refusal has written");
        }
        require(put_head(head, again) == data.len && memcmp(again.at, data.at, data.len) == 0, "aveluafi_head_write is not what was read");
    }
    free(again.at);
}

static int read_head(Header *h) {
    Bytes data = copy(h->data.at, h->data.len);
    struct aveluafi_head_record r = aveluafi_head_read(data.at, data.len);
    require(memcmp(data.at, h->data.at, data.len) == 0, "aveluafi_head_read: the header has changed");
    require(r.number <= 0, "aveluafi_head_read: a number above 0");
    if (r.number < 0) {
        struct aveluafi_head zeros = {0};
        require(same_head(&r.head, &zeros), "aveluafi_head_read: a refusal beside which a field is not 0");
    } else {
        for (int i = r.head.channels; i < 255; i++) {
            require(r.head.mapping[i] == 0, "aveluafi_head_read: an entry past the channels is not 0");
        }
        written_again(&r.head, h->data);
    }
    free(data.at);
    h->number = r.number;
    h->version = r.head.version;
    h->channels = r.head.channels;
    h->pre_skip = r.head.pre_skip;
    h->rate = r.head.rate;
    h->gain = r.head.gain;
    h->family = r.head.family;
    h->streams = r.head.streams;
    h->coupled = r.head.coupled;
    memcpy(h->mapping, r.head.mapping, sizeof h->mapping);
    return 1;
}

// What was written is read again to the same fields.
static int write_head(Header *h) {
    struct aveluafi_head head = {.version = h->version, .channels = h->channels, .pre_skip = h->pre_skip, .rate = h->rate, .gain = h->gain,
                                 .family = h->family, .streams = h->streams, .coupled = h->coupled};
    memcpy(head.mapping, h->mapping, sizeof head.mapping);
    h->number = put_head(&head, h->out);
    require(h->number <= AVELUAFI_MOST_HEAD, "aveluafi_head_write: over 276 bytes");
    if (h->number >= 0) {
        struct aveluafi_head_record r = aveluafi_head_read(h->out.at, h->number);
        require(r.number == AVELUAFI_OK && same_head(&r.head, &head), "aveluafi_head_read is not what was written");
    }
    return 1;
}

static void start(int argc, char **argv) {
    (void)argc;
    (void)argv;
}
