// Packets joined into one multistream packet, and a stream taken out of one (kinds 22 and 23), put together of what libopus has: whether a packet can be
// read and what it holds (opus_packet_parse, and its inner kin for the self-delimited form), how long it lasts (opus_packet_get_nb_samples), and its
// compact ordinary packet (the repacketizer: init, cat, out).
//
// Written here: of a packet that is refused the rule and the place, from document 02, M-100; where a self-delimited packet ends, and what it has more than the
// ordinary one, from the facts on appendix B of RFC 6716; the order of refusals, from document 02, M-108. What is read here must be what libopus reads, in
// either form, and a self-delimited packet that is written here what libopus's inner output writes; else the program ends, with status 1. It ends as well
// where the repacketizer refuses a packet that the reader accepts: there is none within 65,535 bytes, since a packet has at most 48 frames, of at most 1,275
// bytes each, and lasts 120 ms at most.

// What a packet holds, or the rule that it breaks, with the place.
typedef struct {
    int rule, place;
    int count, lengths[48];
    // where the first frame stands, how many bytes right before it are the length of the last frame in the self-delimited form, and the bytes taken
    int first, delimiter, taken;
} Told;

static void agrees(int holds, const char *what) {
    if (!holds) {
        fprintf(stderr, "case %ld: %s\n", case_number, what);
        exit(1);
    }
}

static Told breaks(int rule, int place) {
    Told t = {.rule = rule, .place = place};
    return t;
}

// The length field at the front of n bytes: the bytes that it has, 0 where it is cut short.
static int length_field(const unsigned char *p, int n, int *length) {
    if (n < 1 || (p[0] >= 252 && n < 2)) {
        return 0;
    }
    *length = p[0] < 252 ? p[0] : 4 * p[1] + p[0];
    return p[0] < 252 ? 1 : 2;
}

static Told told(const unsigned char *p, int n, int delim) {
    if (n < 1) {
        return breaks(1, 0);
    }
    Told t = {0};
    int code = p[0] & 3, unequal = code == 2, at = 1, end = n;
    t.count = code == 0 ? 1 : 2;
    if (code == 3) {
        if (n < 2) {
            return breaks(5, 1);
        }
        t.count = p[1] & 0x3f;
        unequal = p[1] >> 7;
        if (t.count == 0 || t.count * opus_packet_get_samples_per_frame(p, 48000) > 5760) {
            return breaks(5, 1);
        }
        at = 2;
        // the padding stands at the end, and so many bytes are no longer there for what comes
        for (int more = p[1] & 0x40; more;) {
            if (at >= end) {
                return breaks(unequal ? 7 : 6, 2);
            }
            more = p[at] == 255;
            end -= more ? 254 : p[at];
            at++;
        }
        if (at > end) {
            return breaks(unequal ? 7 : 6, 2);
        }
    }
    int others = 0, last = 0;
    for (int i = 0; unequal && i < t.count - 1; i++) {
        int k = length_field(p + at, end - at, &t.lengths[i]);
        if (k == 0 || t.lengths[i] > end - at - k) {
            return breaks(code == 2 ? 4 : 7, at);
        }
        at += k;
        others += t.lengths[i];
    }
    int rest = end - at - others;
    if (rest < 0) {
        return breaks(7, at);
    }
    if (delim) {
        t.delimiter = length_field(p + at, end - at, &last);
        if (t.delimiter == 0 || (unequal ? last : last * t.count) > rest - t.delimiter) {
            return breaks(8, at);
        }
    } else {
        if (!unequal && rest % t.count != 0) {
            return code == 1 ? breaks(3, 0) : breaks(6, at);
        }
        last = unequal ? rest : rest / t.count;
        if (last > 1275) {
            return breaks(2, at);
        }
    }
    t.first = at + t.delimiter;
    t.taken = t.first + n - end;
    for (int i = 0; i < t.count; i++) {
        if (!unequal || i == t.count - 1) {
            t.lengths[i] = last;
        }
        t.taken += t.lengths[i];
    }
    return t;
}

// The same, held against libopus.
static Told read_told(const unsigned char *p, int n, int delim) {
    Told t = told(p, n, delim);
    unsigned char toc;
    const unsigned char *frames[48];
    opus_int16 size[48];
    int first;
    opus_int32 taken = n;
    int count = delim ? opus_packet_parse_impl(p, n, 1, &toc, frames, size, &first, &taken) : opus_packet_parse(p, n, &toc, frames, size, &first);
    agrees((count < 0) == (t.rule != 0) && (count >= 0 || count == OPUS_INVALID_PACKET), "libopus reads a packet that is refused here, or refuses it");
    if (count >= 0) {
        agrees(count == t.count && first == t.first && taken == t.taken, "libopus finds other frames, another place or another end");
        for (int i = 0; i < count; i++) {
            agrees(size[i] == t.lengths[i], "libopus finds another length");
        }
    }
    return t;
}

static OpusRepacketizer *repacketizer(void) {
    static OpusRepacketizer *rp;
    if (!rp) {
        rp = (OpusRepacketizer *)block(opus_repacketizer_get_size(), 0).at;
    }
    return opus_repacketizer_init(rp);
}

// The compact ordinary packet of an ordinary one, at the front of `to`, where there is room enough; its bytes.
static int compacted(const unsigned char *p, int n, unsigned char *to) {
    OpusRepacketizer *rp = repacketizer();
    agrees(opus_repacketizer_cat(rp, p, n) == OPUS_OK, "the repacketizer refuses a packet that the reader accepts");
    int bytes = opus_repacketizer_out(rp, to, MOST);
    agrees(bytes > 0, "the repacketizer writes no packet");
    return bytes;
}

// The self-delimited form: the last frame's length stands right before the first frame.
static int delimited(const unsigned char *p, int n, unsigned char *to) {
    Told t = read_told(p, n, 0);
    int last = t.lengths[t.count - 1], k = last < 252 ? 1 : 2;
    memcpy(to, p, t.first);
    to[t.first] = last < 252 ? last : 252 + last % 4;
    if (k == 2) {
        to[t.first + 1] = (last - 252) / 4;
    }
    memcpy(to + t.first + k, p + t.first, n - t.first);
    static unsigned char other[MOST];
    OpusRepacketizer *rp = repacketizer();
    opus_repacketizer_cat(rp, p, n);
    agrees(opus_repacketizer_out_range_impl(rp, 0, t.count, other, MOST, 1, 0) == n + k && memcmp(other, to, n + k) == 0,
           "libopus writes another self-delimited packet");
    return n + k;
}

// The ordinary form of a self-delimited packet: without that length.
static int ordinary(const unsigned char *p, Told t, unsigned char *to) {
    int head = t.first - t.delimiter;
    memcpy(to, p, head);
    memcpy(to + head, p + t.first, t.taken - t.first);
    return t.taken - t.delimiter;
}

static void answers(Streams *s, int number, int rule, int place) {
    s->number = number;
    s->rule = rule;
    s->place = place;
}

static void refuses_at(Streams *s, int at, Told t) {
    answers(s, OPUS_INVALID_PACKET, t.rule, at + t.place);
}

static void writes(Streams *s, const unsigned char *p, int n) {
    if (n > s->out.len) {
        answers(s, OPUS_BUFFER_TOO_SMALL, 0, 0);
        return;
    }
    memcpy(s->out.at, p, n);
    answers(s, n, 0, 0);
}

static void join(Streams *s) {
    static unsigned char packet[MOST], joined[2 * MOST];
    const unsigned char *p = s->data.at;
    long sum = 0;
    for (int i = 0; i < s->count; i++) {
        sum += s->lengths[i];
    }
    if (s->count < 1 || s->count > 255 || s->data.len > MOST || s->out.len > MOST || sum != s->data.len) {
        answers(s, OPUS_BAD_ARG, 0, 0);
        return;
    }
    int at = 0, bytes = 0, equal = 1, lasts = 0;
    for (int i = 0; i < s->count; i++) {
        int n = s->lengths[i];
        Told t = read_told(p + at, n, 0);
        if (t.rule) {
            refuses_at(s, at, t);
            return;
        }
        int time = opus_packet_get_nb_samples(p + at, n, 48000);
        lasts = i == 0 ? time : lasts;
        equal = equal && time == lasts;
        int k = compacted(p + at, n, packet);
        if (i + 1 < s->count) {
            bytes += delimited(packet, k, joined + bytes);
        } else {
            memcpy(joined + bytes, packet, k);
            bytes += k;
        }
        at += n;
    }
    if (!equal) {
        answers(s, OPUS_INVALID_PACKET, 0, 0);
        return;
    }
    writes(s, joined, bytes);
}

static void take(Streams *s) {
    static unsigned char packet[MOST], wanted[MOST];
    const unsigned char *p = s->data.at;
    if (s->data.len > MOST || s->out.len > MOST || s->streams < 1 || s->streams > 255 || s->k < 0 || s->k >= s->streams) {
        answers(s, OPUS_BAD_ARG, 0, 0);
        return;
    }
    int at = 0, bytes = 0, equal = 1, lasts = 0;
    for (int i = 0; i < s->streams; i++) {
        Told t = read_told(p + at, s->data.len - at, i + 1 < s->streams);
        if (t.rule) {
            refuses_at(s, at, t);
            return;
        }
        int n = ordinary(p + at, t, packet), time = opus_packet_get_nb_samples(packet, n, 48000);
        lasts = i == 0 ? time : lasts;
        equal = equal && time == lasts;
        if (i == s->k) {
            bytes = compacted(packet, n, wanted);
        }
        at += t.taken;
    }
    if (!equal) {
        answers(s, OPUS_INVALID_PACKET, 0, 0);
        return;
    }
    writes(s, wanted, bytes);
}
