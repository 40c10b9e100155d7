// The replay protocol for an adapter in C: reads the cases, asks the adapter, prints the lines. An adapter includes this file and defines the functions
// declared here; each answers its call's number, a refusal too.
#include <stdint.h>
#include <stdio.h>
#include <stdlib.h>
#include <string.h>

enum { READ_PACKET = 1, COLLECT, PAD, UNPAD, MULTISTREAM_PAD, MULTISTREAM_UNPAD, WRITE_LENGTH, READ_LENGTH, FRAME_COUNT, SAMPLES };
enum { MANY_CUTS = 21, JOIN, TAKE, READ_HEAD = 27, WRITE_HEAD };

typedef struct {
    unsigned char *at;
    int32_t len;
} Bytes;

typedef struct {
    int toc, first, taken;
    int lengths[48];
} Packet;

// The collector's case, and what the adapter fills in. The packets are the adapter's to write over.
typedef struct {
    int delim, pad;
    int32_t begin, end;
    int count;
    Bytes packets[255], out;
    int added[255], held, number;
} Collection;

// The case of many cuts in one call, on a collector that need not be sound, and what the adapter fills in: of the orders their lengths.
typedef struct {
    unsigned char toc;
    uint16_t count, framesize, lengths[48];
    Bytes store, out;
    int orders;
    struct {
        int32_t begin, end;
        uint32_t length;
    } order[255];
    int number;
    uint32_t position;
} Cuts;

// The case of packets joined, of so many lengths, or of stream k taken out, and what the adapter fills in. Data and lengths are not to be written over.
typedef struct {
    Bytes data, out;
    uint16_t count, lengths[1024];
    int32_t streams, k;
    int number, rule, place;
} Streams;

// The case of a header to be read, or of fields to be written, and what the adapter fills in. Of the case nothing is to be written over.
typedef struct {
    Bytes data, out;
    unsigned char version, channels, family, streams, coupled, mapping[255];
    uint16_t pre_skip;
    uint32_t rate;
    int16_t gain;
    int number;
} Header;

// Called once, before the first case.
static void start(int argc, char **argv);
// Fills in the packet unless it is refused; the number is how many lengths.
static int read_packet(int delim, Bytes p, Packet *packet);
static void collect(Collection *c);
// PAD, UNPAD or their multistream kin, on the packet of len bytes in the buffer's front.
static int in_place(int kind, Bytes buffer, int32_t len, int32_t new_len, int32_t streams);
static int write_length(int32_t size, Bytes out);
// Fills in the size unless it is refused.
static int read_length(Bytes b, int *size);
static int frame_count(Bytes p);
static int samples(Bytes p, int32_t rate);
// 0 where there is no such call.
static int cut(Cuts *c);
// Fill in the destination, and number, rule and place.
static void join(Streams *s);
static void take(Streams *s);
// Fill in the fields, zeros beside a refusal, or the destination, and the number. 0 where there is no such call.
static int read_head(Header *h);
static int write_head(Header *h);

// The number of the case being answered, from 1.
static long case_number;

static Bytes block(int32_t len, int fill) {
    Bytes b = {malloc(len > 0 ? len : 1), len};
    if (!b.at) {
        fprintf(stderr, "out of memory\n");
        exit(2);
    }
    memset(b.at, fill, len);
    return b;
}

// ---- input; 0 where the case is cut short or malformed

static int get(void *to, size_t n) {
    return fread(to, 1, n, stdin) == n;
}

static int get_u16(uint16_t *n) {
    unsigned char b[2];
    if (!get(b, 2)) {
        return 0;
    }
    *n = (uint16_t)(b[0] | b[1] << 8);
    return 1;
}

static int get_i32(int32_t *n) {
    unsigned char b[4];
    if (!get(b, 4)) {
        return 0;
    }
    *n = (int32_t)(b[0] | (uint32_t)b[1] << 8 | (uint32_t)b[2] << 16 | (uint32_t)b[3] << 24);
    return 1;
}

static int get_room(int32_t *n) {
    return get_i32(n) && *n >= 0 && *n <= 65536;
}

static int get_bytes(Bytes *b) {
    int32_t n;
    if (!get_room(&n)) {
        return 0;
    }
    *b = block(n, 0);
    return get(b->at, n);
}

// A collector without packet numbers, and its store, whose front is given.
static int get_collector(Cuts *c) {
    unsigned char n;
    int32_t store;
    Bytes front;
    if (!get(&c->toc, 1) || !get_u16(&c->count) || !get_u16(&c->framesize) || !get(&n, 1) || n > 48) {
        return 0;
    }
    memset(c->lengths, 0, sizeof c->lengths);
    for (int i = 0; i < n; i++) {
        if (!get_u16(&c->lengths[i])) {
            return 0;
        }
    }
    if (!get_room(&store) || !get_bytes(&front) || front.len > store) {
        return 0;
    }
    c->store = block(store, 0xee);
    memcpy(c->store.at, front.at, front.len);
    free(front.at);
    return 1;
}

static int get_cuts(Cuts *c) {
    unsigned char n;
    int32_t room;
    if (!get_collector(c) || !get_room(&room) || !get(&n, 1)) {
        return 0;
    }
    c->orders = n;
    for (int i = 0; i < n; i++) {
        if (!get_i32(&c->order[i].begin) || !get_i32(&c->order[i].end)) {
            return 0;
        }
        c->order[i].length = 238;
    }
    c->out = block(room, 0xee);
    return 1;
}

static int get_join(Streams *s) {
    int32_t room;
    if (!get_room(&room) || !get_u16(&s->count) || s->count > 1024) {
        return 0;
    }
    for (int i = 0; i < s->count; i++) {
        if (!get_u16(&s->lengths[i])) {
            return 0;
        }
    }
    s->out = block(room, 0xee);
    return get_bytes(&s->data);
}

static int get_take(Streams *s) {
    int32_t room;
    if (!get_i32(&s->streams) || !get_i32(&s->k) || !get_room(&room)) {
        return 0;
    }
    s->out = block(room, 0xee);
    return get_bytes(&s->data);
}

static int get_fields(Header *h) {
    unsigned char n;
    uint16_t gain;
    int32_t rate, room;
    if (!get(&h->version, 1) || !get(&h->channels, 1) || !get_u16(&h->pre_skip) || !get_i32(&rate) || !get_u16(&gain) || !get(&h->family, 1)
        || !get(&h->streams, 1) || !get(&h->coupled, 1) || !get(&n, 1)) {
        return 0;
    }
    h->rate = (uint32_t)rate;
    h->gain = (int16_t)gain;
    memset(h->mapping, 0, sizeof h->mapping);
    if (!get(h->mapping, n) || !get_room(&room)) {
        return 0;
    }
    h->out = block(room, 0xee);
    return 1;
}

// ---- output

static void put_hex(Bytes b) {
    if (b.len == 0) {
        putchar('-');
    }
    for (int32_t i = 0; i < b.len; i++) {
        putchar("0123456789abcdef"[b.at[i] >> 4]);
        putchar("0123456789abcdef"[b.at[i] & 15]);
    }
}

static void put_number_and(int n, Bytes b) {
    printf("%d ", n);
    put_hex(b);
}

// ---- lines

static void line_read_packet(int delim, Bytes p) {
    Packet packet;
    int n = read_packet(delim, p, &packet);
    printf("%d", n);
    if (n >= 0) {
        printf(" %d %d %d", packet.toc, packet.first, packet.taken);
        for (int i = 0; i < n; i++) {
            printf(" %d", packet.lengths[i]);
        }
    }
}

static void line_collect(Collection *c) {
    collect(c);
    for (int i = 0; i < c->count; i++) {
        printf("%d ", c->added[i]);
    }
    printf("; %d ; %d ; ", c->held, c->number);
    put_hex(c->out);
}

static void line_in_place(int kind, Bytes packet, int32_t new_len, int32_t streams) {
    Bytes buffer = block(new_len > packet.len ? new_len : packet.len, 0);
    memcpy(buffer.at, packet.at, packet.len);
    put_number_and(in_place(kind, buffer, packet.len, new_len, streams), buffer);
    free(buffer.at);
}

static void line_write_length(int32_t size, int room) {
    Bytes out = block(room, 0xee);
    put_number_and(write_length(size, out), out);
    free(out.at);
}

static void line_read_length(Bytes b) {
    int size, n = read_length(b, &size);
    printf("%d", n);
    if (n >= 0) {
        printf(" %d", size);
    }
}

static int line_cuts(Cuts *c) {
    if (!cut(c)) {
        return 0;
    }
    printf("%d %u ;", c->number, (unsigned)c->position);
    for (int i = 0; i < c->orders; i++) {
        printf(" %d %d %u", (int)c->order[i].begin, (int)c->order[i].end, (unsigned)c->order[i].length);
    }
    printf(" ; ");
    put_hex(c->out);
    return 1;
}

static int line_read_head(Header *h) {
    if (!read_head(h)) {
        return 0;
    }
    Bytes mapping = {h->mapping, sizeof h->mapping};
    printf("%d %d %d %d %lu %d %d %d ", h->number, h->version, h->channels, h->pre_skip, (unsigned long)h->rate, h->gain, h->family, h->streams);
    put_number_and(h->coupled, mapping);
    return 1;
}

static int answer(int kind) {
    unsigned char delim, pad, count, room8;
    int32_t room, streams, size, rate;
    Bytes p;
    switch (kind) {
    case READ_PACKET:
        if (!get(&delim, 1) || !get_bytes(&p)) {
            return 0;
        }
        line_read_packet(delim != 0, p);
        break;
    case COLLECT: {
        Collection c;
        if (!get(&delim, 1) || !get(&pad, 1) || !get_i32(&c.begin) || !get_i32(&c.end) || !get_room(&room) || !get(&count, 1)) {
            return 0;
        }
        for (int i = 0; i < count; i++) {
            if (!get_bytes(&c.packets[i])) {
                return 0;
            }
        }
        c.delim = delim != 0;
        c.pad = pad != 0;
        c.count = count;
        c.out = block(room, 0xee);
        line_collect(&c);
        for (int i = 0; i < count; i++) {
            free(c.packets[i].at);
        }
        free(c.out.at);
        return 1;
    }
    case PAD:
        if (!get_room(&room) || !get_bytes(&p)) {
            return 0;
        }
        line_in_place(kind, p, room, 1);
        break;
    case UNPAD:
        if (!get_bytes(&p)) {
            return 0;
        }
        line_in_place(kind, p, 0, 1);
        break;
    case MULTISTREAM_PAD:
        if (!get_i32(&streams) || !get_room(&room) || !get_bytes(&p)) {
            return 0;
        }
        line_in_place(kind, p, room, streams);
        break;
    case MULTISTREAM_UNPAD:
        if (!get_i32(&streams) || !get_bytes(&p)) {
            return 0;
        }
        line_in_place(kind, p, 0, streams);
        break;
    case WRITE_LENGTH:
        if (!get_i32(&size) || !get(&room8, 1)) {
            return 0;
        }
        line_write_length(size, room8);
        return 1;
    case READ_LENGTH:
        if (!get_bytes(&p)) {
            return 0;
        }
        line_read_length(p);
        break;
    case FRAME_COUNT:
        if (!get_bytes(&p)) {
            return 0;
        }
        printf("%d", frame_count(p));
        break;
    case SAMPLES:
        if (!get_i32(&rate) || !get_bytes(&p)) {
            return 0;
        }
        printf("%d", samples(p, rate));
        break;
    case MANY_CUTS: {
        static Cuts c;
        if (!get_cuts(&c) || !line_cuts(&c)) {
            return 0;
        }
        free(c.store.at);
        free(c.out.at);
        return 1;
    }
    case JOIN:
    case TAKE: {
        static Streams s;
        if (!(kind == JOIN ? get_join(&s) : get_take(&s))) {
            return 0;
        }
        (kind == JOIN ? join : take)(&s);
        printf("%d %d ", s.number, s.rule);
        put_number_and(s.place, s.out);
        free(s.data.at);
        free(s.out.at);
        return 1;
    }
    case READ_HEAD: {
        static Header h;
        if (!get_bytes(&h.data) || !line_read_head(&h)) {
            return 0;
        }
        free(h.data.at);
        return 1;
    }
    case WRITE_HEAD: {
        static Header h;
        if (!get_fields(&h) || !write_head(&h)) {
            return 0;
        }
        put_number_and(h.number, h.out);
        free(h.out.at);
        return 1;
    }
    default:
        return 0;
    }
    free(p.at);
    return 1;
}

int main(int argc, char **argv) {
    start(argc, argv);
    static char in[1 << 20], out[1 << 20];
    setvbuf(stdin, in, _IOFBF, sizeof in);
    setvbuf(stdout, out, _IOFBF, sizeof out);
    unsigned char kind;
    while (get(&kind, 1)) {
        case_number++;
        if (!answer(kind)) {
            puts("malformed");
            break;
        }
        putchar('\n');
    }
    return 0;
}
