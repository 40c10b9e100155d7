// Answers cases of the replay protocol by libopus 1.3.1 itself, through its static archive: the packet reader, the length writer and the output of a
// range stand in no public header, but have global names there. They are declared below as 1.3.1 has them, and another version is refused.
//
// Written here, from document 01: the bounds outside which libopus would touch memory that is not its own, or which the port adds (size, room, rate,
// empty packet for samples, 65,535 bytes, 1 to 255 streams). After a refused pad, multistream pad or multistream unpad libopus has moved bytes
// already, and only the number is compared: the line then has the buffer as it was.
//
// Packets joined and streams taken out, of which libopus has no call: streams.h, over its reader and its repacketizer.
//
// The word `version` as only argument prints libopus's own version instead.
#include "protocol.h"
#include <opus/opus.h>

int opus_packet_parse_impl(const unsigned char *data, opus_int32 len, int self_delimited, unsigned char *out_toc, const unsigned char *frames[48],
                           opus_int16 size[48], int *payload_offset, opus_int32 *packet_offset);
int encode_size(int size, unsigned char *data);
opus_int32 opus_repacketizer_out_range_impl(OpusRepacketizer *rp, int begin, int end, unsigned char *data, opus_int32 maxlen, int self_delimited,
                                            int pad);

enum { MOST = 65535, FRAME_MOST = 1275 };

#include "streams.h"

static int read_packet(int delim, Bytes p, Packet *packet) {
    unsigned char toc;
    const unsigned char *frames[48];
    opus_int16 size[48];
    opus_int32 taken;
    int n = p.len > MOST ? -1 : opus_packet_parse_impl(p.at, p.len, delim, &toc, frames, size, &packet->first, &taken);
    if (n >= 0) {
        packet->toc = toc;
        packet->taken = taken;
        for (int i = 0; i < n; i++) {
            packet->lengths[i] = size[i];
        }
    }
    return n;
}

// The packets stay as they are until the output: libopus points into them.
static void collect(Collection *c) {
    OpusRepacketizer *rp = opus_repacketizer_init((OpusRepacketizer *)block(opus_repacketizer_get_size(), 0).at);
    for (int i = 0; i < c->count; i++) {
        c->added[i] = c->packets[i].len > MOST ? -1 : opus_repacketizer_cat(rp, c->packets[i].at, c->packets[i].len);
    }
    c->held = opus_repacketizer_get_nb_frames(rp);
    c->number = c->out.len > MOST ? -1 : opus_repacketizer_out_range_impl(rp, c->begin, c->end, c->out.at, c->out.len, c->delim, c->pad);
    free(rp);
}

// After a refusal, but for unpad's, which is compared byte for byte, the buffer is as it was.
static int in_place(int kind, Bytes buffer, int32_t len, int32_t new_len, int32_t streams) {
    if (buffer.len > MOST || streams < 1 || streams > 255) {
        return -1;
    }
    Bytes old = block(buffer.len, 0);
    memcpy(old.at, buffer.at, buffer.len);
    int n;
    if (kind == PAD) {
        n = opus_packet_pad(buffer.at, len, new_len);
    } else if (kind == UNPAD) {
        n = opus_packet_unpad(buffer.at, len);
    } else if (kind == MULTISTREAM_PAD) {
        n = opus_multistream_packet_pad(buffer.at, len, new_len, streams);
    } else {
        n = opus_multistream_packet_unpad(buffer.at, len, streams);
    }
    if (n < 0 && kind != UNPAD) {
        memcpy(buffer.at, old.at, old.len);
    }
    free(old.at);
    return n;
}

static int write_length(int32_t size, Bytes out) {
    if (size < 0 || size > FRAME_MOST) {
        return -1;
    }
    if (out.len < (size < 252 ? 1 : 2)) {
        return -2;
    }
    return encode_size(size, out.at);
}

// The length reader is static in libopus. It shows through the packet reader, which reads a self-delimited packet 00 and b by it: the size it found stands
// in size[0] even where the packet is then refused, -1 for a field cut short. The bytes it used show in the frame's place, once the longest frame fits
// behind b.
static int read_length(Bytes b, int *size) {
    Bytes p = block(1 + b.len + FRAME_MOST, 0);
    memcpy(p.at + 1, b.at, b.len);
    opus_int16 found[48] = {0}, again[48] = {0};
    int first = 0;
    opus_packet_parse_impl(p.at, 1 + b.len, 1, NULL, NULL, found, NULL, NULL);
    opus_packet_parse_impl(p.at, p.len, 1, NULL, NULL, again, &first, NULL);
    free(p.at);
    *size = found[0];
    return found[0] < 0 ? found[0] : first - 1;
}

static int frame_count(Bytes p) {
    return opus_packet_get_nb_frames(p.at, p.len);
}

static int samples(Bytes p, int32_t rate) {
    int known = rate == 8000 || rate == 12000 || rate == 16000 || rate == 24000 || rate == 48000;
    return p.len == 0 || !known ? -1 : opus_packet_get_samples_per_frame(p.at, rate);
}

// libopus has no such call.
static int cut(Cuts *c) {
    (void)c;
    return 0;
}

// Nor has it these two.
static int read_head(Header *h) {
    (void)h;
    return 0;
}

static int write_head(Header *h) {
    (void)h;
    return 0;
}

static void start(int argc, char **argv) {
    const char *version = opus_get_version_string();
    if (argc == 2 && strcmp(argv[1], "version") == 0) {
        puts(version);
        exit(0);
    }
    const char *known = "libopus 1.3.1";
    size_t n = strlen(known);
    if (strncmp(version, known, n) != 0 || (version[n] != '\0' && version[n] != '-')) {
        fprintf(stderr, "%s is linked, but the internal calls are declared as in %s\n", version, known);
        exit(2);
    }
}
