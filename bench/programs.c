/* Compaction of a capture by libopus's repacketizer: what bench/programs times the program compact against.
 *
 *   repack <IN 3>NEW       done records R written W
 *
 * Each packet goes through the repacketizer alone; one that it refuses, or does not make shorter, stays as it is. Records are read by the tests' plain reader,
 * and written through a buffer of the size that compact has. */
#include "../tests/survey/reading.h"

#include "opus.h"

static struct source in;
static unsigned char held[ROOM];
static size_t waiting;

static void drain(void) {
    for (size_t at = 0; at < waiting;) {
        ssize_t n = write(3, held + at, waiting - at);
        if (n < 0 && errno == EINTR)
            continue;
        if (n <= 0) {
            fprintf(stderr, "repack: writing the new file failed\n");
            exit(1);
        }
        at += (size_t)n;
    }
    waiting = 0;
}

int main(void) {
    uint64_t records = 0, written = 0;
    struct record r;
    OpusRepacketizer *rp = opus_repacketizer_create();
    if (!rp)
        return 1;
    while (next_record(&in, &r)) {
        if (HEAD + r.length > ROOM - waiting)
            drain();
        unsigned char *to = held + waiting;
        opus_int32 n = -1;
        opus_repacketizer_init(rp);
        if (opus_repacketizer_cat(rp, r.packet, (opus_int32)r.length) == OPUS_OK)
            n = opus_repacketizer_out(rp, to + HEAD, (opus_int32)(ROOM - waiting - HEAD));
        if (n < 0 || (size_t)n >= r.length) {
            n = (opus_int32)r.length;
            memcpy(to + HEAD, r.packet, r.length);
        }
        to[0] = 0x4b;
        to[1] = 0x9d;
        to[2] = (unsigned char)r.line;
        to[3] = (unsigned char)(n >> 8);
        to[4] = (unsigned char)n;
        waiting += HEAD + (size_t)n;
        written += HEAD + (uint64_t)n;
        records++;
    }
    drain();
    printf("done records %" PRIu64 " written %" PRIu64 "\n", records, written);
    return fflush(stdout) == 0 ? 0 : 1;
}
