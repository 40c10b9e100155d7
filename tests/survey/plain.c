/* The survey of a capture in plain C: what tests/survey/run holds the proved program against, and the plain reader of the benchmark.
 *
 *   plain <FILE       bytes T records R packets P passed S unreadable U dirty D longer L clean C reclaimable X end */
#include "reading.h"

static struct source in;

static bool zeros(const unsigned char *p, size_t n) {
    for (size_t i = 0; i < n; i++)
        if (p[i] != 0)
            return false;
    return true;
}

int main(void) {
    uint64_t records = 0, packets = 0, unreadable = 0, dirty = 0, longer = 0, clean = 0, reclaimable = 0;
    struct record r;
    struct packet k;
    while (next_record(&in, &r)) {
        records++;
        packets += r.length;
        if (!read_packet(&k, r.packet, r.length)) {
            unreadable++;
            continue;
        }
        size_t more = surplus(&k);
        reclaimable += more;
        if (!zeros(r.packet + r.length - k.padding, k.padding))
            dirty++;
        else if (more > 0)
            longer++;
        else
            clean++;
    }
    printf("bytes %" PRIu64 " records %" PRIu64 " packets %" PRIu64 " passed %" PRIu64 " unreadable %" PRIu64 " dirty %" PRIu64 " longer %" PRIu64
           " clean %" PRIu64 " reclaimable %" PRIu64 " end\n",
           in.read, records, packets, in.passed, unreadable, dirty, longer, clean, reclaimable);
    if (fflush(stdout) != 0)
        fprintf(stderr, "aveluafi: writing standard output failed\n");
    return 0;
}
