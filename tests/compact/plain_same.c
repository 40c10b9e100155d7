/* Whether a compacted capture has the records of the one that it was made of, in plain C: a stand-in for the proved program where the launcher is tried.
 *
 *   plain_same <IN 3<NEW       same records R end, or 'differs record K' where K records were the same before */
#include "../survey/reading.h"

static struct source in, new;

/* The same frames behind the same upper six TOC bits; byte for byte where the packet cannot be read. */
static bool same(const struct record *a, const struct record *b) {
    struct packet j, k;
    if (a->line != b->line)
        return false;
    if (!read_packet(&j, a->packet, a->length))
        return a->length == b->length && memcmp(a->packet, b->packet, a->length) == 0;
    if (!read_packet(&k, b->packet, b->length) || (a->packet[0] & 0xfc) != (b->packet[0] & 0xfc) || j.count != k.count)
        return false;
    size_t sum = 0;
    for (size_t i = 0; i < j.count; i++) {
        if (j.lengths[i] != k.lengths[i])
            return false;
        sum += j.lengths[i];
    }
    return memcmp(a->packet + j.first, b->packet + k.first, sum) == 0;
}

int main(void) {
    uint64_t records = 0;
    struct record a, b;
    new.file = 3;
    for (;;) {
        bool one = next_record(&in, &a), other = next_record(&new, &b);
        if (one != other || new.passed > 0 || (one && !same(&a, &b))) {
            printf("differs record %" PRIu64 "\n", records);
            return 0;
        }
        if (!one)
            break;
        records++;
    }
    printf("same records %" PRIu64 " end\n", records);
    return 0;
}
