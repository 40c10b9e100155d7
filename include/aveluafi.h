/* Aveluafi: Opus packets packed into longer ones, cut again, padded and stripped of padding; found in capture files, which can be compacted; and the
 * identification headers of Ogg Opus streams, read and written.
 *
 * The C interface of the proved archive libaveluafi.a (`./aveluafi build archive`, x86-64 Linux). Names follow unopus 0.0.1 and libopus, under a
 * prefix of their own, so that a program can link libopus too.
 *
 * Every call takes every value of its arguments: it answers, or refuses by one of the negative numbers below, and then it has changed nothing:
 * the collector and every byte lent to it are as they were. No call allocates, locks, keeps a pointer or touches anything global; calls on
 * different memory may run at the same time.
 *
 * What a caller must see to, since C cannot say it:
 *   - a pointer and a count name that many bytes, or cut orders, that can be read, and for a pointer without `const` written; a count of 0 may go with
 *     any pointer, NULL too, as an empty std::vector has it: no byte is touched; the pointer to a collector or to a header's fields is never NULL;
 *   - the memory of two arguments of one call does not overlap (data, store, collector and orders are four different places, data and dst two, head
 *     and dst too);
 *   - no other thread writes to that memory during the call; so a file that is still being written is read into memory first, and a file that is
 *     mapped must not be changed or cut meanwhile;
 *   - a `bool` is 0 or 1, as C's own is;
 *   - two structs are compared field by field: between the fields there are bytes that mean nothing, and memcmp would look at them.
 */
#ifndef AVELUAFI_H
#define AVELUAFI_H

#include <stdbool.h>
#include <stddef.h>
#include <stdint.h>

#ifdef __cplusplus
extern "C" {
#endif

/* ---- the version of this header
 *
 * At start, compare: `if (aveluafi_version() != AVELUAFI_VERSION)` the archive that was linked is not the one that this header declares, and
 * nothing that it answers can be relied on. The number is raised whenever a declaration here changes. A call that is added raises nothing: an archive
 * without it does not link.
 *
 * 3: struct aveluafi_repacketizer has the field packet and is 150 bytes long, 48 more than before: whoever lends one must be compiled again.
 * 2: a refusal names the rule of RFC 6716 and the byte. aveluafi_repacketizer_cat, pad, unpad and their multistream kin answer a struct aveluafi_report
 *    in the place of a number; struct aveluafi_packet and struct aveluafi_size have rule and place, in another order; aveluafi_parse_size is told a rule.
 * 1: the first. */

#define AVELUAFI_VERSION 3

int32_t aveluafi_version(void);

/* ---- numbers; docs/RUNBOOK.md says of each what to do */

#define AVELUAFI_OK 0                 /* added, padded, nothing to pad */
#define AVELUAFI_BAD_ARG (-1)         /* an argument outside its bound; an empty packet for samples, frame count, pad or unpad; a range that is not
                                         0 <= begin < end <= frames held; a packet number not held; a store under 61,200 bytes; over 48 cut orders; a start
                                         past a capture's end; lengths that do not sum to what is joined; a stream that is none of a packet's */
#define AVELUAFI_BUFFER_TOO_SMALL (-2) /* the output, or the budget of a share, is longer than the destination */
#define AVELUAFI_INVALID_PACKET (-4)  /* the packet breaks a rule of RFC 6716; its upper six TOC bits are not those held; over 120 ms held;
                                         streams that do not last equally long */
#define AVELUAFI_INVALID_STATE (-6)   /* the collector was not made by these calls, or was written over */
#define AVELUAFI_DIRTY_PADDING (-20)  /* a strict add: a padding byte is not zero */
#define AVELUAFI_OVER_BUDGET (-21)    /* a share of compaction: the next record alone, rewritten, is longer than the budget */
#define AVELUAFI_BAD_HEADER (-22)     /* no identification header: under 19 bytes, other letters in front, or another length than its fields need */
#define AVELUAFI_UNKNOWN_VERSION (-23) /* an identification header of a version above 15 */
#define AVELUAFI_BAD_FIELD (-24)      /* a field of an identification header against the rules of RFC 7845; to be written: a version other than 1 */

/* ---- rule and place: which rule of RFC 6716, section 3.4, a packet breaks, and where
 *
 * Where a packet cannot be read, -4 comes with a rule, 1 to 8, and the place of the first byte of the field concerned, counted from the first byte of the
 * buffer that was lent: 0 to the length of the packet, which is a place behind its last byte. Beside any other answer both are 0: also beside the -4 for
 * other TOC bits, or for a total over 120 ms that is not the packet's own. (The length reader's -1 has a rule too.)
 *
 *   1  R1  no byte at all; at its place, 0, or in a multistream packet where the stream should begin
 *   2  R2  a frame whose length is not written, but left over, would have over 1275 bytes; behind the last field, for codes 0 and 1 at byte 1
 *   3  R3  code 1: the bytes left do not divide by two; at the TOC byte
 *   4  R4  code 2: the first length is cut short or longer than what is behind it; at that length
 *   5  R5  code 3: the count byte is missing, says 0 frames or over 120 ms; at byte 1
 *   6  R6  code 3, equal lengths: the padding does not fit, at byte 2; or the bytes left do not divide by the count, behind the last field
 *   7  R7  code 3, own lengths: the padding does not fit, at byte 2; or a length is cut short or longer than what is behind it, at that length; or the
 *          lengths are too long only together, behind the last one
 *   8      self-delimited: the last length is cut short or too long; at that length
 */

#define AVELUAFI_MOST_RULE 8

/* What a call answers that reads packets, returned in a register. */
struct aveluafi_report {
    int32_t number;                   /* 0, a count of bytes, or the refusal */
    uint16_t rule;
    uint16_t place;
};

/* ---- bounds */

#define AVELUAFI_MOST_PACKET 65535    /* bytes of a packet, of a destination for packets, of a padded length */
#define AVELUAFI_MOST_FRAME 1275      /* bytes of a frame */
#define AVELUAFI_MOST_FRAMES 48       /* frames of a packet or a collector; 120 ms */
#define AVELUAFI_LEAST_STORE 61200    /* bytes of a collector's store: 48 frames of 1275 */
#define AVELUAFI_MOST_ORDERS 48       /* cut orders of one call */

/* ---- length fields (RFC 6716, 3.2.1) */

struct aveluafi_size {
    int32_t number;                   /* the bytes of the field (1 or 2), or the refusal */
    uint16_t rule;                    /* the rule that was told, where the field is cut short */
    uint16_t place;                   /* of the field: 0, the front of data */
    uint16_t size;                    /* the length; 0 beside a refusal */
};

/* Writes the field of a length of 0 to 1275 at the front of data, and answers its bytes. -1 for another size, -2 where data_len is too short. */
int32_t aveluafi_encode_size(int32_t size, uint8_t *data, size_t data_len);

/* Reads the length at the front of data, told which rule asks for it: 4, 7 or 8. -1 for another rule, with rule 0; then -1 where the field is cut short,
 * with the rule that was told. */
struct aveluafi_size aveluafi_parse_size(const uint8_t *data, size_t data_len, uint16_t rule);

/* ---- the TOC byte (RFC 6716, 3.1) */

/* Samples of one frame at 8000, 12000, 16000, 24000 or 48000 Hz. -1 for an empty packet or another rate. */
int32_t aveluafi_packet_get_samples_per_frame(const uint8_t *data, size_t data_len, int32_t rate);

/* Frames that the packet says it has; only its first two bytes are looked at. -1 for an empty packet, -4 for code 3 without a second byte. */
int32_t aveluafi_packet_get_nb_frames(const uint8_t *data, size_t data_len);

/* ---- the packet reader (RFC 6716, 3.2 to 3.4 and appendix B) */

struct aveluafi_packet {
    int32_t number;                   /* the frames, 1 to 48, or the refusal; beside a refusal every field behind rule and place is 0 */
    uint16_t rule;
    uint16_t place;
    uint16_t lengths[AVELUAFI_MOST_FRAMES]; /* of each frame; 0 past the last */
    uint8_t toc;
    size_t payload_offset;            /* where the first frame stands; each next frame stands right behind the one before */
    size_t packet_offset;             /* the bytes taken, padding included */
};

/* Reads an ordinary packet, which takes all of data. -1 above 65,535 bytes, -4 with rule and place where a rule fails. */
struct aveluafi_packet aveluafi_packet_parse(const uint8_t *data, size_t data_len);

/* The same in the named delimiting. A self-delimited packet ends where it says; bytes behind it are not looked at. */
struct aveluafi_packet aveluafi_packet_parse_impl(const uint8_t *data, size_t data_len, bool self_delimited);

/* ---- the judge: what to tell the maker of a recorder (docs/RUNBOOK.md, 'What to tell the maker of a recorder') */

#define AVELUAFI_UNREADABLE 1         /* a rule of RFC 6716 is broken, at a place */
#define AVELUAFI_DIRTY 2              /* a padding byte is not zero */
#define AVELUAFI_LONGER 3             /* the same frames fit in fewer bytes */
#define AVELUAFI_CLEAN 4              /* the packet is the shortest there is for its frames */

struct aveluafi_verdict {
    int32_t number;                   /* 0, or the refusal; beside a refusal every other field is 0 */
    uint16_t verdict;                 /* the first of the four that holds, in this order */
    uint16_t rule;                    /* of an unreadable packet, as in struct aveluafi_report; else 0 */
    size_t place;
    size_t least;                     /* of one that is longer than needed, the bytes of the shortest packet with its frames; else 0 */
};

/* Judges the packet in the named delimiting. Bytes behind a self-delimited packet are no part of it. -1 above 65,535 bytes. */
struct aveluafi_verdict aveluafi_packet_judge(const uint8_t *data, size_t data_len, bool self_delimited);

/* ---- the collector
 *
 * The caller lends the struct and a store of at least 61,200 bytes, the same one to every call on it. Its frames stand one behind another in the
 * store, copied there: an added packet is needed no longer. The fields are for the calls alone; one that they did not write is refused
 * with -6 if it is unsound, and cannot fault anything.
 *
 * Two collectors never share a store: each copies its frames to the front, over those of the other, and no call can notice, since the store holds
 * frames alone. A store may serve the next collector once what it holds has been written.
 *
 * Order of refusals: -6, then a short store (-1), then a packet or destination over 65,535 bytes (-1), then the rest. */

struct aveluafi_repacketizer {
    uint8_t toc;
    uint16_t nb_frames;
    uint16_t framesize;               /* samples of a frame at 8 kHz */
    uint16_t len[AVELUAFI_MOST_FRAMES];
    uint8_t packet[AVELUAFI_MOST_FRAMES]; /* the number of the accepted packet that a frame came in, from 0 since the collector was last empty */
};

/* Makes any memory of this size an empty collector; a reset is the same. */
void aveluafi_repacketizer_init(struct aveluafi_repacketizer *rp);

/* Adds an ordinary packet, and answers 0. -4 without a rule for one whose upper six TOC bits are not those held, broken or not, or that would make the
 * frames held last over 120 ms; -4 with rule and place for one that cannot be read. */
struct aveluafi_report aveluafi_repacketizer_cat(struct aveluafi_repacketizer *rp, const uint8_t *data, size_t data_len, uint8_t *store, size_t store_len);

/* The same, but that a packet is refused by -20, last of all, if one of its padding bytes is not zero: the bytes behind its frames, not the padding lengths.
 * RFC 6716, 3.2.5, has them zero, and packing drops them; a recorder that writes something there loses it. Strict and ordinary adds may be mixed. */
struct aveluafi_report aveluafi_repacketizer_cat_strict(struct aveluafi_repacketizer *rp, const uint8_t *data, size_t data_len, uint8_t *store,
                                                        size_t store_len);

/* The frames held. */
int32_t aveluafi_repacketizer_get_nb_frames(const struct aveluafi_repacketizer *rp);

/* Writes all frames held as one ordinary packet, the shortest there is, and answers its bytes. -2 where data_len is shorter than it; -1 where
 * no frame is held. Bytes past the packet stay. */
int32_t aveluafi_repacketizer_out(const struct aveluafi_repacketizer *rp, const uint8_t *store, size_t store_len, uint8_t *data, size_t data_len);

/* The same for the frames begin to end - 1. -1 unless 0 <= begin < end <= frames held. */
int32_t aveluafi_repacketizer_out_range(const struct aveluafi_repacketizer *rp, const uint8_t *store, size_t store_len, int32_t begin, int32_t end,
                                        uint8_t *data, size_t data_len);

/* The same in the named delimiting; with pad the packet fills data, and data_len is answered. */
int32_t aveluafi_repacketizer_out_range_impl(const struct aveluafi_repacketizer *rp, const uint8_t *store, size_t store_len, int32_t begin, int32_t end,
                                             uint8_t *data, size_t data_len, bool self_delimited, bool pad);

/* Writes the frames that came in the accepted packet with this number, 0 for the first since the collector was last empty, as one ordinary packet, and
 * answers its bytes: what unpadding that packet would have left. A refused packet has no number. -1 for a number that no frame held has, then -2. */
int32_t aveluafi_repacketizer_out_packet(const struct aveluafi_repacketizer *rp, const uint8_t *store, size_t store_len, int32_t number, uint8_t *data,
                                         size_t data_len);

/* ---- many cuts in one call */

/* One cut order: the frames begin to end - 1. What length holds before the call is not looked at. */
struct aveluafi_order {
    int32_t begin;
    int32_t end;
    uint32_t length;                  /* the bytes of its packet, where the call is not refused */
};

/* What the call answers, returned in a register. */
struct aveluafi_order_report {
    int32_t number;                   /* the bytes of all packets, or the refusal */
    uint32_t position;                /* of the order that is refused, from 1; 0 in every other answer */
};

/* Writes the packet of each order, which is what aveluafi_repacketizer_out_range writes, into what the orders before it have left of data: one behind another,
 * the first at the front. Puts the bytes of each into its order's length, and answers the bytes of all. Ranges may overlap and repeat, in any order. No order
 * answers 0, on an empty collector too. Begin and end of every order stay, and so do the bytes of data past the last packet. orders_len counts orders.
 *
 * Order of refusals: -6, then a short store (-1), then a destination over 65,535 bytes (-1), then more than 48 orders (-1), all of these at position 0; then
 * the orders one by one, the first that is refused with its position: -1 unless 0 <= begin < end <= frames held, then -2 where its packet is longer than what
 * is left of data. If one order is refused the whole call is: every length and every byte of data is as it was, those of the orders before it too. */
struct aveluafi_order_report aveluafi_repacketizer_out_many(const struct aveluafi_repacketizer *rp, const uint8_t *store, size_t store_len,
                                                            struct aveluafi_order *orders, size_t orders_len, uint8_t *data, size_t data_len);

/* ---- pad and unpad, in place
 *
 * data_len is the whole buffer; len, the packet in its front; new_len, the length asked for. -1 for a length below 1, above the buffer or above
 * 65,535, and where new_len is below len. -4 with rule and place for a packet that cannot be read. */

/* Makes the packet new_len bytes long, and answers 0; equal lengths answer 0 without a look at the packet. */
struct aveluafi_report aveluafi_packet_pad(uint8_t *data, size_t data_len, int32_t len, int32_t new_len);

/* Strips the padding, in the shortest form, and answers the bytes of the packet, which is never longer than it was. Bytes past it stay. */
struct aveluafi_report aveluafi_packet_unpad(uint8_t *data, size_t data_len, int32_t len);

/* The same for nb_streams packets, 1 to 255, all but the last self-delimited. Padding goes into the last stream. -1 for another number of streams, and
 * where no byte is left for the last. The place is counted from the first byte of data, whichever stream breaks the rule. */
struct aveluafi_report aveluafi_multistream_packet_pad(uint8_t *data, size_t data_len, int32_t len, int32_t new_len, int32_t nb_streams);

/* Every stream is brought into its shortest form; answers the bytes of all. All streams are read before the first is rewritten. */
struct aveluafi_report aveluafi_multistream_packet_unpad(uint8_t *data, size_t data_len, int32_t len, int32_t nb_streams);

/* ---- streams joined and taken apart
 *
 * A multistream packet has one packet of each stream, all but the last self-delimited, and its streams last equally long (RFC 7845, section 3), whatever their
 * configurations: the time of a stream is its frames, empty ones too, times the samples of one. Every stream is read before the first byte is written.
 *
 * Order of refusals: -1; -4 with rule and place for the first stream that cannot be read, the place counted from the first byte of data; -4 without a rule
 * where the streams do not last equally long; -2. */

#define AVELUAFI_MOST_STREAMS 255

/* Joins the packets, 1 to 255 ordinary ones of these lengths, which lie one behind another in data, into one multistream packet at the front of dst: each in
 * its shortest form. Answers its bytes. -1 for no packet or more than 255, for data or dst above 65,535 bytes, and where the lengths do not sum to data_len.
 * An empty packet is one that cannot be read. Joined, packets can be longer by two bytes each but the last: -2 can come with the longest destination. */
struct aveluafi_report aveluafi_multistream_join(const uint8_t *data, size_t data_len, const uint16_t *lengths, size_t lengths_len, uint8_t *dst,
                                                 size_t dst_len);

/* Takes stream k, from 0, out of the multistream packet of nb_streams, 1 to 255, that fills data: its packet in ordinary form, the shortest, at the front of
 * dst. Answers its bytes. -1 for another number of streams, a k that is none of them, and for data or dst above 65,535 bytes. A stream behind k that cannot be
 * read or lasts another time is refused as one before it. */
struct aveluafi_report aveluafi_multistream_take(const uint8_t *data, size_t data_len, int32_t nb_streams, int32_t k, uint8_t *dst, size_t dst_len);

/* ---- capture files
 *
 * A record is the mark 4B 9D, a line number in one byte, the packet's length in two, high byte first, and the packet, of 1 to 65,535 bytes. It
 * stands at a place only if all of it fits. Where none stands the reader passes over one byte at a time. */

#define AVELUAFI_RECORD_HEAD 5        /* bytes of a record before its packet, which stands at data + place + 5 */

struct aveluafi_record {
    int32_t number;                   /* 0, or the refusal; beside a refusal every other field is 0 */
    uint8_t line;
    size_t place;                     /* of the mark; where no record is left, data_len */
    size_t length;                    /* bytes of the packet; where no record is left, 0 */
    size_t passed;                    /* bytes passed over, from start up to place */
};

/* The next record at or after start; go on from place + AVELUAFI_RECORD_HEAD + length. -1 where start is past data_len. A capture may have any
 * length. The stack that the call takes does not grow with it.
 *
 * A capture that is still being written may end within a record, which is then passed over; a mark inside its packet can be taken for a record. So
 * of such a file only what stands behind whole records is final: keep the place behind the last record, and ask again from there when more has come. */
struct aveluafi_record aveluafi_next_record(const uint8_t *data, size_t data_len, size_t start);

/* ---- compaction by shares
 *
 * A capture is rewritten record by record, each packet in the shorter of two spellings: its compact form, which is the shortest packet with its frames, or,
 * where that is no shorter or the packet cannot be read, the bytes that it has. The line stays, and so do the frames and the upper six TOC bits. A call does
 * a share of it, as many records as a budget of bytes holds, and says where the next one resumes.
 *
 * What a caller must see to besides:
 *   - the capture is a whole file, or a part that ends right behind a record that was read. In a piece that is cut inside a record that record is passed
 *     over, so it is lost, and a mark inside its packet can be taken for a record. A file that is still being written may be such a piece;
 *   - data and dst do not overlap: a capture is not compacted where it stands;
 *   - dirty padding is stripped quietly, as all padding is: judge the packets first (aveluafi_packet_judge), and ask what the bytes are;
 *   - bytes that are passed over are in no record, and are not written;
 *   - the original is kept until what was written is on disk and was read back (docs/RUNBOOK.md, 'Compacting an archive by shares'; examples/compact.c). */

#define AVELUAFI_MOST_RECORD 65540    /* bytes of a record, head and packet: a budget of so many is never too short for one */

struct aveluafi_share {
    int32_t number;                   /* 0, or the refusal; beside a refusal every other field is 0 */
    size_t resume;                    /* where the next call starts: the place of the next record; where no record is left, data_len */
    size_t records;                   /* the records done */
    size_t written;                   /* their bytes in dst, at most budget */
    size_t reclaimed;                 /* by how many bytes they were longer in data */
    size_t passed;                    /* bytes passed over, from start up to resume */
};

/* Rewrites the records at or after start into the front of dst, one right behind another, and stops before the first that would make them more than budget
 * bytes; an exact fit is done. Go on from resume, into any destination and with any budget, until resume is data_len: joined, the calls write what one
 * call with ample budget writes. resume - start is always written + reclaimed + passed. Where no record is left the call answers, with a budget of 0 too.
 *
 * data, dst and budget may have any length. Nothing of dst past the written bytes changes. A packet is rewritten in dst, where it is to stand: the call has
 * no work room of 65,535 bytes, neither lent nor on its stack, and the stack that it takes does not grow with the capture.
 *
 * Order of refusals: -1 where start is past data_len, -2 where dst_len is below budget, -21 exactly if the next record alone, rewritten, is longer than
 * budget. After -21 call again from the same start with more, AVELUAFI_MOST_RECORD at most; nothing was written, and the same budget is refused again. */
struct aveluafi_share aveluafi_compact(const uint8_t *data, size_t data_len, size_t start, uint8_t *dst, size_t dst_len, size_t budget);

/* ---- identification headers of Ogg Opus streams (RFC 7845, 5.1)
 *
 * The rules on the fields: channels at least 1, at most 2 in family 0 and 8 in family 1; streams at least 1, coupled at most streams, and their sum at most
 * 255; each channel's entry of the mapping 255, which is a silent channel, or below that sum. The bytes of family 0 carry no streams, coupled and mapping: it
 * means one stream, coupled if there are 2 channels, and the entries 0 and 1, or 0 alone. */

#define AVELUAFI_MOST_HEAD 276        /* bytes of the longest header of version 1: 255 channels */

/* The fields of a header. */
struct aveluafi_head {
    uint8_t version;
    uint8_t channels;
    uint16_t pre_skip;                /* samples at 48 kHz, to be left out at the start */
    uint32_t rate;                    /* that of the recording, in Hz; for information */
    int16_t gain;                     /* in 1/256 dB */
    uint8_t family;
    uint8_t streams;
    uint8_t coupled;
    uint8_t mapping[255];             /* an entry for each channel; 0 past the last */
};

/* What the reader answers. */
struct aveluafi_head_record {
    int32_t number;                   /* 0, or the refusal; beside a refusal every field of the header is 0 */
    struct aveluafi_head head;
};

/* Reads the header that data is. A version 1 header takes all of data; those of versions 0 and 2 to 15 may have more bytes behind their fields, which are not
 * looked at.
 *
 * Order of refusals: -22 under 19 bytes, or where the letters OpusHead are not in front; -23 for a version above 15; -22 for another length than the fields
 * need, which is 19 bytes in family 0 and 21 and one for each channel in the others; -24 for a field against the rules. */
struct aveluafi_head_record aveluafi_head_read(const uint8_t *data, size_t data_len);

/* Writes a header of these fields at the front of dst, and answers its bytes: 19 to AVELUAFI_MOST_HEAD. Read, they give the same fields; and a header of
 * version 1 that was read and is written gives the bytes that were read. Bytes past the header stay.
 *
 * Order of refusals: -24 for a version other than 1, a field against the rules, an entry past the last channel's that is not 0, and in family 0 for streams,
 * coupled or mapping other than it means; -2 where dst_len is too short. */
int32_t aveluafi_head_write(const struct aveluafi_head *head, uint8_t *dst, size_t dst_len);

#ifdef __cplusplus
}
#endif

#endif
