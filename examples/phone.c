/*
 * The core of a phone app over ringlog.h, to copy from.
 *
 *   phone COPY RECEIVED [INDEX]
 *
 * COPY is a file with the phone's copy of the ring's log, RECEIVED one with what came from the
 * ring: the same log, a longer or a shorter one, one that differs, torn or damaged, or no log at
 * all. What counts of it is taken for the ring's log. The copy is made into that log, or is found
 * to have more. Then value INDEX, else the last that the ring has, is proved from the copy under
 * the ring's root. The files are not changed. The status is 0 where the two are the same log at the
 * end, 1 where they are not or a call was refused, 2 where arguments or files are of no use.
 *
 * It is safe by its order. Both logs are audited first, and from then on only the beginnings that
 * count are lent to any call. The repaired copy is audited too; an app stores it only behind that.
 * A value is read only where ringlog_value says, which folds it to the ring's root.
 *
 * An audit says that bytes are a well-formed log, not whose log it is: a forged one is well formed
 * too, and so is what is left of one that was torn on its way. What tells is the root that the
 * ring's secure chip reports. There is no ring here, and the root of the received log stands in for
 * it; an app compares the two, and receives again where they are not equal.
 *
 * Which log is right where two differ is the app's policy and not the library's. Here the donor of
 * the repair piece wins: the log with more entries, and of equally many the ring's, which is lent
 * as the first. What is printed counts the values that the other one gives up. That a log is longer
 * does not make it right: an app that must not lose values keeps the old copy, and asks, before it
 * takes or sends a piece where logs differ.
 */

#include "common.h"
#include "ringlog.h"

#include <inttypes.h>
#include <stdbool.h>
#include <stddef.h>
#include <stdint.h>
#include <stdio.h>
#include <string.h>

enum { SAME = 0, NOT_SAME = 1, UNUSABLE = 2 };

/* A log in memory. Once keep_well_formed has answered true, its first `used` bytes are a
   well-formed log of `entries` values with this root. */
struct log {
    uint8_t bytes[RINGLOG_LONGEST_LOG];
    size_t used;
    size_t entries;
    uint8_t root[RINGLOG_DIGEST];
};

/* Keeps the longest beginning that is a well-formed log; what is behind it is not looked at again.
   True but for a refused root, and the root of a well-formed log is not refused. */
static bool keep_well_formed(const char *name, struct log *log)
{
    struct ringlog_extent extent = ringlog_audit(log->bytes, log->used);
    struct ringlog_digest root = ringlog_root(log->bytes, (size_t)extent.bytes);

    printf("%s: entries %" PRIu64 ", bytes %" PRIu64 " of %zu, %s\n", name, extent.entries,
           extent.bytes, log->used, extent.bytes == log->used ? "whole" : "torn");
    log->entries = (size_t)extent.entries;
    log->used = (size_t)extent.bytes;
    memcpy(log->root, root.digest, RINGLOG_DIGEST);
    printf("root: ");
    print_bytes(log->root, RINGLOG_DIGEST);
    return answered("root", root.number);
}

/* How many values two well-formed logs have in common. True but for a refused search, and that of
   two well-formed logs is not refused. */
static bool find_split(const struct log *ring, const struct log *copy, size_t *common)
{
    static const char *const calls[] = {"search", "search, the ring's log", "search, the copy",
                                        "search, both logs"};
    static const char *const verdicts[] = {"same", "the ring's log is shorter",
                                           "the copy is shorter", "differ"};
    struct ringlog_split split =
        ringlog_search(ring->bytes, ring->used, copy->bytes, copy->used);

    if (!answered(calls[split.side & 3], split.number)) {
        return false;
    }
    printf("split: %s", verdicts[split.verdict & 3]);
    if (split.verdict == RINGLOG_DIFFER) {
        printf(" at %" PRIu64, split.place);
    }
    printf(", in common %" PRIu64 "\n", split.common);
    printf("reads: %" PRIu64 " in the ring's log, %" PRIu64 " in the copy\n", split.first_reads,
           split.second_reads);
    *common = (size_t)split.common;
    return true;
}

/* Makes the copy into its values in common and the ring's piece behind them, audited anew. The cut
   blanks the buffer behind the values in common: what the copy gives up is gone with it, and the
   bytes behind the piece are 0xFF. True only if the copy has the ring's root then. */
static bool take_piece(struct log *copy, size_t common, const struct log *ring,
                       struct ringlog_piece piece)
{
    struct ringlog_count end = ringlog_cut(copy->bytes, RINGLOG_LONGEST_LOG, copy->used, common);

    if (!answered("cut", end.number)) {
        return false;
    }
    copy->used = (size_t)end.value;
    if (piece.length > RINGLOG_LONGEST_LOG - copy->used) {
        printf("take: no room\n");
        return false;
    }
    memcpy(copy->bytes + copy->used, ring->bytes + piece.offset, (size_t)piece.length);
    copy->used += (size_t)piece.length;
    return keep_well_formed("repaired", copy)
        && memcmp(copy->root, ring->root, RINGLOG_DIGEST) == 0;
}

/* True only if copy and ring are the same log now. Where the copy is the donor it stays as it is,
   and the ring has to take the piece, by the steps of take_piece. */
static bool repair(struct log *copy, size_t common, const struct log *ring)
{
    struct ringlog_piece piece = ringlog_repair(ring->bytes, ring->used, copy->bytes, copy->used);
    bool take = piece.donor == RINGLOG_FIRST;
    bool same;

    if (piece.donor == 0) {
        printf("repair: no piece, the search is refused\n");
        return false;
    }
    printf("%s: bytes %" PRIu64 " from %" PRIu64 " on, behind %zu values; %zu given up\n",
           take ? "take" : "send", piece.length, piece.offset, common,
           (take ? copy->entries : ring->entries) - common);
    same = take && take_piece(copy, common, ring, piece);
    printf("same now: %s\n", same ? "yes" : "no");
    return same;
}

/* True only if value `index` of the copy is proved under the ring's root, and with one bit changed
   is not. The root is that of as many values as the ring has, so a copy that has more is cut to as
   many. A cut blanks what it cuts off, so it is made in other memory, and the copy keeps all of its
   values. The check needs no log: count, index, item, proof and root are all that it is lent. */
static bool prove(const struct log *copy, const struct log *ring, size_t index)
{
    static uint8_t first[RINGLOG_LONGEST_LOG];
    uint8_t proof[RINGLOG_LONGEST_PROOF];
    uint8_t item[RINGLOG_LONGEST_ITEM];
    struct ringlog_count end;
    struct ringlog_part value;
    struct ringlog_count made;
    bool accepted, forged;

    memcpy(first, copy->bytes, copy->used);
    end = ringlog_cut(first, sizeof first, copy->used, ring->entries);
    if (!answered("cut", end.number)) {
        return false;
    }
    value = ringlog_value(first, (size_t)end.value, ring->root, RINGLOG_DIGEST, index);
    if (!answered("value", value.number)) {
        return false;
    }
    made = ringlog_proof(first, (size_t)end.value, index, proof, sizeof proof);
    if (!answered("proof", made.number)) {
        return false;
    }
    memcpy(item, first + value.offset, (size_t)value.length);
    accepted = ringlog_check_proof(ring->entries, index, item, (size_t)value.length, proof,
                                   (size_t)made.value, ring->root, RINGLOG_DIGEST);
    printf("proof: value %zu, %s, bytes %" PRIu64 ": %s\n", index, kind_name(item[0]), made.value,
           accepted ? "yes" : "no");
    item[value.length - 1] ^= 1;
    forged = ringlog_check_proof(ring->entries, index, item, (size_t)value.length, proof,
                                 (size_t)made.value, ring->root, RINGLOG_DIGEST);
    printf("with one bit changed: %s\n", forged ? "yes" : "no");
    return accepted && !forged;
}

/* Of both files only what counts is kept, and repair and proof are made from that alone. */
int main(int argc, char **argv)
{
    static struct log copy, ring;
    size_t common;
    size_t index = 0;
    bool same;

    if (argc < 3 || argc > 4 || (argc == 4 && !read_number(argv[3], &index))) {
        fprintf(stderr, "usage: phone COPY RECEIVED [INDEX]\n");
        return UNUSABLE;
    }
    if (!read_file(argv[1], copy.bytes, &copy.used)
        || !read_file(argv[2], ring.bytes, &ring.used)) {
        return UNUSABLE;
    }
    if (!keep_well_formed("received", &ring) || !keep_well_formed("copy", &copy)
        || !find_split(&ring, &copy, &common)) {
        return NOT_SAME;
    }
    same = repair(&copy, common, &ring);
    if (argc == 4 || ring.entries > 0) {
        same = prove(&copy, &ring, argc == 4 ? index : ring.entries) && same;
    }
    return same ? SAME : NOT_SAME;
}
