/*
 * An auditor of a ring's log over ringlog.h, with the roots, paths and consistency proofs of RFC
 * 6962, to copy from.
 *
 *   auditor first LOG                       reports the log's head, for the auditor to keep
 *   auditor next LOG COUNT ROOT             checks that the log goes on behind a head that was kept
 *   auditor value LOG INDEX COUNT ROOT      checks that value INDEX is under a head that was kept
 *
 * A head is a count of values and their root, in 64 hexadecimal digits; it is all that the auditor
 * keeps between two visits. LOG is the file of the ring's log, which is not changed. What was kept
 * and is given here must come from the auditor's own notes: it is what every answer rests on.
 *
 * Two sides play here in one program, and what one may use the other does not see. The owner has
 * the log, and works out of it what is asked for: a head, a consistency proof, a value with its
 * path. The auditor has heads and what the owner sends, and no log. So the owner is not believed,
 * neither in what is sent nor in how it was made: a yes is the auditor's check alone. In life the
 * two are two programs, and heads are signed, so that the owner cannot show other heads to others.
 *
 * The status is 0 where the check says yes or a first head was reported, 1 where it says no, which
 * is what values that were rewritten come to, 2 where arguments or file are of no use, and 3 where
 * the owner's side was refused, as with a damaged log, or one that has fewer values than were seen.
 */

#include "common.h"
#include "ringlog.h"

#include <inttypes.h>
#include <stdbool.h>
#include <stddef.h>
#include <stdint.h>
#include <stdio.h>
#include <stdlib.h>
#include <string.h>

enum { YES = 0, NO = 1, UNUSABLE = 2, REFUSED = 3 };

/* The owner's: the bytes of the file, of which nothing is known. */
struct log {
    uint8_t bytes[RINGLOG_LONGEST_LOG];
    size_t used;
};

/* Reported by the owner, kept by the auditor. The count belongs to it: a root does not say how many
   values are under it. */
struct head {
    size_t count;
    uint8_t root[RINGLOG_DIGEST];
};

/* Sent by the owner: digests, one behind the other. None are more than those of the longest
   consistency proof. */
struct digests {
    uint8_t bytes[RINGLOG_LONGEST_CONSISTENCY];
    size_t used;
};

/* Sent by the owner: a value item. */
struct item {
    uint8_t bytes[RINGLOG_LONGEST_ITEM];
    size_t used;
};

/* Prints a head as it is given in arguments. */
static void print_head(const char *name, const struct head *head)
{
    printf("%s: %zu ", name, head->count);
    print_bytes(head->root, RINGLOG_DIGEST);
}

/* Prints digests, one in a line. */
static void print_digests(const struct digests *digests)
{
    for (size_t i = 0; i < digests->used; i += RINGLOG_DIGEST) {
        printf("  ");
        print_bytes(digests->bytes + i, RINGLOG_DIGEST);
    }
}

/* Whether the texts are a count and a root. */
static bool read_head(const char *count, const char *root, struct head *head)
{
    if (strspn(root, "0123456789abcdefABCDEF") != 2 * RINGLOG_DIGEST
        || root[2 * RINGLOG_DIGEST] != '\0') {
        return false;
    }
    for (size_t i = 0; i < RINGLOG_DIGEST; i++) {
        char digits[3] = {root[2 * i], root[2 * i + 1], '\0'};

        head->root[i] = (uint8_t)strtoul(digits, NULL, 16);
    }
    return read_number(count, &head->count);
}

/*
 * THE OWNER, who has the log and none of the auditor's heads.
 */

/* The head of the log. It is refused for a log that is not well formed in every byte; how much of
   it is well formed is then printed for the owner, who can repair it. */
static bool owner_head(const struct log *log, struct head *head)
{
    struct ringlog_extent extent = ringlog_audit(log->bytes, log->used);
    struct ringlog_digest root = ringlog_rfc6962_root(log->bytes, log->used);

    if (!answered("owner's root", root.number)) {
        printf("owner's log: well formed in %" PRIu64 " values, bytes %" PRIu64 " of %zu\n",
               extent.entries, extent.bytes, log->used);
        return false;
    }
    head->count = (size_t)extent.entries;
    memcpy(head->root, root.digest, RINGLOG_DIGEST);
    print_head("owner's head", head);
    return true;
}

/* The consistency proof from the first `old_count` values to all of them. Refused where the log has
   fewer. */
static bool owner_consistency(const struct log *log, size_t old_count, struct digests *proof)
{
    struct ringlog_count made = ringlog_rfc6962_consistency(log->bytes, log->used, old_count,
                                                            proof->bytes, sizeof proof->bytes);

    proof->used = (size_t)made.value;
    if (!answered("owner's consistency proof", made.number)) {
        return false;
    }
    printf("owner's consistency proof: from %zu values, bytes %zu\n", old_count, proof->used);
    print_digests(proof);
    return true;
}

/* Value `index` and its path in the log of the first `count` values, to which the log in memory is
   cut: under the head of so many the path is another one than in a log that has grown since. */
static bool owner_value(struct log *log, size_t count, size_t index, struct item *item,
                        struct digests *path)
{
    struct ringlog_count end = ringlog_cut(log->bytes, sizeof log->bytes, log->used, count);
    struct ringlog_count made;
    struct ringlog_digest root;
    struct ringlog_part part;

    if (!answered("owner's cut", end.number)) {
        return false;
    }
    log->used = (size_t)end.value;
    made = ringlog_rfc6962_path(log->bytes, log->used, index, path->bytes, sizeof path->bytes);
    if (!answered("owner's path", made.number)) {
        return false;
    }
    path->used = (size_t)made.value;
    /* The path was answered, so the log is well formed, and the root that it stores its own. */
    root = ringlog_root(log->bytes, log->used);
    part = ringlog_value(log->bytes, log->used, root.digest, sizeof root.digest, index);
    if (!answered("owner's value", part.number)) {
        return false;
    }
    item->used = (size_t)part.length;
    memcpy(item->bytes, log->bytes + part.offset, item->used);
    printf("owner's value: %zu, %s, ", index, kind_name(item->bytes[0]));
    print_bytes(item->bytes, item->used);
    printf("owner's path: in %zu values, bytes %zu\n", count, path->used);
    print_digests(path);
    return true;
}

/*
 * THE AUDITOR, who has a head that was kept, and what the owner sends.
 */

/* Whether the head that is reported goes on behind the one that was kept. Behind no values any head
   does, and there is no proof. */
static bool auditor_accepts_head(const struct head *kept, const struct head *head,
                                 const struct digests *proof)
{
    bool accepted = kept->count == 0
        || ringlog_rfc6962_check_consistency(kept->count, head->count, proof->bytes, proof->used,
                                             kept->root, sizeof kept->root,
                                             head->root, sizeof head->root);

    printf("auditor's check, that of %zu values the first %zu are those known: %s\n", head->count,
           kept->count, accepted ? "yes" : "no");
    return accepted;
}

/* Whether the item is value `index` under the head that was kept. */
static bool auditor_accepts_value(const struct head *kept, size_t index, const struct item *item,
                                  const struct digests *path)
{
    bool accepted = ringlog_rfc6962_check_path(kept->count, index, item->bytes, item->used,
                                               path->bytes, path->used,
                                               kept->root, sizeof kept->root);

    printf("auditor's check, that this is value %zu of %zu: %s\n", index, kept->count,
           accepted ? "yes" : "no");
    return accepted;
}

/*
 * WHAT IS ASKED
 */

/* A first head is kept as it is reported: there is nothing yet to check it with. */
static int first(const struct log *log)
{
    struct head head;

    if (!owner_head(log, &head)) {
        return REFUSED;
    }
    print_head("auditor keeps", &head);
    return YES;
}

/* The auditor keeps the new head only where the check says yes, and else the one that was kept. */
static int next(const struct log *log, const struct head *kept)
{
    struct head head;
    struct digests proof = {{0}, 0};
    bool sent = owner_head(log, &head)
        && (kept->count == 0 || owner_consistency(log, kept->count, &proof));
    bool accepted = sent && auditor_accepts_head(kept, &head, &proof);

    print_head("auditor keeps", accepted ? &head : kept);
    return accepted ? YES : sent ? NO : REFUSED;
}

/* The auditor tells the owner the count of the head and the index, and not the root. */
static int value(struct log *log, size_t index, const struct head *kept)
{
    struct item item;
    struct digests path;

    if (!owner_value(log, kept->count, index, &item, &path)) {
        return REFUSED;
    }
    return auditor_accepts_value(kept, index, &item, &path) ? YES : NO;
}

int main(int argc, char **argv)
{
    static struct log log;
    struct head kept = {0, {0}};
    size_t index = 0;
    const char *asked = argc > 1 ? argv[1] : "";
    bool is_first = strcmp(asked, "first") == 0 && argc == 3;
    bool is_next = strcmp(asked, "next") == 0 && argc == 5 && read_head(argv[3], argv[4], &kept);
    bool is_value = strcmp(asked, "value") == 0 && argc == 6 && read_number(argv[3], &index)
        && read_head(argv[4], argv[5], &kept);

    if (!is_first && !is_next && !is_value) {
        fprintf(stderr, "usage: auditor first LOG\n"
                        "       auditor next LOG COUNT ROOT\n"
                        "       auditor value LOG INDEX COUNT ROOT\n");
        return UNUSABLE;
    }
    if (!read_file(argv[2], log.bytes, &log.used)) {
        return UNUSABLE;
    }
    return is_first ? first(&log) : is_next ? next(&log, &kept) : value(&log, index, &kept);
}
