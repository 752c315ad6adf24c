/*
 * Falconyarn: a verified append-only log with a stratified hash tree.
 *
 * This is its C interface, for the phone, the ring's firmware, auditors and tests in any language,
 * in C99 and C++11. Link libringlog_c.a (made by `rt lib` in crates/ringlog_c). The library keeps no
 * state between calls, allocates nothing, and calls no other function than memcpy and memset, so it
 * may be called from any thread, and from several at once. Each call takes less than 8 KiB of
 * stack, as tests/c/stack_use.c measures.
 *
 * MEMORY
 *
 * Every call is defined for any bytes, numbers and lengths. It answers by value, and a call that is
 * refused writes nothing to the memory that it was lent. All memory stays the caller's: the library
 * keeps no pointer when a call has returned. The one thing that is left to the caller is the memory
 * itself:
 *
 *   - a pointer is not null, also where its length is 0; any other address will do there;
 *   - the bytes from the pointer on, as many as the length says, may be read, and nobody changes
 *     them during the call;
 *   - where the pointer is not const, they may be written too, and no other bytes that are lent to
 *     the same call overlap them.
 *
 * Bytes need no alignment, and bytes that are lent as const may overlap: a root may lie in the log.
 *
 * Only ringlog_append, ringlog_cut and the calls with an output write, and only when all their
 * checks have passed. In which order the bytes are written is not promised: if the power fails
 * during the call, any of them may be written and any not.
 *
 * THE LOG
 *
 * docs/FORMAT.md has all of this with tables, pictures and worked examples.
 *
 * A log is the entries of 0 to 4,096 values, one behind the other, numbered from 1. The value of an
 * entry is a value item, a kind byte and a body:
 *
 *   0x10  tap                  body of  8 bytes
 *   0x11  stored-value change  body of 16 bytes
 *   0x12  ticket               body of 48 bytes
 *
 * What a body says is the caller's matter: any bytes will do. Kinds may be mixed in one log.
 *
 * Entry i has these items, with numbers in big endian:
 *
 *   0x01  i (4 bytes)
 *   the value item
 *   0x20  leaf digest (32)
 *   0x21  height (1), left offset (4), left digest (32), own digest (32)
 *   0x30  length of this whole entry (4)
 *
 * There is one item 0x21, a node, for each one among the binary digits of i - 1, in rising height:
 * height p + 1 for digit p, counted from 0. Its left child is the node of height p in entry
 * l = floor((i - 1) / 2^p) * 2^p, or the leaf there if p is 0; the left offset is where entry l
 * begins in the log. Its right child is the next lower node in entry i, or the leaf if there is
 * none. A leaf digest is the SHA-256 of 0x00 and the value item; a node's own digest is that of its
 * height as one byte, the left digest and the right child's digest. The root of a log is the own
 * digest of the highest node in its last entry, the leaf digest of its one entry, or the SHA-256 of
 * no bytes if it is empty.
 *
 * A log is well formed where every byte of it is the one that is written for its values.
 *
 * An entry with index i at offset o has the right shape where it has exactly the items above, with
 * these heights, i is 1 to 4,096, every left offset is below o, its length is true, it lies inside
 * the log, o is below 2^32, and o is 0 exactly if i is 1. Its digests and its value's body may be
 * any bytes. A log opens where it is empty, or where its last five bytes are an item 0x30 and an
 * entry of that length and the right shape ends with them, whatever stands before that entry. In
 * what follows, n is the index of the last entry of a log that opens, and 0 for an empty log.
 *
 * Only the audit looks at every byte, and the three calls of the auditors' edition that are lent a
 * log, which audit it first. So only their time grows with the log, and that of a cut with the
 * bytes that it blanks. Append and root look at the last entry. Cut, value and proof go from there
 * to the entry that is wanted, from the top of the tree down, by at most 12 links; search and
 * repair do so in two logs, and in each at most twice. A link is a left offset and a left digest:
 * the entry there must have the right shape and the index wanted (else 6), and then it must store
 * that digest (else 7). No other entry is looked at, so what else stands in the log does not matter
 * to them.
 *
 * THE AUDITORS' EDITION
 *
 * Auditors have tools for the trees of RFC 6962 (Certificate Transparency, section 2.1). So the
 * values of a log have a second root, with proofs of its own, in the calls named ringlog_rfc6962_.
 * Nothing of it is stored in a log: it is worked out of the values.
 *
 *   - A leaf digest is the SHA-256 of 0x00 and the value item, kind byte included.
 *   - Of n > 1 values the first k are under the left child and the others under the right one,
 *     where k is the largest power of two that is smaller than n. The digest of any node is the
 *     SHA-256 of 0x01, the left child's digest and the right child's.
 *   - The root of no values is the SHA-256 of no bytes.
 *
 * Leaves and splits are those of the log's own tree. The byte before a node is its height there, so
 * the roots of 1 and 2 values are the same in both editions, and those of none and of more are not.
 *
 * A path shows that a value is under a root, and a consistency proof that the values under a root
 * go on behind those under an older one. Their checks need no log. Values are numbered from 1 here
 * too: what the RFC calls leaf 0 is value 1. A root does not say how many values are under it: keep
 * it with its count.
 *
 * SIZES, in bytes
 *
 *                          value item   first entry   longest entry   log of 4,096
 *   tap                             9            52             892      1,933,312
 *   stored-value change            17            60             900      1,966,080
 *   ticket                         49            92             932      2,097,152
 *
 * Entry i is as long as a first entry of its kind, and 70 more for each one among the binary digits
 * of i - 1. So eight taps begin at 0, 52, 174, 296, 488, 610, 802 and 994, and end at 1,256.
 *
 * The proof of value i in a log of n values has 32 * hops(n, i) bytes: at most 384, and none where
 * n is 1. With j the highest binary digit, counted from 0, in which n and i - 1 differ,
 *
 *   hops(n, i) = (how many ones floor(n / 2^(j + 1)) has in binary) + j
 *                + (0 if n ends in exactly j binary zeros, else 1)
 *
 * A path of the auditors' edition has as many bytes as that proof. A consistency proof from m to n
 * values has 32 * digests(m, n) bytes, at most 416. digests(n, n) is 0, and for m below n
 *
 *   digests(m, n) = hops(n, m) - (how many zeros m ends in, in binary)
 *                   + (0 if m is a power of two, else 1)
 *
 * EXAMPLES
 *
 * The examples below form one program, in this order: each may use what those before it made. It
 * includes this header, assert.h and string.h. tools/header_examples.py takes it out of this file,
 * and the gate (.ci/run) compiles it as C and as C++ and runs it.
 */
#ifndef RINGLOG_H
#define RINGLOG_H

#include <stdbool.h>
#include <stddef.h>
#include <stdint.h>

/* Sizes for the caller's buffers; in bytes, but for the values. */
#define RINGLOG_MOST_VALUES 4096        /* values in a log */
#define RINGLOG_LONGEST_LOG 2097152     /* so many tickets: no well-formed log is longer */
#define RINGLOG_LONGEST_ENTRY 932       /* what an append writes at most */
#define RINGLOG_LONGEST_ITEM 49         /* kind and body of a ticket */
#define RINGLOG_LONGEST_PROOF 384       /* in such an output no proof is refused with 8, */
#define RINGLOG_LONGEST_PATH 384        /* in this one no path of the auditors' edition, */
#define RINGLOG_LONGEST_CONSISTENCY 416 /* and in this one no consistency proof */
#define RINGLOG_LONGEST_MESSAGE 65535   /* what ringlog_sha256 takes at most */
#define RINGLOG_DIGEST 32               /* a digest, and so a root */

/* Kinds: the first byte of a value item. */
#define RINGLOG_TAP 0x10
#define RINGLOG_CHANGE 0x11
#define RINGLOG_TICKET 0x12

/*
 * Numbers of refusals, the same in every call:
 *
 *   0  answered
 *   1  a message to hash is longer than 65,535 bytes; used is above the buffer's length; a root has
 *      not 32 bytes
 *   2  the index is 0 or above n; the count of a cut is above n; the old count of a consistency
 *      proof is 0 or above n
 *   3  a value item to append has an unknown kind or a wrong length
 *   4  the log has 4,096 entries already
 *   5  the entry is longer than the buffer's room after used
 *   6  the log does not open; a link leads to no entry of the right shape with the index wanted; in
 *      the auditors' edition, the log is not well formed
 *   7  a link's digest is not the one stored where it leads; a value does not fold to the root; two
 *      logs store different digests for a node, and the same ones for both of its children
 *   8  the proof, path or consistency proof is longer than the output
 *
 * Where several apply, the first counts in the order that stands at the call. Look at the number
 * before all else: what is beside it is 0 where the call is refused, so that a refused append
 * answers 0 and not the old used. Every offset, length and count of bytes that is answered is
 * within the length that was lent, so it fits a size_t.
 */
#define RINGLOG_ANSWERED 0
#define RINGLOG_BAD_LENGTH 1
#define RINGLOG_BAD_INDEX 2
#define RINGLOG_BAD_ITEM 3
#define RINGLOG_FULL 4
#define RINGLOG_NO_ROOM 5
#define RINGLOG_BAD_SHAPE 6
#define RINGLOG_BAD_DIGEST 7
#define RINGLOG_NO_ROOM_FOR_PROOF 8

/* Logs of a search: the side that is refused, and the donor of a piece. 0 is none. */
#define RINGLOG_FIRST 1
#define RINGLOG_SECOND 2
#define RINGLOG_BOTH 3

/* Verdicts of a search that is answered. */
#define RINGLOG_SAME 0
#define RINGLOG_FIRST_SHORTER 1
#define RINGLOG_SECOND_SHORTER 2
#define RINGLOG_DIFFER 3

#ifdef __cplusplus
extern "C" {
#endif

/* A digest: number 0 and 32 bytes, or the number of a refusal and 32 zero bytes. */
struct ringlog_digest {
    uint32_t number;
    uint8_t digest[RINGLOG_DIGEST];
};

/* A count: number 0 and the value, or the number of a refusal and value 0. */
struct ringlog_count {
    uint32_t number;
    uint64_t value;
};

/* A log at the beginning of some bytes: how many entries it has, and how many bytes. */
struct ringlog_extent {
    uint64_t entries;
    uint64_t bytes;
};

/*
 * A part of a log that was lent: number 0, where it begins in that log and how many bytes it has,
 * or the number of a refusal and two zeros. The bytes themselves are not copied; they stay the
 * caller's.
 */
struct ringlog_part {
    uint32_t number;
    uint64_t offset;
    uint64_t length;
};

/*
 * Where two logs split: number 0, side 0 and what was found, or the number of a refusal, its side
 * and zeros. Since 0 is also the verdict of equal logs, a verdict says something only where number
 * is 0.
 */
struct ringlog_split {
    uint32_t number;
    uint32_t side;        /* the log that is refused: RINGLOG_FIRST, _SECOND or _BOTH; else 0 */
    uint64_t common;      /* how many values are in common, from the first on */
    uint32_t verdict;     /* RINGLOG_SAME, _FIRST_SHORTER, _SECOND_SHORTER or _DIFFER (at place) */
    uint64_t place;       /* the index of the value where they differ, else 0 */
    uint64_t first_reads; /* how many entries were read in the first log, and in the second */
    uint64_t second_reads;
};

/*
 * A part of one of two logs that were lent: which log, where the part begins in it and how many
 * bytes it has, or three zeros. The bytes themselves are not copied; they stay the caller's.
 */
struct ringlog_piece {
    uint32_t donor; /* RINGLOG_FIRST or RINGLOG_SECOND; 0 where the search is refused */
    uint64_t offset;
    uint64_t length;
};

/*
 * The SHA-256 digest (FIPS 180-4) of a message of 0 to 65,535 bytes.
 * Refused with 1 where message_len is above 65,535. Writes nothing.
 *
 * Example:
 *
 *     struct ringlog_digest abc = ringlog_sha256((const uint8_t *)"abc", 3);
 *     assert(abc.number == RINGLOG_ANSWERED);
 *     assert(abc.digest[0] == 0xba && abc.digest[1] == 0x78 && abc.digest[31] == 0xad);
 */
struct ringlog_digest ringlog_sha256(const uint8_t *message, size_t message_len);

/*
 * Appends a value item to the log in the first `used` bytes of a buffer; used is 0 for an empty
 * log. Writes one entry at used, and no other byte; the value is the new used. A well-formed log
 * becomes the well-formed log of its values and the new one. Only the last entry is read: what
 * stands before it changes neither the answer nor what is written. The item is copied, and must not
 * lie in the buffer.
 *
 * Refused, the first that applies, with value 0 and no byte written:
 *   1  used is above buffer_len;
 *   3  the item is no value item: an unknown kind, or a wrong length;
 *   6  the log does not open;
 *   4  the log has 4,096 entries;
 *   5  the entry is longer than buffer_len - used.
 *
 * Example, three taps:
 *
 *     static uint8_t ring[RINGLOG_LONGEST_LOG];
 *     size_t used = 0;
 *     uint8_t tap[9] = {RINGLOG_TAP, 0, 0, 0, 0, 0, 0, 0, 0};
 *     for (int i = 1; i <= 3; i++) {
 *         tap[8] = (uint8_t)i;
 *         struct ringlog_count appended = ringlog_append(ring, sizeof ring, used, tap, sizeof tap);
 *         if (appended.number != RINGLOG_ANSWERED) {
 *             break;
 *         }
 *         used = (size_t)appended.value;
 *     }
 *     assert(used == 52 + 122 + 122);
 */
struct ringlog_count ringlog_append(uint8_t *buffer, size_t buffer_len, size_t used,
                                    const uint8_t *item, size_t item_len);

/*
 * The longest beginning of the bytes that is a well-formed log: how many entries it has, and how
 * many bytes. Both may be 0. What follows it was torn or damaged, or belongs to no log; nothing
 * does where bytes equals bytes_len. Refuses nothing and writes nothing.
 *
 * After a torn append, audit and go on with bytes as used; ringlog_cut to so many entries blanks
 * what the append left behind them. The audit goes by the bytes alone, and finds damage, not
 * forgery: anybody can write a well-formed log of other values. Whether it is the right log is seen
 * by its root, beside a root that the caller trusts.
 *
 * Example, three taps without their last byte, and with it:
 *
 *     struct ringlog_extent torn = ringlog_audit(ring, used - 1);
 *     struct ringlog_extent whole = ringlog_audit(ring, used);
 *     assert(torn.entries == 2 && torn.bytes == 52 + 122);
 *     assert(whole.entries == 3 && whole.bytes == used);
 */
struct ringlog_extent ringlog_audit(const uint8_t *bytes, size_t bytes_len);

/*
 * The root of a log: the top digest that its last entry stores, or the SHA-256 of no bytes for an
 * empty log. It is read, not worked out anew: of bytes that may be damaged it says nothing before an
 * audit. Refused with 6, and 32 zero bytes, where the log does not open. Writes nothing.
 *
 * Example, the roots of three values, of the first, which is its leaf digest, and of none:
 *
 *     const uint8_t leaf[10] = {0x00, RINGLOG_TAP, 0, 0, 0, 0, 0, 0, 0, 1};
 *     struct ringlog_digest leaf_digest = ringlog_sha256(leaf, sizeof leaf);
 *     struct ringlog_digest first_root = ringlog_root(ring, 52);
 *     struct ringlog_digest root = ringlog_root(ring, used);
 *     assert(root.number == RINGLOG_ANSWERED && first_root.number == RINGLOG_ANSWERED);
 *     assert(memcmp(first_root.digest, leaf_digest.digest, RINGLOG_DIGEST) == 0);
 *     struct ringlog_digest no_bytes = ringlog_sha256(ring, 0);
 *     struct ringlog_digest empty_root = ringlog_root(ring, 0);
 *     assert(empty_root.number == RINGLOG_ANSWERED);
 *     assert(memcmp(empty_root.digest, no_bytes.digest, RINGLOG_DIGEST) == 0);
 */
struct ringlog_digest ringlog_root(const uint8_t *log, size_t log_len);

/*
 * Value `index` of a log, checked against a root that the caller trusts: the value item, kind and
 * body, as a part of the log. The value found is hashed anew and folded with the siblings on its
 * path, as the log stores them, and the fold must give the lent root. So the answer rests on the
 * root and not on the log, which may be damaged or forged. The root need not be the one that the
 * log stores. Writes nothing.
 *
 * Refused, the first that applies, with offset and length 0:
 *   1  root_len is not 32;
 *   6  the log does not open;
 *   2  index is 0 or above n;
 *   6, 7  a link on the way does not hold, from the top down, in one link 6 before 7;
 *   7  the fold does not give the root, as with the root of fewer or more values (where the root is
 *      that of the log's first values, cut a copy to so many, and ask in what is left).
 *
 * Example, value 2 against a root that was kept in a safe place:
 *
 *     struct ringlog_part part = ringlog_value(ring, used, root.digest, sizeof root.digest, 2);
 *     assert(part.number == RINGLOG_ANSWERED && part.length == 9);
 *     const uint8_t *value = ring + part.offset;
 *     assert(value[0] == RINGLOG_TAP && value[8] == 2);
 */
struct ringlog_part ringlog_value(const uint8_t *log, size_t log_len,
                                  const uint8_t *root, size_t root_len, size_t index);

/*
 * Writes a proof that value `index` is in a log of n values: the siblings on its path, as the log
 * stores them, 32 bytes each, the one next to the leaf first. The value is how many bytes it has;
 * the rest of the output stays as it was. A proof has at most 384 bytes, and none where n is 1. Of
 * a log that may be damaged it says nothing before ringlog_check_proof accepts it.
 *
 * Refused, the first that applies, with value 0 and no byte written:
 *   6  the log does not open;
 *   2  index is 0 or above n;
 *   8  the proof is longer than output_len;
 *   6, 7  a link on the way does not hold, from the top down, in one link 6 before 7.
 *
 * Example, two siblings:
 *
 *     uint8_t proof[RINGLOG_LONGEST_PROOF];
 *     struct ringlog_count proved = ringlog_proof(ring, used, 2, proof, sizeof proof);
 *     assert(proved.number == RINGLOG_ANSWERED && proved.value == 2 * RINGLOG_DIGEST);
 */
struct ringlog_count ringlog_proof(const uint8_t *log, size_t log_len, size_t index,
                                   uint8_t *output, size_t output_len);

/*
 * Whether a proof shows that a value item is value `index` of a log of `count` values with this
 * root. No log is needed. True exactly when
 *   - 1 <= index <= count <= 4,096,
 *   - the item is a value item,
 *   - the proof has 32 * hops(count, index) bytes, no less and no more,
 *   - root_len is 32,
 *   - and the item, folded with the proof, gives the root.
 * There are no refusals: everything else is false. Writes nothing.
 *
 * The root decides. Where two counts give a value the same path, as 3 and 4 do for value 1, the
 * proof holds for both.
 *
 * Example, value 2 of 3, and another item in its place:
 *
 *     bool holds = ringlog_check_proof(3, 2, value, part.length, proof, proved.value,
 *                                      root.digest, sizeof root.digest);
 *     bool other = ringlog_check_proof(3, 2, tap, sizeof tap, proof, proved.value,
 *                                      root.digest, sizeof root.digest);
 *     assert(holds && !other);
 */
bool ringlog_check_proof(size_t count, size_t index, const uint8_t *item, size_t item_len,
                         const uint8_t *proof, size_t proof_len,
                         const uint8_t *root, size_t root_len);

/*
 * Cuts the log in the first `used` bytes of a buffer to its first `count` values: the value is
 * where entry `count` ends, the used to go on with. It is 0 for a count of 0, also on an empty log,
 * and used for a count of n; these two follow no link. The bytes of a well-formed log up to that
 * end are the well-formed log of its first values.
 *
 * Every byte from that end to the end of the buffer becomes 0xff, also behind used, also for a
 * count of n: lend no byte that must stay. A cut to 0 with used 0 blanks any buffer. Nothing that
 * was cut off from a well-formed log counts again: an audit of the whole buffer gives `count`
 * entries, even if an append behind them was torn, so that of its entry only some first bytes were
 * written.
 *
 * Refused, the first that applies, with value 0, and no byte is written:
 *   1  used is above buffer_len;
 *   6  the log does not open;
 *   2  count is above n;
 *   6, 7  a link on the way does not hold, from the top down, in one link 6 before 7.
 *
 * Example, a copy cut to its first value, and then an append whose last byte is not written:
 *
 *     static uint8_t copy[RINGLOG_LONGEST_LOG];
 *     memcpy(copy, ring, used);
 *     struct ringlog_count cut = ringlog_cut(copy, sizeof copy, used, 1);
 *     assert(cut.number == RINGLOG_ANSWERED && cut.value == 52);
 *     assert(copy[52] == 0xff && copy[sizeof copy - 1] == 0xff);
 *
 *     struct ringlog_count next = ringlog_append(copy, sizeof copy, 52, tap, sizeof tap);
 *     assert(ringlog_audit(copy, sizeof copy).bytes == next.value);
 *     copy[next.value - 1] = 0xff;
 *     assert(ringlog_audit(copy, sizeof copy).bytes == 52);
 */
struct ringlog_count ringlog_cut(uint8_t *buffer, size_t buffer_len, size_t used, size_t count);

/*
 * Where two logs split; here n is the smaller of their two. Both are brought to entry n. Where its
 * top digests differ, the search goes down to the first leaf that differs, at each node to the left
 * if the left digests differ, else to the right. It answers how many values are in common, and that
 * the logs are the same, that one is shorter and the other goes on behind it, or that they differ
 * at place, which is common + 1.
 *
 * Only digests are compared, as the logs store them, never values. Two well-formed logs are never
 * refused, and the answer is that of comparing them value by value, unless at a node or leaf that
 * both have different bytes were hashed to one digest. Even then the values differ at a place
 * that it names. Of logs that may be damaged it says nothing before an audit.
 *
 * An entry is read by opening a log that is not empty, and by each link that is followed. The reads
 * count them, 24 at most in a log. Where the search answers, no byte of another entry matters,
 * neither to the answer nor to the reads. If n is 0, both logs were opened, 0 values are in common,
 * and the logs are the same only if both are empty.
 *
 * Refused, the first that applies, with a side and all else 0:
 *   6  the first log does not open (side 1), then the second (side 2);
 *   6, 7  a link on the longer log's way to entry n does not hold (side 1 or 2), from the top down,
 *         in one link 6 before 7;
 *   6, 7  a link on the way down from there does not hold, at each node the first log's (side 1)
 *         before the second's (side 2), in one link 6 before 7;
 *   7  at a node on that way, whose digests differ, left and right digests agree (side 3).
 *
 * The two logs may be the same bytes, or overlap. Writes nothing.
 *
 * Example, a phone that has the ring's first tap and then another one:
 *
 *     static uint8_t phone[RINGLOG_LONGEST_LOG];
 *     memcpy(phone, ring, 52);
 *     tap[8] = 9;
 *     struct ringlog_count another = ringlog_append(phone, sizeof phone, 52, tap, sizeof tap);
 *     assert(another.number == RINGLOG_ANSWERED);
 *     size_t phone_used = (size_t)another.value;
 *     struct ringlog_split split = ringlog_search(ring, used, phone, phone_used);
 *     assert(split.number == RINGLOG_ANSWERED && split.verdict == RINGLOG_DIFFER);
 *     assert(split.common == 1 && split.place == 2);
 */
struct ringlog_split ringlog_search(const uint8_t *first, size_t first_len,
                                    const uint8_t *second, size_t second_len);

/*
 * The piece that makes one of two logs into the other: a part of the donor, up to its end. The
 * donor is the log with more entries, by the index of its last one and not by its bytes, and the
 * first if they have equally many. The piece begins, as ringlog_search reaches them, where the
 * donor's entry `place` begins if the logs differ, else where its entry n ends, and at 0 if n is 0.
 * For two well-formed logs whose search agrees with the comparison value by value, the other log
 * cut to the common count, and then the piece, are the donor byte for byte.
 *
 * Which of two logs that differ is right is not decided here: the longer one is the donor, and of
 * equally long ones the one that is lent first. Compare roots with one that you trust before you
 * give up values.
 *
 * A piece may be empty: equal logs give donor 1, offset first_len and length 0. Where
 * ringlog_search is refused there is no donor, and all three are 0; ask it for the number and the
 * side.
 *
 * The piece is not checked against a root, and only those of its entries are looked at that the
 * search reads: the receiver audits. The two logs may be the same bytes, or overlap. Writes
 * nothing.
 *
 * Example, the phone takes what it lacks from the ring, which has more entries, if it has the room:
 *
 *     struct ringlog_piece piece = ringlog_repair(ring, used, phone, phone_used);
 *     if (piece.donor == RINGLOG_FIRST && used <= sizeof phone) {
 *         struct ringlog_count kept = ringlog_cut(phone, sizeof phone, phone_used, split.common);
 *         if (kept.number == RINGLOG_ANSWERED && piece.length <= sizeof phone - kept.value) {
 *             memcpy(phone + kept.value, ring + piece.offset, piece.length);
 *             phone_used = (size_t)(kept.value + piece.length);
 *         }
 *     }
 *     assert(ringlog_audit(phone, phone_used).bytes == phone_used);
 *     assert(phone_used == used && memcmp(phone, ring, used) == 0);
 */
struct ringlog_piece ringlog_repair(const uint8_t *first, size_t first_len,
                                    const uint8_t *second, size_t second_len);

/*
 * The RFC 6962 root of a log's values; for an empty log the SHA-256 of no bytes. It is worked out
 * of the values and not read, behind an audit: where it answers, every byte of the log is the one
 * that is written for its values. ringlog_audit says how many they are; an auditor keeps that count
 * beside the root. Writes nothing.
 *
 * Refused with 6 where the log is not well formed: a byte is wrong anywhere, also in a digest of an
 * old entry, or a byte is over. Then ringlog_audit says how much of it counts.
 *
 * Example, what an auditor keeps of the first two taps, and of all three:
 *
 *     struct ringlog_digest kept = ringlog_rfc6962_root(ring, 52 + 122);
 *     struct ringlog_digest head = ringlog_rfc6962_root(ring, used);
 *     assert(kept.number == RINGLOG_ANSWERED && head.number == RINGLOG_ANSWERED);
 *     assert(head.digest[0] == 0xff && head.digest[1] == 0x5f && head.digest[31] == 0x97);
 *     assert(ringlog_rfc6962_root(ring, used - 1).number == RINGLOG_BAD_SHAPE);
 */
struct ringlog_digest ringlog_rfc6962_root(const uint8_t *log, size_t log_len);

/*
 * Writes a path that shows value `index` under the RFC 6962 root of a log of n values: the digests
 * of its siblings in that tree, 32 bytes each, the one next to the leaf first, as in the RFC. The
 * value is how many bytes it has, 32 * hops(n, index); the rest of the output stays as it was. A
 * path has at most 384 bytes, and none where n is 1. The index counts from 1, where the RFC's
 * counts from 0.
 *
 * Refused, the first that applies, with value 0 and no byte written:
 *   6  the log is not well formed;
 *   2  index is 0 or above n, and so any index where the log is empty;
 *   8  the path is longer than output_len.
 *
 * Example, value 2 of three: the leaf digests of values 1 and 3:
 *
 *     uint8_t path[RINGLOG_LONGEST_PATH];
 *     struct ringlog_count shown = ringlog_rfc6962_path(ring, used, 2, path, sizeof path);
 *     assert(shown.number == RINGLOG_ANSWERED && shown.value == 2 * RINGLOG_DIGEST);
 *     assert(memcmp(path, leaf_digest.digest, RINGLOG_DIGEST) == 0);
 */
struct ringlog_count ringlog_rfc6962_path(const uint8_t *log, size_t log_len, size_t index,
                                          uint8_t *output, size_t output_len);

/*
 * Whether a path shows that a value item is value `index` of `count` values with this RFC 6962
 * root. No log is needed. True exactly when
 *   - 1 <= index <= count <= 4,096,
 *   - the item is a value item,
 *   - the path has 32 * hops(count, index) bytes, no less and no more,
 *   - root_len is 32,
 *   - and the item, folded with the path, gives the root.
 * There are no refusals: everything else is false. Writes nothing.
 *
 * A path that other RFC 6962 software made will do, if its leaf data was the value item with its
 * kind byte; the leaf index there is one less than the index here.
 *
 * Example, value 2 of 3, and another item in its place:
 *
 *     bool included = ringlog_rfc6962_check_path(3, 2, value, part.length, path, shown.value,
 *                                                head.digest, sizeof head.digest);
 *     bool replaced = ringlog_rfc6962_check_path(3, 2, tap, sizeof tap, path, shown.value,
 *                                                head.digest, sizeof head.digest);
 *     assert(included && !replaced);
 */
bool ringlog_rfc6962_check_path(size_t count, size_t index, const uint8_t *item, size_t item_len,
                                const uint8_t *path, size_t path_len,
                                const uint8_t *root, size_t root_len);

/*
 * Writes a consistency proof: that the RFC 6962 root of a log of n values goes on from the root of
 * its first `old_count` values. It is PROOF(old_count, D[n]) of the RFC's section 2.1.2, digests of
 * 32 bytes each in the RFC's order, the innermost first. The value is how many bytes it has; the
 * rest of the output stays as it was. A proof has at most 416 bytes, and none where old_count is n.
 * The old root is left out where it is a digest of the new tree, that is where old_count is a power
 * of two. An auditor who has seen no values needs no proof: any log goes on from there.
 *
 * Refused, the first that applies, with value 0 and no byte written:
 *   6  the log is not well formed;
 *   2  old_count is 0 or above n, and so any old_count where the log is empty;
 *   8  the proof is longer than output_len.
 *
 * Example, from two taps to three, where the digest of value 3 is all that the older root lacks:
 *
 *     uint8_t growth[RINGLOG_LONGEST_CONSISTENCY];
 *     struct ringlog_count grown =
 *         ringlog_rfc6962_consistency(ring, used, 2, growth, sizeof growth);
 *     assert(grown.number == RINGLOG_ANSWERED && grown.value == RINGLOG_DIGEST);
 *     assert(memcmp(growth, path + RINGLOG_DIGEST, RINGLOG_DIGEST) == 0);
 */
struct ringlog_count ringlog_rfc6962_consistency(const uint8_t *log, size_t log_len,
                                                 size_t old_count,
                                                 uint8_t *output, size_t output_len);

/*
 * Whether a consistency proof shows that `new_count` values with the RFC 6962 root new_root go on
 * from `old_count` values with the root old_root. No log is needed. True exactly when
 *   - 1 <= old_count <= new_count <= 4,096,
 *   - old_root_len and new_root_len are 32,
 *   - the proof has 32 * digests(old_count, new_count) bytes, no less and no more,
 *   - and both roots come out of it by the RFC's rule, where old_root stands in if the proof has no
 *     digest for it: if old_count is new_count, or a power of two.
 * So where the counts are equal the proof is empty, and true means equal roots. There are no
 * refusals: everything else is false. Writes nothing.
 *
 * What true is worth: if old_root is that of a list of old_count values, and new_root that of a
 * list of new_count values, then the one list is the beginning of the other, or two different
 * inputs with one SHA-256 digest stand among those that the two roots and this check are made of.
 * Of a root that is no list's, or that was reported with a false count, it says nothing.
 *
 * Example, a third tap behind the two that are known, and a log in which the second is another:
 *
 *     bool goes_on = ringlog_rfc6962_check_consistency(2, 3, growth, grown.value,
 *                                                      kept.digest, sizeof kept.digest,
 *                                                      head.digest, sizeof head.digest);
 *     assert(goes_on);
 *
 *     struct ringlog_count second = ringlog_append(copy, sizeof copy, 52, tap, sizeof tap);
 *     struct ringlog_count third =
 *         ringlog_append(copy, sizeof copy, second.value, tap, sizeof tap);
 *     struct ringlog_digest rewritten = ringlog_rfc6962_root(copy, third.value);
 *     grown = ringlog_rfc6962_consistency(copy, third.value, 2, growth, sizeof growth);
 *     assert(rewritten.number == RINGLOG_ANSWERED && grown.number == RINGLOG_ANSWERED);
 *     assert(!ringlog_rfc6962_check_consistency(2, 3, growth, grown.value,
 *                                               kept.digest, sizeof kept.digest,
 *                                               rewritten.digest, sizeof rewritten.digest));
 */
bool ringlog_rfc6962_check_consistency(size_t old_count, size_t new_count,
                                       const uint8_t *proof, size_t proof_len,
                                       const uint8_t *old_root, size_t old_root_len,
                                       const uint8_t *new_root, size_t new_root_len);

#ifdef __cplusplus
}
#endif

#endif
