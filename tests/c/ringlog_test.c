/* The C interface as a C program sees it: the layout of its structs, its names for numbers, known
   digests, short logs in both editions, and the sizes of full ones. */

#include "ringlog.h"

#include <stdbool.h>
#include <stddef.h>
#include <stdint.h>
#include <stdio.h>
#include <string.h>

#define LONGEST 65535

static int passed;
static int failed;

static void check(int holds, const char *sentence)
{
    if (holds) {
        passed++;
    } else {
        failed++;
        printf("FAILED: %s\n", sentence);
    }
}

/* Whether the result is number 0 with the digest that is given in 64 lower-case hex digits. */
static int is_digest(struct ringlog_digest result, const char *hex)
{
    char text[65];

    for (size_t i = 0; i < 32; i++) {
        snprintf(text + 2 * i, 3, "%02x", (unsigned)result.digest[i]);
    }
    return result.number == 0 && strcmp(text, hex) == 0;
}

/* Whether the result has this number, with 32 zero bytes. */
static int is_zeros(struct ringlog_digest result, uint32_t number)
{
    static const uint8_t zeros[32];

    return result.number == number && memcmp(result.digest, zeros, sizeof zeros) == 0;
}

static int is_count(struct ringlog_count result, uint32_t number, uint64_t value)
{
    return result.number == number && result.value == value;
}

static int is_extent(struct ringlog_extent result, uint64_t entries, uint64_t bytes)
{
    return result.entries == entries && result.bytes == bytes;
}

static int is_part(struct ringlog_part result, uint32_t number, uint64_t offset, uint64_t length)
{
    return result.number == number && result.offset == offset && result.length == length;
}

/* Whether the search is refused with this number for this side, and all else is 0. */
static int is_refused(struct ringlog_split result, uint32_t number, uint32_t side)
{
    return result.number == number && result.side == side && result.common == 0
        && result.verdict == 0 && result.place == 0 && result.first_reads == 0
        && result.second_reads == 0;
}

/* Whether the search answers with so many values in common, this verdict, and place 0 or, where the
   logs differ, the one behind those in common. */
static int is_found(struct ringlog_split result, uint64_t common, uint32_t verdict)
{
    return result.number == 0 && result.side == 0 && result.common == common
        && result.verdict == verdict && result.place == (verdict == 3 ? common + 1 : 0);
}

static int has_reads(struct ringlog_split result, uint64_t first, uint64_t second)
{
    return result.first_reads == first && result.second_reads == second;
}

static int is_piece(struct ringlog_piece result, uint32_t donor, uint64_t offset, uint64_t length)
{
    return result.donor == donor && result.offset == offset && result.length == length;
}

static struct ringlog_digest digest_of(const char *text)
{
    return ringlog_sha256((const uint8_t *)text, strlen(text));
}

static void check_layout(void)
{
    check(sizeof(struct ringlog_digest) == 36, "struct ringlog_digest has 36 bytes");
    check(offsetof(struct ringlog_digest, number) == 0, "number is at offset 0");
    check(offsetof(struct ringlog_digest, digest) == 4, "digest is at offset 4");
    check(sizeof((struct ringlog_digest){0}.number) == 4, "number has 4 bytes");
    check(sizeof((struct ringlog_digest){0}.digest) == 32, "digest has 32 bytes");
    check(sizeof(struct ringlog_count) == 16, "struct ringlog_count has 16 bytes");
    check(offsetof(struct ringlog_count, number) == 0, "its number is at offset 0");
    check(offsetof(struct ringlog_count, value) == 8, "its value is at offset 8");
    check(sizeof(struct ringlog_extent) == 16, "struct ringlog_extent has 16 bytes");
    check(offsetof(struct ringlog_extent, entries) == 0, "its entries are at offset 0");
    check(offsetof(struct ringlog_extent, bytes) == 8, "its bytes are at offset 8");
    check(sizeof(struct ringlog_part) == 24, "struct ringlog_part has 24 bytes");
    check(offsetof(struct ringlog_part, number) == 0, "its number is at offset 0");
    check(offsetof(struct ringlog_part, offset) == 8, "its offset is at offset 8");
    check(offsetof(struct ringlog_part, length) == 16, "its length is at offset 16");
    check(sizeof(struct ringlog_split) == 48, "struct ringlog_split has 48 bytes");
    check(offsetof(struct ringlog_split, number) == 0, "its number is at offset 0");
    check(offsetof(struct ringlog_split, side) == 4, "its side is at offset 4");
    check(offsetof(struct ringlog_split, common) == 8, "its common is at offset 8");
    check(offsetof(struct ringlog_split, verdict) == 16, "its verdict is at offset 16");
    check(offsetof(struct ringlog_split, place) == 24, "its place is at offset 24");
    check(offsetof(struct ringlog_split, first_reads) == 32, "its first_reads are at offset 32");
    check(offsetof(struct ringlog_split, second_reads) == 40, "its second_reads are at offset 40");
    check(sizeof(struct ringlog_piece) == 24, "struct ringlog_piece has 24 bytes");
    check(offsetof(struct ringlog_piece, donor) == 0, "its donor is at offset 0");
    check(offsetof(struct ringlog_piece, offset) == 8, "its offset is at offset 8");
    check(offsetof(struct ringlog_piece, length) == 16, "its length is at offset 16");
}

/* The names stand for document 01's numbers; it leaves those of sides and verdicts free. */
static void check_names(void)
{
    check(RINGLOG_MOST_VALUES == 4096, "a log has at most 4,096 values");
    check(RINGLOG_LONGEST_LOG == 2097152, "the longest log has 2,097,152 bytes");
    check(RINGLOG_LONGEST_ENTRY == 932, "the longest entry has 932 bytes");
    check(RINGLOG_LONGEST_ITEM == 49, "the longest value item has 49 bytes");
    check(RINGLOG_LONGEST_PROOF == 384, "the longest proof has 384 bytes");
    check(RINGLOG_LONGEST_MESSAGE == 65535, "the longest message has 65,535 bytes");
    check(RINGLOG_DIGEST == 32, "a digest has 32 bytes");
    check(RINGLOG_TAP == 0x10, "a tap is 0x10");
    check(RINGLOG_CHANGE == 0x11, "a stored-value change is 0x11");
    check(RINGLOG_TICKET == 0x12, "a ticket is 0x12");
    check(RINGLOG_ANSWERED == 0, "no refusal is 0");
    check(RINGLOG_BAD_LENGTH == 1, "a wrong used, root or message is 1");
    check(RINGLOG_BAD_INDEX == 2, "a wrong index is 2");
    check(RINGLOG_BAD_ITEM == 3, "a wrong value item is 3");
    check(RINGLOG_FULL == 4, "a full log is 4");
    check(RINGLOG_NO_ROOM == 5, "no room for the entry is 5");
    check(RINGLOG_BAD_SHAPE == 6, "a log that does not open, or a wrong entry met, is 6");
    check(RINGLOG_BAD_DIGEST == 7, "a digest that disagrees is 7");
    check(RINGLOG_NO_ROOM_FOR_PROOF == 8, "no room for the proof is 8");
    check(RINGLOG_FIRST == 1, "the first log is 1");
    check(RINGLOG_SECOND == 2, "the second log is 2");
    check(RINGLOG_BOTH == 3, "both logs are 3");
    check(RINGLOG_SAME == 0, "same is 0");
    check(RINGLOG_FIRST_SHORTER == 1, "first shorter is 1");
    check(RINGLOG_SECOND_SHORTER == 2, "second shorter is 2");
    check(RINGLOG_DIFFER == 3, "differ is 3");
}

static void check_known_digests(void)
{
    check(is_digest(digest_of(""),
                    "e3b0c44298fc1c149afbf4c8996fb92427ae41e4649b934ca495991b7852b855"),
          "the empty message has its known digest");
    check(is_digest(digest_of("abc"),
                    "ba7816bf8f01cfea414140de5dae2223b00361a396177a9cb410ff61f20015ad"),
          "abc has the digest that FIPS gives");
    check(is_digest(digest_of("abcdbcdecdefdefgefghfghighijhijkijkljklmklmnlmnomnopnopq"),
                    "248d6a61d20638b8e5c026930c3e6039a33ce45964ff2167f6ecedd419db06c1"),
          "the 448-bit message has the digest that FIPS gives");
}

static void check_longest(void)
{
    static uint8_t message[LONGEST + 1];

    memset(message, 'a', sizeof message);
    check(is_digest(ringlog_sha256(message, LONGEST),
                    "6e1bebca6a8229364a162a72ef064826c4cd7457bf54f190ef782bd9deff3e42"),
          "65,535 times 'a' has its known digest");
    check(is_zeros(ringlog_sha256(message, LONGEST + 1), 1), "65,536 bytes are refused");
}

static const uint8_t first_tap[9] = {0x10, 0, 0, 0, 0, 0, 0, 0, 1};
static const uint8_t second_tap[9] = {0x10, 0, 0, 0, 0, 0, 0, 0, 2};
static const uint8_t third_tap[9] = {0x10, 0, 0, 0, 0, 0, 0, 0, 3};

static void check_log_of_two_taps(void)
{
    uint8_t buffer[52 + 122] = {0};

    check(is_extent(ringlog_audit(buffer, 0), 0, 0), "no bytes are a log of no entries");
    check(is_digest(ringlog_root(buffer, 0),
                    "e3b0c44298fc1c149afbf4c8996fb92427ae41e4649b934ca495991b7852b855"),
          "the root of an empty log is the digest of no bytes");
    check(is_count(ringlog_append(buffer, sizeof buffer, 0, first_tap, 9), 0, 52),
          "the first tap takes 52 bytes");
    check(is_digest(ringlog_root(buffer, 52),
                    "31cf8e61894d648e857cc6d14f8352c20c14d12f92a5f8dce26f01224a63376d"),
          "the root of one tap is its leaf digest");
    check(is_count(ringlog_append(buffer, sizeof buffer, 52, second_tap, 9), 0, 174),
          "the second tap takes 122 bytes");
    check(is_digest(ringlog_root(buffer, 174),
                    "c13ddaafdc82a50191374f1d2a4cdb72cb575a2e8990dd3b69bc0dd6a82e19c9"),
          "the root of two taps is their node's digest");
    check(is_extent(ringlog_audit(buffer, 174), 2, 174), "the log of two taps counts in full");
    check(is_extent(ringlog_audit(buffer, 173), 1, 52), "a torn second tap does not count");
    buffer[0] ^= 1;
    check(is_extent(ringlog_audit(buffer, 174), 0, 0), "nothing counts from a bent byte on");
}

static void check_stray_bytes(void)
{
    uint8_t buffer[55] = {0};

    ringlog_append(buffer, sizeof buffer, 0, first_tap, 9);
    check(is_extent(ringlog_audit(buffer, 55), 1, 52),
          "one tap and three stray bytes are 1 entry in 52 bytes");
    check(is_zeros(ringlog_root(buffer, 55), 6), "they do not open: the root is refused with 6");
}

static void check_refused_appends(void)
{
    static const uint8_t leaf[33] = {0x20};
    static const uint8_t zeros[52];
    uint8_t buffer[52] = {0};

    check(is_count(ringlog_append(buffer, 51, 52, leaf, 33), 1, 0), "used above the buffer is 1");
    check(is_count(ringlog_append(buffer, 51, 51, leaf, 33), 3, 0), "no value item is 3");
    check(is_count(ringlog_append(buffer, 51, 51, first_tap, 8), 3, 0), "a byte short is 3");
    check(is_count(ringlog_append(buffer, 51, 51, first_tap, 9), 6, 0), "what does not open is 6");
    check(is_count(ringlog_append(buffer, 51, 0, first_tap, 9), 5, 0), "a tap into 51 bytes is 5");
    check(memcmp(buffer, zeros, sizeof zeros) == 0, "a refused append writes nothing");
    check(is_count(ringlog_append(buffer, 52, 0, first_tap, 9), 0, 52),
          "a tap into 52 bytes works");
}

/* Entries 1, 2 and 3 begin at 0, 52 and 174, and the log ends at 296. */
static uint8_t three_taps[296];

static void append_three_taps(void)
{
    ringlog_append(three_taps, sizeof three_taps, 0, first_tap, 9);
    ringlog_append(three_taps, sizeof three_taps, 52, second_tap, 9);
    check(is_count(ringlog_append(three_taps, sizeof three_taps, 174, third_tap, 9), 0, 296),
          "three taps take 296 bytes");
}

/* The three taps, and eight bytes behind them. */
static void lend_three_taps(uint8_t buffer[304])
{
    memset(buffer, 0x77, 304);
    memcpy(buffer, three_taps, sizeof three_taps);
}

/* Whether the three taps, cut to so many in a buffer of 296 to 304 bytes, answer this end. The taps
   before it are as they were then, and from there to the end of the buffer, not further, is 0xFF. */
static int is_cut(size_t len, size_t count, size_t end)
{
    uint8_t buffer[304];
    uint8_t expected[304];

    lend_three_taps(buffer);
    lend_three_taps(expected);
    memset(expected + end, 0xff, len - end);
    return is_count(ringlog_cut(buffer, len, 296, count), 0, end)
        && memcmp(buffer, expected, sizeof buffer) == 0;
}

static void check_cuts(void)
{
    check(is_cut(296, 3, 296), "a cut to n answers used");
    check(is_cut(296, 2, 174), "a cut to 2 answers the end of entry 2 and blanks what is behind it");
    check(is_cut(296, 1, 52), "a cut to 1 answers the end of entry 1 and blanks what is behind it");
    check(is_cut(296, 0, 0), "a cut to 0 answers 0 and blanks all");
    check(is_cut(304, 3, 296), "a cut to n blanks the bytes behind used");
    check(is_cut(304, 1, 52), "a cut to 1 blanks the bytes behind used too");
    check(is_cut(304, 0, 0), "a cut to 0 blanks the whole buffer");
}

/* Byte 0 is the kind of entry 1's index item, and byte 15 the first of its leaf digest. */
static void check_refused_cuts(void)
{
    uint8_t buffer[304];
    uint8_t before[304];

    lend_three_taps(buffer);
    buffer[0] ^= 1;
    memcpy(before, buffer, sizeof before);
    check(is_count(ringlog_cut(buffer, 304, 305, 4), 1, 0), "used above the buffer is 1");
    check(is_count(ringlog_cut(buffer, 304, 295, 4), 6, 0), "what does not open is 6");
    check(is_count(ringlog_cut(buffer, 304, 296, 4), 2, 0), "a cut to n + 1 is 2");
    check(is_count(ringlog_cut(buffer, 304, 296, 1), 6, 0), "an entry met that is not shaped is 6");
    check(memcmp(buffer, before, sizeof before) == 0, "a refused cut writes nothing");
    buffer[0] ^= 1;
    buffer[15] ^= 1;
    memcpy(before, buffer, sizeof before);
    check(is_count(ringlog_cut(buffer, 304, 296, 1), 7, 0), "an entry met with another digest is 7");
    check(memcmp(buffer, before, sizeof before) == 0, "a cut that is refused with 7 writes nothing");
    check(is_count(ringlog_cut(buffer, 304, 296, 2), 0, 174),
          "an entry that is not met does not matter");
}

static void check_values(void)
{
    struct ringlog_digest root = ringlog_root(three_taps, 296);
    struct ringlog_part part = ringlog_value(three_taps, 296, root.digest, 32, 2);

    check(is_part(part, 0, 57, 9), "value 2 is nine bytes at 57");
    check(memcmp(three_taps + part.offset, second_tap, 9) == 0, "they are the second tap");
    check(is_part(ringlog_value(three_taps, 296, root.digest, 32, 1), 0, 5, 9), "value 1 is at 5");
    check(is_part(ringlog_value(three_taps, 296, root.digest, 32, 3), 0, 179, 9),
          "value 3 is at 179");
    check(is_part(ringlog_value(three_taps, 295, root.digest, 31, 0), 1, 0, 0), "no root is 1");
    check(is_part(ringlog_value(three_taps, 295, root.digest, 32, 0), 6, 0, 0), "no log is 6");
    check(is_part(ringlog_value(three_taps, 296, root.digest, 32, 0), 2, 0, 0), "index 0 is 2");
    check(is_part(ringlog_value(three_taps, 296, root.digest, 32, 4), 2, 0, 0), "index n + 1 is 2");
    check(is_part(ringlog_value(three_taps, 0, root.digest, 32, 0), 2, 0, 0),
          "index 0 of an empty log is 2");
    check(is_part(ringlog_value(three_taps, 174, root.digest, 32, 1), 7, 0, 0),
          "the root of more values is 7");
    root = ringlog_root(three_taps, 174);
    check(is_part(ringlog_value(three_taps, 296, root.digest, 32, 1), 7, 0, 0),
          "the root of fewer values is 7");
}

static void check_proofs(void)
{
    struct ringlog_digest root = ringlog_root(three_taps, 296);
    struct ringlog_digest first_two = ringlog_root(three_taps, 174);
    uint8_t zeros[64] = {0};
    uint8_t proof[65] = {0};

    check(is_count(ringlog_proof(three_taps, 295, 0, proof, 0), 6, 0), "what does not open is 6");
    check(is_count(ringlog_proof(three_taps, 296, 0, proof, 0), 2, 0), "index 0 is 2");
    check(is_count(ringlog_proof(three_taps, 296, 4, proof, 0), 2, 0), "index n + 1 is 2");
    check(is_count(ringlog_proof(three_taps, 296, 1, proof, 63), 8, 0), "64 bytes into 63 is 8");
    check(memcmp(proof, zeros, 64) == 0, "a refused proof writes nothing");
    check(is_count(ringlog_proof(three_taps, 296, 3, proof, 32), 0, 32), "value 3 has one sibling");
    check(memcmp(proof, first_two.digest, 32) == 0, "it is the root of the first two");
    check(ringlog_check_proof(3, 3, third_tap, 9, proof, 32, root.digest, 32),
          "that proof of value 3 is accepted");
    proof[64] = 0x5a;
    check(is_count(ringlog_proof(three_taps, 296, 1, proof, 65), 0, 64),
          "value 1 has two siblings");
    check(proof[64] == 0x5a, "the rest of the output stays");
    check(ringlog_check_proof(3, 1, first_tap, 9, proof, 64, root.digest, 32),
          "that proof is accepted");
    check(ringlog_check_proof(4, 1, first_tap, 9, proof, 64, root.digest, 32),
          "it is for 4 values too, of which value 1 has the same path");
    check(!ringlog_check_proof(3, 1, second_tap, 9, proof, 64, root.digest, 32),
          "another tap is not");
    check(!ringlog_check_proof(3, 2, first_tap, 9, proof, 64, root.digest, 32),
          "another index is not");
    check(!ringlog_check_proof(3, 0, first_tap, 9, proof, 64, root.digest, 32), "index 0 is not");
    check(!ringlog_check_proof(3, 1, first_tap, 8, proof, 64, root.digest, 32),
          "no value item is not");
    check(!ringlog_check_proof(3, 1, first_tap, 9, proof, 63, root.digest, 32), "63 bytes are not");
    check(!ringlog_check_proof(3, 1, first_tap, 9, proof, 65, root.digest, 32), "65 bytes are not");
    check(!ringlog_check_proof(3, 1, first_tap, 9, proof, 64, root.digest, 31),
          "a root of 31 bytes is not");
    proof[63] ^= 1;
    check(!ringlog_check_proof(3, 1, first_tap, 9, proof, 64, root.digest, 32),
          "a bent byte is not");
}

/* The roots are from a program of its own, with the hash of Python's standard library. */
static void check_rfc6962_roots(void)
{
    uint8_t bent[296];

    check(is_digest(ringlog_rfc6962_root(three_taps, 0),
                    "e3b0c44298fc1c149afbf4c8996fb92427ae41e4649b934ca495991b7852b855"),
          "the RFC's root of an empty log is the digest of no bytes");
    check(is_digest(ringlog_rfc6962_root(three_taps, 52),
                    "31cf8e61894d648e857cc6d14f8352c20c14d12f92a5f8dce26f01224a63376d"),
          "the RFC's root of one tap is its leaf digest");
    check(is_digest(ringlog_rfc6962_root(three_taps, 174),
                    "c13ddaafdc82a50191374f1d2a4cdb72cb575a2e8990dd3b69bc0dd6a82e19c9"),
          "the RFC's root of two taps is the one of the first edition");
    check(is_digest(ringlog_rfc6962_root(three_taps, 296),
                    "ff5fbab9c7161b420d374e3046bca9008b07043c572d8380f3d528fd137e6c97"),
          "the RFC's root of three taps is another one");
    check(is_zeros(ringlog_rfc6962_root(three_taps, 295), 6), "of a torn log it is 6");
    memcpy(bent, three_taps, sizeof bent);
    bent[15] ^= 1;
    check(is_zeros(ringlog_rfc6962_root(bent, 296), 6), "of a log with a bent digest it is 6");
    check(ringlog_root(bent, 296).number == 0, "where the first edition's is answered");
}

static void check_rfc6962_paths(void)
{
    struct ringlog_digest root = ringlog_rfc6962_root(three_taps, 296);
    struct ringlog_digest first_two = ringlog_rfc6962_root(three_taps, 174);
    uint8_t zeros[64] = {0};
    uint8_t path[65] = {0};

    check(is_count(ringlog_rfc6962_path(three_taps, 295, 0, path, 0), 6, 0),
          "the path of a torn log is 6");
    check(is_count(ringlog_rfc6962_path(three_taps, 296, 0, path, 0), 2, 0),
          "the path of index 0 is 2");
    check(is_count(ringlog_rfc6962_path(three_taps, 296, 4, path, 0), 2, 0),
          "the path of index n + 1 is 2");
    check(is_count(ringlog_rfc6962_path(three_taps, 0, 1, path, 0), 2, 0),
          "a path of an empty log is 2");
    check(is_count(ringlog_rfc6962_path(three_taps, 296, 1, path, 63), 8, 0),
          "a path of 64 bytes into 63 is 8");
    check(memcmp(path, zeros, 64) == 0, "a refused path writes nothing");
    check(is_count(ringlog_rfc6962_path(three_taps, 296, 3, path, 32), 0, 32),
          "the path of value 3 has one digest");
    check(memcmp(path, first_two.digest, 32) == 0, "it is the RFC's root of the first two");
    path[64] = 0x5a;
    check(is_count(ringlog_rfc6962_path(three_taps, 296, 1, path, 65), 0, 64),
          "the path of value 1 has two");
    check(path[64] == 0x5a, "the rest of its output stays");
    check(ringlog_rfc6962_check_path(3, 1, first_tap, 9, path, 64, root.digest, 32),
          "that path is accepted");
    check(!ringlog_rfc6962_check_path(3, 1, second_tap, 9, path, 64, root.digest, 32),
          "for another tap it is not");
    check(!ringlog_rfc6962_check_path(3, 2, first_tap, 9, path, 64, root.digest, 32),
          "for another index it is not");
    check(!ringlog_rfc6962_check_path(3, 1, first_tap, 9, path, 65, root.digest, 32),
          "with a byte over it is not");
    check(!ringlog_rfc6962_check_path(3, 1, first_tap, 9, path, 64, root.digest, 31),
          "with a root of 31 bytes it is not");
    root = ringlog_root(three_taps, 296);
    check(!ringlog_rfc6962_check_path(3, 1, first_tap, 9, path, 64, root.digest, 32),
          "with the first edition's root it is not");
    check(ringlog_check_proof(3, 1, first_tap, 9, path, 64, root.digest, 32),
          "which it is a proof for, since its digests are leaves");
}

static void check_rfc6962_consistency(void)
{
    struct ringlog_digest one = ringlog_rfc6962_root(three_taps, 52);
    struct ringlog_digest two = ringlog_rfc6962_root(three_taps, 174);
    struct ringlog_digest three = ringlog_rfc6962_root(three_taps, 296);
    uint8_t zeros[65] = {0};
    uint8_t proof[65] = {0};

    check(is_count(ringlog_rfc6962_consistency(three_taps, 295, 0, proof, 0), 6, 0),
          "the consistency proof of a torn log is 6");
    check(is_count(ringlog_rfc6962_consistency(three_taps, 296, 0, proof, 0), 2, 0),
          "from 0 values it is 2");
    check(is_count(ringlog_rfc6962_consistency(three_taps, 296, 4, proof, 0), 2, 0),
          "from n + 1 values it is 2");
    check(is_count(ringlog_rfc6962_consistency(three_taps, 296, 1, proof, 63), 8, 0),
          "a proof of 64 bytes into 63 is 8");
    check(is_count(ringlog_rfc6962_consistency(three_taps, 296, 3, proof, 65), 0, 0),
          "from n values it has no bytes");
    check(memcmp(proof, zeros, 65) == 0, "none of these has written anything");
    check(ringlog_rfc6962_check_consistency(3, 3, proof, 0, three.digest, 32, three.digest, 32),
          "no bytes are accepted for equal roots");
    check(!ringlog_rfc6962_check_consistency(3, 3, proof, 0, two.digest, 32, three.digest, 32),
          "for others they are not");
    check(!ringlog_rfc6962_check_consistency(3, 3, proof, 32, three.digest, 32, three.digest, 32),
          "32 bytes are not for equal counts");
    check(is_count(ringlog_rfc6962_consistency(three_taps, 296, 2, proof, 65), 0, 32),
          "from 2 to 3 values there is one digest");
    check(memcmp(proof + 32, zeros, 33) == 0, "the rest of that output stays");
    check(ringlog_rfc6962_check_consistency(2, 3, proof, 32, two.digest, 32, three.digest, 32),
          "that proof is accepted");
    check(!ringlog_rfc6962_check_consistency(2, 3, proof, 32, one.digest, 32, three.digest, 32),
          "with another old root it is not");
    check(!ringlog_rfc6962_check_consistency(2, 3, proof, 32, two.digest, 32, two.digest, 32),
          "with another new root it is not");
    check(!ringlog_rfc6962_check_consistency(1, 3, proof, 32, two.digest, 32, three.digest, 32),
          "for another old count it is not");
    check(!ringlog_rfc6962_check_consistency(2, 3, proof, 33, two.digest, 32, three.digest, 32),
          "with a byte left over it is not");
    check(!ringlog_rfc6962_check_consistency(2, 3, proof, 32, two.digest, 31, three.digest, 32),
          "with an old root of 31 bytes it is not");
    check(!ringlog_rfc6962_check_consistency(2, 3, proof, 32, two.digest, 32, three.digest, 31),
          "with a new root of 31 bytes it is not");
    check(!ringlog_rfc6962_check_consistency(0, 3, proof, 0, one.digest, 32, three.digest, 32),
          "from 0 values nothing is");
}

/* Three taps of which the second is another. */
static void append_other_taps(uint8_t *log)
{
    ringlog_append(log, 296, 0, first_tap, 9);
    ringlog_append(log, 296, 52, third_tap, 9);
    check(is_count(ringlog_append(log, 296, 174, third_tap, 9), 0, 296),
          "three other taps take 296 bytes");
}

static void check_searches(void)
{
    struct ringlog_split split;
    uint8_t other[296];
    uint8_t before[296];

    append_other_taps(other);
    memcpy(before, other, sizeof other);
    split = ringlog_search(three_taps, 296, other, 296);
    check(is_found(split, 1, 3), "the logs differ at 2");
    check(has_reads(split, 2, 2), "entries 3 and 2 of both are read");
    split = ringlog_search(three_taps, 296, other, 52);
    check(is_found(split, 1, 2), "the second has one tap and is shorter");
    check(has_reads(split, 3, 1), "entries 3, 2 and 1 of the first are read, and 1 of the second");
    split = ringlog_search(other, 174, three_taps, 296);
    check(is_found(split, 1, 3), "two taps and three differ at 2");
    check(has_reads(split, 1, 2), "the way from entry 3 to 2 is one read more");
    split = ringlog_search(three_taps, 296, three_taps, 296);
    check(is_found(split, 3, 0), "a log is the same as itself");
    check(has_reads(split, 1, 1), "its last entry is read twice");
    split = ringlog_search(three_taps, 174, three_taps, 296);
    check(is_found(split, 2, 1), "two of three taps are shorter");
    split = ringlog_search(three_taps, 296, other, 0);
    check(is_found(split, 0, 2) && has_reads(split, 1, 0), "an empty second log is shorter");
    split = ringlog_search(three_taps, 0, other, 296);
    check(is_found(split, 0, 1) && has_reads(split, 0, 1), "an empty first log is shorter");
    split = ringlog_search(three_taps, 0, other, 0);
    check(is_found(split, 0, 0) && has_reads(split, 0, 0), "two empty logs are the same");
    check(memcmp(other, before, sizeof other) == 0, "a search touches no byte");
}

/* Entry 2 begins at 52; the top digest of entry 3 is at 259. */
static void check_refused_searches(void)
{
    uint8_t other[296];

    append_other_taps(other);
    check(is_refused(ringlog_search(three_taps, 295, other, 295), 6, 1),
          "two logs that do not open are 6 for the first");
    check(is_refused(ringlog_search(three_taps, 296, other, 295), 6, 2),
          "a second log that does not open is 6");
    check(is_refused(ringlog_search(three_taps, 0, other, 295), 6, 2),
          "it is also beside an empty log");
    other[52] ^= 1;
    check(is_refused(ringlog_search(three_taps, 296, other, 296), 6, 2),
          "an entry met that is not shaped is 6");
    check(is_refused(ringlog_search(other, 296, three_taps, 52), 6, 1),
          "it is also on the way to entry n");
    memcpy(other, three_taps, sizeof other);
    other[259] ^= 1;
    check(is_refused(ringlog_search(three_taps, 296, other, 296), 7, 3),
          "equal children under unequal nodes are 7 for both");
}

static void check_repairs(void)
{
    uint8_t other[296];

    append_other_taps(other);
    check(is_piece(ringlog_repair(three_taps, 296, other, 296), 1, 52, 244),
          "of equally many taps the first are the donor, from entry 2 on");
    memcpy(other + 52, three_taps + 52, 244);
    check(is_extent(ringlog_audit(other, 296), 3, 296), "with that piece the others audit whole");
    append_other_taps(other);
    check(is_piece(ringlog_repair(other, 174, three_taps, 296), 2, 52, 244),
          "three taps are the donor of two");
    check(is_piece(ringlog_repair(three_taps, 174, three_taps, 296), 2, 174, 122),
          "a beginning lacks what is behind it");
    check(is_piece(ringlog_repair(three_taps, 296, three_taps, 296), 1, 296, 0),
          "equal logs have an empty piece at the end of the first");
    check(is_piece(ringlog_repair(three_taps, 0, other, 296), 2, 0, 296),
          "an empty log lacks the whole donor");
    check(is_piece(ringlog_repair(three_taps, 0, other, 0), 1, 0, 0),
          "two empty logs have an empty piece of the first");
    check(is_piece(ringlog_repair(three_taps, 296, other, 295), 0, 0, 0),
          "there is no piece where the search is refused");
}

static uint8_t full[RINGLOG_LONGEST_LOG];

/* How many bytes a log of so many equal values takes, or 0 where an append is refused. */
static size_t length_of(int values, const uint8_t *item, size_t item_len)
{
    size_t used = 0;

    for (int i = 0; i < values; i++) {
        struct ringlog_count count = ringlog_append(full, sizeof full, used, item, item_len);

        if (count.number != 0) {
            return 0;
        }
        used = (size_t)count.value;
    }
    return used;
}

/* The first entry and the longest one of each kind, and the log of 4,096 values. */
static void check_sizes(void)
{
    static const uint8_t change[17] = {0x11};
    static const uint8_t ticket[49] = {0x12};
    size_t used;

    check(length_of(1, first_tap, 9) == 52, "a first tap takes 52 bytes");
    check(length_of(1, change, 17) == 60, "a first change takes 60");
    check(length_of(1, ticket, 49) == 92, "a first ticket takes 92");
    check(length_of(8, first_tap, 9) == 1256, "eight taps end at 1,256");
    used = length_of(4095, first_tap, 9);
    check(used == 1933312 - 892, "the last of 4,096 taps takes 892");
    check(length_of(4096, first_tap, 9) == 1933312, "4,096 taps take 1,933,312");
    used = length_of(4095, change, 17);
    check(used == 1966080 - 900, "the last of 4,096 changes takes 900");
    check(length_of(4096, change, 17) == 1966080, "4,096 changes take 1,966,080");
    used = length_of(4095, ticket, 49);
    check(used == RINGLOG_LONGEST_LOG - RINGLOG_LONGEST_ENTRY,
          "the last of 4,096 tickets is the longest entry");
    check(is_count(ringlog_append(full, sizeof full - 1, used, ticket, 49), 5, 0),
          "a buffer that is shorter than the longest log is 5");
    check(is_count(ringlog_append(full, sizeof full, used, ticket, 49), 0, RINGLOG_LONGEST_LOG),
          "4,096 tickets take the longest log");
}

/* The log of 4,096 tickets that the sizes were checked with. */
static void check_full_log(void)
{
    static const uint8_t ticket[49] = {0x12};
    uint8_t proof[RINGLOG_LONGEST_PROOF];
    struct ringlog_digest root = ringlog_root(full, sizeof full);

    check(is_count(ringlog_append(full, sizeof full, sizeof full, ticket, 49), 4, 0),
          "an append to 4,096 values is 4, also without room");
    check(is_extent(ringlog_audit(full, sizeof full), 4096, 2097152),
          "the log of 4,096 tickets counts in full");
    check(is_count(ringlog_proof(full, sizeof full, 1, proof, sizeof proof - 1), 8, 0),
          "an output that is shorter than the longest proof is 8");
    check(is_count(ringlog_proof(full, sizeof full, 1, proof, sizeof proof), 0, 384),
          "the proof of value 1 of 4,096 is the longest");
    check(ringlog_check_proof(4096, 1, ticket, 49, proof, 384, root.digest, 32),
          "that proof of value 1 of 4,096 is accepted");
}

/* The same log in the RFC's edition. The longest consistency proof has 13 digests. */
static void check_full_log_rfc6962(void)
{
    static const uint8_t ticket[49] = {0x12};
    const size_t three_tickets = 92 + 162 + 162;
    uint8_t proof[416];
    struct ringlog_digest root = ringlog_rfc6962_root(full, sizeof full);
    struct ringlog_digest old_root = ringlog_rfc6962_root(full, three_tickets);

    check(root.number == 0 && old_root.number == 0, "4,096 tickets have an RFC root");
    check(is_count(ringlog_rfc6962_path(full, sizeof full, 4096, proof, 384), 0, 384),
          "the path of value 4,096 has 12 digests");
    check(ringlog_rfc6962_check_path(4096, 4096, ticket, 49, proof, 384, root.digest, 32),
          "that path of value 4,096 is accepted");
    check(!ringlog_rfc6962_check_path(4097, 4096, ticket, 49, proof, 384, root.digest, 32),
          "of 4,097 values it is not");
    check(is_count(ringlog_rfc6962_consistency(full, sizeof full, 3, proof, 415), 8, 0),
          "415 bytes are too few for the proof from 3 values");
    check(is_count(ringlog_rfc6962_consistency(full, sizeof full, 3, proof, 416), 0, 416),
          "it has 13 digests");
    check(ringlog_rfc6962_check_consistency(3, 4096, proof, 416, old_root.digest, 32,
                                            root.digest, 32),
          "that proof from 3 to 4,096 values is accepted");
    check(!ringlog_rfc6962_check_consistency(3, 4097, proof, 416, old_root.digest, 32,
                                             root.digest, 32),
          "to 4,097 values it is not");
}

int main(void)
{
    check_layout();
    check_names();
    check_known_digests();
    check_longest();
    check_log_of_two_taps();
    check_stray_bytes();
    check_refused_appends();
    append_three_taps();
    check_cuts();
    check_refused_cuts();
    check_values();
    check_proofs();
    check_rfc6962_roots();
    check_rfc6962_paths();
    check_rfc6962_consistency();
    check_searches();
    check_refused_searches();
    check_repairs();
    check_sizes();
    check_full_log();
    check_full_log_rfc6962();
    printf("%d passed, %d failed\n", passed, failed);
    return failed == 0 ? 0 : 1;
}
