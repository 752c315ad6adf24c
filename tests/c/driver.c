/*
 * Runs cases from a file through the library: calls with all that they are lent, what they must
 * answer, and what the lent bytes must be afterwards. tests/src/cases/file.rs writes the file, and
 * says how.
 *
 * Each slice is lent from an allocation of exactly its length, so that a checker of memory sees each
 * byte that is read or written outside, and says which one. A slice of no bytes is lent between two
 * closed pages: an allocation of no bytes may be null, which a pointer of this interface never is.
 */

#define _DEFAULT_SOURCE /* MAP_ANONYMOUS is in no standard of C */

#include "ringlog.h"

#include <inttypes.h>
#include <stdbool.h>
#include <stddef.h>
#include <stdint.h>
#include <stdio.h>
#include <stdlib.h>
#include <string.h>
#include <sys/mman.h>
#include <unistd.h>

#define MOST_SLICES 3
#define MOST_NUMBERS 2
#define MOST_FIELDS 33

/* In the order of ringlog.h. */
enum call {
    SHA256,
    APPEND,
    AUDIT,
    ROOT,
    VALUE,
    PROOF,
    CHECK_PROOF,
    CUT,
    SEARCH,
    REPAIR,
    RFC6962_ROOT,
    RFC6962_PATH,
    RFC6962_CHECK_PATH,
    RFC6962_CONSISTENCY,
    RFC6962_CHECK_CONSISTENCY,
    CALLS
};

/* What each call is lent: how many slices, and how many numbers beside their lengths. */
static const struct {
    const char *name;
    uint64_t slices;
    uint64_t numbers;
} lends[CALLS] = {
    {"sha256", 1, 0},
    {"append", 2, 1},
    {"audit", 1, 0},
    {"root", 1, 0},
    {"value", 2, 1},
    {"proof", 2, 1},
    {"check_proof", 3, 2},
    {"cut", 1, 2},
    {"search", 2, 0},
    {"repair", 2, 0},
    {"rfc6962_root", 1, 0},
    {"rfc6962_path", 2, 1},
    {"rfc6962_check_path", 3, 2},
    {"rfc6962_consistency", 2, 1},
    {"rfc6962_check_consistency", 3, 2},
};

struct slice {
    size_t len;
    uint8_t *bytes;
    uint8_t *afterwards;
};

/* The fields of an answer in the order of their struct, a digest byte by byte. */
struct fields {
    uint64_t count;
    uint64_t field[MOST_FIELDS];
};

struct trial {
    uint64_t number; /* that the case has in its seed */
    uint64_t call;
    struct slice slice[MOST_SLICES];
    size_t lent_number[MOST_NUMBERS];
    struct fields expected;
};

static FILE *file;

/* Where a slice of no bytes is lent. Who touches the byte there, or the one before, gets a signal. */
static uint8_t *closed;

static void give_up(const char *why)
{
    printf("%s\n", why);
    exit(2);
}

static void read_bytes(uint8_t *bytes, size_t len)
{
    if (fread(bytes, 1, len, file) != len) {
        give_up("the file ends within a case");
    }
}

static uint64_t read_number(void)
{
    uint8_t bytes[8];
    uint64_t number = 0;

    read_bytes(bytes, sizeof bytes);
    for (size_t i = 0; i < sizeof bytes; i++) {
        number = number << 8 | bytes[i];
    }
    return number;
}

static bool at_end(void)
{
    int next = fgetc(file);

    return next == EOF || ungetc(next, file) == EOF;
}

/* The address between two closed pages. */
static uint8_t *close_pages(void)
{
    const size_t page = (size_t)sysconf(_SC_PAGESIZE);
    uint8_t *pages = mmap(NULL, 2 * page, PROT_NONE, MAP_PRIVATE | MAP_ANONYMOUS, -1, 0);

    if (pages == MAP_FAILED) {
        give_up("no closed pages");
    }
    return pages + page;
}

/* Memory of so many bytes. It is not null, also for none. */
static uint8_t *get_memory(size_t len)
{
    uint8_t *memory = len == 0 ? closed : malloc(len);

    if (memory == NULL) {
        give_up("no memory");
    }
    return memory;
}

static void free_memory(uint8_t *memory)
{
    if (memory != closed) {
        free(memory);
    }
}

static void read_slice(struct slice *slice)
{
    size_t at;
    size_t len;

    slice->len = read_number();
    slice->bytes = get_memory(slice->len);
    read_bytes(slice->bytes, slice->len);
    slice->afterwards = get_memory(slice->len);
    memcpy(slice->afterwards, slice->bytes, slice->len);
    at = read_number();
    len = read_number();
    if (at > slice->len || len > slice->len - at) {
        give_up("a slice is longer afterwards");
    }
    read_bytes(slice->afterwards + at, len);
}

static void read_trial(struct trial *trial)
{
    trial->number = read_number();
    trial->call = read_number();
    if (trial->call >= CALLS || read_number() != lends[trial->call].slices) {
        give_up("the file has a call that is not known");
    }
    for (size_t i = 0; i < lends[trial->call].slices; i++) {
        read_slice(&trial->slice[i]);
    }
    if (read_number() != lends[trial->call].numbers) {
        give_up("a call has too many numbers or too few");
    }
    for (size_t i = 0; i < lends[trial->call].numbers; i++) {
        trial->lent_number[i] = read_number();
    }
    trial->expected.count = read_number();
    if (trial->expected.count > MOST_FIELDS) {
        give_up("an answer has more fields than any");
    }
    for (size_t i = 0; i < trial->expected.count; i++) {
        trial->expected.field[i] = read_number();
    }
}

static void free_trial(struct trial *trial)
{
    for (size_t i = 0; i < lends[trial->call].slices; i++) {
        free_memory(trial->slice[i].bytes);
        free_memory(trial->slice[i].afterwards);
    }
}

static struct fields of_digest(struct ringlog_digest answer)
{
    struct fields fields = {33, {answer.number}};

    for (size_t i = 0; i < 32; i++) {
        fields.field[1 + i] = answer.digest[i];
    }
    return fields;
}

static struct fields of_count(struct ringlog_count answer)
{
    return (struct fields){2, {answer.number, answer.value}};
}

static struct fields of_extent(struct ringlog_extent answer)
{
    return (struct fields){2, {answer.entries, answer.bytes}};
}

static struct fields of_part(struct ringlog_part answer)
{
    return (struct fields){3, {answer.number, answer.offset, answer.length}};
}

static struct fields of_bool(bool answer)
{
    return (struct fields){1, {answer}};
}

static struct fields of_split(struct ringlog_split answer)
{
    return (struct fields){7,
                           {answer.number, answer.side, answer.common, answer.verdict, answer.place,
                            answer.first_reads, answer.second_reads}};
}

static struct fields of_piece(struct ringlog_piece answer)
{
    return (struct fields){3, {answer.donor, answer.offset, answer.length}};
}

/* What the library answers. */
static struct fields answer_of(const struct trial *trial)
{
    const struct slice a = trial->slice[0];
    const struct slice b = trial->slice[1];
    const struct slice c = trial->slice[2];
    const size_t x = trial->lent_number[0];
    const size_t y = trial->lent_number[1];

    switch ((enum call)trial->call) {
    case SHA256:
        return of_digest(ringlog_sha256(a.bytes, a.len));
    case APPEND:
        return of_count(ringlog_append(a.bytes, a.len, x, b.bytes, b.len));
    case AUDIT:
        return of_extent(ringlog_audit(a.bytes, a.len));
    case ROOT:
        return of_digest(ringlog_root(a.bytes, a.len));
    case VALUE:
        return of_part(ringlog_value(a.bytes, a.len, b.bytes, b.len, x));
    case PROOF:
        return of_count(ringlog_proof(a.bytes, a.len, x, b.bytes, b.len));
    case CHECK_PROOF:
        return of_bool(ringlog_check_proof(x, y, a.bytes, a.len, b.bytes, b.len, c.bytes, c.len));
    case CUT:
        return of_count(ringlog_cut(a.bytes, a.len, x, y));
    case SEARCH:
        return of_split(ringlog_search(a.bytes, a.len, b.bytes, b.len));
    case REPAIR:
        return of_piece(ringlog_repair(a.bytes, a.len, b.bytes, b.len));
    case RFC6962_ROOT:
        return of_digest(ringlog_rfc6962_root(a.bytes, a.len));
    case RFC6962_PATH:
        return of_count(ringlog_rfc6962_path(a.bytes, a.len, x, b.bytes, b.len));
    case RFC6962_CHECK_PATH:
        return of_bool(
            ringlog_rfc6962_check_path(x, y, a.bytes, a.len, b.bytes, b.len, c.bytes, c.len));
    case RFC6962_CONSISTENCY:
        return of_count(ringlog_rfc6962_consistency(a.bytes, a.len, x, b.bytes, b.len));
    case RFC6962_CHECK_CONSISTENCY:
        return of_bool(ringlog_rfc6962_check_consistency(x, y, a.bytes, a.len, b.bytes, b.len,
                                                         c.bytes, c.len));
    case CALLS:
        break;
    }
    abort();
}

/* Whether the answer and all lent bytes are as expected. */
static bool holds(const struct trial *trial)
{
    const struct fields *expected = &trial->expected;
    const struct fields got = answer_of(trial);
    const char *name = lends[trial->call].name;

    if (got.count != expected->count) {
        give_up("an answer has too many fields or too few");
    }
    for (size_t i = 0; i < got.count; i++) {
        if (got.field[i] != expected->field[i]) {
            printf("FAILED: case %" PRIu64 ", %s: field %zu is %" PRIu64 " and not %" PRIu64 "\n",
                   trial->number, name, i, got.field[i], expected->field[i]);
            return false;
        }
    }
    for (size_t i = 0; i < lends[trial->call].slices; i++) {
        if (memcmp(trial->slice[i].bytes, trial->slice[i].afterwards, trial->slice[i].len) != 0) {
            printf("FAILED: case %" PRIu64 ", %s: slice %zu has other bytes afterwards\n",
                   trial->number, name, i);
            return false;
        }
    }
    return true;
}

int main(int argc, char **argv)
{
    int passed = 0;
    int failed = 0;

    file = argc == 2 ? fopen(argv[1], "rb") : NULL;
    if (file == NULL) {
        give_up("driver FILE");
    }
    closed = close_pages();
    while (!at_end()) {
        struct trial trial = {0};

        read_trial(&trial);
        if (holds(&trial)) {
            passed++;
        } else {
            failed++;
        }
        free_trial(&trial);
    }
    fclose(file);
    printf("%d passed, %d failed\n", passed, failed);
    return failed == 0 && passed > 0 ? 0 : 1;
}
