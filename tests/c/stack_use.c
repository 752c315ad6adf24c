/*
 * The stack that each call of the library takes: the call runs on a stack of its own that was
 * painted before, and the bytes that still have their paint from the far end on were not taken.
 */

#define _XOPEN_SOURCE 600

#include "ringlog.h"

#include <stdbool.h>
#include <stddef.h>
#include <stdint.h>
#include <stdio.h>
#include <string.h>
#include <ucontext.h>

#define LIMIT 8192

/* The most for a hash, which keeps sixteen words of the schedule. Builds that had all 64 of them, or the
   64 constants, in an array and looped over the rounds had frames that come out above. */
#define HASH_LIMIT 512

/* The most for a checked value, and for the check of a proof, a path or a consistency proof, whose
   fold is a loop: a fold that took some stack for each height would be above. */
#define VALUE_LIMIT 2700
#define CHECK_LIMIT 2048

#define STACK (1 << 20)

#define LONGEST_MESSAGE 65535
#define TAPS 4096
#define TAP 9

/* 52 bytes a tap, and 70 for each of the 12 * 2,048 ones in 0 .. 4,095. */
#define LOG (TAPS * 52 + 12 * 2048 * 70)

static int passed;
static int failed;

static _Alignas(16) uint8_t stack[STACK];
static ucontext_t here;
static ucontext_t there;

static void check(int holds, const char *sentence)
{
    if (holds) {
        passed++;
    } else {
        failed++;
        printf("FAILED: %s\n", sentence);
    }
}

/* The paint, which differs from byte to byte so that no run of equal bytes looks like it. */
static uint8_t paint(size_t at)
{
    return (uint8_t)(at * 151 + (at >> 8) * 29 + 77);
}

/* How many bytes of the stack the function takes, with what it takes to get there. The stack is
   used from its end to its start. */
static size_t depth(void (*function)(void))
{
    size_t untouched = 0;

    for (size_t at = 0; at < STACK; at++) {
        stack[at] = paint(at);
    }
    getcontext(&there);
    there.uc_stack.ss_sp = stack;
    there.uc_stack.ss_size = STACK;
    there.uc_link = &here;
    makecontext(&there, function, 0);
    swapcontext(&here, &there);
    while (untouched < STACK && stack[untouched] == paint(untouched)) {
        untouched++;
    }
    return STACK - untouched;
}

/* The memory that the calls are lent, and their answers, are not on the stack that is measured. */
static uint8_t message[LONGEST_MESSAGE];
static uint8_t buffer[LOG];
static size_t used;
static uint8_t other[LOG];
static size_t other_used;
static uint8_t tap[TAP] = {0x10, 1, 2, 3, 4, 5, 6, 7, 8};
static struct ringlog_digest digest;
static struct ringlog_count count;
static struct ringlog_extent extent;
static struct ringlog_part part;
static struct ringlog_split split;
static struct ringlog_piece piece;
static uint8_t proof[12 * 32];
static struct ringlog_digest old_root;
static uint8_t consistency[13 * 32];
static bool accepted;

static void call_nothing(void)
{
}

static void call_sha256(void)
{
    digest = ringlog_sha256(message, sizeof message);
}

static void call_append(void)
{
    count = ringlog_append(buffer, sizeof buffer, used, tap, sizeof tap);
}

static void call_audit(void)
{
    extent = ringlog_audit(buffer, used);
}

static void call_root(void)
{
    digest = ringlog_root(buffer, used);
}

/* The ways to entry 1, which is the deepest. The cut is made in a copy of the log, since it blanks what
   it cuts off. */
static void copy_log(void)
{
    memcpy(other, buffer, used);
}

static void call_cut(void)
{
    count = ringlog_cut(other, sizeof other, used, 1);
}

static void call_value(void)
{
    part = ringlog_value(buffer, used, digest.digest, sizeof digest.digest, 1);
}

static void call_proof(void)
{
    count = ringlog_proof(buffer, used, 1, proof, sizeof proof);
}

static void call_check_proof(void)
{
    accepted = ringlog_check_proof(4095, 1, tap, sizeof tap, proof, sizeof proof,
                                   digest.digest, sizeof digest.digest);
}

static void call_search(void)
{
    split = ringlog_search(buffer, used, other, other_used);
}

static void call_repair(void)
{
    piece = ringlog_repair(buffer, used, other, other_used);
}

/* The RFC 6962 edition: the path of value 1, and the consistency proof from 3 values, are the
   longest. */
static void call_rfc6962_root(void)
{
    digest = ringlog_rfc6962_root(buffer, used);
}

static void call_rfc6962_path(void)
{
    count = ringlog_rfc6962_path(buffer, used, 1, proof, sizeof proof);
}

static void call_rfc6962_check_path(void)
{
    accepted = ringlog_rfc6962_check_path(4095, 1, tap, sizeof tap, proof, sizeof proof,
                                          digest.digest, sizeof digest.digest);
}

static void call_rfc6962_consistency(void)
{
    count = ringlog_rfc6962_consistency(buffer, used, 3, consistency, sizeof consistency);
}

static void call_rfc6962_check_consistency(void)
{
    accepted = ringlog_rfc6962_check_consistency(3, 4095, consistency, sizeof consistency,
                                                 old_root.digest, sizeof old_root.digest,
                                                 digest.digest, sizeof digest.digest);
}

/* A function that is known to take more than the limit. */
static void call_deep(void)
{
    volatile uint8_t bytes[2 * LIMIT];

    for (size_t at = 0; at < sizeof bytes; at++) {
        bytes[at] = 0;
    }
}

/* What the call takes beyond an empty function, in a line, and held to this limit. The call before it
   leaves no work to the linker. What is prepared before each call is not measured. */
static void measure_prepared(void (*prepare)(void), size_t limit, const char *name,
                             void (*call)(void))
{
    char sentence[100];
    size_t taken;

    prepare();
    call();
    prepare();
    taken = depth(call) - depth(call_nothing);
    printf("%6zu bytes of stack: %s\n", taken, name);
    snprintf(sentence, sizeof sentence, "%s takes less than %zu bytes of stack", name, limit);
    check(taken < limit, sentence);
}

static void measure_within(size_t limit, const char *name, void (*call)(void))
{
    measure_prepared(call_nothing, limit, name, call);
}

static void measure(const char *name, void (*call)(void))
{
    measure_within(LIMIT, name, call);
}

/* Whether so many taps more are appended. */
static int append_taps(int taps)
{
    for (int i = 0; i < taps; i++) {
        call_append();
        if (count.number != 0) {
            return 0;
        }
        used = (size_t)count.value;
    }
    return 1;
}

/* Whether another log of so many taps is made, which differs at the first. */
static int append_other_taps(int taps)
{
    for (int i = 0; i < taps; i++) {
        tap[1] ^= i == 0;
        count = ringlog_append(other, sizeof other, other_used, tap, sizeof tap);
        tap[1] ^= i == 0;
        if (count.number != 0) {
            return 0;
        }
        other_used = (size_t)count.value;
    }
    return 1;
}

/* The next entry has 11 nodes behind 2,047 taps, and 12 behind 4,095. */
static void measure_log_calls(void)
{
    check(append_taps(2047), "2,047 taps are appended");
    measure("append of a tap to 2,047 taps", call_append);
    check(count.number == 0, "that append is answered");
    check(append_taps(2048), "2,048 taps more are appended");
    measure("append of a tap to 4,095 taps", call_append);
    check(count.number == 0 && count.value == LOG, "that append is answered");
    measure("audit of 4,095 taps", call_audit);
    check(extent.entries == 4095 && extent.bytes == used, "that audit counts 4,095 taps");
    measure("root of 4,095 taps", call_root);
    check(digest.number == 0, "that root is answered");
    measure_prepared(copy_log, LIMIT, "cut of 4,095 taps to 1", call_cut);
    check(count.number == 0 && count.value == 52, "that cut is answered");
    measure_within(VALUE_LIMIT, "checked value 1 of 4,095 taps", call_value);
    check(part.number == 0 && part.offset == 5 && part.length == TAP, "that value is answered");
    measure("proof of value 1 of 4,095 taps", call_proof);
    check(count.number == 0 && count.value == sizeof proof, "that proof is answered");
    measure_within(CHECK_LIMIT, "check of that proof", call_check_proof);
    check(accepted, "that proof is accepted");
}

/* Of the same 4,095 taps, of which the first three end at 296. */
static void measure_rfc6962_calls(void)
{
    measure("rfc6962_root of 4,095 taps", call_rfc6962_root);
    check(digest.number == 0, "that root is answered");
    measure("rfc6962_path of value 1 of 4,095 taps", call_rfc6962_path);
    check(count.number == 0 && count.value == sizeof proof, "that path is answered");
    measure_within(CHECK_LIMIT, "check of that path", call_rfc6962_check_path);
    check(accepted, "that path is accepted");
    measure("rfc6962_consistency from 3 to 4,095 taps", call_rfc6962_consistency);
    check(count.number == 0 && count.value == sizeof consistency, "that proof is answered");
    old_root = ringlog_rfc6962_root(buffer, 296);
    measure_within(CHECK_LIMIT, "check of that consistency proof", call_rfc6962_check_consistency);
    check(accepted, "that consistency proof is accepted");
}

/* The ways to a difference at 1: by 12 links from entry 4,095, and by 12 from entry 2,049, to which
   11 links of the longer log lead. */
static void measure_searches(void)
{
    check(append_other_taps(4095), "4,095 other taps are appended");
    measure("search of 4,095 taps and 4,095", call_search);
    check(split.number == 0 && split.place == 1 && split.first_reads == 13,
          "that search is answered");
    measure("repair of 4,095 taps and 4,095", call_repair);
    check(piece.donor == 1 && piece.offset == 0 && piece.length == used, "that piece is answered");
    other_used = (size_t)ringlog_cut(other, sizeof other, other_used, 2049).value;
    measure("search of 4,095 taps and 2,049", call_search);
    check(split.number == 0 && split.place == 1 && split.first_reads == 24,
          "that search is answered");
    measure("repair of 4,095 taps and 2,049", call_repair);
    check(piece.donor == 1 && piece.offset == 0 && piece.length == used, "that piece is answered");
}

int main(void)
{
    check(depth(call_deep) >= 2 * LIMIT, "a function that takes much stack is seen to do so");
    measure_within(HASH_LIMIT, "sha256 of 65,535 bytes", call_sha256);
    check(digest.number == 0, "that digest is answered");
    measure_log_calls();
    measure_rfc6962_calls();
    measure_searches();
    printf("%d passed, %d failed\n", passed, failed);
    return failed == 0 ? 0 : 1;
}
