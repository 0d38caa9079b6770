/* What include/yerkhulbaz.h itself does, on answers put together here: no library is called. */
#include "yerkhulbaz.h"

#include <stdio.h>

static int failed = 0;

static void same(const char *what, long got, long want) {
    if (got != want) {
        printf("header: %s is %ld, not %ld\n", what, got, want);
        failed = 1;
    }
}

/* An answer: refusal + 256 * value. */
static uint64_t packed(uint64_t refusal, uint64_t value) {
    return refusal + 256 * value;
}

int main(void) {
    long steps;
    unsigned facts, byte;
    same("refusal", yk_refusal(packed(12, 0xFFFF)), YK_REFUSED_STEPS);
    same("accepted", yk_refusal(packed(0, 2557500)), YK_ACCEPTED);
    same("value", (long)yk_value(packed(9, 2557500)), 2557500);
    for (steps = -32768; steps <= 32767; steps++) {
        same("steps", yk_steps_value(packed(0, (uint64_t)(steps & 0xFFFF))), steps);
    }
    same("high byte", yk_bytes_high(packed(0, 0xC900)), 0xC9);
    same("low byte", yk_bytes_low(packed(0, 0xE7A0)), 0xA0);
    same("used", (long)yk_record_used(packed(0, 18 + 256 * 2 + 65536 * 1)), 18);
    same("chip", yk_record_chip(packed(0, 18 + 256 * 2 + 65536 * 1)), 2);
    same("table", yk_record_table(packed(0, 13 + 256 * 1 + 65536 * 3)), 3);
    same("used of chip 4", (long)yk_record_used(packed(0, 13 + 256 * 4 + 65536 * 10)), 13);
    same("chip 4", yk_record_chip(packed(0, 13 + 256 * 4 + 65536 * 10)), 4);
    same("table 10", yk_record_table(packed(0, 13 + 256 * 4 + 65536 * 10)), 10);
    same("used of chip 5", (long)yk_record_used(packed(0, 20 + 256 * 5 + 65536 * 6)), 20);
    same("chip 5", yk_record_chip(packed(0, 20 + 256 * 5 + 65536 * 6)), YK_W83793G);
    same("table 6", yk_record_table(packed(0, 20 + 256 * 5 + 65536 * 6)), 6);
    same("form", yk_refusal(packed(16, 0)), YK_REFUSED_FORM);
    /* The sizes of chip 5, whose record and script are the longest. */
    same("three banks", YK_IMAGE_CHIP_5, 3 * 256);
    same("count, points and critical", YK_BODY_CHIP_5, 1 + 7 + 1 + 7);
    same("the longest record", YK_RECORD_MAX, 4 + YK_BODY_CHIP_5);
    same("the longest script", YK_SCRIPT_MAX, 2 * (7 + 7 + 1 + 7 + 3));
    for (facts = 0; facts < 8; facts++) {
        same("hot", yk_facts_hot(packed(12, facts)), facts % 2);
        same("pending", yk_facts_pending(packed(0, facts)), facts / 2 % 2);
        same("output", yk_facts_output(packed(0, facts)), facts / 4);
        same("facts", yk_facts(packed(12, facts)), facts % 4);
        /* The answer of a read: its byte stands above the facts. */
        for (byte = 0; byte < 256; byte++) {
            same("byte", yk_read_byte(packed(0, facts + 256 * byte)), byte);
            same("hot", yk_facts_hot(packed(0, facts + 256 * byte)), facts % 2);
            same("pending", yk_facts_pending(packed(0, facts + 256 * byte)), facts / 2 % 2);
            same("output", yk_facts_output(packed(0, facts + 256 * byte)), facts / 4);
            same("facts", yk_facts(packed(0, facts + 256 * byte)), facts % 4);
        }
        same("no byte", yk_read_byte(packed(8, facts)), 0);
    }
    return failed;
}
