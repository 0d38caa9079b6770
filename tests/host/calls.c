/* Every function once or more through include/yerkhulbaz.h, at figures of the rules paper, of the
 * initialization bit, of chip 3's status bits and of chips 4 and 5: the prototypes are those of the
 * library. */
#include "yerkhulbaz.h"

#include <stdio.h>
#include <string.h>

static int failed = 0;

static void same(const char *what, uint64_t got, uint64_t want) {
    if (got != want) {
        printf("calls: %s is %lu, not %lu\n", what, (unsigned long)got, (unsigned long)want);
        failed = 1;
    }
}

/* An answer: refusal + 256 * value. */
static uint64_t packed(uint64_t refusal, uint64_t value) {
    return refusal + 256 * value;
}

/* The answer of a read: the byte stands above the facts, which are hot + 2 * pending + 4 * output. */
static uint64_t byte_of(uint64_t byte, uint64_t facts) {
    return packed(0, facts + 256 * byte);
}

/* A read of a chip whose watch is none: a default one, both facts off. */
static uint64_t read_at(uint8_t chip, uint8_t *image, size_t length, uint8_t address) {
    return yk_read(chip, image, length, address, YK_DEFAULT, 0);
}

/* The paper's example, and its text. */
static const uint8_t record[13] = {0x43, 0x50, 0x01, 0x03, 0x1E, 0x28, 0x32,
                                   0x37, 0x3C, 0x8C, 0xAA, 0xC8, 0xE6};
static const char text[] = "plan 1 chip 1 table 3 writes 13\n"
                           "A5 FF\nA6 FF\nA7 FF\nA8 FF\nA0 1E\nA1 28\nA2 32\nA3 37\nA4 3C\n"
                           "A5 8C\nA6 AA\nA7 C8\nA8 E6\nend 1\n";

/* A plan of chip 4, critical first, and its text. */
enum { IMAGE_4 = YK_IMAGE_CHIP_4, BODY_4 = YK_BODY_CHIP_4 };
static const uint8_t record_4[13] = {0x43, 0x50, 0x04, 0x0A, 0x7F, 0xEC, 0x00,
                                     0x14, 0x32, 0x00, 0x40, 0x80, 0xFF};
static const char text_4[] = "plan 1 chip 4 table 10 writes 14\n"
                             "FF 04\n5C FF\n5D FF\n5E FF\n5F FF\n58 EC\n59 00\n5A 14\n5B 32\n"
                             "15 7F\n5C 00\n5D 40\n5E 80\n5F FF\nend 1\n";

/* A plan of chip 5, with its own mark and a point count, and its text. */
static const uint8_t record_5[20] = {0x43, 0x51, 0x05, 0x01, 0x07, 0x1E, 0x23, 0x28, 0x2D, 0x32,
                                     0x37, 0x3C, 0x50, 0x08, 0x0C, 0x10, 0x18, 0x20, 0x30, 0x38};
static const char text_5[] = "plan 1 chip 5 table 1 writes 25\n"
                             "00 02\n38 3F\n39 3F\n3A 3F\n3B 3F\n3C 3F\n3D 3F\n3E 3F\n30 1E\n"
                             "31 23\n32 28\n33 2D\n34 32\n35 37\n36 3C\n00 00\nC5 50\n00 02\n"
                             "38 08\n39 0C\n3A 10\n3B 18\n3C 20\n3D 30\n3E 38\nend 1\n";

/* 81 degrees, no 12-bit step count, 75 degrees, a step below. */
static const int16_t samples[4] = {1296, 2048, 1200, 1199};

/* "The initialization bit", bit 7 of 00h of chip 3: the worked example. Then bit 5, which is to
 * "read 0 after the write", and other chips, where bit 7 is stored. */
static void initialization(void) {
    static const uint8_t at[] = {0x00, 0x01, 0x05, 0x06, 0x08, 0x09,
                                 0x20, 0x2A, 0x38, 0x3D, 0x3E, 0x90};
    static const uint8_t then[] = {0x08, 0x55, 0x14, 0x00, 0x00, 0x58,
                                   0x33, 0x00, 0x55, 0xFF, 0x5A, 0xAA};
    uint8_t image[YK_IMAGE], kept[YK_IMAGE];
    size_t k;

    memset(image, 0x5A, sizeof image);
    image[0x01] = 0x55;
    image[0x08] = 0x7F;
    image[0x20] = 0x33;
    image[0x2A] = 0x80;
    image[0x90] = 0xAA;
    memcpy(kept, image, sizeof image);
    same("a short image", yk_write(YK_NCT80, image, 255, 0x00, 0xC1), YK_REFUSED_IMAGE);
    same("chip 6", yk_write(6, image, YK_IMAGE, 0x00, 0xC1), YK_REFUSED_CHIP);
    same("the image", (uint64_t)memcmp(image, kept, sizeof image), 0);
    same("initialization", yk_write(YK_NCT80, image, YK_IMAGE, 0x00, 0xC1), 0);
    for (k = 0; k < sizeof at; k++) {
        same("a byte after it", image[at[k]], then[k]);
    }
    memcpy(kept, image, sizeof image);
    same("bit 5", yk_write(YK_NCT80, image, YK_IMAGE, 0x00, 0x21), 0);
    same("00h", read_at(YK_NCT80, image, YK_IMAGE, 0x00), byte_of(0x01, 0));
    same("FCh of chip 1", yk_write(YK_NCT7802Y, image, YK_IMAGE, 0xFC, 0xFF), 0);
    same("its byte", image[0xFC], 0xDA);
    same("00h of chip 2", yk_write(YK_F75373S, image, YK_IMAGE, 0x00, 0xFE), 0);
    same("its byte", image[0x00], 0xC0);
    kept[0xFC] = 0xDA;
    same("every other byte", (uint64_t)memcmp(image + 1, kept + 1, sizeof image - 1), 0);
}

/* A read of chip 3 whose answer is the byte and the facts after it; those are kept. */
static void reads(const char *what, uint8_t *image, uint8_t address, uint8_t *facts, uint64_t byte,
                  uint64_t then) {
    uint64_t answer = yk_read(YK_NCT80, image, YK_IMAGE, address, YK_DEFAULT, *facts);
    same(what, answer, byte_of(byte, then));
    same("its byte", yk_read_byte(answer), byte);
    *facts = yk_facts(answer);
}

/* Status bits, the worked example: IN0 above its high limit and 81 degrees; each status register
 * is read twice; then IN0 at its limit and 78 degrees, which is still hot. */
static void status(void) {
    uint8_t image[YK_IMAGE], kept[YK_IMAGE], facts = 0;
    uint64_t answer;
    size_t k;

    memset(image, 0, sizeof image);
    image[0x00] = 0x01;
    for (k = 0x2A; k < 0x38; k += 2) {
        image[k] = 0xFF;
    }
    image[0x2A] = 0x80;
    image[0x2B] = 0x40;
    image[0x2D] = 0x20;
    memcpy(image + 0x38, "\x50\x4B\x7F\x80", 4);

    /* Refused: no byte and no fact altered, and the answer has the facts as they were. */
    memcpy(kept, image, sizeof image);
    answer = yk_sample_image(image, 255, YK_DEFAULT, 3, 2048, 0, 0, 0, 0, 0, 0, 0);
    same("sample of a short image", answer, packed(YK_REFUSED_IMAGE, 3 + 4));
    answer = yk_sample_image(image, YK_IMAGE, YK_COMPARATOR, 1, 2048, 0, 0, 0, 0, 0, 0, 0);
    same("sample of 2048", answer, packed(YK_REFUSED_STEPS, 1 + 4));
    same("the image", (uint64_t)memcmp(image, kept, sizeof image), 0);

    answer = yk_sample_image(image, YK_IMAGE, YK_DEFAULT, facts, 1296, 0x8100, 0x2000, 0x2000, 0x2000, 0x2000,
                             0x2000, 0x2000);
    same("sample of 81 degrees", answer, packed(0, 1 + 2 + 4));
    facts = yk_facts(answer);
    memcpy(kept, image, sizeof image);
    same("a short image", yk_read(YK_NCT80, image, 255, 0x01, YK_DEFAULT, facts), packed(YK_REFUSED_IMAGE, 7));
    same("chip 6", yk_read(6, image, YK_IMAGE, 0x01, YK_ONE_TIME, facts), packed(YK_REFUSED_CHIP, 7));
    same("01h of chip 2", yk_read(YK_F75373S, image, YK_IMAGE, 0x01, YK_DEFAULT, facts), byte_of(0x01, 7));
    same("no byte of it", yk_read_byte(yk_read(6, image, YK_IMAGE, 0x01, YK_DEFAULT, facts)), 0);
    same("the image", (uint64_t)memcmp(image, kept, sizeof image), 0);
    reads("01h", image, 0x01, &facts, 0x01, 1);
    reads("01h again", image, 0x01, &facts, 0x00, 1);
    reads("02h", image, 0x02, &facts, 0x01, 1);
    reads("02h again", image, 0x02, &facts, 0x00, 1);
    answer = yk_sample_image(image, YK_IMAGE, YK_DEFAULT, facts, 1248, 0x8000, 0x2000, 0x2000, 0x2000, 0x2000,
                             0x2000, 0x2000);
    same("sample of 78 degrees", answer, packed(0, 1 + 2 + 4));
    facts = yk_facts(answer);
    reads("01h at the limit", image, 0x01, &facts, 0x00, 1);
    reads("02h, still hot", image, 0x02, &facts, 0x01, 1);
    reads("IN0", image, 0x20, &facts, 0x80, 1);
    reads("IN1", image, 0x21, &facts, 0x20, 1);
    reads("the temperature", image, 0x27, &facts, 0x4E, 1);
    reads("its rest", image, 0x06, &facts, 0x00, 1);

    /* The words in their order: each stands in its own register. */
    answer = yk_sample_image(image, YK_IMAGE, YK_COMPARATOR, 1, -1, 0x4000, 0x2100, 0x2200, 0x2300, 0x2400,
                             0x2500, 0x2600);
    same("a sample of less than 0 degrees", answer, 0);
    same("its bytes", (uint64_t)memcmp(image + 0x20, "\x40\x21\x22\x23\x24\x25\x26\xFF", 8), 0);
    same("its rest", image[0x06], 0xF0);

    /* All channels disabled: 0 is stored, and the facts stay. */
    image[0x08] = 0xFF;
    answer = yk_sample_image(image, YK_IMAGE, YK_ONE_TIME, 2, 2047, 0, 0, 0, 0, 0, 0, 0);
    same("a disabled sample", answer, packed(0, 2 + 4));
    same("its bytes", (uint64_t)memcmp(image + 0x20, "\0\0\0\0\0\0\0\0", 8), 0);
    same("the status", (uint64_t)(image[0x01] | image[0x02] | image[0x06]), 0);

    /* A reset turns both facts off; of another chip the watch stays. */
    image[0x01] = image[0x02] = 0xFF;
    same("reset of a short image", yk_reset(YK_NCT80, image, 255, YK_DEFAULT, 3), packed(YK_REFUSED_IMAGE, 7));
    same("reset", yk_reset(YK_NCT80, image, YK_IMAGE, YK_DEFAULT, 3), 0);
    same("the status", (uint64_t)(image[0x01] | image[0x02]), 0);
    same("reset of chip 1", yk_reset(YK_NCT7802Y, image, YK_IMAGE, YK_COMPARATOR, 0xFF), packed(0, 7));
    same("reset of chip 2", yk_reset(YK_F75373S, image, YK_IMAGE, YK_ONE_TIME, 1), packed(0, 1));
}

/* Every function that takes a chip, with chip 4, and those of its readings. */
static void chip_4(void) {
    static uint8_t image[IMAGE_4], out[IMAGE_4];
    const uint8_t *body = record_4 + 4;
    size_t length = sizeof text_4 - 1;

    /* After a reset: banks 3, 6 (which there is not) and 4, and what is seen in every bank. */
    same("reset of chip 4", yk_reset(4, image, IMAGE_4, YK_DEFAULT, 0), 0);
    same("its identity", yk_identity(4, image, IMAGE_4), 0);
    same("a short image", yk_identity(4, image, YK_IMAGE), YK_REFUSED_IMAGE);
    same("a long image of chip 1", yk_identity(1, image, IMAGE_4), YK_REFUSED_IMAGE);
    same("chip 6", yk_identity(6, image, IMAGE_4), YK_REFUSED_CHIP);
    same("bank 3", yk_write(4, image, IMAGE_4, 0xFF, 0x83), 0);
    same("FFh", read_at(4, image, IMAGE_4, 0xFF), byte_of(0x03, 0));
    same("20h in bank 3", read_at(4, image, IMAGE_4, 0x20), byte_of(0x5A, 0));
    same("7Ah", read_at(4, image, IMAGE_4, 0x7A), byte_of(0x50, 0));
    same("a write", yk_write(4, image, IMAGE_4, 0x20, 0x55), 0);
    same("where it lands", image[0x320], 0x55);
    same("bank 6", yk_write(4, image, IMAGE_4, 0xFF, 0x06), 0);
    same("20h in bank 6", read_at(4, image, IMAGE_4, 0x20), 0);
    same("7Bh", read_at(4, image, IMAGE_4, 0x7B), byte_of(0xC5, 0));
    same("a write to nothing", yk_write(4, image, IMAGE_4, 0x20, 0x11), 0);
    same("bank 4", yk_write(4, image, IMAGE_4, 0xFF, 0x04), 0);
    same("10h in bank 4", read_at(4, image, IMAGE_4, 0x10), byte_of(0x5A, 0));
    same("20h in bank 4", read_at(4, image, IMAGE_4, 0x20), byte_of(0x53, 0));
    image[0x7C] = 0x60;
    same("another device", yk_identity(4, image, IMAGE_4), YK_REFUSED_IDENTITY);
    image[0x7C] = 0x5F;

    /* Three bits right-aligned; VSEN1 and VSEN19, and no voltage at 62h. */
    same("right steps", (uint64_t)(yk_steps_value(yk_right_steps(0xE6, 0xFA)) == -206), 1);
    same("their answer", yk_right_steps(0xFF, 0xFF), packed(0, 0xFFFF));
    same("right bytes", yk_right_bytes(-206), packed(0, 0xE602));
    same("right bytes of 1024", yk_right_bytes(1024), YK_REFUSED_STEPS);
    same("microvolts of VSEN1", yk_input_microvolts(0x40, 0x19, 0x06), packed(0, 412000));
    same("microvolts of VSEN19", yk_input_microvolts(0x68, 0x19, 0x06), packed(0, 1236000));
    same("no voltage", yk_input_microvolts(0x62, 0x19, 0x06), 0);

    /* The plan: read, written again, asked, as script, played from another bank, translated. */
    same("record", yk_read_record(record_4, sizeof record_4), packed(0, 13 + 256 * 4 + 65536 * 10));
    same("written", yk_write_record(4, 10, body, BODY_4, out, sizeof out), packed(0, 13));
    same("its bytes", (uint64_t)memcmp(out, record_4, 13), 0);
    same("no table 11", yk_write_record(4, 11, body, BODY_4, out, sizeof out), YK_REFUSED_TABLE);
    same("cut body", yk_write_record(4, 10, body, BODY_4 - 1, out, sizeof out), YK_REFUSED_BODY);
    same("asked at -10", yk_asked_of_plan(4, 10, body, BODY_4, (uint8_t)-10), packed(0, 32));
    same("short output", yk_script(4, 10, body, BODY_4, out, 27), YK_REFUSED_OUTPUT);
    same("script", yk_script(4, 10, body, BODY_4, out, 28), packed(0, 14));
    same("its first and last write", (uint64_t)(memcmp(out, "\xFF\x04", 2) | memcmp(out + 26, "\x5F\xFF", 2)), 0);
    image[0xFF] = 0x2B;
    same("asked before", yk_asked_of_image(4, 10, image, IMAGE_4, 30), packed(0, 155));
    same("play of none", yk_play(4, 10, body, BODY_4, image, IMAGE_4, 0), 0);
    same("play of 5", yk_play(4, 10, body, BODY_4, image, IMAGE_4, 5), packed(0, 5));
    same("asked then", yk_asked_of_image(4, 10, image, IMAGE_4, 30), packed(0, 255));
    same("play", yk_play(4, 10, body, BODY_4, image, IMAGE_4, 15), packed(0, 14));
    same("asked at 35", yk_asked_of_image(4, 10, image, IMAGE_4, 35), packed(0, 191));
    same("the table", (uint64_t)(memcmp(image + 0x458, body + 1, 8) | (image[0x415] != body[0])), 0);
    same("the bank select register", image[0xFF], 0x2C);
    same("text", yk_translate(record_4, sizeof record_4, out, sizeof out), packed(0, length));
    same("its bytes", (uint64_t)memcmp(out, text_4, length), 0);
}

/* A record of chip 5, or a stretch of one, that is refused. */
static void refused_5(const char *what, const char *bytes, size_t length, uint64_t refusal) {
    uint8_t given[sizeof record_5];
    memcpy(given, bytes, length);
    same(what, yk_read_record(given, length), refusal);
}

/* Every function that takes a chip, with chip 5. */
static void chip_5(void) {
    static uint8_t image[YK_IMAGE_CHIP_5], kept[YK_IMAGE_CHIP_5], out[YK_IMAGE_CHIP_5];
    const uint8_t chip = YK_W83793G, *body = record_5 + 4;
    const size_t size = YK_IMAGE_CHIP_5, whole = YK_BODY_CHIP_5;
    static const uint8_t degrees[] = {0x80, 0xFF, 0x00, 0x1E, 0x1F, 0x21, 0x2A,
                                      0x2F, 0x35, 0x3A, 0x3C, 0x4F, 0x50, 0x7F};
    static const uint8_t asked[] = {8, 8, 8, 8, 8, 10, 19, 27, 41, 52, 56, 56, 63, 63};
    uint8_t other[YK_BODY_CHIP_5];
    size_t length = sizeof text_5 - 1, k;

    /* After a reset: banks 2, 6 (which there is not) and 0, and what is seen in every bank. */
    same("reset of chip 5", yk_reset(chip, image, size, YK_DEFAULT, 0), 0);
    same("its identity", yk_identity(chip, image, size), 0);
    same("a short image", yk_identity(chip, image, YK_IMAGE), YK_REFUSED_IMAGE);
    same("a long image of chip 1", yk_identity(1, image, size), YK_REFUSED_IMAGE);
    same("chip 6", yk_identity(6, image, size), YK_REFUSED_CHIP);
    same("00h", read_at(chip, image, size, 0x00), byte_of(0x80, 0));
    same("bank 2", yk_write(chip, image, size, 0x00, 0x7A), 0);
    same("00h", read_at(chip, image, size, 0x00), byte_of(0x02, 0));
    same("30h in bank 2", read_at(chip, image, size, 0x30), byte_of(0x1E, 0));
    same("0Dh", read_at(chip, image, size, 0x0D), byte_of(0x5C, 0));
    same("a write", yk_write(chip, image, size, 0x30, 0x9F), 0);
    same("where it lands", image[0x230], 0x1F);
    same("bank 6", yk_write(chip, image, size, 0x00, 0x06), 0);
    same("30h in bank 6", read_at(chip, image, size, 0x30), 0);
    same("0Eh", read_at(chip, image, size, 0x0E), byte_of(0x7B, 0));
    same("a write to nothing", yk_write(chip, image, size, 0x30, 0x11), 0);
    same("bank 0", yk_write(chip, image, size, 0x00, 0x80), 0);
    same("C5h in bank 0", read_at(chip, image, size, 0xC5), byte_of(0x50, 0));
    image[0x0F] = 0x13;
    same("another version", yk_identity(chip, image, size), YK_REFUSED_IDENTITY);
    image[0x0F] = 0x11;
    same("version B", yk_identity(chip, image, size), 0);
    image[0x0F] = 0x12;
    same("version C", yk_identity(chip, image, size), 0);

    /* The plan: read, written again, asked, as script, played, translated. */
    same("record", yk_read_record(record_5, sizeof record_5), packed(0, 20 + 256 * 5 + 65536 * 1));
    memset(out, 0xEE, sizeof out);
    same("written", yk_write_record(chip, 1, body, whole, out, YK_RECORD_MAX), packed(0, 20));
    same("its bytes", (uint64_t)memcmp(out, record_5, 20), 0);
    same("its tail", out[20], 0xEE);
    same("short output", yk_write_record(chip, 1, body, whole, out, 19), YK_REFUSED_OUTPUT);
    for (k = 0; k < sizeof degrees; k++) {
        same("asked", yk_asked_of_plan(chip, 1, body, whole, degrees[k]), packed(0, asked[k]));
    }
    same("short output", yk_script(chip, 1, body, whole, out, YK_SCRIPT_MAX - 1), YK_REFUSED_OUTPUT);
    same("script", yk_script(chip, 1, body, whole, out, YK_SCRIPT_MAX), packed(0, 25));
    same("its first and last write", (uint64_t)(memcmp(out, "\x00\x02", 2) | memcmp(out + 48, "\x3E\x38", 2)), 0);
    same("critical and its selects", (uint64_t)memcmp(out + 30, "\x00\x00\xC5\x50\x00\x02", 6), 0);
    image[0x00] = 0xFF;
    image[0xC5] = 0xBC;
    same("asked before", yk_asked_of_image(chip, 6, image, size, 60), packed(0, 63));
    same("play of none", yk_play(chip, 6, body, whole, image, size, 0), 0);
    same("play of 8", yk_play(chip, 6, body, whole, image, size, 8), packed(0, 8));
    same("the bank select register", image[0x00], 0x7A);
    same("asked then", yk_asked_of_image(chip, 6, image, size, 30), packed(0, 63));
    same("play of 16", yk_play(chip, 6, body, whole, image, size, 16), packed(0, 16));
    same("the bank select register", image[0x00], 0x78);
    same("play", yk_play(chip, 6, body, whole, image, size, 26), packed(0, 25));
    same("asked at 47", yk_asked_of_image(chip, 6, image, size, 47), packed(0, 27));
    same("the table", (uint64_t)(memcmp(image + 0x280, body + 1, 7) | memcmp(image + 0x288, body + 9, 7)), 0);
    same("the bank select register", image[0x00], 0x7A);
    /* Critical is that of all six tables; its bit 7 is none of its value. */
    same("critical", image[0xC5], 0xD0);
    for (k = 1; k <= 6; k++) {
        same("at 79", yk_asked_of_image(chip, (uint8_t)k, image, size, 79), packed(0, 56));
        same("at 80", yk_asked_of_image(chip, (uint8_t)k, image, size, 80), packed(0, 63));
    }
    same("text", yk_translate(record_5, sizeof record_5, out, sizeof out), packed(0, length));
    same("its bytes", (uint64_t)memcmp(out, text_5, length), 0);

    /* Records that are refused, in the order of the checks. */
    refused_5("three bytes", "\x43\x51\x05", 3, YK_REFUSED_HEADER);
    refused_5("no mark", "\x43\x52\x05\x01", 4, YK_REFUSED_MARK);
    refused_5("no chip", "\x43\x51\x06\x01", 4, YK_REFUSED_CHIP);
    refused_5("no table of chip 3", "\x43\x51\x03\x01", 4, YK_REFUSED_TABLE);
    refused_5("no table 7", "\x43\x51\x05\x07", 4, YK_REFUSED_TABLE);
    refused_5("no table 7 in the old form", "\x43\x50\x05\x07", 4, YK_REFUSED_TABLE);
    refused_5("chip 5 in the old form", "\x43\x50\x05\x01", 4, YK_REFUSED_FORM);
    refused_5("chip 1 in the new form", "\x43\x51\x01\x01", 4, YK_REFUSED_FORM);
    refused_5("chip 2 in the new form", "\x43\x51\x02\x01", 4, YK_REFUSED_FORM);
    refused_5("chip 4 in the new form", "\x43\x51\x04\x01", 4, YK_REFUSED_FORM);
    refused_5("six points", "\x43\x51\x05\x01\x06", 5, YK_REFUSED_FORM);
    refused_5("eight points", "\x43\x51\x05\x01\x08", 5, YK_REFUSED_FORM);
    refused_5("no point count", "\x43\x51\x05\x01", 4, YK_REFUSED_BODY);
    refused_5("no point", "\x43\x51\x05\x01\x07", 5, YK_REFUSED_BODY);
    same("cut record", yk_read_record(record_5, 19), YK_REFUSED_BODY);

    /* Plans that are refused: the buffers are as they were. */
    memcpy(kept, image, size);
    memcpy(out, image, size);
    memcpy(other, body, whole);
    other[0] = 8;
    same("record of eight points", yk_write_record(chip, 1, other, whole, out, size), YK_REFUSED_FORM);
    same("their script", yk_script(chip, 1, other, whole, out, size), YK_REFUSED_FORM);
    same("their play", yk_play(chip, 1, other, whole, image, size, 25), YK_REFUSED_FORM);
    same("what they ask", yk_asked_of_plan(chip, 1, other, whole, 45), YK_REFUSED_FORM);
    same("a point count alone", yk_asked_of_plan(chip, 1, other, 1, 45), YK_REFUSED_FORM);
    same("table 7", yk_asked_of_plan(chip, 7, other, 1, 45), YK_REFUSED_TABLE);
    other[0] = 7;
    same("cut body", yk_play(chip, 1, other, whole - 1, image, size, 25), YK_REFUSED_BODY);
    same("no body", yk_asked_of_plan(chip, 1, other, 0, 45), YK_REFUSED_BODY);
    other[1] = 0x9E;
    other[15] = 0x40;
    same("eight bits of T1", yk_script(chip, 1, other, whole, out, size), YK_REFUSED_TEMPERATURES);
    other[1] = 0x1E;
    same("seven bits of FL7", yk_script(chip, 1, other, whole, out, size), YK_REFUSED_SPEEDS);
    same("the output", (uint64_t)memcmp(out, kept, size), 0);
    same("the image", (uint64_t)memcmp(image, kept, size), 0);
}

int main(void) {
    uint8_t image[YK_IMAGE], kept[YK_IMAGE], out[YK_IMAGE];
    const uint8_t *body = record + 4;
    uint64_t answer;
    size_t length = sizeof text - 1;

    /* "Chip 2, 34h bits 0 and 1 clear on one"; "91h mask 0Fh". */
    memset(image, 0xFF, sizeof image);
    same("write", yk_write(2, image, YK_IMAGE, 0x34, 0x01), 0);
    same("the byte at 34h", image[0x34], 0xFE);
    same("write", yk_write(2, image, YK_IMAGE, 0x91, 0xA5), 0);
    same("read", read_at(2, image, YK_IMAGE, 0x91), byte_of(0xF5, 0));
    same("read of a short image", read_at(2, image, 255, 0x91), YK_REFUSED_IMAGE);
    /* "A3h to A8h power-on 37h, 3Ch, 8Ch, AAh, C8h, E6h." */
    same("reset", yk_reset(1, image, YK_IMAGE, YK_DEFAULT, 0), 0);
    same("the bytes at A3h", (uint64_t)memcmp(image + 0xA3, "\x37\x3C\x8C\xAA\xC8\xE6", 6), 0);
    same("identity of chip 2", yk_identity(2, image, YK_IMAGE), YK_REFUSED_IDENTITY);
    image[0xFD] = 0x50;
    image[0xFE] = 0xC3;
    image[0xFF] = 0x20;
    image[0x05] = image[0x08] = 0;
    same("identity of chip 1", yk_identity(1, image, YK_IMAGE), 0);

    /* "Width 11: E7A0h is -195." "256 is refused 12, 255 and -256 fit", at width 9. */
    answer = yk_steps(11, 0xE7, 0xA0);
    same("steps", (uint64_t)(yk_steps_value(answer) == -195), 1);
    same("steps of width 10", yk_steps(10, 0xE7, 0xA0), YK_REFUSED_WIDTH);
    same("bytes", yk_bytes(9, -110), packed(0, 0xC900));
    same("bytes of 256", yk_bytes(9, 256), YK_REFUSED_STEPS);
    same("microvolts", yk_microvolts(0xFFC0), packed(0, 2557500));

    /* "Limits 80 and 75 degrees, samples of 81, 78, acknowledge, 78 degrees." */
    answer = yk_sample(YK_ONE_TIME, 0, 1296, 80, 75);
    same("sample of 81", answer, packed(0, 1 + 2 + 4));
    answer = yk_acknowledge(YK_ONE_TIME, yk_facts(answer));
    same("acknowledge", answer, packed(0, 1));
    same("sample of 78", yk_sample(YK_ONE_TIME, yk_facts(answer), 1248, 80, 75), packed(0, 1));
    same("the same in default", yk_sample(YK_DEFAULT, yk_facts(answer), 1248, 80, 75), packed(0, 7));
    same("in comparator", yk_sample(YK_COMPARATOR, yk_facts(answer), 1248, 80, 75), packed(0, 5));
    same("refused", yk_sample(YK_COMPARATOR, 1, 2048, 80, 75), packed(12, 5));
    same("exactly 75", yk_sample(YK_COMPARATOR, 1, 1200, 80, 75), packed(0, 5));
    same("below 75", yk_sample(YK_COMPARATOR, 1, 1199, 80, 75), packed(0, 0));

    /* The samples in turn: "exactly 75 doesn't turn it off"; no sample, the watch as it was. */
    same("run to 75", yk_run(YK_DEFAULT, 0, samples, 3, 80, 75), packed(0, 7));
    same("run to below 75", yk_run(YK_DEFAULT, 0, samples, 4, 80, 75), packed(0, 6));
    same("run in one-time", yk_run(YK_ONE_TIME, 1, samples, 3, 80, 75), packed(0, 1));
    same("run in comparator", yk_run(YK_COMPARATOR, 0, samples, 3, 80, 75), packed(0, 5));
    same("run of none", yk_run(YK_DEFAULT, 1, samples, 0, 80, 75), packed(0, 1));

    /* The example: read, written again, asked, as script, played, translated. */
    same("record", yk_read_record(record, sizeof record), packed(0, 13 + 256 * 1 + 65536 * 3));
    same("cut record", yk_read_record(record, 12), YK_REFUSED_BODY);
    memset(out, 0xEE, sizeof out);
    same("written", yk_write_record(1, 3, body, YK_BODY_CHIP_1, out, sizeof out), packed(0, 13));
    same("its bytes", (uint64_t)memcmp(out, record, 13), 0);
    same("its tail", out[13], 0xEE);
    same("short output", yk_write_record(1, 3, body, YK_BODY_CHIP_1, out, 12), YK_REFUSED_OUTPUT);
    same("asked at 45", yk_asked_of_plan(1, 3, body, YK_BODY_CHIP_1, 45), packed(0, 185));
    same("script", yk_script(1, 3, body, YK_BODY_CHIP_1, out, 26), packed(0, 13));
    same("its first and last write", (uint64_t)(memcmp(out, "\xA5\xFF", 2) | memcmp(out + 24, "\xA8\xE6", 2)), 0);
    same("play of 4", yk_play(1, 3, body, YK_BODY_CHIP_1, image, YK_IMAGE, 4), packed(0, 4));
    same("asked at -128", yk_asked_of_image(1, 3, image, YK_IMAGE, 0x80), packed(0, 255));
    same("play", yk_play(1, 3, body, YK_BODY_CHIP_1, image, YK_IMAGE, 14), packed(0, 13));
    same("asked at 53", yk_asked_of_image(1, 3, image, YK_IMAGE, 53), packed(0, 218));
    same("the table", (uint64_t)memcmp(image + 0xA0, body, YK_BODY_CHIP_1), 0);
    /* Its body without the last byte: 5, and the buffers are as they were. */
    memcpy(kept, image, YK_IMAGE);
    memcpy(out, image, YK_IMAGE);
    same("record of a cut body", yk_write_record(1, 3, body, 8, out, YK_IMAGE), YK_REFUSED_BODY);
    same("its script", yk_script(1, 3, body, 8, out, YK_IMAGE), YK_REFUSED_BODY);
    same("its play", yk_play(1, 3, body, 8, image, YK_IMAGE, 13), YK_REFUSED_BODY);
    same("what it asks", yk_asked_of_plan(1, 3, body, 8, 45), YK_REFUSED_BODY);
    same("the output", (uint64_t)memcmp(out, kept, YK_IMAGE), 0);
    same("the image", (uint64_t)memcmp(image, kept, YK_IMAGE), 0);
    same("text", yk_translate(record, sizeof record, out, sizeof out), packed(0, length));
    same("its bytes", (uint64_t)memcmp(out, text, length), 0);
    same("short text", yk_translate(record, sizeof record, out, length - 1), YK_REFUSED_OUTPUT);
    initialization();
    status();
    chip_4();
    chip_5();
    return failed;
}
