/*
 * Plays a cooling plan on a register image of chip 1: confirms the identity, reads the plan from
 * its record, and prints the duty asked at some temperatures before the play, when the play was
 * cut after 11 of its 13 writes, and after the whole play.
 *
 * The image stands for the bytes that a driver has read from the chip. Here it holds the identity
 * of chip 1 and, in table 3, an older and quieter curve.
 */
#include "yerkhulbaz.h"

#include <stdio.h>
#include <string.h>

#define CUT 11u

/* The example of the rules paper: chip 1, table 3, degrees 30 40 50 55, critical 60, duties 140
 * 170 200 230. */
static const uint8_t record[13] = {0x43, 0x50, 0x01, 0x03, 0x1E, 0x28, 0x32,
                                   0x37, 0x3C, 0x8C, 0xAA, 0xC8, 0xE6};

/* Degrees 40 50 60 70, critical 80, duties 40 80 120 200. */
static const uint8_t older[YK_BODY_CHIP_1] = {40, 50, 60, 70, 80, 40, 80, 120, 200};

static const int8_t degrees[] = {-10, 30, 33, 45, 53, 58, 60};

/* The image of a chip 1 with the older curve in table 3, at A0h. */
static void load(uint8_t image[YK_IMAGE]) {
    memset(image, 0, YK_IMAGE);
    image[0xFD] = 0x50;
    image[0xFE] = 0xC3;
    image[0xFF] = 0x20;
    memcpy(image + 0xA0, older, sizeof older);
}

/* The duty that the image asks at a temperature; -1 if the question is refused. */
static int asked(uint8_t chip, uint8_t table, const uint8_t image[YK_IMAGE], int8_t t) {
    uint64_t answer = yk_asked_of_image(chip, table, image, YK_IMAGE, (uint8_t)t);
    return yk_refusal(answer) == YK_ACCEPTED ? (int)yk_value(answer) : -1;
}

int main(void) {
    uint8_t before[YK_IMAGE], cut[YK_IMAGE], after[YK_IMAGE];
    uint64_t answer;
    uint8_t chip, table;
    const uint8_t *body;
    size_t body_length, k;

    load(before);

    answer = yk_read_record(record, sizeof record);
    if (yk_refusal(answer) != YK_ACCEPTED) {
        printf("record refused %u\n", (unsigned)yk_refusal(answer));
        return 1;
    }
    chip = yk_record_chip(answer);
    table = yk_record_table(answer);
    body = record + 4;
    body_length = yk_record_used(answer) - 4;
    printf("record of %u bytes: chip %u table %u\n", (unsigned)yk_record_used(answer),
           (unsigned)chip, (unsigned)table);

    /* The image is not one of chip 2, and one of the plan's chip. */
    answer = yk_identity(YK_F75373S, before, YK_IMAGE);
    printf("identity of chip 2: refused %u\n", (unsigned)yk_refusal(answer));
    answer = yk_identity(chip, before, YK_IMAGE);
    if (yk_refusal(answer) != YK_ACCEPTED) {
        printf("identity refused %u\n", (unsigned)yk_refusal(answer));
        return 1;
    }
    printf("identity of chip %u: confirmed\n", (unsigned)chip);

    /* A play that is cut, and the play of the whole script from where the cut left the image. */
    memcpy(cut, before, YK_IMAGE);
    answer = yk_play(chip, table, body, body_length, cut, YK_IMAGE, CUT);
    printf("cut: refusal %u, writes %u\n", (unsigned)yk_refusal(answer), (unsigned)yk_value(answer));
    memcpy(after, cut, YK_IMAGE);
    answer = yk_play(chip, table, body, body_length, after, YK_IMAGE, SIZE_MAX);
    printf("all: refusal %u, writes %u\n", (unsigned)yk_refusal(answer), (unsigned)yk_value(answer));

    printf("degrees before    cut  after\n");
    for (k = 0; k < sizeof degrees / sizeof degrees[0]; k++) {
        printf("%7d %6d %6d %6d\n", degrees[k], asked(chip, table, before, degrees[k]),
               asked(chip, table, cut, degrees[k]), asked(chip, table, after, degrees[k]));
    }
    return 0;
}
