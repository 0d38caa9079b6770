/*
 * Follows the status registers of an NCT80, chip 3: two samples, and what a host that reads 01h and
 * 02h finds after each. A read clears the register that it reads, and is the acknowledge.
 *
 * The image stands for the chip's registers. Beside it the caller keeps the watch: its behaviour,
 * here default, and the byte of its facts, which every call that takes them hands back.
 */
#include "yerkhulbaz.h"

#include <stdio.h>
#include <string.h>

static uint8_t image[YK_IMAGE];
static uint8_t facts;

/* IN0 has the limits 80h and 40h, 1.28 V and 0.64 V; IN1 has a low one of 20h; the others stay
 * quiet. The alarm goes on above 80 degrees and cools below 75. */
static void load(void) {
    size_t n;
    memset(image, 0, YK_IMAGE);
    for (n = 0; n < 7; n++) {
        image[0x2A + 2 * n] = 0xFF;
    }
    image[0x2A] = 0x80;
    image[0x2B] = 0x40;
    image[0x2D] = 0x20;
    image[0x38] = 80;
    image[0x39] = 75;
    image[0x3A] = 127;
}

static void tell(uint64_t answer) {
    facts = yk_facts(answer);
    printf(", hot %u, pending %u\n", (unsigned)yk_facts_hot(answer),
           (unsigned)yk_facts_pending(answer));
}

/* A temperature in steps of 1/16 degree, and IN0; the other voltages are 0.32 V. */
static void sample(int16_t steps, uint16_t in0) {
    uint64_t answer = yk_sample_image(image, YK_IMAGE, YK_DEFAULT, facts, steps, in0, 0x2000,
                                      0x2000, 0x2000, 0x2000, 0x2000, 0x2000);
    printf("sample of %d steps, IN0 %04X: refusal %u", (int)steps, (unsigned)in0,
           (unsigned)yk_refusal(answer));
    tell(answer);
}

static void read_register(uint8_t address) {
    uint64_t answer = yk_read(YK_NCT80, image, YK_IMAGE, address, YK_DEFAULT, facts);
    printf("read of %02X: %02X", (unsigned)address, (unsigned)yk_read_byte(answer));
    tell(answer);
}

int main(void) {
    load();
    sample(1296, 0x8100);
    read_register(0x01);
    read_register(0x01);
    read_register(0x02);
    read_register(0x02);
    sample(1248, 0x8000);
    read_register(0x01);
    read_register(0x02);
    sample(2048, 0x8000);
    return 0;
}
