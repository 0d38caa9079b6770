/* Prints the deepest stack of each call: it runs on a stack of its own, painted before. */
#define _XOPEN_SOURCE 700
#include <stdio.h>
#include <string.h>
#include <ucontext.h>

#include "yerkhulbaz.h"

enum { SIZE = 1 << 18, PAINT = 0xA5 };

static uint8_t painted[SIZE];
static ucontext_t here, there;
static uint8_t image[YK_IMAGE_CHIP_4];
static uint8_t input[YK_INPUT_MAX];
static uint8_t out[YK_TEXT_MAX];
static const int16_t samples[] = {1296, 1248, 1199};
static volatile uint64_t answer;

/* The chip that is asked, its image's length and a record of its table 3. */
static uint8_t chip;
static size_t length, used;
static const uint8_t *record;
static const uint8_t record_1[] = {0x43, 0x50, 1, 3, 0x1E, 0x28, 0x32, 0x37, 0x3C, 0x8C, 0xAA, 0xC8, 0xE6};
static const uint8_t record_4[] = {0x43, 0x50, 4, 3, 0x3C, 0x1E, 0x28, 0x32, 0x37, 0x8C, 0xAA, 0xC8, 0xE6};
static const uint8_t record_5[] = {0x43, 0x51, 5,    3,    0x07, 0x1E, 0x23, 0x28, 0x2D, 0x32,
                                   0x37, 0x3C, 0x50, 0x08, 0x0C, 0x10, 0x18, 0x20, 0x30, 0x38};

static void nothing(void) {}
static void do_write(void) { answer = yk_write(chip, image, length, 0x91, 0xFF); }
static void do_initialize(void) { answer = yk_write(chip, image, length, 0x00, 0x80); }
static void do_read(void) { answer = yk_read(chip, image, length, 0x91, YK_DEFAULT, 3); }
static void do_read_status(void) { answer = yk_read(chip, image, length, 0x01, YK_DEFAULT, 3); }
static void do_reset(void) { answer = yk_reset(chip, image, length, YK_DEFAULT, 3); }
static void do_sample_image(void)
{
    answer = yk_sample_image(image, length, YK_DEFAULT, 0, 1296, 0x8100, 0x2000, 0xFFC0, 0, 0x4000, 0x8000,
                             0xC000);
}
static void do_identity(void) { answer = yk_identity(chip, image, length); }
static void do_steps(void) { answer = yk_steps(12, 0xC9, 0x00); }
static void do_bytes(void) { answer = yk_bytes(12, -880); }
static void do_microvolts(void) { answer = yk_microvolts(0xFFC0); }
static void do_right_steps(void) { answer = yk_right_steps(0xE6, 0x02); }
static void do_right_bytes(void) { answer = yk_right_bytes(-206); }
static void do_input_microvolts(void) { answer = yk_input_microvolts(0x68, 0x19, 0x06); }
static void do_sample(void) { answer = yk_sample(YK_DEFAULT, 0, 1296, 80, 75); }
static void do_run(void) { answer = yk_run(YK_DEFAULT, 0, samples, 3, 80, 75); }
static void do_acknowledge(void) { answer = yk_acknowledge(YK_DEFAULT, 3); }
static void do_read_record(void) { answer = yk_read_record(input, used); }
static void do_write_record(void) { answer = yk_write_record(chip, 3, record + 4, used - 4, out, sizeof out); }
static void do_asked_of_plan(void) { answer = yk_asked_of_plan(chip, 3, record + 4, used - 4, 33); }
static void do_asked_of_image(void) { answer = yk_asked_of_image(chip, 3, image, length, 33); }
static void do_script(void) { answer = yk_script(chip, 3, record + 4, used - 4, out, sizeof out); }
static void do_play(void) { answer = yk_play(chip, 3, record + 4, used - 4, image, length, 99); }
static void do_translate(void) { answer = yk_translate(input, sizeof input, out, sizeof out); }

/* Bytes of the painted stack that a call changed. */
static size_t depth(void (*call)(void))
{
    size_t k = 0;
    memset(painted, PAINT, sizeof painted);
    getcontext(&there);
    there.uc_stack.ss_sp = painted;
    there.uc_stack.ss_size = sizeof painted;
    there.uc_link = &here;
    makecontext(&there, call, 0);
    swapcontext(&here, &there);
    while (k < sizeof painted && painted[k] == PAINT)
        k++;
    return sizeof painted - k;
}

static void tell(const char *name, void (*call)(void))
{
    printf("stack %-19s %6zu bytes\n", name, depth(call) - depth(nothing));
}

/* The calls that take a chip and an image, each of them accepted, but that chip 3 confirms none. */
static void tell_image(uint8_t number, size_t image_length)
{
    chip = number;
    length = image_length;
    printf("chip %u\n", chip);
    tell("yk_reset", do_reset);
    tell("yk_write", do_write);
    tell("yk_read", do_read);
    tell("yk_identity", do_identity);
}

/* And those that take a plan. */
static void tell_chip(size_t image_length, const uint8_t *plan, size_t plan_length)
{
    size_t k;
    tell_image(plan[2], image_length);
    record = plan;
    used = plan_length;
    for (k = 0; k + used <= sizeof input; k += used)
        memcpy(input + k, record, used);
    tell("yk_read_record", do_read_record);
    tell("yk_write_record", do_write_record);
    tell("yk_asked_of_plan", do_asked_of_plan);
    tell("yk_asked_of_image", do_asked_of_image);
    tell("yk_script", do_script);
    tell("yk_play", do_play);
    tell("yk_translate", do_translate);
}

int main(void)
{
    tell("yk_steps", do_steps);
    tell("yk_bytes", do_bytes);
    tell("yk_microvolts", do_microvolts);
    tell("yk_right_steps", do_right_steps);
    tell("yk_right_bytes", do_right_bytes);
    tell("yk_input_microvolts", do_input_microvolts);
    tell("yk_sample", do_sample);
    tell("yk_run", do_run);
    tell("yk_acknowledge", do_acknowledge);
    tell_chip(YK_IMAGE, record_1, sizeof record_1);
    tell_image(3, YK_IMAGE);
    tell("yk_write, bit 7", do_initialize);
    tell("yk_read, 01h", do_read_status);
    tell("yk_sample_image", do_sample_image);
    tell_chip(YK_IMAGE_CHIP_4, record_4, sizeof record_4);
    tell_chip(YK_IMAGE_CHIP_5, record_5, sizeof record_5);
    return 0;
}
