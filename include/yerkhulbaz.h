/*
 * yerkhulbaz: register images, readings, the alarm watch, identity, cooling plans and scripts for
 * five hardware monitors. Chip 1 is the Nuvoton NCT7802Y, chip 2 the Fintek F75373S, chip 3 the
 * onsemi NCT80, chip 4 the Nuvoton NCT7904D, chip 5 the Winbond W83793G.
 *
 * The library does no input or output, allocates nothing and keeps nothing between two calls: it
 * works on buffers that the caller lends for the time of the call. Link libclib.a (x86-64 Linux).
 * From the system's libc it needs memcpy (and memset, where the compiler comes to use it), and
 * nothing else. README.md has the lines that compile and run a program, on x86-64 and on an Arm
 * machine.
 *
 * ANSWERS. Every function answers every input and returns one uint64_t: the low byte is the
 * refusal, 0 when the call was accepted; the rest is the value. Take it apart with yk_refusal()
 * and yk_value(), or with the function that stands beside a prototype below. Look at the refusal
 * first.
 *
 * A REFUSED CALL has value 0 and leaves every lent buffer as it was. (One exception in the value: a
 * refused call that takes a watch, yk_sample, yk_read, yk_reset or yk_sample_image, still carries
 * its facts, unchanged.) Where several refusals apply, the answer is the first in the order in
 * which the prototype's comment lists them.
 *
 * BUFFERS. A buffer is a pointer and then its length in bytes (of yk_run: in samples). What lies
 * past the length is neither read nor written. A pointer must not be null, not even with length 0.
 * A buffer that is written (image of yk_write, yk_read, yk_reset, yk_sample_image and yk_play; out)
 * must not overlap another buffer of the same call: to play a table of an image onto the same
 * image, copy the table's bytes out first.
 *
 * AN IMAGE is the 256 register bytes of one chip, indexed by address (chip 1: bank 0), the 1,280 of
 * chip 4, five banks of 256 one after the other, or the 768 of chip 5, three banks: bank b's
 * address a is image[256 * b + a]. Any other length is refused with 8. Functions work on the image
 * only; the caller moves bytes between the image and the chip. On chip 1 the caller first makes
 * sure of bank 0 (bit 0 of 00h is zero), which identity does not ask for: with bank 1 selected the
 * same addresses are other registers.
 *
 * A CHIP'S STATE is its image and, beside it, a watch: its behaviour, which stays, and its facts,
 * hot and pending, for which 256 bytes of registers have no room. The caller keeps the watch as two
 * bytes, behaviour and facts, and after every call that takes it has facts = yk_facts(answer). Only
 * chip 3 has facts of its own, by its status registers 01h and 02h; with another chip they come
 * back as they were. A call on an image without a watch (yk_write, yk_play) leaves the facts.
 *
 * BANKS are those of chips 4 and 5. yk_write and yk_read take an address, as the bus does, and land
 * in the bank that is selected: bits 2 to 0 of the bank select register, whatever its other bits
 * hold. It is image[0xFF] of chip 4 and image[0x00] of chip 5. Four registers are seen in every
 * bank and stand in bank 0's page only: of chip 4 7Ah, 7Bh, 7Ch and FFh, of chip 5 00h, 0Dh, 0Eh
 * and 0Fh; in the pages of the other banks nothing reaches the bytes of these addresses. Codes 5 to
 * 7 of chip 4 and 3 to 7 of chip 5 select a bank that is not there: the four registers answer,
 * elsewhere a write changes nothing and a read gives 0. A bank is selected by a write, as bank 3 of
 * chip 4 by yk_write(4, image, YK_IMAGE_CHIP_4, 0xFF, 3). All other calls that take an image find
 * each register in its own bank, whichever is selected. On a bus the caller must select bank 0
 * before 0Dh to 0Fh of chip 4 are read; README.md has what it takes to confirm a chip.
 *
 * THE VENDOR BYTE OF CHIP 5, image[0x0D], is the high one, 5Ch, whatever bit 7 of 00h holds. On a
 * bus 0Dh shows it only while that bit is on; while it is off, as a script leaves it, 0Dh shows the
 * low one, A3h. Who fills an image from the bus stores 5Ch there where 0Dh shows A3h while the bit
 * is off, or turns the bit on before reading.
 *
 * A FAN TABLE works only while the chip is in its curve mode. The mode bits are the caller's: no
 * plan and no script has them.
 *
 * A PLAN is a chip, a fan table and a body, the table's bytes in the order of a record:
 *   chip 1, tables 1 to 3, 9 bytes:   T1 T2 T3 T4 critical FL1 FL2 FL3 FL4
 *       temperatures are signed degrees, duties 0 to 255; in the image from 80h, 90h, A0h
 *   chip 2, tables 1 and 2, 14 bytes: B1 B2 B3 B4 then C1 to C5, high byte first
 *       temperatures are degrees 0 to 255, counts 0 to 65,535; in the image from A0h, B0h
 *   chip 3 has no fan table.
 *   chip 4, tables 1 to 10, 9 bytes:  critical T1 T2 T3 T4 P1 P2 P3 P4
 *       temperatures are signed degrees, duties 0 to 255; critical leads, as its register does; in
 *       the image table n from 1 to 4 has it at 320h + n - 1, T1 to P4 from 330h + 8 (n - 1) on,
 *       table n from 5 to 10 at 410h + n - 5, T1 to P4 from 430h + 8 (n - 5) on
 *   chip 5, tables 1 to 6, 16 bytes:  7 T1 to T7 critical FL1 to FL7
 *       the first byte is the number of points, which is always 7 (else 16); temperatures are
 *       degrees 0 to 127, duties 0 to 63; tables 1 to 4 are those of TD1 to TD4, 5 and 6 of TR1 and
 *       TR2; in the image table n has T1 to T7 from 220h + 10h n on, FL1 to FL7 from 228h + 10h n
 *       on, and critical at C5h, one register for all six
 * A shorter body is refused with 5, after 16 where it has its number of points; bytes past these
 * are ignored, as those behind a record are. A plan is in order when
 *   chips 1, 4 and 5: each T is above the one before it, the last at most critical (else 6); duties
 *       never fall (else 7); of chip 5 no temperature is above 127 (else 6) and no duty above 63
 *       (else 7), since their registers have 7 and 6 bits
 *   chip 2: B1 > B2 > B3 > B4 (else 6); C1 to C5 never fall (else 7).
 * More duty is faster; a smaller count is faster, 0000h is full speed and FFFFh is off. The
 * greatest duty is 255, of chip 5 63.
 *
 * CHIP 5 HAS ONE CRITICAL TEMPERATURE. It is C5h of bank 0, 'All fan full speed temperature', and
 * part of each of the six tables: the script of one table moves the critical temperature of the
 * other five. What yk_script and yk_play promise is of the plan's own table. Another table asks
 * what its own points say below the new critical temperature, and full speed from there on: where
 * the new one is higher than the old, it asks for less than before between the two. So give all
 * plans of one chip 5 the same critical temperature; if they differ, the last one played decides it
 * for all.
 */
#ifndef YERKHULBAZ_H
#define YERKHULBAZ_H

#include <stddef.h>
#include <stdint.h>

#ifdef __cplusplus
extern "C" {
#endif

/* Refusals: the low byte of an answer. They stand here in the order of the checks. */
enum {
    YK_ACCEPTED = 0,
    YK_REFUSED_HEADER = 1,       /* a plan record has fewer than 4 bytes left */
    YK_REFUSED_MARK = 2,         /* its mark is neither 43h 50h nor 43h 51h */
    YK_REFUSED_CHIP = 3,         /* the chip number is not 1 to 5 */
    YK_REFUSED_TABLE = 4,        /* the chip has no such fan table */
    YK_REFUSED_FORM = 16,        /* the mark or the point count doesn't go with the chip */
    YK_REFUSED_BODY = 5,         /* the body of a record or plan is cut short */
    YK_REFUSED_TEMPERATURES = 6, /* temperatures of the plan are out of order, or don't fit */
    YK_REFUSED_SPEEDS = 7,       /* duties or counts of the plan are out of order, or don't fit */
    YK_REFUSED_IMAGE = 8,        /* an image is not 256 bytes long (chip 4: 1,280; chip 5: 768) */
    YK_REFUSED_OUTPUT = 9,       /* the output buffer is shorter than the result */
    YK_REFUSED_IDENTITY = 10,    /* identity is not confirmed (for chip 3 always) */
    YK_REFUSED_WIDTH = 11,       /* the temperature width is not 8, 9, 11 or 12 */
    YK_REFUSED_STEPS = 12        /* a number of steps doesn't fit the width */
};

/* Behaviours of an alarm watch. Any other number counts as comparator. */
enum { YK_DEFAULT = 0, YK_ONE_TIME = 1, YK_COMPARATOR = 2 };

/* Chips. */
enum { YK_NCT7802Y = 1, YK_F75373S = 2, YK_NCT80 = 3, YK_NCT7904D = 4, YK_W83793G = 5 };

/* Sizes in bytes. A buffer of the size named MAX is never refused with 9. */
enum {
    YK_IMAGE = 256,        /* chips 1, 2 and 3 */
    YK_IMAGE_CHIP_4 = 1280,
    YK_IMAGE_CHIP_5 = 768,
    YK_BODY_CHIP_1 = 9,
    YK_BODY_CHIP_2 = 14,
    YK_BODY_CHIP_4 = 9,
    YK_BODY_CHIP_5 = 16,   /* the number of points with it */
    YK_RECORD_MAX = 20,    /* yk_write_record: 13, 18, 13 and 20 for chips 1, 2, 4 and 5 */
    YK_SCRIPT_MAX = 50,    /* yk_script: 26, 48, 28 and 50 for chips 1, 2, 4 and 5 */
    YK_INPUT_MAX = 4096,   /* yk_translate: a longer input is `input too long` */
    YK_TEXT_MAX = 40979    /* yk_translate: no input has a longer text */
};

/* ---- Taking an answer apart */

/* The refusal, one of the numbers above; 0 when the call was accepted. */
static inline uint8_t yk_refusal(uint64_t answer) {
    return (uint8_t)(answer & 0xFFu);
}

/* The value; 0 when the call was refused (but see A REFUSED CALL). */
static inline uint64_t yk_value(uint64_t answer) {
    return answer >> 8;
}

/* The steps of an accepted yk_steps or of yk_right_steps, with their sign. */
static inline int16_t yk_steps_value(uint64_t answer) {
    uint64_t word = yk_value(answer) & 0xFFFFu;
    return word < 0x8000u ? (int16_t)word : (int16_t)((int32_t)word - 0x10000);
}

/* The two bytes of an accepted yk_bytes or yk_right_bytes. */
static inline uint8_t yk_bytes_high(uint64_t answer) {
    return (uint8_t)((yk_value(answer) >> 8) & 0xFFu);
}
static inline uint8_t yk_bytes_low(uint64_t answer) {
    return (uint8_t)(yk_value(answer) & 0xFFu);
}

/* An accepted yk_read_record: the record's length in bytes (13, 18 or 20), its chip, its table. */
static inline size_t yk_record_used(uint64_t answer) {
    return (size_t)(yk_value(answer) & 0xFFu);
}
static inline uint8_t yk_record_chip(uint64_t answer) {
    return (uint8_t)((yk_value(answer) >> 8) & 0xFFu);
}
static inline uint8_t yk_record_table(uint64_t answer) {
    return (uint8_t)((yk_value(answer) >> 16) & 0xFFu);
}

/*
 * Calls that answer a watch (yk_sample, yk_run, yk_acknowledge, yk_read, yk_reset and
 * yk_sample_image): hot, pending and the output after the call, each 0 or 1.
 */
static inline uint8_t yk_facts_hot(uint64_t answer) {
    return (uint8_t)(yk_value(answer) & 1u);
}
static inline uint8_t yk_facts_pending(uint64_t answer) {
    return (uint8_t)((yk_value(answer) >> 1) & 1u);
}
static inline uint8_t yk_facts_output(uint64_t answer) {
    return (uint8_t)((yk_value(answer) >> 2) & 1u);
}

/* The same as one byte, to be kept and handed to the watch's next call. */
static inline uint8_t yk_facts(uint64_t answer) {
    return (uint8_t)(yk_value(answer) & 3u);
}

/* The byte of an accepted yk_read. */
static inline uint8_t yk_read_byte(uint64_t answer) {
    return (uint8_t)((yk_value(answer) >> 8) & 0xFFu);
}

/* ---- Register images */

/*
 * Writes one byte as the chip would take it: writable bits are replaced, write-one-to-clear bits
 * are cleared where byte has a 1, the other bits keep. A register that can't be written keeps
 * its byte, and the call is accepted all the same. Of 00h of chip 3 bit 5 clears itself: it is
 * stored as 0.
 * Refusals: 3, 8. Value: 0. Afterwards: only the byte at which the write lands may have changed:
 * image[address], or of chips 4 and 5 that address in the bank selected before the call (see
 * BANKS). The one exception is 00h of chip 3 where byte has bit 7 set, whatever it was before: that
 * initializes the chip. Then every writable bit of the image has its power-on value, so that 00h
 * holds 08h, and the bits that can't be written are as they were: 01h, 02h, 20h to 29h, 3Eh, bit 0
 * of 06h, bits 7 to 1 of 07h, bits 7 to 3 of 09h, and every address that the sheet doesn't list. It
 * is no acknowledge: the facts of a watch stay. No write changes a status bit.
 */
uint64_t yk_write(uint8_t chip, uint8_t *image, size_t image_length, uint8_t address, uint8_t byte);

/*
 * Reads one byte: image[address], or of chips 4 and 5 that address in the bank selected (see
 * BANKS). A read of 01h or 02h of chip 3 gives the byte, then clears that register, all eight bits,
 * and is the acknowledge: pending goes off and hot stays, also where the byte was 00h. Every other
 * read changes nothing. To look at a status register without clearing it, look into the image.
 * Refusals: 3, 8. Value: hot + 2 * pending + 4 * output + 256 * the byte; yk_read_byte(answer), and
 * for the watch yk_facts(answer) and so on. Afterwards: the image is as it was, but that 01h or 02h
 * of chip 3 is 00h where it was read.
 */
uint64_t yk_read(uint8_t chip, uint8_t *image, size_t image_length, uint8_t address,
                 uint8_t behaviour, uint8_t facts);

/*
 * Fills the image with the chip's power-on bytes; of chips 4 and 5 all banks, and bank 0 is
 * selected. Of chip 3 both facts go off.
 * Refusals: 3, 8. Value: as of yk_sample. Afterwards: all bytes of the image are those of power-on.
 */
uint64_t yk_reset(uint8_t chip, uint8_t *image, size_t image_length, uint8_t behaviour,
                  uint8_t facts);

/*
 * Whether the image is that of the chip, by its identity registers. Chip 1: FDh is 50h, FEh is C3h,
 * the upper four bits of FFh are 2, bits 4 to 0 of 05h and bits 5 to 0 of 08h are zero. Chip 2:
 * 5Ah, 5Bh, 5Dh, 5Eh are 02h, 04h, 19h, 34h. Chip 3 is never confirmed. Chip 4: 0Dh and 7Ah are
 * 50h, 0Eh and 7Bh are C5h, the upper four bits of 0Fh and 7Ch are 5. Chip 5: 0Dh is 5Ch, 0Eh is
 * 7Bh, 0Fh is 11h or 12h; whatever bit 7 of 00h holds (see THE VENDOR BYTE OF CHIP 5). Of both each
 * stands in bank 0's page, whichever bank is selected.
 * Refusals: 3, 8, 10. Value: 0; accepted means confirmed.
 */
uint64_t yk_identity(uint8_t chip, const uint8_t *image, size_t image_length);

/* ---- Readings */

/*
 * The steps of a temperature's two bytes: the 16-bit two's complement number high:low divided by
 * 2 to the power 16 - width, rounded towards minus infinity. A step is 1 degree at width 8, 1/2
 * at 9, 1/8 at 11 (chip 1), 1/16 at 12 (chip 3). The low bits past the width are ignored.
 * Refusals: 11. Value: the steps; take them with yk_steps_value(answer).
 */
uint64_t yk_steps(uint8_t width, uint8_t high, uint8_t low);

/*
 * The two bytes of a number of steps, the ignored low bits as zero. A width of w takes
 * -2^(w-1) to 2^(w-1) - 1.
 * Refusals: 11, 12. Value: high * 256 + low; yk_bytes_high(answer), yk_bytes_low(answer).
 */
uint64_t yk_bytes(uint8_t width, int16_t steps);

/*
 * The microvolts of a voltage word of chip 3: its bits 15 to 6 times 2,500.
 * Refusals: none. Value: the microvolts, 0 to 2,557,500.
 */
uint64_t yk_microvolts(uint16_t word);

/*
 * The steps of a temperature of the NCT7904D, whose low three bits stand right-aligned in the low
 * byte: 8 times the signed high byte plus bits 2 to 0 of low. A step is 1/8 degree. The other bits
 * of low are ignored.
 * Refusals: none. Value: the steps, -1024 to 1023; take them with yk_steps_value(answer).
 */
uint64_t yk_right_steps(uint8_t high, uint8_t low);

/*
 * The two bytes of such a number of steps, -1024 to 1023, the ignored bits as zero.
 * Refusals: 12. Value: high * 256 + low; yk_bytes_high(answer), yk_bytes_low(answer).
 */
uint64_t yk_right_bytes(int16_t steps);

/*
 * The microvolts of a voltage of the NCT7904D: 8 times high plus bits 2 to 0 of low, times what a
 * count is worth. input is the address of the high byte in bank 0: 40h, 42h and so on to 5Ah are
 * VSEN1 to VSEN14, of which a count is 2,000 microvolts; 5Ch, 5Eh, 60h are 3VDD, VBAT, 3VSB and
 * 64h, 66h, 68h are VSEN17 to VSEN19, of which it is 6,000. A channel that is in temperature mode
 * holds a temperature there (VSEN2, 4, 6, 8): take it with yk_right_steps.
 * Refusals: none. Value: the microvolts, 0 to 12,282,000; 0 where input is no such address.
 */
uint64_t yk_input_microvolts(uint8_t input, uint8_t high, uint8_t low);

/* ---- The alarm watch of chip 3 */

/*
 * One sample. The caller keeps a watch as two bytes: its behaviour, which stays, and its facts,
 * 0 at first, then yk_facts(answer) of the last call. In facts bit 0 is hot, bit 1 is pending,
 * other bits are ignored. steps is a 12-bit step count (1/16 degree, -2048 to 2047); high and
 * hysteresis are whole degrees.
 * Above the high limit hot goes on; otherwise below the hysteresis limit hot goes off; otherwise
 * it stays, at a limit too. Then pending goes on: in default if hot is on, in one-time if hot
 * went from off to on in this sample, in comparator never. The output is hot in comparator,
 * pending in the other two.
 * Refusals: 12. Value: hot + 2 * pending + 4 * output, after the sample; yk_facts_hot(answer),
 * yk_facts_pending(answer), yk_facts_output(answer). A refused sample carries the facts as they
 * were, so facts = yk_facts(answer) is right after every call.
 */
uint64_t yk_sample(uint8_t behaviour, uint8_t facts, int16_t steps, int8_t high, int8_t hysteresis);

/*
 * Recorded samples in turn, each as yk_sample would take it with the same two limits. A sample
 * that is no 12-bit step count changes neither fact, and the run goes on. samples_length is the
 * number of samples, not of bytes; samples are only read.
 * Refusals: none. Value: as of yk_sample, after the last sample; with no sample the watch as it
 * was.
 */
uint64_t yk_run(uint8_t behaviour, uint8_t facts, const int16_t *samples, size_t samples_length,
                int8_t high, int8_t hysteresis);

/*
 * Turns pending off and keeps hot.
 * Refusals: none. Value: as of yk_sample.
 */
uint64_t yk_acknowledge(uint8_t behaviour, uint8_t facts);

/* ---- Samples of chip 3 */

/*
 * One sample of an NCT80: its temperature, a 12-bit step count (1/16 degree, -2048 to 2047), and
 * the words of IN0 to IN6. It is stored in the image, the temperature at 27h and in bits 7 to 4 of
 * 06h, the high byte of INn at 20h + n, and sets status bits there, which only yk_read and yk_reset
 * clear:
 *   01h bit n where INn, bits 15 to 6 of its word, is strictly above 4 times its high limit, 2Ah +
 *       2n, or strictly below 4 times its low limit, 2Bh + 2n
 *   02h bit 0 where the watch, which takes the temperature as yk_sample would, with the limits 38h
 *       and 39h as signed degrees, then has its output on
 *   02h bit 5 where the temperature is strictly above 3Ah, signed degrees
 * A channel that is disabled, bit n of 08h for INn and bit 7 for the temperature, is stored as 0
 * and sets nothing; a disabled temperature leaves the watch as it was. The masks 03h and 04h and
 * what 00h holds make no difference.
 * Refusals: 8, 12 (also where the temperature is disabled). Value: as of yk_sample. Afterwards:
 * only 01h, 02h, bits 7 to 4 of 06h and 20h to 27h may have changed.
 */
uint64_t yk_sample_image(uint8_t *image, size_t image_length, uint8_t behaviour, uint8_t facts,
                         int16_t steps, uint16_t in0, uint16_t in1, uint16_t in2, uint16_t in3,
                         uint16_t in4, uint16_t in5, uint16_t in6);

/* ---- Plan records */

/*
 * Reads the plan record that begins at bytes[0]: a mark, chip, table, body. The mark is 43h 51h for
 * chip 5 and 43h 50h for the others; one that doesn't go with the chip is refused with 16, and then
 * a number of points that is there and isn't 7. Bytes after the record are not looked at; add
 * yk_record_used(answer) to come to the next record.
 * Refusals: 1, 2, 3, 4, 16, 5, 6, 7. Value: used + 256 * chip + 65536 * table;
 * yk_record_used(answer), yk_record_chip(answer), yk_record_table(answer). The plan's body stands
 * in bytes[4] to bytes[used - 1], used - 4 bytes, of chip 5 with its number of points.
 */
uint64_t yk_read_record(const uint8_t *bytes, size_t length);

/*
 * Writes a plan's record, with the chip's mark.
 * Refusals: 3, 4, 16, 5, 6, 7, 9. Value: the length, 13, 18 or 20. Afterwards: the record stands in
 * out[0] to out[length - 1]; the bytes of out past it are as they were.
 */
uint64_t yk_write_record(uint8_t chip, uint8_t table, const uint8_t *body, size_t body_length,
                         uint8_t *out, size_t out_length);

/* ---- What is asked of a fan */

/*
 * The speed that a plan asks for at temperature t, in order or not: the duty for chips 1, 4 and 5,
 * the count (0 to 65,535) for chip 2. From critical on it is the greatest duty, 255 of chips 1 and
 * 4, 63 of chip 5. t is one byte, signed for chips 1, 4 and 5 (pass (uint8_t)degrees) and unsigned
 * for chip 2.
 * Refusals: 3, 4, 16, 5. Value: the duty or count.
 */
uint64_t yk_asked_of_plan(uint8_t chip, uint8_t table, const uint8_t *body, size_t body_length,
                          uint8_t t);

/*
 * The same of the table's bytes that stand in an image, of chips 4 and 5 in the registers' own
 * banks, whichever is selected; bits that a register doesn't take count as zero. The chip's
 * identity is not looked at.
 * Refusals: 3, 4, 8. Value: the duty or count.
 */
uint64_t yk_asked_of_image(uint8_t chip, uint8_t table, const uint8_t *image, size_t image_length,
                           uint8_t t);

/* ---- Scripts */

/*
 * Writes a plan's script: pairs of address and byte, to be written to the chip in this order. First
 * every duty goes to FFh (chips 1 and 4) or 3Fh (chip 5) or every count byte to 00h (chip 2), then
 * the temperatures are written, critical last, then the speeds as planned. So a table that is
 * loaded in part never asks for less than the slower of the old table and the plan. Of chip 4 the
 * select of the table's bank comes before all of these, FFh and 3 or 4; of chip 5 that of bank 2,
 * 00h and 2, before them, that of bank 0 before critical, that of bank 2 again behind it. So
 * whichever bank was selected, each write lands in its register's; the script leaves its last bank
 * selected, of chip 5 bank 2, with bit 7 of 00h off. The script of chip 5 moves the critical
 * temperature of all six tables.
 * Refusals: 3, 4, 16, 5, 6, 7, 9. Value: the number of writes, 13 (chip 1), 24 (chip 2), 14 (chip
 * 4) or 25 (chip 5). Afterwards: write k (from 0) is out[2 * k], out[2 * k + 1]; the bytes of out
 * past the script are as they were.
 */
uint64_t yk_script(uint8_t chip, uint8_t table, const uint8_t *body, size_t body_length,
                   uint8_t *out, size_t out_length);

/*
 * Plays the first count writes of a plan's script on an image, as yk_write would make them; a count
 * above the script's length means all. Identity is confirmed once, before the first write. Every
 * play begins with the script's first write: after a cut, play the whole script again. That may be
 * cut too, any number of times. If the first play was not refused, each one after it is of the same
 * plan and on the image that the one before left, and nothing else writes to that image, then none
 * of them is refused, at every stop the image asks for nothing slower than the slower of the very
 * first table and the plan, and a play that makes all writes ends at the plan. Of chips 4 and 5 a
 * select counts as a write. All of this is of the plan's own table; of chip 5 critical, C5h, is
 * part of it, so that a play moves the critical temperature of the other five tables too.
 * Refusals: 3, 4, 16, 5, 6, 7, 8, 10. Value: the number of writes made. Afterwards: outside of the
 * plan's table and, of chips 4 and 5, the bank select register the image is as it was; after a
 * whole script the table holds the plan's body, of chip 5 in the bits that its registers take.
 */
uint64_t yk_play(uint8_t chip, uint8_t table, const uint8_t *body, size_t body_length,
                 uint8_t *image, size_t image_length, size_t count);

/* ---- Text */

/*
 * Translates plan records into text: per plan a line `plan N chip C table T writes W` and one
 * line `AA BB` per write (address and byte, hexadecimal), at the end `end N`. At a record that is
 * refused the text ends with `plan N refused R`: the call itself is accepted then. An input of
 * more than 4,096 bytes gives the line `input too long`. Every line ends with a line feed; the
 * text does not end with a zero byte.
 * Refusals: 9. Value: the length of the text. Afterwards: the text stands in out[0] to
 * out[length - 1]; the bytes of out past it are as they were.
 */
uint64_t yk_translate(const uint8_t *input, size_t input_length, uint8_t *out, size_t out_length);

#ifdef __cplusplus
}
#endif

#endif
