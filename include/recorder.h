/*
 * The three questions that a C program may ask the hall recorder: is this configuration image good, what moment is this second of the clock, and how
 * fresh is this meter's reading.
 *
 * The functions are in libhost.a, for x86-64 Linux: tests/run writes it, from what `rt lib` makes in crates/host_c. Each is proved against its contract
 * in crates/host.
 *
 * - They answer every input: nothing has to be checked before a call, but for the pointer of recorder_image_check.
 * - They allocate nothing, write to no memory but their own stack, keep nothing from one call to the next and read no clock. So threads may call them at
 *   the same time.
 * - The same arguments always give the same answer.
 * - They need nothing of the C library.
 */
#ifndef RECORDER_H
#define RECORDER_H

#include <stddef.h>
#include <stdint.h>

#ifdef __cplusplus
extern "C" {
#endif

/* The bytes of a configuration image, version 1. */
#define RECORDER_IMAGE_LENGTH 1126

/* Numbers of refusal. They are those of the recorder's rules, where the numbers left out belong to other calls. */
enum {
    RECORDER_LENGTH = 1,     /* the image is not 1,126 bytes long */
    RECORDER_MARK = 2,       /* the image does not begin with the letters KRC */
    RECORDER_VERSION = 3,    /* the image's version is not 1 */
    RECORDER_VALUE = 4,      /* an entry of the image breaks its rule */
    RECORDER_NOT_FITTED = 8, /* the meter's limit is 0: it is not fitted */
    RECORDER_READING = 10    /* the STATUS is above 7 */
};

/* Age classes. */
enum {
    RECORDER_AWAKE = 0,   /* the reading is fresh and valid: the only class whose value may be shown as it is */
    RECORDER_STALE = 1,   /* the stamp is ahead of the clock, or the clock is past it by more than the limit */
    RECORDER_INVALID = 2, /* not stale, but the meter itself marked the reading as invalid */
    RECORDER_NEVER = 3    /* there was no reading yet */
};

/*
 * Checks a configuration image.
 *
 * image   The first byte of the image. It must not be NULL, not even where the length is 0: there any pointer that is not NULL serves, and no byte is
 *         read. All `length` bytes must be readable, and no other thread may write them during the call. They are read only, and no byte beside them is
 *         touched.
 * length  How many bytes there are; any number is answered.
 *
 * Answers 0 where the image is accepted, else refusal x 65,536 + offset:
 *
 *     uint32_t answer = recorder_image_check(image, length);
 *     unsigned refusal = answer >> 16;       1 to 4, as above; 0 where the image is accepted
 *     unsigned offset = answer & 0xffff;     the first byte of the entry to blame
 *
 * They are tested in the order of their numbers. The offset of 4 is that of the first entry, in the order of the image, that breaks its rule, from 5
 * to 1,124; that of 3 is 3, that of 1 and 2 is 0. So the only answers are 0, 0x10000, 0x20000, 0x30003 and 0x40005 to 0x40464.
 */
uint32_t recorder_image_check(const uint8_t *image, size_t length);

/*
 * The moment of a second of the clock, counted from 01.01.1970 00:00:00 by the Gregorian calendar. Each of the 2^32 seconds has one; the last is
 * 07.02.2106 06:28:15.
 *
 * Answers the moment in one number, from the lowest byte upwards:
 *
 *     unsigned year = answer & 0xffff;           1970 to 2106
 *     unsigned month = answer >> 16 & 0xff;      1 to 12
 *     unsigned day = answer >> 24 & 0xff;        1 to 31
 *     unsigned weekday = answer >> 32 & 0xff;    0 Monday to 6 Sunday
 *     unsigned hour = answer >> 40 & 0xff;       0 to 23
 *     unsigned minute = answer >> 48 & 0xff;     0 to 59
 *     unsigned second = answer >> 56;            0 to 59
 *
 * 0 stands for "no date". No second of 32 bits gets it, and no moment is 0.
 */
uint64_t recorder_calendar(uint32_t seconds);

/*
 * The age class of a serial meter's last reading.
 *
 * limit   The meter's age limit in seconds; 0 is a meter that is not fitted. The configuration's limits go to 65,535, and any number is answered.
 * read    Whether there was a reading: 0 no, any other number yes.
 * stamp   The second of the clock at which the meter was last heard, as its register has it: a reading that repeats the SEQ of the one before it
 *         does not renew it. 0 is an ordinary time.
 * status  The reading's STATUS, 0 to 7: 1 IV (invalid), 2 CA, 4 CY, added.
 * clock   The present second of the clock.
 *
 * Answers a refusal, tested before anything else, also where there was no reading: 8 for limit 0, then 10 for a STATUS above 7. Else the class, tested in
 * this order: 3 never, 1 stale, 2 invalid, 0 awake. A reading is stale if it is more than `limit` seconds old, and also if its stamp lies ahead of
 * the clock, as it may after a clock set back, until the meter is read again or the clock has come to the stamp. One that is exactly `limit`
 * seconds old is not stale, nor is one whose stamp is the clock. Classes are below RECORDER_NOT_FITTED, refusals are not.
 */
uint32_t recorder_age_class(uint32_t limit, uint32_t read, uint32_t stamp, uint32_t status, uint32_t clock);

#ifdef __cplusplus
}
#endif

#endif
