/*
 * Another recorder: the rules of document 01, of the change requests of document 02 that have landed (1 to 7) and the decided points, in plain C. It shares no code and no
 * definition with the crates.
 *
 * It serves all comparisons: the program hall is compared with it on random calls, on stored answers and on the cases (hall.c beside this file reads the lines), the C
 * functions by tests/differential.rs, and bench/run measures the product against it. So it works in place and is written for speed, and it answers every call.
 */
#ifndef PEER_RECORDER_H
#define PEER_RECORDER_H

#include <stdbool.h>
#include <stddef.h>
#include <stdint.h>

enum { IMAGE_LENGTH = 1126, LONGEST_REGISTER = 13, RECORD_LENGTH = 69, LONGEST_PROFILE = 65536 };
enum { DISPLAY_LINES = 2, DISPLAY_WIDTH = 16, DISPLAY_LENGTH = DISPLAY_LINES * DISPLAY_WIDTH };
enum { INPUTS = 16, SUMS = 8, FUNCTIONS = 4, SLOTS = 16, CHOSEN = 8, METERS = 32, MAKERS = 3 };
enum { DAILY = 32, WINDOWS = 4, WEEKLY = 16, SEASONS = 8, HOLIDAYS = 32, RULES = 16, BILLS = 16 };

/* "Numbers of refusal." 9, NO DATE, is never given: each time of 32 bits has a date. */
enum { LENGTH = 1, MARK, VERSION, VALUE, CLOCK_END, FULL, NO_METER, NOT_FITTED, READING = 10, NO_GROUP, NO_REGISTER, NO_ROOM, PROFILE_BUFFER, NO_RECORD, BLOCK, LINE,
       NOT_A_NUMBER, DOES_NOT_FIT, NO_MAKER, FORMAT, ARGUMENT };

/* What is fixed: the image, and what samples ask for at every turn, worked out of it once. */
struct config {
    uint8_t image[IMAGE_LENGTH];
    uint32_t period; /* seconds */
    uint32_t fitted, s1r; /* inputs */
    uint8_t shortest[INPUTS], longest[INPUTS];
    uint16_t numerator[INPUTS], denominator[INPUTS];
    uint32_t names[INPUTS][SUMS]; /* all ones where the sum names the input */
    uint32_t used_rules;  /* by some bill register */
    uint32_t plain_bills; /* bill registers in use with no rule */
    uint8_t bill_sum[BILLS], bill_rule[BILLS];
};

/* The load profile: its records stand in the buffer that the calls lend, and only where the next goes is kept here. */
struct profile {
    size_t length; /* of the buffer at the start; 0 in the blank recorder, which no buffer has that is taken */
    uint32_t places, next, held; /* the places for records, that of the next one, and how many records there are */
    uint8_t slots[CHOSEN];
};

/* The buffer that a call lends for the load profile. */
struct lent {
    uint8_t *bytes;
    size_t length;
};

struct meter {
    uint8_t read, status, seq;
    uint32_t stamp;
    int32_t value;
};

/* What a maker may read: bit i names meter, input, slot or bill register i, in use or not. */
struct list {
    uint32_t meters;
    uint16_t inputs, slots, bills;
};

struct recorder {
    struct config config;
    uint32_t clock, samples; /* seconds, and samples in this second */
    uint32_t first; /* second of the period */
    uint32_t running; /* lines with a run */
    uint16_t run[INPUTS], rejected[INPUTS];
    uint32_t remainder[INPUTS], units[INPUTS]; /* units of the period, which is level 0 */
    uint32_t open[BILLS], closed[BILLS], stamp[BILLS];
    uint8_t reset[BILLS];
    struct meter meters[METERS];
    uint8_t period_state; /* of the last closed period: 0 none, 1 short, 2 whole */
    uint32_t period_stamp;
    int64_t values[SLOTS]; /* level 9 */
    struct profile profile;
    uint32_t on_known, on; /* the bill registers that units go to in the present minute, if they were asked for */
    struct list lists[MAKERS];
};

/* The fitted meters by age class, and what those awake add up to. */
enum age { AWAKE, STALE, INVALID, NEVER };
struct fleet {
    uint8_t fitted, count[4];
    int64_t sum;
};

/* Bytes that a caller gives: what a meter sent, which is a line, one data set without a line end, or the block around its lines; or a format string, or its arguments. */
struct sent {
    const uint8_t *bytes;
    size_t length;
};

/* The value of a data set: where it stands in its line, and its whole number with the stated decimals. */
struct value {
    uint32_t offset, length;
    int32_t number;
};

/* 0, or refusal x 65,536 + offset. */
uint32_t peer_image_check(const uint8_t *image, size_t length);

/* The moment of a second: the year in the low two bytes, then month, day, weekday (0 Monday), hour, minute, second, one byte each. */
uint64_t peer_calendar(uint32_t seconds);

/* A meter's age class, or 8 for limit 0, then 10 for STATUS above 7. `read` is 0 for no, and any other number for yes. */
uint32_t peer_age_class(uint32_t limit, uint32_t read, uint32_t stamp, uint32_t status, uint32_t clock);

/* As the image check, after the refusals of the lent buffer's length and of the slots that the load profile keeps. It writes nothing into the buffer, so the length is all
   that it is given. A refused start leaves the blank recorder, all zeros, with empty lists too, and every call on that has its answer. */
uint32_t peer_start(struct recorder *r, size_t lent_length, const uint8_t slots[CHOSEN], const struct list lists[MAKERS], const uint8_t *image, size_t length, uint32_t time);

/* Takes samples to the first refusal, which it answers; 0 where all were taken. */
uint32_t peer_samples(struct recorder *r, struct lent lent, const uint16_t *bits, size_t n, size_t *taken);

/* A reading. The refusal, or 0; only with 0 it says whether the stamp was renewed, or kept. */
uint32_t peer_reading(struct recorder *r, uint32_t meter, int32_t value, uint32_t status, uint32_t seq, bool *renewed);

/* Reads a data set. The refusal, or 0; only with 0 is the value given. */
uint32_t peer_data_set(struct sent line, uint32_t decimals, struct value *value);

/* The refusal, or 0. */
uint32_t peer_block(struct sent block);

/* A data set booked as a reading, and answered as one. */
uint32_t peer_readout(struct recorder *r, uint32_t meter, uint32_t status, uint32_t seq, uint32_t decimals, struct sent line, bool *renewed);

/* The same after the check of a block. That the line stands in the block is not asked. */
uint32_t peer_block_readout(struct recorder *r, uint32_t meter, uint32_t status, uint32_t seq, uint32_t decimals, struct sent block, struct sent line, bool *renewed);

/* The refusal, or 0. */
uint32_t peer_set_clock(struct recorder *r, struct lent lent, uint32_t time);

void peer_reset(struct recorder *r);
struct fleet peer_fleet(const struct recorder *r);

/* The bytes given, or minus the refusal. */
int peer_register(const struct recorder *r, uint32_t group, uint32_t number, uint8_t *buffer, size_t room);

/* The same for a maker, who reads what is on the list, and a fleet of the list's meters. */
int peer_maker_register(const struct recorder *r, uint32_t maker, uint32_t group, uint32_t number, uint8_t *buffer, size_t room);

/* The hall display: both lines of a format string, one behind the other. The refusal, or 0; only with 0 is the buffer written, and of it the first 32 bytes. */
uint32_t peer_display(const struct recorder *r, struct sent format, struct sent arguments, uint8_t *buffer, size_t room);

/* A record of the load profile, the oldest by index 0, as the lent buffer holds it. The bytes given, or minus the refusal. */
int peer_record(const struct recorder *r, struct lent lent, uint32_t index, uint8_t *buffer, size_t room);

/* Writes the configuration's image. 0, or refusal x 65,536 + offset. */
uint32_t peer_write_image(const struct recorder *r, uint8_t *buffer, size_t room);

#endif
