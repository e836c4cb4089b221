/*
 * The three functions as the dashboard uses them, over include/recorder.h: `host_test IMAGE`, where IMAGE is a good image of 1,126 bytes.
 *
 * What is expected was worked out by hand from document 01, its table, its source documents' dates and the offsets of its entries, and from CR 2. Each failure is
 * printed with its input; the last line is 'N passed, M failed'.
 */
#include "recorder.h"

#include <inttypes.h>
#include <stdbool.h>
#include <stdio.h>
#include <string.h>

#define COUNT(array) (sizeof(array) / sizeof((array)[0]))

static unsigned passed, failed;

/* Counts a check, and begins the line of a failure. */
static bool wrong(bool good, const char *what) {
    if (good) {
        passed++;
        return false;
    }
    failed++;
    printf("FAILED: %s: ", what);
    return true;
}

/* ---- age classes */

struct age {
    const char *what;
    uint32_t limit, read, stamp, status, clock;
    uint32_t answer;
};

static const struct age ages[] = {
    {"line 10: 1900", 900, 1, 1000, 0, 1900, RECORDER_AWAKE},
    {"line 10: 1901", 900, 1, 1000, 0, 1901, RECORDER_STALE},
    {"line 10: stale STATUS 6", 900, 1, 1000, 6, 1901, RECORDER_STALE},
    {"at the stamp", 900, 1, 1000, 0, 1000, RECORDER_AWAKE},
    {"CA and CY alone are valid", 900, 1, 1000, 6, 1900, RECORDER_AWAKE},
    {"IV", 900, 1, 1000, 1, 1900, RECORDER_INVALID},
    {"IV with CA and CY", 900, 1, 1000, 7, 1900, RECORDER_INVALID},
    {"stale comes before invalid", 900, 1, 1000, 7, 1901, RECORDER_STALE},
    {"never comes before stale", 900, 0, 1000, 0, 1901, RECORDER_NEVER},
    {"never comes before invalid", 900, 0, 1000, 1, 1000, RECORDER_NEVER},
    {"read 2 is yes", 900, 2, 1000, 0, 1000, RECORDER_AWAKE},
    {"read 256 is yes", 900, 256, 1000, 0, 1000, RECORDER_AWAKE},
    {"read 2^31 is yes", 900, 0x80000000u, 1000, 0, 1000, RECORDER_AWAKE},
    {"read 2^32 - 1 is yes", 900, UINT32_MAX, 1000, 0, 1000, RECORDER_AWAKE},
    {"a second ahead of the clock", 900, 1, 1000, 0, 999, RECORDER_STALE},
    {"ahead by the limit", 900, 1, 1000, 0, 100, RECORDER_STALE},
    {"ahead by more than the limit", 900, 1, 1000, 0, 99, RECORDER_STALE},
    {"ahead by less than any limit", UINT32_MAX, 1, 1000, 0, 999, RECORDER_STALE},
    {"the last second ahead of the first", 1, 1, UINT32_MAX, 0, 0, RECORDER_STALE},
    {"ahead by 2^31", 1, 1, 0x80000000u, 0, 0, RECORDER_STALE},
    {"ahead comes before invalid", 1, 1, 1001, 1, 1000, RECORDER_STALE},
    {"ahead with CA and CY", 900, 1, 1000, 6, 999, RECORDER_STALE},
    {"never comes before ahead", 900, 0, 1000, 0, 999, RECORDER_NEVER},
    {"an hour back: ahead", 900, 1, 43200, 0, 39600, RECORDER_STALE},
    {"an hour back and read again", 900, 1, 39600, 0, 39600, RECORDER_AWAKE},
    {"an hour back and forth again", 900, 1, 43200, 0, 43200, RECORDER_AWAKE},
    {"limit 0 comes before ahead", 0, 1, 1000, 0, 999, RECORDER_NOT_FITTED},
    {"STATUS 8 comes before ahead", 900, 1, 1000, 8, 999, RECORDER_READING},
    {"stamp 0 is a time", 1, 1, 0, 0, 1, RECORDER_AWAKE},
    {"stamp 0 grows old", 1, 1, 0, 0, 2, RECORDER_STALE},
    {"stamp and limit past 2^32", UINT32_MAX, 1, UINT32_MAX, 0, UINT32_MAX, RECORDER_AWAKE},
    {"the last second, at the limit", 65535, 1, UINT32_MAX - 65535, 0, UINT32_MAX, RECORDER_AWAKE},
    {"the last second, past the limit", 65535, 1, UINT32_MAX - 65536, 0, UINT32_MAX, RECORDER_STALE},
    {"limit 0", 0, 1, 1000, 0, 1000, RECORDER_NOT_FITTED},
    {"limit 0, never read", 0, 0, 0, 0, 0, RECORDER_NOT_FITTED},
    {"limit 0 comes before STATUS 8", 0, 1, 1000, 8, 1000, RECORDER_NOT_FITTED},
    {"STATUS 8", 900, 1, 1000, 8, 1000, RECORDER_READING},
    {"STATUS 8, never read", 900, 0, 1000, 8, 1000, RECORDER_READING},
    {"STATUS 8, stale", 900, 1, 1000, 8, 1901, RECORDER_READING},
    {"STATUS 256", 900, 1, 1000, 256, 1000, RECORDER_READING},
    {"STATUS 2^32 - 1", 900, 1, 1000, UINT32_MAX, 1000, RECORDER_READING},
};

static void test_age(const struct age *a) {
    uint32_t got = recorder_age_class(a->limit, a->read, a->stamp, a->status, a->clock);
    if (wrong(got == a->answer, a->what)) {
        printf("limit %" PRIu32 ", read %" PRIu32 ", stamp %" PRIu32 ", STATUS %" PRIu32 ", clock %" PRIu32, a->limit, a->read, a->stamp, a->status, a->clock);
        printf(": %" PRIu32 " and not %" PRIu32 "\n", got, a->answer);
    }
}

/* ---- the calendar */

enum { MONDAY, TUESDAY, WEDNESDAY, THURSDAY, FRIDAY, SATURDAY, SUNDAY };

struct moment {
    const char *what;
    uint32_t seconds;
    unsigned year, month, day, weekday, hour, minute, second;
};

static const struct moment moments[] = {
    {"line 1", 0, 1970, 1, 1, THURSDAY, 0, 0, 0},
    {"line 2", 100000000, 1973, 3, 3, SATURDAY, 9, 46, 40},
    {"line 3", 951782400, 2000, 2, 29, TUESDAY, 0, 0, 0},
    {"line 4", 4107542400u, 2100, 3, 1, MONDAY, 0, 0, 0},
    {"line 4, the second before", 4107542399u, 2100, 2, 28, SUNDAY, 23, 59, 59},
    {"000, 3.8.2", 858089820, 1997, 3, 11, TUESDAY, 14, 17, 0},
    {"000, 3.11.4", 928240245, 1999, 6, 1, TUESDAY, 12, 30, 45},
    {"000, 3.8.2", 100008235, 1973, 3, 3, SATURDAY, 12, 3, 55},
    {"000, 3.6", 859863600, 1997, 4, 1, TUESDAY, 3, 0, 0},
    {"000, 3.6", 874288800, 1997, 9, 15, MONDAY, 2, 0, 0},
    {"000, 3.6", 878342400, 1997, 11, 1, SATURDAY, 0, 0, 0},
    {"the last second of a day", 86399, 1970, 1, 1, THURSDAY, 23, 59, 59},
    {"the second day", 86400, 1970, 1, 2, FRIDAY, 0, 0, 0},
    {"the clock's end", UINT32_MAX, 2106, 2, 7, SUNDAY, 6, 28, 15},
};

static struct moment unpacked(uint64_t answer) {
    return (struct moment){
        .year = answer & 0xffff,
        .month = answer >> 16 & 0xff,
        .day = answer >> 24 & 0xff,
        .weekday = answer >> 32 & 0xff,
        .hour = answer >> 40 & 0xff,
        .minute = answer >> 48 & 0xff,
        .second = (unsigned)(answer >> 56),
    };
}

static bool same_moment(const struct moment *a, const struct moment *b) {
    return a->year == b->year && a->month == b->month && a->day == b->day && a->weekday == b->weekday && a->hour == b->hour && a->minute == b->minute &&
           a->second == b->second;
}

static void print_moment(const struct moment *m) {
    printf("%02u.%02u.%04u %02u:%02u:%02u weekday %u", m->day, m->month, m->year, m->hour, m->minute, m->second, m->weekday);
}

static void test_moment(const struct moment *want) {
    struct moment got = unpacked(recorder_calendar(want->seconds));
    if (wrong(same_moment(&got, want), want->what)) {
        printf("second %" PRIu32 ": ", want->seconds);
        print_moment(&got);
        printf(" and not ");
        print_moment(want);
        printf("\n");
    }
}

/* ---- images */

/* The image stands between guard bytes. */
enum { GUARD = 64, ROOM = GUARD + RECORDER_IMAGE_LENGTH + GUARD };

static uint8_t good[ROOM];

/* The good image with up to two bytes set, of which the first `length` are lent. */
struct image {
    const char *what;
    size_t length;
    unsigned refusal, offset;
    struct {
        unsigned at, value;
    } set[2];
};

#define WHOLE RECORDER_IMAGE_LENGTH
#define UNCHANGED {{0, 'K'}, {0, 'K'}}
#define BYTE(at, value) {{at, value}, {at, value}}

/* In the good image inputs 0, 3 and 15 are not fitted; the last entries of slots, windows, seasons, holidays, rules and registers are unused. */
static const struct image images[] = {
    {"the good image", WHOLE, 0, 0, UNCHANGED},
    {"no byte", 0, RECORDER_LENGTH, 0, UNCHANGED},
    {"one byte", 1, RECORDER_LENGTH, 0, UNCHANGED},
    {"a byte less", WHOLE - 1, RECORDER_LENGTH, 0, UNCHANGED},
    {"a byte more", WHOLE + 1, RECORDER_LENGTH, 0, UNCHANGED},
    {"LENGTH before MARK", WHOLE - 1, RECORDER_LENGTH, 0, BYTE(0, 'k')},
    {"a small k", WHOLE, RECORDER_MARK, 0, BYTE(0, 'k')},
    {"the third letter", WHOLE, RECORDER_MARK, 0, BYTE(2, 'D')},
    {"MARK before VERSION", WHOLE, RECORDER_MARK, 0, {{1, 0}, {3, 2}}},
    {"version 0", WHOLE, RECORDER_VERSION, 3, BYTE(3, 0)},
    {"version 2", WHOLE, RECORDER_VERSION, 3, BYTE(3, 2)},
    {"version 257", WHOLE, RECORDER_VERSION, 3, BYTE(4, 1)},
    {"VERSION before VALUE", WHOLE, RECORDER_VERSION, 3, {{3, 2}, {5, 0}}},
    {"a period of 0 minutes", WHOLE, RECORDER_VALUE, 5, BYTE(5, 0)},
    {"a period of 7 minutes", WHOLE, RECORDER_VALUE, 5, BYTE(5, 7)},
    {"a period of 60 minutes", WHOLE, 0, 0, BYTE(5, 60)},
    {"input 1 of kind 3", WHOLE, RECORDER_VALUE, 13, BYTE(13, 3)},
    {"input 15, kind 0 with a denominator", WHOLE, RECORDER_VALUE, 111, BYTE(116, 1)},
    {"sum 0 names input 0", WHOLE, RECORDER_VALUE, 118, BYTE(118, 1)},
    {"sum 7 names input 15", WHOLE, RECORDER_VALUE, 132, BYTE(133, 0x80)},
    {"coefficient 0 is -128", WHOLE, RECORDER_VALUE, 134, BYTE(134, 0x80)},
    {"coefficient 31 is -128", WHOLE, RECORDER_VALUE, 165, BYTE(165, 0x80)},
    {"coefficient 31 is -127", WHOLE, 0, 0, BYTE(165, 0x81)},
    {"slot 0 of level 3", WHOLE, RECORDER_VALUE, 166, BYTE(166, 3)},
    {"slot 15 is 255, 1", WHOLE, RECORDER_VALUE, 196, BYTE(197, 1)},
    {"every limit is legal", WHOLE, 0, 0, {{198, 255}, {261, 255}}},
    {"window 0 ends at 1576", WHOLE, RECORDER_VALUE, 262, BYTE(265, 6)},
    {"window 127 from 1 to 0", WHOLE, RECORDER_VALUE, 770, BYTE(770, 1)},
    {"weekly reference 0 is 32", WHOLE, RECORDER_VALUE, 774, BYTE(774, 32)},
    {"weekly reference 127 is 254", WHOLE, RECORDER_VALUE, 901, BYTE(901, 254)},
    {"weekly reference 127 is none", WHOLE, 0, 0, BYTE(901, 255)},
    {"season 0 ends on 29.02", WHOLE, 0, 0, BYTE(904, 29)},
    {"season 0 ends on 30.02", WHOLE, RECORDER_VALUE, 902, BYTE(904, 30)},
    {"season 7 with a month alone", WHOLE, RECORDER_VALUE, 930, BYTE(933, 1)},
    {"holiday 1 on 29.02.1977", WHOLE, RECORDER_VALUE, 938, BYTE(938, 29)},
    {"holiday 31 with a year alone", WHOLE, RECORDER_VALUE, 1058, BYTE(1061, 7)},
    {"rule 0 of season 8", WHOLE, RECORDER_VALUE, 1062, BYTE(1062, 8)},
    {"rule 15 of season 0, weekly rule 255", WHOLE, RECORDER_VALUE, 1092, BYTE(1092, 0)},
    {"register 0 of sum 8", WHOLE, RECORDER_VALUE, 1094, BYTE(1094, 8)},
    {"register 15 is 255, 0", WHOLE, RECORDER_VALUE, 1124, BYTE(1125, 0)},
    {"the first bad entry counts", WHOLE, RECORDER_VALUE, 5, {{1125, 0}, {5, 0}}},
};

static void test_image(const struct image *want) {
    uint8_t lent[ROOM], kept[ROOM];
    memcpy(lent, good, ROOM);
    for (size_t i = 0; i < COUNT(want->set); i++)
        lent[GUARD + want->set[i].at] = (uint8_t)want->set[i].value;
    memcpy(kept, lent, ROOM);
    uint32_t answer = recorder_image_check(lent + GUARD, want->length);
    unsigned refusal = answer >> 16, offset = answer & 0xffff;
    if (wrong(refusal == want->refusal && offset == want->offset, want->what)) {
        for (size_t i = 0; i < COUNT(want->set); i++)
            printf("byte %u is %u, ", want->set[i].at, want->set[i].value);
        printf("length %zu: %u at %u and not %u at %u\n", want->length, refusal, offset, want->refusal, want->offset);
    }
    if (wrong(memcmp(lent, kept, ROOM) == 0, want->what))
        printf("a byte of the image, or beside it, was changed\n");
}

/* Reads the good image between its guards. */
static bool read_good(const char *name) {
    memset(good, 0xa5, ROOM);
    FILE *file = fopen(name, "rb");
    if (file == NULL)
        return false;
    size_t n = fread(good + GUARD, 1, RECORDER_IMAGE_LENGTH, file);
    bool ended = fgetc(file) == EOF;
    fclose(file);
    return n == RECORDER_IMAGE_LENGTH && ended;
}

int main(int argc, char **argv) {
    if (argc != 2 || !read_good(argv[1])) {
        fprintf(stderr, "usage: host_test IMAGE, a file of %d bytes\n", RECORDER_IMAGE_LENGTH);
        return 2;
    }
    for (size_t i = 0; i < COUNT(ages); i++)
        test_age(&ages[i]);
    for (size_t i = 0; i < COUNT(moments); i++)
        test_moment(&moments[i]);
    for (size_t i = 0; i < COUNT(images); i++)
        test_image(&images[i]);
    printf("%u passed, %u failed\n", passed, failed);
    return failed != 0;
}
