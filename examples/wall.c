/*
 * The wall screen of the hall: each meter with its last value, how old it is, and whether to believe it. A `!` marks the ones that nobody should read off.
 *
 * All that a host asks of the recorder is in include/recorder.h; the readings stand in the table below.
 */
#include "recorder.h"

#include <inttypes.h>
#include <stdbool.h>
#include <stdio.h>

/* 11.03.1997 14:17:00 */
#define CLOCK 858089820u

/* A meter's limit in seconds, 0 where none is fitted, and its last reading. */
struct meter {
    const char *name;
    uint32_t limit;
    bool read;
    int32_t value;
    uint32_t stamp;
    uint32_t status;
};

static const struct meter meters[] = {
    {"Joinery planer", 900, true, 48210, CLOCK - 4, 0},
    {"Joinery band saw", 900, true, 31877, CLOCK - 7, 0},
    {"Joinery panel saw", 900, true, 90455, CLOCK - 59, 0},
    {"Joinery lathe", 900, true, 12064, CLOCK - 60, 2},
    {"Joinery router", 900, true, 5530, CLOCK - 61, 0},
    {"Joinery sander", 900, true, 7718, CLOCK - 200, 0},
    {"Joinery extractor", 900, true, 66102, CLOCK - 901, 0},
    {"Joinery compressor", 900, true, 24981, CLOCK - 900, 0},
    {"Joinery lights", 900, true, 3307, CLOCK - 12, 0},
    {"Joinery heating", 900, true, 102344, CLOCK - 15, 4},
    {"Knitting machine 1", 900, true, 55120, CLOCK - 3, 0},
    {"Knitting machine 2", 900, true, 43908, CLOCK - 5, 0},
    {"Knitting linker", 900, true, 71266, CLOCK - 8, 0},
    {"Knitting press", 900, true, 18450, CLOCK - 599, 0},
    {"Knitting washer", 900, true, 29073, CLOCK - 7500, 6},
    {"Knitting dryer", 900, true, 30518, CLOCK - 20, 0},
    {"Knitting winder", 900, true, 9482, CLOCK - 33, 0},
    {"Knitting boiler", 900, true, 250117, CLOCK - 10, 1},
    {"Knitting lights", 900, true, 4126, CLOCK - 14, 0},
    {"", 0, false, 0, 0, 0},
    {"Pottery kiln 1", 900, true, 187654, CLOCK - 2, 0},
    {"Pottery kiln 2", 900, true, 165023, CLOCK - 1, 0},
    {"Pottery wheel 1", 900, true, 1980, CLOCK - 450, 6},
    {"Pottery wheel 2", 900, true, 2045, CLOCK - 273600, 0},
    {"Pottery glaze booth", 900, true, 811, CLOCK - 31, 0},
    {"Pottery clay mixer", 900, true, 6390, CLOCK - 100, 0},
    {"Pottery lights", 900, true, 2874, CLOCK - 11, 0},
    {"Hall lights", 900, true, 15999, CLOCK, 0},
    {"Hall door", 900, true, 77, CLOCK + 12, 0},
    {"Hall heating", 900, true, 340218, CLOCK - 16, 0},
    {"Roof panels", 900, true, -58012, CLOCK - 9, 0},
    {"Yard pump", 900, false, 0, 0, 0},
};

static const char *const weekdays[] = {"Monday", "Tuesday", "Wednesday", "Thursday", "Friday", "Saturday", "Sunday"};

static const char *const classes[] = {"awake", "STALE", "INVALID", "NEVER READ"};

static uint32_t class_of(const struct meter *m) {
    return recorder_age_class(m->limit, m->read, m->stamp, m->status, CLOCK);
}

static void print_headline(void) {
    uint64_t now = recorder_calendar(CLOCK);
    unsigned year = now & 0xffff, month = now >> 16 & 0xff, day = now >> 24 & 0xff, weekday = now >> 32 & 0xff;
    unsigned hour = now >> 40 & 0xff, minute = now >> 48 & 0xff, second = (unsigned)(now >> 56);
    printf("Hall meters, %s %02u.%02u.%04u %02u:%02u:%02u\n", weekdays[weekday], day, month, year, hour, minute, second);
}

/* How old a reading is, in its two largest units. */
static void age_text(char *text, size_t room, uint32_t stamp) {
    uint32_t age = CLOCK - stamp;
    if (stamp > CLOCK)
        snprintf(text, room, "ahead");
    else if (age < 60)
        snprintf(text, room, "%" PRIu32 " s", age);
    else if (age < 3600)
        snprintf(text, room, "%" PRIu32 " min %" PRIu32 " s", age / 60, age % 60);
    else if (age < 86400)
        snprintf(text, room, "%" PRIu32 " h %" PRIu32 " min", age / 3600, age / 60 % 60);
    else
        snprintf(text, room, "%" PRIu32 " d %" PRIu32 " h", age / 86400, age / 3600 % 24);
}

/* The mark, the meter's number and name, its value, its age and its class. */
static void print_meter(unsigned number, const struct meter *m, uint32_t class) {
    char value[16] = "-", age[32] = "-";
    if (class != RECORDER_NEVER) {
        snprintf(value, sizeof value, "%" PRId32, m->value);
        age_text(age, sizeof age, m->stamp);
    }
    printf("%c %2u  %-20s %8s  %-12s %s\n", class == RECORDER_AWAKE ? ' ' : '!', number, m->name, value, age, classes[class]);
}

int main(void) {
    unsigned fitted = 0, awake = 0;
    print_headline();
    printf("\n  No  %-20s %8s  %-12s %s\n", "Meter", "Value", "Age", "Class");
    for (unsigned i = 0; i < sizeof meters / sizeof meters[0]; i++) {
        uint32_t class = class_of(&meters[i]);
        if (class >= RECORDER_NOT_FITTED)
            continue;
        fitted++;
        awake += class == RECORDER_AWAKE;
        print_meter(i, &meters[i], class);
    }
    printf("\nfitted %u, awake %u\n", fitted, awake);
    return 0;
}
