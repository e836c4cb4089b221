/* See recorder.h. A comment in quotation marks is a sentence of document 01, or of document 02 where it says so. */
#include "recorder.h"

#include <string.h>

/* Where the sections of the image begin. */
enum {
    PERIOD_AT = 5, INPUT_AT = 6, SUM_AT = 118, COEFFICIENT_AT = 134, SLOT_AT = 166, LIMIT_AT = 198, WINDOW_AT = 262, WEEKLY_AT = 774,
    SEASON_AT = 902, HOLIDAY_AT = 934, RULE_AT = 1062, BILL_AT = 1094
};

enum { MOST_OPEN = 999999999, NONE = 255 };

/* "Numbers in images and registers have the least significant byte first." */
static uint32_t u16_at(const uint8_t *p) { return p[0] | (uint32_t)p[1] << 8; }

static void put(uint8_t *p, uint64_t x, int n) {
    for (int i = 0; i < n; i++) p[i] = (uint8_t)(x >> 8 * i);
}

/* ---- The calendar. */

struct moment {
    uint32_t year, month, day, weekday, minute; /* minute of the day */
};

static bool leap(uint32_t year) { return year % 4 == 0 && (year % 100 != 0 || year % 400 == 0); }

static bool day_exists(uint32_t day, uint32_t month, uint32_t year) {
    static const uint8_t lengths[12] = {31, 28, 31, 30, 31, 30, 31, 31, 30, 31, 30, 31};
    if (month - 1 >= 12 || day == 0) return false;
    return day <= lengths[month - 1] + (uint32_t)(month == 2 && leap(year));
}

/* Counted from 1 March, so that the leap day is a year's last and the month is a division. 1 March 1968 is 671 days before 1970; of the centuries only 2100
   has no leap day. */
static struct moment moment_of(uint32_t seconds) {
    uint32_t days = seconds / 86400, day = days + 671 + (days >= 47541), cycle = day % 1461;
    uint32_t year = cycle / 365 - cycle / 1460, of_year = cycle - 365 * year, month = (5 * of_year + 2) / 153;
    struct moment m;
    m.day = of_year - (153 * month + 2) / 5 + 1;
    m.year = 1968 + 4 * (day / 1461) + year + (month >= 10);
    m.month = month < 10 ? month + 3 : month - 9;
    m.weekday = (days + 3) % 7;
    m.minute = seconds % 86400 / 60;
    return m;
}

uint64_t peer_calendar(uint32_t seconds) {
    struct moment m = moment_of(seconds);
    return m.year | (uint64_t)m.month << 16 | (uint64_t)m.day << 24 | (uint64_t)m.weekday << 32 | (uint64_t)(m.minute / 60) << 40 |
           (uint64_t)(m.minute % 60) << 48 | (uint64_t)(seconds % 60) << 56;
}

/* ---- The image: the rule of each entry. */

/* 1, 2, 3, 4, 5, 6, 10, 12, 15, 20, 30 or 60 minutes: a bit for each. */
static bool period_good(uint32_t p) { return p <= 60 && (UINT64_C(0x100000004010947e) >> p & 1) != 0; }

static bool input_good(const uint8_t *e) {
    uint32_t numerator = u16_at(e + 3), denominator = u16_at(e + 5);
    if (e[0] == 0) return (e[1] | e[2] | numerator | denominator) == 0;
    return e[0] <= 2 && e[1] >= 1 && e[1] <= e[2] && numerator - 1 < 10000 && denominator - 1 < 10000;
}

static bool slot_good(const uint8_t *e, uint32_t fitted) {
    switch (e[0]) {
    case 0: return e[1] < INPUTS && (fitted >> e[1] & 1) != 0;
    case 1: return e[1] < SUMS;
    case 2: return e[1] < FUNCTIONS;
    case NONE: return e[1] == 0;
    default: return false;
    }
}

static bool window_good(const uint8_t *e) {
    uint32_t first = u16_at(e), end = u16_at(e + 2);
    return (first < end && end <= 1440) || (first | end) == 0;
}

/* A day of some year is one of 2000, a leap year. */
static bool season_good(const uint8_t *e) {
    return (e[0] | e[1] | e[2] | e[3]) == 0 || (day_exists(e[0], e[1], 2000) && day_exists(e[2], e[3], 2000));
}

static bool holiday_good(const uint8_t *e) {
    uint32_t year = u16_at(e + 2);
    if (year == 0) return (e[0] | e[1]) == 0 || day_exists(e[0], e[1], 2000);
    return year - 1970 <= 136 && day_exists(e[0], e[1], year);
}

static bool rule_good(const uint8_t *e) { return ((e[0] < SEASONS || e[0] == NONE) && e[1] < WEEKLY) || (e[0] & e[1]) == NONE; }

static bool bill_good(const uint8_t *e) { return (e[0] < SUMS && (e[1] < RULES || e[1] == NONE)) || (e[0] & e[1]) == NONE; }

static uint32_t fitted_inputs(const uint8_t *image) {
    uint32_t fitted = 0;
    for (int i = 0; i < INPUTS; i++) fitted |= (uint32_t)(image[INPUT_AT + 7 * i] != 0) << i;
    return fitted;
}

/* The offset of the first entry that breaks its rule, or 0. Age limits have no rule. */
static uint32_t first_broken(const uint8_t *image) {
    uint32_t fitted = fitted_inputs(image), at;
    if (!period_good(image[PERIOD_AT])) return PERIOD_AT;
    for (at = INPUT_AT; at < SUM_AT; at += 7) if (!input_good(image + at)) return at;
    for (at = SUM_AT; at < COEFFICIENT_AT; at += 2) if ((u16_at(image + at) & ~fitted) != 0) return at;
    for (at = COEFFICIENT_AT; at < SLOT_AT; at++) if (image[at] == 128) return at;
    for (at = SLOT_AT; at < LIMIT_AT; at += 2) if (!slot_good(image + at, fitted)) return at;
    for (at = WINDOW_AT; at < WEEKLY_AT; at += 4) if (!window_good(image + at)) return at;
    for (at = WEEKLY_AT; at < SEASON_AT; at++) if (image[at] >= DAILY && image[at] != NONE) return at;
    for (at = SEASON_AT; at < HOLIDAY_AT; at += 4) if (!season_good(image + at)) return at;
    for (at = HOLIDAY_AT; at < RULE_AT; at += 4) if (!holiday_good(image + at)) return at;
    for (at = RULE_AT; at < BILL_AT; at += 2) if (!rule_good(image + at)) return at;
    for (at = BILL_AT; at < IMAGE_LENGTH; at += 2) if (!bill_good(image + at)) return at;
    return 0;
}

static uint32_t value_refusal(uint32_t at) { return at == 0 ? 0 : VALUE << 16 | at; }

uint32_t peer_image_check(const uint8_t *image, size_t length) {
    if (length != IMAGE_LENGTH) return LENGTH << 16;
    if (image[0] != 'K' || image[1] != 'R' || image[2] != 'C') return MARK << 16;
    if (image[3] != 1 || image[4] != 0) return VERSION << 16 | 3;
    return value_refusal(first_broken(image));
}

/* An accepted image read and written is the same bytes, so they are kept. Those of the blank recorder break the period's rule. */
uint32_t peer_write_image(const struct recorder *r, uint8_t *buffer, size_t room) {
    uint32_t refusal = value_refusal(first_broken(r->config.image));
    if (refusal != 0) return refusal;
    if (room < IMAGE_LENGTH) return NO_ROOM << 16;
    memcpy(buffer, r->config.image, IMAGE_LENGTH);
    return 0;
}

/* ---- The start. */

static void read_inputs(struct config *c) {
    for (int i = 0; i < INPUTS; i++) {
        const uint8_t *e = c->image + INPUT_AT + 7 * i;
        c->fitted |= (uint32_t)(e[0] != 0) << i;
        c->s1r |= (uint32_t)(e[0] == 2) << i;
        c->shortest[i] = e[1];
        c->longest[i] = e[2];
        c->numerator[i] = (uint16_t)u16_at(e + 3);
        c->denominator[i] = (uint16_t)u16_at(e + 5);
        for (int k = 0; k < SUMS; k++) c->names[i][k] = (u16_at(c->image + SUM_AT + 2 * k) >> i & 1) != 0 ? UINT32_MAX : 0;
    }
}

static void read_bills(struct config *c) {
    for (int j = 0; j < BILLS; j++) {
        c->bill_sum[j] = c->image[BILL_AT + 2 * j];
        c->bill_rule[j] = c->image[BILL_AT + 2 * j + 1];
        if (c->bill_rule[j] < RULES) c->used_rules |= 1u << c->bill_rule[j];
        else if (c->bill_sum[j] < SUMS) c->plain_bills |= 1u << j;
    }
}

/* Document 02: "14 PROFILE BUFFER, for a length outside those limits or other than at the start, before anything else". */
static bool within_limits(size_t length) { return length >= RECORD_LENGTH && length <= LONGEST_PROFILE; }

static bool lent_good(const struct recorder *r, struct lent lent) { return within_limits(lent.length) && lent.length == r->profile.length; }

/* An empty slot may be chosen, and one may be chosen twice. */
static uint32_t start_refusal(size_t lent_length, const uint8_t *slots, const uint8_t *image, size_t length) {
    if (!within_limits(lent_length)) return PROFILE_BUFFER << 16;
    for (int i = 0; i < CHOSEN; i++)
        if (slots[i] >= SLOTS) return NOT_FITTED << 16;
    return peer_image_check(image, length);
}

uint32_t peer_start(struct recorder *r, size_t lent_length, const uint8_t slots[CHOSEN], const struct list lists[MAKERS], const uint8_t *image, size_t length, uint32_t time) {
    uint32_t refusal = start_refusal(lent_length, slots, image, length);
    memset(r, 0, sizeof *r);
    if (refusal != 0) return refusal;
    r->profile.length = lent_length;
    r->profile.places = (uint32_t)(lent_length / RECORD_LENGTH);
    memcpy(r->profile.slots, slots, CHOSEN);
    memcpy(r->lists, lists, sizeof r->lists);
    memcpy(r->config.image, image, IMAGE_LENGTH);
    r->config.period = image[PERIOD_AT] * 60u;
    read_inputs(&r->config);
    read_bills(&r->config);
    r->clock = r->first = time;
    return 0;
}

/* ---- The tariff program. */

/* "A daily rule is active in the minutes first to end minus 1 of its windows." */
static bool daily_active(const struct config *c, uint32_t rule, uint32_t minute) {
    const uint8_t *w = c->image + WINDOW_AT + 4 * WINDOWS * rule;
    if (rule >= DAILY) return false;
    for (int k = 0; k < WINDOWS; k++)
        if (u16_at(w + 4 * k) <= minute && minute < u16_at(w + 4 * k + 2)) return true;
    return false;
}

/* The column of the weekly rules: the weekday, or 7 on a holiday. Unused holidays are on day 0. */
static uint32_t column_on(const struct config *c, struct moment m) {
    for (const uint8_t *h = c->image + HOLIDAY_AT; h < c->image + RULE_AT; h += 4)
        if (h[0] == m.day && h[1] == m.month && (u16_at(h + 2) == 0 || u16_at(h + 2) == m.year)) return 7;
    return m.weekday;
}

static uint32_t daily_of(const struct config *c, uint32_t weekly, uint32_t column) { return c->image[WEEKLY_AT + 8 * weekly + column]; }

/* "A season runs from its first to its second date, both included, over New Year if the first is later; unused is never active." */
static bool season_active(const struct config *c, uint32_t season, struct moment m) {
    const uint8_t *s = c->image + SEASON_AT + 4 * season;
    uint32_t first = s[1] << 8 | s[0], second = s[3] << 8 | s[2], date = m.month << 8 | m.day;
    if ((first | second) == 0) return false;
    return first <= second ? first <= date && date <= second : first <= date || date <= second;
}

/* The tariff rules in force, of those that are wanted. */
static uint32_t force_map(const struct config *c, uint32_t clock, uint32_t wanted) {
    struct moment m = moment_of(clock);
    uint32_t column = column_on(c, m), map = 0;
    for (; wanted != 0; wanted &= wanted - 1) {
        uint32_t i = (uint32_t)__builtin_ctz(wanted), season = c->image[RULE_AT + 2 * i], weekly = c->image[RULE_AT + 2 * i + 1];
        if (weekly >= WEEKLY || !daily_active(c, daily_of(c, weekly, column), m.minute)) continue;
        if (season == NONE || season_active(c, season, m)) map |= 1u << i;
    }
    return map;
}

/* ---- Periods. */

static int64_t level1(const struct recorder *r, uint32_t sum) {
    int64_t all = 0;
    for (uint32_t m = u16_at(r->config.image + SUM_AT + 2 * sum); m != 0; m &= m - 1) all += r->units[__builtin_ctz(m)];
    return all;
}

static int64_t level2(const struct recorder *r, const int64_t *sums, uint32_t function) {
    int64_t all = 0;
    for (uint32_t k = 0; k < SUMS; k++) all += (int8_t)r->config.image[COEFFICIENT_AT + SUMS * function + k] * sums[k];
    return all;
}

static int64_t slot_value(const struct recorder *r, const int64_t *sums, uint32_t level, uint32_t index) {
    switch (level) {
    case 0: return r->units[index];
    case 1: return sums[index];
    case 2: return level2(r, sums, index);
    default: return 0;
    }
}

/* Document 02: "Each closed period puts one 69-byte record (stamp 4, state 1, eight values of 8 bytes; an empty slot gives 0) ... When the room is used up, the oldest record's
   room is taken for the newest." The oldest stands where the next one goes, once the places have been gone through. */
static void put_record(struct recorder *r, uint8_t *bytes) {
    struct profile *p = &r->profile;
    uint8_t *record = bytes + RECORD_LENGTH * p->next;
    put(record, r->period_stamp, 4);
    record[4] = r->period_state;
    for (int i = 0; i < CHOSEN; i++) put(record + 5 + 8 * i, (uint64_t)r->values[p->slots[i]], 8);
    p->next = p->next + 1 == p->places ? 0 : p->next + 1;
    if (p->held < p->places) p->held++;
}

/* Each sum is added up once, however many slots and functions name it. The loop over the slots stands here: gcc 12.2 takes it for one without effect in a function of its own. */
static void close_period(struct recorder *r, uint8_t *bytes, uint8_t state) {
    const uint8_t *image = r->config.image;
    int64_t sums[SUMS];
    for (uint32_t k = 0; k < SUMS; k++) sums[k] = level1(r, k);
    for (int i = 0; i < SLOTS; i++) r->values[i] = slot_value(r, sums, image[SLOT_AT + 2 * i], image[SLOT_AT + 2 * i + 1]);
    r->period_state = state;
    r->period_stamp = r->clock;
    memset(r->units, 0, sizeof r->units);
    put_record(r, bytes);
}

static void tick(struct recorder *r, uint8_t *bytes) {
    uint32_t period = r->config.period;
    r->clock++;
    r->samples = 0;
    if (r->clock % 60 == 0) r->on_known = 0;
    if (r->clock % period != 0) return;
    close_period(r, bytes, r->first % period == 0 ? 2 : 1);
    r->first = r->clock;
}

/* ---- Samples. */

/* What the impulses of a sample come to, before any of it is booked. */
struct impulses {
    uint32_t lines, with_units; /* masks */
    uint32_t remainder[INPUTS], units[INPUTS];
};

/* "Shortest to longest inclusive is an accepted impulse." */
static void judge(const struct recorder *r, uint32_t ended, struct impulses *p) {
    const struct config *c = &r->config;
    p->lines = p->with_units = 0;
    for (; ended != 0; ended &= ended - 1) {
        uint32_t i = (uint32_t)__builtin_ctz(ended), run = r->run[i], denominator = c->denominator[i], rest, units = 0;
        if (run < c->shortest[i] || run > c->longest[i]) continue;
        p->lines |= 1u << i;
        rest = r->remainder[i] + c->numerator[i];
        if (rest >= denominator) {
            units = rest / denominator;
            rest -= units * denominator;
            p->with_units |= 1u << i;
        }
        p->remainder[i] = rest;
        p->units[i] = units;
    }
}

/* The bill registers that units go to: those with no rule, and those whose rule is in force. No rule looks at seconds, so they are kept for their minute. It is called
   seldom and stays out of the loop over samples. */
__attribute__((noinline)) static void find_bills_on(struct recorder *r) {
    const struct config *c = &r->config;
    uint32_t map = force_map(c, r->clock, c->used_rules);
    r->on = c->plain_bills;
    for (int j = 0; j < BILLS; j++)
        if (c->bill_rule[j] < RULES) r->on |= (map >> c->bill_rule[j] & 1) << j;
    r->on_known = 1;
}

/* Adds units to the bills, if there is room in all of them. */
static bool book_bills(struct recorder *r, const struct impulses *p) {
    const struct config *c = &r->config;
    uint32_t sums[SUMS] = {0}, m;
    if (!r->on_known) find_bills_on(r);
    for (m = p->with_units; m != 0; m &= m - 1) {
        int i = __builtin_ctz(m);
        for (int k = 0; k < SUMS; k++) sums[k] += p->units[i] & c->names[i][k];
    }
    for (m = r->on; m != 0; m &= m - 1) {
        int j = __builtin_ctz(m);
        if (sums[c->bill_sum[j]] > MOST_OPEN - r->open[j]) return false;
    }
    for (m = r->on; m != 0; m &= m - 1) {
        int j = __builtin_ctz(m);
        r->open[j] += sums[c->bill_sum[j]];
    }
    return true;
}

/* "The first inactive sample after a run of at least 1 ends it." False where a bill register would be too full: then nothing is changed. */
static bool end_runs(struct recorder *r, uint32_t ended) {
    struct impulses p;
    uint32_t m;
    judge(r, ended, &p);
    if (p.with_units != 0 && !book_bills(r, &p)) return false;
    for (m = ended & ~p.lines; m != 0; m &= m - 1) {
        int i = __builtin_ctz(m);
        if (r->rejected[i] < UINT16_MAX) r->rejected[i]++;
        r->run[i] = 0;
    }
    for (m = p.lines; m != 0; m &= m - 1) {
        int i = __builtin_ctz(m);
        r->remainder[i] = p.remainder[i];
        r->units[i] += p.units[i];
        r->run[i] = 0;
    }
    return true;
}

/* A sample with a line that is active, or was. Runs are "counted to 256 and held there". */
static bool book(struct recorder *r, uint32_t active) {
    uint32_t ended = r->running & ~active;
    if (ended != 0 && !end_runs(r, ended)) return false;
    for (uint32_t m = active; m != 0; m &= m - 1) {
        int i = __builtin_ctz(m);
        if (r->run[i] < 256) r->run[i]++;
    }
    r->running = active;
    return true;
}

/* How many samples from the first on have no line active: eight at once as long as that goes, then one by one. */
static size_t idle(const uint16_t *bits, size_t n, uint32_t s1r, uint32_t fitted) {
    size_t k = 0;
    for (; k + 8 <= n; k += 8) {
        uint32_t some = 0;
        for (size_t j = 0; j < 8; j++) some |= (bits[k + j] ^ s1r) & fitted;
        if (some != 0) break;
    }
    while (k < n && ((bits[k] ^ s1r) & fitted) == 0) k++;
    return k;
}

/* With no run to end, idle samples only count, but for the hundredth. The blank recorder, whose period of 0 seconds has no multiple, takes none. */
uint32_t peer_samples(struct recorder *r, struct lent lent, const uint16_t *bits, size_t n, size_t *taken) {
    const uint32_t s1r = r->config.s1r, fitted = r->config.fitted;
    if (!lent_good(r, lent)) {
        *taken = 0;
        return PROFILE_BUFFER;
    }
    for (size_t k = 0; k < n; k++) {
        if (r->running == 0) {
            size_t left = 99 - r->samples, some = idle(bits + k, n - k < left ? n - k : left, s1r, fitted);
            r->samples += (uint32_t)some;
            k += some;
            if (k == n) break;
        }
        *taken = k;
        if (r->samples == 99 && r->clock == UINT32_MAX) return CLOCK_END;
        if (!book(r, (bits[k] ^ s1r) & fitted)) return FULL;
        if (++r->samples == 100) tick(r, lent.bytes);
    }
    *taken = n;
    return 0;
}

/* ---- Readings. */

static uint32_t limit_of(const struct recorder *r, uint32_t meter) { return u16_at(r->config.image + LIMIT_AT + 2 * meter); }

/* Document 02: "A reading whose SEQ equals the stored one shall replace value and STATUS but keep the old stamp ... A first reading always renews." */
uint32_t peer_reading(struct recorder *r, uint32_t meter, int32_t value, uint32_t status, uint32_t seq, bool *renewed) {
    if (meter >= METERS) return NO_METER;
    if (limit_of(r, meter) == 0) return NOT_FITTED;
    if (status > 7 || seq > 31) return READING;
    struct meter *m = &r->meters[meter];
    *renewed = m->read == 0 || m->seq != seq;
    if (*renewed) m->stamp = r->clock;
    m->read = 1;
    m->seq = (uint8_t)seq;
    m->status = (uint8_t)status;
    m->value = value;
    return 0;
}

/* ---- The meters' own readout. */

enum { STX = 2, ETX = 3 };
enum { LONGEST_ADDRESS = 16, LONGEST_VALUE = 32, LONGEST_UNIT = 16, MOST_DECIMALS = 9 };

/* Document 02: "printable ASCII without brackets, slash and exclamation mark, and without a star in value or unit". From the blank to the tilde, sixteen to a row. */
enum { IN_ADDRESS = 1, IN_TEXT = 2 }; /* a text is a value or a unit */
static const uint8_t letters[256] = {
    [0x20] = 3, 0, 3, 3, 3, 3, 3, 3, 0, 0, 1, 3, 3, 3, 3, 0, /* all but ! ( ) /, and the star */
    3, 3, 3, 3, 3, 3, 3, 3, 3, 3, 3, 3, 3, 3, 3, 3,
    3, 3, 3, 3, 3, 3, 3, 3, 3, 3, 3, 3, 3, 3, 3, 3,
    3, 3, 3, 3, 3, 3, 3, 3, 3, 3, 3, 3, 3, 3, 3, 3,
    3, 3, 3, 3, 3, 3, 3, 3, 3, 3, 3, 3, 3, 3, 3, 3,
    3, 3, 3, 3, 3, 3, 3, 3, 3, 3, 3, 3, 3, 3, 3, 0
};

/* Where the letters end that begin here. The line ends with a bracket, which is no letter: so this, and each loop below, ends there at the latest. */
static const uint8_t *letters_end(const uint8_t *p, uint8_t kind) {
    while ((letters[*p] & kind) != 0) p++;
    return p;
}

static bool from_1_to(ptrdiff_t most, const uint8_t *first, const uint8_t *end) { return first != end && end - first <= most; }

/* The number that a value begins with, as far as it goes. Its letters are all letters of a value, so that these need not be gone through twice. */
struct number {
    const uint8_t *end;
    uint64_t size;    /* of the digits that count, if they are not too many */
    uint32_t missing; /* decimals */
    bool minus, good, too_many;
};

static bool is_digit(uint8_t letter) { return (uint32_t)letter - '0' < 10; }

static const uint8_t *zeros_end(const uint8_t *p) {
    while (*p == '0') p++;
    return p;
}

/* Document 02: "A number is an optional minus, digits, and perhaps a point with digits on both sides; missing decimals count as zeros ... 18 NOT A NUMBER (also for a non-zero
   digit past the stated decimals, or decimals above 9)". Eleven digits before the point, without zeros in front, are too many for 32 bits; ten, and nine decimals, fit 64. */
static struct number number_at(const uint8_t *p, uint32_t decimals) {
    struct number n = {.minus = *p == '-', .good = decimals <= MOST_DECIMALS};
    const uint8_t *first = p + n.minus, *whole = zeros_end(first);
    for (p = whole; is_digit(*p); p++) n.size = n.size * 10 + (*p - '0');
    n.good &= p != first;
    n.too_many = p - whole > 10;
    if (*p == '.') {
        first = ++p;
        for (; decimals > 0 && is_digit(*p); p++, decimals--) n.size = n.size * 10 + (*p - '0');
        p = zeros_end(p);
        n.good &= p != first;
    }
    n.missing = decimals;
    n.end = p;
    return n;
}

/* Document 02: "19 DOES NOT FIT 32 BITS". */
static uint32_t whole_number(const struct number *n, int32_t *whole) {
    static const uint32_t powers[MOST_DECIMALS + 1] = {1, 10, 100, 1000, 10000, 100000, 1000000, 10000000, 100000000, 1000000000};
    uint64_t size;
    if (!n->good) return NOT_A_NUMBER;
    size = n->size * powers[n->missing];
    if (n->too_many || size > (uint64_t)INT32_MAX + n->minus) return DOES_NOT_FIT;
    *whole = (int32_t)(n->minus ? -(int64_t)size : (int64_t)size);
    return 0;
}

/* Document 02: "an address, then the value and perhaps a star and a unit in brackets ... Address at most 16 bytes, value 1 to 32, unit 1 to 16". */
uint32_t peer_data_set(struct sent line, uint32_t decimals, struct value *value) {
    const uint8_t *first, *end, *last;
    struct number n;
    int32_t number;
    uint32_t refusal;
    if (line.length == 0 || line.bytes[line.length - 1] != ')') return LINE;
    first = letters_end(line.bytes, IN_ADDRESS);
    if (*first != '(' || first - line.bytes > LONGEST_ADDRESS) return LINE;
    n = number_at(++first, decimals);
    last = end = letters_end(n.end, IN_TEXT);
    if (!from_1_to(LONGEST_VALUE, first, end)) return LINE;
    if (*end == '*') {
        last = letters_end(end + 1, IN_TEXT);
        if (!from_1_to(LONGEST_UNIT, end + 1, last)) return LINE;
    }
    if (last != line.bytes + line.length - 1) return LINE;
    n.good &= end == n.end; /* not so with a digit past the decimals that is not 0 */
    refusal = whole_number(&n, &number);
    if (refusal == 0) *value = (struct value){(uint32_t)(first - line.bytes), (uint32_t)(end - first), number};
    return refusal;
}

/* Document 02: "STX, bytes other than ETX, ETX, and as last byte the exclusive or of everything after STX up to ETX included". */
uint32_t peer_block(struct sent block) {
    uint8_t check = ETX;
    if (block.length < 3 || block.bytes[0] != STX || block.bytes[block.length - 2] != ETX) return BLOCK;
    for (size_t i = 1; i < block.length - 2; i++) {
        if (block.bytes[i] == ETX) return BLOCK;
        check ^= block.bytes[i];
    }
    return check == block.bytes[block.length - 1] ? 0 : BLOCK;
}

/* Document 02: "Refusals, in this order: 16 BLOCK, 17 LINE, 18 NOT A NUMBER ..., 19 DOES NOT FIT 32 BITS, then those of a reading." */
uint32_t peer_readout(struct recorder *r, uint32_t meter, uint32_t status, uint32_t seq, uint32_t decimals, struct sent line, bool *renewed) {
    struct value value;
    uint32_t refusal = peer_data_set(line, decimals, &value);
    return refusal != 0 ? refusal : peer_reading(r, meter, value.number, status, seq, renewed);
}

uint32_t peer_block_readout(struct recorder *r, uint32_t meter, uint32_t status, uint32_t seq, uint32_t decimals, struct sent block, struct sent line, bool *renewed) {
    uint32_t refusal = peer_block(block);
    return refusal != 0 ? refusal : peer_readout(r, meter, status, seq, decimals, line, renewed);
}

/* ---- Clock set and billing reset. */

/* "A clock set closes the period at the old time as short, sets the clock and starts second and period anew." */
uint32_t peer_set_clock(struct recorder *r, struct lent lent, uint32_t time) {
    if (!lent_good(r, lent)) return PROFILE_BUFFER;
    close_period(r, lent.bytes, 1);
    r->clock = r->first = time;
    r->samples = 0;
    r->on_known = 0;
    return 0;
}

/* "A billing reset notes each open bill amount and the clock as closed and sets the open amount to 0." */
void peer_reset(struct recorder *r) {
    for (int j = 0; j < BILLS; j++) {
        if (r->config.bill_sum[j] >= SUMS) continue;
        r->closed[j] = r->open[j];
        r->stamp[j] = r->clock;
        r->reset[j] = 1;
        r->open[j] = 0;
    }
}

/* ---- Registers. */

/* "Stale if the clock is past its stamp by more than its limit"; CR 2: "A stamp ahead of the clock shall be stale"; "else invalid if its IV is set; else awake." */
static enum age age(uint32_t limit, uint32_t read, uint32_t stamp, uint32_t status, uint32_t clock) {
    if (read == 0) return NEVER;
    if (stamp > clock || (uint64_t)stamp + limit < clock) return STALE;
    return (status & 1) != 0 ? INVALID : AWAKE;
}

uint32_t peer_age_class(uint32_t limit, uint32_t read, uint32_t stamp, uint32_t status, uint32_t clock) {
    if (limit == 0) return NOT_FITTED;
    if (status > 7) return READING;
    return age(limit, read, stamp, status, clock);
}

static enum age age_of(const struct recorder *r, uint32_t i) {
    const struct meter *m = &r->meters[i];
    return age(limit_of(r, i), m->read, m->stamp, m->status, r->clock);
}

static void count_meter(const struct recorder *r, uint32_t i, struct fleet *f) {
    if (limit_of(r, i) == 0) return;
    enum age class = age_of(r, i);
    f->fitted++;
    f->count[class]++;
    if (class == AWAKE) f->sum += r->meters[i].value;
}

struct fleet peer_fleet(const struct recorder *r) {
    struct fleet f = {0};
    for (uint32_t i = 0; i < METERS; i++) count_meter(r, i, &f);
    return f;
}

static struct fleet fleet_of_list(const struct recorder *r, uint32_t meters) {
    struct fleet f = {0};
    for (; meters != 0; meters &= meters - 1) count_meter(r, (uint32_t)__builtin_ctz(meters), &f);
    return f;
}

/* "STATUS 1 (IV set unless awake) ...; never: zeros but STATUS 1." */
static void put_serial(const struct recorder *r, uint32_t i, uint8_t *b) {
    const struct meter *m = &r->meters[i];
    enum age class = age_of(r, i);
    if (class == NEVER) {
        memset(b, 0, 10);
        b[8] = 1;
        return;
    }
    put(b, m->stamp, 4);
    put(b + 4, (uint32_t)m->value, 4);
    b[8] = (uint8_t)(m->status | (class != AWAKE));
    b[9] = m->seq;
}

static void put_level9(const struct recorder *r, uint32_t i, uint8_t *b) {
    b[0] = r->period_state;
    put(b + 1, r->period_stamp, 4);
    put(b + 5, (uint64_t)r->values[i], 8);
}

static void put_bill(const struct recorder *r, uint32_t j, uint8_t *b) {
    b[0] = r->reset[j];
    put(b + 1, r->open[j], 4);
    put(b + 5, r->closed[j], 4);
    put(b + 9, r->stamp[j], 4);
}

static void put_fleet(struct fleet f, uint8_t *b) {
    b[0] = f.fitted;
    memcpy(b + 1, f.count, 4);
    put(b + 5, (uint64_t)f.sum, 8);
}

static bool weekly_active(const struct recorder *r, uint32_t rule) {
    const struct config *c = &r->config;
    struct moment m = moment_of(r->clock);
    return daily_active(c, daily_of(c, rule, column_on(c, m)), m.minute);
}

static const struct layout {
    uint8_t group, registers, bytes;
} layouts[] = {{82, 32, 10}, {89, 1, 2}, {90, 32, 1}, {91, 16, 1}, {201, 16, 13}, {202, 16, 13}, {203, 16, 4}, {204, 1, 13}, {206, 1, 5}};

static bool in_use(const struct recorder *r, uint32_t group, uint32_t i) {
    switch (group) {
    case 82: return limit_of(r, i) != 0;
    case 201: return r->config.image[SLOT_AT + 2 * i] != NONE;
    case 202: return r->config.bill_sum[i] != NONE;
    case 203: return (r->config.fitted >> i & 1) != 0;
    default: return true;
    }
}

static void put_register(const struct recorder *r, uint32_t group, uint32_t i, uint8_t *b) {
    switch (group) {
    case 82: put_serial(r, i, b); break;
    case 89: put(b, force_map(&r->config, r->clock, 0xffff), 2); break;
    case 90: b[0] = daily_active(&r->config, i, r->clock / 60 % 1440); break;
    case 91: b[0] = weekly_active(r, i); break;
    case 201: put_level9(r, i, b); break;
    case 202: put_bill(r, i, b); break;
    case 203: put(b, r->rejected[i], 2); put(b + 2, r->remainder[i], 2); break;
    case 204: put_fleet(peer_fleet(r), b); break;
    case 206: put(b, r->clock, 4); b[4] = (uint8_t)r->samples; break;
    }
}

int peer_register(const struct recorder *r, uint32_t group, uint32_t number, uint8_t *buffer, size_t room) {
    for (size_t k = 0; k < sizeof layouts / sizeof layouts[0]; k++) {
        if (layouts[k].group != group) continue;
        if (number >= layouts[k].registers) return -NO_REGISTER;
        if (!in_use(r, group, number)) return -NOT_FITTED;
        if (room < layouts[k].bytes) return -NO_ROOM;
        put_register(r, group, number, buffer);
        return layouts[k].bytes;
    }
    return -NO_GROUP;
}

/* A number past the table is on no list. */
static bool listed(uint32_t list, uint32_t number) { return number < 32 && (list >> number & 1) != 0; }

static bool may_read(const struct list *list, uint32_t group, uint32_t number) {
    switch (group) {
    case 82: return listed(list->meters, number);
    case 201: return listed(list->slots, number);
    case 202: return listed(list->bills, number);
    case 203: return listed(list->inputs, number);
    default: return true;
    }
}

/* Document 02: "A maker's register request for something not on the list gets NO REGISTER; group 204 covers that maker's meters only; groups 89, 90, 91 and 206 are common ...
   20 NO MAKER, for a maker above 2, before 11". */
int peer_maker_register(const struct recorder *r, uint32_t maker, uint32_t group, uint32_t number, uint8_t *buffer, size_t room) {
    if (maker >= MAKERS) return -NO_MAKER;
    if (!may_read(&r->lists[maker], group, number)) return -NO_REGISTER;
    int given = peer_register(r, group, number, buffer, room);
    if (group == 204 && given > 0) put_fleet(fleet_of_list(r, r->lists[maker].meters), buffer);
    return given;
}

/* ---- The hall display. */

/* What is shown, and where the next character goes. */
struct page {
    uint8_t shown[DISPLAY_LENGTH];
    size_t line, column;
};

/* Document 02: "Characters past the sixteenth of a line are dropped, and lines after the second too". */
static void show(struct page *p, uint8_t letter) {
    if (p->line < DISPLAY_LINES && p->column < DISPLAY_WIDTH) p->shown[DISPLAY_WIDTH * p->line + p->column] = letter;
    p->column++;
}

static void break_line(struct page *p) {
    p->line++;
    p->column = 0;
}

/* With as many digits as are asked for: a day, a month, a year or what a clock shows. */
static void show_digits(struct page *p, uint32_t n, uint32_t digits) {
    if (digits > 1) show_digits(p, n / 10, digits - 1);
    show(p, (uint8_t)('0' + n % 10));
}

static void show_three(struct page *p, uint32_t a, uint32_t b, uint32_t c, uint8_t between, uint32_t last_digits) {
    show_digits(p, a, 2);
    show(p, between);
    show_digits(p, b, 2);
    show(p, between);
    show_digits(p, c, last_digits);
}

/* Document 02: "per cent D (03.03.1973), per cent T (09:46:40)", both of the clock. */
static void show_date(struct page *p, uint32_t clock) {
    struct moment m = moment_of(clock);
    show_three(p, m.day, m.month, m.year, '.', 4);
}

static void show_time(struct page *p, uint32_t clock) { show_three(p, clock / 3600 % 24, clock / 60 % 60, clock % 60, ':', 2); }

/* The bytes of each field of a register, in the order of document 01's table; less than 0 where it is signed. */
enum { MOST_FIELDS = 6 };
static const struct fields {
    uint8_t group;
    int8_t bytes[MOST_FIELDS];
} fields[] = {{82, {4, -4, 1, 1}}, {89, {2}}, {90, {1}}, {91, {1}}, {201, {1, 4, -8}}, {202, {1, 4, 4, 4}}, {203, {2, 2}}, {204, {1, 1, 1, 1, 1, -8}}, {206, {4, 1}}};

static const int8_t *fields_of(uint32_t group) {
    const struct fields *f = fields;
    while (f->group != group) f++; /* it is one of the table's: its register was given */
    return f->bytes;
}

/* The number of n bytes. A negative one has ones above its bytes. */
static int64_t number_of(const uint8_t *b, int n, bool is_signed) {
    uint64_t x = is_signed && (b[n - 1] & 128) != 0 ? UINT64_MAX : 0;
    for (int i = n; i > 0; i--) x = x << 8 | b[i - 1];
    return (int64_t)x;
}

/* What a register request gives for group, register and field. False where it gives nothing: no such group, register or field, or a register that is not fitted. */
static bool read_field(const struct recorder *r, uint32_t group, uint32_t number, uint32_t field, int64_t *value) {
    uint8_t b[LONGEST_REGISTER];
    uint32_t at = 0;
    if (peer_register(r, group, number, b, sizeof b) < 0) return false;
    const int8_t *bytes = fields_of(group);
    if (field >= MOST_FIELDS || bytes[field] == 0) return false;
    for (uint32_t i = 0; i < field; i++) at += (uint32_t)(bytes[i] < 0 ? -bytes[i] : bytes[i]);
    *value = number_of(b + at, bytes[field] < 0 ? -bytes[field] : bytes[field], bytes[field] < 0);
    return true;
}

/* What stands between the per cent sign and its F. */
struct form {
    bool zeros, shifted;
    uint32_t width, decimals; /* 0 where there are none */
};

/* A number from its last character to its first: then each digit is a remainder, and what fills it up comes at the end. */
struct backwards {
    uint8_t letters[40]; /* 19 digits, a point, nine decimals and a sign at most, or the width */
    size_t count;
};

static void put_before(struct backwards *b, uint8_t letter) { b->letters[b->count++] = letter; }

/* Document 02: "Width counts sign and point; a digit stands before each point, without u zeros after it; without decimals, or with 0, no point shows; padding stands on the left
   (blanks, or if the zero stands, zeros after the sign), and a longer number is shown whole." */
static void show_number(struct page *p, struct form f, int64_t value) {
    struct backwards b = {.count = 0};
    bool minus = value < 0;
    uint64_t size = minus ? -(uint64_t)value : (uint64_t)value;
    for (uint32_t i = 0; i < f.decimals; i++) {
        put_before(&b, (uint8_t)(f.shifted ? '0' + size % 10 : '0'));
        if (f.shifted) size /= 10;
    }
    if (f.decimals > 0) put_before(&b, '.');
    do {
        put_before(&b, (uint8_t)('0' + size % 10));
        size /= 10;
    } while (size > 0);
    while (f.zeros && b.count + minus < f.width) put_before(&b, '0');
    if (minus) put_before(&b, '-');
    while (b.count < f.width) put_before(&b, ' ');
    while (b.count > 0) show(p, b.letters[--b.count]);
}

/* What is left of a string. */
static bool next_is(struct sent s, uint8_t letter) { return s.length > 0 && s.bytes[0] == letter; }

static void skip(struct sent *s, size_t n) {
    s->bytes += n;
    s->length -= n;
}

static bool take(struct sent *s, uint8_t letter) {
    bool there = next_is(*s, letter);
    if (there) skip(s, 1);
    return there;
}

/* A digit, or 10 where none is next. */
static uint32_t next_digit(struct sent s) { return s.length > 0 && is_digit(s.bytes[0]) ? (uint32_t)(s.bytes[0] - '0') : 10; }

/* 1 to 16 without a zero in front. Where more digits follow, no F does, and it is seen there. */
static uint32_t take_width(struct sent *s) {
    uint32_t width = next_digit(*s), second;
    if (width == 0 || width == 10) return 0;
    skip(s, 1);
    second = next_digit(*s);
    if (width != 1 || second > 6) return width;
    skip(s, 1);
    return 10 + second;
}

/* Document 02: "per cent, optional zero, optional width 1 to 16 without leading zero, optional point with one digit of decimals, optional u, and F". The per cent sign was taken. */
static bool take_form(struct sent *s, struct form *f) {
    f->zeros = take(s, '0');
    f->width = take_width(s);
    f->decimals = 0;
    if (take(s, '.')) {
        f->decimals = next_digit(*s);
        if (f->decimals > 9) return false;
        skip(s, 1);
    }
    f->shifted = take(s, 'u');
    return take(s, 'F');
}

/* "F uses up three argument bytes each (group, register, field from 0)". */
static bool take_field(const struct recorder *r, struct sent *arguments, int64_t *value) {
    if (arguments->length < 3) return false;
    const uint8_t *a = arguments->bytes;
    skip(arguments, 3);
    return read_field(r, a[0], a[1], a[2], value);
}

/* A specification behind its per cent sign: the refusal, or 0. */
static uint32_t show_specification(const struct recorder *r, struct page *p, struct sent *format, struct sent *arguments) {
    struct form form;
    int64_t value;
    if (take(format, 'D')) show_date(p, r->clock);
    else if (take(format, 'T')) show_time(p, r->clock);
    else if (!take_form(format, &form)) return FORMAT;
    else if (!take_field(r, arguments, &value)) return ARGUMENT;
    else show_number(p, form, value);
    return 0;
}

static bool break_next(struct sent s) { return s.length > 1 && s.bytes[0] == '\\' && s.bytes[1] == 'n'; }

/* Document 02: "Refusals: 13 NO ROOM first, for a buffer below 32 bytes; then in string order 21 FORMAT for a bad specification, 22 ARGUMENT when bytes are missing or name no
   readable field." What is dropped is gone through as all else is. */
uint32_t peer_display(const struct recorder *r, struct sent format, struct sent arguments, uint8_t *buffer, size_t room) {
    struct page page = {.line = 0};
    if (room < DISPLAY_LENGTH) return NO_ROOM;
    memset(page.shown, ' ', sizeof page.shown); /* "what isn't written is blank" */
    while (format.length > 0) {
        if (break_next(format)) {
            skip(&format, 2);
            break_line(&page);
        } else if (take(&format, '%')) {
            uint32_t refusal = show_specification(r, &page, &format, &arguments);
            if (refusal != 0) return refusal;
        } else {
            show(&page, format.bytes[0]);
            skip(&format, 1);
        }
    }
    memcpy(buffer, page.shown, sizeof page.shown);
    return 0;
}

/* ---- The load profile. */

/* Document 02: "Reading goes in writing order, oldest first (index 0)." */
int peer_record(const struct recorder *r, struct lent lent, uint32_t index, uint8_t *buffer, size_t room) {
    const struct profile *p = &r->profile;
    size_t place = (p->held < p->places ? 0 : p->next) + (size_t)index;
    if (!lent_good(r, lent)) return -PROFILE_BUFFER;
    if (index >= p->held) return -NO_RECORD;
    if (room < RECORD_LENGTH) return -NO_ROOM;
    if (place >= p->places) place -= p->places;
    memcpy(buffer, lent.bytes + RECORD_LENGTH * place, RECORD_LENGTH);
    return RECORD_LENGTH;
}
