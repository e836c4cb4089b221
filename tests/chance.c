/* See chance.h. */
#include "chance.h"

#include <string.h>

/* Random numbers: xorshift, with a first value in which each bit of the seed counts. */

static uint64_t chance_state;

void seed_with(uint64_t seed) {
  uint64_t z = seed + 0x9e3779b97f4a7c15u;
  z = (z ^ (z >> 30)) * 0xbf58476d1ce4e5b9u;
  z = (z ^ (z >> 27)) * 0x94d049bb133111ebu;
  chance_state = (z ^ (z >> 31)) | 1;
}

uint32_t any32(void) {
  chance_state ^= chance_state >> 12;
  chance_state ^= chance_state << 25;
  chance_state ^= chance_state >> 27;
  return (uint32_t)((chance_state * 0x2545f4914f6cdd1du) >> 32);
}

uint32_t below(uint32_t n) { return any32() % n; }
uint32_t from_to(uint32_t first, uint32_t last) { return first + below(last - first + 1); }
int percent(uint32_t n) { return below(100) < n; }

/* The image. */

unsigned char image[LONGER];

void put1(unsigned at, unsigned n) { image[at] = (unsigned char)n; }
void put2(unsigned at, unsigned n) { put1(at, n & 255); put1(at + 1, n >> 8); }
unsigned get2(unsigned at) { return image[at] + 256u * image[at + 1]; }

unsigned kind_of(unsigned i) { return image[6 + 7 * i]; }
unsigned shortest_of(unsigned i) { return image[7 + 7 * i]; }
unsigned longest_of(unsigned i) { return image[8 + 7 * i]; }
unsigned numerator_of(unsigned i) { return get2(9 + 7 * i); }
unsigned limit_of(unsigned m) { return get2(198 + 2 * m); }
unsigned period_seconds(void) { return image[5] ? 60u * image[5] : 60; }

unsigned fitted_inputs(void) {
  unsigned mask = 0;
  for (unsigned i = 0; i < INPUTS; i++)
    if (kind_of(i)) mask |= 1u << i;
  return mask;
}

unsigned quiet(void) {
  unsigned bits = 0;
  for (unsigned i = 0; i < INPUTS; i++)
    if (kind_of(i) == 2) bits |= 1u << i;
  return bits;
}

unsigned active(unsigned mask) { return quiet() ^ (mask & fitted_inputs()); }

/* A good image. */

void put_input(unsigned i, unsigned kind, unsigned shortest, unsigned longest, unsigned numerator, unsigned denominator) {
  unsigned at = 6 + 7 * i;
  put1(at, kind);
  put1(at + 1, shortest);
  put1(at + 2, longest);
  put2(at + 3, numerator);
  put2(at + 5, denominator);
}

unsigned some_factor(void) {
  switch (below(5)) {
  case 0: return 1;
  case 1: return 10000;
  case 2: return from_to(1, 10);
  case 3: return from_to(1, 300);
  default: return from_to(1, 10000);
  }
}

static void some_input(unsigned i) {
  unsigned shortest, longest;
  if (percent(12)) {
    put_input(i, 0, 0, 0, 0, 0);
    return;
  }
  shortest = percent(80) ? from_to(1, 4) : percent(80) ? from_to(1, 20) : from_to(1, 255);
  longest = percent(30) ? 255 : percent(20) ? shortest : shortest + below(256 - shortest);
  if (percent(50) && shortest < 200) longest = shortest + below(12);
  put_input(i, from_to(1, 2), shortest, longest, some_factor(), percent(60) ? from_to(1, 10) : some_factor());
}

void some_sums(void) {
  for (unsigned i = 0; i < SUMS; i++) {
    unsigned mask = percent(30) ? 65535 : percent(10) ? 0 : below(65536);
    put2(118 + 2 * i, mask & fitted_inputs());
  }
}

static void some_coefficients(void) {
  static const unsigned edges[] = {0, 1, 127, 129, 255};
  for (unsigned i = 0; i < 32; i++) {
    unsigned byte = percent(50) ? PICK(edges) : below(256);
    put1(134 + i, byte == 128 ? 127 : byte);
  }
}

static void some_slot(unsigned i) {
  unsigned input = below(INPUTS), at = 166 + 2 * i, level = below(10);
  put2(at, 255);
  if (level < 3 && kind_of(input)) put2(at, 256 * input);
  else if (level < 6) put2(at, 1 + 256 * below(SUMS));
  else if (level < 9) put2(at, 2 + 256 * below(4));
}

static void some_limits(void) {
  static const unsigned edges[] = {1, 2, 60, 900, 65535, 256, 255};
  unsigned missing = below(40);
  for (unsigned m = 0; m < METERS; m++) put2(198 + 2 * m, percent(missing) ? 0 : percent(50) ? PICK(edges) : from_to(1, 65535));
}

void put_window(unsigned daily, unsigned k, unsigned first, unsigned end) {
  put2(262 + 16 * daily + 4 * k, first);
  put2(264 + 16 * daily + 4 * k, end);
}

static void some_window(unsigned daily, unsigned k) {
  unsigned first = below(1440);
  switch (below(8)) {
  case 0: put_window(daily, k, 0, percent(50) ? 1440 : from_to(1, 1440)); break;
  case 1: put_window(daily, k, first, 1440); break;
  case 2: put_window(daily, k, first, first + 1); break;
  case 3: case 4: put_window(daily, k, first, from_to(first + 1, 1440)); break;
  default: put_window(daily, k, 0, 0);
  }
}

static void some_days(unsigned whole) {
  for (unsigned d = 0; d < 32; d++)
    for (unsigned k = 0; k < 4; k++) some_window(d, k);
  for (unsigned d = 0; d < 32; d++)
    if (percent(whole)) put_window(d, below(4), 0, 1440);
  for (unsigned i = 0; i < 128; i++) put1(774 + i, percent(15) ? 255 : below(32));
}

static unsigned leap(unsigned year) { return year % 4 == 0 && (year % 100 != 0 || year % 400 == 0); }

static unsigned days_in(unsigned month, unsigned year) {
  static const unsigned char days[13] = {0, 31, 28, 31, 30, 31, 30, 31, 31, 30, 31, 30, 31};
  return days[month] + (month == 2 ? leap(year) : 0);
}

/* A day and a month of a year, often an edge: the first and the last of a month, the end of February, New Year. */
static void put_day(unsigned at, unsigned year) {
  unsigned month = percent(30) ? 2 : percent(20) ? 12 : percent(20) ? 1 : from_to(1, 12);
  unsigned day = percent(30) ? days_in(month, year) : percent(20) ? 1 : from_to(1, days_in(month, year));
  put1(at, day);
  put1(at + 1, month);
}

static void some_seasons(void) {
  for (unsigned i = 0; i < SEASONS; i++) {
    unsigned at = 902 + 4 * i;
    memset(image + at, 0, 4);
    if (percent(15)) continue;
    put_day(at, 2000);
    put_day(at + 2, 2000);
    if (percent(15)) memcpy(image + at + 2, image + at, 2);
  }
}

static void some_holidays(void) {
  for (unsigned i = 0; i < HOLIDAYS; i++) {
    unsigned at = 934 + 4 * i, year = percent(40) ? 0 : percent(20) ? 2106 : percent(20) ? 1970 : from_to(1970, 2106);
    memset(image + at, 0, 4);
    if (percent(40)) continue;
    put_day(at, year ? year : 2000);
    put2(at + 2, year);
  }
}

static void some_rules(void) {
  for (unsigned i = 0; i < RULES; i++) put2(1062 + 2 * i, percent(10) ? 65535 : (percent(40) ? 255 : below(SEASONS)) + 256 * below(16));
  for (unsigned i = 0; i < BILLS; i++) put2(1094 + 2 * i, percent(10) ? 65535 : below(SUMS) + 256 * (percent(30) ? 255 : below(RULES)));
}

void some_image(void) {
  static const unsigned minutes[] = {1, 1, 1, 1, 2, 2, 3, 4, 5, 6, 10, 12, 15, 20, 30, 60};
  memcpy(image, "KRC\1\0", 5);
  put1(5, PICK(minutes));
  for (unsigned i = 0; i < INPUTS; i++) some_input(i);
  some_sums();
  some_coefficients();
  for (unsigned i = 0; i < SLOTS; i++) some_slot(i);
  some_limits();
  some_days(percent(50) ? 60 : 10);
  some_seasons();
  some_holidays();
  some_rules();
}

/* Times: the edges of the clock, periods, days, seasons, holidays and windows. */

uint32_t day_time(unsigned day, unsigned month, unsigned year) {
  uint32_t days = day - 1;
  for (unsigned y = 1970; y < year; y++) days += 365 + leap(y);
  for (unsigned m = 1; m < month; m++) days += days_in(m, year);
  return days * DAY;
}

static uint32_t within_day(uint32_t midnight) {
  switch (below(4)) {
  case 0: return midnight;
  case 1: return midnight + DAY - 1;
  case 2: return midnight - 1;
  default: return midnight + below(DAY);
  }
}

static unsigned some_year(void) { return percent(15) ? 2100 : percent(15) ? 2000 : from_to(1970, 2105); }

static uint32_t season_time(void) {
  unsigned at = 902 + 4 * below(SEASONS) + 2 * below(2);
  if (image[at] == 0 || image[at + 1] == 0 || image[at + 1] > 12) return any32();
  return within_day(day_time(image[at], image[at + 1], some_year()) + (percent(20) ? DAY : 0));
}

static uint32_t holiday_time(void) {
  unsigned at = 934 + 4 * below(HOLIDAYS), year = get2(at + 2);
  if (image[at] == 0 || image[at + 1] == 0 || image[at + 1] > 12 || year > 2106) return any32();
  return within_day(day_time(image[at], image[at + 1], year && percent(80) ? year : some_year()));
}

static uint32_t window_time(uint32_t now) {
  unsigned at = 262 + 2 * below(256);
  uint32_t midnight = (percent(50) ? now : any32()) / DAY * DAY;
  return midnight + 60 * (get2(at) % 1441) - below(2);
}

static uint32_t edge_time(void) {
  static const uint32_t edges[] = {0, 1, 59, 60, 61, 3599, 3600, DAY - 1, DAY, 100000000, 951782399, 951782400, 951868799, 951868800, 2147483647, 2147483648u,
    4107542399u, 4107542400u, LAST_SECOND, LAST_SECOND - 1, LAST_SECOND - 2};
  return PICK(edges);
}

uint32_t time_near(uint32_t now) {
  uint32_t period = period_seconds();
  switch (below(13)) {
  case 0: return edge_time();
  case 1: case 2: return now - now % period + period * below(3) - below(4);
  case 3: return now - now % DAY + DAY * below(8) + below(3) - 1;
  case 4: case 5: return season_time();
  case 6: case 7: return holiday_time();
  case 8: return window_time(now);
  case 9: return day_time(1, 1, from_to(1970, 2106)) - below(3);
  case 10: return day_time(from_to(27, 28), 2, percent(30) ? 2100 : from_to(1970, 2105)) + below(3) * DAY + (percent(50) ? DAY - 1 : 0);
  case 11: return percent(50) ? now : now + below(2000) - 1000;
  default: return any32();
  }
}

unsigned some_mask(void) {
  return percent(50) ? 65535 : percent(40) ? 1u << below(INPUTS) : below(65536);
}

/* A run of a length that some input is particular about. */
unsigned edge_run(void) {
  unsigned i = below(INPUTS);
  switch (below(8)) {
  case 0: return shortest_of(i) > 1 ? shortest_of(i) - 1 : 1;
  case 1: case 2: return shortest_of(i) ? shortest_of(i) : 1;
  case 3: return longest_of(i) ? longest_of(i) : 1;
  case 4: return longest_of(i) + 1;
  case 5: return from_to(254, 258);
  case 6: return 256 + shortest_of(i) + below(3);
  default: return from_to(1, 5);
  }
}

int some_value(void) {
  static const int edges[] = {0, 1, -1, 2147483647, -2147483647 - 1, -2147483647, 65535, -65536};
  return percent(40) ? PICK(edges) : (int)(any32() / 2) - (percent(50) ? 2147483647 : 0);
}

unsigned some_status(void) {
  static const unsigned statuses[] = {0, 0, 0, 2, 4, 6, 1, 3, 5, 7};
  static const unsigned far[] = {8, 9, 31, 32, 33, 128, 255};
  return percent(92) ? PICK(statuses) : PICK(far);
}

/* Register requests. */

const unsigned groups[GROUPS] = {82, 89, 90, 91, 201, 202, 203, 204, 206};
const unsigned registers[GROUPS] = {32, 1, 32, 16, 16, 16, 16, 1, 1};
const unsigned lengths[GROUPS] = {10, 2, 1, 1, 13, 13, 4, 13, 5};
const unsigned fields[GROUPS] = {4, 1, 1, 1, 3, 4, 2, 6, 2};

/* Lists: of each kind of things none, all, one, those in use, those that are not, or any. */

static uint32_t fitted_meters(void) {
  uint32_t mask = 0;
  for (unsigned m = 0; m < METERS; m++) mask |= (uint32_t)(limit_of(m) != 0) << m;
  return mask;
}

/* Of sixteen entries of two bytes those that do not begin with 255. */
static uint32_t used_at(unsigned at) {
  uint32_t mask = 0;
  for (unsigned i = 0; i < 16; i++) mask |= (uint32_t)(image[at + 2 * i] != 255) << i;
  return mask;
}

static uint32_t some_of(uint32_t all, uint32_t used) {
  switch (below(8)) {
  case 0: return percent(50) ? 0 : all;
  case 1: return 1u << below(all > 65535 ? 32 : 16);
  case 2: return used;
  case 3: return all & ~used;
  default: return any32() & all;
  }
}

struct list some_list(void) {
  uint32_t meters = some_of(UINT32_MAX, fitted_meters()), inputs = some_of(65535, fitted_inputs()), slots = some_of(65535, used_at(166)), bills = some_of(65535, used_at(1094));
  return (struct list){meters, (uint16_t)inputs, (uint16_t)slots, (uint16_t)bills};
}

uint32_t listed(const struct list *list, unsigned g) {
  switch (g) {
  case SERIAL: return list->meters;
  case LEVEL9: return list->slots;
  case BILL: return list->bills;
  case INPUT_REGISTER: return list->inputs;
  default: return UINT32_MAX >> (32 - registers[g]);
  }
}

uint32_t one_of(uint32_t mask) {
  if (mask == 0) return 0;
  for (;;) {
    uint32_t i = below(32);
    if (mask >> i & 1) return i;
  }
}
