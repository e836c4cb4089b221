/* Random images and calls for the program hall, fixed by the seed.

       calls SEED COUNT IMAGE > CALLS

   It writes the image to the file IMAGE and about COUNT calls to standard output. Odd seeds have a damaged image and few calls; even ones a good image. Among
   these, some first fill a bill register, a rejected count, a long period or a long load profile, by calls of their own: a run needs two lines at least, so thousands
   of them. */
#include "chance.h"

#include <stdarg.h>
#include <stdio.h>
#include <stdlib.h>
#include <string.h>

static unsigned image_length = IMAGE_LENGTH;

/* Damage: each kind breaks another rule of the image's table. Damaged images take turns: the first of a kind gets the first value of its list, and so on. */

static unsigned turn;

#define IN_TURN(list) ((list)[turn % (sizeof(list) / sizeof((list)[0]))])

/* The first value past a range, then any up to the last. */
static unsigned past(unsigned edge, unsigned last) { return turn % 2 == 0 ? edge : from_to(edge, last); }

static void damage_head(unsigned kind) {
  static const unsigned lengths[] = {0, 1125, 1127, 5, LONGER, 3, 1, 1128, 2252};
  static const unsigned versions[] = {257, 0, 2, 256, 65535};
  static const unsigned periods[] = {8, 0, 61, 7, 120, 9, 45, 11, 59, 13, 14, 16, 18, 24, 25, 255};
  switch (kind) {
  case 0: image_length = IN_TURN(lengths); break;
  case 1: image_length = below(IMAGE_LENGTH); break;
  case 2: put1(turn % 3, below(256)); break;
  case 3: put2(3, IN_TURN(versions)); break;
  case 4: put1(5, IN_TURN(periods)); break;
  default: put1(5, below(256)); break;
  }
}

static void damage_input(unsigned kind) {
  static const unsigned wrong[] = {10001, 0, 65535, 10002, 32768};
  unsigned at = 6 + 7 * below(INPUTS);
  if (kind > 1 && image[at] == 0) put_input((at - 6) / 7, 1, 3, 8, 1, 10);
  switch (kind) {
  case 0: put1(at, 3 + below(253)); break;
  case 1: memset(image + at, 0, 7); put1(at + 6 - turn % 6, 1 + below(255)); break;
  case 2: put1(at + 1, 0); if (percent(50)) put1(at + 2, 0); break;
  case 3: put1(at + 1, image[at + 2] == 255 ? 255 : image[at + 2] + 1u); put1(at + 2, image[at + 1] - 1u); break;
  case 4: put2(at + 3, IN_TURN(wrong)); break;
  case 5: put2(at + 5, IN_TURN(wrong)); break;
  default: memset(image + at, 0, 7); break;
  }
}

static void damage_sums(unsigned kind) {
  unsigned i = below(INPUTS), at = 166 + 2 * below(SLOTS);
  switch (kind) {
  case 0: memset(image + 6 + 7 * i, 0, 7); put2(118 + 2 * below(SUMS), fitted_inputs() | 1u << i); break;
  case 1: put1(134 + below(32), 128); break;
  case 2: put1(at, past(3, 254)); put1(at + 1, percent(50) ? 0 : below(256)); break;
  case 3: put2(at, 256 * past(16, 255)); break;
  case 4: memset(image + 6 + 7 * i, 0, 7); some_sums(); put2(at, 256 * i); break;
  case 5: put2(at, 1 + 256 * past(8, 255)); break;
  case 6: put2(at, 2 + 256 * past(4, 255)); break;
  default: put2(at, 255 + 256 * from_to(1, 255)); break;
  }
}

static void damage_tariff(unsigned kind) {
  unsigned d = below(32), k = below(4), n = from_to(1, 1440);
  switch (kind) {
  case 0: put_window(d, k, n, n); break;
  case 1: put_window(d, k, n, below(n)); break;
  case 2: put_window(d, k, below(1440), past(1441, 65535)); break;
  case 3: put_window(d, k, n, 0); break;
  case 4: put1(774 + below(128), past(32, 254)); break;
  case 5: put1(1062 + 2 * below(RULES), past(8, 254)); break;
  case 6: put1(1063 + 2 * below(RULES), past(16, 254)); break;
  case 7: put2(1062 + 2 * below(RULES), below(SEASONS) + 256 * 255); break;
  case 8: put1(1094 + 2 * below(BILLS), past(8, 254)); break;
  case 9: put1(1095 + 2 * below(BILLS), past(16, 254)); break;
  default: put2(1094 + 2 * below(BILLS), 255 + 256 * below(RULES)); break;
  }
}

static void damage_date(unsigned kind) {
  static const unsigned char days[][2] = {{0, 1}, {1, 0}, {32, 1}, {31, 4}, {31, 6}, {31, 9}, {31, 11}, {30, 2}, {31, 2}, {1, 13}, {255, 12}, {0, 0}};
  static const unsigned years[] = {2107, 1969, 1, 65535, 2000 + 256 * 64};
  unsigned season = 902 + 4 * below(SEASONS), holiday = 934 + 4 * below(HOLIDAYS);
  const unsigned char *bad = PICK(days);
  if (kind < 2 && image[season] == 0) memcpy(image + season, "\1\1\1\1", 4);
  switch (kind) {
  case 0: memcpy(image + season, bad, 2); break;
  case 1: memcpy(image + season + 2, bad, 2); break;
  case 2: memcpy(image + holiday, bad, 2); put2(holiday + 2, from_to(1970, 2106)); break;
  case 3: memcpy(image + holiday, bad, 2); put2(holiday + 2, 0); break;
  case 4: memcpy(image + holiday, "\35\2", 2); put2(holiday + 2, turn % 3 == 0 ? 2100 : turn % 3 == 1 ? 2000 : from_to(1970, 2106)); break;
  case 5: memcpy(image + holiday, "\1\1", 2); put2(holiday + 2, IN_TURN(years)); break;
  default: memcpy(image + holiday, "\35\2", 2); put2(holiday + 2, 0); break;
  }
}

/* And bytes changed anywhere, or several kinds at once. */
enum { HEAD = 6, INPUT = 7, SUM = 8, TARIFF = 11, DATE = 7, ANYWHERE = 4, DAMAGES = HEAD + INPUT + SUM + TARIFF + DATE + ANYWHERE };

static void damage(unsigned kind) {
  if (kind < HEAD) { damage_head(kind); return; }
  kind -= HEAD;
  if (kind < INPUT) { damage_input(kind); return; }
  kind -= INPUT;
  if (kind < SUM) { damage_sums(kind); return; }
  kind -= SUM;
  if (kind < TARIFF) { damage_tariff(kind); return; }
  kind -= TARIFF;
  if (kind < DATE) { damage_date(kind); return; }
  kind -= DATE;
  if (kind < 2)
    for (unsigned i = kind ? from_to(2, 9) : 1; i > 0; i--) put1(below(IMAGE_LENGTH), below(256));
  else
    for (unsigned i = kind; i > 0; i--) damage(from_to(HEAD, DAMAGES - ANYWHERE - 1));
}

/* Lines. The line end is put before the next line, so that the last may have none. */

static unsigned long calls;

static void put_line(const char *text, size_t length) {
  if (calls++ > 0) putchar('\n');
  fwrite(text, 1, length, stdout);
}

/* One letter changed, taken out, put in or put twice. */
static size_t edited(char *text, size_t length) {
  static const char letters[] = "  -+0123456789.#xS\t\r\0\x80\xff";
  char letter = letters[below(sizeof letters - 1)];
  size_t at = below((uint32_t)length + 1);
  switch (at == length ? 2 : below(4)) {
  case 0: text[at] = letter; return length;
  case 1: memmove(text + at, text + at + 1, length - at - 1); return length - 1;
  case 3: letter = text[at]; break;
  default: break;
  }
  memmove(text + at + 1, text + at, length - at);
  text[at] = letter;
  return length + 1;
}

/* Long bursts stay as they are: one digit more, and they would take too long. */
static void line(const char *format, ...) {
  char text[400];
  va_list list;
  size_t length;
  va_start(list, format);
  length = (size_t)vsnprintf(text, sizeof text - 2, format, list);
  va_end(list);
  if (percent(2) && (text[1] != 'a' || length <= 12)) length = edited(text, length);
  put_line(text, length);
}

/* The clock and the records of the load profile, as far as they can be told without the answers. */
static uint32_t clock_now;
static unsigned samples_now;
static uint32_t places; /* for records, by the length at the start */
static uint64_t closed; /* periods since the start */

static uint32_t held(void) { return closed < places ? (uint32_t)closed : places; }

static void pass(uint32_t n) {
  uint64_t all = samples_now + (uint64_t)n, time = clock_now + all / 100;
  uint32_t before = clock_now / period_seconds();
  clock_now = time > LAST_SECOND ? LAST_SECOND : (uint32_t)time;
  samples_now = all % 100;
  closed += clock_now / period_seconds() - before;
}

static void samples(unsigned bits, uint32_t n) {
  if (n == 1 && percent(70)) line("sample %u", bits);
  else line("sample %u %u", bits, n);
  pass(n);
}

/* A run of one sample, never damaged: the calls that fill something up. */
static void impulse(unsigned mask) {
  char text[40];
  put_line(text, (size_t)sprintf(text, "sample %u", active(mask)));
  put_line(text, (size_t)sprintf(text, "sample %u", quiet()));
  pass(2);
}

static void set_to(uint32_t time) {
  clock_now = time;
  samples_now = 0;
  closed++;
}

static void set(uint32_t time) {
  line("set %u", time);
  set_to(time);
}

/* A start, or a set, that is never damaged, since what follows hangs on it. */
static void surely(const char *command, uint32_t time) {
  char text[40];
  put_line(text, (size_t)sprintf(text, "%s %u", command, time));
  set_to(time);
}

/* What is lent for the load profile, and whether the next start is refused for it or for its slots. */
static uint32_t lent = 65536;
static int spoiled;

/* The makers' lists, for the next start and by the last one. */
static struct list next_lists[MAKERS], lists[MAKERS];

static unsigned some_maker(void) {
  static const unsigned far[] = {3, 3, 4, 5, 6, 127, 128, 254, 255};
  return percent(94) ? below(MAKERS) : PICK(far);
}

static void list_line(unsigned maker) {
  struct list l = some_list();
  line("list %u %u %u %u %u", maker, l.meters, l.inputs, l.slots, l.bills);
  if (maker < MAKERS) next_lists[maker] = l;
}

static void list_lines(void) {
  for (unsigned i = from_to(1, 4); i > 0; i--) list_line(some_maker());
}

static void start(uint32_t time) {
  surely("start", time);
  closed = 0;
  places = spoiled ? 0 : lent / RECORD_LENGTH;
  memcpy(lists, next_lists, sizeof lists);
}

/* The eight chosen slots: any, one of them again and again, or the first eight; wrong ones have one above 15 at least. */
static const char *some_slots(int wrong) {
  static const unsigned far[] = {16, 17, 31, 32, 128, 240, 255};
  static char text[50];
  unsigned kind = below(4), same = below(SLOTS), at = below(CHOSEN);
  char *end = text;
  for (unsigned i = 0; i < CHOSEN; i++) {
    unsigned slot = kind == 0 ? same : kind == 1 ? i : below(SLOTS);
    if (wrong && (i == at || percent(10))) slot = PICK(far);
    end += sprintf(end, " %u", slot);
  }
  return text;
}

static int legal(uint32_t length) { return length >= RECORD_LENGTH && length <= 65536; }

/* Never damaged: else nothing after it would be taken. */
static void lend(uint32_t length, int wrong) {
  char text[80];
  put_line(text, (size_t)sprintf(text, "profile %u%s", length, some_slots(wrong)));
  lent = length;
  spoiled = wrong || !legal(length);
}

/* Most are short, so that they are soon used up. */
static uint32_t good_length(void) {
  static const uint32_t edges[] = {69, 70, 137, 138, 139, 206, 207, 208, 65480, 65481, 65535, 65536};
  switch (below(6)) {
  case 0: return PICK(edges);
  case 1: return RECORD_LENGTH * from_to(2, 10) + below(3) - 1;
  default: return from_to(69, 700);
  }
}

static uint32_t bad_length(void) {
  static const uint32_t edges[] = {0, 0, 0, 1, 68, 68, 65537, 65538, 65536 + 69, 131072, LAST_SECOND - 1, LAST_SECOND};
  return percent(80) ? PICK(edges) : percent(50) ? below(RECORD_LENGTH) : from_to(65537, LAST_SECOND);
}

/* Another length than that at the start, often the next, and sometimes the same. */
static uint32_t other_length(uint32_t than) {
  switch (below(8)) {
  case 0: return than - 1;
  case 1: return than + 1;
  case 2: return percent(50) ? than - RECORD_LENGTH : than + RECORD_LENGTH;
  case 3: return than;
  case 4: case 5: return bad_length();
  default: return good_length();
  }
}

static uint32_t some_time(void) { return time_near(clock_now); }

/* Register requests. */

/* Of the operator or of a maker. */
static void request(const char *who, unsigned g, uint32_t n) {
  static const uint32_t rooms[] = {0, 1, 12, 13, 14, 255, 256, 65536, LAST_SECOND};
  switch (below(10)) {
  case 0: line("%s %u %u %u", who, groups[g], n, lengths[g] - 1); break;
  case 1: line("%s %u %u %u", who, groups[g], n, lengths[g]); break;
  case 2: line("%s %u %u %u", who, groups[g], n, PICK(rooms)); break;
  default: line("%s %u %u", who, groups[g], n); break;
  }
}

static void register_of(unsigned g, uint32_t n) { request("register", g, n); }

static uint32_t far_register(void) {
  static const uint32_t far[] = {1, 2, 15, 16, 17, 31, 32, 33, 255, 256, 257, 65536, 65537, LAST_SECOND};
  return PICK(far);
}

static void wrong_group(const char *who) {
  static const uint32_t wrong[] = {0, 1, 81, 83, 88, 92, 200, 205, 207, 255, 256, 338, 346, 457, 458, 65536 + 82, LAST_SECOND};
  line("%s %u %u", who, percent(70) ? PICK(wrong) : below(300), percent(70) ? below(40) : far_register());
}

static void register_call(void) {
  unsigned g = below(GROUPS);
  if (percent(4)) wrong_group("register");
  else register_of(g, percent(92) ? below(registers[g]) : far_register());
}

/* A maker's fleet directly behind the operator's, so that they can be compared. */
static void fleets(const char *who) {
  line("register 204 0");
  line("%s 204 0", who);
}

/* What is on the list, what is perhaps not, and what is past the table. */
static void maker_call(void) {
  static const unsigned with_list[] = {SERIAL, LEVEL9, BILL, INPUT_REGISTER};
  char who[12];
  unsigned maker = some_maker(), g = percent(60) ? PICK(with_list) : below(GROUPS);
  sprintf(who, "maker %u", maker);
  switch (below(12)) {
  case 0: wrong_group(who); break;
  case 1: request(who, g, far_register()); break;
  case 2: case 3: fleets(who); break;
  case 4: case 5: case 6: request(who, g, below(registers[g])); break;
  default: request(who, g, maker < MAKERS ? one_of(listed(&lists[maker], g)) : 0); break;
  }
}

static void maker_calls(void) {
  for (unsigned k = from_to(1, 3); k > 0; k--) maker_call();
}

/* What stands between per cent and F: each of the 748 forms as often as any other. */
static const char *some_form(void) {
  static char text[30];
  unsigned width = below(17), decimals = below(11);
  char *end = text;
  if (percent(50)) *end++ = '0';
  if (width > 0) end += sprintf(end, "%u", width);
  if (decimals < 10) end += sprintf(end, ".%u", decimals);
  strcpy(end, percent(50) ? "u" : "");
  return text;
}

/* A field on the display and nothing else: in this form, or most often in the one that shows the number alone. */
static void show_form(unsigned g, uint32_t n, unsigned field, const char *form) { line("display 32 %02x%02x%02x %%%sF", groups[g], n & 255, field, form); }

static void show_field(unsigned g, uint32_t n, unsigned field) { show_form(g, n, field, percent(70) ? "" : some_form()); }

/* What a few registers of a group show. */
static void show(unsigned g, unsigned count) {
  while (count-- > 0) {
    uint32_t n = below(registers[g]);
    register_of(g, n);
    if (percent(10)) show_field(g, n, below(fields[g]));
  }
}

static void show_tariffs(void) {
  register_of(TARIFF_MAP, 0);
  show(DAILY_RESULT, below(4));
  show(WEEKLY_RESULT, below(4));
}

/* Records of the load profile. */

static void record_of(uint32_t index) {
  static const uint32_t rooms[] = {0, 1, 68, 68, 69, 70, 255, 65536, LAST_SECOND};
  if (percent(15)) line("record %u %u", index, PICK(rooms));
  else line("record %u", index);
}

/* All of them and the first index past them; of many the oldest and the newest. */
static void read_records(void) {
  uint32_t n = held();
  for (uint32_t i = 0; i <= n; i++)
    if (i < 6 || n - i < 6) record_of(i);
}

static void record_call(void) {
  static const uint32_t far[] = {1, 9, 10, 11, 947, 948, 949, 950, 65535, 65536, 2147483648u, LAST_SECOND};
  switch (below(8)) {
  case 0: record_of(0); break;
  case 1: record_of(held() + below(3) - 1); break;
  case 2: record_of(places + below(3) - 1); break;
  case 3: record_of(PICK(far)); break;
  case 4: record_of(below(held() + 1)); break;
  default: read_records(); break;
  }
}

/* Calls of one kind each. */

static unsigned some_bits(void) {
  switch (below(4)) {
  case 0: return below(65536);
  case 1: return quiet();
  default: return active(some_mask());
  }
}

static void burst_call(void) {
  static const uint32_t counts[] = {0, 1, 2, 99, 100, 101, 255, 256, 257, 511, 512, 513, 1024, 1025};
  uint32_t n;
  switch (below(8)) {
  case 0: n = 100 - samples_now; break;
  case 1: n = PICK(counts); break;
  case 2: n = below(1000); break;
  case 3: n = percent(10) ? below(100000) : below(3000); break;
  default: n = from_to(1, 12); break;
  }
  samples(some_bits(), n);
}

static void run_call(void) {
  unsigned mask = some_mask();
  if (percent(70)) samples(quiet(), from_to(1, 3));
  samples(active(mask), edge_run());
  samples(percent(80) ? quiet() : active(below(65536)), 1);
  show(INPUT_REGISTER, below(3));
  show(BILL, below(2));
}

/* An impulse that ends near the end of a second at an edge of time: in the hundredth sample, before it or after. */
static void edge_call(void) {
  unsigned n = percent(70) ? from_to(1, 4) : from_to(1, 60);
  set(some_time() - (percent(60) ? 1 : 0));
  samples(quiet(), 97 - n + below(4));
  samples(active(some_mask()), n);
  samples(quiet(), 1);
  show(BILL, 2);
  show(LEVEL9, 2);
  if (percent(50)) samples(quiet(), from_to(1, 4));
  show(LEVEL9, 2);
  if (percent(20)) record_of(held() - 1);
  if (percent(30)) register_of(CLOCK, 0);
  if (percent(20)) show_field(CLOCK, 0, 1);
}

/* A period from its first second, or the one after, to its end and further. */
static void period_call(void) {
  uint32_t period = period_seconds();
  if (period > 300 && percent(90)) return;
  if (percent(70)) set(some_time() / period * period + (percent(60) ? 0 : below(3)));
  run_call();
  samples(quiet(), percent(80) ? period * 100 - samples_now - below(8) : period * 100 + below(period * 100));
  run_call();
  samples(quiet(), from_to(1, 120));
  show(LEVEL9, 4);
  if (percent(40)) samples(quiet(), period * 100 * (period > 300 ? 1 : from_to(1, 4)));
  show(LEVEL9, 2);
  read_records();
}

/* The last SEQ that was sent for a meter, whether it was accepted or not. */
static unsigned last_seq[256];

/* The same SEQ again, the next one, or any. */
static unsigned some_seq(unsigned meter) {
  static const unsigned far[] = {32, 33, 34, 64, 128, 255};
  unsigned n = below(100);
  if (n < 6) return PICK(far);
  if (n >= 60) last_seq[meter] = below(32);
  else if (n >= 40) last_seq[meter] = (last_seq[meter] + 1) % 32;
  return last_seq[meter];
}

static unsigned some_meter(void) {
  static const unsigned far[] = {32, 33, 64, 128, 255};
  return percent(95) ? below(METERS) : PICK(far);
}

static void reading_of(unsigned meter) { line("reading %u %d %u %u", meter, some_value(), some_status(), some_seq(meter)); }

static void reading_call(void) {
  unsigned meter = some_meter();
  reading_of(meter);
  if (percent(30)) register_of(SERIAL, meter);
  if (percent(20)) show_field(SERIAL, meter, percent(60) ? 1 : below(4));
}

/* A reading, or the meter's own readout, in a block or without one. The data set is good. */
static void heard_of(unsigned meter) {
  switch (below(8)) {
  case 0: line("readout %u %u %u 3 1.8.0(%06u.%03u*kWh)", meter, some_status(), some_seq(meter), below(1000000), below(1000)); break;
  case 1: line("blockreadout %u %u %u 1 0242300371 16.7(-%u.%u*kW)", meter, some_status(), some_seq(meter), below(1000), below(10)); break;
  default: reading_of(meter); break;
  }
}

/* The clock set, and readings then, that of this meter the last. */
static uint32_t heard_at(unsigned meter) {
  uint32_t time = percent(70) ? clock_now : some_time();
  set(time);
  for (unsigned i = below(percent(20) ? 40 : 4); i > 0; i--) heard_of(below(METERS));
  heard_of(meter);
  return time;
}

static void show_meter(unsigned meter) {
  register_of(SERIAL, meter);
  if (percent(10)) show_field(SERIAL, meter, below(4));
  if (percent(40)) line("fleet");
  else register_of(FLEET, 0);
  if (percent(30)) maker_call();
}

/* A reading, and the clock set to an edge of its age. */
static void age_call(void) {
  unsigned meter = below(METERS);
  set(heard_at(meter) + limit_of(meter) + below(3) - 1);
  if (percent(30)) {
    register_of(SERIAL, meter);
    samples(quiet(), 100);
  }
  show_meter(meter);
}

/* A reading, and the clock set back before its stamp; then a reading at the new time, the clock forth again, or samples to the stamp or nearly. */
static void back_call(void) {
  static const uint32_t far[] = {1, 1, 2, 3600, 3600, DAY};
  unsigned meter = below(METERS);
  uint32_t time = heard_at(meter), back = percent(60) ? PICK(far) : limit_of(meter) + below(3) - 1;
  if (back > time) back = time;
  set(time - back);
  show_meter(meter);
  switch (below(3)) {
  case 0: heard_of(meter); break;
  case 1: set(time + below(3) - 1); break;
  default: if (back > 0) samples(quiet(), (back < 4 ? back : 3) * 100 - below(2)); break;
  }
  show_meter(meter);
}

/* A reading that is accepted, and the same SEQ again when the clock is at an edge of the limit, or was set back; perhaps a refused reading in between, and other SEQs after it. */
static void repeat_call(void) {
  unsigned meter = below(METERS), seq = below(32);
  uint32_t time = clock_now;
  line("reading %u %d 0 %u", meter, some_value(), seq);
  set(percent(70) ? time + limit_of(meter) + below(3) - 1 : time > 60 ? time - below(60) : time);
  if (percent(40)) line("reading %u %d %u %u", meter, some_value(), from_to(8, 255), percent(50) ? seq : below(32));
  line("reading %u %d %u %u", meter, some_value(), below(8), seq);
  show_meter(meter);
  if (percent(30)) samples(quiet(), from_to(90, 110));
  last_seq[meter] = seq;
  heard_of(meter);
  show_meter(meter);
}

/* A meter that counts its SEQ on, comes round after 32, and stays there. */
static void round_call(void) {
  unsigned meter = below(METERS), seq = below(32), last = 32 + below(8);
  for (unsigned i = 0; i <= last; i++) line("reading %u %d %u %u", meter, some_value(), below(8), (seq + i) % 32);
  if (percent(50)) set(clock_now + below(4));
  for (unsigned i = from_to(1, 4); i > 0; i--) line("reading %u %d %u %u", meter, some_value(), below(8), (seq + last) % 32);
  show_meter(meter);
}

/* What meters send: data sets, and the blocks around them. Any byte may stand in a text, but the line's end. */

struct text {
  char bytes[1000];
  size_t length;
};

static void add(struct text *t, unsigned byte) { t->bytes[t->length++] = (char)byte; }

static void add_bytes(struct text *t, const char *bytes, size_t n) {
  memcpy(t->bytes + t->length, bytes, n);
  t->length += n;
}

static void add_all(struct text *t, const char *letters) { add_bytes(t, letters, strlen(letters)); }

static void add_times(struct text *t, unsigned byte, size_t n) {
  while (n-- > 0) add(t, byte);
}

static void put_in(struct text *t, size_t at, unsigned byte) {
  memmove(t->bytes + at + 1, t->bytes + at, t->length - at);
  t->bytes[at] = (char)byte;
  t->length++;
}

static void take_out(struct text *t, size_t at) {
  memmove(t->bytes + at, t->bytes + at + 1, t->length - at - 1);
  t->length--;
}

/* The numbers of data sets. */

static unsigned some_decimals(void) {
  static const unsigned far[] = {10, 10, 11, 18, 19, 20, 32, 64, 128, 255};
  return percent(94) ? below(10) : PICK(far);
}

/* Both ends of 32 bits, the numbers beside them, and what is 0 or little in 32 and in 64 bits. */
static uint64_t some_size(void) {
  static const uint64_t edges[] = {0, 1, 9, 10, 1000000000, 2147483640, 2147483646, 2147483647, 2147483647, 2147483648u, 2147483648u, 2147483649u, 2147483650u, 4294967295u,
    4294967296u, 4294967303u, 6442450944u, 21474836470u, 21474836480u, 9223372036854775808u, 18446744073709551615u};
  switch (below(5)) {
  case 0: case 1: return PICK(edges);
  case 2: return below(1000000);
  case 3: return any32();
  default: return percent(80) ? any32() / 2 : any32() * (uint64_t)any32();
  }
}

/* A number with the point before its decimals: all of them, none of the zeros at the end, zeros more, or digits more of which one is not 0. */
static void add_decimals(struct text *t, uint64_t number, unsigned decimals) {
  char digits[40];
  size_t n = (size_t)sprintf(digits, "%0*llu", (int)decimals + 1, (unsigned long long)number), point = n - decimals;
  unsigned kind = below(8);
  if (kind < 3)
    while (n > point && digits[n - 1] == '0') n--;
  add_bytes(t, digits, point);
  if (n == point && kind < 6) return;
  add(t, '.');
  add_bytes(t, digits + point, n - point);
  if (kind >= 6) add_times(t, '0', n == point ? from_to(1, 4) : below(4));
  if (kind == 7) add(t, from_to('1', '9'));
  if (kind == 7 && percent(50)) add_times(t, '0', from_to(1, 3));
}

/* The greatest whole part that fits with missing decimals, or one beside it. */
static void add_whole(struct text *t, unsigned decimals) {
  char digits[40];
  uint32_t whole = 2147483648u;
  for (unsigned i = 0; i < decimals; i++) whole /= 10;
  add_bytes(t, digits, (size_t)sprintf(digits, "%u", whole + below(3) - (whole > 0)));
  if (percent(20)) add_all(t, ".0");
}

static void add_digits(struct text *t, unsigned n) {
  while (n-- > 0) add(t, percent(30) ? '0' : from_to('0', '9'));
}

/* Long numbers, and those that are little in 32 or 64 bits, or come to be so with nine missing decimals. */
static void add_long(struct text *t, unsigned decimals) {
  static const char *const turned[] = {"4294967296", "4294967303", "18446744073709551616", "18446744073709551623", "18446744071562067968", "36893488147419103239",
    "79228162514264337593543950343", "18446744074", "18446744075", "36893488148"};
  size_t from = t->length;
  switch (below(4)) {
  case 0: add_digits(t, from_to(1, 33)); break;
  case 1: add_digits(t, from_to(1, 33)); add(t, '.'); add_digits(t, from_to(1, 20)); break;
  case 2: add_all(t, PICK(turned)); break;
  default:
    add_all(t, PICK(turned));
    if (decimals > 0 && t->length - from > decimals) put_in(t, t->length - decimals, '.');
    break;
  }
}

/* Texts that are no numbers, some of those that documents 002 and 004 print among them, and numbers with a letter in them. */
static void add_no_number(struct text *t) {
  static const char *const texts[] = {"+5", ".5", "5.", "-", ".", "-.", "-.5", "-5.", "--5", "5-", "5-5", "1.2.3", "1..2", "1.-2", "1,5", "1e3", "0x1", " 5", "5 ", "36F0", "A768",
    "13-11-26", "08:37:15", "-.--", "M25", "B23", "325 1004562", "31-00;1", "132.0.1", "99999999999999999999999999999x", "9999999999999999999999999999999.", " ", "/", ":"};
  static const char letters[] = "+-. ,:;xE";
  size_t from = t->length;
  if (percent(60)) { add_all(t, PICK(texts)); return; }
  add_decimals(t, some_size(), below(5));
  put_in(t, from + below((uint32_t)(t->length - from + 1)), (unsigned char)letters[below(sizeof letters - 1)]);
}

/* Zeros in front, or behind the point, to the longest value or beside it. */
static void fill_up(struct text *t, size_t from) {
  size_t to = from + from_to(31, 34);
  int behind = percent(50) && memchr(t->bytes + from, '.', t->length - from) != NULL;
  while (t->length < to) put_in(t, behind ? t->length : from, '0');
}

static void add_number(struct text *t, unsigned decimals) {
  size_t from = t->length;
  if (decimals > 9) decimals = below(10);
  switch (below(12)) {
  case 0: add_long(t, decimals); break;
  case 1: add_no_number(t); return;
  case 2: add_whole(t, decimals); break;
  case 3: add_decimals(t, some_size(), below(10)); break;
  default: add_decimals(t, some_size(), decimals); break;
  }
  if (percent(8)) put_in(t, from, '0');
  if (percent(6)) fill_up(t, from);
  if (percent(35)) put_in(t, from, '-');
}

/* Data sets. */

static unsigned some_letter(int star) {
  for (;;) {
    unsigned letter = from_to(' ', '~');
    if (strchr("()/!", (int)letter) == NULL && (star || letter != '*')) return letter;
  }
}

static void add_address(struct text *t) {
  static const char *const usual[] = {"1.8.0", "1.8.2*01", "32.7", "F.F", "C.1.0", "1-0:1.8.0", "0.0.128.4.10.255", "1.8.0 ", "", "*"};
  static const unsigned long_ones[] = {15, 16, 16, 16, 16, 17, 17, 18};
  if (percent(70)) { add_all(t, PICK(usual)); return; }
  for (unsigned n = percent(60) ? PICK(long_ones) : below(16); n > 0; n--) add(t, some_letter(1));
}

static void add_unit(struct text *t) {
  static const char *const usual[] = {"kWh", "kvarh", "V", "A", "Hz", "kV2h", " "};
  static const unsigned long_ones[] = {15, 16, 16, 16, 16, 17, 17, 18};
  if (percent(70)) { add_all(t, PICK(usual)); return; }
  for (unsigned n = percent(60) ? PICK(long_ones) : from_to(1, 15); n > 0; n--) add(t, some_letter(0));
}

/* A byte that may not stand there, in place of one of the part that begins at `from`, or between. */
static void spoil(struct text *t, size_t from) {
  static const char bytes[] = "()/!*\x1f\x7f\x80\xff\t\r\0\2\3";
  size_t at = from + below((uint32_t)(t->length - from + 1));
  unsigned byte = (unsigned char)bytes[below(sizeof bytes - 1)];
  if (at < t->length && percent(50)) t->bytes[at] = (char)byte;
  else put_in(t, at, byte);
}

/* Brackets missing or too many, something else in place of the first or behind the last, and what is no data set at all. */
static void break_set(struct text *t, size_t from) {
  static const char *const others[] = {"ERR03", "!", "", "C.1.1()", "P.98()", "()", "(*V)", "(7*)", "(*)", "7", "1.6.0(0.000000*kW)(13-02-24 11:44)", "1.6.0(0.000000*kW) (13-02-24 11:44)"};
  static const char behind[] = " )(*0\r!", instead[] = ")!/*[\177\200";
  char *bracket = memchr(t->bytes + from, '(', t->length - from);
  switch (below(7)) {
  case 0: take_out(t, t->length - 1); break;
  case 1: add(t, (unsigned char)behind[below(sizeof behind - 1)]); break;
  case 2: add_all(t, "(07)"); break;
  case 3: put_in(t, from, percent(50) ? '(' : ')'); break;
  case 4: take_out(t, from + below((uint32_t)(t->length - from))); break;
  case 5: *bracket = instead[below(sizeof instead - 1)]; break;
  default: t->length = from; add_all(t, PICK(others)); break;
  }
}

static void add_set(struct text *t, unsigned decimals) {
  size_t first = t->length, from = first;
  unsigned spoiled_part = percent(10) ? below(3) : 3;
  add_address(t);
  if (spoiled_part == 0) spoil(t, from);
  add(t, '(');
  from = t->length;
  add_number(t, decimals);
  if (spoiled_part == 1) spoil(t, from);
  if (percent(60)) {
    add(t, '*');
    from = t->length;
    add_unit(t);
  }
  if (spoiled_part == 2) spoil(t, from);
  add(t, ')');
  if (percent(6)) break_set(t, first);
}

/* Blocks. */

enum { STX = 2, ETX = 3 };

static unsigned check_byte(const struct text *block) {
  unsigned check = 0;
  for (size_t i = 1; i < block->length; i++) check ^= (unsigned char)block->bytes[i];
  return check;
}

static void add_contents(struct text *t, const struct text *set) {
  static const char *const usual[] = {"ERR03", "(0000)", "B0"};
  unsigned byte;
  switch (below(8)) {
  case 0: break;
  case 1: add_all(t, PICK(usual)); break;
  case 2: byte = below(256); add_times(t, byte == ETX ? 0 : byte, 2); break;
  case 3: for (unsigned n = from_to(1, 40); n > 0; n--) { byte = below(256); add(t, byte == ETX ? STX : byte); } break;
  default: add_bytes(t, set->bytes, set->length); add_all(t, "\r\n!\r\n"); break;
  }
  if (percent(8)) put_in(t, from_to(1, (uint32_t)t->length), ETX);
}

/* One byte changed, taken out or put in anywhere; only the first bytes, or the last; a byte more behind it. */
static void damage_block(struct text *t) {
  size_t at = below((uint32_t)t->length);
  switch (below(8)) {
  case 0: t->bytes[at] = (char)(t->bytes[at] ^ 1 << below(8)); break;
  case 1: t->bytes[at] = (char)(t->bytes[at] ^ from_to(1, 255)); break;
  case 2: take_out(t, at); break;
  case 3: put_in(t, at, percent(50) ? below(256) : from_to(STX, ETX)); break;
  case 4: t->length = at; break;
  case 5: while (at-- > 0) take_out(t, 0); break;
  case 6: at = t->length - from_to(1, 3); t->bytes[at] = (char)(t->bytes[at] ^ from_to(1, 255)); break;
  default: add(t, percent(30) ? ETX : percent(50) ? (unsigned char)t->bytes[t->length - 1] : below(256)); break;
  }
}

/* The block around a data set, or around something else. Another byte than ETX may stand in its place, with its check byte. */
static void make_block(struct text *t, const struct text *set) {
  t->length = 0;
  add(t, STX);
  add_contents(t, set);
  add(t, percent(4) ? below(256) : ETX);
  add(t, check_byte(t));
  if (percent(25)) damage_block(t);
}

/* In small letters, in capitals, or mixed; a few are no pairs of digits. */
static void add_hex(struct text *t, const struct text *block) {
  static const char wrong[] = "gGxX-:@`/.\t";
  size_t from = t->length;
  unsigned kind = below(3);
  if (block->length == 0) add(t, '-');
  for (size_t i = 0; i < 2 * block->length; i++) {
    unsigned digit = (unsigned char)block->bytes[i / 2] >> (i % 2 ? 0 : 4) & 15;
    add(t, (unsigned char)(kind == 0 || (kind == 1 && percent(50)) ? "0123456789abcdef" : "0123456789ABCDEF")[digit]);
  }
  if (percent(95)) return;
  switch (below(4)) {
  case 0: take_out(t, from + below((uint32_t)(t->length - from))); break;
  case 1: t->length = from; break;
  default: t->bytes[from + below((uint32_t)(t->length - from))] = wrong[below(sizeof wrong - 1)]; break;
  }
}

/* The calls. Some are damaged by one letter, as other lines are. */

static void put_text(struct text *t) {
  if (percent(3)) t->length = edited(t->bytes, t->length);
  put_line(t->bytes, t->length);
}

/* The text with a command and its numbers in front of it. */
static void begin_text(struct text *t, const char *format, ...) {
  va_list list;
  va_start(list, format);
  t->length = (size_t)vsnprintf(t->bytes, sizeof t->bytes, format, list);
  va_end(list);
}

static void set_line(void) {
  struct text t;
  unsigned decimals = some_decimals();
  begin_text(&t, "dataset %u ", decimals);
  add_set(&t, decimals);
  put_text(&t);
}

static void block_line(void) {
  struct text t, set = {.length = 0}, block;
  add_set(&set, below(10));
  make_block(&block, &set);
  begin_text(&t, "block ");
  add_hex(&t, &block);
  put_text(&t);
}

/* With a block or without; the data set in the block is the same, or another. */
static void readout_line(unsigned meter, int with_block) {
  struct text t, set = {.length = 0}, other = {.length = 0}, block;
  unsigned decimals = some_decimals(), status = some_status(), seq = some_seq(meter);
  add_set(&set, decimals);
  add_set(&other, decimals);
  begin_text(&t, "%s %u %u %u %u ", with_block ? "blockreadout" : "readout", meter, status, seq, decimals);
  if (with_block) {
    make_block(&block, percent(80) ? &set : &other);
    add_hex(&t, &block);
    add(&t, ' ');
  }
  add_bytes(&t, set.bytes, set.length);
  put_text(&t);
}

static void readout_call(int with_block) {
  unsigned meter = percent(90) ? some_meter() : from_to(METERS, 255);
  readout_line(meter, with_block);
  if (percent(40)) register_of(SERIAL, meter);
  else if (percent(10)) line("fleet");
}

/* The hall display: format strings, and the arguments that their specifications take. */

/* A field, of a register that may not be fitted. A few name no group, no register of it, or no field. */
static void add_argument(struct text *arguments) {
  static const unsigned wrong[] = {0, 1, 81, 83, 88, 92, 200, 205, 207, 255};
  unsigned g = below(GROUPS), group = groups[g], n = below(registers[g]), field = below(fields[g]);
  switch (below(40)) {
  case 0: group = PICK(wrong); break;
  case 1: n = percent(50) ? registers[g] : from_to(registers[g], 255); break;
  case 2: field = percent(50) ? fields[g] : from_to(fields[g], 255); break;
  default: break;
  }
  add(arguments, group);
  add(arguments, n);
  add(arguments, field);
}

static void add_field(struct text *t, struct text *arguments) {
  add(t, '%');
  add_all(t, some_form());
  add(t, 'F');
  add_argument(arguments);
}

/* What is no specification, unless the text behind it makes it one: letters in a wrong order, too many or missing, and those of section 3.8.2 that the hall has not. */
static void add_bad_specification(struct text *t) {
  static const char *const bad[] = {"%", "%%", "%%F", "%d", "%t", "%f", "%R", "%n", "%\\n", "%00F", "%009F", "%017F", "%17F", "%20F", "%99F", "%100F", "%160F", "%.F", "%.uF", "%.12F", "%9.12F", "%..1F",
    "%.1.1F", "%9D", "%9T", "%0D", "%0T", "%uD", "%uT", "%.1D", "%.1T", "%-9F", "%-F", "%+F", "% F", "% 9F", "%09.1aF", "%sF", "%mF", "%eF", "%uuF", "%u9F", "%u0F", "%u.1F", "%0.1u9F", "%uf", "%9uD", "%9",
    "%09", "%9.", "%9.3", "%9.3u", "%u", "%0", "%.", "%.3", "%/F", "%:F", "%1/F", "%1:F", "%./F", "%.:F", "%16", "%1"};
  static const char letters[] = "0123456789.uFDT%-+ \\n";
  size_t from = t->length;
  if (percent(60)) { add_all(t, PICK(bad)); return; }
  add(t, '%');
  add_all(t, some_form());
  add(t, 'F');
  put_in(t, from + from_to(1, (uint32_t)(t->length - from - 1)), (unsigned char)letters[below(sizeof letters - 1)]);
}

static void add_plain(struct text *t, unsigned n) {
  for (; n > 0; n--) {
    unsigned letter = from_to(' ', '~');
    add(t, letter == '%' || letter == '\\' ? '|' : letter);
  }
}

/* Text: words, as much as a line holds or beside it, backslashes that are no break or stand before one, and any bytes. */
static void add_words(struct text *t) {
  static const char *const usual[] = {"R1 ", "Time: ", "Date: ", " kWh", "Pottery", " ", "F", "u", "D", "0", "n", "9.3uF", "-", ".", "|"};
  static const char *const slashes[] = {"\\", "\\\\", "\\\\n", "\\N", "\\t", "\\ n", "\\0", "n\\", "\\\\\\n", "\\\\n\\"};
  switch (below(8)) {
  case 0: add_plain(t, from_to(14, 18)); break;
  case 1: add_all(t, PICK(slashes)); break;
  case 2:
    for (unsigned n = from_to(1, 4); n > 0; n--) {
      unsigned byte = below(256);
      add(t, byte == '\n' || byte == '%' ? 0 : byte);
    }
    break;
  default: add_all(t, PICK(usual)); break;
  }
}

static void add_part(struct text *t, struct text *arguments) {
  switch (percent(3) ? 10 : below(10)) {
  case 0: case 1: add_words(t); break;
  case 2: case 3: add_all(t, "\\n"); break;
  case 4: add_all(t, "%D"); break;
  case 5: add_all(t, "%T"); break;
  case 10: add_bad_specification(t); break;
  default: add_field(t, arguments); break;
  }
}

/* Past the end of a line, or past the second line, and a field there, which takes its arguments; then perhaps something in view again. */
static void add_dropped(struct text *t, struct text *arguments) {
  unsigned kind = below(4);
  switch (kind) {
  case 0: add_plain(t, from_to(15, 18)); break;
  case 1: add_all(t, percent(50) ? "%D%T" : "%T%D"); break;
  case 2: add_field(t, arguments); add_plain(t, 15); break;
  default: add_all(t, percent(50) ? "\\n\\n" : "%T\\nR1\\n"); break;
  }
  add_part(t, arguments);
  add_field(t, arguments);
  if (kind < 3) add_all(t, "\\n");
  add_part(t, arguments);
  add_field(t, arguments);
}

/* A specification that is bad, and a field that cannot be read: whichever comes first decides. */
static void add_both_faults(struct text *t, struct text *arguments) {
  unsigned first = below(2);
  if (percent(30)) add_dropped(t, arguments);
  if (first == 0) add_bad_specification(t);
  add_part(t, arguments);
  add_field(t, arguments);
  arguments->bytes[arguments->length - from_to(1, 3)] = (char)255;
  add_part(t, arguments);
  if (first == 1) add_bad_specification(t);
}

static uint32_t some_room(void) {
  static const uint32_t rooms[] = {0, 1, 13, 16, 30, 31, 31, 31, 31, 31, 33, 33, 255, 65536, LAST_SECOND};
  return percent(85) ? 32 : PICK(rooms);
}

static void add_page(struct text *t, struct text *arguments) {
  switch (below(10)) {
  case 0: case 1: case 2: add_field(t, arguments); break;
  case 3: add_dropped(t, arguments); break;
  case 4: add_both_faults(t, arguments); break;
  default: for (unsigned n = percent(5) ? 0 : from_to(1, 6); n > 0; n--) add_part(t, arguments); break;
  }
}

/* Arguments may be missing, or spare. */
static void display_call(void) {
  struct text t, format = {.length = 0}, arguments = {.length = 0};
  add_page(&format, &arguments);
  if (percent(6)) arguments.length -= arguments.length < 3 ? arguments.length : from_to(1, 3);
  if (percent(8)) for (unsigned n = from_to(1, 4); n > 0; n--) add(&arguments, below(256));
  begin_text(&t, "display %u ", some_room());
  add_hex(&t, &arguments);
  add(&t, ' ');
  add_bytes(&t, format.bytes, format.length);
  put_text(&t);
}

/* A reading of one digit to nine, most often below 0, in several forms: so zeros and blanks stand before it. And the fleet that it counts for. */
static void few_digits(void) {
  unsigned meter = below(METERS), most = 10;
  for (unsigned n = below(9); n > 0; n--) most *= 10;
  line("reading %u %s%u 0 %u", meter, percent(80) ? "-" : "", below(most), percent(20) ? 31 : below(32));
  for (unsigned k = from_to(2, 5); k > 0; k--) show_form(SERIAL, meter, 1, some_form());
  if (percent(20)) show_field(SERIAL, meter, 3);
  if (percent(40)) show_field(FLEET, 0, 5);
}

static void display_calls(void) {
  if (percent(30)) few_digits();
  else for (unsigned k = from_to(1, 5); k > 0; k--) display_call();
}

/* What the display has of the last second: its date and time, the clock, and the stamp of a reading that comes then. */
static void show_end(void) {
  unsigned meter = below(METERS);
  if (percent(50)) line("display 32 - %%D\\n%%T");
  show_field(CLOCK, 0, below(2));
  reading_of(meter);
  show_field(SERIAL, meter, 0);
}

/* The end of the clock. It is surely near: else the greatest COUNT would take minutes. */
static void end_call(void) {
  surely("set", LAST_SECOND - below(3));
  if (percent(50)) samples(some_bits(), below(98));
  samples(some_bits(), percent(30) ? LAST_SECOND : 400);
  samples(some_bits(), 1);
  register_of(CLOCK, 0);
  show_end();
  set(percent(30) ? 0 : some_time());
  show_field(CLOCK, 0, 0);
}

static void set_call(void) {
  set(some_time());
  if (percent(70)) show_tariffs();
  if (percent(30)) show(LEVEL9, 2);
  if (percent(10)) read_records();
}

/* A call that lends the buffer, with a length that is not the one at the start: the recorder stays as it is. */
static void lent_call(void) {
  switch (below(5)) {
  case 0: line("sample %u", some_bits()); break;
  case 1: line("sample %u %u", some_bits(), below(3) * below(700)); break;
  case 2: line("set %u", some_time()); break;
  case 3: record_of(below(held() + 2)); break;
  default: register_of(CLOCK, 0); break;
  }
}

/* Other lengths in the middle of the calls, other slots too, and back again. */
static void lent_calls(void) {
  uint32_t back = lent;
  for (unsigned i = from_to(1, 2); i > 0; i--) {
    line("profile %u%s", other_length(back), some_slots(percent(20)));
    for (unsigned k = below(4); k > 0; k--) lent_call();
  }
  lend(back, percent(20));
  if (percent(50)) read_records();
}

/* A start, most often with a length and slots of its own, and some after one that is refused. */
static void begin(uint32_t time) {
  if (percent(15)) {
    lend(percent(60) ? bad_length() : good_length(), percent(60));
    start(time);
    register_of(CLOCK, 0);
    maker_call();
    display_call();
    for (unsigned k = from_to(1, 4); k > 0; k--) lent_call();
  }
  if (spoiled || percent(80)) lend(good_length(), 0);
  if (percent(85)) list_lines();
  start(time);
}

/* Lines that are wrong, blank, or long, and lines with a carriage return at the end. */

static void wrong_line(void) {
  static const char *const lines[] = {
    " ", "  ", "x", "Reset", "resets", " reset", "start\t0", "reset\r\r", "-", "\r", "fleet\r", "samples 1", "start", "set", "date", "sample", "reading", "register",
    "register 82", "register 82 0 13 1", "sample 1 2 3", "reset 1", "reset ", "image x", "fleet ", "reading 1 2 3", "reading 1 2 3 4 5", "date 1 2", "set  1",
    "set ", "date ", "sample ", "sample 1 ", "sample  1", "set -1", "set +1", "set 4294967296", "set 99999999999999999999999999999", "start -0", "start 4294967296",
    "sample 65536", "sample -1", "sample 1 4294967296", "sample 1 -5", "sample 0x1", "sample 1.0", "reading 256 0 0 0", "reading 0 2147483648 0 0",
    "reading 0 -2147483649 0 0", "reading 0 - 0 0", "reading 0 --1 0 0", "reading 0 +1 0 0", "reading 0 1 256 0", "reading 0 1 0 256", "reading -0 1 0 0",
    "reading 0 1 -0 0", "reading 0 1 0 -0", "reading 0 18446744073709551616 0 0", "register 4294967296 0", "register 82 -0", "register 82 0 -1",
    "register 82 0 4294967296", "register 82 4294967296", "register x 0", "date 1e3", "date 18446744073709551617", "register 82 18446744073709551616",
    "sample 18446744073709551617\r", "reading 256 2147483648 256 256", "start x y\r", "sample 65536 4294967296", "profile", "record", "profile ", "record ", "record  0",
    "profile 138", "profile 138 0 1 2 3 4 5 6", "profile 138 0 1 2 3 4 5 6 7 8", "profile 138 0 1 2 3 4 5 6 ", "profile 138 0 1 2 3 4 5 6 7 ", "profiles 138 0 1 2 3 4 5 6 7",
    "records 0", "record 0 69 0", "record 0 ", "record -1", "record +0", "record x", "record 4294967296", "record 0 4294967296", "record 0 -0", "record x x",
    "record 18446744073709551616", "profile x 0 1 2 3 4 5 6 7", "profile 4294967296 0 1 2 3 4 5 6 7", "profile -1 0 1 2 3 4 5 6 7", "profile 138 256 1 2 3 4 5 6 7",
    "profile 138 0 256 2 3 4 5 6 7", "profile 138 0 1 -2 3 4 5 6 7", "profile 138 0 1 2 x 4 5 6 7", "profile 138 0 1 2 3 256 5 6 7", "profile 138 0 1 2 3 4 +5 6 7",
    "profile 138 0 1 2 3 4 5 4294967296 7", "profile 138 0 1 2 3 4 5 6 256", "profile 138 0 1  3 4 5 6 7", "profile 138 256 256 256 256 256 256 256 256",
    "profile 18446744073709551616 256 1 2 3 4 5 6 7", "profile 138 0 1 2 3 4 256 6 256\r", "dataset", "dataset ", "dataset 2", "dataset  2 (7)", "dataset  (7)", "dataset 256 (7)",
    "dataset -0 (7)", "dataset +1 (7)", "dataset x (7)", "dataset 2.0 (7)", "dataset (7)", "dataset 2\t(7)", "dataset 2 ", "dataset 2 \r", "dataset 2\r", "dataset 2  ", "dataset 2  (7)",
    "dataset 2 (7) ", "dataset 2 (7)\r", "dataset 2 (7)\r\r", "dataset 18446744073709551616 (7)", "datasets 2 (7)", "Dataset 2 (7)", "data set 2 (7)", "dataset 002 (7)", "dataset 10 ",
    "readout", "readout ", "readout 0", "readout 0 0 0", "readout 0 0 0 0", "readout 0 0 0 0 ", "readout 0 0 0 0\r", "readout  0 0 0 0 (7)", "readout 0  0 0 0 (7)", "readout 0 0 0  (7)",
    "readout 256 0 0 0 (7)", "readout 0 256 0 0 (7)", "readout 0 0 256 0 (7)", "readout 0 0 0 256 (7)", "readout -0 0 0 0 (7)", "readout 0 -1 0 0 (7)", "readout 0 0 +0 0 (7)", "readout 0 0 0 x (7)",
    "readout 256 256 256 256 (7)", "readout 0 256 256 256 (7)", "readout 0 0 256 256 (7)", "readout 0 0 0 18446744073709551616 (7)", "readouts 0 0 0 0 (7)", "readout 0 7 0 0 0 (7)",
    "readout 0 0 0 (7)", "readout 0 0 0 0  (7)", "readout 00 0000 000 00 (7)", "readout 0 5 0 0 0",
    "block", "block ", "block  ", "block  020303", "block 020303 ", "block 02 0303", "block 020303 (7)", "block 2", "block 02030", "block 02030g", "block g20303", "block 0x020303", "block --",
    "block -02", "block 02-", "block - ", "block -", "block -\r", "block 020303\r", "block 020303\r\r", "block 02:03:03", "blocks 020303", "block +2", "block /0", "block :0", "block @0", "block G0", "block `0",
    "block 0/", "block 0:", "block 0@", "block 0G", "block 0`", "block 0g", "block 020300", "block 0203", "block 02", "block 03", "block 02030303", "block 02030300", "block 03030303", "block 02020301",
    "blockreadout", "blockreadout ", "blockreadout 0 0 0 0", "blockreadout 0 0 0 0 020303", "blockreadout 0 0 0 0 020303 ", "blockreadout 0 0 0 0 020303\r", "blockreadout 0 0 0 0 (7)",
    "blockreadout 0 0 0 0  (7)", "blockreadout 0 0 0 0 02030 (7)", "blockreadout 0 0 0 0 x (7)", "blockreadout 256 0 0 0 x (7)", "blockreadout 0 256 0 0 x (7)", "blockreadout 0 0 256 0 x (7)",
    "blockreadout 0 0 0 256 x (7)", "blockreadout 0 0 0 256 020303 (7)", "blockreadout 0 0 0 0 - (7)", "blockreadout 0 0 0 0 - ", "blockreadout 0 0 0 0 020303  (7)", "blockreadout 0 0 0 0 020303 (7) ",
    "blockreadouts 0 0 0 0 020303 (7)", "block readout 0 0 0 0 020303 (7)", "blockreadout x x x x x (7)", "blockreadout  0 0 0 020303 (7)", "blockreadout -0 0 0 0 020303 (7)",
    "list", "list ", "list 0", "list 0 0 0 0", "list 0 0 0 0 ", "list 0 0 0 0 0 ", "list 0 0 0 0 0 0", "list  0 0 0 0 0", "list 0  0 0 0", "lists 0 0 0 0 0", "List 0 0 0 0 0", "list 256 0 0 0 0",
    "list -0 0 0 0 0", "list x 0 0 0 0", "list 0 4294967296 0 0 0", "list 0 -1 0 0 0", "list 0 +1 0 0 0", "list 0 0x1 0 0 0", "list 0 0 65536 0 0", "list 0 0 0 65536 0", "list 0 0 0 0 65536",
    "list 0 0 -1 0 0", "list 0 0 0 x 0", "list 0 0 0 0 1.0", "list 256 4294967296 65536 65536 65536", "list 3 4294967296 65536 65536 65536", "list 0 0 65536 65536 65536", "list 0 0 0 65536 65536",
    "list 0 18446744073709551616 0 0 0", "list 0 0 18446744073709551617 0 0", "list 18446744073709551616 0 0 0 0", "list 0 0 4294967296 0 0", "list 1 0 0 0 0\r\r", "list 3 0 0 0 0\r",
    "maker", "maker ", "maker 0", "maker 0 82", "maker 0 82 ", "maker 0 82 0 ", "maker 0 82 0 13 ", "maker 0 82 0 13 1", "maker  0 82 0", "maker 0  82 0", "makers 0 206 0", "Maker 0 206 0", "maker 256 206 0",
    "maker -0 206 0", "maker +1 206 0", "maker x 206 0", "maker 0 4294967296 0", "maker 0 -82 0", "maker 0 82 4294967296", "maker 0 82 -0", "maker 0 82 0 4294967296", "maker 0 82 0 -1", "maker 0 82 0 x",
    "maker 256 4294967296 4294967296 4294967296", "maker 0 x x x", "maker 0 82 x x", "maker 18446744073709551616 206 0", "maker 0 206 18446744073709551616", "maker 0 206 0\r", "maker 3 206 0\r\r",
    "maker 3 x 0", "maker 255 205 0 0\r",
    "display", "display ", "display 32", "display 32 ", "display 32 -", "display 32 -\r", "display 32 - ", "display 32 - \r", "display 32 -  ", "display 32 - %D", "display 32 - %D\r", "display 32 - %D\r\r",
    "display 32 -  %D", "display 32 - %D  ", "display 32  %D", "display  32 - %D", "display 32  - %D", "displays 32 - %D", "Display 32 - %D", "display\t32 - %D", "display - 32 %D", "display x - %D", "display -1 - %D",
    "display +32 - %D", "display 32.0 - %D", "display 4294967296 - %D", "display 4294967295 - %D", "display 18446744073709551648 - %D", "display 0000000000000000000000000032 - %D", "display 031 - %D",
    "display 32 5 %F", "display 32 5g %F", "display 32 g5 %F", "display 32 ce000 %F", "display 32 -- %D", "display 32 -ce %D", "display 32 x x", "display x x x", "display 4294967296 x %D", "display 31 x %D",
    "display 31 - %", "display 31 - %F", "display 32 ce 0000 %F", "display 32 CE0000 %F", "display 32 cE0000Ce0001 %F\\n%F", "display 32 ce0000 %F %D %T", "display 32 - %F", "display 32 ce %F", "display 32 ce00 %F",
    "display 32 ce000000 %F", "display 32 ce0000 ", "display 32 - \\n\\n%D", "display 32 - \\", "display 32 - %", "display 32 - %\r"};
  const char *text = PICK(lines);
  put_line(text, strlen(text));
}

/* A line filled up by zeros before its number, or by more of a comment, to about 255 bytes, and far longer ones. Some end with a carriage return. */
static void long_line(void) {
  static const char *const fronts[] = {"date ", "set ", "#", "register 89 ", "reading 0 -", "sample 0 ", "x", "start ", "record ", "record 0 ", "profile ", "dataset 0 ", "dataset 0 (",
    "dataset ", "readout 0 0 0 0 ", "readout ", "block ", "block 02", "blockreadout 0 0 0 0 ", "blockreadout 0 0 0 0 020303 ",
    "list ", "list 0 ", "list 1 7 0 0 ", "maker ", "maker 0 ", "maker 1 206 ", "maker 2 89 0 ",
    "display ", "display 32 ", "display 32 - ", "display 32 ce0000 %F", "display 32 - %D%T\\n", "display 32 - %"};
  static char text[80000];
  size_t length = percent(90) ? from_to(253, 258) : percent(80) ? from_to(259, 600) : from_to(60000, 79999);
  const char *front = PICK(fronts);
  memset(text, '0', length);
  memcpy(text, front, strlen(front));
  unsigned last = below(10);
  text[length - 1] = (char)(last < 8 ? '0' + last : '\r');
  put_line(text, length);
}

static void byte_line(void) {
  char text[40];
  size_t length = below(sizeof text);
  for (size_t i = 0; i < length; i++) {
    text[i] = (char)below(256);
    if (text[i] == '\n') text[i] = 0;
  }
  put_line(text, length);
}

/* Zeros in front of its numbers. It may come to be damaged, so the length is lent again. */
static void padded_profile(void) {
  line("profile 0000%u 00 01 002 3 4 5 6 0000000000000000000007", lent);
  lend(lent, 0);
}

static void odd_line(void) {
  switch (below(16)) {
  case 0: put_line("", 0); break;
  case 1: put_line("# a comment", percent(50) ? 11 : 1); break;
  case 2: long_line(); break;
  case 3: byte_line(); break;
  case 4: line("reading %u -0 000 %03u", below(METERS), below(32)); break;
  case 5: line("%s 00000000000000000000%u 0", percent(50) ? "register" : "maker 01", groups[below(GROUPS)]); break;
  case 6: if (percent(30)) padded_profile(); else line("record 00000%u 00%u", below(held() + 1), from_to(68, 70)); break;
  default: wrong_line(); break;
  }
}

static void some_call(void) {
  unsigned n = below(1343);
  if (n < 200) samples(some_bits(), 1);
  else if (n < 320) burst_call();
  else if (n < 400) run_call();
  else if (n < 440) edge_call();
  else if (n < 450) period_call();
  else if (n < 500) set_call();
  else if (n < 600) reading_call();
  else if (n < 630) age_call();
  else if (n < 650) back_call();
  else if (n < 655) end_call();
  else if (n < 675) { line("reset"); show(BILL, below(4)); }
  else if (n < 850) register_call();
  else if (n < 875) record_call();
  else if (n < 885) lent_calls();
  else if (n < 893) line("image");
  else if (n < 930) line("date %u", percent(70) ? some_time() : any32());
  else if (n < 950) line("fleet");
  else if (n < 998) odd_line();
  else if (n < 1000) begin(some_time());
  else if (n < 1060) set_line();
  else if (n < 1090) readout_call(0);
  else if (n < 1110) block_line();
  else if (n < 1140) readout_call(1);
  else if (n < 1170) repeat_call();
  else if (n < 1173) round_call();
  else if (n < 1268) maker_calls();
  else if (n < 1273) list_lines();
  else display_calls();
}

static void some_calls(unsigned long until) {
  while (calls < until) some_call();
}

/* A bill register to 999,999,999 or just below: inputs of 10,000 units and some of few, all on one sum. */

static unsigned full_sum;
static int full_by_rule; /* the full sum's registers have a rule, in force before noon */

static void full_inputs(void) {
  static const unsigned few[] = {1, 30, 900};
  unsigned first = below(INPUTS - 2);
  for (unsigned i = 0; i < INPUTS; i++) {
    unsigned numerator = i - first < 3 ? few[i - first] : percent(70) ? 10000 : from_to(9000, 10000);
    put_input(i, from_to(1, 2), 1, percent(50) ? from_to(1, 6) : from_to(1, 255), numerator, 1);
  }
}

static void full_image(void) {
  some_image();
  full_inputs();
  full_sum = below(SUMS);
  full_by_rule = percent(50);
  some_sums();
  if (full_by_rule)
    for (unsigned i = 0; i < SUMS; i++) put2(118 + 2 * i, below(65536) & below(65536)); /* far from full */
  put2(118 + 2 * full_sum, 65535);
  for (unsigned k = 0; k < 4; k++) put_window(0, k, 0, k ? 0 : 720);
  memset(image + 774, 0, 8);
  put2(1062, 255);
  for (unsigned b = 0; b < BILLS; b++)
    if (image[1094 + 2 * b] == full_sum || b % 5 == 4) put2(1094 + 2 * b, full_sum + 256 * (full_by_rule ? 0 : 255));
  if (!full_by_rule) put2(1094 + 2 * below(BILLS), full_sum);
}

/* The inputs for the next impulse, so that the units are at most what is left, the large ones first. */
static unsigned fitting(uint32_t left, uint32_t *units) {
  unsigned mask = 0;
  *units = 0;
  for (unsigned least = 5000; ; least = 0) {
    for (unsigned i = 0; i < INPUTS; i++)
      if (!(mask >> i & 1) && numerator_of(i) >= least && *units + numerator_of(i) <= left) {
        mask |= 1u << i;
        *units += numerator_of(i);
      }
    if (least == 0) return mask;
  }
}

static void fill(uint32_t most) {
  uint32_t open = 0, units;
  unsigned mask;
  while ((mask = fitting(most - open, &units)) != 0) {
    impulse(mask);
    open += units;
  }
}

/* Ends the runs by making them too long, which brings no units: nothing waits that would be refused again. */
static void end_runs(void) {
  samples(active(65535), 300);
  samples(quiet(), 1);
}

/* CLOCK END and FULL are both due at the last sample. The last second is before noon. */
static void end_and_full(void) {
  end_runs();
  surely("set", LAST_SECOND);
  samples(quiet(), 98);
  samples(active(65535), 1);
  samples(quiet(), 1);
  register_of(CLOCK, 0);
  if (percent(80)) set(below(DAY));
}

/* One unit after another. */
static void few_units(void) {
  for (unsigned i = 0; i < INPUTS; i++)
    if (numerator_of(i) == 1)
      for (unsigned k = below(4); k > 0; k--) impulse(1u << i);
}

static void top_call(void) {
  switch (below(11)) {
  case 0: samples(some_bits(), 1); break;
  case 1: samples(quiet(), percent(50) ? 1 : below(700)); break;
  case 2: samples(active(1u << below(INPUTS)), 1); samples(quiet(), 1); break;
  case 3: samples(active(some_mask()), from_to(1, 3)); samples(quiet(), from_to(1, 3)); break;
  case 4: show(BILL, 2); break;
  case 5: show(INPUT_REGISTER, 3); break;
  case 6: run_call(); break;
  case 7: set(percent(70) ? clock_now / DAY * DAY + (percent(50) ? 43199 : percent(50) ? 43200 : 100) : some_time()); break;
  case 8: end_runs(); break;
  case 9: end_runs(); few_units(); break;
  default: end_and_full(); break;
  }
}

static void full_calls(unsigned long until) {
  static const uint32_t below_top[] = {0, 0, 1, 40, 15000, 15000};
  unsigned long third = until / 3;
  begin(day_time(1, 1, from_to(1970, 2100)));
  fill(MOST_OPEN - PICK(below_top));
  few_units();
  show(BILL, 6);
  for (unsigned b = 0; b < BILLS; b++) show_field(BILL, b, 1);
  for (unsigned long end = calls + third; calls < end;) top_call();
  line("reset");
  show(BILL, 6);
  for (unsigned b = 0; b < BILLS; b++) show_field(BILL, b, 2);
  for (unsigned long end = calls + third / 2; calls < end;) top_call();
  some_calls(calls + third);
}

/* Rejected counts to 65,535 and past it: runs of one sample, which are too short. */

static void held_image(void) {
  some_image();
  for (unsigned i = 0; i < INPUTS; i++) put_input(i, from_to(1, 2), from_to(2, 4), from_to(4, 255), some_factor(), some_factor());
}

static void held_calls(unsigned long until) {
  begin(any32() / 2);
  for (unsigned i = 0; i < 65540; i++) {
    impulse(65535);
    if (i < 65533) continue;
    register_of(INPUT_REGISTER, below(INPUTS));
    show_form(INPUT_REGISTER, below(INPUTS), 0, "");
  }
  some_calls(calls + until);
}

/* A period of an hour with more units on a sum than 32 bits hold, and no bill register that could be full. */

static void long_image(void) {
  some_image();
  put1(5, 60);
  for (unsigned i = 0; i < INPUTS; i++) put_input(i, from_to(1, 2), 1, 255, 10000, 1);
  put2(118 + 2 * below(SUMS), 65535);
  for (unsigned i = 0; i < SUMS; i++) put2(166 + 2 * i, 1 + 256 * i);
  memset(image + 1094, 255, 2 * BILLS);
}

static void long_calls(unsigned long until) {
  begin(any32() / 2 / 3600 * 3600);
  for (unsigned i = 0; i < 27500; i++) impulse(65535);
  samples(quiet(), 360000 - 55000);
  for (unsigned i = 0; i < SLOTS; i++) register_of(LEVEL9, i);
  read_records();
  some_calls(calls + until);
}

/* A long load profile, used up and gone on with: each clock set closes a period. */

static void room_calls(unsigned long until) {
  static const uint32_t lengths[] = {65536, 65481, 65480, 65535};
  lend(PICK(lengths), 0);
  list_lines();
  start(any32() / 2);
  for (unsigned i = 0; i < 1000; i++) {
    if (percent(20)) impulse(some_mask());
    surely("set", percent(80) ? clock_now + below(1000) : any32());
    if (i >= 940 && percent(40)) record_call();
  }
  some_calls(calls + until);
}

/* What a seed makes. */

static void general_calls(unsigned long until) {
  some_calls(below(6));
  begin(some_time());
  some_calls(until);
}

/* What is wrong with the length or a slot is told before what is wrong with the image. */
static void damaged_calls(unsigned long until) {
  some_calls(below(4));
  if (percent(40)) lend(percent(50) ? bad_length() : good_length(), percent(50));
  if (percent(50)) list_lines();
  start(some_time());
  line("image");
  register_of(LEVEL9, below(SLOTS));
  maker_call();
  display_call();
  some_calls(until < 40 ? until : 40);
  begin(some_time());
  show(BILL, 2);
}

static void even_seed(uint32_t s, unsigned long count) {
  if (s % 200 == 3) { held_image(); held_calls(count); }
  else if (s % 200 == 103) { long_image(); long_calls(count); }
  else if (s % 20 == 9) { full_image(); full_calls(count); }
  else if (s % 50 == 13) { some_image(); room_calls(count); }
  else { some_image(); general_calls(count); }
}

int main(int count, char **arguments) {
  FILE *file;
  uint32_t seed;
  if (count != 4) {
    fprintf(stderr, "usage: calls SEED COUNT IMAGE\n");
    return 2;
  }
  seed = (uint32_t)strtoul(arguments[1], NULL, 10);
  seed_with(seed);
  if (seed % 2 == 0) even_seed(seed / 2, strtoul(arguments[2], NULL, 10));
  else { some_image(); turn = seed / 2 / DAMAGES; damage(seed / 2 % DAMAGES); damaged_calls(strtoul(arguments[2], NULL, 10)); }
  if (percent(70)) putchar('\n');
  file = fopen(arguments[3], "wb");
  return file && fwrite(image, 1, image_length, file) == image_length && fclose(file) == 0 ? 0 : 2;
}
