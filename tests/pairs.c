/* Pairs of histories for the program hall, fixed by the seed. They differ in all that one maker must not see, and in nothing that this maker sees.

       pairs SEED COUNT IMAGE FIRST SECOND [CHANGE]

   It writes the image and two texts of about COUNT calls to these files. A text begins with '# maker M'. The image, the time of the start and that maker's list are the same in both, and then, in the same order, the
   clock sets, the billing resets, the readings of meters on the list, and the samples that are taken with their bits of the inputs that feed the maker. At the same places this maker and the operator ask for
   the same registers. All else is drawn for each history by itself: other bits, other meters' readings, what is refused, the other makers' lists and requests, the load profile.

   The peer says of each sample whether a history would take it. One that only one of them would take is given to the other alone, behind a line '# alone': there it is refused, with FULL.

   With CHANGE, 0 to 4, one thing that the maker sees differs at the end: it tests the comparison. */
#include "chance.h"

#include <stdarg.h>
#include <stdio.h>
#include <stdlib.h>
#include <string.h>

enum { MOST_PLANNED = 40000, NO_CHANGE = -1 };

struct history {
  FILE *calls;
  unsigned long lines;
  struct recorder recorder;
  uint8_t store[LONGEST_PROFILE], slots[CHOSEN];
  struct lent lent;
  uint16_t bits[MOST_PLANNED]; /* of the samples that come next */
  unsigned held; /* samples in which no run that the maker does not see ends */
  int struck;    /* by FULL, alone */
};

static struct history both[2];

#define EACH(h) for (struct history *h = both; h < both + 2; h++)

/* The maker, the list, and the inputs that feed this maker's registers. */
static unsigned maker;
static struct list list;
static unsigned feeding;

static void put(struct history *h, const char *format, ...) {
  va_list words;
  va_start(words, format);
  vfprintf(h->calls, format, words);
  va_end(words);
  fputc('\n', h->calls);
  h->lines++;
}

/* What feeds a maker: the inputs on the list, those of its slots and those of its bill registers. */

static unsigned sum_inputs(unsigned sum) { return sum < SUMS ? get2(118 + 2 * sum) : 0; }

static unsigned function_inputs(unsigned function) {
  unsigned mask = 0;
  for (unsigned k = 0; k < SUMS; k++)
    if (image[134 + SUMS * function + k] != 0) mask |= sum_inputs(k);
  return mask;
}

static unsigned slot_inputs(unsigned slot) {
  unsigned level = image[166 + 2 * slot], index = image[167 + 2 * slot];
  switch (level) {
  case 0: return 1u << index;
  case 1: return sum_inputs(index);
  case 2: return function_inputs(index);
  default: return 0;
  }
}

static unsigned bill_inputs(unsigned bill) { return sum_inputs(image[1094 + 2 * bill]); }

static unsigned inputs_that_feed(const struct list *l) {
  unsigned mask = l->inputs;
  for (unsigned i = 0; i < 16; i++) mask |= (l->slots >> i & 1 ? slot_inputs(i) : 0) | (l->bills >> i & 1 ? bill_inputs(i) : 0);
  return mask & fitted_inputs();
}

/* The image and the maker's list. */

/* Sums of the maker's inputs, of the others, or of both; and coefficients that are often 0, so that functions do not name all. */
static void parted_sums(unsigned own) {
  for (unsigned i = 0; i < SUMS; i++) put2(118 + 2 * i, below(65536) & fitted_inputs() & (percent(10) ? 65535 : percent(50) ? own : ~own));
  for (unsigned i = 0; i < 32; i++)
    if (percent(60)) put1(134 + i, 0);
}

/* Most of what the maker's inputs feed alone, and so much of the rest. */
static uint16_t own_part(unsigned own, unsigned (*inputs_of)(unsigned), unsigned rest) {
  unsigned mask = 0;
  for (unsigned i = 0; i < 16; i++)
    if (percent((inputs_of(i) & ~own) == 0 ? 70 : rest)) mask |= 1u << i;
  return (uint16_t)mask;
}

static void parted_list(unsigned own, unsigned rest) {
  list = some_list();
  list.inputs = (uint16_t)((own & below(65536)) | (below(65536) & ~fitted_inputs()));
  list.slots = own_part(own, slot_inputs, rest);
  list.bills = own_part(own, bill_inputs, rest);
}

static void some_pair(void) {
  some_image();
  if (percent(15)) { list = some_list(); return; }
  unsigned own = below(65536);
  parted_sums(own);
  parted_list(own, 2);
}

/* One or two inputs are the maker's; each impulse of the others brings 10,000 units to a bill register of another, which is soon full. */
static void full_pair(void) {
  unsigned own = 1u << below(INPUTS) | 1u << below(INPUTS);
  some_image();
  for (unsigned i = 0; i < INPUTS; i++) put_input(i, from_to(1, 2), 1, percent(50) ? from_to(1, 6) : from_to(1, 255), 10000, 1);
  parted_sums(own);
  put2(118, percent(50) ? 65535 : 65535 & ~own);
  put2(1094 + 2 * below(BILLS), 255 * 256);
  parted_list(own, 0);
}

/* The start. */

static void put_list(struct history *h, unsigned who, struct list l) { put(h, "list %u %u %u %u %u", who, l.meters, l.inputs, l.slots, l.bills); }

static void put_profile(struct history *h, size_t length) {
  const uint8_t *s = h->slots;
  put(h, "profile %zu %u %u %u %u %u %u %u %u", length, s[0], s[1], s[2], s[3], s[4], s[5], s[6], s[7]);
}

static void begin(struct history *h, uint32_t time) {
  struct list lists[MAKERS];
  put(h, "# maker %u", maker);
  h->lent = (struct lent){h->store, percent(20) ? LONGEST_PROFILE : from_to(RECORD_LENGTH, 700)};
  for (int i = 0; i < CHOSEN; i++) h->slots[i] = (uint8_t)below(SLOTS);
  put_profile(h, h->lent.length);
  for (unsigned i = 0; i < MAKERS; i++) {
    lists[i] = i == maker ? list : some_list();
    put_list(h, i, lists[i]);
  }
  put(h, "start %u", time);
  peer_start(&h->recorder, h->lent.length, h->slots, lists, image, IMAGE_LENGTH, time);
}

/* Readings. */

/* A reading, or a data set with the same whole number. */
static void put_reading(struct history *h, unsigned meter, int value, unsigned status, unsigned seq) {
  static const char *const forms[] = {"readout %u %u %u %u 1.8.0(%s%u.%0*u*kWh)", "blockreadout %u %u %u %u 0242300371 16.7(%s%u.%0*u)"};
  unsigned decimals = from_to(1, 4), power = decimals == 1 ? 10 : decimals == 2 ? 100 : decimals == 3 ? 1000 : 10000;
  uint32_t size = value < 0 ? 0u - (uint32_t)value : (uint32_t)value;
  bool renewed;
  if (percent(70)) put(h, "reading %u %d %u %u", meter, value, status, seq);
  else put(h, PICK(forms), meter, status, seq, decimals, value < 0 ? "-" : "", size / power, (int)decimals, size % power);
  peer_reading(&h->recorder, meter, value, status, seq, &renewed);
}

static unsigned last_seq[METERS];

/* The same SEQ again, the next one, or any. */
static unsigned next_seq(unsigned meter) {
  unsigned n = below(100);
  if (n >= 60) last_seq[meter] = below(32);
  else if (n >= 30) last_seq[meter] = (last_seq[meter] + 1) % 32;
  return last_seq[meter];
}

/* Of a meter on the list, taken by both histories, or refused by both where it is not fitted. The second value is another where that is tested. */
static void seen_reading(int differs) {
  unsigned meter = one_of(list.meters), status = below(8), seq = next_seq(meter);
  int value = some_value();
  if (list.meters == 0) return;
  EACH(h) put_reading(h, meter, h == both || !differs ? value : value ^ 1, status, seq);
}

static void unseen_reading(struct history *h) {
  if (list.meters != UINT32_MAX) put_reading(h, one_of(~list.meters), some_value(), some_status(), below(34));
}

/* Refused, whichever meter it is of. */
static void refused_reading(struct history *h) {
  switch (below(4)) {
  case 0: put(h, "reading %u %d %u %u", below(METERS), some_value(), from_to(8, 255), below(32)); break;
  case 1: put(h, "reading %u %d %u %u", below(METERS), some_value(), below(8), from_to(32, 255)); break;
  case 2: put(h, "reading %u %d 0 %u", from_to(METERS, 255), some_value(), below(32)); break;
  default: put(h, "readout %u 0 %u 0 1.8.0(%d.5*kWh)", below(METERS), below(32), some_value()); break;
  }
}

/* Calls that the maker does not see, of one history. */

/* With another length than that at the start, samples and clock sets are refused. */
static void wrong_length(struct history *h) {
  put_profile(h, h->lent.length + (percent(50) ? 1 : RECORD_LENGTH));
  for (unsigned k = from_to(1, 3); k > 0; k--) put(h, percent(50) ? "sample %u 300" : "set %u", below(65536));
  put_profile(h, h->lent.length);
}

static void other_maker(struct history *h) {
  static const unsigned far[] = {3, 3, 4, 255};
  unsigned g = below(GROUPS), who = percent(80) ? (maker + from_to(1, 2)) % MAKERS : PICK(far);
  put(h, "maker %u %u %u", who, groups[g], below(registers[g]));
}

static void unseen_call(struct history *h) {
  switch (below(14)) {
  case 0: case 1: refused_reading(h); break;
  case 2: wrong_length(h); break;
  case 3: put_list(h, below(5), some_list()); break;
  case 4: case 5: other_maker(h); break;
  case 6: put(h, "record %u", below(8)); break;
  case 7: put(h, percent(50) ? "maker" : "image"); break;
  default: unseen_reading(h); break;
  }
}

/* Samples. They are planned for both histories, and then given. */

static size_t planned;

static unsigned unseen_bits(const struct history *h) {
  if (h->held > 0) return active(h->recorder.running) ^ (below(65536) & ~fitted_inputs());
  switch (below(4)) {
  case 0: return quiet();
  case 1: return below(65536);
  default: return active(some_mask());
  }
}

/* Samples in which the lines of a mask are active, of those that feed the maker. In a long plan the other bits change seldom. */
static void plan(unsigned mask, size_t n) {
  unsigned seen = active(mask) & feeding;
  EACH(h)
    for (size_t k = 0; k < n;) {
      uint16_t bits = (uint16_t)(seen | (unseen_bits(h) & ~feeding));
      for (size_t stay = from_to(1, n <= 40 ? 4 : (uint32_t)n); stay > 0 && k < n; stay--) h->bits[planned + k++] = bits;
    }
  planned += n;
}

static size_t would_take(const struct history *h) {
  static uint8_t store[LONGEST_PROFILE];
  static struct recorder copy;
  size_t taken;
  copy = h->recorder;
  peer_samples(&copy, (struct lent){store, h->lent.length}, h->bits, planned, &taken);
  return taken;
}

static void take(struct history *h, size_t n) {
  size_t taken;
  for (size_t k = 0, run; k < n; k += run) {
    for (run = 1; k + run < n && h->bits[k + run] == h->bits[k]; run++);
    put(h, run == 1 ? "sample %u" : "sample %u %zu", h->bits[k], run);
  }
  peer_samples(&h->recorder, h->lent, h->bits, n, &taken);
  h->held -= h->held < n ? h->held : (unsigned)n;
}

/* The first sample that is not taken by both. The runs that it would have ended can only go on until they are too long, or until a reset. */
static void refuse(struct history *h, size_t n, int alone) {
  if (alone) fprintf(h->calls, "# alone\n");
  put(h, "sample %u", h->bits[n]);
  h->struck |= alone;
  h->held = percent(20) ? 0 : from_to(1, 400);
}

static void give(void) {
  size_t first = would_take(&both[0]), second = would_take(&both[1]), n = first < second ? first : second;
  EACH(h) take(h, n);
  if (n < planned && first == n) refuse(&both[0], n, second != n);
  if (n < planned && second == n) refuse(&both[1], n, first != n);
  planned = 0;
}

static void some_run(void) {
  plan(0, from_to(1, 3));
  plan(some_mask(), edge_run());
  plan(percent(80) ? 0 : some_mask(), 1);
  give();
}

/* To the end of the second, of the period, or some time. */
static void time_passes(void) {
  uint32_t now = both->recorder.clock, samples = both->recorder.samples, period = period_seconds();
  switch (below(5)) {
  case 0: plan(0, 100 - samples); break;
  case 1: if (period <= 300) plan(0, 100 * (period - now % period) - samples); break;
  case 2: plan(0, from_to(1, 600)); break;
  default: plan(0, from_to(1, 30)); break;
  }
  give();
}

/* Clock sets and billing resets. */

static void set_clock(struct history *h, uint32_t time) {
  put(h, "set %u", time);
  peer_set_clock(&h->recorder, h->lent, time);
}

static void reset(struct history *h) {
  put(h, "reset");
  peer_reset(&h->recorder);
}

/* Often near the end of a period, so that it closes soon. */
static uint32_t next_time(void) {
  uint32_t now = both->recorder.clock, period = period_seconds();
  return percent(40) ? now - now % period + period - from_to(1, 3) : percent(40) ? now + below(2000) - 1000 : time_near(now);
}

/* Requests at the same places: the maker's, and those of the operator by which it is seen that the histories differ. */

static void ask(unsigned g, uint32_t n) {
  uint32_t room = percent(80) ? LONGEST_REGISTER : below(15);
  EACH(h) put(h, "maker %u %u %u %u", maker, groups[g], n, room);
}

static void ask_some(void) {
  unsigned g = below(GROUPS);
  uint32_t n = percent(60) ? one_of(listed(&list, g)) : below(percent(90) ? registers[g] : 40);
  ask(g, n);
  if (percent(50)) EACH(h) put(h, "register %u %u", groups[g], n);
  if (percent(5)) EACH(h) put(h, "maker %u %u %u", maker, groups[g] + 1, n);
  if (percent(10)) EACH(h) put(h, "fleet");
}

/* Every register of every group, and one more. */
static void ask_all(void) {
  for (unsigned g = 0; g < GROUPS; g++)
    for (uint32_t n = 0; n <= registers[g]; n++)
      EACH(h) {
        put(h, "maker %u %u %u", maker, groups[g], n);
        put(h, "register %u %u", groups[g], n);
      }
}

static void seen_call(unsigned resets) {
  unsigned n = below(100);
  uint32_t time = next_time();
  if (n < 40) some_run();
  else if (n < 60) time_passes();
  else if (n < 85) seen_reading(0);
  else if (n < 93) EACH(h) set_clock(h, time);
  else if (n < 93 + resets) EACH(h) reset(h);
}

static void some_calls(unsigned long count, unsigned resets) {
  for (unsigned long end = both->lines + count; both->lines < end;) {
    seen_call(resets);
    EACH(h)
      for (unsigned k = below(4); k > 0; k--) unseen_call(h);
    for (unsigned k = below(4); k > 0; k--) ask_some();
  }
}

/* Lines that the maker does not see fill a bill register of one history, until that is struck. In the other they rest. */
static void fill(struct history *h) {
  while (!h->struck) {
    plan(0, 2000);
    for (size_t k = 0; k < planned; k++) {
      h->bits[k] = (uint16_t)(k % 2 == 0 ? active(~feeding) : quiet());
      both[h == both].bits[k] = (uint16_t)quiet();
    }
    give();
  }
}

/* One thing that the maker sees, and that is not the same: a reading's value, a clock set, a billing reset, a line that feeds the maker, one sample. */

static void changed_line(void) {
  unsigned i = one_of(feeding);
  plan(0, 1);
  plan(1u << i, shortest_of(i));
  for (size_t k = 1; k < planned; k++) both[1].bits[k] = both[1].bits[0];
  plan(0, 1);
  give();
}

static void change(int kind) {
  uint32_t time = next_time();
  switch (kind) {
  case 0: seen_reading(1); break;
  case 1: EACH(h) set_clock(h, time ^ (uint32_t)(h != both)); break;
  case 2: reset(&both[1]); break;
  case 3: changed_line(); break;
  case 4: plan(0, 1); take(&both[1], 1); planned = 0; break;
  default: break;
  }
}

static void make_pair(uint32_t seed, unsigned long count, int kind) {
  int full = seed % 8 == 3;
  if (full) full_pair();
  else some_pair();
  maker = below(MAKERS);
  feeding = inputs_that_feed(&list);
  uint32_t time = time_near(any32()) / (full ? 2 : 1); /* far from the end of the clock, which would come before the strike */
  EACH(h) begin(h, time);
  if (full) fill(&both[below(2)]);
  some_calls(count / 2, full ? 1 : 7);
  ask_all();
  some_calls(count / 2, 7);
  change(kind);
  ask_all();
}

static FILE *opened(const char *name) {
  FILE *file = fopen(name, "wb");
  if (file == NULL) {
    perror(name);
    exit(2);
  }
  return file;
}

int main(int count, char **arguments) {
  if (count != 6 && count != 7) {
    fprintf(stderr, "usage: pairs SEED COUNT IMAGE FIRST SECOND [CHANGE]\n");
    return 2;
  }
  uint32_t seed = (uint32_t)strtoul(arguments[1], NULL, 10);
  FILE *file = opened(arguments[3]);
  both[0].calls = opened(arguments[4]);
  both[1].calls = opened(arguments[5]);
  seed_with(seed + UINT64_C(0x100000000)); /* not the seeds of calls.c */
  make_pair(seed, strtoul(arguments[2], NULL, 10), count == 7 ? atoi(arguments[6]) : NO_CHANGE);
  return fwrite(image, 1, IMAGE_LENGTH, file) == IMAGE_LENGTH && fclose(file) == 0 && fclose(both[0].calls) == 0 && fclose(both[1].calls) == 0 ? 0 : 2;
}
