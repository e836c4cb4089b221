/* What calls.c and pairs.c draw from chance: numbers, good images, times, lists, readings. A seed always gives the same. The sizes of the tables are those of the peer. */
#ifndef CHANCE_H
#define CHANCE_H

#include "peer/recorder.h"

enum { LONGER = 3000, GROUPS = 9 }; /* the longest image, which is far too long, and the groups of registers */

#define LAST_SECOND 4294967295u
#define MOST_OPEN 999999999u
#define DAY 86400u

void seed_with(uint64_t seed);
uint32_t any32(void);
uint32_t below(uint32_t n);
uint32_t from_to(uint32_t first, uint32_t last);
int percent(uint32_t n);

#define PICK(list) ((list)[below(sizeof(list) / sizeof((list)[0]))])

/* The image, and what the calls have to know of it. */
extern unsigned char image[LONGER];

void put1(unsigned at, unsigned n);
void put2(unsigned at, unsigned n);
unsigned get2(unsigned at);
unsigned kind_of(unsigned i);
unsigned shortest_of(unsigned i);
unsigned longest_of(unsigned i);
unsigned numerator_of(unsigned i);
unsigned limit_of(unsigned m);
unsigned period_seconds(void);
unsigned fitted_inputs(void);

/* Line bits in which no line is active, and in which those of a mask are. */
unsigned quiet(void);
unsigned active(unsigned mask);

void put_input(unsigned i, unsigned kind, unsigned shortest, unsigned longest, unsigned numerator, unsigned denominator);
void put_window(unsigned daily, unsigned k, unsigned first, unsigned end);
unsigned some_factor(void);
void some_sums(void);
void some_image(void);

/* Midnight of a day, and some time, often one near another. */
uint32_t day_time(unsigned day, unsigned month, unsigned year);
uint32_t time_near(uint32_t now);

unsigned some_mask(void);
unsigned edge_run(void);
int some_value(void);
unsigned some_status(void);
struct list some_list(void);

/* The groups, how many registers each has, their bytes and their fields. */
extern const unsigned groups[GROUPS], registers[GROUPS], lengths[GROUPS], fields[GROUPS];
enum { SERIAL, TARIFF_MAP, DAILY_RESULT, WEEKLY_RESULT, LEVEL9, BILL, INPUT_REGISTER, FLEET, CLOCK };

/* What is on a list of a group's registers: all, where the group is common. */
uint32_t listed(const struct list *list, unsigned g);

/* One of a mask's numbers, or 0 where it has none. */
uint32_t one_of(uint32_t mask);

#endif
