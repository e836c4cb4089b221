/* The jobs of crates/bench on the recorder of tests/peer: the same arguments, the same input, the same output. */
#include "../tests/peer/recorder.h"

#include <stdio.h>
#include <stdlib.h>
#include <string.h>

enum { SAMPLES = 1000, FEW = 10, CLOSINGS = 1000, PLACES = LONGEST_PROFILE / RECORD_LENGTH, LINE_LENGTH = 25 };

/* Tuesday 01.04.1997, 00:00. */
static const uint32_t start_time = 859852800;

static uint8_t input[IMAGE_LENGTH + 2 * SAMPLES + LINE_LENGTH];
static const uint8_t *const image = input, *const data_set = input + IMAGE_LENGTH + 2 * SAMPLES;
static uint16_t bits[SAMPLES];

/* The load profile of every job: the longest buffer, of zeros at its start, and the first eight slots. */
static uint8_t profile[LONGEST_PROFILE];
static const struct lent lent = {profile, sizeof profile};
static const uint8_t slots[CHOSEN] = {0, 1, 2, 3, 4, 5, 6, 7};

/* All that has an even number, for each maker. */
#define EVEN {0x55555555, 0x5555, 0x5555, 0x5555}
static const struct list lists[MAKERS] = {EVEN, EVEN, EVEN};

static const struct {
    uint32_t group, registers;
} groups[] = {{82, 32}, {89, 1}, {90, 32}, {91, 16}, {201, 16}, {202, 16}, {203, 16}, {204, 1}, {206, 1}};

static uint32_t mixed(uint32_t sum, uint32_t number) { return sum * 31 + number; }

/* Seconds from the whole range of the clock, far from one another. */
static uint32_t spread(uint32_t i) { return i * 2654435761u; }

static void start(struct recorder *r) {
    memset(profile, 0, sizeof profile);
    peer_start(r, lent.length, slots, lists, image, IMAGE_LENGTH, start_time);
    bool renewed;
    for (int i = 0; i < METERS; i++) peer_reading(r, (uint32_t)i, i % 2 == 0 ? i : ~i, (uint32_t)i % 8, (uint32_t)i, &renewed);
}

static void write_registers(const struct recorder *r) {
    for (size_t k = 0; k < sizeof groups / sizeof groups[0]; k++)
        for (uint32_t i = 0; i < groups[k].registers; i++) {
            uint8_t bytes[13] = {0};
            if (peer_register(r, groups[k].group, i, bytes, sizeof bytes) < 0) continue;
            for (int b = 0; b < 13; b++) printf("%02x", bytes[b]);
            putchar('\n');
        }
}

static void samples(uint32_t rounds) {
    static struct recorder r;
    uint32_t sum = 0;
    start(&r);
    for (uint32_t i = 0; i < rounds; i++) {
        size_t taken;
        sum = mixed(sum, peer_samples(&r, lent, bits, SAMPLES, &taken));
    }
    printf("%u\n", sum);
    write_registers(&r);
}

/* The same samples, each in a call of its own. */
static void singles(uint32_t rounds) {
    static struct recorder r;
    uint32_t sum = 0;
    start(&r);
    for (uint32_t i = 0; i < rounds; i++)
        for (size_t k = 0; k < SAMPLES; k++) {
            size_t taken;
            sum = mixed(sum, peer_samples(&r, lent, bits + k, 1, &taken));
        }
    printf("%u\n", sum);
    write_registers(&r);
}

static uint32_t image_number(uint32_t answer) { return answer >> 16 == 4 ? answer & 0xffff : answer >> 16; }

static void images(uint32_t rounds) {
    uint8_t bytes[IMAGE_LENGTH];
    uint32_t sum = 0;
    memcpy(bytes, image, sizeof bytes);
    for (uint32_t i = 0; i < rounds; i++) {
        bytes[198 + i % 64] = (uint8_t)i;
        sum = mixed(sum, image_number(peer_image_check(bytes, sizeof bytes)));
    }
    printf("%u\n", sum);
}

static uint32_t given(int answer) {
    switch (answer) {
    case -11: return 100;
    case -12: return 101;
    case -8: return 102;
    case -13: return 103;
    case -20: return 104;
    default: return (uint32_t)answer;
    }
}

/* How many bytes were given, and the first of them. */
static uint32_t read_one(const struct recorder *r, uint32_t group, uint32_t number) {
    uint8_t bytes[13] = {0};
    uint32_t n = given(peer_register(r, group, number, bytes, sizeof bytes));
    return mixed(n, bytes[0]);
}

static uint32_t read_groups(const struct recorder *r, uint32_t i) {
    uint32_t sum = read_one(r, 82, i % 32);
    sum = mixed(sum, read_one(r, 89, 0));
    sum = mixed(sum, read_one(r, 90, i % 32));
    sum = mixed(sum, read_one(r, 91, i % 16));
    sum = mixed(sum, read_one(r, 201, i % 16));
    sum = mixed(sum, read_one(r, 202, i % 16));
    sum = mixed(sum, read_one(r, 203, i % 16));
    sum = mixed(sum, read_one(r, 204, 0));
    return mixed(sum, read_one(r, 206, 0));
}

/* A recorder whose registers are read. */
static void to_be_read(struct recorder *r) {
    size_t taken;
    start(r);
    peer_samples(r, lent, bits, SAMPLES, &taken);
    peer_reset(r);
}

static void reads(uint32_t rounds) {
    static struct recorder r;
    uint32_t sum = 0;
    to_be_read(&r);
    for (uint32_t i = 0; i < rounds; i++) sum = mixed(sum, read_groups(&r, i));
    printf("%u\n", sum);
}

/* The same of a maker. */
static uint32_t read_own(const struct recorder *r, uint32_t group, uint32_t number) {
    uint8_t bytes[13] = {0};
    uint32_t n = given(peer_maker_register(r, 1, group, number, bytes, sizeof bytes));
    return mixed(n, bytes[0]);
}

static uint32_t own_groups(const struct recorder *r, uint32_t i) {
    uint32_t sum = read_own(r, 82, i % 32);
    sum = mixed(sum, read_own(r, 201, i % 16));
    sum = mixed(sum, read_own(r, 202, i % 16));
    sum = mixed(sum, read_own(r, 203, i % 16));
    return mixed(sum, read_own(r, 204, 0));
}

static void own_reads(uint32_t rounds) {
    static struct recorder r;
    uint32_t sum = 0;
    to_be_read(&r);
    for (uint32_t i = 0; i < rounds; i++) sum = mixed(sum, own_groups(&r, i));
    printf("%u\n", sum);
}

static void moments(uint32_t rounds) {
    uint32_t sum = 0;
    for (uint32_t i = 0; i < rounds; i++) {
        uint64_t number = peer_calendar(spread(i));
        sum = mixed(mixed(sum, (uint32_t)number), (uint32_t)(number >> 32));
    }
    printf("%u\n", sum);
}

/* More closed periods than there are places for, each with the units of its own samples. */
static void fill(struct recorder *r) {
    start(r);
    for (uint32_t i = 0; i < CLOSINGS; i++) {
        size_t taken;
        peer_samples(r, lent, bits + FEW * (i % (SAMPLES / FEW)), FEW, &taken);
        peer_set_clock(r, lent, spread(i));
    }
}

/* A clock set closes a period. The check sum is of the refusals, and then of the whole buffer. */
static void closings(uint32_t rounds) {
    static struct recorder r;
    uint32_t sum = 0;
    fill(&r);
    for (uint32_t i = 0; i < rounds; i++) sum = mixed(sum, peer_set_clock(&r, lent, spread(i)));
    for (size_t k = 0; k < sizeof profile; k++) sum = mixed(sum, profile[k]);
    printf("%u\n", sum);
}

/* How many bytes were given, or the refusal, and one of the bytes, another in each round: so all of them have to be there. */
static uint32_t read_record(const struct recorder *r, uint32_t i) {
    uint8_t bytes[RECORD_LENGTH] = {0};
    int answer = peer_record(r, lent, i % PLACES, bytes, sizeof bytes);
    return mixed((uint32_t)(answer < 0 ? -answer : answer), bytes[i % RECORD_LENGTH]);
}

static void records(uint32_t rounds) {
    static struct recorder r;
    uint32_t sum = 0;
    fill(&r);
    for (uint32_t i = 0; i < rounds; i++) sum = mixed(sum, read_record(&r, i));
    printf("%u\n", sum);
}

/* How long the value is, and its number, which is another in each round. */
static uint32_t read_data_set(uint32_t sum, struct sent line) {
    struct value value;
    uint32_t refusal = peer_data_set(line, 3, &value);
    return refusal != 0 ? mixed(mixed(sum, refusal), 0) : mixed(mixed(sum, (uint32_t)value.number), value.length);
}

static void data_sets(uint32_t rounds) {
    uint8_t line[LINE_LENGTH];
    uint32_t sum = 0;
    memcpy(line, data_set, sizeof line);
    for (uint32_t i = 0; i < rounds; i++) {
        line[15] = (uint8_t)('0' + i % 10);
        sum = read_data_set(sum, (struct sent){line, sizeof line});
    }
    printf("%u\n", sum);
}

int main(int argc, char **argv) {
    if (argc != 3) return 2;
    uint32_t rounds = (uint32_t)strtoul(argv[2], NULL, 10);
    if (fread(input, 1, sizeof input, stdin) != sizeof input) return 2;
    for (int i = 0; i < SAMPLES; i++) bits[i] = (uint16_t)(input[IMAGE_LENGTH + 2 * i] | input[IMAGE_LENGTH + 2 * i + 1] << 8);
    for (const char *job = argv[1]; *job != 0; job++) {
        switch (*job) {
        case 's': samples(rounds); break;
        case 'o': singles(rounds); break;
        case 'i': images(rounds); break;
        case 'r': reads(rounds); break;
        case 'm': own_reads(rounds); break;
        case 'c': moments(rounds); break;
        case 'p': closings(rounds); break;
        case 'l': records(rounds); break;
        case 'd': data_sets(rounds); break;
        }
    }
    return 0;
}
