/*
 * What the program hall has to answer, by the recorder of recorder.c and the table of lines in README.md:
 *
 *     hall IMAGE < CALLS > ANSWERS
 *
 * The texts of the errors, and their order, are those of docs/DECISIONS.md, "The program hall".
 */
#include "recorder.h"

#include <stdio.h>
#include <string.h>

enum { LONGEST_LINE = 255, KEPT = LONGEST_LINE + 1, PIECE = 512 }; /* one byte more is kept, for a carriage return */

static uint8_t image[IMAGE_LENGTH + 1]; /* one byte more, so that a longer file is seen to be longer */
static size_t image_length;
static struct recorder recorder;

/* What is lent for the load profile, from the front of one store, and the slots that the next start chooses. One byte more than is legal is enough for all that is too long. */
static uint8_t store[LONGEST_PROFILE + 1];
static struct lent lent = {store, LONGEST_PROFILE};
static uint8_t slots[CHOSEN] = {0, 1, 2, 3, 4, 5, 6, 7};

static struct list lists[MAKERS]; /* for the next start */

/* ---- The answers. */

static void answer(uint32_t refusal) {
    if (refusal != 0) printf("refused %u\n", refusal);
    else printf("ok\n");
}

static void answer_at(uint32_t refusal) {
    if (refusal != 0) printf("refused %u at %u\n", refusal >> 16, refusal & 0xffff);
    else printf("ok\n");
}

static void answer_bytes(const uint8_t *bytes, size_t count) {
    for (size_t i = 0; i < count; i++) printf("%02x", bytes[i]);
    printf("\n");
}

/* All of one pattern, piece by piece to the first refusal. */
static void answer_samples(uint16_t bits, uint32_t count) {
    uint16_t piece[PIECE];
    uint32_t all = 0, refusal = 0;
    for (int i = 0; i < PIECE; i++) piece[i] = bits;
    while (all < count && refusal == 0) {
        size_t taken;
        refusal = peer_samples(&recorder, lent, piece, count - all < PIECE ? count - all : PIECE, &taken);
        all += (uint32_t)taken;
    }
    if (refusal != 0) printf("refused %u after %u\n", refusal, all);
    else printf("ok\n");
}

/* The bytes given, or minus the refusal. */
static void answer_given(int given, const uint8_t *bytes) {
    if (given < 0) answer((uint32_t)-given);
    else answer_bytes(bytes, (size_t)given);
}

static void answer_register(uint32_t group, uint32_t number, uint32_t room) {
    uint8_t bytes[LONGEST_REGISTER];
    answer_given(peer_register(&recorder, group, number, bytes, room), bytes);
}

static void answer_maker(uint32_t maker, uint32_t group, uint32_t number, uint32_t room) {
    uint8_t bytes[LONGEST_REGISTER];
    answer_given(peer_maker_register(&recorder, maker, group, number, bytes, room), bytes);
}

static void answer_record(uint32_t index, uint32_t room) {
    uint8_t bytes[RECORD_LENGTH];
    answer_given(peer_record(&recorder, lent, index, bytes, room), bytes);
}

static void answer_display(uint32_t room, struct sent arguments, struct sent format) {
    uint8_t shown[DISPLAY_LENGTH];
    uint32_t refusal = peer_display(&recorder, format, arguments, shown, room);
    if (refusal != 0) {
        answer(refusal);
        return;
    }
    for (int i = 0; i < DISPLAY_LINES; i++) {
        putchar('|');
        fwrite(shown + DISPLAY_WIDTH * i, 1, DISPLAY_WIDTH, stdout);
    }
    puts("|");
}

static void answer_image(void) {
    uint8_t written[IMAGE_LENGTH];
    uint32_t refusal = peer_write_image(&recorder, written, sizeof written);
    if (refusal != 0) answer_at(refusal);
    else answer_bytes(written, sizeof written);
}

static void answer_date(uint32_t time) {
    static const char *const names[7] = {"Monday", "Tuesday", "Wednesday", "Thursday", "Friday", "Saturday", "Sunday"};
    uint64_t m = peer_calendar(time);
    printf("%s %02u.%02u.%04u %02u:%02u:%02u\n", names[m >> 32 & 255], (unsigned)(m >> 24 & 255), (unsigned)(m >> 16 & 255), (unsigned)(m & 65535),
           (unsigned)(m >> 40 & 255), (unsigned)(m >> 48 & 255), (unsigned)(m >> 56));
}

static void answer_fleet(void) {
    struct fleet f = peer_fleet(&recorder);
    printf("fitted %u awake %u stale %u invalid %u never %u sum %lld\n", f.fitted, f.count[AWAKE], f.count[STALE], f.count[INVALID], f.count[NEVER],
           (long long)f.sum);
}

static bool renewed; /* the stamp, by the last reading that was taken */

static void answer_reading(uint32_t refusal) {
    if (refusal != 0) answer(refusal);
    else puts(renewed ? "renewed" : "kept");
}

static void answer_value(struct sent line, uint32_t decimals) {
    struct value value;
    uint32_t refusal = peer_data_set(line, decimals, &value);
    if (refusal != 0) answer(refusal);
    else printf("value %u %u %d\n", value.offset, value.length, value.number);
}

/* ---- The lines. "Words are separated by one blank, numbers are decimal, and only VALUE may be negative. A line has at most 255 bytes." */

struct word {
    const char *at;
    size_t length;
};

static unsigned long line_number;
static struct word word[LONGEST_LINE + 1];
static unsigned words;
static const char *line_end;

static void wrong(const char *what) { printf("error: line %lu: %s\n", line_number, what); }

/* What a command needs, as README's table has it. */
static void wrong_words(const char *needs) { printf("error: line %lu: %.*s %s\n", line_number, (int)word[0].length, word[0].at, needs); }

/* A word that is no number of its range: said once, and the line is not answered. */
static bool wrong_number(const char *name, long long least, long long most) {
    printf("error: line %lu: %s is not a number from %lld to %lld\n", line_number, name, least, most);
    return false;
}

static void split(const char *line, size_t length) {
    words = 0;
    line_end = line + length;
    word[words++] = (struct word){line, 0};
    for (size_t i = 0; i < length; i++) {
        if (line[i] == ' ') word[words++] = (struct word){line + i + 1, 0};
        else word[words - 1].length++;
    }
}

static bool command(const char *name) { return word[0].length == strlen(name) && memcmp(word[0].at, name, word[0].length) == 0; }

/* One digit or more, left as soon as they are too many for 64 bits. */
static bool number_in(struct word w, uint64_t most, uint64_t *number) {
    *number = 0;
    for (size_t i = 0; i < w.length; i++) {
        if (w.at[i] < '0' || w.at[i] > '9') return false;
        *number = *number * 10 + (uint64_t)(w.at[i] - '0');
        if (*number > most) return false;
    }
    return w.length > 0;
}

static bool number(unsigned k, const char *name, uint32_t most, uint32_t *to) {
    uint64_t n;
    bool good = number_in(word[k], most, &n);
    *to = (uint32_t)n;
    return good || wrong_number(name, 0, most);
}

static bool value(unsigned k, int32_t *to) {
    uint64_t n;
    bool minus = word[k].length > 0 && word[k].at[0] == '-';
    struct word digits = {word[k].at + minus, word[k].length - minus};
    bool good = number_in(digits, minus ? 2147483648u : 2147483647u, &n);
    *to = (int32_t)(minus ? -(int64_t)n : (int64_t)n);
    return good || wrong_number("VALUE", INT32_MIN, INT32_MAX);
}

/* From a word to the end of the line, with the blanks in it: "TEXT is the rest of the line". */
static struct sent text(unsigned k) { return (struct sent){(const uint8_t *)word[k].at, (size_t)(line_end - word[k].at)}; }

/* The value of a hexadecimal digit, or 16. */
static uint8_t digit_of(char letter) {
    if (letter >= '0' && letter <= '9') return (uint8_t)(letter - '0');
    if (letter >= 'a' && letter <= 'f') return (uint8_t)(letter - 'a' + 10);
    if (letter >= 'A' && letter <= 'F') return (uint8_t)(letter - 'A' + 10);
    return 16;
}

/* One pair of digits or more, or a minus for no bytes. */
static bool pairs_in(struct word w, uint8_t *bytes, size_t *count) {
    *count = 0;
    if (w.length == 1 && w.at[0] == '-') return true;
    for (size_t i = 0; i + 1 < w.length; i += 2) {
        uint8_t high = digit_of(w.at[i]), low = digit_of(w.at[i + 1]);
        if (high > 15 || low > 15) return false;
        bytes[(*count)++] = (uint8_t)(high << 4 | low);
    }
    return w.length > 0 && w.length % 2 == 0;
}

static bool hex(unsigned k, struct sent *block) {
    static uint8_t bytes[LONGEST_LINE / 2];
    block->bytes = bytes;
    if (pairs_in(word[k], bytes, &block->length)) return true;
    wrong("HEX is not pairs of hexadecimal digits or -");
    return false;
}

static void timed_line(void) {
    uint32_t time;
    if (words != 2) wrong_words("needs SECONDS");
    else if (!number(1, "SECONDS", UINT32_MAX, &time)) return;
    else if (command("date")) answer_date(time);
    else if (command("set")) answer(peer_set_clock(&recorder, lent, time));
    else answer_at(peer_start(&recorder, lent.length, slots, lists, image, image_length, time));
}

static void sample_line(void) {
    uint32_t bits, count = 1;
    if (words != 2 && words != 3) wrong_words("needs BITS or BITS COUNT");
    else if (number(1, "BITS", 65535, &bits) && (words == 2 || number(2, "COUNT", UINT32_MAX, &count))) answer_samples((uint16_t)bits, count);
}

static void reading_line(void) {
    uint32_t meter, status, seq;
    int32_t v;
    if (words != 5) wrong_words("needs METER VALUE STATUS SEQ");
    else if (number(1, "METER", 255, &meter) && value(2, &v) && number(3, "STATUS", 255, &status) && number(4, "SEQ", 255, &seq))
        answer_reading(peer_reading(&recorder, meter, v, status, seq, &renewed));
}

static void data_set_line(void) {
    uint32_t decimals;
    if (words < 3) wrong_words("needs DECIMALS TEXT");
    else if (number(1, "DECIMALS", 255, &decimals)) answer_value(text(2), decimals);
}

static void readout_line(void) {
    uint32_t meter, status, seq, decimals;
    if (words < 6) wrong_words("needs METER STATUS SEQ DECIMALS TEXT");
    else if (number(1, "METER", 255, &meter) && number(2, "STATUS", 255, &status) && number(3, "SEQ", 255, &seq) && number(4, "DECIMALS", 255, &decimals))
        answer_reading(peer_readout(&recorder, meter, status, seq, decimals, text(5), &renewed));
}

static void block_line(void) {
    struct sent block;
    if (words != 2) wrong_words("needs HEX");
    else if (hex(1, &block)) answer(peer_block(block));
}

static void block_readout_line(void) {
    uint32_t meter, status, seq, decimals;
    struct sent block;
    if (words < 7) wrong_words("needs METER STATUS SEQ DECIMALS HEX TEXT");
    else if (number(1, "METER", 255, &meter) && number(2, "STATUS", 255, &status) && number(3, "SEQ", 255, &seq) && number(4, "DECIMALS", 255, &decimals) && hex(5, &block))
        answer_reading(peer_block_readout(&recorder, meter, status, seq, decimals, block, text(6), &renewed));
}

static void register_line(void) {
    uint32_t group, n, room = LONGEST_REGISTER;
    if (words != 3 && words != 4) wrong_words("needs GROUP NUMBER or GROUP NUMBER ROOM");
    else if (number(1, "GROUP", UINT32_MAX, &group) && number(2, "NUMBER", UINT32_MAX, &n) && (words == 3 || number(3, "ROOM", UINT32_MAX, &room)))
        answer_register(group, n, room);
}

static void maker_line(void) {
    uint32_t maker, group, n, room = LONGEST_REGISTER;
    if (words != 4 && words != 5) wrong_words("needs MAKER GROUP NUMBER or MAKER GROUP NUMBER ROOM");
    else if (number(1, "MAKER", 255, &maker) && number(2, "GROUP", UINT32_MAX, &group) && number(3, "NUMBER", UINT32_MAX, &n) &&
             (words == 4 || number(4, "ROOM", UINT32_MAX, &room)))
        answer_maker(maker, group, n, room);
}

static void display_line(void) {
    uint32_t room;
    struct sent arguments;
    if (words < 4) wrong_words("needs ROOM HEX TEXT");
    else if (number(1, "ROOM", UINT32_MAX, &room) && hex(2, &arguments)) answer_display(room, arguments, text(3));
}

static void take_list(uint32_t maker, struct list list) {
    if (maker < MAKERS) lists[maker] = list;
    answer(maker < MAKERS ? 0 : NO_MAKER);
}

static void list_line(void) {
    uint32_t maker, meters, inputs, listed_slots, bills;
    if (words != 6) wrong_words("needs MAKER METERS INPUTS SLOTS BILLS");
    else if (number(1, "MAKER", 255, &maker) && number(2, "METERS", UINT32_MAX, &meters) && number(3, "INPUTS", 65535, &inputs) && number(4, "SLOTS", 65535, &listed_slots) &&
             number(5, "BILLS", 65535, &bills))
        take_list(maker, (struct list){meters, (uint16_t)inputs, (uint16_t)listed_slots, (uint16_t)bills});
}

/* All its numbers are read before any is taken over. */
static void profile_line(void) {
    static const char *const names[CHOSEN] = {"S0", "S1", "S2", "S3", "S4", "S5", "S6", "S7"};
    uint32_t length, slot[CHOSEN];
    if (words != 2 + CHOSEN) {
        wrong_words("needs LENGTH S0 S1 S2 S3 S4 S5 S6 S7");
        return;
    }
    if (!number(1, "LENGTH", UINT32_MAX, &length)) return;
    for (unsigned i = 0; i < CHOSEN; i++)
        if (!number(2 + i, names[i], 255, &slot[i])) return;
    lent.length = length < sizeof store ? length : sizeof store;
    for (unsigned i = 0; i < CHOSEN; i++) slots[i] = (uint8_t)slot[i];
    answer(0);
}

static void record_line(void) {
    uint32_t index, room = RECORD_LENGTH;
    if (words != 2 && words != 3) wrong_words("needs INDEX or INDEX ROOM");
    else if (number(1, "INDEX", UINT32_MAX, &index) && (words == 2 || number(2, "ROOM", UINT32_MAX, &room))) answer_record(index, room);
}

static void reset_bills(void) {
    peer_reset(&recorder);
    answer(0);
}

static void line_of_one_word(void) {
    if (words != 1) wrong_words("stands alone");
    else if (command("image")) answer_image();
    else if (command("fleet")) answer_fleet();
    else reset_bills();
}

/* A carriage return at the end is no part of the line. */
static void answer_line(const char *line, size_t length) {
    line_number++;
    if (length > 0 && length <= KEPT && line[length - 1] == '\r') length--;
    if (length > LONGEST_LINE) {
        wrong("longer than 255 bytes");
        return;
    }
    if (length == 0 || line[0] == '#') return;
    split(line, length);
    if (command("start") || command("set") || command("date")) timed_line();
    else if (command("sample")) sample_line();
    else if (command("reading")) reading_line();
    else if (command("dataset")) data_set_line();
    else if (command("readout")) readout_line();
    else if (command("block")) block_line();
    else if (command("blockreadout")) block_readout_line();
    else if (command("register")) register_line();
    else if (command("maker")) maker_line();
    else if (command("list")) list_line();
    else if (command("display")) display_line();
    else if (command("profile")) profile_line();
    else if (command("record")) record_line();
    else if (command("reset") || command("image") || command("fleet")) line_of_one_word();
    else wrong("no such command");
}

/* A last line without an end is a line. */
static void answer_all(void) {
    static char line[KEPT];
    size_t length = 0;
    for (int c = getchar(); c != EOF; c = getchar()) {
        if (c == '\n') {
            answer_line(line, length);
            length = 0;
        } else {
            if (length < KEPT) line[length] = (char)c;
            length++;
        }
    }
    if (length > 0) answer_line(line, length);
}

int main(int count, char **arguments) {
    FILE *file = count == 2 ? fopen(arguments[1], "rb") : NULL;
    if (file == NULL) {
        fprintf(stderr, "usage: hall IMAGE\n");
        return 2;
    }
    image_length = fread(image, 1, sizeof image, file);
    fclose(file);
    answer_all();
    return 0;
}
