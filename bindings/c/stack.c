/* How much stack the calls take: each is made on a stack of its own, filled with a pattern first, whose bytes are then counted from the end that stayed. It
 * prints one line, and fails where a call took more than the header says. Long texts take other ways through the library than short ones, texts of one
 * host release other ways than those of the other, descriptions of columns other ways than bytes that describe none, and whole numbers other ways than refused
 * ones, so there are all of these.
 * tools/check-bindings compiles and runs it. */
#define _XOPEN_SOURCE 700
#include <stdio.h>
#include <stdlib.h>
#include <ucontext.h>

#include "vejupa.h"

#define SAID 2500 /* what the header says of a call's own stack; memset and memmove have been looked up here before */
#define PATTERN 0xA5

static uint8_t stack[1 << 16];
static ucontext_t back, there;

static uint8_t data[30000];
static size_t data_len;
static uint16_t ccsid;
static uint32_t release;
static size_t text_room;
static uint8_t text[3 * sizeof data + 14 + 258];
static struct vejupa_column columns[VEJUPA_MAX_COLUMNS];
static struct vejupa_value values[VEJUPA_MAX_COLUMNS];
static size_t columns_room, count, text_length, replaced;
static uint32_t broken_off;
static int64_t number;
static uint8_t number_scale;
static struct vejupa_row row;

static void nothing(void) {}
static void characters(void) { (void)vejupa_decode_character_bytes(data, data_len, ccsid, release, text, text_room, &text_length, &replaced); }
static void graphics(void) { (void)vejupa_decode_graphic_bytes(data, data_len, ccsid, release, text, text_room, &text_length, &replaced); }
static void decimal(void) { (void)vejupa_decode_packed_decimal(data, 128, 2, text, text_room, &text_length); }
static void whole_number(void) { (void)vejupa_decode_packed_whole(data, data_len, 2, &number, &number_scale); }
static void likely(void) { (void)vejupa_bytes_are_likely_text(data, data_len); }
static void whole_description(void) { (void)vejupa_parse_whole_qrydsc(data, data_len, columns, columns_room, &count); }
static void any_description(void) { (void)vejupa_parse_qrydsc(data, data_len, columns, columns_room, &count, &broken_off); }
static void decode(void) { (void)vejupa_decode_row(columns, 1, data, data_len, release, values, VEJUPA_MAX_COLUMNS, text, text_room, &row); }

/* The bytes of stack that a call took, the beginning of such a stack included. */
static size_t taken(void (*call)(void)) {
    size_t free_bytes = 0;
    memset(stack, PATTERN, sizeof stack);
    memmove(stack, stack + 1, sizeof stack - 1);
    if (getcontext(&there) != 0) {
        exit(2);
    }
    there.uc_stack.ss_sp = stack;
    there.uc_stack.ss_size = sizeof stack;
    there.uc_link = &back;
    makecontext(&there, call, 0);
    if (swapcontext(&back, &there) != 0) {
        exit(2);
    }
    while (stack[free_bytes] == PATTERN) {
        free_bytes++;
    }
    return sizeof stack - free_bytes;
}

static size_t most;

static void call(void (*one)(void)) {
    size_t bytes = taken(one);
    most = bytes > most ? bytes : most;
}

/* Every call that takes a CCSID, by a column of this type too, on `data`: without room for a text, with just enough, and with more than enough. At both
 * releases, and at what is none. */
static void calls_by_ccsid(enum vejupa_type type) {
    size_t turn;
    columns[0] = vejupa_make_column(type, (uint16_t)data_len, 0, ccsid);
    for (release = 2; release <= 4; release++) {
        for (turn = 0; turn < 3; turn++) {
            text_room = turn == 0 ? 0 : turn == 1 ? text_length : sizeof text;
            call(decode);
            call(graphics);
            call(characters);
        }
    }
}

/* Every call on the first n bytes of `data`. */
static void calls(size_t n) {
    static const uint16_t ccsids[] = {1208, 819, 37, 1047, 1200, 0};
    size_t k;
    data_len = n;
    call(likely);
    for (k = 0; k < sizeof ccsids / sizeof *ccsids; k++) {
        ccsid = ccsids[k];
        calls_by_ccsid(VEJUPA_TYPE_CHAR);
        calls_by_ccsid(VEJUPA_TYPE_GRAPHIC);
    }
    for (k = 0; k < 3; k++) {
        text_room = k == 0 ? 0 : k == 1 ? text_length : sizeof text;
        call(decimal);
    }
}

/* Both calls for descriptions on the first n bytes of `data`: without room for a column, and with room for all. */
static void description_calls(size_t n) {
    data_len = n;
    for (columns_room = 0; columns_room <= VEJUPA_MAX_COLUMNS; columns_room += VEJUPA_MAX_COLUMNS) {
        call(whole_description);
        call(any_description);
    }
}

/* A description of so many columns, each by one of these triplets in turn, and its length: an SDA, a group of one, and a D0 group of a LID that an entry
 * declares, or of one that none does. */
static size_t describe(size_t column_count) {
    static const uint8_t entry[] = {0x03, 0x78, 0x31, 0x08, 0x70, 0x40, 0x00, 0x00, 0x00, 0x00, 0x25};
    static const uint8_t triplets[4][9] = {{0x09, 0x70, 0x0C, 0x00, 0x03, 0x05, 0x02, 0x00, 0x25},
                                           {0x09, 0x76, 0x07, 0x70, 0x30, 0x00, 0x08, 0x04, 0xB8},
                                           {0x06, 0x76, 0xD0, 0x40, 0x00, 0x08},
                                           {0x06, 0x76, 0xD0, 0x0F, 0x05, 0x02}};
    size_t at = sizeof entry, k;
    memcpy(data, entry, at);
    for (k = 0; k < column_count; k++) {
        memcpy(data + at, triplets[k % 4], triplets[k % 4][0]);
        at += triplets[k % 4][0];
    }
    return at;
}

/* Few columns, as many as can be, and one too many; whole, and with a byte behind it. */
static void descriptions(void) {
    static const size_t column_counts[] = {0, 1, 4, VEJUPA_MAX_COLUMNS, VEJUPA_MAX_COLUMNS + 1};
    size_t k;
    for (k = 0; k < sizeof column_counts / sizeof *column_counts; k++) {
        size_t length = describe(column_counts[k]);
        data[length] = 0x05;
        description_calls(length);
        description_calls(length + 1);
    }
}

/* Packed decimals of few bytes, of as many as can be, and of one too many: zeros, nines and digits above 9, before a last digit with every sign and with what
 * is none. */
static void whole_numbers(void) {
    static const size_t lengths[] = {0, 1, 2, 9, 10, 11, VEJUPA_MAX_DECIMAL, VEJUPA_MAX_DECIMAL + 1};
    static const uint8_t digits[] = {0x00, 0x99, 0x9A};
    size_t k, j;
    uint8_t sign;
    for (k = 0; k < sizeof lengths / sizeof *lengths; k++) {
        data_len = lengths[k];
        for (j = 0; j < sizeof digits; j++) {
            for (sign = 0; sign <= 0xF; sign++) {
                memset(data, digits[j], data_len);
                data[data_len == 0 ? 0 : data_len - 1] = (uint8_t)(0x10 | sign);
                call(whole_number);
            }
        }
    }
}

/* Characters of one, two, three and four bytes by turns, in UTF-8. */
static void mixed(void) {
    static const char characters_by_turns[] = "A\xC3\xA9\xE6\xBC\xA2\xF0\x9F\x98\x80";
    size_t i;
    for (i = 0; i < sizeof data; i++) {
        data[i] = (uint8_t)characters_by_turns[i % (sizeof characters_by_turns - 1)];
    }
}

int main(void) {
    static const size_t lengths[] = {0, 7, 64, 200, 2000, sizeof data};
    size_t fill, i, k;
    for (fill = 0; fill < 4; fill++) {
        for (i = 0; i < sizeof data; i++) {
            data[i] = (uint8_t)(fill == 0 ? 'A' : fill == 1 ? 0xC1 : i * i * 31 >> 3);
        }
        if (fill == 3) {
            mixed();
        }
        for (k = 0; k < sizeof lengths / sizeof *lengths; k++) {
            calls(lengths[k]);
        }
        description_calls(sizeof data);
    }
    descriptions();
    whole_numbers();
    if (taken(nothing) > 512 || most > SAID) {
        printf("a call took %zu bytes of stack\n", most);
        return 1;
    }
    printf("no call took more than %zu bytes of stack\n", most);
    return 0;
}
