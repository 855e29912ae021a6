/* Makes the calls of a stored list (the format of oracle/README.md: Q, T, G, L and P lines, q, t and g, n and w; others are passed over) with every slice in
 * memory of exactly its length, so that a memory checker sees a byte read or written outside of it. Lines that state no host release are gone through at both.
 * It compares no answer: oracle/check does. tools/check-memory runs it. */
#include <ctype.h>
#include <stdio.h>
#include <stdlib.h>
#include <string.h>

#include "vejupa.h"

struct slice {
    uint8_t *start;
    size_t length;
};

/* Memory of exactly n bytes: malloc(0) may be null, and no pointer of a call is. */
static void *exactly(size_t n) {
    void *memory = malloc(n);
    if (memory == NULL) {
        memory = malloc(n + 1);
    }
    if (memory == NULL) {
        exit(2);
    }
    return memory;
}

#define DIGITS "0123456789ABCDEF"

static uint8_t digit(char c) { return (uint8_t)(strchr(DIGITS, c) - DIGITS); }

/* One part of a field: bytes in hexadecimal, or one byte many times, as 00*1048577; `-` is none. */
struct part {
    const char *digits;
    size_t length;
    size_t step; /* from the digits of one byte to those of the next */
};

static struct part part_of(const char *field) {
    size_t digits = strspn(field, DIGITS);
    struct part one = {field, digits / 2, 2};
    if (field[digits] == '*') {
        one.length = (size_t)strtoul(field + digits + 1, NULL, 10);
        one.step = 0;
    }
    return one;
}

/* Where the next part begins, behind a +; NULL where there is none. */
static const char *next_part(const char *field) {
    const char *plus = strchr(field, '+');
    return plus == NULL ? NULL : plus + 1;
}

/* The bytes of a field, of all its parts. */
static struct slice bytes_of(const char *field) {
    struct slice s = {NULL, 0};
    size_t at = 0;
    for (const char *rest = field; rest != NULL; rest = next_part(rest)) {
        s.length += part_of(rest).length;
    }
    s.start = exactly(s.length);
    for (const char *rest = field; rest != NULL; rest = next_part(rest)) {
        struct part part = part_of(rest);
        for (size_t i = 0; i < part.length; i++) {
            const char *pair = part.digits + part.step * i;
            s.start[at++] = (uint8_t)(16 * digit(pair[0]) + digit(pair[1]));
        }
    }
    return s;
}

/* The sum of what was read, so that nothing is left out. */
static unsigned long touched;

/* What calls state. */
static uint32_t release;

/* Reads the bytes of every value. */
static void touch(const struct vejupa_value *values, size_t count, struct slice data, const uint8_t *text, size_t text_len) {
    for (size_t k = 0; k < count; k++) {
        struct vejupa_bytes bytes = vejupa_value_bytes(&values[k], data.start, data.length, text, text_len);
        for (size_t i = 0; i < bytes.length; i++) {
            touched += bytes.start[i];
        }
    }
}

static void row(const struct vejupa_column *columns, size_t count, struct slice data) {
    size_t lengths[2] = {0, 0}; /* first no text buffer, then one just long enough */
    for (int turn = 0; turn < 2; turn++) {
        struct vejupa_value *values = exactly(count * sizeof *values);
        uint8_t *text = exactly(lengths[turn]);
        struct vejupa_row answer;
        uint32_t refusal = vejupa_decode_row(columns, count, data.start, data.length, release, values, count, text, lengths[turn], &answer);
        if (refusal == VEJUPA_ACCEPTED) {
            touch(values, count, data, text, lengths[turn]);
            touched += answer.replaced;
        }
        if (refusal == VEJUPA_BUFFER_TOO_SHORT) {
            touched += vejupa_short_column(columns, count, data.start, data.length, values, count);
        }
        lengths[1] = refusal == VEJUPA_TEXT_BUFFER_TOO_SHORT ? answer.text_length : 0;
        free(text);
        free(values);
    }
}

/* Either call for descriptions. */
static uint32_t parse(int whole, struct slice data, struct vejupa_column *columns, size_t room, size_t *count) {
    uint32_t broken_off = 0, refusal;
    if (whole) {
        refusal = vejupa_parse_whole_qrydsc(data.start, data.length, columns, room, count);
    } else {
        refusal = vejupa_parse_qrydsc(data.start, data.length, columns, room, count, &broken_off);
    }
    touched += broken_off;
    return refusal;
}

/* Reads the words of every column. */
static void touch_columns(const struct vejupa_column *columns, size_t count) {
    for (size_t k = 0; k < count; k++) {
        touched += columns[k].words[0] ^ columns[k].words[1];
    }
}

/* A description by one of the two. The row is decoded by the columns of the one that takes more descriptions: by the other's it would be the same. */
static void description(int whole, struct slice data, struct slice row_data) {
    struct vejupa_column *columns = exactly(0);
    size_t count;
    uint32_t refusal = parse(whole, data, columns, 0, &count);
    if (refusal == VEJUPA_TOO_LITTLE_ROOM) {
        free(columns);
        columns = exactly(count * sizeof *columns);
        refusal = parse(whole, data, columns, count, &count);
    }
    if (refusal == VEJUPA_ACCEPTED && whole) {
        touch_columns(columns, count);
    } else if (refusal == VEJUPA_ACCEPTED) {
        row(columns, count, row_data);
    }
    free(columns);
}

/* A description by both, from its field and the row's. */
static void descriptions(const char *field, const char *row_field) {
    struct slice data = bytes_of(field), row_data = bytes_of(row_field);
    description(1, data, row_data);
    description(0, data, row_data);
    free(data.start);
    free(row_data.start);
}

static uint32_t convert(char kind, unsigned number, struct slice data, uint8_t *text, size_t text_room, size_t *text_length, size_t *replaced) {
    if (kind == 'T') {
        return vejupa_decode_character_bytes(data.start, data.length, (uint16_t)number, release, text, text_room, text_length, replaced);
    }
    if (kind == 'G') {
        return vejupa_decode_graphic_bytes(data.start, data.length, (uint16_t)number, release, text, text_room, text_length, replaced);
    }
    return vejupa_decode_packed_decimal(data.start, data.length, (uint8_t)number, text, text_room, text_length);
}

static void text_of(char kind, unsigned number, struct slice data) {
    size_t length, replaced = 0;
    uint8_t *text = exactly(0);
    uint32_t refusal = convert(kind, number, data, text, 0, &length, &replaced);
    free(text);
    if (refusal == VEJUPA_TEXT_BUFFER_TOO_SHORT) {
        text = exactly(length);
        convert(kind, number, data, text, length, &length, &replaced);
        touched += replaced;
        free(text);
    }
}

/* A packed decimal as a whole number. The two numbers are not set before the call, so that one that it does not write is seen as well. */
static void whole_number_of(unsigned scale, struct slice data) {
    int64_t *number = exactly(sizeof *number);
    uint8_t *number_scale = exactly(sizeof *number_scale);
    touched += vejupa_decode_packed_whole(data.start, data.length, (uint8_t)scale, number, number_scale);
    touched += (unsigned long)*number + *number_scale;
    free(number_scale);
    free(number);
}

/* Makes the calls of a line of so many fields; 0 where it asks for none. */
static int request(char *const *fields, int n) {
    if (n >= 4 && strcmp(fields[0], "Q") == 0) {
        descriptions(fields[1], fields[3]);
    } else if (n >= 2 && strcmp(fields[0], "n") == 0) {
        descriptions(fields[1], "-"); /* such a line has no row */
    } else if (n >= 3 && (*fields[0] == 'T' || *fields[0] == 'G' || *fields[0] == 'P')) {
        struct slice data = bytes_of(fields[2]);
        text_of(*fields[0], (unsigned)strtoul(fields[1], NULL, 10), data);
        free(data.start);
    } else if (n >= 3 && strcmp(fields[0], "w") == 0) {
        struct slice data = bytes_of(fields[2]);
        whole_number_of((unsigned)strtoul(fields[1], NULL, 10), data);
        free(data.start);
    } else if (n >= 2 && *fields[0] == 'L') {
        struct slice data = bytes_of(fields[1]);
        vejupa_bytes_are_likely_text(data.start, data.length);
        free(data.start);
    } else {
        return 0;
    }
    return 1;
}

int main(void) {
    static char line[1 << 22];
    unsigned long calls = 0;
    while (fgets(line, sizeof line, stdin) != NULL) {
        char *fields[5] = {NULL, NULL, NULL, NULL, NULL};
        int n = 0;
        for (char *field = strtok(line, " \n"); field != NULL && n < 5; field = strtok(NULL, " \n")) {
            fields[n++] = field;
        }
        if (n >= 2 && strchr("qtg", *fields[0]) != NULL) { /* as in upper case, with the release in front */
            release = (uint32_t)strtoul(fields[1], NULL, 10);
            *fields[0] = (char)toupper(*fields[0]);
            fields[1] = fields[0];
            calls += (unsigned long)request(fields + 1, n - 1);
        } else if (n >= 1) {
            int by_release = strchr("QTG", *fields[0]) != NULL;
            for (release = 2; release <= (by_release ? 3U : 2U); release++) {
                calls += (unsigned long)request(fields, n);
            }
        }
    }
    printf("%lu requests, what was read of their answers adds up to %lu\n", calls, touched);
    return 0;
}
