/* Holds include/vejupa.h to the library: fields of words, a value's bytes, each answer that a call can give, arrays without elements, what the header says of
 * rows that lie one after the other, and of host releases. It prints one line. tools/check-bindings compiles and runs it. */
#include <stdio.h>
#include <stdlib.h>

#include "vejupa.h"

#define LENGTH(array) (sizeof(array) / sizeof *(array))

static unsigned checks;

static void check(int holds, int line) {
    checks++;
    if (!holds) {
        printf("check.c: line %d does not hold\n", line);
        exit(1);
    }
}
#define CHECK(condition) check((condition), __LINE__)

static uint8_t large[VEJUPA_MAX_INPUT + 1];
static struct vejupa_column columns[VEJUPA_MAX_COLUMNS + 1];
static struct vejupa_value values[VEJUPA_MAX_COLUMNS + 1];
static uint8_t text[64];
static struct vejupa_row row;
static uint32_t release = 2; /* what calls state, where nothing else is said; main goes through both */

/* Whether the row call's numbers are these, and no character was replaced. */
static int numbers(size_t used, size_t text_length, size_t expected, size_t actual) {
    return row.used == used && row.text_length == text_length && row.replaced == 0 && row.expected == expected && row.actual == actual;
}

static int is_text(size_t len, const char *expected) { return len == strlen(expected) && memcmp(text, expected, len) == 0; }

/* The fields of a column's words, each unlike its neighbours. */
static void fields_of_a_column(void) {
    const struct vejupa_column column = {{UINT64_C(0x001500FAC9123407), UINT64_C(0x000404B802058003)}};
    const struct vejupa_column little = {{UINT64_C(0x000A000000000000), 0}};
    CHECK(vejupa_column_type(&column) == VEJUPA_TYPE_CHAR);
    CHECK(vejupa_column_type_numbers(&column) == 0x1234);
    CHECK(vejupa_decimal_precision(&column) == 0x34 && vejupa_decimal_scale(&column) == 0x12);
    CHECK(vejupa_column_drda_type(&column) == 0xC9);
    CHECK(vejupa_column_number(&column) == 0xFA);
    CHECK(vejupa_column_nullable(&column) && !vejupa_column_nullable(&little));
    CHECK(!vejupa_column_little_endian(&column) && vejupa_column_little_endian(&little));
    CHECK(vejupa_column_has_reference_length(&column) && !vejupa_column_has_reference_length(&little));
    CHECK(vejupa_column_origin(&column) == VEJUPA_ORIGIN_DECLARED_LID && vejupa_column_origin(&little) == VEJUPA_ORIGIN_UNDECLARED_LID);
    CHECK(vejupa_column_length(&column) == 0x8003);
    CHECK(vejupa_column_precision(&column) == 5);
    CHECK(vejupa_column_scale(&column) == 2);
    CHECK(vejupa_column_ccsid(&column) == 1208);
    CHECK(vejupa_column_reference_length(&column) == 4);
}

/* A caller's own columns: a Decimal and a Clob, decoded. */
static void own_columns(void) {
    static const uint8_t data[] = {0x00, 0x12, 0x34, 0x5C, 0x00, 0x00, 0x00, 0x07};
    struct vejupa_column own[2];
    own[0] = vejupa_make_decimal(5, 2, 1);
    own[1] = vejupa_make_column(VEJUPA_TYPE_CLOB, 0x8004, 0, 1208);
    vejupa_set_little_endian(&own[1]);
    CHECK(vejupa_column_type(&own[0]) == VEJUPA_TYPE_DECIMAL && vejupa_column_type_numbers(&own[0]) == 0x205);
    CHECK(vejupa_column_length(&own[0]) == 3 && vejupa_column_precision(&own[0]) == 5 && vejupa_column_scale(&own[0]) == 2);
    CHECK(vejupa_column_nullable(&own[0]) && !vejupa_column_little_endian(&own[0]) && vejupa_column_little_endian(&own[1]));
    CHECK(!vejupa_column_nullable(&own[1]) && vejupa_column_length(&own[1]) == 0x8004 && vejupa_column_ccsid(&own[1]) == 1208);
    CHECK(vejupa_column_origin(&own[0]) == VEJUPA_ORIGIN_SDA && vejupa_column_origin(&own[1]) == VEJUPA_ORIGIN_SDA);
    CHECK(!vejupa_column_has_reference_length(&own[1]));
    vejupa_set_reference_length(&own[1], 9);
    vejupa_set_reference_length(&own[1], 4);
    CHECK(vejupa_column_has_reference_length(&own[1]) && vejupa_column_reference_length(&own[1]) == 4);
    CHECK(vejupa_column_length(&own[1]) == 0x8004 && vejupa_column_ccsid(&own[1]) == 1208);
    CHECK(vejupa_decode_row(own, 2, data, sizeof data, release, values, 2, text, sizeof text, &row) == VEJUPA_ACCEPTED && numbers(8, 28, 0, 0));
    CHECK(memcmp(text, "123.45LOB locator 0x00000007", 28) == 0);
    CHECK(vejupa_value_sort(&values[1]) == VEJUPA_SORT_CLOB && vejupa_value_is_external(&values[1]));
}

/* Which columns are none: numbers that the type does not hold, a type or an origin that there is none of, bits above the layout's, a reference length that is
 * not there. */
static void no_columns(void) {
    struct vejupa_column column, other;
    uint32_t type, bit;
    for (type = VEJUPA_TYPE_SMALL_INT; type <= VEJUPA_TYPE_NULL; type++) {
        column = vejupa_make_column((enum vejupa_type)type, 0xFF, 1, 0xFFFF);
        CHECK(vejupa_is_column(&column) == (type != VEJUPA_TYPE_DECIMAL));
        CHECK(vejupa_column_type_numbers(&column) == (vejupa_type_has_length(type) ? 0xFF : 0) && vejupa_column_length(&column) == 0xFF);
        for (bit = 53; bit < 64; bit++) {
            other = column;
            other.words[0] |= UINT64_C(1) << bit;
            CHECK(!vejupa_is_column(&other));
        }
        column.words[0] |= UINT64_C(3) << 51;
        CHECK(!vejupa_is_column(&column));
    }
    column = vejupa_make_column((enum vejupa_type)(VEJUPA_TYPE_NULL + 1), 0, 0, 0);
    CHECK(!vejupa_is_column(&column));
    column = vejupa_make_column(VEJUPA_TYPE_INTEGER, 4, 0, 0);
    CHECK(vejupa_is_column(&column));
    column.words[0] |= 4 << 8;
    CHECK(!vejupa_is_column(&column));
    for (bit = 50; bit <= 52; bit++) {
        column = vejupa_make_column(VEJUPA_TYPE_CLOB, 0, 0, 0);
        column.words[0] |= UINT64_C(1) << bit;
        CHECK(vejupa_is_column(&column));
        column.words[1] |= UINT64_C(1) << 48;
        CHECK(vejupa_is_column(&column) == (bit == 50));
    }
}

/* An origin is set, and set anew, in its own bits; what is none gives what is no column. */
static void set_origins(void) {
    struct vejupa_column plain = vejupa_make_column(VEJUPA_TYPE_CLOB, 0xFFFF, 1, 0xFFFF), column, full = {{UINT64_MAX, UINT64_MAX}};
    uint32_t origin;
    vejupa_set_little_endian(&plain);
    vejupa_set_reference_length(&plain, 0xFFFF);
    column = plain;
    for (origin = 0; origin <= 8; origin++) {
        vejupa_set_origin(&column, (enum vejupa_origin)origin);
        CHECK(vejupa_column_origin(&column) == (origin < 3 ? origin : 3));
        CHECK(vejupa_is_column(&column) == (origin < 3));
        CHECK((column.words[0] & ~(UINT64_C(3) << 51)) == plain.words[0] && column.words[1] == plain.words[1]);
    }
    CHECK(vejupa_decode_row(&column, 1, NULL, 0, release, values, 1, NULL, 0, &row) == VEJUPA_NO_COLUMN && numbers(0, 0, 0, 0));
    vejupa_set_origin(&column, VEJUPA_ORIGIN_SDA);
    CHECK(column.words[0] == plain.words[0]);
    vejupa_set_origin(&full, VEJUPA_ORIGIN_SDA);
    CHECK(full.words[0] == ~(UINT64_C(3) << 51) && full.words[1] == UINT64_MAX);
}

/* Nothing is decoded by an origin: with any of them at each column, beside either byte order, a row is the same. */
static void origins_in_rows(void) {
    static const uint8_t data[] = {0x00, 0x00, 0x00, 0x07, 0x00, 0x02, 0xC1, 0xC2, 0x12, 0x3C, 0x00, 'a', 0x00, 'b'};
    struct vejupa_column own[4];
    struct vejupa_value plain[4];
    uint32_t n, left;
    int little;
    size_t k;
    for (little = 0; little <= 1; little++) {
        const char *expected = little ? "AB12.3ab" : "AB12.3a";
        own[0] = vejupa_make_column(VEJUPA_TYPE_INTEGER, 0, 0, 0);
        own[1] = vejupa_make_column(VEJUPA_TYPE_VAR_CHAR, 9, 0, 37);
        own[2] = vejupa_make_decimal(3, 1, 0);
        own[3] = vejupa_make_column(VEJUPA_TYPE_GRAPHIC, 2, 0, 1200);
        for (k = 0; little && k < LENGTH(own); k++) {
            vejupa_set_little_endian(&own[k]);
        }
        CHECK(vejupa_decode_row(own, LENGTH(own), data, sizeof data, release, plain, LENGTH(plain), text, sizeof text, &row) == VEJUPA_ACCEPTED);
        CHECK(vejupa_value_integer(&plain[0]) == (little ? 0x7000000 : 7));
        for (n = 0; n < 81; n++) {
            for (left = n, k = 0; k < LENGTH(own); left /= 3, k++) {
                vejupa_set_origin(&own[k], (enum vejupa_origin)(left % 3));
                CHECK(vejupa_column_little_endian(&own[k]) == little);
            }
            memset(values, 0xA5, sizeof values);
            memset(text, 0xA5, sizeof text);
            CHECK(vejupa_decode_row(own, LENGTH(own), data, sizeof data, release, values, LENGTH(values), text, sizeof text, &row) == VEJUPA_ACCEPTED);
            CHECK(numbers(little ? 14 : 12, strlen(expected), 0, 0) && is_text(row.text_length, expected));
            CHECK(memcmp(values, plain, sizeof plain) == 0);
        }
    }
}

static void fields_of_values(void) {
    const struct vejupa_value null = {{VEJUPA_SORT_NULL, 0, 0}};
    const struct vejupa_value small_int = {{VEJUPA_SORT_SMALL_INT, UINT64_MAX - 1, 0}};
    const struct vejupa_value real = {{VEJUPA_SORT_REAL, 0x40490FDB, 0}};
    const struct vejupa_value twice = {{VEJUPA_SORT_DOUBLE, UINT64_C(0xC035800000000000), 0}};
    const struct vejupa_value external = {{VEJUPA_SORT_CLOB | 0x100, 1, 2}};
    CHECK(vejupa_value_integer(&small_int) == -2);
    CHECK(vejupa_value_real(&real) > 3.14159F && vejupa_value_real(&real) < 3.14160F);
    CHECK(vejupa_value_double(&twice) == -21.5);
    CHECK(vejupa_value_sort(&external) == VEJUPA_SORT_CLOB && vejupa_value_is_external(&external));
    CHECK(!vejupa_value_is_external(&real));
    CHECK(vejupa_value_is_null(&null) && !vejupa_value_is_null(&small_int));
}

/* The bytes of a value of so many words. Before the call they are others: one of the texts. */
static struct vejupa_bytes bytes_of(const uint64_t *value, size_t words, const uint8_t *data, size_t data_len, const uint8_t *texts, size_t texts_len) {
    struct vejupa_bytes bytes = {texts, 1};
    vejupa_raw_value_bytes(value, words, data, data_len, texts, texts_len, &bytes);
    return bytes;
}

/* Whether a value's bytes are `len` bytes from a place on, or none where they do not fit. Bits of the first word above the sort do not matter, nor do
 * words after the third. Fewer than three words have none: the row's beginning is handed out. */
static void is_part(uint64_t sort, uint64_t place, uint64_t len, int fits) {
    static uint8_t data[4], texts[8];
    const struct vejupa_value value = {{sort, place, len}};
    const uint64_t more[] = {sort | ~UINT64_C(0xFF), place, len, 1, 2};
    struct vejupa_bytes part = vejupa_value_bytes(&value, data, sizeof data, texts, sizeof texts);
    struct vejupa_bytes same = bytes_of(more, 5, data, sizeof data, texts, sizeof texts);
    const uint8_t *within = vejupa_value_is_text(&value) ? texts : data;
    size_t words;
    CHECK(part.length == (fits ? len : 0));
    CHECK(part.start == (fits ? within + place : within));
    CHECK(same.start == part.start && same.length == part.length);
    for (words = 0; words < VEJUPA_VALUE_WORDS; words++) {
        same = bytes_of(value.words, words, data, sizeof data, texts, sizeof texts);
        CHECK(same.start == data && same.length == 0);
    }
    CHECK(vejupa_value_bytes(&value, NULL, 0, NULL, 0).length == 0);
}

/* A part of the row or of the texts, and an empty one for whatever has none or does not fit: at the first byte of the one that it would be in, or of the row. */
static void bytes_of_values(void) {
    uint64_t sort;
    for (sort = VEJUPA_SORT_NULL; sort <= VEJUPA_SORT_XML + 1; sort++) {
        int in_row = sort == VEJUPA_SORT_BINARY || sort == VEJUPA_SORT_BLOB;
        int in_text = sort >= VEJUPA_SORT_DECIMAL && sort <= VEJUPA_SORT_XML && sort != VEJUPA_SORT_BOOLEAN && !in_row;
        is_part(sort, 1, 3, in_row || in_text);
        is_part(sort, 4, 0, in_row || in_text);
        is_part(sort, 1, 4, in_text);
        is_part(sort, 5, 3, in_text);
        is_part(sort, 5, 4, 0);
        is_part(sort, 9, 0, 0);
        is_part(sort, 1, UINT64_MAX, 0);
        is_part(sort, UINT64_MAX, 1, 0);
        is_part(sort, UINT64_MAX, UINT64_MAX, 0);
    }
}

static const uint8_t integer[] = {0x05, 0x70, 0x02, 0x00, 0x04};
static uint8_t described[sizeof integer * (VEJUPA_MAX_COLUMNS + 1) + 64];
static const struct vejupa_column untouched = {{UINT64_C(0xA5A5A5A5A5A5A5A5), UINT64_C(0xA5A5A5A5A5A5A5A5)}};

/* Into `described` so many Integers, and then other bytes; the number of all. */
static size_t integers_and(size_t count, const char *last, size_t last_len) {
    size_t k;
    for (k = 0; k < sizeof integer * count; k++) {
        described[k] = integer[k % sizeof integer];
    }
    memcpy(described + k, last, last_len);
    return k + last_len;
}

/* Whether `columns` begins with so many columns that are written; no other is changed. */
static int are_written(size_t count) {
    size_t k;
    for (k = 0; k < LENGTH(columns); k++) {
        if ((memcmp(&columns[k], &untouched, sizeof untouched) != 0) != (k < count)) {
            return 0;
        }
    }
    return 1;
}

static void untouch(void) {
    size_t k;
    for (k = 0; k < LENGTH(columns); k++) {
        columns[k] = untouched;
    }
}

/* Whether vejupa_parse_whole_qrydsc answers so, with such a number of columns, and writes them if it accepts and nothing else. */
static int whole_answers(const uint8_t *data, size_t data_len, size_t room, uint32_t answer, size_t number) {
    size_t count = SIZE_MAX;
    untouch();
    return vejupa_parse_whole_qrydsc(data, data_len, columns, room, &count) == answer && count == number &&
           are_written(answer == VEJUPA_ACCEPTED ? number : 0);
}

/* The same of vejupa_parse_qrydsc, with its flag. */
static int any_answers(const uint8_t *data, size_t data_len, size_t room, uint32_t answer, size_t number, uint32_t flag) {
    size_t count = SIZE_MAX;
    uint32_t broken_off = UINT32_MAX;
    untouch();
    return vejupa_parse_qrydsc(data, data_len, columns, room, &count, &broken_off) == answer && count == number && broken_off == flag &&
           are_written(answer == VEJUPA_ACCEPTED ? number : 0);
}

/* Leaves 128 Integers in `columns`. */
static void descriptions(void) {
    size_t count, all = integers_and(VEJUPA_MAX_COLUMNS + 1, "", 0);
    uint32_t broken_off;
    CHECK(any_answers(large, VEJUPA_MAX_QRYDSC + 1, 0, VEJUPA_QRYDSC_TOO_LONG, 0, 0));
    CHECK(whole_answers(large, VEJUPA_MAX_QRYDSC + 1, 0, VEJUPA_QRYDSC_TOO_LONG, 0));
    CHECK(any_answers(described, all, LENGTH(columns), VEJUPA_TOO_MANY_COLUMNS, 0, 0));
    CHECK(whole_answers(described, all, LENGTH(columns), VEJUPA_TOO_MANY_COLUMNS, 0));
    CHECK(any_answers(described, 10, 1, VEJUPA_TOO_LITTLE_ROOM, 2, 0) && whole_answers(described, 10, 1, VEJUPA_TOO_LITTLE_ROOM, 2));
    CHECK(vejupa_raw_parse_qrydsc(described, 10, columns->words, 3, &count, &broken_off) == VEJUPA_TOO_LITTLE_ROOM && count == 2 && broken_off == 0);
    CHECK(vejupa_raw_parse_whole_qrydsc(described, 10, columns->words, 3, &count) == VEJUPA_TOO_LITTLE_ROOM && count == 2);
    CHECK(are_written(0));
    CHECK(vejupa_parse_qrydsc(described, 10, NULL, 0, &count, &broken_off) == VEJUPA_TOO_LITTLE_ROOM && count == 2 && broken_off == 0);
    CHECK(vejupa_parse_whole_qrydsc(described, 10, NULL, 0, &count) == VEJUPA_TOO_LITTLE_ROOM && count == 2);
    CHECK(vejupa_parse_qrydsc(NULL, 0, NULL, 0, &count, &broken_off) == VEJUPA_ACCEPTED && count == 0 && broken_off == 0);
    CHECK(vejupa_parse_whole_qrydsc(NULL, 0, NULL, 0, &count) == VEJUPA_ACCEPTED && count == 0);
    CHECK(any_answers(described, 10, SIZE_MAX, VEJUPA_ACCEPTED, 2, 0) && whole_answers(described, 10, SIZE_MAX, VEJUPA_ACCEPTED, 2));
    CHECK(any_answers(described, 640, 128, VEJUPA_ACCEPTED, 128, 0) && whole_answers(described, 640, 128, VEJUPA_ACCEPTED, 128));
    CHECK(vejupa_column_number(&columns[127]) == 127 && vejupa_column_type(&columns[127]) == VEJUPA_TYPE_INTEGER);
}

/* What a description ends with: whether it breaks off there, and how many columns the end has. */
struct end {
    const char *bytes;
    size_t length;
    int breaks_off;
    size_t columns;
};

#define END(bytes, breaks_off, columns) {(bytes), sizeof(bytes) - 1, (breaks_off), (columns)}

static const struct end ends[] = {
    END("\x00", 1, 0), /* one byte is left */
    END("\x02", 1, 0),
    END("\xFF", 1, 0),
    END("\x00\x70", 1, 0), /* a length of 0 */
    END("\x00\x70\x02\x00\x04", 1, 0),
    END("\x01\x70", 1, 0), /* of 1 */
    END("\x01\x70\x02\x00\x04", 1, 0),
    END("\x03\x70", 1, 0), /* past the end */
    END("\x05\x70\x02\x00", 1, 0),
    END("\xFF\x76\xD0\x02\x00\x04", 1, 0),
    END("\x00\x00\x00\x00\x00\x00\x00\x00", 1, 0), /* zeros */
    END("\x00\x05\x70\x02\x00\x04", 1, 0),         /* a whole triplet behind it is not read */
    END("", 0, 0),                                 /* nothing: no description at all, or a cut between two triplets */
    END("\x02\x70", 0, 0),                         /* an SDA without data */
    END("\x03\x70\x02", 0, 1),                     /* without some of its fields */
    END("\x03\x78\x31", 0, 0),                     /* a type that no SDA follows */
    END("\x05\x7F\x02\x00\x04", 0, 0),             /* a triplet that is passed over */
    END("\x05\x76\xD0\x02\x00", 0, 0),             /* a rest within a D0 group */
    END("\x08\x76\xD0\x02\x00\x04\x02\x00", 0, 1),
    END("\x09\x76\x05\x70\x02\x00\x04\x05\x70", 0, 1),     /* within another group: a rest, */
    END("\x0A\x76\x05\x70\x02\x00\x04\x00\x70\x02", 0, 1), /* a length of 0, */
    END("\x0A\x76\x05\x70\x02\x00\x04\x01\x70\x02", 0, 1), /* of 1, */
    END("\x0A\x76\x05\x70\x02\x00\x04\x04\x70\x02", 0, 1), /* one that runs out of it */
};

/* So many Integers and an end, with room for so many columns. */
static void with_end(size_t count, const struct end *end, size_t room) {
    size_t length = integers_and(count, end->bytes, end->length), all = count + end->columns;
    uint32_t answer = room < all ? VEJUPA_TOO_LITTLE_ROOM : VEJUPA_ACCEPTED;
    CHECK(any_answers(described, length, room, answer, all, answer == VEJUPA_ACCEPTED && end->breaks_off));
    if (end->breaks_off) {
        CHECK(whole_answers(described, length, room, VEJUPA_QRYDSC_BROKEN_OFF, 0));
    } else {
        CHECK(whole_answers(described, length, room, answer, all));
    }
}

/* Behind more columns than there may be: breaking off comes first. */
static void with_end_behind_too_many(const struct end *end, size_t room) {
    size_t length = integers_and(VEJUPA_MAX_COLUMNS + 1, end->bytes, end->length);
    CHECK(any_answers(described, length, room, VEJUPA_TOO_MANY_COLUMNS, 0, 0));
    CHECK(whole_answers(described, length, room, end->breaks_off ? VEJUPA_QRYDSC_BROKEN_OFF : VEJUPA_TOO_MANY_COLUMNS, 0));
}

/* Each end behind no, some and many columns, with too little room and with enough. */
static void ends_of_descriptions(void) {
    static const size_t counts[] = {0, 1, 2, 127}, rooms[] = {0, 1, 2, 3, 127, 128, LENGTH(columns)};
    size_t i, j, k;
    for (i = 0; i < LENGTH(ends); i++) {
        for (j = 0; j < LENGTH(rooms); j++) {
            for (k = 0; k < LENGTH(counts); k++) {
                with_end(counts[k], &ends[i], rooms[j]);
            }
            with_end_behind_too_many(&ends[i], rooms[j]);
        }
    }
    CHECK(any_answers(large, VEJUPA_MAX_QRYDSC, LENGTH(columns), VEJUPA_ACCEPTED, 0, 1));
    CHECK(whole_answers(large, VEJUPA_MAX_QRYDSC, LENGTH(columns), VEJUPA_QRYDSC_BROKEN_OFF, 0));
    CHECK(any_answers(large, VEJUPA_MAX_QRYDSC + 1, LENGTH(columns), VEJUPA_QRYDSC_TOO_LONG, 0, 0));
    CHECK(whole_answers(large, VEJUPA_MAX_QRYDSC + 1, LENGTH(columns), VEJUPA_QRYDSC_TOO_LONG, 0));
}

/* An environment entry and a group of its columns, cut anywhere: it breaks off save between two triplets. */
static void descriptions_cut_off(void) {
    static const uint8_t data[] = {0x03, 0x78, 0x31, 0x08, 0x70, 0x40, 0x00, 0x00, 0x00, 0x00, 0x25, 0x09, 0x76, 0xD0, 0x02, 0x00, 0x04, 0x40, 0x00, 0x08};
    size_t length;
    for (length = 0; length <= sizeof data; length++) {
        int between = length == 0 || length == 3 || length == 11 || length == sizeof data;
        size_t count = length == sizeof data ? 2 : 0;
        CHECK(any_answers(data, length, LENGTH(columns), VEJUPA_ACCEPTED, count, !between));
        CHECK(whole_answers(data, length, LENGTH(columns), between ? VEJUPA_ACCEPTED : VEJUPA_QRYDSC_BROKEN_OFF, count));
    }
}

/* An SDA, a LID that is not declared and one that is, and a row of their columns. */
static void described_origins(void) {
    static const uint8_t description[] = {0x03, 0x78, 0x33, 0x08, 0x70, 0x41, 0x00, 0x00, 0x00, 0x00, 0x25, 0x05, 0x70,
                                          0x02, 0x00, 0x04, 0x09, 0x76, 0xD0, 0x02, 0x00, 0x04, 0x41, 0x00, 0x14};
    static const uint8_t data[] = {0x2A, 0x00, 0x00, 0x00, 0x00, 0x00, 0x00, 0x2A, 0x00, 0x00, 0x02, 0xC1, 0xC2};
    struct vejupa_column found[3];
    size_t count;
    CHECK(vejupa_parse_whole_qrydsc(description, sizeof description, found, 3, &count) == VEJUPA_ACCEPTED && count == 3);
    CHECK(found[0].words[0] == UINT64_C(0x0002000002000001) && found[0].words[1] == 4);
    CHECK(found[1].words[0] == UINT64_C(0x0008000102000001) && found[1].words[1] == 4);
    CHECK(found[2].words[0] == UINT64_C(0x0011000233001408) && found[2].words[1] == UINT64_C(0x0000002500000014));
    CHECK(vejupa_column_origin(&found[0]) == VEJUPA_ORIGIN_SDA && vejupa_column_little_endian(&found[0]));
    CHECK(vejupa_column_origin(&found[1]) == VEJUPA_ORIGIN_UNDECLARED_LID && !vejupa_column_little_endian(&found[1]));
    CHECK(vejupa_column_origin(&found[2]) == VEJUPA_ORIGIN_DECLARED_LID && !vejupa_column_little_endian(&found[2]));
    CHECK(vejupa_decode_row(found, 3, data, sizeof data, release, values, 3, text, sizeof text, &row) == VEJUPA_ACCEPTED && numbers(13, 2, 0, 0));
    CHECK(vejupa_value_integer(&values[0]) == 42 && vejupa_value_integer(&values[1]) == 42 && is_text(row.text_length, "AB"));
}

static uint32_t decode(size_t count, const uint8_t *data, size_t data_len, size_t text_room) {
    return vejupa_decode_row(columns, count, data, data_len, release, values, LENGTH(values), text, text_room, &row);
}

static void rows(void) {
    static const uint8_t ten[] = {0x0A, 0x00, 0x00, 0x00};
    static const uint8_t small_int_and_decimal[] = {0x09, 0x76, 0xD0, 0x05, 0x00, 0x02, 0x0F, 0x05, 0x02};
    static const uint8_t data[] = {0x00, 0x00, 0x2A, 0x00, 0x12, 0x34, 0x5C};
    struct vejupa_bytes decimal;
    size_t count, k;
    CHECK(decode(1, ten, 4, 0) == VEJUPA_ACCEPTED && numbers(4, 0, 0, 0));
    CHECK(vejupa_value_sort(&values[0]) == VEJUPA_SORT_INTEGER && vejupa_value_integer(&values[0]) == 10);
    CHECK(decode(129, ten, 4, 0) == VEJUPA_COUNT_TOO_LARGE && numbers(0, 0, 0, 0));
    CHECK(decode(SIZE_MAX / 2 + 1, ten, 4, 0) == VEJUPA_COUNT_TOO_LARGE && decode(SIZE_MAX, ten, 4, 0) == VEJUPA_COUNT_TOO_LARGE);
    CHECK(vejupa_decode_row(columns, 2, ten, 4, release, values, 1, text, 0, &row) == VEJUPA_TOO_LITTLE_ROOM && numbers(0, 0, 0, 0));
    CHECK(vejupa_raw_decode_row(columns->words, 4, ten, 4, release, values->words, 5, text, 0, &row.used, &row.text_length, &row.replaced, &row.expected,
                                &row.actual) == VEJUPA_TOO_LITTLE_ROOM &&
          numbers(0, 0, 0, 0));
    CHECK(vejupa_raw_decode_row(columns->words, 3, ten, 4, release, values->words, 6, text, 0, &row.used, &row.text_length, &row.replaced, &row.expected,
                                &row.actual) == VEJUPA_NO_COLUMN &&
          numbers(0, 0, 0, 0));
    CHECK(decode(1, large, sizeof large, 0) == VEJUPA_INPUT_TOO_LONG && numbers(0, 0, 0, 0));
    for (k = 2; k <= 128; k++) {
        CHECK(decode(k, large, 4 * k - 2, 0) == VEJUPA_BUFFER_TOO_SHORT && numbers(0, 0, 4, 2));
        CHECK(vejupa_short_column(columns, k, large, 4 * k - 2, values, LENGTH(values)) == k - 1);
        CHECK(vejupa_short_column(columns, 128, large, 4 * k - 2, values, LENGTH(values)) == k - 1);
    }
    CHECK(vejupa_short_column(columns, 128, NULL, 0, values, LENGTH(values)) == 0);
    columns[1].words[0] = VEJUPA_TYPE_DEC_FLOAT | 16 << 8;
    CHECK(decode(2, ten, 4, 0) == VEJUPA_DEC_FLOAT_COLUMN && numbers(0, 0, 0, 0));
    columns[1].words[0] = VEJUPA_TYPE_NULL + 1;
    CHECK(decode(2, ten, 4, 0) == VEJUPA_NO_COLUMN && numbers(0, 0, 0, 0));
    CHECK(vejupa_is_column(&columns[0]) && !vejupa_is_column(&columns[1]));

    CHECK(vejupa_parse_whole_qrydsc(small_int_and_decimal, sizeof small_int_and_decimal, columns, 2, &count) == VEJUPA_ACCEPTED);
    CHECK(decode(2, data, sizeof data, 5) == VEJUPA_TEXT_BUFFER_TOO_SHORT && numbers(0, 6, 0, 0));
    CHECK(vejupa_decode_row(columns, 2, data, sizeof data, release, values, 2, NULL, 0, &row) == VEJUPA_TEXT_BUFFER_TOO_SHORT && numbers(0, 6, 0, 0));
    CHECK(decode(2, data, sizeof data, 6) == VEJUPA_ACCEPTED && numbers(7, 6, 0, 0));
    decimal = vejupa_value_bytes(&values[1], data, sizeof data, text, 6);
    CHECK(vejupa_value_sort(&values[1]) == VEJUPA_SORT_DECIMAL && decimal.length == 6 && memcmp(decimal.start, "123.45", 6) == 0);
    CHECK(vejupa_decode_row(columns, 2, data, sizeof data, release, values, SIZE_MAX, text, sizeof text, &row) == VEJUPA_ACCEPTED && numbers(7, 6, 0, 0));
}

/* What a loop over rows must heed: a row of no bytes; a query's end that is read as rows; rows without their two leading bytes; a row that is cut off behind
 * its first byte. */
static void rows_one_after_the_other(void) {
    static const uint8_t small_ints[] = {0x06, 0x76, 0xD0, 0x04, 0x00, 0x02};
    static const uint8_t nullable_pairs[] = {0x09, 0x76, 0xD0, 0x05, 0x00, 0x02, 0x05, 0x00, 0x02};
    static const uint8_t minus_one[] = {0xFF, 0xFF, 0x00, 0x01};
    static const uint8_t bare[] = {0xFF, 0x00, 0x00, 0x07, 0x00, 0x00, 0x01, 0x00, 0x00, 0x02};
    static const uint8_t query_end[] = {0x00, 0x00, 0x00, 0x00, 0x64, '0',  '2',  '0',  '0',  '0',  'C',  'S',  'S',  '1',  '0',  '1',  '4',  '0',  0x00, 0x00, 0x00,
                                        0x00, 0x00, 0x00, 0x00, 0x00, 0x00, 0x00, 0x00, 0x00, 0x04, 0x00, 0x00, 0x00, 0x00, 0x00, 0x00, 0x00, 0x00, 0x00, 0x00, 0x00,
                                        0x00, ' ',  ' ',  ' ',  ' ',  ' ',  ' ',  ' ',  ' ',  ' ',  ' ',  ' ',  0x00, 0x00, 0x00, 0x00, 0x00, 0x00, 0xFF, 0xFF};
    size_t count, at = 0, rows = 0;
    CHECK(vejupa_decode_row(NULL, 0, NULL, 0, release, NULL, 0, NULL, 0, &row) == VEJUPA_ACCEPTED && numbers(0, 0, 0, 0));
    CHECK(vejupa_parse_whole_qrydsc(small_ints, sizeof small_ints, columns, 1, &count) == VEJUPA_ACCEPTED);
    while (at < sizeof query_end && decode(count, query_end + at, sizeof query_end - at, 0) == VEJUPA_ACCEPTED) {
        CHECK(row.used == 2);
        at += row.used;
        rows++;
    }
    CHECK(sizeof query_end == 62 && rows == 30 && at == 60);
    CHECK(vejupa_parse_whole_qrydsc(nullable_pairs, sizeof nullable_pairs, columns, 2, &count) == VEJUPA_ACCEPTED);
    CHECK(decode(count, bare, sizeof bare, 0) == VEJUPA_ACCEPTED && row.used == 8);
    CHECK(vejupa_value_integer(&values[0]) == 1792 && vejupa_value_integer(&values[1]) == 256);
    CHECK(decode(1, bare, 1, 0) == VEJUPA_ACCEPTED && row.used == 1 && vejupa_value_is_null(&values[0]));
    CHECK(vejupa_parse_whole_qrydsc(small_ints, sizeof small_ints, columns, 1, &count) == VEJUPA_ACCEPTED);
    CHECK(decode(count, minus_one, sizeof minus_one, 0) == VEJUPA_ACCEPTED && row.used == 4 && vejupa_value_integer(&values[0]) == 1);
}

typedef uint32_t (*conversion)(const uint8_t *, size_t, uint16_t, uint32_t, uint8_t *, size_t, size_t *, size_t *);

/* A text with so many U+FFFD put in, in a buffer of its length and in longer ones; 0 in shorter ones, and for too many bytes. */
static void comes_out(conversion call, const char *bytes, size_t bytes_len, uint16_t ccsid, const char *expected, size_t put_in) {
    const uint8_t *data = (const uint8_t *)bytes;
    size_t needed = strlen(expected), room, len, replaced;
    for (room = needed; room <= sizeof text; room++) {
        memset(text, 0xA5, sizeof text);
        len = replaced = SIZE_MAX;
        CHECK(call(data, bytes_len, ccsid, release, text, room, &len, &replaced) == VEJUPA_ACCEPTED && is_text(len, expected) && replaced == put_in);
    }
    for (room = 0; room < needed; room++) {
        len = replaced = SIZE_MAX;
        CHECK(call(data, bytes_len, ccsid, release, text, room, &len, &replaced) == VEJUPA_TEXT_BUFFER_TOO_SHORT && len == needed && replaced == 0);
    }
    len = replaced = SIZE_MAX;
    CHECK(call(large, sizeof large, ccsid, release, text, sizeof text, &len, &replaced) == VEJUPA_INPUT_TOO_LONG && len == 0 && replaced == 0);
}

#define FFFD "\xEF\xBF\xBD"

/* One for a part that is as long as can be and one for an unpaired surrogate; the host's own are not counted, nor is anything in the other code pages. */
static void replaced_characters(void) {
    comes_out(vejupa_decode_character_bytes, "A\xC3\xA9", 3, 1208, "A\xC3\xA9", 0);
    comes_out(vejupa_decode_character_bytes, "\xC1z", 2, 1208, FFFD "z", 1);
    comes_out(vejupa_decode_character_bytes, "\xE2\x82z\xF0\x9F\x98", 6, 1208, FFFD "z" FFFD, 2);
    comes_out(vejupa_decode_character_bytes, "\xED\xA0\x80", 3, 1208, FFFD FFFD FFFD, 3);
    comes_out(vejupa_decode_character_bytes, FFFD, 3, 1208, FFFD, 0);
    comes_out(vejupa_decode_character_bytes, FFFD "\xEF\xBF", 5, 1208, FFFD FFFD, 1);
    comes_out(vejupa_decode_character_bytes, "\xEF\xBF", 2, 819, "\xC3\xAF\xC2\xBF", 0);
    comes_out(vejupa_decode_character_bytes, "\xC1\x4A", 2, 37, "A\xC2\xA2", 0);
    comes_out(vejupa_decode_character_bytes, "\xC1\x4A", 2, 1047, "A\xC2\xA2", 0);
    comes_out(vejupa_decode_graphic_bytes, "\xD8\x3D\xDE\x00", 4, 1200, "\xF0\x9F\x98\x80", 0);
    comes_out(vejupa_decode_graphic_bytes, "\xDE\x00\xD8\x3D", 4, 1200, FFFD FFFD, 2);
    comes_out(vejupa_decode_graphic_bytes, "\xD8\x3D\xFF\xFD", 4, 13488, FFFD FFFD, 1);
    comes_out(vejupa_decode_graphic_bytes, "\xC1z\xC1", 3, 1208, FFFD "z" FFFD, 2);
}

/* The sum over a row's texts, in a text buffer of each length; 0 after every refusal. */
static void replaced_in_rows(void) {
    static const uint8_t data[] = {0xC1, 'A', 0x00, 0x04, 0xEF, 0xBF, 0xBD, 0xF0, 0xD8, 0x3D, 0x00, 0x00, 0x00, 0x02, 0x80, 0x81, 0xFF, 0xC1, 0xC2};
    const size_t needed = 19;
    size_t room;
    columns[0] = vejupa_make_column(VEJUPA_TYPE_CHAR, 2, 0, 1208);     /* 1 */
    columns[1] = vejupa_make_column(VEJUPA_TYPE_VAR_CHAR, 9, 0, 1208); /* the host's own, and 1 */
    columns[2] = vejupa_make_column(VEJUPA_TYPE_GRAPHIC, 2, 0, 1200);  /* 1 */
    columns[3] = vejupa_make_column(VEJUPA_TYPE_CLOB, 100, 0, 37);     /* 2: within the row, UTF-8 whatever the CCSID */
    columns[4] = vejupa_make_column(VEJUPA_TYPE_VAR_CHAR, 9, 1, 1208); /* null */
    columns[5] = vejupa_make_column(VEJUPA_TYPE_BINARY, 2, 0, 1208);   /* no text */
    for (room = 0; room <= sizeof text; room++) {
        memset(&row, 0xA5, sizeof row);
        if (room < needed) {
            CHECK(decode(6, data, sizeof data, room) == VEJUPA_TEXT_BUFFER_TOO_SHORT && numbers(0, needed, 0, 0));
        } else {
            CHECK(decode(6, data, sizeof data, room) == VEJUPA_ACCEPTED && row.used == sizeof data && row.text_length == needed && row.replaced == 5);
            CHECK(is_text(row.text_length, FFFD "A" FFFD FFFD FFFD FFFD FFFD));
        }
    }
    memset(&row, 0xA5, sizeof row);
    CHECK(decode(6, data, sizeof data - 1, sizeof text) == VEJUPA_BUFFER_TOO_SHORT && numbers(0, 0, 2, 1));
    memset(&row, 0xA5, sizeof row);
    CHECK(decode(6, large, sizeof large, sizeof text) == VEJUPA_INPUT_TOO_LONG && numbers(0, 0, 0, 0));
    memset(&row, 0xA5, sizeof row);
    CHECK(decode(129, data, sizeof data, sizeof text) == VEJUPA_COUNT_TOO_LARGE && numbers(0, 0, 0, 0));
    memset(&row, 0xA5, sizeof row);
    CHECK(vejupa_decode_row(columns, 6, data, sizeof data, release, values, 5, text, sizeof text, &row) == VEJUPA_TOO_LITTLE_ROOM && numbers(0, 0, 0, 0));
}

static void texts(void) {
    static const uint8_t abc[] = {0xC1, 0xC2, 0xC3}, grin[] = {0xD8, 0x3D, 0xDE, 0x00}, packed[] = {0x00, 0x5C}, no_digits[] = {0xAB, 0xCD, 0xEF, 0x0C};
    size_t len, put_in;
    CHECK(vejupa_decode_character_bytes(abc, 3, 37, release, text, 3, &len, &put_in) == VEJUPA_ACCEPTED && is_text(len, "ABC"));
    CHECK(vejupa_decode_character_bytes(abc, 3, 37, release, text, 2, &len, &put_in) == VEJUPA_TEXT_BUFFER_TOO_SHORT && len == 3);
    CHECK(vejupa_decode_character_bytes(abc, 3, 37, release, NULL, 0, &len, &put_in) == VEJUPA_TEXT_BUFFER_TOO_SHORT && len == 3);
    CHECK(vejupa_decode_character_bytes(NULL, 0, 37, release, NULL, 0, &len, &put_in) == VEJUPA_ACCEPTED && len == 0);
    CHECK(vejupa_decode_character_bytes(large, sizeof large, 37, release, text, 2, &len, &put_in) == VEJUPA_INPUT_TOO_LONG && len == 0);
    CHECK(vejupa_decode_graphic_bytes(grin, 4, 1200, release, text, sizeof text, &len, &put_in) == VEJUPA_ACCEPTED && is_text(len, "\xF0\x9F\x98\x80"));
    CHECK(vejupa_decode_graphic_bytes(NULL, 0, 1200, release, NULL, 0, &len, &put_in) == VEJUPA_ACCEPTED && len == 0);
    CHECK(vejupa_format_lob_locator(packed, 1, text, sizeof text, &len) == VEJUPA_ACCEPTED && is_text(len, "LOB locator 0x00"));
    CHECK(vejupa_format_lob_locator(NULL, 0, NULL, 0, &len) == VEJUPA_TEXT_BUFFER_TOO_SHORT && len == 14);
    CHECK(vejupa_format_rowid(packed, 2, text, sizeof text, &len) == VEJUPA_ACCEPTED && is_text(len, "0x005C"));
    CHECK(vejupa_format_rowid(NULL, 0, NULL, 0, &len) == VEJUPA_TEXT_BUFFER_TOO_SHORT && len == 2);
    CHECK(vejupa_decode_packed_decimal(packed, 2, 2, text, sizeof text, &len) == VEJUPA_ACCEPTED && is_text(len, "0.05"));
    CHECK(vejupa_decode_packed_decimal(no_digits, 4, 0, text, sizeof text, &len) == VEJUPA_ACCEPTED && is_text(len, ":;<=>?0"));
    CHECK(vejupa_decode_packed_decimal(NULL, 0, 2, NULL, 0, &len) == VEJUPA_DECIMAL_EMPTY && len == 0);
    CHECK(vejupa_decode_packed_decimal(large, VEJUPA_MAX_DECIMAL + 1, 2, text, sizeof text, &len) == VEJUPA_DECIMAL_TOO_LONG);
    CHECK(vejupa_bytes_are_likely_text(NULL, 0) == 1 && vejupa_bytes_are_likely_text(packed, 2) == 0);
}

/* Whether a text comes out so at a release, with no U+FFFD put in. */
static int reads_as(conversion call, const void *data, size_t data_len, uint32_t ccsid, uint32_t stated, const void *expected, size_t expected_len) {
    size_t len = SIZE_MAX, put_in = SIZE_MAX;
    return call((const uint8_t *)data, data_len, (uint16_t)ccsid, stated, text, sizeof text, &len, &put_in) == VEJUPA_ACCEPTED && len == expected_len &&
           memcmp(text, expected, len) == 0 && put_in == 0;
}

/* Of all CCSIDs, which go by the release: those that the library does not know, as characters, and as graphics where they are not UTF-16. An odd number of
 * bytes is not. */
static void releases_of_texts(void) {
    uint32_t ccsid, stated;
    for (ccsid = 0; ccsid <= UINT16_MAX; ccsid++) {
        int is_utf16 = ccsid == 1200 || ccsid == 13488, holds = 1;
        for (stated = 2; stated <= 3; stated++) {
            int is_037 = ccsid == 37 || ccsid == 500 || (stated == 3 && ccsid != 1208 && ccsid != 819);
            const char *blanks = is_037 ? "   " : "@@@", *unit = is_utf16 ? "K" : is_037 ? "\0." : "\0K";
            holds &= reads_as(vejupa_decode_character_bytes, "@@@", 3, ccsid, stated, blanks, 3);
            holds &= reads_as(vejupa_decode_character_bytes, "@@@", 2, ccsid, stated, blanks, 2);
            holds &= reads_as(vejupa_decode_graphic_bytes, "@@@", 3, ccsid, stated, blanks, 3);
            holds &= reads_as(vejupa_decode_graphic_bytes, "\0K", 2, ccsid, stated, unit, is_utf16 ? 1 : 2);
        }
        CHECK(holds);
    }
}

/* Every byte in a CCSID that the library does not know: at release 3 as in 37; at 2 as it is below 80, else as in 37, with all that stands beside it. */
static void bytes_of_an_unknown_ccsid(void) {
    unsigned byte;
    for (byte = 0; byte <= 0xFF; byte++) {
        const uint8_t data[] = {0x40, (uint8_t)byte};
        uint8_t named[8];
        size_t len, put_in;
        CHECK(vejupa_decode_character_bytes(data, 2, 37, 2, named, sizeof named, &len, &put_in) == VEJUPA_ACCEPTED && named[0] == ' ');
        CHECK(reads_as(vejupa_decode_character_bytes, data, 2, 1047, 3, named, len));
        CHECK(byte < 0x80 ? reads_as(vejupa_decode_character_bytes, data, 2, 1047, 2, data, 2)
                          : reads_as(vejupa_decode_character_bytes, data, 2, 1047, 2, named, len));
    }
}

/* Long blank fields, in a buffer of the text's length and in one that holds any text; then with a byte above 7F at their end. */
static void long_blank_fields(void) {
    static uint8_t room[3 * 5000 + 14];
    static const size_t lengths[] = {1, 63, 1023, 1024, 1025, 2047, 5000};
    size_t j, k, len, put_in;
    int turn;
    for (k = 0; k < LENGTH(lengths); k++) {
        for (turn = 0; turn < 8; turn++) {
            uint32_t stated = turn % 2 == 0 ? 2 : 3;
            conversion call = turn % 4 < 2 ? vejupa_decode_character_bytes : vejupa_decode_graphic_bytes;
            size_t n = lengths[k], text_room = turn < 4 ? n : 3 * n + 14;
            memset(large, 0x40, n);
            memset(room, 0xA5, sizeof room);
            CHECK(call(large, n, 1047, stated, room, text_room, &len, &put_in) == VEJUPA_ACCEPTED && len == n && put_in == 0);
            for (j = 0; j < n && room[j] == (stated == 2 ? '@' : ' '); j++) {
            }
            CHECK(j == n && room[n] == 0xA5);
            large[n - 1] = 0xC1;
            CHECK(call(large, n, 1047, stated, room, text_room, &len, &put_in) == VEJUPA_ACCEPTED && len == n && put_in == 0);
            for (j = 0; j + 1 < n && room[j] == ' '; j++) {
            }
            CHECK(j + 1 == n && room[j] == 'A' && room[n] == 0xA5);
            memset(large, 0, n);
        }
    }
}

/* A column and its bytes in a row; its text at release 2 and at release 3. */
struct by_release {
    enum vejupa_type type;
    uint16_t length, ccsid;
    const char *bytes;
    size_t bytes_len;
    const char *texts[2];
};

#define FIELD(type, length, ccsid, bytes, at_2, at_3) {VEJUPA_TYPE_##type, (length), (ccsid), (bytes), sizeof(bytes) - 1, {(at_2), (at_3)}}

static const struct by_release fields_by_release[] = {
    /* by CCSID, and the CCSID is not known */
    FIELD(CHAR, 2, 1047, "@K", "@K", " ."),
    FIELD(CHAR, 2, 0, "@K", "@K", " ."),
    FIELD(CHAR, 2, 1200, "@K", "@K", " ."),
    FIELD(CHAR, 2, 1047, "@\xC1", " A", " A"),
    FIELD(VAR_CHAR, 9, 1047, "\0\2@K", "@K", " ."),
    FIELD(LONG_VAR_CHAR, 0, 1047, "\0\2@K", "@K", " ."),
    FIELD(DATE, 0, 0, "@@@@@@@@@K", "@@@@@@@@@K", "         ."),
    FIELD(TIME, 0, 0, "@@@@@@@K", "@@@@@@@K", "       ."),
    FIELD(TIMESTAMP, 2, 0, "@K", "@K", " ."),
    FIELD(GRAPHIC, 2, 1047, "@K", "@K", " ."),
    FIELD(GRAPHIC, 1, 1200, "@", "@", " "),
    FIELD(GRAPHIC, 3, 13488, "@@K", "@@K", "  ."),
    FIELD(VAR_GRAPHIC, 9, 1047, "\0\2@K", "@K", " ."),
    FIELD(VAR_GRAPHIC, 9, 1200, "\0\3@@K", "@@K", "  ."),
    FIELD(LOB_CHAR, 2, 1047, "@K", "@K", " ."),
    FIELD(LOB_BYTES, 2, 1047, "@K", "@K", " ."), /* likely text */
    /* by CCSID, and it is known, or UTF-16 */
    FIELD(CHAR, 2, 1208, "@K", "@K", "@K"),
    FIELD(CHAR, 2, 819, "@K", "@K", "@K"),
    FIELD(CHAR, 2, 37, "@K", " .", " ."),
    FIELD(CHAR, 2, 500, "@K", " .", " ."),
    FIELD(LOB_BYTES, 2, 1208, "@K", "@K", "@K"),
    FIELD(LOB_BYTES, 2, 37, "@K", " .", " ."),
    FIELD(GRAPHIC, 2, 1200, "\0K", "K", "K"),
    FIELD(VAR_GRAPHIC, 9, 13488, "\0\2\0K", "K", "K"),
    /* UTF-8: texts of LOBs within the row */
    FIELD(CLOB, 100, 1047, "\0\0\0\2@K", "@K", "@K"),
    FIELD(CLOB, 100, 37, "\0\0\0\2@K", "@K", "@K"),
    FIELD(DB_CLOB, 100, 1200, "\0\0\0\2@K", "@K", "@K"),
    FIELD(XML, 0, 0, "\0\0\0\2@K", "@K", "@K"),
    /* by no CCSID */
    FIELD(CLOB, 0, 1047, "\0\0\0@", "LOB locator 0x00000040", "LOB locator 0x00000040"),
    FIELD(CLOB_LOCATOR, 0, 1047, "@@@@", "LOB locator 0x40404040", "LOB locator 0x40404040"),
    FIELD(VAR_CHAR, 0x8001, 1047, "\x80\1@", "LOB locator 0x40", "LOB locator 0x40"),
    FIELD(ROW_ID, 2, 1047, "@K", "0x404B", "0x404B"),
    FIELD(LOB_BYTES, 2, 1047, "\0@", "", ""), /* not likely: a Blob */
    FIELD(BINARY, 2, 1047, "@K", "", ""),
};

/* Texts at either release, in buffers of their length and of one byte less; all else of a value is the same, and so are the bytes used. */
static void releases_of_rows(void) {
    size_t k, needed;
    int turn;
    for (k = 0; k < LENGTH(fields_by_release); k++) {
        const struct by_release *field = &fields_by_release[k];
        const uint8_t *data = (const uint8_t *)field->bytes;
        struct vejupa_value first = {{0, 0, 0}};
        columns[0] = vejupa_make_column(field->type, field->length, 0, field->ccsid);
        for (turn = 0; turn < 2; turn++) {
            release = turn == 0 ? 2 : 3;
            needed = strlen(field->texts[turn]);
            memset(text, 0xA5, sizeof text);
            CHECK(decode(1, data, field->bytes_len, sizeof text) == VEJUPA_ACCEPTED && numbers(field->bytes_len, needed, 0, 0));
            CHECK(is_text(row.text_length, field->texts[turn]) && text[needed] == 0xA5);
            first = turn == 0 ? values[0] : first;
            CHECK(memcmp(&values[0], &first, sizeof first) == 0);
            CHECK(decode(1, data, field->bytes_len, needed) == VEJUPA_ACCEPTED && is_text(row.text_length, field->texts[turn]));
            CHECK(needed == 0 || (decode(1, data, field->bytes_len, needed - 1) == VEJUPA_TEXT_BUFFER_TOO_SHORT && numbers(0, needed, 0, 0)));
            CHECK(decode(1, data, field->bytes_len - 1, needed) == VEJUPA_BUFFER_TOO_SHORT);
        }
    }
}

/* No releases: those around the two, and such as would be one if only their lowest bits were kept. */
static const uint32_t no_releases[] = {0, 1, 4, 5, 127, 130, 255, 256, 258, 259, 65535, 65538, 65539, UINT32_C(0x01000002), UINT32_C(0x80000003), UINT32_MAX};

static int all_are(const void *array, size_t length, uint8_t byte) {
    const uint8_t *bytes = (const uint8_t *)array;
    size_t k;
    for (k = 0; k < length && bytes[k] == byte; k++) {
    }
    return k == length;
}

/* Whether a conversion answers 22 at this release, with nothing written and no number. */
static int refuses_text(conversion call, const uint8_t *data, size_t data_len, uint16_t ccsid, uint32_t stated, size_t room) {
    size_t len = SIZE_MAX, put_in = SIZE_MAX;
    memset(text, 0xA5, sizeof text);
    return call(data, data_len, ccsid, stated, text, room, &len, &put_in) == VEJUPA_UNKNOWN_RELEASE && len == 0 && put_in == 0 &&
           all_are(text, sizeof text, 0xA5);
}

/* The same of the row call, with so many words for columns and for values. */
static int refuses_row(size_t column_words, const uint8_t *data, size_t data_len, uint32_t stated, size_t value_words, size_t text_room) {
    memset(values, 0xA5, sizeof values);
    memset(text, 0xA5, sizeof text);
    memset(&row, 0xA5, sizeof row);
    return vejupa_raw_decode_row(columns->words, column_words, data, data_len, stated, values->words, value_words, text, text_room, &row.used,
                                 &row.text_length, &row.replaced, &row.expected, &row.actual) == VEJUPA_UNKNOWN_RELEASE &&
           numbers(0, 0, 0, 0) && all_are(values, sizeof values, 0xA5) && all_are(text, sizeof text, 0xA5);
}

/* 22 comes before every other answer, and where there would be none. */
static void unknown_releases(void) {
    static const uint8_t ten[] = {0x00, 0x00, 0x00, 0x0A, 0x40, 0x40};
    static const uint16_t ccsids[] = {0, 37, 500, 819, 1047, 1200, 1208, 13488};
    size_t j, k;
    for (k = 0; k < LENGTH(no_releases); k++) {
        uint32_t stated = no_releases[k];
        for (j = 0; j < LENGTH(ccsids); j++) {
            conversion call = j % 2 == 0 ? vejupa_decode_character_bytes : vejupa_decode_graphic_bytes;
            conversion other = j % 2 == 1 ? vejupa_decode_character_bytes : vejupa_decode_graphic_bytes;
            CHECK(refuses_text(call, ten, sizeof ten, ccsids[j], stated, sizeof text) && refuses_text(other, ten, sizeof ten, ccsids[j], stated, sizeof text));
            CHECK(refuses_text(call, NULL, 0, ccsids[j], stated, 0) && refuses_text(other, NULL, 0, ccsids[j], stated, 0));
            CHECK(refuses_text(call, ten, sizeof ten, ccsids[j], stated, 1) && refuses_text(other, ten, sizeof ten, ccsids[j], stated, 1)); /* 9 */
            CHECK(refuses_text(call, large, sizeof large, ccsids[j], stated, sizeof text)); /* 4 */
            CHECK(refuses_text(other, large, sizeof large, ccsids[j], stated, sizeof text));
        }
        columns[0] = vejupa_make_column(VEJUPA_TYPE_INTEGER, 0, 0, 0);
        columns[1] = vejupa_make_column(VEJUPA_TYPE_CHAR, 2, 0, 1047);
        CHECK(refuses_row(0, ten, 0, stated, 0, 0));                                 /* no column */
        CHECK(refuses_row(2, ten, sizeof ten, stated, 3, sizeof text));              /* no text */
        CHECK(refuses_row(4, ten, sizeof ten, stated, 6, sizeof text));              /* one */
        CHECK(refuses_row(4, ten, sizeof ten, stated, 6, 0));                        /* 9 */
        CHECK(refuses_row(4, ten, sizeof ten - 1, stated, 6, sizeof text));          /* 8 */
        CHECK(refuses_row(4, large, sizeof large, stated, 6, sizeof text));          /* 4 */
        CHECK(refuses_row(3, ten, sizeof ten, stated, 6, sizeof text));              /* 102, by an odd number of words */
        CHECK(refuses_row(4, ten, sizeof ten, stated, 5, sizeof text));              /* 101 */
        CHECK(refuses_row(2 * LENGTH(columns), ten, sizeof ten, stated, 0, 0));      /* 3, and 101 */
        columns[1].words[0] = VEJUPA_TYPE_DEC_FLOAT | 16 << 8;
        CHECK(refuses_row(4, ten, sizeof ten, stated, 6, sizeof text));              /* 5 */
        columns[1].words[0] = VEJUPA_TYPE_NULL + 1;
        CHECK(refuses_row(4, large, sizeof large, stated, 0, 0));                    /* 102, 101 and 4 */
        CHECK(vejupa_decode_row(columns, SIZE_MAX, NULL, 0, stated, NULL, 0, NULL, 0, &row) == VEJUPA_UNKNOWN_RELEASE && numbers(0, 0, 0, 0));
        CHECK(vejupa_decode_row(NULL, 0, NULL, 0, stated, NULL, 0, NULL, 0, &row) == VEJUPA_UNKNOWN_RELEASE && numbers(0, 0, 0, 0));
    }
}

/* Whether vejupa_decode_packed_whole answers so, with such a number, and with the scale where it accepts. Both are written, whatever was there before. */
static int whole_is(const uint8_t *data, size_t data_len, uint8_t scale, uint32_t answer, int64_t expected) {
    static const uint8_t before[] = {0xA5, 0x5A};
    size_t k;
    for (k = 0; k < LENGTH(before); k++) {
        int64_t number;
        uint8_t number_scale = before[k];
        memset(&number, before[k], sizeof number);
        if (vejupa_decode_packed_whole(data, data_len, scale, &number, &number_scale) != answer || number != expected ||
            number_scale != (answer == VEJUPA_ACCEPTED ? scale : 0)) {
            return 0;
        }
    }
    return 1;
}

static uint8_t packed[VEJUPA_MAX_DECIMAL];

/* Into `packed` so many bytes: zeros, digits and a sign. */
static void pack(const char *digits, unsigned sign, size_t data_len) {
    size_t count = strlen(digits), nibble = 2 * data_len - 1 - count, k;
    memset(packed, 0, sizeof packed);
    for (k = 0; k < count; k++, nibble++) {
        packed[nibble / 2] |= (uint8_t)((digits[k] - '0') << (nibble % 2 == 0 ? 4 : 0));
    }
    packed[data_len - 1] |= (uint8_t)sign;
}

/* Digits with a plus and with a minus sign, in as few bytes as can be and behind any number of zeros. */
static void comes_out_whole(const char *digits, uint32_t with_plus, int64_t plus, uint32_t with_minus, int64_t minus) {
    size_t data_len;
    unsigned sign;
    for (data_len = strlen(digits) / 2 + 1; data_len <= VEJUPA_MAX_DECIMAL; data_len++) {
        for (sign = 0xA; sign <= 0xF; sign++) {
            int is_minus = sign == 0xB || sign == 0xD;
            pack(digits, sign, data_len);
            CHECK(whole_is(packed, data_len, 2, is_minus ? with_minus : with_plus, is_minus ? minus : plus));
        }
    }
}

/* All of one byte and of two, by plain arithmetic. */
static void short_whole_numbers(void) {
    unsigned n;
    for (n = 0; n < 0x10000; n++) {
        const uint8_t data[] = {(uint8_t)(n >> 8), (uint8_t)(n & 0xFF)};
        unsigned first = n >> 12, second = n >> 8 & 0xF, third = n >> 4 & 0xF, sign = n & 0xF;
        int64_t number = (int64_t)(100 * first + 10 * second + third);
        uint32_t answer = first > 9 || second > 9 || third > 9 ? VEJUPA_DECIMAL_DIGIT : sign < 0xA ? VEJUPA_DECIMAL_SIGN : VEJUPA_ACCEPTED;
        number = answer != VEJUPA_ACCEPTED ? 0 : sign == 0xB || sign == 0xD ? -number : number;
        CHECK(whole_is(data, 2, (uint8_t)n, answer, number));
        if (n < 0x100) { /* zeros may lead */
            CHECK(whole_is(data + 1, 1, (uint8_t)n, answer, number));
        }
    }
}

/* The ends of the range, what lies beyond them, and what is 0 or small again where only the lowest 64 bits are kept. */
static void whole_numbers_at_the_ends(void) {
    static const char *const beyond[] = {"9223372036854775809",  "9999999999999999999",  "18446744073709551615", "18446744073709551616",
                                         "18446744073709551617", "36893488147419103232", "92233720368547758070", "340282366920938463463374607431768211456"};
    static char digits[2 * VEJUPA_MAX_DECIMAL];
    size_t k;
    comes_out_whole("0", VEJUPA_ACCEPTED, 0, VEJUPA_ACCEPTED, 0);
    comes_out_whole("1250", VEJUPA_ACCEPTED, 1250, VEJUPA_ACCEPTED, -1250);
    comes_out_whole("999999999999999999", VEJUPA_ACCEPTED, INT64_C(999999999999999999), VEJUPA_ACCEPTED, INT64_C(-999999999999999999));
    comes_out_whole("9223372036854775806", VEJUPA_ACCEPTED, INT64_MAX - 1, VEJUPA_ACCEPTED, 1 - INT64_MAX);
    comes_out_whole("9223372036854775807", VEJUPA_ACCEPTED, INT64_MAX, VEJUPA_ACCEPTED, -INT64_MAX);
    comes_out_whole("9223372036854775808", VEJUPA_DECIMAL_OUT_OF_RANGE, 0, VEJUPA_ACCEPTED, INT64_MIN);
    for (k = 0; k < LENGTH(beyond); k++) {
        comes_out_whole(beyond[k], VEJUPA_DECIMAL_OUT_OF_RANGE, 0, VEJUPA_DECIMAL_OUT_OF_RANGE, 0);
    }
    for (k = 0; k < sizeof digits - 1; k++) { /* a 1 and k zeros */
        digits[0] = '1';
        memset(digits + 1, '0', k);
        digits[k + 1] = 0;
        pack(digits, 0xD, VEJUPA_MAX_DECIMAL);
        CHECK(whole_is(packed, VEJUPA_MAX_DECIMAL, 2, k < 19 ? VEJUPA_ACCEPTED : VEJUPA_DECIMAL_OUT_OF_RANGE, k < 19 ? -strtoll(digits, NULL, 10) : 0));
    }
    memset(digits, '9', sizeof digits - 1);
    comes_out_whole(digits, VEJUPA_DECIMAL_OUT_OF_RANGE, 0, VEJUPA_DECIMAL_OUT_OF_RANGE, 0);
}

/* Each refusal, and which comes first: a digit above 9 at any place before a sign that is none, that before the range, and the number of bytes before all. */
static void refused_whole_numbers(void) {
    size_t data_len, place;
    unsigned sign, digit;
    CHECK(whole_is(NULL, 0, 7, VEJUPA_DECIMAL_EMPTY, 0) && whole_is(packed, 0, 7, VEJUPA_DECIMAL_EMPTY, 0));
    for (sign = 0; sign <= 0xF; sign++) {
        memset(packed, 0x99, sizeof packed);
        packed[VEJUPA_MAX_DECIMAL - 1] = (uint8_t)(0x90 | sign);
        CHECK(whole_is(packed, VEJUPA_MAX_DECIMAL, 7, sign < 0xA ? VEJUPA_DECIMAL_SIGN : VEJUPA_DECIMAL_OUT_OF_RANGE, 0));
        for (place = 0; place < 2 * VEJUPA_MAX_DECIMAL - 1; place++) {
            for (digit = 0xA; digit <= 0xF; digit++) {
                uint8_t *byte = &packed[place / 2], kept = *byte;
                *byte = (uint8_t)(place % 2 == 0 ? (kept & 0x0F) | digit << 4 : (kept & 0xF0) | digit);
                CHECK(whole_is(packed, VEJUPA_MAX_DECIMAL, 7, VEJUPA_DECIMAL_DIGIT, 0));
                *byte = kept;
            }
        }
    }
    for (data_len = VEJUPA_MAX_DECIMAL + 1; data_len <= sizeof large; data_len *= 3) {
        memset(large, 0xFF, data_len);
        CHECK(whole_is(large, data_len, 7, VEJUPA_DECIMAL_TOO_LONG, 0));
        memset(large, 0, data_len);
        large[data_len - 1] = 0x0C;
        CHECK(whole_is(large, data_len, 7, VEJUPA_DECIMAL_TOO_LONG, 0));
        large[data_len - 1] = 0;
    }
}

/* The scale comes back, and decides nothing. Beside the text, which has minus for D alone. */
static void scales_and_signs(void) {
    static const char *const texts_by_sign[] = {"123", "123", "123", "-123", "123", "123"};
    unsigned scale, sign;
    size_t len;
    for (sign = 0xA; sign <= 0xF; sign++) {
        const uint8_t data[] = {0x12, (uint8_t)(0x30 | sign)};
        for (scale = 0; scale <= UINT8_MAX; scale++) {
            CHECK(whole_is(data, 2, (uint8_t)scale, VEJUPA_ACCEPTED, sign == 0xB || sign == 0xD ? -123 : 123));
        }
        CHECK(vejupa_decode_packed_decimal(data, 2, 0, text, sizeof text, &len) == VEJUPA_ACCEPTED && is_text(len, texts_by_sign[sign - 0xA]));
    }
}

/* Where a Decimal's packed bytes begin in a row: a row call with the columns before it alone uses the bytes up to its column. */
static void packed_bytes_in_rows(void) {
    static const uint8_t data[] = {0xFF, 0x00, 0x01, 0x25, 0x0C, 0xFF, 0x00, 0x02, 'a', 'b', 0x00, 0x00, 0x07, 0x5D, 0xFF, 0x2C};
    static const size_t begins[] = {2, 5, 6, 10, 14, 15};
    static const int64_t numbers_there[] = {1250, 0, 0, -75, 0, 2};
    size_t k;
    columns[0] = vejupa_make_decimal(5, 2, 0);
    columns[1] = vejupa_make_column(VEJUPA_TYPE_CHAR, 3, 1, 1208); /* null */
    columns[2] = vejupa_make_column(VEJUPA_TYPE_VAR_CHAR, 9, 0, 1208);
    columns[3] = vejupa_make_decimal(5, 2, 1);
    columns[4] = vejupa_make_decimal(1, 0, 1); /* null */
    columns[5] = vejupa_make_decimal(1, 0, 0);
    CHECK(decode(6, data, sizeof data, sizeof text) == VEJUPA_ACCEPTED && numbers(16, 13, 0, 0) && is_text(row.text_length, "12.50ab-0.752"));
    for (k = 0; k < 6; k++) {
        CHECK(decode(k, data, sizeof data, sizeof text) == VEJUPA_ACCEPTED && row.used == begins[k]);
        if (numbers_there[k] != 0) {
            size_t at = row.used + (vejupa_column_nullable(&columns[k]) ? 1 : 0), length = ((size_t)vejupa_decimal_precision(&columns[k]) + 2) / 2;
            CHECK(whole_is(data + at, length, vejupa_decimal_scale(&columns[k]), VEJUPA_ACCEPTED, numbers_there[k]));
        }
    }
}

static void fixed_lengths(void) {
    struct vejupa_column column = vejupa_make_column(VEJUPA_TYPE_CHAR, 9, 1, 37);
    uint32_t fixed;
    size_t length;
    CHECK(vejupa_fixed_length(&column, &fixed, &length) == VEJUPA_ACCEPTED && fixed == 1 && length == 9);
    column = vejupa_make_column(VEJUPA_TYPE_XML, 8, 0, 37);
    CHECK(vejupa_fixed_length(&column, &fixed, &length) == VEJUPA_ACCEPTED && fixed == 0 && length == 0);
    column.words[0] = VEJUPA_TYPE_NULL + 1;
    CHECK(vejupa_fixed_length(&column, &fixed, &length) == VEJUPA_NO_COLUMN && fixed == 0 && length == 0);
}

/* Each answer has words of its own, and a number that is none has others. */
static void names(void) {
    static const uint32_t answers[] = {0, 1, 2, 3, 4, 5, 6, 7, 8, 9, 12, 13, 14, 15, 22, 101, 102, 10};
    size_t i, j;
    for (i = 0; i < LENGTH(answers); i++) {
        for (j = 0; j < i; j++) {
            CHECK(strcmp(vejupa_refusal_name(answers[i]), vejupa_refusal_name(answers[j])) != 0);
        }
    }
    CHECK(strcmp(vejupa_refusal_name(10), vejupa_refusal_name(UINT32_MAX)) == 0 && strcmp(vejupa_refusal_name(10), vejupa_refusal_name(11)) == 0);
    CHECK(strcmp(vejupa_refusal_name(VEJUPA_DECIMAL_DIGIT), "a packed decimal with a digit above 9") == 0);
    CHECK(strcmp(vejupa_refusal_name(VEJUPA_DECIMAL_SIGN), "a packed decimal with a sign below A") == 0);
    CHECK(strcmp(vejupa_refusal_name(VEJUPA_DECIMAL_OUT_OF_RANGE), "a packed decimal that no signed number of 64 bits holds") == 0);
    CHECK(strcmp(vejupa_refusal_name(VEJUPA_QRYDSC_BROKEN_OFF), "the description breaks off") == 0);
    CHECK(strcmp(vejupa_refusal_name(VEJUPA_UNKNOWN_RELEASE), "a host release that is neither 2 nor 3") == 0);
    for (i = 0; i <= VEJUPA_TYPE_NULL + 1; i++) {
        for (j = 0; j < i; j++) {
            CHECK(strcmp(vejupa_type_name((uint32_t)i), vejupa_type_name((uint32_t)j)) != 0);
        }
    }
    CHECK(strcmp(vejupa_type_name(VEJUPA_TYPE_CHAR), "Char") == 0 && strcmp(vejupa_type_name(VEJUPA_TYPE_NULL), "Null") == 0);
    for (i = 0; i <= VEJUPA_ORIGIN_DECLARED_LID + 1; i++) {
        for (j = 0; j < i; j++) {
            CHECK(strcmp(vejupa_origin_name((uint32_t)i), vejupa_origin_name((uint32_t)j)) != 0);
        }
    }
    CHECK(strcmp(vejupa_origin_name(VEJUPA_ORIGIN_SDA), "SDA") == 0 && strcmp(vejupa_origin_name(VEJUPA_ORIGIN_UNDECLARED_LID), "undeclared LID") == 0);
    CHECK(strcmp(vejupa_origin_name(VEJUPA_ORIGIN_DECLARED_LID), "declared LID") == 0);
    CHECK(strcmp(vejupa_origin_name(3), "no origin") == 0 && strcmp(vejupa_origin_name(UINT32_MAX), "no origin") == 0);
    for (i = 0; i <= VEJUPA_SORT_XML + 1; i++) {
        for (j = 0; j < i; j++) {
            CHECK(strcmp(vejupa_sort_name((uint32_t)i), vejupa_sort_name((uint32_t)j)) != 0);
        }
    }
    CHECK(strcmp(vejupa_sort_name(VEJUPA_SORT_DECIMAL), "Decimal") == 0 && strcmp(vejupa_sort_name(VEJUPA_SORT_XML), "Xml") == 0);
}

/* The archive's number is that of the header's version. */
static void version(void) {
    unsigned first, second, third;
    CHECK(sscanf(VEJUPA_VERSION, "%u.%u.%u", &first, &second, &third) == 3);
    CHECK(vejupa_version_wanted() == 10000 * first + 100 * second + third);
}

/* What holds at either release: every CCSID in it is known, save where a byte is above 7F. */
static void at_a_release(void) {
    own_columns();
    set_origins();
    origins_in_rows();
    described_origins();
    descriptions();
    rows();
    rows_one_after_the_other();
    texts();
    replaced_characters();
    replaced_in_rows();
    packed_bytes_in_rows();
}

int main(void) {
    fields_of_a_column();
    no_columns();
    fields_of_values();
    bytes_of_values();
    ends_of_descriptions();
    descriptions_cut_off();
    for (release = 2; release <= 3; release++) {
        at_a_release();
    }
    releases_of_texts();
    bytes_of_an_unknown_ccsid();
    long_blank_fields();
    releases_of_rows();
    unknown_releases();
    short_whole_numbers();
    whole_numbers_at_the_ends();
    refused_whole_numbers();
    scales_and_signs();
    fixed_lengths();
    names();
    version();
    printf("%u checks of the header hold\n", checks);
    return 0;
}
