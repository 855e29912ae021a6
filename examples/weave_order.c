/* Weave orders, from a host's bytes to a table: parses the description of the columns once, decodes the rows of a block, which lie one after the other, and
 * prints what it gets. tools/check-bindings compiles and runs it; examples/weave_order.out is what it prints.
 *
 *     cc -Iinclude examples/weave_order.c target/staticlib/libvejupa.a -o weave_order */
#include <inttypes.h>
#include <stdio.h>

#include "vejupa.h"

/* The release of the host, 2 or 3, which each call that converts texts by CCSID is told. It belongs to the host and not to the program: a controller reads it
 * from where it keeps the host's address. */
static const uint32_t RELEASE = 2;

/* What the host sends once: the description. Each line is one triplet: its length, its type, its data. */
static const uint8_t DESCRIPTION[] = {
    0x03, 0x78, 0x31,                               /* MDD: the next SDA stands for type 31, a Char that may be null, */
    0x08, 0x70, 0x40, 0x00, 0x00, 0x00, 0x00, 0x25, /* SDA: and is named 40; its CCSID is 37, EBCDIC */
    0x1E, 0x76, 0xD0,                               /* GDA: the columns follow, three bytes for each */
    0x02, 0x00, 0x04,                               /* the order's number: an Integer */
    0x40, 0x00, 0x08,                               /* the pattern: what 40 stands for, of 8 bytes */
    0x0E, 0x05, 0x02,                               /* the pile height in millimetres: a Decimal of 5 digits, 2 behind the point */
    0x05, 0x00, 0x02,                               /* how many colours: a SmallInt that may be null */
    0x0A, 0x00, 0x08,                               /* the warp's tension: a Double */
    0x20, 0x00, 0x0A,                               /* when it is due: a Date */
    0x33, 0x00, 0x28,                               /* a note: a VarChar of at most 40 bytes that may be null */
    0x62, 0x00, 0x10,                               /* the yarns' numbers: a VarBinary */
    0xCA, 0x80, 0x04,                               /* the drawing: a Clob that is sent apart, with 4 bytes to refer to it */
};

/* And then a block: three rows, and the end of the query. This host sends FF 00 before each row. In the third a byte of a text was lost. */
static const uint8_t BLOCK[] = {
    0xFF, 0x00,                                           /* a row begins */
    0x00, 0x01, 0x13, 0x0C,                               /* 70412 */
    0x00, 0xD2, 0xC1, 0xE2, 0xC2, 0xC1, 0xC8, 0x60, 0xF4, /* not null, KASBAH-4 */
    0x01, 0x25, 0x0C,                                     /* 12.50 */
    0x00, 0x00, 0x06,                                     /* not null, 6 */
    0x40, 0x35, 0x80, 0x00, 0x00, 0x00, 0x00, 0x00,       /* 21.5 */
    '2', '0', '2', '6', '-', '0', '3', '-', '0', '2',     /* 2026-03-02 */
    0x00, 0x00, 0x0C, 'c', 'r', 0xC3, 0xA8, 'm', 'e',     /* not null, 12 bytes of UTF-8 */
    ' ', 'f', 'i', 'e', 'l', 'd',                         /* */
    0x00, 0x03, 0x1A, 0x2B, 0x3C,                         /* three yarns */
    0x00, 0x00, 0x01, 0x07,                               /* where the drawing is */

    0xFF, 0x00,                                       /* a row begins */
    0x00, 0x01, 0x13, 0x0D,                           /* 70413 */
    0xFF,                                             /* null: no pattern yet */
    0x00, 0x07, 0x5D,                                 /* -0.75, a correction */
    0xFF,                                             /* null */
    0x7F, 0xF8, 0x00, 0x00, 0x00, 0x00, 0x00, 0x00,   /* no number: the tension was not measured */
    '2', '0', '2', '6', '-', '0', '3', '-', '0', '9', /* 2026-03-09 */
    0xFF,                                             /* null */
    0x00, 0x00,                                       /* no yarns */
    0x00, 0x00, 0x00, 0x00,                           /* no drawing */

    0xFF, 0x00,                                           /* a row begins */
    0x00, 0x01, 0x13, 0x0E,                               /* 70414 */
    0x00, 0xD2, 0xC1, 0xE2, 0xC2, 0xC1, 0xC8, 0x60, 0xF5, /* not null, KASBAH-5 */
    0x00, 0x80, 0x0C,                                     /* 8.00 */
    0x00, 0x00, 0x04,                                     /* not null, 4 */
    0x40, 0x34, 0x00, 0x00, 0x00, 0x00, 0x00, 0x00,       /* 20 */
    '2', '0', '2', '6', '-', '0', '3', '-', '1', '6',     /* 2026-03-16 */
    0x00, 0x00, 0x05, 'c', 'r', 0xC3, 'm', 'e',           /* not null, 5 bytes of UTF-8, of which C3 lacks the byte behind it */
    0x00, 0x01, 0x4D,                                     /* one yarn */
    0x00, 0x00, 0x01, 0x08,                               /* where the drawing is */

    0x00, 0x00, 0x00, 0x00, 0x64, '0', '2', '0', '0', '0', /* a status (SQLCA), not a row: no more rows */
    'C', 'S', 'S', '1', '0', '1', '4', '0', 0x00,          /* */
    0x00, 0x00, 0x00, 0x00, 0x00, 0x00, 0x00, 0x00,        /* */
    0x00, 0x00, 0x00, 0x02, 0x00, 0x00, 0x00, 0x00,        /* */
    0x00, 0x00, 0x00, 0x00, 0x00, 0x00, 0x00, 0x00,        /* */
    ' ', ' ', ' ', ' ', ' ', ' ', ' ', ' ', ' ', ' ', ' ', /* */
    0x00, 0x00, 0x00, 0x00, 0x00, 0x00, 0xFF, 0xFF,        /* */
};

static void print_column(const struct vejupa_column *column) {
    unsigned type = vejupa_column_type(column);
    unsigned numbers = vejupa_column_type_numbers(column);
    unsigned ccsid = vejupa_column_ccsid(column);
    printf("%u %s", vejupa_column_number(column), vejupa_type_name(type));
    if (type == VEJUPA_TYPE_DECIMAL) {
        printf("(%u,%u)", vejupa_decimal_precision(column), vejupa_decimal_scale(column));
    } else if (numbers != 0) {
        printf("(%u)", numbers);
    }
    if (vejupa_column_nullable(column)) {
        printf(" or null");
    }
    if (ccsid != 0) {
        printf(", CCSID %u", ccsid);
    }
    printf(", %s\n", vejupa_origin_name(vejupa_column_origin(column)));
}

static void print_text(struct vejupa_bytes bytes) {
    if (bytes.length == 0) {
        printf("empty");
    }
    fwrite(bytes.start, 1, bytes.length, stdout); /* a text may hold bytes 0, which would end it for printf */
}

static void print_hex(struct vejupa_bytes bytes) {
    if (bytes.length == 0) {
        printf("empty");
    }
    for (size_t i = 0; i < bytes.length; i++) {
        printf("%02X", bytes.start[i]);
    }
}

static void print_value(const struct vejupa_value *value, struct vejupa_bytes bytes) {
    switch (vejupa_value_sort(value)) {
    case VEJUPA_SORT_NULL:
        printf("null");
        break;
    case VEJUPA_SORT_SMALL_INT:
    case VEJUPA_SORT_INTEGER:
    case VEJUPA_SORT_BIG_INT:
        printf("%" PRId64, vejupa_value_integer(value));
        break;
    case VEJUPA_SORT_REAL:
        printf("%g", (double)vejupa_value_real(value));
        break;
    case VEJUPA_SORT_DOUBLE:
        printf("%g", vejupa_value_double(value));
        break;
    case VEJUPA_SORT_REAL_NAN:
    case VEJUPA_SORT_DOUBLE_NAN:
        printf("no number");
        break;
    case VEJUPA_SORT_BOOLEAN:
        printf(vejupa_value_integer(value) ? "true" : "false");
        break;
    case VEJUPA_SORT_BINARY:
    case VEJUPA_SORT_BLOB:
        print_hex(bytes);
        break;
    default: /* a text */
        print_text(bytes);
    }
    printf("%s\n", vejupa_value_is_external(value) ? ", sent apart" : "");
}

/* Room for the values and texts of a row; it serves one row after the other. */
static struct vejupa_value values[VEJUPA_MAX_COLUMNS];
static uint8_t text[256]; /* where more is needed, refusal 9 says how much */

/* Decodes the row that `data` begins with, prints it, and says how many bytes it took: 0 where it is refused. */
static size_t print_row(const struct vejupa_column *columns, size_t count, const uint8_t *data, size_t data_len) {
    struct vejupa_row row;
    uint32_t refusal = vejupa_decode_row(columns, count, data, data_len, RELEASE, values, VEJUPA_MAX_COLUMNS, text, sizeof text, &row);
    if (refusal == VEJUPA_BUFFER_TOO_SHORT) {
        size_t column = vejupa_short_column(columns, count, data, data_len, values, VEJUPA_MAX_COLUMNS);
        printf("refusal 8 at column %zu: %zu bytes expected, %zu there\n", column, row.expected, row.actual);
        return 0;
    }
    if (refusal != VEJUPA_ACCEPTED) {
        printf("refusal %" PRIu32 ": %s\n", refusal, vejupa_refusal_name(refusal));
        return 0;
    }
    printf("%zu bytes used, %zu bytes of text\n", row.used, row.text_length);
    if (row.replaced > 0) { /* a name may be another than the host's: let someone look at it */
        printf("beware: %zu malformed in its texts, shown as U+FFFD\n", row.replaced);
    }
    for (size_t k = 0; k < count; k++) {
        printf("%zu ", k);
        print_value(&values[k], vejupa_value_bytes(&values[k], data, data_len, text, row.text_length));
    }
    return row.used;
}

#define HEIGHT 2 /* the pile height's column */

/* The pile height of the row just decoded, as the loom takes it: a number, with scale 2 in hundredths of a millimetre. The row call gives its text, and does
 * not say where its packed bytes begin. Called with the columns before it alone, it says how many bytes these use: there the column begins, with an indicator
 * where it may be null. (Nor is the place a fixed one: the pattern before it may be null.) */
static void print_height(const struct vejupa_column *columns, const uint8_t *data, size_t data_len) {
    const struct vejupa_column *column = &columns[HEIGHT];
    size_t length = ((size_t)vejupa_decimal_precision(column) + 2) / 2;
    struct vejupa_row before;
    int64_t height = 0;
    uint8_t scale = 0;
    uint32_t refusal;
    if (vejupa_value_sort(&values[HEIGHT]) != VEJUPA_SORT_DECIMAL) {
        return; /* null */
    }
    refusal = vejupa_decode_row(columns, HEIGHT, data, data_len, RELEASE, values, VEJUPA_MAX_COLUMNS, text, sizeof text, &before);
    if (refusal == VEJUPA_ACCEPTED) {
        const uint8_t *packed = data + before.used + (vejupa_column_nullable(column) ? 1 : 0);
        refusal = vejupa_decode_packed_whole(packed, length, vejupa_decimal_scale(column), &height, &scale);
    }
    if (refusal == VEJUPA_ACCEPTED) {
        printf("pile height %" PRId64 ", scale %u\n", height, scale);
    } else { /* no digits, or no sign: nothing for a loom, whatever the text looks like */
        printf("no pile height: refusal %" PRIu32 ": %s\n", refusal, vejupa_refusal_name(refusal));
    }
}

/* The rows of a block. What such a loop must heed:
 * - A row may use no byte (a description without columns, say): stop then, or the loop does not end.
 * - This host sends FF 00 before each row. What begins otherwise is no row: stop before it. With the one SmallInt of 06 76 D0 04 00 02 the 62 bytes of a
 *   query's end are read as 30 rows. (Where rows follow a status that is no query's end, its length is the caller's to find.)
 * - Where a host does not send them, no row must begin FF, which is skipped with the byte behind it, be it the indicator of a Null or a number below 0. With
 *   the two SmallInts or null of 09 76 D0 05 00 02 05 00 02 the rows FF 00 00 07 (null and 7) and 00 00 01 00 00 02 (1 and 2) come out as one, 1792 and 256. */
static void print_rows(const struct vejupa_column *columns, size_t count, const uint8_t *block, size_t block_len) {
    size_t at = 0;
    while (block_len - at >= 2 && block[at] == 0xFF && block[at + 1] == 0x00) {
        printf("\nthe row at %zu: ", at);
        size_t used = print_row(columns, count, block + at, block_len - at);
        if (used == 0) {
            break;
        }
        print_height(columns, block + at, block_len - at);
        at += used;
    }
    printf("\n%zu bytes are left, from %zu on\n", block_len - at, at);
}

/* What the release decides: a text whose CCSID the library does not know, as 1047, is guessed at release 2, and is code page 037 at release 3. A blank
 * field shows it. */
static void print_blank_field(uint32_t release) {
    static const uint8_t blanks[] = {0x40, 0x40, 0x40, 0x40};
    size_t length, replaced;
    uint32_t refusal = vejupa_decode_character_bytes(blanks, sizeof blanks, 1047, release, text, sizeof text, &length, &replaced);
    printf("a blank field of CCSID 1047 at release %" PRIu32 ": ", release);
    if (refusal == VEJUPA_ACCEPTED) {
        printf("\"%.*s\"\n", (int)length, (const char *)text);
    } else {
        printf("refusal %" PRIu32 ": %s\n", refusal, vejupa_refusal_name(refusal));
    }
}

int main(void) {
    struct vejupa_column columns[VEJUPA_MAX_COLUMNS];
    size_t count;
    /* A description that breaks off is refused here. Columns may be missing in one: rows would lack their values, and each next row would be looked for within
     * the one before it. */
    uint32_t refusal = vejupa_parse_whole_qrydsc(DESCRIPTION, sizeof DESCRIPTION, columns, VEJUPA_MAX_COLUMNS, &count);
    if (refusal != VEJUPA_ACCEPTED) {
        printf("the description: refusal %" PRIu32 ": %s\n", refusal, vejupa_refusal_name(refusal));
        return 1;
    }
    printf("%zu columns\n", count);
    for (size_t k = 0; k < count; k++) {
        print_column(&columns[k]);
    }
    print_rows(columns, count, BLOCK, sizeof BLOCK);
    printf("\nthe first row, cut off: ");
    print_row(columns, count, BLOCK, 21);
    printf("\n");
    print_blank_field(2);
    print_blank_field(3);
    return 0;
}
