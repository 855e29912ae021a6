/* Vejupa: a proved decoder of Db2 rows. The calls of the static library libvejupa.a, for C (C99 and later) and C++.
 *
 *     tools/archive                                        writes target/staticlib/libvejupa.a, for x86-64 Linux
 *     cc -Iinclude program.c target/staticlib/libvejupa.a
 *
 * examples/weave_order.c is a whole program. docs/RULES.md has the rules of descriptions, rows and texts.
 *
 * What holds for every call
 *
 * - A call that can refuse answers 0 (VEJUPA_ACCEPTED) or a refusal's number; vejupa_refusal_name says it in words. On a refusal no lent array is changed.
 *   Numbers behind pointers are written always, and are 0 where nothing else is said. On acceptance what lies in an array after what was written keeps
 *   what it had.
 * - An array is a pointer and how many elements there are. Where there are none the pointer may be NULL; any other pointer must point at what it says.
 * - What a call writes must not overlap anything else that it is given. What is only read may overlap.
 * - Given these two, any bytes, numbers and lengths may be passed: each call tests its own input, reads and writes within what it is lent, and ends.
 * - Texts are UTF-8, without a byte 0 at the end, and may hold bytes 0; trailing blanks stay. Dates and times are as the host spelled them.
 * - The library keeps nothing from call to call and allocates nothing: calls that write to different memory may run at the same time. A call takes less than
 *   2,500 bytes of stack of its own; where the dynamic linker looks up memset or memmove first, that took some 3,500 more.
 *
 * The host's release, 2 or 3, decides how a text is read whose CCSID is none of 1208, 819, 37 and 500, save a graphic text that is UTF-16 (CCSID 1200 or
 * 13488, an even number of bytes):
 *
 * - 2: by a guess, as the published Rust does and as these calls did before 0.6.0: ASCII where all bytes are below 80 in hexadecimal, else code page 037. So a
 *   blank field, which is bytes 40, comes out as `@`s.
 * - 3: code page 037, whatever the bytes are.
 *
 * In a row this goes for Char, VarChar, LongVarChar, Graphic, VarGraphic, Date, Time, Timestamp and LobChar, and for a LobBytes whose bytes are likely text
 * (vejupa_bytes_are_likely_text). The text of a Clob, DbClob or Xml within the row is UTF-8 at either release; locators, row ids, decimals and numbers have no
 * part in it. What a value takes of the row, and so `used`, does not depend on the release.
 *
 * State 2 to keep what earlier versions gave, and 3 once the host has changed over. Hosts change over one at a time: keep the number beside the host's
 * address, not in the program. Any other number is refused by 22, before anything else is looked at. It has 32 bits, so that 258 is refused and not cut to 2.
 * That 2 is stated for a host of release 3, or 3 for one of release 2, no call notices. What shows it are blank fields that come out as `@`s, or texts that
 * come out as accented letters: compare with what the host's own client shows.
 *
 * Rows that lie one after the other, where a host sends FF 00 before each, as the one does whose bytes were recorded (Apache Derby's server): decode a row
 * while the rest begins FF 00, and go on by `used`. Heed:
 *
 * - `used` may be 0 (no columns, or only such as take no bytes): stop then, or the loop does not end.
 * - What begins otherwise is no row. A group that begins 00 is a status, as a query's end is; read as rows, it comes out as numbers. Rows may follow one
 *   that is a warning. A lone FF is a row that is cut off. Finding the end of a block, and stepping over a status, is the caller's work.
 * - The rest handed in has at most VEJUPA_MAX_INPUT bytes, else it is refused by 4.
 * - Where a host does not send FF 00, a row must not begin FF: two bytes are skipped all the same. An indicator of Null does so, and so does a number below 0.
 *
 * What follows a row does not change it, where it has two bytes or more, uses at least one, and each column carries its own end (W9 of docs/RULES.md). */
#ifndef VEJUPA_H
#define VEJUPA_H

#include <stddef.h>
#include <stdint.h>
#include <string.h>

#ifdef __cplusplus
extern "C" {
#if defined(__GNUC__)
#pragma GCC diagnostic push
#pragma GCC diagnostic ignored "-Wold-style-cast" /* C has no other */
#endif
#endif

/* The version of these calls. CHANGELOG.md says what changed. */
#define VEJUPA_VERSION "0.6.0"

/* Answers. 1 to 9, 12 to 15 and 22 are the refusals of docs/RULES.md. */
#define VEJUPA_ACCEPTED 0
#define VEJUPA_QRYDSC_TOO_LONG 1       /* a description of more than 65,536 bytes */
#define VEJUPA_TOO_MANY_COLUMNS 2      /* a description of more than 128 columns */
#define VEJUPA_COUNT_TOO_LARGE 3       /* more than 128 columns handed to the row call */
#define VEJUPA_INPUT_TOO_LONG 4        /* more than 1,048,576 bytes, of a row or for a text conversion */
#define VEJUPA_DEC_FLOAT_COLUMN 5      /* a column of type DecFloat handed to the row call */
#define VEJUPA_DECIMAL_EMPTY 6         /* a packed decimal of no bytes */
#define VEJUPA_DECIMAL_TOO_LONG 7      /* a packed decimal of more than 128 bytes */
#define VEJUPA_BUFFER_TOO_SHORT 8      /* the row ends before a value does; with the bytes expected and the bytes there are */
#define VEJUPA_TEXT_BUFFER_TOO_SHORT 9 /* the texts do not fit into the lent buffer; with the length needed */
#define VEJUPA_DECIMAL_DIGIT 12        /* a packed decimal with a digit above 9; this and the next two by vejupa_decode_packed_whole alone */
#define VEJUPA_DECIMAL_SIGN 13         /* a packed decimal with a sign below A */
#define VEJUPA_DECIMAL_OUT_OF_RANGE 14 /* a packed decimal that no signed number of 64 bits holds */
#define VEJUPA_QRYDSC_BROKEN_OFF 15    /* a description that breaks off: bytes are left behind its last whole triplet */
#define VEJUPA_UNKNOWN_RELEASE 22      /* a host's release that is neither 2 nor 3; the first that is tested, of every call that states one */
#define VEJUPA_TOO_LITTLE_ROOM 101     /* there is less room than there are columns, or values */
#define VEJUPA_NO_COLUMN 102           /* what stands for a column, or for a type, is none */

/* Limits. */
#define VEJUPA_MAX_QRYDSC 65536  /* bytes of a description */
#define VEJUPA_MAX_COLUMNS 128   /* columns of a description, and of the row call */
#define VEJUPA_MAX_INPUT 1048576 /* bytes of a row, and of what a text conversion is given */
#define VEJUPA_MAX_DECIMAL 128   /* bytes of a packed decimal */

/* A column and a value are words; the functions below take their fields out. Layout, in bits from the lowest:
 *
 *     column   words[0]   0..7 type, 8..23 the type's own numbers, 24..31 DRDA type code, 32..47 column number (at most 255), 48 nullable,
 *                         49 little-endian, 50 whether there is a reference length, 51..52 origin, 53..63 are 0
 *              words[1]   0..15 length, 16..23 precision, 24..31 scale, 32..47 CCSID, 48..63 reference length, or 0
 *     value    words[0]   0..7 sort, 8 external, 9..63 are 0
 *              words[1]   of a number the number itself: integers in two's complement of 64 bits, floats by their bits, Booleans 0 or 1; of a text
 *                         the place of its first byte in the text buffer; of a Binary or Blob the place of its first byte in the row (an empty one: 0);
 *                         else 0
 *              words[2]   of a text, Binary or Blob the number of its bytes; else 0 */
#define VEJUPA_COLUMN_WORDS 2
#define VEJUPA_VALUE_WORDS 3

struct vejupa_column {
    uint64_t words[VEJUPA_COLUMN_WORDS];
};

struct vejupa_value {
    uint64_t words[VEJUPA_VALUE_WORDS];
};

/* Bytes somewhere: a part of a row or of a text buffer. */
struct vejupa_bytes {
    const uint8_t *start;
    size_t length;
};

/* The types of columns, and beside each the numbers that the type itself holds. Where none is listed they are 0, and other words are no column's. */
enum vejupa_type {
    VEJUPA_TYPE_SMALL_INT = 0,
    VEJUPA_TYPE_INTEGER = 1,
    VEJUPA_TYPE_BIG_INT = 2,
    VEJUPA_TYPE_REAL = 3,
    VEJUPA_TYPE_DOUBLE = 4,
    VEJUPA_TYPE_DECIMAL = 5,   /* precision in the low 8 bits, scale in the high 8 */
    VEJUPA_TYPE_DEC_FLOAT = 6, /* digits, at most 255 */
    VEJUPA_TYPE_CHAR = 7,      /* length */
    VEJUPA_TYPE_VAR_CHAR = 8,  /* length */
    VEJUPA_TYPE_LONG_VAR_CHAR = 9,
    VEJUPA_TYPE_CLOB = 10,
    VEJUPA_TYPE_BINARY = 11,     /* length */
    VEJUPA_TYPE_VAR_BINARY = 12, /* length */
    VEJUPA_TYPE_BLOB = 13,
    VEJUPA_TYPE_BLOB_LOCATOR = 14,
    VEJUPA_TYPE_DATE = 15,
    VEJUPA_TYPE_TIME = 16,
    VEJUPA_TYPE_TIMESTAMP = 17,
    VEJUPA_TYPE_GRAPHIC = 18,     /* length */
    VEJUPA_TYPE_VAR_GRAPHIC = 19, /* length */
    VEJUPA_TYPE_DB_CLOB = 20,
    VEJUPA_TYPE_CLOB_LOCATOR = 21,
    VEJUPA_TYPE_DB_CLOB_LOCATOR = 22,
    VEJUPA_TYPE_LOB_BYTES = 23, /* length */
    VEJUPA_TYPE_LOB_CHAR = 24,  /* length */
    VEJUPA_TYPE_ROW_ID = 25,    /* length */
    VEJUPA_TYPE_BOOLEAN = 26,
    VEJUPA_TYPE_XML = 27,
    VEJUPA_TYPE_NULL = 28
};

/* Where a description has a column from. Nothing is decoded by it. Of the columns that a description gives, those from an SDA are little-endian and those from
 * a LID big-endian; a caller's own list may have any origin beside either byte order. There is no origin of the number 3, and such words are no column's. */
enum vejupa_origin {
    VEJUPA_ORIGIN_SDA = 0,            /* an SDA (simple data array) */
    VEJUPA_ORIGIN_UNDECLARED_LID = 1, /* a LID (local identifier) of a D0 group that no environment entry declares */
    VEJUPA_ORIGIN_DECLARED_LID = 2    /* a LID of a D0 group that one declares; the column has the entry's type and CCSID */
};

/* The sorts of values. A float that is no number has a sort of its own. */
enum vejupa_sort {
    VEJUPA_SORT_NULL = 0,
    VEJUPA_SORT_SMALL_INT = 1,
    VEJUPA_SORT_INTEGER = 2,
    VEJUPA_SORT_BIG_INT = 3,
    VEJUPA_SORT_REAL = 4,
    VEJUPA_SORT_REAL_NAN = 5,
    VEJUPA_SORT_DOUBLE = 6,
    VEJUPA_SORT_DOUBLE_NAN = 7,
    VEJUPA_SORT_DECIMAL = 8, /* a text, such as -0.05. A nibble above 9 in place of a digit gives one of the characters : ; < = > ? */
    VEJUPA_SORT_CHAR = 9,
    VEJUPA_SORT_VAR_CHAR = 10,
    VEJUPA_SORT_BINARY = 11,
    VEJUPA_SORT_BLOB = 12,
    VEJUPA_SORT_CLOB = 13,
    VEJUPA_SORT_ROW_ID = 14, /* a text: 0x and hexadecimal digits */
    VEJUPA_SORT_DATE = 15,
    VEJUPA_SORT_TIME = 16,
    VEJUPA_SORT_TIMESTAMP = 17,
    VEJUPA_SORT_BOOLEAN = 18,
    VEJUPA_SORT_XML = 19
};

/* The library's own symbols, for other languages that can call C; a C program calls what follows them. Columns and values are counted in words here: a name
 * that ends in _words_len says how many words there are, two a column, three a value. An odd number of column words is 102, where none of 22, 3 and 101
 * applies. No pointer is null, also where there are no elements: any address will do that is aligned for the type. What each promises stands beside it in
 * crates/vejupa/src/lib.rt. */
#if defined(__GNUC__)
#define VEJUPA_NONNULL __attribute__((nonnull))
#else
#define VEJUPA_NONNULL
#endif

uint32_t vejupa_raw_parse_whole_qrydsc(const uint8_t *data, size_t data_len, uint64_t *column_words, size_t column_words_len, size_t *count) VEJUPA_NONNULL;
uint32_t vejupa_raw_parse_qrydsc(const uint8_t *data, size_t data_len, uint64_t *column_words, size_t column_words_len, size_t *count,
                                 uint32_t *broken_off) VEJUPA_NONNULL;
uint32_t vejupa_raw_decode_row(const uint64_t *column_words, size_t column_words_len, const uint8_t *data, size_t data_len, uint32_t release,
                               uint64_t *value_words, size_t value_words_len, uint8_t *text, size_t text_len, size_t *used, size_t *text_length,
                               size_t *replaced, size_t *expected, size_t *actual) VEJUPA_NONNULL;
/* *bytes is {data, 0}, or any slice, before the call too. */
void vejupa_raw_value_bytes(const uint64_t *value_words, size_t value_words_len, const uint8_t *data, size_t data_len, const uint8_t *text,
                            size_t text_len, struct vejupa_bytes *bytes) VEJUPA_NONNULL;
/* `type_word` is the low 24 bits of a column's first word. */
uint32_t vejupa_raw_fixed_length(uint64_t type_word, uint32_t *fixed, size_t *length) VEJUPA_NONNULL;
uint32_t vejupa_raw_decode_character_bytes(const uint8_t *data, size_t data_len, uint16_t ccsid, uint32_t release, uint8_t *text, size_t text_len,
                                           size_t *text_length, size_t *replaced) VEJUPA_NONNULL;
uint32_t vejupa_raw_decode_graphic_bytes(const uint8_t *data, size_t data_len, uint16_t ccsid, uint32_t release, uint8_t *text, size_t text_len,
                                         size_t *text_length, size_t *replaced) VEJUPA_NONNULL;
uint32_t vejupa_raw_format_lob_locator(const uint8_t *bytes, size_t bytes_len, uint8_t *text, size_t text_len, size_t *text_length) VEJUPA_NONNULL;
uint32_t vejupa_raw_format_rowid(const uint8_t *bytes, size_t bytes_len, uint8_t *text, size_t text_len, size_t *text_length) VEJUPA_NONNULL;
uint32_t vejupa_raw_decode_packed_decimal(const uint8_t *data, size_t data_len, uint8_t precision, uint8_t scale, uint8_t *text, size_t text_len,
                                          size_t *text_length) VEJUPA_NONNULL;
uint32_t vejupa_raw_decode_packed_whole(const uint8_t *data, size_t data_len, uint8_t scale, int64_t *whole, uint8_t *whole_scale) VEJUPA_NONNULL;
uint32_t vejupa_raw_bytes_are_likely_text(const uint8_t *bytes, size_t bytes_len) VEJUPA_NONNULL;

/* The version as a number: 10000 times the first part, 100 times the second, and the third. Each file that includes this header refers to this symbol: with
 * an archive of another version it does not link. */
uint32_t vejupa_version_0_6_0(void);
#if defined(__GNUC__)
#if defined(__has_attribute)
#if __has_attribute(retain)
__attribute__((retain)) /* also where the linker drops unused sections */
#endif
#endif
__attribute__((used))
#endif
static uint32_t (*const vejupa_version_wanted)(void) = vejupa_version_0_6_0;

/* An address for an array without elements, which may come with NULL; of any other array its own. */
static inline const void *vejupa_given(const void *p, size_t n) {
    static const uint64_t nothing = 0;
    return n != 0 ? p : &nothing;
}
static inline void *vejupa_lent(void *p, size_t n) {
    static uint64_t nothing;
    return n != 0 ? p : &nothing;
}

/* n, or the limit where there are more: so many are as good as any more, and the number of their words does not wrap. */
static inline size_t vejupa_at_most(size_t n, size_t limit) { return n < limit ? n : limit; }

/* ---- The calls. */

/* The columns that a description (QRYDSC) lists, in order: the first *count of `columns`, which has room for `columns_room` of them. VEJUPA_MAX_COLUMNS are
 * always enough; a call without room counts. This is the call for a description that comes from a host: one that breaks off is refused.
 *
 * A description is read as triplets, one behind the other: a length byte, which counts itself, a type byte and data. It breaks off where bytes are left behind
 * the last whole one: a single byte; a length of 0 or 1, and so zeros at the end too; a length that runs past the end. The empty description does not.
 *
 * Answers the first of these that applies, or 0:
 *     1     `data` has more than 65,536 bytes
 *     15    the description breaks off
 *     2     it has more than 128 columns
 *     101   there is room for fewer columns than it has: *count is the number of columns all the same
 *
 * Not all damage is noticed: a cut exactly between two triplets, a wrong length that happens to fit, and damage within a triplet or a group are not, and the
 * columns are then fewer than the host's, or others. Nor is a description refused that goes on in a triplet 7F, as Apache Derby's server sends from the 85th
 * column on: those columns are missing. Compare *count with the number that the query has. */
static inline uint32_t vejupa_parse_whole_qrydsc(const uint8_t *data, size_t data_len, struct vejupa_column *columns, size_t columns_room,
                                                 size_t *count) {
    return vejupa_raw_parse_whole_qrydsc((const uint8_t *)vejupa_given(data, data_len), data_len, (uint64_t *)vejupa_lent(columns, columns_room),
                                         VEJUPA_COLUMN_WORDS * vejupa_at_most(columns_room, VEJUPA_MAX_COLUMNS), count);
}

/* The same, save that a description that breaks off is not refused: the columns read up to there are all that there are, and *broken_off is 1; of any other it
 * is 0. The call is there for descriptions that were stored with such an ending, when nothing refused them, so that the rows stored beside them can still be
 * decoded; heed *broken_off, as columns may be missing. Answers the first of 1, 2 and 101 that applies, or 0. *broken_off tells of an accepted description
 * alone: with each other answer it is 0, also where a call without room counts. The damage that is not noticed above is not noticed here either. */
static inline uint32_t vejupa_parse_qrydsc(const uint8_t *data, size_t data_len, struct vejupa_column *columns, size_t columns_room, size_t *count,
                                           uint32_t *broken_off) {
    return vejupa_raw_parse_qrydsc((const uint8_t *)vejupa_given(data, data_len), data_len, (uint64_t *)vejupa_lent(columns, columns_room),
                                   VEJUPA_COLUMN_WORDS * vejupa_at_most(columns_room, VEJUPA_MAX_COLUMNS), count, broken_off);
}

/* What the row call answers beside the values. What does not apply is 0. */
struct vejupa_row {
    size_t used;        /* accepted: the bytes used, from data's first byte, the two leading ones included. It may be 0 */
    size_t text_length; /* accepted: the bytes of text written. With 9: the length that `text` must have; nothing is written */
    size_t replaced;    /* accepted: how many U+FFFD the texts hold that stand for what was malformed, not counting those that the host itself sent */
    size_t expected;    /* with 8: the bytes that a value needs, */
    size_t actual;      /* and the bytes there are for it. For an indicator both count from the row's first byte behind the two leading ones. How many bytes the row
                           lacks they do not tell: it may be fewer than the difference, or more */
};

/* The values of one row, one for each column: values[k] is of columns[k]. `columns` are as the two calls above write them or a caller's own
 * (vejupa_make_column). The values' texts go into `text`, one after the other from its first byte; vejupa_value_bytes shows a value's bytes. `data` may go on
 * after the row. Of a column the call goes by the type with its own numbers, nullable, the CCSID, the byte order and the reference length, and by the length of
 * Timestamp, Boolean, Blob, Clob and DbClob alone. `release` is the host's, 2 or 3 (see the beginning of this file).
 *
 * Answers the first of these that applies, or 0:
 *     22    `release` is neither 2 nor 3, also where no column is a text
 *     3     there are more than 128 columns
 *     101   there is room for fewer values than there are columns
 *     102   a column is none (vejupa_is_column tells which)
 *     4     `data` has more than 1,048,576 bytes
 *     5     a column is of type DecFloat
 *     8     the row ends before a value does: row->expected and row->actual; vejupa_short_column tells which column
 *     9     `text` is too short: row->text_length is the length needed, and a second call with such a buffer is accepted
 * It is fastest where text_room is at least 3 for each byte of the row and 258 for each column, so that any texts fit. */
static inline uint32_t vejupa_decode_row(const struct vejupa_column *columns, size_t column_count, const uint8_t *data, size_t data_len,
                                         uint32_t release, struct vejupa_value *values, size_t values_room, uint8_t *text, size_t text_room,
                                         struct vejupa_row *row) {
    return vejupa_raw_decode_row((const uint64_t *)vejupa_given(columns, column_count),
                                 VEJUPA_COLUMN_WORDS * vejupa_at_most(column_count, VEJUPA_MAX_COLUMNS + 1),
                                 (const uint8_t *)vejupa_given(data, data_len), data_len, release, (uint64_t *)vejupa_lent(values, values_room),
                                 VEJUPA_VALUE_WORDS * vejupa_at_most(values_room, VEJUPA_MAX_COLUMNS), (uint8_t *)vejupa_lent(text, text_room),
                                 text_room, &row->used, &row->text_length, &row->replaced, &row->expected, &row->actual);
}

/* The bytes of a value: a part of `data` or of `text`, which are those of the call that gave the value. There are none for a number, a Boolean, Null, a sort
 * that there is none of, and a place that does not fit. Nothing is copied.
 *
 * Where a value is external, its data come outside of the row, and its bytes only refer to them: a Clob's or Xml's text is "LOB locator 0x" and the reference
 * in hexadecimal; a Blob's bytes are the reference's first four (all, where there are fewer, and for a LobBytes column). */
static inline struct vejupa_bytes vejupa_value_bytes(const struct vejupa_value *value, const uint8_t *data, size_t data_len, const uint8_t *text,
                                                     size_t text_len) {
    struct vejupa_bytes bytes = {(const uint8_t *)vejupa_given(data, data_len), 0};
    vejupa_raw_value_bytes(value->words, VEJUPA_VALUE_WORDS, bytes.start, data_len, (const uint8_t *)vejupa_given(text, text_len), text_len, &bytes);
    return bytes;
}

/* The text of a character value, by its CCSID: 1208 is UTF-8, 819 ISO 8859-1, 37 and 500 code page 037. Any other goes by the host's release: at 2 it is ASCII
 * where all bytes are below 80 in hexadecimal, else code page 037; at 3 it is code page 037. What is malformed becomes U+FFFD: *replaced says how many were put
 * in so, one for each malformed part that is as long as can be; a U+FFFD that the host itself sent is not counted. *text_length is the length of the text,
 * written or with 9 needed, so that a call without a buffer measures; 3 data_len + 14 bytes are always enough, here and in the next three. Answers the first of
 * 22, 4 and 9 that applies, or 0. */
static inline uint32_t vejupa_decode_character_bytes(const uint8_t *data, size_t data_len, uint16_t ccsid, uint32_t release, uint8_t *text,
                                                     size_t text_room, size_t *text_length, size_t *replaced) {
    return vejupa_raw_decode_character_bytes((const uint8_t *)vejupa_given(data, data_len), data_len, ccsid, release,
                                             (uint8_t *)vejupa_lent(text, text_room), text_room, text_length, replaced);
}

/* The text of a graphic value, by its CCSID: 1200 and 13488 are big-endian UTF-16 where the number of bytes is even, at either release; any other, and an odd
 * number of bytes, goes as characters. An unpaired surrogate becomes U+FFFD, and counts. The numbers and answers as above. */
static inline uint32_t vejupa_decode_graphic_bytes(const uint8_t *data, size_t data_len, uint16_t ccsid, uint32_t release, uint8_t *text,
                                                   size_t text_room, size_t *text_length, size_t *replaced) {
    return vejupa_raw_decode_graphic_bytes((const uint8_t *)vejupa_given(data, data_len), data_len, ccsid, release,
                                           (uint8_t *)vejupa_lent(text, text_room), text_room, text_length, replaced);
}

/* The text "LOB locator 0x" and the bytes in upper-case hexadecimal. The length as above. Answers 0, 4 or 9. */
static inline uint32_t vejupa_format_lob_locator(const uint8_t *bytes, size_t bytes_len, uint8_t *text, size_t text_room, size_t *text_length) {
    return vejupa_raw_format_lob_locator((const uint8_t *)vejupa_given(bytes, bytes_len), bytes_len, (uint8_t *)vejupa_lent(text, text_room),
                                         text_room, text_length);
}

/* The text "0x" and the bytes in upper-case hexadecimal. The length and answers as above. */
static inline uint32_t vejupa_format_rowid(const uint8_t *bytes, size_t bytes_len, uint8_t *text, size_t text_room, size_t *text_length) {
    return vejupa_raw_format_rowid((const uint8_t *)vejupa_given(bytes, bytes_len), bytes_len, (uint8_t *)vejupa_lent(text, text_room), text_room,
                                   text_length);
}

/* The text of a packed decimal with so many digits behind the point. No such text is longer than 258 bytes. A nibble above 9 in place of a digit gives one of
 * the characters : ; < = > ?. The length as above. Answers 0, 6, 7 or 9. */
static inline uint32_t vejupa_decode_packed_decimal(const uint8_t *data, size_t data_len, uint8_t scale, uint8_t *text, size_t text_room,
                                                    size_t *text_length) {
    return vejupa_raw_decode_packed_decimal((const uint8_t *)vejupa_given(data, data_len), data_len, 0, scale,
                                            (uint8_t *)vejupa_lent(text, text_room), text_room, text_length);
}

/* A packed decimal as a whole number, and its scale beside it: *whole is what the digits and the sign say, *whole_scale the scale that was handed in, which
 * decides nothing. So 12.50 in millimetres, of scale 2, is 1250 hundredths of a millimetre. After a refusal both are 0.
 *
 * The last nibble is the sign, as z/Architecture has it: A, C, E and F are plus, B and D minus. (In the text that vejupa_decode_packed_decimal and the row call
 * give, D alone is minus: B is plus there, and so is what is no sign.) Every other nibble is a digit. Any number of zeros may lead; minus zero is 0.
 *
 * Answers the first of these that applies to the bytes as a whole, or 0:
 *     6     there are no bytes
 *     7     there are more than 128
 *     12    a digit is above 9
 *     13    the sign is below A
 *     14    the number is below -2^63 or above 2^63 - 1
 *
 * The bytes are a Decimal column's in a row: (precision + 2) / 2 of them, rounded down, behind the indicator where it may be null. The row call gives their
 * text and does not say where they begin. A row call with the columns before this one alone does: the column begins at its row.used, as
 * examples/weave_order.c shows. */
static inline uint32_t vejupa_decode_packed_whole(const uint8_t *data, size_t data_len, uint8_t scale, int64_t *whole, uint8_t *whole_scale) {
    return vejupa_raw_decode_packed_whole((const uint8_t *)vejupa_given(data, data_len), data_len, scale, whole, whole_scale);
}

/* 1 where the bytes are well-formed UTF-8 without control characters save tab, line feed and carriage return; else 0. For bytes of any number. */
static inline int vejupa_bytes_are_likely_text(const uint8_t *bytes, size_t bytes_len) {
    return (int)vejupa_raw_bytes_are_likely_text((const uint8_t *)vejupa_given(bytes, bytes_len), bytes_len);
}

/* The byte count that a column's type alone tells, for whoever shows columns: *fixed is 1 and *length the count, else both are 0. It is not what the row call
 * goes by: a Graphic of 4 is 8 here and may take 4 there. Answers 0 or 102. */
static inline uint32_t vejupa_fixed_length(const struct vejupa_column *column, uint32_t *fixed, size_t *length) {
    return vejupa_raw_fixed_length(column->words[0] & 0xFFFFFF, fixed, length);
}

/* An answer in words, for a message. */
static inline const char *vejupa_refusal_name(uint32_t answer) {
    switch (answer) {
    case VEJUPA_ACCEPTED: return "accepted";
    case VEJUPA_QRYDSC_TOO_LONG: return "the description has more than 65,536 bytes";
    case VEJUPA_TOO_MANY_COLUMNS: return "the description has more than 128 columns";
    case VEJUPA_COUNT_TOO_LARGE: return "more than 128 columns";
    case VEJUPA_INPUT_TOO_LONG: return "more than 1,048,576 bytes";
    case VEJUPA_DEC_FLOAT_COLUMN: return "a column of type DecFloat is not decoded";
    case VEJUPA_DECIMAL_EMPTY: return "a packed decimal of no bytes";
    case VEJUPA_DECIMAL_TOO_LONG: return "a packed decimal of more than 128 bytes";
    case VEJUPA_BUFFER_TOO_SHORT: return "the row is too short";
    case VEJUPA_TEXT_BUFFER_TOO_SHORT: return "the text buffer is too short";
    case VEJUPA_DECIMAL_DIGIT: return "a packed decimal with a digit above 9";
    case VEJUPA_DECIMAL_SIGN: return "a packed decimal with a sign below A";
    case VEJUPA_DECIMAL_OUT_OF_RANGE: return "a packed decimal that no signed number of 64 bits holds";
    case VEJUPA_QRYDSC_BROKEN_OFF: return "the description breaks off";
    case VEJUPA_UNKNOWN_RELEASE: return "a host release that is neither 2 nor 3";
    case VEJUPA_TOO_LITTLE_ROOM: return "too little room for the columns or values";
    case VEJUPA_NO_COLUMN: return "what stands for a column or a type is none";
    default: return "no answer of this library";
    }
}

/* ---- Of columns. */

/* One of enum vejupa_type; and its name, as in "VarChar". */
static inline uint32_t vejupa_column_type(const struct vejupa_column *column) { return (uint32_t)(column->words[0] & 0xFF); }

static inline const char *vejupa_type_name(uint32_t type) {
    static const char *const names[] = {"SmallInt", "Integer",     "BigInt",  "Real",       "Double",    "Decimal",     "DecFloat",      "Char",
                                        "VarChar",  "LongVarChar", "Clob",    "Binary",     "VarBinary", "Blob",        "BlobLocator",   "Date",
                                        "Time",     "Timestamp",   "Graphic", "VarGraphic", "DbClob",    "ClobLocator", "DbClobLocator", "LobBytes",
                                        "LobChar",  "RowId",       "Boolean", "Xml",        "Null"};
    return type < sizeof names / sizeof *names ? names[type] : "no type";
}

/* Whether the type itself holds one length (of a DecFloat its digits). */
static inline int vejupa_type_has_length(uint32_t type) {
    switch (type) {
    case VEJUPA_TYPE_DEC_FLOAT:
    case VEJUPA_TYPE_CHAR:
    case VEJUPA_TYPE_VAR_CHAR:
    case VEJUPA_TYPE_BINARY:
    case VEJUPA_TYPE_VAR_BINARY:
    case VEJUPA_TYPE_GRAPHIC:
    case VEJUPA_TYPE_VAR_GRAPHIC:
    case VEJUPA_TYPE_LOB_BYTES:
    case VEJUPA_TYPE_LOB_CHAR:
    case VEJUPA_TYPE_ROW_ID: return 1;
    default: return 0;
    }
}

/* The numbers that the type itself holds: what the row call goes by. Of a description's columns they are made of length, precision and scale, so that they are
 * the same, but for a DecFloat's digits; in a caller's own list they may differ. */
static inline uint16_t vejupa_column_type_numbers(const struct vejupa_column *column) { return (uint16_t)(column->words[0] >> 8 & 0xFFFF); }

/* Of a Decimal the two numbers that its type holds. */
static inline uint8_t vejupa_decimal_precision(const struct vejupa_column *column) { return (uint8_t)(vejupa_column_type_numbers(column) & 0xFF); }
static inline uint8_t vejupa_decimal_scale(const struct vejupa_column *column) { return (uint8_t)(vejupa_column_type_numbers(column) >> 8); }

static inline uint8_t vejupa_column_drda_type(const struct vejupa_column *column) { return (uint8_t)(column->words[0] >> 24 & 0xFF); }
static inline uint16_t vejupa_column_number(const struct vejupa_column *column) { return (uint16_t)(column->words[0] >> 32 & 0xFFFF); }
static inline int vejupa_column_nullable(const struct vejupa_column *column) { return (int)(column->words[0] >> 48 & 1); }
static inline int vejupa_column_little_endian(const struct vejupa_column *column) { return (int)(column->words[0] >> 49 & 1); }
static inline int vejupa_column_has_reference_length(const struct vejupa_column *column) { return (int)(column->words[0] >> 50 & 1); }
static inline uint16_t vejupa_column_ccsid(const struct vejupa_column *column) { return (uint16_t)(column->words[1] >> 32 & 0xFFFF); }

/* One of enum vejupa_origin; and its name, as in "declared LID". */
static inline uint32_t vejupa_column_origin(const struct vejupa_column *column) { return (uint32_t)(column->words[0] >> 51 & 3); }

static inline const char *vejupa_origin_name(uint32_t origin) {
    static const char *const names[] = {"SDA", "undeclared LID", "declared LID"};
    return origin < sizeof names / sizeof *names ? names[origin] : "no origin";
}

/* 0 where there is none; 0 is a width as well. */
static inline uint16_t vejupa_column_reference_length(const struct vejupa_column *column) { return (uint16_t)(column->words[1] >> 48 & 0xFFFF); }

/* Length (bit 8000 included), precision and scale as the description says them: to show, and not what the row call goes by, save for the lengths that
 * vejupa_decode_row names. A field that a description lacks is 0. */
static inline uint16_t vejupa_column_length(const struct vejupa_column *column) { return (uint16_t)(column->words[1] & 0xFFFF); }
static inline uint8_t vejupa_column_precision(const struct vejupa_column *column) { return (uint8_t)(column->words[1] >> 16 & 0xFF); }
static inline uint8_t vejupa_column_scale(const struct vejupa_column *column) { return (uint8_t)(column->words[1] >> 24 & 0xFF); }

/* A caller's own column: big-endian, without a reference length; origin SDA, which the row call does not look at. `length` is the length that the type itself
 * holds, where it holds one; of a Timestamp or Boolean the bytes of a value (0 stands for 26 and 1); of a Blob, Clob or DbClob 0 says that its values are
 * references of four bytes, and any other that they come within the row; for both, nine bytes of which the first is 02 are a reference. A CCSID matters for
 * texts, dates and times among them; where it is 0, the host's release decides. A Decimal has a function of its own: here it gives what is no column, as does
 * a type that there is none of. Column number, DRDA type code, precision and scale are 0: the row call does not look at them. */
static inline struct vejupa_column vejupa_make_column(enum vejupa_type type, uint16_t length, int nullable, uint16_t ccsid) {
    struct vejupa_column column;
    uint32_t named = (uint32_t)type;
    uint64_t tag = named <= VEJUPA_TYPE_NULL && named != VEJUPA_TYPE_DECIMAL ? named : 0xFF;
    column.words[0] = tag | (uint64_t)(vejupa_type_has_length(named) ? length : 0) << 8 | (uint64_t)(nullable != 0) << 48;
    column.words[1] = (uint64_t)length | (uint64_t)ccsid << 32;
    return column;
}

/* A Decimal of so many digits, `scale` of them behind the point; origin SDA, which the row call does not look at. */
static inline struct vejupa_column vejupa_make_decimal(uint8_t precision, uint8_t scale, int nullable) {
    struct vejupa_column column;
    column.words[0] = (uint64_t)VEJUPA_TYPE_DECIMAL | (uint64_t)precision << 8 | (uint64_t)scale << 16 | (uint64_t)(nullable != 0) << 48;
    column.words[1] = ((uint64_t)precision + 2) / 2 | (uint64_t)precision << 16 | (uint64_t)scale << 24;
    return column;
}

/* Its numbers' bytes come lowest first. */
static inline void vejupa_set_little_endian(struct vejupa_column *column) { column->words[0] |= UINT64_C(1) << 49; }

/* Says where it came from, for whoever shows it or compares it with one that was described. An origin that there is none of gives what is no column. */
static inline void vejupa_set_origin(struct vejupa_column *column, enum vejupa_origin origin) {
    uint32_t named = (uint32_t)origin;
    uint64_t number = named <= VEJUPA_ORIGIN_DECLARED_LID ? named : 3;
    column->words[0] = (column->words[0] & ~(UINT64_C(3) << 51)) | number << 51;
}

/* Gives it a reference length: of a Blob, Clob, DbClob or Xml whose value is a reference of so many bytes. */
static inline void vejupa_set_reference_length(struct vejupa_column *column, uint16_t length) {
    column->words[0] |= UINT64_C(1) << 50;
    column->words[1] = (column->words[1] & ~(UINT64_C(0xFFFF) << 48)) | (uint64_t)length << 48;
}

/* Whether the words are a column's; where a row call answers 102, some column's are not. At any release it is the same. */
static inline int vejupa_is_column(const struct vejupa_column *column) {
    struct vejupa_value value;
    struct vejupa_row row;
    return vejupa_decode_row(column, 1, NULL, 0, 2, &value, 1, NULL, 0, &row) != VEJUPA_NO_COLUMN;
}

/* Where the row call answers 8, with its arguments: which column it is whose value, or indicator, is not there. Found by calls with fewer columns; `values` is
 * written. What a value takes does not depend on the release, so none is stated. */
static inline size_t vejupa_short_column(const struct vejupa_column *columns, size_t column_count, const uint8_t *data, size_t data_len,
                                         struct vejupa_value *values, size_t values_room) {
    size_t fit = 0, lacking = column_count; /* the first `fit` columns are there, the first `lacking` are not */
    struct vejupa_row row;
    while (fit + 1 < lacking) {
        size_t half = fit + (lacking - fit) / 2;
        if (vejupa_decode_row(columns, half, data, data_len, 2, values, values_room, NULL, 0, &row) == VEJUPA_BUFFER_TOO_SHORT) {
            lacking = half;
        } else {
            fit = half;
        }
    }
    return fit;
}

/* ---- Of values. */

/* One of enum vejupa_sort; and its name, as in "VarChar". What the functions after these say of other sorts than those named means nothing. */
static inline uint32_t vejupa_value_sort(const struct vejupa_value *value) { return (uint32_t)(value->words[0] & 0xFF); }

static inline const char *vejupa_sort_name(uint32_t sort) {
    static const char *const names[] = {"Null",    "SmallInt", "Integer", "BigInt", "Real",  "RealNan", "Double", "DoubleNan", "Decimal", "Char",
                                        "VarChar", "Binary",   "Blob",    "Clob",   "RowId", "Date",    "Time",   "Timestamp", "Boolean", "Xml"};
    return sort < sizeof names / sizeof *names ? names[sort] : "no sort";
}

static inline int vejupa_value_is_null(const struct vejupa_value *value) { return vejupa_value_sort(value) == VEJUPA_SORT_NULL; }

/* Whether the value refers to data that come outside of the row. */
static inline int vejupa_value_is_external(const struct vejupa_value *value) { return (int)(value->words[0] >> 8 & 1); }

/* Of a SmallInt, Integer, BigInt or Boolean. (A Decimal is a text here; vejupa_decode_packed_whole makes a number of its packed bytes.) */
static inline int64_t vejupa_value_integer(const struct vejupa_value *value) {
    int64_t n;
    memcpy(&n, &value->words[1], sizeof n);
    return n;
}

/* Of a Real or RealNan, where float is IEEE 754's of 32 bits. */
static inline float vejupa_value_real(const struct vejupa_value *value) {
    uint32_t bits = (uint32_t)(value->words[1] & 0xFFFFFFFF);
    float x;
    memcpy(&x, &bits, sizeof x);
    return x;
}

/* Of a Double or DoubleNan, where double is IEEE 754's of 64 bits. */
static inline double vejupa_value_double(const struct vejupa_value *value) {
    double x;
    memcpy(&x, &value->words[1], sizeof x);
    return x;
}

/* Whether the value is a text: Decimal, Char, VarChar, Clob, RowId, Date, Time, Timestamp or Xml. */
static inline int vejupa_value_is_text(const struct vejupa_value *value) {
    uint32_t sort = vejupa_value_sort(value);
    return (VEJUPA_SORT_DECIMAL <= sort && sort <= VEJUPA_SORT_VAR_CHAR) || (VEJUPA_SORT_CLOB <= sort && sort <= VEJUPA_SORT_TIMESTAMP) ||
           sort == VEJUPA_SORT_XML;
}

#ifdef __cplusplus
#if defined(__GNUC__)
#pragma GCC diagnostic pop
#endif
}
#endif

#endif
