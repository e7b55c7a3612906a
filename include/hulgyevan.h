/*
 * hulgyevan.h: the calls of the static library libhulgyevan.a, for C99 and C++.
 *
 * Positions of a scanning bureau as decimal numbers under # images: packed bodies that sort as the
 * positions do, alpha texts, print lines and record files. docs/RULES.md has the rules, with the
 * refusal numbers and places that are used here.
 *
 * What holds for every call
 *
 * - A slice is a pointer and a length, counted in elements of the pointer's type. NULL with the
 *   length 0 is fine.
 * - Prohibited are only a NULL out-pointer, NULL with a length above 0, a length past the memory
 *   that is lent, and lent memory (a slice or what an out-pointer points to) that overlaps with
 *   memory that the call may write. Nothing else has to be tested before a call.
 * - A call that can refuse answers an answer word: 0 for done, else place * 256 + number.
 *   hulgyevan_reason gives the number, 1 to 18, and hulgyevan_place the place, counted from 0. If
 *   more than one thing is wrong, the first in the order given at the call is answered; brackets
 *   have what is checked at one item before the next item to the right.
 * - A refused call changes no byte that is lent and nothing that an out-pointer points to; the one
 *   exception is named at hulgyevan_enter. What an out-pointer points to is never read, so it need
 *   not be initialised.
 * - What is written to a buffer, or to a slice of numbers or sizes, stands at its start, and what
 *   stands behind stays as it was. Where it is too short, the call is refused with
 *   HULGYEVAN_NO_ROOM, after everything else.
 * - Numbers, and what they are cut to, are words of 64 bits: see "Numbers as words" below.
 */
#ifndef HULGYEVAN_H
#define HULGYEVAN_H

#include <stdbool.h>
#include <stddef.h>
#include <stdint.h>

#ifdef __cplusplus
extern "C" {
#endif

/* ---- Limits ---- */

/* The most columns of a contents, elements of a line and positions of a search. */
#define HULGYEVAN_MAX_COLUMNS 16
#define HULGYEVAN_MAX_ELEMENTS 64
#define HULGYEVAN_MAX_POSITIONS 64

/* The most bytes of a line, and of a body. */
#define HULGYEVAN_MAX_LINE 4096
#define HULGYEVAN_MAX_BODY 128

/* ---- Refusals ---- */

/* The number of a refusal. */
enum hulgyevan_refusal {
    HULGYEVAN_NOT_AN_IMAGE = 1,         /* bytes that are not an image; place: the column */
    HULGYEVAN_TOO_MANY_DIGITS = 2,      /* an image with more than 13 #; place: the column or the field */
    HULGYEVAN_NOT_NORMAL = 3,           /* a number that is not in normal form; place: the column, element or position */
    HULGYEVAN_EXCEEDS = 4,              /* a number that exceeds its fixed-point image; place: the column */
    HULGYEVAN_EXPONENT_OUTSIDE = 5,     /* an exponent outside its limits; place: the column */
    HULGYEVAN_NO_ROOM = 6,              /* not enough room for the whole answer */
    HULGYEVAN_BAD_HALF = 7,             /* a half byte of a body that packing does not write; place: the column */
    HULGYEVAN_NOT_TEXT = 8,             /* a text that is no text number */
    HULGYEVAN_NO_FIELD = 9,             /* at least one element, and a line without a field */
    HULGYEVAN_WRONG_COUNT = 10,         /* a count or a line's length outside its limits, or a list of another count than the columns */
    HULGYEVAN_WRONG_LENGTH = 11,        /* a used length past the buffer; too few or too many bytes for a contents; a body's length */
    HULGYEVAN_NO_RECORD = 12,           /* a record number that the file does not have */
    HULGYEVAN_TEXT_OUTSIDE = 13,        /* a text that is not inside its lent bytes; place: the element */
    HULGYEVAN_POSITIONS_FALL = 14,      /* a position below the one before it */
    HULGYEVAN_RECORDS_FALL = 15,        /* a record whose first column is below that of the record before it */
    HULGYEVAN_WRONG_KIND = 16,          /* a first column that is signed or exponential */
    HULGYEVAN_CONTENTS_DIFFER = 17,     /* two files whose contents differ */
    HULGYEVAN_RESERVATION_DIFFERS = 18  /* a used length, or a size of bodies, that is not the one that was reserved */
};

/* Gives the number of the refusal in an answer word; 0 where the call is done. */
static inline unsigned hulgyevan_reason(uint64_t answer)
{
    return (unsigned)(answer & 255);
}

/* Gives the place of the refusal in an answer word, counted from 0. */
static inline uint64_t hulgyevan_place(uint64_t answer)
{
    return answer >> 8;
}

/* ---- Numbers as words ----
 *
 * Bit 63 of a word is the sign (1 for minus), bits 52 to 62 have the exponent e + 99, and bits 0 to
 * 51 the mantissa m. The magnitude is m * 10^(e - 12). In normal form a number is zero (no sign, m
 * = 0, e = 0), or has 10^12 <= m < 10^13 and -99 <= e <= 99. Every word is a number, but the calls
 * refuse one that is not in normal form with HULGYEVAN_NOT_NORMAL. Two numbers in normal form are
 * equal if their words are. The word 0 is not in normal form.
 *
 * A remainder, what an image cuts off a number, is a word of the same layout, and means the same
 * magnitude: no sign, r in the place of m, and the power of ten plus 111 in the place of e + 99. */

/* The number zero, and the number with the largest magnitude. */
#define HULGYEVAN_ZERO (UINT64_C(99) << 52)
#define HULGYEVAN_LARGEST (UINT64_C(198) << 52 | UINT64_C(9999999999999))

/* Tells whether a number has a minus. */
static inline bool hulgyevan_is_negative(uint64_t number)
{
    return number >> 63 != 0;
}

/* Gives the mantissa m of a number, or the whole number r of a remainder. */
static inline uint64_t hulgyevan_mantissa(uint64_t number)
{
    return number & ((UINT64_C(1) << 52) - 1);
}

/* Gives the exponent e of a number: the power of ten of its first digit, where it is in normal
 * form. */
static inline int hulgyevan_exponent(uint64_t number)
{
    return (int)(number >> 52 & 2047) - 99;
}

/* Gives the power of ten of a remainder: what was cut off is r * 10^power. */
static inline int hulgyevan_power(uint64_t remainder)
{
    return (int)(remainder >> 52 & 2047) - 111;
}

/* Makes a number of a sign, a mantissa m and an exponent e. Refused with 3 where that is not in
 * normal form. */
uint64_t hulgyevan_from_parts(bool negative, uint64_t mantissa, int64_t exponent, uint64_t *number);

/* Makes a number of a whole count of wheel steps; zero is plus. Refused with 3 for 10^13 steps and
 * more. */
uint64_t hulgyevan_from_steps(bool negative, uint64_t steps, uint64_t *number);

/* Compares two numbers by value: order is 0 where the first is below the second, 1 where they are
 * equal, 2 where it is above. Refused with 3 for a number that is not in normal form, with place 0
 * for the first, 1 for the second. */
uint64_t hulgyevan_compare(uint64_t first, uint64_t second, uint64_t *order);

/* ---- Contents and files ----
 *
 * A contents is one byte with the count of columns, 1 to 16, and then for each column one byte with
 * the length of its image and the image. A record file is a contents and behind it the bodies of
 * its records, which all have the same size. */

/* Reads a contents that is lent alone: gives the count of its columns, and the size of a body in
 * bytes. Refused with 11, 10, (11, 1, 2), 11. */
uint64_t hulgyevan_read_contents(const uint8_t *contents, size_t contents_length, size_t *columns,
                                 size_t *body);

/* Reads a record file, without its halves: gives the count of columns, the size of the contents and
 * of a body in bytes, and the count of records. Refused with 11, 10, (11, 1, 2), 11. */
uint64_t hulgyevan_read_file(const uint8_t *file, size_t file_length, size_t *columns,
                             size_t *contents_size, size_t *body, size_t *records);

/* ---- Bodies ---- */

/* Packs a list of numbers, one for each column, under a contents as a body at the start of a
 * buffer: gives the body's size. Refused with 11, 10, (11, 1, 2), 11 for the contents, then with 10
 * for another count of numbers, (3, 4, 5), 6. */
uint64_t hulgyevan_pack(const uint8_t *contents, size_t contents_length, const uint64_t *numbers,
                        size_t count, uint8_t *buffer, size_t room, size_t *size);

/* Packs as hulgyevan_pack does, and gives with it what each image cut off: a remainder for each
 * number, at the start of the slice remainders. Refused as hulgyevan_pack is; with 6 also where
 * remainders_room is below the count of columns. */
uint64_t hulgyevan_pack_with_remainders(const uint8_t *contents, size_t contents_length,
                                        const uint64_t *numbers, size_t count, uint8_t *buffer,
                                        size_t room, uint64_t *remainders, size_t remainders_room,
                                        size_t *size);

/* Reads a body back under a contents: gives its numbers, one for each column, at the start of the
 * slice numbers, and their count. Refused with 11, 10, (11, 1, 2), 11 for the contents, then with
 * 11 for a body of another length, (7), 6. */
uint64_t hulgyevan_unpack(const uint8_t *contents, size_t contents_length, const uint8_t *body,
                          size_t body_length, uint64_t *numbers, size_t room, size_t *count);

/* ---- Texts ---- */

/* Writes the alpha text of a number under an image at the start of a buffer: gives its size, which
 * is the image's. Refused with 1, 2, 3, 4, 5, 6. */
uint64_t hulgyevan_alpha(const uint8_t *image, size_t image_length, uint64_t number,
                         uint8_t *buffer, size_t room, size_t *size);

/* Gives the length of the longest beginning of a text that has the form of a text number, 0 where
 * none has. Never refused. */
size_t hulgyevan_legal_length(const uint8_t *text, size_t length);

/* Reads the longest beginning of a text that has the form of a text number: gives its number, and
 * how many bytes it has. Refused with 8, else with 5. */
uint64_t hulgyevan_read_text_number(const uint8_t *text, size_t length, uint64_t *number,
                                    size_t *used);

/* Converts the whole of a text to a number. Refused with 8, else with 5. */
uint64_t hulgyevan_convert(const uint8_t *text, size_t length, uint64_t *number);

/* Reads the text numbers that stand one behind the other in a text, from the byte number `from` on,
 * at most 16: gives those that were read at the start of the slice numbers, their count, the place
 * where reading stopped, and why, as an answer word: 0 for the text's end, 8 where no text number
 * begins at the place, 10 where one does and 16 were read, 5 + 256 * index where the number with
 * that index has an exponent outside its limits. The call itself is refused with 6 alone. */
uint64_t hulgyevan_read_text_numbers(const uint8_t *text, size_t length, size_t from,
                                     uint64_t *numbers, size_t room, size_t *count, size_t *place,
                                     uint64_t *stop);

/* ---- Print lines ---- */

/* An element of a line. With kind 0 it is the number in the word `number`; with any other kind it
 * is a text: `length` bytes from `start` on in the lent texts. The fields that the kind does not
 * name are not looked at. */
typedef struct {
    uint64_t kind;
    uint64_t number;
    size_t start;
    size_t length;
} hulgyevan_element;

/* Gives the length of the longest field that starts at the byte number `at` of a line; 0 where none
 * does. Never refused. */
size_t hulgyevan_scan(const uint8_t *line, size_t length, size_t at);

/* Prints up to 64 elements into the fields of a line of up to 4,096 bytes, at the start of a
 * buffer: gives the count of bytes written and the count of elements spilled. Refused with 10, (2),
 * 9, (13 or 3), 6. */
uint64_t hulgyevan_print(const uint8_t *line, size_t length, const hulgyevan_element *elements,
                         size_t count, const uint8_t *texts, size_t texts_length, uint8_t *buffer,
                         size_t room, size_t *size, size_t *spilled);

/* Gives how many bytes printing `count` elements under a line of `length` bytes writes at most.
 * Refused with 10. */
uint64_t hulgyevan_forecast(size_t length, size_t count, size_t *size);

/* Reads a print field back: its blanks and commas are dropped, and what is left is converted.
 * Refused with 8, else with 5. */
uint64_t hulgyevan_read_field(const uint8_t *field, size_t length, uint64_t *number);

/* ---- Record files ---- */

/* Writes a contents, lent alone, at the start of a buffer: gives the used length. Refused with 11,
 * 10, (11, 1, 2), 11, 6. */
uint64_t hulgyevan_write_contents(const uint8_t *contents, size_t contents_length, uint8_t *buffer,
                                  size_t room, size_t *used);

/* Adds a record of some numbers to the file in the first `used` bytes of a buffer: gives the new
 * used length. Refused with 11 for the used length, 11, 10, (11, 1, 2), 11 for the file, then with
 * 10 for another count of numbers, (3, 4, 5), 6. */
uint64_t hulgyevan_add(size_t used, const uint64_t *numbers, size_t count, uint8_t *buffer,
                       size_t room, size_t *new_used);

/* Tells where the next body would go in a buffer with a file in its first `used` bytes, and how
 * many bytes it fills. Refused with 11 for the used length, 11, 10, (11, 1, 2), 11 for the file. */
uint64_t hulgyevan_reserve(const uint8_t *buffer, size_t room, size_t used, size_t *start,
                           size_t *size);

/* Adds a record at the place that hulgyevan_reserve told: gives the new used length. Refused with
 * 11 for the used length, 11, 10, (11, 1, 2) for the contents, 18, 11 for bodies, then with 10 for
 * another count of numbers, (3, 4, 5), 6. */
uint64_t hulgyevan_write_reserved(size_t used, size_t start, size_t size, const uint64_t *numbers,
                                  size_t count, uint8_t *buffer, size_t room, size_t *new_used);

/* Shows the record with a number, counted from 0: gives where its body starts in the file, and its
 * size. Refused with 11, 10, (11, 1, 2), 11 for the file, then 12. */
uint64_t hulgyevan_show(const uint8_t *file, size_t file_length, size_t index, size_t *start,
                        size_t *size);

/* Lists a file as text at the start of a buffer, a line for each record: gives the text's size.
 * Refused with 11, 10, (11, 1, 2), 11 for the file, then (7), 6. */
uint64_t hulgyevan_list(const uint8_t *file, size_t file_length, uint8_t *buffer, size_t room,
                        size_t *size);

/* Makes a record file of a text of lines, such as a listing, at the start of a buffer: gives the
 * file's size. Refused with 11, 10, (11, 1, 2), 11 for the contents, then with what is wrong in the
 * first bad line (10, 8, 5 or 4), then with 6. Where a line is refused, its number, counted from 1,
 * is written to *line; where anything else is refused, 0 is. Where the call is done, *line stays as
 * it was. */
uint64_t hulgyevan_enter(const uint8_t *contents, size_t contents_length, const uint8_t *text,
                         size_t text_length, uint8_t *buffer, size_t room, size_t *size,
                         size_t *line);

/* Tells how much of a file whose last body may have been cut short is whole: gives the longest used
 * length whose bodies are whole, and the count of bytes behind it. Refused with 11, 10, (11, 1, 2)
 * for the contents. */
uint64_t hulgyevan_whole_length(const uint8_t *file, size_t file_length, size_t *whole,
                                size_t *behind);

/* ---- Whole files of a roll ---- */

/* Finds for each of up to 64 positions that do not fall the first record whose first column is at
 * least the position, or the count of records if there is none: gives a record number for each
 * position at the start of the slice records, and the count of comparisons. Refused with 11, 10,
 * (11, 1, 2), 11 for the file, then with 10 for over 64 positions, (7), (3), 16, 14, 15, and with 6
 * where room is below count. */
uint64_t hulgyevan_find(const uint8_t *file, size_t file_length, const uint64_t *positions,
                        size_t count, size_t *records, size_t room, size_t *comparisons);

/* Merges two files of one contents by their first columns, on equal ones the first file's records
 * before the second's, at the start of a buffer: gives the merged file's size. Refused with 11, 10,
 * (11, 1, 2), 11, (7) for the first file, with the same for the second, then with 17, 16, 15, 6. */
uint64_t hulgyevan_merge(const uint8_t *first, size_t first_length, const uint8_t *second,
                         size_t second_length, uint8_t *buffer, size_t room, size_t *size);

#ifdef __cplusplus
}
#endif

#endif
