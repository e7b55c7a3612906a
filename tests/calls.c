/*
 * Makes every call of hulgyevan.h with known values and with a refusal, by the header's own declarations: an argument in another place or of
 * another width would show. Prints each line that fails; the exit status is 0 only if none does.
 */
#include <stdio.h>
#include <string.h>

#include "hulgyevan.h"

static int failures, checks;

/* Notes a condition that does not hold. */
static void check(int holds, int line, const char *what)
{
    checks++;
    if (!holds) {
        failures++;
        printf("line %d: %s\n", line, what);
    }
}
#define CHECK(condition) check((condition), __LINE__, #condition)

/* Bytes of a string literal without its last one, as a pointer and a length. */
#define BYTES(text) (const uint8_t *)(text), sizeof(text) - 1

/* The answer word of a refusal. */
#define REFUSED(number, place) ((uint64_t)(place) * 256 + (number))

/* Gives a whole number as a number. */
static uint64_t number_of(uint64_t steps)
{
    uint64_t number = 0;
    CHECK(hulgyevan_from_steps(false, steps, &number) == 0);
    return number;
}

/* Numbers: words, constructors, order. */
static void numbers(void)
{
    uint64_t number = 7, order = 7;

    CHECK(hulgyevan_from_parts(true, UINT64_C(1219500000000), 1, &number) == 0);
    CHECK(hulgyevan_is_negative(number) && hulgyevan_mantissa(number) == UINT64_C(1219500000000) && hulgyevan_exponent(number) == 1);
    CHECK(hulgyevan_from_parts(false, 1, 1, &number) == REFUSED(HULGYEVAN_NOT_NORMAL, 0) && hulgyevan_exponent(number) == 1);
    CHECK(hulgyevan_from_parts(false, UINT64_C(1000000000000), -99, &number) == 0 && number >> 52 == 0);
    CHECK(hulgyevan_from_parts(false, UINT64_C(1000000000000), -100, &number) == REFUSED(HULGYEVAN_NOT_NORMAL, 0));
    CHECK(hulgyevan_from_steps(true, 16777217, &number) == 0);
    CHECK(hulgyevan_is_negative(number) && hulgyevan_exponent(number) == 7);
    CHECK(hulgyevan_from_steps(false, UINT64_C(10000000000000), &number) == REFUSED(HULGYEVAN_NOT_NORMAL, 0));
    CHECK(number_of(0) == HULGYEVAN_ZERO);
    CHECK(hulgyevan_from_parts(false, UINT64_C(9999999999999), 99, &number) == 0 && number == HULGYEVAN_LARGEST);
    CHECK(hulgyevan_compare(number_of(16777216), number_of(16777217), &order) == 0 && order == 0);
    CHECK(hulgyevan_compare(number_of(5), number_of(5), &order) == 0 && order == 1);
    CHECK(hulgyevan_from_steps(true, 5, &number) == 0 && hulgyevan_compare(number_of(5), number, &order) == 0 && order == 2);
    CHECK(hulgyevan_compare(number_of(5), 0, &order) == REFUSED(HULGYEVAN_NOT_NORMAL, 1) && order == 2);
    CHECK(hulgyevan_reason(REFUSED(7, 300)) == 7 && hulgyevan_place(REFUSED(7, 300)) == 300);
}

/* Contents and bodies: 12.195 and -0.5 under ### and +#. */
static void bodies(void)
{
    uint64_t list[2], back[3] = {7, 7, 7}, cut[3] = {7, 7, 7};
    uint8_t buffer[4] = {9, 9, 9, 9};
    size_t columns = 7, body = 7, size = 7, count = 7, contents = 7, records = 7;

    CHECK(hulgyevan_read_contents(BYTES("\2\3###\2+#"), &columns, &body) == 0 && columns == 2 && body == 3);
    CHECK(hulgyevan_read_contents(BYTES("\1\1X"), &columns, &body) == REFUSED(HULGYEVAN_NOT_AN_IMAGE, 0) && columns == 2);
    CHECK(hulgyevan_read_contents(NULL, 0, &columns, &body) == REFUSED(HULGYEVAN_WRONG_LENGTH, 0));
    CHECK(hulgyevan_read_file(BYTES("\2\3###\2+#\1\x20\0\1\x20\5"), &columns, &contents, &body, &records) == 0);
    CHECK(columns == 2 && contents == 8 && body == 3 && records == 2);
    CHECK(hulgyevan_read_file(BYTES("\2\3###\2+#\1"), &columns, &contents, &body, &records) == REFUSED(HULGYEVAN_WRONG_LENGTH, 0));
    CHECK(hulgyevan_convert(BYTES("12.195"), &list[0]) == 0 && hulgyevan_convert(BYTES("-0.5"), &list[1]) == 0);
    CHECK(hulgyevan_pack(BYTES("\2\3###\2+#"), list, 2, buffer, 4, &size) == 0 && size == 3 && memcmp(buffer, "\1\x20\0\11", 4) == 0);
    CHECK(hulgyevan_pack(BYTES("\2\3###\2+#"), list, 2, buffer, 2, &size) == REFUSED(HULGYEVAN_NO_ROOM, 0));
    CHECK(hulgyevan_pack(BYTES("\2\3###\2+#"), list, 1, buffer, 4, &size) == REFUSED(HULGYEVAN_WRONG_COUNT, 0));
    CHECK(hulgyevan_pack(BYTES("\1\1#"), list, 1, buffer, 4, &size) == REFUSED(HULGYEVAN_EXCEEDS, 0));
    CHECK(hulgyevan_pack_with_remainders(BYTES("\2\3###\2+#"), list, 2, buffer, 4, cut, 3, &size) == 0 && size == 3 && cut[2] == 7);
    CHECK(hulgyevan_mantissa(cut[0]) == UINT64_C(19500000000) && hulgyevan_power(cut[0]) == -11);
    CHECK(hulgyevan_mantissa(cut[1]) == UINT64_C(5000000000000) && hulgyevan_power(cut[1]) == -13);
    CHECK(hulgyevan_pack_with_remainders(BYTES("\2\3###\2+#"), list, 2, buffer, 4, back, 1, &size) == REFUSED(HULGYEVAN_NO_ROOM, 0));
    CHECK(hulgyevan_unpack(BYTES("\2\3###\2+#"), buffer, 3, back, 3, &count) == 0 && count == 2);
    CHECK(back[0] == number_of(12) && back[1] == HULGYEVAN_ZERO && back[2] == 7);
    CHECK(hulgyevan_unpack(BYTES("\1\2+#"), BYTES("\x10"), back, 3, &count) == REFUSED(HULGYEVAN_BAD_HALF, 0));
    CHECK(hulgyevan_unpack(BYTES("\1\2+#"), BYTES("\x15"), back, 0, &count) == REFUSED(HULGYEVAN_NO_ROOM, 0) && count == 2);
}

/* The limits that the header names: what is at a limit is taken, and what is one above it is refused with 10. */
static void limits(void)
{
    static const char image[] = "+#############^^^^";
    static uint8_t line[HULGYEVAN_MAX_LINE + 1], contents[1 + (HULGYEVAN_MAX_COLUMNS + 1) * sizeof image];
    static hulgyevan_element elements[HULGYEVAN_MAX_ELEMENTS + 1];
    uint64_t positions[HULGYEVAN_MAX_POSITIONS + 1];
    size_t columns, body, records[HULGYEVAN_MAX_POSITIONS], comparisons, size, spilled;
    const uint64_t wrong_count = REFUSED(HULGYEVAN_WRONG_COUNT, 0);
    size_t i;

    for (i = 0; i <= HULGYEVAN_MAX_COLUMNS; i++) {
        contents[1 + i * sizeof image] = sizeof image - 1;
        memcpy(contents + 2 + i * sizeof image, image, sizeof image - 1);
    }
    contents[0] = HULGYEVAN_MAX_COLUMNS;
    CHECK(hulgyevan_read_contents(contents, sizeof contents - sizeof image, &columns, &body) == 0);
    CHECK(columns == HULGYEVAN_MAX_COLUMNS && body == HULGYEVAN_MAX_BODY);
    contents[0] = HULGYEVAN_MAX_COLUMNS + 1;
    CHECK(hulgyevan_read_contents(contents, sizeof contents, &columns, &body) == wrong_count);
    for (i = 0; i <= HULGYEVAN_MAX_ELEMENTS; i++)
        elements[i].number = HULGYEVAN_ZERO;
    for (i = 0; i <= HULGYEVAN_MAX_POSITIONS; i++)
        positions[i] = HULGYEVAN_ZERO;
    memset(line, '#', sizeof line);
    CHECK(hulgyevan_print(line, 1, elements, HULGYEVAN_MAX_ELEMENTS, NULL, 0, NULL, 0, &size, &spilled) == REFUSED(HULGYEVAN_NO_ROOM, 0));
    CHECK(hulgyevan_print(line, 1, elements, HULGYEVAN_MAX_ELEMENTS + 1, NULL, 0, NULL, 0, &size, &spilled) == wrong_count);
    CHECK(hulgyevan_print(line, HULGYEVAN_MAX_LINE, NULL, 0, NULL, 0, NULL, 0, &size, &spilled) == REFUSED(HULGYEVAN_TOO_MANY_DIGITS, 0));
    CHECK(hulgyevan_print(line, HULGYEVAN_MAX_LINE + 1, NULL, 0, NULL, 0, NULL, 0, &size, &spilled) == wrong_count);
    CHECK(hulgyevan_find(BYTES("\1\1#"), positions, HULGYEVAN_MAX_POSITIONS, records, HULGYEVAN_MAX_POSITIONS, &comparisons) == 0);
    CHECK(hulgyevan_find(BYTES("\1\1#"), positions, HULGYEVAN_MAX_POSITIONS + 1, records, 0, &comparisons) == wrong_count);
}

/* Texts: alpha text, legal length, reading, converting, all numbers of a text. */
static void texts(void)
{
    uint64_t number = 7, list[3] = {7, 7, 7}, stop = 7;
    uint8_t buffer[12] = "............";
    size_t size = 7, used = 7, count = 7, place = 7;

    CHECK(hulgyevan_convert(BYTES("12.195"), &number) == 0);
    CHECK(hulgyevan_alpha(BYTES("-#.##^^^^"), number, buffer, 12, &size) == 0 && size == 9 && memcmp(buffer, " 1.21E+01...", 12) == 0);
    CHECK(hulgyevan_alpha(BYTES("#"), number, buffer, 12, &size) == REFUSED(HULGYEVAN_EXCEEDS, 0) && size == 9);
    CHECK(hulgyevan_legal_length(BYTES("+24.37#JK")) == 6 && hulgyevan_legal_length(NULL, 0) == 0);
    CHECK(hulgyevan_read_text_number(BYTES("0012.5 torn"), &number, &used) == 0 && used == 7);
    CHECK(hulgyevan_mantissa(number) == UINT64_C(1250000000000));
    CHECK(hulgyevan_read_text_number(BYTES("torn"), &number, &used) == REFUSED(HULGYEVAN_NOT_TEXT, 0) && used == 7);
    CHECK(hulgyevan_convert(BYTES("0012.5 torn"), &number) == REFUSED(HULGYEVAN_NOT_TEXT, 0));
    CHECK(hulgyevan_convert(BYTES("12E99"), &number) == REFUSED(HULGYEVAN_EXPONENT_OUTSIDE, 0));
    CHECK(hulgyevan_read_text_numbers(BYTES("x5 - 6 torn"), 1, list, 3, &count, &place, &stop) == 0 && count == 2 && place == 7);
    CHECK(stop == HULGYEVAN_NOT_TEXT && list[0] == number_of(5) && hulgyevan_is_negative(list[1]) && list[2] == 7);
    CHECK(hulgyevan_read_text_numbers(BYTES("5 12E99"), 0, list, 3, &count, &place, &stop) == 0 && count == 1 && place == 2);
    CHECK(stop == REFUSED(HULGYEVAN_EXPONENT_OUTSIDE, 1));
    CHECK(hulgyevan_read_text_numbers(BYTES("5 6"), 0, list, 1, &count, &place, &stop) == REFUSED(HULGYEVAN_NO_ROOM, 0) && count == 1);
    CHECK(hulgyevan_read_field(BYTES("  1,234.5"), &number) == 0 && hulgyevan_exponent(number) == 3);
    CHECK(hulgyevan_read_field(BYTES("##"), &number) == REFUSED(HULGYEVAN_NOT_TEXT, 0) && hulgyevan_exponent(number) == 3);
}

/* Lines: scanning, printing, the forecast. */
static void lines(void)
{
    const hulgyevan_element elements[3] = {{0, number_of(34), 9, 9}, {1, 7, 1, 3}, {0, number_of(1234), 9, 9}};
    uint8_t buffer[26] = "..........................";
    size_t size = 7, spilled = 7;

    CHECK(hulgyevan_scan(BYTES("a #,###^^^^"), 2) == 5 && hulgyevan_scan(BYTES("a#"), 0) == 0 && hulgyevan_scan(BYTES("#"), SIZE_MAX) == 0);
    CHECK(hulgyevan_print(BYTES("#,###.# = ##"), elements, 3, BYTES("leaf"), buffer, 26, &size, &spilled) == 0);
    CHECK(size == 23 && spilled == 0 && memcmp(buffer, "   34.0 = ea\n1,234.0 = ...", 26) == 0);
    CHECK(hulgyevan_print(BYTES("##"), elements + 2, 1, NULL, 0, buffer, 26, &size, &spilled) == 0 && size == 2 && spilled == 1);
    CHECK(hulgyevan_print(BYTES("##"), elements, 3, BYTES("lea"), buffer, 26, &size, &spilled) == REFUSED(HULGYEVAN_TEXT_OUTSIDE, 1));
    CHECK(hulgyevan_forecast(80, 3, &size) == 0 && size == 4 * 81);
    CHECK(hulgyevan_forecast(4097, 3, &size) == REFUSED(HULGYEVAN_WRONG_COUNT, 0) && size == 4 * 81);
}

/* Record files: writing, adding, reserving, showing, listing, a file cut short, finding, merging. */
static void files(void)
{
    uint64_t number;
    uint8_t file[8] = "........", merged[12] = "............", text[40];
    size_t used = 7, start = 7, size = 7, found[3] = {7, 7, 7}, comparisons = 7;

    CHECK(hulgyevan_write_contents(BYTES("\1\2##"), file, 8, &used) == 0 && used == 4 && memcmp(file, "\1\2##....", 8) == 0);
    CHECK(hulgyevan_write_contents(BYTES("\1\2##"), file, 3, &used) == REFUSED(HULGYEVAN_NO_ROOM, 0));
    number = number_of(5);
    CHECK(hulgyevan_add(4, &number, 1, file, 8, &used) == 0 && used == 5 && memcmp(file, "\1\2##\5...", 8) == 0);
    CHECK(hulgyevan_add(9, &number, 1, file, 8, &used) == REFUSED(HULGYEVAN_WRONG_LENGTH, 0) && used == 5);
    CHECK(hulgyevan_reserve(file, 8, 5, &start, &size) == 0 && start == 5 && size == 1);
    CHECK(hulgyevan_reserve(file, 8, 9, &start, &size) == REFUSED(HULGYEVAN_WRONG_LENGTH, 0));
    number = number_of(12);
    CHECK(hulgyevan_write_reserved(5, 5, 1, &number, 1, file, 8, &used) == 0 && used == 6 && memcmp(file, "\1\2##\5\x12..", 8) == 0);
    CHECK(hulgyevan_write_reserved(6, 5, 1, &number, 1, file, 8, &used) == REFUSED(HULGYEVAN_RESERVATION_DIFFERS, 0));
    CHECK(hulgyevan_write_reserved(6, 6, 2, &number, 1, file, 8, &used) == REFUSED(HULGYEVAN_RESERVATION_DIFFERS, 0) && used == 6);
    CHECK(hulgyevan_show(file, 6, 1, &start, &size) == 0 && start == 5 && size == 1);
    CHECK(hulgyevan_show(file, 6, 2, &start, &size) == REFUSED(HULGYEVAN_NO_RECORD, 0) && start == 5);
    CHECK(hulgyevan_list(file, 6, text, 40, &size) == 0 && size == 26 && memcmp(text, "columns 1\n05\n12\nrecords 2\n", 26) == 0);
    CHECK(hulgyevan_list(file, 6, text, 25, &size) == REFUSED(HULGYEVAN_NO_ROOM, 0) && size == 26);
    CHECK(hulgyevan_find(file, 6, &number, 1, found, 3, &comparisons) == 0 && found[0] == 1 && found[1] == 7 && comparisons == 2);
    CHECK(hulgyevan_find(file, 6, &number, 1, found, 0, &comparisons) == REFUSED(HULGYEVAN_NO_ROOM, 0));
    CHECK(hulgyevan_find(BYTES("\1\2+#"), &number, 1, found, 3, &comparisons) == REFUSED(HULGYEVAN_WRONG_KIND, 0) && comparisons == 2);
    CHECK(hulgyevan_merge(file, 6, BYTES("\1\2##\6\x13"), merged, 12, &size) == 0 && size == 8);
    CHECK(memcmp(merged, "\1\2##\5\6\x12\x13....", 12) == 0);
    CHECK(hulgyevan_merge(file, 6, BYTES("\1\2#.\6"), merged, 12, &size) == REFUSED(HULGYEVAN_NOT_AN_IMAGE, 0));
    CHECK(hulgyevan_merge(file, 6, BYTES("\1\3###"), merged, 12, &size) == REFUSED(HULGYEVAN_CONTENTS_DIFFER, 0) && size == 8);
}

/* NULL with the length 0 in the place of each slice. */
static void no_bytes(void)
{
    const uint64_t wrong_length = REFUSED(HULGYEVAN_WRONG_LENGTH, 0);
    uint64_t number = 7, stop = 7;
    size_t a = 7, b = 7, c = 7, d = 7;

    CHECK(hulgyevan_read_contents(NULL, 0, &a, &b) == wrong_length && hulgyevan_read_file(NULL, 0, &a, &b, &c, &d) == wrong_length);
    CHECK(hulgyevan_pack(NULL, 0, NULL, 0, NULL, 0, &a) == wrong_length && hulgyevan_unpack(NULL, 0, NULL, 0, NULL, 0, &a) == wrong_length);
    CHECK(hulgyevan_pack_with_remainders(NULL, 0, NULL, 0, NULL, 0, NULL, 0, &a) == wrong_length);
    CHECK(hulgyevan_pack(BYTES("\1\1#"), NULL, 0, NULL, 0, &a) == REFUSED(HULGYEVAN_WRONG_COUNT, 0));
    CHECK(hulgyevan_pack(BYTES("\1\1#"), &(const uint64_t){HULGYEVAN_ZERO}, 1, NULL, 0, &a) == REFUSED(HULGYEVAN_NO_ROOM, 0));
    CHECK(hulgyevan_unpack(BYTES("\1\1#"), NULL, 0, NULL, 0, &a) == wrong_length);
    CHECK(hulgyevan_unpack(BYTES("\1\1#"), BYTES("\x10"), NULL, 0, &a) == REFUSED(HULGYEVAN_NO_ROOM, 0));
    CHECK(hulgyevan_alpha(NULL, 0, HULGYEVAN_ZERO, NULL, 0, &a) == REFUSED(HULGYEVAN_NOT_AN_IMAGE, 0));
    CHECK(hulgyevan_alpha(BYTES("#"), HULGYEVAN_ZERO, NULL, 0, &a) == REFUSED(HULGYEVAN_NO_ROOM, 0));
    CHECK(hulgyevan_legal_length(NULL, 0) == 0 && hulgyevan_scan(NULL, 0, 0) == 0);
    CHECK(hulgyevan_read_text_number(NULL, 0, &number, &a) == REFUSED(HULGYEVAN_NOT_TEXT, 0));
    CHECK(hulgyevan_convert(NULL, 0, &number) == REFUSED(HULGYEVAN_NOT_TEXT, 0));
    CHECK(hulgyevan_read_field(NULL, 0, &number) == REFUSED(HULGYEVAN_NOT_TEXT, 0));
    CHECK(hulgyevan_write_contents(NULL, 0, NULL, 0, &a) == wrong_length && hulgyevan_add(0, NULL, 0, NULL, 0, &a) == wrong_length);
    CHECK(hulgyevan_reserve(NULL, 0, 0, &a, &b) == wrong_length && hulgyevan_write_reserved(0, 0, 0, NULL, 0, NULL, 0, &a) == wrong_length);
    CHECK(hulgyevan_show(NULL, 0, 0, &a, &b) == wrong_length && hulgyevan_list(NULL, 0, NULL, 0, &a) == wrong_length);
    CHECK(hulgyevan_list(BYTES("\1\1#"), NULL, 0, &a) == REFUSED(HULGYEVAN_NO_ROOM, 0));
    CHECK(hulgyevan_find(NULL, 0, NULL, 0, NULL, 0, &a) == wrong_length && hulgyevan_merge(NULL, 0, NULL, 0, NULL, 0, &a) == wrong_length);
    CHECK(a == 7 && b == 7 && c == 7 && d == 7 && number == 7);
    CHECK(hulgyevan_read_text_numbers(NULL, 0, 0, NULL, 0, &a, &b, &stop) == 0 && a == 0 && b == 0 && stop == 0);
    CHECK(hulgyevan_print(NULL, 0, NULL, 0, NULL, 0, NULL, 0, &a, &b) == 0 && a == 0 && b == 0);
    CHECK(hulgyevan_find(BYTES("\1\1#"), NULL, 0, NULL, 0, &a) == 0 && a == 0);
    a = 7;
    CHECK(hulgyevan_enter(NULL, 0, NULL, 0, NULL, 0, &a, &b) == wrong_length && a == 7 && b == 0);
    CHECK(hulgyevan_enter(BYTES("\1\1#"), NULL, 0, NULL, 0, &a, &b) == REFUSED(HULGYEVAN_NO_ROOM, 0) && a == 7 && b == 0);
    CHECK(hulgyevan_whole_length(NULL, 0, &a, &b) == wrong_length && a == 7);
}

/* Entering a text of lines, and the whole length of a file. */
static void entering(void)
{
    uint8_t buffer[8] = "........";
    size_t size = 7, line = 7, whole = 7, behind = 7;

    CHECK(hulgyevan_enter(BYTES("\1\2##"), BYTES("columns 1\n05\n12\nrecords 2\n"), buffer, 8, &size, &line) == 0 && size == 6 && line == 7);
    CHECK(memcmp(buffer, "\1\2##\5\x12..", 8) == 0);
    CHECK(hulgyevan_enter(BYTES("\1\2##"), BYTES("5\n100\n"), buffer, 8, &size, &line) == REFUSED(HULGYEVAN_EXCEEDS, 0) && line == 2);
    CHECK(hulgyevan_enter(BYTES("\1\2##"), BYTES("5\n6\n"), buffer, 5, &size, &line) == REFUSED(HULGYEVAN_NO_ROOM, 0) && line == 0);
    CHECK(size == 6 && memcmp(buffer, "\1\2##\5\x12..", 8) == 0);
    CHECK(hulgyevan_whole_length(BYTES("\1\4####\1\2\3"), &whole, &behind) == 0 && whole == 8 && behind == 1);
    CHECK(hulgyevan_whole_length(BYTES("\1\4###"), &whole, &behind) == REFUSED(HULGYEVAN_WRONG_LENGTH, 0) && whole == 8);
}

int main(void)
{
    numbers();
    bodies();
    limits();
    texts();
    lines();
    files();
    no_bytes();
    entering();
    printf("%d checks, %d failed\n", checks, failures);
    return failures != 0;
}
