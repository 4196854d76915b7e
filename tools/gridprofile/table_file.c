/* A class table as a file: its rows, and what is wrong with one that the library refuses. */
#include "program.h"

#include <inttypes.h>
#include <string.h>

/* A row has three fields, with commas between them. More of a field is not shown, so that one field
 * cannot fill the screen. */
enum { LETTER, LOW, HIGH, FIELDS };
enum { SHOWN = 24 };

static const char *const names[FIELDS] = {"class", "low volts", "high volts"};
static const char *const musts[FIELDS] = {"one letter A to Z", "100 to 1000", "100 to 1000"};

/* What parts this many fields is meant as a row, whatever it begins with. */
enum { TELLING_MARKS = 2 };

/* A row taken apart. */
struct cut {
    size_t number;              /* counted from 1 */
    struct part text;           /* without its end */
    int carriage, feed;         /* the bytes that end it */
    struct part fields[FIELDS];
    size_t count;               /* of all fields, also past the last that there may be */
};

struct input table_input(const char *path)
{
    static uint8_t bytes[MOST_TABLE_BYTES];
    struct input table = {.role = "TABLE", .path = path, .bytes = bytes, .room = sizeof bytes};
    table.most = sizeof bytes;
    return table;
}

/* A row of any numbers, also of an image that no file makes. */
enum { ROW_ROOM = 32 };

static size_t write_row(char *text, struct row row)
{
    return (size_t)snprintf(text, ROW_ROOM, "%c,%" PRIu32 ",%" PRIu32 "\n", (int)row.letter, row.low,
                            row.high);
}

void print_rows(FILE *to, const uint8_t *table)
{
    char text[ROW_ROOM];
    for (size_t at = 0; at < count_rows(table); at++)
        (void)fwrite(text, 1, write_row(text, row_at(table, at)), to);
}

/* Zeros, or what reading its own rows writes. */
int is_loaded_table(const uint8_t *table)
{
    static const uint8_t zeros[GRIDPROFILE_TABLE_IMAGE_BYTES];
    uint8_t again[GRIDPROFILE_TABLE_IMAGE_BYTES];
    char text[GRIDPROFILE_TABLE_ROWS * ROW_ROOM];
    size_t length = 0;
    for (size_t at = 0; at < count_rows(table); at++)
        length += write_row(text + length, row_at(table, at));
    return memcmp(table, zeros, sizeof zeros) == 0 ||
           (gridprofile_read_table((const uint8_t *)text, length, again, sizeof again) == 0 &&
            memcmp(table, again, sizeof again) == 0);
}

static void print_span(const char *name, uint32_t low, uint32_t high)
{
    if (low == high)
        printf("  %-16s%" PRIu32 " V\n", name, low);
    else if (low < high)
        printf("  %-16s%" PRIu32 " to %" PRIu32 " V\n", name, low, high);
}

/* With the gaps, so that all volts are named that a line may have. */
void print_table(const uint8_t *table)
{
    uint32_t next = LEAST_VOLTS;
    for (size_t at = 0; at < count_rows(table); at++) {
        struct row row = row_at(table, at);
        char name[] = "class A";
        name[strlen(name) - 1] = (char)row.letter;
        print_span("no class", next, row.low - 1);
        print_span(name, row.low, row.high);
        next = row.high + 1;
    }
    print_span("no class", next, MOST_VOLTS);
}

static void cut_fields(struct cut *row)
{
    row->count = 1;
    row->fields[0] = (struct part){row->text.at, 0};
    for (size_t at = 0; at < row->text.length; at++) {
        int comma = row->text.at[at] == ',';
        row->count += comma ? 1 : 0;
        if (row->count > FIELDS)
            continue;
        if (comma)
            row->fields[row->count - 1] = (struct part){row->text.at + at + 1, 0};
        else
            row->fields[row->count - 1].length++;
    }
}

static struct cut cut_row(const uint8_t *bytes, size_t length, size_t number)
{
    struct cut row = {.number = number, .text = {bytes, length}};
    row.feed = length > 0 && bytes[length - 1] == '\n';
    row.text.length -= row.feed ? 1 : 0;
    row.carriage = row.text.length > 0 && bytes[row.text.length - 1] == '\r';
    row.text.length -= row.carriage ? 1 : 0;
    cut_fields(&row);
    return row;
}

/* The first row that cannot stand behind those before it: the library takes those alone, and no more
 * with this one. The table that they make is then in `before`. */
static struct cut find_row(struct part text, uint8_t *before)
{
    size_t at = 0, number = 0;
    for (;;) {
        const uint8_t *feed = memchr(text.at + at, '\n', text.length - at);
        size_t end = feed != NULL ? (size_t)(feed + 1 - text.at) : text.length;
        number++;
        if (gridprofile_read_table(text.at, end, before, GRIDPROFILE_TABLE_IMAGE_BYTES) != 0 ||
            end == text.length)
            return cut_row(text.at + at, end - at, number);
        at = end;
    }
}

/* Up to the first byte that is not of a text in plain ASCII. */
static size_t length_of_text(struct part part)
{
    size_t at = 0;
    while (at < part.length && ((part.at[at] >= ' ' && part.at[at] <= '~') ||
                                memchr("\t\n\r", part.at[at], 3) != NULL))
        at++;
    return at;
}

int looks_like_table(struct part text)
{
    return text.length >= 3 && text.at[0] >= 'A' && text.at[0] <= 'Z' && text.at[1] == ',' &&
           text.at[2] >= '0' && text.at[2] <= '9' && length_of_text(text) == text.length;
}

/* A seed may be given for a table by mistake, and nothing may be shown of it: in letters or digits it
 * has no such marks, and else it is no text. */
static int is_meant_as_row(const struct cut *row)
{
    size_t marks = 0;
    for (size_t at = 0; at < row->text.length; at++)
        marks += memchr(",;\t", row->text.at[at], 3) != NULL ? 1 : 0;
    return row->number > 1 || row->text.length == 0 || marks >= TELLING_MARKS;
}

static const char *trouble(size_t field, struct part part)
{
    if (part.length == 0)
        return "";
    return field == LETTER ? letter_trouble(part) : volts_trouble(part);
}

static void print_field(FILE *to, const struct cut *row, size_t field)
{
    fprintf(to, "  row %zu, %s, is ", row->number, names[field]);
    print_part(to, row->fields[field], SHOWN);
}

/* The first field that breaks its rule by itself, or FIELDS. */
static size_t first_broken(const struct cut *row)
{
    size_t field = 0;
    while (field < FIELDS && trouble(field, row->fields[field]) == NULL)
        field++;
    return field;
}

/* Of a row whose fields are good, what they are not beside each other and beside the row before. */
static void print_order(FILE *to, const struct cut *row, const struct row *before)
{
    uint32_t letter = row->fields[LETTER].at[0];
    uint32_t low = (uint32_t)value_in(row->fields[LOW]), high = (uint32_t)value_in(row->fields[HIGH]);
    if (row->number > 1 && letter <= before->letter) {
        print_field(to, row, LETTER);
        fprintf(to, "; it must come after %c, the class of row %zu\n", (int)before->letter,
                row->number - 1);
    } else if (low > high) {
        print_field(to, row, LOW);
        fprintf(to, "; it must be at most the high volts, %" PRIu32 "\n", high);
    } else if (row->number > 1 && low <= before->high) {
        print_field(to, row, LOW);
        fprintf(to, "; it must be above %" PRIu32 ", the high volts of row %zu\n", before->high,
                row->number - 1);
    }
}

static void print_fields(FILE *to, const struct cut *row, const struct row *before)
{
    size_t field = first_broken(row);
    if (row->text.length == 0) {
        fprintf(to, "  row %zu is empty\n", row->number);
    } else if (row->count != FIELDS) {
        fprintf(to, "  row %zu has %zu field%s; it must have %d, parted by commas: class, low volts, "
                    "high volts\n", row->number, row->count, row->count == 1 ? "" : "s", FIELDS);
    } else if (field < FIELDS) {
        print_field(to, row, field);
        fprintf(to, "%s; it must be %s\n", trouble(field, row->fields[field]), musts[field]);
    } else {
        print_order(to, row, before);
    }
}

static void print_end(FILE *to, const struct cut *row)
{
    if (!row->feed && row->carriage)
        fprintf(to, "  row %zu ends in CR (0D); it must end in LF (0A)\n", row->number);
    else if (!row->feed)
        fprintf(to, "  the line feed at the end of row %zu is missing\n", row->number);
    else if (row->carriage)
        fprintf(to, "  row %zu ends in CR LF, as Windows writes it; it must end in LF alone\n",
                row->number);
}

/* What is given for a table by mistake is often a file of another kind. */
static void print_no_table(FILE *to, size_t row, const char *what, const struct input *table)
{
    const char *name = input_kind(table);
    fprintf(to, "  row %zu %s%s%s\n", row, what, name != NULL ? "; the file has the size of " : "",
            name != NULL ? name : "");
}

/* The row in which this byte stands, counted from 1. */
static size_t row_of(struct part text, size_t byte)
{
    size_t row = 1;
    for (size_t at = 0; at < byte; at++)
        row += text.at[at] == '\n' ? 1 : 0;
    return row;
}

static int begins(struct part text, const char *mark)
{
    return text.length >= strlen(mark) && memcmp(text.at, mark, strlen(mark)) == 0;
}

/* What can make further words mislead, or must not be shown; answers whether it does. */
static int print_whole(FILE *to, const struct input *table)
{
    struct part text = {table->bytes, table->length};
    size_t plain = length_of_text(text);
    if (text.length == 0)
        fprintf(to, "  the file is empty; a table has 1 to %d rows\n", GRIDPROFILE_TABLE_ROWS);
    else if (begins(text, "\xFF\xFE") || begins(text, "\xFE\xFF"))
        fputs("  a byte order mark of UTF-16 stands in front; save the file as plain ASCII\n", to);
    else if (begins(text, "\xEF\xBB\xBF"))
        fputs("  a byte order mark (EF BB BF) stands in front; save the file without it\n", to);
    else if (plain < text.length)
        print_no_table(to, row_of(text, plain), "has bytes that are not plain ASCII", table);
    else if (table->begins_as_line)
        fputs("  row 1 begins as a profile line does; see whether files are exchanged\n", to);
    else
        return 0;
    return 1;
}

void explain_table(FILE *to, const struct input *table)
{
    struct part text = {table->bytes, table->length};
    uint8_t before[GRIDPROFILE_TABLE_IMAGE_BYTES] = {0};
    struct row last = {0};
    struct cut row;
    if (print_whole(to, table))
        return;
    row = find_row(text, before);
    if (row.number > 1)
        last = row_at(before, row.number - 2);
    if (row.number > GRIDPROFILE_TABLE_ROWS) {
        fprintf(to, "  row %zu is one too many; a table has at most %d\n", row.number,
                GRIDPROFILE_TABLE_ROWS);
    } else if (!is_meant_as_row(&row)) {
        print_no_table(to, row.number, "is no row of a class table, such as E,100,199", table);
    } else {
        print_fields(to, &row, &last);
        print_end(to, &row);
    }
}
