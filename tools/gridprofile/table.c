/* Class tables: which nominal volts make which class. docs/FORMATS.md, "Class tables" and "Images for
 * C", has the rules; the library decides by them, and this looks into a table only for what is said. */
#include "program.h"

#include <inttypes.h>
#include <string.h>

uint8_t classes[GRIDPROFILE_TABLE_IMAGE_BYTES];

/* What an image without rows stands for. */
static const struct row built_in[] = {
    {'A', 100, 139}, {'B', 140, 259}, {'C', 260, 519}, {'D', 520, 1000},
};

/* More rows are named by their letters alone, so that one message cannot fill the screen. */
enum { ROWS_WITH_VOLTS = 8 };

void use_table(const uint8_t *image)
{
    memcpy(classes, image, sizeof classes);
}

int is_built_in(const uint8_t *table)
{
    return number_at(table + GRIDPROFILE_TABLE_USED_OFFSET) == 0;
}

size_t count_rows(const uint8_t *table)
{
    uint32_t used = number_at(table + GRIDPROFILE_TABLE_USED_OFFSET);
    if (used == 0)
        return COUNT(built_in);
    return used < GRIDPROFILE_TABLE_ROWS ? used : GRIDPROFILE_TABLE_ROWS;
}

struct row row_at(const uint8_t *table, size_t at)
{
    const uint8_t *row = table + GRIDPROFILE_TABLE_ROWS_OFFSET + at * GRIDPROFILE_ROW_BYTES;
    if (is_built_in(table))
        return built_in[at];
    return (struct row){number_at(row + GRIDPROFILE_ROW_CLASS_OFFSET),
                        number_at(row + GRIDPROFILE_ROW_LOW_OFFSET),
                        number_at(row + GRIDPROFILE_ROW_HIGH_OFFSET)};
}

static int is_letter(uint32_t number)
{
    return number >= 'A' && number <= 'Z';
}

/* The first row counts, where several hold the volts. Only a damaged table has such rows, and letters
 * that are none. */
uint32_t class_of(uint32_t volts)
{
    for (size_t at = 0; at < count_rows(classes); at++) {
        struct row row = row_at(classes, at);
        if (volts >= row.low && volts <= row.high)
            return is_letter(row.letter) ? row.letter : 0;
    }
    return 0;
}

int is_class(uint32_t letter)
{
    size_t at = 0;
    while (at < count_rows(classes) && row_at(classes, at).letter != letter)
        at++;
    return at < count_rows(classes) && is_letter(letter);
}

/* Nothing is shown as it is that a terminal could take for an order. */
static int shown(uint32_t letter)
{
    return is_letter(letter) ? (int)letter : '?';
}

/* What stands before a row in a list: nothing, a comma, or the word before the last. */
static const char *before_row(const uint8_t *table, size_t at, const char *last)
{
    return at == 0 ? "" : at + 1 < count_rows(table) ? ", " : last;
}

void print_letters(FILE *to, const uint8_t *table)
{
    for (size_t at = 0; at < count_rows(table); at++)
        fprintf(to, "%s%c", before_row(table, at, " and "), shown(row_at(table, at).letter));
}

void print_ranges(FILE *to)
{
    if (count_rows(classes) > ROWS_WITH_VOLTS) {
        fputs("one of ", to);
        print_letters(to, classes);
        return;
    }
    for (size_t at = 0; at < count_rows(classes); at++) {
        struct row row = row_at(classes, at);
        fprintf(to, "%s%c (%" PRIu32 " to %" PRIu32 "%s)", before_row(classes, at, " or "),
                shown(row.letter), row.low, row.high, at == 0 ? " V" : "");
    }
}

int read_profile(const uint8_t *line, size_t length, uint8_t *image)
{
    return gridprofile_read_line(classes, sizeof classes, line, length, image,
                                 GRIDPROFILE_PROFILE_IMAGE_BYTES);
}

int write_profile(const uint8_t *image, uint8_t *line, size_t *length)
{
    return gridprofile_write_line(classes, sizeof classes, image, GRIDPROFILE_PROFILE_IMAGE_BYTES,
                                  line, GRIDPROFILE_LINE_MAX_BYTES, length);
}

/* Where the class stands in a line: a tag of three letters and a country of two come before it. */
enum { CLASS_AT = 7 };

/* It is one under some table where it is one under the table whose only row is the line's own class,
 * with all volts that a line may have. */
int is_line_of_some_table(const uint8_t *line, size_t length)
{
    uint8_t table[GRIDPROFILE_TABLE_IMAGE_BYTES], profile[GRIDPROFILE_PROFILE_IMAGE_BYTES];
    uint8_t file[] = "A,100,1000\n";
    if (length <= CLASS_AT)
        return 0;
    file[0] = line[CLASS_AT];
    return gridprofile_read_table(file, sizeof file - 1, table, sizeof table) == 0 &&
           gridprofile_read_line(table, sizeof table, line, length, profile, sizeof profile) == 0;
}
