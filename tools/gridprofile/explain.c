/* What is wrong with a profile line, in words. docs/FORMATS.md, "Profile line" and "Class tables", has
 * the rules; the library decides by them, and this only says where a line that it refused breaks the
 * first one. */
#include "program.h"

#include <inttypes.h>
#include <string.h>

/* All that there are; a line without a rate point ends before the last two. */
enum { FIELDS = 16, FIELDS_WITHOUT_RATE = 14, CLASS_FIELD = 2, VOLTS_FIELD = 4 };

/* More of a field is not shown, so that one field cannot fill the screen. */
enum { SHOWN = 24 };

/* What parts this many fields is meant as a line, whatever it begins with. */
enum { TELLING_MARKS = 10 };

enum form { TAG, TWO_LETTERS, ONE_LETTER, CLASS_LETTER, NUMBER, NEGATIVE, EITHER };

/* The kinds of line: the tag, and the number of fields that it asks for. */
struct tag {
    const char *text;
    size_t fields;
};

enum { TAG_BYTES = 3 };

static const struct tag tags[] = {{"GP1", FIELDS_WITHOUT_RATE}, {"GP2", FIELDS}};

struct rule {
    const char *name;
    enum form form;
    uint32_t least, most; /* of a number, without its minus */
    const char *must; /* of the class the table tells it */
};

#define DELAY_RULE(name) {name " delay", NUMBER, 20, 60000, "20 to 60000 ms"}

static const struct rule rules[FIELDS] = {
    {"tag", TAG, 0, 0, "GP1 or GP2"},
    {"country", TWO_LETTERS, 0, 0, "two letters A to Z"},
    {"class", CLASS_LETTER, 0, 0, NULL},
    {"serial", NUMBER, 1, UINT32_MAX, "1 to 4294967295"},
    {"nominal volts", NUMBER, LEAST_VOLTS, MOST_VOLTS, "100 to 1000"},
    {"hertz", EITHER, 50, 60, "50 or 60"},
    {"over-voltage", NUMBER, 1001, 1500, "1001 to 1500 thousandths of nominal"},
    DELAY_RULE("over-voltage"),
    {"under-voltage", NUMBER, 1, 999, "1 to 999 thousandths of nominal"},
    DELAY_RULE("under-voltage"),
    {"over-frequency", NUMBER, 1, 5000, "1 to 5000 mHz above nominal"},
    DELAY_RULE("over-frequency"),
    {"under-frequency", NEGATIVE, 1, 5000, "-5000 to -1 mHz"},
    DELAY_RULE("under-frequency"),
    {"rate of change", NUMBER, 100, 10000, "100 to 10000 mHz per second"},
    DELAY_RULE("rate of change"),
};

/* A line taken apart: what stands around its fields, and the fields. */
struct line {
    struct part text;           /* the first line, without mark and line end */
    int utf_8, utf_16;          /* the byte order mark in front */
    int carriage, feed;         /* the bytes that end it */
    int more;                   /* something after the line feed */
    int open;                   /* it is too long to be a line, and may go on past what was read */
    struct part fields[FIELDS]; /* NULL where one is missing */
    size_t count;               /* of all fields, also past the last that there may be */
};

static int begins(struct part part, const char *bytes, size_t count)
{
    return part.length >= count && memcmp(part.at, bytes, count) == 0;
}

/* The kind of line whose tag stands at the front, or NULL. */
static const struct tag *tag_before(struct part part)
{
    for (size_t at = 0; at < COUNT(tags); at++)
        if (begins(part, tags[at].text, TAG_BYTES))
            return &tags[at];
    return NULL;
}

/* The kind of line that a tag field names, or NULL. */
static const struct tag *find_tag(struct part part)
{
    return part.length == TAG_BYTES ? tag_before(part) : NULL;
}

static void cut_fields(struct line *line)
{
    line->count = 1;
    line->fields[0] = (struct part){line->text.at, 0};
    for (size_t at = 0; at < line->text.length; at++) {
        int comma = line->text.at[at] == ',';
        line->count += comma ? 1 : 0;
        if (line->count > FIELDS)
            continue;
        if (comma)
            line->fields[line->count - 1] = (struct part){line->text.at + at + 1, 0};
        else
            line->fields[line->count - 1].length++;
    }
}

static void cut_line(struct line *line, const uint8_t *bytes, size_t length)
{
    const uint8_t *feed = length > 0 ? memchr(bytes, '\n', length) : NULL;
    struct part *text = &line->text;
    *text = (struct part){bytes, feed != NULL ? (size_t)(feed - bytes) : length};
    line->feed = feed != NULL;
    line->more = feed != NULL && text->length + 1 < length;
    line->open = feed == NULL && length > GRIDPROFILE_LINE_MAX_BYTES;
    line->carriage = text->length > 0 && text->at[text->length - 1] == '\r';
    text->length -= line->carriage ? 1 : 0;
    line->utf_16 = begins(*text, "\xFF\xFE", 2) || begins(*text, "\xFE\xFF", 2);
    line->utf_8 = begins(*text, "\xEF\xBB\xBF", 3);
    text->at += line->utf_8 ? 3 : 0;
    text->length -= line->utf_8 ? 3 : 0;
    cut_fields(line);
}

int has_any(struct part part, const char *bytes)
{
    for (size_t at = 0; at < part.length; at++)
        if (memchr(bytes, part.at[at], strlen(bytes)) != NULL)
            return 1;
    return 0;
}

static int is_plain(struct part part)
{
    for (size_t at = 0; at < part.length; at++)
        if (part.at[at] >= 0x80)
            return 0;
    return 1;
}

static int is_digits(struct part part)
{
    for (size_t at = 0; at < part.length; at++)
        if (part.at[at] < '0' || part.at[at] > '9')
            return 0;
    return part.length > 0;
}

/* A seed may be given for a line by mistake, and nothing may be shown of it: none is like this. */
static int is_meant_as_line(struct part text)
{
    size_t marks = 0;
    for (size_t at = 0; at < text.length; at++)
        marks += memchr(",;\t", text.at[at], 3) != NULL ? 1 : 0;
    return marks >= TELLING_MARKS || tag_before(text) != NULL;
}

/* Of any number of digits; it stops at the first value that is too great for every field. */
uint64_t value_in(struct part digits)
{
    uint64_t value = 0;
    for (size_t at = 0; at < digits.length && value <= UINT32_MAX; at++)
        value = value * 10 + (uint64_t)(digits.at[at] - '0');
    return value;
}

static int is_between(uint8_t byte, char first, char last)
{
    return byte >= (uint8_t)first && byte <= (uint8_t)last;
}

static int letters_fit(enum form form, struct part part)
{
    if (form == TAG)
        return find_tag(part) != NULL;
    if (form == ONE_LETTER)
        return part.length == 1 && is_between(part.at[0], 'A', 'Z');
    if (form == CLASS_LETTER)
        return part.length == 1 && is_class(part.at[0]);
    return part.length == 2 && is_between(part.at[0], 'A', 'Z') && is_between(part.at[1], 'A', 'Z');
}

static int raised_letters_fit(enum form form, struct part part)
{
    uint8_t raised[4] = {0};
    struct part copy = {raised, part.length};
    for (size_t at = 0; at < part.length && at < sizeof raised; at++)
        raised[at] = part.at[at] - (is_between(part.at[at], 'a', 'z') ? 'a' - 'A' : 0);
    return part.length <= sizeof raised && letters_fit(form, copy);
}

/* Words for bytes that stand in no field. */
const char *odd_bytes(struct part part, const char *otherwise)
{
    if (has_any(part, " \t"))
        return ", with a space or a tab";
    if (has_any(part, "\""))
        return ", with a quote";
    return is_plain(part) ? otherwise : ", with bytes that are not plain ASCII";
}

static const char *letters_trouble(enum form form, struct part part)
{
    if (letters_fit(form, part))
        return NULL;
    return raised_letters_fit(form, part) ? ", in lower case" : odd_bytes(part, "");
}

static int number_fits(const struct rule *rule, uint64_t value)
{
    if (rule->form == EITHER)
        return value == rule->least || value == rule->most;
    return value >= rule->least && value <= rule->most;
}

static const char *number_trouble(const struct rule *rule, struct part part)
{
    size_t sign = begins(part, "-", 1) || begins(part, "+", 1) ? 1 : 0;
    int minus = begins(part, "-", 1), wanted = rule->form == NEGATIVE;
    struct part digits = {part.at + sign, part.length - sign};
    if (!is_digits(digits))
        return odd_bytes(part, has_any(part, ".'_") ? ", with a decimal point or a thousands mark"
                                                    : ", not digits alone");
    if (sign && !minus)
        return ", with a plus";
    if (minus != wanted)
        return minus ? ", with a minus" : ", without a minus";
    if (digits.length > 1 && digits.at[0] == '0')
        return ", with a leading zero";
    return number_fits(rule, value_in(digits)) ? NULL : "";
}

const char *letter_trouble(struct part part)
{
    return letters_trouble(ONE_LETTER, part);
}

const char *volts_trouble(struct part part)
{
    return number_trouble(&rules[VOLTS_FIELD], part);
}

/* NULL where a field keeps its rule by itself, else words on what is wrong with it, or none where
 * the rule says it all. */
static const char *trouble(size_t field, struct part part)
{
    const struct rule *rule = &rules[field];
    if (part.length == 0)
        return "";
    return rule->form < NUMBER ? letters_trouble(rule->form, part) : number_trouble(rule, part);
}

/* The class of the nominal volts, or 0 where they are in a gap; and nothing of volts that break their
 * rule. */
static int find_class(const struct line *line, uint32_t *letter)
{
    struct part volts = line->fields[VOLTS_FIELD];
    int known = trouble(VOLTS_FIELD, volts) == NULL;
    *letter = known ? class_of((uint32_t)value_in(volts)) : 0;
    return known;
}

/* Class and volts are both good, and do not fit. */
static int class_differs(const struct line *line)
{
    struct part letter = line->fields[CLASS_FIELD];
    uint32_t wanted;
    return trouble(CLASS_FIELD, letter) == NULL && find_class(line, &wanted) && wanted != 0 &&
           letter.at[0] != wanted;
}

/* The volts are good by themselves, and no class has them: there whatever the class is, they are the
 * fault. */
static int is_in_gap(const struct line *line)
{
    uint32_t wanted;
    return find_class(line, &wanted) && wanted == 0;
}

/* A field that is good by itself, but not beside another. */
static int clashes(const struct line *line, size_t field)
{
    return (field == CLASS_FIELD && class_differs(line)) || (field == VOLTS_FIELD && is_in_gap(line));
}

/* How many fields the tag asks for. Another tag is the first fault, so that it does not matter then. */
static size_t fields_of(const struct line *line)
{
    const struct tag *tag = find_tag(line->fields[0]);
    return tag != NULL ? tag->fields : FIELDS;
}

/* The first field that breaks a rule, from 0: one that is missing too, or as many as there must be. */
static size_t first_broken(const struct line *line)
{
    size_t field = 0, asked = fields_of(line);
    while (field < asked && trouble(field, line->fields[field]) == NULL && !clashes(line, field))
        field++;
    return field;
}

/* Nothing is shown as it is that a terminal could take for an order, or a reader for our quotes. */
static int is_shown_plain(uint8_t byte)
{
    return is_between(byte, ' ', '~') && byte != '"' && byte != '\\';
}

/* How many bytes of a part are shown, in so many characters at most. */
static size_t count_shown(struct part part, size_t most)
{
    size_t count = 0, width = 0;
    while (count < part.length && width <= most)
        width += is_shown_plain(part.at[count++]) ? 1 : 4;
    return width <= most ? count : count - 1;
}

static void print_bytes(FILE *to, struct part part, size_t most)
{
    size_t count = count_shown(part, most);
    fputc('"', to);
    for (size_t at = 0; at < count; at++)
        fprintf(to, is_shown_plain(part.at[at]) ? "%c" : "\\x%02X", part.at[at]);
    fputs(count < part.length ? "\"..." : "\"", to);
}

void print_part(FILE *to, struct part part, size_t most)
{
    if (part.at == NULL)
        fputs("missing", to);
    else if (part.length == 0)
        fputs("empty", to);
    else
        print_bytes(to, part, most);
}

void print_field_name(FILE *to, size_t field)
{
    fprintf(to, "  field %zu, %s, is ", field + 1, rules[field].name);
}

void print_field_rule(FILE *to, size_t field)
{
    fputs("; it must be ", to);
    if (field == CLASS_FIELD)
        print_ranges(to);
    else
        fputs(rules[field].must, to);
    fputc('\n', to);
}

/* Of volts without a class, the classes that there are; of a class that they have not, the one that
 * they have. */
static void print_clash(FILE *to, const struct line *line, size_t field)
{
    uint32_t volts = (uint32_t)value_in(line->fields[VOLTS_FIELD]);
    if (field == CLASS_FIELD) {
        fprintf(to, ", but %" PRIu32 " volts are of class %c\n", volts, (int)class_of(volts));
        return;
    }
    fputs(", in a gap of the class table; it must be in ", to);
    print_ranges(to);
    fputc('\n', to);
}

static void print_first_broken(FILE *to, const struct line *line)
{
    size_t field = first_broken(line);
    if (field == fields_of(line))
        return;
    print_field_name(to, field);
    print_part(to, line->fields[field], SHOWN);
    if (clashes(line, field)) {
        print_clash(to, line, field);
    } else {
        fputs(trouble(field, line->fields[field]), to);
        print_field_rule(to, field);
    }
}

/* Whether the tag, or under another tag one of those that there are, asks for just so many fields. */
static int count_fits(const struct line *line)
{
    const struct tag *tag = find_tag(line->fields[0]);
    if (tag != NULL)
        return line->count == tag->fields;
    return line->count == FIELDS || line->count == FIELDS_WITHOUT_RATE;
}

/* Words for a number of fields that does not fit. A line of the other kind, whose fields are good but
 * for that, is told from one that is cut or has too many commas. */
static const char *count_trouble(const struct line *line)
{
    int is_other_kind = first_broken(line) == FIELDS_WITHOUT_RATE && !line->open;
    if (is_other_kind && line->count == FIELDS_WITHOUT_RATE)
        return ": rate of change and its delay are missing, or the tag must be GP1";
    if (is_other_kind && line->count == FIELDS)
        return ": a rate point needs GP2";
    return line->count < fields_of(line) ? ", parted by commas" : ", and no comma within a number";
}

static void print_count(FILE *to, const struct line *line)
{
    const struct tag *tag = find_tag(line->fields[0]);
    if (count_fits(line) || (line->open && line->count < fields_of(line)))
        return;
    fprintf(to, "  the line has %zu field%s%s; it must have ", line->count,
            line->count == 1 ? "" : "s", line->open ? " or more" : "");
    if (tag != NULL)
        fprintf(to, "%zu under %s", tag->fields, tag->text);
    else
        fprintf(to, "%zu under %s or %zu under %s", tags[0].fields, tags[0].text, tags[1].fields,
                tags[1].text);
    fprintf(to, "%s\n", count_trouble(line));
}

static void print_end(FILE *to, const struct line *line)
{
    if (line->open)
        fprintf(to, "  no line feed stands in its first %d bytes\n", GRIDPROFILE_LINE_MAX_BYTES);
    else if (!line->feed && line->carriage)
        fputs("  the line ends in CR (0D); it must end in LF (0A)\n", to);
    else if (!line->feed)
        fputs("  the line feed at the end is missing\n", to);
    else if (line->carriage)
        fputs("  the line ends in CR LF, as Windows writes it; it must end in LF alone\n", to);
    if (line->more)
        fputs("  bytes stand after the line feed; there must be one line and nothing else\n", to);
}

/* What is given for a line by mistake is often a file of another kind. */
static void print_no_line(FILE *to, size_t length)
{
    const char *rival = rival_of_line(length);
    fprintf(to, "  field 1, tag, is not GP1 or GP2; this does not look like a profile line%s%s\n",
            rival != NULL ? ", but has the size of " : "", rival != NULL ? rival : "");
}

/* What is in front can make further words mislead; answers whether it does. */
static int print_front(FILE *to, const struct line *line, size_t length)
{
    if (line->utf_16) {
        fputs("  a byte order mark of UTF-16 stands in front; save the file as plain ASCII\n", to);
        return 1;
    }
    if (line->utf_8)
        fputs("  a byte order mark (EF BB BF) stands in front; save the file without it\n", to);
    if (line->text.length == 0) {
        fputs("  the line is empty\n", to);
    } else if (!is_meant_as_line(line->text)) {
        print_no_line(to, length);
        return 1;
    }
    return 0;
}

static void explain(FILE *to, const struct line *line, size_t length)
{
    if (print_front(to, line, length))
        return;
    if (line->text.length > 0) {
        print_first_broken(to, line);
        print_count(to, line);
    }
    if (length > 0)
        print_end(to, line);
}

void explain_line(FILE *to, const uint8_t *bytes, size_t length)
{
    struct line line = {0};
    cut_line(&line, bytes, length);
    explain(to, &line, length);
}

void explain_whole_line(FILE *to, const uint8_t *bytes, size_t length)
{
    struct line line = {0};
    cut_line(&line, bytes, length);
    line.open = 0;
    explain(to, &line, length);
}
