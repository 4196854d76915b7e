/* What is wrong with a line of formulas, in words. docs/FORMATS.md, "Lines with formulas", has the rules;
 * the library decides by them, and no formula is read here: where the fault stands is found by asking it
 * again, about lines with one formula of the refused line and good numbers in the place of the others. */
#include "program.h"

#include <string.h>

/* What a formula may have: characters, and pairs of parentheses around each other. */
enum { MOST_CHARACTERS = 64, MOST_DEEP = 8 };

/* Fields count from 0. */
enum { VOLTS_FIELD = 4, FIELDS = 16 };

/* A limit: its field, and a number that is within its range. */
struct limit {
    size_t field;
    const char *good;
};

enum { LIMITS = 5 };
static const struct limit limits[LIMITS] = {{6, "1001"}, {8, "1"}, {10, "1"}, {12, "-1"}, {14, "100"}};

/* A line taken apart at its commas. */
struct cut {
    struct part fields[FIELDS]; /* where there are more commas, they are in the last */
    size_t count;
    struct part end;            /* CR and LF, as far as they are there */
};

/* A line to ask about, with room for one formula and five numbers more than the refused line has. */
struct question {
    uint8_t bytes[GRIDPROFILE_FORMULA_LINE_MAX_BYTES + 2 * MOST_CHARACTERS];
    size_t length;
};

static int ends_in(struct part part, char last)
{
    return part.length > 0 && part.at[part.length - 1] == (uint8_t)last;
}

static struct cut cut_line(struct part text)
{
    struct cut line = {.fields = {{text.at, 0}}, .count = 1};
    size_t length = text.length;
    text.length -= ends_in(text, '\n') ? 1 : 0;
    text.length -= ends_in(text, '\r') ? 1 : 0;
    line.end = (struct part){text.at + text.length, length - text.length};
    for (size_t at = 0; at < text.length; at++)
        if (text.at[at] == ',' && line.count < FIELDS)
            line.fields[line.count++] = (struct part){text.at + at + 1, 0};
        else
            line.fields[line.count - 1].length++;
    return line;
}

static void append(struct question *question, struct part part)
{
    memcpy(question->bytes + question->length, part.at, part.length);
    question->length += part.length;
}

static struct part part_of(const char *text)
{
    return (struct part){(const uint8_t *)text, strlen(text)};
}

/* The limit that a field is, or LIMITS where it is none. */
static size_t limit_in(size_t field)
{
    size_t limit = 0;
    while (limit < LIMITS && limits[limit].field != field)
        limit++;
    return limit;
}

/* The line with a formula in the place of one limit and good numbers in the place of the others; with
 * LIMITS for the one, numbers alone. */
static struct question ask_with(const struct cut *line, size_t one, struct part formula)
{
    struct question question = {.length = 0};
    for (size_t field = 0; field < line->count; field++) {
        size_t limit = limit_in(field);
        if (field > 0)
            append(&question, part_of(","));
        if (limit == LIMITS)
            append(&question, line->fields[field]);
        else
            append(&question, limit == one ? formula : part_of(limits[limit].good));
    }
    append(&question, line->end);
    return question;
}

static int answer_to(const struct question *question, uint8_t *plain, size_t *length)
{
    return gridprofile_evaluate_line(classes, sizeof classes, question->bytes, question->length, plain,
                                     GRIDPROFILE_LINE_MAX_BYTES, length);
}

static int has_limit(const struct cut *line, size_t limit)
{
    return limit < LIMITS && limits[limit].field < line->count;
}

/* Of a formula that is too long, as much as is too long: so that the line which is asked about is not. */
static struct part formula_in(const struct cut *line, size_t limit)
{
    struct part formula = line->fields[limits[limit].field];
    if (formula.length > MOST_CHARACTERS)
        formula.length = MOST_CHARACTERS + 1;
    return formula;
}

/* The first limit that gets the answer of the whole line by itself: an earlier one with another fault would
 * have decided. LIMITS where there is none. */
static size_t find_limit(const struct cut *line, int answer)
{
    uint8_t plain[GRIDPROFILE_LINE_MAX_BYTES];
    size_t length;
    for (size_t limit = 0; has_limit(line, limit); limit++) {
        struct question question = ask_with(line, limit, formula_in(line, limit));
        if (answer_to(&question, plain, &length) == answer)
            return limit;
    }
    return LIMITS;
}

/* The number that a formula gives: the library works it out in the place of a limit that may have it.
 * Where none may, the number is not known, and empty. */
static struct part number_of(const struct cut *line, struct part formula, uint8_t *plain)
{
    size_t length = 0;
    for (size_t limit = 0; has_limit(line, limit); limit++) {
        struct question question = ask_with(line, limit, formula);
        if (answer_to(&question, plain, &length) == 0)
            return cut_line((struct part){plain, length}).fields[limits[limit].field];
    }
    return (struct part){formula.at, 0};
}

static int is_same(struct part one, struct part other)
{
    return one.length == other.length && memcmp(one.at, other.at, one.length) == 0;
}

static size_t depth_of(struct part formula)
{
    size_t depth = 0, most = 0;
    for (size_t at = 0; at < formula.length; at++) {
        depth += formula.at[at] == '(' ? 1 : 0;
        depth -= formula.at[at] == ')' && depth > 0 ? 1 : 0;
        most = depth > most ? depth : most;
    }
    return most;
}

/* Words for what people write that is in no formula. */
static const char *odd_signs(struct part formula)
{
    if (has_any(formula, "\r"))
        return ", with a carriage return";
    if (has_any(formula, ".'_"))
        return ", with a decimal point or a thousands mark";
    return odd_bytes(formula, has_any(formula, "n") ? ", with n in lower case" : "");
}

static void print_no_formula(FILE *to, struct part formula)
{
    size_t depth = depth_of(formula);
    if (formula.length == 0)
        fputs("; it must be a formula or a number\n", to);
    else if (formula.length > MOST_CHARACTERS)
        fprintf(to, ", of %zu characters; a formula has at most %d\n", formula.length,
                MOST_CHARACTERS);
    else if (depth > MOST_DEEP)
        fprintf(to, ", with parentheses %zu deep; they may be at most %d deep\n", depth, MOST_DEEP);
    else
        fprintf(to, "%s; it is no formula\n"
                    "  a formula has whole numbers up to 1000000 without leading zeros, N, + - * / and ( ), "
                    "and no spaces;\n"
                    "  a minus in front stands only before a plain number, as in -2500\n",
                odd_signs(formula));
}

/* The nominal volts, where a formula goes by them: digits, since they are not what is wrong. */
static void print_volts(FILE *to, const struct cut *line, struct part formula)
{
    struct part volts = line->fields[VOLTS_FIELD];
    if (has_any(formula, "N"))
        fprintf(to, " (N is %.*s)", (int)volts.length, (const char *)volts.at);
}

static void print_bad_step(FILE *to, const struct cut *line, struct part formula)
{
    print_volts(to, line, formula);
    fprintf(to, "; %sa result in it is outside -2000000000 to 2000000000\n",
            has_any(formula, "/") ? "a divisor in it is 0, or " : "");
}

static void print_outside(FILE *to, const struct cut *line, size_t field)
{
    uint8_t plain[GRIDPROFILE_LINE_MAX_BYTES];
    struct part formula = line->fields[field], number = number_of(line, formula, plain);
    if (number.length > 0 && !is_same(number, formula))
        fprintf(to, ", which gives %.*s", (int)number.length, (const char *)number.at);
    else
        fputs(", which is outside its range", to);
    print_volts(to, line, formula);
    print_field_rule(to, field);
}

static void print_limit(FILE *to, int answer, const struct cut *line, size_t field)
{
    struct part formula = line->fields[field];
    print_field_name(to, field);
    print_part(to, formula, MOST_CHARACTERS);
    if (answer == GRIDPROFILE_BAD_FORMULA)
        print_no_formula(to, formula);
    else if (answer == GRIDPROFILE_BAD_STEP)
        print_bad_step(to, line, formula);
    else
        print_outside(to, line, field);
}

void explain_formulas(FILE *to, int answer, struct part text)
{
    struct cut line = cut_line(text);
    struct question without;
    uint8_t plain[GRIDPROFILE_LINE_MAX_BYTES];
    size_t length, limit;
    if (answer == GRIDPROFILE_BAD_SIZE) {
        fprintf(to, "  it has %zu bytes; it must have at most %d\n", text.length,
                GRIDPROFILE_FORMULA_LINE_MAX_BYTES);
        return;
    }
    without = ask_with(&line, LIMITS, line.end);
    if (answer_to(&without, plain, &length) != 0) {
        explain_whole_line(to, without.bytes, without.length);
        return;
    }
    limit = find_limit(&line, answer);
    if (limit < LIMITS)
        print_limit(to, answer, &line, limits[limit].field);
}
