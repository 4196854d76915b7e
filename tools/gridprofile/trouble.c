/* What the program says when it cannot do what it was asked for. */
#include "program.h"

#include <string.h>

struct refusal {
    const char *meaning;
    const char *advice;
};

/* By number, from 1. */
static const struct refusal refusals[] = {
    {"a file has a wrong size",
     "give the files in the order of the usage; `gridprofile help` lists their sizes"},
    {"a draw from the seeds is short",
     "a seed that says this cannot be used: make another key; a package that says this is damaged "
     "or forged"},
    {"a field of the key or of the signature is out of range",
     "key or package is damaged: fetch both again from the signer"},
    {"the signature does not hold for this key and line",
     "do not use this package; compare the key's fingerprint with the signer's, and fetch both again"},
    {"the profile line breaks a field rule, or its class does not fit its volts",
     "correct the line and sign it again; `gridprofile help line` has the rules"},
    {"the profile is for another country, class or hertz than this device's",
     "`gridprofile show` says which device the package is for; it may differ in the hertz alone"},
    {"the serial is not greater than the stored one",
     "a newer profile is signed under a greater serial; `gridprofile show` prints the stored one"},
    {"16 profiles are stored, none of them for this country, class and hertz",
     "a store never drops a profile: use another store file for this device"},
    {"nothing is stored for this country, class and hertz",
     "load a package for it first; `gridprofile show` prints what is stored, which may be for other hertz"},
    {"the country is not two letters A to Z, the class none of the store's, or hertz not 50 or 60",
     "write them as in: XA B 50"},
    {"a limit is no formula: empty, outside the grammar, over 64 characters or over 8 deep",
     "correct the formula; `gridprofile help evaluate` has the rules"},
    {"a formula divides by 0, or a result in it is outside -2000000000 to 2000000000",
     "correct the formula; `gridprofile help evaluate` has the rules"},
    {"the class table breaks a rule of its file",
     "correct the table; `gridprofile help classes` has the rules"},
    {"the store holds profiles, and a class table can be loaded only while it is empty",
     "make another store by `gridprofile new-store`, and load the table into it before the packages"},
};

/* A byte that a terminal could take for an order: of a control, also of one that UTF-8 writes as C2 80
 * to C2 9F. Those of other characters stay. */
static int is_order(uint8_t before, const uint8_t *at)
{
    if (*at == 0xC2)
        return at[1] >= 0x80 && at[1] < 0xA0;
    if (*at >= 0x80 && *at < 0xA0)
        return before < 0x80 || before == 0xC2;
    return *at < ' ' || *at == 0x7F;
}

void print_name(const char *name)
{
    uint8_t before = 0;
    for (const uint8_t *at = (const uint8_t *)name; *at != '\0'; before = *at++)
        fprintf(stderr, is_order(before, at) ? "\\x%02X" : "%c", *at);
}

void print_refusals(FILE *to)
{
    for (size_t at = 0; at < COUNT(refusals); at++)
        fprintf(to, "  %2zu  %s\n", at + 1, refusals[at].meaning);
}

int wrong_usage(const char *command, const char *what, const char *which)
{
    const char *space = *command ? " " : "";
    fprintf(stderr, "gridprofile%s%s: %s", space, command, what);
    print_name(which);
    fputc('\n', stderr);
    print_synopsis(stderr, command);
    fprintf(stderr, "`gridprofile help%s%s` says more.\n", space, command);
    return WRONG_USAGE;
}

int file_trouble(const char *doing, const char *path, const char *why)
{
    fprintf(stderr, "gridprofile: cannot %s ", doing);
    print_name(*path ? path : "\"\"");
    fprintf(stderr, ": %s\n", why);
    return FILE_TROUBLE;
}

void warn(const char *path, const char *what)
{
    fputs("gridprofile: warning: ", stderr);
    print_name(path);
    fprintf(stderr, ": %s\n", what);
}

/* Of a profile with the greatest serial. */
const char *const unreplaceable = "this serial is the greatest: nothing can replace the profile";

/* Of a store that has no place for rate points, or none for a class table. */
const char *const former_store_advice =
    "a store of this layout is not converted: make a new one by `gridprofile new-store` and load its "
    "packages again";

int damaged_store(const char *path, const char *how)
{
    (void)fflush(stdout);
    fputs("gridprofile: the store ", stderr);
    print_name(path);
    fprintf(stderr, " is damaged: %s\n", how);
    fputs("  What to do: take a copy of it from before, or make a new one by `gridprofile new-store`\n"
          "  and load the newest packages again; a new store takes old serials too.\n",
          stderr);
    return DAMAGED_STORE;
}

/* Names an input whose size is not one that it may have, and what it may be instead: arguments that
 * were exchanged are seen by that. */
static void print_size(const struct input *input)
{
    const char *name = input_kind(input);
    int more = input->size == input->room;
    if (is_size_taken(input))
        return;
    fprintf(stderr, "  %s (", input->role);
    print_name(input_name(input));
    fprintf(stderr, ") has %s%zu bytes", more ? "at least " : "", input->size);
    if (name != NULL && !more)
        fprintf(stderr, ", the size of %s", name);
    fprintf(stderr, "; it must have %zu", input->least);
    if (input->least != input->most)
        fprintf(stderr, " to %zu", input->most);
    if (input->also != 0)
        fprintf(stderr, " or %zu", input->also);
    if (input->category != NULL)
        fprintf(stderr, " at category %u", input->category->number);
    fputc('\n', stderr);
    if (name == NULL && strcmp(input->role, "STORE") == 0)
        fputs("  If it was a store, it is damaged: cut off, or with something added. Take a copy from\n"
              "  before, or make a new one and load the newest packages again.\n", stderr);
}

/* After what was printed already, also where both streams go to one file. */
static void print_heading(const char *command, int answer, const char *meaning)
{
    (void)fflush(stdout);
    fprintf(stderr, "gridprofile %s: refused with %d: %s\n", command, answer, meaning);
}

static void print_advice(const char *advice)
{
    fprintf(stderr, "  What to do: %s.\n", advice);
}

int misused(const char *command, const char *what, const char *advice)
{
    fprintf(stderr, "gridprofile %s: %s\n", command, what);
    print_advice(advice);
    return WRONG_USAGE;
}

int refused_because(const char *command, int answer, const char *meaning, const char *advice)
{
    print_heading(command, answer, meaning);
    print_advice(advice);
    return answer;
}

void begin_refusal(const char *command, int answer, const char *meaning)
{
    print_heading(command, answer, meaning != NULL ? meaning : refusals[answer - 1].meaning);
}

int end_refusal(int answer, const char *advice)
{
    print_advice(advice != NULL ? advice : refusals[answer - 1].advice);
    return answer;
}

/* What helps to find the cause, of the key under which a package does not hold: a line may have its
 * size. */
static void print_key(int answer, const struct input *key)
{
    if (answer == GRIDPROFILE_MISMATCH) {
        fputs("  ", stderr);
        print_fingerprint(stderr, key->category, key->bytes);
    }
    if (is_line_input(key)) {
        fprintf(stderr, "  %s (", key->role);
        print_name(input_name(key));
        fputs(") begins as a profile line does; see whether files are exchanged\n", stderr);
    }
}

/* The same of any input. */
static void print_input(int answer, const struct input *input)
{
    if (answer == GRIDPROFILE_BAD_SIZE)
        print_size(input);
    if ((answer == GRIDPROFILE_MISMATCH || answer == GRIDPROFILE_BAD_FIELD) &&
        strcmp(input->role, "KEY") == 0)
        print_key(answer, input);
}

/* What the sizes of the files tell of their category. */
struct told {
    const struct category *asked;    /* the one of the command line */
    const struct category *category; /* that of the first file that tells one */
    int differ;                      /* another tells another */
    int untold;                      /* one has the size of its kind at no category */
};

static void tell_category(struct told *told, const struct input *input)
{
    const struct category *category =
        is_line_input(input) ? NULL : category_of(input->sized, input->size);
    told->asked = input->category;
    told->untold |= category == NULL;
    told->differ |= category != NULL && told->category != NULL && category != told->category;
    if (told->category == NULL)
        told->category = category;
}

static int is_former_store(const struct input *input)
{
    return strcmp(input->role, "STORE") == 0 && kind_of(input->size) == FORMER_STORE;
}

/* Files of another category are told from files that are exchanged or damaged. A former store comes
 * first: with it no other file helps. */
static void print_size_advice(const struct input *inputs, size_t count)
{
    struct told told = {0};
    int former = 0;
    for (size_t at = 0; at < count; at++) {
        if (inputs[at].category != NULL)
            tell_category(&told, &inputs[at]);
        former |= is_former_store(&inputs[at]);
    }
    if (former)
        print_advice(former_store_advice);
    else if (told.untold || (told.category == told.asked && !told.differ))
        print_advice(refusals[GRIDPROFILE_BAD_SIZE - 1].advice);
    else if (told.differ)
        print_advice("these files are of different categories: take files of one, and name it by "
                     "`--category`");
    else
        fprintf(stderr,
                "  What to do: `--category %u` is for files of these sizes; `gridprofile help` lists "
                "all sizes.\n", told.category->number);
}

/* A refused line that the library evaluates is wrong in its formulas alone, and one that is a line
 * under another table in its class alone: then it may be meant for that table. */
static const char *line_advice(const char *command, const uint8_t *line, size_t length)
{
    uint8_t plain[GRIDPROFILE_LINE_MAX_BYTES];
    size_t plain_length = 0;
    if (gridprofile_evaluate_line(classes, sizeof classes, line, length, plain, sizeof plain,
                                  &plain_length) == 0)
        return "this line has formulas: `gridprofile evaluate` turns them into numbers; sign what it prints";
    if (!is_line_of_some_table(line, length))
        return refusals[GRIDPROFILE_BAD_PROFILE - 1].advice;
    if (strcmp(command, "load") == 0)
        return "correct the line and sign it again, or load the package into a store with its class table; "
               "`gridprofile classes STORE` prints that of a store";
    return "correct the line, or name the class table that it is for by --classes; `gridprofile help line` "
           "has the rules";
}

/* What a device may be set to: the classes are those of the store. */
static void print_device_advice(void)
{
    uint32_t first = row_at(classes, 0).letter;
    fprintf(stderr, "  What to do: write them as in: XA %c 50; the %s are ",
            is_built_in(classes) || !is_class(first) ? 'B' : (int)first,
            is_built_in(classes) ? "built-in classes" : "classes of this store");
    print_letters(stderr, classes);
    fputs(".\n", stderr);
}

int refused(const char *command, int answer, const struct input *inputs, size_t count,
            const uint8_t *line, size_t length)
{
    const struct refusal *refusal = &refusals[answer - 1];
    print_heading(command, answer, refusal->meaning);
    for (size_t at = 0; at < count; at++)
        print_input(answer, &inputs[at]);
    if (line != NULL)
        explain_line(stderr, line, length);
    if (line == NULL && answer == GRIDPROFILE_BAD_SIZE)
        print_size_advice(inputs, count);
    else if (answer == GRIDPROFILE_BAD_DEVICE)
        print_device_advice();
    else
        print_advice(line != NULL ? line_advice(command, line, length) : refusal->advice);
    return answer;
}

int refused_package(const char *command, int answer, const struct input *inputs, size_t count,
                    const struct input *package)
{
    size_t signature = package->category->signature;
    if (answer != GRIDPROFILE_BAD_PROFILE)
        return refused(command, answer, inputs, count, NULL, 0);
    return refused(command, answer, inputs, count, package->bytes + signature,
                   package->length - signature);
}
