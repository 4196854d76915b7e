/* What the program says about itself. */
#include "program.h"

#include <string.h>

struct page {
    const char *name;
    const char *synopsis; /* what follows the name */
    const char *options;  /* one more line of it, or "" */
    const char *summary;
    const char *text;
};

static const struct page pages[] = {
    {"new-key", "PRIVATE KEY", "[--category 1|3|5] [--force] [--wait SECONDS]",
     "draw a private seed and make its key",
     "Draws a private seed from the operating system, and writes it to PRIVATE, which only its owner\n"
     "may read, and its public key to KEY, which is for everybody. PRIVATE must not exist, whatever\n"
     "the options are. Keep it: nobody can make it again. Both files are written, or none.\n"
     "Whoever has the key needs its category too, for verify and load.\n"},
    {"key", "PRIVATE KEY", "[--category 1|3|5] [--force] [--wait SECONDS]",
     "make the key of a private seed again",
     "Makes the public key of a private seed that there is, for instance after the key was lost.\n"},
    {"sign", "PRIVATE LINE PACKAGE",
     "[--category 1|3|5] [--classes TABLE] [--force] [--wait SECONDS] [--key KEY] "
     "[--given-master-seed MASTER --given-salt SALT --key KEY]",
     "sign a profile line, which makes a package",
     "Signs the line under the private seed, verifies the package, and writes it. Master seed and salt\n"
     "are drawn from the operating system. With --key it signs only where KEY is PRIVATE's own. The line\n"
     "is read under the classes of TABLE, or under the built-in ones. A package carries no table: that\n"
     "of the store it is loaded into decides there.\n"
     "\n"
     "For tests and recovery both can be given, with the key: the same seeds, salt and line make the\n"
     "same package. Never give the same two for another line: that can give the private seed away.\n"
     "The salt is published at the front of the package. Seeds that share bytes with one another or\n"
     "with the package are refused, and so is a salt in a file for its owner alone, as seeds are.\n"},
    {"verify", "KEY PACKAGE", "[--category 1|3|5] [--classes TABLE]",
     "verify a package: its signature, then its line",
     "Prints which device the package is for, and the key's fingerprint, which is to be compared with\n"
     "what the signer reads aloud. The line is read under the classes of TABLE, or the built-in ones.\n"},
    {"new-store", "STORE", "[--force] [--wait SECONDS]", "make an empty store",
     "It has the built-in classes. With --force it empties a store that exists.\n"},
    {"classes", "STORE [TABLE]", "[--wait SECONDS]", "load a class table, or print a store's",
     "A class table says which nominal volts make which class. With TABLE, its classes replace those of\n"
     "the store, which must exist and hold no profile: later the table stays. While the store is empty,\n"
     "a table may be loaded again. Without TABLE it prints the store's table as a file has it; a store\n"
     "into which none was loaded has the built-in classes, which are printed as this file:\n"
     "  A,100,139\n"
     "  B,140,259\n"
     "  C,260,519\n"
     "  D,520,1000\n"
     "\n"
     "A table has 1 to 26 rows: a letter A to Z, low volts and high volts, with commas between them, no\n"
     "spaces, and a line feed at the end of each row, the last one too. Letters rise from row to row.\n"
     "Volts are 100 to 1000, without leading zeros; both belong to the class. Low volts are at most the\n"
     "high volts, and greater than the high volts of the row before. Volts in a gap have no class: no\n"
     "line may have them.\n"
     "load, lookup and nearest go by the table of their store. sign, verify, show, preview and evaluate\n"
     "read lines under the built-in classes, or under those of a file that --classes names.\n"},
    {"load", "STORE KEY PACKAGE COUNTRY CLASS HERTZ", "[--category 1|3|5] [--wait SECONDS]",
     "verify a package and store its profile",
     "Does what a device does that is set to COUNTRY, CLASS and HERTZ, and prints what it accepted and\n"
     "what that replaces. Profiles of 50 and of 60 hertz stand side by side, and serials count for each\n"
     "alone. STORE must exist; its own class table decides which classes there are. Loads of one store at\n"
     "the same time wait for each other. A device is built for one category; a store file takes packages\n"
     "of each.\n"},
    {"lookup", "STORE COUNTRY CLASS HERTZ", "", "print the line stored for COUNTRY, CLASS and HERTZ",
     "A profile is found under its own hertz alone.\n"},
    {"nearest", "STORE COUNTRY HERTZ VOLTS", "", "print the stored line nearest to measured VOLTS",
     "For a fitter who has a voltmeter and does not know the class. Of the stored profiles of COUNTRY\n"
     "and HERTZ, whatever their class, it takes the one whose nominal volts are nearest to VOLTS, at\n"
     "most 40 away, and of two that are equally far the lower. A second line says the class, the\n"
     "nominal volts, and how far they are above or below. VOLTS is a whole number 0 to 2000.\n"
     "It only suggests: nothing is loaded, and the store is only read.\n"},
    {"show", "FILE", "[--classes TABLE]",
     "print a package, store, table, line or key in words",
     "It verifies nothing. A store is shown with its classes, and in the order of country, class and\n"
     "hertz; a class table with its gaps. Of a key or a package it says the category. Of a key it prints\n"
     "the fingerprint: 16 bytes of SHAKE128 of the key at category 1, 24 and 32 of SHAKE256 at 3 and 5.\n"
     "A line begins with GP1 or GP2, and a class table with a letter, a comma and a digit; a file of 77\n"
     "bytes that does neither is taken for a key. --classes is for a line or a package: it is read under\n"
     "the classes of TABLE, and else under the built-in ones.\n"},
    {"preview", "[FILE]", "[--classes TABLE]", "list what a device would hold after these lines",
     "The lines are taken as if they were signed; without FILE they come from standard input. Each\n"
     "profile has one row, and the rows stand in the order of country, class and hertz. How many lines\n"
     "were skipped, and why the first was, is said on standard error. The device has the classes of\n"
     "TABLE, or the built-in ones.\n"},
    {"evaluate", "[FILE]", "[--classes TABLE]", "print lines with numbers in the place of formulas",
     "FILE is a sheet of profile lines, at most 65536 bytes; without FILE it comes from standard input.\n"
     "In its lines, at most 400 bytes each, the limits may be formulas: over-voltage, under-voltage,\n"
     "over-frequency, under-frequency and, in a GP2 line, rate of change. Each line is printed as the\n"
     "profile line that can be signed, or nothing is printed: where a line is refused, standard error\n"
     "says how many are, and what is wrong with the first. Their classes are those of TABLE, or the\n"
     "built-in ones.\n"
     "\n"
     "A formula has whole numbers up to 1000000 without leading zeros, N for the nominal volts of its\n"
     "line, + - * / and parentheses, at most 8 deep; it has at most 64 characters, and no spaces.\n"
     "* and / go before + and -, and equals from left to right; / drops the remainder towards zero. The\n"
     "result of each operation must be within -2000000000 to 2000000000, and no divisor 0. A minus in\n"
     "front stands only before a plain number, as in -2500; else a formula begins as 0-N*10 does.\n"
     "At 230 volts N*115/100-4 gives 260, (N+23)*1000/N gives 1100, 7/2*2 gives 6, (0-7)/2 gives -3.\n"},
};

static const char *const options =
    "\n"
    "Options:\n"
    "  --category 1|3|5  the category of seeds, key and package (1), where a command takes any of them\n"
    "  --classes TABLE   the classes that lines and packages go by (built in), where there is no store\n"
    "  --force           replace an output that exists; a seed is never replaced, and a key or a store\n"
    "                    only by another\n"
    "  --wait SECONDS    how long to wait for another run that writes in the same folder (30)\n"
    "  --help, -h        say what a command does; --version prints the version\n";

static const char *const files =
    "\n"
    "Files; \"-\" is standard input or standard output, and one input at most may be \"-\":\n"
    "  PRIVATE  private seed, secret: 32 bytes at category 1, 48 at 3, 64 at 5\n"
    "  KEY      public key: 77 bytes at category 1, 115 at 3, 153 at 5\n"
    "  PACKAGE  signature and line: 19194 to 19236 bytes at category 1, 42724 to 42766 at 3,\n"
    "           76340 to 76382 at 5\n"
    "  MASTER   master seed, secret: 16 bytes at category 1, 24 at 3, 32 at 5\n"
    "  SALT     as many bytes as a private seed\n"
    "  LINE     one profile line, 42 to 84 bytes with its line feed (`gridprofile help line`)\n"
    "  STORE    16 profiles, a class table and a checksum, 1564 bytes; 1532 without the checksum\n"
    "  TABLE    class table, 1 to 26 rows such as A,100,139 (`gridprofile help classes`)\n"
    "COUNTRY is two letters A to Z, CLASS a letter of the store's class table (A to D where it has the\n"
    "built-in one), HERTZ 50 or 60, VOLTS 0 to 2000.\n"
    "\n"
    "A file is written whole or not at all; after a refusal it is as it was.\n"
    "\n"
    "Exit status: 0 done; 64 wrong usage; 65 a store is damaged; 70 a package that was made does not\n"
    "verify; 71 the system gives no random bytes; 74 a file cannot be read or written; else refused:\n";

static const char *const line_rules =
    "A profile line is 14 fields, or 16 with a rate point (the last two), with commas between them, no\n"
    "spaces, and one line feed at the end:\n"
    "   1 tag              GP1 in a line of 14 fields, GP2 in one of 16\n"
    "   2 country          two letters A to Z\n"
    "   3 class            A 100 to 139 volts, B 140 to 259, C 260 to 519, D 520 to 1000; or as another\n"
    "                      class table has it (`gridprofile help classes`)\n"
    "   4 serial           1 to 4294967295\n"
    "   5 nominal volts    100 to 1000\n"
    "   6 hertz            50 or 60\n"
    "   7 over-voltage     1001 to 1500, thousandths of nominal\n"
    "   8 its delay        20 to 60000 ms, as every delay\n"
    "   9 under-voltage    1 to 999\n"
    "  10 its delay\n"
    "  11 over-frequency   1 to 5000 mHz above nominal\n"
    "  12 its delay\n"
    "  13 under-frequency  -5000 to -1 mHz\n"
    "  14 its delay\n"
    "  15 rate of change   100 to 10000 mHz per second\n"
    "  16 its delay\n"
    "Numbers have no leading zeros and no plus. Two examples:\n"
    "  GP1,XA,B,12,230,50,1150,100,800,1500,1500,100,-2500,100\n"
    "  GP2,XA,B,13,230,50,1150,100,800,1500,1500,100,-2500,100,2000,500\n"
    "Where the limits (7, 9, 11, 13 and 15) are formulas, `gridprofile evaluate` makes such a line of it.\n";

static const struct page *find_page(const char *name)
{
    for (size_t at = 0; at < COUNT(pages); at++)
        if (strcmp(pages[at].name, name) == 0)
            return &pages[at];
    return NULL;
}

/* An option is taken where the command's own usage names it, as one whole word in brackets. */
int takes_option(const char *command, const char *option)
{
    const struct page *page = find_page(command);
    const char *found = page == NULL ? NULL : strstr(page->options, option);
    if (found == NULL || found == page->options || strpbrk(option, "[] ") != NULL)
        return 0;
    return strchr("[ ", found[-1]) != NULL && strchr(" ]", found[strlen(option)]) != NULL;
}

void print_synopsis(FILE *to, const char *command)
{
    const struct page *page = find_page(command);
    if (page != NULL) {
        fprintf(to, "usage: gridprofile %s %s%s%s\n", page->name, page->synopsis,
                *page->options ? " " : "", page->options);
        return;
    }
    fputs("usage: gridprofile COMMAND ..., where COMMAND is one of", to);
    for (size_t at = 0; at < COUNT(pages); at++)
        fprintf(to, "%s %s", at > 0 ? "," : "", pages[at].name);
    fputc('\n', to);
}

void print_usage(FILE *to)
{
    fputs("usage: gridprofile COMMAND ARGUMENTS [OPTIONS]\n\n", to);
    for (size_t at = 0; at < COUNT(pages); at++) {
        int width = 42 - (int)strlen(pages[at].name) - 1;
        fprintf(to, "  %s %-*s %s\n", pages[at].name, width, pages[at].synopsis,
                pages[at].summary);
    }
    fputs("  help [COMMAND]                             print this, or more about a command\n", to);
    fputs(options, to);
    fputs(files, to);
    print_refusals(to);
    fputs("For nearest, 9 is that no profile of COUNTRY and HERTZ is within 40 volts; 10 is for VOLTS "
          "too.\nFor evaluate, 1 is a line of more than 400 bytes, or a sheet of more than 65536.\n", to);
}

int print_help(const char *command)
{
    const struct page *page = find_page(command);
    if (strcmp(command, "line") == 0) {
        fputs(line_rules, stdout);
        return 0;
    }
    if (strcmp(command, "help") == 0) {
        print_usage(stdout);
        return 0;
    }
    if (page == NULL)
        return wrong_usage("", "there is no command ", command);
    print_synopsis(stdout, command);
    printf("\n%c%s.\n", page->summary[0] - 'a' + 'A', page->summary + 1);
    fputs(page->text, stdout);
    fputs("\n`gridprofile help` says what the files, the options and the exit statuses are.\n", stdout);
    return 0;
}
