/* What the files of the command-line program share. It comes first in each of them, since it asks
 * the system's headers for what C11 alone does not have. */
#ifndef GRIDPROFILE_PROGRAM_H
#define GRIDPROFILE_PROGRAM_H

#define _GNU_SOURCE /* flock, getrandom, memmem, realpath, renameat2 */

#include <limits.h>
#include <stdio.h>
#include <sys/types.h>

#include "gridprofile.h"
#include "gridprofile_category3.h"
#include "gridprofile_category5.h"

/* Exit statuses besides 0 and the library's refusals, with the numbers of sysexits.h. */
#define WRONG_USAGE 64
#define DAMAGED_STORE 65
#define SELF_CHECK_FAILED 70
#define NO_RANDOM_BYTES 71
#define FILE_TROUBLE 74

#define COUNT(array) (sizeof(array) / sizeof *(array))

/* categories.c: what the category decides: sizes in bytes, and functions of the library, which have the
 * arguments of category 1's. `category_named` finds one by its number on the command line, `category_of`
 * the one whose files of this sort have this size; both answer NULL where there is none. */
struct category {
    unsigned number;
    size_t private_seed, master_seed, salt, key, signature;
    size_t least_package, most_package;
    __typeof__(gridprofile_shake128) *hash;
    __typeof__(gridprofile_make_key) *make_key;
    __typeof__(gridprofile_make_package) *make_package;
    __typeof__(gridprofile_verify) *verify;
    __typeof__(gridprofile_load) *load;
};
enum { CATEGORIES = 3 };
extern const struct category categories[CATEGORIES];
const struct category *category_named(const char *text);

/* The files whose size the category decides, and the lengths that one may have. */
enum sized { PRIVATE_SIZE, MASTER_SIZE, SALT_SIZE, KEY_SIZE, PACKAGE_SIZE };
struct span {
    size_t least, most;
};
struct span span_of(const struct category *category, enum sized sized);
const struct category *category_of(enum sized sized, size_t size);

/* The greatest sizes, those of category 5: a buffer is for every category. */
#define MOST_PRIVATE_SEED_BYTES GRIDPROFILE_CATEGORY5_PRIVATE_SEED_BYTES
#define MOST_MASTER_SEED_BYTES GRIDPROFILE_CATEGORY5_MASTER_SEED_BYTES
#define MOST_SALT_BYTES GRIDPROFILE_CATEGORY5_SALT_BYTES
#define MOST_KEY_BYTES GRIDPROFILE_CATEGORY5_KEY_BYTES
#define MOST_PACKAGE_BYTES GRIDPROFILE_CATEGORY5_PACKAGE_MAX_BYTES

/* kinds.c: what a file of this many bytes looks like, and its names for people ("a public key of category
 * 3"). An input is a line where it begins as one and has the size of one, and else its size tells.
 * `rival_of_line` names what else has a size that a line may have, or is NULL. */
enum kind { NO_KIND, SEED, KEY, STORE, FORMER_STORE, PACKAGE, LINE };
struct input;
enum kind kind_of(size_t size);
const char *kind_name(size_t size);
const char *rival_of_line(size_t size);
int has_line_size(size_t size);
int is_line_input(const struct input *input);
const char *input_kind(const struct input *input);

/* Some of the bytes of a text: a line, or a field of one. */
struct part {
    const uint8_t *at;
    size_t length;
};

/* A number of an image: four bytes, low byte first. */
static inline uint32_t number_at(const uint8_t *at)
{
    return at[0] | (uint32_t)at[1] << 8 | (uint32_t)at[2] << 16 | (uint32_t)at[3] << 24;
}

/* The nominal volts that a line may have. */
enum { LEAST_VOLTS = 100, MOST_VOLTS = 1000 };

/* What is asked for. */
struct request {
    const char *command;
    char *arguments[8]; /* in the number that the command takes, and NULL after the last */
    const struct category *category;
    int force;          /* replace an output that exists */
    const char *given_master, *given_salt, *key, *classes; /* files, or NULL */
    unsigned wait;      /* seconds, for a lock that somebody else holds */
};

/* A file that a command reads. More than it may have is read, so that a longer file is told from a
 * whole one and the library refuses it. */
struct input {
    const char *role;   /* as the usage text names it */
    const char *path;   /* "-" is standard input */
    const char *target; /* what is opened in its place, or NULL */
    const struct category *category; /* that decides its size, or NULL */
    enum sized sized;   /* what it is then */
    uint8_t *bytes;
    size_t room;        /* how much is read at most, more than `most` and `also` */
    size_t least, most; /* the lengths that are taken */
    size_t also;        /* one more, or 0 */
    int secret;         /* a seed, which others must not read */
    size_t length;      /* what was read */
    size_t size;        /* what the file has, where that can be told, else what was read */
    int closed;         /* nobody but its owner can read it, as with a seed */
    int begins_as_line; /* with GP1 or GP2 and a comma: told before a seed is wiped */
};

/* A file that a command writes. */
struct output {
    const char *path;      /* "-" is standard output */
    enum kind kind;
    int force;             /* --force is given */
    int is_changed;        /* it is there, and is replaced by what it becomes */
    char target[PATH_MAX]; /* what is written, with links followed */
    char folder[PATH_MAX]; /* where that stands */
    char begun[PATH_MAX];  /* the temporary file */
    int exists;            /* and is replaced */
    mode_t mode;           /* the permissions that it gets */
    uid_t owner;           /* those of what is replaced */
    gid_t group;
    unsigned wait;         /* seconds, for the lock on the folder */
    int lock;              /* the locked folder, or -1 */
};

/* options.c: sorts words into a request; answers 0, or the exit status after saying what is wrong.
 * `decimal_of` is the number of an argument, or another one where the text is none. */
int read_request(struct request *request, char **words);
uint32_t decimal_of(const char *text, uint32_t otherwise);
int is_help(const char *word);
int asks_help(char **words);

/* input.c: each answers 0, or the exit status after saying on standard error what is wrong. `spare_lines`
 * takes no line for a seed, although it may have the size of one. */
int is_stream(const char *path);
struct input sized_input(const struct category *category, enum sized sized, const char *path,
                         uint8_t *bytes, size_t room);
int check_streams(const struct request *request, const struct input *inputs, size_t count);
int read_inputs(struct input *inputs, size_t count);
int spare_lines(const struct request *request, const struct input *inputs, size_t count);
int is_size_taken(const struct input *input);
const char *input_name(const struct input *input);

/* output.c: as above. `prepare` finds the output and then reads the inputs, none of which it may be;
 * `find_output` and `find_store` are for outputs that come with no such inputs, and `find_again` looks
 * once more when the lock is there. */
int prepare(struct output *output, const struct request *request, const char *path, enum kind kind,
            struct input *inputs, size_t count);
int find_output(struct output *output, const struct request *request, const char *path,
                enum kind kind);
int find_store(struct output *output, const struct request *request, const char *path);
int find_again(struct output *output);
FILE *report_of(const struct output *output);

/* lock.c: as above. Keeps other runs out of the output's folder, and clears what killed ones left.
 * `lock_both` is for two outputs, which may be in one folder. */
int lock_output(struct output *output);
int lock_both(struct output *one, struct output *other);
void unlock_output(struct output *output);
extern const char *const unfinished;

/* write.c: as above. */
int write_output(struct output *output, const uint8_t *bytes, size_t length);
int write_both(struct output *one, const uint8_t *one_bytes, size_t one_length,
               struct output *other, const uint8_t *other_bytes, size_t other_length);
int finish_text(int is_report);

/* A draw that is short is so rare that nobody has seen one; a second is not by chance. */
enum { TRIES = 4 };

/* secret.c: `run_apart` runs the work on a stack of its own and then wipes that. */
void keep_no_core(void);
void wipe(void *bytes, size_t length);
void run_apart(void (*work)(void));
int draw(uint8_t *bytes, size_t length);
int share_bytes(const uint8_t *seed, size_t seed_length, const uint8_t *bytes, size_t length);

/* trouble.c: says what is wrong, and returns the exit status. `line` is the refused line, or NULL. What
 * a user or a file system named is printed by `print_name`, on standard error. `begin_refusal` and
 * `end_refusal` are for a command with words of its own in between; where meaning or advice are NULL, they
 * are those of the number. */
void print_name(const char *name);
int wrong_usage(const char *command, const char *what, const char *which);
int file_trouble(const char *doing, const char *path, const char *why);
int refused(const char *command, int answer, const struct input *inputs, size_t count,
            const uint8_t *line, size_t length);
int refused_package(const char *command, int answer, const struct input *inputs, size_t count,
                    const struct input *package);
int misused(const char *command, const char *what, const char *advice);
int refused_because(const char *command, int answer, const char *meaning, const char *advice);
void begin_refusal(const char *command, int answer, const char *meaning);
int end_refusal(int answer, const char *advice);
int damaged_store(const char *path, const char *how);
void warn(const char *path, const char *what);
extern const char *const unreplaceable;
extern const char *const former_store_advice;
void print_refusals(FILE *to);

/* explain.c: what is wrong first with a line that the library refuses under the table of this run;
 * `explain_whole_line` is for one of which all was read, however long it is. The others are for more
 * words on a field, which counts from 0: its name, its content in so many characters at most and
 * without controls, words for odd bytes in it, its rule; words for one letter or for volts that are
 * none, or NULL; and the value of digits. */
void explain_line(FILE *to, const uint8_t *bytes, size_t length);
void explain_whole_line(FILE *to, const uint8_t *bytes, size_t length);
void print_field_name(FILE *to, size_t field);
void print_part(FILE *to, struct part part, size_t most);
const char *odd_bytes(struct part part, const char *otherwise);
int has_any(struct part part, const char *bytes);
void print_field_rule(FILE *to, size_t field);
const char *letter_trouble(struct part part);
const char *volts_trouble(struct part part);
uint64_t value_in(struct part digits);

/* formulas.c: what is wrong first with a line that evaluating refuses with this answer. */
void explain_formulas(FILE *to, int answer, struct part line);

/* table.c: class tables. `classes` is the image of the one that this run goes by: zeros, which are the
 * built-in classes, until a command takes another from a file or a store. `class_of` is the letter of
 * the class that volts have in it, or 0 in a gap; `is_class` tells whether a letter is one of it.
 * `print_letters` prints "A, B and C", `print_ranges` what a class of this run's table must be.
 * `read_profile` and `write_profile` are the library's entries on lines under that table. */
struct row {
    uint32_t letter, low, high;
};
extern uint8_t classes[GRIDPROFILE_TABLE_IMAGE_BYTES];
void use_table(const uint8_t *image);
int is_built_in(const uint8_t *table);
size_t count_rows(const uint8_t *table);
struct row row_at(const uint8_t *table, size_t at);
uint32_t class_of(uint32_t volts);
int is_class(uint32_t letter);
void print_letters(FILE *to, const uint8_t *table);
void print_ranges(FILE *to);
int read_profile(const uint8_t *line, size_t length, uint8_t *image);
int write_profile(const uint8_t *image, uint8_t *line, size_t *length);
int is_line_of_some_table(const uint8_t *line, size_t length);

/* table_file.c: a class table as a file, of which so many bytes are looked at. `print_rows` prints a
 * table as its file, `print_table` in words; `is_loaded_table` tells whether an image is one that loads
 * leave, `looks_like_table` whether a text is meant as a table; `explain_table` says what is wrong
 * first with one that the library refuses. */
enum { MOST_TABLE_BYTES = 65536 };
struct input table_input(const char *path);
void print_rows(FILE *to, const uint8_t *table);
void print_table(const uint8_t *table);
int is_loaded_table(const uint8_t *table);
int looks_like_table(struct part text);
void explain_table(FILE *to, const struct input *table);

/* classes.c: `take_classes` makes the table that was read for --classes, where that is given, the one
 * of this run; `read_with_classes` does so after it has read the inputs, of which the one at place
 * `table`, the last, is that table; `refuse_table` is for a table that the library refused. Each
 * answers 0 or the exit status. */
int take_classes(const struct request *request, const struct input *table);
int read_with_classes(const struct request *request, struct input *inputs, size_t table);
int refuse_table(const char *command, const struct input *table);

/* words.c: prints a profile's image, or answers 5 where it breaks a rule under the table of this run. */
uint32_t serial_of(const uint8_t *image);
uint32_t volts_of(const uint8_t *image);
uint32_t hertz_of(const uint8_t *image);
void print_device(FILE *to, const uint8_t *image);
int print_profile(const uint8_t *image);

/* fingerprint.c: the name of a public key. */
void print_fingerprint(FILE *to, const struct category *category, const uint8_t *key);

/* store_file.c: a store's image with its checksum behind it. `open_store` looks at what was read, makes
 * the store's class table that of this run, and sets the length to the image's where there is one;
 * `read_store` also reads it, `read_locked` under the lock of what it is to become, which `write_store`
 * then writes. `check_table` looks at the store's table, `check_image` at that and at the slots,
 * `blame_store` at whether that is why a search in it failed; each answers 0 or the exit status.
 * `slot_at` is the profile of a slot. `is_same_triple` tells whether two profiles are for one country,
 * class and hertz: a store has one for each. `compare_triples` tells, as memcmp does, which comes first
 * where profiles are listed: by country, then class, then hertz. */
#define CHECKSUM_BYTES 32
#define STORE_FILE_BYTES (GRIDPROFILE_STORE_IMAGE_BYTES + CHECKSUM_BYTES)
struct input store_input(const char *path, uint8_t *bytes);
int open_store(struct input *store);
int read_store(struct input *store);
int read_locked(struct output *output, struct input *store);
int write_store(struct output *output, uint8_t *bytes);
int check_table(const struct input *store);
int check_image(const struct input *store);
int blame_store(const char *command, int answer, const struct input *store);
const uint8_t *slot_at(const uint8_t *image, size_t slot);
int compare_triples(const uint8_t *one, const uint8_t *other);
int is_same_triple(const uint8_t *one, const uint8_t *other);

/* verify.c: the loader's answers 1 to 5, in its order, for any device and any store with the classes of
 * this run. */
int verify_package(const struct category *category, const uint8_t *key, size_t key_length,
                   const uint8_t *package, size_t length);

/* usage.c */
int takes_option(const char *command, const char *option);
void print_usage(FILE *to);
int print_help(const char *command);
void print_synopsis(FILE *to, const char *command);

/* The commands: each returns the exit status. */
int run_new_key(const struct request *request);
int run_key(const struct request *request);
int run_sign(const struct request *request);
int run_verify(const struct request *request);
int run_new_store(const struct request *request);
int run_load(const struct request *request);
int run_lookup(const struct request *request);
int run_nearest(const struct request *request);
int run_show(const struct request *request);
int run_preview(const struct request *request);
int run_evaluate(const struct request *request);
int run_classes(const struct request *request);

#endif
