/* How much stack the entries use: each runs on a stack of its own that was filled with a pattern, and the bytes that no
 * longer hold it are counted. A job that does nothing gives the part that is not the library's. The jobs run with a
 * usual line, the built-in classes and second challenge 0, and then with the longest line, which has a rate point, the
 * longest class table, whose last row its volts have, and second challenge 1; with formulas as deep as may be that give
 * the same line; the greater use counts. A line for each entry: its name and the bytes. Linked with -z now: else the
 * linker's work at the first memcpy would be counted too. */
#include <stdint.h>
#include <stdio.h>
#include <stdlib.h>
#include <string.h>
#include <ucontext.h>

#include "gridprofile.h"
#include "gridprofile_category3.h"
#include "gridprofile_category5.h"

#define STACK_BYTES (1 << 20)
#define PATTERN 0xA5

static const char usual[] = "GP1,XA,B,12,230,50,1150,100,800,1500,1500,100,-2500,100\n";
static const char longest[] = "GP2,XA,Z,4294967295,1000,60,1500,60000,999,60000,5000,60000,-5000,60000,10000,60000\n";
_Static_assert(sizeof longest - 1 == GRIDPROFILE_LINE_MAX_BYTES, "no line is longer");

/* Formulas in eight pairs of parentheses: with nothing else in them, and with both kinds of operators at each depth. */
#define DEEP(limit) "((((((((" limit "))))))))"
#define STEPS(sign, limit) "0" sign "1*(0+1*(0+1*(0+1*(0+1*(0+1*(0+1*(0+1*(" limit "))))))))"

static const char usual_formulas[] =
    "GP1,XA,B,12,230,50," DEEP("1150") ",100," DEEP("800") ",1500," DEEP("1500") ",100," DEEP("0-2500") ",100\n";
static const char longest_formulas[] =
    "GP2,XA,Z,4294967295,1000,60," STEPS("+", "1500") ",60000," STEPS("+", "999") ",60000," STEPS("+", "5000") ",60000,"
    STEPS("-", "5000") ",60000," STEPS("+", "10000") ",60000\n";
_Static_assert(sizeof STEPS("+", "10000") - 1 <= 64, "no formula is longer");
_Static_assert(sizeof longest_formulas - 1 <= GRIDPROFILE_FORMULA_LINE_MAX_BYTES, "no input is longer");

/* The file of a usual class table and of the longest. */
static const char usual_file[] = "E,100,199\nM,200,400\nR,600,900\nT,950,1000\n";
static const char longest_file[] =
    "A,100,133\nB,134,167\nC,168,201\nD,202,235\nE,236,269\nF,270,303\nG,304,337\nH,338,371\nI,372,405\nJ,406,439\n"
    "K,440,473\nL,474,507\nM,508,541\nN,542,575\nO,576,609\nP,610,643\nQ,644,677\nR,678,711\nS,712,745\nT,746,779\n"
    "U,780,813\nV,814,847\nW,848,881\nX,882,915\nY,916,999\nZ,1000,1000\n";
_Static_assert(sizeof longest_file - 1 == GRIDPROFILE_TABLE_FILE_MAX_BYTES, "no file is longer");

/* The line that the jobs run with, its hertz and its volts, and the table's file. Both lines are for the country `XA`,
 * and byte 7 of a line is its class. */
static const uint8_t *line, *formulas, *file;
static size_t line_len, formulas_len, file_len;
static uint32_t hertz, volts, challenge;
static const uint8_t country[2] = {'X', 'A'};
#define CLASS line[7]
/* The table that the jobs run under, the one that read_table makes, and a store for load_table. */
static uint8_t table[GRIDPROFILE_TABLE_IMAGE_BYTES], read_image[GRIDPROFILE_TABLE_IMAGE_BYTES];
static uint8_t without_profile[GRIDPROFILE_STORE_IMAGE_BYTES];
static uint8_t message[GRIDPROFILE_LINE_MAX_BYTES], profile[GRIDPROFILE_PROFILE_IMAGE_BYTES];
static uint8_t found[GRIDPROFILE_LINE_MAX_BYTES], listing[GRIDPROFILE_LISTING_BYTES];
static uint8_t numbers[GRIDPROFILE_PLACES];
static uint8_t packed_values[GRIDPROFILE_PACKED_VALUES_BYTES(GRIDPROFILE_PLACES)];
static uint8_t packed_exponents[GRIDPROFILE_PACKED_EXPONENTS_BYTES(GRIDPROFILE_PLACES)];
static size_t length;

/* What is lent at a category. `c` begins the names of its functions, `C` those of its sizes; both are empty at
 * category 1. */
#define BUFFERS(c, C)                                                                                                  \
    static struct {                                                                                                    \
        uint8_t private_seed[GRIDPROFILE_##C##PRIVATE_SEED_BYTES], master_seed[GRIDPROFILE_##C##MASTER_SEED_BYTES];    \
        uint8_t salt[GRIDPROFILE_##C##SALT_BYTES], digest[GRIDPROFILE_##C##DIGEST_BYTES];                              \
        uint8_t key[GRIDPROFILE_##C##KEY_BYTES], signature[GRIDPROFILE_##C##SIGNATURE_BYTES];                          \
        uint8_t package[GRIDPROFILE_##C##PACKAGE_MAX_BYTES], store[GRIDPROFILE_STORE_IMAGE_BYTES];                     \
        uint8_t reply_0[GRIDPROFILE_##C##REPLY_0_BYTES], reply_1[GRIDPROFILE_##C##REPLY_1_BYTES];                      \
        uint8_t matrix_block[GRIDPROFILE_##C##MATRIX_BLOCK_BYTES], matrix[GRIDPROFILE_##C##MATRIX_VALUES];             \
        uint8_t exponents_block[GRIDPROFILE_##C##EXPONENTS_BLOCK_BYTES];                                               \
        uint8_t mask_block[GRIDPROFILE_##C##MASK_VALUES_BLOCK_BYTES];                                                  \
        uint8_t first_block[GRIDPROFILE_##C##FIRST_CHALLENGES_BLOCK_BYTES];                                            \
        uint8_t second_block[GRIDPROFILE_##C##SECOND_CHALLENGE_BLOCK_BYTES];                                           \
        uint8_t places[GRIDPROFILE_##C##PLACES], rounds[GRIDPROFILE_##C##ROUNDS];                                      \
        size_t package_len;                                                                                            \
    } c##lent;

BUFFERS(, )
BUFFERS(category3_, CATEGORY3_)
BUFFERS(category5_, CATEGORY5_)

/* A slice of a whole array. */
#define ALL(array) array, sizeof array

/* The entries of a category, in an order in which each has what it needs: the name, the answer that must come, as a
 * refusal on the way would use less, and the arguments. */
#define OF_CATEGORY(DO, c)                                                                                             \
    DO(c, sample_matrix, 0, (ALL(c##lent.matrix_block), ALL(c##lent.matrix)))                                          \
    DO(c, sample_exponents, 0, (ALL(c##lent.exponents_block), ALL(c##lent.places)))                                    \
    DO(c, sample_mask_values, 0, (ALL(c##lent.mask_block), ALL(c##lent.places)))                                       \
    DO(c, sample_first_challenges, 0, (ALL(c##lent.first_block), ALL(c##lent.rounds)))                                 \
    DO(c, sample_second_challenge, 0, (ALL(c##lent.second_block), ALL(c##lent.rounds)))                                \
    DO(c, make_key, 0, (ALL(c##lent.private_seed), ALL(c##lent.key)))                                                  \
    DO(c, sign, 0,                                                                                                     \
       (ALL(c##lent.private_seed), ALL(c##lent.master_seed), ALL(c##lent.salt), ALL(message),                          \
        ALL(c##lent.signature)))                                                                                       \
    DO(c, verify, 0, (ALL(c##lent.key), ALL(message), ALL(c##lent.signature)))                                         \
    DO(c, verify_round, 4,                                                                                             \
       (ALL(c##lent.key), ALL(c##lent.salt), 1, ALL(c##lent.digest), ALL(c##lent.digest), 1, ALL(c##lent.digest),      \
        challenge, challenge == 1 ? c##lent.reply_1 : c##lent.reply_0,                                                 \
        challenge == 1 ? sizeof c##lent.reply_1 : sizeof c##lent.reply_0))                                             \
    DO(c, make_package, 0,                                                                                             \
       (ALL(table), ALL(c##lent.private_seed), ALL(c##lent.master_seed), ALL(c##lent.salt), line, line_len,            \
        ALL(c##lent.package), &c##lent.package_len))                                                                   \
    DO(c, load, 0,                                                                                                     \
       (ALL(c##lent.store), ALL(c##lent.key), c##lent.package, c##lent.package_len, ALL(country), CLASS, hertz))

/* Those that no category decides; lookup and nearest are in what the loads of category 1 stored. */
#define OF_NONE(DO)                                                                                                    \
    DO(, pack_values, 0, (ALL(numbers), ALL(packed_values)))                                                           \
    DO(, unpack_values, 0, (ALL(packed_values), ALL(numbers)))                                                         \
    DO(, pack_exponents, 0, (ALL(numbers), ALL(packed_exponents)))                                                     \
    DO(, unpack_exponents, 0, (ALL(packed_exponents), ALL(numbers)))                                                   \
    DO(, read_table, 0, (file, file_len, ALL(read_image)))                                                             \
    DO(, load_table, 0, (ALL(without_profile), file, file_len))                                                        \
    DO(, read_line, 0, (ALL(table), line, line_len, ALL(profile)))                                                     \
    DO(, write_line, 0, (ALL(table), ALL(profile), ALL(found), &length))                                               \
    DO(, evaluate_line, 0, (ALL(table), formulas, formulas_len, ALL(found), &length))                                  \
    DO(, preview, 0, (ALL(table), line, line_len, ALL(listing), &length))                                              \
    DO(, lookup, 0, (ALL(lent.store), ALL(country), CLASS, hertz, ALL(found), &length))                                \
    DO(, nearest, 0, (ALL(lent.store), ALL(country), hertz, volts, ALL(found), &length))

#define JOB(c, name, answer, call)                                                                                     \
    static void c##name(void)                                                                                          \
    {                                                                                                                  \
        if (gridprofile_##c##name call != answer)                                                                      \
            exit(1);                                                                                                   \
    }

OF_CATEGORY(JOB, )
OF_CATEGORY(JOB, category3_)
OF_CATEGORY(JOB, category5_)
OF_NONE(JOB)

/* What comes out is longer than a block of the sponge. */
static void shake128(void) { gridprofile_shake128(ALL(message), ALL(lent.signature)); }

static void shake256(void) { gridprofile_shake256(ALL(message), ALL(lent.signature)); }

static void nothing(void) {}

static size_t used(void (*job)(void))
{
    static uint8_t stack[STACK_BYTES];
    static ucontext_t here, there;
    size_t untouched = 0;
    memset(stack, PATTERN, sizeof stack);
    if (getcontext(&there) != 0)
        exit(2);
    there.uc_stack.ss_sp = stack;
    there.uc_stack.ss_size = sizeof stack;
    there.uc_link = &here;
    makecontext(&there, job, 0);
    if (swapcontext(&here, &there) != 0)
        exit(2);
    while (untouched < sizeof stack && stack[untouched] == PATTERN)
        untouched++;
    return sizeof stack - untouched;
}

#define ROW(c, name, answer, call) {#c #name, c##name, 0},

/* In the order in which they run and are printed; each with the most bytes that it used. */
static struct {
    const char *name;
    void (*job)(void);
    size_t most;
} jobs[] = {
    {"shake128", shake128, 0},
    {"shake256", shake256, 0},
    OF_CATEGORY(ROW, )
    OF_NONE(ROW)
    OF_CATEGORY(ROW, category3_)
    OF_CATEGORY(ROW, category5_)
};
#define JOBS (sizeof jobs / sizeof *jobs)

/* Empties a store and gives it the table. */
static void begin(uint8_t *store)
{
    memset(store, 0, GRIDPROFILE_STORE_IMAGE_BYTES);
    memcpy(store + GRIDPROFILE_STORE_TABLE_OFFSET, table, sizeof table);
}

static void run_all(const char *text, const char *its_formulas, uint32_t its_hertz, uint32_t its_volts,
                    const char *its_file, uint32_t its_challenge)
{
    begin(lent.store);
    begin(category3_lent.store);
    begin(category5_lent.store);
    file = (const uint8_t *)its_file;
    file_len = strlen(its_file);
    line = (const uint8_t *)text;
    line_len = strlen(text);
    formulas = (const uint8_t *)its_formulas;
    formulas_len = strlen(its_formulas);
    hertz = its_hertz;
    volts = its_volts;
    challenge = its_challenge;
    for (size_t at = 0; at < JOBS; at++) {
        size_t bytes = used(jobs[at].job);
        if (bytes > jobs[at].most)
            jobs[at].most = bytes;
    }
}

int main(void)
{
    size_t base = used(nothing);
    run_all(usual, usual_formulas, 50, 230, usual_file, 0);
    if (gridprofile_read_table((const uint8_t *)longest_file, sizeof longest_file - 1, ALL(table)) != 0)
        return 1;
    run_all(longest, longest_formulas, 60, 1000, longest_file, 1);
    for (size_t at = 0; at < JOBS; at++)
        printf("%s %zu\n", jobs[at].name, jobs[at].most - base);
    return 0;
}
