/* Calls every entry from C, on worked examples. It prints one line for each call, and ends with
 * status 1 where one of them is not as it should be. */
#include "gridprofile_category3.h"
#include "gridprofile_category5.h"

#include <stdio.h>
#include <string.h>

static int failed = 0;

/* The name of an entry is a prefix, which is the category's, and the rest. */
static void expect(const char *prefix, const char *name, int answer, int wanted, const uint8_t *got,
                   const uint8_t *bytes, size_t len)
{
    int ok = answer == wanted && memcmp(got, bytes, len) == 0;
    printf("%s %s%s\n", ok ? "ok" : "FAILED", prefix, name);
    failed |= !ok;
}

static void expect_length(size_t length, size_t wanted)
{
    const uint8_t none[1] = {0};
    expect("", "its length", length == wanted, 1, none, none, 0);
}

static void packing(const char *prefix)
{
    const uint8_t values[3] = {1, 2, 3}, packed_values[3] = {0x01, 0xC1, 0x00};
    const uint8_t exponents[3] = {6, 5, 1}, packed_exponents[2] = {0x6E, 0x00};
    const uint8_t bad[1] = {0x7F}, kept[1] = {9};
    uint8_t packed[GRIDPROFILE_PACKED_VALUES_BYTES(3)] = {0};
    uint8_t narrow[GRIDPROFILE_PACKED_EXPONENTS_BYTES(3)] = {0};
    uint8_t out[3] = {0};
    uint8_t lent[1] = {9};
    expect(prefix, "pack_values", gridprofile_pack_values(values, 3, packed, sizeof packed), 0,
           packed, packed_values, 3);
    expect(prefix, "unpack_values", gridprofile_unpack_values(packed, sizeof packed, out, 3), 0,
           out, values, 3);
    expect(prefix, "pack_exponents",
           gridprofile_pack_exponents(exponents, 3, narrow, sizeof narrow), 0, narrow,
           packed_exponents, 2);
    expect(prefix, "unpack_exponents",
           gridprofile_unpack_exponents(narrow, sizeof narrow, out, 3), 0, out, exponents, 3);
    expect(prefix, "unpack_values of a bad field", gridprofile_unpack_values(bad, 1, lent, 1),
           GRIDPROFILE_BAD_FIELD, lent, kept, 1);
    expect(prefix, "pack_values of nothing", gridprofile_pack_values(NULL, 0, NULL, 0), 0, kept,
           kept, 1);
}

static void hashing(const char *prefix)
{
    const uint8_t wanted_128[8] = {0x7F, 0x9C, 0x2B, 0xA4, 0xE8, 0x8F, 0x82, 0x7D};
    const uint8_t wanted_256[8] = {0x46, 0xB9, 0xDD, 0x2B, 0x0B, 0xA8, 0x8D, 0x13};
    uint8_t out[8] = {0};
    gridprofile_shake128(NULL, 0, out, sizeof out);
    expect(prefix, "shake128", 0, 0, out, wanted_128, sizeof out);
    gridprofile_shake256(NULL, 0, out, sizeof out);
    expect(prefix, "shake256", 0, 0, out, wanted_256, sizeof out);
}

/* The table of the built-in classes. */
static const uint8_t built_in[GRIDPROFILE_TABLE_IMAGE_BYTES];

static const char line[] = "GP1,XA,B,12,230,50,1150,100,800,1500,1500,100,-2500,100\n";

/* The same with a rate point and a greater serial. */
static const char rate_line[] =
    "GP2,XA,B,13,230,50,1150,100,800,1500,1500,100,-2500,100,2000,500\n";

/* The same country and class at the other hertz, with a lower serial. */
static const char other_hertz_line[] =
    "GP1,XA,B,1,230,60,1150,100,800,1500,1500,100,-2500,100\n";

/* A line read and written again: its image has this serial, and ends with this rate point. */
static void one_line(const char *prefix, const char *text, size_t text_len, uint8_t serial,
                     const uint8_t *rate)
{
    uint8_t profile[GRIDPROFILE_PROFILE_IMAGE_BYTES], out[GRIDPROFILE_LINE_MAX_BYTES];
    const uint8_t head[5] = {1, 'X', 'A', 'B', serial};
    size_t length = 0;
    int answer = gridprofile_read_line(built_in, sizeof built_in, (const uint8_t *)text, text_len,
                                       profile, sizeof profile);
    expect(prefix, "read_line", answer, GRIDPROFILE_DONE, profile, head, sizeof head);
    expect(prefix, "read_line's rate point", answer, GRIDPROFILE_DONE,
           profile + GRIDPROFILE_RATE_OFFSET, rate, GRIDPROFILE_TRIP_BYTES);
    answer = gridprofile_write_line(built_in, sizeof built_in, profile, sizeof profile, out,
                                    sizeof out, &length);
    expect(prefix, "write_line", answer, GRIDPROFILE_DONE, out, (const uint8_t *)text, length);
    expect_length(length, text_len);
}

static void lines(const char *prefix)
{
    static const uint8_t absent[GRIDPROFILE_TRIP_BYTES] = {GRIDPROFILE_RATE_ABSENT};
    static const uint8_t present[GRIDPROFILE_TRIP_BYTES] = {
        GRIDPROFILE_RATE_PRESENT, 0, 0, 0, 0xD0, 0x07, 0, 0, 0xF4, 0x01, 0, 0};
    one_line(prefix, line, sizeof line - 1, 12, absent);
    one_line(prefix, rate_line, sizeof rate_line - 1, 13, present);
}

/* A line with formulas evaluated: this line comes out, or nothing where its length is 0. */
static void expect_evaluated(const char *prefix, const char *name, const char *input, size_t room,
                             int wanted, const char *text)
{
    uint8_t out[GRIDPROFILE_LINE_MAX_BYTES] = {0}, bytes[GRIDPROFILE_LINE_MAX_BYTES] = {0};
    size_t length = 0;
    int answer = gridprofile_evaluate_line(built_in, sizeof built_in, (const uint8_t *)input,
                                           strlen(input), out, room, &length);
    memcpy(bytes, text, strlen(text));
    expect(prefix, name, answer, wanted, out, bytes, sizeof out);
    expect_length(length, strlen(text));
}

/* The worked line of each kind, and an input for each refusal. */
static void evaluating(const char *prefix)
{
    static char most[GRIDPROFILE_FORMULA_LINE_MAX_BYTES + 2];
    const size_t room = GRIDPROFILE_LINE_MAX_BYTES;
    expect_evaluated(prefix, "evaluate_line",
                     "GP1,XA,B,12,230,50,(N+23)*1000/N+50,100,N*80/100+616,1500,50*30,100,"
                     "0-50*50,100\n",
                     room, GRIDPROFILE_DONE, line);
    expect_evaluated(prefix, "evaluate_line",
                     "GP2,XA,B,13,230,50,1150,100,N*3+110,1500,(((((((1500))))))),100,-2500,100,"
                     "N*10-300,500\n",
                     room, GRIDPROFILE_DONE, rate_line);
    expect_evaluated(prefix, "evaluate_line of a plain line", line, room, GRIDPROFILE_DONE, line);
    expect_evaluated(prefix, "evaluate_line of no formula",
                     "GP1,XA,B,12,230,50,1/0+,100,1/0,1500,1500,100,-2500,100\n", room,
                     GRIDPROFILE_BAD_FORMULA, "");
    expect_evaluated(prefix, "evaluate_line by zero",
                     "GP1,XA,B,12,230,50,1/(N-230),100,-0,1500,1500,100,-2500,100\n", room,
                     GRIDPROFILE_BAD_STEP, "");
    expect_evaluated(prefix, "evaluate_line of a step too far",
                     "GP1,XA,B,12,230,50,1000000*2001/1000,100,800,1500,1500,100,-2500,100\n", room,
                     GRIDPROFILE_BAD_STEP, "");
    expect_evaluated(prefix, "evaluate_line out of range",
                     "GP1,XA,B,12,230,50,N,100,800,1500,1500,100,-2500,100\n", room,
                     GRIDPROFILE_BAD_PROFILE, "");
    expect_evaluated(prefix, "evaluate_line into a shorter buffer", line, room - 1,
                     GRIDPROFILE_BAD_SIZE, "");
    memset(most, '1', GRIDPROFILE_FORMULA_LINE_MAX_BYTES);
    expect_evaluated(prefix, "evaluate_line of the most bytes", most, room,
                     GRIDPROFILE_BAD_PROFILE, "");
    most[GRIDPROFILE_FORMULA_LINE_MAX_BYTES] = '1';
    expect_evaluated(prefix, "evaluate_line of a byte more", most, room, GRIDPROFILE_BAD_SIZE, "");
}

/* The listing of lines of both kinds and both hertz, given in descending order: its rows ascend. */
static void listing(const char *prefix)
{
    static const char input[] = "GP2,XB,B,9,230,60,1100,200,850,1500,1500,100,-2500,100,2000,500\n"
                                "GP1,XA,C,5,400,50,1100,200,850,1500,1500,100,-2500,100\n"
                                "GP1,XA,B,1,230,60,1150,100,800,1500,1500,100,-2500,100\n"
                                "GP1,XA,B,12,230,50,1150,100,800,1500,1500,100,-2500,100\n";
    static const char wanted[] = "COUNTRY,CLASS,HERTZ,SERIAL\n"
                                 "XA,B,50,12\n"
                                 "XA,B,60,1\n"
                                 "XA,C,50,5\n"
                                 "XB,B,60,9\n";
    uint8_t out[GRIDPROFILE_LISTING_BYTES] = {0};
    size_t length = 0;
    int answer = gridprofile_preview(built_in, sizeof built_in, (const uint8_t *)input,
                                     sizeof input - 1, out, sizeof out, &length);
    expect(prefix, "preview", answer, GRIDPROFILE_DONE, out, (const uint8_t *)wanted,
           sizeof wanted - 1);
    expect_length(length, sizeof wanted - 1);
}

/* The file of a class table, and a line of a class that it has, with formulas and without. */
static const char railway[] = "E,100,199\nM,200,400\nR,600,900\nT,950,1000\n";
static const char railway_line[] = "GP1,XA,R,12,750,50,1150,100,800,1500,1500,100,-2500,100\n";
static const char railway_formulas[] =
    "GP1,XA,R,12,750,50,N+400,100,N+50,1500,N*2,100,0-N*3-250,100\n";
static uint8_t railway_table[GRIDPROFILE_TABLE_IMAGE_BYTES];

/* A file that is read, or refused: then the image is as it was. */
static void expect_table(const char *prefix, const char *name, const char *file, size_t room,
                         int wanted, const uint8_t *image)
{
    uint8_t out[GRIDPROFILE_TABLE_IMAGE_BYTES] = {0};
    int answer = gridprofile_read_table((const uint8_t *)file, strlen(file), out, room);
    expect(prefix, name, answer, wanted, out, image, sizeof out);
}

/* The number at an offset of a row. */
static void put_number(size_t row, size_t offset, uint32_t number)
{
    uint8_t *at = railway_table + GRIDPROFILE_TABLE_ROWS_OFFSET + row * GRIDPROFILE_ROW_BYTES;
    at[offset] = (uint8_t)number;
    at[offset + 1] = (uint8_t)(number >> 8);
}

/* The image of the railway's table, put together by hand; then files read and refused. */
static void reading_tables(const char *prefix)
{
    static const uint32_t rows[4][3] = {
        {'E', 100, 199}, {'M', 200, 400}, {'R', 600, 900}, {'T', 950, 1000}};
    const size_t room = sizeof railway_table;
    railway_table[GRIDPROFILE_TABLE_USED_OFFSET] = 4;
    for (size_t row = 0; row < 4; row++) {
        put_number(row, GRIDPROFILE_ROW_CLASS_OFFSET, rows[row][0]);
        put_number(row, GRIDPROFILE_ROW_LOW_OFFSET, rows[row][1]);
        put_number(row, GRIDPROFILE_ROW_HIGH_OFFSET, rows[row][2]);
    }
    expect_table(prefix, "read_table", railway, room, GRIDPROFILE_DONE, railway_table);
    expect_table(prefix, "read_table of equal letters", "E,100,199\nE,200,400\n", room,
                 GRIDPROFILE_BAD_TABLE, built_in);
    expect_table(prefix, "read_table of nothing", "", room, GRIDPROFILE_BAD_TABLE, built_in);
    expect_table(prefix, "read_table into a shorter image", railway, room - 1,
                 GRIDPROFILE_BAD_SIZE, built_in);
}

/* The railway's line under a table: read, written and evaluated, or refused with 5. */
static void lines_under(const char *prefix, const uint8_t *table, int wanted)
{
    uint8_t profile[GRIDPROFILE_PROFILE_IMAGE_BYTES] = {0}, out[GRIDPROFILE_LINE_MAX_BYTES] = {0};
    const size_t line_len = sizeof railway_line - 1;
    size_t length = 0;
    int answer = gridprofile_read_line(table, GRIDPROFILE_TABLE_IMAGE_BYTES,
                                       (const uint8_t *)railway_line, line_len, profile,
                                       sizeof profile);
    expect(prefix, "read_line under a table", answer, wanted, out, out, 0);
    (void)gridprofile_read_line(railway_table, sizeof railway_table, (const uint8_t *)railway_line,
                                line_len, profile, sizeof profile);
    answer = gridprofile_write_line(table, GRIDPROFILE_TABLE_IMAGE_BYTES, profile, sizeof profile,
                                    out, sizeof out, &length);
    expect(prefix, "write_line under a table", answer, wanted, out, (const uint8_t *)railway_line,
           length);
    expect_length(length, wanted == GRIDPROFILE_DONE ? line_len : 0);
    length = 0;
    answer = gridprofile_evaluate_line(table, GRIDPROFILE_TABLE_IMAGE_BYTES,
                                       (const uint8_t *)railway_formulas,
                                       sizeof railway_formulas - 1, out, sizeof out, &length);
    expect(prefix, "evaluate_line under a table", answer, wanted, out,
           (const uint8_t *)railway_line, length);
    expect_length(length, wanted == GRIDPROFILE_DONE ? line_len : 0);
}

/* What the listing of the railway's line and of the usual one has: only the one of the table. */
static void listing_under(const char *prefix, const uint8_t *table, const char *wanted)
{
    uint8_t out[GRIDPROFILE_LISTING_BYTES], input[sizeof railway_line + sizeof line];
    size_t length = 0, first = sizeof railway_line - 1, second = sizeof line - 1;
    memcpy(input, railway_line, first);
    memcpy(input + first, line, second);
    int answer = gridprofile_preview(table, GRIDPROFILE_TABLE_IMAGE_BYTES, input, first + second,
                                     out, sizeof out, &length);
    expect(prefix, "preview under a table", answer, GRIDPROFILE_DONE, out, (const uint8_t *)wanted,
           strlen(wanted));
    expect_length(length, strlen(wanted));
}

static void tables(const char *prefix)
{
    reading_tables(prefix);
    lines_under(prefix, railway_table, GRIDPROFILE_DONE);
    lines_under(prefix, built_in, GRIDPROFILE_BAD_PROFILE);
    listing_under(prefix, railway_table, "COUNTRY,CLASS,HERTZ,SERIAL\nXA,R,50,12\n");
    listing_under(prefix, built_in, "COUNTRY,CLASS,HERTZ,SERIAL\nXA,B,50,12\n");
}

/* A category: the prefix of its names, its sizes and its functions. */
struct category {
    const char *prefix;
    size_t places, matrix_values, rounds, ones;
    size_t private_seed, master_seed, salt, digest, key, signature, reply_1, package_max;
    size_t matrix_block, exponents_block, mask_values_block, first_challenges_block;
    size_t second_challenge_block;
    uint8_t (*sample_matrix)(const uint8_t *, size_t, uint8_t *, size_t);
    uint8_t (*sample_exponents)(const uint8_t *, size_t, uint8_t *, size_t);
    uint8_t (*sample_mask_values)(const uint8_t *, size_t, uint8_t *, size_t);
    uint8_t (*sample_first_challenges)(const uint8_t *, size_t, uint8_t *, size_t);
    uint8_t (*sample_second_challenge)(const uint8_t *, size_t, uint8_t *, size_t);
    uint8_t (*make_key)(const uint8_t *, size_t, uint8_t *, size_t);
    uint8_t (*sign)(const uint8_t *, size_t, const uint8_t *, size_t, const uint8_t *, size_t,
                    const uint8_t *, size_t, uint8_t *, size_t);
    uint8_t (*verify)(const uint8_t *, size_t, const uint8_t *, size_t, const uint8_t *, size_t);
    uint8_t (*verify_round)(const uint8_t *, size_t, const uint8_t *, size_t, uint32_t,
                            const uint8_t *, size_t, const uint8_t *, size_t, uint32_t,
                            const uint8_t *, size_t, uint32_t, const uint8_t *, size_t);
    uint8_t (*make_package)(const uint8_t *, size_t, const uint8_t *, size_t, const uint8_t *,
                            size_t, const uint8_t *, size_t, const uint8_t *, size_t, uint8_t *,
                            size_t, size_t *);
    uint8_t (*load)(uint8_t *, size_t, const uint8_t *, size_t, const uint8_t *, size_t,
                    const uint8_t *, size_t, uint32_t, uint32_t);
};

/* The category whose constants and functions begin so. */
#define CATEGORY(SIZE, function)                                                                  \
    {                                                                                             \
        .prefix = #function, .places = SIZE##PLACES, .matrix_values = SIZE##MATRIX_VALUES,        \
        .rounds = SIZE##ROUNDS, .ones = SIZE##ONES, .private_seed = SIZE##PRIVATE_SEED_BYTES,     \
        .master_seed = SIZE##MASTER_SEED_BYTES, .salt = SIZE##SALT_BYTES,                         \
        .digest = SIZE##DIGEST_BYTES, .key = SIZE##KEY_BYTES, .signature = SIZE##SIGNATURE_BYTES, \
        .reply_1 = SIZE##REPLY_1_BYTES, .package_max = SIZE##PACKAGE_MAX_BYTES,                   \
        .matrix_block = SIZE##MATRIX_BLOCK_BYTES,                                                 \
        .exponents_block = SIZE##EXPONENTS_BLOCK_BYTES,                                           \
        .mask_values_block = SIZE##MASK_VALUES_BLOCK_BYTES,                                       \
        .first_challenges_block = SIZE##FIRST_CHALLENGES_BLOCK_BYTES,                             \
        .second_challenge_block = SIZE##SECOND_CHALLENGE_BLOCK_BYTES,                             \
        .sample_matrix = function##sample_matrix,                                                 \
        .sample_exponents = function##sample_exponents,                                           \
        .sample_mask_values = function##sample_mask_values,                                       \
        .sample_first_challenges = function##sample_first_challenges,                             \
        .sample_second_challenge = function##sample_second_challenge,                             \
        .make_key = function##make_key, .sign = function##sign, .verify = function##verify,       \
        .verify_round = function##verify_round, .make_package = function##make_package,           \
        .load = function##load,                                                                   \
    }

static const struct category categories[3] = {
    CATEGORY(GRIDPROFILE_, gridprofile_),
    CATEGORY(GRIDPROFILE_CATEGORY3_, gridprofile_category3_),
    CATEGORY(GRIDPROFILE_CATEGORY5_, gridprofile_category5_),
};

/* Buffers in the sizes of category 5, which are the greatest. Seeds and blocks are zeros. */
static const uint8_t zeros[GRIDPROFILE_CATEGORY5_MATRIX_BLOCK_BYTES];
static uint8_t key[GRIDPROFILE_CATEGORY5_KEY_BYTES];
static uint8_t signature[GRIDPROFILE_CATEGORY5_SIGNATURE_BYTES];
static uint8_t package[GRIDPROFILE_CATEGORY5_PACKAGE_MAX_BYTES];

typedef uint8_t (*sample)(const uint8_t *, size_t, uint8_t *, size_t);

/* A block of zeros yields `first` everywhere; a shorter output is refused and not touched. */
static void sampling(const char *prefix, const char *name, sample draw, size_t block_len,
                     size_t count, uint8_t first)
{
    static uint8_t out[GRIDPROFILE_CATEGORY5_MATRIX_VALUES];
    static uint8_t old[GRIDPROFILE_CATEGORY5_MATRIX_VALUES];
    memset(out, 0xA5, sizeof out);
    memset(old, 0xA5, sizeof old);
    expect(prefix, name, draw(zeros, block_len, out, count - 1), GRIDPROFILE_BAD_SIZE, out, old,
           sizeof out);
    memset(old, first, count);
    expect(prefix, name, draw(zeros, block_len, out, count), GRIDPROFILE_DONE, out, old,
           sizeof out);
}

static void samples(const struct category *c)
{
    sampling(c->prefix, "sample_matrix", c->sample_matrix, c->matrix_block, c->matrix_values, 0);
    sampling(c->prefix, "sample_exponents", c->sample_exponents, c->exponents_block, c->places, 0);
    sampling(c->prefix, "sample_mask_values", c->sample_mask_values, c->mask_values_block,
             c->places, 0);
    sampling(c->prefix, "sample_first_challenges", c->sample_first_challenges,
             c->first_challenges_block, c->rounds, 1);
}

/* Fields of 0 exchange each position with the first one: in the end each position holds what stood
 * one above it, and the last holds what stood first. */
static void second_challenge(const struct category *c)
{
    uint8_t out[GRIDPROFILE_CATEGORY5_ROUNDS], wanted[GRIDPROFILE_CATEGORY5_ROUNDS];
    for (size_t j = 0; j < c->rounds; j++) {
        wanted[j] = (uint8_t)(j < c->ones - 1 || j == c->rounds - 1);
    }
    int answer = c->sample_second_challenge(zeros, c->second_challenge_block, out, c->rounds);
    expect(c->prefix, "sample_second_challenge", answer, 0, out, wanted, c->rounds);
}

/* A message signed and checked, whole and with a byte of its signature changed, and one round that
 * opens nothing. */
static void signing(const struct category *c)
{
    static const uint8_t message[3] = {1, 2, 3};
    int answer = c->make_key(zeros, c->private_seed, key, c->key);
    expect(c->prefix, "make_key", answer, GRIDPROFILE_DONE, key, key, 0);
    answer = c->sign(zeros, c->private_seed, zeros, c->master_seed, zeros, c->salt, message, 3,
                     signature, c->signature);
    expect(c->prefix, "sign", answer, GRIDPROFILE_DONE, signature, zeros, c->salt);
    answer = c->verify(key, c->key, message, 3, signature, c->signature);
    expect(c->prefix, "verify", answer, GRIDPROFILE_DONE, key, key, 0);
    signature[c->signature - 1] ^= 1;
    answer = c->verify(key, c->key, message, 3, signature, c->signature);
    expect(c->prefix, "verify of a damaged signature", answer, GRIDPROFILE_MISMATCH, key, key, 0);
    answer = c->verify(key, c->key - 1, message, 3, signature, c->signature);
    expect(c->prefix, "verify under a shorter key", answer, GRIDPROFILE_BAD_SIZE, key, key, 0);
    answer = c->verify_round(key, c->key, zeros, c->salt, 1, zeros, c->digest, zeros, c->digest, 1,
                             zeros, c->digest, 1, zeros, c->reply_1);
    expect(c->prefix, "verify_round", answer, GRIDPROFILE_MISMATCH, key, key, 0);
}

static const uint8_t country[2] = {'X', 'A'};

/* A load of the package of this length, on a device of class B. */
static void expect_load(const struct category *c, const char *name, uint8_t *store, size_t length,
                        uint32_t hertz, int wanted)
{
    int answer = c->load(store, GRIDPROFILE_STORE_IMAGE_BYTES, key, c->key, package, length,
                         country, sizeof country, 'B', hertz);
    expect(c->prefix, name, answer, wanted, key, key, 0);
}

/* A lookup that gives this line. */
static void expect_line(const uint8_t *store, uint32_t hertz, const char *text, size_t text_len)
{
    uint8_t out[GRIDPROFILE_LINE_MAX_BYTES];
    size_t written = 0;
    int answer = gridprofile_lookup(store, GRIDPROFILE_STORE_IMAGE_BYTES, country, sizeof country,
                                    'B', hertz, out, sizeof out, &written);
    expect("gridprofile_", "lookup", answer, GRIDPROFILE_DONE, out, (const uint8_t *)text,
           text_len);
    expect_length(written, text_len);
}

/* A lookup that gives nothing. */
static void expect_none(const char *name, const uint8_t *store, uint32_t class_letter,
                        uint32_t hertz, int wanted)
{
    uint8_t out[GRIDPROFILE_LINE_MAX_BYTES] = {0};
    size_t written = 0;
    int answer = gridprofile_lookup(store, GRIDPROFILE_STORE_IMAGE_BYTES, country, sizeof country,
                                    class_letter, hertz, out, sizeof out, &written);
    expect("gridprofile_", name, answer, wanted, out, zeros, sizeof out);
    expect_length(written, 0);
}

/* What is nearest to measured volts: this line, or nothing where its length is 0. */
static void expect_nearest(const char *name, const uint8_t *store, uint32_t hertz, uint32_t volts,
                           int wanted, const char *text, size_t text_len)
{
    uint8_t out[GRIDPROFILE_LINE_MAX_BYTES] = {0}, bytes[GRIDPROFILE_LINE_MAX_BYTES] = {0};
    size_t written = 0;
    int answer = gridprofile_nearest(store, GRIDPROFILE_STORE_IMAGE_BYTES, country, sizeof country,
                                     hertz, volts, out, sizeof out, &written);
    memcpy(bytes, text, text_len);
    expect("gridprofile_", name, answer, wanted, out, bytes, sizeof out);
    expect_length(written, text_len);
}

/* The profiles of both hertz have 230 volts: from both ends of the reach each is the nearest. */
static void nearest(const uint8_t *store)
{
    const uint32_t low = 230 - GRIDPROFILE_NEAREST_REACH, high = 230 + GRIDPROFILE_NEAREST_REACH;
    expect_nearest("nearest", store, 50, low, GRIDPROFILE_DONE, rate_line, sizeof rate_line - 1);
    expect_nearest("nearest", store, 60, high, GRIDPROFILE_DONE, other_hertz_line,
                   sizeof other_hertz_line - 1);
    expect_nearest("nearest to too few volts", store, 50, low - 1, GRIDPROFILE_NOT_STORED, "", 0);
    expect_nearest("nearest to too many volts", store, 60, high + 1, GRIDPROFILE_NOT_STORED, "", 0);
    expect_nearest("nearest to the most volts", store, 50, GRIDPROFILE_NEAREST_VOLTS_MAX,
                   GRIDPROFILE_NOT_STORED, "", 0);
    expect_nearest("nearest to no volts", store, 50, GRIDPROFILE_NEAREST_VOLTS_MAX + 1,
                   GRIDPROFILE_BAD_DEVICE, "", 0);
    expect_nearest("nearest at no hertz", store, 16, 230, GRIDPROFILE_BAD_DEVICE, "", 0);
}

/* The package of a line made, refused on a device of other hertz and on none that there is, loaded,
 * looked up, and refused the second time. */
static void load_line(const struct category *c, uint8_t *store, uint32_t hertz, const char *text,
                      size_t text_len)
{
    size_t length = 0;
    int answer = c->make_package(built_in, sizeof built_in, zeros, c->private_seed, zeros,
                                 c->master_seed, zeros, c->salt, (const uint8_t *)text, text_len,
                                 package, c->package_max, &length);
    expect(c->prefix, "make_package", answer, GRIDPROFILE_DONE, package, zeros, c->salt);
    expect_length(length, c->signature + text_len);
    expect_load(c, "load at other hertz", store, length, hertz == 50 ? 60 : 50,
                GRIDPROFILE_OTHER_DEVICE);
    expect_load(c, "load at no hertz", store, length, hertz + 65536, GRIDPROFILE_BAD_DEVICE);
    expect_load(c, "load", store, length, hertz, GRIDPROFILE_DONE);
    expect_line(store, hertz, text, text_len);
    expect_load(c, "load again", store, length, hertz, GRIDPROFILE_OLD_SERIAL);
}

/* The second line replaces the first, and the third stands beside it; nothing is stored for another
 * class, nor for the other hertz before. Of both that are left each is the nearest at its hertz. */
static void loading(const struct category *c)
{
    uint8_t store[GRIDPROFILE_STORE_IMAGE_BYTES] = {0};
    (void)c->make_key(zeros, c->private_seed, key, c->key);
    load_line(c, store, 50, line, sizeof line - 1);
    load_line(c, store, 50, rate_line, sizeof rate_line - 1);
    expect_none("lookup of another class", store, 'C', 50, GRIDPROFILE_NOT_STORED);
    expect_none("lookup of other hertz", store, 'B', 60, GRIDPROFILE_NOT_STORED);
    expect_none("lookup of no hertz", store, 'B', 16, GRIDPROFILE_BAD_DEVICE);
    load_line(c, store, 60, other_hertz_line, sizeof other_hertz_line - 1);
    expect_line(store, 50, rate_line, sizeof rate_line - 1);
    nearest(store);
}

/* A class table offered to a store: the table's part of its image is then this, and all else as it
 * was. */
static void expect_offer(const char *name, uint8_t *store, const char *file, int wanted,
                         const uint8_t *table)
{
    uint8_t due[GRIDPROFILE_STORE_IMAGE_BYTES];
    memcpy(due, store, sizeof due);
    memcpy(due + GRIDPROFILE_STORE_TABLE_OFFSET, table, GRIDPROFILE_TABLE_IMAGE_BYTES);
    int answer = gridprofile_load_table(store, sizeof due, (const uint8_t *)file, strlen(file));
    expect("gridprofile_", name, answer, wanted, store, due, sizeof due);
}

/* A table replaced while nothing is stored, and refused once something is; what a device may be set
 * to and what is loaded go by it. */
static void loading_under(const struct category *c)
{
    uint8_t store[GRIDPROFILE_STORE_IMAGE_BYTES] = {0}, other[GRIDPROFILE_TABLE_IMAGE_BYTES] = {0};
    const size_t line_len = sizeof railway_line - 1;
    size_t length = 0;
    (void)gridprofile_read_table((const uint8_t *)"B,230,230\n", 10, other, sizeof other);
    expect_offer("load_table", store, "B,230,230\n", GRIDPROFILE_DONE, other);
    expect_offer("load_table of no table", store, "B,230,230", GRIDPROFILE_BAD_TABLE, other);
    expect_offer("load_table again", store, railway, GRIDPROFILE_DONE, railway_table);
    int answer = c->make_package(built_in, sizeof built_in, zeros, c->private_seed, zeros,
                                 c->master_seed, zeros, c->salt, (const uint8_t *)railway_line,
                                 line_len, package, c->package_max, &length);
    expect(c->prefix, "make_package under another table", answer, GRIDPROFILE_BAD_PROFILE, key,
           key, 0);
    answer = c->make_package(railway_table, sizeof railway_table, zeros, c->private_seed, zeros,
                             c->master_seed, zeros, c->salt, (const uint8_t *)railway_line,
                             line_len, package, c->package_max, &length);
    expect(c->prefix, "make_package under a table", answer, GRIDPROFILE_DONE, package, zeros,
           c->salt);
    expect_load(c, "load for a class of no table", store, length, 50, GRIDPROFILE_BAD_DEVICE);
    expect_none("lookup of a class of the table", store, 'R', 50, GRIDPROFILE_NOT_STORED);
    expect_none("lookup of a class of no table", store, 'B', 50, GRIDPROFILE_BAD_DEVICE);
    answer = c->load(store, sizeof store, key, c->key, package, length, country, sizeof country,
                     'R', 50);
    expect(c->prefix, "load under a table", answer, GRIDPROFILE_DONE, key, key, 0);
    expect_nearest("nearest under a table", store, 50, 740, GRIDPROFILE_DONE, railway_line,
                   line_len);
    expect_offer("load_table of no table into a store in use", store, "", GRIDPROFILE_BAD_TABLE,
                 railway_table);
    expect_offer("load_table into a store in use", store, railway, GRIDPROFILE_STORE_IN_USE,
                 railway_table);
    memset(store, 0, sizeof store);
    answer = c->load(store, sizeof store, key, c->key, package, length, country, sizeof country,
                     'D', 50);
    expect(c->prefix, "load under the built-in classes", answer, GRIDPROFILE_BAD_PROFILE, store,
           zeros, sizeof store);
}

int main(void)
{
    const char *prefix = categories[0].prefix;
    packing(prefix);
    listing(prefix);
    lines(prefix);
    evaluating(prefix);
    tables(prefix);
    hashing(prefix);
    for (const struct category *c = categories; c < categories + 3; c++) {
        loading(c);
        loading_under(c);
        signing(c);
        samples(c);
        second_challenge(c);
    }
    return failed;
}
