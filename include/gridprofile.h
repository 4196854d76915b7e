/* Signed grid profiles: the C interface of the proved library, with the sizes and functions of
 * category 1. Those of categories 3 and 5 stand in gridprofile_category3.h and
 * gridprofile_category5.h, which include this file; a device is built for one category.
 *
 * A slice is a pointer and then its length in bytes. Slices given to one call must not overlap, and
 * a pointer must not be null unless its length is 0: the library's proofs assume both. Every
 * function but the two of SHAKE answers 0, or the number of the first refusal that applies. After a
 * refusal every lent byte is as it was. No function keeps a pointer, allocates memory or has any
 * state of its own.
 *
 * `Stack: N bytes.` is what a call needs below its caller's own frame: measured on x86-64 and
 * rounded up to a multiple of 64, not proved. `make bench` measures it. */
#ifndef GRIDPROFILE_H
#define GRIDPROFILE_H

#include <stddef.h>
#include <stdint.h>

#ifdef __cplusplus
extern "C" {
#endif

/* The version of this interface, as CHANGELOG.md names it. */
#define GRIDPROFILE_VERSION "0.1.0"
#define GRIDPROFILE_VERSION_MAJOR 0
#define GRIDPROFILE_VERSION_MINOR 1
#define GRIDPROFILE_VERSION_PATCH 0

/* Answers. gridprofile_nearest is asked for no class: there 9 is nothing stored under this country and
 * hertz within reach of the measured volts, and 10 a country, hertz or volts that do not exist. */
#define GRIDPROFILE_DONE 0
#define GRIDPROFILE_BAD_SIZE 1        /* a buffer, message, line or package of a wrong length */
#define GRIDPROFILE_SHORT_DRAW 2      /* a block yields too few numbers */
#define GRIDPROFILE_BAD_FIELD 3       /* a field or number out of range, or a spare bit that is 1 */
#define GRIDPROFILE_MISMATCH 4        /* a recomputed digest differs */
#define GRIDPROFILE_BAD_PROFILE 5     /* a line or profile breaks a field rule */
#define GRIDPROFILE_OTHER_DEVICE 6    /* not for this device's country, class and hertz */
#define GRIDPROFILE_OLD_SERIAL 7      /* serial not greater than the stored one of these three */
#define GRIDPROFILE_STORE_FULL 8      /* no room for another country, class and hertz */
#define GRIDPROFILE_NOT_STORED 9      /* nothing stored under this country, class and hertz */
#define GRIDPROFILE_BAD_DEVICE 10     /* no such country or hertz, or no class of the store's table */
#define GRIDPROFILE_BAD_FORMULA 11    /* a limit of a line to evaluate is no formula */
#define GRIDPROFILE_BAD_STEP 12       /* a formula divides by 0, or a result leaves its bounds */
#define GRIDPROFILE_BAD_TABLE 13      /* a class table breaks a rule of its file */
#define GRIDPROFILE_STORE_IN_USE 14   /* a class table for a store that holds a profile */

/* Numbers of category 1. */
#define GRIDPROFILE_PLACES 127           /* places of a vector */
#define GRIDPROFILE_MATRIX_VALUES 3876   /* values of V, 51 rows of 76 */
#define GRIDPROFILE_ROUNDS 163           /* rounds of a signature */
#define GRIDPROFILE_ONES 85              /* rounds whose second challenge is 1 */

/* Seeds, keys and signatures, in bytes. */
#define GRIDPROFILE_PRIVATE_SEED_BYTES 32
#define GRIDPROFILE_MASTER_SEED_BYTES 16
#define GRIDPROFILE_SALT_BYTES 32
#define GRIDPROFILE_DIGEST_BYTES 32
#define GRIDPROFILE_KEY_BYTES 77
#define GRIDPROFILE_SIGNATURE_BYTES 19152
#define GRIDPROFILE_MESSAGE_MAX_BYTES 65536
#define GRIDPROFILE_REPLY_0_BYTES 160    /* a round's reply to second challenge 0 */
#define GRIDPROFILE_REPLY_1_BYTES 16     /* and to 1 */

/* Lines and the images of profiles, in bytes. */
#define GRIDPROFILE_LINE_MIN_BYTES 42
#define GRIDPROFILE_LINE_MAX_BYTES 84
#define GRIDPROFILE_FORMULA_LINE_MAX_BYTES 400 /* of a line whose limits are formulas */
#define GRIDPROFILE_PROFILE_IMAGE_BYTES 76

/* Where the fields of a profile's image begin. Used, country and class are bytes; a number has
 * four, low byte first; the last five fields are trip points. */
#define GRIDPROFILE_USED_OFFSET 0
#define GRIDPROFILE_COUNTRY_OFFSET 1
#define GRIDPROFILE_CLASS_OFFSET 3
#define GRIDPROFILE_SERIAL_OFFSET 4
#define GRIDPROFILE_VOLTS_OFFSET 8
#define GRIDPROFILE_HERTZ_OFFSET 12
#define GRIDPROFILE_OVER_VOLTAGE_OFFSET 16
#define GRIDPROFILE_UNDER_VOLTAGE_OFFSET 28
#define GRIDPROFILE_OVER_FREQUENCY_OFFSET 40
#define GRIDPROFILE_UNDER_FREQUENCY_OFFSET 52
#define GRIDPROFILE_RATE_OFFSET 64

/* A trip point: its bytes, and where its three numbers begin in it. */
#define GRIDPROFILE_TRIP_BYTES 12
#define GRIDPROFILE_TRIP_KIND_OFFSET 0
#define GRIDPROFILE_TRIP_LIMIT_OFFSET 4  /* without sign */
#define GRIDPROFILE_TRIP_DELAY_OFFSET 8  /* milliseconds */

/* What a trip point's limit is measured in. */
#define GRIDPROFILE_KIND_SHARE 0  /* thousandths of the nominal voltage */
#define GRIDPROFILE_KIND_ABOVE 1  /* millihertz above the nominal frequency */
#define GRIDPROFILE_KIND_BELOW 2  /* millihertz below it */

/* The last trip point, the rate of change of frequency in millihertz per second, may be absent. In
 * the place of a kind it has one of these; where it is absent its limit and its delay mean nothing. */
#define GRIDPROFILE_RATE_ABSENT 0
#define GRIDPROFILE_RATE_PRESENT 1  /* and any other number */

/* Class tables: how many rows one may have, the shortest and the longest file of one, and its image,
 * in bytes. A table says which nominal volts make which class. An image of zeros is the table of the
 * built-in classes: A 100 to 139 volts, B 140 to 259, C 260 to 519, D 520 to 1000. */
#define GRIDPROFILE_TABLE_ROWS 26
#define GRIDPROFILE_TABLE_FILE_MIN_BYTES 10
#define GRIDPROFILE_TABLE_FILE_MAX_BYTES 262
#define GRIDPROFILE_TABLE_IMAGE_BYTES 316

/* Where the parts of a table's image begin: how many rows are used, then the rows. All numbers have
 * four bytes, low byte first. Where no row is used, the classes are the built-in ones. */
#define GRIDPROFILE_TABLE_USED_OFFSET 0
#define GRIDPROFILE_TABLE_ROWS_OFFSET 4

/* A row: its bytes, and where its three numbers begin in it. */
#define GRIDPROFILE_ROW_BYTES 12
#define GRIDPROFILE_ROW_CLASS_OFFSET 0  /* the letter's number, 65 to 90 */
#define GRIDPROFILE_ROW_LOW_OFFSET 4    /* volts, which belong to the class */
#define GRIDPROFILE_ROW_HIGH_OFFSET 8   /* and these too */

/* A preview: its longest input, and its listing, a header and GRIDPROFILE_STORE_SLOTS rows of at
 * most 19 bytes. */
#define GRIDPROFILE_PREVIEW_MAX_BYTES 65536
#define GRIDPROFILE_LISTING_BYTES 331

/* Packages and the image of a store, in bytes. */
#define GRIDPROFILE_PACKAGE_MIN_BYTES 19194
#define GRIDPROFILE_PACKAGE_MAX_BYTES 19236
#define GRIDPROFILE_STORE_IMAGE_BYTES 1532

/* Slots of a store, each the image of a profile, and where the image of its class table begins. */
#define GRIDPROFILE_STORE_SLOTS 16
#define GRIDPROFILE_STORE_TABLE_OFFSET 1216

/* Measured volts: the most that may be asked for, and how far from them nominal volts may be. */
#define GRIDPROFILE_NEAREST_VOLTS_MAX 2000
#define GRIDPROFILE_NEAREST_REACH 40

/* Blocks that numbers are drawn from, in bytes. */
#define GRIDPROFILE_MATRIX_BLOCK_BYTES 3500
#define GRIDPROFILE_EXPONENTS_BLOCK_BYTES 96
#define GRIDPROFILE_MASK_VALUES_BLOCK_BYTES 140
#define GRIDPROFILE_FIRST_CHALLENGES_BLOCK_BYTES 196
#define GRIDPROFILE_SECOND_CHALLENGE_BLOCK_BYTES 400

/* Bytes that `count` packed values (7 bits each) or exponents (3 bits each) take. */
#define GRIDPROFILE_PACKED_VALUES_BYTES(count) ((count) - (count) / 8)
#define GRIDPROFILE_PACKED_EXPONENTS_BYTES(count) ((count) / 8 * 3 + ((count) % 8 * 3 + 7) / 8)

/* SHAKE128 (FIPS 202) of the input, as many bytes as `out` has. Input and output may have any
 * length, 0 too. It never refuses.
 * Stack: 640 bytes. */
void gridprofile_shake128(const uint8_t *input, size_t input_len, uint8_t *out, size_t out_len);

/* SHAKE256, in the same way.
 * Stack: 640 bytes. */
void gridprofile_shake256(const uint8_t *input, size_t input_len, uint8_t *out, size_t out_len);

/* Packs any number of values, a byte each, 7 bits for each from the lowest bit of the first byte
 * upward. Refuses with 1 where packed_len is not GRIDPROFILE_PACKED_VALUES_BYTES(values_len), then
 * with 3 where a value is over 126.
 * Stack: 64 bytes. */
uint8_t gridprofile_pack_values(const uint8_t *values, size_t values_len, uint8_t *packed,
                                size_t packed_len);

/* Unpacks values_len values. Refuses with 1 where packed_len is not
 * GRIDPROFILE_PACKED_VALUES_BYTES(values_len), then with 3 where a field is 127 or a spare bit of
 * the last byte is 1.
 * Stack: 448 bytes. */
uint8_t gridprofile_unpack_values(const uint8_t *packed, size_t packed_len, uint8_t *values,
                                  size_t values_len);

/* Packs any number of exponents, a byte each, 3 bits for each. Refuses with 1 where packed_len is
 * not GRIDPROFILE_PACKED_EXPONENTS_BYTES(exponents_len), then with 3 where an exponent is over 6.
 * Stack: 64 bytes. */
uint8_t gridprofile_pack_exponents(const uint8_t *exponents, size_t exponents_len, uint8_t *packed,
                                   size_t packed_len);

/* Unpacks exponents_len exponents. Refuses with 1 where packed_len is not
 * GRIDPROFILE_PACKED_EXPONENTS_BYTES(exponents_len), then with 3 where a field is 7 or a spare bit
 * of the last byte is 1.
 * Stack: 640 bytes. */
uint8_t gridprofile_unpack_exponents(const uint8_t *packed, size_t packed_len, uint8_t *exponents,
                                     size_t exponents_len);

/* Draws the matrix V, GRIDPROFILE_MATRIX_VALUES values row by row, from a block of
 * GRIDPROFILE_MATRIX_BLOCK_BYTES: its 7-bit fields in order, 127 dropped. Refuses with 1 where
 * either length is another, then with 2 where the block yields too few.
 * Stack: 4160 bytes. */
uint8_t gridprofile_sample_matrix(const uint8_t *block, size_t block_len, uint8_t *out,
                                  size_t out_len);

/* Draws GRIDPROFILE_PLACES exponents from a block of GRIDPROFILE_EXPONENTS_BLOCK_BYTES: its 3-bit
 * fields in order, 7 dropped. Refuses as gridprofile_sample_matrix does.
 * Stack: 512 bytes. */
uint8_t gridprofile_sample_exponents(const uint8_t *block, size_t block_len, uint8_t *out,
                                     size_t out_len);

/* Draws GRIDPROFILE_PLACES mask values from a block of GRIDPROFILE_MASK_VALUES_BLOCK_BYTES: its
 * 7-bit fields in order, 127 dropped. Refuses as gridprofile_sample_matrix does.
 * Stack: 512 bytes. */
uint8_t gridprofile_sample_mask_values(const uint8_t *block, size_t block_len, uint8_t *out,
                                       size_t out_len);

/* Draws GRIDPROFILE_ROUNDS first challenges, 1 to 126, from a block of
 * GRIDPROFILE_FIRST_CHALLENGES_BLOCK_BYTES: its 7-bit fields in order, 126 and 127 dropped, each
 * kept one plus 1. Refuses as gridprofile_sample_matrix does.
 * Stack: 768 bytes. */
uint8_t gridprofile_sample_first_challenges(const uint8_t *block, size_t block_len, uint8_t *out,
                                            size_t out_len);

/* Draws the second challenge, 0 or 1 for each of GRIDPROFILE_ROUNDS rounds and GRIDPROFILE_ONES
 * ones among them, by a shuffle with the 16-bit fields of a block of
 * GRIDPROFILE_SECOND_CHALLENGE_BLOCK_BYTES. Byte j belongs to round j + 1. Refuses as
 * gridprofile_sample_matrix does.
 * Stack: 640 bytes. */
uint8_t gridprofile_sample_second_challenge(const uint8_t *block, size_t block_len, uint8_t *out,
                                            size_t out_len);

/* Makes the public key of a private seed of GRIDPROFILE_PRIVATE_SEED_BYTES into
 * GRIDPROFILE_KEY_BYTES: the public seed, then the packed syndrome. Refuses with 1 where either
 * length is another, then with 2 where one of the key's draws is short.
 * Stack: 9920 bytes. */
uint8_t gridprofile_make_key(const uint8_t *private_seed, size_t private_seed_len, uint8_t *key,
                             size_t key_len);

/* Signs a message of at most GRIDPROFILE_MESSAGE_MAX_BYTES, also an empty one, into
 * GRIDPROFILE_SIGNATURE_BYTES. The master seed (GRIDPROFILE_MASTER_SEED_BYTES) and the salt
 * (GRIDPROFILE_SALT_BYTES) must be drawn afresh for each signature, and the master seed kept
 * secret; the library draws neither. Refuses with 1 where a length is another, then with 2 where a
 * draw is short: of the key, of the rounds, of the first or of the second challenges.
 * Stack: 68032 bytes. */
uint8_t gridprofile_sign(const uint8_t *private_seed, size_t private_seed_len,
                         const uint8_t *master_seed, size_t master_seed_len, const uint8_t *salt,
                         size_t salt_len, const uint8_t *message, size_t message_len,
                         uint8_t *signature, size_t signature_len);

/* Checks a signature of a message under a public key: 0 means that it holds. Refuses with 1 where
 * key or signature have another length than theirs or the message is too long; with 3 where the key
 * has a bad field; with 2 where a draw of the matrix, of the first or of the second challenges is
 * short; then, from the first round on, with 3 where a round has a bad field and with 2 where a draw
 * from its seed is short; last with 4 where one of the two digests over all rounds differs.
 * Stack: 16192 bytes. */
uint8_t gridprofile_verify(const uint8_t *key, size_t key_len, const uint8_t *message,
                           size_t message_len, const uint8_t *signature, size_t signature_len);

/* Examines one round: 0 means that the reply opens the commitment which belongs to the second
 * challenge, and that its response has the digest given. The numbers may be anything. Salt, both
 * commitments and the digest of the response have 32 bytes; the reply has GRIDPROFILE_REPLY_0_BYTES
 * under second challenge 0 (response, then transformation) and GRIDPROFILE_REPLY_1_BYTES under 1
 * (the round's seed). Refuses with 1 where a length is another (under any other challenge the
 * reply's is not looked at); with 3 where the key has a bad field, round is not 1 to
 * GRIDPROFILE_ROUNDS, first_challenge not 1 to 126 or second_challenge not 0 or 1; with 2 where the
 * draw of the matrix is short; with 3 where the reply has a bad field or with 2 where a draw from
 * its seed is short; last with 4 where commitment or response differs.
 * Stack: 12352 bytes. */
uint8_t gridprofile_verify_round(const uint8_t *key, size_t key_len, const uint8_t *salt,
                                 size_t salt_len, uint32_t round, const uint8_t *commitment_0,
                                 size_t commitment_0_len, const uint8_t *commitment_1,
                                 size_t commitment_1_len, uint32_t first_challenge,
                                 const uint8_t *response, size_t response_len,
                                 uint32_t second_challenge, const uint8_t *reply, size_t reply_len);

/* Reads the file of a class table into its image, GRIDPROFILE_TABLE_IMAGE_BYTES, for the functions
 * on lines, which are lent the table that decides their classes. The file has 1 to
 * GRIDPROFILE_TABLE_ROWS rows, each a letter A to Z, low volts and high volts, with commas between
 * them and a line feed at the end of every row. Letters rise from row to row, volts are 100 to 1000
 * without leading zeros, low volts are at most the high ones and greater than the high ones of the
 * row before. Volts have a class exactly where a row holds them; volts in a gap have none. The rows
 * of the image that are not used are written as zeros. Refuses with 1 where table_len is another,
 * then with 13 where the file breaks a rule; an empty one does, and so do bytes after the last line
 * feed.
 * Stack: 512 bytes. */
uint8_t gridprofile_read_table(const uint8_t *file, size_t file_len, uint8_t *table,
                               size_t table_len);

/* Reads a profile line into the image of its profile, GRIDPROFILE_PROFILE_IMAGE_BYTES: a byte 1, the
 * country's two letters, the class letter, then numbers of four bytes each, low byte first: serial,
 * nominal volts, hertz, for each of over-voltage, under-voltage, over-frequency and under-frequency
 * its kind (GRIDPROFILE_KIND_SHARE, _ABOVE or _BELOW), its limit without sign, and its delay, and
 * for the rate of change of frequency GRIDPROFILE_RATE_PRESENT, its limit and its delay after a line
 * that begins with GP2, and three numbers 0 after one that begins with GP1; the offsets above say
 * where. The table is the image of a class table, zeros for the built-in classes; it is only read.
 * Refuses with 1 where either image has another length or the line has not
 * GRIDPROFILE_LINE_MIN_BYTES to GRIDPROFILE_LINE_MAX_BYTES, then with 5 where the line breaks a
 * rule; bytes after its line feed do, and so does a class that is not the one that its volts have
 * under the table.
 * Stack: 768 bytes. */
uint8_t gridprofile_read_line(const uint8_t *table, size_t table_len, const uint8_t *line,
                              size_t line_len, uint8_t *profile, size_t profile_len);

/* Writes the line of a profile's image at the front of GRIDPROFILE_LINE_MAX_BYTES lent bytes, and
 * its length to *length; bytes past it are not touched. The table is the image of a class table, as
 * for gridprofile_read_line. The line begins with GP2 exactly where the rate point is present, and
 * else with GP1. The image's first byte is not looked at, a kind over GRIDPROFILE_KIND_ABOVE is a
 * frequency below nominal, and of a rate point that is absent neither limit nor delay is looked at.
 * Refuses with 1 where one of the three lengths is another, then with 5 where the profile breaks a
 * rule; *length is then as it was.
 * Stack: 448 bytes. */
uint8_t gridprofile_write_line(const uint8_t *table, size_t table_len, const uint8_t *profile,
                               size_t profile_len, uint8_t *line, size_t line_len, size_t *length);

/* Evaluates a line whose trip limits are written as formulas: writes the profile line with every
 * limit as a plain number at the front of GRIDPROFILE_LINE_MAX_BYTES lent bytes, and its length to
 * *length; bytes past it are not touched. gridprofile_read_line takes what is written. The limits
 * are the fields 7, 9, 11 and 13, and 15 too in a line that begins with GP2; all other fields stand
 * as in a profile line. A line that is a profile line already is evaluated to itself. A formula is
 * made of numbers 0 to 1000000, N (the line's own nominal volts), + - * / and parentheses, without
 * spaces: at most 64 characters, and at most 8 pairs of parentheses around each other. * and / bind
 * before + and -, equals go from left to right, and / drops the remainder towards zero. A minus in
 * front stands only before a plain number. The table is the image of a class table, as for
 * gridprofile_read_line. Refuses, in this order, with 1 where table_len or line_len is another or
 * the input has more than GRIDPROFILE_FORMULA_LINE_MAX_BYTES (it has no least length); with 5 where
 * the first line feed of the input is not its last byte or, with the limits left aside, it is no
 * profile line under the table; then, limit after limit from the left, with 11 where one is no
 * formula, or with 12 where a divisor in it is 0 or the result of an operation is outside
 * -2000000000 to 2000000000; last with 5 where the number of a limit is outside its range. *length
 * is then as it was.
 * Stack: 4864 bytes. */
uint8_t gridprofile_evaluate_line(const uint8_t *table, size_t table_len, const uint8_t *input,
                                  size_t input_len, uint8_t *line, size_t line_len,
                                  size_t *length);

/* Lists what a device would hold after the lines of an input: the input is cut after each line feed,
 * each line is stored as if it were signed and the device set to that line's own country, class and
 * hertz, refused lines and an unfinished last one are skipped. The table is the image of a class
 * table, as for gridprofile_read_line. The listing, a header and then country, class, hertz and
 * serial of every stored profile once, stands at the front of GRIDPROFILE_LISTING_BYTES lent bytes,
 * and its length in *length; bytes past it are not touched. Its rows ascend by country (first
 * letter, then second), then by class, then by hertz, whatever the order of the lines. An input of
 * more than GRIDPROFILE_PREVIEW_MAX_BYTES gives only the text "too long" and a line feed. Refuses
 * with 1 where table_len or out_len is another; *length is then as it was.
 * Stack: 2304 bytes. */
uint8_t gridprofile_preview(const uint8_t *table, size_t table_len, const uint8_t *input,
                            size_t input_len, uint8_t *out, size_t out_len, size_t *length);

/* Signs a profile line and writes its package, the signature and then the line, at the front of
 * GRIDPROFILE_PACKAGE_MAX_BYTES lent bytes, and its length to *length; bytes past it are not
 * touched. Seeds and salt are as for gridprofile_sign. The table is the image of a class table, as
 * for gridprofile_read_line; it is no part of the package, and should be that of the stores which
 * the package is for. Refuses with 1 where one of these or the buffer has another length or the line
 * has no line's length; with 5 where the line breaks a rule; with 2 where a draw is short. *length
 * is then as it was.
 * Stack: 68352 bytes. */
uint8_t gridprofile_make_package(const uint8_t *table, size_t table_len,
                                 const uint8_t *private_seed, size_t private_seed_len,
                                 const uint8_t *master_seed, size_t master_seed_len,
                                 const uint8_t *salt, size_t salt_len, const uint8_t *line,
                                 size_t line_len, uint8_t *package, size_t package_len,
                                 size_t *length);

/* Loads a package into a store, on a device that is set to a country (two letters), a class (the
 * letter's number, one of the store's table: of the built-in ones 65 to 68) and the hertz of its
 * network (50 or 60). A store is an image of GRIDPROFILE_STORE_IMAGE_BYTES, GRIDPROFILE_STORE_SLOTS
 * images of profiles and the image of its class table, all zero when it is empty and has the
 * built-in classes; a slot whose first byte is 0 is free. A greater serial replaces the stored
 * profile of its country, class and hertz in its slot; where none is stored, the profile goes to a
 * free slot, and which one is open. No byte of another slot or of the table is written: profiles of
 * 50 and of 60 hertz of one country and class stand side by side, and their serials have nothing to
 * do with each other.
 *
 * Lend it a copy of the store in RAM, never the one that must outlast a loss of power: it writes
 * GRIDPROFILE_PROFILE_IMAGE_BYTES of the image, and a loss of power in between would leave a mix of
 * two profiles. After the answer 0 write the whole image to a place of its own, with something that
 * tells whether it is whole, and act by the new profile only then; examples/banks.c shows how on
 * flash.
 *
 * Refuses, in this order, with 10 where country or hertz are none or the class is none of the
 * store's table (a country of another length too; class and hertz may be any numbers; an image of
 * another length has the built-in classes); with 1 where image or key have another length or the
 * package has not GRIDPROFILE_PACKAGE_MIN_BYTES to GRIDPROFILE_PACKAGE_MAX_BYTES; with 3, 2 and 4 as
 * gridprofile_verify does; with 5 where the line breaks a rule under the store's table; with 6 where
 * the profile is for another country, class or hertz; with 7 where its serial is not greater than
 * the one stored for these three; with 8 where nothing is stored for them and
 * GRIDPROFILE_STORE_SLOTS others are.
 * Stack: 16576 bytes. */
uint8_t gridprofile_load(uint8_t *store, size_t store_len, const uint8_t *key, size_t key_len,
                         const uint8_t *package, size_t package_len, const uint8_t *country,
                         size_t country_len, uint32_t class_letter, uint32_t hertz);

/* Loads a class table into a store that holds no profile: reads the file as gridprofile_read_table
 * does, and writes its image at GRIDPROFILE_STORE_TABLE_OFFSET. No byte of a slot is written. While
 * nothing is stored, a table may be loaded again, and replaces the one before; once a profile is
 * stored, the table stays, so that no stored profile changes its class. Lend it a copy in RAM, as
 * for gridprofile_load. Refuses with 1 where the image has another length; with 13 where the file
 * breaks a rule; with 14 where the store holds a profile, whatever table it has.
 * Stack: 512 bytes. */
uint8_t gridprofile_load_table(uint8_t *store, size_t store_len, const uint8_t *file,
                               size_t file_len);

/* Writes the line of the profile that a store has for a country, class and hertz, and its length, as
 * gridprofile_write_line does under the store's table. Refuses with 10 as gridprofile_load does;
 * with 1 where image or buffer have another length; with 9 where nothing is stored for them; with 5
 * where what is stored breaks a rule, which is never so in an image of zeros or in what loads made
 * of one. *length is then as it was.
 * Stack: 448 bytes. */
uint8_t gridprofile_lookup(const uint8_t *store, size_t store_len, const uint8_t *country,
                           size_t country_len, uint32_t class_letter, uint32_t hertz,
                           uint8_t *line, size_t line_len, size_t *length);

/* Writes the line of the stored profile that is nearest to measured volts, and its length, as
 * gridprofile_write_line does: for a fitter who has a voltmeter and does not know the class. Of the
 * profiles that a store has for a country (two letters) and the hertz of its network (50 or 60),
 * whatever their class, it is the one whose nominal volts are nearest to the measured ones, at most
 * GRIDPROFILE_NEAREST_REACH away; of two that are equally far the one with the lower nominal volts.
 * It only suggests: nothing is loaded, and the store is only read. Refuses, in this order, with 10
 * where country or hertz are none (a country of another length too; hertz and volts may be any
 * numbers) or the volts are over GRIDPROFILE_NEAREST_VOLTS_MAX; with 1 where image or buffer have
 * another length; with 9 where no profile of this country and hertz is within reach; with 5 where the
 * nearest one breaks a rule, which is never so in an image of zeros or in what loads made of one.
 * *length is then as it was.
 * Stack: 448 bytes. */
uint8_t gridprofile_nearest(const uint8_t *store, size_t store_len, const uint8_t *country,
                            size_t country_len, uint32_t hertz, uint32_t volts, uint8_t *line,
                            size_t line_len, size_t *length);

#ifdef __cplusplus
}
#endif

#endif
