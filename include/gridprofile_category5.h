/* Signed grid profiles at category 5: the sizes and functions that differ from category 1.
 *
 * A device is built for one category. What the category does not decide (answers, lines, class
 * tables, images, gridprofile_lookup, gridprofile_nearest, gridprofile_preview) stands in
 * gridprofile.h, and what is said there of slices, refusals and stack holds here too. Every function
 * answers and refuses as the one of category 1 does whose name it has, in the sizes below; its hash
 * is SHAKE256. */
#ifndef GRIDPROFILE_CATEGORY5_H
#define GRIDPROFILE_CATEGORY5_H

#include "gridprofile.h"

#ifdef __cplusplus
extern "C" {
#endif

/* Numbers of category 5. */
#define GRIDPROFILE_CATEGORY5_PLACES 251           /* places of a vector */
#define GRIDPROFILE_CATEGORY5_MATRIX_VALUES 15150  /* values of V, 101 rows of 150 */
#define GRIDPROFILE_CATEGORY5_ROUNDS 327           /* rounds of a signature */
#define GRIDPROFILE_CATEGORY5_ONES 169             /* rounds whose second challenge is 1 */

/* Seeds, keys and signatures, in bytes. */
#define GRIDPROFILE_CATEGORY5_PRIVATE_SEED_BYTES 64
#define GRIDPROFILE_CATEGORY5_MASTER_SEED_BYTES 32
#define GRIDPROFILE_CATEGORY5_SALT_BYTES 64
#define GRIDPROFILE_CATEGORY5_DIGEST_BYTES 64
#define GRIDPROFILE_CATEGORY5_KEY_BYTES 153
#define GRIDPROFILE_CATEGORY5_SIGNATURE_BYTES 76298
#define GRIDPROFILE_CATEGORY5_REPLY_0_BYTES 315  /* a round's reply to second challenge 0 */
#define GRIDPROFILE_CATEGORY5_REPLY_1_BYTES 32   /* and to 1 */

/* Packages, in bytes. */
#define GRIDPROFILE_CATEGORY5_PACKAGE_MIN_BYTES 76340
#define GRIDPROFILE_CATEGORY5_PACKAGE_MAX_BYTES 76382

/* Blocks that numbers are drawn from, in bytes. */
#define GRIDPROFILE_CATEGORY5_MATRIX_BLOCK_BYTES 13664
#define GRIDPROFILE_CATEGORY5_EXPONENTS_BLOCK_BYTES 192
#define GRIDPROFILE_CATEGORY5_MASK_VALUES_BLOCK_BYTES 280
#define GRIDPROFILE_CATEGORY5_FIRST_CHALLENGES_BLOCK_BYTES 350
#define GRIDPROFILE_CATEGORY5_SECOND_CHALLENGE_BLOCK_BYTES 800

/* Draws the matrix V, GRIDPROFILE_CATEGORY5_MATRIX_VALUES values row by row, from a block of
 * GRIDPROFILE_CATEGORY5_MATRIX_BLOCK_BYTES: its 7-bit fields in order, 127 dropped. Refuses with 1
 * where either length is another, then with 2 where the block yields too few.
 * Stack: 15424 bytes. */
uint8_t gridprofile_category5_sample_matrix(const uint8_t *block, size_t block_len, uint8_t *out,
                                            size_t out_len);

/* Draws GRIDPROFILE_CATEGORY5_PLACES exponents from a block of
 * GRIDPROFILE_CATEGORY5_EXPONENTS_BLOCK_BYTES: its 3-bit fields in order, 7 dropped. Refuses with
 * 1, then 2.
 * Stack: 512 bytes. */
uint8_t gridprofile_category5_sample_exponents(const uint8_t *block, size_t block_len, uint8_t *out,
                                               size_t out_len);

/* Draws GRIDPROFILE_CATEGORY5_PLACES mask values from a block of
 * GRIDPROFILE_CATEGORY5_MASK_VALUES_BLOCK_BYTES: its 7-bit fields in order, 127 dropped. Refuses
 * with 1, then 2.
 * Stack: 512 bytes. */
uint8_t gridprofile_category5_sample_mask_values(const uint8_t *block, size_t block_len,
                                                 uint8_t *out, size_t out_len);

/* Draws GRIDPROFILE_CATEGORY5_ROUNDS first challenges, 1 to 126, from a block of
 * GRIDPROFILE_CATEGORY5_FIRST_CHALLENGES_BLOCK_BYTES: its 7-bit fields in order, 126 and 127
 * dropped, each kept one plus 1. Refuses with 1, then 2.
 * Stack: 768 bytes. */
uint8_t gridprofile_category5_sample_first_challenges(const uint8_t *block, size_t block_len,
                                                      uint8_t *out, size_t out_len);

/* Draws the second challenge, 0 or 1 for each of GRIDPROFILE_CATEGORY5_ROUNDS rounds and
 * GRIDPROFILE_CATEGORY5_ONES ones among them, from a block of
 * GRIDPROFILE_CATEGORY5_SECOND_CHALLENGE_BLOCK_BYTES. Refuses with 1, then 2.
 * Stack: 576 bytes. */
uint8_t gridprofile_category5_sample_second_challenge(const uint8_t *block, size_t block_len,
                                                      uint8_t *out, size_t out_len);

/* Makes the public key of a private seed of GRIDPROFILE_CATEGORY5_PRIVATE_SEED_BYTES into
 * GRIDPROFILE_CATEGORY5_KEY_BYTES. Refuses with 1, then 2.
 * Stack: 31360 bytes. */
uint8_t gridprofile_category5_make_key(const uint8_t *private_seed, size_t private_seed_len,
                                       uint8_t *key, size_t key_len);

/* Signs a message of at most GRIDPROFILE_MESSAGE_MAX_BYTES, also an empty one, into
 * GRIDPROFILE_CATEGORY5_SIGNATURE_BYTES. The master seed (GRIDPROFILE_CATEGORY5_MASTER_SEED_BYTES)
 * and the salt (GRIDPROFILE_CATEGORY5_SALT_BYTES) must be drawn afresh for each signature, and the
 * master seed kept secret; the library draws neither. Refuses with 1, then 2.
 * Stack: 251520 bytes. */
uint8_t gridprofile_category5_sign(const uint8_t *private_seed, size_t private_seed_len,
                                   const uint8_t *master_seed, size_t master_seed_len,
                                   const uint8_t *salt, size_t salt_len, const uint8_t *message,
                                   size_t message_len, uint8_t *signature, size_t signature_len);

/* Checks a signature (GRIDPROFILE_CATEGORY5_SIGNATURE_BYTES) of a message under a public key
 * (GRIDPROFILE_CATEGORY5_KEY_BYTES): 0 means that it holds. Refuses with 1, 3, 2 and 4 as
 * gridprofile_verify does; a key or a signature of another category has another length, and so is
 * 1.
 * Stack: 37632 bytes. */
uint8_t gridprofile_category5_verify(const uint8_t *key, size_t key_len, const uint8_t *message,
                                     size_t message_len, const uint8_t *signature,
                                     size_t signature_len);

/* Examines one round, as gridprofile_verify_round does: salt, both commitments and the digest of
 * the response have GRIDPROFILE_CATEGORY5_DIGEST_BYTES, the reply
 * GRIDPROFILE_CATEGORY5_REPLY_0_BYTES under second challenge 0 and
 * GRIDPROFILE_CATEGORY5_REPLY_1_BYTES under 1, and round is 1 to GRIDPROFILE_CATEGORY5_ROUNDS.
 * Refuses with 1, 3, 2, the reply's 3 or 2, and 4.
 * Stack: 33792 bytes. */
uint8_t gridprofile_category5_verify_round(const uint8_t *key, size_t key_len, const uint8_t *salt,
                                           size_t salt_len, uint32_t round,
                                           const uint8_t *commitment_0, size_t commitment_0_len,
                                           const uint8_t *commitment_1, size_t commitment_1_len,
                                           uint32_t first_challenge, const uint8_t *response,
                                           size_t response_len, uint32_t second_challenge,
                                           const uint8_t *reply, size_t reply_len);

/* Signs a profile line and writes its package, the signature and then the line, at the front of
 * GRIDPROFILE_CATEGORY5_PACKAGE_MAX_BYTES lent bytes, and its length to *length; bytes past it are
 * not touched. Seeds and salt are as for gridprofile_category5_sign, the table (the image of a class
 * table, GRIDPROFILE_TABLE_IMAGE_BYTES) is as for gridprofile_make_package. Refuses with 1, 5 and 2;
 * *length is then as it was.
 * Stack: 251776 bytes. */
uint8_t gridprofile_category5_make_package(const uint8_t *table, size_t table_len,
                                           const uint8_t *private_seed, size_t private_seed_len,
                                           const uint8_t *master_seed, size_t master_seed_len,
                                           const uint8_t *salt, size_t salt_len,
                                           const uint8_t *line, size_t line_len, uint8_t *package,
                                           size_t package_len, size_t *length);

/* Loads a package of GRIDPROFILE_CATEGORY5_PACKAGE_MIN_BYTES to
 * GRIDPROFILE_CATEGORY5_PACKAGE_MAX_BYTES into a store, as gridprofile_load does, which says what a
 * device is set to, what a store is and how it outlasts a loss of power. Refuses with 10, 1, 3, 2, 4,
 * 5, 6, 7 and 8 in that function's order.
 * Stack: 38016 bytes. */
uint8_t gridprofile_category5_load(uint8_t *store, size_t store_len, const uint8_t *key,
                                   size_t key_len, const uint8_t *package, size_t package_len,
                                   const uint8_t *country, size_t country_len,
                                   uint32_t class_letter, uint32_t hertz);

#ifdef __cplusplus
}
#endif

#endif
