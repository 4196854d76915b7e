/* The name of a public key, for people: the category's hash of its bytes, in hexadecimal, in groups
 * that can be read aloud. It has as many bytes as a master seed, so that a second key with the same name
 * is no easier to find than the category promises. `openssl dgst -shake128 -xoflen 16 KEY` gives the same
 * digits at category 1, `-shake256` with 24 at category 3 and with 32 at category 5. */
#include "program.h"

enum { GROUP_BYTES = 2 };

void print_fingerprint(FILE *to, const struct category *category, const uint8_t *key)
{
    uint8_t digest[MOST_MASTER_SEED_BYTES];
    category->hash(key, category->key, digest, category->master_seed);
    fputs("key fingerprint:", to);
    for (size_t at = 0; at < category->master_seed; at++)
        fprintf(to, "%s%02x", at % GROUP_BYTES == 0 ? " " : "", digest[at]);
    fputc('\n', to);
}
