/* The categories: for each its sizes and its functions of the library. Everything else takes them from
 * here, so that a command is written once for all of them. */
#include "program.h"

#define CATEGORY(number, NAMES, names, hash)                                                   \
    {number, NAMES##PRIVATE_SEED_BYTES, NAMES##MASTER_SEED_BYTES, NAMES##SALT_BYTES,           \
     NAMES##KEY_BYTES, NAMES##SIGNATURE_BYTES, NAMES##PACKAGE_MIN_BYTES,                       \
     NAMES##PACKAGE_MAX_BYTES, hash, names##make_key, names##make_package, names##verify,      \
     names##load}

const struct category categories[CATEGORIES] = {
    CATEGORY(1, GRIDPROFILE_, gridprofile_, gridprofile_shake128),
    CATEGORY(3, GRIDPROFILE_CATEGORY3_, gridprofile_category3_, gridprofile_shake256),
    CATEGORY(5, GRIDPROFILE_CATEGORY5_, gridprofile_category5_, gridprofile_shake256),
};

/* One digit and nothing else. */
const struct category *category_named(const char *text)
{
    for (size_t at = 0; at < CATEGORIES; at++)
        if (text[0] == (char)('0' + categories[at].number) && text[1] == '\0')
            return &categories[at];
    return NULL;
}

struct span span_of(const struct category *category, enum sized sized)
{
    const struct span spans[] = {
        [PRIVATE_SIZE] = {category->private_seed, category->private_seed},
        [MASTER_SIZE] = {category->master_seed, category->master_seed},
        [SALT_SIZE] = {category->salt, category->salt},
        [KEY_SIZE] = {category->key, category->key},
        [PACKAGE_SIZE] = {category->least_package, category->most_package},
    };
    return spans[sized];
}

const struct category *category_of(enum sized sized, size_t size)
{
    for (size_t at = 0; at < CATEGORIES; at++) {
        struct span span = span_of(&categories[at], sized);
        if (size >= span.least && size <= span.most)
            return &categories[at];
    }
    return NULL;
}
