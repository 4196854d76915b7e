/* What a file looks like by its size. Where that is the size of several kinds, all of them are named,
 * and what may be a seed or a key counts as one. */
#include "program.h"

struct kind_by_category {
    enum sized sized;
    enum kind kind;
    const char *name;
};

/* A salt has the size of a private seed at every category. */
static const struct kind_by_category by_category[] = {
    {PRIVATE_SIZE, SEED, "a private seed or a salt"},
    {MASTER_SIZE, SEED, "a master seed"},
    {KEY_SIZE, KEY, "a public key"},
    {PACKAGE_SIZE, PACKAGE, "a package"},
};

/* Stores of former layouts: their profiles had no place for a rate point, or they had none for a class
 * table. Nothing reads them any more; they are told from damaged ones. */
enum { IMAGE_WITHOUT_RATES = 1024, IMAGE_WITHOUT_CLASSES = 1216 };
#define FORMER_STORES(image, name)                                                                  \
    {{image, image}, FORMER_STORE, "a store of the layout before " name ", without a checksum"},    \
    {{image + CHECKSUM_BYTES, image + CHECKSUM_BYTES}, FORMER_STORE,                                \
     "a store of the layout before " name}

struct kind_by_size {
    struct span span;
    enum kind kind;
    const char *name;
};

static const struct kind_by_size at_any_category[] = {
    {{GRIDPROFILE_LINE_MIN_BYTES, GRIDPROFILE_LINE_MAX_BYTES}, LINE, "a profile line"},
    {{GRIDPROFILE_STORE_IMAGE_BYTES, GRIDPROFILE_STORE_IMAGE_BYTES}, STORE,
     "a store without a checksum"},
    {{STORE_FILE_BYTES, STORE_FILE_BYTES}, STORE, "a store"},
    FORMER_STORES(IMAGE_WITHOUT_RATES, "rate points"),
    FORMER_STORES(IMAGE_WITHOUT_CLASSES, "class tables"),
};

static const struct kind_by_size *find_at_any(size_t size)
{
    for (size_t at = 0; at < COUNT(at_any_category); at++)
        if (size >= at_any_category[at].span.least && size <= at_any_category[at].span.most)
            return &at_any_category[at];
    return NULL;
}

enum kind kind_of(size_t size)
{
    const struct kind_by_size *found = find_at_any(size);
    for (size_t at = 0; at < COUNT(by_category); at++)
        if (category_of(by_category[at].sized, size) != NULL)
            return by_category[at].kind;
    return found == NULL ? NO_KIND : found->kind;
}

/* The names of kinds whose sizes the category decides; answers how many characters they have. */
static size_t name_by_category(char *name, size_t room, size_t size)
{
    size_t used = 0;
    for (size_t at = 0; at < COUNT(by_category); at++) {
        const struct category *category = category_of(by_category[at].sized, size);
        if (category != NULL)
            used += (size_t)snprintf(name + used, room - used, "%s%s of category %u",
                                     used > 0 ? ", or " : "", by_category[at].name,
                                     category->number);
    }
    return used;
}

const char *kind_name(size_t size)
{
    static char name[160];
    size_t used = name_by_category(name, sizeof name, size);
    const struct kind_by_size *found = find_at_any(size);
    if (found != NULL)
        (void)snprintf(name + used, sizeof name - used, "%s%s", used > 0 ? ", or " : "",
                       found->name);
    return used > 0 || found != NULL ? name : NULL;
}

int has_line_size(size_t size)
{
    const struct kind_by_size *found = find_at_any(size);
    return found != NULL && found->kind == LINE;
}

const char *rival_of_line(size_t size)
{
    static char name[160];
    return has_line_size(size) && name_by_category(name, sizeof name, size) > 0 ? name : NULL;
}

int is_line_input(const struct input *input)
{
    return input->begins_as_line && has_line_size(input->size);
}

const char *input_kind(const struct input *input)
{
    return is_line_input(input) ? find_at_any(input->size)->name : kind_name(input->size);
}
