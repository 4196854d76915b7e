/* gridprofile preview [FILE] [--classes TABLE] */
#include "program.h"

#include <inttypes.h>
#include <string.h>

/* Skipped lines besides those that the library refuses by a number. */
enum { EMPTY = -1, UNFINISHED = -2 };

struct stored {
    uint8_t image[GRIDPROFILE_PROFILE_IMAGE_BYTES];
    size_t line; /* that it came from, counted from 1 */
};

/* One line as the listing took it: the library lists, but does not say what it skips. */
struct step {
    const uint8_t *bytes;
    size_t length;
    size_t number; /* counted from 1 */
    int skipped;   /* 0, a refusal, EMPTY or UNFINISHED */
    uint8_t image[GRIDPROFILE_PROFILE_IMAGE_BYTES];
    struct stored older; /* under refusal 7, what is stored for the triple */
};

struct followed {
    struct stored triples[GRIDPROFILE_STORE_SLOTS];
    size_t used, lines, skipped;
    struct step first; /* of those skipped */
};

static size_t find_triple(const struct followed *all, const uint8_t *image)
{
    size_t at = 0;
    while (at < all->used && !is_same_triple(all->triples[at].image, image))
        at++;
    return at;
}

/* Stores a line that was read, or answers why not. */
static int keep(struct followed *all, struct step *step)
{
    size_t at = find_triple(all, step->image);
    struct stored *slot = &all->triples[at];
    if (at == GRIDPROFILE_STORE_SLOTS)
        return GRIDPROFILE_STORE_FULL;
    if (at < all->used && serial_of(step->image) <= serial_of(slot->image)) {
        step->older = *slot;
        return GRIDPROFILE_OLD_SERIAL;
    }
    memcpy(slot->image, step->image, sizeof slot->image);
    slot->line = step->number;
    all->used += at == all->used ? 1 : 0;
    return 0;
}

static int take(struct followed *all, struct step *step)
{
    int answer;
    if (step->bytes[step->length - 1] != '\n')
        return UNFINISHED;
    if (step->length == 1)
        return EMPTY;
    answer = read_profile(step->bytes, step->length, step->image);
    return answer != 0 ? answer : keep(all, step);
}

static void follow(struct followed *all, const uint8_t *bytes, size_t length)
{
    for (size_t at = 0; at < length;) {
        const uint8_t *feed = memchr(bytes + at, '\n', length - at);
        struct step step = {.bytes = bytes + at, .number = ++all->lines};
        step.length = feed != NULL ? (size_t)(feed + 1 - step.bytes) : length - at;
        step.skipped = take(all, &step);
        if (step.skipped != 0 && all->skipped++ == 0)
            all->first = step;
        at += step.length;
    }
}

static void print_older(const struct step *step)
{
    uint32_t serial = serial_of(step->image);
    uint32_t stored = serial_of(step->older.image);
    fprintf(stderr,
            "  its serial, %" PRIu32 ", is not greater than %" PRIu32 ", which line %zu has for the"
            " same country, class and hertz, %.2s, %c and %" PRIu32 "\n",
            serial, stored, step->older.line, (const char *)step->image + GRIDPROFILE_COUNTRY_OFFSET,
            step->image[GRIDPROFILE_CLASS_OFFSET], hertz_of(step->image));
}

static void print_reason(const struct step *step)
{
    if (step->skipped == EMPTY)
        fputs("  it is empty\n", stderr);
    else if (step->skipped == UNFINISHED)
        fputs("  it is unfinished: the line feed at the end is missing\n", stderr);
    else if (step->skipped == GRIDPROFILE_OLD_SERIAL)
        print_older(step);
    else if (step->skipped == GRIDPROFILE_STORE_FULL)
        fprintf(stderr, "  %d other triples of country, class and hertz are stored already\n",
                GRIDPROFILE_STORE_SLOTS);
    if (step->skipped == GRIDPROFILE_BAD_SIZE)
        fprintf(stderr, "  it has %zu bytes with its line feed; it must have %d to %d\n",
                step->length, GRIDPROFILE_LINE_MIN_BYTES, GRIDPROFILE_LINE_MAX_BYTES);
    if (step->skipped == GRIDPROFILE_BAD_SIZE || step->skipped == GRIDPROFILE_BAD_PROFILE)
        explain_line(stderr, step->bytes, step->length);
}

/* Lines are skipped without a word in the listing, which other programs read. */
static void print_skipped(const uint8_t *bytes, size_t length)
{
    static struct followed all;
    if (length > GRIDPROFILE_PREVIEW_MAX_BYTES) {
        fprintf(stderr, "gridprofile preview: the input has more than %d bytes; nothing was read "
                        "from it\n", GRIDPROFILE_PREVIEW_MAX_BYTES);
        return;
    }
    follow(&all, bytes, length);
    if (all.skipped == 0)
        return;
    fprintf(stderr, "gridprofile preview: %zu of %zu lines skipped; the first is line %zu:\n",
            all.skipped, all.lines, all.first.number);
    print_reason(&all.first);
}

int run_preview(const struct request *request)
{
    static uint8_t lines[GRIDPROFILE_PREVIEW_MAX_BYTES + 1];
    static uint8_t listing[GRIDPROFILE_LISTING_BYTES];
    const char *path = request->arguments[0] != NULL ? request->arguments[0] : "-";
    struct input inputs[] = {
        {.role = "FILE", .path = path, .bytes = lines, .room = sizeof lines},
        table_input(request->classes),
    };
    size_t length = 0;
    int status = read_with_classes(request, inputs, 1), answer;
    if (status != 0)
        return status;
    answer = gridprofile_preview(classes, sizeof classes, lines, inputs[0].length, listing,
                                 sizeof listing, &length);
    if (answer != 0)
        return refused("preview", answer, NULL, 0, NULL, 0);
    (void)fwrite(listing, 1, length, stdout);
    print_skipped(lines, inputs[0].length);
    return 0;
}
