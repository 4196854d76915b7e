/* gridprofile nearest STORE COUNTRY HERTZ VOLTS */
#include "program.h"

#include <inttypes.h>
#include <string.h>

/* What a fitter knows. */
struct measured {
    const char *country;
    uint32_t hertz, volts;
};

/* COUNTRY, HERTZ and VOLTS. What is not written as numbers are is given as one that does not exist, so
 * that the library refuses it: 0 of hertz, and of volts, which may be 0, the greatest. */
static struct measured read_measured(char *const *words)
{
    return (struct measured){words[0], decimal_of(words[1], 0), decimal_of(words[2], UINT32_MAX)};
}

static int find_nearest(const struct measured *measured, const struct input *store, uint8_t *line,
                        size_t *length)
{
    return gridprofile_nearest(store->bytes, store->length, (const uint8_t *)measured->country,
                               strlen(measured->country), measured->hertz, measured->volts, line,
                               GRIDPROFILE_LINE_MAX_BYTES, length);
}

/* Where the nominal volts of the found line lie. */
static void print_distance(const uint8_t *line, size_t length, uint32_t measured)
{
    uint8_t image[GRIDPROFILE_PROFILE_IMAGE_BYTES];
    uint32_t nominal;
    (void)read_profile(line, length, image);
    nominal = volts_of(image);
    printf("Class %c, %" PRIu32 " V nominal: ", image[GRIDPROFILE_CLASS_OFFSET], nominal);
    if (nominal == measured)
        puts("the measured voltage.");
    else
        printf("%" PRIu32 " V %s the measured %" PRIu32 " V.\n",
               nominal < measured ? measured - nominal : nominal - measured,
               nominal < measured ? "below" : "above", measured);
}

static int refuse_distance(const char *command, const struct measured *measured)
{
    char meaning[96];
    (void)snprintf(meaning, sizeof meaning,
                   "no stored profile of %.2s and %" PRIu32 " Hz is within %d V of the measured %" PRIu32
                   " V", measured->country, measured->hertz, GRIDPROFILE_NEAREST_REACH,
                   measured->volts);
    return refused_because(command, GRIDPROFILE_NOT_STORED, meaning,
                           "`gridprofile show STORE` lists what is stored, which may be for other hertz "
                           "or further away");
}

static int is_country(const char *text)
{
    return strlen(text) == 2 && strspn(text, "ABCDEFGHIJKLMNOPQRSTUVWXYZ") == 2;
}

/* That something does not exist is what the library decided; this only says what. */
static int refuse_measured(const char *command, const struct measured *measured)
{
    const struct {
        int is_broken;
        const char *meaning;
    } rules[] = {
        {!is_country(measured->country), "the country is not two letters A to Z"},
        {measured->hertz != 50 && measured->hertz != 60, "the hertz are not 50 or 60"},
        {measured->volts > GRIDPROFILE_NEAREST_VOLTS_MAX, "the volts are not a whole number 0 to 2000"},
    };
    char meaning[160] = "there are no such country, hertz or volts";
    size_t used = 0;
    for (size_t at = 0; at < COUNT(rules); at++)
        if (rules[at].is_broken)
            used += (size_t)snprintf(meaning + used, sizeof meaning - used, "%s%s",
                                     used > 0 ? ", and " : "", rules[at].meaning);
    return refused_because(command, GRIDPROFILE_BAD_DEVICE, meaning,
                           "write COUNTRY as two letters A to Z, HERTZ as 50 or 60 and VOLTS as a whole "
                           "number 0 to 2000, as in: XA 50 230");
}

int run_nearest(const struct request *request)
{
    static uint8_t bytes[STORE_FILE_BYTES + 1];
    struct input store = store_input(request->arguments[0], bytes);
    struct measured measured = read_measured(request->arguments + 1);
    uint8_t line[GRIDPROFILE_LINE_MAX_BYTES];
    size_t length = 0;
    int status = read_store(&store), answer;
    if (status != 0)
        return status;
    answer = find_nearest(&measured, &store, line, &length);
    status = blame_store(request->command, answer, &store);
    if (status != 0)
        return status;
    if (answer == GRIDPROFILE_NOT_STORED)
        return refuse_distance(request->command, &measured);
    if (answer == GRIDPROFILE_BAD_DEVICE)
        return refuse_measured(request->command, &measured);
    if (answer != 0)
        return refused(request->command, answer, &store, 1, NULL, 0);
    (void)fwrite(line, 1, length, stdout);
    print_distance(line, length, measured.volts);
    return 0;
}
