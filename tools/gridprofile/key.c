/* gridprofile new-key PRIVATE KEY
 * gridprofile key PRIVATE KEY */
#include "program.h"

#include <string.h>

static const struct category *category;
static uint8_t private_seed[MOST_PRIVATE_SEED_BYTES + 1], key[MOST_KEY_BYTES];
static size_t private_length;
static int answer;

static void make_key(void)
{
    answer = category->make_key(private_seed, private_length, key, category->key);
}

int run_key(const struct request *request)
{
    struct input inputs[] = {sized_input(request->category, PRIVATE_SIZE, request->arguments[0],
                                         private_seed, sizeof private_seed)};
    static struct output output;
    int status = prepare(&output, request, request->arguments[1], KEY, inputs, COUNT(inputs));
    if (status == 0)
        status = spare_lines(request, inputs, COUNT(inputs));
    category = request->category;
    private_length = inputs[0].length;
    if (status == 0)
        run_apart(make_key);
    wipe(private_seed, sizeof private_seed);
    if (status != 0)
        return status;
    if (answer != 0)
        return refused(request->command, answer, inputs, COUNT(inputs), NULL, 0);
    status = write_output(&output, key, category->key);
    if (status == 0)
        print_fingerprint(report_of(&output), category, key);
    return status;
}

static int draw_key(void)
{
    int status = 0;
    private_length = category->private_seed;
    answer = GRIDPROFILE_SHORT_DRAW;
    for (int left = TRIES; left > 0 && status == 0 && answer != 0; left--) {
        status = draw(private_seed, private_length);
        if (status == 0)
            run_apart(make_key);
    }
    return status;
}

static struct output private, public;

/* Both places, before anything is drawn. */
static int find_places(const struct request *request)
{
    int status;
    if (is_stream(request->arguments[0]))
        return wrong_usage(request->command, "a private seed is written to a file alone", "");
    status = find_output(&private, request, request->arguments[0], SEED);
    if (status == 0)
        status = find_output(&public, request, request->arguments[1], KEY);
    if (status == 0 && !is_stream(public.path) && strcmp(private.target, public.target) == 0)
        return wrong_usage(request->command, "PRIVATE and KEY are the same file", "");
    return status;
}

/* A stream can take long, and a seed that is there is never removed: it may be in use by then. */
static int write_seed_then_stream(void)
{
    int status = write_output(&private, private_seed, category->private_seed);
    wipe(private_seed, sizeof private_seed);
    if (status != 0)
        return status;
    status = write_output(&public, key, category->key);
    if (status != 0)
        warn(private.path, "the private seed is written; `gridprofile key` makes its key");
    return status;
}

static void report_pair(FILE *to)
{
    fputs("PRIVATE is the private seed: keep it, and let nobody read it. KEY is for everybody.\n", to);
    print_fingerprint(to, category, key);
}

int run_new_key(const struct request *request)
{
    int status = find_places(request);
    category = request->category;
    if (status == 0)
        status = draw_key();
    if (status == 0 && answer != 0)
        status = refused(request->command, answer, NULL, 0, NULL, 0);
    if (status == 0)
        status = is_stream(public.path)
                     ? write_seed_then_stream()
                     : write_both(&private, private_seed, category->private_seed, &public, key,
                                  category->key);
    wipe(private_seed, sizeof private_seed);
    if (status == 0)
        report_pair(report_of(&public));
    return status;
}
