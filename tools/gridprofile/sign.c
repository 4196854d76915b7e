/* gridprofile sign PRIVATE LINE PACKAGE [--category 1|3|5] [--classes TABLE] [--key KEY]
 *     [--given-master-seed MASTER --given-salt SALT] */
#include "program.h"

#include <string.h>

/* More than a line has, so that what is wrong with a longer one can be told. */
enum { LINE_ROOM = 1024 };

static const struct category *category;
static uint8_t private_seed[MOST_PRIVATE_SEED_BYTES + 1];
static uint8_t master_seed[MOST_MASTER_SEED_BYTES + 1];
static uint8_t salt[MOST_SALT_BYTES + 1];
static uint8_t line[LINE_ROOM];
static uint8_t given_key[MOST_KEY_BYTES + 1];
static uint8_t key[MOST_KEY_BYTES], package[MOST_PACKAGE_BYTES];
static size_t package_length;

/* In this order: the class table and the key where they are given, and the last two where seeds are. So
 * those that are given stand side by side. */
enum { TABLE, PRIVATE, LINE_FILE, KEY_FILE, MASTER, SALT, INPUTS };
static struct input inputs[INPUTS], *given;
static size_t given_count;

static int answer, own_answer;
static const char *reused;

static void list_inputs(const struct request *request)
{
    struct input line_file = {.role = "LINE", .path = request->arguments[1], .bytes = line};
    line_file.room = sizeof line;
    line_file.least = GRIDPROFILE_LINE_MIN_BYTES;
    line_file.most = GRIDPROFILE_LINE_MAX_BYTES;
    inputs[TABLE] = table_input(request->classes);
    inputs[PRIVATE] = sized_input(category, PRIVATE_SIZE, request->arguments[0], private_seed,
                                  sizeof private_seed);
    inputs[LINE_FILE] = line_file;
    inputs[KEY_FILE] = sized_input(category, KEY_SIZE, request->key, given_key, sizeof given_key);
    inputs[MASTER] = sized_input(category, MASTER_SIZE, request->given_master, master_seed,
                                 sizeof master_seed);
    inputs[SALT] = sized_input(category, SALT_SIZE, request->given_salt, salt, sizeof salt);
    given = inputs + (request->classes != NULL ? TABLE : PRIVATE);
    given_count = request->given_master != NULL ? INPUTS : request->key != NULL ? MASTER : KEY_FILE;
    given_count -= (size_t)(given - inputs);
}

static void sign(void)
{
    answer = category->make_package(classes, sizeof classes, private_seed, inputs[PRIVATE].length,
                                    master_seed, inputs[MASTER].length, salt, inputs[SALT].length,
                                    line, inputs[LINE_FILE].length, package,
                                    category->most_package, &package_length);
}

static int sign_drawn(void)
{
    int status = 0;
    inputs[MASTER].length = category->master_seed;
    inputs[SALT].length = category->salt;
    answer = GRIDPROFILE_SHORT_DRAW;
    for (int left = TRIES; left > 0 && status == 0 && answer == GRIDPROFILE_SHORT_DRAW; left--) {
        status = draw(master_seed, category->master_seed);
        if (status == 0)
            status = draw(salt, category->salt);
        if (status == 0)
            run_apart(sign);
    }
    return status;
}

/* The salt opens the signature, so that a seed which is also the salt would be given away. */
static const char *reused_seed(void)
{
    size_t private_length = category->private_seed, master_length = category->master_seed;
    if (share_bytes(private_seed, private_length, salt, category->salt))
        return "PRIVATE and SALT share bytes, and the salt is public";
    if (share_bytes(master_seed, master_length, salt, category->salt))
        return "MASTER and SALT share bytes, and the salt is public";
    if (share_bytes(master_seed, master_length, private_seed, private_length))
        return "PRIVATE and MASTER share bytes; each seed is drawn for itself";
    if (share_bytes(private_seed, private_length, package, package_length) ||
        share_bytes(master_seed, master_length, package, package_length))
        return "the bytes of a seed would stand in the package";
    return NULL;
}

/* What was made is verified before it is written: a fault of the machine while signing could give
 * the private seed away. The search for seeds leaves traces of them on the stack as well. */
static void check_own(void)
{
    reused = reused_seed();
    own_answer = category->make_key(private_seed, inputs[PRIVATE].length, key, category->key);
    if (own_answer == 0)
        own_answer = verify_package(category, key, category->key, package, package_length);
}

/* Says what is wrong with the line too, where that was refused. */
static int refuse(const struct request *request)
{
    const struct input *read = &inputs[LINE_FILE];
    int is_line = answer == GRIDPROFILE_BAD_PROFILE || !is_size_taken(read);
    return refused(request->command, answer, given, given_count, is_line ? line : NULL,
                   read->length);
}

static int refuse_own(void)
{
    fprintf(stderr,
            "gridprofile sign: the package that was made does not verify (%d); it is not written\n"
            "  What to do: this computer is not to be trusted: sign on another one.\n",
            own_answer);
    return SELF_CHECK_FAILED;
}

/* Everything that keeps the package from being written. */
static int judge(const struct request *request)
{
    if (answer != 0)
        return refuse(request);
    if (request->key != NULL && memcmp(key, given_key, category->key) != 0)
        return misused(request->command, "KEY is not the public key of PRIVATE",
                       "see whether files are exchanged; `gridprofile key` makes the key of a seed");
    if (reused != NULL)
        return misused(request->command, reused, "see whether files are exchanged; draw new seeds");
    return own_answer != 0 ? refuse_own() : 0;
}

static int check_given(const struct request *request)
{
    if (request->given_master == NULL && request->given_salt == NULL)
        return 0;
    if (request->given_master == NULL || request->given_salt == NULL || request->key == NULL)
        return wrong_usage(request->command, "given seeds come with one another and the key, missing: ",
                           request->given_master == NULL ? "--given-master-seed"
                           : request->given_salt == NULL ? "--given-salt"
                                                         : "--key");
    return 0;
}

/* A salt is published, so that a file which is closed as seeds are is not taken for one: it may be
 * the seed of another key. */
static int spare_closed_salt(const struct request *request)
{
    if (request->given_salt == NULL || !inputs[SALT].closed)
        return 0;
    return misused(request->command, "SALT is a file for its owner alone, as a seed is, and a salt "
                   "is published", "where it is a salt and no seed, chmod 644 it");
}

static int sign_and_check(const struct request *request)
{
    int status = 0;
    answer = GRIDPROFILE_BAD_SIZE;
    if (request->key != NULL && !is_size_taken(&inputs[KEY_FILE]))
        return 0;
    if (request->given_master != NULL)
        run_apart(sign);
    else
        status = sign_drawn();
    if (status == 0 && answer == 0)
        run_apart(check_own);
    return status;
}

static int report(struct output *output)
{
    uint8_t profile[GRIDPROFILE_PROFILE_IMAGE_BYTES];
    int status = write_output(output, package, package_length);
    if (status != 0)
        return status;
    (void)read_profile(line, inputs[LINE_FILE].length, profile);
    if (serial_of(profile) == UINT32_MAX)
        warn(input_name(&inputs[LINE_FILE]), unreplaceable);
    fputs("Signed and verified: ", report_of(output));
    print_device(report_of(output), profile);
    print_fingerprint(report_of(output), category, key);
    return 0;
}

int run_sign(const struct request *request)
{
    static struct output output;
    int status = check_given(request);
    if (status != 0)
        return status;
    category = request->category;
    list_inputs(request);
    status = prepare(&output, request, request->arguments[2], PACKAGE, given, given_count);
    if (status == 0)
        status = spare_lines(request, given, given_count);
    if (status == 0)
        status = spare_closed_salt(request);
    if (status == 0)
        status = take_classes(request, &inputs[TABLE]);
    if (status == 0)
        status = sign_and_check(request);
    wipe(private_seed, sizeof private_seed);
    wipe(master_seed, sizeof master_seed);
    if (status == 0)
        status = judge(request);
    return status != 0 ? status : report(&output);
}
