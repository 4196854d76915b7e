/* gridprofile verify KEY PACKAGE [--classes TABLE] */
#include "program.h"

int verify_package(const struct category *category, const uint8_t *key, size_t key_length,
                   const uint8_t *package, size_t length)
{
    const uint8_t *line = package + category->signature;
    uint8_t profile[GRIDPROFILE_PROFILE_IMAGE_BYTES];
    int answer;
    if (length < category->least_package || length > category->most_package)
        return GRIDPROFILE_BAD_SIZE;
    length -= category->signature;
    answer = category->verify(key, key_length, line, length, package, category->signature);
    return answer != 0 ? answer : read_profile(line, length, profile);
}

/* The line of a verified package. */
static void print_line_of(const struct input *package)
{
    size_t signature = package->category->signature;
    uint8_t profile[GRIDPROFILE_PROFILE_IMAGE_BYTES];
    (void)read_profile(package->bytes + signature, package->length - signature, profile);
    print_device(stdout, profile);
}

int run_verify(const struct request *request)
{
    static uint8_t key[MOST_KEY_BYTES + 1], package[MOST_PACKAGE_BYTES + 1];
    const struct category *category = request->category;
    struct input inputs[] = {
        sized_input(category, KEY_SIZE, request->arguments[0], key, sizeof key),
        sized_input(category, PACKAGE_SIZE, request->arguments[1], package, sizeof package),
        table_input(request->classes),
    };
    size_t count = request->classes != NULL ? 3 : 2;
    int status = read_with_classes(request, inputs, 2), answer;
    if (status != 0)
        return status;
    answer = verify_package(category, key, inputs[0].length, package, inputs[1].length);
    if (answer != 0)
        return refused_package(request->command, answer, inputs, count, &inputs[1]);
    fputs("The signature holds, and the line is a profile: ", stdout);
    print_line_of(&inputs[1]);
    print_fingerprint(stdout, category, key);
    return 0;
}
