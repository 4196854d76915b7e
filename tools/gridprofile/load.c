/* gridprofile new-store STORE
 * gridprofile load STORE KEY PACKAGE COUNTRY CLASS HERTZ
 * gridprofile lookup STORE COUNTRY CLASS HERTZ */
#include "program.h"

#include <inttypes.h>
#include <string.h>

static uint8_t store[STORE_FILE_BYTES + 1];

int run_new_store(const struct request *request)
{
    static struct output output;
    int status = find_output(&output, request, request->arguments[0], STORE);
    if (status != 0)
        return status;
    status = write_store(&output, store);
    if (status == 0)
        fputs("An empty store.\n", report_of(&output));
    return status;
}

/* What a device is set to, as the library takes it. */
struct device {
    const uint8_t *country;
    size_t country_length;
    uint32_t class_letter, hertz;
};

static uint32_t class_number(const char *text)
{
    return strlen(text) == 1 ? (uint8_t)text[0] : 0;
}

/* COUNTRY, CLASS and HERTZ. A class is one letter, and hertz are a decimal number without sign, spaces
 * or leading zeros; any other text is 0, which is no class and no hertz, so that the library refuses it
 * as it refuses every other setting that does not exist. */
static struct device read_device(char *const *words)
{
    return (struct device){(const uint8_t *)words[0], strlen(words[0]), class_number(words[1]),
                           decimal_of(words[2], 0)};
}

static int look_up(const struct device *device, size_t store_length, uint8_t *line, size_t *length)
{
    return gridprofile_lookup(store, store_length, device->country, device->country_length,
                              device->class_letter, device->hertz, line, GRIDPROFILE_LINE_MAX_BYTES,
                              length);
}

/* The slot that a load changed, which is one. */
static size_t changed_slot(const uint8_t *before)
{
    size_t at = 0;
    while (at + GRIDPROFILE_PROFILE_IMAGE_BYTES < GRIDPROFILE_STORE_TABLE_OFFSET &&
           memcmp(before + at, store + at, GRIDPROFILE_PROFILE_IMAGE_BYTES) == 0)
        at += GRIDPROFILE_PROFILE_IMAGE_BYTES;
    return at;
}

static void print_accepted(FILE *to, const uint8_t *before, const struct input *key)
{
    size_t slot = changed_slot(before);
    fputs("Accepted: ", to);
    print_device(to, store + slot);
    if (serial_of(store + slot) == UINT32_MAX)
        warn("the package", unreplaceable);
    if (before[slot] != 0)
        fprintf(to, "It replaces serial %" PRIu32 ".\n", serial_of(before + slot));
    else
        fputs("Nothing was stored for this country, class and hertz before.\n", to);
    print_fingerprint(to, key->category, key->bytes);
}

/* The serial of a line, or 0, which none has. */
static uint32_t serial_of_line(const uint8_t *line, size_t length)
{
    uint8_t profile[GRIDPROFILE_PROFILE_IMAGE_BYTES];
    return read_profile(line, length, profile) == 0 ? serial_of(profile) : 0;
}

static uint32_t stored_serial(const struct device *device)
{
    uint8_t line[GRIDPROFILE_LINE_MAX_BYTES];
    size_t length = 0;
    (void)look_up(device, GRIDPROFILE_STORE_IMAGE_BYTES, line, &length);
    return serial_of_line(line, length);
}

static int refuse_serial(const struct request *request, const struct device *device,
                         const struct input *package)
{
    size_t signature = package->category->signature;
    uint32_t stored = stored_serial(device);
    uint32_t serial = serial_of_line(package->bytes + signature, package->length - signature);
    char meaning[96];
    (void)snprintf(meaning, sizeof meaning,
                   "the serial, %" PRIu32 ", is not greater than the stored one, %" PRIu32, serial,
                   stored);
    return refused_because(request->command, GRIDPROFILE_OLD_SERIAL, meaning,
                           stored == UINT32_MAX
                               ? "the stored serial is the greatest, which nothing can replace"
                               : "a newer profile is signed under a greater serial");
}

int run_load(const struct request *request)
{
    static uint8_t key[MOST_KEY_BYTES + 1], package[MOST_PACKAGE_BYTES + 1];
    static uint8_t before[GRIDPROFILE_STORE_IMAGE_BYTES];
    static struct output output;
    const struct category *category = request->category;
    struct input inputs[] = {
        store_input(request->arguments[0], store),
        sized_input(category, KEY_SIZE, request->arguments[1], key, sizeof key),
        sized_input(category, PACKAGE_SIZE, request->arguments[2], package, sizeof package),
    };
    struct device device = read_device(request->arguments + 3);
    int status = check_streams(request, inputs, COUNT(inputs)), answer;
    if (status == 0)
        status = find_store(&output, request, request->arguments[0]);
    if (status == 0)
        status = read_inputs(inputs + 1, COUNT(inputs) - 1);
    if (status == 0)
        status = read_locked(&output, inputs);
    if (status != 0)
        return status;
    memcpy(before, store, sizeof before);
    answer = category->load(store, inputs[0].length, key, inputs[1].length, package,
                            inputs[2].length, device.country, device.country_length,
                            device.class_letter, device.hertz);
    if (answer == GRIDPROFILE_OLD_SERIAL)
        return refuse_serial(request, &device, &inputs[2]);
    if (answer != 0)
        return refused_package(request->command, answer, inputs, COUNT(inputs), &inputs[2]);
    status = write_store(&output, store);
    if (status == 0)
        print_accepted(report_of(&output), before, &inputs[1]);
    return status;
}

int run_lookup(const struct request *request)
{
    struct input inputs[] = {store_input(request->arguments[0], store)};
    struct device device = read_device(request->arguments + 1);
    uint8_t line[GRIDPROFILE_LINE_MAX_BYTES];
    size_t length = 0;
    int status = read_store(inputs), answer;
    if (status != 0)
        return status;
    answer = look_up(&device, inputs[0].length, line, &length);
    status = blame_store(request->command, answer, inputs);
    if (status != 0)
        return status;
    if (answer != 0)
        return refused(request->command, answer, inputs, COUNT(inputs), NULL, 0);
    (void)fwrite(line, 1, length, stdout);
    return 0;
}
