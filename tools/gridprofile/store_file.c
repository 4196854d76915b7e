/* A store as a file: its image and then a checksum, SHAKE128 of the image, so that a damaged file is
 * told from a whole one. The image alone, as a device has it, is taken with a warning. */
#include "program.h"

#include <string.h>

struct input store_input(const char *path, uint8_t *bytes)
{
    struct input store = {.role = "STORE", .path = path, .bytes = bytes};
    store.room = STORE_FILE_BYTES + 1;
    store.least = store.most = STORE_FILE_BYTES;
    store.also = GRIDPROFILE_STORE_IMAGE_BYTES;
    return store;
}

static void make_checksum(const uint8_t *image, uint8_t *checksum)
{
    gridprofile_shake128(image, GRIDPROFILE_STORE_IMAGE_BYTES, checksum, CHECKSUM_BYTES);
}

static const uint8_t *table_of(const struct input *store)
{
    return store->bytes + GRIDPROFILE_STORE_TABLE_OFFSET;
}

/* Any other size is left to the library, which refuses it and goes by the built-in classes till then. */
int open_store(struct input *store)
{
    uint8_t checksum[CHECKSUM_BYTES];
    if (store->length != GRIDPROFILE_STORE_IMAGE_BYTES && store->length != STORE_FILE_BYTES)
        return 0;
    use_table(table_of(store));
    if (store->length == GRIDPROFILE_STORE_IMAGE_BYTES) {
        warn(input_name(store), "this store has no checksum, so that damage is not seen; a load adds one");
        return 0;
    }
    make_checksum(store->bytes, checksum);
    if (memcmp(checksum, store->bytes + GRIDPROFILE_STORE_IMAGE_BYTES, sizeof checksum) != 0)
        return damaged_store(input_name(store), "its checksum does not fit what it holds");
    store->length = GRIDPROFILE_STORE_IMAGE_BYTES;
    return 0;
}

int read_store(struct input *store)
{
    int status = read_inputs(store, 1);
    return status != 0 ? status : open_store(store);
}

/* What is read by a load is read under the lock, and nothing else is: what comes by a stream can take
 * long. A load puts a fresh checksum over the whole, so that what is damaged must be seen before. */
int read_locked(struct output *output, struct input *store)
{
    int status = lock_output(output);
    if (!is_stream(output->path))
        store->target = output->target;
    if (status == 0)
        status = read_store(store);
    if (status == 0 && store->length == GRIDPROFILE_STORE_IMAGE_BYTES)
        status = check_image(store);
    return status;
}

int write_store(struct output *output, uint8_t *bytes)
{
    make_checksum(bytes, bytes + GRIDPROFILE_STORE_IMAGE_BYTES);
    return write_output(output, bytes, STORE_FILE_BYTES);
}

const uint8_t *slot_at(const uint8_t *image, size_t slot)
{
    return image + slot * GRIDPROFILE_PROFILE_IMAGE_BYTES;
}

static int is_empty(const uint8_t *slot)
{
    static const uint8_t zeros[GRIDPROFILE_PROFILE_IMAGE_BYTES];
    return memcmp(slot, zeros, sizeof zeros) == 0;
}

/* A used slot is the image of its own line, under the store's table. */
static int is_profile(const uint8_t *slot)
{
    uint8_t line[GRIDPROFILE_LINE_MAX_BYTES], image[GRIDPROFILE_PROFILE_IMAGE_BYTES];
    size_t length = 0;
    return write_profile(slot, line, &length) == 0 && read_profile(line, length, image) == 0 &&
           memcmp(slot, image, sizeof image) == 0;
}

/* Country and class stand side by side; serial and volts come before the hertz, and do not count. */
int compare_triples(const uint8_t *one, const uint8_t *other)
{
    size_t letters = GRIDPROFILE_SERIAL_OFFSET - GRIDPROFILE_COUNTRY_OFFSET;
    int by = memcmp(one + GRIDPROFILE_COUNTRY_OFFSET, other + GRIDPROFILE_COUNTRY_OFFSET, letters);
    return by != 0 ? by : (hertz_of(one) > hertz_of(other)) - (hertz_of(one) < hertz_of(other));
}

int is_same_triple(const uint8_t *one, const uint8_t *other)
{
    return compare_triples(one, other) == 0;
}

/* Whether an earlier slot has the same country, class and hertz. */
static int stands_before(const uint8_t *image, size_t slot)
{
    size_t at = 0;
    while (at < slot && !is_same_triple(slot_at(image, at), slot_at(image, slot)))
        at++;
    return at < slot;
}

/* The first slot, from 1, that no run of loads from an empty store leaves so; else 0. */
static size_t unsound_slot(const uint8_t *image)
{
    size_t slot = 0;
    while (slot < GRIDPROFILE_STORE_SLOTS &&
           (is_empty(slot_at(image, slot)) ||
            (is_profile(slot_at(image, slot)) && !stands_before(image, slot))))
        slot++;
    return slot < GRIDPROFILE_STORE_SLOTS ? slot + 1 : 0;
}

int check_table(const struct input *store)
{
    if (is_loaded_table(table_of(store)))
        return 0;
    return damaged_store(input_name(store), "its class table is one that no load leaves there");
}

/* The table comes first: what a slot holds is judged by it. */
int check_image(const struct input *store)
{
    char how[80];
    int status = check_table(store);
    size_t slot = status != 0 ? 0 : unsound_slot(store->bytes);
    if (slot == 0)
        return status;
    (void)snprintf(how, sizeof how, "slot %zu holds what no load leaves there", slot);
    return damaged_store(input_name(store), how);
}

/* Where nothing is found, what should be may stand in a slot that is damaged. */
int blame_store(const char *command, int answer, const struct input *store)
{
    if (answer == GRIDPROFILE_NOT_STORED)
        return check_image(store);
    if (answer == GRIDPROFILE_BAD_PROFILE)
        return refused_because(command, answer,
                               "the stored profile breaks a rule: the store is damaged",
                               "take a copy of the store from before, or make a new one by "
                               "`gridprofile new-store` and load the newest packages again");
    return 0;
}
