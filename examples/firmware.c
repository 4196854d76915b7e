/* How firmware uses the library: a built-in key, a store in two banks of flash with a copy in RAM,
 * and no allocation. It is built for one category: category.h has what that decides. It goes by the
 * built-in classes; with -DRAILWAY it is a device of a customer who has a class table of his own.
 *
 * A package arrives on standard input, as it would over the plant's network. The exit status is the
 * library's answer to loading it, or one of the two below. */
#include <stdio.h>
#include <string.h>

#include "banks.h"
#include "category.h"

#define NOT_COMMITTED 100 /* the package was loaded, and the flash did not take the new store */
#define NO_STORE 101      /* no bank has a store: the device must not work by an empty one */

/* What this device is set to. */
static const uint8_t country[2] = {'X', 'A'};
#ifdef RAILWAY
static const uint32_t class_letter = 'R';
#else
static const uint32_t class_letter = 'B';
#endif
static const uint32_t hertz = 50;

/* On a device: the flash driver. Here two arrays stand for the banks. */
static uint8_t cells[BANKS_COUNT][BANKS_RECORD_BYTES];

static bool flash_erase(unsigned bank)
{
    memset(cells[bank], BANKS_ERASED, sizeof cells[bank]);
    return true;
}

static bool flash_program(unsigned bank, size_t offset, const uint8_t *bytes, size_t length)
{
    memcpy(cells[bank] + offset, bytes, length);
    return true;
}

static bool flash_read(unsigned bank, size_t offset, uint8_t *bytes, size_t length)
{
    memcpy(bytes, cells[bank] + offset, length);
    return true;
}

static const struct banks_flash flash = {flash_erase, flash_program, flash_read};

/* The copy in RAM of the store that counts. Loading changes this copy alone. */
static uint8_t store[GRIDPROFILE_STORE_IMAGE_BYTES];

/* One byte more than a package may have, so that a longer one is not taken for a whole one. */
static uint8_t package[PACKAGE_MAX_BYTES + 1];

static size_t receive(void)
{
    return fread(package, 1, sizeof package, stdin);
}

/* Whether the signature holds. Loading verifies by itself: this is for a device that wants to know
 * before it acts, for instance before it passes a package on. */
static uint8_t verify(size_t length)
{
    if (length < PACKAGE_MIN_BYTES || length > PACKAGE_MAX_BYTES)
        return GRIDPROFILE_BAD_SIZE;
    return verify_signature(key, sizeof key, package + SIGNATURE_BYTES, length - SIGNATURE_BYTES,
                            package, SIGNATURE_BYTES);
}

/* Verifies and stores in the copy, or refuses and leaves it as it was. */
static uint8_t load(size_t length)
{
    return load_package(store, sizeof store, key, sizeof key, package, length, country,
                        sizeof country, class_letter, hertz);
}

#ifdef RAILWAY

/* The customer's class table, as its file has it. */
static const char table[] = "E,100,199\nM,200,400\nR,600,900\nT,950,1000\n";

/* Puts the table into the copy. The library takes one only while no profile is stored: the classes
 * of a device stay what they are. */
static uint8_t load_classes(void)
{
    return gridprofile_load_table(store, sizeof store, (const uint8_t *)table, sizeof table - 1);
}

static uint32_t number(const uint8_t *at)
{
    return (uint32_t)at[0] | (uint32_t)at[1] << 8 | (uint32_t)at[2] << 16 | (uint32_t)at[3] << 24;
}

/* A number of the line that this device works by. Functions on lines are lent a class table, here
 * the store's own; for the built-in classes that is GRIDPROFILE_TABLE_IMAGE_BYTES zeros. */
static void print_nominal(const uint8_t *line, size_t length)
{
    uint8_t profile[GRIDPROFILE_PROFILE_IMAGE_BYTES];
    uint8_t answer = gridprofile_read_line(store + GRIDPROFILE_STORE_TABLE_OFFSET,
                                           GRIDPROFILE_TABLE_IMAGE_BYTES, line, length, profile,
                                           sizeof profile);
    printf("reading it answers %d\n", answer);
    if (answer == GRIDPROFILE_DONE)
        printf("nominal volts %u\n", (unsigned)number(profile + GRIDPROFILE_VOLTS_OFFSET));
}

#endif

/* The limits that this device works by. */
static void print_own_profile(void)
{
    uint8_t line[GRIDPROFILE_LINE_MAX_BYTES];
    size_t length = 0;
    uint8_t answer = gridprofile_lookup(store, sizeof store, country, sizeof country, class_letter,
                                        hertz, line, sizeof line, &length);
    printf("lookup answers %d\n", answer);
    if (answer != GRIDPROFILE_DONE)
        return;
    (void)fwrite(line, 1, length, stdout);
#ifdef RAILWAY
    print_nominal(line, length);
#endif
}

/* What the device acts by is always read from the banks: it is what would be found after a loss of
 * power. */
static bool read_store(void)
{
    enum banks_answer answer = banks_read(&flash, store);
    if (answer != BANKS_DONE)
        printf("reading the store answers %d\n", answer);
    return answer == BANKS_DONE;
}

static bool commit_store(void)
{
    enum banks_answer answer = banks_commit(&flash, store);
    if (answer == BANKS_DONE)
        printf("committed\n");
    else
        printf("commit answers %d\n", answer);
    return answer == BANKS_DONE;
}

/* Once, in the factory: a new device has the empty store, and then its customer's class table, which
 * is committed to both banks. */
static void leave_factory(void)
{
    (void)flash_erase(0);
    (void)flash_erase(1);
    (void)banks_format(&flash);
#ifdef RAILWAY
    if (read_store()) {
        printf("loading the classes answers %d\n", load_classes());
        (void)(commit_store() && commit_store());
    }
#endif
}

/* The device at work. After a refused load or a failed commit the copy is read again, and after a
 * commit too, so that nothing acts by a profile before it is committed. */
static int work(void)
{
    size_t length = receive();
    int status;
    printf("verify answers %d\n", verify(length));
    status = load(length);
    printf("load answers %d\n", status);
    if (status == GRIDPROFILE_DONE && !commit_store())
        status = NOT_COMMITTED;
    if (!read_store())
        return NO_STORE;
    print_own_profile();
    printf("load of the same package again answers %d\n", load(length));
#ifdef RAILWAY
    printf("loading the classes again answers %d\n", load_classes());
#endif
    return status;
}

int main(void)
{
    leave_factory();
    return read_store() ? work() : NO_STORE;
}
