/* Cuts the power of a simulated flash at every byte that a commit or a format changes, and looks at
 * what the next start finds; tries damage, counters and a failing flash too. It prints a line for
 * each part, and ends with status 1 at the first thing that is not as banks.h says. An argument
 * names the one part that is run. */
#include <setjmp.h>
#include <stdio.h>
#include <stdlib.h>
#include <string.h>

#include "banks.h"

#define IMAGE GRIDPROFILE_STORE_IMAGE_BYTES
#define RECORD BANKS_RECORD_BYTES
#define NEVER SIZE_MAX

/* What a change that was cut leaves in the byte at work, and in the rest of a bank being erased. */
enum model {
    KEEPS_OLD,
    HAS_NEW,
    OLD_AND_NEW,
    GARBAGE,
    GARBAGE_BANK, /* and in an erase the rest of the bank too */
    BITS_OF_BOTH, /* each bit is old or new, in an erase in the rest of the bank too */
    UNREADABLE,   /* the part can no longer correct it, in an erase the rest of the bank */
    MODELS
};

static const char *const model_names[MODELS] = {
    "keeps old",           "has new",      "old and new", "garbage",
    "garbage in the bank", "bits of both", "unreadable",
};

/* `next` is the lowest offset that may be programmed: an erase that was cut allows none. */
struct flash {
    uint8_t cells[BANKS_COUNT][RECORD];
    bool unreadable[BANKS_COUNT][RECORD];
    size_t next[BANKS_COUNT];
};

/* How the flash itself fails, at one byte where it is about bytes. */
enum fault { SOUND, NO_ERASE, NO_PROGRAM, WRONG_BIT, WEAK_BYTE };

static struct flash flash;
static enum model model;
static enum fault fault;
static size_t fault_at, operations, cut_at, first_cut, tried;
static jmp_buf power_off;

static void expect(bool good, const char *what)
{
    tried++;
    if (good)
        return;
    printf("FAILED %s\n", what);
    if (first_cut != NEVER)
        printf("  model: %s; changes before the first cut: %zu\n", model_names[model], first_cut);
    if (cut_at != NEVER)
        printf("  changes before the last cut: %zu\n", cut_at);
    exit(1);
}

static uint8_t random_byte(void)
{
    static uint32_t state = 2463534242u;
    state ^= state << 13;
    state ^= state >> 17;
    state ^= state << 5;
    return (uint8_t)(state >> 11);
}

static void fill_with_garbage(uint8_t *bytes, size_t length)
{
    for (size_t at = 0; at < length; at++)
        bytes[at] = random_byte();
}

/* ---- the flash */

static void interrupt_byte(unsigned bank, size_t at, uint8_t wanted)
{
    uint8_t *byte = &flash.cells[bank][at], mask = random_byte();
    if (model == HAS_NEW || model == UNREADABLE)
        *byte = wanted;
    if (model == OLD_AND_NEW)
        *byte &= wanted;
    if (model == GARBAGE || model == GARBAGE_BANK)
        *byte = random_byte();
    if (model == BITS_OF_BOTH)
        *byte = (uint8_t)((*byte & mask) | (wanted & ~mask));
    flash.unreadable[bank][at] = model == UNREADABLE;
}

static void interrupt(unsigned bank, size_t at, uint8_t wanted, bool erasing)
{
    size_t end = erasing && model >= GARBAGE_BANK ? RECORD : at + 1;
    for (; at < end; at++)
        interrupt_byte(bank, at, wanted);
    longjmp(power_off, 1);
}

static void change(unsigned bank, size_t at, uint8_t wanted, bool erasing)
{
    if (operations == cut_at)
        interrupt(bank, at, wanted, erasing);
    operations++;
    flash.cells[bank][at] = wanted;
    flash.unreadable[bank][at] = false;
}

static void expect_inside(unsigned bank, size_t offset, size_t length)
{
    expect(bank < BANKS_COUNT && offset <= RECORD && length <= RECORD - offset,
           "only the bytes of the two banks are used");
}

static bool erase(unsigned bank)
{
    expect_inside(bank, 0, RECORD);
    flash.next[bank] = RECORD;
    for (size_t at = 0; at < RECORD; at++)
        change(bank, at, BANKS_ERASED, true);
    flash.next[bank] = 0;
    return fault != NO_ERASE;
}

static void program_byte(unsigned bank, size_t at, uint8_t wanted)
{
    flash.next[bank] = at + 1;
    if (fault == WRONG_BIT && at == fault_at)
        wanted ^= 1;
    change(bank, at, wanted, false);
    flash.unreadable[bank][at] = fault == WEAK_BYTE && at == fault_at;
}

static bool program(unsigned bank, size_t offset, const uint8_t *bytes, size_t length)
{
    expect_inside(bank, offset, length);
    expect(flash.next[bank] <= offset, "bytes are programmed once, upward, in an erased bank");
    for (size_t at = 0; at < length; at++)
        program_byte(bank, offset + at, bytes[at]);
    return fault != NO_PROGRAM;
}

static bool read(unsigned bank, size_t offset, uint8_t *bytes, size_t length)
{
    expect_inside(bank, offset, length);
    memcpy(bytes, flash.cells[bank] + offset, length);
    return memchr(flash.unreadable[bank] + offset, true, length) == NULL;
}

static const struct banks_flash driver = {erase, program, read};

static void set_bank(unsigned bank, uint8_t byte)
{
    memset(flash.cells[bank], byte, RECORD);
    memset(flash.unreadable[bank], false, RECORD);
}

/* ---- stores, made by loads */

static uint8_t key[GRIDPROFILE_KEY_BYTES];
static const uint8_t private_seed[GRIDPROFILE_PRIVATE_SEED_BYTES] = {7};
static const uint8_t empty[IMAGE];

/* What is loaded, in this order: a class table, and then lines. The table has B as the built-in
 * classes have it at 230 volts, so that the lines may be loaded without it too. */
static const char *const texts[] = {
    "A,100,129\nB,200,250\nK,400,1000\n",
    "GP1,XA,B,12,230,50,1150,100,800,1500,1500,100,-2500,100\n",
    "GP2,XA,B,13,230,50,1200,100,800,1500,1500,100,-2500,100,2000,500\n",
    "GP1,XA,B,1,230,60,1150,100,800,1500,1500,100,-2500,100\n",
};
#define TABLE 0

/* A device to begin with, the store that it holds, and that after one more load; after each of
 * these two, the store that a further load makes. */
struct start {
    struct flash flash;
    uint8_t old[IMAGE], new[IMAGE], after_old[IMAGE], after_new[IMAGE];
};

#define STARTS 3
static struct start starts[STARTS];

/* Loads the package of a line, on the device that its image names. */
static void load_line(uint8_t *store, size_t number)
{
    static uint8_t package[GRIDPROFILE_PACKAGE_MAX_BYTES];
    const uint8_t *line = (const uint8_t *)texts[number];
    const uint8_t *table = store + GRIDPROFILE_STORE_TABLE_OFFSET;
    uint8_t master[GRIDPROFILE_MASTER_SEED_BYTES], salt[GRIDPROFILE_SALT_BYTES];
    uint8_t profile[GRIDPROFILE_PROFILE_IMAGE_BYTES];
    size_t length = 0;
    memset(master, (int)number, sizeof master);
    memset(salt, (int)number + 100, sizeof salt);
    expect(gridprofile_make_package(table, GRIDPROFILE_TABLE_IMAGE_BYTES, private_seed,
                                    sizeof private_seed, master, sizeof master, salt, sizeof salt,
                                    line, strlen(texts[number]), package, sizeof package,
                                    &length) == GRIDPROFILE_DONE,
           "a package is made");
    expect(gridprofile_read_line(table, GRIDPROFILE_TABLE_IMAGE_BYTES, line, strlen(texts[number]),
                                 profile, sizeof profile) == GRIDPROFILE_DONE,
           "a line is read");
    expect(gridprofile_load(store, IMAGE, key, sizeof key, package, length,
                            profile + GRIDPROFILE_COUNTRY_OFFSET, 2,
                            profile[GRIDPROFILE_CLASS_OFFSET],
                            profile[GRIDPROFILE_HERTZ_OFFSET]) == GRIDPROFILE_DONE,
           "a package is loaded");
}

/* The store that a load makes of another one. */
static void load(const uint8_t *store, size_t number, uint8_t *made)
{
    const uint8_t *file = (const uint8_t *)texts[TABLE];
    memmove(made, store, IMAGE);
    if (number != TABLE) {
        load_line(made, number);
        return;
    }
    expect(gridprofile_load_table(made, IMAGE, file, strlen(texts[TABLE])) == GRIDPROFILE_DONE,
           "a class table is loaded");
}

/* ---- a device */

static uint8_t ram[IMAGE];

static bool holds(const uint8_t *image)
{
    return memcmp(ram, image, IMAGE) == 0;
}

static enum banks_answer boot(void)
{
    memset(ram, 0xA5, sizeof ram);
    return banks_read(&driver, ram);
}

static bool ram_is_as_it_was(void)
{
    return ram[0] == 0xA5 && memcmp(ram, ram + 1, IMAGE - 1) == 0;
}

/* Commits until the power is cut, and says whether it was done before. */
static bool commits(size_t cut, const uint8_t *image)
{
    operations = 0;
    cut_at = cut;
    if (setjmp(power_off) != 0)
        return false;
    expect(banks_commit(&driver, image) == BANKS_DONE, "a commit that is not cut is done");
    return true;
}

static bool formats(size_t cut, enum banks_answer wanted)
{
    operations = 0;
    cut_at = cut;
    if (setjmp(power_off) != 0)
        return false;
    expect(banks_format(&driver) == wanted, "a format that is not cut answers rightly");
    return true;
}

static void commit_and_find(const uint8_t *image)
{
    expect(commits(NEVER, image), "a commit that is not cut is done");
    expect(boot() == BANKS_DONE && holds(image), "what was committed is found");
}

static void refuses_to_commit(enum banks_answer wanted)
{
    struct flash before = flash;
    operations = 0;
    cut_at = NEVER;
    expect(banks_commit(&driver, empty) == wanted, "a commit that must be refused is refused");
    expect(operations == 0 && memcmp(&before, &flash, sizeof flash) == 0,
           "a refused commit changes nothing");
}

static void prepare(void)
{
    expect(gridprofile_make_key(private_seed, sizeof private_seed, key, sizeof key) == 0, "a key");
    set_bank(0, BANKS_ERASED);
    set_bank(1, BANKS_ERASED);
    expect(boot() == BANKS_BLANK && holds(empty), "a new device is blank");
    refuses_to_commit(BANKS_BLANK);
    expect(formats(NEVER, BANKS_DONE), "a new device is formatted");
    expect(boot() == BANKS_DONE && holds(empty), "a formatted device has the empty store");
    for (size_t number = 0; number < STARTS; number++) {
        struct start *start = &starts[number];
        start->flash = flash;
        memcpy(start->old, ram, IMAGE);
        load(start->old, number, start->new);
        load(start->old, number + 1, start->after_old);
        load(start->new, number + 1, start->after_new);
        expect(memcmp(start->old, start->new, IMAGE) != 0, "a load changes the store");
        commit_and_find(start->new);
    }
}

/* ---- cuts */

/* The changes that a commit makes at most: a bank is erased and programmed. */
#define CHANGES (2 * RECORD)

/* A start after a commit that may have been cut: whether the new store is found. */
static bool finds_new(bool done, const uint8_t *old, const uint8_t *new)
{
    bool is_new;
    expect(boot() == BANKS_DONE, "after a cut a store is found");
    is_new = holds(new);
    expect(is_new || holds(old), "after a cut the old store or the new one is found");
    expect(is_new || !done, "what was committed is found");
    return is_new;
}

/* The commit after a cut, cut as well, and then one that is not. */
static void cut_again(const struct flash *cut, size_t second, const uint8_t *old,
                      const uint8_t *new)
{
    flash = *cut;
    (void)finds_new(commits(second, new), old, new);
    commit_and_find(new);
}

/* A cut, then a whole commit, then the same with every `step`th cut of that commit too. */
static void cut(const struct start *start, size_t first, size_t step)
{
    struct flash left;
    const uint8_t *found, *next;
    bool is_new;
    flash = start->flash;
    first_cut = first;
    is_new = finds_new(commits(first, start->new), start->old, start->new);
    found = is_new ? start->new : start->old;
    next = is_new ? start->after_new : start->after_old;
    left = flash;
    commit_and_find(next);
    for (size_t second = first % step; second <= CHANGES; second += step)
        cut_again(&left, second, found, next);
    first_cut = NEVER;
}

/* Every cut of a commit. The changes are counted first, so that no cut is left out. */
static void every_cut(const struct start *start, size_t step)
{
    flash = start->flash;
    commit_and_find(start->new);
    expect(operations <= CHANGES, "every change of a commit is cut once");
    for (size_t first = 0; first <= CHANGES; first++)
        cut(start, first, step);
}

/* Some cuts, each with every cut of the next commit: in the erase and where it ends, in the image,
 * at the last byte, and none. */
static void every_second_cut(const struct start *start)
{
    static const size_t first[] = {RECORD / 2,     RECORD - 1,  RECORD,
                                   3 * RECORD / 2, CHANGES - 1, CHANGES};
    for (size_t at = 0; at < sizeof first / sizeof *first; at++)
        cut(start, first[at], 1);
}

/* With this step each first cut is followed by one or two second ones, and each second cut comes
 * after some first one. */
#define STEP 1777

static void every_start(void)
{
    for (size_t number = 0; number < STARTS; number++)
        every_cut(&starts[number], STEP);
}

static void cuts_of_commits(void)
{
    for (model = 0; model < MODELS; model++)
        every_start();
}

static void cuts_of_the_next_commit(void)
{
    for (model = 0; model < MODELS; model++)
        every_second_cut(&starts[model % STARTS]);
}

/* A format that was cut: no store is found, or the empty one, and formatting goes on from there. */
static void cut_format(size_t cut)
{
    enum banks_answer answer;
    first_cut = cut;
    (void)formats(cut, BANKS_DONE);
    answer = boot();
    expect(answer != BANKS_DONE || holds(empty), "after a cut format the empty store, or none");
    expect(answer != BANKS_BLANK || holds(empty), "a blank device has the empty store");
    expect(answer != BANKS_DAMAGED || ram_is_as_it_was(), "no store is written that is not found");
    expect(formats(NEVER, answer == BANKS_DONE ? BANKS_IN_USE : BANKS_DONE), "a format again");
    expect(boot() == BANKS_DONE && holds(empty), "a formatted device has the empty store");
    commit_and_find(starts[0].new);
    first_cut = NEVER;
}

/* Formats a blank device and one with garbage in its banks. */
static void cut_formats(void)
{
    for (size_t cut = 0; cut <= 3 * RECORD; cut++) {
        set_bank(0, BANKS_ERASED);
        set_bank(1, BANKS_ERASED);
        cut_format(cut);
        fill_with_garbage(flash.cells[0], sizeof flash.cells);
        cut_format(cut);
    }
}

static void cuts_of_formats(void)
{
    for (model = 0; model < MODELS; model++)
        cut_formats();
}

/* ---- damage */

/* Which bank of the last start counts: the third record lies in bank 0, as the first does. */
#define COUNTS 0

static void flip(unsigned bank, size_t bit)
{
    flash.cells[bank][bit / 8] ^= (uint8_t)(1 << bit % 8);
}

/* A bit of either bank, then of both. */
static void flip_one(size_t bit)
{
    const struct start *start = &starts[STARTS - 1];
    flash = start->flash;
    flip(COUNTS, bit);
    expect(boot() == BANKS_DONE && holds(starts[STARTS - 2].old),
           "after a flipped bit the other bank counts");
    flip(1 - COUNTS, (bit * 7 + 3) % (8 * RECORD));
    expect(boot() == BANKS_DAMAGED && ram_is_as_it_was(), "two damaged banks are told");
    flip(COUNTS, bit);
    expect(boot() == BANKS_DONE && holds(start->old), "the bank that counts is not damaged");
}

static void flipped_bits(void)
{
    for (size_t bit = 0; bit < 8 * RECORD; bit++)
        flip_one(bit);
}

static void unreadable_bytes(void)
{
    for (size_t at = 0; at < RECORD; at++) {
        flash = starts[STARTS - 1].flash;
        flash.unreadable[COUNTS][at] = true;
        expect(boot() == BANKS_DONE && holds(starts[STARTS - 2].old),
               "a bank that cannot be read does not count");
    }
}

/* Garbage beside garbage, beside a blank bank, and beside a whole one. */
static void garbage_once(void)
{
    flash = starts[STARTS - 1].flash;
    fill_with_garbage(flash.cells[1 - COUNTS], RECORD);
    expect(boot() == BANKS_DONE && holds(starts[STARTS - 1].old), "garbage does not count");
    fill_with_garbage(flash.cells[COUNTS], RECORD);
    expect(boot() == BANKS_DAMAGED, "a device with garbage is damaged");
    refuses_to_commit(BANKS_DAMAGED);
    set_bank(COUNTS, BANKS_ERASED);
    expect(boot() == BANKS_DAMAGED, "a blank bank beside garbage is damage");
    refuses_to_commit(BANKS_DAMAGED);
    set_bank(1 - COUNTS, BANKS_ERASED);
    expect(boot() == BANKS_BLANK && holds(empty), "two blank banks are a new device");
}

static void garbage(void)
{
    for (int times = 0; times < 1000; times++)
        garbage_once();
}

/* ---- counters */

/* The digest of a new device's record, as docs/FORMATS.md has it. */
static const uint8_t worked[GRIDPROFILE_DIGEST_BYTES] = {
    0x05, 0x30, 0xB9, 0x85, 0x93, 0x32, 0x06, 0x60, 0x62, 0xE2, 0x3C, 0x33, 0x28, 0x36, 0xBB, 0xED,
    0x79, 0xC5, 0xD2, 0x01, 0x0E, 0x55, 0x7F, 0xD6, 0xA0, 0x7D, 0xBB, 0x2B, 0xBD, 0xE0, 0x21, 0x66,
};

/* The record as docs/FORMATS.md has it. */
static void make_record(uint8_t *record, uint32_t counter, const uint8_t *image)
{
    for (size_t at = 0; at < 4; at++)
        record[at] = (uint8_t)(counter >> 8 * at);
    memcpy(record + 4, image, IMAGE);
    gridprofile_shake128(record, 4 + IMAGE, record + 4 + IMAGE, 32);
}

/* A commit to a device whose records have these counters. */
static void commit_over(uint32_t zero, uint32_t one)
{
    const uint8_t *images[BANKS_COUNT] = {starts[0].new, starts[1].new};
    unsigned counts = one > zero ? 1 : 0;
    uint32_t greatest = one > zero ? one : zero;
    struct flash wanted;
    make_record(flash.cells[0], zero, images[0]);
    make_record(flash.cells[1], one, images[1]);
    expect(boot() == BANKS_DONE && holds(images[counts]), "the greater counter counts, or bank 0");
    expect(banks_format(&driver) == BANKS_IN_USE, "a device with a store is not formatted");
    if (greatest == UINT32_MAX) {
        refuses_to_commit(BANKS_NO_COUNTER);
        return;
    }
    wanted = flash;
    make_record(wanted.cells[1 - counts], greatest + 1, starts[2].new);
    commit_and_find(starts[2].new);
    expect(memcmp(wanted.cells, flash.cells, sizeof wanted.cells) == 0,
           "a commit writes its record to the other bank, and nothing else");
}

static void counters(void)
{
    static const uint32_t some[] = {0,          1,          2,          255,       256,
                                    257,        65535,      65536,      16777215,  16777216,
                                    2147483647, 2147483648, 4294967294, 4294967295};
    const size_t count = sizeof some / sizeof *some;
    flash = starts[0].flash;
    expect(memcmp(flash.cells[0] + RECORD - sizeof worked, worked, sizeof worked) == 0,
           "a new device has the worked record");
    for (size_t pair = 0; pair < count * count; pair++)
        commit_over(some[pair / count], some[pair % count]);
}

/* ---- a flash that fails */

static void fails(enum fault kind, size_t at, bool may_be_new)
{
    const struct start *start = &starts[STARTS - 1];
    flash = start->flash;
    fault = kind;
    fault_at = at;
    operations = 0;
    cut_at = NEVER;
    expect(banks_commit(&driver, start->new) == BANKS_FAILED, "a commit that failed says so");
    fault = SOUND;
    expect(boot() == BANKS_DONE && (holds(start->old) || (may_be_new && holds(start->new))),
           "after a failed commit the old store is found");
    commit_and_find(start->new);
}

static void failing_flash(void)
{
    fails(NO_ERASE, 0, false);
    fails(NO_PROGRAM, 0, true);
    for (size_t at = 0; at < RECORD; at++) {
        fails(WRONG_BIT, at, false);
        fails(WEAK_BYTE, at, false);
    }
}

/* ---- all parts, the quick ones first */

static const struct part {
    const char *name;
    void (*run)(void);
} parts[] = {
    {"flips", flipped_bits},       {"unreadable", unreadable_bytes},
    {"garbage", garbage},          {"counters", counters},
    {"failing", failing_flash},    {"formats", cuts_of_formats},
    {"commits", cuts_of_commits},  {"next", cuts_of_the_next_commit},
};

static void run(const struct part *part)
{
    size_t before = tried;
    model = 0;
    first_cut = cut_at = NEVER;
    part->run();
    printf("ok %s: %zu checks\n", part->name, tried - before);
    (void)fflush(stdout);
}

int main(int count, char **words)
{
    size_t ran = 0;
    first_cut = cut_at = NEVER;
    prepare();
    for (size_t at = 0; at < sizeof parts / sizeof *parts; at++) {
        if (count < 2 || strcmp(words[1], parts[at].name) == 0) {
            run(&parts[at]);
            ran++;
        }
    }
    return ran > 0 ? 0 : 2;
}
