/* Two banks of flash, of which one counts: banks.h says how. */
#include "banks.h"

#include <string.h>

#define FIRST_COUNTER 1
#define NONE BANKS_COUNT

enum state { ERASED, BROKEN, WHOLE };

/* What was read of a bank. */
struct record {
    enum state state;
    uint32_t counter;
    uint8_t bytes[BANKS_RECORD_BYTES];
};

static uint32_t counter_of(const uint8_t *bytes)
{
    return (uint32_t)bytes[0] | (uint32_t)bytes[1] << 8 | (uint32_t)bytes[2] << 16 |
           (uint32_t)bytes[3] << 24;
}

static void write_counter(uint8_t *bytes, uint32_t counter)
{
    bytes[0] = (uint8_t)counter;
    bytes[1] = (uint8_t)(counter >> 8);
    bytes[2] = (uint8_t)(counter >> 16);
    bytes[3] = (uint8_t)(counter >> 24);
}

static void digest_of(const uint8_t *bytes, uint8_t *digest)
{
    gridprofile_shake128(bytes, BANKS_DIGEST_OFFSET, digest, GRIDPROFILE_DIGEST_BYTES);
}

static bool is_whole(const uint8_t *bytes)
{
    uint8_t digest[GRIDPROFILE_DIGEST_BYTES];
    digest_of(bytes, digest);
    return memcmp(digest, bytes + BANKS_DIGEST_OFFSET, sizeof digest) == 0;
}

static bool is_erased(const uint8_t *bytes)
{
    size_t at = 0;
    while (at < BANKS_RECORD_BYTES && bytes[at] == BANKS_ERASED)
        at++;
    return at == BANKS_RECORD_BYTES;
}

/* A bank is read once, and judged and used as it was read then. */
static void read_record(const struct banks_flash *flash, unsigned bank, struct record *record)
{
    record->state = BROKEN;
    if (!flash->read(bank, 0, record->bytes, sizeof record->bytes))
        return;
    record->counter = counter_of(record->bytes);
    if (is_whole(record->bytes))
        record->state = WHOLE;
    else if (is_erased(record->bytes))
        record->state = ERASED;
}

/* Reads both banks, and says which one counts, or NONE. */
static unsigned read_both(const struct banks_flash *flash, struct record found[BANKS_COUNT])
{
    read_record(flash, 0, &found[0]);
    read_record(flash, 1, &found[1]);
    if (found[0].state == WHOLE && found[1].state == WHOLE)
        return found[1].counter > found[0].counter ? 1 : 0;
    if (found[0].state == WHOLE)
        return 0;
    return found[1].state == WHOLE ? 1 : NONE;
}

/* Why no bank counts. */
static enum banks_answer none_counts(const struct record found[BANKS_COUNT])
{
    bool blank = found[0].state == ERASED && found[1].state == ERASED;
    return blank ? BANKS_BLANK : BANKS_DAMAGED;
}

/* Writes a record whose image is already in place. The bank is erased even where it reads as
 * erased: after an erase that was cut it may not hold what is programmed. What the other record in
 * RAM held is no longer needed, so that it takes what is read back. */
static enum banks_answer write_record(const struct banks_flash *flash, unsigned bank,
                                      uint32_t counter, struct record found[BANKS_COUNT])
{
    uint8_t *record = found[bank].bytes, *back = found[1 - bank].bytes;
    write_counter(record, counter);
    digest_of(record, record + BANKS_DIGEST_OFFSET);
    if (!flash->erase(bank))
        return BANKS_FAILED;
    if (!flash->program(bank, 0, record, BANKS_RECORD_BYTES))
        return BANKS_FAILED;
    if (!flash->read(bank, 0, back, BANKS_RECORD_BYTES))
        return BANKS_FAILED;
    return memcmp(record, back, BANKS_RECORD_BYTES) == 0 ? BANKS_DONE : BANKS_FAILED;
}

enum banks_answer banks_read(const struct banks_flash *flash,
                             uint8_t image[GRIDPROFILE_STORE_IMAGE_BYTES])
{
    struct record found[BANKS_COUNT];
    unsigned counts = read_both(flash, found);
    enum banks_answer answer = counts == NONE ? none_counts(found) : BANKS_DONE;
    if (answer == BANKS_DONE)
        memcpy(image, found[counts].bytes + BANKS_COUNTER_BYTES, GRIDPROFILE_STORE_IMAGE_BYTES);
    if (answer == BANKS_BLANK)
        memset(image, 0, GRIDPROFILE_STORE_IMAGE_BYTES);
    return answer;
}

enum banks_answer banks_commit(const struct banks_flash *flash,
                               const uint8_t image[GRIDPROFILE_STORE_IMAGE_BYTES])
{
    struct record found[BANKS_COUNT];
    unsigned counts = read_both(flash, found), other = counts == 0 ? 1 : 0;
    if (counts == NONE)
        return none_counts(found);
    if (found[counts].counter == UINT32_MAX)
        return BANKS_NO_COUNTER;
    memcpy(found[other].bytes + BANKS_COUNTER_BYTES, image, GRIDPROFILE_STORE_IMAGE_BYTES);
    return write_record(flash, other, found[counts].counter + 1, found);
}

/* The other bank is erased first, so that no bytes of an earlier use are left that could count. */
enum banks_answer banks_format(const struct banks_flash *flash)
{
    struct record found[BANKS_COUNT];
    if (read_both(flash, found) != NONE)
        return BANKS_IN_USE;
    if (!flash->erase(1))
        return BANKS_FAILED;
    memset(found[0].bytes + BANKS_COUNTER_BYTES, 0, GRIDPROFILE_STORE_IMAGE_BYTES);
    return write_record(flash, 0, FIRST_COUNTER, found);
}
