/* A store that outlasts a loss of power at any moment: two banks of flash, of which one counts. To
 * be copied into firmware: C11, no allocation, no state of its own. It is tested, not proved.
 *
 * A bank holds a record: a counter (4 bytes, low byte first), the image of a store, and the digest
 * of both (SHAKE128, 32 bytes, in every category). A bank is whole where its digest is right. Of two
 * whole banks the one with the greater counter counts; with equal counters, which no commit makes,
 * bank 0 does. A commit writes the other bank and never touches the one that counts, so that after a
 * cut the old store is found, or the new one, and never a mix.
 *
 * A device is formatted once, in the factory, before it holds any profile; a format that was cut is
 * done again there. A customer's class table is a part of the image: it is loaded there too, and
 * committed twice, so that it stands in both banks. From then on one bank is always whole, and a
 * device on which none is has lost its store. It must not go on with an empty one: that would accept
 * old serials again, and a package that was replaced for a good reason would load.
 *
 * Where the bank that counts is damaged later, the older store counts again: two banks cannot tell
 * that from a cut. A store that is committed twice stands in both, and outlasts that too.
 *
 * The digest tells damage, not forgery: whoever can program the flash can make a record.
 *
 * Assumed of the flash: a byte reads the same each time until its bank is erased or programmed,
 * also one whose change was cut. A part that does not promise that has a stricter read, with a
 * margin: the driver uses it as well, and fails where the two differ.
 *
 * Each function has both records on the stack: it needs about 4 KB, and what the driver needs. */
#ifndef BANKS_H
#define BANKS_H

#include <stdbool.h>
#include <stddef.h>
#include <stdint.h>

#include "gridprofile.h"

#ifdef __cplusplus
extern "C" {
#endif

#define BANKS_COUNT 2
#define BANKS_COUNTER_BYTES 4
#define BANKS_DIGEST_OFFSET (BANKS_COUNTER_BYTES + GRIDPROFILE_STORE_IMAGE_BYTES)
#define BANKS_RECORD_BYTES (BANKS_DIGEST_OFFSET + GRIDPROFILE_DIGEST_BYTES)

/* What a byte of erased flash reads as; on some parts that is 0. */
#define BANKS_ERASED 0xFF

/* The driver, which firmware supplies. Banks are 0 and 1, and each has BANKS_RECORD_BYTES or more, in
 * sectors of its own: what erases or programs one must not touch the other. Each function says
 * whether it was done, and returns only when the part has ended its work.
 *
 * erase: the whole bank. program: bytes of an erased bank, from the lowest offset up, each word or
 * page once; a driver for words pads the last one with BANKS_ERASED. read: from the flash itself, not
 * from a cache, which may still have what was there before. It fails where the part reports bytes
 * that it cannot correct, as some do where programming was cut: the bank is then not whole. A driver
 * repeats a read whose failure may pass, since the older store counts where the newer one cannot be
 * read. */
struct banks_flash {
    bool (*erase)(unsigned bank);
    bool (*program)(unsigned bank, size_t offset, const uint8_t *bytes, size_t length);
    bool (*read)(unsigned bank, size_t offset, uint8_t *bytes, size_t length);
};

enum banks_answer {
    BANKS_DONE = 0,   /* found, committed, formatted */
    BANKS_BLANK,      /* both banks are erased: a device that was never formatted */
    BANKS_DAMAGED,    /* no bank is whole, and not both are erased: the store is lost */
    BANKS_FAILED,     /* the flash failed, or reads back other bytes: read the banks again */
    BANKS_NO_COUNTER, /* the counter has its greatest value, so that no record can be newer */
    BANKS_IN_USE      /* a bank is whole: formatting would lose its store */
};

/* Reads the store that counts into RAM. Answers BANKS_DONE; or BANKS_BLANK, with the empty store,
 * which is all zero; or BANKS_DAMAGED, and the image is as it was. Only a factory goes on after
 * BANKS_BLANK, with banks_format; a device in the field treats it like BANKS_DAMAGED. */
enum banks_answer banks_read(const struct banks_flash *flash,
                             uint8_t image[GRIDPROFILE_STORE_IMAGE_BYTES]);

/* Writes a whole store to the bank that does not count, which counts from then on. Only BANKS_DONE
 * says that it is committed. After BANKS_FAILED the old store counts, or the new one if it became
 * whole all the same: read the banks again. It refuses with BANKS_BLANK, BANKS_DAMAGED or
 * BANKS_NO_COUNTER before it changes anything. */
enum banks_answer banks_commit(const struct banks_flash *flash,
                               const uint8_t image[GRIDPROFILE_STORE_IMAGE_BYTES]);

/* Makes a new device, with the empty store, which has the built-in classes. It refuses with
 * BANKS_IN_USE where a bank is whole. */
enum banks_answer banks_format(const struct banks_flash *flash);

#ifdef __cplusplus
}
#endif

#endif
