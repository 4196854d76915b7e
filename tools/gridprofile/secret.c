/* Secrets: drawn, kept out of files, wiped from memory. */
#include "program.h"

#include <errno.h>
#include <stdlib.h>
#include <string.h>
#include <sys/prctl.h>
#include <sys/random.h>
#include <sys/resource.h>
#include <ucontext.h>

/* More than any function of the library uses: signing at category 5, the greatest, takes some 250 KB,
 * which `make bench` measures. */
#define STACK_BYTES (512 * 1024)

/* So many bytes in a row are not equal by chance. */
#define TELLING_BYTES 16

/* A crash must not write the seeds to a file. The limit alone does not hold where the system hands
 * what crashed to another program. */
void keep_no_core(void)
{
    const struct rlimit none = {0, 0};
    (void)setrlimit(RLIMIT_CORE, &none);
    (void)prctl(PR_SET_DUMPABLE, 0);
}

/* volatile, so that the compiler does not drop writes to memory that nobody reads again. */
void wipe(void *bytes, size_t length)
{
    volatile uint8_t *at = bytes;
    for (size_t left = length; left > 0; left--)
        *at++ = 0;
}

static void (*apart)(void);

static void start_apart(void)
{
    apart();
}

/* The library has no memory but the stack: on one of our own, all that it computed from the seeds can
 * be wiped, and a small limit on the program's stack does not matter. Work that was not done must not
 * be taken for done. */
void run_apart(void (*work)(void))
{
    static _Alignas(16) uint8_t stack[STACK_BYTES];
    static ucontext_t inside, outside;
    apart = work;
    if (getcontext(&inside) != 0)
        abort();
    inside.uc_stack.ss_sp = stack;
    inside.uc_stack.ss_size = sizeof stack;
    inside.uc_link = &outside;
    makecontext(&inside, start_apart, 0);
    if (swapcontext(&outside, &inside) != 0)
        abort();
    wipe(stack, sizeof stack);
}

/* Random bytes from the operating system, which waits until it has them. */
int draw(uint8_t *bytes, size_t length)
{
    size_t done = 0;
    while (done < length) {
        ssize_t got = getrandom(bytes + done, length - done, 0);
        if (got < 0 && errno != EINTR) {
            fprintf(stderr, "gridprofile: the system gives no random bytes: %s\n", strerror(errno));
            return NO_RANDOM_BYTES;
        }
        done += got > 0 ? (size_t)got : 0;
    }
    return 0;
}

/* Whether a part of the seed that tells stands in the bytes. */
int share_bytes(const uint8_t *seed, size_t seed_length, const uint8_t *bytes, size_t length)
{
    for (size_t at = 0; at + TELLING_BYTES <= seed_length; at++)
        if (memmem(bytes, length, seed + at, TELLING_BYTES) != NULL)
            return 1;
    return 0;
}
