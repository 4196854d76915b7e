/* Files written whole or not at all: into a temporary file in the same folder, which then takes the
 * name. */
#include "program.h"

#include <errno.h>
#include <fcntl.h>
#include <signal.h>
#include <stdlib.h>
#include <string.h>
#include <sys/stat.h>
#include <unistd.h>

static int write_all(int file, const uint8_t *bytes, size_t length)
{
    size_t done = 0;
    while (done < length) {
        ssize_t put = write(file, bytes + done, length - done);
        if (put < 0 && errno != EINTR)
            return -1;
        done += put > 0 ? (size_t)put : 0;
    }
    return 0;
}

/* Says why a file is not written, with the system's own reason. */
static int trouble(const struct output *output, const char *what)
{
    char why[160];
    (void)snprintf(why, sizeof why, "%s%s", what, strerror(errno));
    return file_trouble("write", output->path, why);
}

/* Where the owner of what is replaced cannot be kept, nothing is: a file that changes hands may shut
 * its readers out. */
static int keep_owner(const struct output *output, int file)
{
    struct stat made;
    if (!output->exists)
        return 0;
    if (fstat(file, &made) != 0)
        return -1;
    if (made.st_uid == output->owner && made.st_gid == output->group)
        return 0;
    return fchown(file, output->owner, output->group);
}

/* Writes and closes a new file; where that fails, it is removed. The owner comes first, since
 * changing it can take permissions away. */
static int fill(const struct output *output, int file, const char *name, const uint8_t *bytes,
                size_t length)
{
    int status = 0;
    if (keep_owner(output, file) != 0)
        status = trouble(output, "its owner cannot be kept, so that only its owner can write it: ");
    else if (write_all(file, bytes, length) != 0 || fchmod(file, output->mode) != 0 ||
             fsync(file) != 0)
        status = trouble(output, "");
    if (close(file) != 0 && status == 0)
        status = trouble(output, "");
    if (status != 0)
        (void)unlink(name);
    return status;
}

/* Writes a new file beside the target. */
static int begin(struct output *output, const uint8_t *bytes, size_t length)
{
    int size = snprintf(output->begun, sizeof output->begun, "%s/%sXXXXXX", output->folder,
                        unfinished);
    int file;
    if (size < 0 || (size_t)size >= sizeof output->begun)
        return file_trouble("write", output->path, strerror(ENAMETOOLONG));
    file = mkstemp(output->begun);
    return file < 0 ? trouble(output, "") : fill(output, file, output->begun, bytes, length);
}

/* Where a file system has no other way: the name is taken by an empty file, which is then replaced. */
static int take_name(const struct output *output)
{
    int file = open(output->target, O_WRONLY | O_CREAT | O_EXCL | O_CLOEXEC, 0600);
    if (file < 0)
        return -1;
    (void)close(file);
    if (rename(output->begun, output->target) == 0)
        return 0;
    (void)unlink(output->target);
    return -1;
}

/* Gives the new file its name. Where there was none by this name, none that came since is replaced; a
 * file system that cannot promise that gets a second name for the file, which it refuses likewise. */
static int give_name(const struct output *output)
{
    if (output->exists)
        return rename(output->begun, output->target);
    if (renameat2(AT_FDCWD, output->begun, AT_FDCWD, output->target, RENAME_NOREPLACE) == 0)
        return 0;
    if (errno != EINVAL && errno != ENOSYS)
        return -1;
    if (link(output->begun, output->target) != 0)
        return take_name(output);
    (void)unlink(output->begun);
    return 0;
}

/* The new name is made to last through a loss of power. Where a file system cannot do that for a
 * folder, the file is whole all the same. */
static int place(const struct output *output)
{
    int status;
    if (give_name(output) != 0) {
        status = trouble(output, "");
        (void)unlink(output->begun);
        return status;
    }
    if (output->lock >= 0)
        (void)fsync(output->lock);
    return 0;
}

static int write_stream(const uint8_t *bytes, size_t length)
{
    if (write_all(STDOUT_FILENO, bytes, length) != 0)
        return file_trouble("write", "standard output", strerror(errno));
    return 0;
}

/* An interruption between the steps would leave the temporary file until the next run. */
static void block_signals(sigset_t *before)
{
    sigset_t all;
    (void)sigfillset(&all);
    (void)sigprocmask(SIG_BLOCK, &all, before);
}

static void unblock_signals(const sigset_t *before)
{
    (void)sigprocmask(SIG_SETMASK, before, NULL);
}

int write_output(struct output *output, const uint8_t *bytes, size_t length)
{
    sigset_t before;
    int status;
    if (is_stream(output->path))
        return write_stream(bytes, length);
    status = lock_output(output);
    if (status != 0)
        return status;
    block_signals(&before);
    status = begin(output, bytes, length);
    if (status == 0)
        status = place(output);
    unblock_signals(&before);
    unlock_output(output);
    return status;
}

/* The first is taken back where the second does not get its name: nobody else has it yet, as the
 * folder is locked. */
static int place_both(const struct output *one, const struct output *other)
{
    int status = place(one);
    if (status != 0) {
        (void)unlink(other->begun);
        return status;
    }
    status = place(other);
    if (status != 0 && unlink(one->target) != 0)
        return trouble(one, "it is written, although the other file is not: ");
    return status;
}

/* Both files or none. */
int write_both(struct output *one, const uint8_t *one_bytes, size_t one_length,
               struct output *other, const uint8_t *other_bytes, size_t other_length)
{
    sigset_t before;
    int status = lock_both(one, other);
    if (status != 0)
        return status;
    block_signals(&before);
    status = begin(one, one_bytes, one_length);
    if (status == 0) {
        status = begin(other, other_bytes, other_length);
        if (status != 0)
            (void)unlink(one->begun);
        else
            status = place_both(one, other);
    }
    unblock_signals(&before);
    unlock_output(one);
    unlock_output(other);
    return status;
}

/* Where the text only tells of a file that is written, that it cannot be written is no failure. */
int finish_text(int is_report)
{
    int failed = ferror(stdout);
    errno = failed ? EIO : 0;
    if (fclose(stdout) == 0 && !failed)
        return 0;
    if (is_report) {
        warn("standard output", "it cannot be written; what was asked for is done all the same");
        return 0;
    }
    return file_trouble("write", "standard output", strerror(errno));
}
