/* The lock on an output's folder. It is on the folder, since the file itself is replaced, and ends
 * with the program. Where a folder can be locked, temporary files are made only under the lock, so
 * that whoever has it knows that those which are there are left over from a run that was killed. */
#include "program.h"

#include <dirent.h>
#include <errno.h>
#include <fcntl.h>
#include <string.h>
#include <sys/file.h>
#include <sys/stat.h>
#include <time.h>
#include <unistd.h>

enum { TURNS_A_SECOND = 20 };

/* How the names of temporary files begin; six letters or digits follow. */
const char *const unfinished = ".gridprofile-unfinished-";

static void pause_a_turn(void)
{
    const struct timespec turn = {0, 1000000000L / TURNS_A_SECOND};
    (void)nanosleep(&turn, NULL);
}

/* A folder that cannot be locked, on a file system without locks for instance, is no reason not to
 * write there. Only where a file is changed, two runs at the same time could lose what one wrote. */
static int cannot_lock(struct output *output)
{
    int reason = errno;
    unlock_output(output);
    if (!output->is_changed)
        return 0;
    fputs("gridprofile: a store must be in a folder that can be read and locked\n", stderr);
    return file_trouble("lock the folder of", output->path, strerror(reason));
}

/* Tries until the time is over, and says so once where it takes more than a second. */
static int wait_for_lock(struct output *output)
{
    unsigned long turns = (unsigned long)output->wait * TURNS_A_SECOND;
    for (unsigned long turn = 0; flock(output->lock, LOCK_EX | LOCK_NB) != 0; turn++) {
        if (errno != EWOULDBLOCK && errno != EINTR)
            return cannot_lock(output);
        if (turn >= turns) {
            unlock_output(output);
            return file_trouble("write", output->path,
                                "another program holds the lock on its folder; try again later, or "
                                "wait longer by --wait");
        }
        if (turn == TURNS_A_SECOND)
            warn(output->path, "another program holds the lock on its folder; waiting");
        pause_a_turn();
    }
    return 0;
}

/* Removes what is ours, is plain and has such a name. Where that fails it does no harm. */
static void remove_leftover(int folder, const char *name)
{
    struct stat found;
    size_t length = strlen(unfinished);
    if (strncmp(name, unfinished, length) != 0 || strlen(name) != length + 6)
        return;
    if (fstatat(folder, name, &found, AT_SYMLINK_NOFOLLOW) == 0 && S_ISREG(found.st_mode) &&
        found.st_uid == geteuid())
        (void)unlinkat(folder, name, 0);
}

static void remove_leftovers(const char *path, int folder)
{
    DIR *names = opendir(path);
    struct dirent *entry;
    if (names == NULL)
        return;
    while ((entry = readdir(names)) != NULL)
        remove_leftover(folder, entry->d_name);
    (void)closedir(names);
}

/* Whether a file lies in the folder that is locked, for it or for another file. */
static int is_locked_by(const struct output *output, const struct output *other)
{
    struct stat own, locked;
    return other->lock >= 0 && stat(output->folder, &own) == 0 && fstat(other->lock, &locked) == 0 &&
           own.st_dev == locked.st_dev && own.st_ino == locked.st_ino;
}

/* What is found under the lock is what counts. */
static int settle_lock(struct output *output)
{
    int status = find_again(output);
    if (status == 0 && output->lock >= 0 && !is_locked_by(output, output))
        status = file_trouble("write", output->path, "its folder is another one now; try again");
    if (status != 0)
        unlock_output(output);
    else if (output->lock >= 0)
        remove_leftovers(output->folder, output->lock);
    return status;
}

int lock_output(struct output *output)
{
    int status;
    if (is_stream(output->path) || output->lock >= 0)
        return 0;
    output->lock = open(output->folder, O_RDONLY | O_DIRECTORY | O_CLOEXEC);
    status = output->lock < 0 ? cannot_lock(output) : wait_for_lock(output);
    return status != 0 ? status : settle_lock(output);
}

/* In the order of the folders' names, so that two runs cannot wait for one another. */
int lock_both(struct output *one, struct output *other)
{
    int ordered = strcmp(one->folder, other->folder) <= 0, status;
    struct output *first = ordered ? one : other, *second = ordered ? other : one;
    status = lock_output(first);
    if (status != 0)
        return status;
    if (is_locked_by(second, first)) { /* a second lock would wait for the first */
        second->lock = fcntl(first->lock, F_DUPFD_CLOEXEC, 0);
        status = find_again(second);
    } else {
        status = lock_output(second);
    }
    if (status != 0) {
        unlock_output(first);
        unlock_output(second);
    }
    return status;
}

void unlock_output(struct output *output)
{
    if (output->lock >= 0)
        (void)close(output->lock);
    output->lock = -1;
}
