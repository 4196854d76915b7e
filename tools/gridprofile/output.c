/* Where an output goes. It is found before the work is done, so that a bad place is seen at once. */
#include "program.h"

#include <errno.h>
#include <stdlib.h>
#include <string.h>
#include <sys/stat.h>
#include <unistd.h>

/* What a new file gets: its owner alone may read a seed, everybody what is not secret. The umask
 * can take away more. */
static mode_t new_mode(enum kind kind)
{
    mode_t mask = umask(0);
    (void)umask(mask);
    return (kind == SEED ? 0600 : 0644) & ~mask;
}

/* The part of the target up to its last slash. */
static void name_folder(struct output *output)
{
    const char *slash = strrchr(output->target, '/');
    size_t length = slash == NULL ? 0 : (size_t)(slash - output->target);
    memcpy(output->folder, output->target, length);
    output->folder[length] = '\0';
    if (length == 0)
        strcpy(output->folder, slash == NULL ? "." : "/");
}

/* A file that is there keeps owner and permissions, which are heeded although it is replaced and
 * not written to. Anything but a plain file would be lost by that. */
static int find_old(struct output *output, const struct stat *found)
{
    if (!S_ISREG(found->st_mode))
        return file_trouble("write", output->path, "it is there and is not a plain file");
    if (access(output->target, W_OK) != 0)
        return file_trouble("write", output->path, strerror(errno));
    output->exists = 1;
    output->mode = found->st_mode & 07777;
    output->owner = found->st_uid;
    output->group = found->st_gid;
    return 0;
}

/* A name that there is not yet, in a folder that there must be. */
static int find_new(struct output *output)
{
    char folder[PATH_MAX];
    const char *slash = strrchr(output->path, '/'), *name = slash == NULL ? output->path : slash + 1;
    size_t length = slash == NULL ? 0 : (size_t)(slash - output->path);
    if (*name == '\0' || strlen(output->path) >= sizeof folder)
        return file_trouble("write", output->path, strerror(*name ? ENAMETOOLONG : ENOENT));
    memcpy(folder, output->path, length);
    folder[length] = '\0';
    if (length == 0)
        strcpy(folder, slash == NULL ? "." : "/");
    if (realpath(folder, output->target) == NULL)
        return file_trouble("write", output->path, strerror(errno));
    length = strlen(output->target);
    if (length + 1 + strlen(name) >= sizeof output->target)
        return file_trouble("write", output->path, strerror(ENAMETOOLONG));
    (void)sprintf(output->target + length, "%s%s", length == 1 ? "" : "/", name);
    output->mode = new_mode(output->kind);
    return 0;
}

/* Why a name that leads to no file is not free all the same. */
static int find_missing(struct output *output)
{
    struct stat found;
    if (errno != ENOENT)
        return file_trouble("write", output->path, strerror(errno));
    if (output->is_changed)
        return file_trouble("load into", output->path,
                            "there is no such store; `gridprofile new-store` makes an empty one");
    if (stat(output->path, &found) == 0)
        return file_trouble("write", output->path,
                            "it is not a plain file; `-` is standard output");
    if (lstat(output->path, &found) == 0)
        return file_trouble("write", output->path, "it is a link to nothing");
    return find_new(output);
}

/* A seed is never replaced, of whatever category it is. Nor is a key or a store by something else: that
 * is a slip in the order of the arguments, and --force was not meant for it. */
static int is_spared(enum kind old, enum kind new)
{
    if (old == FORMER_STORE)
        return new != STORE;
    return old == SEED || ((old == KEY || old == STORE) && old != new);
}

static int spare_old(const struct output *output, size_t size)
{
    char why[256];
    if (output->kind == SEED)
        return file_trouble("write", output->path,
                            "it exists, and a private seed is written over no file; choose another "
                            "name");
    if (is_spared(kind_of(size), output->kind)) {
        (void)snprintf(why, sizeof why,
                       "it exists and has the size of %s, which nothing else replaces; choose "
                       "another name, or remove it first", kind_name(size));
        return file_trouble("write", output->path, why);
    }
    if (!output->force)
        return file_trouble("write", output->path, "it exists; --force replaces it");
    return 0;
}

static int find(struct output *output)
{
    struct stat found = {0};
    int status;
    output->exists = 0;
    if (realpath(output->path, output->target) == NULL)
        status = find_missing(output);
    else if (stat(output->target, &found) != 0)
        status = file_trouble("write", output->path, strerror(errno));
    else
        status = find_old(output, &found);
    if (status == 0 && output->exists && !output->is_changed)
        status = spare_old(output, (size_t)found.st_size);
    if (status == 0)
        name_folder(output);
    return status;
}

static int find_first(struct output *output, const struct request *request, const char *path)
{
    output->path = path;
    output->force = request->force;
    output->wait = request->wait;
    output->lock = -1;
    if (!is_stream(path))
        return find(output);
    if (isatty(STDOUT_FILENO))
        return wrong_usage(request->command, "standard output is a terminal, which shows no bytes",
                           "");
    return 0;
}

int find_output(struct output *output, const struct request *request, const char *path,
                enum kind kind)
{
    output->kind = kind;
    output->is_changed = 0;
    return find_first(output, request, path);
}

int find_store(struct output *output, const struct request *request, const char *path)
{
    output->kind = STORE;
    output->is_changed = 1;
    return find_first(output, request, path);
}

/* What was found may have changed until the lock was there. A name that leads elsewhere then is not
 * followed: the lock is on the other folder. */
int find_again(struct output *output)
{
    static char before[PATH_MAX];
    int status;
    strcpy(before, output->target);
    status = find(output);
    if (status == 0 && strcmp(before, output->target) != 0)
        return file_trouble("write", output->path, "it leads to another file now; try again");
    return status;
}

/* An output that is also an input is a slip that would cost a seed. */
static int spare_inputs(const struct request *request, const char *path, const struct input *inputs,
                        size_t count)
{
    struct stat written, read;
    if (is_stream(path) || stat(path, &written) != 0)
        return 0;
    for (size_t at = 0; at < count; at++)
        if (!is_stream(inputs[at].path) && stat(inputs[at].path, &read) == 0 &&
            read.st_dev == written.st_dev && read.st_ino == written.st_ino)
            return wrong_usage(request->command, "the output file is also an input file: ", path);
    return 0;
}

int prepare(struct output *output, const struct request *request, const char *path, enum kind kind,
            struct input *inputs, size_t count)
{
    int status = check_streams(request, inputs, count);
    if (status == 0)
        status = spare_inputs(request, path, inputs, count);
    if (status == 0)
        status = find_output(output, request, path, kind);
    return status != 0 ? status : read_inputs(inputs, count);
}

/* What was done is told where the output does not go. */
FILE *report_of(const struct output *output)
{
    return is_stream(output->path) ? stderr : stdout;
}
