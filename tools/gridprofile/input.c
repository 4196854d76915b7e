/* Files read: into a buffer of fixed size, and never past its end. */
#include "program.h"

#include <errno.h>
#include <fcntl.h>
#include <string.h>
#include <sys/stat.h>
#include <unistd.h>

int is_stream(const char *path)
{
    return strcmp(path, "-") == 0;
}

/* The room is more than the greatest size of any category, so that a file of another one is told, also
 * from a stream. */
struct input sized_input(const struct category *category, enum sized sized, const char *path,
                         uint8_t *bytes, size_t room)
{
    static const char *const roles[] = {
        [PRIVATE_SIZE] = "PRIVATE", [MASTER_SIZE] = "MASTER",   [SALT_SIZE] = "SALT",
        [KEY_SIZE] = "KEY",         [PACKAGE_SIZE] = "PACKAGE",
    };
    struct span span = span_of(category, sized);
    struct input input = {.role = roles[sized], .path = path, .bytes = bytes, .room = room};
    input.category = category;
    input.sized = sized;
    input.least = span.least;
    input.most = span.most;
    input.secret = sized == PRIVATE_SIZE || sized == MASTER_SIZE;
    return input;
}

int is_size_taken(const struct input *input)
{
    return (input->length >= input->least && input->length <= input->most) ||
           (input->also != 0 && input->length == input->also);
}

/* Reads until the input ends or the room is full. */
static int read_all(int file, uint8_t *bytes, size_t room, size_t *length)
{
    *length = 0;
    while (*length < room) {
        ssize_t got = read(file, bytes + *length, room - *length);
        if (got == 0)
            break;
        if (got < 0 && errno != EINTR)
            return -1;
        *length += got > 0 ? (size_t)got : 0;
    }
    return 0;
}

/* With the tag of either kind of line, and a comma. */
static int begins_as_line(const struct input *input)
{
    return input->length >= 4 && (memcmp(input->bytes, "GP1,", 4) == 0 ||
                                  memcmp(input->bytes, "GP2,", 4) == 0);
}

/* The whole size, for the messages alone; and a seed that others can read is no secret. */
static void look_at(struct input *input, int file)
{
    struct stat found;
    input->size = input->length;
    input->begins_as_line = begins_as_line(input);
    if (fstat(file, &found) != 0 || !S_ISREG(found.st_mode))
        return;
    if (found.st_size > 0 && (size_t)found.st_size > input->size)
        input->size = (size_t)found.st_size;
    input->closed = (found.st_mode & (S_IRGRP | S_IROTH)) == 0;
    if (input->secret && is_size_taken(input) && (found.st_mode & 066) != 0)
        warn(input_name(input), "this seed is secret, but others can read or change it: chmod 600");
}

const char *input_name(const struct input *input)
{
    return is_stream(input->path) ? "standard input" : input->path;
}

static int read_input(struct input *input)
{
    int stream = is_stream(input->path), failed, reason;
    const char *path = input->target != NULL ? input->target : input->path;
    int file = stream ? STDIN_FILENO : open(path, O_RDONLY | O_CLOEXEC);
    if (file < 0)
        return file_trouble("read", input_name(input), strerror(errno));
    failed = read_all(file, input->bytes, input->room, &input->length);
    reason = errno;
    if (!failed)
        look_at(input, file);
    if (!stream)
        (void)close(file);
    return failed ? file_trouble("read", input_name(input), strerror(reason)) : 0;
}

int check_streams(const struct request *request, const struct input *inputs, size_t count)
{
    size_t streams = 0;
    for (size_t at = 0; at < count; at++)
        streams += is_stream(inputs[at].path) ? 1 : 0;
    if (streams > 1)
        return wrong_usage(request->command, "only one input can be standard input", "");
    return 0;
}

int read_inputs(struct input *inputs, size_t count)
{
    int status = 0;
    for (size_t at = 0; at < count && status == 0; at++)
        status = read_input(&inputs[at]);
    return status;
}

/* A whole profile line, whatever its classes are: no seed and no key is one by chance. What may be a
 * seed is not read as a line, since that would leave traces of it on the stack. */
static int is_profile(const struct input *input)
{
    return input->begins_as_line && is_line_of_some_table(input->bytes, input->length);
}

int spare_lines(const struct request *request, const struct input *inputs, size_t count)
{
    char what[80];
    for (size_t at = 0; at < count; at++) {
        if (inputs[at].category == NULL || !is_size_taken(&inputs[at]) || !is_profile(&inputs[at]))
            continue;
        (void)snprintf(what, sizeof what, "%s is a profile line%s", inputs[at].role,
                       inputs[at].sized == KEY_SIZE ? "" : ", which everybody may know");
        return misused(request->command, what, "see whether files are exchanged");
    }
    return 0;
}
