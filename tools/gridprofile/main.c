/* gridprofile: keys, packages and stores of signed grid profiles, on the command line. */
#include "program.h"

#include <fcntl.h>
#include <signal.h>
#include <string.h>
#include <unistd.h>

struct command {
    const char *name;
    size_t least, most; /* arguments */
    size_t writes;      /* with how many it writes a file, so that it prints only what it did; or 0 */
    int (*run)(const struct request *request);
};

static const struct command commands[] = {
    {"new-key", 2, 2, 2, run_new_key}, {"key", 2, 2, 2, run_key},
    {"sign", 3, 3, 3, run_sign},       {"verify", 2, 2, 0, run_verify},
    {"new-store", 1, 1, 1, run_new_store}, {"classes", 1, 2, 2, run_classes},
    {"load", 6, 6, 6, run_load},       {"lookup", 4, 4, 0, run_lookup},
    {"nearest", 4, 4, 0, run_nearest}, {"show", 1, 1, 0, run_show},
    {"preview", 0, 1, 0, run_preview}, {"evaluate", 0, 1, 0, run_evaluate},
};

static const struct command *find_command(const char *name)
{
    for (size_t at = 0; at < COUNT(commands); at++)
        if (strcmp(commands[at].name, name) == 0)
            return &commands[at];
    return NULL;
}

/* A write that fails is reported, and what was begun is removed, so these must not end us. */
static void hold_signals(void)
{
    (void)signal(SIGPIPE, SIG_IGN);
    (void)signal(SIGXFSZ, SIG_IGN);
}

/* A file that we open must not get the number of a stream that was closed: what is printed would go
 * into it. So each closed stream becomes one that cannot be used; answers whether none is left. */
static int occupy_streams(void)
{
    for (int stream = STDIN_FILENO; stream <= STDERR_FILENO; stream++)
        if (fcntl(stream, F_GETFD) < 0 &&
            open("/dev/null", stream == STDIN_FILENO ? O_WRONLY : O_RDONLY) != stream)
            return 0;
    return 1;
}

/* Help and version, of the whole program: answers whether the words ask for it. */
static int tell(char **words, int *status)
{
    *status = 0;
    if (strcmp(words[0], "--version") == 0)
        puts("gridprofile " GRIDPROFILE_VERSION);
    else if (strcmp(words[0], "help") == 0 && words[1] != NULL && !is_help(words[1]))
        *status = print_help(words[1]);
    else if (strcmp(words[0], "help") == 0 || is_help(words[0]))
        print_usage(stdout);
    else
        return 0;
    return 1;
}

static size_t count_arguments(const struct request *request)
{
    size_t count = 0;
    while (request->arguments[count] != NULL)
        count++;
    return count;
}

static int run_command(const struct command *command, char **words, int *is_report)
{
    static struct request request;
    int status;
    size_t count;
    request.command = command->name;
    status = read_request(&request, words);
    if (status != 0)
        return status;
    count = count_arguments(&request);
    if (count < command->least || count > command->most)
        return wrong_usage(command->name, count < command->least ? "an argument is missing"
                                                                 : "too many arguments", "");
    *is_report = command->writes != 0 && count >= command->writes;
    return command->run(&request);
}

static int run(char **words, int *is_report)
{
    const struct command *command;
    int status;
    if (words[0] == NULL)
        return wrong_usage("", "a command is missing", "");
    if (tell(words, &status))
        return status;
    command = find_command(words[0]);
    if (command == NULL)
        return wrong_usage("", "there is no command ", words[0]);
    if (asks_help(words + 1))
        return print_help(words[0]);
    return run_command(command, words + 1, is_report);
}

int main(int count, char **words)
{
    int status, written, is_report = 0;
    if (!occupy_streams())
        return FILE_TROUBLE;
    hold_signals();
    (void)setvbuf(stderr, NULL, _IOLBF, BUFSIZ); /* whole lines, also beside other runs */
    keep_no_core(); /* for every command, since a seed may be given by mistake */
    status = run(count > 0 ? words + 1 : words, &is_report);
    written = finish_text(is_report);
    return status != 0 ? status : written;
}
