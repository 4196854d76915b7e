/* Words sorted into arguments and options. */
#include "program.h"

#include <stdlib.h>
#include <string.h>

/* Longer than any option. */
enum { OPTION_BYTES = 32 };

/* A loading run takes a fraction of a second. */
enum { WAIT_SECONDS = 30, MOST_WAIT_SECONDS = 86400 };

/* The place of an option's value, or NULL for one that has none or is none. */
static const char **value_of(struct request *request, const char *option)
{
    if (strcmp(option, "--given-master-seed") == 0)
        return &request->given_master;
    if (strcmp(option, "--given-salt") == 0)
        return &request->given_salt;
    if (strcmp(option, "--classes") == 0)
        return &request->classes;
    return strcmp(option, "--key") == 0 ? &request->key : NULL;
}

/* A value that is empty must be seen in a message. */
static const char *shown(const char *value)
{
    return *value != '\0' ? value : "\"\"";
}

/* A number that is too great for the type is read as the greatest. */
static int read_wait(struct request *request, const char *text)
{
    size_t digits = strspn(text, "0123456789");
    unsigned long seconds = strtoul(text, NULL, 10);
    if (digits == 0 || text[digits] != '\0' || seconds > MOST_WAIT_SECONDS)
        return wrong_usage(request->command, "--wait takes a number of seconds up to 86400, not ",
                           shown(text));
    request->wait = (unsigned)seconds;
    return 0;
}

static int read_category(struct request *request, const char *text)
{
    if (request->category != NULL)
        return wrong_usage(request->command, "given twice: ", "--category");
    request->category = category_named(text);
    if (request->category == NULL)
        return wrong_usage(request->command, "--category takes 1, 3 or 5, not ", shown(text));
    return 0;
}

static int read_value(struct request *request, const char *option, const char *value)
{
    const char **place = value_of(request, option);
    if (strcmp(option, "--category") == 0)
        return read_category(request, value);
    if (place == NULL)
        return read_wait(request, value);
    if (*place != NULL)
        return wrong_usage(request->command, "given twice: ", option);
    *place = value;
    return 0;
}

/* Takes an option, and its value behind `=` or in the next word; answers 0 or the exit status. */
static int read_option(struct request *request, char ***words)
{
    char option[OPTION_BYTES] = "";
    const char *word = **words, *value = strchr(word, '=');
    size_t length = strcspn(word, "=");
    if (length < sizeof option)
        memcpy(option, word, length);
    if (!takes_option(request->command, option))
        return wrong_usage(request->command, "there is no option ", word);
    if (strcmp(option, "--force") == 0) {
        request->force = 1;
        return value == NULL ? 0 : wrong_usage(request->command, "this option has no value: ", word);
    }
    if (value != NULL)
        return read_value(request, option, value + 1);
    if ((*words)[1] == NULL)
        return wrong_usage(request->command, "a value is missing after ", option);
    return read_value(request, option, *++*words);
}

int is_help(const char *word)
{
    return strcmp(word, "--help") == 0 || strcmp(word, "-h") == 0;
}

static int has_value(const char *word)
{
    static struct request any;
    return value_of(&any, word) != NULL || strcmp(word, "--wait") == 0 ||
           strcmp(word, "--category") == 0;
}

/* Up to a word `--`, after which every word is an argument; the value of an option is none either. */
int asks_help(char **words)
{
    for (; *words != NULL && strcmp(*words, "--") != 0; words++) {
        if (is_help(*words))
            return 1;
        if (has_value(*words) && words[1] != NULL)
            words++;
    }
    return 0;
}

/* Without sign, spaces or leading zeros, and of 32 bits. A number that is too great for the type is read
 * as the greatest, which is too great here as well. */
uint32_t decimal_of(const char *text, uint32_t otherwise)
{
    unsigned long long value = strtoull(text, NULL, 10);
    size_t digits = strspn(text, "0123456789");
    if (digits == 0 || text[digits] != '\0' || (text[0] == '0' && digits > 1) || value > UINT32_MAX)
        return otherwise;
    return (uint32_t)value;
}

/* Options may stand anywhere; after a word `--` every word is an argument. */
int read_request(struct request *request, char **words)
{
    size_t count = 0;
    int status = 0, plain = 0;
    request->wait = WAIT_SECONDS;
    for (; *words != NULL && status == 0; words++) {
        const char *word = *words;
        if (!plain && strcmp(word, "--") == 0)
            plain = 1;
        else if (!plain && word[0] == '-' && word[1] != '\0')
            status = read_option(request, &words);
        else if (count + 1 < COUNT(request->arguments))
            request->arguments[count++] = *words;
        else
            status = wrong_usage(request->command, "too many arguments", "");
    }
    if (request->category == NULL)
        request->category = &categories[0];
    return status;
}
