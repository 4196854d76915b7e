/* gridprofile evaluate [FILE] [--classes TABLE] */
#include "program.h"

#include <string.h>

/* A sheet, and what became of its lines. */
struct sheet {
    struct part text;
    size_t lines, refused;
    struct part first; /* of those refused */
    size_t number;     /* of that line, counted from 1 */
    int answer;        /* to it */
};

static int evaluate(struct part line, FILE *to)
{
    uint8_t plain[GRIDPROFILE_LINE_MAX_BYTES];
    size_t length = 0;
    int answer = gridprofile_evaluate_line(classes, sizeof classes, line.at, line.length, plain,
                                           sizeof plain, &length);
    if (answer == 0 && to != NULL)
        (void)fwrite(plain, 1, length, to);
    return answer;
}

/* Up to the next line feed, and with it. */
static struct part next_line(struct part rest)
{
    const uint8_t *feed = memchr(rest.at, '\n', rest.length);
    return (struct part){rest.at, feed != NULL ? (size_t)(feed + 1 - rest.at) : rest.length};
}

/* Line after line; each is printed where there is a stream for it. A sheet without a byte is one line
 * without a byte, so that the library refuses it. */
static void evaluate_all(struct sheet *sheet, FILE *to)
{
    struct part rest = sheet->text;
    do {
        struct part line = next_line(rest);
        int answer = evaluate(line, to);
        sheet->lines++;
        if (answer != 0 && sheet->refused++ == 0) {
            sheet->first = line;
            sheet->number = sheet->lines;
            sheet->answer = answer;
        }
        rest = (struct part){rest.at + line.length, rest.length - line.length};
    } while (rest.length > 0);
}

/* What to do, where the number's own advice does not fit a sheet; else NULL. */
static const char *advice_on(int answer)
{
    if (answer == GRIDPROFILE_BAD_SIZE)
        return "see whether it is a sheet of profile lines; `gridprofile help evaluate` has the rules";
    if (answer == GRIDPROFILE_BAD_PROFILE)
        return "correct the line; `gridprofile help line` and `gridprofile help evaluate` have the rules";
    return NULL;
}

static int refuse(const char *command, const struct sheet *sheet)
{
    int answer = sheet->answer;
    begin_refusal(command, answer, answer == GRIDPROFILE_BAD_SIZE ? "a line is too long" : NULL);
    fprintf(stderr, "  %zu of %zu lines refused, and none printed; the first is line %zu:\n",
            sheet->refused, sheet->lines, sheet->number);
    explain_formulas(stderr, answer, sheet->first);
    return end_refusal(answer, advice_on(answer));
}

static int refuse_size(const char *command)
{
    char meaning[64];
    (void)snprintf(meaning, sizeof meaning, "the sheet has more than %d bytes",
                   GRIDPROFILE_PREVIEW_MAX_BYTES);
    return refused_because(command, GRIDPROFILE_BAD_SIZE, meaning, "cut it into several sheets");
}

/* Every line is judged before the first is printed: the half of a sheet must not be taken for all. */
int run_evaluate(const struct request *request)
{
    static uint8_t bytes[GRIDPROFILE_PREVIEW_MAX_BYTES + 1];
    const char *path = request->arguments[0] != NULL ? request->arguments[0] : "-";
    struct input inputs[] = {
        {.role = "FILE", .path = path, .bytes = bytes, .room = sizeof bytes},
        table_input(request->classes),
    };
    struct sheet sheet = {.lines = 0};
    int status = read_with_classes(request, inputs, 1);
    if (status != 0)
        return status;
    if (inputs[0].length > GRIDPROFILE_PREVIEW_MAX_BYTES)
        return refuse_size(request->command);
    sheet.text = (struct part){bytes, inputs[0].length};
    evaluate_all(&sheet, NULL);
    if (sheet.refused > 0)
        return refuse(request->command, &sheet);
    evaluate_all(&sheet, stdout);
    return 0;
}
