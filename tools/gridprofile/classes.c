/* gridprofile classes STORE [TABLE]
 * and the table of --classes, which other commands take */
#include "program.h"

#include <string.h>

static uint8_t store[STORE_FILE_BYTES + 1];

int refuse_table(const char *command, const struct input *table)
{
    begin_refusal(command, GRIDPROFILE_BAD_TABLE, NULL);
    explain_table(stderr, table);
    return end_refusal(GRIDPROFILE_BAD_TABLE, NULL);
}

int take_classes(const struct request *request, const struct input *table)
{
    if (request->classes == NULL ||
        gridprofile_read_table(table->bytes, table->length, classes, sizeof classes) == 0)
        return 0;
    return refuse_table(request->command, table);
}

int read_with_classes(const struct request *request, struct input *inputs, size_t table)
{
    size_t count = request->classes != NULL ? table + 1 : table;
    int status = check_streams(request, inputs, count);
    if (status == 0)
        status = read_inputs(inputs, count);
    return status != 0 ? status : take_classes(request, &inputs[table]);
}

/* The table as a file has it, so that it can be loaded into another store. */
static int print_classes(const struct request *request)
{
    struct input read = store_input(request->arguments[0], store);
    int status = read_store(&read);
    if (status != 0)
        return status;
    if (read.length != GRIDPROFILE_STORE_IMAGE_BYTES)
        return refused(request->command, GRIDPROFILE_BAD_SIZE, &read, 1, NULL, 0);
    status = check_table(&read);
    if (status == 0)
        print_rows(stdout, classes);
    return status;
}

static void print_name_of(FILE *to, const uint8_t *table)
{
    size_t rows = count_rows(table);
    fprintf(to, "a table of %zu class%s: ", rows, rows == 1 ? "" : "es");
    print_letters(to, table);
    fputs(".\n", to);
}

static void print_accepted(FILE *to)
{
    fputs("Accepted: ", to);
    print_name_of(to, store + GRIDPROFILE_STORE_TABLE_OFFSET);
    fputs("It replaces ", to);
    if (is_built_in(classes))
        fputs("the built-in classes.\n", to);
    else
        print_name_of(to, classes);
}

static int load_classes(const struct request *request)
{
    static struct output output;
    struct input inputs[] = {
        store_input(request->arguments[0], store),
        table_input(request->arguments[1]),
    };
    int status = check_streams(request, inputs, COUNT(inputs)), answer;
    if (status == 0)
        status = find_store(&output, request, request->arguments[0]);
    if (status == 0)
        status = read_inputs(inputs + 1, 1);
    if (status == 0)
        status = read_locked(&output, inputs);
    if (status != 0)
        return status;
    answer = gridprofile_load_table(store, inputs[0].length, inputs[1].bytes, inputs[1].length);
    if (answer == GRIDPROFILE_BAD_TABLE)
        return refuse_table(request->command, &inputs[1]);
    if (answer != 0)
        return refused(request->command, answer, inputs, COUNT(inputs), NULL, 0);
    status = write_store(&output, store);
    if (status == 0)
        print_accepted(report_of(&output));
    return status;
}

int run_classes(const struct request *request)
{
    return request->arguments[1] != NULL ? load_classes(request) : print_classes(request);
}
