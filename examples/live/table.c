/* The inputs by instant, from a table, and the outputs, which are printed as `ltta run` prints them. */
#include <inttypes.h>
#include <stdio.h>
#include <stdlib.h>
#include <string.h>
#include "node.h"

enum { ROWS = 100000, LINE = 4096 };
static int64_t *table;         /* the inputs of all instants */
static size_t count;           /* of instants */
static struct cell *shown;     /* the outputs of all instants */

size_t rows(void)
{
    return count;
}

/* Past the last row these are the first row's, which is not used. */
const int64_t *inputs_of(size_t instant)
{
    return table + (instant < count ? instant : 0) * node_input_count;
}

struct cell *outputs_of(size_t instant)
{
    return shown + instant * node_output_count;
}

/* Where the columns of this node are, by the first line. */
static void find_columns(char *line, size_t *column)
{
    size_t at = 0;
    for (char *field = strtok(line, ",\r\n"); field != NULL; field = strtok(NULL, ",\r\n"), at++) {
        for (size_t i = 0; i < node_input_count; i++) {
            if (strcmp(field, node_inputs[i].name) == 0) { column[i] = at; }
        }
    }
}

/* Takes a row. */
static void add_row(char *line, const size_t *column)
{
    size_t at = 0;
    for (char *field = strtok(line, ",\r\n"); field != NULL; field = strtok(NULL, ",\r\n"), at++) {
        for (size_t i = 0; i < node_input_count; i++) {
            int64_t value = node_inputs[i].truth ? strcmp(field, "true") == 0 : strtoll(field, NULL, 10);
            if (column[i] == at) { table[count * node_input_count + i] = value; }
        }
    }
    count += at == 0 ? 0u : 1u;
}

/* Reads the columns of this node; how many rows there are is asked of every node. */
void read_inputs(const char *path)
{
    char line[LINE];
    size_t column[NODE_CELLS] = { 0 };
    FILE *file = fopen(path, "r");
    table = calloc(ROWS * (node_input_count + 1), sizeof table[0]);
    shown = calloc((ROWS + 1) * (node_output_count + 1), sizeof shown[0]);
    if (file == NULL || table == NULL || shown == NULL || fgets(line, sizeof line, file) == NULL) { fail("inputs"); }
    find_columns(line, column);
    while (count < ROWS && fgets(line, sizeof line, file) != NULL) { add_row(line, column); }
    (void)fclose(file);
}

static void print_cell(const struct cell *x, bool truth)
{
    if (!x->present) {
        printf(" .");
    } else if (truth) {
        printf(x->value != 0 ? " true" : " false");
    } else {
        printf(" %" PRId64, x->value);
    }
}

void print_outputs(size_t executed)
{
    for (size_t o = 0; o < node_output_count; o++) {
        printf("%s:", node_outputs[o].name);
        for (size_t k = 0; k < executed; k++) { print_cell(&shown[k * node_output_count + o], node_outputs[o].truth); }
        printf("\n");
    }
}
