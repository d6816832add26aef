/* edit KIND QUANTITY < JOB > OTHER: the same job with another quantity of one kind, by the proved code: the job's bytes become
   tables, one number of them changes, and the tables become bytes. A refusal is one line on standard error. */
#include "panel.h"
#include <stdio.h>
#include <stdlib.h>

#define LENGTH(a) (sizeof(a) / sizeof((a)[0]))
#define LENT(a) a, LENGTH(a)

/* The longest job of `plan`, and tables for any job of that length. */
static uint8_t job[65536], other[65536];
static uint64_t header[PANEL_HEADER], rows[PANEL_ROWS], counts[65536], length[1];
static double resolution[1], areas[PANEL_AREAS], coordinates[8192];

static int refused(uint64_t number) {
    fprintf(stderr, "no %llu\n", (unsigned long long)number);
    return 1;
}

int main(int argc, char **argv) {
    if (argc != 3) {
        fprintf(stderr, "usage: edit KIND QUANTITY < JOB > OTHER\n");
        return 2;
    }
    size_t n = fread(job, 1, sizeof job, stdin);
    uint64_t number = panel_tables(job, n, LENT(header), LENT(resolution), LENT(rows), LENT(areas), LENT(counts), LENT(coordinates));
    if (number != 0)
        return refused(number);
    size_t kind = strtoul(argv[1], NULL, 10);
    if (kind >= header[3])
        return refused(9);
    rows[4 * kind] = strtoull(argv[2], NULL, 10);
    number = panel_write(header, 6, resolution[0], LENT(rows), LENT(areas), LENT(counts), LENT(coordinates), LENT(other), LENT(length));
    if (number != 0)
        return refused(number);
    return fwrite(other, 1, length[0], stdout) == length[0] ? 0 : 1;
}
