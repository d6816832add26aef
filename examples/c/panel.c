/* panel < JOB: prints the plan of a job as the program `plan` does, by calling the proved code from C. */
#include "panel.h"
#include <stdio.h>

#define LENGTH(a) (sizeof(a) / sizeof((a)[0]))
#define LENT(a) a, LENGTH(a)

/* One byte more than a job of `plan` may have, and the rooms that `plan` lends. */
static uint8_t job[65537], text[PANEL_TEXT];
static double shapes[PANEL_STRIPS], sheet[PANEL_STRIPS], placed[PANEL_STRIPS];
static uint16_t sheet_entries[PANEL_ENTRIES], placed_entries[PANEL_ENTRIES];
static uint16_t sheet_firsts[PANEL_FIRSTS], placed_firsts[PANEL_FIRSTS];
static double intervals[PANEL_INTERVALS], positions[PANEL_POSITIONS];

int main(void) {
    size_t n = fread(job, 1, sizeof job, stdin);
    if (n > 65536) {
        puts("no 11");
        return 0;
    }
    size_t end = panel_nest(job, n, LENT(shapes), LENT(sheet), LENT(placed), LENT(sheet_entries),
                            LENT(placed_entries), LENT(sheet_firsts), LENT(placed_firsts),
                            LENT(intervals), LENT(positions), LENT(text));
    return fwrite(text, 1, end, stdout) == end ? 0 : 1;
}
