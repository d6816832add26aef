/* panel.h: the panel planner for C (x86-64 Linux).

   LINK     tools/build.sh plan_exports                     makes target/staticlib/libplan_exports.a
            cc -Iinclude program.c target/staticlib/libplan_exports.a
            panel_tables and panel_write are in target/staticlib/libjob_exports.a (tools/build.sh job_exports); both may be linked.
   EXAMPLES examples/c/panel.c is a whole program; the call at the end of this file is its heart. examples/c/edit.c edits a job.

   A job (the sheet, the kinds of panels, their quantities) goes in as bytes, a plan comes out as text and as a table of
   positions; or a list of placed panels is judged; or a job becomes tables, and tables a job. Nothing is allocated, read from
   a file, written to one or kept between calls: all memory is the caller's, beside about 0.6 megabytes of stack during a call.
   Calls in several threads do not disturb each other where their rooms are different ones. Of the C library memset and memcpy
   are called, nothing else.

   UNITS    Coordinates and the resolution are in mm, areas in mm2. Kinds, copies and orientations are numbered from 0, in
            the job's order.

   THE JOB  Packed bits, most significant first, without gaps; zero bits fill the last byte. A double is its 64 bits.
              version 4 bits (1 or 2); in version 2 the start corner 2 (0 lower left, 1 lower right, 2 upper left, 3 upper right)
                and the fill axis 1 (0 along x, 1 along y), in version 1 it is the lower left, along y;
              kinds 7 (1 to 64), rounds of swaps 12, seed 64, resolution 64 (a double), the sheet's set;
              for each kind: quantity 12 (1 to 4,095), fill 1, priority 32 (two's complement), area 64 (a double),
                orientations 5 (1 to 16); for each orientation its apart set (held against placed copies: the outline with its
                spacing), then its inset set (held against the sheet);
              a set: loops 7 (1 to 64); for each loop points 10 (3 to 512, at most 512 in the set); for each point x 64, y 64.
            Outlines run counter-clockwise, holes clockwise. At most 4,096 copies in all. panel_write packs jobs.

   ROOMS    Work memory that the caller lends, each as a pointer and a length; no two may overlap, nor overlap the job's bytes.
            A length counts doubles or uint16_t, not bytes. A room may have any length and hold anything; records that do not
            fit whole are not used, and a room that is too short makes a refusal, no error. These lengths are those of the
            program `plan`:

              room            record                       records   length    constant          bytes    too short
              shapes          strip, 6 doubles             1,365      8,190    PANEL_STRIPS       65,520   20
              sheet           strip, 6 doubles             1,365      8,190    PANEL_STRIPS       65,520   20
              placed          strip, 6 doubles             1,365      8,190    PANEL_STRIPS       65,520   20
              sheet_entries   entry, 1 uint16_t           16,384     16,384    PANEL_ENTRIES      32,768   21
              placed_entries  entry, 1 uint16_t           16,384     16,384    PANEL_ENTRIES      32,768   21
              sheet_firsts    number, 1 uint16_t           1,365      1,365    PANEL_FIRSTS        2,730   20
              placed_firsts   number, 1 uint16_t           1,365      1,365    PANEL_FIRSTS        2,730   20
              intervals       interval, 2 doubles          4,096      8,192    PANEL_INTERVALS    65,536   22
              positions       position, 6 doubles          4,096     24,576    PANEL_POSITIONS   196,608   30
              out             text, 1 uint8_t            589,824    589,824    PANEL_TEXT        589,824   (see panel_nest)

            PANEL_POSITIONS and PANEL_TEXT are enough for every job. What the others need grows with the outlines' corners: a set
            is cut into strips at the x of each of its corners. `shapes` has the strips of every apart and inset set, `sheet` those
            of what is not sheet inside the sheet's bounding box, `placed` the apart strips of every placed copy; a strip has an
            entry in each bucket that it touches, of 512 that share the sheet's width; `sheet_firsts` and `placed_firsts` have the
            number of the first of them, one for each strip of `sheet` or `placed`; `intervals` has the forbidden heights of one
            column for one orientation. Of `sheet` and `placed` at most 65,536 strips are used (3,145,728 bytes), since an entry
            has 16 bits, and no more than there are numbers for; `shapes` has no such limit.

   REFUSALS Fields are judged as they are read: 1, 3 to 6; after the last 2, 7, 8; then 30; 10; 20 and 21 of the sheet; 20 of the
            shapes; then the copies. The first that is met is given. panel_layout has no 10, 22 and 30; after the shapes come its
            lines, each with 4, 9, 25, 26, 27, 20 and 21 in that order. panel_tables has 1 to 8, then 28; panel_write has 3 to 8,
            then 28.
               1  the bytes end inside a field
               2  a filling bit is set, or a further byte follows
               3  the version is neither 1 nor 2; of panel_write also version 1 with another frame than the lower left, along y
               4  the resolution, a coordinate or an area is not finite; of a line its x or y
               5  a coordinate beyond +-100,000 mm, an area outside 0 to 1e12 mm2, a resolution outside 0.001 to 10,000 mm
               6  a count or quantity is outside its range; of panel_write any number but the version that its field cannot hold
               7  more than 4,096 copies in all
               8  the sheet's width, along x its height, / resolution is above 1,000,000
               9  panel_layout alone: the job lacks the line's kind, or the kind its orientation
              10  panel_fill alone: the order is not a rearrangement of the job's copies
              20  shapes, sheet, placed, sheet_firsts or placed_firsts is too short for the strips, or a strip of the sheet or of
                  the placed copies would be the 65,537th
              21  sheet_entries or placed_entries is too short
              22  intervals is too short
              25  panel_layout alone: one copy more than the kind's quantity
              26  panel_layout alone: x is outside its orientation's range and none of its columns, or y outside its range; anywhere,
                  where the outline is wider or higher than the sheet
              27  panel_layout alone: in the way of the sheet's edge, of a hole or of an earlier line's copy
              28  panel_tables: rows, areas, counts or coordinates is too short; panel_write: out is
              30  positions is too short for the job's copies, placed or not
            The programs `plan` and `judge` have 11 besides: a job of more than 65,536 bytes. Here a job may have any length. */
#ifndef PANEL_H
#define PANEL_H

#include <stddef.h>
#include <stdint.h>

#define PANEL_STRIPS (6 * 1365)
#define PANEL_ENTRIES 16384
#define PANEL_FIRSTS 1365
#define PANEL_INTERVALS (2 * 4096)
#define PANEL_POSITIONS (6 * 4096)
#define PANEL_TEXT 589824
#define PANEL_HEADER 8
#define PANEL_ROWS (4 * 64)
#define PANEL_AREAS 64

#ifdef __cplusplus
extern "C" {
#endif

/* The whole plan of a job: copies in the planner's order, then the job's rounds of swaps.

   bytes           the job; only read
   shapes to positions: the rooms above
   out             the text's buffer, at least PANEL_TEXT bytes

   Returned is where the text ends in `out` (it has no closing zero of its own; zero bytes follow to the buffer's end). The
   text is what the program `plan` prints, a plan or one line `no N` with the refusal's number:

     plan PLACED MISSING IMPROVEMENTS        copies placed, copies without a place, swaps that were kept
     put KIND COPY ORIENTATION X Y GAP       for each placed copy, by kind, then copy: how far its outline is moved, and how much
                                             farther up it could have gone, in its column, when it was placed
     left KIND COPIES                        for each ordinary kind that lacks copies
     fill KIND COPIES                        for each fill kind, its placed copies
     look KIND ORIENTATION COLUMNS           for each orientation, columns looked at
     right X                                 where the placed copies end (see below)
     area A                                  the area of the copies without a place
     offcut W                                the sheet's width that is left, right of all copies and of the spacing around them

   Counts are decimal; X, Y, GAP, A and W are a double's bits as 16 hex digits. GAP is 0 or more, and never minus zero. A job
   of version 2 that begins at another corner, or stacks along x, is planned on the sheet as it is seen from there: X and Y of
   `put` are the sheet's own; GAP is in the direction in which copies are stacked, right and offcut in that in which the nest
   advances (right is minus the coordinate where that direction is left or down). In
   `positions` lie the `put` lines as doubles (kind, copy, orientation, x, y, gap: PLACED records of six), with zeros after
   them. The other rooms are left zero; where the job is refused, all of them are, positions too.

   Where out_length is below PANEL_TEXT: 0 is returned, and nothing is written anywhere. */
size_t panel_nest(
    const uint8_t *bytes, size_t bytes_length,
    double *shapes, size_t shapes_length,
    double *sheet, size_t sheet_length,
    double *placed, size_t placed_length,
    uint16_t *sheet_entries, size_t sheet_entries_length,
    uint16_t *placed_entries, size_t placed_entries_length,
    uint16_t *sheet_firsts, size_t sheet_firsts_length,
    uint16_t *placed_firsts, size_t placed_firsts_length,
    double *intervals, size_t intervals_length,
    double *positions, size_t positions_length,
    uint8_t *out, size_t out_length);

/* A filling: the job's copies are placed once, in the order that is given; its rounds and seed are not used.

   order           a kind's number for each copy of the job, each kind as often as its quantity; only read
   the others      as above

   Returned is 0 or the refusal's number. `positions` is left as above, by kind, then copy. How many records it has is not
   returned: all but the first have a kind or copy that is not 0, and an all-zero first record is either kind 0, copy 0,
   orientation 0 at (0, 0) with a gap of 0, or none. The other rooms are left zero; where the filling is refused, all of them
   are. */
uint64_t panel_fill(
    const uint8_t *bytes, size_t bytes_length,
    const size_t *order, size_t order_length,
    double *shapes, size_t shapes_length,
    double *sheet, size_t sheet_length,
    double *placed, size_t placed_length,
    uint16_t *sheet_entries, size_t sheet_entries_length,
    uint16_t *placed_entries, size_t placed_entries_length,
    uint16_t *sheet_firsts, size_t sheet_firsts_length,
    uint16_t *placed_firsts, size_t placed_firsts_length,
    double *intervals, size_t intervals_length,
    double *positions, size_t positions_length);

/* A layout from elsewhere, judged: panels are put down one after another, each held against the sheet and those before it.

   given           four numbers to a line: kind, orientation, and a double's bits for x and for y, as `put` lines have them; only
                   read. A remainder of one to three numbers is no line. In placing order: a plan's own lines are sure to be
                   accepted in the order in which they were placed, and not in that in which they are printed
   line            its first place gets the number of lines that were accepted before the answer: of all of them, or of those
                   before the bad one; 0 where the job is refused. Without a place nothing is written
   the others      as above; intervals and positions are not needed

   Returned is 0 or the refusal's number. All rooms but `line` are left zero, accepted or refused. */
uint64_t panel_layout(
    const uint8_t *bytes, size_t bytes_length,
    const uint64_t *given, size_t given_length,
    double *shapes, size_t shapes_length,
    double *sheet, size_t sheet_length,
    double *placed, size_t placed_length,
    uint16_t *sheet_entries, size_t sheet_entries_length,
    uint16_t *placed_entries, size_t placed_entries_length,
    uint16_t *sheet_firsts, size_t sheet_firsts_length,
    uint16_t *placed_firsts, size_t placed_firsts_length,
    size_t *line, size_t line_length);

/* A job's bytes to tables that a program can edit.

   bytes           the job; only read
   header          PANEL_HEADER places: version, start corner, fill axis, kinds, rounds, seed, how many counts and how many
                   coordinates there are. Version 1 has corner 0 and axis 1
   resolution      one place
   rows            four numbers for each kind: quantity, fill (0 or 1), priority as its 32 bits (4,294,967,295 is -1),
                   orientations. PANEL_ROWS places are enough for every job
   areas           one double for each kind. PANEL_AREAS places are enough
   counts          for each set in the job's order (the sheet's; then for each kind and orientation the apart set, the inset
                   set) its loops, then each loop's points. No more than the job has bytes
   coordinates     x and y of every point, in the job's order; no minus zero. No more than the job's bytes / 8

   Returned is 0 or the refusal's number. Behind each of the four tables lie zeros to the room's end; where the job is refused,
   or one of them does not fit its room (28), all four are left zero, and header and resolution are not written. Of header
   and resolution no more is written than there are places. */
uint64_t panel_tables(
    const uint8_t *bytes, size_t bytes_length,
    uint64_t *header, size_t header_length,
    double *resolution, size_t resolution_length,
    uint64_t *rows, size_t rows_length,
    double *areas, size_t areas_length,
    uint64_t *counts, size_t counts_length,
    double *coordinates, size_t coordinates_length);

/* Tables, as panel_tables leaves them or edited, to a job's bytes.

   header          the first six numbers above; a missing one is 0
   resolution to coordinates: as above; what stands behind the job's own numbers does not matter. A number that a table
                   lacks is 0, a double not a number, and is refused as that
   out             the room for the bytes
   length          its first place gets how many bytes the job has, 0 where it is refused. Without a place nothing is written

   Returned is 0 or the refusal's number, judged field by field in the order of the job's bits, as a reader of them would.
   What is written reads as the job that was given; every minus zero is written as plus zero. The room's other bytes are left
   zero; where the job is refused, all of them are. */
uint64_t panel_write(
    const uint64_t *header, size_t header_length,
    double resolution,
    const uint64_t *rows, size_t rows_length,
    const double *areas, size_t areas_length,
    const uint64_t *counts, size_t counts_length,
    const double *coordinates, size_t coordinates_length,
    uint8_t *out, size_t out_length,
    uint64_t *length, size_t length_length);

#ifdef __cplusplus
}
#endif

/* A call:

     static double shapes[PANEL_STRIPS], sheet[PANEL_STRIPS], placed[PANEL_STRIPS];
     static uint16_t sheet_entries[PANEL_ENTRIES], placed_entries[PANEL_ENTRIES];
     static uint16_t sheet_firsts[PANEL_FIRSTS], placed_firsts[PANEL_FIRSTS];
     static double intervals[PANEL_INTERVALS], positions[PANEL_POSITIONS];
     static uint8_t out[PANEL_TEXT];

     size_t end = panel_nest(job, job_length, shapes, PANEL_STRIPS, sheet, PANEL_STRIPS, placed, PANEL_STRIPS,
                             sheet_entries, PANEL_ENTRIES, placed_entries, PANEL_ENTRIES,
                             sheet_firsts, PANEL_FIRSTS, placed_firsts, PANEL_FIRSTS,
                             intervals, PANEL_INTERVALS, positions, PANEL_POSITIONS, out, PANEL_TEXT);
     fwrite(out, 1, end, stdout);

   `static`, since together they take 1.1 MB, much of a small stack. */

#endif
