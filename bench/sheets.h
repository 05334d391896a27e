/* The sheets that listings are timed on, of as many objects as a sheet may have. */
#ifndef SHEETS_H
#define SHEETS_H
#include "plain.h"
#include "race.h"

enum { NUMBERS = WIDTH * MOST, PAIRS = MOST * (MOST - 1) / 2, BYTES = 4 + 12 * MOST };

static void set(int64_t *o, int64_t kind, int64_t px, int64_t py, int64_t qx, int64_t qy)
{
    o[0] = kind, o[1] = px, o[2] = py, o[3] = qx, o[4] = qy;
}

static void pair(int64_t *o, int64_t kind, int64_t reach)
{
    o[0] = kind;
    do {
        for (int k = 1; k < TAG; k++) o[k] = pick(-reach, reach);
    } while (o[1] == o[3] && o[2] == o[4]);
}

static void uniform(int64_t *o, int i) { (void)i; pair(o, pick(1, 3), REACH); }
static void lines(int64_t *o, int i) { (void)i; pair(o, 3, REACH); }
static void grid(int64_t *o, int i) { (void)i; pair(o, pick(1, 3), 3); }
static void sides(int64_t *o, int i)
{
    if (i % 4 != 0) { uniform(o, i); return; }
    set(o, 4, pick(1, 4), 0, 0, 0);
}
static void chains(int64_t *o, int i)
{
    static int64_t x, y;
    if (i % 32 == 0) x = pick(-1500, 1500), y = pick(-1500, 1500);
    o[0] = 1, o[1] = x, o[2] = y;
    do x = o[1] + pick(-9, 9), y = o[2] + pick(-9, 9); while (x == o[1] && y == o[2]);
    o[3] = x, o[4] = y;
}

/* nearly every point that two share is an end of both: in each of four fans all objects begin, or all end, in one place; sides have corners in
   common, and rays and lines go into these */
static void corners(int64_t *o, int i)
{
    int64_t fan = i % 4, x = 600 * fan - 900, y = 600, far_x = x + i / 4 - 64, far_y = y + 65;
    if (i % 16 == 0) set(o, 4, 1 + i / 16 % 4, 0, 0, 0);
    else if (i % 16 == 8) set(o, 2 + i / 16 % 2, 0, 0, i / 32 % 2 == 0 ? 1 : -1, i / 64 % 2 == 0 ? 1 : -1);
    else if (fan == 1) set(o, 2, x, y, far_x, far_y);
    else if (fan == 2) set(o, 1, far_x, far_y, x, y);
    else set(o, 1, x, y, far_x, far_y);
}

static const struct { const char *name; void (*make)(int64_t *, int); } sheets[] = {
    {"uniform", uniform}, {"lines only", lines}, {"grid", grid}, {"chains", chains}, {"with sides", sides}, {"corners", corners}};
enum { SHEETS = sizeof sheets / sizeof *sheets };

/* a sheet whose objects are of so many layers in turn: of one layer the tags are all 0, and it can be stored in the old form */
enum { ONE_LAYER = 1, LAYERS = 3 };
static void set_layers(int64_t *list, int layers)
{
    for (int i = 0; i < MOST; i++) list[WIDTH * i + TAG] = i % layers;
}

static void make_sheet(int64_t *list, void (*make)(int64_t *, int), int layers)
{
    for (int i = 0; i < MOST; i++) make(list + WIDTH * i, i);
    set_layers(list, layers);
}

/* tags from all over their range, which mostly take three bytes */
static inline void set_any_tags(int64_t *list)
{
    for (int i = 0; i < MOST; i++) list[WIDTH * i + TAG] = pick(0, LAST_TAG);
}

#endif
