/* Times the listing that skips pairs that stand apart in x beside the plain one, and beside plain C of the same method, in one process and one run;
   and how both grow with the number of objects. Prints nanoseconds and microseconds, and ratios. */
#include "sheets.h"
#include <string.h>

struct listed { int64_t refusal; size_t rows, length; };
struct listed silvanelga_trial_list(const int64_t *list, size_t length, bool joints, int64_t *rows, size_t room);
struct listed silvanelga_trial_near(const int64_t *list, size_t length, bool joints, int64_t *rows, size_t room);

static int64_t listed_sheets[SHEETS][NUMBERS], rows[ROW * PAIRS], other[ROW * PAIRS];

/* the count of rows, which are those of the plain listing and of plain C */
static size_t compared(const int64_t *sheet)
{
    memset(rows, 1, sizeof rows), memset(other, 1, sizeof other);
    struct listed near = silvanelga_trial_near(sheet, NUMBERS, true, rows, ROW * PAIRS);
    struct listed plain = silvanelga_trial_list(sheet, NUMBERS, true, other, ROW * PAIRS);
    if (near.refusal != 0 || plain.refusal != 0) fail("a sheet was refused");
    if (near.rows != plain.rows || near.length != plain.length || memcmp(rows, other, sizeof rows) != 0) fail("the two listings differ");
    memset(other, 1, sizeof other);
    int64_t n = plain_near(sheet, NUMBERS, true, other, ROW * PAIRS);
    if (n < 0 || near.rows != (size_t)n || memcmp(rows, other, sizeof rows) != 0) fail("plain C lists other rows");
    return near.rows;
}

/* a row of the table of sheets */
static void race_sheet(const char *name, const int64_t *sheet)
{
    double near = 0, plain = 0, again = 0, in_c = 0;
    size_t count = compared(sheet);
    RACE(silvanelga_trial_near(sheet, NUMBERS, true, rows, ROW * PAIRS), silvanelga_trial_list(sheet, NUMBERS, true, other, ROW * PAIRS), near, plain)
    RACE(silvanelga_trial_near(sheet, NUMBERS, true, rows, ROW * PAIRS), plain_near(sheet, NUMBERS, true, other, ROW * PAIRS), again, in_c)
    printf("%-12s %9zu %12zu %12.2f %12.2f %7.2f %12.2f %7.2f\n", name, count, plain_near_pairs(sheet, NUMBERS), near / PAIRS, plain / PAIRS,
           plain / near, in_c / PAIRS, again / in_c);
}

/* a row of the table of growth: the first objects of a sheet */
static void race_front(const char *name, const int64_t *sheet, size_t objects)
{
    double near = 0, plain = 0;
    size_t length = WIDTH * objects;
    RACE(silvanelga_trial_near(sheet, length, true, rows, ROW * PAIRS), silvanelga_trial_list(sheet, length, true, other, ROW * PAIRS), near, plain)
    printf("%-12s %9zu %12.2f %12.2f %7.2f\n", name, objects, near / 1e3, plain / 1e3, plain / near);
}

int main(void)
{
    for (int k = 0; k < SHEETS; k++) make_sheet(listed_sheets[k], sheets[k].make, LAYERS);
    printf("%-12s %9s %12s %12s %12s %7s %12s %7s\n", "near", "rows", "near pairs", "ns a pair", "listing", "faster", "plain C", "ratio");
    for (int k = 0; k < SHEETS; k++) race_sheet(sheets[k].name, listed_sheets[k]);
    printf("\n%-12s %9s %12s %12s %7s\n", "growth", "objects", "near us", "listing us", "faster");
    for (int k = 0; k < SHEETS; k++)
        if (sheets[k].make == chains || sheets[k].make == uniform)
            for (size_t objects = MOST / 8; objects <= MOST; objects *= 2) race_front(sheets[k].name, listed_sheets[k], objects);
    return 0;
}
