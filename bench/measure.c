/* Times the proved code beside plain C of the same algorithms, in one process and one run. Prints nanoseconds and the ratio. */
#include "sheets.h"
#include <string.h>

/* each answers its refusal, 0 for none; a listing the count of its rows and a move the length of what it put, too */
struct listed { int64_t refusal; size_t rows, length; };
struct listed silvanelga_trial_list(const int64_t *list, size_t length, bool joints, int64_t *rows, size_t room);
int64_t silvanelga_trial_read(const uint8_t *bytes, size_t length, int64_t *list, size_t room);
int64_t silvanelga_trial_write(int64_t form, const int64_t *list, size_t length, uint8_t *bytes, size_t room);
struct moved { int64_t refusal; size_t length; };
struct moved silvanelga_trial_move(const uint8_t *bytes, size_t length, int64_t form, uint8_t *out, size_t room);

enum { CGAL_TURNS = 7 };

static int64_t listed_sheets[SHEETS][NUMBERS], list[NUMBERS], back[NUMBERS], rows[ROW * PAIRS], other[ROW * PAIRS];
static uint8_t bytes[BYTES], again[BYTES], out[BYTES];

#ifdef WITH_CGAL
int64_t cgal_list(const int64_t *list, size_t length);

/* how many times as long CGAL takes, by the least of its turns too */
static void beside_cgal(const int64_t *sheet, int64_t count, double ours)
{
    double least = 0;
    for (int t = 0; t < CGAL_TURNS; t++) {
        double began = now();
        if (cgal_list(sheet, NUMBERS) != count) fail("CGAL finds another number of pairs");
        double took = now() - began;
        if (t == 0 || took < least) least = took;
    }
    printf(" %12.2f %7.1f", least / PAIRS, least / ours);
}
#define CGAL_COLUMNS "         CGAL  faster"
#else
static void beside_cgal(const int64_t *sheet, int64_t count, double ours) { (void)sheet, (void)count, (void)ours; }
#define CGAL_COLUMNS ""
#endif

/* how many times as long a listing takes that leaves joints out as one that has them */
static void beside_joints(const int64_t *sheet)
{
    double without = 0, with = 0;
    RACE(silvanelga_trial_list(sheet, NUMBERS, false, rows, ROW * PAIRS), silvanelga_trial_list(sheet, NUMBERS, true, other, ROW * PAIRS),
         without, with)
    printf(" %10.2f", without / with);
}

/* a row of a listings' table */
static void race_listing(const char *name, const int64_t *sheet, bool joints)
{
    double ours = 0, plain = 0;
    memset(rows, 1, sizeof rows), memset(other, 1, sizeof other);
    int64_t n = plain_list(sheet, NUMBERS, joints, other, ROW * PAIRS);
    struct listed listed = silvanelga_trial_list(sheet, NUMBERS, joints, rows, ROW * PAIRS);
    if (n < 0 || listed.refusal != 0) fail("a sheet was refused");
    if (listed.rows != (size_t)n || memcmp(rows, other, sizeof rows) != 0) fail("the two listings differ");
    RACE(silvanelga_trial_list(sheet, NUMBERS, joints, rows, ROW * PAIRS), plain_list(sheet, NUMBERS, joints, other, ROW * PAIRS), ours, plain)
    printf("%-12s %9lld %12.2f %12.2f %7.2f", name, (long long)n, ours / PAIRS, plain / PAIRS, ours / plain);
    if (joints) beside_cgal(sheet, n, ours);
    else beside_joints(sheet);
    printf("\n");
}

/* a row of the drawings' table: of so many bytes, by the time a byte */
static void say(const char *what, size_t size, double ours, double plain)
{
    printf("%-12s %9zu %12.2f %12.2f %7.2f\n", what, size, ours / (double)size, plain / (double)size, ours / plain);
}

/* the list written in a form, and read again */
static void race_drawing(const char *write, const char *read, int64_t form)
{
    double ours = 0, plain = 0;
    int64_t size = plain_write(form, list, NUMBERS, again, BYTES);
    if (size < 0 || silvanelga_trial_write(form, list, NUMBERS, bytes, BYTES) != 0 || memcmp(bytes, again, (size_t)size) != 0) fail("the two drawings differ");
    if (silvanelga_trial_read(bytes, (size_t)size, back, NUMBERS) != 0 || memcmp(list, back, sizeof list) != 0) fail("the drawing did not come back");
    if (plain_read(bytes, (size_t)size, back, NUMBERS) != NUMBERS || memcmp(list, back, sizeof list) != 0) fail("plain C reads another drawing");
    RACE(silvanelga_trial_write(form, list, NUMBERS, bytes, BYTES), plain_write(form, list, NUMBERS, again, BYTES), ours, plain)
    say(write, (size_t)size, ours, plain);
    RACE(silvanelga_trial_read(bytes, (size_t)size, back, NUMBERS), plain_read(bytes, (size_t)size, back, NUMBERS), ours, plain)
    say(read, (size_t)size, ours, plain);
}

/* the drawing of the list moved to a form; its bytes are those of the form that it has */
static void race_move(const char *move, int64_t from, int64_t to)
{
    double ours = 0, plain = 0;
    size_t length = (size_t)plain_write(from, list, NUMBERS, bytes, BYTES);
    int64_t size = plain_move(bytes, length, to, again, BYTES);
    struct moved moved = silvanelga_trial_move(bytes, length, to, out, BYTES);
    if (size < 0 || moved.refusal != 0 || moved.length != (size_t)size || memcmp(out, again, (size_t)size) != 0) fail("the two moves differ");
    RACE(silvanelga_trial_move(bytes, length, to, out, BYTES), plain_move(bytes, length, to, again, BYTES), ours, plain)
    say(move, length, ours, plain);
}

int main(void)
{
    for (int k = 0; k < SHEETS; k++) make_sheet(listed_sheets[k], sheets[k].make, LAYERS);
    printf("%-12s %9s %12s %12s %7s%s\n", "listing", "rows", "ns a pair", "plain C", "ratio", CGAL_COLUMNS);
    for (int k = 0; k < SHEETS; k++) race_listing(sheets[k].name, listed_sheets[k], true);
    printf("\n%-12s %9s %12s %12s %7s %10s\n", "no joints", "rows", "ns a pair", "plain C", "ratio", "to listing");
    for (int k = 0; k < SHEETS; k++) race_listing(sheets[k].name, listed_sheets[k], false);

    /* the same objects every time: with tags of 0, as the old form and a move to it need them; of three layers; and with tags of any size */
    make_sheet(list, sides, ONE_LAYER);
    printf("\n%-12s %9s %12s %12s %7s\n", "drawing", "bytes", "ns a byte", "plain C", "ratio");
    race_drawing("write old", "read old", OLD);
    race_move("move to new", OLD, NEW);
    race_move("move to old", NEW, OLD);
    set_layers(list, LAYERS);
    race_drawing("write new", "read new", NEW);
    set_any_tags(list);
    race_drawing("write tags", "read tags", NEW);
    return 0;
}
