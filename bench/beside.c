/* Times the listings and the drawings of two builds of this library in turn, in one process: what is timed, and the nanoseconds of both, a
   pair of a listing and a byte of a drawing. Listings are compared with joints, and without where the other build can leave them out: bench/beside
   then defines OTHER_HAS_JOINTS. Drawings are compared in the old form, with tags of 0, and in the new form with tags of three layers where the
   other build has it: bench/beside then defines OTHER_HAS_FORMS. */
#include "sheets.h"
#include <string.h>

struct listed { int64_t refusal; size_t rows, length; };
struct listed silvanelga_trial_list(const int64_t *list, size_t length, bool joints, int64_t *rows, size_t room);
int64_t silvanelga_trial_read(const uint8_t *bytes, size_t length, int64_t *list, size_t room);
int64_t silvanelga_trial_write(int64_t form, const int64_t *list, size_t length, uint8_t *bytes, size_t room);
int64_t other_read(const uint8_t *bytes, size_t length, int64_t *list, size_t room);
#ifdef OTHER_HAS_JOINTS
struct listed other_list(const int64_t *list, size_t length, bool joints, int64_t *rows, size_t room);
#else
int64_t other_list(const int64_t *list, size_t length, int64_t *rows, size_t room);
#endif
#ifdef OTHER_HAS_FORMS
int64_t other_write(int64_t form, const int64_t *list, size_t length, uint8_t *bytes, size_t room);
#define OTHER_WRITE(form, ...) other_write(form, __VA_ARGS__)
#else
int64_t other_write(const int64_t *list, size_t length, uint8_t *bytes, size_t room);
#define OTHER_WRITE(form, ...) other_write(__VA_ARGS__)
#endif

enum { LIST_LENGTH = 14 }; /* the refusal */

static int64_t list[NUMBERS], back[NUMBERS], rows[ROW * PAIRS], other[ROW * PAIRS];
static uint8_t bytes[BYTES], again[BYTES];

/* the other build's refusal of a listing */
static inline int64_t list_other(bool joints)
{
#ifdef OTHER_HAS_JOINTS
    return other_list(list, NUMBERS, joints, other, ROW * PAIRS).refusal;
#else
    (void)joints;
    return other_list(list, NUMBERS, other, ROW * PAIRS);
#endif
}

static void race_listing(const char *name, bool joints)
{
    double ours = 0, theirs = 0;
    memset(rows, 1, sizeof rows), memset(other, 1, sizeof other);
    if (silvanelga_trial_list(list, NUMBERS, joints, rows, ROW * PAIRS).refusal != 0) fail("a sheet was refused");
    int64_t refusal = list_other(joints);
    if (refusal == LIST_LENGTH) fail("an object of the other build has more or fewer numbers");
    if (refusal != 0) fail("the other build refused a sheet");
    if (memcmp(rows, other, sizeof rows) != 0) fail("the two listings differ");
    RACE(silvanelga_trial_list(list, NUMBERS, joints, rows, ROW * PAIRS), list_other(joints), ours, theirs)
    printf("%s%s\t%.3f\t%.3f\n", name, joints ? "" : ", no joints", theirs / PAIRS, ours / PAIRS);
}

/* the drawing of a sheet: written into more bytes than it needs, into as many as it needs, into none, and read */
static void race_drawings(const char *name, int64_t form)
{
    size_t size = (size_t)plain_write(form, list, NUMBERS, again, BYTES);
    if (silvanelga_trial_write(form, list, NUMBERS, bytes, size) != 0 || memcmp(bytes, again, size) != 0) fail("a drawing is wrong");
    if (OTHER_WRITE(form, list, NUMBERS, again, size) != 0 || memcmp(bytes, again, size) != 0) fail("the two drawings differ");
    if (silvanelga_trial_read(bytes, size, back, NUMBERS) != 0 || memcmp(list, back, sizeof list) != 0) fail("the drawing did not come back");
    if (other_read(bytes, size, back, NUMBERS) != 0 || memcmp(list, back, sizeof list) != 0) fail("the other build's drawing did not come back");
    const struct { const char *how; size_t room; } writes[] = {{"write", BYTES}, {"write fitting", size}, {"no room", 0}};
    for (int k = 0; k < 3; k++) {
        double ours = 0, theirs = 0;
        size_t room = writes[k].room;
        RACE(silvanelga_trial_write(form, list, NUMBERS, bytes, room), OTHER_WRITE(form, list, NUMBERS, again, room), ours, theirs)
        printf("%s, %s\t%.3f\t%.3f\n", writes[k].how, name, theirs / (double)size, ours / (double)size);
    }
    double ours = 0, theirs = 0;
    RACE(silvanelga_trial_read(bytes, size, back, NUMBERS), other_read(bytes, size, back, NUMBERS), ours, theirs)
    printf("read, %s\t%.3f\t%.3f\n", name, theirs / (double)size, ours / (double)size);
}

static void race_sheet(const char *name, const char *new_name, void (*make)(int64_t *, int))
{
    make_sheet(list, make, ONE_LAYER);
    race_drawings(name, OLD);
#ifdef OTHER_HAS_FORMS
    set_layers(list, LAYERS);
    race_drawings(new_name, NEW);
#else
    (void)new_name;
#endif
}

int main(void)
{
    for (int k = 0; k < SHEETS; k++) {
        make_sheet(list, sheets[k].make, LAYERS);
        race_listing(sheets[k].name, true);
#ifdef OTHER_HAS_JOINTS
        race_listing(sheets[k].name, false);
#endif
    }
    race_sheet("mixed", "mixed new", sides);
    race_sheet("near", "near new", grid);
    race_sheet("chains", "chains new", chains);
    return 0;
}
