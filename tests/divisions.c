/* How many divisions the common divisor takes. Standard input: a case a line, `point` with five numbers, which are looked at whether they
   are a point, or `pair` with two objects, of which is found what they share, and five numbers as they are before dividing. Standard output:
   for each case how many divisions the library makes, and how many the order of work makes that it had before: from w on to the end, and
   every number divided. The second is C, and counted in the same way. */
#include "steps.h"
#include "trial.h"
#include <inttypes.h>
#include <stdio.h>
#include <stdlib.h>
#include <string.h>

enum { NUMBERS = 5 }; /* of a point */
enum { OBJECTS = 2, ONE_POINT = 1 };

static uint64_t size(int64_t n) { return n < 0 ? -(uint64_t)n : (uint64_t)n; }

/* noipa: the compiler is to leave a counted call where it stands */
__attribute__((noipa)) static uint64_t before_divisor(const int64_t n[NUMBERS])
{
    uint64_t x = size(n[NUMBERS - 1]);
    for (int k = NUMBERS - 2; k >= 0; k--) {
        uint64_t y = x;
        x = size(n[k]);
        while (y != 0) {
            uint64_t rest = x % y;
            x = y;
            y = rest;
        }
    }
    return x;
}

__attribute__((noipa)) static void before_divided(int64_t n[NUMBERS])
{
    int64_t by = (int64_t)before_divisor(n);
    for (int k = 0; k < NUMBERS; k++) n[k] /= by;
}

static void fail(const char *what)
{
    fprintf(stderr, "divisions: %s\n", what);
    exit(1);
}

static void read_numbers(int64_t *n, int count)
{
    for (int k = 0; k < count; k++)
        if (scanf("%" SCNd64, &n[k]) != 1) fail("a case has too few numbers");
}

int main(void)
{
    char kind[8];
    count_steps();
    while (scanf("%7s", kind) == 1) {
        int64_t n[NUMBERS], list[OBJECTS * WIDTH], row[ROW] = {0};
        long library;
        if (strcmp(kind, "point") == 0) {
            struct shown place;
            uint64_t divisor;
            read_numbers(n, NUMBERS);
            COUNTED(place = silvanelga_trial_place(n[0], n[1], n[2], n[3], n[4]));
            library = divisions;
            COUNTED(divisor = before_divisor(n));
            if (place.refusal == 0 && divisor != 1) fail("a point has a divisor");
        } else {
            struct listed listed;
            read_numbers(list, OBJECTS * WIDTH);
            read_numbers(n, NUMBERS);
            COUNTED(listed = silvanelga_trial_list(list, OBJECTS * WIDTH, true, row, ROW));
            library = divisions;
            COUNTED(before_divided(n));
            if (listed.refusal != 0 || row[2] != ONE_POINT || memcmp(row + 3, n, sizeof n) != 0) fail("a pair shares another point");
        }
        printf("%ld %ld\n", library, divisions);
    }
    return 0;
}
