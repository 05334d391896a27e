/* How many instructions a listing takes, of all pairs and of one object with all later ones. Listings of two sheets, in which every two objects
   share one point, which is a joint for none or for all: into no room, asked for joints, which is refused with 10 after one crossing a pair; and
   into room for exactly every pair, with joints and without, which is to take one crossing a pair as well.
   Standard output, a line for each sheet and either listing: how many pairs, and the three counts. */
#include "steps.h"
#include "trial.h"
#include <stdio.h>
#include <stdlib.h>

enum { OBJECTS = 24, PAIRS = OBJECTS * (OBJECTS - 1) / 2, LATER = OBJECTS - 1, SHORT = 10 };
enum { LINES, STAR, SHEETS }; /* lines with a slope each, and rays from one place with a slope each */

static int64_t list[OBJECTS * WIDTH], rows[PAIRS * ROW];

static long counted(bool one, bool joints, size_t room, int64_t refusal, size_t count)
{
    struct listed listed;
    if (one) COUNTED(listed = silvanelga_trial_one(list, OBJECTS * WIDTH, 0, joints, rows, room));
    else COUNTED(listed = silvanelga_trial_list(list, OBJECTS * WIDTH, joints, rows, room));
    if (listed.refusal != refusal || listed.rows != count) exit(2);
    return steps;
}

static void say(bool one, size_t pairs, bool all_joints)
{
    long refused = counted(one, true, 0, SHORT, 0);
    long with = counted(one, true, pairs * ROW, 0, pairs);
    long without = counted(one, false, pairs * ROW, 0, all_joints ? 0 : pairs);
    printf("%zu %ld %ld %ld\n", pairs, refused, with, without);
}

int main(void)
{
    count_steps();
    for (int sheet = LINES; sheet < SHEETS; sheet++) {
        for (int k = 0; k < OBJECTS; k++) {
            const int64_t objects[SHEETS][WIDTH] = {{3, 7 * k, -11 * k, 7 * k + 100, k - 11 * k, k}, {2, 5, -7, 105, k - 7, k}};
            for (int n = 0; n < WIDTH; n++) list[WIDTH * k + n] = objects[sheet][n];
        }
        say(false, PAIRS, sheet == STAR);
        say(true, LATER, sheet == STAR);
    }
    return 0;
}
