/* Places of points and boxes of sheets, many in one process. Standard input: for each case 0 for a point or 1 for a sheet, and how
   many numbers it has, 32 bits each; then the numbers, 64 bits each. Standard output: the six numbers of each answer, the floats as they are. */
#include "trial.h"
#include <stdio.h>
#include <stdlib.h>
#include <string.h>

enum { POINT, SHEET };
enum { NUMBERS = 5 }; /* of a point */

static int64_t *held(size_t count)
{
    int64_t *room = malloc((count + 1) * sizeof *room);
    if (room == NULL) exit(2);
    return room;
}

int main(void)
{
    uint32_t head[2];
    while (fread(head, sizeof head, 1, stdin) == 1) {
        size_t length = head[1], size = length * sizeof(int64_t);
        int64_t *n = held(length), *kept = held(length);
        if (fread(n, 1, size, stdin) != size || (head[0] == POINT && length != NUMBERS)) return 3;
        memcpy(kept, n, size);
        struct shown said = head[0] == POINT ? silvanelga_trial_place(n[0], n[1], n[2], n[3], n[4]) : silvanelga_trial_box(n, length);
        if (memcmp(kept, n, size) != 0) return 4;
        fwrite(&said, sizeof said, 1, stdout);
        free(n), free(kept);
    }
    return 0;
}
