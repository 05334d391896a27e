/* Puts stored numbers with the library, and compares. Standard input: numbers, 64 bits each, with what is due behind each: how many bytes, and
   then as many as the longest has. Each number is put alone, with cells for none of its bytes and more, and in front of the one before it.
   Standard output: how many numbers there were. Where bytes, the place behind them or a cell beside them are not what is due, the first such
   number is on standard error, and the exit status is 1. */
#include "trial.h"
#include <inttypes.h>
#include <stdio.h>
#include <string.h>

enum { DIFFERENT = 1, SHORT = 3 };
enum { GROUPS = 3, AT = 1, CELLS = AT + 2 * GROUPS + 1, LENT = 0xaa }; /* a cell in front, room for two numbers, and a cell behind */

struct due { uint64_t number; uint8_t size, bytes[7]; };

/* puts so many numbers into so many cells: is it what is due? */
static int is_due(const uint64_t *numbers, size_t count, const uint8_t *due, size_t size, size_t room)
{
    uint8_t cells[CELLS], wanted[CELLS];
    memset(cells, LENT, sizeof cells);
    memset(wanted, LENT, sizeof wanted);
    memcpy(wanted + AT, due, size < room ? size : room);
    return silvanelga_trial_put(numbers, count, cells, AT + room, AT) == AT + size && memcmp(cells, wanted, sizeof cells) == 0;
}

int main(void)
{
    struct due due, before = {.size = 1};
    uint64_t count = 0;
    for (; fread(&due, sizeof due, 1, stdin) == 1; count++, before = due) {
        if (due.size > GROUPS) return SHORT;
        const uint64_t two[] = {due.number, before.number};
        uint8_t both[2 * GROUPS];
        memcpy(both, due.bytes, due.size);
        memcpy(both + due.size, before.bytes, before.size);
        for (size_t room = 0; room <= 2 * GROUPS; room++) {
            if (is_due(two, 1, due.bytes, due.size, room) && is_due(two, 2, both, (size_t)due.size + before.size, room)) continue;
            fprintf(stderr, "%" PRIu64 " or %" PRIu64 " behind it, with room for %zu bytes\n", due.number, before.number, room);
            return DIFFERENT;
        }
    }
    printf("%" PRIu64 "\n", count);
    return ferror(stdin) || getchar() != EOF ? SHORT : 0;
}
