/* One call of the library, for the examples of docs/FORMAT.md. Arguments: what is called, `read`, `form`, `list`, `joints`, which is a listing that
   asks for them, `write` or `move`; the form `old` or `new`, which write and move alone look at; how many cells, or bytes of a drawing, are lent
   for the answer; and the bytes of a drawing, or for a listing and for `write` the numbers of a list of objects. Prints the number that is
   answered, for `move` the length too, and what was lent afterwards, the bytes of a drawing in hex: each held 7. */
#include "trial.h"
#include <stdio.h>
#include <stdlib.h>
#include <string.h>

enum { USAGE = 2, GIVEN = 4, MOST = 4096, UNTOUCHED = 7 };

int main(int count, char **arguments)
{
    static uint8_t bytes[MOST], drawing[MOST];
    static int64_t list[MOST], cells[MOST];
    size_t room = count < GIVEN ? MOST : strtoul(arguments[3], NULL, 10);
    if (count < GIVEN || count - GIVEN > MOST || room > MOST) return USAGE;
    const char *what = arguments[1];
    int64_t form = strcmp(arguments[2], "new") == 0 ? NEW : OLD;
    size_t length = (size_t)(count - GIVEN);
    for (size_t k = 0; k < length; k++) {
        list[k] = strtoll(arguments[GIVEN + k], NULL, 10);
        bytes[k] = (uint8_t)list[k];
    }
    for (size_t k = 0; k < room; k++) cells[k] = drawing[k] = UNTOUCHED;
    bool writes = strcmp(what, "write") == 0, moves = strcmp(what, "move") == 0;
    if (moves) {
        struct moved moved = silvanelga_trial_move(bytes, length, form, drawing, room);
        printf("%lld %zu", (long long)moved.refusal, moved.length);
    } else {
        int64_t answer = writes                      ? silvanelga_trial_write(form, list, length, drawing, room)
                         : strcmp(what, "read") == 0 ? silvanelga_trial_read(bytes, length, cells, room)
                         : strcmp(what, "form") == 0 ? silvanelga_trial_form(bytes, length)
                                                     : silvanelga_trial_list(list, length, strcmp(what, "joints") == 0, cells, room).refusal;
        printf("%lld", (long long)answer);
    }
    for (size_t k = 0; k < room; k++) {
        if (writes || moves) printf(" %02x", drawing[k]);
        else printf(" %lld", (long long)cells[k]);
    }
    putchar('\n');
    return 0;
}
