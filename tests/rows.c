/* Hands many lists of objects to the library in one process. Standard input, in 64-bit numbers: for each list its length; the index of one
   object; the numbers lent for the rows of all pairs, with joints and without, and for those of that object, with joints and without; the
   bytes lent for its drawing in each form; then its numbers.
   Standard output, in 64-bit numbers: for each of the four listings the refusal, the count of rows, the length and the lent numbers afterwards;
   for each form the refusal of the drawing and the lent bytes afterwards. */
#include "trial.h"
#include <stdio.h>
#include <stdlib.h>
#include <string.h>

enum { LENT = 77 };
enum { FAILED = 2, SHORT = 3, CHANGED = 4 };

static void *held(size_t size)
{
    void *room = malloc(size + 1);
    if (room == NULL) exit(FAILED);
    return room;
}

static void put(int64_t value)
{
    fwrite(&value, sizeof value, 1, stdout);
}

/* of all pairs where no object is given */
static void write_rows(const int64_t *list, size_t length, const uint64_t *object, bool joints, size_t room)
{
    int64_t *rows = held(room * sizeof *rows);
    for (size_t k = 0; k < room; k++) rows[k] = LENT;
    struct listed listed = object == NULL ? silvanelga_trial_list(list, length, joints, rows, room)
                                          : silvanelga_trial_one(list, length, *object, joints, rows, room);
    put(listed.refusal), put((int64_t)listed.rows), put((int64_t)listed.length);
    for (size_t k = 0; k < room; k++) put(rows[k]);
    free(rows);
}

static void write_drawing(int64_t form, const int64_t *list, size_t length, size_t room)
{
    uint8_t *bytes = held(room);
    memset(bytes, LENT, room);
    put(silvanelga_trial_write(form, list, length, bytes, room));
    for (size_t k = 0; k < room; k++) put(bytes[k]);
    free(bytes);
}

int main(void)
{
    struct { uint64_t length, object, all, all_without, one, one_without, old_form, new_form; } head;
    while (fread(&head, sizeof head, 1, stdin) == 1) {
        size_t length = head.length, size = length * sizeof(int64_t);
        int64_t *list = held(size), *kept = held(size);
        if (fread(list, 1, size, stdin) != size) return SHORT;
        memcpy(kept, list, size);
        write_rows(list, length, NULL, true, head.all);
        write_rows(list, length, NULL, false, head.all_without);
        write_rows(list, length, &head.object, true, head.one);
        write_rows(list, length, &head.object, false, head.one_without);
        write_drawing(OLD, list, length, head.old_form);
        write_drawing(NEW, list, length, head.new_form);
        if (memcmp(kept, list, size) != 0) return CHANGED;
        free(list), free(kept);
    }
    return 0;
}
