/* Reads many stored drawings in one process. Standard input: for each drawing its length, the room lent, the
   numbers that its objects have and its form, 32 bits each, then its bytes.
   Standard output, in 64-bit numbers: what the library says of its form, the refusal, the lent cells afterwards, and whether writing them in
   that form gives the same bytes again. */
#include "trial.h"
#include <stdio.h>
#include <stdlib.h>
#include <string.h>

enum { LENT = 77, UNTOUCHED = 170 };

static void *held(size_t size)
{
    void *room = malloc(size + 1);
    if (room == NULL) exit(2);
    return room;
}

/* 1 where the read objects, written into exactly this room, are the same bytes, and in one byte less are refused and change nothing */
static int64_t comes_back(int64_t form, const int64_t *list, size_t numbers, const uint8_t *bytes, size_t length)
{
    uint8_t *again = held(length);
    memset(again, UNTOUCHED, length);
    int64_t same = silvanelga_trial_write(form, list, numbers, again, length - 1) == 10;
    for (size_t k = 0; k < length; k++) same &= again[k] == UNTOUCHED;
    same &= silvanelga_trial_write(form, list, numbers, again, length) == 0 && memcmp(again, bytes, length) == 0;
    free(again);
    return same;
}

int main(void)
{
    uint32_t head[4];
    while (fread(head, sizeof head, 1, stdin) == 1) {
        size_t length = head[0], room = head[1], numbers = head[2];
        uint8_t *bytes = held(length), *kept = held(length);
        int64_t *list = held(room * sizeof *list);
        if (fread(bytes, 1, length, stdin) != length) return 3;
        memcpy(kept, bytes, length);
        for (size_t k = 0; k < room; k++) list[k] = LENT;
        int64_t form = silvanelga_trial_form(bytes, length), refusal = silvanelga_trial_read(bytes, length, list, room);
        int64_t same = refusal == 0 && numbers <= room ? comes_back(head[3], list, numbers, bytes, length) : 0;
        if (memcmp(kept, bytes, length) != 0) return 4;
        fwrite(&form, sizeof form, 1, stdout);
        fwrite(&refusal, sizeof refusal, 1, stdout);
        fwrite(list, sizeof *list, room, stdout);
        fwrite(&same, sizeof same, 1, stdout);
        free(bytes), free(kept), free(list);
    }
    return 0;
}
