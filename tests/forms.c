/* Moves many stored drawings to a form in one process. Standard input: for each drawing the form, 64 bits, its length and the bytes lent, 32 bits
   each, then its bytes.
   Standard output: the refusal and the length, 64 bits each, and the lent bytes afterwards. */
#include "trial.h"
#include <stdio.h>
#include <stdlib.h>
#include <string.h>

enum { LENT = 77 };
enum { FAILED = 2, SHORT = 3, CHANGED = 4 };

static uint8_t *held(size_t size)
{
    uint8_t *room = malloc(size + 1);
    if (room == NULL) exit(FAILED);
    return room;
}

int main(void)
{
    struct { int64_t form; uint32_t length, room; } head;
    while (fread(&head, sizeof head, 1, stdin) == 1) {
        uint8_t *bytes = held(head.length), *kept = held(head.length), *out = held(head.room);
        if (fread(bytes, 1, head.length, stdin) != head.length) return SHORT;
        memcpy(kept, bytes, head.length);
        memset(out, LENT, head.room + 1);
        struct moved moved = silvanelga_trial_move(bytes, head.length, head.form, out, head.room);
        if (memcmp(kept, bytes, head.length) != 0 || out[head.room] != LENT) return CHANGED;
        const int64_t numbers[] = {moved.refusal, (int64_t)moved.length};
        fwrite(numbers, sizeof numbers, 1, stdout);
        fwrite(out, 1, head.room, stdout);
        free(bytes), free(kept), free(out);
    }
    return 0;
}
