/* Asks the library for the number that each of many inputs begins with, and compares. Arguments: how many bytes the longest inputs have, and
   the bytes that inputs are made of. Standard input: for every input, the shortest first and those of one length in the order of their bytes,
   what is due: the refusal and the size, 16 bits each, and the value, 32 bits.
   Standard output: each refusal that was met, 0 for none, with how many inputs met it. Where an answer is not what is due, the first such
   input is on standard error, and the exit status is 1. */
#include "trial.h"
#include <inttypes.h>
#include <stdbool.h>
#include <stdio.h>
#include <stdlib.h>
#include <string.h>

enum { DIFFERENT = 1, USAGE = 2, SHORT = 3 };
enum { GIVEN = 2, LONGEST = 16, BYTES = 256 };
enum { TABLE = 32 };                 /* no refusal is so large */
enum { BEHIND = 4, LAST_GROUP = 1 }; /* so many stand behind every input: who reads on past its end finds a number */

struct due { uint16_t refusal, size; uint32_t value; };

static uint8_t made_of[BYTES];
static size_t choices; /* how many bytes inputs are made of */

/* the next input of this length, or none after the last, which leaves the first again */
static bool next(uint8_t *input, size_t *places, size_t length)
{
    while (length-- > 0) {
        places[length] = (places[length] + 1) % choices;
        input[length] = made_of[places[length]];
        if (places[length] != 0) return true;
    }
    return false;
}

static bool same(struct stored_number said, struct due due)
{
    return said.refusal == due.refusal && said.value == due.value && said.size == due.size;
}

static void tell(const uint8_t *input, size_t length, struct stored_number said, struct due due)
{
    for (size_t k = 0; k < length; k++) fprintf(stderr, "%02x ", input[k]);
    fprintf(stderr, "(%zu bytes)\n", length);
    fprintf(stderr, "the library gives refusal %" PRId64 ", value %" PRIu64 ", size %" PRIu64 "\n", said.refusal, said.value, said.size);
    fprintf(stderr, "and should give refusal %u, value %" PRIu32 ", size %u\n", due.refusal, due.value, due.size);
}

int main(int count, char **arguments)
{
    uint8_t input[LONGEST + BEHIND];
    size_t places[LONGEST] = {0}, longest = count <= GIVEN ? LONGEST + 1 : strtoul(arguments[1], NULL, 10);
    if (longest > LONGEST || count - GIVEN > BYTES) return USAGE;
    for (choices = 0; choices < (size_t)(count - GIVEN); choices++) made_of[choices] = (uint8_t)strtoul(arguments[GIVEN + choices], NULL, 10);
    memset(input, LAST_GROUP, sizeof input);
    uint64_t met[TABLE] = {0};
    bool different = false;
    for (size_t length = 0; length <= longest; length++) {
        if (length > 0) input[length - 1] = made_of[0];
        do {
            struct due due;
            if (fread(&due, sizeof due, 1, stdin) != 1) return SHORT;
            struct stored_number said = silvanelga_trial_number(input, length);
            if (0 <= said.refusal && said.refusal < TABLE) met[said.refusal]++;
            if (!different && !same(said, due)) different = true, tell(input, length, said, due);
        } while (next(input, places, length));
    }
    if (getchar() != EOF) return SHORT;
    for (int k = 0; k < TABLE; k++)
        if (met[k] != 0) printf("%d %" PRIu64 "\n", k, met[k]);
    return different ? DIFFERENT : 0;
}
