/* Asks the viewer's calls about many stored drawings in one process. Standard input: for each drawing its length and the number of questions,
   32 bits each, its bytes, and for each question index, x and y, 64 bits each.
   Standard output, in 64-bit numbers: the header's four limits; then for each drawing what the check says and what each question is answered;
   at the end how many bytes of stack a call has written at most.

   While the calls run, the bytes can be read and nothing near them can: they stand at the end or at the beginning of a room between two pages
   that cannot be touched, and the room cannot be written. A call that reads one byte too far, or writes, ends the program.

   The calls run on a stack of their own, filled with a pattern before the first of them. What they have written of it is counted from the
   depth of an empty function that is called the same way. The address sanitizer does not follow a change of stacks: under it the calls run
   on the program's own, and the number is 0. */
#define _DEFAULT_SOURCE
#include <stdio.h>
#include <stdlib.h>
#include <string.h>
#include <sys/mman.h>
#include <ucontext.h>

#include "silvanelga.h"

enum { FAILED = 2, SHORT = 3, NULL_DIFFERS = 4 };
enum { WALL = 1 << 16, ROOM = 1 << 16 }; /* whole pages on every machine */
enum { STACK = 1 << 18, PATTERN = 0xa5 };

static uint8_t *room(void)
{
    uint8_t *all = mmap(NULL, WALL + ROOM + WALL, PROT_NONE, MAP_PRIVATE | MAP_ANONYMOUS, -1, 0);
    if (all == MAP_FAILED) exit(FAILED);
    return all + WALL;
}

static void allow(uint8_t *place, int what)
{
    if (mprotect(place, ROOM, what) != 0) exit(FAILED);
}

static void put(int64_t value)
{
    if (fwrite(&value, sizeof value, 1, stdout) != 1) exit(FAILED);
}

/* ---- the stack of the calls */

static _Alignas(16) uint8_t stack[STACK];

static struct {
    const uint8_t *bytes;
    size_t length;
    int64_t question[3], answer;
} call;

static int64_t nothing(const uint8_t *bytes, size_t length, int64_t index, int64_t x, int64_t y)
{
    (void)bytes, (void)length, (void)index, (void)x, (void)y;
    return 0;
}

static int64_t (*volatile empty)(const uint8_t *, size_t, int64_t, int64_t, int64_t) = nothing;

static void call_empty(void)
{
    call.answer = empty(call.bytes, call.length, call.question[0], call.question[1], call.question[2]);
}

static void call_check(void)
{
    call.answer = silvanelga_check(call.bytes, call.length);
}

static void call_side(void)
{
    call.answer = silvanelga_side(call.bytes, call.length, call.question[0], call.question[1], call.question[2]);
}

static int64_t made(void (*one)(void), const uint8_t *bytes, size_t length)
{
    call.bytes = bytes, call.length = length;
#ifdef __SANITIZE_ADDRESS__
    one();
#else
    static ucontext_t here, there;
    if (getcontext(&there) != 0) exit(FAILED);
    there.uc_stack.ss_sp = stack;
    there.uc_stack.ss_size = STACK;
    there.uc_link = &here;
    makecontext(&there, one, 0);
    if (swapcontext(&here, &there) != 0) exit(FAILED);
#endif
    return call.answer;
}

/* bytes of the stack that have been written, down to the lowest */
static int64_t depth(void)
{
    size_t kept = 0;
    while (kept < STACK && stack[kept] == PATTERN) kept++;
    if (kept == 0) exit(FAILED);
    return (int64_t)(STACK - kept);
}

/* ---- the questions */

/* without bytes, a null pointer is answered the same */
static int64_t asked(void (*one)(void), const uint8_t *bytes, size_t length)
{
    int64_t answer = made(one, bytes, length);
    if (length == 0 && made(one, NULL, 0) != answer) exit(NULL_DIFFERS);
    return answer;
}

int main(void)
{
    uint32_t head[2];
    uint8_t *place = room();
    memset(stack, PATTERN, STACK);
    made(call_empty, NULL, 0);
    int64_t before = depth();
    put(SILVANELGA_REACH), put(SILVANELGA_MOST), put(SILVANELGA_LONGEST), put(SILVANELGA_REFUSED);
    for (int at_end = 1; fread(head, sizeof head, 1, stdin) == 1; at_end = !at_end) {
        size_t length = head[0];
        if (length > ROOM) return SHORT;
        uint8_t *bytes = at_end ? place + ROOM - length : place;
        allow(place, PROT_READ | PROT_WRITE);
        if (fread(bytes, 1, length, stdin) != length) return SHORT;
        allow(place, PROT_READ);
        put(asked(call_check, bytes, length));
        for (uint32_t k = 0; k < head[1]; k++) {
            if (fread(call.question, sizeof call.question, 1, stdin) != 1) return SHORT;
            put(asked(call_side, bytes, length));
        }
    }
    put(depth() - before);
    return 0;
}
