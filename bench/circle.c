/* Times the side of a circle beside plain C that does the same, in one process and one run. Prints nanoseconds and the ratio. */
#include "plain_numbers.h"
#include "race.h"
#include <stdbool.h>
#include <string.h>

typedef struct { point p, q, s, u; } call;

#ifdef __x86_64__
answer silvanelga_spot_circle(point p, point q, point s, point u);
static answer ask(call c) { return silvanelga_spot_circle(c.p, c.q, c.s, c.u); }
#else
/* native-archive compiles x86-64's module, which finds the place of its answer in the first register and the points on the stack. C for Arm
   hands over the place of a struct, and puts numbers on the stack when eight have filled the registers. */
#define FIVE int64_t, int64_t, int64_t, int64_t, int64_t
#define NUMBERS_OF(p) (p).mx, (p).nx, (p).my, (p).ny, (p).w
void silvanelga_spot_circle(answer *, int64_t, int64_t, int64_t, int64_t, int64_t, int64_t, int64_t, FIVE, FIVE, FIVE, FIVE);
static answer ask(call c)
{
    answer a;
    silvanelga_spot_circle(&a, 0, 0, 0, 0, 0, 0, 0, NUMBERS_OF(c.p), NUMBERS_OF(c.q), NUMBERS_OF(c.s), NUMBERS_OF(c.u));
    return a;
}
#endif

enum { CALLS = 2048, PASSES = 8, NARROW = 4000, NEAR = 8000000 };

static call calls[CALLS];
static answer proved[CALLS], plain[CALLS];

/* ---- calls */

static point given(int64_t x, int64_t y) { return (point){0, x, 0, y, 1}; }
static point anywhere(void)
{
    int64_t x = pick(-REACH, REACH);
    return given(x, pick(-REACH, REACH));
}

static point on_frame(void)
{
    int64_t w = pick(1, NARROW), exact = pick(0, 1) ? w : -w, m = pick(1 - w, w - 1), n = pick(-NEAR, NEAR);
    return pick(0, 1) ? divide(exact, 0, m, n, w) : divide(m, n, exact, 0, w);
}

static call of_given(void) { return (call){anywhere(), anywhere(), anywhere(), anywhere()}; }
static call of_frame(void) { return (call){anywhere(), anywhere(), anywhere(), on_frame()}; }

/* three on one line, and the end of a line beside it: only n decides */
static call of_line(void)
{
    int64_t x = pick(-REACH / 2, REACH / 2), y = pick(-REACH / 2, REACH / 2), w = pick(2, REACH / 2), dy = w - 1;
    return (call){given(x - w, y - dy), given(x, y), given(x + w, y + dy), {w, 0, dy, pick(-NEAR, NEAR), w}};
}

/* one in four is refused */
static call of_all(void)
{
    int64_t kind = pick(0, 3);
    call c = kind == 0 ? of_given() : kind == 1 ? of_frame() : of_line();
    if (kind == 3) c.q.nx = REACH + 1;
    return c;
}

/* ---- the two programs */

static void ask_proved(void)
{
    for (int pass = 0; pass < PASSES; pass++)
        for (int k = 0; k < CALLS; k++) proved[k] = ask(calls[k]);
}

static void ask_plain(void)
{
    for (int pass = 0; pass < PASSES; pass++)
        for (int k = 0; k < CALLS; k++) plain[k] = plain_circle(calls[k].p, calls[k].q, calls[k].s, calls[k].u);
}

int main(void)
{
    static const struct { const char *name; call (*make)(void); bool refused; } kinds[] = {
        {"given", of_given, false}, {"frame", of_frame, false}, {"one line", of_line, false}, {"mixed", of_all, true}};
    printf("%-12s %9s %12s %12s %7s\n", "circle", "calls", "ns a call", "plain C", "ratio");
    for (size_t kind = 0; kind < sizeof kinds / sizeof *kinds; kind++) {
        double ours = 0, theirs = 0;
        for (int k = 0; k < CALLS; k++) calls[k] = kinds[kind].make();
        ask_proved(), ask_plain();
        if (memcmp(proved, plain, sizeof proved) != 0) fail("the two sides of a circle differ");
        for (int k = 0; k < CALLS; k++)
            if (plain[k].refusal != 0 && !kinds[kind].refused) fail("a call was refused");
        RACE(ask_proved(), ask_plain(), ours, theirs)
        printf("%-12s %9d %12.2f %12.2f %7.2f\n", kinds[kind].name, CALLS, ours / PASSES / CALLS, theirs / PASSES / CALLS, ours / theirs);
    }
    return 0;
}
