/* A spot check of the library by what its answers mean, for those who would rather not believe its proofs.

   A concrete frame is taken: the square from -R to R with R = 1,000,000,000,000,000. Every ray and line of many sheets is cut there, and
   the ends, order, side and crossing that the library answers are held to the pieces: to plain segments and places, by school geometry.
   Nothing of the library is used but its answers, and no number is wider than 64 bits. The largest is 4,000 R and a little, 4.0 of the
   9.2 times 10^18 that there is room for. Two products would pass that, and are not made: `compare` and `sign_of` take a step by quotient
   and remainder instead. Compiled with -fsanitize=signed-integer-overflow the program stops where a number passes 64 bits.

   Usage: spot_check COUNT [R]. At least COUNT answers of each kind are held to the pieces cut at R, from 2,000 to the R above, and what
   was met is printed. The status is 0 where every answer agrees, 1 where one differs; the first of each kind that differs is said. At an R
   that is too small for what the library promises answers differ. */
#include <inttypes.h>
#include <stdbool.h>
#include <stdint.h>
#include <stdio.h>
#include <stdlib.h>

/* ---- the library: its answers, and nothing else */

struct object { int64_t kind, px, py, qx, qy, tag; };
struct point { int64_t mx, nx, my, ny, w; };  /* x = (mx R + nx)/w, y = (my R + ny)/w */
struct ends { int64_t refusal; struct point first, last; };
struct answer { int64_t refusal, number; struct point at; };  /* a sign; or 0, 1, 2 for none, point, many, and the point */

struct ends silvanelga_spot_ends(struct object o);
struct answer silvanelga_spot_order(struct point p, struct point q);
struct answer silvanelga_spot_side(struct object o, struct point p);
struct answer silvanelga_spot_cross(struct object a, struct object b);

enum { SEGMENT = 1, RAY, LINE, SIDE };
enum { NONE, POINT, MANY };

/* ---- the paper's limits */

static const int64_t REACH = 2000;  /* of a given coordinate, either way */
static const int64_t LAST_TAG = 2000000;  /* of an object, from 0 on; a piece has no tag, and no answer depends on it */
static const int64_t WIDEST = 32000000, FAR = 64000000000;  /* of a standard point's w, and of its n, either way */
static const int64_t NARROW = 4000, NEAR = 8000000;  /* the same of a point on the frame */

static int64_t R = 1000000000000000;

/* ---- numbers */

static int sign(int64_t a)
{
    return (a > 0) - (a < 0);
}

static int64_t size(int64_t a)
{
    return a < 0 ? -a : a;
}

static bool within(int64_t most, int64_t a)
{
    return -most <= a && a <= most;
}

/* the largest whole number that is not above a/w; w is above 0 */
static int64_t below(int64_t a, int64_t w)
{
    return a / w - (a % w < 0);
}

/* The sign of a/v - b/w, where v and w are from 1 to 32,000,000. A STEP by quotient and remainder: a w would pass 64 bits, 4,000 R times
   32,000,000. So the quotients are compared, and where they are equal the remainders over v and w, whose products are below 32,000,000
   squared. */
static int compare(int64_t a, int64_t v, int64_t b, int64_t w)
{
    int64_t i = below(a, v), j = below(b, w);
    if (i != j) return i < j ? -1 : 1;
    return sign((a - i * v) * w - (b - j * w) * v);
}

/* The sign of a u - b v, where a and b are within 4,000. A STEP by quotient and remainder: a u would pass 64 bits, 4,000 times 4,000 R. So
   u and v are split into billions and a rest, a u - b v is so many billions and so many ones, each below 10^14, and whole billions of the
   ones are carried: what is left of them is below one billion, and decides only where there is no billion. */
static int sign_of(int64_t a, int64_t u, int64_t b, int64_t v)
{
    const int64_t billion = 1000000000;
    int64_t low = a * (u % billion) - b * (v % billion);
    int64_t high = a * (u / billion) - b * (v / billion) + low / billion;
    return high != 0 ? sign(high) : sign(low % billion);
}

/* ---- places, and the pieces of a sheet */

struct place { int64_t x, y, w; };  /* x/w and y/w: x and y within 4,000 R and a little, w from 1 to 32,000,000 */

/* where a point is at R; false for numbers that no point has */
static bool put(struct point p, struct place *at)
{
    if (p.w < 1 || p.w > WIDEST || !within(NARROW, p.mx) || !within(FAR, p.nx) || !within(NARROW, p.my) || !within(FAR, p.ny)) return false;
    *at = (struct place){p.mx * R + p.nx, p.my * R + p.ny, p.w};
    return true;
}

static int by_x(struct place a, struct place b)
{
    return compare(a.x, a.w, b.x, b.w);
}

static int by_y(struct place a, struct place b)
{
    return compare(a.y, a.w, b.y, b.w);
}

/* x first, then y */
static int in_order(struct place a, struct place b)
{
    int x = by_x(a, b);
    return x != 0 ? x : by_y(a, b);
}

/* An object cut at the square: it goes from tail to tip. It lies on the line through px, py in the direction dx, dy. */
struct piece { struct place tail, tip; int64_t px, py, dx, dy; };

/* The last place in the square on the way from p in the direction d: one edge is reached after a/|dx| of the way, another after b/|dy|.
   a and b are R and 2,000 at most, |dx| and |dy| 4,000. */
static struct place last_in_square(int64_t px, int64_t py, int64_t dx, int64_t dy)
{
    int64_t a = dx > 0 ? R - px : R + px, b = dy > 0 ? R - py : R + py, ax = size(dx), ay = size(dy);
    if (dy == 0 || (dx != 0 && a * ay <= b * ax)) return (struct place){sign(dx) * R * ax, py * ax + dy * a, ax};
    return (struct place){px * ay + dx * b, sign(dy) * R * ay, ay};
}

static struct piece cut(struct object o)
{
    if (o.kind == SIDE) {
        /* left, from (-R, R) down; bottom; right; top, back to (-R, R) */
        static const int corner[5][2] = {{-1, 1}, {-1, -1}, {1, -1}, {1, 1}, {-1, 1}};
        const int *from = corner[o.px - 1], *to = corner[o.px];
        int64_t px = from[0] * R, py = from[1] * R;
        return (struct piece){{px, py, 1}, {to[0] * R, to[1] * R, 1}, px, py, (to[0] - from[0]) / 2, (to[1] - from[1]) / 2};
    }
    int64_t dx = o.qx - o.px, dy = o.qy - o.py;
    struct place p = {o.px, o.py, 1}, q = {o.qx, o.qy, 1};
    return (struct piece){
        o.kind == LINE ? last_in_square(o.px, o.py, -dx, -dy) : p,
        o.kind == SEGMENT ? q : last_in_square(o.px, o.py, dx, dy),
        o.px, o.py, dx, dy};
}

/* 1 left of the piece's direction, 0 on its line, -1 right: the sign of dx (y - py) - dy (x - px). A frame side goes along one axis, and so
   compares one coordinate; for p within 2,000, py w is 64,000,000,000 at most. */
static int side_of_piece(struct object o, struct place s)
{
    struct piece c = cut(o);
    if (o.kind == SIDE) return c.dx * by_y(s, c.tail) - c.dy * by_x(s, c.tail);
    return sign_of(c.dx, s.y - c.py * s.w, c.dy, s.x - c.px * s.w);
}

/* the order of two places of one piece's line along x, or along y where it goes straight up or down */
static int along(struct piece c, struct place a, struct place b)
{
    return c.dx != 0 ? by_x(a, b) : by_y(a, b);
}

static struct place lower(struct piece c)
{
    return along(c, c.tail, c.tip) < 0 ? c.tail : c.tip;
}

static struct place upper(struct piece c)
{
    return along(c, c.tail, c.tip) < 0 ? c.tip : c.tail;
}

static bool between(struct piece c, struct place s)
{
    return along(c, lower(c), s) <= 0 && along(c, s, upper(c)) <= 0;
}

/* What two pieces share: none, one place, many. Numbers of their lines: k is 8,000,000 or, of a side, R; d is 4,000 or, of a side, 1. */
static int share(struct piece a, struct piece b, struct place *at)
{
    int64_t turn = a.dx * b.dy - a.dy * b.dx;
    if (turn != 0) {
        /* the lines dx y - dy x = k meet once */
        int64_t ka = a.dx * a.py - a.dy * a.px, kb = b.dx * b.py - b.dy * b.px, s = sign(turn);
        *at = (struct place){s * (ka * b.dx - kb * a.dx), s * (ka * b.dy - kb * a.dy), s * turn};
        return between(a, *at) && between(b, *at) ? POINT : NONE;
    }
    if (a.dx * (b.py - a.py) != a.dy * (b.px - a.px)) return NONE;  /* parallel and apart: 4,000 times R and 2,000 at most */
    struct place low = along(a, lower(a), lower(b)) < 0 ? lower(b) : lower(a);
    struct place high = along(a, upper(a), upper(b)) < 0 ? upper(a) : upper(b);
    int way = along(a, low, high);
    *at = low;
    return way > 0 ? NONE : way == 0 ? POINT : MANY;
}

/* ---- what was met */

enum kind { ENDS, ORDER, SIDES, CROSSING, KINDS };
enum { CASES = 3 };
static struct { const char *name, *cases[CASES]; int64_t held, met[CASES], differ; } tally[KINDS] = {
    [ENDS] = {.name = "ends", .cases = {"none on the frame", "one", "both"}},
    [ORDER] = {.name = "order", .cases = {"before", "same", "after"}},
    [SIDES] = {.name = "side", .cases = {"right", "on", "left"}},
    [CROSSING] = {.name = "crossing", .cases = {"none", "point", "many"}},
};

static void say_point(struct point p)
{
    fprintf(stderr, " (%" PRId64 ", %" PRId64 ", %" PRId64 ", %" PRId64 ", %" PRId64 ")", p.mx, p.nx, p.my, p.ny, p.w);
}

static void say_object(struct object o)
{
    fprintf(stderr, " [%" PRId64 " %" PRId64 " %" PRId64 " %" PRId64 " %" PRId64 " %" PRId64 "]", o.kind, o.px, o.py, o.qx, o.qy, o.tag);
}

static void say_refusal(int64_t refusal)
{
    if (refusal != 0) fprintf(stderr, " refused %" PRId64, refusal);
}

static void say_answer(struct answer said, int due)
{
    fprintf(stderr, ": %" PRId64, said.number);
    if (said.at.w != 0) say_point(said.at);
    say_refusal(said.refusal), fprintf(stderr, "; the pieces say %d\n", due);
}

/* Counts an answer; true for the first of its kind that differs, which the caller then says. */
static bool count(enum kind k, int case_met, bool agrees)
{
    tally[k].held++;
    tally[k].met[case_met]++;
    if (agrees || tally[k].differ++ > 0) return false;
    fprintf(stderr, "at R = %" PRId64 ", %s of", R, tally[k].name);
    return true;
}

static bool same(struct point p, struct place due)
{
    struct place at;
    return put(p, &at) && in_order(at, due) == 0;
}

static bool on_frame(struct place s)
{
    return compare(size(s.x), s.w, R, 1) == 0 || compare(size(s.y), s.w, R, 1) == 0;
}

static struct ends hold_ends(struct object o)
{
    struct ends said = silvanelga_spot_ends(o);
    struct piece due = cut(o);
    bool agrees = said.refusal == 0 && same(said.first, due.tail) && same(said.last, due.tip);
    if (count(ENDS, on_frame(due.tail) + on_frame(due.tip), agrees)) {
        say_object(o), fputs(":", stderr), say_point(said.first), say_point(said.last);
        say_refusal(said.refusal), fputs("\n", stderr);
    }
    return said;
}

static void hold_order(struct point p, struct point q)
{
    struct place a, b;
    struct answer said = silvanelga_spot_order(p, q);
    int due = put(p, &a) && put(q, &b) ? in_order(a, b) : 0;
    if (count(ORDER, due + 1, said.refusal == 0 && said.number == due)) say_point(p), say_point(q), say_answer(said, due);
}

static void hold_side(struct object o, struct point p)
{
    struct place at;
    struct answer said = silvanelga_spot_side(o, p);
    int due = put(p, &at) ? side_of_piece(o, at) : 0;
    if (count(SIDES, due + 1, said.refusal == 0 && said.number == due)) say_object(o), say_point(p), say_answer(said, due);
}

static struct answer hold_crossing(struct object a, struct object b)
{
    struct place at;
    struct answer said = silvanelga_spot_cross(a, b);
    int due = share(cut(a), cut(b), &at);
    bool agrees = said.refusal == 0 && said.number == due && (due != POINT || same(said.at, at));
    if (count(CROSSING, due, agrees)) say_object(a), say_object(b), say_answer(said, due);
    return said;
}

/* ---- sheets and points, random and extreme */

static uint64_t state = 20000512;

/* a whole number from low to high */
static int64_t any(int64_t low, int64_t high)
{
    state ^= state << 13, state ^= state >> 7, state ^= state << 17;
    return low + (int64_t)(state % (uint64_t)(high - low + 1));
}

/* how the numbers of a sheet are: few coordinates, so that much is shared; any; or beside the limits, and those of other points at them */
enum sheet { SMALL, WHOLE, EXTREME, SHEETS };

static int64_t coordinate(enum sheet s)
{
    if (s == SMALL) return any(-3, 3);
    if (s == WHOLE) return any(-REACH, REACH);
    return any(0, 1) ? REACH - any(0, 2) : any(0, 2) - REACH;
}

static struct object any_object(enum sheet s)
{
    int64_t kind = any(SEGMENT, any(0, 3) ? LINE : SIDE), tag = s == EXTREME ? any(0, 1) * LAST_TAG : any(0, LAST_TAG);
    if (kind == SIDE) return (struct object){SIDE, any(1, 4), 0, 0, 0, tag};
    int64_t px = coordinate(s), py = coordinate(s), qx = coordinate(s), qy = coordinate(s);
    return px == qx && py == qy ? any_object(s) : (struct object){kind, px, py, qx, qy, tag};
}

/* within `most` either way; of an extreme sheet 0 or at it */
static int64_t number(enum sheet s, int64_t most)
{
    return s == EXTREME ? any(-1, 1) * most : any(-most, most);
}

static int64_t divisor(int64_t a, int64_t b)
{
    return b == 0 ? size(a) : divisor(b, a % b);
}

static struct point reduced(struct point p)
{
    int64_t g = divisor(divisor(divisor(divisor(p.w, p.mx), p.nx), p.my), p.ny);
    return (struct point){p.mx / g, p.nx / g, p.my / g, p.ny / g, p.w / g};
}

/* a standard point, or one on the frame: at R or -R in one coordinate, and in the square in the other */
static struct point any_point(enum sheet s)
{
    if (any(0, 1)) {
        int64_t nx = number(s, FAR), ny = number(s, FAR), w = any(0, 1) ? any(1, WIDEST) : 1;
        return reduced((struct point){0, nx, 0, ny, w});
    }
    int64_t w = any(0, 1) ? any(1, NARROW) : NARROW, edge = any(0, 1) ? w : -w;
    int64_t m = any(0, 1) ? any(-w, w) : any(-1, 1), n = number(s, NEAR);
    if (size(m) == w && sign(m) == sign(n)) n = -n;
    return reduced(any(0, 1) ? (struct point){edge, 0, m, n, w} : (struct point){m, n, edge, 0, w});
}

enum { OBJECTS = 6, POINTS = 3 * OBJECTS };

/* The ends of a sheet's objects and what each two share; and of these points, with some others, the order and the side of an object. */
static void hold_sheet(const struct object objects[OBJECTS], enum sheet s)
{
    struct point points[POINTS];
    for (int i = 0; i < OBJECTS; i++) {
        struct ends e = hold_ends(objects[i]);
        points[3 * i] = e.first, points[3 * i + 1] = e.last, points[3 * i + 2] = any_point(s);
    }
    for (int i = 0; i < OBJECTS; i++) {
        for (int j = 0; j < OBJECTS; j++) {
            struct answer shared = hold_crossing(objects[i], objects[j]);
            if (shared.number == POINT) points[any(0, POINTS - 1)] = shared.at;
        }
    }
    for (int i = 0; i < POINTS; i++) {
        hold_order(points[i], points[any(0, POINTS - 1)]);
        hold_side(objects[any(0, OBJECTS - 1)], points[i]);
    }
}

/* What needs the largest frame: lines that meet farthest out, and those with the largest w; a line that leaves the square beside its
   corner; a side, and the farthest point from it; and of two points the one on the frame that is the last to pass the other. */
static void hold_farthest(void)
{
    static const struct object objects[OBJECTS] = {
        {LINE, -2000, 2000, 2000, 1999, 0}, {LINE, -2000, -1999, 1999, -2000, 0},
        {LINE, -2000, -2000, 2000, 1999, 0}, {LINE, 1999, -2000, -2000, 2000, 0},
        {LINE, -2000, 1, 0, 2000, 0}, {SIDE, 1, 0, 0, 0, 0},
    };
    hold_sheet(objects, EXTREME);
    hold_side(objects[OBJECTS - 1], (struct point){0, -FAR, 0, 0, 1});
    hold_order((struct point){0, FAR, 0, 0, 1}, (struct point){1, -NEAR, -NARROW, 0, NARROW});
}

int main(int argc, char **argv)
{
    const int64_t largest = R;
    int64_t least = argc < 2 ? 0 : strtoll(argv[1], NULL, 10);
    if (argc > 2) R = strtoll(argv[2], NULL, 10);
    if (argc > 3 || least < 1 || R < REACH || R > largest) {
        fprintf(stderr, "usage: spot_check COUNT [R], R from %" PRId64 " to %" PRId64 "\n", REACH, largest);
        return 2;
    }
    hold_farthest();
    /* of the answers on a sheet the ends are fewest */
    for (int at = 0; tally[ENDS].held < least; at++) {
        struct object objects[OBJECTS];
        for (int i = 0; i < OBJECTS; i++) objects[i] = any_object(at % SHEETS);
        hold_sheet(objects, at % SHEETS);
    }
    int64_t differ = 0;
    for (int k = 0; k < KINDS; k++) {
        printf("%s: %" PRId64 " answers, %" PRId64 " differ", tally[k].name, tally[k].held, tally[k].differ);
        for (int c = 0; c < CASES; c++) printf("%s %s %" PRId64, c == 0 ? ";" : ",", tally[k].cases[c], tally[k].met[c]);
        puts("");
        differ += tally[k].differ;
    }
    return fflush(stdout) != 0 ? 2 : differ != 0;
}
