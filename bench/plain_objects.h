/* Objects and what two of them share, for the files of plain C that list. */
#ifndef PLAIN_OBJECTS_H
#define PLAIN_OBJECTS_H
#include "plain_numbers.h"

typedef struct { int64_t kind, px, py, qx, qy, tag; } object;
typedef enum { NOTHING, ONCE, MANY } what;
typedef struct { what what; point e; } meeting;

static bool beyond(int64_t z) { return z < -REACH || REACH < z; }

static int64_t refusal(const object *o)
{
    if (o->kind < 1 || 4 < o->kind) return 1;
    if (o->kind == 4) {
        if (o->px < 1 || 4 < o->px || o->py != 0 || o->qx != 0 || o->qy != 0) return 4;
    } else {
        if (beyond(o->px) || beyond(o->py) || beyond(o->qx) || beyond(o->qy)) return 2;
        if (o->px == o->qx && o->py == o->qy) return 3;
    }
    return o->tag < 0 || LAST_TAG < o->tag ? 15 : 0;
}

static meeting nothing(void) { return (meeting){.what = NOTHING}; }
static meeting many(void) { return (meeting){.what = MANY}; }
static meeting once(point e) { return (meeting){.what = ONCE, .e = e}; }

/* ---- sides of the frame, by the way out over them */

static int64_t out_x(int64_t n) { return n == 1 ? -1 : n == 3 ? 1 : 0; }
static int64_t out_y(int64_t n) { return n == 2 ? -1 : n == 4 ? 1 : 0; }

static bool is_flat(int64_t dx, int64_t dy, int64_t k)
{
    uint64_t across = size(dx), up = size(dy);
    return up < across || (across == up && sign(dx) * sign(dy) * k <= 0);
}

static bool is_on(int64_t ox, int64_t oy, int64_t px, int64_t py, int64_t dx, int64_t dy)
{
    int64_t k = dx * py - dy * px, m = ox * dx + oy * dy;
    if (is_flat(dx, dy, k)) return m == (int64_t)size(dx) && oy * (sign(dx) * k) == 0;
    return m == (int64_t)size(dy) && ox * -(sign(dy) * k) == 0;
}

static point far_end(int64_t px, int64_t py, int64_t dx, int64_t dy)
{
    int64_t k = dx * py - dy * px;
    if (is_flat(dx, dy, k)) return divide(dx, 0, dy, sign(dx) * k, (int64_t)size(dx));
    return divide(dx, -(sign(dy) * k), dy, 0, (int64_t)size(dy));
}

static meeting with_side(int64_t n, const object *o)
{
    int64_t ox = out_x(n), oy = out_y(n), dx = o->qx - o->px, dy = o->qy - o->py;
    if (o->kind == 1) return nothing();
    if (o->kind == 4) {
        int64_t ux = out_x(o->px), uy = out_y(o->px), alike = ox * ux + oy * uy;
        if (alike == 0) return once((point){ox + ux, 0, oy + uy, 0, 1});
        return alike > 0 ? many() : nothing();
    }
    if (is_on(ox, oy, o->px, o->py, dx, dy)) return once(far_end(o->px, o->py, dx, dy));
    if (o->kind == 3 && is_on(ox, oy, o->px, o->py, -dx, -dy)) return once(far_end(o->px, o->py, -dx, -dy));
    return nothing();
}

/* ---- pieces of lines */

static meeting together(const object *a, const object *b)
{
    const int64_t far = 100000000;
    int64_t dx = a->qx - a->px, dy = a->qy - a->py;
    int64_t at_r = dx * b->px + dy * b->py, at_s = dx * b->qx + dy * b->qy;
    int64_t lo = a->kind == 3 ? -far : dx * a->px + dy * a->py, hi = a->kind == 1 ? dx * a->qx + dy * a->qy : far;
    int64_t x = a->px, y = a->py, low, high, u, v;
    if (at_r < at_s) {
        low = b->kind == 3 ? -far : at_r, high = b->kind == 1 ? at_s : far, u = b->px, v = b->py;
    } else {
        low = b->kind == 1 ? at_s : -far, high = b->kind == 3 ? far : at_r, u = b->qx, v = b->qy;
    }
    if (high < hi) hi = high;
    if (lo < low) lo = low, x = u, y = v;
    if (lo < hi) return many();
    return hi < lo ? nothing() : once((point){0, x, 0, y, 1});
}

static bool reaches(int64_t kind, int64_t h, int64_t w) { return kind == 1 ? h >= 0 && h <= w : kind == 3 || h >= 0; }

static meeting cross(const object *a, const object *b)
{
    if (a->kind == 4) return with_side(a->px, b);
    if (b->kind == 4) return with_side(b->px, a);
    int64_t dx = a->qx - a->px, dy = a->qy - a->py, fx = b->qx - b->px, fy = b->qy - b->py;
    int64_t ex = b->px - a->px, ey = b->py - a->py, across = dx * fy - dy * fx;
    if (across == 0) return dx * ey - dy * ex != 0 ? nothing() : together(a, b);
    int64_t h = ex * fy - ey * fx, g = ex * dy - ey * dx, w = across;
    if (across < 0) h = -h, g = -g, w = -w;
    if (!reaches(a->kind, h, w) || !reaches(b->kind, g, w)) return nothing();
    int64_t k = a->qx * a->py - a->qy * a->px, m = b->qx * b->py - b->qy * b->px;
    int64_t nx = k * fx - m * dx, ny = k * fy - m * dy;
    if (across < 0) nx = -nx, ny = -ny;
    return once(divide(0, nx, 0, ny, w));
}

/* ---- joints */

/* a point off the frame is no far end, and an end only where it is p or q */
static bool is_near_end(const object *o, const point *e)
{
    return (o->kind <= 2 && e->nx == o->px && e->ny == o->py) || (o->kind == 1 && e->nx == o->qx && e->ny == o->qy);
}

/* Whether the one point that two objects share is an end of both. On the frame one of the two is a side, for two others that share one point do
   so near the origin; what is no side ends there, and a side does where the point is a corner. */
static bool is_joint(const object *a, const object *b, const point *e)
{
    if (e->w != 1) return false;
    if (e->mx == 0 && e->my == 0) return is_near_end(a, e) && is_near_end(b, e);
    return e->mx != 0 && e->my != 0 && e->nx == 0 && e->ny == 0;
}

/* ---- lists and rows */

static object object_at(const int64_t *list, size_t i)
{
    const int64_t *o = list + WIDTH * i;
    return (object){o[0], o[1], o[2], o[3], o[4], o[TAG]};
}

static int64_t list_refusal(const int64_t *list, size_t length)
{
    if (length % WIDTH != 0) return 14;
    if (length / WIDTH > MOST) return 11;
    for (size_t i = 0; i < length / WIDTH; i++) {
        object o = object_at(list, i);
        int64_t no = refusal(&o);
        if (no != 0) return no;
    }
    return 0;
}

static inline size_t pairs_of(size_t count) { return count * (count - (count > 0)) / 2; }

static inline bool is_left_out(const object *a, const object *b, const meeting *m, bool joints)
{
    return m->what == NOTHING || (m->what == ONCE && !joints && is_joint(a, b, &m->e));
}

static inline void put_row(int64_t *row, size_t i, size_t j, const object *a, const object *b, const meeting *m)
{
    row[0] = (int64_t)i, row[1] = (int64_t)j, row[2] = m->what == ONCE ? 1 : 2;
    if (m->what == ONCE) {
        row[3] = m->e.mx, row[4] = m->e.nx, row[5] = m->e.my, row[6] = m->e.ny, row[7] = m->e.w;
    } else {
        row[3] = row[4] = row[5] = row[6] = row[7] = 0;
    }
    row[8] = a->tag, row[9] = b->tag;
}

#endif
