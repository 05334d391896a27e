/* Plain C of the same algorithms; see plain.h. */
#include "plain_numbers.h"

typedef struct { int64_t kind, px, py, qx, qy, tag; } object;
typedef enum { NOTHING, ONCE, MANY } what;
typedef struct { what what; point e; } meeting;

static bool beyond(int64_t z) { return z < -REACH || REACH < z; }

static int64_t refusal(const object *o)
{
    if (o->kind < 1 || 4 < o->kind) return 1;
    if (o->kind == 4) {
        if (o->px < 1 || 4 < o->px || o->py != 0 || o->qx != 0 || o->qy != 0) return 4;
    } else {
        if (beyond(o->px) || beyond(o->py) || beyond(o->qx) || beyond(o->qy)) return 2;
        if (o->px == o->qx && o->py == o->qy) return 3;
    }
    return o->tag < 0 || LAST_TAG < o->tag ? 15 : 0;
}

static meeting nothing(void) { return (meeting){.what = NOTHING}; }
static meeting many(void) { return (meeting){.what = MANY}; }
static meeting once(point e) { return (meeting){.what = ONCE, .e = e}; }

/* ---- sides of the frame, by the way out over them */

static int64_t out_x(int64_t n) { return n == 1 ? -1 : n == 3 ? 1 : 0; }
static int64_t out_y(int64_t n) { return n == 2 ? -1 : n == 4 ? 1 : 0; }

static bool is_flat(int64_t dx, int64_t dy, int64_t k)
{
    uint64_t across = size(dx), up = size(dy);
    return up < across || (across == up && sign(dx) * sign(dy) * k <= 0);
}

static bool is_on(int64_t ox, int64_t oy, int64_t px, int64_t py, int64_t dx, int64_t dy)
{
    int64_t k = dx * py - dy * px, m = ox * dx + oy * dy;
    if (is_flat(dx, dy, k)) return m == (int64_t)size(dx) && oy * (sign(dx) * k) == 0;
    return m == (int64_t)size(dy) && ox * -(sign(dy) * k) == 0;
}

static point far_end(int64_t px, int64_t py, int64_t dx, int64_t dy)
{
    int64_t k = dx * py - dy * px;
    if (is_flat(dx, dy, k)) return divide(dx, 0, dy, sign(dx) * k, (int64_t)size(dx));
    return divide(dx, -(sign(dy) * k), dy, 0, (int64_t)size(dy));
}

static meeting with_side(int64_t n, const object *o)
{
    int64_t ox = out_x(n), oy = out_y(n), dx = o->qx - o->px, dy = o->qy - o->py;
    if (o->kind == 1) return nothing();
    if (o->kind == 4) {
        int64_t ux = out_x(o->px), uy = out_y(o->px), alike = ox * ux + oy * uy;
        if (alike == 0) return once((point){ox + ux, 0, oy + uy, 0, 1});
        return alike > 0 ? many() : nothing();
    }
    if (is_on(ox, oy, o->px, o->py, dx, dy)) return once(far_end(o->px, o->py, dx, dy));
    if (o->kind == 3 && is_on(ox, oy, o->px, o->py, -dx, -dy)) return once(far_end(o->px, o->py, -dx, -dy));
    return nothing();
}

/* ---- pieces of lines */

static meeting together(const object *a, const object *b)
{
    const int64_t far = 100000000;
    int64_t dx = a->qx - a->px, dy = a->qy - a->py;
    int64_t at_r = dx * b->px + dy * b->py, at_s = dx * b->qx + dy * b->qy;
    int64_t lo = a->kind == 3 ? -far : dx * a->px + dy * a->py, hi = a->kind == 1 ? dx * a->qx + dy * a->qy : far;
    int64_t x = a->px, y = a->py, low, high, u, v;
    if (at_r < at_s) {
        low = b->kind == 3 ? -far : at_r, high = b->kind == 1 ? at_s : far, u = b->px, v = b->py;
    } else {
        low = b->kind == 1 ? at_s : -far, high = b->kind == 3 ? far : at_r, u = b->qx, v = b->qy;
    }
    if (high < hi) hi = high;
    if (lo < low) lo = low, x = u, y = v;
    if (lo < hi) return many();
    return hi < lo ? nothing() : once((point){0, x, 0, y, 1});
}

static bool reaches(int64_t kind, int64_t h, int64_t w) { return kind == 1 ? h >= 0 && h <= w : kind == 3 || h >= 0; }

static meeting cross(const object *a, const object *b)
{
    if (a->kind == 4) return with_side(a->px, b);
    if (b->kind == 4) return with_side(b->px, a);
    int64_t dx = a->qx - a->px, dy = a->qy - a->py, fx = b->qx - b->px, fy = b->qy - b->py;
    int64_t ex = b->px - a->px, ey = b->py - a->py, across = dx * fy - dy * fx;
    if (across == 0) return dx * ey - dy * ex != 0 ? nothing() : together(a, b);
    int64_t h = ex * fy - ey * fx, g = ex * dy - ey * dx, w = across;
    if (across < 0) h = -h, g = -g, w = -w;
    if (!reaches(a->kind, h, w) || !reaches(b->kind, g, w)) return nothing();
    int64_t k = a->qx * a->py - a->qy * a->px, m = b->qx * b->py - b->qy * b->px;
    int64_t nx = k * fx - m * dx, ny = k * fy - m * dy;
    if (across < 0) nx = -nx, ny = -ny;
    return once(divide(0, nx, 0, ny, w));
}

/* ---- joints */

/* a point off the frame is no far end, and an end only where it is p or q */
static bool is_near_end(const object *o, const point *e)
{
    return (o->kind <= 2 && e->nx == o->px && e->ny == o->py) || (o->kind == 1 && e->nx == o->qx && e->ny == o->qy);
}

/* Whether the one point that two objects share is an end of both. On the frame one of the two is a side, for two others that share one point do
   so near the origin; what is no side ends there, and a side does where the point is a corner. */
static bool is_joint(const object *a, const object *b, const point *e)
{
    if (e->w != 1) return false;
    if (e->mx == 0 && e->my == 0) return is_near_end(a, e) && is_near_end(b, e);
    return e->mx != 0 && e->my != 0 && e->nx == 0 && e->ny == 0;
}

/* ---- the listing */

static object object_at(const int64_t *list, size_t i)
{
    const int64_t *o = list + WIDTH * i;
    return (object){o[0], o[1], o[2], o[3], o[4], o[TAG]};
}

static int64_t list_refusal(const int64_t *list, size_t length)
{
    if (length % WIDTH != 0) return 14;
    if (length / WIDTH > MOST) return 11;
    for (size_t i = 0; i < length / WIDTH; i++) {
        object o = object_at(list, i);
        int64_t no = refusal(&o);
        if (no != 0) return no;
    }
    return 0;
}

int64_t plain_list(const int64_t *list, size_t length, bool joints, int64_t *rows, size_t room)
{
    int64_t no = list_refusal(list, length);
    if (no != 0) return -no;
    size_t count = length / WIDTH, at = 0;
    if (room < ROW * (count * (count - (count > 0)) / 2)) return -10;
    for (size_t i = 0; i < count; i++) {
        object a = object_at(list, i);
        for (size_t j = i + 1; j < count; j++) {
            object b = object_at(list, j);
            meeting m = cross(&a, &b);
            if (m.what == NOTHING || (m.what == ONCE && !joints && is_joint(&a, &b, &m.e))) continue;
            int64_t *row = rows + at;
            row[0] = (int64_t)i, row[1] = (int64_t)j, row[2] = m.what == ONCE ? 1 : 2;
            if (m.what == ONCE) {
                row[3] = m.e.mx, row[4] = m.e.nx, row[5] = m.e.my, row[6] = m.e.ny, row[7] = m.e.w;
            } else {
                row[3] = row[4] = row[5] = row[6] = row[7] = 0;
            }
            row[8] = a.tag, row[9] = b.tag;
            at += ROW;
        }
    }
    return (int64_t)(at / ROW);
}

/* ---- stored drawings; each loop over objects is written once, and compiled for each form */

/* one group of seven bits, and two, hold the numbers below these; the first is also the top bit of a byte, which says that another follows */
enum { GROUP = 128, TWO_GROUPS = GROUP * GROUP };
enum { MARK = 1000 }; /* what the new form starts with: no count */

/* one to three groups, the low one first; what is asked first is what most numbers are */
static int64_t number(const uint8_t *bytes, size_t length, size_t *at, int64_t *n)
{
    if (*at >= length) return 7;
    uint8_t first = bytes[(*at)++];
    *n = first;
    if (first < GROUP) return 0;
    if (*at >= length) return 7;
    uint8_t second = bytes[(*at)++];
    *n = first - GROUP + GROUP * (int64_t)second;
    if (0 < second && second < GROUP) return 0;
    if (second == 0) return 8;
    if (*at >= length) return 7;
    uint8_t third = bytes[(*at)++];
    *n += TWO_GROUPS * (int64_t)third - TWO_GROUPS; /* without the second byte's top bit */
    return 0 < third && third < GROUP ? 0 : 8;
}

/* one object; the old form has no place for its tag, which is 0, and the new one tells q by how far it is from p */
static inline int64_t read_object(bool is_new, const uint8_t *bytes, size_t length, size_t *at, int64_t o[WIDTH])
{
    int64_t no = number(bytes, length, at, &o[0]);
    if (no != 0) return no;
    if (o[0] < 1 || 4 < o[0]) return 1;
    o[TAG] = 0;
    if (is_new) {
        no = number(bytes, length, at, &o[TAG]);
        if (no != 0) return no;
        if (LAST_TAG < o[TAG]) return 15;
    }
    if (o[0] == 4) {
        o[2] = o[3] = o[4] = 0;
        no = number(bytes, length, at, &o[1]);
        return no != 0 ? no : o[1] < 1 || 4 < o[1] ? 4 : 0;
    }
    for (int k = 1; k < TAG; k++) {
        int64_t n;
        no = number(bytes, length, at, &n);
        if (no != 0) return no;
        o[k] = n % 2 == 0 ? n / 2 : -(n / 2) - 1;
        if (is_new && 2 < k) o[k] += o[k - 2];
        if (beyond(o[k])) return 2;
    }
    return o[1] == o[3] && o[2] == o[4] ? 3 : 0;
}

/* what stands before the objects: in the new form a mark, and then in either the count */
typedef struct { bool is_new; int64_t count; } head;

static int64_t read_head(const uint8_t *bytes, size_t length, size_t *at, head *h)
{
    int64_t no = number(bytes, length, at, &h->count);
    h->is_new = no == 0 && h->count == MARK;
    if (h->is_new) no = number(bytes, length, at, &h->count);
    return no != 0 ? no : h->count > MOST ? 11 : 0;
}

/* the whole drawing is read once to check it, and once more to fill the list */
static inline int64_t read_objects(bool is_new, int64_t count, const uint8_t *bytes, size_t length, size_t start, int64_t *list, size_t room)
{
    size_t at = start;
    int64_t o[WIDTH], no = 0;
    for (int64_t i = 0; no == 0 && i < count; i++) no = read_object(is_new, bytes, length, &at, o);
    if (no != 0) return -no;
    if (at != length) return -9;
    if (room < (size_t)count * WIDTH) return -10;
    at = start;
    for (int64_t i = 0; i < count; i++) read_object(is_new, bytes, length, &at, list + WIDTH * i);
    return count * WIDTH;
}

int64_t plain_read(const uint8_t *bytes, size_t length, int64_t *list, size_t room)
{
    size_t at = 0;
    head h;
    int64_t no = read_head(bytes, length, &at, &h);
    if (no != 0) return -no;
    return h.is_new ? read_objects(true, h.count, bytes, length, at, list, room) : read_objects(false, h.count, bytes, length, at, list, room);
}

static size_t width_of(uint64_t n) { return n < GROUP ? 1 : n < TWO_GROUPS ? 2 : 3; }
static uint64_t folded(int64_t n) { return n >= 0 ? 2 * (uint64_t)n : 2 * size(n) - 1; }

/* apart, since of all that is written a tag alone may have three groups */
static size_t put_three(uint8_t *bytes, uint64_t n)
{
    bytes[0] = (uint8_t)(GROUP + n % GROUP);
    bytes[1] = (uint8_t)(GROUP + n / GROUP % GROUP);
    bytes[2] = (uint8_t)(n / TWO_GROUPS);
    return 3;
}

static size_t put(uint8_t *bytes, uint64_t n)
{
    if (n < GROUP) {
        bytes[0] = (uint8_t)n;
        return 1;
    }
    if (TWO_GROUPS <= n) return put_three(bytes, n);
    bytes[0] = (uint8_t)(GROUP + n % GROUP);
    bytes[1] = (uint8_t)(n / GROUP);
    return 2;
}

/* the number that px, py, qx or qy, the k-th of an object, is stored as */
static inline uint64_t stored(bool is_new, const int64_t *o, int k) { return folded(is_new && 2 < k ? o[k] - o[k - 2] : o[k]); }

static inline size_t size_of(bool is_new, const int64_t *o)
{
    size_t need = 1 + (is_new ? width_of((uint64_t)o[TAG]) : 0);
    if (o[0] == 4) return need + 1;
    for (int k = 1; k < TAG; k++) need += width_of(stored(is_new, o, k));
    return need;
}

static inline size_t put_object(bool is_new, const int64_t *o, uint8_t *bytes)
{
    size_t at = put(bytes, (uint64_t)o[0]);
    if (is_new) at += put(bytes + at, (uint64_t)o[TAG]);
    if (o[0] == 4) return at + put(bytes + at, (uint64_t)o[1]);
    for (int k = 1; k < TAG; k++) at += put(bytes + at, stored(is_new, o, k));
    return at;
}

static size_t size_of_head(bool is_new, size_t count) { return (is_new ? width_of(MARK) : 0) + width_of(count); }

static size_t put_head(bool is_new, size_t count, uint8_t *bytes)
{
    size_t at = is_new ? put(bytes, MARK) : 0;
    return at + put(bytes + at, count);
}

static inline int64_t write_objects(bool is_new, const int64_t *list, size_t count, uint8_t *bytes, size_t room)
{
    int64_t tags = 0;
    size_t need = size_of_head(is_new, count), at;
    for (size_t i = 0; i < count; i++) {
        tags |= list[WIDTH * i + TAG];
        need += size_of(is_new, list + WIDTH * i);
    }
    if (!is_new && tags != 0) return -16;
    if (room < need) return -10;
    at = put_head(is_new, count, bytes);
    for (size_t i = 0; i < count; i++) at += put_object(is_new, list + WIDTH * i, bytes + at);
    return (int64_t)at;
}

int64_t plain_write(int64_t form, const int64_t *list, size_t length, uint8_t *bytes, size_t room)
{
    int64_t no = list_refusal(list, length);
    if (no != 0) return -no;
    size_t count = length / WIDTH;
    return form == NEW ? write_objects(true, list, count, bytes, room) : write_objects(false, list, count, bytes, room);
}

/* each object is read once to check and to count, and once more to be put */
static inline int64_t move_objects(bool was_new, bool is_new, int64_t count, const uint8_t *bytes, size_t length, size_t start, uint8_t *out, size_t room)
{
    size_t at = start, need = size_of_head(is_new, (size_t)count);
    int64_t o[WIDTH], tags = 0;
    for (int64_t i = 0; i < count; i++) {
        int64_t no = read_object(was_new, bytes, length, &at, o);
        if (no != 0) return -no;
        tags |= o[TAG];
        need += size_of(is_new, o);
    }
    if (at != length) return -9;
    if (!is_new && tags != 0) return -16;
    if (room < need) return -10;
    size_t put_at = put_head(is_new, (size_t)count, out);
    at = start;
    for (int64_t i = 0; i < count; i++) {
        read_object(was_new, bytes, length, &at, o);
        put_at += put_object(is_new, o, out + put_at);
    }
    return (int64_t)put_at;
}

int64_t plain_move(const uint8_t *bytes, size_t length, int64_t form, uint8_t *out, size_t room)
{
    size_t at = 0;
    head h;
    int64_t no = read_head(bytes, length, &at, &h);
    if (no != 0) return -no;
    if (form == NEW) return h.is_new ? move_objects(true, true, h.count, bytes, length, at, out, room) : move_objects(false, true, h.count, bytes, length, at, out, room);
    return h.is_new ? move_objects(true, false, h.count, bytes, length, at, out, room) : move_objects(false, false, h.count, bytes, length, at, out, room);
}
