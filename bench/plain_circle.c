/* The side of a circle in plain C; see plain.h. */
#include "plain_numbers.h"
#include <stdbool.h>

typedef __int128 wide;

static const int64_t WIDEST = 32000000, FAR = 64000000000; /* w and n of a standard point */
static const int64_t NARROW = 4000, NEAR = 8000000;        /* w and n of a frame point */

static bool within(int64_t most, int64_t n) { return -most <= n && n <= most; }

static bool on_edge(int64_t m, int64_t n, int64_t w) { return n == 0 && (m == w || m == -w); }

static bool in_square(int64_t m, int64_t n, int64_t w)
{
    if (m == w) return n <= 0;
    if (m == -w) return n >= 0;
    return -w < m && m < w;
}

static bool is_standard(const point *p) { return p->mx == 0 && p->my == 0; }

static bool is_point(const point *p)
{
    bool standard = is_standard(p);
    int64_t most = standard ? FAR : NEAR;
    if (p->w < 1 || p->w > (standard ? WIDEST : NARROW) || !within(most, p->nx) || !within(most, p->ny)) return false;
    if (!standard) {
        if (!on_edge(p->mx, p->nx, p->w) && !on_edge(p->my, p->ny, p->w)) return false;
        if (!in_square(p->mx, p->nx, p->w) || !in_square(p->my, p->ny, p->w)) return false;
    }
    return p->w == 1 || divisor(p->mx, p->nx, p->my, p->ny, p->w) == 1;
}

static bool is_given(const point *p) { return is_standard(p) && p->w == 1 && within(REACH, p->nx) && within(REACH, p->ny); }

static int64_t refusal(const point *p, const point *q, const point *s, const point *u)
{
    if (!is_point(p) || !is_point(q) || !is_point(s) || !is_point(u)) return 5;
    if (!is_given(p) || !is_given(q) || !is_given(s) || (is_standard(u) && !is_given(u))) return 21;
    return 0;
}

static int64_t sign_of(wide n) { return (n > 0) - (n < 0); }

/* three by three, a row after the other; of given points it is below 10^15 */
static int64_t determinant(int64_t a, int64_t b, int64_t c, int64_t d, int64_t e, int64_t f, int64_t g, int64_t h, int64_t i)
{
    return a * (e * i - f * h) - b * (d * i - f * g) + c * (d * h - e * g);
}

/* the report's determinant by its last column, of which each number has its factor */
static int64_t side(const point *p, const point *q, const point *s, const point *u)
{
    int64_t x1 = p->nx, y1 = p->ny, z1 = x1 * x1 + y1 * y1;
    int64_t x2 = q->nx, y2 = q->ny, z2 = x2 * x2 + y2 * y2;
    int64_t x3 = s->nx, y3 = s->ny, z3 = x3 * x3 + y3 * y3;
    int64_t of_1 = -determinant(x1, x2, x3, y1, y2, y3, z1, z2, z3);
    int64_t of_x = determinant(1, 1, 1, y1, y2, y3, z1, z2, z3);
    int64_t of_y = -determinant(1, 1, 1, x1, x2, x3, z1, z2, z3);
    int64_t of_z = determinant(1, 1, 1, x1, x2, x3, y1, y2, y3);
    int64_t mx = u->mx, nx = u->nx, my = u->my, ny = u->ny, w = u->w;
    if (is_standard(u)) return sign(of_1 + of_x * nx + of_y * ny + of_z * (nx * nx + ny * ny));

    /* on the frame it is a polynomial in R: the highest coefficient that is not 0 decides */
    int64_t second = of_z * (mx * mx + my * my);
    if (second != 0) return sign(second);
    wide first = (wide)w * (of_x * mx + of_y * my) + (wide)of_z * 2 * (mx * nx + my * ny);
    if (first != 0) return sign_of(first);
    return sign_of((wide)w * w * of_1 + (wide)w * (of_x * nx + of_y * ny) + (wide)of_z * (nx * nx + ny * ny));
}

answer plain_circle(point p, point q, point s, point u)
{
    int64_t no = refusal(&p, &q, &s, &u);
    return (answer){.refusal = no, .number = no != 0 ? 0 : side(&p, &q, &s, &u)};
}
