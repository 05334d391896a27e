/* Numbers and points, for both files of plain C. */
#ifndef PLAIN_NUMBERS_H
#define PLAIN_NUMBERS_H
#include "plain.h"

static inline int64_t sign(int64_t x) { return (x > 0) - (x < 0); }
static inline uint64_t size(int64_t x) { return x < 0 ? 0 - (uint64_t)x : (uint64_t)x; }

static inline uint64_t gcd(uint64_t x, uint64_t y)
{
    while (1 < y) {
        uint64_t rest = x % y, lack = y - rest;
        x = y;
        y = lack < rest ? lack : rest;
    }
    return y == 1 ? 1 : x;
}

/* two sizes, the smaller one first, but 0 second */
typedef struct { uint64_t first, second; } two;
static inline two smaller_first(uint64_t a, uint64_t b) { return (b < a || a == 0) && b != 0 ? (two){b, a} : (two){a, b}; }

static inline uint64_t divisor(int64_t mx, int64_t nx, int64_t my, int64_t ny, int64_t w)
{
    two a = smaller_first(size(mx), size(nx)), b = smaller_first(a.first, size(my));
    two c = smaller_first(b.first, size(ny)), d = smaller_first(c.first, size(w));
    return gcd(a.second, gcd(b.second, gcd(c.second, gcd(d.second, d.first))));
}

static inline point divide(int64_t mx, int64_t nx, int64_t my, int64_t ny, int64_t w)
{
    int64_t g = (int64_t)divisor(mx, nx, my, ny, w);
    return g == 1 ? (point){mx, nx, my, ny, w} : (point){mx / g, nx / g, my / g, ny / g, w / g};
}

#endif
