/* The kernel's algorithms once more in plain C, with no proof and no checks beyond document 01's: what a careful C programmer would
   write. The measure that the proved code is held against. */
#ifndef PLAIN_H
#define PLAIN_H
#include <stdbool.h>
#include <stddef.h>
#include <stdint.h>

enum { WIDTH = 6, ROW = 10, MOST = 512, REACH = 2000, LAST_TAG = 2000000 };
enum { TAG = WIDTH - 1 }; /* where it stands among the numbers of an object; p and q stand between the kind and it */
enum { OLD = 1, NEW = 2 }; /* the forms of a stored drawing */

/* the rows of all sharing pairs, without joints unless they are asked for; their count, or minus the refusal */
int64_t plain_list(const int64_t *list, size_t length, bool joints, int64_t *rows, size_t room);
/* a stored drawing of either form read, written in a form, and moved to a form; the count of numbers or bytes, or minus the refusal */
int64_t plain_read(const uint8_t *bytes, size_t length, int64_t *list, size_t room);
int64_t plain_write(int64_t form, const int64_t *list, size_t length, uint8_t *bytes, size_t room);
int64_t plain_move(const uint8_t *bytes, size_t length, int64_t form, uint8_t *out, size_t room);

typedef struct { int64_t mx, nx, my, ny, w; } point;
typedef struct { int64_t refusal, number; point at; } answer;

/* the side of the circle through p, q and s that u is on; in plain_circle.c */
answer plain_circle(point p, point q, point s, point u);

#endif
