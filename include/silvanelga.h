/* Silvanelga for a viewer in C: two calls on a stored drawing.

   A drawing is passed as its stored bytes and their number. It has one of two forms, which its first number tells: the new form starts with
   1000, the old one with the count of objects. Both calls take either. The calls read the bytes and nothing else. They allocate nothing, keep
   nothing and change nothing: no memory of the caller, no global, not errno. Any thread may call at any time, also with the same bytes, as
   long as nobody writes them meanwhile. Any bytes, any index and any x and y are taken, and what is wrong with them is the answer. A null
   pointer is fine where the number of bytes is 0. A call uses less than a kilobyte of stack.

   Link with the library that `./build viewer` writes, target/staticlib/libviewer.a; it needs no other. */
#ifndef SILVANELGA_H
#define SILVANELGA_H

#include <stddef.h>
#include <stdint.h>

#ifdef __cplusplus
extern "C" {
#endif

enum {
    SILVANELGA_REACH = 2000,   /* coordinates are whole millimetres from -2000 to 2000 */
    SILVANELGA_MOST = 512,     /* objects of a drawing at most */
    SILVANELGA_LONGEST = 6148, /* bytes of a drawing of either form at most; of a longer input, this many and one more meet the same refusal */
    SILVANELGA_REFUSED = 100   /* silvanelga_side answers this plus the number of a refusal */
};

/* The numbers that say no. The calls below can meet those marked with a star. */
enum silvanelga_refusal {
    SILVANELGA_NO_KIND = 1,        /* * kind not 1 to 4 */
    SILVANELGA_TOO_FAR = 2,        /* * a coordinate beyond 2000 either way */
    SILVANELGA_SAME_POINTS = 3,    /* * p equals q */
    SILVANELGA_NO_SIDE = 4,        /* * side number not 1 to 4, or one of py, qx and qy not 0 */
    SILVANELGA_NO_POINT = 5,       /*   five numbers that are no point */
    SILVANELGA_WIDE_POINT = 6,     /*   a point too wide for a turn */
    SILVANELGA_BYTES_END = 7,      /* * the bytes end where a number must begin or go on */
    SILVANELGA_BAD_NUMBER = 8,     /* * a stored number's third byte has its top bit set, or its last group, not being the first, is 0 */
    SILVANELGA_BYTES_AFTER = 9,    /* * bytes after the last object */
    SILVANELGA_NO_ROOM = 10,       /*   the lent list or byte buffer is too short for the result */
    SILVANELGA_TOO_MANY = 11,      /* * more than 512 objects */
    /* 12 was a refusal of earlier builds, and is not used again */
    SILVANELGA_NO_OBJECT = 13,     /* * object index below 0 or not below the count (silvanelga_side alone) */
    SILVANELGA_LIST_LENGTH = 14,   /*   list length not a multiple of six, or of ten for rows */
    SILVANELGA_NO_TAG = 15,        /* * a tag below 0 or above 2,000,000; of stored bytes, of the new form alone */
    SILVANELGA_TAG_LOST = 16,      /*   a tag other than 0 written in the old form, or moved to it, which has no place for it */
    SILVANELGA_NOT_GIVEN = 21      /*   of the first three points of a circle, or a standard fourth, one that is no given point */
};

/* Are these `length` bytes a stored drawing, of either form? 0, or the refusal that reading them meets first. */
int64_t silvanelga_check(const uint8_t *bytes, size_t length);

/* On which side of object `index` is the point x, y? Objects are numbered from 0 in the drawing's order; x and y are whole millimetres.
      1   left of the arrow, where the leaf may move
      0   on the line through the object, also before and beyond a segment's ends
     -1   right of the arrow, where the vehicle is
   The inside of the frame is left of each of its sides, so that a side (kind 4) answers 1 everywhere.
   Else 100 plus a refusal, the first of these: what silvanelga_check says of the bytes, 113 for the index, 102 for x or y beyond 2000.
   Each call reads the whole drawing again, so that nothing has to be kept between calls. */
int64_t silvanelga_side(const uint8_t *bytes, size_t length, int64_t index, int64_t x, int64_t y);

#ifdef __cplusplus
}
#endif

#endif
