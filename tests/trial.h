/* The calls of the crate `trial`, how many numbers their lists have, of an object and of a row of a listing, and the forms of a stored drawing. */
#ifndef TRIAL_H
#define TRIAL_H
#include <stdbool.h>
#include <stddef.h>
#include <stdint.h>

enum { WIDTH = 6, ROW = 10 };
enum { OLD = 1, NEW = 2 }; /* any other number that is given as a form is taken as the old one */

/* the refusal, how many rows there are, and how many numbers they are; with refusal 10 the length that is needed and no rows */
struct listed { int64_t refusal; size_t rows, length; };

/* the rows of all pairs, the same without a look at pairs that stand apart, and those of object i with all later ones; joints are left out
   unless they are asked for */
struct listed silvanelga_trial_list(const int64_t *list, size_t length, bool joints, int64_t *rows, size_t room);
struct listed silvanelga_trial_near(const int64_t *list, size_t length, bool joints, int64_t *rows, size_t room);
struct listed silvanelga_trial_one(const int64_t *list, size_t length, size_t i, bool joints, int64_t *rows, size_t room);

/* each answers its refusal, 0 for none; a drawing is read in either form, and written in the one that is given */
int64_t silvanelga_trial_read(const uint8_t *bytes, size_t length, int64_t *list, size_t room);
int64_t silvanelga_trial_write(int64_t form, const int64_t *list, size_t length, uint8_t *bytes, size_t room);

/* the form of a stored drawing, or 100 plus the refusal that reading it meets */
int64_t silvanelga_trial_form(const uint8_t *bytes, size_t length);

/* the refusal, and the length of the drawing that was put, or with refusal 10 the length that is needed */
struct moved { int64_t refusal; size_t length; };

/* puts a stored drawing, of either form, into other bytes in the form that is given */
struct moved silvanelga_trial_move(const uint8_t *bytes, size_t length, int64_t form, uint8_t *out, size_t room);

/* the refusal, and the number that the bytes begin with and how many of them it takes */
struct stored_number { int64_t refusal; uint64_t value, size; };

struct stored_number silvanelga_trial_number(const uint8_t *bytes, size_t length);

/* puts the bytes of some numbers at a place of bytes, as far as there are cells, and answers the place behind them */
size_t silvanelga_trial_put(const uint64_t *numbers, size_t count, uint8_t *bytes, size_t length, size_t at);

/* the refusal, the side number or the flag, and the floats, from the front */
struct shown { int64_t refusal, number; double first, second, third, fourth; };

struct shown silvanelga_trial_place(int64_t mx, int64_t nx, int64_t my, int64_t ny, int64_t w);
struct shown silvanelga_trial_box(const int64_t *list, size_t length);

#endif
