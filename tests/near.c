/* The listing that skips pairs that stand apart against the plain one, in one process. Standard input, in 64-bit numbers: for each list its length,
   whether its rows are to be shown, and its numbers. Each list is listed by both, with joints and without, into no room, one number less than is
   needed, as many, one more, and room for every pair and some; refusals, counts, every lent cell, some cells behind them and the list are compared.
   Standard output, in 64-bit numbers: for each list, with joints and without, the refusal, the count of rows and the length where there is room for
   every pair, and the rows where they are to be shown.
   An argument is the number of a fault, which is put into what the first of the two gives: to see that it is noticed. */
#include "trial.h"
#include <stdio.h>
#include <stdlib.h>
#include <string.h>

enum { MOST = 512, PAIRS = MOST * (MOST - 1) / 2, SOME = 3, ALL = ROW * PAIRS + 2 * SOME, NUMBERS = WIDTH * (MOST + 2) };
enum { LENT = 7700000, SHORT_ROOM = 10 };
enum { CUT_OFF = 3, DIFFER = 4 };
enum { NO_FAULT, ROW_LEFT_OUT, ROWS_CHANGED_OVER, ONE_NUMBER_OFF, COUNT_OFF, NEED_OFF, REFUSED_BY_ROOM, REFUSED_AND_WRITTEN, BEHIND_THE_ROWS, BEHIND_THE_ROOM,
       LIST_CHANGED, JOINTS_ALWAYS };

static int64_t list[NUMBERS], kept[NUMBERS], near_rows[ALL], plain_rows[ALL];
static size_t length;
static int fault;

/* no two cells alike, so that none can be moved or left out unnoticed */
static void lend(int64_t *rows, size_t room)
{
    for (size_t k = 0; k < room + SOME; k++) rows[k] = LENT + (int64_t)k;
}

static void change_over(int64_t *rows)
{
    for (size_t k = 0; k < ROW; k++) {
        int64_t first = rows[k];
        rows[k] = rows[ROW + k], rows[ROW + k] = first;
    }
}

static struct listed spoilt(struct listed listed, size_t room)
{
    bool has_rows = listed.rows > 0, refused = listed.refusal != 0;
    if (fault == ROW_LEFT_OUT && has_rows) {
        listed.rows--, listed.length -= ROW;
        for (size_t k = listed.length; k < listed.length + ROW; k++) near_rows[k] = LENT + (int64_t)k;
    }
    if (fault == ROWS_CHANGED_OVER && listed.rows > 1) change_over(near_rows);
    if (fault == ONE_NUMBER_OFF && has_rows) near_rows[listed.length - 1]++;
    if (fault == COUNT_OFF && has_rows) listed.rows--;
    if (fault == NEED_OFF && listed.refusal == SHORT_ROOM) listed.length += ROW;
    if (fault == REFUSED_BY_ROOM && refused) listed.refusal = SHORT_ROOM;
    if (fault == REFUSED_AND_WRITTEN && refused && room > 0) near_rows[0] = 0;
    if (fault == BEHIND_THE_ROWS && listed.length < room) near_rows[listed.length] = 0;
    if (fault == BEHIND_THE_ROOM) near_rows[room] = 0;
    if (fault == LIST_CHANGED && length > 0) list[length - 1]++;
    return listed;
}

static struct listed compare(bool joints, size_t room)
{
    lend(near_rows, room), lend(plain_rows, room);
    struct listed near = spoilt(silvanelga_trial_near(list, length, joints || fault == JOINTS_ALWAYS, near_rows, room), room);
    struct listed plain = silvanelga_trial_list(kept, length, joints, plain_rows, room);
    bool same = near.refusal == plain.refusal && near.rows == plain.rows && near.length == plain.length;
    if (same && memcmp(near_rows, plain_rows, (room + SOME) * sizeof *near_rows) == 0 && memcmp(list, kept, length * sizeof *list) == 0) return near;
    fprintf(stderr, "joints %d, room %zu: refusal %lld, %zu rows, length %zu; plain: refusal %lld, %zu rows, length %zu\n", joints, room,
            (long long)near.refusal, near.rows, near.length, (long long)plain.refusal, plain.rows, plain.length);
    for (size_t k = 0; k < length; k++) fprintf(stderr, "%lld ", (long long)kept[k]);
    exit(DIFFER);
}

static struct listed compare_rooms(bool joints)
{
    size_t count = length / WIDTH < MOST ? length / WIDTH : MOST, need = compare(joints, 0).length;
    if (need > 0) compare(joints, need - 1);
    compare(joints, need);
    compare(joints, need + 1);
    return compare(joints, ROW * (count * (count + 1) / 2 - count) + SOME);
}

static void put(const int64_t *numbers, size_t count) { fwrite(numbers, sizeof *numbers, count, stdout); }

int main(int words, char **word)
{
    struct { uint64_t length, shown; } head;
    fault = words > 1 ? atoi(word[1]) : NO_FAULT;
    while (fread(&head, sizeof head, 1, stdin) == 1) {
        length = head.length;
        if (length > NUMBERS || fread(list, sizeof *list, length, stdin) != length) return CUT_OFF;
        memcpy(kept, list, length * sizeof *list);
        for (int joints = 1; joints >= 0; joints--) {
            struct listed listed = compare_rooms(joints);
            put((int64_t[]){listed.refusal, (int64_t)listed.rows, (int64_t)listed.length}, 3);
            if (head.shown) put(near_rows, listed.length);
        }
    }
    return 0;
}
