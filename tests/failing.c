/* Stands between a program and its reads of descriptor 0 and writes of descriptor 1 (LD_PRELOAD), and makes them short or lets them fail.
 *
 * READ_MOST, WRITE_MOST      no call moves more bytes; 0 or nothing: no limit
 * READ_AT, WRITE_AT          the call, counted from 1, that fails; 0 or nothing: none
 * READ_TIMES, WRITE_TIMES    how many calls fail from that one on; nothing: one. The calls after them go through
 * READ_ERRNO, WRITE_ERRNO    the error; 0: the call moves nothing and sets no error
 */
#define _GNU_SOURCE
#include <dlfcn.h>
#include <errno.h>
#include <stdlib.h>
#include <sys/types.h>

struct plan {
    long most, at, times, error, calls;
};

static long number(const char *name, long missing) {
    const char *text = getenv(name);
    return text ? atol(text) : missing;
}

/* Whether this call fails; else how many of the bytes it may move. */
static int fails(struct plan *plan, size_t *count) {
    plan->calls++;
    if (plan->at && plan->calls >= plan->at && plan->calls < plan->at + plan->times) return 1;
    if (plan->most && *count > (size_t)plan->most) *count = (size_t)plan->most;
    return 0;
}

static ssize_t answer(const struct plan *plan) {
    if (plan->error == 0) return 0;
    errno = (int)plan->error;
    return -1;
}

static ssize_t read_by(const char *name, int descriptor, void *bytes, size_t count) {
    static struct plan plan;
    static int known;
    if (!known) {
        plan = (struct plan){number("READ_MOST", 0), number("READ_AT", 0), number("READ_TIMES", 1), number("READ_ERRNO", EIO), 0};
        known = 1;
    }
    if (descriptor == 0 && fails(&plan, &count)) return answer(&plan);
    return ((ssize_t (*)(int, void *, size_t))dlsym(RTLD_NEXT, name))(descriptor, bytes, count);
}

static ssize_t write_by(const char *name, int descriptor, const void *bytes, size_t count) {
    static struct plan plan;
    static int known;
    if (!known) {
        plan = (struct plan){number("WRITE_MOST", 0), number("WRITE_AT", 0), number("WRITE_TIMES", 1), number("WRITE_ERRNO", EIO), 0};
        known = 1;
    }
    if (descriptor == 1 && fails(&plan, &count)) return answer(&plan);
    return ((ssize_t (*)(int, const void *, size_t))dlsym(RTLD_NEXT, name))(descriptor, bytes, count);
}

/* the C library has each under two names, and a program may call either */
ssize_t read(int descriptor, void *bytes, size_t count) { return read_by("read", descriptor, bytes, count); }
ssize_t __read(int descriptor, void *bytes, size_t count) { return read_by("__read", descriptor, bytes, count); }
ssize_t write(int descriptor, const void *bytes, size_t count) { return write_by("write", descriptor, bytes, count); }
ssize_t __write(int descriptor, const void *bytes, size_t count) { return write_by("__write", descriptor, bytes, count); }
