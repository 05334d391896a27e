/* side_map: a picture of the sides of an object.

       side_map [-o FILE] [-w X0 Y0 X1 Y1] [-s STEP] DRAWING OBJECT [DRAWING OBJECT]

   Asks silvanelga_side on a grid over the sheet, or over the window from X0, Y0 to X1, Y1, each STEP millimetres, and writes an SVG with a
   panel for each DRAWING and OBJECT, to FILE or to standard output. All that it knows of an object is what the call answers: the arrow is
   drawn between the two places where the sign changes along the window's edge, and points so that 1 is on its left.

   Exit status: 0; 1 where a drawing or an object is refused; 2 where the arguments are wrong or a file cannot be read or written. */
#include <errno.h>
#include <stdarg.h>
#include <stdio.h>
#include <stdlib.h>
#include <string.h>

#include "silvanelga.h"

enum { REFUSAL = 1, FAILURE = 2 }; /* exit statuses */
enum { PANELS = 2, STEPS = 400, FEW_STEPS = 80, TICKS = 8, NAME = 32, EDGE = 4 * 2 * SILVANELGA_REACH };
/* the picture, in pixels */
enum { LEFT = 80, TOP = 70, SIDE = 400, GAP = 110, RIGHT = 30, UNDER = 65, ROW = 22, BOTTOM = 12 };

struct window { int64_t x0, y0, x1, y1, step; };

struct panel {
    const char *path;
    int64_t index;
    size_t length;
    uint8_t bytes[SILVANELGA_LONGEST + 1];
    signed char signs[STEPS + 2][STEPS + 2]; /* by row and column of the grid */
    signed char edge[EDGE];                  /* along the window's edge, counterclockwise from x0, y0 */
};

struct place { double x, y; };

struct side { int sign; const char *colour, *words; };

/* of the colours of Okabe and Ito, which colour-blind readers tell apart */
static const struct side sides[] = {
    {1, "#56B4E9", "1: left of the arrow, where the leaf may move"},
    {0, "#000000", "0: on the line of the arrow"},
    {-1, "#E69F00", "-1: right of the arrow, where the vehicle is"},
};
enum { SIDES = sizeof sides / sizeof *sides };
static const char arrow_words[] = "the arrow, drawn where the sign changes";

static _Noreturn void fail(int status, const char *form, ...)
{
    va_list rest;
    va_start(rest, form);
    fputs("side_map: ", stderr);
    vfprintf(stderr, form, rest);
    fputc('\n', stderr);
    va_end(rest);
    exit(status);
}

static const char *refusal_words(int64_t number)
{
    switch (number) {
    case SILVANELGA_NO_KIND: return "kind not 1 to 4";
    case SILVANELGA_TOO_FAR: return "a coordinate beyond 2000 either way";
    case SILVANELGA_SAME_POINTS: return "p equals q";
    case SILVANELGA_NO_SIDE: return "side number not 1 to 4";
    case SILVANELGA_BYTES_END: return "the bytes end where a number must begin or go on";
    case SILVANELGA_BAD_NUMBER: return "a stored number of more than three groups, or not in the fewest";
    case SILVANELGA_BYTES_AFTER: return "bytes after the last object";
    case SILVANELGA_TOO_MANY: return "more than 512 objects";
    case SILVANELGA_NO_OBJECT: return "no object of this number";
    default: return "an unknown refusal";
    }
}

/* ---- arguments and files */

static int64_t number(const char *text, const char *what)
{
    char *end;
    errno = 0;
    long long value = strtoll(text, &end, 10);
    if (errno != 0 || end == text || *end != '\0') fail(FAILURE, "%s: not a whole number: %s", what, text);
    return value;
}

static int64_t coordinate(const char *text)
{
    int64_t value = number(text, "-w");
    if (value < -SILVANELGA_REACH || value > SILVANELGA_REACH) fail(FAILURE, "-w: beyond %d either way: %s", SILVANELGA_REACH, text);
    return value;
}

static _Noreturn void usage(void)
{
    fail(FAILURE, "usage: side_map [-o FILE] [-w X0 Y0 X1 Y1] [-s STEP] DRAWING OBJECT [DRAWING OBJECT]");
}

/* Reads one byte more than a drawing can have: of a longer file, that many meet the same refusal. */
static void read_drawing(struct panel *panel)
{
    FILE *file = fopen(panel->path, "rb");
    if (file == NULL) fail(FAILURE, "%s: %s", panel->path, strerror(errno));
    panel->length = fread(panel->bytes, 1, sizeof panel->bytes, file);
    if (ferror(file)) fail(FAILURE, "%s: %s", panel->path, strerror(errno));
    fclose(file);
    int64_t refusal = silvanelga_check(panel->bytes, panel->length);
    if (refusal != 0) fail(REFUSAL, "%s: refused %lld: %s", panel->path, (long long)refusal, refusal_words(refusal));
}

/* The larger of the window's width and height. */
static int64_t span(const struct window *w)
{
    return w->x1 - w->x0 > w->y1 - w->y0 ? w->x1 - w->x0 : w->y1 - w->y0;
}

/* ---- questions */

static signed char ask(const struct panel *panel, int64_t x, int64_t y)
{
    int64_t answer = silvanelga_side(panel->bytes, panel->length, panel->index, x, y);
    if (answer >= SILVANELGA_REFUSED) {
        int64_t refusal = answer - SILVANELGA_REFUSED;
        fail(REFUSAL, "%s, object %lld: refused %lld: %s", panel->path, (long long)panel->index, (long long)refusal, refusal_words(refusal));
    }
    return (signed char)answer;
}

/* From low to high there are samples each step, and one at high. */
static int64_t samples(int64_t low, int64_t high, int64_t step)
{
    return (high - low + step - 1) / step + 1;
}

static int64_t sample(int64_t low, int64_t high, int64_t step, int64_t k)
{
    return low + k * step < high ? low + k * step : high;
}

/* Where the cell of sample k begins: half-way from the one before it. */
static double border(int64_t low, int64_t high, int64_t step, int64_t k)
{
    if (k == 0) return (double)low;
    if (k == samples(low, high, step)) return (double)high;
    return (double)(sample(low, high, step, k - 1) + sample(low, high, step, k)) / 2;
}

static void ask_grid(struct panel *panel, const struct window *w)
{
    for (int64_t j = 0; j < samples(w->y0, w->y1, w->step); j++)
        for (int64_t i = 0; i < samples(w->x0, w->x1, w->step); i++)
            panel->signs[j][i] = ask(panel, sample(w->x0, w->x1, w->step, i), sample(w->y0, w->y1, w->step, j));
}

static int64_t edge_length(const struct window *w)
{
    return 2 * (w->x1 - w->x0 + w->y1 - w->y0);
}

/* The whole place k millimetres along the window's edge, counterclockwise from x0, y0. */
static void edge_place(const struct window *w, int64_t k, int64_t *x, int64_t *y)
{
    int64_t width = w->x1 - w->x0, height = w->y1 - w->y0;
    k %= edge_length(w);
    if (k < width) *x = w->x0 + k, *y = w->y0;
    else if (k < width + height) *x = w->x1, *y = w->y0 + k - width;
    else if (k < 2 * width + height) *x = w->x1 - (k - width - height), *y = w->y1;
    else *x = w->x0, *y = w->y1 - (k - 2 * width - height);
}

static void ask_edge(struct panel *panel, const struct window *w)
{
    for (int64_t k = 0; k < edge_length(w); k++) {
        int64_t x, y;
        edge_place(w, k, &x, &y);
        panel->edge[k] = ask(panel, x, y);
    }
}

/* Where the sign along the edge, counterclockwise, goes from `from` to its opposite: half-way between the two. 0 where it never does. */
static int change(const struct panel *panel, const struct window *w, int from, struct place *place)
{
    int64_t length = edge_length(w), last = -1;
    for (int64_t k = 0; k < 2 * length; k++) {
        int sign = panel->edge[k % length];
        if (sign == from) last = k;
        if (sign == -from && last >= 0) {
            int64_t x, y, x2, y2;
            edge_place(w, (last + k) / 2, &x, &y);
            edge_place(w, (last + k + 1) / 2, &x2, &y2);
            place->x = (double)(x + x2) / 2;
            place->y = (double)(y + y2) / 2;
            return 1;
        }
    }
    return 0;
}

/* ---- the picture */

static double pixel_x(const struct window *w, int panel, double x)
{
    return LEFT + panel * (SIDE + GAP) + (x - (double)w->x0) * SIDE / (double)span(w);
}

static double pixel_y(const struct window *w, double y)
{
    return TOP + ((double)w->y1 - y) * SIDE / (double)span(w);
}

/* At most so much of a text, in XML; what is not printable ASCII becomes a question mark. */
static void put_text(FILE *out, const char *text, int most)
{
    for (int k = 0; k < most && text[k] != '\0'; k++) {
        if (text[k] == '<') fputs("&lt;", out);
        else if (text[k] == '>') fputs("&gt;", out);
        else if (text[k] == '&') fputs("&amp;", out);
        else fputc(text[k] >= ' ' && text[k] <= '~' ? text[k] : '?', out);
    }
}

static const char *file_name(const char *path)
{
    const char *slash = strrchr(path, '/');
    return slash == NULL ? path : slash + 1;
}

/* The cells of one side, in millimetres; equal neighbours of a row are one rectangle. */
static void put_cells(FILE *out, const struct panel *panel, const struct window *w, const struct side *side)
{
    int64_t columns = samples(w->x0, w->x1, w->step), rows = samples(w->y0, w->y1, w->step);
    fprintf(out, "<g fill=\"%s\">\n", side->colour);
    for (int64_t j = 0; j < rows; j++)
        for (int64_t i = 0, end; i < columns; i = end) {
            for (end = i + 1; end < columns && panel->signs[j][end] == panel->signs[j][i]; end++) {}
            if (panel->signs[j][i] != side->sign) continue;
            double x = border(w->x0, w->x1, w->step, i), y = border(w->y0, w->y1, w->step, j);
            fprintf(out, "<rect x=\"%g\" y=\"%g\" width=\"%g\" height=\"%g\"/>\n", x, y,
                    border(w->x0, w->x1, w->step, end) - x, border(w->y0, w->y1, w->step, j + 1) - y);
        }
    fprintf(out, "</g>\n");
}

static void put_grid(FILE *out, const struct panel *panel, const struct window *w, int which)
{
    double scale = SIDE / (double)span(w);
    fprintf(out, "<g shape-rendering=\"crispEdges\" transform=\"translate(%.3f %.3f) scale(%.6f %.6f)\">\n", pixel_x(w, which, 0),
            pixel_y(w, 0), scale, -scale);
    for (int k = 0; k < SIDES; k++) put_cells(out, panel, w, &sides[k]);
    fprintf(out, "</g>\n");
}

/* The sign in the middle of its cells, where they are a tenth of a square panel or more. */
static void put_sign(FILE *out, const struct panel *panel, const struct window *w, int which, int sign)
{
    int64_t columns = samples(w->x0, w->x1, w->step), rows = samples(w->y0, w->y1, w->step), count = 0, x = 0, y = 0;
    for (int64_t j = 0; j < rows; j++)
        for (int64_t i = 0; i < columns; i++)
            if (panel->signs[j][i] == sign) {
                count++;
                x += sample(w->x0, w->x1, w->step, i);
                y += sample(w->y0, w->y1, w->step, j);
            }
    int64_t most = samples(0, span(w), w->step);
    if (count * 10 < most * most) return;
    fprintf(out, "<text x=\"%.2f\" y=\"%.2f\" font-size=\"34\" text-anchor=\"middle\" dominant-baseline=\"central\">%d</text>\n",
            pixel_x(w, which, (double)x / (double)count), pixel_y(w, (double)y / (double)count), sign);
}

static void put_arrow(FILE *out, const struct panel *panel, const struct window *w, int which)
{
    struct place tail, head;
    if (!change(panel, w, 1, &tail) || !change(panel, w, -1, &head)) return;
    fprintf(out, "<line x1=\"%.2f\" y1=\"%.2f\" x2=\"%.2f\" y2=\"%.2f\" stroke=\"black\" stroke-width=\"2\" marker-end=\"url(#head)\"/>\n",
            pixel_x(w, which, tail.x), pixel_y(w, tail.y), pixel_x(w, which, head.x), pixel_y(w, head.y));
}

/* 1, 2 or 5 times a power of ten: the smallest with few enough ticks over the window. */
static int64_t tick_step(const struct window *w)
{
    static const int64_t firsts[] = {1, 2, 5};
    for (int64_t ten = 1;; ten *= 10)
        for (int k = 0; k < 3; k++)
            if (span(w) <= TICKS * ten * firsts[k]) return ten * firsts[k];
}

/* The first multiple of step that is not below low. */
static int64_t first_tick(int64_t low, int64_t step)
{
    int64_t rest = low % step;
    return rest > 0 ? low + step - rest : low - rest;
}

static void put_axes(FILE *out, const struct window *w, int which)
{
    double left = pixel_x(w, which, (double)w->x0), right = pixel_x(w, which, (double)w->x1), low = pixel_y(w, (double)w->y0);
    fprintf(out, "<rect x=\"%.2f\" y=\"%d\" width=\"%.2f\" height=\"%.2f\" fill=\"none\" stroke=\"black\"/>\n", left, TOP, right - left, low - TOP);
    int64_t step = tick_step(w);
    for (int64_t x = first_tick(w->x0, step); x <= w->x1; x += step) {
        double at = pixel_x(w, which, (double)x);
        fprintf(out, "<path d=\"M%.2f %.2fv6\" stroke=\"black\"/>", at, low);
        fprintf(out, "<text x=\"%.2f\" y=\"%.2f\" text-anchor=\"middle\">%lld</text>\n", at, low + 20, (long long)x);
    }
    for (int64_t y = first_tick(w->y0, step); y <= w->y1; y += step) {
        double at = pixel_y(w, (double)y);
        fprintf(out, "<path d=\"M%.2f %.2fh-6\" stroke=\"black\"/>", left, at);
        fprintf(out, "<text x=\"%.2f\" y=\"%.2f\" text-anchor=\"end\">%lld</text>\n", left - 9, at + 4, (long long)y);
    }
    fprintf(out, "<text x=\"%.2f\" y=\"%.2f\" text-anchor=\"middle\">x, mm</text>\n", (left + right) / 2, low + 42);
    fprintf(out, "<text transform=\"translate(%.2f %.2f) rotate(-90)\" text-anchor=\"middle\">y, mm</text>\n", left - 56, (TOP + low) / 2);
}

static void put_title(FILE *out, const struct panel *panel, const struct window *w, int which)
{
    double left = pixel_x(w, which, (double)w->x0);
    const char *name = file_name(panel->path);
    fprintf(out, "<text x=\"%.2f\" y=\"%d\" font-size=\"17\">Object %lld of ", left, TOP - 36, (long long)panel->index);
    put_text(out, name, NAME);
    if (strlen(name) > NAME) fprintf(out, "..");
    fprintf(out, "</text>\n<text x=\"%.2f\" y=\"%d\">1 is left of its arrow, -1 is right of it</text>\n", left, TOP - 14);
}

static void put_legend(FILE *out)
{
    int y = TOP + SIDE + UNDER;
    for (int k = 0; k < SIDES; k++, y += ROW) {
        fprintf(out, "<rect x=\"%d\" y=\"%d\" width=\"14\" height=\"14\" fill=\"%s\" stroke=\"black\"/>", LEFT, y, sides[k].colour);
        fprintf(out, "<text x=\"%d\" y=\"%d\">%s</text>\n", LEFT + 26, y + 12, sides[k].words);
    }
    fprintf(out, "<line x1=\"%d\" y1=\"%d\" x2=\"%d\" y2=\"%d\" stroke=\"black\" stroke-width=\"2\" marker-end=\"url(#head)\"/>", LEFT - 6, y + 7,
            LEFT + 20, y + 7);
    fprintf(out, "<text x=\"%d\" y=\"%d\">%s</text>\n", LEFT + 26, y + 12, arrow_words);
}

static void put_picture(FILE *out, const struct panel *panels, int count, const struct window *w)
{
    int width = LEFT + count * SIDE + (count - 1) * GAP + RIGHT, height = TOP + SIDE + UNDER + (SIDES + 1) * ROW + BOTTOM;
    fprintf(out, "<svg xmlns=\"http://www.w3.org/2000/svg\" width=\"%d\" height=\"%d\" viewBox=\"0 0 %d %d\"", width, height, width, height);
    fprintf(out, " font-family=\"DejaVu Sans, Verdana, sans-serif\" font-size=\"13\">\n<title>On which side of an object each place is</title>\n");
    fprintf(out, "<defs><marker id=\"head\" viewBox=\"0 0 10 10\" refX=\"10\" refY=\"5\" markerWidth=\"8\" markerHeight=\"8\" orient=\"auto\">");
    fprintf(out, "<path d=\"M0 0L10 5L0 10z\"/></marker></defs>\n<rect width=\"100%%\" height=\"100%%\" fill=\"white\"/>\n");
    for (int k = 0; k < count; k++) {
        put_grid(out, &panels[k], w, k);
        put_arrow(out, &panels[k], w, k);
        put_sign(out, &panels[k], w, k, 1);
        put_sign(out, &panels[k], w, k, -1);
        put_axes(out, w, k);
        put_title(out, &panels[k], w, k);
    }
    put_legend(out);
    fprintf(out, "</svg>\n");
}

/* ---- */

static void check_window(struct window *w)
{
    if (w->x0 >= w->x1 || w->y0 >= w->y1) fail(FAILURE, "-w: X0 and Y0 must be below X1 and Y1");
    if (w->step == 0) w->step = (span(w) + FEW_STEPS - 1) / FEW_STEPS;
    if (w->step > span(w)) fail(FAILURE, "-s: larger than the window");
    if (span(w) / w->step > STEPS) fail(FAILURE, "-s: more than %d steps over the window", STEPS);
}

/* The options; answers the first argument after them. */
static int options(int count, char **arguments, struct window *w, const char **to)
{
    int k = 1;
    while (k < count && arguments[k][0] == '-') {
        const char *option = arguments[k];
        int values = strcmp(option, "-w") == 0 ? 4 : 1;
        if (k + values >= count) usage();
        char **value = &arguments[k + 1];
        if (strcmp(option, "-o") == 0) *to = value[0];
        else if (strcmp(option, "-s") == 0) {
            w->step = number(value[0], "-s");
            if (w->step < 1) fail(FAILURE, "-s: not above 0");
        } else if (strcmp(option, "-w") == 0) {
            w->x0 = coordinate(value[0]), w->y0 = coordinate(value[1]);
            w->x1 = coordinate(value[2]), w->y1 = coordinate(value[3]);
        } else usage();
        k += 1 + values;
    }
    return k;
}

int main(int count, char **arguments)
{
    static struct panel panels[PANELS];
    struct window window = {-SILVANELGA_REACH, -SILVANELGA_REACH, SILVANELGA_REACH, SILVANELGA_REACH, 0};
    const char *to = NULL;
    int first = options(count, arguments, &window, &to), made = (count - first) / 2;
    if ((count - first) % 2 != 0 || made < 1 || made > PANELS) usage();
    check_window(&window);
    for (int k = 0; k < made; k++) {
        panels[k].path = arguments[first + 2 * k];
        panels[k].index = number(arguments[first + 2 * k + 1], "OBJECT");
        read_drawing(&panels[k]);
        ask_grid(&panels[k], &window);
        ask_edge(&panels[k], &window);
    }
    FILE *out = to == NULL ? stdout : fopen(to, "wb");
    if (out == NULL) fail(FAILURE, "%s: %s", to, strerror(errno));
    put_picture(out, panels, made, &window);
    if (fflush(out) != 0 || ferror(out) || fclose(out) != 0) fail(FAILURE, "%s: %s", to == NULL ? "standard output" : to, strerror(errno));
    return 0;
}
