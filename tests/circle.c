/* Sides of circles, many in one process. Standard input: the twenty numbers of each call, five a point, 64 bits each. Standard output:
   the seven numbers of each answer. */
#include <stdint.h>
#include <stdio.h>

struct point { int64_t mx, nx, my, ny, w; };
struct answer { int64_t refusal, number; struct point at; };

struct answer silvanelga_spot_circle(struct point p, struct point q, struct point s, struct point u);

int main(void)
{
    struct point given[4];
    size_t size;
    while ((size = fread(given, 1, sizeof given, stdin)) == sizeof given) {
        struct answer said = silvanelga_spot_circle(given[0], given[1], given[2], given[3]);
        fwrite(&said, sizeof said, 1, stdout);
    }
    return size != 0 ? 3 : fflush(stdout) != 0 ? 2 : 0;
}
