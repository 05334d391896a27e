/* The same listing by CGAL's extended kernel, the one that its Nef polygons use for lines and rays; see plain.h. */
#include "plain.h"
#include <CGAL/Filtered_extended_homogeneous.h>
#include <CGAL/Gmpz.h>
#include <algorithm>
#include <vector>

using Kernel = CGAL::Filtered_extended_homogeneous<CGAL::Gmpz>;
using Point = Kernel::Point_2;
using Segment = Kernel::Segment_2;
using Standard = Kernel::Standard_point_2;
using Line = Kernel::Standard_line_2;

static const Kernel kernel;

static Segment segment(const int64_t *o)
{
    if (o[0] == 4) {
        const Point corners[] = {kernel.NW(), kernel.SW(), kernel.SE(), kernel.NE(), kernel.NW()};
        return kernel.construct_segment(corners[o[1] - 1], corners[o[1]]);
    }
    Standard p((int)o[1], (int)o[2]), q((int)o[3], (int)o[4]);
    Line line(p, q);
    Point first = o[0] == 3 ? kernel.construct_opposite_point(line) : kernel.construct_point(p);
    Point last = o[0] == 1 ? kernel.construct_point(q) : kernel.construct_point(line);
    return kernel.construct_segment(first, last);
}

/* 0, 1 or 2 as two segments share nothing, one point, or more */
static int share(const Segment &s, const Segment &t, Point &at)
{
    int a = kernel.orientation(s, t.source()), b = kernel.orientation(s, t.target());
    if (a * b > 0) return 0;
    if (a == 0 && b == 0) {
        Point s1 = s.source(), s2 = s.target(), t1 = t.source(), t2 = t.target();
        if (kernel.compare_xy(s1, s2) > 0) std::swap(s1, s2);
        if (kernel.compare_xy(t1, t2) > 0) std::swap(t1, t2);
        at = kernel.compare_xy(s1, t1) < 0 ? t1 : s1;
        int order = kernel.compare_xy(at, kernel.compare_xy(s2, t2) < 0 ? s2 : t2);
        return order > 0 ? 0 : order == 0 ? 1 : 2;
    }
    if (kernel.orientation(t, s.source()) * kernel.orientation(t, s.target()) > 0) return 0;
    at = kernel.intersection(s, t);
    return 1;
}

/* the number of sharing pairs; the points are computed and dropped */
extern "C" int64_t cgal_list(const int64_t *list, size_t length)
{
    std::vector<Segment> segments;
    for (size_t i = 0; i < length; i += WIDTH) segments.push_back(segment(list + i));
    int64_t count = 0;
    Point at;
    for (size_t i = 0; i < segments.size(); i++)
        for (size_t j = i + 1; j < segments.size(); j++) count += share(segments[i], segments[j], at) != 0;
    return count;
}
