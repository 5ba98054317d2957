/* One table: this library, the original (geo 0.33.1) and nanoflann over the same points and the same places, in one run.
 *
 *   bench [quick] [labels-command ..]
 *
 * Each time is CPU time of the process, the best of several turns; in a turn the three run one after the other, another one
 * first in each, so that a busy machine is busy for all of them, and a ratio is the middle one of the turns' ratios. The three
 * are compiled for plain x86-64. Their answers are added up and held against each other, so that none is optimised away or
 * wrong unseen. A labels-command is run as `COMMAND FILE EPSILON MIN_SAMPLES` over a file of points (x, y as doubles) and
 * prints its CPU seconds and the number of labelled points.
 */
#include "yolthugen.h"

#include <algorithm>
#include <cmath>
#include <cstdio>
#include <cstdlib>
#include <cstring>
#include <functional>
#include <memory>
#include <nanoflann.hpp>
#include <string>
#include <time.h>
#include <vector>

extern "C" {
void *geo_points(const double *points, size_t n);
void *geo_build(void *points, uint32_t leaf_size);
void geo_free(void *tree);
uint32_t geo_nearest(const void *tree, double x, double y, uint32_t *index, double *distance);
uint32_t geo_k_nearest(const void *tree, double x, double y, uint32_t k, double *last);
uint32_t geo_radius(const void *tree, double x, double y, double radius);
uint32_t geo_label(void *points, double epsilon, uint32_t min_samples);
}

namespace {

const uint32_t LEAF = 16, K = 8;

double now()
{
    timespec t;
    clock_gettime(CLOCK_PROCESS_CPUTIME_ID, &t);
    return t.tv_sec + t.tv_nsec * 1e-9;
}

double unit() /* from 0 to 1, every run alike */
{
    static uint64_t s = UINT64_C(0x9E3779B97F4A7C15);
    s ^= s >> 12, s ^= s << 25, s ^= s >> 27;
    return (s * UINT64_C(0x2545F4914F6CDD1D) >> 11) * 0x1p-53;
}

/* ---- the three trees */

struct Ours {
    std::vector<double> points, boxes, out_distances;
    std::vector<uint32_t> indices, links, out_indices, labels, work;

    explicit Ours(const std::vector<double> &p) : points(p), out_distances(p.size() / 2), indices(p.size() / 2), out_indices(p.size() / 2)
    {
        size_t nodes = yt_node_count(p.size() / 2, LEAF);
        boxes.resize(6 * nodes);
        links.resize(4 * nodes);
    }
    void build()
    {
        uint32_t detail;
        need(yt_build(points.data(), points.size(), LEAF, indices.data(), indices.size(), boxes.data(), boxes.size(), links.data(), links.size(), &detail));
    }
#define TREE points.data(), points.size(), indices.data(), indices.size(), boxes.data(), boxes.size(), links.data(), links.size()
    void check()
    {
        uint32_t detail;
        need(yt_check(TREE, &detail));
    }
    double nearest(double x, double y)
    {
        uint32_t index = 0, count = 0;
        double distance = 0;
        need(yt_nearest(TREE, x, y, &index, &distance, &count));
        return distance;
    }
    double k_nearest(double x, double y)
    {
        uint32_t count = 0;
        need(yt_k_nearest(TREE, x, y, K, out_indices.data(), K, out_distances.data(), K, &count));
        return out_distances[count - 1];
    }
    double radius(double x, double y, double r)
    {
        uint32_t count = 0;
        need(yt_radius(TREE, x, y, r, out_indices.data(), out_indices.size(), out_distances.data(), out_distances.size(), &count));
        return count;
    }
    double radius_indices(double x, double y, double r)
    {
        uint32_t count = 0;
        need(yt_radius_indices(TREE, x, y, r, out_indices.data(), out_indices.size(), &count));
        return count;
    }
    double label(double epsilon, uint32_t min_samples)
    {
        uint32_t detail;
        labels.resize(points.size() / 2);
        work.resize(points.size());
        need(yt_label(points.data(), points.size(), epsilon, min_samples, indices.data(), indices.size(), boxes.data(), boxes.size(), links.data(), links.size(), labels.data(), labels.size(), work.data(), work.size(), &detail));
        return std::count_if(labels.begin(), labels.end(), [](uint32_t l) { return l != UINT32_MAX; });
    }
    static void need(uint32_t number)
    {
        if (number != 0)
            fprintf(stderr, "bench: refusal %u\n", number), exit(1);
    }
};

struct Cloud {
    const std::vector<double> &points;
    size_t kdtree_get_point_count() const { return points.size() / 2; }
    double kdtree_get_pt(size_t i, size_t dim) const { return points[2 * i + dim]; }
    template <class BBOX> bool kdtree_get_bbox(BBOX &) const { return false; }
};
typedef nanoflann::KDTreeSingleIndexAdaptor<nanoflann::L2_Simple_Adaptor<double, Cloud, double, uint32_t>, Cloud, 2, uint32_t> Nano;

/* ---- one line of the table */

bool quick = false;
bool odd_sums = false;

struct Line {
    std::string what;
    double ours, geo, nano; /* seconds, below 0 where there is none */
    double geo_ratio, nano_ratio; /* the middle one of the turns' ratios: in a turn the machine is as busy for all */
};

void print(const Line &l, double per, const char *unit)
{
    double scale = (*unit == 'n' ? 1e9 : 1e3) / per;
    auto shown = [](const char *form, double v) {
        char text[40];
        snprintf(text, sizeof text, form, v);
        return v < 0 ? std::string("-") : std::string(text);
    };
    auto time = [&](double t) { return shown("%.4g", t * scale); };
    auto ratio = [&](double r) { return shown("%.2f", r); };
    printf("| %s | %s | %s | %s | %s | %s | %s |\n", l.what.c_str(), unit, time(l.ours).c_str(), time(l.geo).c_str(), time(l.nano).c_str(), ratio(l.geo_ratio).c_str(), ratio(l.nano_ratio).c_str());
    fflush(stdout);
}

typedef std::function<double()> Work; /* returns a sum to hold against the others' */

/* `before` and `after` are outside the clock. */
struct Side {
    Work work;
    std::function<void()> before, after;
};

double once(const Side &s, double *sum)
{
    if (s.before)
        s.before();
    double t = now();
    *sum = s.work();
    t = now() - t;
    if (s.after)
        s.after();
    return t;
}

double middle(std::vector<double> values)
{
    std::nth_element(values.begin(), values.begin() + values.size() / 2, values.end());
    return values[values.size() / 2];
}

/* More turns where one is short. */
int turns(size_t n)
{
    return n > 500000 ? 5 : n > 50000 || (quick && n > 1000) ? 7 : 15;
}

Line best(const std::string &what, const Side &ours, const Side &geo, const Side &nano, int how_often)
{
    Line l = {what, 1e99, geo.work ? 1e99 : -1, nano.work ? 1e99 : -1, -1, -1};
    std::vector<double> to_geo, to_nano;
    double a = 0, b = 0, c = 0;
    for (int i = 0; i < how_often; i++) {
        double mine = 0, theirs = 0, flann = 0;
        for (int j = 0; j < 3; j++)
            switch ((i + j) % 3) { /* none is always the first of a turn */
            case 0: l.ours = std::min(l.ours, mine = once(ours, &a)); break;
            case 1: if (geo.work) l.geo = std::min(l.geo, theirs = once(geo, &b)); break;
            default: if (nano.work) l.nano = std::min(l.nano, flann = once(nano, &c));
            }
        to_geo.push_back(theirs / mine);
        to_nano.push_back(flann / mine);
    }
    if (!geo.work)
        b = a;
    if (!nano.work)
        c = a;
    if (geo.work)
        l.geo_ratio = middle(to_geo);
    if (nano.work)
        l.nano_ratio = middle(to_nano);
    if (std::fabs(a - b) > 1e-9 * std::fabs(a) || std::fabs(a - c) > 1e-9 * std::fabs(a)) {
        fprintf(stderr, "bench: %s: sums %.17g (this library), %.17g (original), %.17g (nanoflann)\n", what.c_str(), a, b, c);
        odd_sums = true;
    }
    return l;
}

/* ---- maps */

struct Map {
    std::string name;
    std::vector<double> points, places;
    double radius, epsilon;
};

Map uniform(size_t n, size_t places)
{
    Map m = {"uniform", {}, {}, std::sqrt(10e12 / n / M_PI), std::sqrt(9e12 / n / M_PI)};
    for (size_t i = 0; i < 2 * n; i++)
        m.points.push_back(unit() * 1e6);
    for (size_t i = 0; i < 2 * places; i++)
        m.places.push_back(unit() * 1e6);
    return m;
}

/* Dies row by row, 1000 by 700, `side` in a row; the camera is off by up to 300 either way. */
Map die_grid(size_t n, size_t places, size_t side)
{
    Map m = {"die grid", {}, {}, std::sqrt(10 * 700e3 / M_PI), 1250};
    for (size_t i = 0; i < n; i++)
        m.points.insert(m.points.end(), {1000.0 * (i % side), 700.0 * (i / side)});
    for (size_t i = 0; i < places; i++) {
        size_t die = unit() * n;
        m.places.insert(m.places.end(), {m.points[2 * die] + 600 * unit() - 300, m.points[2 * die + 1] + 600 * unit() - 300});
    }
    return m;
}

/* ---- the rows of a map */

typedef std::function<std::vector<double>(size_t)> Maps; /* the k-th of several maps of one sort */

/* A turn builds each of `copies` maps once: a single small build is too short for the clock. The time is that of one. */
void build_row(const std::string &what, const Maps &maps, size_t copies, int how_often)
{
    std::vector<Ours> mine;
    for (size_t k = 0; k < copies; k++)
        mine.emplace_back(maps(k));
    std::vector<void *> theirs(copies);
    std::vector<Cloud> clouds;
    for (const Ours &m : mine)
        clouds.push_back({m.points});
    std::vector<std::unique_ptr<Nano>> nanos(copies);
    auto ours = [&] { for (Ours &m : mine) m.build(); return double(copies); };
    auto geo = [&] { for (void *&t : theirs) t = geo_build(t, LEAF); return double(copies); };
    auto flann = [&] { for (size_t k = 0; k < copies; k++) nanos[k].reset(new Nano(2, clouds[k], nanoflann::KDTreeSingleIndexAdaptorParams(10))); return double(copies); };
    auto lend = [&] { for (size_t k = 0; k < copies; k++) theirs[k] = geo_points(mine[k].points.data(), mine[k].points.size() / 2); };
    auto give_back = [&] { for (void *t : theirs) geo_free(t); };
    auto drop = [&] { for (auto &n : nanos) n.reset(); };
    print(best(what, {ours, nullptr, nullptr}, {geo, lend, give_back}, {flann, nullptr, drop}, how_often), copies, "ms");
}

void query_rows(const Map &m)
{
    size_t n = m.points.size() / 2, places = m.places.size() / 2;
    std::string tail = ", n = " + std::to_string(n) + ", " + m.name;
    Ours mine(m.points);
    mine.build();
    void *theirs = geo_build(geo_points(m.points.data(), n), LEAF);
    Cloud cloud = {m.points};
    Nano nano(2, cloud, nanoflann::KDTreeSingleIndexAdaptorParams(10));
    print(best("check" + tail, {[&] { mine.check(); return 0.0; }, nullptr, nullptr}, {}, {}, turns(n)), 1, "ms");

    auto over = [&](std::function<double(double, double)> ask) {
        return Side{[&m, places, ask] {
            double sum = 0;
            for (size_t i = 0; i < places; i++)
                sum += ask(m.places[2 * i], m.places[2 * i + 1]);
            return sum;
        }, nullptr, nullptr};
    };
    print(best("nearest" + tail, over([&](double x, double y) { return mine.nearest(x, y); }),
               over([&](double x, double y) { uint32_t i; double d = 0; geo_nearest(theirs, x, y, &i, &d); return d; }),
               over([&](double x, double y) { double q[2] = {x, y}, d2 = 0; uint32_t i; nano.knnSearch(q, 1, &i, &d2); return std::sqrt(d2); }), turns(n)), places, "ns");
    print(best("k = 8" + tail, over([&](double x, double y) { return mine.k_nearest(x, y); }),
               over([&](double x, double y) { double d = 0; geo_k_nearest(theirs, x, y, K, &d); return d; }),
               over([&](double x, double y) { double q[2] = {x, y}, d2[K]; uint32_t i[K]; size_t c = nano.knnSearch(q, K, i, d2); for (size_t j = 0; j < c; j++) d2[j] = std::sqrt(d2[j]); return d2[c - 1]; }), turns(n)), places, "ns");
    std::vector<std::pair<uint32_t, double>> hits;
    nanoflann::SearchParams unsorted(32, 0, false);
    auto flann_radius = [&](double x, double y) { double q[2] = {x, y}; size_t c = nano.radiusSearch(q, m.radius * m.radius, hits, unsorted); for (auto &h : hits) h.second = std::sqrt(h.second); return double(c); };
    print(best("radius, about 10 hits" + tail, over([&](double x, double y) { return mine.radius(x, y, m.radius); }),
               over([&](double x, double y) { return double(geo_radius(theirs, x, y, m.radius)); }), over(flann_radius), turns(n)), places, "ns");
    print(best("radius, indices alone" + tail, over([&](double x, double y) { return mine.radius_indices(x, y, m.radius); }), {}, {}, turns(n)), places, "ns");
    geo_free(theirs);
}

/* ---- labels */

/* CPU seconds by an outside program; below 0 where it fails. */
double outside(const char *command, const Map &m, uint32_t min_samples, double labelled)
{
    char file[] = P_tmpdir "/bench-points-XXXXXX";
    int fd = mkstemp(file);
    FILE *f = fd < 0 ? nullptr : fdopen(fd, "wb");
    if (!f)
        return -1;
    fwrite(m.points.data(), sizeof(double), m.points.size(), f);
    fclose(f);
    char line[4096], args[100];
    snprintf(args, sizeof args, " %s %.17g %u", file, m.epsilon, min_samples);
    double seconds = -1, count = -1;
    FILE *p = popen((std::string(command) + args).c_str(), "r");
    if (p) {
        if (!fgets(line, sizeof line, p) || sscanf(line, "%lf %lf", &seconds, &count) != 2)
            seconds = -1;
        pclose(p);
    }
    remove(file);
    if (seconds >= 0 && count != labelled)
        fprintf(stderr, "bench: labels: %.0f labelled here, %.0f by %s\n", labelled, count, command), odd_sums = true;
    return seconds;
}

void label_row(const Map &m, const std::vector<const char *> &commands)
{
    size_t n = m.points.size() / 2;
    Ours mine(m.points);
    void *theirs = nullptr;
    double labelled = mine.label(m.epsilon, 5);
    Side geo; /* with a plain scan in place of its R-tree, so only where that can be waited for */
    if (n <= 1000)
        geo = {[&] { return double(geo_label(theirs, m.epsilon, 5)); }, [&] { theirs = geo_points(m.points.data(), n); }, nullptr};
    Line l = best("", {[&] { return mine.label(m.epsilon, 5); }, nullptr, nullptr}, geo, {}, n > 500000 ? 1 : turns(n));
    printf("| labels, n = %zu, %s | ms | %.4g |", n, m.name.c_str(), l.ours * 1e3);
    l.geo < 0 ? printf(" - |") : printf(" %.4g |", l.geo * 1e3);
    for (const char *c : commands) {
        double t = outside(c, m, 5, labelled);
        t < 0 ? printf(" - | - |") : printf(" %.4g | %.2f |", t * 1e3, t / l.ours);
        fflush(stdout);
    }
    printf("\n");
}

/* ---- orders that are bad for a selection */

std::vector<double> diagonal(const std::vector<double> &xs) /* every split is on x, at every level in this order */
{
    std::vector<double> points;
    for (double x : xs)
        points.insert(points.end(), {x, x / 2});
    return points;
}

/* Musser's sequence against the median of the first, the middle and the last. */
std::vector<double> against_median_of_three(size_t n)
{
    std::vector<double> a(n);
    size_t k = n / 2;
    for (size_t i = 1; i <= k; i++) {
        if (i % 2 == 1)
            a[i - 1] = i, a[i] = k + i;
        a[k + i - 1] = 2 * i;
    }
    return a;
}

/* Uniform, the die grid, and where asked for the orders in which a careless selection goes quadratic; at 1,000 points a
 * hundred maps a turn. */
void build_rows(size_t n, bool orders)
{
    std::vector<double> up(n), down(n), pipe(n), few(n), random(n);
    for (size_t i = 0; i < n; i++) {
        up[i] = i;
        down[i] = n - i;
        pipe[i] = std::min(i, n - i);
        few[i] = size_t(unit() * 4);
        random[i] = unit() * n;
    }
    size_t copies = n > 10000 ? 1 : 100;
    auto row = [&](const std::string &name, const Maps &maps) { build_row("build, n = " + std::to_string(n) + ", " + name, maps, copies, turns(n)); };
    auto same = [&](const std::string &name, const std::vector<double> &xs) { row(name, [&](size_t) { return diagonal(xs); }); };
    row("uniform", [&](size_t) { return uniform(n, 0).points; });
    row("die grid", [&](size_t k) { return die_grid(n, 0, std::ceil(std::sqrt(double(n))) + k % 9).points; });
    if (!orders)
        return;
    same("random order", random);
    same("sorted", up);
    same("reversed", down);
    same("all equal", std::vector<double>(n, 7));
    same("organ pipe", pipe);
    same("four distinct", few);
    same("against median of three", against_median_of_three(n));
}

} // namespace

int main(int argc, char **argv)
{
    quick = argc > 1 && !strcmp(argv[1], "quick");
    std::vector<const char *> commands(argv + 1 + quick, argv + argc);
    std::vector<size_t> sizes = quick ? std::vector<size_t>{1000, 20000} : std::vector<size_t>{1000, 100000, 1000000};
    size_t places = quick ? 20000 : 100000;
    auto grid = [](size_t n, size_t places) { return die_grid(n, places, std::ceil(std::sqrt(double(n)))); };

    printf("| | unit | this library | original | nanoflann | original / this | nanoflann / this |\n|---|---|---|---|---|---|---|\n");
    for (size_t n : sizes)
        build_rows(n, n < 1000000);
    if (!quick)
        build_rows(1048576, true);
    for (size_t n : sizes) {
        query_rows(uniform(n, places));
        query_rows(grid(n, places));
    }

    printf("\n| | unit | this library | original, a scan for its R-tree |");
    for (const char *c : commands)
        printf(" %s | / this |", strstr(c, ".py") ? "sklearn" : "R dbscan");
    printf("\n|---|---|---|---|");
    for (size_t i = 0; i < commands.size(); i++)
        printf("---|---|");
    printf("\n");
    for (size_t n : sizes) {
        label_row(uniform(n, 0), commands);
        label_row(grid(n, 0), commands);
    }
    printf("\n%s\n", odd_sums ? "The sides' sums differ somewhere: see standard error." : "The sides' answers agree in their sums.");
}
