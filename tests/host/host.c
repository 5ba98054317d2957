/* A host in C over the static library: every function of include/yolthugen.h, against scans written here.
 *
 *     host GUARD ROUNDS
 *
 * Each buffer that a call may write stands between GUARD cells of a known pattern, which are looked at after the call.
 * With GUARD 0 each buffer is an allocation of its exact size, so that valgrind sees the first byte past either end.
 * Every buffer is copied before a call and compared after it. Prints one line and exits 0 if nothing differs. */
#include "yolthugen.h"
#include <math.h>
#include <stdio.h>
#include <stdlib.h>
#include <string.h>

static size_t guard;
static unsigned long checks, failures;

static void expect(int good, const char *what, int line) {
    checks++;
    if (good) return;
    if (++failures <= 20) fprintf(stderr, "host.c:%d: %s\n", line, what);
}
#define EXPECT(e) expect((e) != 0, #e, __LINE__)

/* how often each number was returned: a run in which one never is has missed something */
static unsigned long returned[10];
static uint32_t saw(uint32_t r) {
    EXPECT(r < 10);
    returned[r % 10]++;
    return r;
}

/* ---- numbers at random */

static uint64_t seed = 20240917;
static uint64_t next64(void) {
    seed ^= seed << 13;
    seed ^= seed >> 7;
    seed ^= seed << 17;
    return seed;
}
static uint32_t below(uint32_t n) { return (uint32_t)(next64() >> 33) % n; }
static double of_bits(uint64_t b) {
    double x;
    memcpy(&x, &b, 8);
    return x;
}
static uint64_t bits(double x) {
    uint64_t b;
    memcpy(&b, &x, 8);
    return b;
}

/* ---- buffers between guard cells */

enum { FILL = 0xA5 };
typedef struct {
    unsigned char *block, *copy, *at;
    size_t size, bytes; /* of an element; of all */
} Buffer;

static Buffer buffer(size_t count, size_t size) {
    Buffer b = {NULL, NULL, NULL, size, count * size};
    size_t whole = b.bytes + 2 * guard * size;
    b.block = malloc(whole);
    b.copy = malloc(b.bytes + 1);
    if ((!b.block && whole) || !b.copy) exit(2);
    if (whole) memset(b.block, FILL, whole);
    b.at = b.block + guard * size;
    return b;
}
static void keep(Buffer *b) {
    if (b->bytes) memcpy(b->copy, b->at, b->bytes);
}
static size_t len(const Buffer *b) { return b->bytes / b->size; }
static uint32_t *words(const Buffer *b) { return (uint32_t *)(void *)b->at; }
static double *floats(const Buffer *b) { return (double *)(void *)b->at; }
static int guards_whole(const Buffer *b) {
    for (size_t i = 0; i < guard * b->size; i++)
        if (b->block[i] != FILL || b->at[b->bytes + i] != FILL) return 0;
    return 1;
}
/* as it was from an element on, 0 being all of it; and nothing outside it was written */
static int kept_from(const Buffer *b, size_t first) {
    size_t from = first * b->size;
    return guards_whole(b) && (from >= b->bytes || memcmp(b->at + from, b->copy + from, b->bytes - from) == 0);
}
static int all_zero(const Buffer *b) {
    for (size_t i = 0; i < b->bytes; i++)
        if (b->at[i]) return 0;
    return guards_whole(b);
}
static void drop(Buffer *b) {
    free(b->block);
    free(b->copy);
}

/* ---- a tree's buffers */

typedef struct {
    Buffer points, indices, boxes, links;
} Tree;

static Tree tree(size_t coordinates, size_t indices, size_t boxes, size_t links) {
    Tree t = {buffer(coordinates, 8), buffer(indices, 4), buffer(boxes, 8), buffer(links, 4)};
    return t;
}
static void keep_tree(Tree *t) {
    keep(&t->points);
    keep(&t->indices);
    keep(&t->boxes);
    keep(&t->links);
}
static int tree_kept(const Tree *t) {
    return kept_from(&t->points, 0) && kept_from(&t->indices, 0) && kept_from(&t->boxes, 0) && kept_from(&t->links, 0);
}
static void drop_tree(Tree *t) {
    drop(&t->points);
    drop(&t->indices);
    drop(&t->boxes);
    drop(&t->links);
}
#define POINTS(t) floats(&(t)->points), len(&(t)->points)
#define NODES(t) words(&(t)->indices), len(&(t)->indices), floats(&(t)->boxes), len(&(t)->boxes), words(&(t)->links), len(&(t)->links)
#define TREE(t) POINTS(t), NODES(t)

static uint32_t nodes_of(uint32_t n, uint32_t leaf) {
    if (n == 0) return 0;
    return n <= leaf ? 1 : 1 + nodes_of(n / 2, leaf) + nodes_of(n - n / 2, leaf);
}

/* Maps on which things go wrong: uniform, a grid with its ties, one place, a line, few values, and the ends of f64. */
enum { MAPS = 6 };
static double coordinate(int map, uint32_t i, uint32_t n, int y) {
    static const double ends[] = {1e308, -1e308, 1e-310, -0.0, 0.0, 1.5e-154, 0.1, 4e153, -4e153};
    switch (map) {
    case 0: return (double)(int64_t)(next64() >> 11) / 4503599627370496.0 * 100;
    case 1: return y ? i / 7 : i % 7;
    case 2: return 3.5;
    case 3: return y ? 0 : (double)n - i;
    case 4: return below(4);
    default: return ends[below(sizeof ends / sizeof *ends)];
    }
}
static void place_points(Tree *t, int map) {
    uint32_t n = (uint32_t)(len(&t->points) / 2);
    for (uint32_t i = 0; i < n; i++) {
        floats(&t->points)[2 * i] = coordinate(map, i, n, 0);
        floats(&t->points)[2 * i + 1] = coordinate(map, i, n, 1);
    }
}

/* ---- what a right answer is, without a tree */

static double d2_of(const Tree *t, uint32_t i, double x, double y) {
    double dx = x - floats(&t->points)[2 * i], dy = y - floats(&t->points)[2 * i + 1];
    return dx * dx + dy * dy;
}
typedef struct {
    double d2;
    uint32_t index;
} Hit;
static int by_distance(const void *a, const void *b) {
    const Hit *p = a, *q = b;
    if (p->d2 != q->d2) return p->d2 < q->d2 ? -1 : 1;
    return p->index < q->index ? -1 : p->index > q->index;
}
/* all points, the nearest first */
static Hit *ranked(const Tree *t, double x, double y) {
    uint32_t n = (uint32_t)(len(&t->points) / 2);
    Hit *h = malloc((n + 1) * sizeof *h);
    if (!h) exit(2);
    for (uint32_t i = 0; i < n; i++) h[i] = (Hit){d2_of(t, i, x, y), i};
    qsort(h, n, sizeof *h, by_distance);
    return h;
}

/* One subtree of the definition of an accepted tree. */
static int part_accepted(const Tree *t, uint32_t node, uint32_t start, uint32_t end) {
    size_t v = node;
    if (6 * v + 6 > len(&t->boxes) || 4 * v + 4 > len(&t->links)) return 0;
    const double *b = floats(&t->boxes) + 6 * v;
    const uint32_t *l = words(&t->links) + 4 * v;
    if (l[0] != start || l[1] != end || start >= end || (l[2] == 0) != (l[3] == 0)) return 0;
    for (int k = 2; k < 6; k++)
        if (!isfinite(b[k])) return 0;
    for (uint32_t k = start; k < end; k++) {
        const double *p = floats(&t->points) + 2 * (size_t)words(&t->indices)[k];
        if (!(b[2] <= p[0] && p[0] <= b[3] && b[4] <= p[1] && p[1] <= b[5])) return 0;
    }
    if (l[2] == 0) return 1;
    uint32_t middle = start + (end - start) / 2;
    return end - start > 1 && part_accepted(t, l[2], start, middle) && part_accepted(t, l[3], middle, end);
}
/* Of finite points, an even number of coordinates in limit. */
static int accepted(const Tree *t) {
    uint32_t n = (uint32_t)(len(&t->points) / 2);
    if (n == 0) return 1;
    if (len(&t->indices) < n) return 0;
    char *seen = calloc(n, 1);
    if (!seen) exit(2);
    int good = 1;
    for (uint32_t k = 0; k < n && good; k++) {
        uint32_t i = words(&t->indices)[k];
        good = i < n && !seen[i];
        if (good) seen[i] = 1;
    }
    free(seen);
    return good && part_accepted(t, 0, 0, n);
}

/* ---- build, check */

static void build(Tree *t, uint32_t leaf, uint32_t number, uint32_t detail) {
    Buffer d = buffer(1, 4);
    keep_tree(t);
    EXPECT(saw(yt_build(POINTS(t), leaf, NODES(t), words(&d))) == number);
    EXPECT(*words(&d) == detail && guards_whole(&d));
    if (number) EXPECT(tree_kept(t));
    else {
        uint32_t n = (uint32_t)(len(&t->points) / 2), c = nodes_of(n, leaf ? leaf : 1);
        EXPECT(kept_from(&t->points, 0) && kept_from(&t->indices, n) && kept_from(&t->boxes, 6 * c) && kept_from(&t->links, 4 * c));
        EXPECT(accepted(t));
    }
    drop(&d);
}
static void check(Tree *t, uint32_t number, uint32_t detail) {
    Buffer d = buffer(1, 4);
    keep_tree(t);
    EXPECT(saw(yt_check(TREE(t), words(&d))) == number);
    EXPECT(*words(&d) == detail && guards_whole(&d) && tree_kept(t));
    drop(&d);
}

/* ---- queries: over an accepted tree the scan's answer is due; over another, 9, or hits at their own distances */

static int own(const Tree *t, uint32_t i, double d, double x, double y) {
    return i < len(&t->points) / 2 && bits(d) == bits(sqrt(d2_of(t, i, x, y)));
}

/* `sound` tells whether the tree is accepted; `first` are all points, the nearest first. */
static void nearest(Tree *t, double x, double y, int sound, const Hit *first) {
    Buffer i = buffer(1, 4), d = buffer(1, 8), c = buffer(1, 4);
    uint32_t n = (uint32_t)(len(&t->points) / 2);
    keep(&i);
    keep(&d);
    uint32_t r = saw(yt_nearest(TREE(t), x, y, words(&i), floats(&d), words(&c)));
    EXPECT(tree_kept(t) && guards_whole(&i) && guards_whole(&d) && guards_whole(&c));
    EXPECT(r == 0 || (r == 9 && !sound));
    if (r == 9) EXPECT(*words(&c) == 0 && all_zero(&i) && all_zero(&d));
    else if (n == 0) EXPECT(*words(&c) == 0 && kept_from(&i, 0) && kept_from(&d, 0));
    else {
        EXPECT(*words(&c) == 1 && own(t, *words(&i), *floats(&d), x, y));
        if (sound) EXPECT(*words(&i) == first[0].index && bits(*floats(&d)) == bits(sqrt(first[0].d2)));
    }
    drop(&i);
    drop(&d);
    drop(&c);
}

/* What a query that fills slices left: `due` hits in the order of `want` are right, over an accepted tree. */
static void filled(Tree *t, double x, double y, int sound, uint32_t r, Buffer *i, Buffer *d, Buffer *c, const Hit *want, uint32_t due) {
    size_t room = d && len(d) < len(i) ? len(d) : len(i);
    uint32_t count = *words(c);
    EXPECT(tree_kept(t) && guards_whole(c) && guards_whole(i) && (!d || guards_whole(d)));
    EXPECT(saw(r) == 0 || r == 8 || r == 9);
    if (sound) EXPECT(r == (due > room ? 8u : 0u) && count == due);
    if (r == 9) EXPECT(count == 0 && all_zero(i) && (!d || all_zero(d)));
    if (r == 8) EXPECT(count > room && kept_from(i, 0) && (!d || kept_from(d, 0)));
    if (r) return;
    EXPECT(count <= room && kept_from(i, count) && (!d || kept_from(d, count)));
    for (uint32_t k = 0; k < count && k < room; k++) {
        EXPECT(words(i)[k] < len(&t->points) / 2);
        if (d) EXPECT(own(t, words(i)[k], floats(d)[k], x, y));
        if (sound) EXPECT(words(i)[k] == want[k].index);
    }
}

static void k_nearest(Tree *t, double x, double y, uint32_t k, size_t ri, size_t rd, int sound, const Hit *first) {
    Buffer i = buffer(ri, 4), d = buffer(rd, 8), c = buffer(1, 4);
    uint32_t n = (uint32_t)(len(&t->points) / 2);
    keep(&i);
    keep(&d);
    uint32_t r = yt_k_nearest(TREE(t), x, y, k, words(&i), len(&i), floats(&d), len(&d), words(&c));
    filled(t, x, y, sound, r, &i, &d, &c, first, k < n ? k : n);
    drop(&i);
    drop(&d);
    drop(&c);
}

static void within(Tree *t, double x, double y, double radius, size_t ri, size_t rd, int sound, const Hit *want, uint32_t due) {
    Buffer i = buffer(ri, 4), d = buffer(rd, 8), c = buffer(1, 4);
    keep(&i);
    keep(&d);
    uint32_t r = yt_radius(TREE(t), x, y, radius, words(&i), len(&i), floats(&d), len(&d), words(&c));
    filled(t, x, y, sound, r, &i, &d, &c, want, due);
    r = yt_radius_indices(TREE(t), x, y, radius, words(&i), len(&i), words(&c));
    filled(t, x, y, sound, r, &i, NULL, &c, want, due);
    drop(&i);
    drop(&d);
    drop(&c);
}
static void radius_at(Tree *t, double x, double y, double radius, int sound) {
    uint32_t n = (uint32_t)(len(&t->points) / 2), due = 0;
    Hit *want = malloc((n + 1) * sizeof *want);
    if (!want) exit(2);
    for (uint32_t i = 0; i < n; i++)
        if (d2_of(t, i, x, y) <= radius * radius) want[due++] = (Hit){0, i};
    within(t, x, y, radius, due, due, sound, want, due);
    within(t, x, y, radius, due + 3, due + 1, sound, want, due);
    if (due) {
        within(t, x, y, radius, due - 1, due, sound, want, due);
        within(t, x, y, radius, due, due - 1, sound, want, due);
        within(t, x, y, radius, 0, 0, sound, want, due);
    }
    free(want);
}

static void ask(Tree *t, double x, double y, int sound) {
    uint32_t n = (uint32_t)(len(&t->points) / 2);
    Hit *first = ranked(t, x, y);
    keep_tree(t);
    nearest(t, x, y, sound, first);
    const uint32_t ks[] = {0, 1, 2, 8, n ? n - 1 : 0, n, n + 1, 4294967295u};
    for (size_t j = 0; j < sizeof ks / sizeof *ks; j++) {
        uint32_t due = ks[j] < n ? ks[j] : n;
        k_nearest(t, x, y, ks[j], due, due, sound, first);
        k_nearest(t, x, y, ks[j], due + 1, due + 4, sound, first);
        if (due) {
            k_nearest(t, x, y, ks[j], due - 1, due, sound, first);
            k_nearest(t, x, y, ks[j], due, due - 1, sound, first);
        }
    }
    const double radii[] = {0, -0.0, 1, 1.5, 1e-200, n ? sqrt(first[n / 2].d2) : 2, INFINITY};
    for (size_t j = 0; j < sizeof radii / sizeof *radii; j++) radius_at(t, x, y, radii[j], sound);
    free(first);
}
/* at a point, between two, and away from all */
static void ask_about(Tree *t, int sound) {
    uint32_t n = (uint32_t)(len(&t->points) / 2);
    const double *p = floats(&t->points);
    ask(t, 2.5, 3.5, sound);
    ask(t, -1e300, 7, sound);
    if (n == 0) return;
    uint32_t i = below(n), j = below(n);
    ask(t, p[2 * i], p[2 * i + 1], sound);
    ask(t, p[2 * i] / 2 + p[2 * j] / 2, p[2 * i + 1] / 2 + p[2 * j + 1] / 2, sound);
}

/* ---- labels */

static int close_by(const Tree *t, uint32_t i, uint32_t j, double epsilon) {
    return d2_of(t, j, floats(&t->points)[2 * i], floats(&t->points)[2 * i + 1]) <= epsilon * epsilon;
}
/* By the definition: each core's least core over a chain, until nothing changes; then numbers, then borders. */
static void label_scan(const Tree *t, double epsilon, uint32_t m, uint32_t *out) {
    uint32_t n = (uint32_t)(len(&t->points) / 2), next = 0;
    char *core = calloc(n + 1, 1);
    uint32_t *least = malloc((n + 1) * sizeof *least);
    if (!core || !least) exit(2);
    for (uint32_t i = 0; i < n; i++) {
        uint32_t c = 0;
        for (uint32_t j = 0; j < n; j++) c += (uint32_t)close_by(t, i, j, epsilon);
        core[i] = m >= 1 && m <= n && c >= m;
        least[i] = i;
    }
    for (int again = 1; again;) {
        again = 0;
        for (uint32_t i = 0; i < n; i++)
            for (uint32_t j = 0; j < n; j++)
                if (core[i] && core[j] && least[j] < least[i] && close_by(t, i, j, epsilon)) least[i] = least[j], again = 1;
    }
    for (uint32_t i = 0; i < n; i++) out[i] = !core[i] ? YT_NOISE : least[i] == i ? next++ : out[least[i]];
    for (uint32_t i = 0; i < n; i++)
        for (uint32_t j = 0; j < n; j++)
            if (!core[i] && core[j] && close_by(t, i, j, epsilon) && out[j] < out[i]) out[i] = out[j];
    free(core);
    free(least);
}

static void label(Tree *t, double epsilon, uint32_t m, size_t labels, size_t work, uint32_t number, uint32_t detail, const uint32_t *want) {
    Buffer l = buffer(labels, 4), w = buffer(work, 4), d = buffer(1, 4);
    uint32_t n = (uint32_t)(len(&t->points) / 2), c = nodes_of(n, YT_DEFAULT_LEAF_SIZE);
    int quiet = m == 0 || m > n;
    keep_tree(t);
    keep(&l);
    keep(&w);
    EXPECT(saw(yt_label(POINTS(t), epsilon, m, NODES(t), words(&l), len(&l), words(&w), len(&w), words(&d))) == number);
    EXPECT(*words(&d) == detail && guards_whole(&d) && kept_from(&t->points, 0));
    if (number || quiet) EXPECT(tree_kept(t) && kept_from(&w, 0));
    if (number) EXPECT(kept_from(&l, 0));
    else EXPECT(kept_from(&l, n) && (n == 0 || memcmp(words(&l), want, 4 * (size_t)n) == 0));
    if (!number && !quiet) {
        EXPECT(kept_from(&t->indices, n) && kept_from(&t->boxes, 6 * c) && kept_from(&t->links, 4 * c) && accepted(t));
        EXPECT(kept_from(&w, 2 * n));
        for (uint32_t k = 0; k < 2 * n; k++) EXPECT(words(&w)[k] == 0);
    }
    drop(&l);
    drop(&w);
    drop(&d);
}
static void labels_of(Tree *t) {
    uint32_t n = (uint32_t)(len(&t->points) / 2);
    uint32_t *want = malloc((n + 1) * sizeof *want);
    if (!want) exit(2);
    const double epsilons[] = {0, 1, 1.5, 4, 1e-200, INFINITY};
    const uint32_t samples[] = {0, 1, 2, 3, 5, n, n + 1};
    for (size_t i = 0; i < sizeof epsilons / sizeof *epsilons; i++)
        for (size_t j = 0; j < sizeof samples / sizeof *samples; j++) {
            label_scan(t, epsilons[i], samples[j], want);
            label(t, epsilons[i], samples[j], n, 2 * n, 0, 0, want);
            label(t, epsilons[i], samples[j], n + 2, 2 * n + 5, 0, 0, want);
            label(t, -1, samples[j], n, 2 * n, 5, 0, want);
            if (n == 0) continue;
            label(t, epsilons[i], samples[j], n - 1, 2 * n - 1, 8, n, want);
            label(t, epsilons[i], samples[j], n, 2 * n - 1, 8, 2 * n, want);
        }
    free(want);
}

/* ---- the tests */

static void test_root(unsigned rounds) {
    for (unsigned i = 0; i < 1000 * rounds; i++) {
        double x = of_bits(i % 4 ? next64() >> 1 : next64() >> (12 + i % 50)), r = yt_root(x);
        EXPECT(x != x ? r != r : bits(r) == bits(sqrt(x)));
    }
    EXPECT(bits(yt_root(2)) == 0x3FF6A09E667F3BCDu && bits(yt_root(-0.0)) == bits(-0.0));
    EXPECT(yt_root(-1) != yt_root(-1) && yt_root(INFINITY) == INFINITY);
}

static void test_counts(void) {
    for (uint32_t leaf = 0; leaf < 40; leaf++)
        for (uint32_t n = 0; n < 200; n++) EXPECT(yt_node_count(n, leaf) == nodes_of(n, leaf ? leaf : 1));
    EXPECT(yt_node_count(YT_MAX_POINTS, 1) == 2 * YT_MAX_POINTS - 1);
    EXPECT(yt_node_count(YT_MAX_POINTS + 1, 1) == 0 && yt_node_count(4294967295u, 0) == 0);
}

/* One map at one leaf size: exact sizes, longer ones, one short of each; then every query. */
static void test_map(int map, uint32_t n, uint32_t leaf) {
    uint32_t c = nodes_of(n, leaf ? leaf : 1);
    for (int variant = 0; variant < 5; variant++) {
        if (variant > 1 && n == 0) break;
        size_t extra = variant == 1 ? 5 : 0;
        Tree t = tree(2 * n, n + extra - (variant == 2), 6 * c + extra - (variant == 3), 4 * c + extra - (variant == 4));
        place_points(&t, map);
        static const uint32_t numbers[] = {0, 0, 6, 7, 7};
        build(&t, leaf, numbers[variant], variant < 2 ? 0 : variant == 2 ? n : c);
        if (variant < 2) {
            check(&t, 0, 0);
            ask_about(&t, 1);
        }
        drop_tree(&t);
    }
}

static void test_labels(int map, uint32_t n) {
    uint32_t c = nodes_of(n, YT_DEFAULT_LEAF_SIZE);
    for (int variant = 0; variant < 4; variant++) {
        if (variant && n == 0) break;
        Tree t = tree(2 * n, n - (variant == 1), 6 * c - (variant == 2), 4 * c - (variant == 3));
        place_points(&t, map);
        if (variant == 0) labels_of(&t);
        else label(&t, 1, 2, 0, 0, variant == 1 ? 6 : 7, variant == 1 ? n : c, NULL);
        if (variant) label(&t, NAN, 0, 0, 0, 5, 0, NULL);
        drop_tree(&t);
    }
}

/* One edit of a good tree, then the check beside the definition, and every query. */
static void damage(Tree *t) {
    static const uint32_t odd[] = {0, 1, 2, 7, 4294967295u};
    static const double bad[] = {NAN, INFINITY, -INFINITY, 3, -0.0};
    uint32_t w = below(3) ? below(40) : odd[below(5)];
    switch (below(4)) {
    case 0: words(&t->indices)[below((uint32_t)len(&t->indices))] = w; break;
    case 1: floats(&t->boxes)[below((uint32_t)len(&t->boxes))] = bad[below(5)]; break;
    default: words(&t->links)[below((uint32_t)len(&t->links))] = w; break;
    }
}
static void test_damage(unsigned rounds) {
    static const uint32_t leaves[] = {1, 2, 5, 16};
    for (unsigned i = 0; i < 20 * rounds; i++) {
        uint32_t n = 1 + below(33), leaf = leaves[i % 4], c = nodes_of(n, leaf);
        Tree t = tree(2 * n, n, 6 * c, 4 * c);
        place_points(&t, (int)(i % (MAPS - 1)));
        build(&t, leaf, 0, 0);
        for (uint32_t k = below(3); k < 3; k++) damage(&t);
        int sound = accepted(&t);
        check(&t, sound ? 0 : 9, 0);
        ask_about(&t, sound);
        drop_tree(&t);
    }
}
/* A good tree in slices that end too early: damage at the root, whatever is asked. */
static void test_cut(void) {
    for (int which = 0; which < 3; which++) {
        Tree t = tree(8, 4 - (which == 0), 6 - (which == 1), 4 - (which == 2)), whole = tree(8, 4, 6, 4);
        place_points(&whole, 1);
        build(&whole, 16, 0, 0);
        memcpy(t.points.at, whole.points.at, t.points.bytes);
        memcpy(t.indices.at, whole.indices.at, t.indices.bytes);
        memcpy(t.boxes.at, whole.boxes.at, t.boxes.bytes);
        memcpy(t.links.at, whole.links.at, t.links.bytes);
        check(&t, 9, 0);
        ask_about(&t, 0);
        uint32_t i = 1, k = 1;
        double d = 1;
        EXPECT(yt_nearest(TREE(&t), 0, 0, &i, &d, &k) == 9 && i == 0 && d == 0 && k == 0);
        Buffer bi = buffer(1, 4), bd = buffer(2, 8); /* 9 before 8: no room for four either */
        EXPECT(yt_k_nearest(TREE(&t), 0, 0, 4, words(&bi), 1, floats(&bd), 2, &k) == 9 && k == 0 && all_zero(&bi) && all_zero(&bd));
        bi.at[0] = bd.at[0] = 1;
        EXPECT(yt_radius(TREE(&t), 0, 0, 9, words(&bi), 1, floats(&bd), 2, &k) == 9 && k == 0 && all_zero(&bi) && all_zero(&bd));
        EXPECT(yt_k_nearest(TREE(&t), 0, 0, 0, words(&bi), 1, floats(&bd), 2, &k) == 0 && k == 0);
        drop(&bi);
        drop(&bd);
        drop_tree(&t);
        drop_tree(&whole);
    }
}

/* A refusal of every query that asks at (x, y) with this radius; nothing but the count is written. */
static void refused(Tree *t, double x, double y, double radius, uint32_t number) {
    Buffer i = buffer(3, 4), d = buffer(2, 8), c = buffer(1, 4);
    keep_tree(t);
    keep(&i);
    keep(&d);
    EXPECT(saw(yt_radius(TREE(t), x, y, radius, words(&i), 3, floats(&d), 2, words(&c))) == number && *words(&c) == 0);
    *words(&c) = 7;
    EXPECT(yt_radius_indices(TREE(t), x, y, radius, words(&i), 3, words(&c)) == number && *words(&c) == 0);
    if (number != 5) {
        *words(&c) = 7;
        EXPECT(yt_k_nearest(TREE(t), x, y, 2, words(&i), 3, floats(&d), 2, words(&c)) == number && *words(&c) == 0);
        *words(&c) = 7;
        EXPECT(yt_nearest(TREE(t), x, y, words(&i), floats(&d), words(&c)) == number && *words(&c) == 0);
    }
    EXPECT(kept_from(&i, 0) && kept_from(&d, 0) && guards_whole(&c) && tree_kept(t));
    drop(&i);
    drop(&d);
    drop(&c);
}
static void test_refusals(void) {
    Tree odd = tree(7, 0, 0, 0), many = tree(2 * (size_t)YT_MAX_POINTS + 2, 0, 0, 0), both = tree(2 * (size_t)YT_MAX_POINTS + 3, 0, 0, 0);
    Tree bad = tree(8, 0, 0, 0), none = tree(0, 0, 0, 0), good = tree(8, 4, 6, 4);
    place_points(&bad, 1);
    floats(&bad.points)[7] = NAN;
    floats(&bad.points)[4] = -INFINITY;
    place_points(&good, 1);
    build(&good, 16, 0, 0);
    struct {
        Tree *t;
        uint32_t number, detail;
    } rows[] = {{&odd, 1, 0}, {&many, 2, 0}, {&both, 1, 0}, {&bad, 3, 2}};
    for (int k = 0; k < 4; k++) {
        build(rows[k].t, 1, rows[k].number, rows[k].detail);
        check(rows[k].t, rows[k].number, rows[k].detail);
        label(rows[k].t, -1, 1, 0, 0, rows[k].number, rows[k].detail, NULL);
        if (k < 3) refused(rows[k].t, NAN, 0, -1, rows[k].number);
    }
    Tree *asked[] = {&good, &none, &bad};
    for (int k = 0; k < 3; k++) {
        refused(asked[k], NAN, 0, -1, 4);
        refused(asked[k], 0, INFINITY, 1, 4);
        refused(asked[k], -INFINITY, NAN, NAN, 4);
        refused(asked[k], 0, 0, NAN, 5);
        refused(asked[k], 0, 0, -4.9e-324, 5);
        refused(asked[k], 0, 0, -INFINITY, 5);
        drop_tree(asked[k]);
    }
    drop_tree(&odd);
    drop_tree(&many);
    drop_tree(&both);
}

/* No points, in slices with no memory behind them. */
static void test_empty(void) {
    uint32_t i = 7, c = 7;
    double d = 7;
    EXPECT(yt_build(NULL, 0, 16, NULL, 0, NULL, 0, NULL, 0, &c) == 0 && c == 0);
    c = 7;
    EXPECT(yt_check(NULL, 0, NULL, 0, NULL, 0, NULL, 0, &c) == 0 && c == 0);
    c = 7;
    EXPECT(yt_nearest(NULL, 0, NULL, 0, NULL, 0, NULL, 0, 0, 0, &i, &d, &c) == 0 && c == 0 && i == 7 && d == 7);
    c = 7;
    EXPECT(yt_k_nearest(NULL, 0, NULL, 0, NULL, 0, NULL, 0, 0, 0, 3, NULL, 0, NULL, 0, &c) == 0 && c == 0);
    c = 7;
    EXPECT(yt_radius(NULL, 0, NULL, 0, NULL, 0, NULL, 0, 0, 0, 3, NULL, 0, NULL, 0, &c) == 0 && c == 0);
    c = 7;
    EXPECT(yt_radius_indices(NULL, 0, NULL, 0, NULL, 0, NULL, 0, 0, 0, 3, NULL, 0, &c) == 0 && c == 0);
    c = 7;
    EXPECT(yt_label(NULL, 0, 1, 1, NULL, 0, NULL, 0, NULL, 0, NULL, 0, NULL, 0, &c) == 0 && c == 0);
}

/* Answers worked out by hand. */
static Tree map_of(const double *xy, uint32_t n) {
    Tree t = tree(2 * n, n, 6, 4);
    memcpy(t.points.at, xy, t.points.bytes);
    build(&t, YT_DEFAULT_LEAF_SIZE, 0, 0);
    return t;
}
/* k-nearest, or with a radius that search */
static void found(Tree *t, double x, double y, double radius, uint32_t k, uint32_t count, const uint32_t *indices, const double *distances) {
    uint32_t i[4], c;
    double d[4];
    uint32_t r = radius < 0 ? yt_k_nearest(TREE(t), x, y, k, i, 4, d, 4, &c) : yt_radius(TREE(t), x, y, radius, i, 4, d, 4, &c);
    EXPECT(r == 0 && c == count);
    for (uint32_t j = 0; j < count; j++) EXPECT(i[j] == indices[j] && d[j] == distances[j]);
}
static void test_by_hand(void) {
    Tree q = map_of((double[]){0, 0, 3, 4, 6, 8, -3, 4}, 4);
    found(&q, 0, 4, -1, 1, 1, (uint32_t[]){1}, (double[]){3});
    found(&q, 0, 4, -1, 3, 3, (uint32_t[]){1, 3, 0}, (double[]){3, 3, 4});
    found(&q, 0, 4, -1, 9, 4, (uint32_t[]){1, 3, 0, 2}, (double[]){3, 3, 4, sqrt(52)});
    found(&q, 0, 4, 3, 0, 2, (uint32_t[]){1, 3}, (double[]){3, 3});
    found(&q, 0, 4, 2.5, 0, 0, NULL, NULL);
    found(&q, 3, 4, 0, 0, 1, (uint32_t[]){1}, (double[]){0});
    drop_tree(&q);
    Tree far = map_of((double[]){1e308, 0}, 1), tiny = map_of((double[]){0, 0, 1e-200, 0}, 2);
    found(&far, -1e308, 0, -1, 1, 1, (uint32_t[]){0}, (double[]){INFINITY});
    found(&tiny, 0, 0, 1e-200, 0, 2, (uint32_t[]){0, 1}, (double[]){0, 0});
    drop_tree(&far);
    drop_tree(&tiny);
    Tree two = map_of((double[]){0, 0, 1, 0, 0, 1, 10, 10, 11, 10, 10, 11}, 6), one = map_of((double[]){0, 0, 1, 0, 0, 1, 100, 100}, 4);
    Tree line = map_of((double[]){0, 0, 1, 0, 1.5, 0, 2, 0, -1, 0, -1.5, 0, -2, 0}, 7);
    label(&two, 2, 2, 6, 12, 0, 0, (uint32_t[]){0, 0, 0, 1, 1, 1});
    label(&one, 2, 2, 4, 8, 0, 0, (uint32_t[]){0, 0, 0, YT_NOISE});
    label(&line, 1, 4, 7, 14, 0, 0, (uint32_t[]){0, 0, 0, 0, 1, 1, 1});
    drop_tree(&two);
    drop_tree(&one);
    drop_tree(&line);
}

int main(int argc, char **argv) {
    if (argc != 3) {
        fprintf(stderr, "host: GUARD and ROUNDS are needed\n");
        return 2;
    }
    guard = (size_t)atol(argv[1]);
    unsigned rounds = (unsigned)atol(argv[2]);
    static const uint32_t sizes[] = {0, 1, 2, 3, 5, 16, 17, 33, 50};
    static const uint32_t leaves[] = {0, 1, 2, 3, 16, 4294967295u};
    test_root(rounds);
    test_counts();
    test_empty();
    test_by_hand();
    test_refusals();
    test_cut();
    for (unsigned r = 0; r < rounds; r++)
        for (int map = 0; map < MAPS; map++)
            for (size_t k = 0; k < sizeof sizes / sizeof *sizes; k++) {
                test_labels(map, sizes[k]);
                test_map(map, sizes[k], leaves[(k + r + (unsigned)map) % 6]);
            }
    test_damage(rounds);
    for (int k = 0; k < 10; k++) EXPECT(returned[k] > 0);
    printf("host: %lu checks, %lu failed\n", checks, failures);
    return failures != 0;
}
