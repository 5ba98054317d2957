/* How much stack each function of include/yolthugen.h takes, at the largest map and at leaf size 1, where trees are deepest.
 *
 *     stack
 *
 * Each call runs on a thread whose stack was filled with a pattern before; what is no longer the pattern afterwards was used,
 * the thread's own start included. Prints one line and exits 0 if no call took more than 256 KiB. */
#define _XOPEN_SOURCE 600
#include "yolthugen.h"
#include <pthread.h>
#include <stdio.h>
#include <stdlib.h>
#include <string.h>

enum { STACK = 1 << 20, MOST = 256 << 10, FILL = 0xA5, N = YT_MAX_POINTS, NODES = 2 * N - 1 };

static double *points, *boxes, *distances;
static uint32_t *indices, *links, *hits, *labels, *work, leaf = 1;
#define TREE points, 2 * N, indices, N, boxes, 6 * (size_t)NODES, links, 4 * (size_t)NODES

static uint32_t nothing(void) { return 0; }
static uint32_t root(void) { return yt_root(2) < 1; }
static uint32_t node_count(void) { return yt_node_count(N, leaf) == 0; }
static uint32_t build(void) {
    uint32_t detail;
    return yt_build(points, 2 * N, leaf, indices, N, boxes, 6 * (size_t)NODES, links, 4 * (size_t)NODES, &detail);
}
static uint32_t check(void) {
    uint32_t detail;
    return yt_check(TREE, &detail);
}
static uint32_t nearest(void) {
    uint32_t index, count;
    double distance;
    return yt_nearest(TREE, 0.25, 0.75, &index, &distance, &count);
}
static uint32_t k_nearest(void) {
    uint32_t count;
    return yt_k_nearest(TREE, 0.25, 0.75, N, hits, N, distances, N, &count);
}
static uint32_t radius(void) {
    uint32_t count;
    return yt_radius(TREE, 0.25, 0.75, 0.5, hits, N, distances, N, &count);
}
static uint32_t radius_indices(void) {
    uint32_t count;
    return yt_radius_indices(TREE, 0.25, 0.75, 0.5, hits, N, &count);
}
static uint32_t label(void) {
    uint32_t detail;
    return yt_label(points, 2 * N, 1e-4, 2, indices, N, boxes, 6 * (size_t)NODES, links, 4 * (size_t)NODES, labels, N, work, 2 * (size_t)N, &detail);
}

static const struct {
    const char *name;
    uint32_t (*call)(void);
} calls[] = {{"none", nothing}, {"root", root}, {"node count", node_count}, {"build", build}, {"check", check}, {"nearest", nearest}, {"k-nearest", k_nearest}, {"radius", radius}, {"indices alone", radius_indices}, {"labels", label}};

static void *run(void *which) {
    if (calls[*(size_t *)which].call()) fprintf(stderr, "stack: %s refused\n", calls[*(size_t *)which].name), exit(1);
    return NULL;
}

static size_t used_by(size_t which, unsigned char *stack) {
    pthread_t thread;
    pthread_attr_t how;
    size_t untouched = 0;
    memset(stack, FILL, STACK);
    if (pthread_attr_init(&how) || pthread_attr_setstack(&how, stack, STACK) || pthread_create(&thread, &how, run, &which) || pthread_join(thread, NULL)) exit(2);
    pthread_attr_destroy(&how);
    while (untouched < STACK && stack[untouched] == FILL) untouched++;
    return STACK - untouched;
}

static void *room(size_t count, size_t size) {
    void *p = calloc(count, size);
    if (!p) exit(2);
    return p;
}

int main(void) {
    void *stack;
    int over = 0;
    points = room(2 * N, 8), boxes = room(6 * (size_t)NODES, 8), distances = room(N, 8);
    indices = room(N, 4), links = room(4 * (size_t)NODES, 4), hits = room(N, 4), labels = room(N, 4), work = room(2 * (size_t)N, 4);
    for (size_t i = 0; i < N; i++) points[2 * i] = (double)(i * 2654435761u % N) / N, points[2 * i + 1] = (double)(i % 1021) / 1021;
    if (posix_memalign(&stack, 4096, STACK)) exit(2);
    printf("stack, bytes:");
    for (size_t i = 0; i < sizeof calls / sizeof *calls; i++) {
        size_t used = used_by(i, stack);
        printf("%s %s %lu", i ? "," : "", calls[i].name, (unsigned long)used);
        over |= used > MOST;
    }
    printf("%s\n", over ? ": more than 262144" : "");
    return over;
}
