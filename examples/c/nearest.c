/* The die nearest to each place that a camera reports, and all dies within a radius of it.
 *
 *     tools/staticlib
 *     cc -I include examples/c/nearest.c target/staticlib/libcapi.a -o target/nearest && target/nearest
 */
#include "yolthugen.h"
#include <stdio.h>
#include <stdlib.h>

enum { COLUMNS = 10, ROWS = 10, DIES = COLUMNS * ROWS, PITCH = 1000 };

int main(void) {
    double points[2 * DIES];
    for (int i = 0; i < DIES; i++) {
        points[2 * i] = i % COLUMNS * PITCH;
        points[2 * i + 1] = i / COLUMNS * PITCH;
    }

    uint32_t nodes = yt_node_count(DIES, YT_DEFAULT_LEAF_SIZE);
    uint32_t *indices = malloc(DIES * sizeof *indices);
    double *boxes = malloc(6 * nodes * sizeof *boxes);
    uint32_t *links = malloc(4 * nodes * sizeof *links);
    if (!indices || !boxes || !links) return 1;
    uint32_t detail;
    uint32_t refused = yt_build(points, 2 * DIES, YT_DEFAULT_LEAF_SIZE, indices, DIES, boxes, 6 * nodes, links, 4 * nodes, &detail);
    if (refused) {
        fprintf(stderr, "build refused by %u, detail %u\n", refused, detail);
        return 1;
    }

    const double places[][2] = {{2003.5, 4998.0}, {2500.0, 5000.0}, {-400.0, 9700.0}};
    for (int i = 0; i < 3; i++) {
        double x = places[i][0], y = places[i][1], distance;
        uint32_t index, count, near[DIES];
        refused = yt_nearest(points, 2 * DIES, indices, DIES, boxes, 6 * nodes, links, 4 * nodes, x, y, &index, &distance, &count);
        if (refused || count == 0) {
            fprintf(stderr, "nearest: refused by %u, %u hits\n", refused, count);
            return 1;
        }
        printf("(%g, %g): die %u at %g", x, y, index, distance);
        refused = yt_radius_indices(points, 2 * DIES, indices, DIES, boxes, 6 * nodes, links, 4 * nodes, x, y, 1.5 * PITCH, near, DIES, &count);
        if (refused) return 1;
        printf("; within %g:", 1.5 * PITCH);
        for (uint32_t k = 0; k < count; k++) printf(" %u", near[k]);
        printf("\n");
    }
    free(indices);
    free(boxes);
    free(links);
    return 0;
}
