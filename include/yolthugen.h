/* Yolthugen: ball trees over points of the plane, and groups of them by density, in buffers that the caller lends.
 *
 * A slice is a pointer and a count of ELEMENTS, never of bytes: `points` with `points_len` = 2 n holds n points.
 * A slice of 0 elements may have any pointer, NULL too. A cell is a pointer to one element and is never NULL.
 * Buffers that a call writes may not overlap each other, nor any buffer that it reads. Nothing is kept between calls and
 * nothing is allocated, so calls on different threads do not disturb each other, and many may ask over one tree at once.
 *
 * The slices, and how many elements each needs for n points at a leaf size, with N = yt_node_count(n, leaf_size):
 *   points   2 n   x and y of each point in turn; n is at most YT_MAX_POINTS
 *   indices    n   the points' numbers, in the order of the tree
 *   boxes    6 N   for each node: centre x, centre y, min x, max x, min y, max y
 *   links    4 N   for each node: start and end of its part of `indices`, and its two children (both 0: a leaf)
 * Longer slices will do; what lies past these elements is not written.
 *
 * Every function but the first two returns 0, or the number of a refusal:
 *    1  an odd number of coordinates
 *    2  more than YT_MAX_POINTS points
 *    3  a coordinate is not finite (build, check, label); the detail is the least such point
 *    4  the place asked for is not finite
 *    5  the radius or epsilon is NaN or below zero
 *    6  `indices` is too short (build, label); the detail is n
 *    7  `boxes` or `links` is too short (build, label); the detail is N
 *    8  a result slice is too short; the detail is how many elements it needs
 *    9  check: the tree is not accepted; query: the walk met damage
 * The lowest that applies wins, but a query tests 9 before 8. `*detail`, and a query's `*count`, is always written: on a
 * refusal it is the detail, 0 where none is named above. A refusal changes nothing else, save that a query's 9 sets its
 * results, every element of them, to index 0 and distance 0: a result that is damaged cannot pass for a hit.
 * A query gives 9 only over a tree that yt_check refuses; over one that it accepts the answer is the plain scan's. */
#ifndef YOLTHUGEN_H
#define YOLTHUGEN_H

#include <stddef.h>
#include <stdint.h>

#ifdef __cplusplus
extern "C" {
#endif

#define YT_MAX_POINTS 1048576u
#define YT_DEFAULT_LEAF_SIZE 16u
#define YT_NOISE 4294967295u

/* The square root of x, correctly rounded: of -0 it is -0, of a NaN or a number below zero a NaN. */
double yt_root(double x);

/* N: how many nodes a tree over n points has. A leaf size of 0 counts as 1. 0 where n is above YT_MAX_POINTS. */
uint32_t yt_node_count(uint32_t n, uint32_t leaf_size);

/* Builds the tree over the points into `indices`, `boxes` and `links`, with at most leaf_size points in a leaf.
 * Refuses by 1, 2, 3, 6, 7. `*detail` is 0 where a tree was built. */
uint32_t yt_build(const double *points, size_t points_len, uint32_t leaf_size,
                  uint32_t *indices, size_t indices_len, double *boxes, size_t boxes_len,
                  uint32_t *links, size_t links_len, uint32_t *detail);

/* Whether a tree, whoever made it, is one that queries answer over without fail. Takes 128 KiB of stack.
 * Refuses by 1, 2, 3, 9. `*detail` is 0 where the tree is accepted. */
uint32_t yt_check(const double *points, size_t points_len, const uint32_t *indices, size_t indices_len,
                  const double *boxes, size_t boxes_len, const uint32_t *links, size_t links_len, uint32_t *detail);

/* The point nearest to (x, y), and of two as near the one with the lower index: `*count` is 1, and `*index` and
 * `*distance` are its own. Over no points `*count` is 0. Refuses by 1, 2, 4, 9. Without a hit `*index` and `*distance`
 * are as they were, but 0 on a 9. */
uint32_t yt_nearest(const double *points, size_t points_len, const uint32_t *indices, size_t indices_len,
                    const double *boxes, size_t boxes_len, const uint32_t *links, size_t links_len,
                    double x, double y, uint32_t *index, double *distance, uint32_t *count);

/* The k points nearest to (x, y), all where there are fewer, by distance and then by index. `*count` is how many were
 * written; elements past them are as they were. Both result slices need min(k, n) elements. Refuses by 1, 2, 4, 9, 8. */
uint32_t yt_k_nearest(const double *points, size_t points_len, const uint32_t *indices, size_t indices_len,
                      const double *boxes, size_t boxes_len, const uint32_t *links, size_t links_len,
                      double x, double y, uint32_t k, uint32_t *out_indices, size_t out_indices_len,
                      double *out_distances, size_t out_distances_len, uint32_t *count);

/* Every point whose squared distance to (x, y) is at most radius * radius, by rising index. `*count` is how many were
 * written; elements past them are as they were. An infinite radius takes all. Refuses by 1, 2, 4, 5, 9, 8. */
uint32_t yt_radius(const double *points, size_t points_len, const uint32_t *indices, size_t indices_len,
                   const double *boxes, size_t boxes_len, const uint32_t *links, size_t links_len,
                   double x, double y, double radius, uint32_t *out_indices, size_t out_indices_len,
                   double *out_distances, size_t out_distances_len, uint32_t *count);

/* The same, for the indices alone. */
uint32_t yt_radius_indices(const double *points, size_t points_len, const uint32_t *indices, size_t indices_len,
                           const double *boxes, size_t boxes_len, const uint32_t *links, size_t links_len,
                           double x, double y, double radius, uint32_t *out_indices, size_t out_indices_len,
                           uint32_t *count);

/* Groups the points. A point with at least min_samples points within epsilon, itself included, is a core. Cores that a
 * chain of cores joins, each within epsilon of the one before, share a label: 0, 1, 2 and so on by rising least core. Any
 * other point takes the least label of the cores within epsilon, or YT_NOISE. With min_samples 0 or above n all is noise.
 * Builds its own tree of leaf size YT_DEFAULT_LEAF_SIZE into `indices`, `boxes` and `links`, writes n labels, and leaves
 * the first 2 n elements of `work` as 0; where min_samples is 0 or above n only the labels are written.
 * Refuses by 1, 2, 3, 5, 6, 7, 8: labels need n elements, then work 2 n. `*detail` is 0 where labels were given. */
uint32_t yt_label(const double *points, size_t points_len, double epsilon, uint32_t min_samples,
                  uint32_t *indices, size_t indices_len, double *boxes, size_t boxes_len,
                  uint32_t *links, size_t links_len, uint32_t *labels, size_t labels_len,
                  uint32_t *work, size_t work_len, uint32_t *detail);

#ifdef __cplusplus
}
#endif
#endif
