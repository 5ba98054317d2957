//! The library's functions, as include/yolthugen.h declares them. Each slice is a pointer and a count of elements.
extern "C" {
    pub fn yt_root(x: f64) -> f64;
    pub fn yt_node_count(n: u32, leaf_size: u32) -> u32;
    pub fn yt_build(
        points: *const f64, points_len: usize, leaf_size: u32, indices: *mut u32, indices_len: usize, boxes: *mut f64, boxes_len: usize,
        links: *mut u32, links_len: usize, detail: *mut u32,
    ) -> u32;
    pub fn yt_check(
        points: *const f64, points_len: usize, indices: *const u32, indices_len: usize, boxes: *const f64, boxes_len: usize,
        links: *const u32, links_len: usize, detail: *mut u32,
    ) -> u32;
    pub fn yt_nearest(
        points: *const f64, points_len: usize, indices: *const u32, indices_len: usize, boxes: *const f64, boxes_len: usize,
        links: *const u32, links_len: usize, x: f64, y: f64, index: *mut u32, distance: *mut f64, count: *mut u32,
    ) -> u32;
    pub fn yt_k_nearest(
        points: *const f64, points_len: usize, indices: *const u32, indices_len: usize, boxes: *const f64, boxes_len: usize,
        links: *const u32, links_len: usize, x: f64, y: f64, k: u32, out_indices: *mut u32, out_indices_len: usize,
        out_distances: *mut f64, out_distances_len: usize, count: *mut u32,
    ) -> u32;
    pub fn yt_radius(
        points: *const f64, points_len: usize, indices: *const u32, indices_len: usize, boxes: *const f64, boxes_len: usize,
        links: *const u32, links_len: usize, x: f64, y: f64, radius: f64, out_indices: *mut u32, out_indices_len: usize,
        out_distances: *mut f64, out_distances_len: usize, count: *mut u32,
    ) -> u32;
    pub fn yt_label(
        points: *const f64, points_len: usize, epsilon: f64, min_samples: u32, indices: *mut u32, indices_len: usize, boxes: *mut f64,
        boxes_len: usize, links: *mut u32, links_len: usize, labels: *mut u32, labels_len: usize, work: *mut u32, work_len: usize,
        detail: *mut u32,
    ) -> u32;
}
