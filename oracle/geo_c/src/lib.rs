//! The original behind C functions, so that the benchmark calls it at the price at which it calls the others. Answers are
//! handed back as a sum that the caller can hold against the others' sums; nothing is copied that the original itself
//! would not hand to its user.

use geo::{BallTree, BallTreeBuilder, Dbscan, Point};

type Tree = BallTree<f64>;

/// # Safety
/// `points` is n interleaved pairs.
#[no_mangle]
pub unsafe extern "C" fn geo_points(points: *const f64, n: usize) -> *mut Vec<Point<f64>> {
    let pairs = unsafe { std::slice::from_raw_parts(points, 2 * n) };
    Box::into_raw(Box::new(pairs.chunks_exact(2).map(|p| Point::new(p[0], p[1])).collect()))
}

/// # Safety
/// `points` comes from `geo_points`. The copy that `build` takes over is made before the clock that the caller reads:
/// `geo_points` once a build.
#[no_mangle]
pub unsafe extern "C" fn geo_build(points: *mut Vec<Point<f64>>, leaf_size: u32) -> *mut Tree {
    let points = unsafe { Box::from_raw(points) };
    Box::into_raw(Box::new(BallTreeBuilder::with_leaf_size(leaf_size as usize).build(*points)))
}

/// # Safety
/// `tree` comes from `geo_build` and is not used again.
#[no_mangle]
pub unsafe extern "C" fn geo_free(tree: *mut Tree) {
    drop(unsafe { Box::from_raw(tree) });
}

/// # Safety
/// `tree` comes from `geo_build`.
#[no_mangle]
pub unsafe extern "C" fn geo_nearest(tree: *const Tree, x: f64, y: f64, index: *mut u32, distance: *mut f64) -> u32 {
    match unsafe { &*tree }.nearest_neighbour(&Point::new(x, y)) {
        Some(hit) => {
            unsafe { *index = hit.index as u32 };
            unsafe { *distance = hit.distance };
            1
        }
        None => 0,
    }
}

/// The number of hits; the farthest distance goes to `last`.
/// # Safety
/// `tree` comes from `geo_build`.
#[no_mangle]
pub unsafe extern "C" fn geo_k_nearest(tree: *const Tree, x: f64, y: f64, k: u32, last: *mut f64) -> u32 {
    let hits = unsafe { &*tree }.nearest_neighbours(&Point::new(x, y), k as usize);
    if let Some(hit) = hits.last() {
        unsafe { *last = hit.distance };
    }
    hits.len() as u32
}

/// The number of hits.
/// # Safety
/// `tree` comes from `geo_build`.
#[no_mangle]
pub unsafe extern "C" fn geo_radius(tree: *const Tree, x: f64, y: f64, radius: f64) -> u32 {
    unsafe { &*tree }.within_radius(&Point::new(x, y), radius).len() as u32
}

/// The number of points with a label.
/// # Safety
/// `points` comes from `geo_points`; it is freed.
#[no_mangle]
pub unsafe extern "C" fn geo_label(points: *mut Vec<Point<f64>>, epsilon: f64, min_samples: u32) -> u32 {
    let points = unsafe { Box::from_raw(points) };
    points.as_slice().dbscan(epsilon, min_samples as usize).iter().flatten().count() as u32
}
