//! The original's answers, in the harness's types.

use geo::{BallTree, BallTreeBuilder, Dbscan, Point};

pub type Tree = BallTree<f64>;

fn owned(points: &[f64]) -> Vec<Point<f64>> {
    points.chunks_exact(2).map(|p| Point::new(p[0], p[1])).collect()
}

pub fn build(points: &[f64], leaf_size: usize) -> Tree {
    BallTreeBuilder::with_leaf_size(leaf_size).build(owned(points))
}

pub fn nearest(tree: &Tree, x: f64, y: f64) -> Option<(usize, f64)> {
    tree.nearest_neighbour(&Point::new(x, y)).map(|h| (h.index, h.distance))
}

pub fn k_nearest(tree: &Tree, x: f64, y: f64, k: usize) -> Vec<(usize, f64)> {
    tree.nearest_neighbours(&Point::new(x, y), k).iter().map(|h| (h.index, h.distance)).collect()
}

pub fn radius(tree: &Tree, x: f64, y: f64, radius: f64) -> Vec<(usize, f64)> {
    tree.within_radius(&Point::new(x, y), radius).iter().map(|h| (h.index, h.distance)).collect()
}

/// Noise is `rule::NOISE`.
pub fn labels(points: &[f64], epsilon: f64, min_samples: usize) -> Vec<u32> {
    owned(points).as_slice().dbscan(epsilon, min_samples).iter().map(|l| l.map_or(crate::rule::NOISE, |i| i as u32)).collect()
}
