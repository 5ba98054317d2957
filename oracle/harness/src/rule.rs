//! The rules of the scope, by plain scans: what every answer of this library has to equal, ties included. Written to be
//! read, and from the rules alone; it shares nothing with the library.

pub const NOISE: u32 = u32::MAX;

pub fn d2(ax: f64, ay: f64, bx: f64, by: f64) -> f64 {
    let dx = ax - bx;
    let dy = ay - by;
    dx * dx + dy * dy
}

/// The d2 of every point to (x, y), by index.
pub fn all_d2(points: &[f64], x: f64, y: f64) -> Vec<f64> {
    points.chunks_exact(2).map(|p| d2(x, y, p[0], p[1])).collect()
}

/// Least d2, then least index.
pub fn nearest(points: &[f64], x: f64, y: f64) -> Option<(u32, f64)> {
    let mut best: Option<(u32, f64)> = None;
    for (i, p) in points.chunks_exact(2).enumerate() {
        let d = d2(x, y, p[0], p[1]);
        if best.is_none_or(|(_, b)| d < b) {
            best = Some((i as u32, d));
        }
    }
    best.map(|(i, d)| (i, d.sqrt()))
}

/// The first min(k, n) by (d2, index).
pub fn k_nearest(points: &[f64], x: f64, y: f64, k: usize) -> Vec<(u32, f64)> {
    let mut all: Vec<(f64, u32)> = all_d2(points, x, y).into_iter().zip(0..).collect();
    let order = |a: &(f64, u32), b: &(f64, u32)| a.0.total_cmp(&b.0).then(a.1.cmp(&b.1));
    if k < all.len() && k > 0 {
        all.select_nth_unstable_by(k - 1, order);
    }
    all.truncate(k);
    all.sort_unstable_by(order);
    all.into_iter().map(|(d, i)| (i, d.sqrt())).collect()
}

/// Every point with d2 <= radius * radius, by rising index.
pub fn radius(points: &[f64], x: f64, y: f64, radius: f64) -> Vec<(u32, f64)> {
    let most = radius * radius;
    all_d2(points, x, y).into_iter().zip(0..).filter(|(d, _)| *d <= most).map(|(d, i)| (i, d.sqrt())).collect()
}

/// The definition by chains: cores that are neighbours share a group, groups are numbered by their least core, a
/// non-core takes the least label among its core neighbours.
pub fn labels(points: &[f64], epsilon: f64, min_samples: u32) -> Vec<u32> {
    let n = points.len() / 2;
    if min_samples == 0 || min_samples as usize > n {
        return vec![NOISE; n];
    }
    let near: Vec<Vec<u32>> = (0..n).map(|i| radius(points, points[2 * i], points[2 * i + 1], epsilon).iter().map(|h| h.0).collect()).collect();
    let core: Vec<bool> = near.iter().map(|v| v.len() >= min_samples as usize).collect();
    let mut group: Vec<usize> = (0..n).collect();
    fn top(group: &mut [usize], mut i: usize) -> usize {
        while group[i] != i {
            group[i] = group[group[i]];
            i = group[i];
        }
        i
    }
    for i in (0..n).filter(|&i| core[i]) {
        for &j in near[i].iter().filter(|&&j| core[j as usize]) {
            let (a, b) = (top(&mut group, i), top(&mut group, j as usize));
            // The least index stays the top of its group.
            group[a.max(b)] = a.min(b);
        }
    }
    let mut labels = vec![NOISE; n];
    let mut next = 0;
    for i in (0..n).filter(|&i| core[i]) {
        let t = top(&mut group, i);
        if t == i {
            labels[i] = next;
            next += 1;
        }
        labels[i] = labels[t];
    }
    for i in (0..n).filter(|&i| !core[i]) {
        labels[i] = near[i].iter().filter(|&&j| core[j as usize]).map(|&j| labels[j as usize]).min().unwrap_or(NOISE);
    }
    labels
}

/// A tree as the build has to leave it: six f64 and four u32 a node, and the indices. The order inside a leaf and the
/// centres are free.
pub struct Tree {
    pub indices: Vec<u32>,
    pub boxes: Vec<f64>,
    pub links: Vec<u32>,
}

pub fn build(points: &[f64], leaf_size: usize) -> Tree {
    let n = points.len() / 2;
    let mut tree = Tree { indices: (0..n as u32).collect(), boxes: vec![], links: vec![] };
    if n > 0 {
        build_part(points, leaf_size.max(1), 0, n, &mut tree);
    }
    tree
}

fn build_part(points: &[f64], leaf_size: usize, start: usize, end: usize, tree: &mut Tree) -> u32 {
    let node = (tree.links.len() / 4) as u32;
    let part = &mut tree.indices[start..end];
    let of = |axis: usize, i: u32| points[2 * i as usize + axis];
    let ends = |axis: usize| {
        let least = part.iter().map(|&i| of(axis, i)).min_by(f64::total_cmp).unwrap();
        (least, part.iter().map(|&i| of(axis, i)).max_by(f64::total_cmp).unwrap())
    };
    let (x, y) = (ends(0), ends(1));
    tree.boxes.extend([0.0, 0.0, x.0, x.1, y.0, y.1]);
    tree.links.extend([start as u32, end as u32, 0, 0]);
    if end - start > leaf_size {
        let axis = if x.1 - x.0 >= y.1 - y.0 { 0 } else { 1 };
        part.sort_unstable_by(|&a, &b| of(axis, a).total_cmp(&of(axis, b)).then(a.cmp(&b)));
        let mid = start + (end - start) / 2;
        let left = build_part(points, leaf_size, start, mid, tree);
        let right = build_part(points, leaf_size, mid, end, tree);
        tree.links[4 * node as usize + 2] = left;
        tree.links[4 * node as usize + 3] = right;
    }
    node
}
