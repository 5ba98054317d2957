//! This library through its C interface (include/yolthugen.h), with owned buffers of the exact size.

extern "C" {
    fn yt_node_count(n: u32, leaf_size: u32) -> u32;
    fn yt_build(points: *const f64, points_len: usize, leaf_size: u32, indices: *mut u32, indices_len: usize, boxes: *mut f64, boxes_len: usize, links: *mut u32, links_len: usize, detail: *mut u32) -> u32;
    fn yt_check(points: *const f64, points_len: usize, indices: *const u32, indices_len: usize, boxes: *const f64, boxes_len: usize, links: *const u32, links_len: usize, detail: *mut u32) -> u32;
    fn yt_nearest(points: *const f64, points_len: usize, indices: *const u32, indices_len: usize, boxes: *const f64, boxes_len: usize, links: *const u32, links_len: usize, x: f64, y: f64, index: *mut u32, distance: *mut f64, count: *mut u32) -> u32;
    fn yt_k_nearest(points: *const f64, points_len: usize, indices: *const u32, indices_len: usize, boxes: *const f64, boxes_len: usize, links: *const u32, links_len: usize, x: f64, y: f64, k: u32, out_indices: *mut u32, out_indices_len: usize, out_distances: *mut f64, out_distances_len: usize, count: *mut u32) -> u32;
    fn yt_radius(points: *const f64, points_len: usize, indices: *const u32, indices_len: usize, boxes: *const f64, boxes_len: usize, links: *const u32, links_len: usize, x: f64, y: f64, radius: f64, out_indices: *mut u32, out_indices_len: usize, out_distances: *mut f64, out_distances_len: usize, count: *mut u32) -> u32;
    fn yt_radius_indices(points: *const f64, points_len: usize, indices: *const u32, indices_len: usize, boxes: *const f64, boxes_len: usize, links: *const u32, links_len: usize, x: f64, y: f64, radius: f64, out_indices: *mut u32, out_indices_len: usize, count: *mut u32) -> u32;
    fn yt_label(points: *const f64, points_len: usize, epsilon: f64, min_samples: u32, indices: *mut u32, indices_len: usize, boxes: *mut f64, boxes_len: usize, links: *mut u32, links_len: usize, labels: *mut u32, labels_len: usize, work: *mut u32, work_len: usize, detail: *mut u32) -> u32;
}

/// A refusal's number and detail.
pub type Refusal = (u32, u32);

fn answer<T>(number: u32, detail: u32, value: T) -> Result<T, Refusal> {
    if number == 0 {
        Ok(value)
    } else {
        Err((number, detail))
    }
}

/// Points and the tree over them, and room for every point's hit.
pub struct Tree {
    pub points: Vec<f64>,
    pub indices: Vec<u32>,
    pub boxes: Vec<f64>,
    pub links: Vec<u32>,
    out_indices: Vec<u32>,
    out_distances: Vec<f64>,
}

impl Tree {
    pub fn build(points: &[f64], leaf_size: u32) -> Result<Self, Refusal> {
        let n = points.len() / 2;
        let nodes = unsafe { yt_node_count(n as u32, leaf_size) } as usize;
        let mut t = Tree { points: points.to_vec(), indices: vec![0; n], boxes: vec![0.0; 6 * nodes], links: vec![0; 4 * nodes], out_indices: vec![0; n], out_distances: vec![0.0; n] };
        let mut detail = 0;
        let number = unsafe { yt_build(t.points.as_ptr(), t.points.len(), leaf_size, t.indices.as_mut_ptr(), n, t.boxes.as_mut_ptr(), 6 * nodes, t.links.as_mut_ptr(), 4 * nodes, &mut detail) };
        answer(number, detail, t)
    }

    pub fn check(&self) -> Result<(), Refusal> {
        let mut detail = 0;
        let number = unsafe { yt_check(self.points.as_ptr(), self.points.len(), self.indices.as_ptr(), self.indices.len(), self.boxes.as_ptr(), self.boxes.len(), self.links.as_ptr(), self.links.len(), &mut detail) };
        answer(number, detail, ())
    }

    pub fn nearest(&self, x: f64, y: f64) -> Result<Option<(u32, f64)>, Refusal> {
        let (mut index, mut distance, mut count) = (0, 0.0, 0);
        let number = unsafe { yt_nearest(self.points.as_ptr(), self.points.len(), self.indices.as_ptr(), self.indices.len(), self.boxes.as_ptr(), self.boxes.len(), self.links.as_ptr(), self.links.len(), x, y, &mut index, &mut distance, &mut count) };
        answer(number, count, (count == 1).then_some((index, distance)))
    }

    fn hits(&self, number: u32, count: u32) -> Result<Vec<(u32, f64)>, Refusal> {
        let taken = if number == 0 { count as usize } else { 0 };
        answer(number, count, self.out_indices[..taken].iter().copied().zip(self.out_distances[..taken].iter().copied()).collect())
    }

    pub fn k_nearest(&mut self, x: f64, y: f64, k: u32) -> Result<Vec<(u32, f64)>, Refusal> {
        let mut count = 0;
        let number = unsafe { yt_k_nearest(self.points.as_ptr(), self.points.len(), self.indices.as_ptr(), self.indices.len(), self.boxes.as_ptr(), self.boxes.len(), self.links.as_ptr(), self.links.len(), x, y, k, self.out_indices.as_mut_ptr(), self.out_indices.len(), self.out_distances.as_mut_ptr(), self.out_distances.len(), &mut count) };
        self.hits(number, count)
    }

    pub fn radius(&mut self, x: f64, y: f64, radius: f64) -> Result<Vec<(u32, f64)>, Refusal> {
        let mut count = 0;
        let number = unsafe { yt_radius(self.points.as_ptr(), self.points.len(), self.indices.as_ptr(), self.indices.len(), self.boxes.as_ptr(), self.boxes.len(), self.links.as_ptr(), self.links.len(), x, y, radius, self.out_indices.as_mut_ptr(), self.out_indices.len(), self.out_distances.as_mut_ptr(), self.out_distances.len(), &mut count) };
        self.hits(number, count)
    }

    pub fn radius_indices(&mut self, x: f64, y: f64, radius: f64) -> Result<Vec<u32>, Refusal> {
        let mut count = 0;
        let number = unsafe { yt_radius_indices(self.points.as_ptr(), self.points.len(), self.indices.as_ptr(), self.indices.len(), self.boxes.as_ptr(), self.boxes.len(), self.links.as_ptr(), self.links.len(), x, y, radius, self.out_indices.as_mut_ptr(), self.out_indices.len(), &mut count) };
        Ok(self.hits(number, count)?.iter().map(|h| h.0).collect())
    }
}

pub fn labels(points: &[f64], epsilon: f64, min_samples: u32) -> Result<Vec<u32>, Refusal> {
    let n = points.len() / 2;
    let nodes = unsafe { yt_node_count(n as u32, 16) } as usize;
    let (mut indices, mut boxes, mut links) = (vec![0; n], vec![0.0; 6 * nodes], vec![0; 4 * nodes]);
    let (mut labels, mut work) = (vec![0; n], vec![7; 2 * n]);
    let mut detail = 0;
    let number = unsafe { yt_label(points.as_ptr(), points.len(), epsilon, min_samples, indices.as_mut_ptr(), n, boxes.as_mut_ptr(), 6 * nodes, links.as_mut_ptr(), 4 * nodes, labels.as_mut_ptr(), n, work.as_mut_ptr(), 2 * n, &mut detail) };
    answer(number, detail, labels)
}
