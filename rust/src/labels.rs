//! Labels by density.
use crate::{answered, calls, coordinates, Point, Refusal};

const NOISE: u32 = u32::MAX;
const LEAF_SIZE: u32 = 16;

/// DBSCAN: each point's cluster, numbered from 0 by the least core of each; `None` is noise.
///
/// ```
/// use yolthugen::{point, Dbscan};
///
/// let points = vec![point!(0.0, 0.0), point!(1.0, 0.0), point!(0.0, 1.0), point!(100.0, 100.0)];
/// assert_eq!(points.dbscan(2.0, 2)?, [Some(0), Some(0), Some(0), None]);
/// # Ok::<(), yolthugen::Refusal>(())
/// ```
pub trait Dbscan {
    fn dbscan(&self, epsilon: f64, min_samples: usize) -> Result<Vec<Option<usize>>, Refusal>;
}

impl Dbscan for [Point] {
    fn dbscan(&self, epsilon: f64, min_samples: usize) -> Result<Vec<Option<usize>>, Refusal> {
        let points = coordinates(self.iter().copied());
        let n = self.len();
        // SAFETY: takes and returns numbers.
        let nodes = unsafe { calls::yt_node_count(n.try_into().unwrap_or(u32::MAX), LEAF_SIZE) } as usize;
        let (mut indices, mut boxes, mut links) = (vec![0; n], vec![0.0; 6 * nodes], vec![0; 4 * nodes]);
        let (mut labels, mut work, mut detail) = (vec![NOISE; n], vec![0; 2 * n], 0);
        // SAFETY: six vectors of our own, none twice, each with its length; the library reads and writes inside them.
        let number = unsafe {
            calls::yt_label(
                points.as_ptr(),
                points.len(),
                epsilon,
                min_samples.try_into().unwrap_or(u32::MAX),
                indices.as_mut_ptr(),
                n,
                boxes.as_mut_ptr(),
                boxes.len(),
                links.as_mut_ptr(),
                links.len(),
                labels.as_mut_ptr(),
                n,
                work.as_mut_ptr(),
                2 * n,
                &mut detail,
            )
        };
        answered(number, detail, labels.into_iter().map(|l| (l != NOISE).then_some(l as usize)).collect())
    }
}

impl Dbscan for Vec<Point> {
    fn dbscan(&self, epsilon: f64, min_samples: usize) -> Result<Vec<Option<usize>>, Refusal> {
        self.as_slice().dbscan(epsilon, min_samples)
    }
}
