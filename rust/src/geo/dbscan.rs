//! geo's `algorithm::dbscan`, for f64.
use super::or_panic;
use crate::Point;

/// DBSCAN over whatever lends its points in turn: a slice, a `Vec`, a `MultiPoint` of this crate's or of geo-types.
///
/// # Examples
///
/// ## Basic clustering with MultiPoint
///
/// ```
/// use yolthugen::geo::{Dbscan, MultiPoint, point};
///
/// let points = MultiPoint::new(vec![
///     point!(x: 0.0, y: 0.0),
///     point!(x: 1.0, y: 0.0),
///     point!(x: 0.0, y: 1.0),
///     point!(x: 10.0, y: 10.0),
///     point!(x: 11.0, y: 10.0),
///     point!(x: 10.0, y: 11.0),
/// ]);
///
/// let labels = points.dbscan(2.0, 2);
///
/// // Points 0, 1, 2 form one cluster
/// assert_eq!(labels[0], Some(0));
/// assert_eq!(labels[1], Some(0));
/// assert_eq!(labels[2], Some(0));
///
/// // Points 3, 4, 5 form another cluster
/// assert_eq!(labels[3], Some(1));
/// assert_eq!(labels[4], Some(1));
/// assert_eq!(labels[5], Some(1));
/// ```
///
/// ## Detecting noise points
///
/// ```
/// use yolthugen::geo::{Dbscan, point, Point};
///
/// let points = vec![
///     point!(x: 0.0, y: 0.0),
///     point!(x: 1.0, y: 0.0),
///     point!(x: 0.0, y: 1.0),
///     point!(x: 100.0, y: 100.0), // outlier
/// ];
///
/// let labels = points.dbscan(2.0, 2);
///
/// // First three points form a cluster
/// assert_eq!(labels[0], Some(0));
/// assert_eq!(labels[1], Some(0));
/// assert_eq!(labels[2], Some(0));
///
/// // Last point is noise
/// assert_eq!(labels[3], None);
/// ```
///
/// ## Using with a Vec of Points
///
/// ```
/// use yolthugen::geo::{Dbscan, point};
///
/// let points = vec![
///     point!(x: 0.0, y: 0.0),
///     point!(x: 1.0, y: 1.0),
///     point!(x: 1.0, y: 0.0),
///     point!(x: 0.0, y: 1.0),
/// ];
///
/// let labels = points.dbscan(1.5, 3);
///
/// // All points form a single cluster
/// assert!(labels.iter().all(|&label| label == Some(0)));
/// ```
pub trait Dbscan<T = f64> {
    /// Each point's cluster, numbered from 0 by the least core of each; `None` is noise.
    ///
    /// # Panics
    /// Over more than 1,048,576 points, where one is not finite, and where epsilon is NaN or below zero.
    fn dbscan(&self, epsilon: T, min_samples: usize) -> Vec<Option<usize>>;
}

impl<Points, P> Dbscan for Points
where
    Points: ?Sized,
    for<'a> &'a Points: IntoIterator<Item = &'a P>,
    P: Copy + Into<(f64, f64)>,
{
    #[track_caller]
    fn dbscan(&self, epsilon: f64, min_samples: usize) -> Vec<Option<usize>> {
        let points: Vec<Point> = self.into_iter().map(|&p| Point::from(p.into())).collect();
        or_panic(crate::Dbscan::dbscan(points.as_slice(), epsilon, min_samples))
    }
}
