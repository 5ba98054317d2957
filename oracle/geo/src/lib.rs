//! The surroundings that geo 0.33.1's `ball_tree.rs` and `dbscan.rs` name by `crate::`, cut down to what they use.
//! The types are Debian's geo-types (0.7.7, where `Coord` is still `Coordinate`). `GeoNum` and `GeoFloat` are those of
//! geo's lib.rs for f64, with empty stand-ins for the kernels and for `NextAfter`, which neither file calls.

use std::cmp::Ordering;

pub use geo_types::{CoordNum, Coordinate as Coord, MultiPoint, Point};

include!(concat!(env!("OUT_DIR"), "/modules.rs"));

pub use ball_tree::{BallTree, BallTreeBuilder};
pub use dbscan::Dbscan;

pub trait Kernel<T> {}
pub struct RobustKernel;
impl<T> Kernel<T> for RobustKernel {}

pub trait NextAfter {}
impl NextAfter for f64 {}

pub trait GeoNum: CoordNum {
    type Ker: Kernel<Self>;
    fn total_cmp(&self, other: &Self) -> Ordering;
}

impl GeoNum for f64 {
    type Ker = RobustKernel;
    fn total_cmp(&self, other: &Self) -> Ordering {
        self.total_cmp(other)
    }
}

pub trait GeoFloat: GeoNum + num_traits::Float + num_traits::Signed + num_traits::Bounded + NextAfter {}
impl<T> GeoFloat for T where T: GeoNum + num_traits::Float + num_traits::Signed + num_traits::Bounded + NextAfter {}
