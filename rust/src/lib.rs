//! Nearest, k-nearest and radius search over points of the plane, and density labels (DBSCAN), proved; over the static
//! library of `tools/staticlib`.
//!
//! The names are those of geo's `ball_tree` and `dbscan`, for f64. What differs: nothing panics, so what geo would answer
//! wrongly or not at all is a [`Refusal`], and every call returns a `Result`. The answers are a plain scan's by the rounded
//! squared distance, the lower index first on a tie; radius hits come by rising index. [`geo`] has the original's own paths and
//! signatures, for whoever would change a `use` line and nothing else; there a refusal panics.
//!
//! ```
//! use yolthugen::{point, BallTree};
//!
//! let tree = BallTree::new(vec![point!(x: 0.0, y: 0.0), point!(x: 3.0, y: 4.0), point!(x: -3.0, y: 4.0)])?;
//! let nearest = tree.nearest_neighbour(&point!(x: 0.0, y: 4.0))?.unwrap();
//! assert_eq!((nearest.index, nearest.distance), (1, 3.0));
//! # Ok::<(), yolthugen::Refusal>(())
//! ```
mod calls;
pub mod geo;
mod labels;
mod tree;

pub use labels::Dbscan;
pub use tree::{BallTree, BallTreeBuilder, NearestNeighbour};

use std::{error, fmt};

/// A place of the plane. All calls here take f64; the parameter lets the type be written out as in geo.
#[derive(Debug, Clone, Copy, PartialEq, Default)]
pub struct Coord<T = f64> {
    pub x: T,
    pub y: T,
}

/// A point of a map, or where a query stands.
#[derive(Debug, Clone, Copy, PartialEq, Default)]
pub struct Point<T = f64>(pub Coord<T>);

impl<T> Point<T> {
    pub fn new(x: T, y: T) -> Self {
        Point(Coord { x, y })
    }

    pub fn x(self) -> T {
        self.0.x
    }

    pub fn y(self) -> T {
        self.0.y
    }
}

impl<T> From<Coord<T>> for Point<T> {
    fn from(place: Coord<T>) -> Self {
        Point(place)
    }
}

impl<T> From<(T, T)> for Point<T> {
    fn from((x, y): (T, T)) -> Self {
        Point::new(x, y)
    }
}

impl<T> From<Coord<T>> for (T, T) {
    fn from(place: Coord<T>) -> Self {
        (place.x, place.y)
    }
}

impl<T> From<Point<T>> for (T, T) {
    fn from(point: Point<T>) -> Self {
        point.0.into()
    }
}

/// `point!(x: 1.0, y: 2.0)` or `point!(1.0, 2.0)`.
#[macro_export]
macro_rules! point {
    (x: $x:expr, y: $y:expr $(,)?) => {
        $crate::Point::new($x, $y)
    };
    ($x:expr, $y:expr $(,)?) => {
        $crate::Point::new($x, $y)
    };
}

/// Why a call was refused: a number of the library's table, and its detail.
///
/// ```
/// use yolthugen::{point, BallTree};
///
/// let refused = BallTree::new(vec![point!(0.0, 0.0), point!(f64::NAN, 0.0)]).unwrap_err();
/// assert_eq!((refused.number, refused.detail), (3, 1));
/// assert_eq!(refused.to_string(), "refused by 3: point 1 is not finite");
/// ```
#[derive(Debug, Clone, Copy, PartialEq, Eq)]
pub struct Refusal {
    pub number: u32,
    pub detail: u32,
}

impl fmt::Display for Refusal {
    fn fmt(&self, f: &mut fmt::Formatter<'_>) -> fmt::Result {
        write!(f, "refused by {}: ", self.number)?;
        match self.number {
            1 => write!(f, "an odd number of coordinates"),
            2 => write!(f, "more than 1,048,576 points"),
            3 => write!(f, "point {} is not finite", self.detail),
            4 => write!(f, "a coordinate of the query is NaN or infinite"),
            5 => write!(f, "the radius or epsilon is NaN or below zero"),
            6 => write!(f, "the index slice is short: {} are needed", self.detail),
            7 => write!(f, "a node slice is short: {} nodes are needed", self.detail),
            8 => write!(f, "a result slice is short: {} are needed", self.detail),
            9 => write!(f, "the tree is damaged, or not accepted"),
            _ => write!(f, "detail {}", self.detail),
        }
    }
}

impl error::Error for Refusal {}

/// The square root, rounded correctly as IEEE 754 says.
///
/// ```
/// assert_eq!(yolthugen::root(2.0).to_bits(), 0x3FF6_A09E_667F_3BCD);
/// ```
pub fn root(x: f64) -> f64 {
    // SAFETY: takes and returns a number.
    unsafe { calls::yt_root(x) }
}

fn coordinates<P: Into<Point>>(points: impl IntoIterator<Item = P>) -> Vec<f64> {
    points.into_iter().map(Into::into).flat_map(|p| [p.x(), p.y()]).collect()
}

/// The answer, or the refusal that goes with a number.
fn answered<T>(number: u32, detail: u32, answer: T) -> Result<T, Refusal> {
    if number == 0 {
        Ok(answer)
    } else {
        Err(Refusal { number, detail })
    }
}
