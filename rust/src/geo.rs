//! geo's `ball_tree` and `dbscan` under their own paths and signatures, for f64: `use geo::..` becomes `use yolthugen::geo::..`,
//! and the rest of the code stays as it is.
//!
//! - Points are geo-types' own, or this crate's: whatever turns into a pair of f64 goes in, and a hit's point comes back in the
//!   type of the query.
//! - The answers are those of [`crate::BallTree`] and [`crate::Dbscan`]: where they differ from geo's, geo's rest on a rounding
//!   or on the order of the map. Radius hits come by rising index.
//! - What those refuse panics here, with the text of the [`Refusal`]: a point or a query that is not finite, a radius or an
//!   epsilon that is NaN or below zero (geo answers these, squaring what is below zero), and more than 1,048,576 points.
//! - Not here: f32, data carried with a point (`PointWithData`: the hit's index serves), and the trait `BallTreePoint`.
pub mod ball_tree;
pub mod dbscan;

/// As in geo, both modules can be had under `algorithm` as well.
pub mod algorithm {
    pub use super::{ball_tree, dbscan, Dbscan};
}

pub use crate::{point, Coord, Point};
pub use dbscan::Dbscan;

use crate::Refusal;
use std::{slice, vec};

/// Points in a row.
#[derive(Debug, Clone, PartialEq, Default)]
pub struct MultiPoint<T = f64>(pub Vec<Point<T>>);

impl<T> MultiPoint<T> {
    pub fn new(points: Vec<Point<T>>) -> Self {
        MultiPoint(points)
    }
}

impl<T, P: Into<Point<T>>> From<Vec<P>> for MultiPoint<T> {
    fn from(points: Vec<P>) -> Self {
        points.into_iter().collect()
    }
}

impl<T, P: Into<Point<T>>> FromIterator<P> for MultiPoint<T> {
    fn from_iter<I: IntoIterator<Item = P>>(points: I) -> Self {
        MultiPoint(points.into_iter().map(Into::into).collect())
    }
}

impl<T> IntoIterator for MultiPoint<T> {
    type Item = Point<T>;
    type IntoIter = vec::IntoIter<Point<T>>;

    fn into_iter(self) -> Self::IntoIter {
        self.0.into_iter()
    }
}

impl<'a, T> IntoIterator for &'a MultiPoint<T> {
    type Item = &'a Point<T>;
    type IntoIter = slice::Iter<'a, Point<T>>;

    fn into_iter(self) -> Self::IntoIter {
        self.0.iter()
    }
}

#[track_caller]
fn or_panic<A>(answer: Result<A, Refusal>) -> A {
    match answer {
        Ok(answer) => answer,
        Err(refusal) => panic!("{refusal}"),
    }
}
