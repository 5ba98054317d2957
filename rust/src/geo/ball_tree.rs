//! geo's `algorithm::ball_tree`, for f64 points that carry no data.
//!
//! ```
//! use yolthugen::geo::point;
//! use yolthugen::geo::algorithm::ball_tree::BallTree;
//!
//! let tree = BallTree::new(vec![
//!     point!(x: 0.0, y: 0.0),
//!     point!(x: 1.0, y: 1.0),
//!     point!(x: 2.0, y: 2.0),
//! ]);
//! let nearest = tree.nearest_neighbour(&point!(x: 0.1, y: 0.1)).unwrap();
//! assert_eq!(nearest.point, point!(x: 0.0, y: 0.0));
//! ```
//!
//! To tune the leaf size, use [`BallTreeBuilder`]:
//!
//! ```
//! use yolthugen::geo::point;
//! use yolthugen::geo::algorithm::ball_tree::BallTreeBuilder;
//!
//! let tree = BallTreeBuilder::with_leaf_size(16).build(vec![
//!     point!(x: 0.0, y: 0.0),
//!     point!(x: 1.0, y: 1.0),
//!     point!(x: 2.0, y: 2.0),
//! ]);
//! ```
use super::or_panic;
use crate::Point;
use std::marker::PhantomData;

/// A hit: the point in the query's type, its index in the order of the map, and its distance.
#[derive(Debug, Clone)]
pub struct NearestNeighbour<'a, T = f64, D = (), P = Point<T>> {
    pub point: P,
    pub data: &'a D,
    pub index: usize,
    pub distance: T,
}

/// A tree over points, for repeated queries. The parameters are geo's, and are always f64 and ().
#[derive(Debug, Clone)]
pub struct BallTree<T = f64, D = ()> {
    tree: crate::BallTree,
    data: D,
    number: PhantomData<T>,
}

impl BallTree {
    /// ```
    /// use yolthugen::geo::point;
    /// use yolthugen::geo::algorithm::ball_tree::BallTree;
    ///
    /// let tree = BallTree::new(vec![
    ///     point!(x: 0.0, y: 0.0),
    ///     point!(x: 1.0, y: 1.0),
    /// ]);
    /// assert_eq!(tree.len(), 2);
    /// ```
    ///
    /// To configure the leaf size, use [`BallTreeBuilder`] instead.
    ///
    /// # Panics
    /// Over more than 1,048,576 points, and where one is not finite.
    #[track_caller]
    pub fn new<I, P>(items: I) -> Self
    where
        I: IntoIterator<Item = P>,
        P: Into<(f64, f64)>,
    {
        BallTreeBuilder::new().build(items)
    }

    pub fn len(&self) -> usize {
        self.tree.len()
    }

    pub fn is_empty(&self) -> bool {
        self.tree.is_empty()
    }

    /// The nearest point; of two as near the lower index; none over an empty map.
    ///
    /// # Panics
    /// Where the query is not finite.
    #[track_caller]
    pub fn nearest_neighbour<P>(&self, query: &P) -> Option<NearestNeighbour<'_, f64, (), P>>
    where
        P: Copy + Into<(f64, f64)> + From<(f64, f64)>,
    {
        or_panic(self.tree.nearest_neighbour(&place(query))).map(|hit| self.hit(hit))
    }

    /// The k nearest, by distance and then by index; all where there are fewer.
    ///
    /// # Panics
    /// Where the query is not finite.
    #[track_caller]
    pub fn nearest_neighbours<P>(&self, query: &P, k: usize) -> Vec<NearestNeighbour<'_, f64, (), P>>
    where
        P: Copy + Into<(f64, f64)> + From<(f64, f64)>,
    {
        or_panic(self.tree.nearest_neighbours(&place(query), k)).into_iter().map(|hit| self.hit(hit)).collect()
    }

    /// Every point within the radius, by rising index.
    ///
    /// # Panics
    /// Where the query is not finite, or the radius is NaN or below zero.
    #[track_caller]
    pub fn within_radius<P>(&self, query: &P, radius: f64) -> Vec<NearestNeighbour<'_, f64, (), P>>
    where
        P: Copy + Into<(f64, f64)> + From<(f64, f64)>,
    {
        or_panic(self.tree.within_radius(&place(query), radius)).into_iter().map(|hit| self.hit(hit)).collect()
    }

    fn hit<P: From<(f64, f64)>>(&self, hit: crate::NearestNeighbour) -> NearestNeighbour<'_, f64, (), P> {
        let place: (f64, f64) = hit.point.into();
        NearestNeighbour { point: place.into(), data: &self.data, index: hit.index, distance: hit.distance }
    }
}

fn place<P: Copy + Into<(f64, f64)>>(query: &P) -> Point {
    let place: (f64, f64) = (*query).into();
    place.into()
}

/// How a tree is built: the most points of a leaf, of which 0 counts as 1.
#[derive(Default)]
pub struct BallTreeBuilder(crate::BallTreeBuilder);

impl BallTreeBuilder {
    pub fn new() -> Self {
        Self::default()
    }

    pub fn with_leaf_size(size: usize) -> Self {
        BallTreeBuilder(crate::BallTreeBuilder::with_leaf_size(size))
    }

    pub fn leaf_size(self, size: usize) -> Self {
        Self::with_leaf_size(size)
    }

    /// # Panics
    /// Over more than 1,048,576 points, and where one is not finite.
    #[track_caller]
    pub fn build<I, P>(self, items: I) -> BallTree
    where
        I: IntoIterator<Item = P>,
        P: Into<(f64, f64)>,
    {
        let tree = or_panic(self.0.build(items.into_iter().map(Into::<(f64, f64)>::into)));
        BallTree { tree, data: (), number: PhantomData }
    }
}
