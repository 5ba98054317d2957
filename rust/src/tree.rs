//! The tree and its queries, with buffers of their own.
use crate::{answered, calls, coordinates, Point, Refusal};

/// A hit: the point, its index in the order of the map, and its distance.
#[derive(Debug, Clone, Copy, PartialEq)]
pub struct NearestNeighbour {
    pub point: Point,
    pub index: usize,
    pub distance: f64,
}

/// How a tree is built: the most points of a leaf.
#[derive(Debug, Clone, Copy, PartialEq, Eq)]
pub struct BallTreeBuilder {
    leaf_size: u32,
}

impl Default for BallTreeBuilder {
    fn default() -> Self {
        Self::new()
    }
}

impl BallTreeBuilder {
    pub const DEFAULT_LEAF_SIZE: usize = 16;

    pub fn new() -> Self {
        Self::with_leaf_size(Self::DEFAULT_LEAF_SIZE)
    }

    /// 0 counts as 1.
    pub fn with_leaf_size(leaf_size: usize) -> Self {
        BallTreeBuilder { leaf_size: leaf_size.try_into().unwrap_or(u32::MAX) }
    }

    /// ```
    /// use yolthugen::{point, BallTreeBuilder};
    ///
    /// let tree = BallTreeBuilder::with_leaf_size(1).build([point!(0.0, 0.0), point!(1.0, 1.0), point!(2.0, 2.0)])?;
    /// assert_eq!(tree.len(), 3);
    /// # Ok::<(), yolthugen::Refusal>(())
    /// ```
    pub fn build<P: Into<Point>>(self, points: impl IntoIterator<Item = P>) -> Result<BallTree, Refusal> {
        let points = coordinates(points);
        let n = points.len() / 2;
        // SAFETY: takes and returns numbers.
        let nodes = unsafe { calls::yt_node_count(n.try_into().unwrap_or(u32::MAX), self.leaf_size) } as usize;
        let mut tree = BallTree { points, indices: vec![0; n], boxes: vec![0.0; 6 * nodes], links: vec![0; 4 * nodes] };
        let mut detail = 0;
        // SAFETY: four vectors of our own, none twice, each with its length; the library writes inside them.
        let number = unsafe {
            calls::yt_build(
                tree.points.as_ptr(),
                tree.points.len(),
                self.leaf_size,
                tree.indices.as_mut_ptr(),
                tree.indices.len(),
                tree.boxes.as_mut_ptr(),
                tree.boxes.len(),
                tree.links.as_mut_ptr(),
                tree.links.len(),
                &mut detail,
            )
        };
        answered(number, detail, tree)
    }
}

/// A tree over points, for repeated queries.
#[derive(Debug, Clone, PartialEq)]
pub struct BallTree {
    points: Vec<f64>,
    indices: Vec<u32>,
    boxes: Vec<f64>,
    links: Vec<u32>,
}

impl BallTree {
    /// A tree at the default leaf size.
    pub fn new<P: Into<Point>>(points: impl IntoIterator<Item = P>) -> Result<Self, Refusal> {
        BallTreeBuilder::new().build(points)
    }

    /// A tree that someone else wrote, if it is accepted: x and y in turn, indices, six floats a node, four numbers a node.
    pub fn from_parts(points: Vec<f64>, indices: Vec<u32>, boxes: Vec<f64>, links: Vec<u32>) -> Result<Self, Refusal> {
        let tree = BallTree { points, indices, boxes, links };
        let mut detail = 0;
        // SAFETY: the library only reads, inside the four vectors.
        let number = unsafe {
            calls::yt_check(
                tree.points.as_ptr(),
                tree.points.len(),
                tree.indices.as_ptr(),
                tree.indices.len(),
                tree.boxes.as_ptr(),
                tree.boxes.len(),
                tree.links.as_ptr(),
                tree.links.len(),
                &mut detail,
            )
        };
        answered(number, detail, tree)
    }

    /// The four parts, as `from_parts` takes them.
    pub fn into_parts(self) -> (Vec<f64>, Vec<u32>, Vec<f64>, Vec<u32>) {
        (self.points, self.indices, self.boxes, self.links)
    }

    pub fn len(&self) -> usize {
        self.points.len() / 2
    }

    pub fn is_empty(&self) -> bool {
        self.len() == 0
    }

    /// The nearest point; of two as near the lower index; none over an empty map.
    pub fn nearest_neighbour(&self, query: &Point) -> Result<Option<NearestNeighbour>, Refusal> {
        let (mut index, mut distance, mut count) = (0, 0.0, 0);
        // SAFETY: the library reads inside the four vectors and writes three numbers.
        let number = unsafe {
            calls::yt_nearest(
                self.points.as_ptr(),
                self.points.len(),
                self.indices.as_ptr(),
                self.indices.len(),
                self.boxes.as_ptr(),
                self.boxes.len(),
                self.links.as_ptr(),
                self.links.len(),
                query.x(),
                query.y(),
                &mut index,
                &mut distance,
                &mut count,
            )
        };
        answered(number, count, (count > 0).then(|| self.hit(index, distance)))
    }

    /// The k nearest, by distance and then by index; all where there are fewer.
    ///
    /// ```
    /// use yolthugen::{point, BallTree};
    ///
    /// let tree = BallTree::new([point!(0.0, 0.0), point!(3.0, 4.0), point!(6.0, 8.0), point!(-3.0, 4.0)])?;
    /// let hits = tree.nearest_neighbours(&point!(0.0, 4.0), 3)?;
    /// assert_eq!(hits.iter().map(|h| (h.index, h.distance)).collect::<Vec<_>>(), [(1, 3.0), (3, 3.0), (0, 4.0)]);
    /// # Ok::<(), yolthugen::Refusal>(())
    /// ```
    pub fn nearest_neighbours(&self, query: &Point, k: usize) -> Result<Vec<NearestNeighbour>, Refusal> {
        let room = k.min(self.len());
        let (mut indices, mut distances, mut count) = (vec![0; room], vec![0.0; room], 0);
        // SAFETY: the library reads inside the tree's four vectors and writes inside the two of the results.
        let number = unsafe {
            calls::yt_k_nearest(
                self.points.as_ptr(),
                self.points.len(),
                self.indices.as_ptr(),
                self.indices.len(),
                self.boxes.as_ptr(),
                self.boxes.len(),
                self.links.as_ptr(),
                self.links.len(),
                query.x(),
                query.y(),
                k.try_into().unwrap_or(u32::MAX),
                indices.as_mut_ptr(),
                room,
                distances.as_mut_ptr(),
                room,
                &mut count,
            )
        };
        self.hits(number, count, &indices, &distances)
    }

    /// Every point within the radius, by rising index.
    ///
    /// ```
    /// use yolthugen::{point, BallTree};
    ///
    /// let tree = BallTree::new([point!(0.0, 0.0), point!(3.0, 4.0), point!(6.0, 8.0), point!(-3.0, 4.0)])?;
    /// let hits = tree.within_radius(&point!(0.0, 4.0), 3.0)?;
    /// assert_eq!(hits.iter().map(|h| h.index).collect::<Vec<_>>(), [1, 3]);
    /// assert_eq!(tree.within_radius(&point!(0.0, 4.0), -1.0).unwrap_err().number, 5);
    /// # Ok::<(), yolthugen::Refusal>(())
    /// ```
    pub fn within_radius(&self, query: &Point, radius: f64) -> Result<Vec<NearestNeighbour>, Refusal> {
        let mut room = 16.min(self.len());
        loop {
            let (mut indices, mut distances, mut count) = (vec![0; room], vec![0.0; room], 0);
            // SAFETY: as in `nearest_neighbours`.
            let number = unsafe {
                calls::yt_radius(
                    self.points.as_ptr(),
                    self.points.len(),
                    self.indices.as_ptr(),
                    self.indices.len(),
                    self.boxes.as_ptr(),
                    self.boxes.len(),
                    self.links.as_ptr(),
                    self.links.len(),
                    query.x(),
                    query.y(),
                    radius,
                    indices.as_mut_ptr(),
                    room,
                    distances.as_mut_ptr(),
                    room,
                    &mut count,
                )
            };
            // Short room is refused with the number of hits, so the second call has room for all.
            if number == 8 && (count as usize) > room {
                room = count as usize;
                continue;
            }
            return self.hits(number, count, &indices, &distances);
        }
    }

    fn hit(&self, index: u32, distance: f64) -> NearestNeighbour {
        let index = index as usize;
        NearestNeighbour { point: Point::new(self.points[2 * index], self.points[2 * index + 1]), index, distance }
    }

    fn hits(&self, number: u32, count: u32, indices: &[u32], distances: &[f64]) -> Result<Vec<NearestNeighbour>, Refusal> {
        answered(number, count, ())?;
        Ok(indices.iter().zip(distances).take(count as usize).map(|(&i, &d)| self.hit(i, d)).collect())
    }
}
