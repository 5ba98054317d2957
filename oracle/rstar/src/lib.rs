//! A plain scan under the names that `dbscan.rs` takes from rstar, which Debian does not have. It finds every point with
//! dx * dx + dy * dy <= the given square, as rstar's `locate_within_distance` promises, in the order of the points. The
//! labels do not depend on that order: a cluster is finished before the next is begun.

use geo_types::{CoordNum, Point};

pub mod primitives {
    pub struct GeomWithData<G, D> {
        pub(crate) geom: G,
        pub data: D,
    }

    impl<G, D> GeomWithData<G, D> {
        pub fn new(geom: G, data: D) -> Self {
            Self { geom, data }
        }
    }
}

use primitives::GeomWithData;

pub struct RTree<E> {
    elements: Vec<E>,
}

impl<T: CoordNum, D> RTree<GeomWithData<Point<T>, D>> {
    pub fn bulk_load(elements: Vec<GeomWithData<Point<T>, D>>) -> Self {
        Self { elements }
    }

    pub fn locate_within_distance(&self, at: Point<T>, squared: T) -> impl Iterator<Item = &GeomWithData<Point<T>, D>> {
        self.elements.iter().filter(move |e| {
            let dx = e.geom.x() - at.x();
            let dy = e.geom.y() - at.y();
            dx * dx + dy * dy <= squared
        })
    }
}
