//! `yolthugen::geo`: code written for geo, over geo's own points and over this crate's; what is refused panics with its text.
use std::panic;
use yolthugen::geo::algorithm::ball_tree::{BallTree, BallTreeBuilder, NearestNeighbour};
use yolthugen::geo::{point, Coord, Dbscan, MultiPoint, Point};

/// Points that convert as those of geo-types do.
mod geo_types {
    #[derive(Debug, Clone, Copy, PartialEq)]
    pub struct Point<T = f64>(pub T, pub T);

    impl<T> From<(T, T)> for Point<T> {
        fn from((x, y): (T, T)) -> Self {
            Point(x, y)
        }
    }

    impl<T> From<Point<T>> for (T, T) {
        fn from(p: Point<T>) -> Self {
            (p.0, p.1)
        }
    }
}

/// Types written out, as a user of geo may have them.
struct Map {
    tree: BallTree<f64>,
}

impl Map {
    fn within(&self, place: &Point<f64>, radius: f64) -> Vec<NearestNeighbour<'_, f64, ()>> {
        self.tree.within_radius(place, radius)
    }
}

fn labels<C: Dbscan<f64>>(points: &C) -> Vec<Option<usize>> {
    points.dbscan(2.0, 2)
}

#[test]
fn own_points() {
    let points: Vec<Point<f64>> = vec![point!(x: 0.0, y: 0.0), point!(x: 3.0, y: 4.0), point!(x: 6.0, y: 8.0), point!(x: -3.0, y: 4.0)];
    let map = Map { tree: BallTreeBuilder::new().leaf_size(1).build(points.clone()) };
    let hits: Vec<_> = map.tree.nearest_neighbours(&point!(x: 0.0, y: 4.0), 3).iter().map(|h| (h.index, h.distance)).collect();
    assert_eq!(hits, [(1, 3.0), (3, 3.0), (0, 4.0)]);
    let hits: Vec<_> = map.within(&Point::new(0.0, 4.0), 3.0).iter().map(|h| (h.point.x(), h.index)).collect();
    assert_eq!(hits, [(3.0, 1), (-3.0, 3)]);
    let coords: BallTree<f64, ()> = BallTree::new(points.iter().map(|p| Coord { x: p.x(), y: p.y() }));
    assert_eq!(coords.nearest_neighbour(&points[2]).unwrap().point, points[2]);
    let all = MultiPoint::from(points.clone());
    assert_eq!(BallTree::new(all.clone()).len(), 4);
    assert_eq!(labels(&all), [None; 4]);
    assert_eq!(points[..1].dbscan(0.0, 1), [Some(0)]);
    let none: BallTree<f64> = BallTree::new(Vec::<Point<f64>>::new());
    assert!(none.is_empty() && none.nearest_neighbour(&points[0]).is_none() && none.within_radius(&points[0], 1.0).is_empty());
}

#[test]
fn points_of_geo_types() {
    let points = [(0.0, 0.0), (1.0, 0.0), (0.0, 1.0), (100.0, 100.0)].map(geo_types::Point::from).to_vec();
    let tree = BallTree::new(points.clone());
    assert_eq!(tree.nearest_neighbour(&geo_types::Point(90.0, 0.5)).unwrap().point, points[1]);
    assert_eq!(tree.within_radius(&points[0], 1.0).iter().map(|h| h.point).collect::<Vec<_>>(), points[..3]);
    assert_eq!(labels(&points), [Some(0), Some(0), Some(0), None]);
}

#[test]
fn refusals_panic() {
    let said = |call: &dyn Fn() -> usize| *panic::catch_unwind(panic::AssertUnwindSafe(call)).unwrap_err().downcast::<String>().unwrap();
    let tree = BallTree::new(vec![point!(x: 0.0, y: 0.0)]);
    let (here, nowhere) = (point!(x: 0.0, y: 0.0), point!(x: 0.0, y: f64::NAN));
    let not_finite = "refused by 4: a coordinate of the query is NaN or infinite";
    let below_zero = "refused by 5: the radius or epsilon is NaN or below zero";
    assert_eq!(said(&|| BallTree::new([here, nowhere]).len()), "refused by 3: point 1 is not finite");
    assert_eq!(said(&|| BallTree::new(vec![here; 1_048_577]).len()), "refused by 2: more than 1,048,576 points");
    assert_eq!(said(&|| tree.nearest_neighbour(&nowhere).iter().len()), not_finite);
    assert_eq!(said(&|| tree.nearest_neighbours(&nowhere, 1).len()), not_finite);
    assert_eq!(said(&|| tree.within_radius(&nowhere, 1.0).len()), not_finite);
    assert_eq!(said(&|| tree.within_radius(&here, -1.0).len()), below_zero);
    assert_eq!(said(&|| vec![here].dbscan(-1.0, 1).len()), below_zero);
}
