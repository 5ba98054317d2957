//! The crate beside a plain scan written here: every answer, ties included; every refusal that a caller can meet.
use yolthugen::{point, root, BallTree, BallTreeBuilder, Dbscan, Point};

/// Numbers that look random, the same on each run.
struct Numbers(u64);

impl Numbers {
    fn below(&mut self, n: u64) -> u64 {
        self.0 ^= self.0 << 13;
        self.0 ^= self.0 >> 7;
        self.0 ^= self.0 << 17;
        self.0 % n
    }

    fn map(&mut self, n: usize, side: u64) -> Vec<Point> {
        (0..n).map(|_| point!(self.below(side) as f64 / 4.0, self.below(side) as f64 / 4.0)).collect()
    }
}

fn d2(a: &Point, b: &Point) -> f64 {
    let (dx, dy) = (a.x() - b.x(), a.y() - b.y());
    dx * dx + dy * dy
}

fn by_distance(points: &[Point], q: &Point) -> Vec<(usize, f64)> {
    let mut all: Vec<_> = points.iter().enumerate().map(|(i, p)| (i, d2(q, p))).collect();
    all.sort_by(|a, b| a.1.total_cmp(&b.1).then(a.0.cmp(&b.0)));
    all
}

#[test]
fn queries_are_the_scan() {
    let mut numbers = Numbers(0x9E37_79B9_7F4A_7C15);
    for n in [0, 1, 2, 3, 16, 17, 33, 100, 500] {
        let points = numbers.map(n, 40);
        for leaf_size in [0, 1, 5, 16, 1000] {
            let tree = BallTreeBuilder::with_leaf_size(leaf_size).build(points.iter().copied()).unwrap();
            assert_eq!(tree.len(), n);
            for q in numbers.map(20, 44) {
                let sorted = by_distance(&points, &q);
                let nearest = tree.nearest_neighbour(&q).unwrap().map(|h| (h.index, h.distance));
                assert_eq!(nearest, sorted.first().map(|&(i, d)| (i, d.sqrt())));
                for k in [0, 1, 8, n, usize::MAX] {
                    let hits: Vec<_> = tree.nearest_neighbours(&q, k).unwrap().iter().map(|h| (h.index, h.distance)).collect();
                    let scan: Vec<_> = sorted.iter().take(k).map(|&(i, d)| (i, d.sqrt())).collect();
                    assert_eq!(hits, scan);
                }
                for radius in [0.0, -0.0, 0.25, 2.0, f64::INFINITY] {
                    let hits: Vec<_> = tree.within_radius(&q, radius).unwrap().iter().map(|h| h.index).collect();
                    let scan: Vec<_> = (0..n).filter(|&i| d2(&q, &points[i]) <= radius * radius).collect();
                    assert_eq!(hits, scan);
                }
            }
        }
    }
}

#[test]
fn labels_join_cores_and_leave_noise() {
    let line = |xs: &[f64]| xs.iter().map(|&x| point!(x, 0.0)).collect::<Vec<_>>();
    let two = line(&[0.0, 1.0, 1.5, 2.0, -1.0, -1.5, -2.0]);
    assert_eq!(two.dbscan(1.0, 4).unwrap(), [0, 0, 0, 0, 1, 1, 1].map(Some));
    assert_eq!(two.dbscan(1.0, 0).unwrap(), [None; 7]);
    assert_eq!(two.dbscan(1.0, 8).unwrap(), [None; 7]);
    assert_eq!(Vec::<Point>::new().dbscan(1.0, 1).unwrap(), []);
}

#[test]
fn bad_input_is_refused() {
    let number = |r: Result<Vec<Option<usize>>, yolthugen::Refusal>| r.unwrap_err().number;
    let tree = BallTree::new([(0.0, 0.0), (1.0, 0.0)]).unwrap();
    assert_eq!(tree.nearest_neighbour(&point!(f64::NAN, 0.0)).unwrap_err().number, 4);
    assert_eq!(tree.nearest_neighbours(&point!(0.0, f64::INFINITY), 1).unwrap_err().number, 4);
    assert_eq!(tree.within_radius(&point!(0.0, 0.0), f64::NAN).unwrap_err().number, 5);
    assert_eq!(number(vec![point!(0.0, 0.0)].dbscan(-1.0, 1)), 5);
    let refused = BallTree::new([(0.0, 0.0), (0.0, 1.0), (0.0, f64::INFINITY)]).unwrap_err();
    assert_eq!((refused.number, refused.detail), (3, 2));
    assert_eq!(BallTree::new((0..1_048_577).map(|i| (i as f64, 0.0))).unwrap_err().number, 2);
}

#[test]
fn trees_from_elsewhere_are_checked() {
    let (points, indices, boxes, links) =
        BallTreeBuilder::with_leaf_size(1).build([(0.0, 0.0), (3.0, 4.0), (6.0, 8.0)]).unwrap().into_parts();
    assert!(BallTree::from_parts(points.clone(), indices.clone(), boxes.clone(), links.clone()).is_ok());
    for at in 0..links.len() {
        let mut damaged = links.clone();
        damaged[at] += 1;
        let refused = BallTree::from_parts(points.clone(), indices.clone(), boxes.clone(), damaged).unwrap_err();
        assert_eq!(refused.number, 9, "link {at}");
    }
    let twice = vec![indices[0]; indices.len()];
    assert_eq!(
        BallTree::from_parts(points, twice, boxes, links).unwrap_err().to_string(),
        "refused by 9: the tree is damaged, or not accepted"
    );
}

#[test]
fn roots_are_rounded_correctly() {
    let mut numbers = Numbers(1);
    for _ in 0..100_000 {
        let x = f64::from_bits(numbers.below(u64::MAX) >> 1);
        assert!(root(x).to_bits() == x.sqrt().to_bits() || x.is_nan() && root(x).is_nan(), "{x:e}");
    }
}
