//! Maps and questions: over the domain in which the original is exact (coordinates and queries whole, within 1,048,576;
//! radius and epsilon whole plus one half), and over any finite floats.

use crate::random::Random;

pub const EDGE: u64 = 1 << 20;

/// The kinds of map in the domain, each with what it is there for.
pub const KINDS: [&str; 10] = ["uniform", "corner", "few places", "all equal", "line x", "line y", "die grid", "sparse grid", "clusters", "edges"];

/// n points of a kind, whole and within the edge.
pub fn whole(kind: usize, n: usize, r: &mut Random) -> Vec<f64> {
    let edge = EDGE as f64;
    let side = (n as f64).sqrt().ceil().max(1.0) as u64;
    let pitch = 1 + r.below(2 * EDGE / (side + 1)).min(5000);
    let (cx, cy) = (r.whole(EDGE), r.whole(EDGE));
    let mut points = Vec::with_capacity(2 * n);
    for i in 0..n as u64 {
        let (x, y) = match KINDS[kind] {
            "uniform" => (r.whole(EDGE), r.whole(EDGE)),
            "corner" => (edge - r.below(1000) as f64, -edge + r.below(1000) as f64),
            "few places" => (r.whole(6), r.whole(6)),
            "all equal" => (cx, cy),
            "line x" => (r.whole(EDGE), cy),
            "line y" => (cx, r.whole(EDGE)),
            "die grid" => (((i % side) * pitch) as f64 - edge, ((i / side) * pitch) as f64 - edge),
            "sparse grid" => ((r.below(side + 1) * pitch) as f64 - edge, (r.below(side + 1) * pitch) as f64 - edge),
            "clusters" => {
                let c = r.below(5) as f64;
                (c * 150_000.0 - 300_000.0 + r.whole(40), c * c * 1000.0 + r.whole(40))
            }
            _ => (r.pick(&[-edge, -edge + 1.0, 0.0, edge - 1.0, edge]), r.pick(&[-edge, -edge + 1.0, 0.0, edge - 1.0, edge])),
        };
        points.extend([x.clamp(-edge, edge), y.clamp(-edge, edge)]);
    }
    if KINDS[kind] == "die grid" && r.below(2) == 0 {
        shuffle(&mut points, r);
    }
    points
}

fn shuffle(points: &mut [f64], r: &mut Random) {
    for i in (1..points.len() / 2).rev() {
        let j = r.below(i as u64 + 1) as usize;
        points.swap(2 * i, 2 * j);
        points.swap(2 * i + 1, 2 * j + 1);
    }
}

/// A whole place to ask at: a point, near one, between two, an edge, or anywhere.
pub fn whole_place(points: &[f64], r: &mut Random) -> (f64, f64) {
    let edge = EDGE as f64;
    let n = (points.len() / 2) as u64;
    let at = |i: u64| (points[2 * i as usize], points[2 * i as usize + 1]);
    let (x, y) = match r.below(if n == 0 { 2 } else { 6 }) {
        0 => (r.whole(EDGE), r.whole(EDGE)),
        1 => (r.pick(&[-edge, 0.0, edge]), r.pick(&[-edge, 0.0, edge])),
        2 => at(r.below(n)),
        3 | 4 => {
            let (x, y) = at(r.below(n));
            let reach = r.pick(&[1, 10, 1000]);
            (x + r.whole(reach), y + r.whole(reach))
        }
        _ => {
            let ((ax, ay), (bx, by)) = (at(r.below(n)), at(r.below(n)));
            (((ax + bx) / 2.0).floor(), ((ay + by) / 2.0).floor())
        }
    };
    (x.clamp(-edge, edge), y.clamp(-edge, edge))
}

/// A whole radius and a half: an end of its range, about the distance of a point from the place, or anything.
pub fn half_radius(points: &[f64], (x, y): (f64, f64), r: &mut Random) -> f64 {
    let n = (points.len() / 2) as u64;
    let whole = match r.below(if n == 0 { 3 } else { 8 }) {
        0 => 0,
        1 => EDGE,
        2 => r.below(EDGE + 1),
        3 => r.below(12),
        _ => {
            let i = r.below(n) as usize;
            (x - points[2 * i]).hypot(y - points[2 * i + 1]) as u64
        }
    };
    whole.min(EDGE) as f64 + 0.5
}

/// A finite float of some awkward sort.
pub fn any_float(sort: u64, r: &mut Random) -> f64 {
    match sort {
        0 => r.below(100) as f64 / 10.0,
        1 => r.unit(),
        2 => r.whole(50) * 1e-162,
        3 => r.whole(9) * 1e153,
        4 => r.whole(2) * 8.9e307,
        5 => r.pick(&[0.0, -0.0, 5e-324, -5e-324, 2.2250738585072014e-308, 1.0, 1.0000000000000002, f64::MAX, -f64::MAX]),
        _ => loop {
            let x = f64::from_bits(r.word());
            if x.is_finite() {
                break x;
            }
        },
    }
}

pub const SORTS: [&str; 7] = ["one decimal", "from 0 to 1", "squares below the format", "squares at its end", "sums past it", "zeros, ends, neighbours of 1", "any bits"];
