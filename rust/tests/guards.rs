//! The library's C functions called from Rust, every buffer between guard cells: exact sizes, one short of each, every refusal,
//! damaged trees, and answers beside a plain scan. What a call may leave of a buffer is looked at after each call.
#[path = "../src/calls.rs"]
mod calls;
use yolthugen as _; // links the library

extern "C" {
    fn yt_radius_indices(
        points: *const f64, points_len: usize, indices: *const u32, indices_len: usize, boxes: *const f64, boxes_len: usize,
        links: *const u32, links_len: usize, x: f64, y: f64, radius: f64, out_indices: *mut u32, out_indices_len: usize, count: *mut u32,
    ) -> u32;
}

const NOISE: u32 = u32::MAX;
const MAX_POINTS: usize = 1_048_576;

// ---- buffers between guard cells

const GUARD: usize = 16;

trait Cell: Copy {
    fn pattern() -> Self;
    fn bits(self) -> u64;
}

impl Cell for u32 {
    fn pattern() -> Self {
        0xA5A5_A5A5
    }
    fn bits(self) -> u64 {
        self.into()
    }
}

impl Cell for f64 {
    fn pattern() -> Self {
        f64::from_bits(0xA5A5_A5A5_A5A5_A5A5)
    }
    fn bits(self) -> u64 {
        self.to_bits()
    }
}

fn same<T: Cell>(a: &[T], b: &[T]) -> bool {
    a.len() == b.len() && a.iter().zip(b).all(|(p, q)| p.bits() == q.bits())
}

/// Values with guard cells before and after them, and a copy of them all from before the call.
#[derive(Clone)]
struct Lent<T> {
    cells: Vec<T>,
    before: Vec<T>,
}

impl<T: Cell> Lent<T> {
    fn of(values: &[T]) -> Self {
        let guard = [T::pattern(); GUARD];
        let cells = [&guard, values, &guard].concat();
        Lent { before: cells.clone(), cells }
    }

    fn room(len: usize) -> Self {
        Lent::of(&vec![T::pattern(); len])
    }

    fn len(&self) -> usize {
        self.cells.len() - 2 * GUARD
    }

    fn values(&self) -> &[T] {
        &self.cells[GUARD..GUARD + self.len()]
    }

    fn values_mut(&mut self) -> &mut [T] {
        let len = self.len();
        &mut self.cells[GUARD..GUARD + len]
    }

    fn ptr(&self) -> *const T {
        self.values().as_ptr()
    }

    fn lend(&mut self) -> *mut T {
        self.before.clone_from(&self.cells);
        // From the whole, so that a write past the values would be one into a guard.
        unsafe { self.cells.as_mut_ptr().add(GUARD) }
    }

    /// Nothing was written but the first `count` values.
    fn kept_past(&self, count: usize) -> bool {
        let to = GUARD + count.min(self.len());
        same(&self.cells[..GUARD], &self.before[..GUARD]) && same(&self.cells[to..], &self.before[to..])
    }

    fn all_zero(&self) -> bool {
        self.kept_past(self.len()) && self.values().iter().all(|v| v.bits() == 0)
    }
}

// ---- the calls, each with what it may leave of every buffer

#[derive(Clone)]
struct Tree {
    points: Lent<f64>,
    indices: Lent<u32>,
    boxes: Lent<f64>,
    links: Lent<u32>,
}

/// The number, the count or detail, and the result slices.
struct Answer {
    number: u32,
    count: u32,
    indices: Lent<u32>,
    distances: Lent<f64>,
}

fn nodes(n: usize, leaf_size: usize) -> usize {
    match n {
        0 => 0,
        _ if n <= leaf_size.max(1) => 1,
        _ => 1 + nodes(n / 2, leaf_size) + nodes(n - n / 2, leaf_size),
    }
}

/// The arguments of a tree that is only read.
macro_rules! read {
    ($t:expr) => {
        (
            $t.points.ptr(),
            $t.points.len(),
            $t.indices.ptr(),
            $t.indices.len(),
            $t.boxes.ptr(),
            $t.boxes.len(),
            $t.links.ptr(),
            $t.links.len(),
        )
    };
}

impl Tree {
    fn room(points: &[f64], indices: usize, boxes: usize, links: usize) -> Tree {
        Tree { points: Lent::of(points), indices: Lent::room(indices), boxes: Lent::room(boxes), links: Lent::room(links) }
    }

    /// Buffers of the exact sizes, and the tree built in them.
    fn exact(points: &[f64], leaf_size: usize) -> Tree {
        let (n, c) = (points.len() / 2, nodes(points.len() / 2, leaf_size));
        let mut t = Tree::room(points, n, 6 * c, 4 * c);
        assert_eq!(t.build(leaf_size), (0, 0));
        t
    }

    fn n(&self) -> usize {
        self.points.len() / 2
    }

    fn kept(&self) -> bool {
        self.kept_past(0, 0)
    }

    fn same_cells(&self, other: &Tree) -> bool {
        same(&self.points.cells, &other.points.cells)
            && same(&self.indices.cells, &other.indices.cells)
            && same(&self.boxes.cells, &other.boxes.cells)
            && same(&self.links.cells, &other.links.cells)
    }

    fn kept_past(&self, n: usize, c: usize) -> bool {
        self.points.kept_past(0) && self.indices.kept_past(n) && self.boxes.kept_past(6 * c) && self.links.kept_past(4 * c)
    }

    fn build(&mut self, leaf_size: usize) -> (u32, u32) {
        let mut detail = Lent::<u32>::room(1);
        let (ni, nb, nl) = (self.indices.len(), self.boxes.len(), self.links.len());
        let (i, b, l) = (self.indices.lend(), self.boxes.lend(), self.links.lend());
        let number = unsafe { calls::yt_build(self.points.ptr(), self.points.len(), leaf_size as u32, i, ni, b, nb, l, nl, detail.lend()) };
        assert!(detail.kept_past(1));
        if number == 0 {
            assert!(self.kept_past(self.n(), nodes(self.n(), leaf_size)) && self.accepted());
        } else {
            assert!(self.kept());
        }
        (number, detail.values()[0])
    }

    fn check(&self) -> (u32, u32) {
        let mut detail = Lent::<u32>::room(1);
        let tree = self.clone();
        let (p, np, i, ni, b, nb, l, nl) = read!(self);
        let number = unsafe { calls::yt_check(p, np, i, ni, b, nb, l, nl, detail.lend()) };
        assert!(detail.kept_past(1) && self.same_cells(&tree));
        (number, detail.values()[0])
    }

    fn label(&mut self, epsilon: f64, min_samples: usize, labels: usize, work: usize) -> (u32, u32, Vec<u32>) {
        let (mut out, mut work, mut detail) = (Lent::<u32>::room(labels), Lent::<u32>::room(work), Lent::<u32>::room(1));
        let (n, ni, nb, nl, nw) = (self.n(), self.indices.len(), self.boxes.len(), self.links.len(), work.len());
        let (i, b, l) = (self.indices.lend(), self.boxes.lend(), self.links.lend());
        let number = unsafe {
            calls::yt_label(
                self.points.ptr(),
                self.points.len(),
                epsilon,
                min_samples as u32,
                i,
                ni,
                b,
                nb,
                l,
                nl,
                out.lend(),
                labels,
                work.lend(),
                nw,
                detail.lend(),
            )
        };
        assert!(detail.kept_past(1));
        let grown = number == 0 && min_samples >= 1 && min_samples <= n;
        assert!(out.kept_past(if number == 0 { n } else { 0 }) && work.kept_past(if grown { 2 * n } else { 0 }));
        if grown {
            assert!(self.kept_past(n, nodes(n, 16)) && self.accepted() && work.values()[..2 * n].iter().all(|&w| w == 0));
        } else {
            assert!(self.kept());
        }
        (number, detail.values()[0], out.values().to_vec())
    }

    /// Calls a query with result slices of these lengths, and looks at what it left of them.
    fn ask(&self, room: (usize, usize), call: impl FnOnce(*mut u32, *mut f64, *mut u32) -> u32) -> Answer {
        let (mut indices, mut distances, mut count) = (Lent::room(room.0), Lent::room(room.1), Lent::<u32>::room(1));
        let tree = self.clone();
        let number = call(indices.lend(), distances.lend(), count.lend());
        assert!(count.kept_past(1) && self.same_cells(&tree));
        let count = count.values()[0];
        match number {
            0 => assert!(indices.kept_past(count as usize) && distances.kept_past(count as usize)),
            9 => assert!(count == 0 && indices.all_zero() && distances.all_zero()),
            _ => assert!(indices.kept_past(0) && distances.kept_past(0)),
        }
        Answer { number, count, indices, distances }
    }

    fn nearest(&self, x: f64, y: f64) -> Answer {
        let (p, np, i, ni, b, nb, l, nl) = read!(self);
        self.ask((1, 1), |oi, od, c| unsafe { calls::yt_nearest(p, np, i, ni, b, nb, l, nl, x, y, oi, od, c) })
    }

    fn k_nearest(&self, x: f64, y: f64, k: usize, room: (usize, usize)) -> Answer {
        let (p, np, i, ni, b, nb, l, nl) = read!(self);
        self.ask(room, |oi, od, c| unsafe { calls::yt_k_nearest(p, np, i, ni, b, nb, l, nl, x, y, k as u32, oi, room.0, od, room.1, c) })
    }

    fn radius(&self, x: f64, y: f64, r: f64, room: (usize, usize)) -> Answer {
        let (p, np, i, ni, b, nb, l, nl) = read!(self);
        self.ask(room, |oi, od, c| unsafe { calls::yt_radius(p, np, i, ni, b, nb, l, nl, x, y, r, oi, room.0, od, room.1, c) })
    }

    fn radius_indices(&self, x: f64, y: f64, r: f64, room: usize) -> Answer {
        let (p, np, i, ni, b, nb, l, nl) = read!(self);
        self.ask((room, 0), |oi, _, c| unsafe { yt_radius_indices(p, np, i, ni, b, nb, l, nl, x, y, r, oi, room, c) })
    }
}

// ---- what is right, without the library

impl Tree {
    fn d2(&self, i: usize, x: f64, y: f64) -> f64 {
        let p = self.points.values();
        let (dx, dy) = (x - p[2 * i], y - p[2 * i + 1]);
        dx * dx + dy * dy
    }

    /// All points, the nearest first.
    fn ranked(&self, x: f64, y: f64) -> Vec<(usize, f64)> {
        let mut all: Vec<_> = (0..self.n()).map(|i| (i, self.d2(i, x, y))).collect();
        all.sort_by(|a, b| a.1.total_cmp(&b.1).then(a.0.cmp(&b.0)));
        all
    }

    fn part_accepted(&self, node: usize, start: usize, end: usize) -> bool {
        let (points, indices) = (self.points.values(), self.indices.values());
        let Some(&[_, _, min_x, max_x, min_y, max_y]) = self.boxes.values().chunks_exact(6).nth(node) else { return false };
        let Some(&[s, e, left, right]) = self.links.values().chunks_exact(4).nth(node) else { return false };
        let inside = |&i: &u32| {
            let (x, y) = (points[2 * i as usize], points[2 * i as usize + 1]);
            min_x <= x && x <= max_x && min_y <= y && y <= max_y
        };
        if (s as usize, e as usize) != (start, end) || start >= end || (left == 0) != (right == 0) {
            return false;
        }
        if ![min_x, max_x, min_y, max_y].iter().all(|v| v.is_finite()) || !indices[start..end].iter().all(inside) {
            return false;
        }
        let middle = start + (end - start) / 2;
        left == 0 || self.part_accepted(left as usize, start, middle) && self.part_accepted(right as usize, middle, end)
    }

    /// The definition of an accepted tree, over finite points.
    fn accepted(&self) -> bool {
        let n = self.n();
        let Some(first) = self.indices.values().get(..n) else { return false };
        let mut seen = vec![false; n];
        n == 0 || first.iter().all(|&i| (i as usize) < n && !std::mem::replace(&mut seen[i as usize], true)) && self.part_accepted(0, 0, n)
    }

    /// An answer whose due hits are `want`: over an accepted tree just these, else 9, 8 or hits at their own distances.
    fn holds(&self, a: &Answer, x: f64, y: f64, room: usize, want: &[usize]) {
        if self.accepted() {
            assert_eq!((a.number, a.count as usize), (if want.len() > room { 8 } else { 0 }, want.len()));
        }
        assert!(matches!(a.number, 0 | 8 | 9));
        if a.number != 0 {
            return;
        }
        for (k, &i) in a.indices.values()[..a.count as usize].iter().enumerate() {
            let i = i as usize;
            assert!(i < self.n());
            if let Some(d) = a.distances.values().get(k) {
                assert_eq!(d.to_bits(), self.d2(i, x, y).sqrt().to_bits());
            }
            if self.accepted() {
                assert_eq!(i, want[k]);
            }
        }
    }

    /// Every query at a place: with the exact room, with more, and one short in each slice.
    fn answers_hold(&self, x: f64, y: f64) {
        let ranked = self.ranked(x, y);
        let order: Vec<_> = ranked.iter().map(|&(i, _)| i).collect();
        let rooms = |due: usize| match due {
            0 => vec![(0, 0), (2, 1)],
            _ => vec![(due, due), (due + 1, due + 3), (due - 1, due), (due, due - 1)],
        };
        self.holds(&self.nearest(x, y), x, y, 1, &order[..self.n().min(1)]);
        for k in [0, 1, 2, 8, self.n(), self.n() + 1] {
            let due = k.min(self.n());
            for room in rooms(due) {
                self.holds(&self.k_nearest(x, y, k, room), x, y, room.0.min(room.1), &order[..due]);
            }
        }
        for r in [0.0, -0.0, 1.5, ranked.get(self.n() / 2).map_or(2.0, |h| h.1.sqrt()), f64::INFINITY] {
            let due: Vec<_> = (0..self.n()).filter(|&i| self.d2(i, x, y) <= r * r).collect();
            for room in rooms(due.len()) {
                self.holds(&self.radius(x, y, r, room), x, y, room.0.min(room.1), &due);
                self.holds(&self.radius_indices(x, y, r, room.0), x, y, room.0, &due);
            }
        }
    }

    /// Labels by the definition: the least core of each chain of cores, then numbers, then the points around them.
    fn labels_by_definition(&self, epsilon: f64, min_samples: usize) -> Vec<u32> {
        let (n, p) = (self.n(), self.points.values());
        let near = |i: usize, j: usize| self.d2(j, p[2 * i], p[2 * i + 1]) <= epsilon * epsilon;
        let samples = |i: usize| (0..n).filter(|&j| near(i, j)).count();
        let core: Vec<_> = (0..n).map(|i| min_samples >= 1 && min_samples <= n && samples(i) >= min_samples).collect();
        let mut least: Vec<_> = (0..n).collect();
        let mut again = true;
        while std::mem::take(&mut again) {
            for (i, j) in (0..n).flat_map(|i| (0..n).map(move |j| (i, j))) {
                if core[i] && core[j] && least[j] < least[i] && near(i, j) {
                    (least[i], again) = (least[j], true);
                }
            }
        }
        let firsts: Vec<_> = (0..n).filter(|&i| core[i] && least[i] == i).collect();
        let number = |i: usize| firsts.iter().position(|&f| f == least[i]).unwrap() as u32;
        let claimed = |i: usize| (0..n).filter(|&j| core[j] && near(i, j)).map(number).min().unwrap_or(NOISE);
        (0..n).map(|i| if core[i] { number(i) } else { claimed(i) }).collect()
    }
}

/// Numbers that look random, the same on each run.
struct Numbers(u64);

impl Numbers {
    fn below(&mut self, n: usize) -> usize {
        self.0 ^= self.0 << 13;
        self.0 ^= self.0 >> 7;
        self.0 ^= self.0 << 17;
        (self.0 >> 11) as usize % n
    }

    /// A grid with its ties, a few values, one place, a line, or anything.
    fn map(&mut self, kind: usize, n: usize) -> Vec<f64> {
        let mut coordinate = |k: usize| match kind {
            0 => [k / 2 % 7, k / 14][k % 2] as f64,
            1 => self.below(4) as f64,
            2 => 3.5,
            3 => (k % 2 * k) as f64,
            _ => self.below(1 << 50) as f64 / (1u64 << 44) as f64,
        };
        (0..2 * n).map(&mut coordinate).collect()
    }
}

const SIZES: [usize; 8] = [0, 1, 2, 3, 16, 17, 33, 50];

#[test]
fn exact_sizes_and_one_short() {
    let mut numbers = Numbers(20240917);
    for (turn, n) in SIZES.into_iter().cycle().take(40).enumerate() {
        let (points, leaf_size) = (numbers.map(turn % 5, n), [0, 1, 2, 5, 16, 1000][turn % 6]);
        let c = nodes(n, leaf_size);
        assert_eq!(unsafe { calls::yt_node_count(n as u32, leaf_size as u32) } as usize, c);
        let t = Tree::exact(&points, leaf_size);
        assert_eq!(t.check(), (0, 0));
        for place in [(2.5, 3.5), (-1e300, 7.0), points.get(..2).map_or((0.0, 0.0), |p| (p[0], p[1]))] {
            t.answers_hold(place.0, place.1);
        }
        assert_eq!(Tree::room(&points, n + 3, 6 * c + 5, 4 * c + 2).build(leaf_size), (0, 0));
        if n > 0 {
            assert_eq!(Tree::room(&points, n - 1, 6 * c, 4 * c).build(leaf_size), (6, n as u32));
            assert_eq!(Tree::room(&points, n, 6 * c - 1, 4 * c).build(leaf_size), (7, c as u32));
            assert_eq!(Tree::room(&points, n, 6 * c, 4 * c - 1).build(leaf_size), (7, c as u32));
        }
    }
}

#[test]
fn labels_are_the_definition() {
    let mut numbers = Numbers(96);
    for (turn, n) in SIZES.into_iter().cycle().take(40).enumerate() {
        let (points, c) = (numbers.map(turn % 5, n), nodes(n, 16));
        for (epsilon, min_samples) in [(0.0, 1), (1.0, 2), (1.5, 4), (4.0, 3), (f64::INFINITY, n), (1.0, 0), (1.0, n + 1)] {
            let mut t = Tree::room(&points, n, 6 * c, 4 * c);
            let want = t.labels_by_definition(epsilon, min_samples);
            assert_eq!(t.label(epsilon, min_samples, n, 2 * n), (0, 0, want.clone()));
            let (number, detail, more) = t.label(epsilon, min_samples, n + 2, 2 * n + 3);
            assert_eq!((number, detail, &more[..n]), (0, 0, &want[..]));
            if n > 0 {
                let short = |i: usize, b: usize, l: usize, labels: usize, work: usize| {
                    let (number, detail, _) = Tree::room(&points, n - i, 6 * c - b, 4 * c - l).label(epsilon, min_samples, labels, work);
                    (number, detail as usize)
                };
                assert_eq!(short(1, 0, 0, 0, 0), (6, n));
                assert_eq!(short(0, 1, 0, 0, 0), (7, c));
                assert_eq!(short(0, 0, 1, 0, 0), (7, c));
                assert_eq!(short(0, 0, 0, n - 1, 2 * n - 1), (8, n));
                assert_eq!(short(0, 0, 0, n, 2 * n - 1), (8, 2 * n));
            }
        }
    }
}

#[test]
fn every_refusal() {
    let number = |t: &Tree, x: f64, r: f64| {
        let (a, b, c, d) = (t.nearest(x, 0.0), t.k_nearest(x, 0.0, 2, (0, 0)), t.radius(x, 0.0, r, (0, 0)), t.radius_indices(x, 0.0, r, 0));
        assert!([&a, &b, &c, &d].iter().all(|a| a.count == 0 || a.number == 0 || a.number == 8));
        [a.number, b.number, c.number, d.number]
    };
    let bare = |points: &[f64]| Tree::room(points, 0, 0, 0);
    let too_many = vec![0.0; 2 * MAX_POINTS + 2];
    // Lower numbers win: all that can be wrong above them is wrong here.
    for (points, expected) in
        [(&[0.0, f64::NAN, 0.0][..], (1, 0)), (&too_many[..], (2, 0)), (&[0.0, 0.0, 1.0, f64::INFINITY, f64::NAN, 0.0][..], (3, 1))]
    {
        let mut t = bare(points);
        assert_eq!(t.build(16), expected);
        assert_eq!(t.check(), expected);
        assert_eq!(t.label(-1.0, 1, 0, 0), (expected.0, expected.1, vec![]));
        if expected.0 < 3 {
            assert_eq!(number(&t, f64::NAN, -1.0), [expected.0; 4]);
        }
    }
    let good = Tree::exact(&[0.0, 0.0, 3.0, 4.0, 6.0, 8.0], 1);
    for t in [&good, &bare(&[])] {
        assert_eq!(number(t, f64::NAN, -1.0), [4; 4]);
        assert_eq!(number(t, f64::INFINITY, 1.0), [4; 4]);
        for r in [f64::NAN, -4.9e-324, f64::NEG_INFINITY] {
            assert_eq!(number(t, 0.0, r)[2..], [5; 2]);
            assert_eq!(t.clone().label(r, 1, 0, 0).0, 5);
        }
    }
    assert_eq!(bare(&[0.0, 0.0]).build(16), (6, 1));
    assert_eq!(Tree::room(&[0.0, 0.0], 1, 5, 4).build(16), (7, 1));
    assert_eq!(number(&good, 0.0, 5.0), [0, 8, 8, 8]);
    assert_eq!(number(&bare(&[0.0, 0.0]), 0.0, 5.0), [9; 4]);
    assert_eq!(bare(&[0.0, 0.0]).check(), (9, 0));
}

#[test]
fn damaged_trees() {
    let mut numbers = Numbers(9);
    let (mut refused, mut met) = (0, 0);
    for turn in 0..400 {
        let (n, leaf_size) = (1 + numbers.below(33), [1, 2, 5, 16][turn % 4]);
        let mut t = Tree::exact(&numbers.map(turn % 5, n), leaf_size);
        for _ in 0..1 + numbers.below(2) {
            let word = [0, 1, 2, 7, numbers.below(40) as u32, u32::MAX][numbers.below(6)];
            let end = [f64::NAN, f64::INFINITY, 3.0, -0.0][numbers.below(4)];
            match numbers.below(4) {
                0 => t.indices.values_mut()[numbers.below(n)] = word,
                1 => t.boxes.values_mut()[numbers.below(6 * nodes(n, leaf_size))] = end,
                _ => t.links.values_mut()[numbers.below(4 * nodes(n, leaf_size))] = word,
            }
        }
        assert_eq!(t.check(), (if t.accepted() { 0 } else { 9 }, 0));
        refused += usize::from(!t.accepted());
        met += usize::from(t.k_nearest(0.0, 0.0, n, (n, n)).number == 9);
        t.answers_hold(2.5, 3.5);
        t.answers_hold(t.points.values()[0], t.points.values()[1]);
    }
    assert!(refused > 100 && met > 50 && met <= refused, "{refused} refused, damage met in {met}");
}

#[test]
fn roots() {
    for x in [0.0, -0.0, 2.0, 5e-324, f64::MAX, f64::INFINITY] {
        assert_eq!(unsafe { calls::yt_root(x) }.to_bits(), x.sqrt().to_bits());
    }
    assert!([-1.0, f64::NAN].iter().all(|&x| unsafe { calls::yt_root(x) }.is_nan()));
}

#[test]
fn cut_slices() {
    let whole = Tree::exact(&[0.0, 0.0, 3.0, 4.0, 6.0, 8.0], 16);
    for cut in 0..3 {
        let shorter = |of: usize, values: usize| values - usize::from(cut == of);
        let t = Tree {
            points: whole.points.clone(),
            indices: Lent::of(&whole.indices.values()[..shorter(0, 3)]),
            boxes: Lent::of(&whole.boxes.values()[..shorter(1, 6)]),
            links: Lent::of(&whole.links.values()[..shorter(2, 4)]),
        };
        assert_eq!(t.check(), (9, 0));
        assert_eq!(t.nearest(0.0, 0.0).number, 9);
        assert_eq!(t.k_nearest(0.0, 0.0, 3, (1, 2)).number, 9);
        assert_eq!(t.radius(0.0, 0.0, 1.0, (0, 2)).number, 9);
        assert_eq!(t.radius_indices(0.0, 0.0, 1.0, 2).number, 9);
        assert_eq!(t.k_nearest(0.0, 0.0, 0, (1, 1)).number, 0);
    }
}
