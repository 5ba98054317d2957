//! compare [quick] [alone]: this library, the original and the plain scan over the same questions. Every answer of the library is held
//! against the scan, ties and buffers' order included. Over the domain (maps.rs) it is also held against the original:
//! distances bit for bit, indices where no two points are equally far, radius hits as sets, labels. Outside the domain the
//! original's departures from the scan are counted, and are no error. Exits 1 if anything differs. `quick` asks a twentieth;
//! `alone` lets it run where the library is not linked.

use harness::maps::{self, EDGE, KINDS, SORTS};
use harness::original;
#[cfg(ours)]
use harness::ours;
use harness::random::Random;
use harness::rule;
use std::process::exit;

#[derive(Default)]
struct Count {
    maps: u64,
    asked: u64,
    /// Of them, held against the original.
    both: u64,
    /// Indices held against the original's, no other point being equally far.
    indices: u64,
    /// Of the original against the scan, outside the domain.
    departs: u64,
    wrong: u64,
}

struct Table {
    rows: Vec<(&'static str, Count)>,
    shown: u32,
}

impl Table {
    fn row(&mut self, name: &'static str) -> &mut Count {
        if let Some(i) = self.rows.iter().position(|r| r.0 == name) {
            return &mut self.rows[i].1;
        }
        self.rows.push((name, Count::default()));
        &mut self.rows.last_mut().unwrap().1
    }

    fn wrong(&mut self, name: &'static str, what: String) {
        self.row(name).wrong += 1;
        self.shown += 1;
        if self.shown <= 20 {
            // Long lists are cut; the map and the question stand at the end.
            let text: Vec<char> = what.chars().collect();
            if text.len() > 400 {
                let (head, tail): (String, String) = (text[..200].iter().collect(), text[text.len() - 200..].iter().collect());
                eprintln!("compare: {name}: {head} .. {tail}");
            } else {
                eprintln!("compare: {name}: {what}");
            }
        }
    }
}

fn same_float(a: f64, b: f64) -> bool {
    a.to_bits() == b.to_bits()
}

fn same_hits(a: &[(u32, f64)], b: &[(u32, f64)]) -> bool {
    a.len() == b.len() && a.iter().zip(b).all(|(p, q)| p.0 == q.0 && same_float(p.1, q.1))
}

fn same_distances(a: &[(usize, f64)], b: &[(u32, f64)]) -> bool {
    a.len() == b.len() && a.iter().zip(b).all(|(p, q)| same_float(p.1, q.1))
}

/// The original's radius hits by rising index.
fn by_index(all: Vec<(usize, f64)>) -> Vec<(u32, f64)> {
    let mut hits: Vec<(u32, f64)> = all.into_iter().map(|(i, d)| (i as u32, d)).collect();
    hits.sort_unstable_by_key(|h| h.0);
    hits
}

/// A map under one leaf size, and what is asked of it.
struct Asked<'a> {
    points: &'a [f64],
    #[cfg_attr(not(ours), allow(dead_code))]
    leaf: u32,
    theirs: original::Tree,
    #[cfg(ours)]
    ours: ours::Tree,
    /// Whether the original is bound to agree.
    domain: bool,
    named: String,
}

impl<'a> Asked<'a> {
    fn new(points: &'a [f64], leaf: u32, domain: bool, named: &str, t: &mut Table) -> Self {
        let asked = Self {
            points,
            leaf,
            theirs: original::build(points, leaf as usize),
            #[cfg(ours)]
            ours: ours::Tree::build(points, leaf).unwrap_or_else(|r| {
                eprintln!("compare: build refused {r:?}: {named}, n {}, leaf size {leaf}", points.len() / 2);
                exit(1)
            }),
            domain,
            named: format!("{named}, n {}, leaf size {leaf}", points.len() / 2),
        };
        asked.tree(t);
        asked
    }

    /// The built tree is the rule's, but for the centres and the order inside a leaf; and the check accepts it.
    fn tree(&self, t: &mut Table) {
        let row = t.row("trees built and checked");
        row.maps += 1;
        row.asked += 1;
        #[cfg(ours)]
        {
            let rule = rule::build(self.points, self.leaf as usize);
            let mine = &self.ours;
            let mut same = mine.links == rule.links && mine.boxes.len() == rule.boxes.len();
            same &= mine.boxes.iter().zip(&rule.boxes).enumerate().all(|(i, (a, b))| i % 6 < 2 || same_float(*a, *b));
            for node in rule.links.chunks_exact(4).filter(|n| n[2] == 0) {
                let part = |from: &[u32]| {
                    let mut v = from[node[0] as usize..node[1] as usize].to_vec();
                    v.sort_unstable();
                    v
                };
                same &= part(&mine.indices) == part(&rule.indices);
            }
            if !same {
                t.wrong("trees built and checked", format!("not the rule's tree: {}", self.named));
            }
            if mine.check() != Ok(()) {
                t.wrong("trees built and checked", format!("check says {:?}: {}", mine.check(), self.named));
            }
        }
    }

    fn names(&self) -> [&'static str; 3] {
        if self.domain {
            ["nearest", "k-nearest", "radius"]
        } else {
            ["nearest, any floats", "k-nearest, any floats", "radius, any floats"]
        }
    }

    fn nearest(&mut self, x: f64, y: f64, t: &mut Table) {
        let name = self.names()[0];
        let rule = rule::nearest(self.points, x, y);
        t.row(name).asked += 1;
        #[cfg(ours)]
        {
            let mine = self.ours.nearest(x, y);
            if !mine.is_ok_and(|m| same_hits(m.as_slice(), rule.as_slice())) {
                t.wrong(name, format!("library {mine:?}, scan {rule:?}: {} at ({x:?}, {y:?})", self.named));
            }
        }
        let theirs = original::nearest(&self.theirs, x, y);
        let agree = same_distances(theirs.as_slice(), rule.as_slice());
        if !self.domain {
            t.row(name).departs += !agree as u64;
            return;
        }
        t.row(name).both += 1;
        if !agree {
            t.wrong(name, format!("original {theirs:?}, scan {rule:?}: {} at ({x:?}, {y:?})", self.named));
        }
        let (Some(r), Some(o)) = (rule, theirs) else {
            return;
        };
        let d2s = rule::all_d2(self.points, x, y);
        let least = d2s[r.0 as usize];
        if d2s.iter().filter(|d| **d == least).count() == 1 {
            t.row(name).indices += 1;
            if o.0 as u32 != r.0 {
                t.wrong(name, format!("original {o:?}, scan {r:?}: {} at ({x:?}, {y:?})", self.named));
            }
        }
    }

    fn k_nearest(&mut self, x: f64, y: f64, k: u32, t: &mut Table) {
        let name = self.names()[1];
        let rule = rule::k_nearest(self.points, x, y, k as usize);
        t.row(name).asked += 1;
        #[cfg(ours)]
        {
            let mine = self.ours.k_nearest(x, y, k);
            if !mine.as_ref().is_ok_and(|m| same_hits(m, &rule)) {
                t.wrong(name, format!("library {mine:?}, scan {rule:?}: {} k {k} at ({x:?}, {y:?})", self.named));
            }
        }
        if !self.domain && k as u64 > EDGE {
            return;
        }
        let theirs = original::k_nearest(&self.theirs, x, y, k as usize);
        let agree = same_distances(&theirs, &rule);
        if !self.domain {
            t.row(name).departs += !agree as u64;
            return;
        }
        t.row(name).both += 1;
        if !agree {
            t.wrong(name, format!("original {theirs:?}, scan {rule:?}: {} k {k} at ({x:?}, {y:?})", self.named));
            return;
        }
        let mut d2s = rule::all_d2(self.points, x, y);
        d2s.sort_unstable_by(f64::total_cmp);
        for (i, (o, r)) in theirs.iter().zip(&rule).enumerate() {
            let tied = i > 0 && d2s[i - 1] == d2s[i] || i + 1 < d2s.len() && d2s[i + 1] == d2s[i];
            if !tied {
                t.row(name).indices += 1;
                if o.0 as u32 != r.0 {
                    t.wrong(name, format!("original {theirs:?}, scan {rule:?}: {} k {k} at ({x:?}, {y:?})", self.named));
                    return;
                }
            }
        }
    }

    fn radius(&mut self, x: f64, y: f64, radius: f64, t: &mut Table) {
        let name = self.names()[2];
        let rule = rule::radius(self.points, x, y, radius);
        t.row(name).asked += 1;
        #[cfg(ours)]
        {
            let mine = self.ours.radius(x, y, radius);
            if !mine.as_ref().is_ok_and(|m| same_hits(m, &rule)) {
                t.wrong(name, format!("library {mine:?}, scan {rule:?}: {} radius {radius:?} at ({x:?}, {y:?})", self.named));
            }
            let alone = self.ours.radius_indices(x, y, radius);
            if !alone.as_ref().is_ok_and(|m| m.iter().eq(rule.iter().map(|h| &h.0))) {
                t.wrong(name, format!("library's indices {alone:?}, scan {rule:?}: {} radius {radius:?} at ({x:?}, {y:?})", self.named));
            }
        }
        let theirs = by_index(original::radius(&self.theirs, x, y, radius));
        let agree = same_hits(&theirs, &rule);
        if !self.domain {
            t.row(name).departs += !agree as u64;
            return;
        }
        let row = t.row(name);
        row.both += 1;
        row.indices += rule.len() as u64;
        if !agree {
            t.wrong(name, format!("original {theirs:?}, scan {rule:?}: {} radius {radius:?} at ({x:?}, {y:?})", self.named));
        }
    }
}

fn labels(points: &[f64], epsilon: f64, min_samples: u32, domain: bool, named: &str, t: &mut Table) {
    let name = if domain { "labels" } else { "labels, any floats" };
    let rule = rule::labels(points, epsilon, min_samples);
    t.row(name).asked += 1;
    let told = || format!("{named}, n {}, epsilon {epsilon:?}, min_samples {min_samples}", points.len() / 2);
    #[cfg(ours)]
    if ours::labels(points, epsilon, min_samples).as_ref() != Ok(&rule) {
        t.wrong(name, format!("library {:?}, rule {rule:?}: {}", ours::labels(points, epsilon, min_samples), told()));
    }
    let theirs = original::labels(points, epsilon, min_samples as usize);
    if domain {
        let row = t.row(name);
        row.both += 1;
        row.indices += rule.len() as u64;
        if theirs != rule {
            t.wrong(name, format!("original {theirs:?}, rule {rule:?}: {}", told()));
        }
    } else {
        t.row(name).departs += (theirs != rule) as u64;
    }
}

fn leaf_size(turn: usize, r: &mut Random) -> u32 {
    if turn % 10 == 9 {
        r.pick(&[0, 34, 64, 100, 1 << 20, u32::MAX])
    } else {
        1 + (turn % 33) as u32
    }
}

fn some_k(n: usize, r: &mut Random) -> u32 {
    let n = n as u32;
    match r.below(40) {
        0 => 0,
        1 => EDGE as u32,
        2 | 3 => n,
        4 => n + 1,
        5 => n.saturating_sub(1),
        6..=9 => r.below(n as u64 + 2) as u32,
        _ => 1 + r.below(12) as u32,
    }
}

fn some_min_samples(n: usize, r: &mut Random) -> u32 {
    match r.below(20) {
        0 => 0,
        1 => n as u32 + 1,
        2 => u32::MAX,
        3 => n as u32,
        4 => 1,
        _ => 2 + r.below(6) as u32,
    }
}

fn domain(maps: usize, places: usize, t: &mut Table, r: &mut Random) {
    for turn in 0..maps {
        let kind = turn % KINDS.len();
        let n = match turn % 7 {
            0 => r.below(6) as usize,
            1 | 2 => r.below(40) as usize,
            6 => 400 + r.below(700) as usize,
            _ => r.below(260) as usize,
        };
        let points = maps::whole(kind, n, r);
        let mut asked = Asked::new(&points, leaf_size(turn / 10 + turn, r), true, KINDS[kind], t);
        for name in ["nearest", "k-nearest", "radius"] {
            t.row(name).maps += 1;
        }
        for _ in 0..places {
            let (x, y) = maps::whole_place(&points, r);
            asked.nearest(x, y, t);
            asked.k_nearest(x, y, some_k(n, r), t);
            asked.radius(x, y, maps::half_radius(&points, (x, y), r), t);
        }
    }
}

fn large(t: &mut Table, r: &mut Random) {
    for (turn, n) in [20_000, 65_537, 100_000, 262_144].into_iter().enumerate() {
        for kind in [0, 6, 8] {
            let points = maps::whole(kind, n, r);
            let mut asked = Asked::new(&points, [16, 16, 1, 33][turn], true, KINDS[kind], t);
            for name in ["nearest", "k-nearest", "radius"] {
                t.row(name).maps += 1;
            }
            for _ in 0..40 {
                let (x, y) = maps::whole_place(&points, r);
                asked.nearest(x, y, t);
                asked.k_nearest(x, y, r.pick(&[1, 8, 100, 1000]), t);
                asked.radius(x, y, maps::half_radius(&points, (x, y), r).min(20_000.5), t);
            }
        }
    }
}

fn any_floats(maps: usize, places: usize, t: &mut Table, r: &mut Random) {
    for turn in 0..maps {
        let sort = turn % SORTS.len();
        let n = r.below(if turn % 5 == 0 { 600 } else { 60 }) as usize;
        let flat = r.below(3) == 0;
        let points: Vec<f64> = (0..2 * n).map(|i| if flat && i % 2 == 1 { 0.0 } else { maps::any_float(sort as u64, r) }).collect();
        let mut asked = Asked::new(&points, leaf_size(turn, r), false, SORTS[sort], t);
        for name in ["nearest, any floats", "k-nearest, any floats", "radius, any floats"] {
            t.row(name).maps += 1;
        }
        for _ in 0..places {
            let (mut x, mut y) = (maps::any_float(sort as u64, r), maps::any_float(sort as u64, r));
            if n > 0 && r.below(3) == 0 {
                let i = r.below(n as u64) as usize;
                (x, y) = (points[2 * i], points[2 * i + 1]);
            } else if flat {
                y = 0.0;
            }
            asked.nearest(x, y, t);
            let k = if r.below(50) == 0 { u32::MAX } else { some_k(n, r) };
            asked.k_nearest(x, y, k, t);
            let radius = match r.below(8) {
                0 => r.pick(&[0.0, -0.0, f64::INFINITY, f64::MAX, 5e-324, 1e-200]),
                1..=4 if n > 0 => {
                    // As far as a point: the case that rounding decides.
                    let i = r.below(n as u64) as usize;
                    rule::d2(x, y, points[2 * i], points[2 * i + 1]).sqrt()
                }
                _ => maps::any_float(sort as u64, r).abs(),
            };
            asked.radius(x, y, radius, t);
        }
    }
}

fn label_maps(maps: usize, t: &mut Table, r: &mut Random) {
    for turn in 0..maps {
        let kind = turn % KINDS.len();
        let n = r.below(if turn % 4 == 0 { 300 } else { 50 }) as usize;
        let points = maps::whole(kind, n, r);
        t.row("labels").maps += 1;
        for _ in 0..4 {
            let at = maps::whole_place(&points, r);
            let epsilon = if r.below(2) == 0 { r.below(8) as f64 + 0.5 } else { maps::half_radius(&points, at, r) };
            labels(&points, epsilon, some_min_samples(n, r), true, KINDS[kind], t);
        }
        let sort = turn % SORTS.len();
        let points: Vec<f64> = (0..2 * n).map(|_| maps::any_float(sort as u64, r)).collect();
        t.row("labels, any floats").maps += 1;
        for _ in 0..2 {
            let epsilon = if n > 1 && r.below(2) == 0 { rule::d2(points[0], points[1], points[2], points[3]).sqrt() } else { maps::any_float(sort as u64, r).abs() };
            labels(&points, epsilon, some_min_samples(n, r), false, SORTS[sort], t);
        }
    }
}

fn main() {
    let words: Vec<String> = std::env::args().skip(1).collect();
    if let Some(other) = words.iter().find(|w| *w != "quick" && *w != "alone") {
        eprintln!("compare: not a word of it: {other} (quick, alone)");
        exit(2);
    }
    let quick = words.iter().any(|w| w == "quick");
    // Without the library a run would pass and have said nothing of it.
    if !cfg!(ours) && !words.iter().any(|w| w == "alone") {
        eprintln!("compare: the library is not linked; `compare alone` holds the original against the scan");
        exit(2);
    }
    let part = if quick { 20 } else { 1 };
    let mut t = Table { rows: vec![], shown: 0 };
    let mut r = Random::new(20_260_101);
    domain(6000 / part, 100, &mut t, &mut r);
    if !quick {
        large(&mut t, &mut r);
    }
    any_floats(7000 / part, 30, &mut t, &mut r);
    label_maps(6000 / part, &mut t, &mut r);

    println!("{:<26} {:>7} {:>9} {:>13} {:>16} {:>17} {:>11}", "", "maps", "asked", "original too", "indices/labels", "original departs", "differences");
    let mut sum = Count::default();
    for (name, c) in &t.rows {
        println!("{name:<26} {:>7} {:>9} {:>13} {:>16} {:>17} {:>11}", c.maps, c.asked, c.both, c.indices, c.departs, c.wrong);
        sum.asked += c.asked;
        sum.both += c.both;
        sum.wrong += c.wrong;
    }
    println!("asked {}, {} of them held against the original, {}; differences {}", sum.asked, sum.both, if cfg!(ours) { "all of the library against the scan" } else { "THE LIBRARY WAS NOT LINKED: the original against the scan alone" }, sum.wrong);
    exit((sum.wrong > 0) as i32);
}
