//! differences [FILE]: the inputs of docs/DIFFERENCES.md, each run on the original, on the plain scan, and on this library
//! where it is linked. Prints the rows of the table, shortest inputs first found by search. Exits 1 where the library and
//! the scan disagree, where a row shows no difference, or where FILE (docs/DIFFERENCES.md) lacks a row.

use harness::{original, rule};
use std::panic;

enum Ask {
    Nearest(f64, f64),
    K(f64, f64, usize),
    Radius(f64, f64, f64),
    Label(f64, u32),
}
use Ask::*;

struct Row {
    what: &'static str,
    points: Vec<f64>,
    /// In words, where the points are too many to print.
    shown: Option<&'static str>,
    leaf: usize,
    ask: Ask,
    why: &'static str,
}

fn rows() -> Vec<Row> {
    let nan = f64::NAN;
    let inf = f64::INFINITY;
    let row = |what, points: &[f64], leaf, ask, why| Row { what, points: points.to_vec(), shown: None, leaf, ask, why };
    let grid: Vec<f64> = (0..100).flat_map(|i| [(i % 10) as f64 * 1000.0, (i / 10) as f64 * 1000.0]).collect();
    let line = [21.8, 37.1, 70.9, 17.5, 7.3, 8.5, 6.2, 0.1, 8.2, 76.1, 3.3, 41.2, 5.6, 86.7, 45.9, 84.3, 8.6];
    let on_line = |xs: &[f64]| xs.iter().flat_map(|&x| [x, 0.0]).collect::<Vec<f64>>();
    vec![
        row("A nearer point is skipped: the ball's bound, rounded, is above its distance", &[0.1, 0.0, 0.3, 0.0, 1.2, 0.0], 1, Nearest(0.2, 0.0), "Easy to get wrong; Port order (the box replaces the radius)"),
        row("The same", &[0.7, 0.0, 6.2, 0.0, 0.1, 0.0], 1, Nearest(0.4, 0.0), "the same"),
        row("The same at the default leaf size", &on_line(&line), 16, Nearest(13.05, 0.0), "the same"),
        row("A much nearer point is skipped: the distance to a centre overflows, that to the point does not", &[-1.3e154, 0.0, 1e154, 0.0, 1.8e154, 0.0], 1, Nearest(0.0, 0.0), "the same"),
        row("k-nearest skips it too", &[-1.3e154, 0.0, 1e154, 0.0, 1.8e154, 0.0], 1, K(0.0, 0.0, 1), "the same"),
        row("A hit is dropped: a die is not found at its own place", &[0.0, 0.0, 2.0, 3.0], 16, Radius(0.0, 0.0, 0.0), "Easy to get wrong (the squared `outer` test)"),
        Row { what: "The same on a wafer map", points: grid, shown: Some("10 by 10 grid, pitch 1000"), leaf: 16, ask: Radius(0.0, 0.0, 0.0), why: "the same" },
        row("A hit is dropped at the radius", &[0.0, 0.0, 0.1, 0.0], 16, Radius(2.1, 0.0, 2.0), "the same"),
        row("A point past the radius is admitted", &[0.2, 0.0, 0.3, 0.0], 16, Radius(0.8, 0.0, 0.6), "Easy to get wrong (the bulk include)"),
        row("The same", &[9.7, 0.0, 6.7, 0.0, 1.1, 0.0], 16, Radius(8.3, 0.0, 7.2), "the same"),
        row("A tie falls by the shape of the tree", &[1.0, 0.0, -1.0, 0.0], 1, Nearest(0.0, 0.0), "Queries (least index)"),
        row("So does the last of k", &[1.0, 0.0, -1.0, 0.0], 1, K(0.0, 0.0, 1), "Queries (by d2, index)"),
        row("So does the order of two equally far", &[1.0, 0.0, -1.0, 0.0], 1, K(0.0, 0.0, 2), "Queries (by d2, index)"),
        row("Order by the rounded root: the farther of two stands first", &[0.9, 0.7, 1.1, 0.3], 16, K(0.0, 0.0, 2), "Queries (order is by d2)"),
        row("Radius hits come in the tree's order", &[1.0, 0.0, -1.0, 0.0], 1, Radius(0.0, 0.0, 1.0), "Queries (by rising index)"),
        row("A negative radius counts as its square in a leaf", &[0.0, 0.0], 16, Radius(0.0, 0.0, -1.0), "Refusal 5"),
        row("A negative epsilon counts as its square", &[0.0, 0.0, 1.0, 0.0], 16, Label(-1.0, 2), "Refusal 5"),
        row("A NaN radius finds nothing", &[0.0, 0.0], 16, Radius(0.0, 0.0, nan), "Refusal 5"),
        row("A NaN epsilon makes all noise", &[0.0, 0.0], 16, Label(nan, 1), "Refusal 5"),
        row("A NaN query is answered, with index 0 at infinity", &[0.0, 0.0], 16, Nearest(nan, 0.0), "Refusal 4"),
        row("and by k-nearest with a NaN distance", &[0.0, 0.0], 16, K(nan, 0.0, 1), "Refusal 4"),
        row("An infinite query is answered", &[0.0, 0.0], 16, Nearest(inf, 0.0), "Refusal 4"),
        row("A NaN point is an answer", &[nan, 0.0], 16, Nearest(0.0, 0.0), "Refusal 3 (at the build)"),
        row("A NaN point is among the k", &[nan, 0.0, 5.0, 0.0], 16, K(0.0, 0.0, 2), "Refusal 3 (at the build)"),
        row("An infinite point is among the k", &[inf, 0.0, 5.0, 0.0], 16, K(0.0, 0.0, 2), "Refusal 3 (at the build)"),
        row("A NaN point is no neighbour of itself", &[nan, 0.0, 5.0, 0.0], 16, Label(1.0, 1), "Refusal 3"),
        row("k entries are reserved first: a great k panics (2^60), or aborts where memory is short (4,294,967,295: 64 GiB)", &[0.0, 0.0], 16, K(0.0, 0.0, 1 << 60), "Runs against the Rust; Queries (k is a u32, nothing is reserved)"),
    ]
}

fn number(x: f64) -> String {
    if x != 0.0 && x.is_finite() && !(1e-9..1e15).contains(&x.abs()) {
        format!("{x:e}")
    } else {
        format!("{x}")
    }
}

fn hit((index, distance): (u32, f64)) -> String {
    format!("{index} at {}", number(distance))
}

fn hits(all: Vec<(u32, f64)>) -> String {
    if all.is_empty() {
        return "none".into();
    }
    all.into_iter().map(hit).collect::<Vec<_>>().join(", ")
}

fn names(labels: Vec<u32>) -> String {
    labels.into_iter().map(|l| if l == rule::NOISE { "-".into() } else { l.to_string() }).collect::<Vec<_>>().join(" ")
}

fn narrow(all: Vec<(usize, f64)>) -> Vec<(u32, f64)> {
    all.into_iter().map(|(i, d)| (i as u32, d)).collect()
}

fn by_original(r: &Row) -> String {
    let tree = original::build(&r.points, r.leaf);
    match r.ask {
        Nearest(x, y) => original::nearest(&tree, x, y).map_or("empty".into(), |h| hit((h.0 as u32, h.1))),
        K(x, y, k) => panic::catch_unwind(|| hits(narrow(original::k_nearest(&tree, x, y, k)))).unwrap_or("panics: capacity overflow".into()),
        Radius(x, y, radius) => hits(narrow(original::radius(&tree, x, y, radius))),
        Label(epsilon, min_samples) => names(original::labels(&r.points, epsilon, min_samples as usize)),
    }
}

/// The rule's refusals that these rows reach, then its scan.
fn by_rule(r: &Row) -> String {
    let refused = |number: u32, detail: usize| format!("refusal {number}, detail {detail}");
    if let Some(i) = r.points.chunks_exact(2).position(|p| !(p[0].is_finite() && p[1].is_finite())) {
        return refused(3, i);
    }
    match r.ask {
        Nearest(x, y) | K(x, y, _) | Radius(x, y, _) if !(x.is_finite() && y.is_finite()) => refused(4, 0),
        Radius(_, _, most) | Label(most, _) if most.is_nan() || most < 0.0 => refused(5, 0),
        Nearest(x, y) => rule::nearest(&r.points, x, y).map_or("empty".into(), hit),
        K(x, y, k) => hits(rule::k_nearest(&r.points, x, y, k)),
        Radius(x, y, radius) => hits(rule::radius(&r.points, x, y, radius)),
        Label(epsilon, min_samples) => names(rule::labels(&r.points, epsilon, min_samples)),
    }
}

#[cfg(ours)]
fn by_library(r: &Row) -> Option<String> {
    use harness::ours;
    let said = (|| {
        if let Label(epsilon, min_samples) = r.ask {
            return ours::labels(&r.points, epsilon, min_samples).map(names);
        }
        let mut tree = ours::Tree::build(&r.points, r.leaf as u32)?;
        match r.ask {
            Nearest(x, y) => tree.nearest(x, y).map(|h| h.map_or("empty".into(), hit)),
            K(x, y, k) => tree.k_nearest(x, y, k.min(u32::MAX as usize) as u32).map(hits),
            Radius(x, y, radius) => tree.radius(x, y, radius).map(hits),
            Label(..) => unreachable!(),
        }
    })();
    Some(said.unwrap_or_else(|(number, detail)| format!("refusal {number}, detail {detail}")))
}

#[cfg(not(ours))]
fn by_library(_: &Row) -> Option<String> {
    None
}

fn input(r: &Row) -> String {
    let points = match r.shown {
        Some(words) => words.into(),
        None if r.points.len() > 10 && r.points.iter().skip(1).step_by(2).all(|y| *y == 0.0) => {
            format!("y = 0, x = {}", r.points.iter().step_by(2).map(|x| number(*x)).collect::<Vec<_>>().join(", "))
        }
        None => r.points.chunks_exact(2).map(|p| format!("({}, {})", number(p[0]), number(p[1]))).collect::<Vec<_>>().join(" "),
    };
    let ask = match r.ask {
        Nearest(x, y) => format!("nearest ({}, {})", number(x), number(y)),
        K(x, y, k) => format!("k = {k} at ({}, {})", number(x), number(y)),
        Radius(x, y, radius) => format!("radius {} at ({}, {})", number(radius), number(x), number(y)),
        Label(epsilon, min_samples) => format!("labels {}, {min_samples}", number(epsilon)),
    };
    format!("{points}; leaf size {}; {ask}", r.leaf)
}

fn main() {
    panic::set_hook(Box::new(|_| {}));
    let file = std::env::args().nth(1);
    let text = file.as_ref().map(|f| std::fs::read_to_string(f).unwrap_or_else(|e| panic!("{f}: {e}")));
    let mut bad = 0;
    let mut complain = |what: &str, row: &str| {
        eprintln!("differences: {what}: {row}");
        bad += 1;
    };
    println!("| What | Smallest input found | The original | This library | The scope's section |\n|---|---|---|---|---|");
    let (mut linked, all) = (false, rows());
    for r in &all {
        let (theirs, rule) = (by_original(r), by_rule(r));
        let line = format!("| {} | {} | {theirs} | {rule} | {} |", r.what, input(r), r.why);
        println!("{line}");
        if theirs == rule {
            complain("no difference", &line);
        }
        if let Some(ours) = by_library(r) {
            linked = true;
            if ours != rule {
                complain(&format!("the library says {ours}"), &line);
            }
        }
        if text.as_ref().is_some_and(|t| !t.contains(&line)) {
            complain(&format!("not in {}", file.as_ref().unwrap()), &line);
        }
    }
    println!("{} rows; the third answer was worked out by the plain scan{}.", all.len(), if linked { " and by the library, and they agree" } else { " alone: the library was not linked" });
    std::process::exit((bad > 0) as i32);
}
