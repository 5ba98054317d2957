//! record FOLDER: writes the original's answers over the domain to FOLDER, for programs that replay them.
//!   answers.txt            maps under many leaf sizes; a line is a letter and words of 16 upper-case hex digits;
//!                          crates/replay_answers has it as its stdin
//!   station.stdin, .stdout one growing map, as the station's records and the lines that it has to print;
//!                          crates/replay_station has them as its stdin and stdout
//! Only questions whose answer is one are kept: no two of the points asked about are equally far, and radius hits are put
//! by rising index, as this library gives them. The seed is fixed: every run writes the same bytes.

use harness::maps;
use harness::original;
use harness::random::Random;
use harness::rule;
use std::fmt::Write as _;
use std::path::Path;

const HEAD: &str = "\
# Answers of geo 0.33.1 (ball_tree.rs and dbscan.rs, unchanged; a scan in place of rstar's R-tree), recorded by
# GEO_SRC=FOLDER oracle/run record OUT, as OUT/answers.txt; this file is crates/replay_answers/stdin.
# A line is a letter and words, one space between; a word is 16 upper-case hex digits: a float's bits, or a whole number.
#   M leaf n                 a map of n points; n lines P x y follow
#   N x y index distance     nearest
#   K x y k count            k-nearest; count lines H index distance follow, nearest first
#   R x y radius count       radius; count lines H index distance follow, by rising index
#   L epsilon min_samples n  labels; n lines C label follow, noise 00000000FFFFFFFF
# Coordinates and places are whole, within 1,048,576; radius and epsilon are whole plus one half. No answer rests on a tie.
";

struct Text(String);

impl Text {
    fn line(&mut self, letter: char, words: &[u64]) {
        self.0.push(letter);
        for w in words {
            write!(self.0, " {w:016X}").unwrap();
        }
        self.0.push('\n');
    }

    fn hits(&mut self, hits: &[(usize, f64)]) {
        for (i, d) in hits {
            self.line('H', &[*i as u64, d.to_bits()]);
        }
    }
}

/// Whether no two of the k + 1 nearest are equally far.
fn untied(points: &[f64], x: f64, y: f64, k: usize) -> bool {
    let mut d2s = rule::all_d2(points, x, y);
    d2s.sort_unstable_by(f64::total_cmp);
    d2s.truncate(k.saturating_add(1));
    d2s.windows(2).all(|w| w[0] != w[1])
}

fn rising(mut hits: Vec<(usize, f64)>) -> Vec<(usize, f64)> {
    hits.sort_unstable_by_key(|h| h.0);
    hits
}

fn answers(r: &mut Random) -> (String, [u32; 5]) {
    let mut t = Text(HEAD.into());
    let mut counts = [0; 5];
    for (turn, (n, leaf)) in [(0, 16), (1, 16), (2, 1), (3, 1), (16, 16), (17, 16), (33, 16), (33, 1), (40, 2), (50, 3), (64, 4), (65, 5), (80, 7), (99, 8), (100, 16), (100, 33), (120, 32), (127, 15), (128, 17), (150, 6), (200, 16), (256, 1), (300, 16), (300, 64)].into_iter().enumerate() {
        let points = maps::whole([0, 1, 7, 8, 4, 5, 6][turn % 7], n, r);
        t.line('M', &[leaf, n as u64]);
        counts[0] += 1;
        for p in points.chunks_exact(2) {
            t.line('P', &[p[0].to_bits(), p[1].to_bits()]);
        }
        let tree = original::build(&points, leaf as usize);
        let mut tries = 0;
        let mut asked = 0;
        while asked < 8 && tries < 400 {
            tries += 1;
            let (x, y) = maps::whole_place(&points, r);
            if n == 0 || !untied(&points, x, y, 1) {
                continue;
            }
            let at = [x.to_bits(), y.to_bits()];
            let (i, d) = original::nearest(&tree, x, y).unwrap();
            t.line('N', &[at[0], at[1], i as u64, d.to_bits()]);
            counts[1] += 1;
            asked += 1;
            // Long lists only where the map is small, and once a map.
            let long = n <= 33 || asked == 1;
            let k = if long { r.pick(&[0, 1, n as u64, n as u64 + 5]) } else { r.pick(&[0, 1, 2, 3, 8, 17]) };
            if untied(&points, x, y, k as usize) {
                let hits = original::k_nearest(&tree, x, y, k as usize);
                t.line('K', &[at[0], at[1], k, hits.len() as u64]);
                t.hits(&hits);
                counts[2] += 1;
            }
            let radius = maps::half_radius(&points, (x, y), r);
            let hits = rising(original::radius(&tree, x, y, radius));
            if hits.len() > 33 && !long {
                continue;
            }
            t.line('R', &[at[0], at[1], radius.to_bits(), hits.len() as u64]);
            t.hits(&hits);
            counts[3] += 1;
        }
        for _ in 0..2 {
            let epsilon = if n > 1 { maps::half_radius(&points, (points[0], points[1]), r) } else { 1.5 };
            let min_samples = 1 + r.below(5);
            t.line('L', &[epsilon.to_bits(), min_samples, n as u64]);
            for l in original::labels(&points, epsilon, min_samples as usize) {
                t.line('C', &[l as u64]);
            }
            counts[4] += 1;
        }
    }
    (t.0, counts)
}

/// One map that grows to 1,024 points; after each growth some questions. The records, and the lines to print.
fn station(r: &mut Random) -> (Vec<u8>, String) {
    let (mut bytes, mut lines) = (Vec::<u8>::new(), String::new());
    let floats = |bytes: &mut Vec<u8>, kind: u8, values: &[f64]| {
        bytes.push(kind);
        values.iter().for_each(|v| bytes.extend(v.to_le_bytes()));
    };
    let hit = |lines: &mut String, i: usize, d: f64| writeln!(lines, "{i} {:016X}", d.to_bits()).unwrap();
    let all: Vec<f64> = [maps::whole(7, 424, r), maps::whole(0, 300, r), maps::whole(8, 300, r)].concat();
    let mut n = 0;
    for upto in [1, 2, 3, 5, 8, 15, 16, 17, 18, 31, 33, 34, 64, 65, 100, 150, 200, 300, 424, 500, 700, 724, 900, 1023, 1024] {
        while n < upto {
            floats(&mut bytes, 1, &all[2 * n..2 * n + 2]);
            n += 1;
        }
        let points = &all[..2 * n];
        let tree = original::build(points, 16);
        let mut asked = 0;
        let mut tries = 0;
        while asked < 6 && tries < 300 {
            tries += 1;
            let (x, y) = maps::whole_place(points, r);
            if !untied(points, x, y, 1) {
                continue;
            }
            asked += 1;
            floats(&mut bytes, 2, &[x, y]);
            let (i, d) = original::nearest(&tree, x, y).unwrap();
            writeln!(lines, "N {i} {:016X}", d.to_bits()).unwrap();
            let k = r.pick(&[0u32, 1, 2, 4, 9]);
            if untied(points, x, y, k as usize) {
                floats(&mut bytes, 3, &[x, y]);
                bytes.extend(k.to_le_bytes());
                let hits = original::k_nearest(&tree, x, y, k as usize);
                writeln!(lines, "K {}", hits.len()).unwrap();
                hits.iter().for_each(|(i, d)| hit(&mut lines, *i, *d));
            }
            let radius = maps::half_radius(points, (x, y), r).min(4000.5);
            floats(&mut bytes, 4, &[x, y, radius]);
            let hits = rising(original::radius(&tree, x, y, radius));
            writeln!(lines, "R {}", hits.len()).unwrap();
            hits.iter().for_each(|(i, d)| hit(&mut lines, *i, *d));
        }
        let (epsilon, min_samples) = (r.pick(&[40.5, 5000.5, 60_000.5, 200_000.5]), r.pick(&[1u32, 2, 3, 5]));
        floats(&mut bytes, 5, &[epsilon]);
        bytes.extend(min_samples.to_le_bytes());
        writeln!(lines, "C {n}").unwrap();
        for l in original::labels(points, epsilon, min_samples as usize) {
            if l == rule::NOISE {
                lines.push_str("-\n");
            } else {
                writeln!(lines, "{l}").unwrap();
            }
        }
    }
    (bytes, lines)
}

fn main() {
    let Some(folder) = std::env::args().nth(1) else {
        eprintln!("record FOLDER");
        std::process::exit(2);
    };
    let mut r = Random::new(33);
    let (text, counts) = answers(&mut r);
    let (bytes, lines) = station(&mut r);
    println!("answers.txt: {} maps, {} nearest, {} k-nearest, {} radius, {} labelled, {} bytes", counts[0], counts[1], counts[2], counts[3], counts[4], text.len());
    println!("station: {} bytes in, {} lines out", bytes.len(), lines.lines().count());
    for (name, content) in [("answers.txt", text.into_bytes()), ("station.stdin", bytes), ("station.stdout", lines.into_bytes())] {
        let file = Path::new(&folder).join(name);
        if let Err(e) = std::fs::create_dir_all(&folder).and_then(|()| std::fs::write(&file, content)) {
            eprintln!("record: {}: {e}", file.display());
            std::process::exit(1);
        }
    }
}
