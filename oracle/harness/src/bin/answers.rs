//! Reads cases on standard input, prints the original's answer and the scan's. One word of what a line is, then numbers:
//!   leaf 16                 leaf size from here on; ends the map
//!   points x y x y ..       a new map
//!   nearest x y | k x y k | radius x y r | label epsilon min_samples
//! A number is decimal, inf, nan, or 0x and 16 hex digits of the float's bits.

use harness::{original, rule};
use std::io::BufRead;

fn number(word: &str) -> f64 {
    match word.strip_prefix("0x") {
        Some(hex) => f64::from_bits(u64::from_str_radix(hex, 16).expect("16 hex digits")),
        None => word.parse().unwrap_or_else(|_| panic!("not a number: {word}")),
    }
}

fn main() {
    let (mut leaf, mut points) = (16usize, Vec::<f64>::new());
    for line in std::io::stdin().lock().lines() {
        let line = line.expect("text");
        let words: Vec<&str> = line.split_whitespace().collect();
        let Some((&what, rest)) = words.split_first() else {
            continue;
        };
        let v: Vec<f64> = rest.iter().map(|w| number(w)).collect();
        let tree = || original::build(&points, leaf);
        match (what, v.as_slice()) {
            ("leaf", [l]) => leaf = *l as usize,
            ("points", all) => points = all.to_vec(),
            ("nearest", [x, y]) => {
                println!("{line}\n  original {:?}\n  scan     {:?}", original::nearest(&tree(), *x, *y), rule::nearest(&points, *x, *y));
            }
            ("k", [x, y, k]) => {
                println!("{line}\n  original {:?}\n  scan     {:?}", original::k_nearest(&tree(), *x, *y, *k as usize), rule::k_nearest(&points, *x, *y, *k as usize));
            }
            ("radius", [x, y, r]) => {
                println!("{line}\n  original {:?}\n  scan     {:?}", original::radius(&tree(), *x, *y, *r), rule::radius(&points, *x, *y, *r));
            }
            ("label", [e, m]) => {
                println!("{line}\n  original {:?}\n  scan     {:?}", original::labels(&points, *e, *m as usize), rule::labels(&points, *e, *m as u32));
            }
            _ => {
                eprintln!("answers: not a case: {line}");
                std::process::exit(2);
            }
        }
    }
}
