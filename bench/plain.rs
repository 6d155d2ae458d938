//! The jobs of `jobs.c` in plain Rust, with the standard library alone. For each it prints the same line.

use clock::Instant;
use std::time::Duration;

mod blocks;
mod both;
mod clock;
mod codec;
mod editing;
mod ends;
mod host;
mod sample;
mod terminal;
mod undo;
mod waiting;

pub struct Report {
    pub took: Duration,
    pub check: u64,
}

fn find(size: usize) -> Report {
    let mut text = sample::letters(size.saturating_sub(3));
    text.extend(['a', 'b', '!']);
    let pattern = ['a', 'b', '!'];
    let begin = Instant::now();
    let mut check = 0u64;
    for _ in 0..100 {
        let text = std::hint::black_box(&text);
        let found = text.windows(3).position(|part| part == pattern);
        if let Some(start) = found {
            check = check.wrapping_add(2 * start as u64 + 3);
        }
    }
    Report { took: begin.elapsed(), check }
}

fn main() {
    let words: Vec<String> = std::env::args().collect();
    let [_, job, size, ..] = words.as_slice() else { return };
    let size = size.parse().expect("a size");
    let report = match job.as_str() {
        "find" => find(size),
        "x" => editing::each(size),
        "undo" => undo::undone(size),
        "both_ends" => both::carried(size),
        "files" => both::opened(size),
        "waiting" => waiting::sent(size, false),
        "scattered" => waiting::sent(size, true),
        _ => panic!("no such job"),
    };
    println!("{job} {size} {} {}", report.took.as_nanos(), report.check);
}
