// The workloads of hashed sets in plain Rust: a HashSet, which knows neither cursors nor tampering.
use std::collections::HashSet;

fn number(place: usize) -> u64 {
    std::env::args().nth(place).expect("rows and rounds").parse().expect("a number")
}

/// Clears a set, inserts so many numbers and removes half of them, so many times, and gives the length.
fn change(numbers: impl Fn(u64) -> i64, rows: u64, rounds: u64) -> usize {
    let mut set = HashSet::new();
    for _ in 0..rounds {
        set.clear();
        for place in 0..rows {
            set.insert(numbers(place));
        }
        for place in 0..rows / 2 {
            set.remove(&numbers(place));
        }
    }
    set.len()
}

fn main() {
    let (rows, rounds) = (number(2), number(3));
    let len = match std::env::args().nth(1).expect("a workload").as_str() {
        "hashed" => change(|place| (place.wrapping_mul(7919) % 1_000_003) as i64, rows, rounds),
        _ => change(|place| place as i64, rows, rounds),
    };
    println!("{len}");
}
