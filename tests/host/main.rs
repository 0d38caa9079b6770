//! `host test [seed] [rounds]` holds the library against the model; `host bench [seed]` times
//! both. The script `run` builds it.

mod bench;
mod boundary;
mod cards;
mod chips;
mod driver;
mod fence;
mod figures;
mod images;
mod library;
mod model;
mod random;
mod readings;
mod restarts;
mod rounds;
mod states;
mod subject;
mod tests;
mod text;

use driver::Driver;
use library::Library;

fn test(seed: u64, rounds: usize) {
    let mut driver = Driver::new(&Library);
    figures::run(&mut driver);
    println!("figures of the paper: {} calls", driver.total());
    println!("the boundary itself: a fault here is a byte read or written beside a lent buffer");
    let calls = boundary::run(seed, rounds);
    println!("the boundary itself: {} calls", calls);
    tests::run(&mut driver, seed, rounds);
    println!("host: {} calls agree", driver.total() + calls);
}

fn main() {
    let words: Vec<String> = std::env::args().collect();
    let number = |k: usize, other: u64| words.get(k).and_then(|word| word.parse().ok()).unwrap_or(other);
    match words.get(1).map(String::as_str) {
        Some("test") => test(number(2, 1), number(3, 1) as usize),
        Some("bench") => bench::all(&Library, number(2, 1)),
        _ => {
            eprintln!("host test [seed] [rounds], or host bench [seed]");
            std::process::exit(2);
        }
    }
}
