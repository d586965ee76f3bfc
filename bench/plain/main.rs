//! The scripts of `bench/play`, `bench/corners`, `bench/join`, `bench/load` and `tests/fuzz --costs`, played by plain Rust: what the proved
//! program is measured against. It prints the same bytes and leaves the same files, keeps the net as spelled messages with an index, and
//! the history, and keeps files open. It takes only the lines that these scripts have, and stops at any other.
//!
//! Words: none plays the script of the standard input by two servers, `trio` by three; `load COUNT SEED` the script of a large run, and
//! prints one line; `writes COUNT` makes the writes and syncs of that run and nothing else, and `joins COUNT` those of so many entries that
//! join a journal first.
mod disk;
mod lines;
mod load;
mod messages;
mod service;
mod world;

use std::io::{self, Read, Write};
use world::World;

fn play_input(count: usize) -> io::Result<()> {
    let mut script = String::new();
    io::stdin().read_to_string(&mut script)?;
    let mut lines = script.lines();
    let mut world = World::begin(lines.next().expect("a cluster line"), count, true)?;
    let mut stdout = io::stdout().lock();
    for line in lines {
        world.play(line)?;
        stdout.write_all(&world.take_lines())?;
    }
    Ok(())
}

fn main() -> io::Result<()> {
    let words: Vec<String> = std::env::args().skip(1).collect();
    let words: Vec<&str> = words.iter().map(String::as_str).collect();
    match words[..] {
        [] => play_input(2),
        ["trio"] => play_input(3),
        ["load", count, seed] => {
            println!("{}", load::load(lines::number(count), lines::number(seed))?);
            Ok(())
        }
        ["writes", count] => load::writes(lines::number(count)),
        ["joins", count] => load::joins(lines::number(count)),
        _ => panic!("words: none, trio, load COUNT SEED, writes COUNT, or joins COUNT"),
    }
}
