//! scripts COUNT SEED DIR: writes DIR/0001.in, DIR/0002.in, ... up to COUNT,
//! made from the seed and nothing else. Kinds in turn: realistic, dense,
//! hostile, images, long.

#![forbid(unsafe_code)]

mod images;
mod kinds;
mod lines;
mod lists;
mod messages;
mod random;
mod ranges;
mod sheet;
mod tidies;

use std::path::Path;
use std::process::ExitCode;

fn main() -> ExitCode {
    let words: Vec<_> = std::env::args_os().skip(1).collect();
    let number = |at: usize| words.get(at)?.to_str()?.parse::<u64>().ok();
    let (Some(count), Some(seed), 3) = (number(0), number(1), words.len()) else {
        eprintln!("usage: scripts COUNT SEED DIR");
        return ExitCode::from(2);
    };
    for number in 1..=count {
        let path = Path::new(&words[2]).join(format!("{number:04}.in"));
        if let Err(error) = std::fs::write(&path, kinds::script(seed, number)) {
            eprintln!("{}: {error}", path.display());
            return ExitCode::FAILURE;
        }
    }
    ExitCode::SUCCESS
}
