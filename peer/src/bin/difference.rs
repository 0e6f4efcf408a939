//! difference SCRIPT GOT WANTED: says where two outputs of a script first
//! differ: the number of the output line, the input line that it answers, and
//! both lines. (The input line is told by the wanted output, in which each
//! input line has one line, and `state` all lines up to `end`.)

#![forbid(unsafe_code)]

use std::process::ExitCode;

fn main() -> ExitCode {
    let files: Vec<Vec<u8>> =
        std::env::args_os().skip(1).filter_map(|path| std::fs::read(path).ok()).collect();
    let [script, got, wanted] = files.as_slice() else {
        eprintln!("usage: difference SCRIPT GOT WANTED");
        return ExitCode::from(2);
    };
    let (got, wanted) = (lines(got), lines(wanted));
    let shorter = got.len().min(wanted.len());
    let at = (0..shorter).find(|&line| got[line] != wanted[line]).unwrap_or(shorter);
    println!("  output line {}", at + 1);
    match input_line(&lines(script), &wanted, at) {
        Some((number, text)) => println!("  input line {number}: {}", shown(text, 0)),
        None => println!("  input line: cannot be told"),
    }
    let column = match (got.get(at), wanted.get(at)) {
        (Some(got), Some(wanted)) => {
            got.iter().zip(wanted.iter()).take_while(|(g, w)| g == w).count()
        }
        _ => 0,
    };
    let show =
        |line: Option<&&[u8]>| line.map_or("(no line)".to_string(), |line| shown(line, column));
    println!("  program: {}", show(got.get(at)));
    println!("  peer:    {}", show(wanted.get(at)));
    ExitCode::SUCCESS
}

/// The lines, each with its LF if it has one.
fn lines(bytes: &[u8]) -> Vec<&[u8]> {
    bytes.split_inclusive(|&byte| byte == b'\n').collect()
}

/// The input line (number and bytes) that this line of the output answers.
fn input_line<'a>(script: &[&'a [u8]], wanted: &[&[u8]], at: usize) -> Option<(usize, &'a [u8])> {
    if wanted.first() == Some(&b"long\n".as_slice()) {
        return None;
    }
    let mut next = 0;
    for (number, line) in script.iter().enumerate() {
        if *line == b"state\n" {
            while next < wanted.len() && wanted[next] != b"end\n" {
                next += 1;
            }
        }
        next += 1;
        if at < next {
            return Some((number + 1, line));
        }
    }
    None
}

/// A line in printable form; of a long one only what lies round the column.
fn shown(line: &[u8], column: usize) -> String {
    let from = if line.len() <= 160 { 0 } else { column.saturating_sub(40).min(line.len()) };
    let to = line.len().min(from + 160);
    let before = if from > 0 { format!("(from byte {}) ...", from + 1) } else { String::new() };
    let after = if to < line.len() { "..." } else { "" };
    format!("{before}{}{after}", line[from..to].escape_ascii())
}
