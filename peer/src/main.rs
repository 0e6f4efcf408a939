//! peer: reads a script from standard input and prints its output.
//! peer --fault N: the same with fault N (1 to 31) planted.
//! peer --faults: prints how many faults there are.

use peer::fault::{by_number, Fault, FAULTS};
use peer::script::{run, LONGEST_SCRIPT};
use std::io::{self, Read, Write};
use std::process::ExitCode;

fn main() -> ExitCode {
    let words: Vec<String> =
        std::env::args_os().skip(1).map(|word| word.to_string_lossy().into_owned()).collect();
    let words: Vec<&str> = words.iter().map(String::as_str).collect();
    let fault = match words.as_slice() {
        [] => Some(Fault::None),
        ["--fault", number] => number.parse().ok().and_then(by_number),
        ["--faults"] => return written(&format!("{}\n", FAULTS.len())),
        _ => None,
    };
    let Some(fault) = fault else {
        let _ = writeln!(io::stderr(), "usage: peer [--fault N | --faults]");
        return ExitCode::from(2);
    };

    // One byte more than a script may have is enough to know that it is long.
    let mut script = Vec::new();
    if io::stdin().take(LONGEST_SCRIPT as u64 + 1).read_to_end(&mut script).is_err() {
        return ExitCode::FAILURE;
    }
    written(&run(&script, fault))
}

fn written(text: &str) -> ExitCode {
    let mut out = io::stdout().lock();
    if out.write_all(text.as_bytes()).and_then(|()| out.flush()).is_ok() {
        ExitCode::SUCCESS
    } else {
        ExitCode::FAILURE
    }
}
