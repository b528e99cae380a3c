//! The program: see the library beside it.

use std::io::{self, Write};
use std::process::ExitCode;
use target::options::{Options, HELP};

fn main() -> ExitCode {
    let Err(why) = run() else {
        return ExitCode::SUCCESS;
    };
    // Where the standard error is closed, the exit status says it alone.
    let _ = writeln!(io::stderr(), "target: {why}");
    ExitCode::FAILURE
}

fn run() -> Result<(), String> {
    let words: Result<Vec<String>, _> = std::env::args_os().skip(1).map(|word| word.into_string()).collect();
    let words = words.map_err(|word| format!("{word:?} isn't UTF-8"))?;
    if words.iter().any(|word| word == "--help") {
        return io::stdout().write_all(HELP.as_bytes()).map_err(|why| why.to_string());
    }
    target::run(Options::read(words.into_iter())?).map_err(|why| why.to_string())
}
