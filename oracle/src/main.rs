//! The oracle's commands. The shell scripts beside this folder call them.

use oracle::{answer, check, compare, list};
use std::io::{BufReader, BufWriter};
use std::path::Path;
use std::process::ExitCode;

fn main() -> ExitCode {
    let words: Vec<String> = std::env::args().skip(1).collect();
    let words: Vec<&str> = words.iter().map(String::as_str).collect();
    match run(&words) {
        Ok(true) => ExitCode::SUCCESS,
        Ok(false) => ExitCode::from(1),
        Err(problem) => {
            eprintln!("oracle: {problem}");
            ExitCode::from(1)
        }
    }
}

/// True if nothing differs.
fn run(words: &[&str]) -> Result<bool, String> {
    match words {
        ["answers"] => answers(),
        ["check", design, corpus] => check::check(Path::new(design), Path::new(corpus)),
        ["compare", kind, count, seed, "--", ours @ ..] => compare::compare(kind, count, seed, ours),
        ["make", kind, count, seed] => compare::make(kind, count, seed),
        ["list", design, folder, kinds @ ..] => list::list(Path::new(design), Path::new(folder), kinds),
        _ => Err("expected answers, check, compare, make or list with their words".to_string()),
    }
}

fn answers() -> Result<bool, String> {
    let mut input = BufReader::with_capacity(1 << 16, std::io::stdin().lock());
    let mut output = BufWriter::with_capacity(1 << 16, std::io::stdout().lock());
    answer::answer_all(&mut input, &mut output).map_err(|error| error.to_string())?;
    Ok(true)
}
