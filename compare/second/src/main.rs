//! The second program: one exchange of degradable Byzantine agreement, written a second time from the
//! paper, to be compared with the module. It is made to be read, not to be fast.
//!
//! - `second make COUNT SEED` writes cases, one a line: a fixed part, then random ones up to COUNT.
//! - `second answer` reads cases and writes an answer line for each.
//! - `second drive PROGRAM [WORDS..]` does so for the file cases alone and has PROGRAM answer them.
//! - `second play` reads one scenario file and writes what the program for one exchange should.

mod cases;
mod drive;
mod exchange;
mod make;
mod random;
mod refusals;
mod routes;
mod scenario;
mod vote;
mod words;
#[cfg(test)]
mod worked;

use std::io::{self, BufRead, BufWriter, Read, Write};
use std::process::ExitCode;

fn main() -> ExitCode {
    let words: Vec<String> = std::env::args().skip(1).collect();
    let done = match words.iter().map(String::as_str).collect::<Vec<_>>()[..] {
        ["make", count, seed] => match (count.parse(), seed.parse()) {
            (Ok(count), Ok(seed)) => make(count, seed),
            _ => return usage(),
        },
        ["answer"] => answer_each(|case| Ok(Some(cases::answer(case)))),
        ["drive", _, ..] => answer_each(|case| drive::answer(&words[1..], case)),
        ["play"] => play(),
        _ => return usage(),
    };
    match done {
        Ok(()) => ExitCode::SUCCESS,
        Err(error) => {
            eprintln!("second: {error}");
            ExitCode::FAILURE
        }
    }
}

fn usage() -> ExitCode {
    eprintln!("usage: second make COUNT SEED | answer | drive PROGRAM [WORDS..] | play");
    ExitCode::from(2)
}

fn make(count: usize, seed: u64) -> io::Result<()> {
    let mut output = BufWriter::new(io::stdout().lock());
    make::make(count, seed, |case| writeln!(output, "{case}"))?;
    output.flush()
}

fn answer_each(answer: impl Fn(&cases::Case) -> io::Result<Option<String>>) -> io::Result<()> {
    let mut output = BufWriter::new(io::stdout().lock());
    for line in io::stdin().lock().lines() {
        if let Some(text) = answer(&cases::read(&line?))? {
            writeln!(output, "{text}")?;
        }
    }
    output.flush()
}

fn play() -> io::Result<()> {
    let mut input = Vec::new();
    io::stdin().lock().read_to_end(&mut input)?;
    io::stdout().lock().write_all(scenario::play(&input).as_bytes())
}
