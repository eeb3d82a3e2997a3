//! A second program for the port controller, written from document 01 and
//! the console's line language alone.
//!
//!     reference answer                      answers the lines of standard input
//!     reference script SEED LINES [KIND]    makes a script for the console
//!     reference words                       each word, status and small demand
//!     reference count                       counts what a script meets

use reference::{count, lines, scripts};
use std::io::{self, BufRead, BufReader, BufWriter, Read, Write};
use std::process::ExitCode;

const USAGE: &str = "usage: reference answer < LINES
       reference script SEED LINES [KIND] > LINES
       reference words > LINES
       reference count < LINES
KIND: mixed (the default), walks, limits, illmade, frames, readings, bad,
alone, cells";

fn main() -> ExitCode {
    let words: Vec<String> = std::env::args().skip(1).collect();
    let words: Vec<&str> = words.iter().map(String::as_str).collect();
    let done = match words[..] {
        ["answer"] => answer(),
        ["count"] => count_all(),
        ["words"] => io::stdout().lock().write_all(&scripts::words()),
        ["script", seed, lines] => script(seed, lines, "mixed"),
        ["script", seed, lines, kind] => script(seed, lines, kind),
        _ => Err(io::Error::other(USAGE)),
    };
    match done {
        Ok(()) => ExitCode::SUCCESS,
        Err(error) if error.kind() == io::ErrorKind::BrokenPipe => ExitCode::SUCCESS,
        Err(error) => {
            eprintln!("{error}");
            ExitCode::FAILURE
        }
    }
}

/// One answer line for each line; what is answered is written out whenever no
/// more input waits.
fn answer() -> io::Result<()> {
    let mut input = BufReader::with_capacity(1 << 16, io::stdin().lock());
    let mut output = BufWriter::new(io::stdout().lock());
    let mut console = lines::Console::new();
    let mut line = Vec::new();
    loop {
        line.clear();
        if input.read_until(b'\n', &mut line)? == 0 {
            return output.flush();
        }
        if line.last() == Some(&b'\n') {
            line.pop();
        }
        writeln!(output, "{}", console.answer(&line))?;
        if input.buffer().is_empty() {
            output.flush()?;
        }
    }
}

fn count_all() -> io::Result<()> {
    let mut script = Vec::new();
    io::stdin().lock().read_to_end(&mut script)?;
    io::stdout().lock().write_all(count::counted(&script).as_bytes())
}

fn script(seed: &str, lines: &str, kind: &str) -> io::Result<()> {
    let number = |word: &str| word.parse::<u64>().map_err(|_| io::Error::other(USAGE));
    let kind = scripts::Kind::named(kind).ok_or_else(|| io::Error::other(USAGE))?;
    let script = scripts::made(number(seed)?, number(lines)?, kind);
    io::stdout().lock().write_all(&script)
}
