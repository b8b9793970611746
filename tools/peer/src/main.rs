//! The independent peer of `teapot`: takes its arguments (docs/SCRIPT.md) and answers as it does.
//! `peer minutes` is that of `minutes` (docs/EVENTS.md); `peer read CAPACITY [FILE]` shows how the command
//! reader takes each line's bytes. Thin: lines and files in, text out.

mod answers;
mod card;
#[cfg(test)]
mod deletion_tests;
mod events;
#[cfg(test)]
mod free_tests;
#[cfg(test)]
mod listing_tests;
mod manager;
mod minutes;
#[cfg(test)]
mod minutes_tests;
mod operator;
#[cfg(test)]
mod policy_tests;
mod read;
mod script;
mod status;
#[cfg(test)]
mod tests;

use events::FILE_MOST;
use minutes::put_report;
use script::{Bad, Options, Script, LINE_MOST};
use std::fs::File;
use std::io::{self, ErrorKind, Read, Write};
use std::process::ExitCode;

const CHUNK: usize = 65_536;
const EXPLAIN: &str = "explain";
const ASK: &str = "ask";

fn main() -> ExitCode {
    let arguments: Vec<String> = std::env::args().skip(1).collect();
    let arguments: Vec<&str> = arguments.iter().map(String::as_str).collect();
    let played = match arguments[..] {
        ["read", capacity] => readings(capacity, "-"),
        ["read", capacity, file] => readings(capacity, file),
        ["minutes", ref arguments @ ..] => report(arguments),
        _ => play(&arguments),
    };
    match played {
        Ok(true) => ExitCode::SUCCESS,
        Ok(false) => ExitCode::from(1),
        Err(error) => {
            eprintln!("peer: {error}");
            ExitCode::from(2)
        }
    }
}

fn input(file: &str) -> io::Result<Box<dyn Read>> {
    Ok(match file {
        "-" => Box::new(io::stdin().lock()),
        _ => Box::new(File::open(file)?),
    })
}

/// Takes the arguments from left to right: an option holds for the files named after it, and a file that cannot be
/// opened is told and passed over. Hands back whether `take` could read each of them; where it could, a file that
/// could not be opened is the error.
fn each_input(
    arguments: &[&str],
    known: &[&str],
    mut take: impl FnMut(Box<dyn Read>, Options) -> io::Result<bool>,
) -> io::Result<bool> {
    let mut options = Options::default();
    let mut named = false;
    let mut all_read = true;
    let mut unopened = false;
    for argument in arguments {
        if known.contains(argument) {
            options.explained |= *argument == EXPLAIN;
            options.asks |= *argument == ASK;
            continue;
        }
        named = true;
        match input(argument) {
            Ok(input) => all_read &= take(input, options)?,
            Err(error) => {
                eprintln!("{argument}: {error}");
                unopened = true;
            }
        }
    }
    if !named {
        return take(input("-")?, options);
    }
    if unopened && all_read {
        return Err(io::Error::new(ErrorKind::NotFound, "not every file could be opened"));
    }
    Ok(all_read)
}

/// A line that cannot be read stops its own script and no other.
fn play(arguments: &[&str]) -> io::Result<bool> {
    each_input(arguments, &[EXPLAIN, ASK], play_one)
}

/// A refused file is reported like any other.
fn report(arguments: &[&str]) -> io::Result<bool> {
    let mut file = Vec::with_capacity(FILE_MOST + 1);
    let mut out = String::new();
    each_input(arguments, &[EXPLAIN], |input, options| {
        file.clear();
        // One byte too many is enough to refuse a file, however long it is.
        match input.take(FILE_MOST as u64 + 1).read_to_end(&mut file) {
            Ok(_) => put_report(&mut out, &file, options.explained),
            Err(_) => out.push_str("the read failed\n"),
        }
        put_out(&mut out)?;
        Ok(true)
    })
}

fn play_one(input: impl Read, options: Options) -> io::Result<bool> {
    let mut script = Script::new(options);
    each_line(input, |line, out| script.line(line, out))
}

fn readings(capacity: &str, file: &str) -> io::Result<bool> {
    let capacity: u32 = capacity.parse().map_err(|_| io::Error::new(ErrorKind::InvalidInput, "bad capacity"))?;
    each_line(input(file)?, |line, out| script::reading(line, capacity, out))
}

/// Answers are written out before each wait for more input, so that another program can drive
/// this one through pipes, and a line means the same however the input was cut into reads.
/// Hands back whether every line could be read.
fn each_line(mut input: impl Read, mut answer: impl FnMut(&[u8], &mut String) -> Result<(), Bad>) -> io::Result<bool> {
    let mut pending: Vec<u8> = Vec::new();
    let mut chunk = vec![0u8; CHUNK];
    let mut out = String::new();
    let mut number = 0u64;
    loop {
        put_out(&mut out)?;
        let count = match input.read(&mut chunk) {
            Err(error) if error.kind() == ErrorKind::Interrupted => continue,
            other => other?,
        };
        let mut arrived = &chunk[..count];
        let mut bad = None;
        while let Some(end) = arrived.iter().position(|byte| *byte == b'\n') {
            number += 1;
            let line = if pending.is_empty() {
                answer(&arrived[..end], &mut out)
            } else {
                pending.extend_from_slice(&arrived[..end]);
                let line = answer(&pending, &mut out);
                pending.clear();
                line
            };
            bad = line.err();
            if bad.is_some() {
                break;
            }
            arrived = &arrived[end + 1..];
        }
        if bad.is_none() {
            pending.extend_from_slice(arrived);
            let ended = count == 0;
            // An endless line is refused at its first byte too many, not held for its end.
            if pending.len() > LINE_MOST || (ended && !pending.is_empty()) {
                number += 1;
                bad = answer(&pending, &mut out).err();
            }
            if ended && bad.is_none() {
                put_out(&mut out)?;
                return Ok(true);
            }
        }
        if let Some(bad) = bad {
            out.push_str(&format!("line {number}: {}\n", bad.reason()));
            put_out(&mut out)?;
            return Ok(false);
        }
    }
}

fn put_out(out: &mut String) -> io::Result<()> {
    if !out.is_empty() {
        let mut stdout = io::stdout().lock();
        stdout.write_all(out.as_bytes())?;
        stdout.flush()?;
        out.clear();
    }
    Ok(())
}
