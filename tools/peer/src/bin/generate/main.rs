//! `generate SEED CALLS [bad | month | free | free bad | listing | listing bad]`: writes one script of about CALLS
//! calls, the same for the same words. It plays each line on the peer's own card as it writes it, so that most calls
//! meet a card on which they matter; with `bad`, the script ends in a line that cannot be read; with `month`, it is
//! one fresh card and what an event file can hold; with `free`, the free memory is looked at wherever it moves,
//! and the card is handed in again and again with a free that is not its own; with `listing`, cards hold many
//! profiles, most calls are parts of a listing or come between two, and the card is handed in with other kept places.
//! Operators' policy updates are among the calls of each.

// The modules it shares with the peer; of two of them it needs only part.
#[path = "../../answers.rs"]
mod answers;
#[path = "../../card.rs"]
mod card;
#[path = "../../manager.rs"]
mod manager;
#[path = "../../operator.rs"]
mod operator;
#[path = "../../read.rs"]
mod read;
#[allow(dead_code)]
#[path = "../../script.rs"]
mod script;
#[allow(dead_code)]
#[path = "../../status.rs"]
mod status;

mod aids;
mod bad_lines;
mod broken;
mod cards;
mod chapters;
mod commands;
mod downloads;
mod frames;
mod listings;
mod policies;
mod random;

use card::Aid;
use random::Random;
use script::{Options, Script};
use std::process::ExitCode;

struct Generator {
    random: Random,
    model: Script,
    aids: Vec<Vec<u8>>,
    /// The AID that was deleted last, if any.
    gone: Option<Aid>,
    out: String,
    calls: usize,
    /// The script is to be an event file: no command says how long its buffer is.
    is_month: bool,
    /// The script is about the free memory.
    is_free: bool,
    /// The script is about listings in parts.
    is_listing: bool,
}

impl Generator {
    fn put(&mut self, line: String) {
        let mut answer = String::new();
        self.model.line(line.as_bytes(), &mut answer).expect("a line of the generator can be read");
        self.out.push_str(&line);
        self.out.push('\n');
        self.calls += 1;
    }
}

fn usage() -> ExitCode {
    eprintln!("usage: generate SEED CALLS [bad | month | free | free bad | listing | listing bad]");
    ExitCode::from(2)
}

fn main() -> ExitCode {
    let arguments: Vec<String> = std::env::args().skip(1).collect();
    let number = |index: usize| arguments.get(index).and_then(|word| word.parse::<u64>().ok());
    let words: Vec<&str> = arguments.iter().skip(2).map(String::as_str).collect();
    let (mode, is_bad) = match words[..] {
        [] => ("", false),
        ["bad"] => ("", true),
        [mode @ ("month" | "free" | "listing")] => (mode, false),
        [mode @ ("free" | "listing"), "bad"] => (mode, true),
        _ => return usage(),
    };
    let (Some(seed), Some(calls)) = (number(0), number(1)) else { return usage() };
    let mut generator = Generator {
        random: Random(seed),
        model: Script::new(Options::default()),
        aids: Vec::new(),
        gone: None,
        out: String::new(),
        calls: 0,
        is_month: mode == "month",
        is_free: mode == "free",
        is_listing: mode == "listing",
    };
    if generator.is_month {
        generator.month(calls as usize);
    } else {
        generator.chapters(calls as usize);
    }
    if is_bad {
        let line = generator.bad_line();
        generator.out.push_str(&line);
        generator.out.push_str("\ntick\n");
    }
    print!("{}", generator.out);
    ExitCode::SUCCESS
}
