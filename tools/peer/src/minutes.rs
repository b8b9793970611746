//! The report of minutes by profile (docs/EVENTS.md): for whom each tick of an event file counts,
//! and what is written of it, plain or for a person.

use crate::answers::digits;
use crate::card::Aid;
use crate::events::{Event, Month, Refusal};
use crate::manager::{self, BUFFER_LEAST};
use crate::status::is_done;
use std::fmt::Write;

const LINES_MOST: usize = 64;

#[derive(Default)]
struct Report {
    lines: Vec<(Aid, u32)>,
    /// None until a 65th AID is enabled.
    rest: Option<u32>,
    ticks: u32,
    events: u32,
    refused: u32,
}

impl Report {
    fn of(month: &Month) -> Report {
        let mut report = Report::default();
        let mut kept = month.fresh;
        let mut buffer = [0u8; BUFFER_LEAST];
        let mut line = report.enable(kept.card().enabled_aid());
        for event in month.events() {
            report.events += 1;
            let answer = match event {
                Event::Command { verdict, bytes } => manager::command(&mut kept, verdict, bytes, &mut buffer),
                Event::Keyed(aid) => manager::keyed(&mut kept, aid),
                Event::Stored(aid, n) => manager::stored(&mut kept, aid, n),
                Event::Finished { aid, policy, mark } => manager::finished(&mut kept, aid, policy, mark),
                Event::Tick => {
                    report.count(line);
                    manager::tick(&mut kept)
                }
                Event::Lost => manager::lost(&mut kept),
                Event::Policy { speaker, bytes } => manager::policy(&mut kept, speaker, bytes, &buffer),
            };
            report.refused += u32::from(!is_done(answer.status));
            // Whatever enables a profile issues a notification, which bears its AID; a test holds the two together.
            if let Some(notification) = answer.notification {
                line = report.enable(notification.aid);
            }
        }
        report
    }

    /// The line of the AID, a new one where there is none and room is left; else that of the rest.
    fn enable(&mut self, aid: Aid) -> usize {
        if let Some(line) = self.lines.iter().position(|(named, _)| *named == aid) {
            return line;
        }
        if self.lines.len() < LINES_MOST {
            self.lines.push((aid, 0));
            return self.lines.len() - 1;
        }
        self.rest.get_or_insert(0);
        LINES_MOST
    }

    fn count(&mut self, line: usize) {
        self.ticks += 1;
        match self.lines.get_mut(line) {
            Some((_, ticks)) => *ticks += 1,
            None => *self.rest.get_or_insert(0) += 1,
        }
    }

    /// Each line's name and ticks, that of the rest last.
    fn rows(&self) -> impl Iterator<Item = (String, u32)> + '_ {
        let rest = self.rest.map(|ticks| ("rest".to_owned(), ticks));
        self.lines.iter().map(|(aid, ticks)| (digits(aid.bytes()), *ticks)).chain(rest)
    }

    fn put(&self, out: &mut String) {
        for (name, ticks) in self.rows() {
            let _ = writeln!(out, "{name} {ticks}");
        }
        let _ = writeln!(out, "ticks {}\nevents {}", self.ticks, self.events);
    }

    fn put_explained(&self, out: &mut String) {
        let _ = writeln!(out, "{:32}{:>9}{:>8}", "AID", "minutes", "share");
        for (name, ticks) in self.rows() {
            let _ = writeln!(out, "{name:32}{ticks:>9}{:>8}", share(ticks, self.ticks));
        }
        for (name, number) in [("ticks", self.ticks), ("events", self.events), ("refused", self.refused)] {
            let _ = writeln!(out, "{name:32}{number:>9}");
        }
    }
}

/// In tenths of a percent, a half upwards.
fn share(part: u32, whole: u32) -> String {
    if whole == 0 {
        return "-".to_owned();
    }
    let tenths = (2000 * part + whole) / (2 * whole);
    format!("{}.{}%", tenths / 10, tenths % 10)
}

fn put_refusal(out: &mut String, refusal: Refusal, explained: bool) {
    let _ = writeln!(out, "refused: {}", refusal.name());
    if explained {
        let _ = writeln!(out, "{}\nno event was run", refusal.meaning());
    }
}

/// Adds what is written of one file to `out`.
pub fn put_report(out: &mut String, file: &[u8], explained: bool) {
    match Month::of(file) {
        Err(refusal) => put_refusal(out, refusal, explained),
        Ok(month) if explained => Report::of(&month).put_explained(out),
        Ok(month) => Report::of(&month).put(out),
    }
}
