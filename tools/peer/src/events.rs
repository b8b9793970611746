//! The event file of docs/EVENTS.md: its sections, its events, and why it is refused.
//! A file is taken as a whole, so that no event is run of one that is refused.

use crate::card::MARKED;
use crate::manager::{self, Kept};
use crate::status::DONE;

pub const FILE_MOST: usize = 65_536;

#[derive(Clone, Copy, PartialEq, Eq, Debug)]
pub enum Refusal {
    ContentsWrong,
    SectionMissing,
    FreshInputsBad,
    EventCutShort,
    EventOfUnknownKind,
    EventOfWrongLength,
}

impl Refusal {
    pub fn name(self) -> &'static str {
        match self {
            Refusal::ContentsWrong => "contents wrong",
            Refusal::SectionMissing => "section missing",
            Refusal::FreshInputsBad => "fresh inputs bad",
            Refusal::EventCutShort => "event cut short",
            Refusal::EventOfUnknownKind => "event of unknown kind",
            Refusal::EventOfWrongLength => "event of wrong length",
        }
    }

    pub fn meaning(self) -> &'static str {
        match self {
            Refusal::ContentsWrong => "the file is too long, or its sections are not known ones that lie end to end",
            Refusal::SectionMissing => "the fresh card's inputs or the events are not listed",
            Refusal::FreshInputsBad => "the fresh card's inputs are under 32 bytes, or no card is made of them",
            Refusal::EventCutShort => "the events end within an event",
            Refusal::EventOfUnknownKind => "an event is of no kind that there is",
            Refusal::EventOfWrongLength => "an event has too few or too many bytes for its kind",
        }
    }
}

/// The section kinds, each at its own place in what `sections` hands back.
const KINDS: [u32; 2] = [1, 2];
const COUNT_BYTES: usize = 4;
const ENTRY_BYTES: usize = 12;

const COMMAND: u8 = 1;
const KEYED: u8 = 2;
const STORED: u8 = 3;
const FINISHED: u8 = 4;
const TICK: u8 = 5;
const LOST: u8 = 6;
const FINISHED_WITH_MARK: u8 = 7;
const POLICY: u8 = 8;

#[derive(Clone, Copy, PartialEq, Eq, Debug)]
pub enum Event<'a> {
    Command { verdict: u8, bytes: &'a [u8] },
    Keyed(&'a [u8]),
    Stored(&'a [u8], u32),
    Finished { aid: &'a [u8], policy: u8, mark: u8 },
    Tick,
    Lost,
    Policy { speaker: &'a [u8], bytes: &'a [u8] },
}

/// What a file holds that nothing refuses: its fresh card and the body of its events.
pub struct Month<'a> {
    pub fresh: Kept,
    events: &'a [u8],
}

impl<'a> Month<'a> {
    /// The refusals are asked in the order of their table.
    pub fn of(file: &'a [u8]) -> Result<Month<'a>, Refusal> {
        let sections = sections(file).ok_or(Refusal::ContentsWrong)?;
        let [Some(inputs), Some(events)] = sections else { return Err(Refusal::SectionMissing) };
        let fresh = fresh(inputs).ok_or(Refusal::FreshInputsBad)?;
        check(events)?;
        Ok(Month { fresh, events })
    }

    pub fn events(&self) -> impl Iterator<Item = Event<'a>> {
        let mut left = self.events;
        std::iter::from_fn(move || {
            let (kind, bytes, rest) = split_event(left)?;
            left = rest;
            event(kind, bytes).ok()
        })
    }
}

fn number(bytes: &[u8]) -> Option<(u32, &[u8])> {
    let (number, rest) = bytes.split_first_chunk()?;
    Some((u32::from_be_bytes(*number), rest))
}

/// The body of each kind that is listed. Sorted by where they begin, the bodies have to lie end to end; of two
/// that begin together the empty one comes first, so an empty body inside another one is an overlap.
fn sections(file: &[u8]) -> Option<[Option<&[u8]>; KINDS.len()]> {
    let (count, rest) = number(file)?;
    // A count of 32 bits and a sum of two such numbers pass no end of 64 bits.
    let length = (count as usize) * ENTRY_BYTES;
    if file.len() > FILE_MOST || length > rest.len() {
        return None;
    }
    let mut listed = [None; KINDS.len()];
    let mut laid = Vec::with_capacity(KINDS.len());
    for entry in rest[..length].chunks_exact(ENTRY_BYTES) {
        let (kind, entry) = number(entry)?;
        let (start, entry) = number(entry)?;
        let (length, _) = number(entry)?;
        let place = &mut listed[KINDS.iter().position(|known| *known == kind)?];
        let (start, end) = (start as usize, start as usize + length as usize);
        if place.replace(file.get(start..end)?).is_some() {
            return None;
        }
        laid.push((start, end));
    }
    laid.sort_unstable();
    let mut reached = COUNT_BYTES + length;
    for (start, end) in laid {
        if start != reached {
            return None;
        }
        reached = end;
    }
    (reached == file.len()).then_some(listed)
}

fn fresh(inputs: &[u8]) -> Option<Kept> {
    let (eid, rest) = inputs.split_at_checked(16)?;
    let (capacity, rest) = number(rest)?;
    let (quota, rest) = number(rest)?;
    let (used, rest) = number(rest)?;
    let (volatile, aid) = number(rest)?;
    let (fresh, answer) = manager::fresh(eid, aid, capacity, quota, used, volatile);
    (answer.status == DONE).then_some(fresh)
}

/// The first event's kind and bytes, and what follows it; none where it is cut short.
fn split_event(events: &[u8]) -> Option<(u8, &[u8], &[u8])> {
    let [kind, high, low, rest @ ..] = events else { return None };
    let (bytes, rest) = rest.split_at_checked(usize::from(u16::from_be_bytes([*high, *low])))?;
    Some((*kind, bytes, rest))
}

fn event(kind: u8, bytes: &[u8]) -> Result<Event<'_>, Refusal> {
    match (kind, bytes) {
        (COMMAND, [verdict, bytes @ ..]) => Ok(Event::Command { verdict: *verdict, bytes }),
        (KEYED, aid) => Ok(Event::Keyed(aid)),
        (STORED, [a, b, c, d, aid @ ..]) => Ok(Event::Stored(aid, u32::from_be_bytes([*a, *b, *c, *d]))),
        // Of a logger that knows no mark.
        (FINISHED, [policy, aid @ ..]) => Ok(Event::Finished { aid, policy: *policy, mark: MARKED }),
        (FINISHED_WITH_MARK, [policy, mark, aid @ ..]) => Ok(Event::Finished { aid, policy: *policy, mark: *mark }),
        (TICK, []) => Ok(Event::Tick),
        (LOST, []) => Ok(Event::Lost),
        (POLICY, [length, bytes @ ..]) => {
            let split = bytes.split_at_checked(usize::from(*length));
            let (speaker, bytes) = split.ok_or(Refusal::EventOfWrongLength)?;
            Ok(Event::Policy { speaker, bytes })
        }
        (COMMAND | STORED | FINISHED | FINISHED_WITH_MARK | TICK | LOST | POLICY, _) => {
            Err(Refusal::EventOfWrongLength)
        }
        _ => Err(Refusal::EventOfUnknownKind),
    }
}

/// One walk for three refusals: an event that is cut short stands last, but comes before the two others,
/// and an unknown kind anywhere comes before every wrong length.
fn check(events: &[u8]) -> Result<(), Refusal> {
    let mut left = events;
    let mut found = Ok(());
    while !left.is_empty() {
        let (kind, bytes, rest) = split_event(left).ok_or(Refusal::EventCutShort)?;
        left = rest;
        match event(kind, bytes) {
            Ok(_) => {}
            Err(Refusal::EventOfUnknownKind) => found = Err(Refusal::EventOfUnknownKind),
            Err(other) => found = found.and(Err(other)),
        }
    }
    found
}
