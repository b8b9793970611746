//! The script language of `teapot`: what a line means, and the card that the lines act on.
//! Works on bytes, not text: whatever is not a space belongs to a word.

use crate::answers::{put_explained, put_hex, put_line};
use crate::card::*;
use crate::manager::{self, Answer, Kept};
use crate::read::{read, Request, Rows};
use std::fmt::Write;

pub const LINE_MOST: usize = 4096;
const BUFFER_MOST: u32 = 1024;
const KEPT_MOST: u32 = 254;

#[derive(Clone, Copy, PartialEq, Eq, Debug)]
pub enum Bad {
    TooLong,
    UnknownWord,
    WordsMissing,
    TooManyWords,
    Hex,
    Number,
    Place,
    Phase,
}

impl Bad {
    pub fn reason(self) -> &'static str {
        match self {
            Bad::TooLong => "too long",
            Bad::UnknownWord => "unknown word",
            Bad::WordsMissing => "words missing",
            Bad::TooManyWords => "too many words",
            Bad::Hex => "bad hex",
            Bad::Number => "bad number",
            Bad::Place => "bad place",
            Bad::Phase => "bad phase",
        }
    }
}

/// The words of a line; none where it is empty or a comment.
fn words(line: &[u8]) -> Result<Option<Vec<&[u8]>>, Bad> {
    if line.len() > LINE_MOST {
        return Err(Bad::TooLong);
    }
    let words: Vec<&[u8]> = line.split(|byte| *byte == b' ').filter(|word| !word.is_empty()).collect();
    let passed_over = words.first().is_none_or(|word| word.starts_with(b"#"));
    Ok((!passed_over).then_some(words))
}

fn hex(word: &[u8]) -> Option<Vec<u8>> {
    if word == b"-" {
        return Some(Vec::new());
    }
    let digit = |byte: u8| (byte as char).to_digit(16).map(|digit| digit as u8);
    if word.is_empty() {
        return None;
    }
    let pairs = word.chunks_exact(2);
    if !pairs.remainder().is_empty() {
        return None;
    }
    pairs.map(|pair| Some(digit(pair[0])? << 4 | digit(pair[1])?)).collect()
}

fn number(word: &[u8], most: u32) -> Option<u32> {
    if word.is_empty() {
        return None;
    }
    let mut number = 0u32;
    for byte in word {
        let digit = byte.is_ascii_digit().then(|| u32::from(byte - b'0'))?;
        number = number.checked_mul(10)?.checked_add(digit)?;
    }
    (number <= most).then_some(number)
}

fn byte(word: &[u8]) -> Option<u8> {
    number(word, u8::MAX.into()).map(|number| number as u8)
}

fn two_bytes(word: &[u8]) -> Option<u16> {
    number(word, u16::MAX.into()).map(|number| number as u16)
}

fn parts(word: &[u8]) -> Vec<&[u8]> {
    word.split(|byte| *byte == b':').collect()
}

fn phase(word: &[u8]) -> Option<Phase> {
    match parts(word)[..] {
        [b"Q"] => Some(Phase::Quiet),
        [b"T", previous, left, number] => {
            Some(Phase::Trial { previous: byte(previous)?, left: byte(left)?, number: two_bytes(number)? })
        }
        [b"B", left, number] => Some(Phase::Back { left: byte(left)?, number: two_bytes(number)? }),
        [b"F", left, number] => Some(Phase::Fallen { left: byte(left)?, number: two_bytes(number)? }),
        _ => None,
    }
}

fn place(word: &[u8]) -> Option<Place> {
    if word == b"-" {
        return Some(Place::ZERO);
    }
    let [aid, state, quota, used, policy, mark] = parts(word)[..] else { return None };
    let aid = hex(aid).filter(|aid| aid.len() <= AID_MOST)?;
    let [life_cycle] = hex(state)?[..] else { return None };
    Some(Place {
        aid: Aid::of(&aid),
        life_cycle,
        quota: number(quota, u32::MAX)?,
        used: number(used, u32::MAX)?,
        policy: byte(policy)?,
        mark: byte(mark)?,
    })
}

/// The kept place, or `-` for none.
fn kept_place(word: &[u8]) -> Option<Option<u8>> {
    if word == b"-" {
        return Some(None);
    }
    number(word, KEPT_MOST).map(|index| Some(index as u8))
}

/// How many words may follow a line's first one, at least and at most.
fn words_after(first: &[u8]) -> Result<(usize, usize), Bad> {
    Ok(match first {
        b"fresh" => (6, 6),
        b"command" | b"finished" | b"policy" => (2, 3),
        b"keyed" => (1, 1),
        b"stored" => (2, 2),
        b"tick" | b"lost" => (0, 0),
        b"card" => (8 + PLACES, 8 + PLACES),
        _ => return Err(Bad::UnknownWord),
    })
}

fn bytes_of(word: &[u8]) -> Result<Vec<u8>, Bad> {
    hex(word).ok_or(Bad::Hex)
}

fn number_of(word: &[u8], most: u32) -> Result<u32, Bad> {
    number(word, most).ok_or(Bad::Number)
}

fn byte_of(word: &[u8]) -> Result<u8, Bad> {
    byte(word).ok_or(Bad::Number)
}

/// LENGTH, where it is given.
fn buffer_length(word: Option<&&[u8]>) -> Result<usize, Bad> {
    word.map_or(Ok(manager::BUFFER_LEAST), |word| number_of(word, BUFFER_MOST).map(|length| length as usize))
}

/// The words after the first, where there are as many as a line of its kind has.
fn fields<'a>(words: &'a [&'a [u8]]) -> Result<&'a [&'a [u8]], Bad> {
    let (least, most) = words_after(words[0])?;
    let fields = &words[1..];
    if fields.len() < least {
        return Err(Bad::WordsMissing);
    }
    if fields.len() > most {
        return Err(Bad::TooManyWords);
    }
    Ok(fields)
}

fn card(words: &[&[u8]]) -> Result<Card, Bad> {
    let mut card = Card {
        eid: bytes_of(words[0])?.try_into().map_err(|_| Bad::Hex)?,
        capacity: number_of(words[1], u32::MAX)?,
        volatile: number_of(words[2], u32::MAX)?,
        free: number_of(words[3], u32::MAX)?,
        last: two_bytes(words[4]).ok_or(Bad::Number)?,
        fall_back: byte_of(words[5])?,
        phase: phase(words[6]).ok_or(Bad::Phase)?,
        kept_place: kept_place(words[7]).ok_or(Bad::Number)?,
        places: [Place::ZERO; PLACES],
    };
    for (index, word) in words[8..].iter().enumerate() {
        card.places[index] = place(word).ok_or(Bad::Place)?;
    }
    Ok(card)
}

#[derive(Clone, Copy, Default)]
pub struct Options {
    pub explained: bool,
    /// Every call asks for itself whether the card is sound.
    pub asks: bool,
}

/// The card that a script's calls act on. Before any fresh or card it is the record of zeros.
pub struct Script {
    kept: Kept,
    options: Options,
}

impl Script {
    pub fn new(options: Options) -> Script {
        Script { kept: Kept::ZEROS, options }
    }

    /// For the generator, whose calls suit the card.
    #[allow(dead_code)]
    pub fn card(&self) -> &Card {
        self.kept.card()
    }

    /// Answers one line (given without its line end) by adding to `out`. Fields are read in the order of the words: the
    /// first bad one gives the reason.
    pub fn line(&mut self, line: &[u8], out: &mut String) -> Result<(), Bad> {
        let Some(words) = words(line)? else { return Ok(()) };
        if self.options.asks {
            self.kept = Kept::of(*self.kept.card());
        }
        let fields = fields(&words)?;
        let kept = &mut self.kept;
        let answer = match words[0] {
            b"fresh" => self.fresh(fields)?,
            b"command" => return self.command(fields, out),
            b"policy" => return self.policy(fields, out),
            b"keyed" => manager::keyed(kept, &bytes_of(fields[0])?),
            b"stored" => manager::stored(kept, &bytes_of(fields[0])?, number_of(fields[1], u32::MAX)?),
            b"finished" => {
                let (aid, policy) = (bytes_of(fields[0])?, byte_of(fields[1])?);
                manager::finished(kept, &aid, policy, fields.get(2).map_or(Ok(MARKED), |word| byte_of(word))?)
            }
            b"tick" => manager::tick(kept),
            b"lost" => manager::lost(kept),
            _ => self.keep(manager::hand_in(card(fields)?)),
        };
        self.put(out, &answer, &[]);
        Ok(())
    }

    fn keep(&mut self, (kept, answer): (Kept, Answer)) -> Answer {
        self.kept = kept;
        answer
    }

    fn fresh(&mut self, fields: &[&[u8]]) -> Result<Answer, Bad> {
        let (eid, aid) = (bytes_of(fields[0])?, bytes_of(fields[1])?);
        let (capacity, quota) = (number_of(fields[2], u32::MAX)?, number_of(fields[3], u32::MAX)?);
        let (used, volatile) = (number_of(fields[4], u32::MAX)?, number_of(fields[5], u32::MAX)?);
        Ok(self.keep(manager::fresh(&eid, &aid, capacity, quota, used, volatile)))
    }

    fn command(&mut self, fields: &[&[u8]], out: &mut String) -> Result<(), Bad> {
        let (verdict, bytes) = (byte_of(fields[0])?, bytes_of(fields[1])?);
        let length = buffer_length(fields.get(2))?;
        self.lending(length, out, |kept, lent| manager::command(kept, verdict, &bytes, lent));
        Ok(())
    }

    fn policy(&mut self, fields: &[&[u8]], out: &mut String) -> Result<(), Bad> {
        let (speaker, bytes) = (bytes_of(fields[0])?, bytes_of(fields[1])?);
        let length = buffer_length(fields.get(2))?;
        self.lending(length, out, |kept, lent| manager::policy(kept, &speaker, &bytes, lent));
        Ok(())
    }

    fn lending(&mut self, length: usize, out: &mut String, call: impl FnOnce(&mut Kept, &mut [u8]) -> Answer) {
        let mut buffer = [0u8; BUFFER_MOST as usize];
        let lent = &mut buffer[..length];
        if cfg!(debug_assertions) {
            lend(lent);
        }
        let answer = call(&mut self.kept, lent);
        debug_assert!(is_as_lent(lent, answer.written), "a byte past the response was written");
        self.put(out, &answer, &lent[..answer.written]);
    }

    fn put(&self, out: &mut String, answer: &Answer, response: &[u8]) {
        if self.options.explained {
            put_explained(out, self.kept.card(), answer, response);
        } else {
            put_line(out, answer, response);
        }
    }
}

/// A pattern that no response repeats at its own place, so that a stray write shows.
fn lent_byte(index: usize) -> u8 {
    (index as u8).wrapping_mul(7) ^ 0xA5
}

fn lend(buffer: &mut [u8]) {
    for (index, byte) in buffer.iter_mut().enumerate() {
        *byte = lent_byte(index);
    }
}

fn is_as_lent(buffer: &[u8], from: usize) -> bool {
    buffer.iter().enumerate().skip(from).all(|(index, byte)| *byte == lent_byte(index))
}

/// One line of the second mode: a hex word, answered by how the command reader alone takes it.
pub fn reading(line: &[u8], capacity: u32, out: &mut String) -> Result<(), Bad> {
    let Some(words) = words(line)? else { return Ok(()) };
    if words.len() > 1 {
        return Err(Bad::TooManyWords);
    }
    let bytes = hex(words[0]).ok_or(Bad::Hex)?;
    let (word, aid, more) = match read(&bytes, capacity) {
        Err(status) => {
            let _ = writeln!(out, "{status:04X}");
            return Ok(());
        }
        Ok(Request::Create { aid, quota }) => ("create ", aid, format!(" {quota}")),
        Ok(Request::Enable(aid)) => ("enable ", aid, String::new()),
        Ok(Request::Disable(aid)) => ("disable ", aid, String::new()),
        Ok(Request::SetFallBack(aid)) => ("set-fall-back ", aid, String::new()),
        Ok(Request::Delete(aid)) => ("delete ", aid, String::new()),
        Ok(Request::MasterDelete(aid)) => ("master-delete ", aid, String::new()),
        Ok(Request::Confirm(number)) => {
            let _ = writeln!(out, "confirm {number}");
            return Ok(());
        }
        Ok(Request::GetStatus { rows, tags }) => {
            let more = if tags.life_cycle { ",9F70" } else { "" }.to_owned() + if tags.attributes { ",53" } else { "" };
            let which = match rows {
                Rows::All => "all",
                Rows::Next => "next",
                Rows::Of(aid) => &hex_word(aid),
            };
            let _ = writeln!(out, "get-status {which} 4F{more}");
            return Ok(());
        }
        Ok(Request::GetData) => {
            out.push_str("get-data\n");
            return Ok(());
        }
    };
    out.push_str(word);
    put_hex(out, aid);
    out.push_str(&more);
    out.push('\n');
    Ok(())
}

pub fn hex_word(bytes: &[u8]) -> String {
    let mut out = String::new();
    put_hex(&mut out, bytes);
    out
}
