//! What is written of an answer, as docs/SCRIPT.md has it: one line, or the explained form.
//! The explained form also shows the card handed back, sound or not.

use crate::card::*;
use crate::manager::Answer;
use crate::status::*;
use std::fmt::Write;

fn put_digits(out: &mut String, bytes: &[u8]) {
    for byte in bytes {
        for nibble in [byte >> 4, byte & 0x0F] {
            out.push(char::from(b"0123456789ABCDEF"[usize::from(nibble)]));
        }
    }
}

pub fn put_hex(out: &mut String, bytes: &[u8]) {
    if bytes.is_empty() {
        out.push('-');
    }
    put_digits(out, bytes);
}

pub fn put_line(out: &mut String, answer: &Answer, response: &[u8]) {
    let _ = write!(out, "{:04X} ", answer.status);
    put_hex(out, response);
    match &answer.notification {
        None => out.push_str(" -"),
        Some(notification) => {
            let _ = write!(out, " {:02X}:{:04X}:", notification.kind, notification.number);
            put_hex(out, notification.aid.bytes());
        }
    }
    let _ = writeln!(out, " {}", answer.ticks);
}

pub fn put_explained(out: &mut String, card: &Card, answer: &Answer, response: &[u8]) {
    let [high, low] = answer.status.to_be_bytes();
    let _ = writeln!(out, "{high:02X} {low:02X} {}", meaning(answer.status));
    if !response.is_empty() {
        let _ = writeln!(out, "response {}", digits(response));
    }
    if let Some(Notification { kind, number, aid, .. }) = answer.notification {
        let _ = writeln!(out, "notification {number}: {}, {} enabled", kind_name(kind), digits(aid.bytes()));
    }
    put_table(out, card);
    put_phase(out, card.phase);
    if let Some(index) = card.kept_place {
        let _ = writeln!(out, "listing open: next row at place {index}");
    }
    let _ = writeln!(out, "ticks to come {}\n", answer.ticks);
}

pub fn digits(bytes: &[u8]) -> String {
    let mut out = String::new();
    put_digits(&mut out, bytes);
    out
}

fn meaning(status: u16) -> &'static str {
    match status {
        DONE => "done",
        MORE_ROWS => "done, more rows to come",
        NOT_SOUND => "the card is not sound",
        BUFFER_SHORT => "response buffer under 256 bytes",
        WRONG_LENGTH => "command length or length shape wrong",
        WRONG_CLASS => "class not known",
        WRONG_INSTRUCTION => "instruction not known",
        WRONG_PARAMETERS => "P1 or P2 wrong",
        WRONG_DATA => "data field or values wrong, or AID already held",
        NOT_NOW => "a change is open, or none is, or the target's state is wrong",
        NOT_HELD => "target not held, or not the outstanding number, or no listing open",
        POLICY_FORBIDS => "the policy forbids it",
        TOKEN_REFUSED => "token verdict not 1",
        NO_ROOM => "no free place, or no room in the memory or the quota",
        _ => unreachable!("document 01 has no such word"),
    }
}

fn kind_name(kind: u8) -> &'static str {
    match kind {
        CHANGED => "changed",
        ROLLED_BACK => "rolled back",
        FALLEN_BACK => "fallen back",
        _ => unreachable!("000 has no such kind among those issued"),
    }
}

fn put_table(out: &mut String, card: &Card) {
    let held = || card.places.iter().enumerate().filter(|(_, place)| place.is_held());
    let Some(longest) = held().map(|(_, place)| place.aid.bytes().len()).max() else {
        out.push_str("  no profile is held\n");
        return;
    };
    let width = 2 * longest;
    let _ = writeln!(
        out,
        "{:>7}  {:width$}  {:12}  {:>7}  {:>7}  {:9}  {:12}  policy",
        "place", "AID", "state", "quota", "used", "fall-back", "provisioning"
    );
    for (index, place) in held() {
        let fall_back = if card.is_fall_back(index) { "yes" } else { "" };
        let _ = writeln!(
            out,
            "{index:>7}  {:width$}  {:12}  {:>7}  {:>7}  {fall_back:9}  {:12}  {}",
            digits(place.aid.bytes()),
            state_name(place.life_cycle),
            place.quota,
            place.used,
            mark_name(place.mark),
            policy_name(place.policy)
        );
    }
}

fn state_name(life_cycle: u8) -> String {
    match life_cycle {
        SELECTABLE => "SELECTABLE".to_owned(),
        PERSONALIZED => "PERSONALIZED".to_owned(),
        DISABLED => "DISABLED".to_owned(),
        ENABLED => "ENABLED".to_owned(),
        other => format!("{other:02X}"),
    }
}

fn mark_name(mark: u8) -> String {
    match mark {
        0 => String::new(),
        MARKED => "yes".to_owned(),
        other => format!("{other:02X}"),
    }
}

fn policy_name(policy: u8) -> String {
    const BOTH_FORBIDDEN: u8 = DISABLING_FORBIDDEN | DELETION_FORBIDDEN;
    match policy {
        0 => "none".to_owned(),
        DISABLING_FORBIDDEN => "disabling forbidden".to_owned(),
        DELETION_FORBIDDEN => "deletion forbidden".to_owned(),
        BOTH_FORBIDDEN => "disabling and deletion forbidden".to_owned(),
        DELETE_ONCE_DISABLED => "deleted once disabled".to_owned(),
        other => format!("{other:02X}"),
    }
}

fn put_phase(out: &mut String, phase: Phase) {
    let _ = match phase {
        Phase::Quiet => writeln!(out, "phase quiet"),
        Phase::Trial { previous, left, number } => {
            writeln!(out, "phase trial: previous at place {previous}, ticks left {left}, number {number}")
        }
        Phase::Back { left, number } => writeln!(out, "phase back: ticks left {left}, number {number}"),
        Phase::Fallen { left, number } => writeln!(out, "phase fallen: ticks left {left}, number {number}"),
    };
}
