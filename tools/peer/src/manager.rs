//! The manager: each call of document 01, its tests in the table's order, its step, its answer.
//! A step changes the card or the buffer only after its last test, so a refusal leaves both alone.
//! Soundness is asked where a card is handed in, and kept: no step from a sound card makes an unsound one.

use crate::card::*;
use crate::operator::read_policy;
use crate::read::{read, Request, Rows, Tags};
use crate::status::*;

pub const BUFFER_LEAST: usize = 256;
/// No response is longer, so a long listing comes in parts.
const RESPONSE_MOST: usize = 255;

#[derive(Clone, Copy, PartialEq, Eq, Debug)]
pub struct Answer {
    pub status: u16,
    /// How many bytes of the lent buffer are the response.
    pub written: usize,
    pub notification: Option<Notification>,
    pub ticks: u32,
}

#[derive(Default)]
struct Done {
    written: usize,
    notification: Option<Notification>,
    /// The place of the first row not given, where some are left.
    row_left: Option<u8>,
}

impl Done {
    fn notified(notification: Notification) -> Done {
        Done { notification: Some(notification), ..Done::default() }
    }

    fn wrote(written: usize) -> Done {
        Done { written, ..Done::default() }
    }
}

fn refused(status: u16, ticks: u32) -> Answer {
    Answer { status, written: 0, notification: None, ticks }
}

/// A card, and what was found of it when it was handed in.
#[derive(Clone, Copy, PartialEq, Eq, Debug)]
pub struct Kept {
    card: Card,
    sound: bool,
}

impl Kept {
    pub const ZEROS: Kept = Kept { card: Card::ZEROS, sound: false };

    pub fn of(card: Card) -> Kept {
        Kept { card, sound: card.is_sound() }
    }

    pub fn card(&self) -> &Card {
        &self.card
    }
}

fn on_sound(kept: &mut Kept, step: impl FnOnce(&mut Card) -> Result<Done, u16>) -> Answer {
    if !kept.sound {
        return refused(NOT_SOUND, 0);
    }
    let card = &mut kept.card;
    match step(card) {
        Ok(Done { written, notification, row_left }) => {
            // Every accepted call forgets the place kept before it; only the rows that its own part leaves are kept.
            card.kept_place = row_left;
            let status = if row_left.is_some() { MORE_ROWS } else { DONE };
            Answer { status, written, notification, ticks: card.ticks_to_come() }
        }
        Err(status) => refused(status, card.ticks_to_come()),
    }
}

/// A refused fresh hands back the record of zeros, and that is the card from then on.
pub fn fresh(eid: &[u8], aid: &[u8], capacity: u32, quota: u32, used: u32, volatile: u32) -> (Kept, Answer) {
    match Card::fresh(eid, aid, capacity, quota, used, volatile) {
        Some(card) => (Kept::of(card), Answer { status: DONE, written: 0, notification: None, ticks: 0 }),
        None => (Kept::ZEROS, refused(WRONG_DATA, 0)),
    }
}

pub fn hand_in(card: Card) -> (Kept, Answer) {
    let kept = Kept::of(card);
    // No call is made of the card: it keeps the place it came with.
    let status = if kept.sound { DONE } else { NOT_SOUND };
    let ticks = if kept.sound { card.ticks_to_come() } else { 0 };
    (kept, Answer { status, written: 0, notification: None, ticks })
}

pub fn tick(kept: &mut Kept) -> Answer {
    on_sound(kept, |card| Ok(Done { notification: card.tick(), ..Done::default() }))
}

pub fn lost(kept: &mut Kept) -> Answer {
    on_sound(kept, |card| Ok(Done { notification: card.lost(), ..Done::default() }))
}

pub fn keyed(kept: &mut Kept, aid: &[u8]) -> Answer {
    on_sound(kept, |card| {
        let index = named(card, aid)?;
        let place = &mut card.places[index];
        require(place.life_cycle == SELECTABLE, NOT_NOW)?;
        place.life_cycle = PERSONALIZED;
        Ok(Done::default())
    })
}

pub fn stored(kept: &mut Kept, aid: &[u8], n: u32) -> Answer {
    on_sound(kept, |card| {
        let index = named(card, aid)?;
        let place = &mut card.places[index];
        require(place.life_cycle == PERSONALIZED, NOT_NOW)?;
        // The sum used + n may pass 32 bits; the room left never does.
        require(n <= place.quota - place.used, NO_ROOM)?;
        place.used += n;
        Ok(Done::default())
    })
}

pub fn finished(kept: &mut Kept, aid: &[u8], policy: u8, mark: u8) -> Answer {
    on_sound(kept, |card| {
        require(policy_is_right(policy) && mark_is_right(mark), WRONG_DATA)?;
        let index = named(card, aid)?;
        let place = &mut card.places[index];
        require(place.life_cycle == PERSONALIZED && place.used > 0, NOT_NOW)?;
        place.life_cycle = DISABLED;
        place.policy = policy;
        place.mark = mark;
        Ok(Done::default())
    })
}

pub fn command(kept: &mut Kept, verdict: u8, bytes: &[u8], buffer: &mut [u8]) -> Answer {
    on_sound(kept, |card| {
        require(buffer.len() >= BUFFER_LEAST, BUFFER_SHORT)?;
        match read(bytes, card.capacity)? {
            Request::Create { aid, quota } => create(card, aid, quota, buffer),
            Request::Enable(aid) => enable(card, aid),
            Request::Disable(aid) => disable(card, aid),
            Request::SetFallBack(aid) => set_fall_back(card, aid),
            Request::Delete(aid) => delete(card, aid, buffer),
            Request::MasterDelete(aid) => master_delete(card, aid, verdict, buffer),
            Request::Confirm(number) => confirm(card, number, buffer),
            Request::GetStatus { rows, tags } => get_status(card, rows, tags, buffer),
            Request::GetData => Ok(get_data(card, buffer)),
        }
    })
}

/// What the domain of the profile called `speaker` was sent. Only the enabled profile is served, and the policy that it
/// had is not asked: who forbade something may allow it again.
pub fn policy(kept: &mut Kept, speaker: &[u8], bytes: &[u8], buffer: &[u8]) -> Answer {
    on_sound(kept, |card| {
        require(buffer.len() >= BUFFER_LEAST, BUFFER_SHORT)?;
        let policy = read_policy(bytes)?;
        require(aid_length_is_right(speaker.len()), WRONG_DATA)?;
        no_change_open(card)?;
        let index = held(card, speaker)?;
        let place = &mut card.places[index];
        require(place.life_cycle == ENABLED, NOT_NOW)?;
        place.policy = policy;
        Ok(Done::default())
    })
}

fn require(condition: bool, otherwise: u16) -> Result<(), u16> {
    if condition {
        Ok(())
    } else {
        Err(otherwise)
    }
}

fn held(card: &Card, aid: &[u8]) -> Result<usize, u16> {
    card.find(aid).ok_or(NOT_HELD)
}

/// For the inner calls, whose AID no command reader has measured.
fn named(card: &Card, aid: &[u8]) -> Result<usize, u16> {
    require(aid_length_is_right(aid.len()), WRONG_DATA)?;
    held(card, aid)
}

fn no_change_open(card: &Card) -> Result<(), u16> {
    require(!card.is_open(), NOT_NOW)
}

fn create(card: &mut Card, aid: &[u8], quota: u32, buffer: &mut [u8]) -> Result<Done, u16> {
    no_change_open(card)?;
    require(card.find(aid).is_none(), WRONG_DATA)?;
    let index = card.lowest_free_place().ok_or(NO_ROOM)?;
    require(quota <= card.free, NO_ROOM)?;
    card.fill(index, Place { aid: Aid::of(aid), life_cycle: SELECTABLE, quota, ..Place::ZERO });
    Ok(write_zero(buffer))
}

/// Only the enabled profile's policy is asked: it is the one that would be disabled.
fn enable(card: &mut Card, aid: &[u8]) -> Result<Done, u16> {
    no_change_open(card)?;
    let index = held(card, aid)?;
    require(card.places[index].life_cycle == DISABLED, NOT_NOW)?;
    let enabled = card.places[card.enabled()];
    require(enabled.policy & DISABLING_FORBIDDEN == 0, POLICY_FORBIDS)?;
    Ok(Done::notified(card.try_out(index)))
}

fn disable(card: &mut Card, aid: &[u8]) -> Result<Done, u16> {
    no_change_open(card)?;
    let index = held(card, aid)?;
    let place = card.places[index];
    require(place.life_cycle == ENABLED && !card.is_fall_back(index), NOT_NOW)?;
    require(place.policy & DISABLING_FORBIDDEN == 0, POLICY_FORBIDS)?;
    Ok(Done::notified(card.try_out(card.fall_back as usize)))
}

fn set_fall_back(card: &mut Card, aid: &[u8]) -> Result<Done, u16> {
    no_change_open(card)?;
    let index = held(card, aid)?;
    require(card.places[index].may_be_fall_back(), NOT_NOW)?;
    card.fall_back = index as u8;
    Ok(Done::default())
}

fn delete(card: &mut Card, aid: &[u8], buffer: &mut [u8]) -> Result<Done, u16> {
    no_change_open(card)?;
    let index = held(card, aid)?;
    require(card.may_be_deleted(index), NOT_NOW)?;
    require(card.places[index].policy & DELETION_FORBIDDEN == 0, POLICY_FORBIDS)?;
    Ok(remove(card, index, buffer))
}

fn master_delete(card: &mut Card, aid: &[u8], verdict: u8, buffer: &mut [u8]) -> Result<Done, u16> {
    no_change_open(card)?;
    let index = held(card, aid)?;
    require(card.may_be_master_deleted(index), NOT_NOW)?;
    require(verdict == 1, TOKEN_REFUSED)?;
    Ok(remove(card, index, buffer))
}

fn remove(card: &mut Card, index: usize, buffer: &mut [u8]) -> Done {
    card.clear(index);
    write_zero(buffer)
}

fn confirm(card: &mut Card, number: u16, buffer: &mut [u8]) -> Result<Done, u16> {
    let outstanding = card.outstanding().ok_or(NOT_NOW)?;
    require(number == outstanding, NOT_HELD)?;
    let Some(deleted) = card.close() else { return Ok(Done::default()) };
    let mut response = Response::into(buffer);
    response.list(&[0x80], |response| response.element(&[0x4F], deleted.bytes()));
    Ok(Done::wrote(response.length))
}

fn get_status(card: &Card, rows: Rows, tags: Tags, buffer: &mut [u8]) -> Result<Done, u16> {
    let mut response = Response::into(buffer);
    let from = match rows {
        Rows::All => 0,
        Rows::Next => card.kept_place.ok_or(NOT_HELD)?.into(),
        Rows::Of(aid) => {
            response.row(card, held(card, aid)?, tags);
            return Ok(Done::wrote(response.length));
        }
    };
    for index in (from..PLACES).filter(|index| card.places[*index].is_held()) {
        // A later, shorter row is not given before this one.
        if response.length + row_length(&card.places[index], tags) > RESPONSE_MOST {
            return Ok(Done { row_left: Some(index as u8), ..Done::wrote(response.length) });
        }
        response.row(card, index, tags);
    }
    Ok(Done::wrote(response.length))
}

/// How long the row is that `Response::row` writes.
fn row_length(place: &Place, tags: Tags) -> usize {
    let life_cycle = if tags.life_cycle { 4 } else { 0 };
    let attributes = if tags.attributes { 3 } else { 0 };
    4 + place.aid.bytes().len() + life_cycle + attributes
}

fn get_data(card: &Card, buffer: &mut [u8]) -> Done {
    let mut response = Response::into(buffer);
    response.list(&[0xFF, 0x21], |response| {
        response.element(&[0x81], &[card.held() as u8]);
        response.element(&[0x82], &card.free.to_be_bytes());
        response.element(&[0x83], &card.volatile.to_be_bytes());
    });
    Done::wrote(response.length)
}

/// "no additional data is present" (000, 4.1.1.1 and 4.1.1.4).
fn write_zero(buffer: &mut [u8]) -> Done {
    buffer[0] = 0x00;
    Done::wrote(1)
}

/// Writes from the buffer's first byte on. No element of a response reaches a length that needs the 81 form.
struct Response<'a> {
    buffer: &'a mut [u8],
    length: usize,
}

impl<'a> Response<'a> {
    fn into(buffer: &'a mut [u8]) -> Response<'a> {
        Response { buffer, length: 0 }
    }

    fn put(&mut self, bytes: &[u8]) {
        self.buffer[self.length..self.length + bytes.len()].copy_from_slice(bytes);
        self.length += bytes.len();
    }

    fn element(&mut self, tag: &[u8], value: &[u8]) {
        self.put(tag);
        self.put(&[value.len() as u8]);
        self.put(value);
    }

    fn row(&mut self, card: &Card, index: usize, tags: Tags) {
        let place = &card.places[index];
        self.list(&[0xE3], |response| {
            response.element(&[0x4F], place.aid.bytes());
            if tags.life_cycle {
                response.element(&[0x9F, 0x70], &[place.life_cycle]);
            }
            if tags.attributes {
                response.element(&[0x53], &[u8::from(card.is_fall_back(index))]);
            }
        });
    }

    fn list(&mut self, tag: &[u8], elements: impl FnOnce(&mut Self)) {
        self.put(tag);
        self.put(&[0]);
        let start = self.length;
        elements(self);
        self.buffer[start - 1] = (self.length - start) as u8;
    }
}
