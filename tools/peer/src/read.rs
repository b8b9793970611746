//! Reading a command: from any bytes and the capacity to a request, or to the first of the
//! rows 67 00, 6E 00, 6D 00, 6A 86, 67 00, 6A 80 that holds. Knows no card.
//! No grammar here goes deeper than two levels, so the limit of four cannot be met.

use crate::card::aid_length_is_right;
use crate::status::*;

#[derive(Clone, Copy, PartialEq, Eq, Debug)]
pub enum Request<'a> {
    Create { aid: &'a [u8], quota: u32 },
    Enable(&'a [u8]),
    Disable(&'a [u8]),
    SetFallBack(&'a [u8]),
    Delete(&'a [u8]),
    MasterDelete(&'a [u8]),
    Confirm(u16),
    GetStatus { rows: Rows<'a>, tags: Tags },
    GetData,
}

/// Whose rows GET STATUS asks for: from the first one on, from the first one not yet given on, or one profile's.
#[derive(Clone, Copy, PartialEq, Eq, Debug)]
pub enum Rows<'a> {
    All,
    Next,
    Of(&'a [u8]),
}

/// What a row has beside its AID.
#[derive(Clone, Copy, PartialEq, Eq, Debug)]
pub struct Tags {
    pub life_cycle: bool,
    pub attributes: bool,
}

const COMMAND_MOST: usize = 261;

const INSTALL: u8 = 0xE6;
const DELETE: u8 = 0xE4;
pub const STORE_DATA: u8 = 0xE2;
const GET_STATUS: u8 = 0xF2;
const GET_DATA: u8 = 0xCA;

/// The P2 of GET STATUS (000, Table 26): b1 tells the next occurrences from the first ones.
const FIRST_ROWS: u8 = 0x02;
const NEXT_ROWS: u8 = 0x03;

pub fn read(bytes: &[u8], capacity: u32) -> Result<Request<'_>, u16> {
    let ([instruction, p1, p2], body) = header(bytes)?;
    let parameters_are_right = match instruction {
        INSTALL => (p1, p2) == (0x0C, 0x00),
        DELETE => (p1, p2) == (0x00, 0x40),
        STORE_DATA => stores_all(p1, p2),
        GET_STATUS => p1 == 0x40 && matches!(p2, FIRST_ROWS | NEXT_ROWS),
        GET_DATA => (p1, p2) == (0xFF, 0x21),
        _ => return Err(WRONG_INSTRUCTION),
    };
    if !parameters_are_right {
        return Err(WRONG_PARAMETERS);
    }
    if instruction == GET_DATA {
        return if body == [0x00] { Ok(Request::GetData) } else { Err(WRONG_LENGTH) };
    }
    let field = data_field(body).ok_or(WRONG_LENGTH)?;
    match instruction {
        INSTALL => create(field, capacity),
        DELETE => delete(field),
        STORE_DATA => store_data(field),
        _ => get_status(field, p2 == NEXT_ROWS),
    }
    .ok_or(WRONG_DATA)
}

/// The instruction with its two parameters, and what follows them, where length and class are right.
pub fn header(bytes: &[u8]) -> Result<([u8; 3], &[u8]), u16> {
    let [class, instruction, p1, p2, body @ ..] = bytes else { return Err(WRONG_LENGTH) };
    if bytes.len() > COMMAND_MOST {
        return Err(WRONG_LENGTH);
    }
    if !matches!(class, 0x80..=0x8F | 0xC0..=0xCF | 0xE0..=0xEF) {
        return Err(WRONG_CLASS);
    }
    Ok(([*instruction, *p1, *p2], body))
}

/// The parameters of STORE DATA: the last block, its data as a DGI; the low three bits of P1 are RFU.
pub fn stores_all(p1: u8, p2: u8) -> bool {
    (0x88..=0x8F).contains(&p1) && p2 == 0x00
}

pub fn data_field(body: &[u8]) -> Option<&[u8]> {
    let (&lc, rest) = body.split_first()?;
    let lc = usize::from(lc);
    let ends_well = rest.len() == lc || (rest.len() == lc + 1 && rest[lc] == 0x00);
    (lc > 0 && ends_well).then(|| &rest[..lc])
}

/// What stands after a length in 01's form, and the bytes left: 81 is only for 80 and above.
fn value(bytes: &[u8]) -> Option<(&[u8], &[u8])> {
    let (length, rest) = match bytes {
        [short @ 0x00..=0x7F, rest @ ..] => (*short, rest),
        [0x81, long @ 0x80..=0xFF, rest @ ..] => (*long, rest),
        _ => return None,
    };
    rest.split_at_checked(usize::from(length))
}

/// The element with this tag, and the bytes left. Every wrong list gives the one word 6A 80, so
/// asking for the tag that must come next is enough; the reader need not know other tags.
fn element<'a>(tag: &[u8], list: &'a [u8]) -> Option<(&'a [u8], &'a [u8])> {
    value(list.strip_prefix(tag)?)
}

pub fn only_element<'a>(tag: &[u8], list: &'a [u8]) -> Option<&'a [u8]> {
    let (value, left) = element(tag, list)?;
    left.is_empty().then_some(value)
}

fn right_aid(aid: &[u8]) -> Option<&[u8]> {
    aid_length_is_right(aid.len()).then_some(aid)
}

fn present(value: &[u8]) -> Option<()> {
    (!value.is_empty()).then_some(())
}

/// The DGI that fills a data field, and what it holds.
pub fn only_dgi(field: &[u8]) -> Option<([u8; 2], &[u8])> {
    let [high, low, length @ 0x00..=0xFE, body @ ..] = field else { return None };
    (body.len() == usize::from(*length)).then_some(([*high, *low], body))
}

fn store_data(field: &[u8]) -> Option<Request<'_>> {
    let (dgi, body) = only_dgi(field)?;
    let target = || right_aid(only_element(&[0x4F], body)?);
    match dgi {
        [0x3A, 0x03] => Some(Request::Enable(target()?)),
        [0x3A, 0x04] => Some(Request::Disable(target()?)),
        [0x3A, 0x05] => Some(Request::SetFallBack(target()?)),
        [0x3A, 0x08] => {
            let number = only_element(&[0x4E], body)?;
            Some(Request::Confirm(u16::from_be_bytes(number.try_into().ok()?)))
        }
        _ => None,
    }
}

/// The two deletes share header and verdict; only the elements after 4F tell them apart.
fn delete(field: &[u8]) -> Option<Request<'_>> {
    let (aid, left) = element(&[0x4F], field)?;
    let aid = right_aid(aid)?;
    if left.is_empty() {
        return Some(Request::Delete(aid));
    }
    let (reference, left) = element(&[0xB6], left)?;
    present(only_element(&[0x9E], left)?)?;
    let mut inner = reference;
    for tag in [&[0x42][..], &[0x45], &[0x5F, 0x20], &[0x93]] {
        let (value, left) = element(tag, inner)?;
        present(value)?;
        inner = left;
    }
    inner.is_empty().then_some(Request::MasterDelete(aid))
}

fn create(field: &[u8], capacity: u32) -> Option<Request<'_>> {
    let (load_file, left) = value(field)?;
    right_aid(load_file)?;
    let (module, left) = value(left)?;
    right_aid(module)?;
    let (aid, left) = value(left)?;
    let aid = right_aid(aid)?;
    let (privileges, left) = value(left)?;
    let (parameters, token) = value(left)?;
    if !matches!(privileges.len(), 1 | 3) || token != [0x00] {
        return None;
    }
    let quota = granted_memory(parameters)?;
    (1..=capacity).contains(&quota).then_some(Request::Create { aid, quota })
}

fn granted_memory(parameters: &[u8]) -> Option<u32> {
    let (mut protocols, left) = element(&[0xC9], parameters)?;
    present(protocols)?;
    // Table 10 of 000: "n occurrences", against 01's "each once".
    while !protocols.is_empty() {
        let (protocol, left) = element(&[0x81], protocols)?;
        if protocol.len() != 2 {
            return None;
        }
        protocols = left;
    }
    match *only_element(&[0x83], only_element(&[0xEF], left)?)? {
        [a, b] => Some(u32::from_be_bytes([0, 0, a, b])),
        [a, b, c, d] => Some(u32::from_be_bytes([a, b, c, d])),
        _ => None,
    }
}

fn get_status(field: &[u8], next: bool) -> Option<Request<'_>> {
    let (name, left) = element(&[0x4F], field)?;
    let rows = match name {
        [] if next => Rows::Next,
        [] => Rows::All,
        // The next rows are those of all profiles: to name one is wrong, held or not.
        _ if next => return None,
        _ => Rows::Of(right_aid(name)?),
    };
    let tags = if left.is_empty() {
        Tags { life_cycle: true, attributes: true }
    } else {
        listed_tags(only_element(&[0x5C], left)?)?
    };
    Some(Request::GetStatus { rows, tags })
}

fn listed_tags(mut listed: &[u8]) -> Option<Tags> {
    let mut tags = Tags { life_cycle: false, attributes: false };
    loop {
        listed = match listed {
            [] => return Some(tags),
            [0x4F, left @ ..] => left,
            [0x9F, 0x70, left @ ..] => {
                tags.life_cycle = true;
                left
            }
            [0x53, left @ ..] => {
                tags.attributes = true;
                left
            }
            _ => return None,
        };
    }
}
