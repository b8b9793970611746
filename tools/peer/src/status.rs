//! The status words of document 01, named once.
//! The table's order is not here: it is the order in which `read` and `manager` ask.

pub const DONE: u16 = 0x9000;
/// A success too: rows are left, and P2 03 asks for them.
pub const MORE_ROWS: u16 = 0x6310;
pub const NOT_SOUND: u16 = 0x6F00;
pub const BUFFER_SHORT: u16 = 0x6F02;
pub const WRONG_LENGTH: u16 = 0x6700;
pub const WRONG_CLASS: u16 = 0x6E00;
pub const WRONG_INSTRUCTION: u16 = 0x6D00;
pub const WRONG_PARAMETERS: u16 = 0x6A86;
pub const WRONG_DATA: u16 = 0x6A80;
pub const NOT_NOW: u16 = 0x6985;
pub const NOT_HELD: u16 = 0x6A88;
pub const POLICY_FORBIDS: u16 = 0x69E1;
pub const TOKEN_REFUSED: u16 = 0x6982;
pub const NO_ROOM: u16 = 0x6A84;

/// Whether a word is that of a call accepted.
pub fn is_done(status: u16) -> bool {
    matches!(status, DONE | MORE_ROWS)
}
