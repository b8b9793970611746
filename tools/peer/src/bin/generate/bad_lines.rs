//! Lines that cannot be read.

use super::card::{AID_MOST, EID_LENGTH, PLACES};
use super::Generator;

impl Generator {
    pub(super) fn bad_line(&mut self) -> String {
        match self.random.below(60) {
            0 => "x".repeat(4097),
            1 => format!("#{}", " ".repeat(4096)),
            _ if self.is_free => self.random.pick(&BAD_FREES).to_owned(),
            _ if self.is_listing => self.random.pick(&BAD_KEPTS).to_owned(),
            2..=14 => format!("card EID 1000 0 1000 0 0 Q - {} REST", self.random.pick(&BAD_PLACES)),
            15..=28 => self.random.pick(&BAD_CARDS).to_owned(),
            _ => self.random.pick(&BAD_CALLS).to_owned(),
        }
        .replace("EID", &"00".repeat(EID_LENGTH))
        .replace("LONG", &"A0".repeat(AID_MOST + 1))
        .replace("NONE", &["-"; PLACES].join(" "))
        .replace("REST", &["-"; PLACES - 1].join(" "))
    }
}

/// In the lines and places below EID stands for one of zeros, LONG for an AID that is too long, NONE for the words
/// of all places and REST for those of all but one.
const BAD_CALLS: [&str; 54] = [
    "ticks",
    "Tick",
    "tick\r",
    "tick\t",
    "tick 0",
    "lost -",
    "keyed",
    "keyed A0 A0",
    "keyed A",
    "keyed --",
    "keyed A0000000G1",
    "keyed 0xA0",
    "stored A000000001",
    "stored A000000001 -1",
    "stored A000000001 +1",
    "stored A000000001 1.0",
    "stored A000000001 4294967296",
    "stored A000000001 99999999999999999999999",
    "stored A0000000011 x",
    "finished A000000001",
    "finished A000000001 256",
    "finished A000000001 0x1",
    "finished A000000001 256 1",
    "finished A000000001 0 256",
    "finished A000000001 0 65537",
    "finished A000000001 0 -",
    "finished A000000001 0 yes",
    "finished A0000000011 256 256",
    "finished A000000001 0 1 1",
    "finished x x x x",
    "command 0",
    "command 256 80",
    "command 0 8",
    "command 0 80 1025",
    "command 0 80 -",
    "command 0 80 256 1",
    "command x 8 y",
    "command 0 8 y",
    "policy",
    "policy A000000001",
    "policy A000000001 80 256 1",
    "policy x 8 y z",
    "policy A00000000 80",
    "policy A000000001 8",
    "policy x 8 y",
    "policy - 8 y",
    "policy A000000001 80 1025",
    "policy A000000001 80 -",
    "policy A000000001 80 x",
    "policies A000000001 80",
    "fresh EID A000000001 1000 100 0",
    "fresh EID A000000001 1000 100 0 0 0",
    "fresh EID A000000001 1000 100 0 4294967296",
    "fresh EID0 A000000001 1000 100 0 0",
];

const BAD_CARDS: [&str; 14] = [
    "card EID 1000 0 1000 0 0 Q - REST",
    "card EID 1000 0 1000 0 0 Q - NONE -",
    "card EID00 1000 0 1000 0 0 Q - NONE",
    "card - 1000 0 1000 0 0 Q - NONE",
    "card EID 1000 0 1000 65536 0 Q - NONE",
    "card EID 1000 0 1000 0 256 Q - NONE",
    "card EID 1000 0 1000 0 0 q - NONE",
    "card EID 1000 0 1000 0 0 Q: - NONE",
    "card EID 1000 0 1000 0 0 T:0:1 - NONE",
    "card EID 1000 0 1000 0 0 T:256:1:0 - NONE",
    "card EID 1000 0 1000 0 0 B:1:65536 - NONE",
    "card EID 1000 0 1000 0 0 B::0 - NONE",
    "card EID 1000 0 1000 0 0 F:1:0:0 - NONE",
    "card EID 1000 0 1000 0 0 X - x REST",
];

const BAD_KEPTS: [&str; 18] = [
    // As it was spelled before a card kept a place, and with places for eight.
    "card EID 1000 0 1000 0 0 Q NONE",
    "card EID 1000 0 1000 0 0 Q - - - - - - - - -",
    "card EID 1000 0 1000 0 0 Q - REST",
    "card EID 1000 0 1000 0 0 Q - NONE -",
    "card EID 1000 0 1000 0 0 Q 0 0 NONE",
    "card EID 1000 0 1000 0 0 Q 255 NONE",
    "card EID 1000 0 1000 0 0 Q 256 NONE",
    "card EID 1000 0 1000 0 0 Q 4294967296 NONE",
    "card EID 1000 0 1000 0 0 Q 99999999999999999999999 NONE",
    "card EID 1000 0 1000 0 0 Q -- NONE",
    "card EID 1000 0 1000 0 0 Q -1 NONE",
    "card EID 1000 0 1000 0 0 Q +1 NONE",
    "card EID 1000 0 1000 0 0 Q 0x1 NONE",
    "card EID 1000 0 1000 0 0 Q 1: NONE",
    "card EID 1000 0 1000 0 0 Q x x REST",
    "card EID 1000 0 1000 0 0 q x NONE",
    "card EID 1000 0 1000 0 256 q x NONE",
    "card EID 1000 0 1000 0 0 Q 254 x REST",
];

const BAD_FREES: [&str; 15] = [
    // As it was spelled before a card kept its free.
    "card EID 1000 0 0 0 Q - NONE",
    "card EID 1000 0 1000 0 0 Q - REST",
    "card EID 1000 0 1000 0 0 Q - NONE -",
    "card EID 1000 0 4294967296 0 0 Q - NONE",
    "card EID 1000 0 99999999999999999999999 0 0 Q - NONE",
    "card EID 1000 0 -1 0 0 Q - NONE",
    "card EID 1000 0 +1 0 0 Q - NONE",
    "card EID 1000 0 0x1 0 0 Q - NONE",
    "card EID 1000 0 1.0 0 0 Q - NONE",
    "card EID 1000 0 - 0 0 Q - NONE",
    "card EID 1000 0 x 0 0 q - x REST",
    "card EID00 1000 0 x 0 0 Q - NONE",
    "card EID 1000 4294967296 1000 0 0 Q - NONE",
    "card EID 1000 0 65536 65536 0 Q - NONE",
    "card EID 1000 0 256 256 256 Q - NONE",
];

const BAD_PLACES: [&str; 13] = [
    "x",
    "A000000001:3F:1:1",
    // As it was spelled before each ISD-P had its mark.
    "A000000001:3F:1:1:0",
    "A000000001:3F:1:1:0:0:0",
    "A000000001:3:1:1:0:0",
    "A000000001:-:1:1:0:0",
    "A000000001:3F:1:1:256:0",
    "A000000001:3F:1:1:0:256",
    "A000000001:3F:1:1:0:",
    "A000000001:3F:1:1:0:-",
    "A000000001:3F:1:1:0:yes",
    ":3F:1:1:0:0",
    "LONG:3F:1:1:0:0",
];
