//! How the bytes of a command are framed, now and then damaged, and sent.

use super::script::hex_word;
use super::Generator;

pub(super) fn tlv(tag: &[u8], value: &[u8]) -> Vec<u8> {
    let mut out = tag.to_vec();
    if value.len() > 0x7F {
        out.push(0x81);
    }
    out.push(value.len() as u8);
    out.extend(value);
    out
}

pub(super) fn counted(value: &[u8]) -> Vec<u8> {
    tlv(&[], value)
}

impl Generator {
    pub(super) fn command(&mut self, header: [u8; 3], field: Vec<u8>, verdict: u8) {
        let bytes = self.framed(header, field);
        self.send(bytes, verdict);
    }

    pub(super) fn framed(&mut self, header: [u8; 3], mut field: Vec<u8>) -> Vec<u8> {
        let mut bytes = vec![self.class()];
        bytes.extend(header);
        // A field altered under a right Lc reaches the data rows, not the length row.
        if self.random.chance(9) {
            self.damage_field(&mut field);
        }
        field.truncate(255);
        bytes.push(field.len() as u8);
        bytes.extend(field);
        if self.random.chance(50) {
            bytes.push(0);
        }
        bytes
    }

    pub(super) fn class(&mut self) -> u8 {
        let low = self.random.byte() & 0x0F;
        self.random.pick(&[0x80, 0x80, 0x80, 0x80 | low, 0xC0 | low, 0xE0 | low])
    }

    fn damage_field(&mut self, field: &mut Vec<u8>) {
        let at = self.random.below(field.len());
        let any = self.random.byte();
        match self.random.below(8) {
            0 if field.len() > 1 => {
                field.remove(at);
            }
            1 => field.insert(at, self.random.pick(&[0x81, 0x81, any])),
            2 => field[at] = field[at].wrapping_add(1),
            3 => field[at] = field[at].wrapping_sub(1),
            4 => field[at] = self.random.pick(&[0x00, 0x7F, 0x80, 0x81, 0xFF, any]),
            5 => field.push(self.random.pick(&[0x00, 0x4F, any])),
            6 => field.extend_from_within(at..),
            // 81 before a length that needs none.
            _ => match field.iter().position(|byte| *byte == 0x4F) {
                Some(tag) => field.insert(tag + 1, 0x81),
                None => field.push(0x81),
            },
        }
    }

    fn damage(&mut self, bytes: &mut Vec<u8>) {
        let at = self.random.below(bytes.len());
        let any = self.random.byte();
        match self.random.below(12) {
            0 | 1 => bytes[at] ^= 1 << self.random.below(8),
            2 => bytes.truncate(at),
            3 => bytes.push(any),
            4 => bytes.push(0),
            5 if bytes.len() > 4 => bytes[4] = bytes[4].wrapping_add(self.random.pick(&[1, 255, 2, any])),
            6 => bytes[0] = any,
            7 => bytes[1] = bytes[1].wrapping_add(self.random.pick(&[1, 2, 254, any])),
            8 => bytes[2] = bytes[2].wrapping_add(self.random.pick(&[1, 255, 8, any])),
            9 => bytes[3] = bytes[3].wrapping_add(self.random.pick(&[1, 255, any])),
            10 => bytes.truncate(self.random.below(6)),
            // The edges of the longest command, with an Lc that fits all but the last of them.
            _ if self.random.chance(50) && bytes.len() > 4 => {
                bytes.resize(self.random.pick(&[260, 261, 262]), 0);
                bytes[4] = 0xFF;
            }
            _ => bytes[at] = any,
        }
    }

    /// The last words of a line: the bytes, now and then damaged, and the length of the buffer, mostly left out.
    pub(super) fn sent(&mut self, mut bytes: Vec<u8>) -> String {
        if self.random.chance(12) {
            self.damage(&mut bytes);
        }
        let mut word = hex_word(&bytes);
        if self.random.chance(4) {
            word = word.to_lowercase();
        }
        let odd = self.random.number(0, 300);
        let length = match self.random.below(100) {
            _ if self.is_month => String::new(),
            0..=2 => format!(" {}", self.random.pick(&[0, 1, 254, 255])),
            3..=6 => format!(" {}", self.random.pick(&[256, 257, 1024])),
            7 => format!(" {odd}"),
            _ => String::new(),
        };
        word + &length
    }

    pub(super) fn send(&mut self, bytes: Vec<u8>, verdict: u8) {
        let words = self.sent(bytes);
        let before = *self.model.card();
        self.put(format!("command {verdict} {words}"));
        let mut places = before.places.iter().zip(&self.model.card().places);
        let deleted = places.find(|(before, after)| before.is_held() && !after.is_held());
        self.gone = deleted.map(|(before, _)| before.aid).or(self.gone);
        if self.is_free && self.model.card().free != before.free {
            self.get_data();
        }
    }

    pub(super) fn verdict(&mut self) -> u8 {
        self.random.pick(&[0, 1, 1, 2, 255])
    }
}
