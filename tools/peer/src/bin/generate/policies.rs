//! What operators send to set their policies.

use super::card::{Place, DISABLED, ENABLED};
use super::frames::{counted, tlv};
use super::script::hex_word;
use super::Generator;

impl Generator {
    /// Mostly the enabled profile, which alone is served; else one in another state, one not held, one that only its length
    /// tells from the enabled one, or a name that is none.
    fn speaker(&mut self) -> Vec<u8> {
        let mut near = self.enabled().map_or_else(|| self.any_aid(), |place| place.aid.bytes().to_vec());
        match self.random.below(100) {
            0..=62 => self.target(|_, place| place.life_cycle == ENABLED),
            63..=74 => self.target(|_, place| place.life_cycle == DISABLED),
            75..=80 => self.target(|_, place| place.is_created()),
            81..=86 => self.gone_aid().unwrap_or_else(|| self.any_aid()),
            87..=89 => {
                near.push(0);
                near
            }
            90..=91 => {
                near.pop();
                near
            }
            92 => vec![0xA0; self.random.pick(&[18, 128, 254, 255])],
            _ => self.odd_aid(),
        }
    }

    /// The enabled profile, or the first that a record which is not sound calls so.
    pub(super) fn enabled(&self) -> Option<Place> {
        self.places(|_, place| place.life_cycle == ENABLED).first().map(|index| self.model.card().places[*index])
    }

    /// More of them forbid something than at the end of a download: an operator can take it back.
    fn new_policy(&mut self) -> u8 {
        if self.random.chance(8) {
            let any = self.random.byte();
            return self.random.pick(&[5, 6, 7, 8, any, any]);
        }
        self.random.pick(&[0, 0, 0, 1, 2, 2, 3, 4, 4])
    }

    /// What the DGI holds: mostly one 81 of one byte.
    fn policy_rules(&mut self) -> Vec<u8> {
        let (policy, other) = (self.new_policy(), self.new_policy());
        let right = tlv(&[0x81], &[policy]);
        let tag = self.random.pick(&[0x80, 0x82, 0x01, 0x4F, 0xA1]);
        match self.random.below(100) {
            0 => Vec::new(),
            1 => tlv(&[0x81], &[]),
            2 => tlv(&[0x81], &[policy, other]),
            3 => [right, tlv(&[0x81], &[other])].concat(),
            4 => [right, tlv(&[tag], &[other])].concat(),
            5 => [tlv(&[tag], &[other]), right].concat(),
            6 => tlv(&[tag], &[policy]),
            7 => [right, vec![other]].concat(),
            8 => vec![0x81, 0x81, 1, policy],
            _ => right,
        }
    }

    /// What a profile's domain is sent: mostly an update, else what only the root domain knows.
    fn operator_bytes(&mut self) -> Vec<u8> {
        let aid = self.target(|_, _| true);
        let p1 = 0x88 | self.random.byte() & 7;
        let rules = self.policy_rules();
        let any = self.random.byte();
        let dgi = if self.random.chance(4) { self.random.pick(&[0x03, 0x04, 0x05, 0x07, 0x08, any]) } else { 0x06 };
        let held = if dgi == 0x06 || self.random.chance(50) { rules } else { tlv(&[0x4F], &aid) };
        let mut field = vec![0x3A, dgi, held.len() as u8];
        field.extend(held);
        match self.random.below(80) {
            0 => self.framed([0xE4, 0x00, 0x40], tlv(&[0x4F], &aid)),
            1 => self.framed([0xF2, 0x40, 0x02 | any & 1], vec![0x4F, 0]),
            2 => self.framed([0xE6, 0x20, 0x00], [&[0, 0][..], &counted(&aid), &[0, 0, 0]].concat()),
            3 => vec![0x80, 0xCA, 0xFF, 0x21, 0x00],
            4 => self.framed([any, p1, 0x00], field),
            _ => self.framed([0xE2, p1, 0x00], field),
        }
    }

    /// Now and then it is sent to the root domain, which knows none.
    pub(super) fn update(&mut self) {
        let speaker = self.speaker();
        let bytes = self.operator_bytes();
        if self.random.chance(4) {
            let verdict = self.verdict();
            return self.send(bytes, verdict);
        }
        let words = self.sent(bytes);
        self.put(format!("policy {} {words}", hex_word(&speaker)));
    }

    /// The enabled profile is given a right policy, mostly one that allows its disabling.
    pub(super) fn allow(&mut self) {
        let speaker = self.model.card().enabled_aid();
        let policy = self.random.pick(&[0, 0, 2, 4, 4, 3]);
        self.set_policy(speaker.bytes(), policy);
    }

    pub(super) fn set_policy(&mut self, speaker: &[u8], policy: u8) {
        self.put(format!("policy {} 80E28800063A06038101{policy:02X}", hex_word(speaker)));
    }
}
