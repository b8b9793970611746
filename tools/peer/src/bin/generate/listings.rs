//! GET STATUS, listings in parts, and what comes between two parts.

use super::card::{Place, PERSONALIZED, PLACES};
use super::frames::tlv;
use super::script::hex_word;
use super::Generator;

impl Generator {
    /// The tags of a list: none, each alone, in any order and more than once, now and then a wrong one or a long list.
    fn tag_list(&mut self) -> Vec<u8> {
        let count = self.random.pick(&[0, 1, 1, 2, 2, 3, 5]);
        let mut listed = Vec::new();
        for _ in 0..count {
            listed.extend(self.random.pick(&[&[0x4F][..], &[0x9F, 0x70], &[0x53]]));
        }
        if self.random.chance(6) {
            listed.push(self.random.pick(&[0x9F, 0x70, 0x5C, 0x00]));
        }
        if self.random.chance(2) {
            listed = [0x9F, 0x70].repeat(60 + self.random.below(66));
        }
        tlv(&[0x5C], &listed)
    }

    fn get_status_of(&mut self, p2: u8, aid: &[u8]) {
        let mut field = tlv(&[0x4F], aid);
        if self.random.chance(50) {
            field.extend(self.tag_list());
        }
        let verdict = self.verdict();
        self.command([0xF2, 0x40, p2], field, verdict);
    }

    /// The first rows, the next ones where some are left, or one profile's.
    pub(super) fn get_status(&mut self) {
        let next = if self.model.card().kept_place.is_some() { 60 } else { 8 };
        if self.random.chance(next) {
            return self.next_rows();
        }
        let aid = if self.random.chance(65) { Vec::new() } else { self.target(|_, _| true) };
        self.get_status_of(0x02, &aid);
    }

    /// Now and then with a name, which is wrong whatever is kept.
    fn next_rows(&mut self) {
        let aid = match self.random.below(100) {
            0..=91 => Vec::new(),
            92..=96 => self.target(|_, _| true),
            _ => self.odd_aid(),
        };
        self.get_status_of(0x03, &aid);
    }

    /// One part of a listing: the next one, mostly, where one is open.
    pub(super) fn part(&mut self) {
        let open = self.model.card().kept_place.is_some();
        match self.random.below(100) {
            0..=69 if open => self.next_rows(),
            0..=9 => self.next_rows(),
            10..=93 => self.get_status_of(0x02, &[]),
            94..=96 => self.get_status(),
            _ => {
                let p2 = self.random.pick(&[0x00, 0x01, 0x04, 0x06, 0x83]);
                self.get_status_of(p2, &[]);
            }
        }
    }

    /// A listing to its end or until it tires, in any parts, with calls of every kind between some of them.
    pub(super) fn listing(&mut self) {
        self.get_status_of(0x02, &[]);
        for _ in 0..self.random.below(8) {
            match self.random.below(100) {
                0..=64 => self.part(),
                65..=84 => self.refused_call(),
                85..=91 => self.any_call(),
                _ => self.idle_call(),
            }
            if self.model.card().kept_place.is_none() && self.random.chance(60) {
                return;
            }
        }
    }

    /// A call that is mostly refused; an open listing is to outlive it.
    fn refused_call(&mut self) {
        let odd = self.odd_aid();
        let any = self.any_aid();
        let verdict = self.random.pick(&[0, 2, 255]);
        let policy = self.random.pick(&[0, 5, 6]);
        match self.random.below(13) {
            0 => self.put(format!("keyed {}", hex_word(&odd))),
            1 => self.put(format!("stored {} 4294967295", hex_word(&any))),
            2 => self.put(format!("finished {} 5", hex_word(&any))),
            3 => self.put(format!("finished {} 0 2", hex_word(&any))),
            4 => self.get_status_of(0x02, &odd),
            5 => self.get_status_of(0x03, &any),
            6 => self.command([0xE4, 0x00, 0x40], tlv(&[0x4F], &odd), verdict),
            7 => self.store_data(3, tlv(&[0x4F], &odd)),
            8 => self.confirm(0),
            9 => self.send(vec![0x80, 0xCA, 0xFF, 0x21], verdict),
            10 => self.set_policy(&odd, 0),
            11 => self.set_policy(&any, policy),
            _ => self.forbidden_while_open(),
        }
    }

    /// A call that is accepted and changes nothing, but for an open listing.
    fn idle_call(&mut self) {
        let fall_back = self.model.card().places[usize::from(self.model.card().fall_back) % PLACES].aid;
        match self.random.below(7) {
            0 => self.put("tick".to_owned()),
            1 => self.lost(),
            2 => self.store_data(5, tlv(&[0x4F], fall_back.bytes())),
            3 => {
                let aid = self.target(|_, place| place.life_cycle == PERSONALIZED);
                self.put(format!("stored {} 0", hex_word(&aid)));
            }
            4 => {
                let aid = self.target(|_, _| true);
                self.get_status_of(0x02, &aid);
            }
            5 => {
                let Place { aid, policy, .. } = self.enabled().unwrap_or(Place::ZERO);
                self.set_policy(aid.bytes(), policy);
            }
            _ => self.get_data(),
        }
    }
}
