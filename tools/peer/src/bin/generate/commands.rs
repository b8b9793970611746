//! The commands of the root domain, but for GET STATUS.

use super::card::{Card, Place, DELETION_FORBIDDEN, DISABLED, ENABLED, MARKED, PLACES};
use super::frames::{counted, tlv};
use super::Generator;

impl Generator {
    /// Mostly a name that is not held, so that the creation is taken; often the one deleted last, since created again
    /// nothing of its first life may show; now and then an odd one.
    fn aid_to_create(&mut self) -> Vec<u8> {
        let mut aid = self.any_aid();
        if self.model.card().find(&aid).is_some() && self.random.chance(80) {
            aid = self.any_aid();
        }
        if let Some(gone) = self.gone_aid().filter(|_| self.random.chance(25)) {
            aid = gone;
        }
        if self.random.chance(3) {
            aid = self.odd_aid();
        }
        aid
    }

    /// The quota of a creation as its bytes: mostly one that fits, also all that is free and one byte more, now and then a
    /// wrong one.
    fn quota(&mut self, card: &Card) -> Vec<u8> {
        let free = if card.is_sound() { card.free } else { 0 };
        let small = self.random.number(1, (card.capacity / 10).min(free / 2) + 1);
        let choices =
            [small, small, small, small, small, small, small, small, small, free, free.wrapping_add(1), card.capacity];
        let quota = if self.is_free && self.random.chance(25) {
            self.random.pick(&[free, free, free.wrapping_sub(1), free.wrapping_add(1)])
        } else if self.random.chance(4) {
            let any = self.random.next() as u32;
            self.random.pick(&[0, card.capacity.wrapping_add(1), any])
        } else {
            self.random.pick(&choices)
        };
        if quota <= 0xFF_FFFF && self.random.chance(2) {
            quota.to_be_bytes()[1..].to_vec()
        } else if quota <= 0xFFFF && self.random.chance(50) {
            (quota as u16).to_be_bytes().to_vec()
        } else {
            quota.to_be_bytes().to_vec()
        }
    }

    pub(super) fn create(&mut self) {
        let card = *self.model.card();
        let aid = self.aid_to_create();
        let quota = self.quota(&card);
        self.create_of(aid, quota);
    }

    fn create_of(&mut self, aid: Vec<u8>, quota: Vec<u8>) {
        let occurrences = self.random.pick(&[1, 1, 1, 1, 1, 1, 1, 1, 1, 1, 1, 1, 1, 1, 2, 2, 3, 3, 33, 33, 0]);
        let mut protocols = [0x81, 2, 3, 0x70].repeat(occurrences);
        if self.random.chance(2) {
            protocols = self.random.pick(&[&[0x81, 1, 3][..], &[0x81, 3, 3, 0x70, 0], &[0x82, 2, 3, 0x70]]).to_vec();
        }
        let mut parameters = tlv(&[0xC9], &protocols);
        parameters.extend(tlv(&[0xEF], &tlv(&[0x83], &quota)));
        let load_file = self.any_aid();
        let module = self.any_aid();
        let privileges: &[u8] = self.random.pick(&[&[0x80][..], &[0x80, 0xC0, 0x00]][..]);
        let privileges = if self.random.chance(2) { &[0x80, 0xC0] } else { privileges };
        let mut field = counted(&load_file);
        for value in [&module, &aid, &privileges.to_vec(), &parameters] {
            field.extend(counted(value));
        }
        field.push(0);
        let verdict = self.verdict();
        self.command([0xE6, 0x0C, 0x00], field, verdict);
    }

    /// On a full card mostly a delete, so that the places come and go.
    pub(super) fn create_if_room(&mut self) {
        let card = *self.model.card();
        let room = card.is_sound() && card.lowest_free_place().is_some() && card.free > 0;
        if room || self.random.chance(15) {
            self.create();
        } else if card.is_open() {
            self.confirm(90);
        } else if self.random.chance(50) {
            self.delete(false);
        } else {
            self.delete(true);
        }
    }

    /// Creations one after the other, up to all places and more, each with so small a quota that there is room for all.
    pub(super) fn crowd(&mut self) {
        let names = self.aids.clone();
        let start = self.random.below(names.len());
        let count = self.random.pick(&[9, 12, 16, 20, 36, 44]);
        for at in start..start + count.min(names.len()) {
            let most = self.model.card().free / PLACES as u32 / 2 + 1;
            let quota = self.random.number(1, most.min(0xFFFF));
            self.create_of(names[at % names.len()].clone(), quota.to_be_bytes().to_vec());
        }
    }

    pub(super) fn store_data(&mut self, dgi: u8, body: Vec<u8>) {
        let mut field = vec![0x3A, dgi, body.len() as u8];
        field.extend(body);
        let p1 = 0x88 | self.random.byte() & 7;
        let verdict = self.verdict();
        self.command([0xE2, p1, 0x00], field, verdict);
    }

    pub(super) fn enable(&mut self) {
        let aid = self.target(|_, place| place.life_cycle == DISABLED);
        self.store_data(3, tlv(&[0x4F], &aid));
    }

    pub(super) fn disable(&mut self) {
        let aid = self.target(|_, place| place.life_cycle == ENABLED);
        self.store_data(4, tlv(&[0x4F], &aid));
    }

    pub(super) fn set_fall_back(&mut self) {
        let ready = self.random.chance(85);
        let mark = if ready { self.random.pick(&[0, MARKED, MARKED]) } else { MARKED };
        let aid = self.target(|_, place| {
            let is_ready = matches!(place.life_cycle, DISABLED | ENABLED);
            is_ready == ready && place.mark == mark
        });
        self.store_data(5, tlv(&[0x4F], &aid));
    }

    pub(super) fn confirm(&mut self, right: usize) {
        let last = self.model.card().last;
        let number = if self.random.chance(right) {
            last
        } else {
            let any = self.random.next() as u16;
            self.random.pick(&[last.wrapping_sub(1), last.wrapping_add(1), last.swap_bytes(), 0, any])
        };
        self.store_data(8, tlv(&[0x4E], &number.to_be_bytes()));
    }

    /// A whole profile that may go, or what a broken download has left; of these first one whose policy forbids it, which
    /// only a record handed in has.
    fn doomed(&mut self) -> Vec<u8> {
        let fall_back = usize::from(self.model.card().fall_back);
        let is_forbidden = |place: &Place| place.is_created() && place.policy & DELETION_FORBIDDEN != 0;
        let created = !self.places(|_, place| place.is_created()).is_empty();
        let forbidden = !self.places(|_, place| is_forbidden(place)).is_empty();
        match self.random.below(100) {
            0..=59 if forbidden => self.target(|_, place| is_forbidden(place)),
            0..=39 if created => self.target(|_, place| place.is_created()),
            _ => self.target(|index, place| place.life_cycle == DISABLED && index != fall_back),
        }
    }

    /// Master delete is asked for the same profiles, and leaves the Created ones.
    pub(super) fn delete(&mut self, master: bool) {
        let aid = self.doomed();
        let mut field = tlv(&[0x4F], &aid);
        let mut verdict = self.verdict();
        if master {
            let mut reference = Vec::new();
            for tag in [&[0x42][..], &[0x45], &[0x5F, 0x20], &[0x93]] {
                let length = self.random.pick(&[1, 1, 1, 1, 1, 1, 2, 2, 3, 3, 4, 4, 4, 4, 5, 5, 6, 7, 8, 0]);
                let value = vec![self.random.byte(); length];
                reference.extend(tlv(tag, &value));
            }
            field.extend(tlv(&[0xB6], &reference));
            let length = self.random.pick(&[1, 1, 4, 4, 4, 16, 16, 16, 16, 127, 128, 0]);
            field.extend(tlv(&[0x9E], &vec![0x55; length]));
            if self.random.chance(60) {
                verdict = 1;
            }
        }
        self.command([0xE4, 0x00, 0x40], field, verdict);
    }

    pub(super) fn get_data(&mut self) {
        let class = self.class();
        let verdict = self.verdict();
        self.send(vec![class, 0xCA, 0xFF, 0x21, 0x00], verdict);
    }
}
