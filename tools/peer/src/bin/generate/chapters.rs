//! Which call comes next, and how long a script goes on.

use super::card::{DISABLED, DISABLING_FORBIDDEN};
use super::Generator;

impl Generator {
    fn ticks(&mut self) {
        let few = self.random.number(1, 12);
        let count = self.random.pick(&[1, 1, 2, few, 9, 10, 11]);
        for _ in 0..count {
            self.put("tick".to_owned());
        }
    }

    pub(super) fn lost(&mut self) {
        self.put("lost".to_owned());
    }

    pub(super) fn forbidden_while_open(&mut self) {
        match self.random.below(7) {
            0 => self.create(),
            1 => self.enable(),
            2 => self.disable(),
            3 => self.delete(false),
            4 => self.delete(true),
            5 => self.update(),
            _ => self.set_fall_back(),
        }
    }

    pub(super) fn any_call(&mut self) {
        match self.random.below(9) {
            0 => self.keyed(),
            1 => self.stored(),
            2 => self.finished(),
            3 => self.put("tick".to_owned()),
            4 => self.lost(),
            5 => self.get_status(),
            6 => self.confirm(80),
            7 => self.update(),
            _ => self.forbidden_while_open(),
        }
    }

    fn call(&mut self) {
        let roll = self.random.below(100);
        if self.is_bound() && self.random.chance(20) {
            self.allow();
        } else if self.random.chance(7) {
            self.update();
        } else if self.model.card().is_open() {
            match roll {
                0..=21 => self.ticks(),
                22..=51 => self.confirm(75),
                52..=56 => self.lost(),
                57..=65 => self.get_status(),
                66..=69 => self.get_data(),
                70..=84 => self.download(),
                85..=96 => self.forbidden_while_open(),
                _ => self.any_call(),
            }
        } else if self.places(|_, place| place.life_cycle == DISABLED).is_empty() && self.random.chance(75) {
            self.download();
        } else {
            match roll {
                0..=11 => self.create_if_room(),
                12..=39 => self.download(),
                40..=58 => self.enable(),
                59..=64 => self.disable(),
                65..=71 => self.delete(false),
                72..=76 => self.delete(true),
                77..=81 => self.set_fall_back(),
                82..=85 => self.lost(),
                86..=87 => self.put("tick".to_owned()),
                88..=93 => self.get_status(),
                94..=96 => self.get_data(),
                97 => self.confirm(50),
                _ => self.any_call(),
            }
        }
    }

    /// Where hardly any command can be accepted, a chapter is not worth its full length.
    fn is_stuck(&self) -> bool {
        let card = self.model.card();
        !card.is_open() && card.held() == 1 && card.free == 0
    }

    /// Where only its operator can let the card leave the enabled profile.
    fn is_bound(&self) -> bool {
        let card = self.model.card();
        card.is_sound() && !card.is_open() && card.places[card.enabled()].policy & DISABLING_FORBIDDEN != 0
    }

    fn chapter(&mut self, most: usize) {
        self.new_aids();
        let from_fresh = self.random.chance(55);
        if from_fresh {
            self.fresh();
        } else {
            let card = self.sound_card();
            self.hand_in(&card);
        }
        let length = if from_fresh { self.random.number(40, 160) } else { self.random.number(3, 60) };
        if from_fresh && self.random.chance(if self.is_listing { 90 } else { 20 }) {
            self.crowd();
        }
        let end = most.min(self.calls + length as usize);
        while self.calls < end && !(self.is_stuck() && self.random.chance(20)) {
            if self.is_listing && self.random.chance(60) {
                self.listing();
            } else {
                self.call();
            }
            if self.is_free && self.random.chance(8) {
                self.lose_balance();
            }
            if self.is_listing && self.random.chance(8) {
                self.move_kept_place();
            }
        }
        for _ in 0..self.random.below(4) {
            self.unsound();
        }
    }

    pub(super) fn chapters(&mut self, most: usize) {
        while self.calls < most {
            self.chapter(most);
        }
    }

    /// From one fresh card on, with more ticks than a chapter has. Where nothing can be done any more the month
    /// ends, or mostly another one is begun in its place.
    pub(super) fn month(&mut self, most: usize) {
        loop {
            self.out.clear();
            self.calls = 0;
            self.new_aids();
            self.fresh();
            let is_crowded = self.random.chance(40);
            if is_crowded {
                self.crowd();
            }
            while self.calls < most {
                self.call();
                if self.random.chance(15) {
                    self.ticks();
                }
                if is_crowded && self.random.chance(10) {
                    self.listing();
                }
                if self.is_stuck() {
                    break;
                }
            }
            if self.calls >= most || self.random.chance(10) {
                return;
            }
        }
    }
}
