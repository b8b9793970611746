//! The inner calls: keyed, stored and finished.

use super::card::{mark_is_right, policy_is_right, MARKED, PERSONALIZED, SELECTABLE};
use super::script::hex_word;
use super::Generator;

impl Generator {
    fn policy(&mut self) -> u8 {
        let right = [0, 0, 0, 0, 0, 0, 4, 4, 4, 4, 4, 2, 2, 1, 3];
        if self.random.chance(6) {
            let any = self.random.byte();
            self.random.pick(&[5, 6, 7, 8, any])
        } else {
            self.random.pick(&right)
        }
    }

    fn mark(&mut self) -> u8 {
        if self.random.chance(10) {
            let any = self.random.byte();
            self.random.pick(&[2, 3, 254, 255, any])
        } else {
            self.random.pick(&[0, MARKED])
        }
    }

    pub(super) fn keyed(&mut self) {
        let aid = self.target(|_, place| place.life_cycle == SELECTABLE);
        self.put(format!("keyed {}", hex_word(&aid)));
    }

    pub(super) fn stored(&mut self) {
        let aid = self.target(|_, place| place.life_cycle == PERSONALIZED);
        let place = self.model.card().find(&aid).map(|index| self.model.card().places[index]);
        let room = place.map_or(9, |place| place.quota.saturating_sub(place.used));
        let some = self.random.number(1, room / 2 + 1);
        let n = self.random.pick(&[some, some, some, some, room, room.wrapping_add(1), 0, u32::MAX]);
        self.put(format!("stored {} {n}", hex_word(&aid)));
    }

    /// Wrong values come before all that the card is asked, so half of them meet any name.
    pub(super) fn finished(&mut self) {
        let policy = self.policy();
        let mark = if self.random.chance(35) { None } else { Some(self.mark()) };
        let right = policy_is_right(policy) && mark.is_none_or(mark_is_right);
        let aid = if right || self.random.chance(50) {
            self.target(|_, place| place.life_cycle == PERSONALIZED && place.used > 0)
        } else {
            self.any_aid()
        };
        let mark = mark.map_or(String::new(), |mark| format!(" {mark}"));
        self.put(format!("finished {} {policy}{mark}", hex_word(&aid)));
    }

    /// Carries the download of some profile one call further, where there is one.
    pub(super) fn download(&mut self) {
        let selectable = !self.places(|_, place| place.life_cycle == SELECTABLE).is_empty();
        let empty = !self.places(|_, place| place.life_cycle == PERSONALIZED && place.used == 0).is_empty();
        let begun = !self.places(|_, place| place.life_cycle == PERSONALIZED && place.used > 0).is_empty();
        match self.random.below(100) {
            0..=29 if selectable => self.keyed(),
            30..=54 if empty || begun => self.stored(),
            55..=93 if begun => self.finished(),
            _ if begun => self.finished(),
            _ if empty => self.stored(),
            _ if selectable => self.keyed(),
            _ => self.create_if_room(),
        }
    }
}
