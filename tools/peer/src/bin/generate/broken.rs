//! Cards that are not sound, and those that differ from the one reached in free or in the kept place alone.

use super::card::{
    Aid, Card, Phase, Place, CAPACITY_MOST, DISABLED, ENABLED, MARKED, PERSONALIZED, PLACES, SELECTABLE,
};
use super::cards::held_places;
use super::script::hex_word;
use super::Generator;

/// What the quotas leave of the capacity, 0 where they pass it.
fn free_left(card: &Card) -> u32 {
    card.places.iter().fold(card.capacity, |free, place| free.saturating_sub(place.quota))
}

impl Generator {
    fn refused_fresh(&mut self) {
        let eid = self.eid();
        let aid = hex_word(&self.any_aid());
        let line = match self.random.below(9) {
            0 => format!("fresh {} {aid} 1000 100 0 0", &eid[2..]),
            1 => format!("fresh {eid}00 {aid} 1000 100 0 0"),
            2 => format!("fresh {eid} A0000000 1000 100 0 0"),
            3 => format!("fresh {eid} {} 1000 100 0 0", "A0".repeat(17)),
            4 => format!("fresh {eid} {aid} 0 0 0 0"),
            5 => format!("fresh {eid} {aid} 1048577 100 0 0"),
            6 => format!("fresh {eid} {aid} 1000 1001 0 0"),
            7 => format!("fresh {eid} {aid} 1000 0 0 0"),
            _ => format!("fresh {eid} {aid} 1000 100 101 0"),
        };
        self.put(line);
    }

    /// Broken in anything but its free, which is right wherever it can be.
    fn broken_card(&mut self) -> Card {
        let mut card = self.sound_card();
        if self.random.chance(if self.is_listing { 60 } else { 10 }) {
            self.keep_wrong_place(&mut card);
            return card;
        }
        match self.random.below(22) {
            0 => card.capacity = self.random.pick(&[0, 1, 1_048_577, u32::MAX]),
            1 => card.fall_back = self.random.pick(&[PLACES as u8, PLACES as u8 + 1, 200, 255]),
            2 => card.phase = Phase::Back { left: self.random.pick(&[0, 11, 255]), number: card.last },
            3 => card.phase = Phase::Back { left: 5, number: card.last.wrapping_add(1) },
            4 => {
                let any = self.random.below(PLACES) as u8;
                let previous = self.random.pick(&[card.enabled() as u8, PLACES as u8, 200, any]);
                card.phase = Phase::Trial { previous, left: 5, number: card.last };
            }
            5 => card.phase = Phase::Fallen { left: 5, number: card.last },
            6 => card.places = card.places.map(|place| Place { quota: u32::MAX, ..place }),
            7 => card.capacity = card.places.iter().map(|place| place.quota).sum::<u32>() - 1,
            8 => card.capacity = card.places.iter().map(|place| place.quota).sum(),
            9 => card.places[usize::from(card.fall_back)].life_cycle = self.random.pick(&[SELECTABLE, PERSONALIZED]),
            10 => card.places[usize::from(card.fall_back)].mark = self.random.pick(&[0, 0, 0, 2]),
            11 => card = Card::ZEROS,
            _ => self.break_place(&mut card),
        }
        card.free = free_left(&card);
        card
    }

    /// Nothing but the kept place is touched. A number past the places, or a place that is mostly not held.
    fn keep_wrong_place(&mut self, card: &mut Card) {
        let past = self.random.number(PLACES as u32, 254) as u8;
        let free = card.lowest_free_place().map_or(past, |index| index as u8);
        let place = self.random.below(PLACES) as u8;
        card.kept_place = Some(self.random.pick(&[free, free, place, 31, 32, 33, 64, 200, 254, past]));
    }

    /// A place that is not held is broken by most of these too.
    fn break_place(&mut self, card: &mut Card) {
        let (enabled, enabled_aid) = (card.enabled(), card.enabled_aid());
        let index = self.random.below(PLACES);
        let any = self.random.byte();
        let place = &mut card.places[index];
        match self.random.below(10) {
            0 => place.life_cycle = self.random.pick(&[0x00, 0x03, 0x0B, 0x7F, 0x83, any]),
            1 => place.quota = self.random.pick(&[0, u32::MAX, 1_048_577]),
            2 => place.used = self.random.pick(&[1, u32::MAX]),
            3 => place.policy = self.random.pick(&[5, 6, 7, 8, any]),
            4 => place.mark = self.random.pick(&[2, 3, 255, any]),
            5 => *place = Place { mark: self.random.pick(&[MARKED, MARKED, any]), ..Place::ZERO },
            6 => place.aid = Aid::of(&[0xA0, 0, 0, 0][..self.random.below(5)]),
            7 => place.life_cycle = ENABLED,
            8 => card.places[enabled].life_cycle = DISABLED,
            _ => place.aid = enabled_aid,
        }
    }

    /// Nothing but free, capacity and quotas is touched. Mostly they no longer add up; at last they do again.
    fn off_balance(&mut self, mut card: Card) -> Card {
        let any = self.random.next() as u32;
        let held = held_places(&card);
        let place = &mut card.places[self.random.pick(&held)];
        match self.random.below(12) {
            0 | 1 => card.free = card.free.wrapping_add(1),
            2 | 3 => card.free = card.free.wrapping_sub(1),
            4 => card.free = 0,
            5 => card.free = card.capacity,
            6 => card.free = u32::MAX,
            7 => card.free = self.random.pick(&[any, any % CAPACITY_MOST, card.capacity - card.free]),
            8 => card.capacity = self.random.pick(&[card.capacity + 1, card.capacity - 1]),
            9 => place.quota += 1,
            // Over the capacity, and only by what a number of 32 bits does not show.
            10 => {
                place.quota = card.capacity;
                card.free = card.places.iter().fold(card.capacity, |free, place| free.wrapping_sub(place.quota));
            }
            _ => {
                let more = self.random.pick(&[0, 1, card.free]).min(card.free);
                place.quota += more;
                card.free -= more;
            }
        }
        card
    }

    /// The card as it stands with its balance lost, and a call or two that must leave it so; then as it was, and
    /// the chapter goes on.
    pub(super) fn lose_balance(&mut self) {
        let card = *self.model.card();
        let off_balance = self.off_balance(card);
        self.hand_in(&off_balance);
        for _ in 0..self.random.below(3) {
            if self.random.chance(40) {
                self.get_data();
            } else {
                self.any_call();
            }
        }
        self.hand_in(&card);
    }

    /// The card as it stands with another kept place, right or wrong, or with none, and a part or two of a listing; mostly
    /// the card is then handed in as it was, also with the listing open.
    pub(super) fn move_kept_place(&mut self) {
        let card = *self.model.card();
        let mut other = card;
        if self.random.chance(35) {
            self.keep_wrong_place(&mut other);
        } else {
            let held = held_places(&card);
            let place = self.random.pick(&held) as u8;
            other.kept_place = self.random.pick(&[None, Some(place), Some(place)]);
        }
        self.hand_in(&other);
        for _ in 0..self.random.below(4) {
            self.part();
        }
        if !self.model.card().is_sound() || self.random.chance(50) {
            self.hand_in(&card);
        }
    }

    /// A card that is not sound, and a call or two that must leave it so.
    pub(super) fn unsound(&mut self) {
        if self.random.chance(30) {
            self.refused_fresh();
        } else {
            let card = self.broken_card();
            self.hand_in(&card);
        }
        for _ in 0..self.random.below(3) {
            self.any_call();
        }
    }
}
