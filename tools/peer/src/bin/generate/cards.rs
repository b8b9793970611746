//! Cards: fresh ones, and sound ones to be handed in.

use super::card::{Aid, Card, Phase, Place, DISABLED, ENABLED, MARKED, PERSONALIZED, PLACES, SELECTABLE};
use super::script::hex_word;
use super::Generator;

pub(super) fn held_places(card: &Card) -> Vec<usize> {
    (0..PLACES).filter(|index| card.places[*index].is_held()).collect()
}

impl Generator {
    pub(super) fn fresh(&mut self) {
        let eid = self.eid();
        let aid = self.any_aid();
        let capacity = self.random.pick(&[1, 300, 1000, 1000, 1000, 70_000, 1_048_576]);
        let quota = self.random.number(1, capacity / 4 + 1).min(capacity);
        let used = self.random.number(0, quota);
        let volatile = self.random.next() as u32;
        self.put(format!("fresh {eid} {} {capacity} {quota} {used} {volatile}", hex_word(&aid)));
    }

    pub(super) fn eid(&mut self) -> String {
        let eid: Vec<u8> = (0..16).map(|_| self.random.byte()).collect();
        hex_word(&eid)
    }

    /// Any sound card, also of kinds that no run from fresh makes: a SELECTABLE one with used
    /// bytes or a mark, a previous that is the fall-back, all places full, numbers about to wrap, a kept place at which
    /// no listing stops.
    pub(super) fn sound_card(&mut self) -> Card {
        let capacity = self.random.pick(&[100, 1000, 1_048_576]);
        let mut card = Card { capacity, volatile: self.random.next() as u32, free: capacity, ..Card::ZEROS };
        for byte in &mut card.eid {
            *byte = self.random.byte();
        }
        self.fill(&mut card);
        let held = held_places(&card);
        let enabled = self.random.pick(&held);
        card.places[enabled].life_cycle = ENABLED;
        let fall_back = self.random.pick(&held);
        if fall_back != enabled {
            card.places[fall_back].life_cycle = DISABLED;
        }
        card.places[fall_back].mark = MARKED;
        card.fall_back = fall_back as u8;
        let any = self.random.next() as u16;
        card.last = self.random.pick(&[0, 1, 65533, 65534, 65535, any]);
        card.phase = self.phase(&card);
        if self.random.chance(if self.is_listing { 60 } else { 25 }) {
            card.kept_place = Some(self.random.pick(&held) as u8);
        }
        card
    }

    /// Profiles in few, in many or in all of the places, at least in one; none is ENABLED yet.
    fn fill(&mut self, card: &mut Card) {
        let mut names = self.aids.clone();
        let share = if self.is_listing {
            self.random.pick(&[50, 75, 90, 100])
        } else {
            self.random.pick(&[5, 15, 15, 50, 75, 100])
        };
        for index in 0..PLACES {
            if !self.random.chance(share) {
                continue;
            }
            let name = names.swap_remove(self.random.below(names.len()));
            let quota = self.random.number(1, card.capacity / PLACES as u32);
            let most = self.random.pick(&[0, 3.min(quota), quota]);
            let profile = Place {
                aid: Aid::of(&name),
                life_cycle: self.random.pick(&[SELECTABLE, PERSONALIZED, DISABLED, DISABLED, DISABLED]),
                quota,
                used: self.random.number(0, most),
                policy: self.random.pick(&[0, 0, 0, 1, 2, 3, 4, 4]),
                mark: self.random.pick(&[0, MARKED]),
            };
            card.fill(index, profile);
        }
        if card.held() == 0 {
            card.fill(5, Place { aid: Aid::of(&names[0]), life_cycle: DISABLED, quota: 7, ..Place::ZERO });
        }
    }

    fn phase(&mut self, card: &Card) -> Phase {
        let number = card.last;
        let left = self.random.number(1, 10) as u8;
        let mut disabled = held_places(card);
        disabled.retain(|index| card.places[*index].life_cycle == DISABLED);
        match self.random.below(10) {
            0..=3 if !disabled.is_empty() => {
                let previous = self.random.pick(&disabled) as u8;
                Phase::Trial { previous, left, number }
            }
            4 | 5 => Phase::Back { left, number },
            6 if card.is_fall_back(card.enabled()) => Phase::Fallen { left, number },
            _ => Phase::Quiet,
        }
    }

    pub(super) fn hand_in(&mut self, card: &Card) {
        let phase = match card.phase {
            Phase::Quiet => "Q".to_owned(),
            Phase::Trial { previous, left, number } => format!("T:{previous}:{left}:{number}"),
            Phase::Back { left, number } => format!("B:{left}:{number}"),
            Phase::Fallen { left, number } => format!("F:{left}:{number}"),
        };
        let kept_place = card.kept_place.map_or("-".to_owned(), |index| index.to_string());
        let mut line = format!(
            "card {} {} {} {} {} {} {phase} {kept_place}",
            hex_word(&card.eid),
            card.capacity,
            card.volatile,
            card.free,
            card.last,
            card.fall_back
        );
        for place in &card.places {
            if *place == Place::ZERO {
                line.push_str(" -");
            } else {
                let Place { aid, life_cycle, quota, used, policy, mark } = place;
                line.push_str(&format!(" {}:{life_cycle:02X}:{quota}:{used}:{policy}:{mark}", hex_word(aid.bytes())));
            }
        }
        self.put(line);
    }
}
