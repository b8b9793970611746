//! The card of document 01: its places, its phase, what makes it sound, and the clock.
//! Knows no command. The methods that change a card expect a sound one; `manager` asks first.

pub const PLACES: usize = 32;
pub const WAIT: u8 = 10;
pub const CAPACITY_MOST: u32 = 1_048_576;
pub const AID_LEAST: usize = 5;
pub const AID_MOST: usize = 16;
pub const EID_LENGTH: usize = 16;

pub const SELECTABLE: u8 = 0x07;
pub const PERSONALIZED: u8 = 0x0F;
pub const DISABLED: u8 = 0x1F;
pub const ENABLED: u8 = 0x3F;

pub const DISABLING_FORBIDDEN: u8 = 0x01;
pub const DELETION_FORBIDDEN: u8 = 0x02;
pub const DELETE_ONCE_DISABLED: u8 = 0x04;

/// The mark of a profile with provisioning capability; 0 is that of one without.
pub const MARKED: u8 = 1;

pub const CHANGED: u8 = 0x02;
pub const ROLLED_BACK: u8 = 0x03;
pub const FALLEN_BACK: u8 = 0x05;

/// Table 70 of 000 lets `delete once disabled` stand only alone, so 05 is as wrong as 06 and 07.
pub fn policy_is_right(policy: u8) -> bool {
    policy == DELETE_ONCE_DISABLED || policy & !(DISABLING_FORBIDDEN | DELETION_FORBIDDEN) == 0
}

pub fn mark_is_right(mark: u8) -> bool {
    mark <= MARKED
}

pub fn aid_length_is_right(length: usize) -> bool {
    (AID_LEAST..=AID_MOST).contains(&length)
}

/// Length and bytes together: A000000001 and A00000000100 are two names, though padding
/// with zeros makes them look alike. Bytes past the length are zero by construction.
#[derive(Clone, Copy, PartialEq, Eq, Debug)]
pub struct Aid {
    length: u8,
    bytes: [u8; AID_MOST],
}

impl Aid {
    pub const NONE: Aid = Aid { length: 0, bytes: [0; AID_MOST] };

    pub fn of(name: &[u8]) -> Aid {
        let mut aid = Aid::NONE;
        aid.bytes[..name.len()].copy_from_slice(name);
        aid.length = name.len() as u8;
        aid
    }

    pub fn bytes(&self) -> &[u8] {
        &self.bytes[..self.length as usize]
    }
}

#[derive(Clone, Copy, PartialEq, Eq, Debug)]
pub struct Place {
    pub aid: Aid,
    pub life_cycle: u8,
    pub quota: u32,
    pub used: u32,
    pub policy: u8,
    /// Provisioning capability: `finished` gives it, set fall-back asks it.
    pub mark: u8,
}

impl Place {
    pub const ZERO: Place = Place { aid: Aid::NONE, life_cycle: 0, quota: 0, used: 0, policy: 0, mark: 0 };

    pub fn is_held(&self) -> bool {
        self.aid.length > 0
    }

    /// Table 2 of 000 maps both states to Created: what a download that stops half way leaves behind.
    pub fn is_created(&self) -> bool {
        matches!(self.life_cycle, SELECTABLE | PERSONALIZED)
    }

    /// One test for soundness and for set fall-back, so that naming the holder meets no refusal.
    pub fn may_be_fall_back(&self) -> bool {
        matches!(self.life_cycle, DISABLED | ENABLED) && self.mark == MARKED
    }

    fn is_sound_profile(&self, capacity: u32) -> bool {
        aid_length_is_right(self.aid.length as usize)
            && matches!(self.life_cycle, SELECTABLE | PERSONALIZED | DISABLED | ENABLED)
            && (1..=capacity).contains(&self.quota)
            && self.used <= self.quota
            && policy_is_right(self.policy)
            && mark_is_right(self.mark)
    }
}

#[derive(Clone, Copy, PartialEq, Eq, Debug)]
pub enum Phase {
    Quiet,
    Trial { previous: u8, left: u8, number: u16 },
    Back { left: u8, number: u16 },
    Fallen { left: u8, number: u16 },
}

#[derive(Clone, Copy, PartialEq, Eq, Debug)]
pub struct Notification {
    pub kind: u8,
    pub number: u16,
    pub eid: [u8; EID_LENGTH],
    pub aid: Aid,
}

#[derive(Clone, Copy, PartialEq, Eq, Debug)]
pub struct Card {
    pub eid: [u8; EID_LENGTH],
    pub capacity: u32,
    pub volatile: u32,
    /// What the quotas leave of the capacity, kept so that no call has to add them up: `fill` and `clear` keep it true.
    pub free: u32,
    pub last: u16,
    pub fall_back: u8,
    pub phase: Phase,
    /// The place of the first row that GET STATUS has not yet given, where a listing is open.
    pub kept_place: Option<u8>,
    pub places: [Place; PLACES],
}

impl Card {
    pub const ZEROS: Card = Card {
        eid: [0; EID_LENGTH],
        capacity: 0,
        volatile: 0,
        free: 0,
        last: 0,
        fall_back: 0,
        phase: Phase::Quiet,
        kept_place: None,
        places: [Place::ZERO; PLACES],
    };

    pub fn fresh(eid: &[u8], aid: &[u8], capacity: u32, quota: u32, used: u32, volatile: u32) -> Option<Card> {
        let right = eid.len() == EID_LENGTH
            && aid_length_is_right(aid.len())
            && (1..=CAPACITY_MOST).contains(&capacity)
            && (1..=capacity).contains(&quota)
            && used <= quota;
        if !right {
            return None;
        }
        let mut card = Card { capacity, volatile, free: capacity, ..Card::ZEROS };
        card.eid.copy_from_slice(eid);
        card.fill(0, Place { aid: Aid::of(aid), life_cycle: ENABLED, quota, used, mark: MARKED, ..Place::ZERO });
        Some(card)
    }

    pub fn is_sound(&self) -> bool {
        if !(1..=CAPACITY_MOST).contains(&self.capacity) {
            return false;
        }
        let mut enabled = 0;
        // An unsound record may hold a quota of 2^32-1 in every place, and a free of as much.
        let mut together = u64::from(self.free);
        for (index, place) in self.places.iter().enumerate() {
            if *place == Place::ZERO {
                continue;
            }
            if !place.is_sound_profile(self.capacity) {
                return false;
            }
            if self.places[..index].iter().any(|other| other.aid == place.aid) {
                return false;
            }
            enabled += usize::from(place.life_cycle == ENABLED);
            together += u64::from(place.quota);
        }
        enabled == 1
            && together == u64::from(self.capacity)
            && self.held_at(self.fall_back).is_some_and(Place::may_be_fall_back)
            && self.phase_is_sound()
            && self.kept_place.is_none_or(|index| self.held_at(index).is_some())
    }

    fn phase_is_sound(&self) -> bool {
        let is = |index, life_cycle| self.held_at(index).is_some_and(|place| place.life_cycle == life_cycle);
        match self.phase {
            Phase::Quiet => true,
            Phase::Trial { previous, left, number } => self.clock_is_sound(left, number) && is(previous, DISABLED),
            Phase::Back { left, number } => self.clock_is_sound(left, number),
            Phase::Fallen { left, number } => self.clock_is_sound(left, number) && is(self.fall_back, ENABLED),
        }
    }

    /// "its one outstanding notification number, the last one issued" is a rule of the record.
    fn clock_is_sound(&self, left: u8, number: u16) -> bool {
        (1..=WAIT).contains(&left) && number == self.last
    }

    fn held_at(&self, index: u8) -> Option<&Place> {
        self.places.get(index as usize).filter(|place| place.is_held())
    }

    pub fn find(&self, aid: &[u8]) -> Option<usize> {
        self.places.iter().position(|place| place.is_held() && place.aid.bytes() == aid)
    }

    pub fn lowest_free_place(&self) -> Option<usize> {
        self.places.iter().position(|place| !place.is_held())
    }

    pub fn held(&self) -> usize {
        self.places.iter().filter(|place| place.is_held()).count()
    }

    /// Puts a new profile into a free place; there is room for its quota.
    pub fn fill(&mut self, index: usize, profile: Place) {
        self.free -= profile.quota;
        self.places[index] = profile;
    }

    /// Every deletion: a place of zeros is left, and the whole quota is free again, whatever was stored of it.
    pub fn clear(&mut self, index: usize) {
        self.free += self.places[index].quota;
        self.places[index] = Place::ZERO;
    }

    pub fn enabled(&self) -> usize {
        self.places.iter().position(|place| place.life_cycle == ENABLED).expect("a sound card has one ENABLED")
    }

    pub fn enabled_aid(&self) -> Aid {
        self.places[self.enabled()].aid
    }

    pub fn is_fall_back(&self, index: usize) -> bool {
        index == self.fall_back as usize
    }

    /// What delete takes. A broken download is cleared away by it (000, 3.1.4), so the room of a
    /// Created profile has to come back too.
    pub fn may_be_deleted(&self, index: usize) -> bool {
        let place = &self.places[index];
        (place.is_created() || place.life_cycle == DISABLED) && !self.is_fall_back(index)
    }

    /// What master delete takes (000, 4.1.1.6): it overrules the policy of a whole profile, and is
    /// no way to clear away a broken download.
    pub fn may_be_master_deleted(&self, index: usize) -> bool {
        self.places[index].life_cycle == DISABLED && !self.is_fall_back(index)
    }

    pub fn is_open(&self) -> bool {
        self.phase != Phase::Quiet
    }

    pub fn outstanding(&self) -> Option<u16> {
        match self.phase {
            Phase::Quiet => None,
            Phase::Trial { number, .. } | Phase::Back { number, .. } | Phase::Fallen { number, .. } => Some(number),
        }
    }

    fn move_to(&mut self, index: usize) {
        let from = self.enabled();
        self.places[from].life_cycle = DISABLED;
        self.places[index].life_cycle = ENABLED;
    }

    fn issue(&mut self, kind: u8) -> Notification {
        self.last = self.last.wrapping_add(1);
        Notification { kind, number: self.last, eid: self.eid, aid: self.enabled_aid() }
    }

    /// The previous profile stays in its place until the confirmation: there must be one to return to.
    pub fn try_out(&mut self, index: usize) -> Notification {
        let previous = self.enabled() as u8;
        self.move_to(index);
        let notification = self.issue(CHANGED);
        self.phase = Phase::Trial { previous, left: WAIT, number: notification.number };
        notification
    }

    fn roll_back(&mut self, previous: u8) -> Notification {
        self.move_to(previous as usize);
        let notification = self.issue(ROLLED_BACK);
        self.phase = Phase::Back { left: WAIT, number: notification.number };
        notification
    }

    fn fall(&mut self) -> Notification {
        self.move_to(self.fall_back as usize);
        let notification = self.issue(FALLEN_BACK);
        self.phase = Phase::Fallen { left: WAIT, number: notification.number };
        notification
    }

    pub fn tick(&mut self) -> Option<Notification> {
        let left = match &mut self.phase {
            Phase::Quiet => return None,
            Phase::Trial { left, .. } | Phase::Back { left, .. } | Phase::Fallen { left, .. } => left,
        };
        *left -= 1;
        if *left > 0 {
            return None;
        }
        match self.phase {
            Phase::Trial { previous, .. } => Some(self.roll_back(previous)),
            Phase::Back { .. } if !self.is_fall_back(self.enabled()) => Some(self.fall()),
            _ => {
                self.phase = Phase::Quiet;
                None
            }
        }
    }

    pub fn lost(&mut self) -> Option<Notification> {
        if self.is_open() || self.is_fall_back(self.enabled()) {
            return None;
        }
        Some(self.fall())
    }

    /// Closes the change; hands back the AID of the profile deleted by it.
    pub fn close(&mut self) -> Option<Aid> {
        let phase = std::mem::replace(&mut self.phase, Phase::Quiet);
        let Phase::Trial { previous, .. } = phase else { return None };
        let Place { aid, policy, .. } = self.places[previous as usize];
        if previous == self.fall_back || policy & DELETE_ONCE_DISABLED == 0 {
            return None;
        }
        self.clear(previous as usize);
        Some(aid)
    }

    /// The count of `tick` to Quiet, without counting; a test holds the two together.
    pub fn ticks_to_come(&self) -> u32 {
        let wait = u32::from(WAIT);
        match self.phase {
            Phase::Quiet => 0,
            Phase::Trial { previous, left, .. } if previous == self.fall_back => u32::from(left) + wait,
            Phase::Trial { left, .. } => u32::from(left) + 2 * wait,
            Phase::Back { left, .. } if self.is_fall_back(self.enabled()) => u32::from(left),
            Phase::Back { left, .. } => u32::from(left) + wait,
            Phase::Fallen { left, .. } => u32::from(left),
        }
    }
}
