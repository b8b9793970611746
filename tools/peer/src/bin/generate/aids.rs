//! The names of a chapter's profiles, and which of them a call names.

use super::card::Place;
use super::Generator;

impl Generator {
    /// Names that only their length, or zeros at their end, tell apart, among plain ones; more of them than there are
    /// places. Those of most are of one length, or of any: a listing's parts hang on it.
    pub(super) fn new_aids(&mut self) {
        self.aids.clear();
        self.gone = None;
        let mut zeros = vec![0xA0, 0, 0, 0, 1];
        for _ in 0..3 {
            self.aids.push(zeros.clone());
            zeros.push(0);
        }
        for last in 2..8 {
            self.aids.push(vec![0xA0, 0, 0, 0, last]);
        }
        let long = [0xA0, 0, 0, 5, 0x59, 0x10, 0x10, 0xFF, 0xFF, 0xFF, 0xFF, 0x89, 0, 0, 0x10, 0];
        for length in [16, 15, 8] {
            self.aids.push(long[..length].to_vec());
        }
        let mut other = long;
        other[15] = self.random.byte();
        self.aids.push(other.to_vec());
        self.aids.push(vec![0; self.random.number(5, 16) as usize]);
        let same = self.random.pick(&[5, 5, 6, 7, 16, 16]);
        let is_mixed = self.random.chance(50);
        for last in 8..40 {
            let length = if is_mixed { self.random.number(5, 16) as usize } else { same };
            let mut aid = vec![0xA0, 0, 0, 0, last];
            aid.resize(length, 0xEE);
            self.aids.push(aid);
        }
    }

    pub(super) fn any_aid(&mut self) -> Vec<u8> {
        let index = self.random.below(self.aids.len());
        self.aids[index].clone()
    }

    pub(super) fn odd_aid(&mut self) -> Vec<u8> {
        let mut aid = self.any_aid();
        match self.random.below(5) {
            0 => aid.push(0),
            1 => aid.truncate(self.random.below(aid.len() + 1)),
            2 => aid[0] ^= 1,
            3 => aid.resize(17, 0),
            _ => aid.clear(),
        }
        aid
    }

    pub(super) fn places(&self, wanted: impl Fn(usize, &Place) -> bool) -> Vec<usize> {
        let places = self.model.card().places.iter().enumerate();
        places.filter(|(index, place)| place.is_held() && wanted(*index, place)).map(|(index, _)| index).collect()
    }

    /// Mostly a place that the step would take, else any name.
    pub(super) fn target(&mut self, wanted: impl Fn(usize, &Place) -> bool) -> Vec<u8> {
        let suited = self.places(wanted);
        let held = self.places(|_, _| true);
        let roll = self.random.below(100);
        let among = if roll < 80 && !suited.is_empty() { suited } else { held };
        if roll < 92 && !among.is_empty() {
            let index = self.random.pick(&among);
            return self.model.card().places[index].aid.bytes().to_vec();
        }
        match self.gone_aid() {
            Some(gone) if roll < 94 => gone,
            _ if roll < 97 => self.any_aid(),
            _ => self.odd_aid(),
        }
    }

    /// The AID that was deleted last, unless it was created again.
    pub(super) fn gone_aid(&self) -> Option<Vec<u8>> {
        let gone = self.gone.filter(|gone| self.model.card().find(gone.bytes()).is_none());
        gone.map(|gone| gone.bytes().to_vec())
    }
}
