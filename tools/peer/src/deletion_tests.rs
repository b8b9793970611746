//! What delete and master delete take (request 2026-03): each life cycle, as the fall-back and not, with each policy,
//! verdict, mark and number of used bytes, in each phase; then what a broken download leaves once it is deleted.
//! Every expected word is written from the papers, none is copied from a run.

use crate::card::*;
use crate::manager::{self, Answer, Kept};

/// The words of a target's delete, for the policies 00 to 04, and of its master delete, for the verdicts 0, 1, 2 and 255.
struct Row {
    life_cycle: u8,
    fall_back: bool,
    delete: [u16; 5],
    master: [u16; 4],
}

const BY_POLICY: [u16; 5] = [0x9000, 0x9000, 0x69E1, 0x69E1, 0x9000];
const VERDICTS: [u8; 4] = [0, 1, 2, 255];

const ROWS: [Row; 6] = [
    Row { life_cycle: SELECTABLE, fall_back: false, delete: BY_POLICY, master: [0x6985; 4] },
    Row { life_cycle: PERSONALIZED, fall_back: false, delete: BY_POLICY, master: [0x6985; 4] },
    Row { life_cycle: DISABLED, fall_back: false, delete: BY_POLICY, master: [0x6982, 0x9000, 0x6982, 0x6982] },
    Row { life_cycle: ENABLED, fall_back: false, delete: [0x6985; 5], master: [0x6985; 4] },
    Row { life_cycle: DISABLED, fall_back: true, delete: [0x6985; 5], master: [0x6985; 4] },
    Row { life_cycle: ENABLED, fall_back: true, delete: [0x6985; 5], master: [0x6985; 4] },
];

/// Where the target stands, between others.
const AT: usize = 2;
/// What the lent buffer holds before a call.
const OLD: u8 = 0xEE;

pub fn name(last: u8) -> [u8; 5] {
    [0xA0, 0, 0, 0, last]
}

fn place(name: &[u8], life_cycle: u8, policy: u8, mark: u8, used: u32) -> Place {
    Place { aid: Aid::of(name), life_cycle, quota: 50, used, policy, mark }
}

/// 03 is the target. Below it stands one whose name begins like its own, above it two others and a Created one.
fn card_of(target: Place, enabled: usize, fall_back: usize) -> Card {
    // Five quotas of 50.
    let mut card = Card { capacity: 1000, volatile: 9, free: 750, last: 4, fall_back: fall_back as u8, ..Card::ZEROS };
    card.places[0] = place(&[0xA0, 0, 0, 0, 3, 0], DISABLED, 3, MARKED, 7);
    card.places[3] = place(&name(1), DISABLED, 0, MARKED, 9);
    card.places[4] = place(&name(2), DISABLED, 4, MARKED, 50);
    card.places[5] = place(&name(5), SELECTABLE, 2, MARKED, 1);
    card.places[enabled].life_cycle = ENABLED;
    card.places[AT] = target;
    card
}

/// Every sound card with a target of the row, and the target's policy. What the target is not, ENABLED or the fall-back, either
/// of two others is.
fn targets(row: &Row) -> Vec<(Card, usize)> {
    let enabled: &[usize] = if row.life_cycle == ENABLED { &[AT] } else { &[0, 4] };
    let fall_backs: &[usize] = if row.fall_back { &[AT] } else { &[0, 4] };
    let mut cards = Vec::new();
    for policy in 0..5u8 {
        for (mark, used) in [(0, 0), (0, 50), (1, 0), (1, 1), (1, 50)] {
            let target = place(&name(3), row.life_cycle, policy, mark, used);
            for enabled in enabled {
                cards.extend(fall_backs.iter().map(|fall_back| card_of(target, *enabled, *fall_back)));
            }
        }
    }
    cards.retain(Card::is_sound);
    cards.into_iter().map(|card| (card, usize::from(card.places[AT].policy))).collect()
}

fn element(tag: &[u8], value: &[u8]) -> Vec<u8> {
    [tag, &[value.len() as u8], value].concat()
}

fn deletion(field: &[u8]) -> Vec<u8> {
    [&[0x80, 0xE4, 0x00, 0x40], &element(&[], field)[..]].concat()
}

pub fn delete(last: u8) -> Vec<u8> {
    deletion(&element(&[0x4F], &name(last)))
}

pub fn master_delete(last: u8) -> Vec<u8> {
    let reference = [0x42, 1, 1, 0x45, 1, 2, 0x5F, 0x20, 1, 3, 0x93, 1, 4];
    let token = element(&[0x9E], &[0x55; 16]);
    deletion(&[element(&[0x4F], &name(last)), element(&[0xB6], &reference), token].concat())
}

pub fn create(last: u8, quota: u32) -> Vec<u8> {
    let parameters = [&[0xC9, 4, 0x81, 2, 3, 0x70, 0xEF, 6, 0x83, 4][..], &quota.to_be_bytes()].concat();
    let names = [name(1), name(1), name(last)].map(|name| element(&[], &name)).concat();
    let field = [names, vec![1, 0x80], element(&[], &parameters), vec![0]].concat();
    [&[0x80, 0xE6, 0x0C, 0x00], &element(&[], &field)[..]].concat()
}

pub fn send(kept: &mut Kept, verdict: u8, bytes: &[u8]) -> (Answer, Vec<u8>) {
    let mut buffer = vec![OLD; 300];
    let answer = manager::command(kept, verdict, bytes, &mut buffer);
    (answer, buffer)
}

pub fn status(kept: &mut Kept, bytes: &[u8]) -> u16 {
    send(kept, 0, bytes).0.status
}

/// A deletion is answered by this word; done, it leaves a place of zeros, free grown by the quota, and all else as it was.
fn holds(card: Card, verdict: u8, bytes: &[u8], word: u16) {
    let mut kept = Kept::of(card);
    let (answer, buffer) = send(&mut kept, verdict, bytes);
    assert_eq!(answer.status, word, "verdict {verdict}, {card:?}");
    assert_eq!((answer.notification, answer.ticks), (None, card.ticks_to_come()));
    let mut wanted = card;
    let mut old = vec![OLD; 300];
    if word == 0x9000 {
        wanted.places[AT] = Place::ZERO;
        wanted.free = 800;
        old[0] = 0;
    }
    assert_eq!(*kept.card(), wanted);
    assert_eq!((answer.written, buffer), (usize::from(word == 0x9000), old));
    assert_eq!(kept, Kept::of(wanted));
}

#[test]
fn what_each_delete_takes() {
    for row in ROWS {
        let cards = targets(&row);
        assert!(cards.len() >= 15);
        for (card, policy) in cards {
            for (verdict, word) in VERDICTS.into_iter().zip(row.master) {
                holds(card, verdict, &delete(3), row.delete[policy]);
                holds(card, verdict, &master_delete(3), word);
            }
        }
    }
}

/// The card with a change open, in each phase that is sound with it.
fn opened(card: &Card) -> Vec<Card> {
    let mut cards = Vec::new();
    for previous in [0, 4] {
        cards.push(Card { phase: Phase::Trial { previous, left: 7, number: 4 }, ..*card });
    }
    cards.push(Card { phase: Phase::Back { left: 10, number: 4 }, ..*card });
    cards.push(Card { phase: Phase::Fallen { left: 1, number: 4 }, ..*card });
    cards.retain(Card::is_sound);
    cards
}

#[test]
fn an_open_change_refuses_both_deletes() {
    for row in ROWS {
        for (card, _) in targets(&row) {
            let cards = opened(&card);
            assert!(cards.len() >= 2);
            for card in cards {
                for last in [1, 2, 3, 5, 9] {
                    holds(card, 1, &delete(last), 0x6985);
                    holds(card, 1, &master_delete(last), 0x6985);
                }
            }
        }
    }
}

#[test]
fn what_is_not_held_or_not_sound_comes_before_the_state() {
    let card = card_of(place(&name(3), PERSONALIZED, 0, 0, 5), 4, 0);
    holds(card, 1, &delete(9), 0x6A88);
    holds(card, 1, &master_delete(9), 0x6A88);
    // A Created profile is no fall-back of a sound card.
    for life_cycle in [SELECTABLE, PERSONALIZED] {
        let mut kept = Kept::of(card_of(place(&name(3), life_cycle, 0, MARKED, 5), 4, AT));
        assert_eq!(status(&mut kept, &delete(3)), 0x6F00);
        assert_eq!(status(&mut kept, &master_delete(3)), 0x6F00);
    }
}

/// The deletion at confirmation asks what it asked: in Trial the policy of the previous profile, and no Created one.
#[test]
fn a_confirmation_deletes_no_created_profile() {
    let confirm = [0x80, 0xE2, 0x89, 0, 7, 0x3A, 8, 4, 0x4E, 2, 0, 4];
    for life_cycle in [SELECTABLE, PERSONALIZED] {
        let card = card_of(place(&name(3), life_cycle, 4, 0, 5), 0, 0);
        for (phase, deleted) in [
            (Phase::Trial { previous: 4, left: 3, number: 4 }, Some(4)),
            (Phase::Trial { previous: 3, left: 3, number: 4 }, None),
            (Phase::Back { left: 3, number: 4 }, None),
            (Phase::Fallen { left: 3, number: 4 }, None),
        ] {
            let mut kept = Kept::of(Card { phase, ..card });
            assert_eq!(status(&mut kept, &confirm), 0x9000);
            let mut wanted = card;
            if let Some(index) = deleted {
                wanted.places[index] = Place::ZERO;
                wanted.free = 800;
            }
            assert_eq!(*kept.card(), wanted);
        }
    }
}

fn fresh() -> Kept {
    manager::fresh(&[7; 16], &name(1), 1000, 100, 10, 9).0
}

/// A download of 02 that stops after so many of its calls.
fn broken(kept: &mut Kept, calls: usize, quota: u32, stored: u32) {
    assert_eq!(status(kept, &create(2, quota)), 0x9000);
    if calls > 1 {
        assert_eq!(manager::keyed(kept, &name(2)).status, 0x9000);
    }
    if calls > 2 {
        assert_eq!(manager::stored(kept, &name(2), stored).status, 0x9000);
    }
}

#[test]
fn a_broken_download_leaves_the_card_as_it_was() {
    let stops = [(1, 50, 0), (1, 1, 0), (2, 50, 0), (3, 50, 0), (3, 50, 20), (3, 50, 50), (3, 900, 900)];
    for (calls, quota, stored) in stops {
        let mut kept = fresh();
        let before = kept;
        for _ in 0..3 {
            broken(&mut kept, calls, quota, stored);
            assert_eq!(kept.card().free, 900 - quota);
            assert_eq!(send(&mut kept, 1, &master_delete(2)).0.status, 0x6985);
            assert_eq!(status(&mut kept, &delete(2)), 0x9000);
            assert_eq!(kept, before);
            assert_eq!(status(&mut kept, &delete(2)), 0x6A88);
            assert_eq!(send(&mut kept, 1, &master_delete(2)).0.status, 0x6A88);
            assert_eq!(manager::keyed(&mut kept, &name(2)).status, 0x6A88);
            assert_eq!(manager::stored(&mut kept, &name(2), 0).status, 0x6A88);
            assert_eq!(manager::finished(&mut kept, &name(2), 0, 1).status, 0x6A88);
        }
    }
}

#[test]
fn a_freed_place_is_filled_anew() {
    for at in 1..PLACES {
        let mut kept = fresh();
        for last in 2..=32 {
            assert_eq!(status(&mut kept, &create(last, 20)), 0x9000);
            assert_eq!(manager::keyed(&mut kept, &name(last)).status, 0x9000);
        }
        let gone = at as u8 + 1;
        let full = kept;
        assert_eq!(status(&mut kept, &create(33, 1)), 0x6A84);
        assert_eq!(manager::stored(&mut kept, &name(gone), 20).status, 0x9000);
        assert_eq!(status(&mut kept, &delete(gone)), 0x9000);
        // 1000 less a quota of 100 and 31 of 20 left 280 free; the one deleted makes them 300.
        assert_eq!(status(&mut kept, &create(gone, 301)), 0x6A84);
        assert_eq!(status(&mut kept, &create(gone, 20)), 0x9000);
        assert_eq!(manager::keyed(&mut kept, &name(gone)).status, 0x9000);
        assert_eq!(kept, full);
        assert_eq!(status(&mut kept, &delete(gone)), 0x9000);
        assert_eq!(status(&mut kept, &create(33, 300)), 0x9000);
        let other = Place { aid: Aid::of(&name(33)), life_cycle: SELECTABLE, quota: 300, ..Place::ZERO };
        assert_eq!((kept.card().places[at], kept.card().free), (other, 0));
    }
}
