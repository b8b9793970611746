//! The free memory that a card keeps (request 2026-04): which figure is sound, who writes it, who reads it, and how a
//! line hands it in. Every expected figure is written from the papers, none is copied from a run.

use crate::card::*;
use crate::deletion_tests::{create, delete, master_delete, name, send, status};
use crate::manager::{self, Kept};
use crate::script::{Bad, Options, Script};

const CAPACITY: u32 = 1000;

/// 01 is ENABLED and the fall-back, the others are DISABLED; their free is what the test says.
fn card_of(quotas: &[u32], free: u32) -> Card {
    let mut card = Card { capacity: CAPACITY, volatile: 9, free, last: 4, ..Card::ZEROS };
    for (index, quota) in quotas.iter().enumerate() {
        let aid = Aid::of(&name(index as u8 + 1));
        card.places[index] = Place { aid, life_cycle: DISABLED, quota: *quota, used: 1, policy: 4, mark: MARKED };
    }
    card.places[0].life_cycle = ENABLED;
    card
}

/// GET DATA's tag 82, and the number of profiles before it.
fn figures(kept: &mut Kept) -> (u8, u32) {
    let (answer, response) = send(kept, 0, &[0x80, 0xCA, 0xFF, 0x21, 0x00]);
    assert_eq!((answer.status, answer.written, response[4], response[6]), (0x9000, 18, 1, 0x82));
    (response[5], u32::from_be_bytes(response[8..12].try_into().unwrap()))
}

fn confirm(number: u8) -> [u8; 12] {
    [0x80, 0xE2, 0x89, 0, 7, 0x3A, 8, 4, 0x4E, 2, 0, number]
}

/// Enable (3), disable (4) or set fall-back (5).
fn change(dgi: u8, last: u8) -> Vec<u8> {
    [&[0x80, 0xE2, 0x88, 0, 10, 0x3A, dgi, 7, 0x4F, 5][..], &name(last)].concat()
}

#[test]
fn free_and_the_quotas_are_the_capacity() {
    let eight = [1, 2, 4, 8, 16, 32, 64, 128];
    for (quotas, free) in [(&[100, 50][..], 850), (&[1][..], 999), (&[1000][..], 0), (&[999, 1][..], 0), (&eight, 745)]
    {
        assert!(card_of(quotas, free).is_sound());
        for quota in quotas {
            assert!(!card_of(quotas, free + quota).is_sound());
        }
        for wrong in [free + 1, free.wrapping_sub(1), CAPACITY, u32::MAX, CAPACITY - free, free + 65_536] {
            assert!(!card_of(quotas, wrong).is_sound(), "{quotas:?} and {wrong}");
        }
        assert_eq!(card_of(quotas, 0).is_sound(), free == 0);
    }
}

#[test]
fn a_record_is_not_sound_by_a_sum_that_wraps() {
    for quotas in [&[501, 500][..], &[1000; 32], &[u32::MAX; 32], &[1 << 27; 32], &[u32::MAX, 101], &[1 << 31, 1 << 31]]
    {
        let wrapped = quotas.iter().fold(CAPACITY, |free, quota| free.wrapping_sub(*quota));
        for free in [0, 1, CAPACITY, wrapped, u32::MAX] {
            assert!(!card_of(quotas, free).is_sound(), "{quotas:?} and {free}");
        }
    }
    assert_eq!(Card::ZEROS.free, 0);
    for free in [0, 1, u32::MAX] {
        assert!(!Card { free, ..Card::ZEROS }.is_sound());
    }
}

#[test]
fn a_wrong_free_is_refused_before_all_else() {
    for phase in [
        Phase::Quiet,
        Phase::Trial { previous: 1, left: 5, number: 4 },
        Phase::Back { left: 5, number: 4 },
        Phase::Fallen { left: 5, number: 4 },
    ] {
        assert!(Card { phase, ..card_of(&[100, 50], 850) }.is_sound());
        for free in [849, 851] {
            let card = Card { phase, ..card_of(&[100, 50], free) };
            let mut kept = Kept::of(card);
            for bytes in [create(3, 1), delete(2), master_delete(2), confirm(4).to_vec(), change(3, 2), vec![]] {
                assert_eq!(status(&mut kept, &bytes), 0x6F00);
            }
            assert_eq!(manager::command(&mut kept, 0, &[], &mut [0; 255]).status, 0x6F00);
            assert_eq!(manager::keyed(&mut kept, &[]).status, 0x6F00);
            assert_eq!(manager::stored(&mut kept, &name(2), 0).status, 0x6F00);
            assert_eq!(manager::finished(&mut kept, &name(2), 5, 2).status, 0x6F00);
            assert_eq!((manager::tick(&mut kept).status, manager::lost(&mut kept).status), (0x6F00, 0x6F00));
            assert_eq!(kept.card(), &card);
        }
    }
}

#[test]
fn fresh_and_create_take_the_quota_off() {
    for (capacity, quota, free) in [(1000, 100, 900), (1, 1, 0), (1_048_576, 1, 1_048_575), (1_048_576, 1_048_576, 0)] {
        let (mut kept, _) = manager::fresh(&[7; 16], &name(1), capacity, quota, quota, 9);
        assert_eq!(figures(&mut kept), (1, free));
        if free > 0 {
            assert_eq!(status(&mut kept, &create(2, free + 1)), 0x6A84);
            assert_eq!(figures(&mut kept), (1, free));
            assert_eq!(status(&mut kept, &create(2, free)), 0x9000);
            assert_eq!(figures(&mut kept), (2, 0));
        }
        assert_eq!(status(&mut kept, &create(3, 1)), 0x6A84);
        assert_eq!(kept, Kept::of(*kept.card()));
    }
    let (kept, _) = manager::fresh(&[7; 16], &name(1), 1000, 1001, 0, 9);
    assert_eq!(kept.card().free, 0);
}

/// What each deletion gives back is taken by a creation to the last byte.
#[test]
fn each_deletion_gives_the_quota_back() {
    let quotas = [1, 2, 4, 8, 16, 32, 64, 873];
    for (index, quota) in quotas.iter().enumerate().skip(1) {
        let last = index as u8 + 1;
        let full = card_of(&quotas, 0);
        let trial = Card { phase: Phase::Trial { previous: index as u8, left: 5, number: 4 }, ..full };
        for (card, verdict, bytes) in
            [(full, 0, delete(last)), (full, 1, master_delete(last)), (trial, 0, confirm(4).to_vec())]
        {
            let mut kept = Kept::of(card);
            assert_eq!(figures(&mut kept), (8, 0));
            assert_eq!(send(&mut kept, verdict, &bytes).0.status, 0x9000);
            assert_eq!(figures(&mut kept), (7, *quota));
            assert_eq!(status(&mut kept, &create(9, quota + 1)), 0x6A84);
            assert_eq!(status(&mut kept, &create(9, *quota)), 0x9000);
            assert_eq!(figures(&mut kept), (8, 0));
            assert!(kept.card().is_sound());
        }
    }
}

#[test]
fn nothing_else_moves_it() {
    let card = Card { fall_back: 1, ..card_of(&[100, 50, 30, 20], 800) };
    let mut kept = Kept::of(card);
    let (created, loaded) = (create(5, 7), name(5));
    assert_eq!(status(&mut kept, &created), 0x9000);
    assert_eq!(manager::keyed(&mut kept, &loaded).status, 0x9000);
    assert_eq!(manager::stored(&mut kept, &loaded, 7).status, 0x9000);
    assert_eq!(manager::finished(&mut kept, &loaded, 0, 1).status, 0x9000);
    assert_eq!(figures(&mut kept), (5, 793));
    // Refused: held, no room, forbidden by state and by verdict, not held, no change open.
    let refusals = [create(5, 1), create(6, 794), delete(1), master_delete(3), delete(9), confirm(4).to_vec()];
    for (bytes, word) in refusals.iter().zip([0x6A80, 0x6A84, 0x6985, 0x6982, 0x6A88, 0x6985]) {
        assert_eq!(status(&mut kept, bytes), word);
    }
    assert_eq!(status(&mut kept, &change(5, 3)), 0x9000);
    assert_eq!(status(&mut kept, &change(3, 5)), 0x9000);
    for _ in 0..30 {
        assert_eq!(status(&mut kept, &delete(2)), 0x6985);
        assert_eq!(kept.card().free, 793);
        manager::tick(&mut kept);
    }
    // It has fallen to 03, closed, and deleted nothing; nor does a confirmation whose previous profile is the fall-back.
    assert_eq!((kept.card().enabled(), figures(&mut kept)), (2, (5, 793)));
    assert_eq!(status(&mut kept, &change(3, 5)), 0x9000);
    assert_eq!(status(&mut kept, &confirm(8)), 0x9000);
    assert_eq!(manager::lost(&mut kept).status, 0x9000);
    assert_eq!(status(&mut kept, &confirm(9)), 0x9000);
    assert_eq!((figures(&mut kept), kept.card().is_sound()), ((5, 793), true));
}

/// A card of 01 with these words after its EID.
fn line(words: &str) -> String {
    format!("card {} {words}", "07".repeat(EID_LENGTH))
}

#[test]
fn a_card_line_hands_it_in() {
    let places = format!("A000000001:3F:100:5:0:1{}", " -".repeat(PLACES - 1));
    let answered = |words: &str| {
        let mut out = String::new();
        let mut script = Script::new(Options::default());
        script.line(line(&format!("{words} Q - {places}")).as_bytes(), &mut out)?;
        let card = *script.card();
        Ok::<_, Bad>((out, card.volatile, card.free, card.last, card.fall_back))
    };
    let (done, unsound) = ("9000 - - 0\n".to_owned(), "6F00 - - 0\n".to_owned());
    assert_eq!(answered("1000 7 900 8 0"), Ok((done.clone(), 7, 900, 8, 0)));
    assert_eq!(answered("1000 901 000900 8 0"), Ok((done, 901, 900, 8, 0)));
    assert_eq!(answered("1000 900 901 900 0"), Ok((unsound.clone(), 900, 901, 900, 0)));
    assert_eq!(answered("1000 7 4294967295 8 0"), Ok((unsound, 7, u32::MAX, 8, 0)));
    assert_eq!(answered("1000 7 0 0"), Err(Bad::WordsMissing));
    assert_eq!(answered("1000 7 900 8 0 0"), Err(Bad::TooManyWords));
    for wrong in ["4294967296", "-1", "+1", "-", "x", "0x1", "1.0", "99999999999999999999"] {
        assert_eq!(answered(&format!("1000 7 {wrong} 8 0")), Err(Bad::Number));
    }
}
