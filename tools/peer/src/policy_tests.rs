//! The policy update of an operator (request 2026-06): what its reader takes, in which order it is refused, whom it serves in
//! each phase and what it leaves alone; then its line and its event. Every expected word is written from the papers.

use crate::card::*;
use crate::deletion_tests::{delete, master_delete, name, status};
use crate::manager::{self, Answer, Kept};
use crate::minutes::put_report;
use crate::operator::read_policy;
use crate::script::{reading, Bad, Options, Script};

fn place(name: &[u8], life_cycle: u8, policy: u8) -> Place {
    Place { aid: Aid::of(name), life_cycle, quota: 50, used: 7, policy, mark: MARKED }
}

/// 03 is ENABLED; below it a name that begins like its own, above it one in each other state, and gaps between them.
fn card_of(policy: u8, fall_back: u8) -> Card {
    let mut card = Card { capacity: 1000, volatile: 9, free: 750, last: 4, fall_back, ..Card::ZEROS };
    card.places[0] = place(&[0xA0, 0, 0, 0, 3, 0], DISABLED, 3);
    card.places[2] = place(&name(3), ENABLED, policy);
    card.places[4] = place(&name(1), DISABLED, 4);
    card.places[5] = place(&name(2), SELECTABLE, 0);
    card.places[31] = place(&name(4), PERSONALIZED, 0);
    assert!(card.is_sound());
    card
}

fn update(policy: u8) -> Vec<u8> {
    vec![0x80, 0xE2, 0x88, 0x00, 6, 0x3A, 0x06, 3, 0x81, 1, policy]
}

/// STORE DATA of this data field.
fn stores(field: &[u8]) -> Vec<u8> {
    [&[0x80, 0xE2, 0x88, 0x00, field.len() as u8], field].concat()
}

fn speak(kept: &mut Kept, speaker: &[u8], bytes: &[u8]) -> Answer {
    manager::policy(kept, speaker, bytes, &[0; 256])
}

/// The word of an update; done, it has changed that policy alone and forgotten a listing, else nothing at all.
fn holds(card: Card, speaker: &[u8], bytes: &[u8], word: u16) {
    let mut kept = Kept::of(card);
    let answer = speak(&mut kept, speaker, bytes);
    assert_eq!(answer.status, word, "{speaker:02X?} {bytes:02X?} {card:?}");
    assert_eq!((answer.written, answer.notification, answer.ticks), (0, None, card.ticks_to_come()));
    let mut wanted = card;
    if word == 0x9000 {
        wanted.places[2].policy = bytes[10];
        wanted.kept_place = None;
    }
    assert_eq!(kept, Kept::of(wanted));
}

#[test]
fn every_policy_over_every_old_one() {
    for old in 0..=4 {
        for (fall_back, kept_place) in [(2, None), (0, Some(31)), (4, Some(2))] {
            let card = Card { kept_place, ..card_of(old, fall_back) };
            for policy in 0..=255 {
                holds(card, &name(3), &update(policy), if policy <= 4 { 0x9000 } else { 0x6A80 });
            }
        }
    }
}

#[test]
fn framing_rows_in_their_order() {
    let class = |class: u8| [&[class], &update(0)[1..]].concat();
    for wrong in [0x00, 0x7F, 0x90, 0xBF, 0xD0, 0xF0, 0xFF] {
        assert_eq!(read_policy(&class(wrong)), Err(0x6E00));
        assert_eq!(read_policy(&[wrong, 0xE3, 0, 0]), Err(0x6E00));
    }
    for right in [0x80, 0x8F, 0xC0, 0xCF, 0xE0, 0xEF] {
        assert_eq!(read_policy(&class(right)), Ok(0));
    }
    for instruction in (0..=255).filter(|instruction| *instruction != 0xE2) {
        assert_eq!(read_policy(&[&[0x80, instruction], &update(0)[2..]].concat()), Err(0x6D00));
        assert_eq!(read_policy(&[0x80, instruction, 0, 0xFF]), Err(0x6D00));
    }
    for root in [&delete(3)[..], &master_delete(3), &[0x80, 0xCA, 0xFF, 0x21, 0], &[0x80, 0xF2, 0x40, 2, 2, 0x4F, 0]] {
        assert_eq!(read_policy(root), Err(0x6D00));
    }
    for p1 in 0..=255u8 {
        let word = if (0x88..=0x8F).contains(&p1) { Ok(3) } else { Err(0x6A86) };
        assert_eq!(read_policy(&[&[0x80, 0xE2, p1], &update(3)[3..]].concat()), word);
        assert_eq!(read_policy(&[0x80, 0xE2, p1, 0]), Err(if word.is_ok() { 0x6700 } else { 0x6A86 }));
        assert_eq!(read_policy(&[&[0x80, 0xE2, 0x88, p1], &update(3)[4..]].concat()).is_ok(), p1 == 0);
    }
}

#[test]
fn lengths_of_a_command() {
    for length in 0..4 {
        assert_eq!(read_policy(&update(0)[..length]), Err(0x6700));
    }
    for length in 4..11 {
        assert_eq!(read_policy(&update(0)[..length]), Err(0x6700));
    }
    assert_eq!(read_policy(&[&update(4)[..], &[0]].concat()), Ok(4));
    for tail in [&[1][..], &[0xFF], &[0, 0], &[0, 0, 0]] {
        assert_eq!(read_policy(&[&update(4)[..], tail].concat()), Err(0x6700));
    }
    // Lc 0; one short, the byte left being no Le; one short, and the policy 00 left over taken for Le.
    assert_eq!(read_policy(&[0x80, 0xE2, 0x88, 0, 0]), Err(0x6700));
    let short = |policy: u8| [&[0x80, 0xE2, 0x88, 0, 5], &update(policy)[5..]].concat();
    assert_eq!((read_policy(&short(1)), read_policy(&short(0))), (Err(0x6700), Err(0x6A80)));
    // 255 bytes of data, with Le and without, and one byte too many; wrong class and instruction are not looked at.
    let long = stores(&[0x3A; 255]);
    assert_eq!(read_policy(&long), Err(0x6A80));
    assert_eq!(read_policy(&[&long[..], &[0]].concat()), Err(0x6A80));
    for length in [262, 263, 300, 70_000] {
        assert_eq!(read_policy(&vec![0x00; length]), Err(0x6700));
        assert_eq!(read_policy(&vec![0x80; length]), Err(0x6700));
    }
}

#[test]
fn data_fields() {
    let wrong: [&[u8]; 26] = [
        &[0x3A],
        &[0x3A, 0x06],
        &[0x3A, 0x06, 0],
        &[0x3A, 0x06, 1, 0x81],
        &[0x3A, 0x06, 2, 0x81, 0],
        &[0x3A, 0x06, 4, 0x81, 2, 0, 0],
        &[0x3A, 0x06, 2, 0x81, 1, 0],
        &[0x3A, 0x06, 4, 0x81, 1, 0],
        &[0x3A, 0x06, 3, 0x81, 1, 0, 0],
        &[0x3A, 0x06, 4, 0x81, 1, 0, 0],
        &[0x3A, 0x06, 6, 0x81, 1, 0, 0x81, 1, 0],
        &[0x3A, 0x06, 6, 0x81, 1, 0, 0x82, 1, 0],
        &[0x3A, 0x06, 6, 0x82, 1, 0, 0x81, 1, 0],
        &[0x3A, 0x06, 4, 0x81, 0x81, 1, 0],
        &[0x3A, 0x06, 0x81, 3, 0x81, 1, 0],
        &[0x3A, 0x06, 0xFF, 0x81, 1, 0],
        &[0x3A, 0x06, 3, 0x80, 1, 0],
        &[0x3A, 0x06, 3, 0x82, 1, 0],
        &[0x3A, 0x06, 3, 0x01, 1, 0],
        &[0x3A, 0x06, 5, 0xA1, 3, 0x81, 1, 0],
        &[0x3A, 0x06, 3, 0x81, 1, 0, 0x3A, 0x06, 3, 0x81, 1, 0],
        &[0x3A, 0x06, 7, 0x4F, 5, 0xA0, 0, 0, 0, 3],
        &[0x06, 0x3A, 3, 0x81, 1, 0],
        &[0x3B, 0x06, 3, 0x81, 1, 0],
        &[0x81, 1, 0],
        &[0x00, 0x3A, 0x06, 3, 0x81, 1, 0],
    ];
    for field in wrong {
        assert_eq!(read_policy(&stores(field)), Err(0x6A80), "{field:02X?}");
    }
    for low in (0..=255).filter(|low| *low != 0x06) {
        assert_eq!(read_policy(&stores(&[0x3A, low, 3, 0x81, 1, 0])), Err(0x6A80));
        assert_eq!(read_policy(&stores(&[0x3A, low, 7, 0x4F, 5, 0xA0, 0, 0, 0, 3])), Err(0x6A80));
    }
    for tag in 0..=255 {
        let word = if tag == 0x81 { Ok(2) } else { Err(0x6A80) };
        assert_eq!(read_policy(&stores(&[0x3A, 0x06, 3, tag, 1, 2])), word);
    }
}

#[test]
fn the_root_domain_knows_no_policy() {
    for policy in 0..=255 {
        let mut kept = Kept::of(card_of(0, 0));
        assert_eq!(status(&mut kept, &update(policy)), 0x6A80);
        assert_eq!(kept, Kept::of(card_of(0, 0)));
    }
    let read = |line: &str| {
        let mut out = String::new();
        reading(line.as_bytes(), 1000, &mut out).map(|()| out)
    };
    for field in ["3A0603810102", "3A0603810100", "3A0603810105", "3A06028100", "3A06074F05A000000002"] {
        assert_eq!(read(&format!("80E28800{:02X}{field}", field.len() / 2)), Ok("6A80\n".to_owned()));
    }
}

/// Each speaker's word in Quiet. Where a change is open it is 69 85, unless the speaker's length is wrong.
const SPEAKERS: [(&[u8], u16); 14] = [
    (&[0xA0, 0, 0, 0, 3], 0x9000),
    (&[0xA0, 0, 0, 0, 3, 0], 0x6985),
    (&[0xA0, 0, 0, 0, 1], 0x6985),
    (&[0xA0, 0, 0, 0, 2], 0x6985),
    (&[0xA0, 0, 0, 0, 4], 0x6985),
    (&[0xA0, 0, 0, 0, 5], 0x6A88),
    (&[0xA0, 0, 0, 0, 3, 0, 0], 0x6A88),
    (&[0; 5], 0x6A88),
    (&[0xA0; 16], 0x6A88),
    (&[], 0x6A80),
    (&[0xA0, 0, 0, 0], 0x6A80),
    (&[0xA0; 17], 0x6A80),
    (&[0xA0; 255], 0x6A80),
    (&[0xA0; 300], 0x6A80),
];

#[test]
fn who_is_served_in_each_phase() {
    for left in [1, 10] {
        for (phase, fall_back) in [
            (Phase::Quiet, 0),
            (Phase::Trial { previous: 4, left, number: 4 }, 0),
            (Phase::Trial { previous: 0, left, number: 4 }, 0),
            (Phase::Back { left, number: 4 }, 0),
            (Phase::Back { left, number: 4 }, 2),
            (Phase::Fallen { left, number: 4 }, 2),
        ] {
            for kept_place in [None, Some(31)] {
                let card = Card { phase, kept_place, ..card_of(1, fall_back) };
                assert!(card.is_sound());
                for (speaker, word) in SPEAKERS {
                    let word = if card.is_open() && word != 0x6A80 { 0x6985 } else { word };
                    holds(card, speaker, &update(2), word);
                    holds(card, speaker, &update(6), 0x6A80);
                    holds(card, speaker, &delete(3), 0x6D00);
                }
            }
        }
    }
}

#[test]
fn soundness_and_the_buffer_come_first() {
    let with_buffer = |card: Card, bytes: &[u8], length: usize| {
        manager::policy(&mut Kept::of(card), &name(3), bytes, &vec![0; length]).status
    };
    let unsound = Card { free: 749, ..card_of(0, 0) };
    for length in [0, 1, 255, 256, 257, 1024] {
        let word = if length < 256 { 0x6F02 } else { 0x9000 };
        assert_eq!(with_buffer(card_of(0, 0), &update(1), length), word);
        assert_eq!(with_buffer(card_of(0, 0), &[], length), if length < 256 { 0x6F02 } else { 0x6700 });
        assert_eq!(with_buffer(unsound, &update(1), length), 0x6F00);
        assert_eq!(with_buffer(unsound, &[], length), 0x6F00);
        assert_eq!(with_buffer(Card::ZEROS, &update(1), length), 0x6F00);
    }
}

/// What the new policy forbids is asked by the calls that asked before.
#[test]
fn what_follows_an_update() {
    let disable = stores(&[0x3A, 0x04, 7, 0x4F, 5, 0xA0, 0, 0, 0, 3]);
    let enable = stores(&[0x3A, 0x03, 7, 0x4F, 5, 0xA0, 0, 0, 0, 1]);
    let confirm = stores(&[0x3A, 0x08, 4, 0x4E, 2, 0, 5]);
    for (policy, switched, deleted) in
        [(0, 0x9000, 0x9000), (1, 0x69E1, 0x6985), (2, 0x9000, 0x69E1), (3, 0x69E1, 0x6985), (4, 0x9000, 0x6A88)]
    {
        for step in [&disable, &enable] {
            let mut kept = Kept::of(card_of(0, 4));
            assert_eq!(speak(&mut kept, &name(3), &update(policy)).status, 0x9000);
            assert_eq!(status(&mut kept, step), switched);
            assert_eq!(status(&mut kept, &confirm), if switched == 0x9000 { 0x9000 } else { 0x6985 });
            assert_eq!(status(&mut kept, &delete(3)), deleted);
        }
    }
}

#[test]
fn lines() {
    let line = |line: &str| {
        let mut out = String::new();
        let mut script = Script::new(Options::default());
        script.line(b"fresh 00112233445566778899AABBCCDDEEFF A000000001 1000 100 0 0", &mut String::new()).unwrap();
        script.line(line.as_bytes(), &mut out).map(|()| out)
    };
    let answered = |text: &str, answer: &str| assert_eq!(line(text), Ok(format!("{answer}\n")), "{text}");
    answered("policy A000000001 80E28800063A0603810101", "9000 - - 0");
    answered("policy a000000001 80e28800063a060381010100 0256", "9000 - - 0");
    answered("policy A000000001 80E28800063A0603810101 1024", "9000 - - 0");
    answered("policy A000000001 80E28800063A0603810101 255", "6F02 - - 0");
    answered("policy A000000001 - 0", "6F02 - - 0");
    answered("policy - -", "6700 - - 0");
    answered("policy - 80E28800063A0603810101", "6A80 - - 0");
    answered(&format!("policy {} {}", "A0".repeat(1000), "80".repeat(1000)), "6700 - - 0");
    assert_eq!(line(&format!("policy {} 80{}", "A0".repeat(2000), " ".repeat(90))), Err(Bad::TooLong));
    let bad = |words: &str| line(&format!("policy{words}")).unwrap_err();
    for words in ["", " -", " x", " A000000001 "] {
        assert_eq!(bad(words), Bad::WordsMissing);
    }
    assert_eq!(bad(" x x x x"), Bad::TooManyWords);
    for words in [" x -", " x x x", " A - 256", " - x", " - 8 1025", " 0x - x", " -- -", " - --"] {
        assert_eq!(bad(words), Bad::Hex);
    }
    for words in [" - - 1025", " - - x", " - - -", " - 80 -1", " - - 4294967296"] {
        assert_eq!(bad(words), Bad::Number);
    }
    assert_eq!(bad("s - -"), Bad::UnknownWord);
}

fn event(kind: u8, bytes: &[u8]) -> Vec<u8> {
    [&[kind][..], &(bytes.len() as u16).to_be_bytes(), bytes].concat()
}

/// The report of these events on a fresh card of A000000001.
fn report(events: &[Vec<u8>]) -> String {
    let inputs = [&[7; 16][..], &[1000u32, 100, 0, 9].map(u32::to_be_bytes).concat(), &[0xA0, 0, 0, 0, 1]].concat();
    let events = events.concat();
    let contents = [2u32, 1, 28, 37, 2, 65, events.len() as u32].map(u32::to_be_bytes).concat();
    let mut out = String::new();
    put_report(&mut out, &[contents, inputs, events].concat(), true);
    out
}

fn refused(events: &[Vec<u8>]) -> String {
    report(events).lines().last().unwrap().to_owned()
}

#[test]
fn events() {
    let length = "refused: event of wrong length\n";
    for wrong in [&[][..], &[1], &[5, 0xA0, 0, 0, 0], &[255], &[2, 0xA0]] {
        assert!(report(&[event(5, &[]), event(8, wrong), event(5, &[])]).starts_with(length), "{wrong:02X?}");
    }
    assert!(report(&[event(8, &[[255].as_slice(), &[0xA0; 254]].concat())]).starts_with(length));
    assert!(report(&[event(8, &[]), event(9, &[0])]).starts_with("refused: event of unknown kind\n"));
    assert!(report(&[event(8, &[]), vec![8, 0, 1]]).starts_with("refused: event cut short\n"));
    let update = |speaker: &[u8], bytes: &[u8]| event(8, &[&[speaker.len() as u8], speaker, bytes].concat());
    let one = "refused                                 1";
    // The speaker fills the event, and no command is left; speakers of none, three and 255 bytes.
    for given in [update(&name(1), &[]), update(&[], &self::update(0)), update(&[0xA0; 3], &self::update(0))] {
        assert_eq!(refused(&[given]), one);
    }
    for given in [
        update(&[0xA0; 255], &[]),
        update(&[], &[]),
        update(&name(1), &[0x80; 300]),
        update(&name(2), &self::update(0)),
    ] {
        assert_eq!(refused(&[given]), one);
    }
    let none = "refused                                 0";
    assert_eq!(refused(&[update(&name(1), &self::update(3)), update(&name(1), &self::update(0))]), none);
}
