//! Listings in parts (request 2026-05): how many rows a part has, which place is kept, who goes on from it, who forgets it
//! and who leaves it, and how a line hands it in. Every expected figure is written from the papers, none is copied from a run.

use crate::card::*;
use crate::deletion_tests::{create, delete, master_delete, name, send, status};
use crate::manager::{self, Answer, Kept};
use crate::script::{reading, Bad, Options, Script};

const FIRST: u8 = 0x02;
const NEXT: u8 = 0x03;
const ALL_TAGS: &[u8] = &[0x4F, 0];
const NO_TAGS: &[u8] = &[0x4F, 0, 0x5C, 0];
const LIFE_CYCLE: &[u8] = &[0x4F, 0, 0x5C, 2, 0x9F, 0x70];
const ATTRIBUTES: &[u8] = &[0x4F, 0, 0x5C, 1, 0x53];

/// Profiles with names of these lengths in the places from 0 on, none where the length is 0. 01 is ENABLED and the
/// fall-back, the others are DISABLED.
fn card_of(lengths: &[usize]) -> Card {
    let mut card = Card { capacity: 1000, volatile: 9, free: 1000, last: 4, ..Card::ZEROS };
    for (index, length) in lengths.iter().enumerate().filter(|(_, length)| **length > 0) {
        let mut bytes = vec![0xA0, 0, 0, 0, index as u8 + 1];
        bytes.resize(*length, 0xEE);
        let profile = Place { aid: Aid::of(&bytes), life_cycle: DISABLED, quota: 10, used: 1, policy: 0, mark: MARKED };
        card.fill(index, profile);
    }
    card.places[0].life_cycle = ENABLED;
    assert!(card.is_sound());
    card
}

fn get_status(p2: u8, field: &[u8]) -> Vec<u8> {
    [&[0x80, 0xF2, 0x40, p2, field.len() as u8], field].concat()
}

/// The word, the response and the kept place after GET STATUS.
fn part(kept: &mut Kept, p2: u8, field: &[u8]) -> (u16, Vec<u8>, Option<u8>) {
    let (answer, buffer) = send(kept, 0, &get_status(p2, field));
    (answer.status, buffer[..answer.written].to_vec(), kept.card().kept_place)
}

/// The rows of these places as Table 27 of 000 lays them out, with both tags or with the one given.
fn rows(card: &Card, places: impl IntoIterator<Item = usize>, field: &[u8]) -> Vec<u8> {
    let mut out = Vec::new();
    for index in places {
        let place = &card.places[index];
        let mut row = vec![0x4F, place.aid.bytes().len() as u8];
        row.extend(place.aid.bytes());
        if field == ALL_TAGS || field == LIFE_CYCLE {
            row.extend([0x9F, 0x70, 1, place.life_cycle]);
        }
        if field == ALL_TAGS || field == ATTRIBUTES {
            row.extend([0x53, 1, u8::from(index == usize::from(card.fall_back))]);
        }
        out.extend([0xE3, row.len() as u8]);
        out.extend(row);
    }
    out
}

/// A whole listing: in each part the rows up to the place given, and from the last place given on to the end.
fn lists(card: Card, field: &[u8], ends: &[usize], lengths: &[usize]) {
    let mut kept = Kept::of(card);
    let mut from = 0;
    for (number, length) in lengths.iter().enumerate() {
        let end = ends.get(number).copied();
        let given = (from..end.unwrap_or(PLACES)).filter(|index| card.places[*index].is_held());
        let word = if end.is_some() { 0x6310 } else { 0x9000 };
        let wanted = (word, rows(&card, given, field), end.map(|end| end as u8));
        assert_eq!(wanted.1.len(), *length);
        assert_eq!(part(&mut kept, if number == 0 { FIRST } else { NEXT }, field), wanted);
        assert_eq!(kept, Kept::of(*kept.card()));
        from = end.unwrap_or(PLACES);
    }
    assert_eq!(kept, Kept::of(card));
    assert_eq!(part(&mut kept, NEXT, field), (0x6A88, vec![], None));
}

#[test]
fn parts_of_a_full_card() {
    lists(card_of(&[5; 32]), ALL_TAGS, &[15, 30], &[240, 240, 32]);
    lists(card_of(&[16; 32]), ALL_TAGS, &[9, 18, 27], &[243, 243, 243, 135]);
    lists(card_of(&[5; 32]), NO_TAGS, &[28], &[252, 36]);
    lists(card_of(&[16; 32]), NO_TAGS, &[12, 24], &[240, 240, 160]);
    // Rows of 13 bytes and of 12.
    lists(card_of(&[5; 32]), LIFE_CYCLE, &[19], &[247, 169]);
    lists(card_of(&[5; 32]), ATTRIBUTES, &[21], &[252, 132]);
}

#[test]
fn edges_of_a_part() {
    lists(card_of(&[5; 15]), ALL_TAGS, &[], &[240]);
    lists(card_of(&[5; 16]), ALL_TAGS, &[15], &[240, 16]);
    lists(card_of(&[16; 9]), ALL_TAGS, &[], &[243]);
    lists(card_of(&[16; 10]), ALL_TAGS, &[9], &[243, 27]);
    // Fifteen rows of 17 bytes are 255; with one byte more the last one is left.
    lists(card_of(&[6; 15]), ALL_TAGS, &[], &[255]);
    lists(card_of(&[6; 16]), ALL_TAGS, &[15], &[255, 17]);
    lists(card_of(&[&[7][..], &[6; 14]].concat()), ALL_TAGS, &[14], &[239, 17]);
    lists(card_of(&[&[6; 14][..], &[7]].concat()), ALL_TAGS, &[14], &[238, 18]);
    lists(card_of(&[5]), ALL_TAGS, &[], &[16]);
}

#[test]
fn no_shorter_row_comes_before_its_turn() {
    // 14 rows of 17 bytes are 238. One of 27 does not fit; the one of 16 after it would, and has to wait.
    let lengths = [&[6; 14][..], &[16, 5, 5]].concat();
    lists(card_of(&lengths), ALL_TAGS, &[14], &[238, 59]);
    // So in a later part: nine rows of 27, then one of 27 and twelve of 17, and one of 27 that does not fit.
    let lengths = [&[16; 9][..], &[16], &[6; 12], &[16, 5, 5]].concat();
    lists(card_of(&lengths), ALL_TAGS, &[9, 22], &[243, 231, 59]);
    // A gap before the row that is left, and behind it.
    let mut lengths = [5; 32];
    for index in [1, 2, 17, 18, 30] {
        lengths[index] = 0;
    }
    lists(card_of(&lengths), ALL_TAGS, &[19], &[240, 192]);
}

/// B77, on many cards: names of 5 to 16 bytes, and places that are not held.
#[test]
fn the_parts_join() {
    for seed in 0..200usize {
        let size = |index: usize| {
            if index > 0 && (index * seed + seed) % 7 == 3 {
                0
            } else {
                5 + (index * index + seed * index) % 12
            }
        };
        let card = card_of(&(0..PLACES).map(size).collect::<Vec<_>>());
        for field in [ALL_TAGS, LIFE_CYCLE, ATTRIBUTES, NO_TAGS] {
            let mut kept = Kept::of(card);
            let mut joined: Vec<u8> = Vec::new();
            let mut count = 0;
            loop {
                let (word, response, place) = part(&mut kept, if count == 0 { FIRST } else { NEXT }, field);
                count += 1;
                joined.extend(&response);
                assert!(response.len() <= 255 && count <= 4);
                assert_eq!(word == 0x6310, place.is_some());
                if word == 0x9000 {
                    break;
                }
                // A row has at most 27 bytes.
                assert!(response.len() >= 229);
                assert_eq!(manager::keyed(&mut kept, &[]).status, 0x6A80);
            }
            let held = (0..PLACES).filter(|index| card.places[*index].is_held());
            assert_eq!(joined, rows(&card, held, field));
        }
    }
}

/// A card of 32 profiles of which fifteen rows are given.
fn amid() -> Kept {
    let mut card = card_of(&[5; 32]);
    card.places[1].life_cycle = SELECTABLE;
    (card.places[2].life_cycle, card.places[2].used) = (PERSONALIZED, 1);
    card.places[3].policy = DELETION_FORBIDDEN;
    let mut kept = Kept::of(card);
    assert_eq!(part(&mut kept, FIRST, ALL_TAGS).2, Some(15));
    kept
}

fn change(dgi: u8, last: u8) -> Vec<u8> {
    [&[0x80, 0xE2, 0x88, 0, 10, 0x3A, dgi, 7, 0x4F, 5][..], &name(last)].concat()
}

fn confirm(number: u8) -> Vec<u8> {
    vec![0x80, 0xE2, 0x89, 0, 7, 0x3A, 8, 4, 0x4E, 2, 0, number]
}

fn one_row(last: u8) -> Vec<u8> {
    get_status(FIRST, &[&[0x4F, 5][..], &name(last)].concat())
}

fn forgets(call: impl Fn(&mut Kept) -> Answer) {
    let mut kept = amid();
    assert_eq!(call(&mut kept).status, 0x9000);
    assert_eq!(kept.card().kept_place, None);
    assert_eq!(part(&mut kept, NEXT, ALL_TAGS), (0x6A88, vec![], None));
}

#[test]
fn every_accepted_call_forgets_the_place() {
    forgets(manager::tick);
    forgets(manager::lost);
    forgets(|kept| manager::keyed(kept, &name(2)));
    forgets(|kept| manager::stored(kept, &name(3), 0));
    forgets(|kept| manager::stored(kept, &name(3), 1));
    forgets(|kept| manager::finished(kept, &name(3), 0, 0));
    let get_data = vec![0x80, 0xCA, 0xFF, 0x21, 0x00];
    for bytes in [one_row(1), one_row(20), get_data, change(3, 5), change(5, 1), change(5, 5), delete(2), delete(32)] {
        forgets(|kept| send(kept, 0, &bytes).0);
    }
    forgets(|kept| send(kept, 1, &master_delete(4)).0);
    // A creation needs a free place, and a disable another profile than the fall-back.
    let mut kept = Kept::of(Card { fall_back: 1, ..card_of(&[5; 31]) });
    for bytes in [create(32, 1), change(4, 1)] {
        assert_eq!(part(&mut kept, FIRST, ALL_TAGS).2, Some(15));
        assert_eq!(status(&mut kept, &bytes), 0x9000);
        assert_eq!(part(&mut kept, NEXT, ALL_TAGS), (0x6A88, vec![], None));
    }
}

/// A change is open, and a listing too; none of these closes the other.
fn amid_a_change() -> Kept {
    let mut kept = amid();
    assert_eq!(status(&mut kept, &change(3, 5)), 0x9000);
    assert_eq!(part(&mut kept, FIRST, ALL_TAGS).2, Some(15));
    kept
}

#[test]
fn an_open_change_does_not_refuse_the_next_rows() {
    let mut kept = amid_a_change();
    let shown = rows(kept.card(), 15..30, ALL_TAGS);
    assert_eq!(part(&mut kept, NEXT, ALL_TAGS), (0x6310, shown, Some(30)));
    assert_eq!(status(&mut kept, &confirm(4)), 0x6A88);
    assert_eq!(kept.card().kept_place, Some(30));
    assert_eq!(status(&mut kept, &confirm(5)), 0x9000);
    assert_eq!(part(&mut kept, NEXT, ALL_TAGS), (0x6A88, vec![], None));
    let mut kept = amid_a_change();
    for _ in 0..20 {
        assert_eq!(manager::tick(&mut kept).status, 0x9000);
        assert_eq!(part(&mut kept, NEXT, ALL_TAGS), (0x6A88, vec![], None));
        assert_eq!(part(&mut kept, FIRST, ALL_TAGS).2, Some(15));
        let shown = rows(kept.card(), 15..30, ALL_TAGS);
        assert_eq!(part(&mut kept, NEXT, ALL_TAGS), (0x6310, shown, Some(30)));
    }
    assert_eq!(kept.card().phase, Phase::Quiet);
}

#[test]
fn no_refusal_forgets_it() {
    let mut kept = amid();
    let before = kept;
    let named = |p2: u8, aid: &[u8]| get_status(p2, &[&[0x4F, aid.len() as u8], aid].concat());
    let refusals = [
        (vec![0x80, 0xF2, 0x40], 0x6700),
        (vec![0x90, 0xF2, 0x40, 3, 2, 0x4F, 0], 0x6E00),
        (vec![0x80, 0xF3, 0x40, 3, 2, 0x4F, 0], 0x6D00),
        (get_status(0, ALL_TAGS), 0x6A86),
        (get_status(1, ALL_TAGS), 0x6A86),
        (get_status(4, ALL_TAGS), 0x6A86),
        (vec![0x80, 0xF2, 0x40, 3, 0], 0x6700),
        (get_status(NEXT, &[0x4F, 0, 0x5C, 1, 0x70]), 0x6A80),
        (named(NEXT, &name(20)), 0x6A80),
        (change(3, 1), 0x6985),
        (confirm(4), 0x6985),
        (named(FIRST, &name(40)), 0x6A88),
        (delete(4), 0x69E1),
        (master_delete(4), 0x6982),
        (create(40, 1), 0x6A84),
        (create(20, 1), 0x6A80),
    ];
    for (bytes, word) in refusals {
        assert_eq!(status(&mut kept, &bytes), word, "{bytes:02X?}");
        assert_eq!(kept, before);
    }
    assert_eq!(manager::command(&mut kept, 0, &get_status(NEXT, ALL_TAGS), &mut [0; 255]).status, 0x6F02);
    assert_eq!(manager::keyed(&mut kept, &name(1)).status, 0x6985);
    assert_eq!(manager::stored(&mut kept, &name(3), 10).status, 0x6A84);
    assert_eq!(manager::finished(&mut kept, &name(3), 5, 0).status, 0x6A80);
    assert_eq!(kept, before);
    let shown = rows(kept.card(), 15..30, ALL_TAGS);
    assert_eq!(part(&mut kept, NEXT, ALL_TAGS), (0x6310, shown, Some(30)));
}

#[test]
fn an_aid_named_in_the_next_rows_is_wrong_data() {
    for kept in [amid(), Kept::of(card_of(&[5; 3]))] {
        for length in [1, 4, 5, 6, 16, 17, 200] {
            for last in [1, 20, 99] {
                let mut aid = name(last).to_vec();
                aid.resize(length, 0xEE);
                let tag = if length < 0x80 { vec![0x4F] } else { vec![0x4F, 0x81] };
                let mut kept = kept;
                let before = kept;
                let field = [&tag[..], &[length as u8], &aid].concat();
                assert_eq!(part(&mut kept, NEXT, &field), (0x6A80, vec![], before.card().kept_place));
                assert_eq!(kept, before);
            }
        }
    }
}

#[test]
fn each_part_has_the_tags_of_its_own_list() {
    let mut kept = amid();
    let card = *kept.card();
    assert_eq!(part(&mut kept, NEXT, ATTRIBUTES), (0x9000, rows(&card, 15..32, ATTRIBUTES), None));
    let mut kept = amid();
    assert_eq!(part(&mut kept, NEXT, LIFE_CYCLE), (0x9000, rows(&card, 15..32, LIFE_CYCLE), None));
    assert_eq!(part(&mut kept, FIRST, NO_TAGS), (0x6310, rows(&card, 0..28, NO_TAGS), Some(28)));
    assert_eq!(part(&mut kept, NEXT, ALL_TAGS), (0x9000, rows(&card, 28..32, ALL_TAGS), None));
}

#[test]
fn the_first_rows_always_begin_anew() {
    let mut kept = amid();
    let card = *kept.card();
    assert_eq!(part(&mut kept, NEXT, ALL_TAGS).2, Some(30));
    for _ in 0..2 {
        assert_eq!(part(&mut kept, FIRST, ALL_TAGS), (0x6310, rows(&card, 0..15, ALL_TAGS), Some(15)));
    }
    let handed_in = Card { kept_place: Some(2), ..card_of(&[5; 3]) };
    let mut kept = Kept::of(handed_in);
    assert_eq!(part(&mut kept, FIRST, ALL_TAGS), (0x9000, rows(&handed_in, 0..3, ALL_TAGS), None));
    let mut kept = Kept::of(handed_in);
    assert_eq!(part(&mut kept, NEXT, ALL_TAGS), (0x9000, rows(&handed_in, 2..3, ALL_TAGS), None));
}

#[test]
fn a_sound_card_keeps_a_held_place_or_none() {
    let card = card_of(&[5, 5, 0, 5]);
    let phases = [
        Phase::Quiet,
        Phase::Trial { previous: 1, left: 5, number: 4 },
        Phase::Back { left: 5, number: 4 },
        Phase::Fallen { left: 5, number: 4 },
    ];
    for phase in phases {
        for held in [None, Some(0), Some(1), Some(3)] {
            assert!(Card { phase, kept_place: held, ..card }.is_sound());
        }
        for wrong in [2, 4, 31, 32, 33, 128, 200, 254] {
            let card = Card { phase, kept_place: Some(wrong), ..card };
            let mut kept = Kept::of(card);
            assert_eq!(part(&mut kept, NEXT, ALL_TAGS), (0x6F00, vec![], Some(wrong)));
            assert_eq!(part(&mut kept, FIRST, ALL_TAGS), (0x6F00, vec![], Some(wrong)));
            assert_eq!((manager::tick(&mut kept).status, *kept.card()), (0x6F00, card));
        }
    }
    let full = Card { kept_place: Some(31), ..card_of(&[5; 32]) };
    assert_eq!(part(&mut Kept::of(full), NEXT, ALL_TAGS), (0x9000, rows(&full, 31..32, ALL_TAGS), None));
    assert_eq!((Card::ZEROS.kept_place, amid().card().kept_place), (None, Some(15)));
    assert_eq!(manager::fresh(&[7; 16], &name(1), 1000, 100, 10, 9).0.card().kept_place, None);
}

/// What a card line with this word for KEPT and these for its first places makes.
fn handed_in(words: &str, places: usize, explained: bool) -> Result<(String, Option<u8>), Bad> {
    let line = format!("card {} {words}{}", "07".repeat(EID_LENGTH), " -".repeat(places));
    let mut out = String::new();
    let mut script = Script::new(Options { explained, asks: false });
    script.line(line.as_bytes(), &mut out)?;
    Ok((out, script.card().kept_place))
}

#[test]
fn a_card_line_hands_it_in() {
    let profile = "A000000001:3F:100:5:0:1";
    let kept = |word: &str| handed_in(&format!("1000 7 900 8 0 Q {word} {profile}"), PLACES - 1, false);
    let (done, unsound) = ("9000 - - 0\n".to_owned(), "6F00 - - 0\n".to_owned());
    assert_eq!(kept("-"), Ok((done.clone(), None)));
    assert_eq!(kept("0"), Ok((done.clone(), Some(0))));
    assert_eq!(kept("0000"), Ok((done, Some(0))));
    for (word, index) in [("1", 1), ("31", 31), ("32", 32), ("200", 200), ("0254", 254)] {
        assert_eq!(kept(word), Ok((unsound.clone(), Some(index))));
    }
    for wrong in ["255", "256", "4294967296", "x", "--", "-1", "+1", "0x1", "1:", "Q"] {
        assert_eq!(kept(wrong), Err(Bad::Number));
    }
    assert_eq!(kept(""), Err(Bad::WordsMissing));
    assert_eq!(kept("- -"), Err(Bad::TooManyWords));
    for (places, bad) in [(PLACES - 2, Bad::WordsMissing), (PLACES, Bad::TooManyWords), (7, Bad::WordsMissing)] {
        assert_eq!(handed_in(&format!("1000 7 900 8 0 Q - {profile}"), places, false), Err(bad));
    }
    assert_eq!(handed_in(&format!("1000 7 900 8 0 q x {profile}"), PLACES - 1, false), Err(Bad::Phase));
    assert_eq!(handed_in("1000 7 900 8 0 Q x x", PLACES - 1, false), Err(Bad::Number));
    assert_eq!(handed_in("1000 7 900 8 0 Q 0 x", PLACES - 1, false), Err(Bad::Place));
}

#[test]
fn the_explained_form_shows_it() {
    let shown = |word: &str, profile: &str| {
        let words = format!("1000 7 900 8 0 F:5:8 {word} {profile}");
        let (text, _) = handed_in(&words, PLACES - 1, true).unwrap();
        text.lines().rev().take(4).map(str::to_owned).collect::<Vec<_>>()
    };
    let sound = "A000000001:3F:100:5:0:1";
    let phase = "phase fallen: ticks left 5, number 8";
    assert_eq!(shown("-", sound)[..3], ["", "ticks to come 5", phase]);
    assert_eq!(shown("0", sound), ["", "ticks to come 5", "listing open: next row at place 0", phase]);
    assert_eq!(shown("200", sound), ["", "ticks to come 0", "listing open: next row at place 200", phase]);
    assert_eq!(shown("31", "-"), ["", "ticks to come 0", "listing open: next row at place 31", phase]);
    let mut script = Script::new(Options { explained: true, asks: false });
    let mut answered = |line: String| {
        let mut out = String::new();
        script.line(line.as_bytes(), &mut out).unwrap();
        out.lines().next().unwrap().to_owned()
    };
    assert_eq!(answered("fresh 07070707070707070707070707070707 A000000001 1000 100 0 0".to_owned()), "90 00 done");
    let meaning = "6A 88 target not held, or not the outstanding number, or no listing open";
    assert_eq!(answered("command 0 80F24003024F00".to_owned()), meaning);
    for last in 2..=16 {
        let hex: String = create(last, 1).iter().map(|byte| format!("{byte:02X}")).collect();
        assert_eq!(answered(format!("command 0 {hex}")), "90 00 done");
    }
    assert_eq!(answered("command 0 80F24002024F00".to_owned()), "63 10 done, more rows to come");
    assert_eq!(answered("command 0 80F24003024F00".to_owned()), "90 00 done");
}

#[test]
fn readings_name_the_next_rows() {
    let read = |hex: &str| {
        let mut out = String::new();
        reading(hex.as_bytes(), 1000, &mut out).unwrap();
        out
    };
    assert_eq!(read("80F24003024F00"), "get-status next 4F,9F70,53\n");
    assert_eq!(read("80F24003044F005C0000"), "get-status next 4F\n");
    assert_eq!(read("80F24003054F005C0153"), "get-status next 4F,53\n");
    assert_eq!(read("80F24003074F05A000000001"), "6A80\n");
    assert_eq!(read("80F24002074F05A000000001"), "get-status A000000001 4F,9F70,53\n");
    assert_eq!(read("80F24004024F00"), "6A86\n");
    assert_eq!(read("80F24103024F00"), "6A86\n");
    assert_eq!(read("80F24003"), "6700\n");
}
