//! Bytes worked by hand from the tables of 000, document 01's twelve examples, and the two claims the
//! engine leans on: the ticks figure is the count, and no step from a sound card makes an unsound one.
//! Then request 2026-02's mark of provisioning capability. Every expected line is written from the papers, none is copied from a run.

use crate::card::*;
use crate::manager::{self, Kept};
use crate::script::{reading, Bad, Options, Script};

const EID: &str = "00112233445566778899AABBCCDDEEFF";
const FRESH: &str = "fresh 00112233445566778899AABBCCDDEEFF A000000001 1000 100 0 16909060";
const CREATE_02: &str = "command 0 80E60C003C10A0000005591010FFFFFFFF8900000D0010A0000005591010FFFFFFFF8900000E0005A0000000020380C0000EC90481020370EF068304000000320000";
const ENABLE_02: &str = "command 0 80E288000A3A03074F05A000000002";
const DISABLE_02: &str = "command 0 80E288000A3A04074F05A000000002";
const SET_FALL_BACK_02: &str = "command 0 80E288000A3A05074F05A000000002";
const DELETE_02: &str = "command 0 80E40040074F05A00000000200";
const CONFIRM_1: &str = "command 0 80E28900073A08044E02000100";
const STATUS: &str = "command 0 80F24002024F0000";

fn play(lines: &[&str]) -> Vec<String> {
    played(lines, Options::default())
}

fn played(lines: &[&str], options: Options) -> Vec<String> {
    let mut script = Script::new(options);
    lines
        .iter()
        .map(|line| {
            let mut out = String::new();
            script.line(line.as_bytes(), &mut out).unwrap();
            out.trim_end().to_owned()
        })
        .collect()
}

fn last(lines: &[&str]) -> String {
    play(lines).pop().unwrap()
}

fn create(aid: u8, quota: u32) -> String {
    format!("command 0 80E60C002405A00000000105A00000000105A0000000{aid:02X}01800EC90481020370EF068304{quota:08X}00")
}

/// A card line with no listing open, the places given, and places of zeros after them.
fn card_line(eid: &str, numbers: &str, phase: &str, places: &[&str]) -> String {
    format!("card {eid} {numbers} {phase} - {}{}", places.join(" "), " -".repeat(PLACES - places.len()))
}

/// A card on which 02 stands DISABLED, finished with the given words: its policy, or its policy and mark.
fn with_02(given: &str) -> Vec<String> {
    let finished = format!("finished A000000002 {given}");
    [FRESH, CREATE_02, "keyed A000000002", "stored A000000002 5", &finished].map(str::to_owned).to_vec()
}

fn after(start: &[String], more: &[&str]) -> String {
    let mut lines: Vec<&str> = start.iter().map(String::as_str).collect();
    lines.extend(more);
    last(&lines)
}

fn ticks(n: usize) -> Vec<&'static str> {
    vec!["tick"; n]
}

#[test]
fn worked_bytes() {
    assert_eq!(last(&[FRESH, CREATE_02]), "9000 00 - 0");
    let get_data = "command 0 80CAFF2100";
    assert_eq!(last(&[FRESH, CREATE_02, get_data]), "9000 FF210F810102820400000352830401020304 - 0");
    let start = with_02("0");
    assert_eq!(after(&start, &[ENABLE_02]), "9000 - 02:0001:A000000002 20");
    assert_eq!(after(&start, &[ENABLE_02, CONFIRM_1]), "9000 - - 0");
    assert_eq!(after(&start, &[ENABLE_02, CONFIRM_1, DISABLE_02]), "9000 - 02:0002:A000000001 30");
    assert_eq!(after(&start, &[DELETE_02]), "9000 00 - 0");
    let master = "80E40040284F05A000000002B60D4201014501025F200103930104 9E1055555555555555555555555555555555 00";
    let master = master.replace(' ', "");
    assert_eq!(after(&start, &[&format!("command 1 {master}")]), "9000 00 - 0");
    assert_eq!(after(&start, &[&format!("command 0 {master}")]), "6982 - - 0");
    let policy_update = "command 0 80E28800063A0603810102";
    assert_eq!(after(&start, &[policy_update]), "6A80 - - 0");
}

#[test]
fn deletion_at_confirmation() {
    let start = with_02("4");
    let enable_f = "command 0 80E288000A3A03074F05A000000001";
    let confirm_2 = "command 0 80E28900073A08044E02000200";
    assert_eq!(after(&start, &[ENABLE_02, CONFIRM_1, enable_f]), "9000 - 02:0002:A000000001 30");
    assert_eq!(after(&start, &[ENABLE_02, CONFIRM_1, enable_f, confirm_2]), "9000 80074F05A000000002 - 0");
    let gone = after(&start, &[ENABLE_02, CONFIRM_1, enable_f, confirm_2, STATUS]);
    assert_eq!(gone, "9000 E30E4F05A0000000019F70013F530101 - 0");
}

#[test]
fn marked_examples_1_to_6() {
    assert_eq!(last(&[FRESH, STATUS]), "9000 E30E4F05A0000000019F70013F530101 - 0");
    assert_eq!(after(&with_02("0 1"), &[SET_FALL_BACK_02]), "9000 - - 0");
    assert_eq!(last(&[FRESH, SET_FALL_BACK_02]), "6A88 - - 0");
    assert_eq!(after(&with_02("0"), &["command 0 80E287000A3A05074F05A000000002"]), "6A86 - - 0");
    assert_eq!(after(&with_02("0"), &["command 0 80E28800093A05074F05A000000002"]), "6700 - - 0");
    assert_eq!(after(&with_02("0"), &["command 0 80E28800093A05064F04A0000000"]), "6A80 - - 0");
    assert_eq!(last(&[FRESH, &create(2, 900)]), "9000 00 - 0");
    assert_eq!(last(&[FRESH, &create(2, 901)]), "6A84 - - 0");
    let full: Vec<String> = std::iter::once(FRESH.to_owned()).chain((2..=32).map(|aid| create(aid, 10))).collect();
    let answers = play(&full.iter().map(String::as_str).collect::<Vec<_>>());
    assert!(answers[1..].iter().all(|answer| answer == "9000 00 - 0"));
    assert_eq!(after(&full, &[&create(33, 10)]), "6A84 - - 0");
    let freed = ["keyed A000000002", "stored A000000002 1", "finished A000000002 0", DELETE_02, &create(33, 10)];
    assert_eq!(after(&full, &freed), "9000 00 - 0");
}

#[test]
fn marked_examples_7_to_12() {
    let start = with_02("0");
    let enabled_02 = "9000 E30E4F05A0000000019F70011F530101E30E4F05A0000000029F70013F530100 - ";
    let enabled_f = "9000 E30E4F05A0000000019F70013F530101E30E4F05A0000000029F70011F530100 - ";
    let play = |parts: &[&[&str]]| after(&start, &parts.concat());

    let seven = [&[ENABLE_02][..], &ticks(9), &[CONFIRM_1]];
    assert_eq!(play(&seven), "9000 - - 0");
    assert_eq!(play(&[&seven.concat(), &[STATUS]]), format!("{enabled_02}0"));

    assert_eq!(play(&[&[ENABLE_02], &ticks(10)]), "9000 - 03:0002:A000000001 10");
    assert_eq!(play(&[&[ENABLE_02], &ticks(10), &[CONFIRM_1]]), "6A88 - - 10");
    assert_eq!(play(&[&[ENABLE_02], &ticks(10), &[CONFIRM_1, STATUS]]), format!("{enabled_f}10"));

    assert_eq!(play(&[&[ENABLE_02], &ticks(19)]), "9000 - - 1");
    assert_eq!(play(&[&[ENABLE_02], &ticks(20)]), "9000 - - 0");
    assert_eq!(play(&[&[ENABLE_02], &ticks(20), &[STATUS]]), format!("{enabled_f}0"));

    let disabled = [ENABLE_02, CONFIRM_1, DISABLE_02];
    assert_eq!(play(&[&disabled, &ticks(10)]), "9000 - 03:0003:A000000002 20");
    assert_eq!(play(&[&disabled, &ticks(20)]), "9000 - 05:0004:A000000001 10");
    assert_eq!(play(&[&disabled, &ticks(30)]), "9000 - - 0");
    assert_eq!(play(&[&disabled, &ticks(30), &[STATUS]]), format!("{enabled_f}0"));

    let worn = card_line(EID, "1000 0 850 65535 0", "Q", &["A000000001:3F:100:0:0:1", "A000000002:1F:50:5:0:0"]);
    assert_eq!(last(&[&worn, ENABLE_02]), "9000 - 02:0000:A000000002 20");

    assert_eq!(play(&[&["lost"]]), "9000 - - 0");
    assert_eq!(play(&[&["lost", STATUS]]), format!("{enabled_f}0"));
}

fn explained(lines: &[&str]) -> String {
    played(lines, Options { explained: true, asks: false }).pop().unwrap()
}

#[test]
fn explained_form() {
    let refused = "fresh - A000000001 1000 100 0 0";
    assert_eq!(
        explained(&[refused]),
        "6A 80 data field or values wrong, or AID already held\n  no profile is held\nphase quiet\nticks to come 0"
    );
    let head = "  place  AID         state           quota     used  fall-back  provisioning  policy\n";
    let start = with_02("4 0");
    let mut lines: Vec<&str> = start.iter().map(String::as_str).collect();
    lines.push(ENABLE_02);
    let table = "      0  A000000001  DISABLED          100        0  yes        yes           none
      1  A000000002  ENABLED            50        5                           deleted once disabled
phase trial: previous at place 0, ticks left 10, number 1
ticks to come 20";
    assert_eq!(explained(&lines), format!("90 00 done\nnotification 1: changed, A000000002 enabled\n{head}{table}"));
    lines.push("command 0 80F240");
    assert_eq!(explained(&lines).lines().next().unwrap(), "67 00 command length or length shape wrong");
    lines.push("command 0 80F240020B4F05A0000000025C029F70");
    assert_eq!(explained(&lines).lines().nth(1).unwrap(), "response E30B4F05A0000000029F70013F");
    let places = ["-", "-:3F:1:1:1:1", "A0:AB:4294967295:12345678:255:255", "A1:07:0:0:3:1"];
    let strange = card_line(EID, "0 0 0 9 3", "F:255:65535", &places);
    assert_eq!(
        explained(&[&strange]),
        "6F 00 the card is not sound
  place  AID  state           quota     used  fall-back  provisioning  policy
      2  A0  AB            4294967295  12345678             FF            FF
      3  A1  SELECTABLE          0        0  yes        yes           disabling and deletion forbidden
phase fallen: ticks left 255, number 65535
ticks to come 0"
    );
}

#[test]
fn asking_at_every_call_changes_no_answer() {
    let start = with_02("0");
    let mut lines: Vec<&str> = vec!["tick"];
    lines.extend(start.iter().map(String::as_str));
    lines.extend([ENABLE_02, "lost", CREATE_02]);
    lines.extend(ticks(20));
    lines.extend(["fresh - - 0 0 0 0", "tick"]);
    assert_eq!(played(&lines, Options { explained: false, asks: true }), play(&lines));
}

#[test]
fn bad_lines() {
    let bad = |line: &str| Script::new(Options::default()).line(line.as_bytes(), &mut String::new());
    assert_eq!(bad(&"#".repeat(4097)), Err(Bad::TooLong));
    assert_eq!(bad(&"#".repeat(4096)), Ok(()));
    assert_eq!(bad("Tick 1"), Err(Bad::UnknownWord));
    assert_eq!(bad("tick\r"), Err(Bad::UnknownWord));
    assert_eq!(bad("stored zz"), Err(Bad::WordsMissing));
    assert_eq!(bad("tick 1"), Err(Bad::TooManyWords));
    assert_eq!(bad("stored 1 x"), Err(Bad::Hex));
    assert_eq!(bad("stored - x"), Err(Bad::Number));
    assert_eq!(bad("stored - 4294967296"), Err(Bad::Number));
    assert_eq!(bad("  stored   -  0004294967295  "), Ok(()));
    assert_eq!(bad("command 256 -"), Err(Bad::Number));
    assert_eq!(bad("command 255 - 1025"), Err(Bad::Number));
    assert_eq!(bad(&card_line("00", "0 0 0 0 0", "Q", &["-"])), Err(Bad::Hex));
    let card = |phase: &str, place: &str| bad(&card_line(EID, "0 0 0 0 0", phase, &[place]));
    assert_eq!(card("Q", "-"), Ok(()));
    assert_eq!(card("T:0:0", "x"), Err(Bad::Phase));
    assert_eq!(card("B:256:0", "-"), Err(Bad::Phase));
    assert_eq!(card("F:0:65535", "-:00:0:0:0:0"), Ok(()));
    assert_eq!(card("Q", "-:0:0:0:0:0"), Err(Bad::Place));
    assert_eq!(card("Q", &format!("{}:07:0:0:0:0", "00".repeat(17))), Err(Bad::Place));
    assert_eq!(card("Q", "A000000001:3F:1:1:255:255"), Ok(()));
    for wrong in ["3F:1:1:0", "3F:1:1:0:0:0", "3F:1:1:0:256", "3F:1:1:0:", "3F:1:1:0:x", "3F:1:1:256:0"] {
        assert_eq!(card("Q", &format!("A000000001:{wrong}")), Err(Bad::Place));
    }
}

#[test]
fn bad_lines_of_finished() {
    let bad =
        |words: &str| Script::new(Options::default()).line(format!("finished {words}").as_bytes(), &mut String::new());
    assert_eq!(bad("- 255"), Ok(()));
    assert_eq!(bad("- 0 00255"), Ok(()));
    assert_eq!(bad("x"), Err(Bad::WordsMissing));
    assert_eq!(bad("x x x x"), Err(Bad::TooManyWords));
    assert_eq!(bad("x 256 256"), Err(Bad::Hex));
    for wrong in ["256 1", "0 256", "0 -", "0 -1", "0 x", "0 01x", "0 99999999999"] {
        assert_eq!(bad(&format!("A000000001 {wrong}")), Err(Bad::Number));
    }
}

#[test]
fn finished_gives_the_mark() {
    let start = [FRESH, CREATE_02, "keyed A000000002", "stored A000000002 5"].map(str::to_owned);
    let finished = |given: &str| after(&start, &[&format!("finished {given}")]);
    for right in ["0", "0 0", "0 1"] {
        assert_eq!(finished(&format!("A000000002 {right}")), "9000 - - 0");
        assert_eq!(finished(&format!("A000000003 {right}")), "6A88 - - 0");
        assert_eq!(finished(&format!("A000000001 {right}")), "6985 - - 0");
        assert_eq!(finished(&format!("A0000000 {right}")), "6A80 - - 0");
    }
    // A wrong mark comes before the AID that is not held, and before the state.
    for aid in [1, 2, 3] {
        for wrong in ["0 2", "0 255", "5 1", "5 2"] {
            assert_eq!(finished(&format!("A00000000{aid} {wrong}")), "6A80 - - 0");
        }
    }
    assert_eq!(last(&["finished A000000002 0 2"]), "6F00 - - 0");
}

#[test]
fn set_fall_back_asks_the_mark() {
    for given in ["0", "0 1"] {
        assert_eq!(after(&with_02(given), &[SET_FALL_BACK_02]), "9000 - - 0");
        assert_eq!(after(&with_02(given), &[ENABLE_02, CONFIRM_1, SET_FALL_BACK_02]), "9000 - - 0");
    }
    let unmarked = with_02("0 0");
    assert_eq!(after(&unmarked, &[SET_FALL_BACK_02]), "6985 - - 0");
    assert_eq!(after(&unmarked, &[ENABLE_02, CONFIRM_1, SET_FALL_BACK_02]), "6985 - - 0");
    let as_it_was = "9000 E30E4F05A0000000019F70013F530101E30E4F05A0000000029F70011F530100 - 0";
    assert_eq!(after(&unmarked, &[SET_FALL_BACK_02, STATUS]), as_it_was);
    let again = [DELETE_02, CREATE_02, "keyed A000000002", "stored A000000002 5", "finished A000000002 0 0"];
    assert_eq!(after(&with_02("0 1"), &[&again[..], &[SET_FALL_BACK_02]].concat()), "6985 - - 0");
}

#[test]
fn readings_name_the_request() {
    let read = |hex: &str| {
        let mut out = String::new();
        reading(hex.as_bytes(), 1000, &mut out).unwrap();
        out
    };
    assert_eq!(read("80CAFF2100"), "get-data\n");
    assert_eq!(read("80F24002044F005C00"), "get-status all 4F\n");
    assert_eq!(read("80E28800073A08044E021234"), "confirm 4660\n");
    assert_eq!(read("-"), "6700\n");
}

/// Four DISABLED profiles with these marks, each with a tenth of the capacity.
fn four_profiles(marks: [u8; 4]) -> Card {
    let mut card = Card::fresh(&[7; 16], &[1; 5], 100, 10, 1, 9).unwrap();
    card.places[0].life_cycle = DISABLED;
    for number in 2..=4 {
        let (aid, policy) = (Aid::of(&[number; 6]), number);
        card.places[usize::from(number) - 1] = Place { aid, policy, ..card.places[0] };
    }
    card.free = 60;
    for (place, mark) in card.places.iter_mut().zip(marks) {
        place.mark = mark;
    }
    card
}

fn every_phase(number: u16) -> Vec<Phase> {
    let mut phases = vec![Phase::Quiet];
    for left in [1, 2, 10] {
        phases.extend([Phase::Back { left, number }, Phase::Fallen { left, number }]);
        phases.extend((0..4).map(|previous| Phase::Trial { previous, left, number }));
    }
    phases
}

/// Small cards in every shape of phase, previous, fall-back and enabled place, marked in several ways, with a listing open and not.
fn sound_cards() -> Vec<Card> {
    let mut cards = Vec::new();
    for marks in [[1, 1, 1, 1], [1, 0, 0, 1], [0, 1, 1, 0]] {
        for enabled in 0..4 {
            for fall_back in 0..4 {
                for (phase, kept_place) in
                    every_phase(65535).into_iter().flat_map(|phase| [(phase, None), (phase, Some(3))])
                {
                    let mut card = Card { last: 65535, fall_back, phase, kept_place, ..four_profiles(marks) };
                    card.places[enabled].life_cycle = ENABLED;
                    cards.push(card);
                }
            }
        }
    }
    cards.retain(Card::is_sound);
    cards
}

#[test]
fn ticks_figure_is_the_count() {
    let cards = sound_cards();
    assert!(cards.len() > 200);
    for card in cards {
        let mut walked = card;
        let mut count = 0;
        while walked.is_open() {
            walked.tick();
            count += 1;
            assert!(count <= 30 && walked.is_sound());
        }
        assert_eq!(card.ticks_to_come(), count, "{card:?}");
    }
}

#[test]
fn refusals_leave_the_card_and_steps_keep_it_sound() {
    let mut commands: Vec<Vec<u8>> = Vec::new();
    for index in 0..4u8 {
        let aid = if index == 0 { vec![1; 5] } else { vec![index + 1; 6] };
        let element = [&[0x4F, aid.len() as u8][..], &aid].concat();
        for dgi in [3, 4, 5] {
            let field = [&[0x3A, dgi, element.len() as u8][..], &element].concat();
            commands.push([&[0x80, 0xE2, 0x88, 0, field.len() as u8][..], &field].concat());
        }
        commands.push([&[0x80, 0xE4, 0, 0x40, element.len() as u8][..], &element].concat());
    }
    commands.push(vec![0x80, 0xE2, 0x89, 0, 7, 0x3A, 8, 4, 0x4E, 2, 0xFF, 0xFF]);
    commands.extend([0x02, 0x03].map(|p2| vec![0x80, 0xF2, 0x40, p2, 2, 0x4F, 0]));
    for card in sound_cards() {
        for bytes in &commands {
            let mut kept = Kept::of(card);
            let answer = manager::command(&mut kept, 0, bytes, &mut [0; 256]);
            let new = *kept.card();
            assert_eq!(kept, Kept::of(new));
            assert!(new.is_sound());
            // All rows of four profiles fit one part, so no accepted call leaves a place kept.
            assert!(if answer.status == 0x9000 { new.kept_place.is_none() } else { new == card });
            assert_eq!(answer.ticks, new.ticks_to_come());
            assert!(is_told(&card, &new, &answer));
        }
        for report in [manager::tick, manager::lost] {
            let mut kept = Kept::of(card);
            let answer = report(&mut kept);
            assert!(kept.card().is_sound() && kept.card().kept_place.is_none());
            assert!(is_told(&card, kept.card(), &answer));
        }
    }
}

/// The report of minutes learns from the notifications alone which profile is enabled.
fn is_told(before: &Card, after: &Card, answer: &manager::Answer) -> bool {
    let told = answer.notification.map(|notification| notification.aid);
    after.enabled_aid() == told.unwrap_or(before.enabled_aid())
}

#[test]
fn unsound_cards() {
    assert!(!Card::ZEROS.is_sound());
    let sound = sound_cards()[0];
    let broken = |change: &dyn Fn(&mut Card)| {
        let mut card = sound;
        change(&mut card);
        assert!(!card.is_sound(), "{card:?}");
        let mut kept = Kept::of(card);
        let answer = manager::tick(&mut kept);
        assert_eq!((answer.status, answer.ticks, *kept.card()), (0x6F00, 0, card));
    };
    broken(&|card| card.capacity = 0);
    broken(&|card| card.capacity = 1_048_577);
    broken(&|card| card.fall_back = 32);
    broken(&|card| card.fall_back = 4);
    broken(&|card| card.places[3].policy = 5);
    broken(&|card| card.places[3].policy = 8);
    broken(&|card| card.places[3].mark = 2);
    broken(&|card| card.places[3].mark = 255);
    broken(&|card| card.places[0].mark = 0);
    broken(&|card| card.places[0].mark = 2);
    broken(&|card| card.places[3].life_cycle = 3);
    broken(&|card| card.places[3].life_cycle = ENABLED);
    broken(&|card| card.places[3].used = 11);
    broken(&|card| card.places[3].quota = 0);
    broken(&|card| (card.places[3].quota, card.free) = (71, 0));
    broken(&|card| card.places[3].aid = card.places[2].aid);
    broken(&|card| card.places[5].used = 1);
    broken(&|card| card.places[5].mark = 1);
    broken(&|card| card.phase = Phase::Back { left: 0, number: card.last });
    broken(&|card| card.phase = Phase::Back { left: 11, number: card.last });
    broken(&|card| card.phase = Phase::Back { left: 5, number: card.last - 1 });
    broken(&|card| card.phase = Phase::Trial { previous: 200, left: 5, number: card.last });
    broken(&|card| card.phase = Phase::Trial { previous: 0, left: 5, number: card.last });
    broken(&|card| card.kept_place = Some(4));
    broken(&|card| card.kept_place = Some(32));
    broken(&|card| card.kept_place = Some(254));
    for place in 0..PLACES {
        broken(&|card| card.places[place].quota = u32::MAX);
    }
}
