//! Event files against their reports: how sections may lie, each refusal and which of two comes first,
//! and for whom a tick counts. Every report is written from docs/EVENTS.md, none is copied from a run.

use crate::minutes::put_report;

const F: &[u8] = &[0xA0, 0, 0, 0, 1];
const TICK: &[u8] = &[5, 0, 0];
const LOST: &[u8] = &[6, 0, 0];

const CONTENTS: &str = "refused: contents wrong\n";
const MISSING: &str = "refused: section missing\n";
const INPUTS: &str = "refused: fresh inputs bad\n";
const CUT: &str = "refused: event cut short\n";
const UNKNOWN: &str = "refused: event of unknown kind\n";
const LENGTH: &str = "refused: event of wrong length\n";

fn report(file: &[u8]) -> String {
    let mut out = String::new();
    put_report(&mut out, file, false);
    out
}

fn explained(file: &[u8]) -> String {
    let mut out = String::new();
    put_report(&mut out, file, true);
    out
}

fn inputs(aid: &[u8], numbers: [u32; 4]) -> Vec<u8> {
    let numbers = numbers.map(u32::to_be_bytes).concat();
    [&[7; 16][..], &numbers, aid].concat()
}

fn fresh() -> Vec<u8> {
    inputs(F, [1000, 100, 0, 9])
}

fn event(kind: u8, bytes: &[u8]) -> Vec<u8> {
    [&[kind][..], &(bytes.len() as u16).to_be_bytes(), bytes].concat()
}

fn contents(entries: &[[u32; 3]]) -> Vec<u8> {
    let entries = entries.iter().flatten().flat_map(|number| number.to_be_bytes());
    (entries.clone().count() as u32 / 12).to_be_bytes().into_iter().chain(entries).collect()
}

/// The two sections, listed and laid in the order of their kinds.
fn file(inputs: &[u8], events: &[u8]) -> Vec<u8> {
    let (one, two) = (inputs.len() as u32, events.len() as u32);
    [&contents(&[[1, 28, one], [2, 28 + one, two]]), inputs, events].concat()
}

fn of_events(events: &[&[u8]]) -> String {
    report(&file(&fresh(), &events.concat()))
}

fn command(hex: &str) -> Vec<u8> {
    let bytes: Vec<u8> =
        (0..hex.len()).step_by(2).map(|at| u8::from_str_radix(&hex[at..at + 2], 16).unwrap()).collect();
    event(1, &[&[0][..], &bytes].concat())
}

/// A data field of enable (3), disable (4) or set fall-back (5).
fn change(dgi: u8, last: u8) -> Vec<u8> {
    command(&format!("80E288000A3A{dgi:02X}074F05A0000000{last:02X}"))
}

fn confirm(number: u16) -> Vec<u8> {
    command(&format!("80E28900073A08044E02{number:04X}"))
}

fn made(last: u8, policy: u8) -> Vec<u8> {
    loaded(last, 4, &[policy])
}

/// A profile made and loaded, and finished by an event of this kind whose bytes before the AID are these.
fn loaded(last: u8, kind: u8, given: &[u8]) -> Vec<u8> {
    [personalized(last), event(kind, &[given, &[0xA0, 0, 0, 0, last]].concat())].concat()
}

/// A profile that has only to be finished: three events.
fn personalized(last: u8) -> Vec<u8> {
    let aid = [0xA0, 0, 0, 0, last];
    let create = "80E60C002205A00000000105A00000000105A0000000";
    [
        command(&format!("{create}{last:02X}01800CC90481020370EF048302003200")),
        event(2, &aid),
        event(3, &[&[0, 0, 0, 5][..], &aid].concat()),
    ]
    .concat()
}

#[test]
fn short_and_long_files() {
    for length in 0..4 {
        assert_eq!(report(&vec![0; length]), CONTENTS);
    }
    assert_eq!(report(&[0; 4]), MISSING);
    assert_eq!(report(&[0; 5]), CONTENTS);
    let ticks = |count: usize, more: &[u8]| report(&file(&fresh(), &[&TICK.repeat(count), more].concat()));
    // 28 of contents, 37 of inputs: 65,471 are left for events, which is 21,823 ticks and 2 bytes.
    let keyed = event(2, &[0; 2]);
    assert_eq!(ticks(21_822, &keyed), "A000000001 21822\nticks 21822\nevents 21823\n");
    let keyed = event(2, &[0; 3]);
    assert_eq!(ticks(21_822, &keyed), CONTENTS);
}

#[test]
fn sections_lie_end_to_end() {
    let fine = "A000000001 1\nticks 1\nevents 1\n";
    let one = fresh();
    let laid = |entries: &[[u32; 3]], bodies: &[&[u8]]| report(&[&contents(entries)[..], &bodies.concat()].concat());
    assert_eq!(laid(&[[1, 28, 37], [2, 65, 3]], &[&one, TICK]), fine);
    assert_eq!(laid(&[[2, 65, 3], [1, 28, 37]], &[&one, TICK]), fine);
    assert_eq!(laid(&[[1, 31, 37], [2, 28, 3]], &[TICK, &one]), fine);
    assert_eq!(laid(&[[2, 28, 3], [1, 31, 37]], &[TICK, &one]), fine);
    assert_eq!(laid(&[[1, 28, 36], [2, 65, 3]], &[&one, TICK]), CONTENTS);
    assert_eq!(laid(&[[1, 28, 37], [2, 64, 4]], &[&one, TICK]), CONTENTS);
    assert_eq!(laid(&[[1, 28, 37], [2, 65, 3]], &[&one, TICK, &[0]]), CONTENTS);
    assert_eq!(laid(&[[1, 28, 37], [2, 65, 4]], &[&one, TICK]), CONTENTS);
    assert_eq!(laid(&[[1, 28, 37], [2, 65, u32::MAX - 61]], &[&one, TICK]), CONTENTS);
    assert_eq!(laid(&[[1, 28, 37], [2, u32::MAX - 2, 3]], &[&one, TICK]), CONTENTS);
    let none = "A000000001 0\nticks 0\nevents 0\n";
    assert_eq!(laid(&[[1, 28, 37], [2, 28, 0]], &[&one]), none);
    assert_eq!(laid(&[[1, 28, 37], [2, 65, 0]], &[&one]), none);
    for start in [0, 27, 29, 64, 66] {
        assert_eq!(laid(&[[1, 28, 37], [2, start, 0]], &[&one]), CONTENTS);
    }
    assert_eq!(laid(&[[1, 28, 0], [2, 28, 0]], &[]), INPUTS);
}

#[test]
fn contents_and_kinds() {
    let laid = |entries: &[[u32; 3]], bodies: &[u8]| report(&[&contents(entries)[..], bodies].concat());
    assert_eq!(laid(&[[1, 16, 37]], &fresh()), MISSING);
    assert_eq!(laid(&[[2, 16, 3]], TICK), MISSING);
    assert_eq!(laid(&[[3, 16, 3]], TICK), CONTENTS);
    assert_eq!(laid(&[[257, 16, 37]], &fresh()), CONTENTS);
    assert_eq!(laid(&[[1, 28, 37], [1, 65, 0]], &fresh()), CONTENTS);
    assert_eq!(laid(&[[1, 40, 37], [2, 77, 3], [2, 80, 0]], &[&fresh()[..], TICK].concat()), CONTENTS);
    let mut whole = file(&fresh(), TICK);
    // 4 + 12 * count passes 32 bits, and comes out at 28 in them.
    whole[..4].copy_from_slice(&0x4000_0002u32.to_be_bytes());
    assert_eq!(report(&whole), CONTENTS);
    assert_eq!(report(&[0, 0, 0, 1]), CONTENTS);
}

#[test]
fn fresh_inputs() {
    let of = |inputs: &[u8]| report(&file(inputs, &[]));
    assert_eq!(of(&fresh()[..31]), INPUTS);
    assert_eq!(of(&fresh()[..36]), INPUTS);
    assert_eq!(of(&inputs(&[1; 16], [1, 1, 1, 0])), format!("{} 0\nticks 0\nevents 0\n", "01".repeat(16)));
    assert_eq!(of(&inputs(&[1; 17], [1, 1, 1, 0])), INPUTS);
    for wrong in [[0, 0, 0, 0], [1_048_577, 1, 0, 0], [9, 10, 0, 0], [9, 0, 0, 0], [9, 8, 9, 0]] {
        assert_eq!(of(&inputs(F, wrong)), INPUTS);
    }
}

#[test]
fn events_of_every_length() {
    assert_eq!(of_events(&[TICK, &[5]]), CUT);
    assert_eq!(of_events(&[TICK, &[5, 0]]), CUT);
    assert_eq!(of_events(&[&[2, 0, 6], F]), CUT);
    assert_eq!(of_events(&[&event(9, &[]), &[5]]), CUT);
    assert_eq!(of_events(&[&event(5, &[0]), &event(0, &[]), &event(5, &[0])]), UNKNOWN);
    assert_eq!(of_events(&[&event(7, &[]), &event(9, &[0; 7])]), UNKNOWN);
    for (kind, wrong) in [(1, 0), (3, 0), (3, 3), (4, 0), (5, 1), (6, 1), (7, 0), (7, 1)] {
        assert_eq!(of_events(&[TICK, &event(kind, &vec![0; wrong]), TICK]), LENGTH);
    }
    // A command of no bytes, AIDs of none, and a command of 300 are events that the engine refuses.
    let short = [event(1, &[0]), event(2, &[]), event(3, &[0; 4]), event(4, &[0]), event(7, &[0; 2])].concat();
    let refused = [short, event(1, &[0x80; 301])].concat();
    assert_eq!(of_events(&[&refused, TICK]), "A000000001 1\nticks 1\nevents 7\n");
    assert!(explained(&file(&fresh(), &refused)).ends_with("refused                                 6\n"));
}

/// 02 is made the fall-back where it has the mark, and a lost network then enables it.
#[test]
fn the_mark_of_a_finished_event() {
    let lost = [change(5, 2), LOST.to_vec(), TICK.repeat(3)].concat();
    let falls = "A000000001 0\nA000000002 3\nticks 3\nevents 9\n";
    let stays = "A000000001 3\nticks 3\nevents 9\n";
    assert_eq!(of_events(&[&loaded(2, 4, &[0]), &lost]), falls);
    assert_eq!(of_events(&[&loaded(2, 7, &[0, 1]), &lost]), falls);
    assert_eq!(of_events(&[&loaded(2, 7, &[0, 0]), &lost]), stays);
    assert_eq!(of_events(&[&loaded(2, 7, &[0, 2]), &lost]), stays);
    // The policy stands before the mark: 01 with 00 forbids disabling, and leaves 02 unmarked.
    let bound = [change(3, 2), confirm(1), change(4, 2), LOST.to_vec(), TICK.to_vec()].concat();
    assert_eq!(of_events(&[&loaded(2, 7, &[1, 0]), &bound]), "A000000001 1\nA000000002 0\nticks 1\nevents 9\n");
    let refusals = explained(&file(&fresh(), &[loaded(2, 7, &[1, 0]), change(5, 2), bound].concat()));
    assert!(refusals.ends_with("refused                                 2\n"), "{refusals}");
}

#[test]
fn a_tick_counts_for_the_profile_enabled_before_it() {
    let start = made(2, 0);
    let counted = |parts: &[&[u8]], lines: &str| {
        let events = [&[&start[..]], parts].concat().concat();
        assert!(report(&file(&fresh(), &events)).starts_with(lines), "{lines}");
    };
    counted(&[TICK, &change(3, 2), &TICK.repeat(10)], "A000000001 1\nA000000002 10\nticks 11\n");
    counted(&[&change(3, 2), &TICK.repeat(25)], "A000000001 15\nA000000002 10\nticks 25\nevents 30\n");
    counted(&[&change(3, 2), &confirm(1), TICK, LOST, TICK], "A000000001 1\nA000000002 1\nticks 2\n");
    // 03 is the fall-back: nobody confirms, and a tick enables it.
    let back = [made(3, 0), change(5, 3), change(3, 2)].concat();
    counted(&[&back, &TICK.repeat(21)], "A000000001 10\nA000000002 10\nA000000003 1\nticks 21\n");
}

#[test]
fn a_deleted_profile_keeps_its_line() {
    let made = made(2, 4);
    let stay = [made, change(3, 2), confirm(1), TICK.to_vec(), change(4, 2), confirm(2), TICK.to_vec()].concat();
    let deleted = "A000000001 1\nA000000002 1\nticks 2\nevents 10\n";
    assert_eq!(of_events(&[&stay]), deleted);
    let again = [self::made(2, 0), change(3, 2), TICK.to_vec()].concat();
    assert_eq!(of_events(&[&stay, &again]), "A000000001 1\nA000000002 2\nticks 3\nevents 16\n");
}

/// Deleted, what a broken download left can be neither finished nor enabled; created again it can.
#[test]
fn a_broken_download_is_deleted() {
    let delete = command("80E40040074F05A000000002");
    let finished = event(4, &[0, 0xA0, 0, 0, 0, 2]);
    let enabled = [change(3, 2), TICK.repeat(3)].concat();
    let gone = "A000000001 3\nticks 3\nevents 9\n";
    assert_eq!(of_events(&[&personalized(2), &delete, &finished, &enabled]), gone);
    let again = "A000000001 0\nA000000002 3\nticks 3\nevents 12\n";
    assert_eq!(of_events(&[&personalized(2), &delete, &made(2, 0), &enabled]), again);
    let open = [change(3, 3), delete, confirm(1), finished, enabled].concat();
    let kept = "A000000001 0\nA000000003 0\nA000000002 3\nticks 3\nevents 15\n";
    assert_eq!(of_events(&[&made(3, 0), &personalized(2), &open]), kept);
}

/// Each AID is enabled, confirmed and, when the next one is, deleted.
fn parade(last: u8) -> Vec<u8> {
    let mut events = Vec::new();
    for (number, name) in (2..=last).enumerate() {
        events.extend([made(name, 4), change(3, name), confirm(number as u16 + 1), TICK.to_vec()].concat());
    }
    events
}

#[test]
fn sixty_four_lines_and_the_rest() {
    let lines = |last: u8| (2..=last).map(|name| format!("A0000000{name:02X} 1\n")).collect::<String>();
    assert_eq!(of_events(&[&parade(64)]), format!("A000000001 0\n{}ticks 63\nevents 441\n", lines(64)));
    let full = format!("A000000001 0\n{}", lines(64));
    assert_eq!(of_events(&[&parade(65)]), format!("{full}rest 1\nticks 64\nevents 448\n"));
    assert_eq!(of_events(&[&parade(66)]), format!("{full}rest 2\nticks 65\nevents 455\n"));
}

/// Seventeen profiles are listed in two parts. The first one's 63 10 is no refusal; what comes after the last part, after a tick
/// and with an AID named is.
#[test]
fn a_part_that_leaves_rows_is_accepted() {
    let create = "80E60C002205A00000000105A00000000105A0000000";
    let crowd = (2..=17).flat_map(|last| command(&format!("{create}{last:02X}01800CC90481020370EF048302001400")));
    let (first, next) = (command("80F24002024F00"), command("80F24003024F00"));
    let named = command("80F24003074F05A000000002");
    let parts = [&first, &named, &next, &next, &first, TICK, &next].map(<[u8]>::to_vec).concat();
    let events: Vec<u8> = crowd.chain(parts).collect();
    let table = "AID                               minutes   share
A000000001                              1  100.0%
ticks                                   1
events                                 23
refused                                 3
";
    assert_eq!(explained(&file(&fresh(), &events)), table);
}

#[test]
fn for_a_person() {
    let events = [made(2, 0), TICK.repeat(2), change(3, 2), TICK.to_vec(), event(2, F)].concat();
    let table = "AID                               minutes   share
A000000001                              2   66.7%
A000000002                              1   33.3%
ticks                                   3
events                                  9
refused                                 1
";
    assert_eq!(explained(&file(&fresh(), &events)), table);
    let none = explained(&file(&fresh(), &[]));
    assert_eq!(none.lines().nth(1), Some("A000000001                              0       -"));
    // 1 of 16 is 6.25%, a half that goes up; 15 of 16 is 93.75%.
    let events = [made(2, 0), TICK.repeat(15), change(3, 2), TICK.to_vec()].concat();
    let halves = explained(&file(&fresh(), &events));
    assert!(halves.contains("  93.8%\n") && halves.contains("   6.3%\n"), "{halves}");
    let refusal = "refused: event cut short\nthe events end within an event\nno event was run\n";
    assert_eq!(explained(&file(&fresh(), &[1])), refusal);
}
