//! The words of the peer, run as a program: what becomes of the files named after one that goes wrong.

use std::path::PathBuf;
use std::process::Command;

const FRESH: &str = "fresh 00112233445566778899AABBCCDDEEFF A000000001 1000 100 0 0";

/// What the peer writes of these words, and its exit status; a file stands in `folder` under each name.
fn run(folder: &str, files: &[(&str, impl AsRef<[u8]>)], words: &[&str]) -> (String, Option<i32>) {
    let folder = PathBuf::from(env!("CARGO_TARGET_TMPDIR")).join(folder);
    std::fs::create_dir_all(&folder).unwrap();
    for (name, content) in files {
        std::fs::write(folder.join(name), content).unwrap();
    }
    let ran = Command::new(env!("CARGO_BIN_EXE_peer")).args(words).current_dir(&folder).output().unwrap();
    (String::from_utf8(ran.stdout).unwrap(), ran.status.code())
}

#[test]
fn a_bad_line_stops_its_own_script() {
    let scripts = [("bad", format!("{FRESH}\nnonsense\ntick\n")), ("good", format!("tick\n{FRESH}\n"))];
    let (bad, good) = ("9000 - - 0\nline 2: unknown word\n", "6F00 - - 0\n9000 - - 0\n");
    // The script after it begins with the record of zeros, not with the card left before.
    assert_eq!(run("bad", &scripts, &["bad", "good"]), (format!("{bad}{good}"), Some(1)));
    assert_eq!(run("bad", &scripts, &["bad", "ask", "good", "bad"]), (format!("{bad}{good}{bad}"), Some(1)));
    assert_eq!(run("bad", &scripts, &["good", "good"]), (format!("{good}{good}"), Some(0)));
}

#[test]
fn a_file_that_cannot_be_opened_is_passed_over() {
    let scripts = [("good", "tick\n".to_string()), ("bad", "nonsense\n".to_string())];
    let good = "6F00 - - 0\n";
    assert_eq!(run("unopened", &scripts, &["none", "good"]), (good.to_string(), Some(2)));
    assert_eq!(run("unopened", &scripts, &["bad", "none", "good"]), (format!("line 1: unknown word\n{good}"), Some(1)));
}

#[test]
fn event_files_are_reported_one_by_one() {
    let files = [("empty", vec![]), ("none", vec![0; 4]), ("long", vec![0; 70_000])];
    let (missing, wrong) = ("refused: section missing\n", "refused: contents wrong\n");
    assert_eq!(
        run("events", &files, &["minutes", "none", "empty", "long"]),
        (format!("{missing}{wrong}{wrong}"), Some(0))
    );
    // A folder can be opened and not read; nothing is handed to standard input.
    let failed = "the read failed\n";
    assert_eq!(run("events", &files, &["minutes", ".", "none"]), (format!("{failed}{missing}"), Some(0)));
    assert_eq!(run("events", &files, &["minutes", "ask", "none"]), (missing.to_string(), Some(2)));
    assert_eq!(run("events", &files, &["minutes"]), (wrong.to_string(), Some(0)));
    let meaning = "the fresh card's inputs or the events are not listed\nno event was run\n";
    let both = format!("{missing}{missing}{meaning}");
    assert_eq!(run("events", &files, &["minutes", "none", "explain", "none"]), (both, Some(0)));
}
