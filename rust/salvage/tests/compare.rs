//! The comparison itself, with the oracle in the place of salvages: it passes, and a program that is wrong,
//! missing or broken fails it; so does a run that compares too little.

#![cfg(all(has_oracle, unix))]

use program::stand_in;
use std::path::Path;
use std::process::{Command, Output};

const ORACLE: &str = env!("CARGO_BIN_EXE_salvage_oracle");

/// Compares over so many DCFs with a command in the place of salvages; without one there is none.
fn compared(name: &str, salvages: Option<&str>, count: &str) -> (bool, String) {
    let folder = Path::new(env!("CARGO_TARGET_TMPDIR")).join(name);
    let scripts: Vec<_> = salvages
        .map(|does| ("salvages", does))
        .into_iter()
        .collect();
    stand_in::scripts(&folder, &scripts);
    let mut command = Command::new(ORACLE);
    command.args(["compare", count]);
    let Output { status, stdout, .. } = command.env("OSTELUMIV_BIN", folder).output().unwrap();
    (status.success(), String::from_utf8(stdout).unwrap())
}

#[test]
fn the_oracle_is_like_itself() {
    let script = format!("exec {ORACLE} many");
    let (passed, text) = compared("same", Some(&script), "25000");
    assert!(passed, "{text}");
    assert!(text.starts_with("salvages: none different, "), "{text}");
    assert_eq!(text.lines().count(), 3, "{text}");
    for count in [
        "; 250",
        "refused 5: ",
        "refused 7: ",
        "unchanged: ",
        "drawn: whole: ",
    ] {
        assert!(text.contains(count), "{text}");
    }
    assert!(!text.contains(": 0"), "{text}");
}

/// Each is told, and its input is kept.
#[test]
fn a_wrong_program() {
    for (name, wrong) in [
        ("figure", "LC_ALL=C sed 's/ 0 -$/ 0 4/'"),
        ("refusal", "LC_ALL=C sed 's/5$/7/'"),
        ("missing", "head -c -1"),
        ("more", "cat; echo"),
        ("nothing", "head -c 0"),
        ("byte", "LC_ALL=C tr '\\201' '\\202'"),
    ] {
        let script = format!("{ORACLE} many | {{ {wrong}; }}");
        let (passed, text) = compared(name, Some(&script), "3000");
        assert!(!passed, "{name}: {text}");
        assert!(text.starts_with("DIFFERENCE in DCF "), "{name}: {text}");
        assert!(text.contains("\n  DCF       "), "{name}: {text}");
        let kept = "\nthe input is kept as target/salvages.input\n";
        assert!(text.ends_with(kept), "{name}: {text}");
    }
}

#[test]
fn a_program_that_is_missing_or_fails() {
    let (passed, text) = compared("absent", None, "100");
    assert!(!passed);
    assert!(
        text.starts_with("NOT COMPARED: salvages is not in "),
        "{text}"
    );
    let (passed, text) = compared("fails", Some("exit 3"), "100");
    assert!(!passed);
    assert!(text.contains("exit status: 3"), "{text}");
}

#[test]
fn too_little() {
    let script = format!("exec {ORACLE} many");
    let (passed, text) = compared("little", Some(&script), "0");
    assert!(!passed);
    let told = "\nNOT ENOUGH: there was none of: refused 5, refused 7, ";
    assert!(text.contains(told), "{text}");
}
