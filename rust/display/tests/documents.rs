//! The runs in traces/ as pictures, and the documents' quotes of what is shown.

use display::{run, run_dcf, Notation};
use ostelumiv::Refusal;
use std::fs;
use std::path::{Path, PathBuf};

fn root() -> PathBuf {
    Path::new(env!("CARGO_MANIFEST_DIR")).join("../..")
}

fn text(path: &Path) -> String {
    fs::read_to_string(path).unwrap_or_else(|error| panic!("{}: {error}", path.display()))
}

fn shown(notation: Notation, input: &str) -> String {
    let mut output = Vec::new();
    assert!(run(notation, false, &mut input.as_bytes(), &mut output).unwrap());
    String::from_utf8(output).unwrap()
}

fn picture(name: &str) -> String {
    let lines = root().join("traces").join(name).with_extension("lines");
    shown(Notation::Replay, &text(&lines))
}

/// What a trace gathers for a job.
fn gathered(name: &str) -> Vec<u8> {
    let trace = text(&root().join("traces").join(name).with_extension("txt"));
    let gathers = trace
        .lines()
        .filter_map(|line| line.strip_prefix("gather "));
    let data = gathers.map(|data| data.split_once('#').map_or(data, |(data, _)| data));
    data.flat_map(|data| hex::bytes(data.as_bytes()).unwrap())
        .collect()
}

/// The bytes that the commands in a document print, `\x` ahead of each.
fn printed(document: &str) -> Vec<u8> {
    text(&root().join(document))
        .split("printf '")
        .skip(1)
        .map(|rest| rest.split('\'').next().unwrap().replace("\\x", " "))
        .flat_map(|digits| hex::bytes(digits.as_bytes()).unwrap())
        .collect()
}

/// The rows quoted in a document, indented there by four blanks.
fn quotes(document: &str, rows: &str) {
    let document = text(&root().join(document));
    let quoted: String = rows.lines().map(|row| format!("    {row}\n")).collect();
    assert!(document.contains(&quoted), "not quoted:\n{quoted}");
}

#[test]
fn the_guide_has_the_picture_of_document_01s_run() {
    quotes("docs/TRACES.md", &picture("document01"));
    let lines = text(&root().join("crates/replay/stdout"));
    assert_eq!(shown(Notation::Replay, &lines), picture("document01"));
}

/// What values prints for its own trace, and the picture of it.
#[test]
fn the_guide_has_the_values_of_a_run() {
    let lines = text(&root().join("traces/values.values"));
    quotes("docs/TRACES.md", &lines);
    quotes("docs/TRACES.md", &shown(Notation::Values, &lines));
}

fn dcf_in_words(mut dcf: &[u8]) -> String {
    let mut output = Vec::new();
    assert!(run_dcf(false, &mut dcf, &mut output).unwrap());
    String::from_utf8(output).unwrap()
}

/// The DCF that is printed there is that of the trace and of salvage's sample; it is shown before and after the repair.
#[test]
fn the_guide_has_a_repair_in_words() {
    let guide = "docs/SALVAGE.md";
    let sample = root().join("crates/salvage");
    let [cut, new] = ["stdin", "stdout"].map(|name| fs::read(sample.join(name)).unwrap());
    assert_eq!(cut, printed(guide));
    assert_eq!(cut, gathered("cut-dcf"));
    quotes(guide, &dcf_in_words(&cut));
    quotes(guide, &dcf_in_words(&new));
}

/// The hex that a document echoes, and the row below it.
#[test]
fn the_frames_in_the_documents() {
    for document in ["README.md", "docs/TRACES.md"] {
        let text = text(&root().join(document));
        let (_, example) = text.split_once("echo '").unwrap();
        let (frame, _) = example.split_once("' | make -s display\n").unwrap();
        quotes(document, &shown(Notation::Frames, frame));
    }
}

#[test]
fn the_guide_has_every_refusal() {
    let guide = text(&root().join("docs/TRACES.md"));
    for number in 1..=11 {
        let refusal = Refusal::from_number(number).unwrap().to_string();
        let row = format!("\n| {} | ", refusal.replace(' ', " | "));
        assert!(guide.contains(&row), "{refusal}");
    }
}

/// Every line of the replay in traces/ can be shown, and each record but for gathers has its row.
#[test]
fn every_run() {
    let mut runs = 0;
    for file in fs::read_dir(root().join("traces")).unwrap() {
        let path = file.unwrap().path();
        if path
            .extension()
            .is_none_or(|extension| extension != "lines")
        {
            continue;
        }
        runs += 1;
        let lines = text(&path);
        let records = lines.lines().filter(|line| !line.contains(" 7 0 - - -"));
        let rows = shown(Notation::Replay, &lines);
        let mut numbers: Vec<_> = rows.lines().map(|row| row[..5].trim_start()).collect();
        numbers.dedup();
        assert!(numbers
            .into_iter()
            .eq(records.map(|line| line.split(' ').next().unwrap())));
    }
    assert!(runs > 1);
}

/// P6: a total of 2905 goes out as Initiate with data size 2901, Segment 1452 and Complete 1.
#[test]
fn a_long_write() {
    let picture = picture("long-write");
    let sent: Vec<_> = picture
        .lines()
        .filter(|row| row.contains("WriteByIndex"))
        .collect();
    let starts = [
        "  ask     to     5  WriteByIndex  Initiate   2100:01  1452 bytes  transaction   1  ",
        "  ask     to     5  WriteByIndex  Segment             1452 bytes  transaction   1  ",
        "  ask     to     5  WriteByIndex  Complete               1 byte   transaction   1  ",
    ];
    assert_eq!(sent.len(), starts.len());
    for (row, start) in sent.iter().zip(starts) {
        assert!(row[5..].starts_with(start), "{row}");
    }
    assert!(sent[0].contains("  data size 2901, data "));
    assert!(sent[0].ends_with(" and 1416 more"));
    assert!(picture.ends_with("  reply   end    5  Complete      1 delivered\n"));
}
