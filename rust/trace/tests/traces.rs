//! The files in traces/: document 01's run as text and as records, every text taken, with lines
//! beside it that are as many as its records, and the guide's quotes of them.

use std::fs;
use std::path::{Path, PathBuf};

fn root() -> PathBuf {
    Path::new(env!("CARGO_MANIFEST_DIR")).join("../..")
}

fn text(path: &Path) -> String {
    fs::read_to_string(path).unwrap_or_else(|error| panic!("{}: {error}", path.display()))
}

/// The texts in traces/.
fn texts() -> Vec<PathBuf> {
    let files = fs::read_dir(root().join("traces")).unwrap();
    let mut texts: Vec<_> = files.map(|file| file.unwrap().path()).collect();
    texts.retain(|path| path.extension().is_some_and(|extension| extension == "txt"));
    assert!(texts.len() > 1);
    texts
}

#[test]
fn document_01s_run() {
    let records = fs::read(root().join("traces/document01.trace")).unwrap();
    assert_eq!(records.len(), 160);
    let lines = text(&root().join("traces/document01.txt"));
    assert_eq!(trace::write(lines.as_bytes()), Ok(records));
}

#[test]
fn every_text_is_taken_and_has_a_line_a_record() {
    for path in texts() {
        let trace = trace::write(text(&path).as_bytes());
        let trace = trace.unwrap_or_else(|bad| panic!("{}: {bad:?}", path.display()));
        let lines = text(&path.with_extension("lines"));
        let records = trace.chunks(32);
        let name = path.display();
        assert_eq!(lines.lines().count(), records.len(), "{name}");
        // Number and operation begin each line.
        for (place, (line, record)) in lines.lines().zip(records).enumerate() {
            let start = match record.len() {
                32 => format!("{} {} ", place + 1, record[0]),
                _ => format!("{} - 11 ", place + 1),
            };
            assert!(line.starts_with(&start), "{name}: {line}");
        }
    }
}

#[test]
fn the_guide_quotes_them() {
    let guide = text(&root().join("docs/TRACES.md"));
    for name in ["document01", "dcf", "timeout"] {
        for extension in ["txt", "lines"] {
            let file = root().join("traces").join(name).with_extension(extension);
            for line in text(&file).lines() {
                let quoted = line.is_empty() || guide.contains(&format!("\n    {line}\n"));
                assert!(quoted || line.starts_with('#'), "{name}: {line}");
            }
        }
    }
}
