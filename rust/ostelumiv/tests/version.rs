//! One version for everything: that of these crates is the header's and the README's, and has a
//! chapter in the list of changes.

const VERSION: &str = env!("CARGO_PKG_VERSION");

#[test]
fn the_header_has_it() {
    let header = include_str!("../../../include/ostelumiv.h");
    assert!(header.starts_with(&format!("/* Ostelumiv {VERSION}: ")));
    assert!(header.contains(&format!("\n#define OSTELUMIV_VERSION \"{VERSION}\"\n")));
}

#[test]
fn the_documents_have_it() {
    let readme = include_str!("../../../README.md");
    assert!(readme.contains(&format!("\nVersion {VERSION}. ")));
    let changes = include_str!("../../../CHANGELOG.md");
    assert!(changes.contains(&format!("\n## {VERSION}")));
}
