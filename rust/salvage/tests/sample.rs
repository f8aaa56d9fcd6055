//! The sample: what stands in the folder of salvages is what the repository says now; it is small, and
//! has DCFs of the lengths at which the answer changes.

#![cfg(has_oracle)]

use salvage_oracle::{batch, sample};
use std::fs;
use std::path::Path;

/// `salvage_oracle sample crates` writes them anew.
#[test]
fn the_files_are_those_that_stand_here() {
    let folder = Path::new(env!("CARGO_MANIFEST_DIR")).join("../../crates");
    for (name, bytes) in sample::files().0 {
        let found = fs::read(folder.join(name)).unwrap();
        assert!(found == bytes, "{name} is not what the oracle says now");
    }
}

#[test]
fn it_is_small_and_has_the_edges() {
    let ([_, (_, input)], count) = sample::files();
    let dcfs = batch::dcfs(&input).unwrap();
    assert_eq!(dcfs.len(), count);
    assert!((1_500..1_600).contains(&count), "{count} DCFs");
    assert!(input.len() < 200_000, "{} bytes", input.len());
    for edge in [0, 3, 4, 4_096, 4_097] {
        assert!(dcfs.iter().any(|dcf| dcf.len() == edge), "{edge}");
    }
}
