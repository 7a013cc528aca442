//! The files that the repository keeps for its programs are those that are computed here.

use std::path::Path;

#[test]
fn stored_files() {
    let root = Path::new(env!("CARGO_MANIFEST_DIR")).join("..");
    for stored in reference::stored::all() {
        let there = std::fs::read(root.join(&stored.path)).unwrap_or_default();
        assert!(there == stored.bytes, "{} is not what `store` writes", stored.path);
    }
}
