//! Writes the files that the repository keeps for its programs.

use std::path::Path;

fn main() -> std::io::Result<()> {
    let root = Path::new(env!("CARGO_MANIFEST_DIR")).join("..");
    for stored in reference::stored::all() {
        std::fs::write(root.join(&stored.path), stored.bytes)?;
    }
    Ok(())
}
