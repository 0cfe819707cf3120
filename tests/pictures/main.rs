//! Draws the pictures of docs/pictures again. Use: pictures ROOT

use forkhemit_tests::pictures;
use std::fs;
use std::path::PathBuf;

fn main() -> std::io::Result<()> {
    let root = std::env::args().nth(1).map(PathBuf::from).expect("use: pictures ROOT");
    for (file, picture) in pictures::all(&root)? {
        fs::write(root.join(file), picture)?;
    }
    Ok(())
}
