//! Writes every stored file of `stored` below the repository's root, or below
//! the folder named on the command line. The same files come out each time.

use riptide_reference::stored;
use std::fs;
use std::path::PathBuf;

fn main() -> std::io::Result<()> {
    let named = std::env::args_os().nth(1).map(PathBuf::from);
    let root = named.unwrap_or_else(|| concat!(env!("CARGO_MANIFEST_DIR"), "/../..").into());
    for (path, contents) in stored::files() {
        println!("{path}: {} bytes", contents.len());
        let path = root.join(path);
        fs::create_dir_all(path.parent().expect("a file is in a folder"))?;
        fs::write(path, contents)?;
    }
    Ok(())
}
