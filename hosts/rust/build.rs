//! Links the archive that `tools/library` writes. `RIPTIDE_LIB` names its folder, if it is another than the
//! repository's `target/staticlib`.

use std::path::{Path, PathBuf};

fn main() {
    println!("cargo:rerun-if-env-changed=RIPTIDE_LIB");
    let usual = Path::new(env!("CARGO_MANIFEST_DIR")).join("../../target/staticlib");
    let folder = std::env::var_os("RIPTIDE_LIB").map_or(usual, PathBuf::from);
    let archive = folder.join("libriptide.a");
    println!("cargo:rerun-if-changed={}", archive.display());
    let Ok(archive) = archive.canonicalize() else {
        eprintln!("there is no {}", archive.display());
        eprintln!("`tools/library` in the repository's root writes it; or name its folder in RIPTIDE_LIB");
        std::process::exit(1);
    };
    let folder = archive.parent().expect("a file is in a folder");
    println!("cargo:rustc-link-search=native={}", folder.display());
    println!("cargo:rustc-link-lib=static=riptide");
    println!("cargo:rustc-env=RIPTIDE_ARCHIVE={}", archive.display());
}
