//! Links the archive of proved code. It does not prove it: `rt lib` in crates/export does, and the gate runs that
//! first, so that a proof never hides in a build. An archive that is missing, or older than a source, is refused.

use std::path::{Path, PathBuf};
use std::time::SystemTime;

fn main() {
    let root = PathBuf::from(std::env::var("CARGO_MANIFEST_DIR").unwrap()).join("..");
    let folder = match std::env::var("EXPORT_LIB_DIR") {
        Ok(folder) => PathBuf::from(folder),
        Err(_) => root.join("crates/export/out"),
    };
    let archive = folder.join("libexport.a");
    println!("cargo:rerun-if-env-changed=EXPORT_LIB_DIR");
    println!("cargo:rerun-if-changed={}", archive.display());
    let Ok(made) = std::fs::metadata(&archive).and_then(|file| file.modified()) else {
        panic!("no {}: run `rt lib` in crates/export first", archive.display());
    };
    refuse_newer(&root.join("crates"), made);
    println!("cargo:rustc-link-search=native={}", folder.display());
    println!("cargo:rustc-link-lib=static=export");
}

fn refuse_newer(folder: &Path, made: SystemTime) {
    for entry in std::fs::read_dir(folder).unwrap() {
        let path = entry.unwrap().path();
        if path.is_dir() {
            // What rt makes stands in out/, and holds no source.
            if path.file_name().is_some_and(|name| name != "out") {
                println!("cargo:rerun-if-changed={}", path.display());
                refuse_newer(&path, made);
            }
        } else if path.extension().is_some_and(|extension| extension == "rt")
            && std::fs::metadata(&path).unwrap().modified().unwrap() > made
        {
            panic!("{} is newer than the archive: run `rt lib` in crates/export again", path.display());
        }
    }
}
