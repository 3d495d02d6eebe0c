//! Links the archive of the proved functions. `ZAHRUBEL_ARCHIVE` names it; without that it is
//! where the README has it made.

use std::env;
use std::path::{Path, PathBuf};

const DEFAULT: &str = "../target/native/libzahrubel.a";

fn main() {
    println!("cargo:rerun-if-env-changed=ZAHRUBEL_ARCHIVE");
    let archive = match env::var_os("ZAHRUBEL_ARCHIVE") {
        Some(named) => PathBuf::from(named),
        None => Path::new(env!("CARGO_MANIFEST_DIR")).join(DEFAULT),
    };
    println!("cargo:rerun-if-changed={}", archive.display());
    let folder = archive.parent().unwrap_or(Path::new("."));
    let name = archive.file_stem().and_then(|stem| stem.to_str());
    let Some(name) = name.and_then(|stem| stem.strip_prefix("lib")) else {
        fail(&archive, "is not called libNAME.a");
    };
    if !archive.is_file() {
        fail(&archive, "is not there: see host/README.md");
    }
    println!("cargo:rustc-link-search=native={}", folder.display());
    println!("cargo:rustc-link-lib=static={name}");
}

fn fail(archive: &Path, why: &str) -> ! {
    eprintln!("{} {why}", archive.display());
    std::process::exit(1)
}
