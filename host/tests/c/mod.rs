//! C programs over the headers and the archive: compiled with every warning an error, and run.
#![allow(dead_code)] // no test needs all of it

use second::compare::run_program;
use std::fs;
use std::path::{Path, PathBuf};

pub const C: &str = "gcc -std=c11";
pub const CPP: &str = "g++ -std=c++11 -x c++";

/// The archive that the crate is linked with.
fn archive() -> PathBuf {
    match std::env::var_os("ZAHRUBEL_ARCHIVE") {
        Some(named) => PathBuf::from(named),
        None => Path::new(env!("CARGO_MANIFEST_DIR")).join("../target/native/libzahrubel.a"),
    }
}

/// Compiles a source of this folder. Tests run beside each other, so each names its program.
pub fn compiled(compiler: &str, source: &str, name: &str) -> String {
    let source = Path::new(env!("CARGO_MANIFEST_DIR"))
        .join("tests")
        .join(source);
    compiled_at(compiler, &source, name)
}

/// Compiles a text.
pub fn compiled_text(compiler: &str, text: &str, name: &str) -> String {
    let source = Path::new(env!("CARGO_TARGET_TMPDIR")).join(format!("{name}.c"));
    fs::write(&source, text).expect("the folder for tests can be written");
    compiled_at(compiler, &source, name)
}

fn compiled_at(compiler: &str, source: &Path, name: &str) -> String {
    let program = Path::new(env!("CARGO_TARGET_TMPDIR")).join(name);
    let flags = "-Wall -Wextra -Wpedantic -Werror -O1 -pthread";
    let mut command = split(compiler);
    command.extend(split(flags));
    let include = Path::new(env!("CARGO_MANIFEST_DIR")).join("../include");
    let shown = |path: &Path| path.display().to_string();
    command.extend(["-I".to_string(), shown(&include), shown(source)]);
    // What comes behind the source is no source in any language.
    command.extend(split("-x none"));
    command.extend([shown(&archive()), "-o".to_string(), shown(&program)]);
    let compiled = run_program(&command, Vec::new(), usize::MAX).expect("the compiler is there");
    assert!(compiled.status.success(), "{}", command.join(" "));
    shown(&program)
}

fn split(words: &str) -> Vec<String> {
    words.split(' ').map(str::to_string).collect()
}

/// Whether there is such a compiler: C++ is not asked for.
pub fn is_there(compiler: &str) -> bool {
    let name = compiler.split(' ').next().unwrap_or_default();
    let asked = run_program(&split(&format!("{name} --version")), Vec::new(), usize::MAX);
    asked.is_ok_and(|ran| ran.status.success())
}

/// What a program says to an input.
pub fn said(program: &str, input: Vec<u8>) -> String {
    let ran = run_program(&[program.to_string()], input, usize::MAX).expect("it runs");
    assert!(ran.status.success(), "{program}: {}", ran.status);
    String::from_utf8(ran.output).expect("plain text")
}
