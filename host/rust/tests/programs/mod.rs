//! C programs of host/c, compiled and linked with the archive of the register, and what README.md
//! shows of them.

use std::fs;
use std::path::{Path, PathBuf};
use std::process::Command;

/// A file of the folder host of the repository.
pub fn host(file: &str) -> PathBuf {
    Path::new(env!("CARGO_MANIFEST_DIR")).join("..").join(file)
}

/// Where a test may write. Tests run at the same time, so each names its own file there.
pub fn scratch(name: &str) -> PathBuf {
    Path::new(env!("CARGO_TARGET_TMPDIR")).join(name)
}

/// Runs a command to its end, which must be a good one, and gives what it wrote to standard
/// output.
pub fn run(command: &mut Command) -> String {
    let output = command.output().expect("the command is installed");
    let errors = String::from_utf8_lossy(&output.stderr);
    assert!(output.status.success(), "{command:?}: {errors}");
    String::from_utf8(output.stdout).expect("text")
}

/// Compiles host/c/`name`.c with every warning an error.
pub fn compile(name: &str) -> PathBuf {
    let (source, program) = (host(&format!("c/{name}.c")), scratch(name));
    let mut compiler = Command::new("cc");
    compiler.args("-std=c11 -O2 -Wall -Wextra -Wpedantic -Werror -I".split(' '));
    compiler.args([&host("include"), Path::new("-o"), &program, &source]);
    compiler.arg(env!("YLGRANDI_ARCHIVE"));
    run(&mut compiler);
    program
}

/// The one block in a language that README.md has in its section on C, Rust and other languages.
pub fn readme_block(language: &str) -> String {
    let readme = fs::read_to_string(host("../README.md")).expect("it is there");
    let (_, section) = readme
        .split_once("\n## Use it from C, Rust or another language\n")
        .expect("the README has the section");
    let (section, _) = section.split_once("\n## ").unwrap_or((section, ""));
    let fence = format!("\n```{language}\n");
    let (_, from) = section.split_once(&fence).expect("there is such a block");
    let (block, rest) = from.split_once("```\n").expect("the block ends");
    assert!(!rest.contains(&fence), "there are two blocks of {language}");
    block.to_owned()
}
