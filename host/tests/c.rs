//! Compiles the test in C over the header and the archive, and runs it.

use std::path::Path;
use std::process::Command;

#[test]
fn doors_from_c() {
    let package = Path::new(env!("CARGO_MANIFEST_DIR"));
    let program = Path::new(env!("CARGO_TARGET_TMPDIR")).join("door");
    let compiled = Command::new("cc")
        .args([
            "-std=c11",
            "-Wall",
            "-Wextra",
            "-Wpedantic",
            "-Werror",
            "-I",
        ])
        .arg(package.join("include"))
        .arg(package.join("tests/c/door.c"))
        .arg(env!("BOWUNTE_ARCHIVE"))
        .arg("-o")
        .arg(&program)
        .status()
        .expect("cc runs");
    assert!(compiled.success(), "cc refuses tests/c/door.c");
    let output = Command::new(&program).output().expect("the program runs");
    let told = String::from_utf8_lossy(&output.stdout);
    assert!(output.status.success(), "{}:\n{told}", output.status);
}
