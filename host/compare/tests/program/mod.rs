//! The program `vectors_texts`, proved and run.

use std::io::Write;
use std::path::{Path, PathBuf};
use std::process::{Command, Stdio};

/// Proves the program, unless that is done, and says where it is. `rt` runs it too, here on no input.
pub fn proved() -> PathBuf {
    let folder = Path::new(env!("CARGO_MANIFEST_DIR")).join("../../crates/vectors_texts");
    let ran = Command::new("rt")
        .arg("run")
        .current_dir(&folder)
        .stdin(Stdio::null())
        .output()
        .unwrap_or_else(|e| panic!("the Rattle toolchain is needed to build the program, and `rt` does not run: {e}"));
    assert!(
        ran.status.success(),
        "`rt run` in crates/vectors_texts failed:\n{}{}",
        String::from_utf8_lossy(&ran.stdout),
        String::from_utf8_lossy(&ran.stderr)
    );
    folder.join("out/vectors_texts")
}

/// What the program prints. The input is written by another thread, so that neither pipe can block the other.
pub fn run(program: &Path, input: &str) -> String {
    let mut process = Command::new(program)
        .stdin(Stdio::piped())
        .stdout(Stdio::piped())
        .spawn()
        .unwrap_or_else(|e| panic!("{}: {e}", program.display()));
    let mut to = process.stdin.take().expect("a pipe");
    let output = std::thread::scope(|scope| {
        scope.spawn(move || to.write_all(input.as_bytes()).expect("it reads its input"));
        process.wait_with_output().expect("it ends")
    });
    assert!(output.status.success(), "the program failed: {}", output.status);
    String::from_utf8(output.stdout).expect("it prints text")
}
