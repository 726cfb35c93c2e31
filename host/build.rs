//! Proves the matcher and links it: the repository's `tools/staticlib` writes the static library.
//!
//! What is proved stays where `rt` keeps it, in `out` of each crate, so that the builds of all profiles and programs share it.
//! Besides that, and `target/staticlib`, nothing is written into the repository.

use std::error::Error;
use std::fs::{self, File};
use std::io::{self, BufRead, BufReader, ErrorKind, Write};
use std::path::{Path, PathBuf};
use std::process::{Command, Stdio};

/// What a crate is made of.
const PARTS: [&str; 3] = ["src", "specs", "proofs"];

fn main() {
    if let Err(error) = build() {
        println!("cargo:warning=matcher: {error}");
        eprintln!("matcher: {error}");
        std::process::exit(1);
    }
}

fn build() -> Result<(), Box<dyn Error>> {
    let root = repository();
    prove(&root)?;
    watch(&root)?;
    let out = folder("OUT_DIR");
    let library = out.join("libtivagyesz.a");
    fs::copy(root.join("target/staticlib/libtivagyesz.a"), &library)?;
    println!("cargo:rustc-link-search=native={}", out.display());
    println!("cargo:rustc-link-lib=static=tivagyesz");
    // For the build scripts of crates that depend on this one.
    println!("cargo:library={}", library.display());
    Ok(())
}

/// A folder that cargo names.
fn folder(variable: &str) -> PathBuf {
    PathBuf::from(std::env::var_os(variable).expect("cargo sets it"))
}

/// The folder above this crate's.
fn repository() -> PathBuf {
    let own = folder("CARGO_MANIFEST_DIR");
    own.parent().expect("host/ stands in a folder").to_path_buf()
}

/// Has this run again when a source changes, and not when `rt` keeps something beside it.
fn watch(root: &Path) -> io::Result<()> {
    let again = |path: &Path| println!("cargo:rerun-if-changed={}", path.display());
    again(&root.join("crates.txt"));
    again(&root.join("tools/staticlib"));
    for entry in fs::read_dir(root.join("crates"))? {
        let folder = entry?.path();
        let parts = PARTS.map(|part| folder.join(part));
        parts.iter().filter(|part| part.is_dir()).for_each(|part| again(part));
    }
    Ok(())
}

/// Proves every crate that the library stands on, unless that is done, and writes `target/staticlib/libtivagyesz.a`.
fn prove(root: &Path) -> Result<(), Box<dyn Error>> {
    tell("matcher: proving the library, some minutes the first time");
    let (output, to) = io::pipe()?;
    let started = Command::new(root.join("tools/staticlib"))
        .stdin(Stdio::null())
        .stdout(to.try_clone()?)
        .stderr(to)
        .spawn();
    let mut running = started.map_err(|e| match e.kind() {
        ErrorKind::NotFound => format!("there is no tools/staticlib, or no bash, for {}", root.display()),
        _ => format!("tools/staticlib does not run: {e}"),
    })?;
    let said = follow(BufReader::new(output))?;
    if !running.wait()?.success() {
        eprint!("{said}");
        let last = said.lines().last().unwrap_or("it says nothing");
        return Err(format!("`tools/staticlib` failed: {last}").into());
    }
    Ok(())
}

/// All that the tool says; the lines that tell how far it is are told as they come.
fn follow(output: impl BufRead) -> io::Result<String> {
    let mut said = String::new();
    for line in output.split(b'\n') {
        let line = String::from_utf8_lossy(&line?).into_owned();
        if line.starts_with("rt: ") || line.starts_with("crate ") {
            tell(&line);
        }
        said += &line;
        said.push('\n');
    }
    Ok(said)
}

/// Says something on the terminal, if there is one: what a build script prints cargo keeps to itself.
fn tell(line: &str) {
    if let Ok(mut terminal) = File::options().write(true).open("/dev/tty") {
        let _ = writeln!(terminal, "{line}");
    }
}
