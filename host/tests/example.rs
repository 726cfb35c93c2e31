//! The example programs: one stops, saves its place, and goes on in another process; one writes T-13's problem.

use std::path::{Path, PathBuf};
use std::process::{Command, Output};

/// A folder of this test's own, gone when it ends.
struct Folder(PathBuf);

impl Folder {
    fn new(name: &str) -> Folder {
        let path = std::env::temp_dir().join(format!("{name}-{}", std::process::id()));
        std::fs::create_dir_all(&path).expect("a folder can be made");
        Folder(path)
    }
}

impl Drop for Folder {
    fn drop(&mut self) {
        let _ = std::fs::remove_dir_all(&self.0);
    }
}

/// cargo builds examples beside its tests.
fn program(name: &str) -> PathBuf {
    let test = std::env::current_exe().expect("a test has a path");
    let built = test
        .ancestors()
        .nth(2)
        .expect("it stands in deps/ of the folder of what is built");
    built.join("examples").join(name)
}

fn run(problem: &Path, saved: &Path, count: &str) -> Output {
    Command::new(program("stop_and_resume"))
        .args([problem.as_os_str(), saved.as_os_str(), count.as_ref()])
        .output()
        .expect("it starts; `cargo test --test example` alone does not build it, `cargo build --examples` does")
}

fn printed(output: &Output) -> String {
    assert!(output.status.success(), "{}", String::from_utf8_lossy(&output.stderr));
    String::from_utf8_lossy(&output.stdout).into_owned()
}

#[test]
fn it_stops_and_goes_on() {
    let folder = Folder::new("stop_and_resume");
    let (problem, saved) = (folder.0.join("problem"), folder.0.join("saved"));
    std::fs::write(&problem, [7, 0, 13, 6, 0, 5, 0, 5, 0, 1, 1, 1, 0, 2, 0, 5]).unwrap();
    assert_eq!(printed(&run(&problem, &saved, "0")), "stopped after 0\n");
    assert_eq!(
        printed(&run(&problem, &saved, "1")),
        "solution 1: ?0 is _, ?1 is s5\nstopped after 1\n"
    );
    assert_eq!(
        printed(&run(&problem, &saved, "5")),
        "solution 2: ?0 is s5, ?1 is open\nend 2\n"
    );
    assert_eq!(printed(&run(&problem, &saved, "5")), "end 2\n");
}

#[test]
fn it_tells_what_is_wrong_and_loses_nothing() {
    let folder = Folder::new("stop_and_resume_bad");
    let (problem, saved) = (folder.0.join("problem"), folder.0.join("saved"));
    std::fs::write(&problem, [7, 0, 1]).unwrap();
    std::fs::write(&saved, b"not a place").unwrap();
    let told = |count: &str| {
        let output = run(&problem, &saved, count);
        assert_eq!(output.status.code(), Some(1));
        assert!(output.stdout.is_empty());
        String::from_utf8_lossy(&output.stderr).into_owned()
    };
    assert!(told("1").contains("refused 3: a field's length goes past the enclosing end"));
    assert!(told("many").contains("COUNT is a number, not 'many'"));
    std::fs::write(&problem, []).unwrap();
    assert!(told("1").contains("a suspended search has 292 bytes"));
    assert_eq!(std::fs::read(&saved).unwrap(), b"not a place");
}

fn longest(arguments: &[&str]) -> Output {
    Command::new(program("longest"))
        .args(arguments)
        .output()
        .expect("it starts; `cargo test --test example` alone does not build it, `cargo build --examples` does")
}

#[test]
fn the_longest_problem_is_written_and_listed() {
    let folder = Folder::new("longest");
    let (problem, saved) = (folder.0.join("problem"), folder.0.join("saved"));
    let output = longest(&["2"]);
    assert!(output.status.success());
    let two = [7, 0, 16, 6, 0, 5, 0, 5, 0, 1, 1, 3, 0, 5, 1, 0, 2, 0, 0];
    assert_eq!(output.stdout, two);
    std::fs::write(&problem, output.stdout).unwrap();
    assert_eq!(
        printed(&run(&problem, &saved, "9")),
        "solution 1: ?0 is _, ?1 is (s0)\nsolution 2: ?0 is (_), ?1 is s0\nsolution 3: ?0 is (s0), ?1 is open\nend 3\n"
    );
}

#[test]
fn a_number_of_nodes_that_is_none_is_told() {
    let told = |arguments: &[&str]| {
        let output = longest(arguments);
        assert_eq!(output.status.code(), Some(1));
        assert!(output.stdout.is_empty());
        String::from_utf8_lossy(&output.stderr).into_owned()
    };
    assert_eq!(told(&[]), "longest: usage: longest NODES\n");
    for nodes in ["-1", "many", "4294967296"] {
        let told = told(&[nodes]);
        assert_eq!(
            told,
            format!("longest: NODES is a number from 1 to 256, not '{nodes}'\n")
        );
    }
    for nodes in ["0", "257"] {
        assert_eq!(
            told(&[nodes]),
            "longest: refused 28: the number of nodes is not from 1 to 256\n"
        );
    }
}
