//! The examples in C and in Rust, and the C header, as a newcomer would build
//! and run them. The README's examples in Rust run with the documentation's.

use std::fs;
use std::path::{Path, PathBuf};
use std::process::Command;

const NIGHT: &str = include_str!("../../../examples/night.stdout");
const POWER_LOSS: &str = include_str!("../../../examples/power_loss.stdout");
const PANEL: &str = include_str!("../../../examples/panel.stdout");
const LEAP_SECONDS: &str = include_str!("../../../examples/leap_seconds.stdout");
const README: &str = include_str!("../../../README.md");

/// As strictly as compilers can.
const WARNINGS: [&str; 4] = ["-Wall", "-Wextra", "-Werror", "-pedantic"];

fn root() -> PathBuf {
    Path::new(env!("CARGO_MANIFEST_DIR")).join("../..")
}

/// A file that tests may write.
fn scratch(name: &str) -> PathBuf {
    Path::new(env!("CARGO_TARGET_TMPDIR")).join(name)
}

/// Runs a command and answers what it printed.
fn run(command: &mut Command) -> String {
    let output = command.output().expect("the program starts");
    let printed = String::from_utf8_lossy(&output.stdout).into_owned();
    assert!(
        output.status.success(),
        "{command:?}: {}\n{printed}{}",
        output.status,
        String::from_utf8_lossy(&output.stderr)
    );
    printed
}

/// Builds a program of one file with a compiler and its language, and runs it.
fn build_and_run(compiler: &[&str], source: &Path, name: &str) -> String {
    let program = scratch(name);
    run(Command::new(compiler[0])
        .args(&compiler[1..])
        .args(WARNINGS)
        .arg("-I")
        .arg(root().join("include"))
        .arg(source)
        .args(["-x", "none"])
        .arg(root().join("crates/danumrikal/out/libdanumrikal.a"))
        .arg("-o")
        .arg(&program));
    run(&mut Command::new(program))
}

const C: [&str; 2] = ["cc", "-std=c99"];

/// What an example in Rust prints.
fn example(name: &str) -> String {
    let mut cargo = Command::new(env!("CARGO"));
    cargo.args(["run", "--quiet", "--offline", "--example", name]);
    if !cfg!(debug_assertions) {
        cargo.arg("--release"); // as this test was built, so that nothing is built twice
    }
    run(cargo.current_dir(env!("CARGO_MANIFEST_DIR")))
}

#[test]
fn the_night_in_c() {
    let source = root().join("examples/night.c");
    assert_eq!(build_and_run(&C, &source, "night"), NIGHT);
}

#[test]
fn the_night_in_rust() {
    assert_eq!(example("night"), NIGHT);
}

#[test]
fn the_panel_in_c() {
    let source = root().join("examples/panel.c");
    assert_eq!(build_and_run(&C, &source, "panel"), PANEL);
}

#[test]
fn the_panel_in_rust() {
    assert_eq!(example("panel"), PANEL);
}

#[test]
fn the_power_loss_in_c() {
    let source = root().join("examples/power_loss.c");
    assert_eq!(build_and_run(&C, &source, "power_loss"), POWER_LOSS);
}

#[test]
fn the_leap_seconds_in_c() {
    let source = root().join("examples/leap_seconds.c");
    assert_eq!(build_and_run(&C, &source, "leap_seconds"), LEAP_SECONDS);
}

#[test]
fn the_leap_seconds_in_rust() {
    assert_eq!(example("leap_seconds"), LEAP_SECONDS);
}

#[test]
fn the_readme_in_c() {
    let (_, after) = README.split_once("```c\n").expect("an example in C");
    let (example, _) = after.split_once("```\n").expect("its end");
    let source = scratch("readme.c");
    fs::write(&source, example).expect("a file is written");
    assert_eq!(
        build_and_run(&C, &source, "readme"),
        "32 back, then not taken (6)\n"
    );
}

#[test]
fn the_header_says_what_the_archive_answers() {
    let source = root().join("host/danumrikal/tests/header.c");
    assert_eq!(build_and_run(&C, &source, "header"), "");
    // the tests must not need a compiler for C++
    if Command::new("c++").arg("--version").output().is_ok() {
        let cpp = ["c++", "-std=c++11", "-x", "c++"];
        assert_eq!(build_and_run(&cpp, &source, "header-cpp"), "");
    }
}
