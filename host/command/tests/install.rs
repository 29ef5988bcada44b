//! The installation, into a folder of the test's own, and a program in C that is
//! built with it.

mod common;

use std::fs;
use std::path::Path;
use std::process::Command;

use common::{root, Folder};

const NIGHT: &str = include_str!("../../../examples/night.stdout");

fn run(command: &mut Command) -> String {
    let output = command.output().expect("the program starts");
    let err = String::from_utf8_lossy(&output.stderr);
    assert!(output.status.success(), "{command:?}: {err}");
    String::from_utf8(output.stdout).expect("plain text")
}

/// What `pkg-config` says, or where it is missing what the file for it says.
fn flags(prefix: &Path) -> String {
    let folder = prefix.join("lib/pkgconfig");
    let mut tool = Command::new("pkg-config");
    tool.args(["--cflags", "--libs", "danumrikal"])
        .env("PKG_CONFIG_PATH", &folder);
    if tool.output().is_ok() {
        return run(&mut tool);
    }
    eprintln!("pkg-config is missing: its file is read here");
    let text = fs::read_to_string(folder.join("danumrikal.pc")).expect("a file");
    let field = |name: &str| {
        let line = text.lines().find_map(|line| line.strip_prefix(name));
        line.expect("a field").to_owned()
    };
    let all = format!("{} {}", field("Cflags: "), field("Libs: "));
    let all = all.replace("${includedir}", &field("includedir="));
    let all = all.replace("${libdir}", &field("libdir="));
    all.replace("${prefix}", &field("prefix="))
}

#[test]
fn a_program_in_c_with_what_is_installed() {
    let folder = Folder::new("install");
    let prefix = folder.path("prefix");
    run(Command::new(root().join("host/install")).arg(&prefix));
    let program = prefix.join("bin/danumrikal");
    let version = run(Command::new(program).arg("--version"));
    assert!(version.starts_with("danumrikal "), "{version}");
    assert!(prefix.join("share/man/man1/danumrikal.1").is_file());

    let night = folder.path("night");
    let flags = flags(&prefix);
    run(Command::new("cc")
        .args(["-std=c99", "-Wall", "-Wextra", "-Werror"])
        .arg(root().join("examples/night.c"))
        .args(flags.split_whitespace())
        .arg("-o")
        .arg(&night));
    assert_eq!(run(&mut Command::new(night)), NIGHT);
}

#[test]
fn wrong_usage() {
    for words in [&[][..], &["a", "b"], &[""], &["a b"]] {
        let ran = Command::new(root().join("host/install"))
            .args(words)
            .output();
        let ran = ran.expect("the program starts");
        assert_eq!(ran.status.code(), Some(2), "{words:?}");
        assert!(ran.stderr.starts_with(b"install: "), "{words:?}");
    }
}
