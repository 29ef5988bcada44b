//! Help, version, the page of the manual, and words that are no command.

mod common;

use common::{Folder, Ran};

const COMMANDS: [&str; 10] = [
    "check", "report", "map", "format", "take", "give", "convert", "mend", "accept", "script",
];
const PAGE: &str = include_str!("../danumrikal.1");

fn run(words: &[&str]) -> Ran {
    Folder::new(&format!("usage-{}", std::process::id())).run(words)
}

#[test]
fn help_of_all_and_of_each() {
    let folder = Folder::new("usage-help");
    let all = folder.run(&["--help"]);
    assert!(
        all.out.starts_with("usage: danumrikal COMMAND .."),
        "{all:?}"
    );
    folder.run(&["-h"]).done(&all.out);
    folder.run(&["help"]).done(&all.out);
    for command in COMMANDS {
        assert!(all.out.contains(&format!("\n  {command} ")), "{command}");
        let help = folder.run(&[command, "--help"]);
        assert!(
            help.out
                .starts_with(&format!("usage: danumrikal {command} ")),
            "{help:?}"
        );
        folder.run(&[command, "-h", "whatever"]).done(&help.out);
        let longest = help.out.lines().map(str::len).max();
        assert!(longest <= Some(84), "{command}");
    }
}

#[test]
fn the_page_has_every_command_and_option() {
    for command in COMMANDS {
        assert!(PAGE.contains(&format!("\n.It Cm {command} ")), "{command}");
        let help = run(&[command, "--help"]).out;
        let options = help.split_whitespace().filter_map(|word| {
            let word = word.trim_matches(|c: char| !c.is_ascii_alphanumeric() && c != '-');
            word.strip_prefix('-').filter(|rest| !rest.is_empty())
        });
        for option in options {
            let found = PAGE.contains(&format!("Fl {option}"));
            assert!(found, "{command}: -{option}");
        }
    }
}

#[test]
fn the_version() {
    let version = format!(
        "danumrikal {}, for pools of editions 1 and 2\n",
        env!("CARGO_PKG_VERSION")
    );
    let folder = Folder::new("usage-version");
    folder.run(&["--version"]).done(&version);
    folder.run(&["-V"]).done(&version);
}

#[test]
fn words_that_are_no_command() {
    let folder = Folder::new("usage-wrong");
    let general = "'danumrikal --help' says how it goes";
    folder.run(&[]).failed(2, "no command is named", general);
    folder
        .run(&["chekc"])
        .failed(2, "there is no command 'chekc'", general);
    folder
        .run(&["--colour"])
        .failed(2, "there is no command '--colour'", general);
    for (words, told) in [
        (&["check"][..], "FILE is missing"),
        (&["check", "a", "b"], "'b' is too much"),
        (&["check", "--fast", "a"], "there is no option '--fast'"),
        (&["report"], "FILE is missing"),
        (&["report", "a", "--xml"], "there is no option '--xml'"),
        (&["map", "a", "--svg"], "--svg lacks its value"),
        (
            &["map", "a", "--color", "red"],
            "--color is none of auto, always, never",
        ),
        (
            &["map", "a", "--width", "wide"],
            "--width is 'wide', which is no number from 0 to 4294967295",
        ),
        (&["format", "a"], "--pages is missing"),
        (&["format", "--pages", "2"], "FILE is missing"),
        (
            &["format", "a", "--pages", "2", "--pages=3"],
            "--pages is said twice",
        ),
        (
            &["format", "a", "--pages", "-2"],
            "--pages is '-2', which is no number from 0 to 4294967295",
        ),
        (
            &["format", "a", "--pages", "2", "--edition", "3"],
            "--edition is neither 1 nor 2",
        ),
        (
            &["format", "a", "--pages", "2", "--edition", "258"],
            "--edition is neither 1 nor 2",
        ),
        (&["take", "a"], "SIZE is missing"),
        (
            &["take", "a", "x"],
            "SIZE is 'x', which is no number from 0 to 4294967295",
        ),
        (
            &["take", "a", "+8"],
            "SIZE is '+8', which is no number from 0 to 4294967295",
        ),
        (
            &["take", "a", ""],
            "SIZE is '', which is no number from 0 to 4294967295",
        ),
        (
            &["take", "a", "4294967296"],
            "SIZE is '4294967296', which is no number from 0 to 4294967295",
        ),
        (&["take", "a", "8", "8"], "'8' is too much"),
        (&["give", "a"], "OFFSET is missing"),
        (
            &["give", "a", "0", "0x20"],
            "OFFSET is '0x20', which is no number from 0 to 4294967295",
        ),
        (&["convert", "a"], "-o OUT is missing"),
        (&["convert", "-o", "b"], "IN is missing"),
        (&["mend", "a"], "-o OUT is missing"),
        (&["mend", "-o", "b"], "DAMAGED is missing"),
        (&["accept", "a"], "MENDED is missing"),
        (&["accept", "a", "b", "c"], "'c' is too much"),
        (&["script", "a", "b"], "'b' is too much"),
    ] {
        let command = words[0];
        let advice = format!("'danumrikal {command} --help' says how it goes");
        folder
            .run(words)
            .failed(2, &format!("{command}: {told}"), &advice);
    }
    assert_eq!(folder.names(), [""; 0]);
}

#[test]
fn names_that_begin_with_a_dash() {
    let folder = Folder::new("usage-dash");
    folder
        .run(&["format", "--pages", "1", "--", "--force"])
        .done("formatted: 1 page, edition 2\n");
    folder
        .run(&["check", "--", "--force"])
        .done("sound: 1 page, edition 2\n");
    assert_eq!(folder.names(), ["--force"]);
}
