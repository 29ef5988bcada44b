//! Scripts: what the proved script program prints.

mod common;

use std::fs::File;
use std::process::{Command, Stdio};

use common::{root, Folder};
use support::{Habit, Rng, UNREADABLE};

/// What the proved program prints for the script in a file.
fn proved(folder: &Folder) -> String {
    let path = root().join("crates/pool_main/out/pool_main");
    let script = File::open(folder.path("script")).expect("a script");
    let output = Command::new(&path).stdin(script).output();
    let output = output.unwrap_or_else(|error| {
        panic!(
            "{}: {error}: run `rt run` in crates/pool_main",
            path.display()
        );
    });
    String::from_utf8(output.stdout).expect("plain text")
}

fn alike(folder: &Folder, script: &[u8]) {
    folder.write("script", script);
    let told = folder.run(&["script", "script"]);
    assert_eq!(
        told.out,
        proved(folder),
        "{}",
        String::from_utf8_lossy(script)
    );
    assert_eq!(told.status, Some(0));
    let script = File::open(folder.path("script")).expect("a script");
    let mut command = folder.command(&["script"]);
    let output = command.stdin(script).output().expect("the program starts");
    assert_eq!(String::from_utf8_lossy(&output.stdout), told.out);
}

#[test]
fn the_worked_case() {
    let folder = Folder::new("script-case");
    let case = std::fs::read(root().join("crates/pool_main/stdin")).expect("a script");
    folder.write("script", &case);
    folder
        .run(&["script", "script"])
        .done("pool 12\nat 32\nat 4096\nat 8192\nback 32\nno 6\nno 10\nfree 9 runs 2\n");
    alike(&folder, &case);
}

#[test]
fn lines_of_all_forms() {
    let folder = Folder::new("script-lines");
    let served = [
        "",
        "\n",
        "\n\n",
        "take 8",
        "take 8\n\n",
        "give 0",
        "take 0",
        "take 4294967295",
        "take 49152",
        "take 49153",
    ];
    let forms = [&served, UNREADABLE].concat();
    for form in &forms {
        alike(&folder, form.as_bytes());
    }
    alike(&folder, b"take \xff\ntake 8\n");
    alike(&folder, forms.join("\n").as_bytes());
}

#[test]
fn scripts_that_look_random() {
    let folder = Folder::new("script-random");
    for seed in 0..30 {
        let mut rng = Rng::new(seed);
        let habit = Habit::any(&mut rng);
        let mut script = String::new();
        for _ in 0..rng.below(900) {
            if rng.below(16) < habit.allocs {
                script += &format!("take {}\n", habit.size(&mut rng, 12));
            } else {
                script += &format!("give {}\n", 8 * rng.below(6_200));
            }
        }
        script.truncate(12_288);
        alike(&folder, script.as_bytes());
    }
}

#[test]
fn a_script_that_is_too_long() {
    let folder = Folder::new("script-long");
    alike(&folder, &[b'\n'; 12_288]);
    folder.write("script", &[b'\n'; 12_289]);
    let told = folder.run(&["script", "script"]);
    assert_eq!((told.status, told.out.as_str()), (Some(1), "no 9\n"));
    assert_eq!(
        told.err,
        "danumrikal: script: script too long (9)\n  cut it: a script has at most 12288 bytes\n"
    );
    assert_eq!(proved(&folder), told.out);
    // one without end is not read to it
    let endless = File::open("/dev/zero").expect("a device");
    let mut command = folder.command(&["script"]);
    let output = command.stdin(Stdio::from(endless)).output();
    assert_eq!(output.expect("the program starts").stdout, b"no 9\n");
}

#[test]
fn a_script_that_is_not_there() {
    let folder = Folder::new("script-missing");
    folder.run(&["script", "nowhere"]).failed(
        3,
        "script nowhere: No such file or directory",
        "look at the name and the folder",
    );
    folder
        .run(&["script", "."])
        .failed(3, "script .: Is a directory", "name a file in it");
}
