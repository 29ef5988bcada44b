//! What may befall files: missing, empty, unreadable, endless, a folder, a full
//! disk, two commands at once, a kill in the middle.

mod common;

use std::fs::{self, File, OpenOptions};
use std::io::{BufRead, BufReader};
use std::os::unix::fs::PermissionsExt;
use std::process::{self, Child, Stdio};
use std::thread::sleep;
use std::time::{Duration, Instant};

use common::{played, sample, Folder, Ran};
use danumrikal::{check, Edition, Pool};

/// Every command that reads `FILE`, in words.
const READERS: [(&str, &[&str]); 8] = [
    ("check", &["check", "FILE"]),
    ("report", &["report", "FILE"]),
    ("map", &["map", "FILE"]),
    ("take", &["take", "FILE", "8"]),
    ("give", &["give", "FILE", "32"]),
    ("convert", &["convert", "FILE", "-o", "out"]),
    ("mend", &["mend", "FILE", "-o", "out"]),
    ("accept", &["accept", "FILE", "FILE"]),
];

fn run_on(folder: &Folder, words: &[&str], file: &str) -> Ran {
    let named = |word: &&str| if *word == "FILE" { file } else { *word }.to_owned();
    let words: Vec<String> = words.iter().map(named).collect();
    let words: Vec<&str> = words.iter().map(String::as_str).collect();
    folder.run(&words)
}

#[test]
fn missing_and_folders() {
    let folder = Folder::new("missing");
    for (command, words) in READERS {
        let told = format!("{command} nowhere: No such file or directory");
        let advice = "look at the name and the folder";
        run_on(&folder, words, "nowhere").failed(3, &told, advice);
        let ran = run_on(&folder, words, ".");
        assert_eq!((ran.status, ran.out.as_str()), (Some(3), ""), "{ran:?}");
        assert!(
            ran.err
                .to_lowercase()
                .starts_with(&format!("danumrikal: {command} .: is a directory")),
            "{ran:?}"
        );
    }
    let told = "format no/where: No such file or directory";
    let advice = "look at the name and the folder";
    folder
        .run(&["format", "no/where", "--pages", "1"])
        .failed(3, told, advice);
    assert_eq!(folder.names(), [""; 0]);
}

#[test]
fn empty_and_endless() {
    let folder = Folder::new("empty");
    folder.write("empty", b"");
    let first = |ran: &Ran| ran.out.lines().next().unwrap_or_default().to_owned();
    for file in ["empty", "/dev/zero"] {
        for (command, words) in READERS {
            let ran = run_on(&folder, words, file);
            // a device is no file to change
            let changed = ["take", "give"].contains(&command) && file != "empty";
            let status = if changed { 3 } else { 1 };
            assert_eq!(ran.status, Some(status), "{command} {file}: {ran:?}");
        }
        assert_eq!(
            first(&run_on(&folder, &["check", "FILE"], file)),
            "broken: rule 1, header"
        );
    }
    folder.run(&["take", "/dev/zero", "8"]).failed(
        3,
        "take /dev/zero: it is a device or a pipe",
        "files that were there are as they were",
    );
    // a byte more than the longest pool
    let mut bytes = vec![0; Edition::Two.length(4_097)];
    assert!(Pool::new(&mut bytes[1..]).format(Edition::Two).is_ok());
    folder.write("longest", &bytes[1..]);
    folder
        .run(&["check", "longest"])
        .done("sound: 4096 pages, edition 2\n");
    folder.write("longer", &[&bytes[1..], &[0]].concat());
    assert_eq!(
        first(&folder.run(&["check", "longer"])),
        "broken: rule 1, header"
    );
}

#[test]
fn unreadable() {
    let folder = Folder::new("unreadable");
    // a file whose first byte nobody can read, not even the superuser
    let ran = folder.run(&["check", "/proc/self/mem"]);
    assert_eq!((ran.status, ran.out.as_str()), (Some(3), ""), "{ran:?}");
    assert!(
        ran.err.starts_with("danumrikal: check /proc/self/mem: "),
        "{ran:?}"
    );

    folder.write("secret", &sample(Edition::Two));
    let permissions = |mode| {
        let mode = fs::Permissions::from_mode(mode);
        fs::set_permissions(folder.path("secret"), mode).expect("permissions");
    };
    permissions(0o400);
    if OpenOptions::new()
        .write(true)
        .open(folder.path("secret"))
        .is_ok()
    {
        eprintln!("permissions are not tried: the superuser has them all");
        return;
    }
    let advice = "look at who may read and write the file and its folder";
    folder
        .run(&["take", "secret", "8"])
        .failed(3, "take secret: Permission denied", advice);
    permissions(0);
    folder
        .run(&["check", "secret"])
        .failed(3, "check secret: Permission denied", advice);
}

#[test]
fn standard_output_is_full() {
    let folder = Folder::new("full-output");
    folder.write("pool", &sample(Edition::Two));
    let full = "standard output: No space left on device";
    let room = "make room and try again; files that were there are as they were";
    for line in [
        "check pool",
        "report pool",
        "map pool",
        "--help",
        "take --help",
        "--version",
    ] {
        folder
            .shell(&format!("danumrikal {line} > /dev/full"))
            .failed(3, full, room);
    }
    // what was done is told all the same
    let advice = "the file was changed nevertheless, and the answer is: at 4168";
    folder
        .shell("danumrikal take pool 8 > /dev/full")
        .failed(3, full, advice);
    let advice = "the file was changed nevertheless, and the answer is: back 8, back 32";
    folder
        .shell("danumrikal give pool 4168 32 > /dev/full")
        .failed(3, full, advice);
    // a reader that has had enough is no failure
    folder.write("pool", &played(1, Edition::One, 500));
    folder
        .shell("danumrikal report pool --blocks | head -n 1")
        .done("pool 500\n");
}

#[test]
fn a_full_disk_loses_nothing() {
    let folder = Folder::new("full-disk");
    let bytes = sample(Edition::Two);
    folder.write("pool", &bytes);
    // a limit on the length of files, which any user may set
    let ran = folder.shell("trap '' XFSZ; ulimit -f 8; danumrikal take pool 8");
    assert_eq!((ran.status, ran.out.as_str()), (Some(3), ""), "{ran:?}");
    assert!(
        ran.err.starts_with("danumrikal: take pool: File too large"),
        "{ran:?}"
    );
    assert!(folder.read("pool") == bytes);
    assert_eq!(folder.names(), ["pool"]);
    // a small disk of our own, where the system lets us
    fs::create_dir(folder.path("disk")).expect("a folder");
    let ran = folder.shell(
        "unshare -rm sh -c '
            mount -t tmpfs -o size=64k none disk && cp pool disk || exit 77
            danumrikal take disk/pool 8
            echo status $?
            danumrikal format disk/new --pages 12
            echo status $?
            cmp pool disk/pool && ls disk'",
    );
    if ran.out.is_empty() {
        eprintln!("a small disk is not tried: {}", ran.err);
        return;
    }
    assert_eq!(ran.out, "status 3\nstatus 3\npool\n", "{ran:?}");
    let full = ": No space left on device\n  make room and try again";
    assert!(
        ran.err.contains(&format!("take disk/pool{full}")),
        "{ran:?}"
    );
    assert!(
        ran.err.contains(&format!("format disk/new{full}")),
        "{ran:?}"
    );
}

/// The command, started and not waited for.
fn start(folder: &Folder, words: &[&str]) -> Child {
    let mut command = folder.command(words);
    command
        .stdin(Stdio::null())
        .stdout(Stdio::piped())
        .stderr(Stdio::piped());
    command.spawn().expect("the program starts")
}

fn end(child: Child) -> Ran {
    Ran::of(child.wait_with_output().expect("it ends"))
}

#[test]
fn many_at_once_take_different_blocks() {
    let folder = Folder::new("at-once");
    let mut bytes = vec![0; Edition::Two.length(64)];
    Pool::new(&mut bytes)
        .format(Edition::Two)
        .expect("64 pages");
    folder.write("pool", &bytes);
    let takes: Vec<Child> = (0..12)
        .map(|_| start(&folder, &["take", "pool", "64"]))
        .collect();
    let mut told: Vec<String> = takes.into_iter().map(|take| end(take).out).collect();
    told.sort();
    let mut expected: Vec<String> = (0..12)
        .map(|chunk| format!("at {}\n", 64 * chunk))
        .collect();
    expected.sort();
    assert_eq!(told, expected);
    assert_eq!(check(&folder.read("pool")), Ok(()));
    assert_eq!(folder.names(), ["pool"]);
}

#[test]
fn one_format_of_many_makes_the_file() {
    let folder = Folder::new("formats");
    let formats = (1..=8).map(|pages| {
        let pages = pages.to_string();
        start(&folder, &["format", "pool", "--pages", &pages])
    });
    let formats: Vec<Child> = formats.collect();
    let ran: Vec<Ran> = formats.into_iter().map(end).collect();
    let done: Vec<&Ran> = ran.iter().filter(|ran| ran.status == Some(0)).collect();
    assert_eq!(done.len(), 1, "{ran:?}");
    let told = folder.run(&["check", "pool"]).out;
    assert_eq!(done[0].out, told.replace("sound", "formatted"));
    assert_eq!(folder.names(), ["pool"]);
}

#[test]
fn waiting_says_for_whom() {
    let folder = Folder::new("waiting");
    folder.write("pool", &sample(Edition::Two));
    let held = OpenOptions::new()
        .write(true)
        .open(folder.path("pool"))
        .expect("a file");
    held.lock().expect("the lock");
    let begin = Instant::now();
    let mut take = start(&folder, &["take", "pool", "8"]);
    let look = folder.run(&["check", "pool"]);
    look.done("sound: 12 pages, edition 2\n"); // looking waits for nobody
    let mut told = String::new();
    let err = take.stderr.as_mut().expect("a pipe");
    BufReader::new(err).read_line(&mut told).expect("a line");
    assert!(begin.elapsed() >= Duration::from_secs(1));
    drop(held);
    end(take).done("at 4168\n");
    let known = format!(
        "danumrikal: take pool: waiting for process {} (",
        process::id()
    );
    let unknown = "danumrikal: take pool: waiting for another process, which has its lock\n";
    assert!(told.starts_with(&known) || told == unknown, "{told}");
    assert!(told.ends_with(", which has its lock\n"), "{told}");
}

/// Who waited for the lock of a file that was replaced meanwhile goes on with the
/// new one.
#[test]
fn the_lock_is_that_of_the_file_of_this_name() {
    let folder = Folder::new("replaced");
    folder.write("pool", &sample(Edition::Two));
    let held = File::open(folder.path("pool")).expect("a file");
    held.lock().expect("the lock");
    let take = start(&folder, &["take", "pool", "8"]);
    sleep(Duration::from_millis(200));
    let mut other = vec![0; Edition::Two.length(1)];
    Pool::new(&mut other).format(Edition::Two).expect("a page");
    folder.write("other", &other);
    fs::rename(folder.path("other"), folder.path("pool")).expect("a new name");
    drop(held);
    assert_eq!(end(take).out, "at 64\n");
    Pool::new(&mut other).alloc(8).expect("room");
    assert!(folder.read("pool") == other);
}

#[test]
fn killed_in_the_middle_the_old_file_stays() {
    let folder = Folder::new("killed");
    let before = played(3, Edition::Two, 2_000);
    let mut after = before.clone();
    Pool::new(&mut after).alloc(8).expect("room");
    folder.write("pool", &before);
    // by the system, in the middle of the write
    let ran = folder.shell("ulimit -f 64; exec danumrikal take pool 8");
    assert_eq!((ran.status, ran.out.as_str()), (None, ""), "{ran:?}");
    assert!(folder.read("pool") == before);
    assert_eq!(folder.names().len(), 2, "the temporary file is left");
    // at any time
    let mut killed = 0;
    for pause in 0..24 {
        folder.write("pool", &before);
        let mut take = start(&folder, &["take", "pool", "8"]);
        sleep(Duration::from_millis(pause / 2));
        take.kill().expect("a signal");
        killed += usize::from(end(take).status.is_none());
        let found = folder.read("pool");
        assert!(found == before || found == after, "pause {pause}");
    }
    assert!(killed > 0, "all were done before");
}
