//! Commands that write: format, take, give, convert, mend; and accept.

mod common;

use std::fs;
use std::os::unix::fs::{symlink, MetadataExt, PermissionsExt};

use common::{played, sample, Folder};
use danumrikal::{check, check_mended, convert, peaks, Edition, Pool};

const UNSOUND: &str =
    "'danumrikal check' says which rule is broken, 'danumrikal mend' makes a sound copy";
const BLOCKS: &str = "'danumrikal report --blocks' lists the blocks that can be given back";
const EXISTS: &str = "name another, or say --force to replace it";

#[test]
fn format_makes_what_the_call_makes() {
    let folder = Folder::new("format");
    folder
        .run(&["format", "a", "--pages", "12"])
        .done("formatted: 12 pages, edition 2\n");
    folder
        .run(&["format", "b", "--pages=1", "--edition", "1"])
        .done("formatted: 1 page, edition 1\n");
    folder
        .run(&["format", "--pages", "4096", "c"])
        .done("formatted: 4096 pages, edition 2\n");
    for (name, edition, pages) in [
        ("a", Edition::Two, 12),
        ("b", Edition::One, 1),
        ("c", Edition::Two, 4_096),
    ] {
        let mut bytes = vec![0; edition.length(pages)];
        Pool::new(&mut bytes)
            .format(edition)
            .expect("a pool's length");
        assert!(folder.read(name) == bytes, "{name}");
    }
}

#[test]
fn format_replaces_by_force_alone() {
    let folder = Folder::new("format-force");
    folder.write("a", b"a letter");
    folder
        .run(&["format", "a", "--pages", "2"])
        .failed(3, "format a: the file exists", EXISTS);
    assert_eq!(folder.read("a"), b"a letter");
    folder
        .run(&["format", "a", "--pages", "2", "--force"])
        .done("formatted: 2 pages, edition 2\n");
    assert_eq!(check(&folder.read("a")), Ok(()));
    // a link to nowhere is something too
    symlink("nowhere", folder.path("link")).expect("a link");
    folder.run(&["format", "link", "--pages", "2"]).failed(
        3,
        "format link: the file exists",
        EXISTS,
    );
    let nowhere = "format link: No such file or directory";
    let advice = "look at the name and the folder";
    folder
        .run(&["format", "link", "--pages", "2", "--force"])
        .failed(3, nowhere, advice);
    assert_eq!(folder.names(), ["a", "link"]);
}

#[test]
fn format_is_refused() {
    let folder = Folder::new("format-refused");
    for (pages, told, advice) in [
        ("0", "too short (1)", "a pool has at least 1 page"),
        ("4097", "too long (2)", "a pool has at most 4096 pages"),
        (
            "4294967295",
            "too long (2)",
            "a pool has at most 4096 pages",
        ),
    ] {
        let told = format!("format a --pages {pages}: {told}");
        folder
            .run(&["format", "a", "--pages", pages])
            .failed(1, &told, advice);
    }
    assert_eq!(folder.names(), [""; 0]);
}

#[test]
fn takes_and_gives_are_the_calls() {
    let folder = Folder::new("take");
    for edition in [Edition::One, Edition::Two] {
        let mut bytes = sample(edition);
        folder.write("pool", &bytes);
        let mut offsets = Vec::new();
        for size in [1, 30, 2_048, 2_049, 8_192] {
            let offset = Pool::new(&mut bytes).alloc(size).expect("room");
            let size = size.to_string();
            folder
                .run(&["take", "pool", &size])
                .done(&format!("at {offset}\n"));
            assert!(folder.read("pool") == bytes);
            offsets.push(offset);
        }
        let back = offsets
            .iter()
            .map(|offset| Pool::new(&mut bytes).free(*offset));
        let back: String = back
            .map(|bytes| format!("back {}\n", bytes.expect("a block")))
            .collect();
        let offsets: Vec<String> = offsets.iter().map(|offset| offset.to_string()).collect();
        let words = ["give", "pool"]
            .into_iter()
            .chain(offsets.iter().map(String::as_str));
        folder.run(&words.collect::<Vec<_>>()).done(&back);
        assert!(folder.read("pool") == bytes);
    }
    assert_eq!(folder.names(), ["pool"]);
}

#[test]
fn a_refused_take_writes_nothing() {
    let folder = Folder::new("take-refused");
    let mut bytes = vec![0; Edition::Two.length(1)];
    let mut pool = Pool::new(&mut bytes);
    pool.format(Edition::Two).expect("a page");
    pool.alloc(4_096).expect("room");
    folder.write("pool", &bytes);
    let room = "give blocks back or ask for less; 'danumrikal map' shows what is free";
    for (size, told, advice) in [
        ("8", "no room (4)", room),
        ("4294967295", "no room (4)", room),
        ("0", "nothing asked (10)", "ask for 1 byte or more"),
    ] {
        let told = format!("take pool {size}: {told}");
        folder.run(&["take", "pool", size]).failed(1, &told, advice);
        assert!(folder.read("pool") == bytes);
    }
    bytes[5] ^= 1;
    folder.write("pool", &bytes);
    folder
        .run(&["take", "pool", "8"])
        .failed(1, "take pool 8: not sound (3)", UNSOUND);
    folder
        .run(&["give", "pool", "0"])
        .failed(1, "give pool 0: not sound (3)", UNSOUND);
    assert!(folder.read("pool") == bytes);
    assert_eq!(folder.names(), ["pool"]);
}

#[test]
fn gives_are_all_or_none() {
    let folder = Folder::new("give-refused");
    let bytes = sample(Edition::Two);
    folder.write("pool", &bytes);
    for (offsets, told, advice) in [
        (&["96"][..], "96: not taken (6)", BLOCKS),
        (&["0"], "0: not a start (7)", BLOCKS),
        (&["16384"], "16384: not a start (7)", BLOCKS),
        (
            &["49152"],
            "49152: outside (5)",
            "offsets count from the first page and end with the last",
        ),
        (
            &["32", "12288", "33", "4160"],
            "33, number 3 of 4, nothing is given back: not a start (7)",
            BLOCKS,
        ),
        (
            &["12288", "12288"],
            "12288, number 2 of 2, nothing is given back: not taken (6)",
            BLOCKS,
        ),
    ] {
        let words = [&["give", "pool"], offsets].concat();
        folder
            .run(&words)
            .failed(1, &format!("give pool {told}"), advice);
        assert!(folder.read("pool") == bytes, "{told}");
    }
    assert_eq!(folder.names(), ["pool"]);
}

#[test]
fn a_file_keeps_its_link_its_owner_and_its_permissions() {
    let folder = Folder::new("keeps");
    folder.write("night.pool", &sample(Edition::Two));
    let permissions = fs::Permissions::from_mode(0o640);
    fs::set_permissions(folder.path("night.pool"), permissions).expect("permissions");
    symlink("night.pool", folder.path("link")).expect("a link");
    let before = fs::metadata(folder.path("night.pool")).expect("a file");
    folder.run(&["take", "link", "8"]).done("at 4168\n");
    let after = fs::metadata(folder.path("night.pool")).expect("a file");
    assert_eq!(after.mode(), before.mode());
    assert_eq!((after.uid(), after.gid()), (before.uid(), before.gid()));
    let link = folder.path("link").symlink_metadata().expect("a link");
    assert!(link.is_symlink());
    assert_eq!(folder.names(), ["link", "night.pool"]);
}

#[test]
fn convert_keeps_all_and_the_tail() {
    let folder = Folder::new("convert");
    for seed in 0..6 {
        let pages = 1 + 3 * seed as usize;
        let old = played(seed, Edition::One, pages);
        let tail = &old[Edition::One.length(pages)..];
        folder.write("old", &old);
        let s = if pages == 1 { "" } else { "s" };
        let told = format!("converted: {pages} page{s}, edition 2\n");
        folder
            .run(&["convert", "old", "-o", "new", "--force"])
            .done(&told);
        let mut expected = vec![0; Edition::Two.length(pages)];
        assert_eq!(convert(&old, &mut expected), Ok(pages as u32));
        expected.extend(tail);
        assert!(folder.read("new") == expected);
        assert!(folder.read("old") == old);
        assert!(peaks(&expected).is_some());
    }
}

#[test]
fn convert_is_refused() {
    let folder = Folder::new("convert-refused");
    folder.write("two", &sample(Edition::Two));
    let mut broken = sample(Edition::One);
    broken[5] ^= 1;
    folder.write("broken", &broken);
    let already = "it is of edition 2 already, and edition 1 alone is converted";
    folder
        .run(&["convert", "two", "-o", "new"])
        .failed(1, "convert two: not sound (3)", already);
    folder.run(&["convert", "broken", "-o", "new"]).failed(
        1,
        "convert broken: not sound (3)",
        UNSOUND,
    );
    folder.write("one", &sample(Edition::One));
    folder
        .run(&["convert", "one", "-o", "two"])
        .failed(3, "convert two: the file exists", EXISTS);
    assert_eq!(folder.names(), ["broken", "one", "two"]);
}

#[test]
fn mend_and_accept() {
    let folder = Folder::new("mend");
    let sound = sample(Edition::Two);
    let mut damaged = sound.clone();
    damaged[4..8].fill(0xff);
    folder.write("damaged", &damaged);
    folder
        .run(&["mend", "damaged", "-o", "copy"])
        .done("mended: 12 pages\n");
    assert_eq!(check_mended(&damaged, &folder.read("copy")), Ok(()));
    assert!(folder.read("damaged") == damaged);
    folder
        .run(&["accept", "damaged", "copy"])
        .done("accepted\n");

    let accept = |first: &str, second: &str, told: &str, advice: &str| {
        let told = format!("accept {first} {second}: {told}");
        folder
            .run(&["accept", first, second])
            .failed(1, &told, advice);
    };
    accept("damaged", "damaged", "not sound (3)", UNSOUND);
    folder.run(&["take", "copy", "8"]).done("at 4168\n");
    accept(
        "damaged",
        "copy",
        "other blocks (14)",
        "make the copy anew with 'danumrikal mend'",
    );
    folder.write("short", &sound[1..]);
    let lengths = "the two files must be as long as each other, and of one edition";
    accept("damaged", "short", "wrong length (12)", lengths);
    damaged[3] = 11;
    folder.write("beyond", &damaged);
    let older = "what tells the blocks in use is damaged too: go back to an older copy";
    accept("beyond", "copy", "beyond mending (13)", older);
    let told = "mend beyond: beyond mending (13)";
    folder
        .run(&["mend", "beyond", "-o", "new"])
        .failed(1, told, older);
    folder
        .run(&["mend", "damaged", "-o", "copy"])
        .failed(3, "mend copy: the file exists", EXISTS);
    folder
        .run(&["mend", "damaged", "-o", "copy", "--force"])
        .done("mended: 12 pages\n");
    assert_eq!(folder.names(), ["beyond", "copy", "damaged", "short"]);
}

/// What is read stays, whatever is forced.
#[test]
fn one_file_is_not_both() {
    let folder = Folder::new("one-file");
    let damaged = sample(Edition::One);
    folder.write("pool", &damaged);
    symlink("pool", folder.path("link")).expect("a link");
    for (command, what) in [("mend", "DAMAGED"), ("convert", "IN")] {
        for out in ["pool", "./pool", "link"] {
            let told = format!("{command}: {what} and OUT are one file, and {what} stays as it is");
            let advice = format!("'danumrikal {command} --help' says how it goes");
            folder
                .run(&[command, "pool", "-o", out, "--force"])
                .failed(2, &told, &advice);
        }
    }
    assert!(folder.read("pool") == damaged);
}
