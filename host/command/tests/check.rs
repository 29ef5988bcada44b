//! Checks: sound pools, and the rule and the place of broken ones.

mod common;

use common::{played, sample, Folder};
use danumrikal::{check, mend, Edition, Rule};
use support::{Rng, HEADER};

#[test]
fn sound_pools() {
    let folder = Folder::new("check-sound");
    for (edition, pages, told) in [
        (Edition::One, 1, "sound: 1 page, edition 1\n"),
        (Edition::Two, 12, "sound: 12 pages, edition 2\n"),
        (Edition::Two, 4_096, "sound: 4096 pages, edition 2\n"),
    ] {
        folder.write("pool", &played(1, edition, pages));
        folder.run(&["check", "pool"]).done(told);
    }
}

/// A damage by name: bytes written at a place, the rule's line, and what is told
/// of it.
const DAMAGES: [(&str, usize, &[u8], &str, &str); 13] = [
    (
        "edition",
        0,
        &[3],
        "rule 1, header",
        "header begins with 3, which is no edition",
    ),
    (
        "shifts",
        1,
        &[0x3b],
        "rule 1, header",
        "header has other shifts than 3 and 12",
    ),
    (
        "page count",
        3,
        &[11],
        "rule 1, header",
        "header says 11 pages, and the file has room for 12",
    ),
    (
        "kind",
        224 + 8,
        &[0xff],
        "rule 2, pages, at page 0",
        "page 0 is of kind 7, and there is none",
    ),
    (
        "run length",
        224 + 16 * 3 + 10,
        &[1],
        "rule 2, pages, at page 3",
        "page 3 begins a taken run of no page",
    ),
    (
        "leads back",
        224 + 16 * 11 + 8 + 6,
        &[0xff],
        "rule 2, pages, at page 11",
        "page 11 has previous page 127, and should have page 7",
    ),
    (
        "first free run",
        6,
        &[0, 9],
        "rule 3, free-run list, at header",
        "header leads to page 9, which is no first page of a free run",
    ),
    (
        "end of the list",
        6,
        &[0xff, 0xff],
        "rule 3, free-run list, at page 5",
        "page 5 is a first page of a free run that is not on the list",
    ),
    (
        "first page of a class",
        HEADER,
        &[0xff, 0xff],
        "rule 4, class lists, at page 1",
        "page 1 is a page of class 8 with a free chunk that is not on the list",
    ),
    (
        "first page past the last",
        HEADER + 24 * 8,
        &[0, 200],
        "rule 4, class lists, at class 2048",
        "class 2048 leads to page 200 of 12",
    ),
    (
        "free pages",
        4,
        &[0, 7],
        "rule 6, counts, at header",
        "header says 7 free pages, and 6 can be counted",
    ),
    (
        "used",
        HEADER + 24 * 2 + 2,
        &[0, 0, 9],
        "rule 6, counts, at class 32",
        "class 32 says 9 chunks in use, and 2 can be counted",
    ),
    (
        "peak",
        HEADER + 24 * 2 + 16,
        &[0, 0, 1],
        "rule 6, counts, at class 32",
        "class 32 has the peak 1, and 2 chunks are in use",
    ),
];

#[test]
fn broken_pools_by_rule_and_place() {
    let folder = Folder::new("check-broken");
    for (name, at, written, rule, found) in DAMAGES {
        let mut bytes = sample(Edition::Two);
        bytes[at..at + written.len()].copy_from_slice(written);
        folder.write("pool", &bytes);
        let told = folder.run(&["check", "pool"]);
        assert_eq!((told.status, told.err.as_str()), (Some(1), ""), "{name}");
        let lines: Vec<&str> = told.out.lines().collect();
        assert_eq!(lines[0], format!("broken: {rule}"), "{name}");
        assert_eq!(lines[1], format!("  found: {found}"), "{name}");
        assert!(lines[lines.len() - 2].starts_with("  asked: "), "{name}");
        let mendable = mend(&bytes, &mut vec![0; bytes.len()]).is_ok();
        let on = match mendable {
            true => "  go on: danumrikal mend pool -o NEW, which makes a sound copy",
            false => "  go on: with an older copy, this one is beyond mending (13)",
        };
        assert_eq!(lines[lines.len() - 1], on, "{name}");
    }
}

#[test]
fn lengths_that_are_no_pools() {
    let folder = Folder::new("check-lengths");
    let most = Edition::Two.length(4_097);
    for (bytes, found) in [
        (vec![], "header is missing: the file is empty"),
        (
            vec![1],
            "header says edition 1, where a page needs 4264 bytes, and the file has 1",
        ),
        (
            vec![2; most],
            "header says edition 2, where a pool has at most 16847087 bytes, and the file has more",
        ),
        (
            b"#!/bin/sh".to_vec(),
            "header begins with 35, which is no edition",
        ),
    ] {
        folder.write("pool", &bytes);
        let told = folder.run(&["check", "pool"]).out;
        let start = format!("broken: rule 1, header\n  found: {found}\n  asked: ");
        assert!(told.starts_with(&start), "{told}");
    }
}

#[test]
fn the_next_command_can_be_copied() {
    let folder = Folder::new("check-quoted");
    let mut bytes = sample(Edition::Two);
    bytes[5] ^= 1;
    for (name, quoted) in [
        ("a/b_1-2.pool", "a/b_1-2.pool"),
        ("a/last night's", r"'a/last night'\''s'"),
    ] {
        std::fs::create_dir_all(folder.path("a")).expect("a folder");
        folder.write(name, &bytes);
        let told = folder.run(&["check", name]).out;
        let next =
            format!("\n  go on: danumrikal mend {quoted} -o NEW, which makes a sound copy\n");
        assert!(told.ends_with(&next), "{told}");
        let line = format!("danumrikal mend {quoted} -o a/new --force");
        folder.shell(&line).done("mended: 12 pages\n");
    }
}

/// Rule 5 needs more than one damage: an idle page, its counts in order.
#[test]
fn a_class_page_without_a_chunk_in_use() {
    let folder = Folder::new("check-idle");
    let mut bytes = sample(Edition::Two);
    let map = Edition::Two.length(0) + 16 * 12 + 4_096;
    assert_eq!(bytes[map..map + 2], [0xff, 0x80]);
    bytes[map + 1] = 0;
    folder.write("pool", &bytes);
    let told = folder.run(&["check", "pool"]);
    assert!(told.out.starts_with("broken: rule 5, in use, at page 1\n  found: page 1 is a class page without a chunk in use\n"), "{}", told.out);
}

/// Whatever rule is broken from the second on, its place is found.
#[test]
fn every_broken_rule_has_a_place() {
    let folder = Folder::new("check-places");
    let mut told = [0; 7];
    for seed in 0..120 {
        let mut rng = Rng::new(seed);
        let edition = [Edition::One, Edition::Two][seed as usize % 2];
        let mut bytes = played(seed, edition, 1 + seed as usize % 16);
        let pages = 1 + seed as usize % 16;
        let end = edition.length(0) + 16 * pages + 64;
        for _ in 0..1 + rng.below(2) {
            bytes[8 + rng.below(end as u64 - 8) as usize] ^= 1 << rng.below(8);
        }
        let rule = check(&bytes).err().map_or(0, Rule::number);
        told[usize::from(rule)] += 1;
        folder.write("pool", &bytes);
        let ran = folder.run(&["check", "pool"]);
        assert_eq!(ran.status, Some(i32::from(rule > 0)), "seed {seed}");
        let place = ran.out.lines().next().expect("a line").contains(", at ");
        assert_eq!(place, rule > 1, "seed {seed}: {}", ran.out);
        let drawn = folder.run(&["map", "pool"]);
        assert_eq!(drawn.status, ran.status, "seed {seed}: {drawn:?}");
    }
    assert!(
        [0, 2, 3, 4, 6].iter().all(|&rule| told[rule] > 0),
        "{told:?}"
    );
}
