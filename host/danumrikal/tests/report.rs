//! The proved report program, run as a user runs it: the printout of
//! `docs/REPORT.md`, stated cases, and the second program's printout for images
//! that look random, sound ones and damaged ones.

use std::io::Write;
use std::path::{Path, PathBuf};
use std::process::{Command, Stdio};
use std::{fs, thread};

use danumrikal::{check, convert, Edition, Offset, Pool, Refusal};
use reference::{alloc, broken_rule, format, free, report};
use support::{offset, Habit, Rng, ONE, PER_PAGE, TWO};

const PAGE: &str = include_str!("../../../docs/REPORT.md");

/// The shortest image that is too long.
const TOO_LONG: usize = ONE.length(13);

fn root() -> PathBuf {
    Path::new(env!("CARGO_MANIFEST_DIR")).join("../..")
}

/// Runs the program on an image and answers what it printed.
fn program(image: &[u8]) -> Vec<u8> {
    let path = root().join("crates/pool_report/out/pool_report");
    assert!(
        path.exists(),
        "{} is missing: run `rt run` in crates/pool_report",
        path.display()
    );
    let mut child = Command::new(path)
        .stdin(Stdio::piped())
        .stdout(Stdio::piped())
        .spawn()
        .expect("the program starts");
    let mut stdin = child.stdin.take().expect("a pipe");
    let image = image.to_vec();
    // an image that is too long is not read to its end, and the pipe then breaks
    let feeder = thread::spawn(move || stdin.write_all(&image).is_ok());
    let output = child.wait_with_output().expect("the program ends");
    feeder.join().expect("the image was offered");
    assert!(output.status.success(), "{}", output.status);
    output.stdout
}

/// Both programs print this.
fn prints(image: &[u8], printout: &str) {
    assert_eq!(String::from_utf8_lossy(&program(image)), printout);
    assert_eq!(String::from_utf8_lossy(&report(image)), printout);
}

/// Both programs print the same.
fn alike(image: &[u8], what: &str) {
    assert_eq!(
        String::from_utf8_lossy(&program(image)),
        String::from_utf8_lossy(&report(image)),
        "{what}"
    );
}

/// The image whose printout stands in `docs/REPORT.md`.
fn sample() -> Vec<u8> {
    let mut bytes = vec![0; ONE.length(12)];
    let mut pool = Pool::new(&mut bytes);
    let at = |offset| Ok(Offset(offset));
    assert_eq!(pool.format(Edition::One), Ok(12));
    // a pool that is all one block has no room for a chunk
    assert_eq!(pool.alloc(49_152), at(0));
    assert_eq!(pool.alloc(16), Err(Refusal::NoRoom));
    assert_eq!(pool.free(Offset(0)), Ok(49_152));
    assert_eq!(pool.alloc(30), at(32));
    assert_eq!(pool.alloc(30), at(64));
    assert_eq!(pool.alloc(8), at(4_160));
    assert_eq!(pool.alloc(2_048), at(8_192));
    assert_eq!(pool.alloc(2_048), at(10_240));
    assert_eq!(pool.alloc(5_000), at(12_288));
    assert_eq!(pool.alloc(64), at(20_480));
    assert_eq!(pool.alloc(4_096), at(24_576));
    assert_eq!(pool.alloc(4_096), at(28_672));
    // the free runs are now pages 7 to 11 and page 5, in this order
    assert_eq!(pool.free(Offset(20_480)), Ok(64));
    assert_eq!(pool.free(Offset(28_672)), Ok(4_096));
    bytes
}

#[test]
fn the_printout_of_the_page_and_the_stored_case() {
    let printout = PAGE
        .split("```text\n")
        .nth(1)
        .and_then(|rest| rest.split("```").next())
        .expect("a printout");
    prints(&sample(), printout);
    let stored = root().join("crates/pool_report");
    assert!(fs::read(stored.join("stdin")).expect("an image") == sample());
    assert_eq!(
        fs::read_to_string(stored.join("stdout")).expect("a printout"),
        printout
    );
}

#[test]
fn a_fresh_pool_of_one_page() {
    let mut image = vec![0; ONE.shortest()];
    format(&mut image, 1).expect("one page");
    let classes: String = (3..12)
        .map(|shift| {
            format!(
                "class {} pages 0 used 0 total 0 asks 0 failures 0\n",
                1 << shift
            )
        })
        .collect();
    prints(&image, &format!("pool 1\n{classes}run free 0 1\n"));
}

#[test]
fn a_packed_page_reads_as_full() {
    for (class, chunks) in [504, 254, 127, 64, 32, 16, 8, 4, 2].into_iter().enumerate() {
        let size = 8 << class;
        let mut image = vec![0; ONE.shortest()];
        let mut pool = Pool::new(&mut image);
        pool.format(Edition::One).expect("one page");
        for _ in 0..chunks {
            pool.alloc(size).expect("a free chunk");
        }
        assert_eq!(pool.alloc(size), Err(Refusal::NoRoom));
        let line = format!(
            "class {size} pages 1 used {chunks} total {chunks} asks {} failures 1\n",
            chunks + 1
        );
        alike(&image, &line);
        assert!(
            String::from_utf8_lossy(&program(&image)).contains(&line),
            "{line}"
        );
    }
}

#[test]
fn lengths_that_hold_no_pool_of_twelve_pages() {
    let mut image = vec![0; TOO_LONG];
    format(&mut image, 1).expect("thirteen pages");
    prints(&image, "no 2\n");
    prints(&vec![0xff; 100_000], "no 2\n");
    // one byte less is a length of twelve pages, which the header then denies
    prints(&image[..TOO_LONG - 1], "1\n");
    prints(&image[..ONE.shortest() - 1], "1\n");
    prints(&[], "1\n");
    prints(&[1], "1\n");
}

#[test]
fn the_first_broken_rule_is_told_and_nothing_else() {
    let sound = sample();
    let damaged = |places: &[(usize, u8)]| {
        let mut image = sound.clone();
        for &(at, bits) in places {
            image[at] ^= bits;
        }
        image
    };
    let edition = (0, 3);
    let kind = (ONE.page_record_at(0) + 8, 0x80);
    let first_run = (7, 1);
    let first_page = (ONE.class_record_at(0) + 1, 1);
    let used = (ONE.class_record_at(0) + 4, 1);
    let mark = (ONE.page_at(12, 1) + 1, 0x80);
    prints(&damaged(&[edition]), "1\n");
    prints(&damaged(&[kind]), "2\n");
    prints(&damaged(&[first_run]), "3\n");
    prints(&damaged(&[first_page]), "4\n");
    prints(&damaged(&[mark]), "5\n");
    prints(&damaged(&[used]), "6\n");
    // rules are tried in order
    prints(&damaged(&[edition, kind, first_run]), "1\n");
    prints(&damaged(&[first_page, first_run]), "3\n");
    prints(&damaged(&[used, first_page]), "4\n");
}

/// The program stays with edition 1: another edition breaks rule 1 there,
/// whatever rules its records keep or break.
#[test]
fn an_image_of_edition_2_breaks_rule_1() {
    let mut image = vec![0; TWO.length(12)];
    assert_eq!(convert(&sample(), &mut image), Ok(12));
    assert_eq!(check(&image), Ok(()));
    prints(&image, "1\n");
    image[5] ^= 1; // its count of free pages
    assert_eq!(broken_rule(&image), 6);
    prints(&image, "1\n");
    for pages in 1..=12 {
        let mut image = vec![0; TWO.length(pages)];
        format(&mut image, 2).expect("a page or more");
        prints(&image, "1\n");
    }
    // an image of edition 1 with the other number
    let mut image = sample();
    image[0] = 2;
    prints(&image, "1\n");
    prints(&vec![2; TOO_LONG], "no 2\n");
}

#[test]
fn the_fullest_pool() {
    let mut image = vec![0; TOO_LONG - 1];
    format(&mut image, 1).expect("twelve pages");
    while alloc(&mut image, 8).is_ok() {}
    // asks and failures are whatever they are
    image[16..24].fill(0xff);
    let printed = report(&image);
    assert_eq!(
        printed
            .split(|&byte| byte == b'\n')
            .filter(|line| line.starts_with(b"block "))
            .count(),
        6_048
    );
    alike(&image, "6,048 blocks");
}

/// A sound image after a game on a pool of 1 to 12 pages.
fn image(seed: u64) -> Vec<u8> {
    let mut rng = Rng::new(seed);
    let habit = Habit::any(&mut rng);
    let pages = 1 + rng.below(12) as usize;
    let tail = rng.below(PER_PAGE as u64) as usize;
    let mut image = rng.bytes(ONE.length(pages) + tail);
    format(&mut image, 1).expect("a page or more");
    let mut live: Vec<u32> = Vec::new();
    for _ in 0..rng.below(600) {
        if rng.below(16) < habit.allocs {
            live.extend(alloc(&mut image, habit.size(&mut rng, pages)));
        } else if live.is_empty() {
            let _ = free(&mut image, offset(&mut rng, pages, None));
        } else {
            let one = rng.below(live.len() as u64) as usize;
            free(&mut image, live.swap_remove(one)).expect("a live block");
        }
    }
    assert_eq!(broken_rule(&image), 0);
    image
}

#[test]
fn images_that_look_random_print_what_the_second_program_prints() {
    for seed in 0..200 {
        alike(&image(seed), &format!("seed {seed}"));
    }
}

#[test]
fn damaged_images_print_what_the_second_program_prints() {
    let mut told = [0; 7];
    for seed in 0..400 {
        let mut rng = Rng::new(seed);
        let mut image = image(seed);
        let pages = (image.len() - ONE.head()) / PER_PAGE;
        match rng.below(16) {
            0 => image.truncate(rng.below(image.len() as u64 + 1) as usize),
            1 => image.resize(ONE.length(rng.below(16) as usize), 0),
            _ => {
                // a byte of header, records or the first maps
                let end = (ONE.page_at(pages, 0) + 64) as u64;
                let at = rng.below(end) as usize;
                image[at] ^= 1 << rng.below(8);
            }
        }
        told[broken_rule(&image) as usize] += 1;
        alike(&image, &format!("seed {seed}"));
    }
    // one bit seldom breaks rule 5 before another
    assert!(
        [0, 1, 2, 3, 4, 6].iter().all(|&rule| told[rule] > 0),
        "{told:?}"
    );
}
