//! Reports: the lines of the proved program, both editions, all sizes, JSON.

mod common;

use std::fs::File;
use std::process::Command;

use common::{played, root, sample, Folder};
use danumrikal::{check, Edition};
use reference::layout::{ClassRecord, PageNo, PageRecord, CLASS_PAGE, FREE_FIRST, TAKEN_FIRST};
use reference::{live_blocks, peaks, Block, Class, Layout};

#[test]
fn the_printout_of_the_page() {
    let page = include_str!("../../../docs/REPORT.md");
    let (_, printout) = page.split_once("```text\n").expect("a printout");
    let (printout, _) = printout.split_once("```").expect("its end");
    let folder = Folder::new("report-page");
    folder.write("night.pool", &sample(Edition::One));
    folder
        .run(&["report", "night.pool", "--blocks"])
        .done(printout);
    let (short, _) = printout.split_once("block").expect("blocks");
    folder.run(&["report", "night.pool"]).done(short);
}

/// What the second program reads in the records of a sound pool.
fn expected(bytes: &[u8]) -> String {
    let layout = Layout::of(bytes).expect("a pool");
    let peaks = peaks(bytes);
    let page = |page| PageRecord::read(bytes, layout, PageNo(page));
    let edition = match peaks {
        Some(_) => " edition 2",
        None => "",
    };
    let mut lines = format!("pool {}{edition}\n", layout.pages);
    for class in Class::all() {
        let record = ClassRecord::read(bytes, layout, class);
        let of_class = |&at: &u32| {
            let page = page(at);
            page.kind == CLASS_PAGE && page.class == class.number()
        };
        lines += &format!(
            "class {} pages {} used {} total {} asks {} failures {}",
            class.chunk_size(),
            (0..layout.pages).filter(of_class).count(),
            record.used,
            record.total,
            record.reqs,
            record.fails
        );
        if let Some(peaks) = &peaks {
            lines += &format!(" peak {}", peaks[class.index()]);
        }
        lines += "\n";
    }
    for first in 0..layout.pages {
        let length = page(first).run;
        match page(first).kind {
            FREE_FIRST => lines += &format!("run free {first} {length}\n"),
            TAKEN_FIRST => lines += &format!("run taken {first} {length}\n"),
            _ => {}
        }
    }
    for (offset, block) in live_blocks(bytes).expect("a sound pool") {
        lines += &match block {
            Block::Chunk(class) => format!("block {offset} class {}\n", class.chunk_size()),
            Block::Run(pages) => format!("block {offset} pages {pages}\n"),
        };
    }
    lines
}

#[test]
fn pools_of_all_sizes_and_both_editions() {
    let folder = Folder::new("report-sizes");
    let small = (0..24).map(|seed| (seed, 1 + seed as usize % 12));
    let large = [(40, 64), (41, 255), (42, 1_000), (43, 4_096)];
    for (seed, pages) in small.chain(large) {
        for edition in [Edition::One, Edition::Two] {
            let bytes = played(seed, edition, pages);
            folder.write("pool", &bytes);
            let told = folder.run(&["report", "--blocks", "pool"]);
            told.done(&expected(&bytes));
            if edition == Edition::One && pages <= 12 {
                assert_eq!(told.out, proved(&folder), "seed {seed}");
            }
        }
    }
}

/// What the proved report program prints.
fn proved(folder: &Folder) -> String {
    let path = root().join("crates/pool_report/out/pool_report");
    let image = File::open(folder.path("pool")).expect("an image");
    let output = Command::new(&path).stdin(image).output();
    let output = output.unwrap_or_else(|error| {
        panic!(
            "{}: {error}: run `rt run` in crates/pool_report",
            path.display()
        );
    });
    String::from_utf8(output.stdout).expect("plain text")
}

#[test]
fn a_full_pool_of_the_largest_size() {
    let folder = Folder::new("report-full");
    let mut bytes = vec![0; Edition::Two.length(4_096)];
    reference::format(&mut bytes, 2).expect("4,096 pages");
    while reference::alloc_sound(&mut bytes, 8).is_ok() {}
    assert_eq!(check(&bytes), Ok(()));
    folder.write("pool", &bytes);
    let told = folder.run(&["report", "--blocks", "pool"]);
    assert_eq!(told.out.matches("\nblock").count(), 504 * 4_096);
    assert!(told
        .out
        .contains("class 8 pages 4096 used 2064384 total 2064384 "));
}

/// A report's lines in the words of its JSON, lists unnamed.
fn in_words_of_json(edition: Edition, text: &str) -> Vec<String> {
    let mut words = format!("sound true edition {}", edition.number());
    for line in text.lines() {
        let line: Vec<&str> = line.split(' ').collect();
        words += &match line.as_slice() {
            ["pool", pages, ..] => format!(" pages {pages}"),
            ["class", rest @ ..] => format!(" size {}", rest.join(" ")),
            ["run", kind, first, length] => format!(" kind {kind} first {first} length {length}"),
            ["block", rest @ ..] => format!(" offset {}", rest.join(" ")),
            other => panic!("{other:?}"),
        };
    }
    words.split(' ').map(str::to_owned).collect()
}

/// What is left of a text behind a value of JSON.
fn behind_value(text: &str) -> Option<&str> {
    let text = text.trim_start();
    let items = |mut rest: &'_ str, close: char, item: fn(&str) -> Option<&str>| {
        if let Some(rest) = rest.trim_start().strip_prefix(close) {
            return Some(rest.len());
        }
        loop {
            rest = item(rest)?.trim_start();
            match rest.strip_prefix(close) {
                Some(rest) => return Some(rest.len()),
                None => rest = rest.strip_prefix(',')?,
            }
        }
    };
    let left = match text.chars().next()? {
        '{' => items(&text[1..], '}', |text| {
            let name = text.trim_start().strip_prefix('"')?;
            behind_value(name.split_once('"')?.1.trim_start().strip_prefix(':')?)
        })?,
        '[' => items(&text[1..], ']', behind_value)?,
        '"' => text[1..].split_once('"')?.1.len(),
        _ => {
            let word = |c: char| c.is_ascii_alphanumeric();
            let rest = text.trim_start_matches(word);
            let value = &text[..text.len() - rest.len()];
            let number = value
                .parse::<u32>()
                .is_ok_and(|number| number.to_string() == value);
            (number || ["true", "false"].contains(&value)).then_some(rest.len())?
        }
    };
    Some(&text[text.len() - left..])
}

#[test]
fn json_has_the_same_facts() {
    let folder = Folder::new("report-json");
    for (seed, edition) in (0..12).flat_map(|seed| [(seed, Edition::One), (seed, Edition::Two)]) {
        folder.write("pool", &played(seed, edition, 1 + seed as usize));
        for blocks in [&["--blocks"][..], &[]] {
            let text = folder.run(&[&["report", "pool"], blocks].concat()).out;
            let json = folder.run(&[&["report", "pool", "--json"], blocks].concat());
            assert_eq!((json.status, json.err.as_str()), (Some(0), ""));
            assert_eq!(behind_value(&json.out), Some("\n"), "{}", json.out);
            let lists = ["", "classes", "runs", "blocks"];
            let words = json.out.split(|c| "{}[]\":, \n".contains(c));
            let words: Vec<&str> = words.filter(|word| !lists.contains(word)).collect();
            assert_eq!(words, in_words_of_json(edition, &text));
            assert_eq!(json.out.contains("\"blocks\": ["), !blocks.is_empty());
        }
    }
}

#[test]
fn a_pool_that_is_not_sound() {
    let folder = Folder::new("report-broken");
    let mut bytes = sample(Edition::Two);
    bytes[5] ^= 1; // its count of free pages
    folder.write("pool", &bytes);
    let told = "report pool: rule 6, counts: not sound (3)";
    let advice =
        "'danumrikal check' says which rule is broken, 'danumrikal mend' makes a sound copy";
    folder
        .run(&["report", "pool", "--blocks"])
        .failed(1, told, advice);
    let json = folder.run(&["report", "pool", "--json"]);
    assert_eq!(json.status, Some(1));
    assert_eq!(behind_value(&json.out), Some("\n"));
    assert_eq!(
        json.out,
        "{\n  \"sound\": false,\n  \"rule\": {\"number\": 6, \"name\": \"counts\"}\n}\n"
    );
    assert_eq!(json.err, format!("danumrikal: {told}\n  {advice}\n"));
}
