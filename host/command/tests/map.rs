//! Pictures: in characters, in colours, as a sheet.

mod common;

use common::{played, sample, Folder, Ran};
use danumrikal::{Edition, Pool};

/// The picture of the sample.
const PICTURE: &str = "\
night.pool: sound: 12 pages, edition 2

   0   32-  8- 2k#[2=====].1..[1=].5..................

    .n..  free: 6 pages in 2 runs, the longest 5
    [n=]  taken: 3 pages in 2 runs, the longest 2
      8-  8 bytes: 1 page, 1 of 504 chunks in use
     32-  32 bytes: 1 page, 2 of 127 chunks in use
     2k#  2048 bytes: 1 page, 2 of 2 chunks in use
  chunks in use: - under a quarter, + under a half, * half or more, # full
";

fn night(name: &str) -> Folder {
    let folder = Folder::new(name);
    folder.write("night.pool", &sample(Edition::Two));
    folder
}

#[test]
fn a_small_pool() {
    let folder = night("map-small");
    folder.run(&["map", "night.pool"]).done(PICTURE);
    folder
        .run(&["map", "night.pool", "--color", "never"])
        .done(PICTURE);
    let narrow = folder.run(&["map", "night.pool", "--width=40"]).out;
    assert!(
        narrow.contains("\n   0   32-  8- 2k#[2=====].1..[1=].5..\n   8  ................\n"),
        "{narrow}"
    );
    // never less than a page a row
    let thin = folder.run(&["map", "night.pool", "--width", "0"]).out;
    assert!(thin.contains("\n   3  [2==\n   4  ===]\n"), "{thin}");
}

/// A text without its colours.
fn bare(text: &str) -> String {
    let mut parts = text.split('\x1b');
    let first = parts.next().unwrap_or_default().to_owned();
    parts.fold(first, |all, part| {
        all + part.split_once('m').expect("the end of a colour").1
    })
}

#[test]
fn colours_say_the_same() {
    let folder = night("map-color");
    let painted = folder.run(&["map", "night.pool", "--color=always"]);
    assert!(painted.out.contains('\x1b'));
    assert_eq!(bare(&painted.out), PICTURE);
}

/// Under a terminal of its own, where `script` of util-linux can make one.
fn on_a_terminal(folder: &Folder, before: &str) -> Option<Ran> {
    let line = format!("{before} script -qec 'danumrikal map night.pool' /dev/null < /dev/null");
    let ran = folder.shell(&line);
    if ran.status != Some(0) {
        eprintln!("not tried on a terminal: {}", ran.err);
        return None;
    }
    Some(ran)
}

#[test]
fn colours_on_a_terminal_alone() {
    let folder = night("map-terminal");
    if let Some(ran) = on_a_terminal(&folder, "TERM=xterm-256color") {
        assert_eq!(bare(&ran.out).replace('\r', ""), PICTURE);
        assert!(ran.out.contains('\x1b'));
    }
    for plain in ["TERM=xterm-256color NO_COLOR=1", "TERM=dumb"] {
        if let Some(ran) = on_a_terminal(&folder, plain) {
            assert_eq!(ran.out.replace('\r', ""), PICTURE);
        }
    }
    let narrow = folder.shell("COLUMNS=40 danumrikal map night.pool").out;
    assert!(narrow.contains("\n   8  ................\n"), "{narrow}");
}

#[test]
fn a_large_pool_has_a_character_a_page() {
    let folder = Folder::new("map-large");
    let mut bytes = vec![0; Edition::Two.length(300)];
    let mut pool = Pool::new(&mut bytes);
    pool.format(Edition::Two).expect("300 pages");
    // page by page: a page of 8 bytes, runs of 1, 2, 3 and 57 pages up to a row's end
    for (size, count) in [
        (8, 1),
        (4_096, 1),
        (8_192, 1),
        (12_288, 1),
        (57 * 4_096, 1),
        (2_048, 3),
    ] {
        for _ in 0..count {
            pool.alloc(size).expect("room");
        }
    }
    folder.write("pool", &bytes);
    let picture = folder.run(&["map", "pool"]).out;
    let rows: Vec<&str> = picture.lines().skip(2).take(5).collect();
    assert_eq!(
        rows[0],
        format!("   0  -|[][3][57{}]", "=".repeat(53))
            .get(..70)
            .expect("a row")
    );
    assert!(rows[1].starts_with("  64  "), "{picture}");
    assert!(rows[1].ends_with(".".repeat(40).as_str()), "{picture}");
    assert_eq!(rows[4], format!(" 256  {}", ".".repeat(44)));
    assert!(
        picture.contains("| [] [n]  taken: 63 pages in 4 runs, the longest 57\n"),
        "{picture}"
    );
    assert!(
        picture.contains("       *  2048 bytes: 2 pages, 3 of 4 chunks in use\n"),
        "{picture}"
    );
}

/// A run's number is never cut by a row's end.
#[test]
fn numbers_stand_whole() {
    let folder = Folder::new("map-numbers");
    let mut bytes = vec![0; Edition::One.length(300)];
    let mut pool = Pool::new(&mut bytes);
    pool.format(Edition::One).expect("300 pages");
    pool.alloc(62 * 4_096).expect("room");
    folder.write("pool", &bytes);
    let picture = folder.run(&["map", "pool"]).out;
    let rows: Vec<&str> = picture.lines().skip(2).take(2).collect();
    assert_eq!(
        rows,
        [
            format!("   0  [62{}]..", "=".repeat(58)),
            format!("  64  238{}", ".".repeat(61))
        ]
    );
}

#[test]
fn every_page_has_its_cell() {
    let folder = Folder::new("map-cells");
    for (seed, pages) in [(1, 12), (2, 100), (3, 256), (4, 257), (5, 4_096)] {
        folder.write("pool", &played(seed, Edition::Two, pages));
        for width in ["20", "80", "200"] {
            let picture = folder.run(&["map", "pool", "--width", width]).out;
            let rows = picture.lines().skip(2).take_while(|line| !line.is_empty());
            let cells: usize = rows.map(|row| row.len() - 6).sum();
            assert_eq!(
                cells,
                if pages > 256 { pages } else { 4 * pages },
                "{pages} pages"
            );
        }
    }
}

#[test]
fn a_broken_pool_is_drawn_as_it_stands() {
    let folder = Folder::new("map-broken");
    let mut bytes = sample(Edition::Two);
    bytes[6..8].fill(0xff);
    folder.write("night.pool", &bytes);
    let picture = folder.run(&["map", "night.pool"]);
    assert_eq!((picture.status, picture.err.as_str()), (Some(1), ""));
    assert!(
        picture.out.starts_with(
            "\
night.pool: broken: rule 3, free-run list, at page 5
  found: page 5 is a first page of a free run that is not on the list
  asked: the list of free runs holds each of them once, and links lead back

   0   32-  8- 2k#[2=====].1..[1=].5..................
                          ^^^^ page 5
"
        ),
        "{}",
        picture.out
    );
    let painted = folder.run(&["map", "night.pool", "--color=always"]).out;
    assert_eq!(bare(&painted), picture.out);
}

#[test]
fn pages_that_are_nothing() {
    let folder = Folder::new("map-odd");
    let mut bytes = sample(Edition::Two);
    bytes[224 + 16 * 3 + 8] |= 0xe0;
    folder.write("pool", &bytes);
    let picture = folder.run(&["map", "pool"]).out;
    assert!(picture.contains("2k#????[1=].1.."), "{picture}");
    assert!(
        picture.contains("    ????  unreadable: 1 page\n"),
        "{picture}"
    );
    // where no record can lie there is no picture
    folder.write("pool", b"no pool");
    let picture = folder.run(&["map", "pool"]);
    assert_eq!(picture.status, Some(1));
    assert!(
        picture
            .out
            .starts_with("pool: broken: rule 1, header\n  found: header begins with 110"),
        "{picture:?}"
    );
    assert_eq!(picture.out.lines().count(), 3);
}

#[test]
fn a_sheet() {
    let folder = Folder::new("map-sheet");
    for (name, bytes, status) in [
        ("small", sample(Edition::Two), 0),
        ("middle", played(2, Edition::One, 700), 0),
        ("large", played(5, Edition::Two, 4_096), 0),
        ("broken", [&[1], &sample(Edition::Two)[1..]].concat(), 1),
        ("a<b>&c\u{1}", b"no pool".to_vec(), 1),
    ] {
        folder.write(name, &bytes);
        let out = format!("{name}.svg");
        let ran = folder.run(&["map", name, "--svg", &out]);
        assert_eq!((ran.status, ran.err.as_str()), (Some(status), ""), "{name}");
        assert_eq!(
            ran.out,
            folder
                .run(&["check", name])
                .out
                .lines()
                .next()
                .expect("a line")
                .to_owned()
                + "\n"
        );
        let sheet = String::from_utf8(folder.read(&out)).expect("text");
        assert!(
            sheet.starts_with("<svg xmlns=\"http://www.w3.org/2000/svg\" "),
            "{name}"
        );
        balanced(&sheet);
    }
    let sheet = String::from_utf8(folder.read("small.svg")).expect("text");
    for part in [
        ">small</text>",
        ">sound: 12 pages, edition 2</text>",
        "<title>pages 3 to 4: taken as one block</title>",
        "<title>page 0: 32 bytes, 2 of 127 chunks in use</title>",
        ">free: 6 pages in 2 runs, the longest 5</text>",
    ] {
        assert!(sheet.contains(part), "{part}");
    }
    let sheet = String::from_utf8(folder.read("a<b>&c\u{1}.svg")).expect("text");
    assert!(
        sheet.contains(">a&lt;b&gt;&amp;c\u{fffd}</text>"),
        "{sheet}"
    );
}

/// Every element of a sheet is closed, in order.
fn balanced(sheet: &str) {
    let mut open: Vec<&str> = Vec::new();
    for tag in sheet.split('<').skip(1) {
        let (tag, _) = tag.split_once('>').expect("the end of a tag");
        let name = tag.split(' ').next().expect("a name");
        match name.strip_prefix('/') {
            Some(name) => assert_eq!(open.pop(), Some(name)),
            None if tag.ends_with('/') => {}
            None => open.push(name),
        }
    }
    assert_eq!(open, [""; 0]);
}

#[test]
fn a_sheet_over_a_file_by_force_alone() {
    let folder = night("map-force");
    folder.write("out.svg", b"old");
    let words = ["map", "night.pool", "--svg", "out.svg"];
    folder.run(&words).failed(
        3,
        "map: write out.svg: the file exists",
        "name another, or say --force to replace it",
    );
    assert_eq!(folder.read("out.svg"), b"old");
    folder
        .run(&[&words[..], &["--force"]].concat())
        .done("sound: 12 pages, edition 2\n");
    assert!(folder.read("out.svg").starts_with(b"<svg"));
}
