//! A broken example for each rule, and the number that it earns, in both
//! editions, and whether it can be mended: the table of `docs/RULES.md`, which
//! this test holds against what the pool answers.

use danumrikal::{check, check_mended, mend, Offset, Pool, Refusal};
use support::{Edition, Rng, EDITIONS, TWO};

const PAGES: usize = 8;
const NONE: u64 = 65_535;

/// A damage to a sound pool of eight pages.
type Damage = fn(&mut Vec<u8>);

/// The edition of a pool whose first byte is not damaged yet.
fn edition(pool: &[u8]) -> Edition {
    EDITIONS[usize::from(pool[0]) - 1]
}

fn word(pool: &[u8], at: usize) -> u64 {
    u64::from_be_bytes(pool[at..at + 8].try_into().expect("eight bytes"))
}

/// Sets `width` bits of the word at a byte, `low` bits from its end.
fn set(pool: &mut [u8], at: usize, low: u32, width: u32, value: u64) {
    let mask = ((1 << width) - 1) << low;
    let new = word(pool, at) & !mask | value << low;
    pool[at..at + 8].copy_from_slice(&new.to_be_bytes());
}

fn header(pool: &mut [u8], low: u32, width: u32, value: u64) {
    set(pool, 0, low, width, value);
}

/// First page, used and total of a class.
fn counts(pool: &mut [u8], class: usize, low: u32, width: u32, value: u64) {
    set(
        pool,
        edition(pool).class_record_at(class),
        low,
        width,
        value,
    );
}

/// The peak of a class, or the zero bits behind it.
fn third(pool: &mut [u8], class: usize, low: u32, width: u32, value: u64) {
    set(
        pool,
        edition(pool).class_record_at(class) + 16,
        low,
        width,
        value,
    );
}

fn map(pool: &mut [u8], page: usize, value: u64) {
    let at = edition(pool).page_record_at(page);
    pool[at..at + 8].copy_from_slice(&value.to_be_bytes());
}

/// A field of a page record but its map.
fn field(pool: &mut [u8], page: usize, low: u32, width: u32, value: u64) {
    set(
        pool,
        edition(pool).page_record_at(page) + 8,
        low,
        width,
        value,
    );
}

fn kind(pool: &mut [u8], page: usize, value: u64) {
    field(pool, page, 61, 3, value);
}

fn class(pool: &mut [u8], page: usize, value: u64) {
    field(pool, page, 57, 4, value);
}

fn run(pool: &mut [u8], page: usize, value: u64) {
    field(pool, page, 41, 16, value);
}

fn next(pool: &mut [u8], page: usize, value: u64) {
    field(pool, page, 25, 16, value);
}

fn previous(pool: &mut [u8], page: usize, value: u64) {
    field(pool, page, 9, 16, value);
}

/// Page 0 of class 8, page 1 free, page 2 full of class 2,048, pages 3 and 4 a
/// taken run, pages 5 to 7 free; the list of free runs is 1, 5.
fn sound(edition: Edition) -> Vec<u8> {
    let mut bytes = vec![0; edition.length(PAGES) + 100];
    reference::format(&mut bytes, edition.number).expect("eight pages");
    let mut pool = Pool::new(&mut bytes);
    assert_eq!(pool.alloc(8), Ok(Offset(64)));
    let chunk = pool.alloc(64).expect("room");
    assert_eq!(pool.alloc(2_048), Ok(Offset(8_192)));
    assert_eq!(pool.alloc(2_048), Ok(Offset(10_240)));
    assert_eq!(pool.alloc(8_192), Ok(Offset(12_288)));
    pool.free(chunk).expect("a live block");
    bytes
}

/// A byte of the map of page 0, which is of class 8.
fn map_byte(pool: &mut [u8], byte: usize) -> &mut u8 {
    let map = edition(pool).page_at(PAGES, 0);
    &mut pool[map + byte]
}

const CASES: &[(&str, Damage)] = &[
    ("nothing is damaged", |_| {}),
    ("callers' bytes and the tail hold anything", |pool| {
        let edition = edition(pool);
        pool[edition.callers_bytes(PAGES, 0, 64)].fill(0xa5);
        pool[edition.page_at(PAGES, 1)..].fill(0x5a);
    }),
    (
        "reqs and fails of every class are the largest numbers",
        |pool| {
            for class in 0..9 {
                let at = edition(pool).class_record_at(class);
                pool[at + 8..at + 16].fill(0xff);
            }
        },
    ),
    ("the slice is empty", |pool| pool.clear()),
    ("the slice is all zero", |pool| pool.fill(0)),
    ("the slice is all ones", |pool| pool.fill(0xff)),
    ("random bytes", |pool| *pool = Rng::new(5).bytes(pool.len())),
    ("one byte too few for a page", |pool| {
        pool.truncate(edition(pool).shortest() - 1)
    }),
    ("a page fewer than the header says", |pool| {
        pool.truncate(edition(pool).length(7))
    }),
    ("a page more than the header says", |pool| {
        pool.resize(edition(pool).length(9), 0)
    }),
    ("as long as 4,097 pages", |pool| {
        pool.resize(edition(pool).longest() + 1, 0)
    }),
    ("edition 0", |pool| header(pool, 56, 8, 0)),
    ("edition 3", |pool| header(pool, 56, 8, 3)),
    ("the other edition, of as many pages", |pool| pool[0] ^= 3),
    ("smallest shift 4", |pool| header(pool, 52, 4, 4)),
    ("page shift 11", |pool| header(pool, 48, 4, 11)),
    ("page count 7 in the header", |pool| header(pool, 32, 16, 7)),
    ("a page of kind 5", |pool| kind(pool, 3, 5)),
    ("a free page has a class", |pool| class(pool, 5, 1)),
    ("a free page has a map field", |pool| map(pool, 6, 1)),
    ("a free run of no page", |pool| run(pool, 1, 0)),
    ("a free run shorter than its pages", |pool| run(pool, 5, 2)),
    ("a free run past the last page", |pool| run(pool, 5, 4)),
    ("two free runs touch", |pool| {
        run(pool, 5, 1);
        kind(pool, 6, 1);
        run(pool, 6, 2);
        previous(pool, 7, 6);
    }),
    ("the last page of a free run does not lead back", |pool| {
        previous(pool, 7, NONE)
    }),
    ("an inner page of a free run has a previous", |pool| {
        previous(pool, 6, 5)
    }),
    ("a page inside a free run has a next", |pool| {
        next(pool, 6, 0)
    }),
    ("a taken run shorter than its pages", |pool| run(pool, 3, 1)),
    ("a taken run has a next", |pool| next(pool, 3, 0)),
    ("a page inside a taken run has a previous", |pool| {
        previous(pool, 4, 3)
    }),
    ("a page inside a free run among a taken one", |pool| {
        kind(pool, 4, 0)
    }),
    ("a class page of class 9", |pool| class(pool, 2, 9)),
    ("a class page has a run length", |pool| run(pool, 0, 1)),
    ("a chunk of the map is not marked", |pool| {
        *map_byte(pool, 0) = 0x7f
    }),
    ("a page of class 8 has a map field", |pool| map(pool, 0, 1)),
    ("an unused low bit of a map is set", |pool| {
        map(pool, 2, 0xc000_0000_0000_0001)
    }),
    ("a zero bit of a page record is set", |pool| {
        field(pool, 7, 0, 1, 1)
    }),
    ("no free run is listed", |pool| header(pool, 0, 16, NONE)),
    ("the first free run is a taken page", |pool| {
        header(pool, 0, 16, 3)
    }),
    ("the first free run is inside one", |pool| {
        header(pool, 0, 16, 6)
    }),
    ("the first free run is page 8 of 8", |pool| {
        header(pool, 0, 16, 8)
    }),
    ("the first free run is page 60000", |pool| {
        header(pool, 0, 16, 60_000)
    }),
    ("the list of free runs ends early", |pool| {
        next(pool, 1, NONE)
    }),
    ("the list of free runs is a ring", |pool| next(pool, 5, 1)),
    ("a free run is its own next", |pool| next(pool, 1, 1)),
    ("the free runs' links are crossed", |pool| {
        next(pool, 5, 1);
        next(pool, 1, NONE);
    }),
    ("previous does not lead back", |pool| {
        previous(pool, 5, NONE)
    }),
    ("the first free run has a previous", |pool| {
        previous(pool, 1, 5)
    }),
    ("a page with a free chunk is on no list", |pool| {
        counts(pool, 0, 48, 16, NONE)
    }),
    ("a class list begins with a free page", |pool| {
        counts(pool, 0, 48, 16, 1)
    }),
    ("a class list begins with page 8 of 8", |pool| {
        counts(pool, 0, 48, 16, 8)
    }),
    ("a class without pages has a first page", |pool| {
        counts(pool, 4, 48, 16, 2)
    }),
    ("two lists share a page", |pool| counts(pool, 1, 48, 16, 0)),
    ("a full page is on its list", |pool| {
        counts(pool, 8, 48, 16, 2)
    }),
    ("a full page has a next", |pool| next(pool, 2, 0)),
    ("a full page has a previous", |pool| previous(pool, 2, 0)),
    ("a listed class page is its own next", |pool| {
        next(pool, 0, 0)
    }),
    ("the first class page has a previous", |pool| {
        previous(pool, 0, 2)
    }),
    ("a class page without a chunk in use", |pool| {
        *map_byte(pool, 1) = 0
    }),
    ("free pages one too many", |pool| header(pool, 16, 16, 5)),
    ("free pages one too few", |pool| header(pool, 16, 16, 3)),
    ("used one too many", |pool| counts(pool, 0, 24, 24, 2)),
    ("used counts the map's own chunks", |pool| {
        counts(pool, 0, 24, 24, 9)
    }),
    ("a mark that used does not count", |pool| {
        *map_byte(pool, 63) = 1
    }),
    ("total with the map's own chunks", |pool| {
        counts(pool, 0, 0, 24, 512)
    }),
    ("total of a class without pages", |pool| {
        counts(pool, 5, 0, 24, 16)
    }),
    ("used of a class without pages", |pool| {
        counts(pool, 5, 24, 24, 1)
    }),
];

/// Damages to what edition 2 alone has.
const PEAK_CASES: &[(&str, Damage)] = &[
    ("a peak above used", |pool| third(pool, 0, 40, 24, 2)),
    ("peaks are the largest numbers", |pool| {
        for class in 0..9 {
            third(pool, class, 40, 24, 0xff_ffff);
        }
    }),
    ("a peak below used", |pool| third(pool, 8, 40, 24, 1)),
    ("no peak of a class in use", |pool| {
        third(pool, 0, 40, 24, 0)
    }),
    ("the first zero bit behind a peak is set", |pool| {
        third(pool, 4, 39, 1, 1)
    }),
    ("the last zero bit behind a peak is set", |pool| {
        third(pool, 8, 0, 1, 1)
    }),
];

/// The first rule that the pool breaks; a refused call does not change it.
fn first_broken(name: &str, mut pool: Vec<u8>) -> u8 {
    let rule = check(&pool).err().map_or(0, |rule| rule.number());
    assert_eq!(rule, reference::broken_rule(&pool), "{name}");
    let before = pool.clone();
    let answer = Pool::new(&mut pool).alloc(1);
    assert_eq!(answer == Err(Refusal::NotSound), rule != 0, "{name}");
    assert!(
        rule == 0 || pool == before,
        "{name}: a refused call changed the pool"
    );
    rule
}

/// What mending answers: `yes`, and then the copy is accepted and shows the live
/// blocks, or the refusal's number.
fn mended(name: &str, pool: &[u8]) -> String {
    let mut copy = vec![0; pool.len()];
    let answer = mend(pool, &mut copy);
    let second = reference::mend(pool, &mut vec![0; pool.len()]);
    let number = |refusal: reference::Refusal| refusal.number();
    assert_eq!(
        answer.map_err(Refusal::number),
        second.map_err(number),
        "{name}"
    );
    if let Err(refusal) = answer {
        assert_eq!(check_mended(pool, pool), Err(refusal), "{name}");
        return refusal.number().to_string();
    }
    assert_eq!(check_mended(pool, &copy), Ok(()), "{name}");
    let accepted = check_mended(pool, pool) == Ok(());
    assert_eq!(accepted, check(pool) == Ok(()), "{name}");
    "yes".into()
}

/// The first broken rule, and whether the pool can be mended, as a line ends.
fn told(name: &str, pool: Vec<u8>) -> String {
    let mended = mended(name, &pool);
    format!("{} | {mended} |\n", first_broken(name, pool))
}

fn damaged(edition: Edition, damage: Damage) -> Vec<u8> {
    let mut pool = sound(edition);
    damage(&mut pool);
    pool
}

fn table() -> String {
    let mut text = String::from("| Damage | First broken rule | Mended |\n|---|---|---|\n");
    for (name, damage) in CASES {
        let [line, other] = EDITIONS.map(|edition| told(name, damaged(edition, *damage)));
        assert_eq!(line, other, "{name}: the editions differ");
        text.push_str(&format!("| {name} | {line}"));
    }
    for (name, damage) in PEAK_CASES {
        let line = told(name, damaged(TWO, *damage));
        text.push_str(&format!("| edition 2: {name} | {line}"));
    }
    text
}

#[test]
fn the_table_of_the_documents_holds() {
    let stored = include_str!("../../../docs/RULES.md");
    let table = table();
    assert!(
        stored.ends_with(&table),
        "docs/RULES.md should end with\n{table}"
    );
}
