//! Format against the second program: answer and every byte of the slice, for
//! every number that an edition might have.

use danumrikal::Pool;
use support::{Edition, Rng, EDITIONS, MOST_PAGES, PER_PAGE};

extern "C" {
    /// The exported call, which is told a number; the wrapper's type has no
    /// other edition than the two.
    fn dnk_format(pool: *mut u8, len: usize, edition: u8) -> u64;
}

/// The answer by the number of the edition.
fn proved(pool: &mut [u8], edition: u8) -> Result<u32, u8> {
    // SAFETY: pointer and length are those of a slice that is lent for the call.
    let answer = unsafe { dnk_format(pool.as_mut_ptr(), pool.len(), edition) };
    match (answer >> 56) as u8 {
        0 => Ok(answer as u32),
        number => Err(number),
    }
}

fn same(edition: u8, len: usize, seed: u64) {
    let mut ours = Rng::new(seed).bytes(len);
    let mut theirs = ours.clone();
    let left = proved(&mut ours, edition);
    let right = reference::format(&mut theirs, edition).map_err(|refusal| refusal.number());
    let what = format!("edition {edition}, length {len}");
    assert_eq!(left, right, "{what}");
    assert!(ours == theirs, "{what}: the slices differ");
}

#[test]
fn lengths_around_the_first_pages_and_the_limits() {
    let around = |len| len - 50..len + 50;
    for edition in EDITIONS {
        let firsts = around(edition.length(1)).chain(around(edition.length(2)));
        let ends = [edition.length(12), edition.longest()].map(|len| len - 2..len + 3);
        let lengths = (0..300).chain(firsts).chain(ends.into_iter().flatten());
        for len in lengths.chain([20_000_000]) {
            same(edition.number, len, len as u64 + 1);
        }
    }
}

#[test]
fn page_counts() {
    for edition in EDITIONS {
        for pages in (1..=256).chain([257, 1_000, 2_048, MOST_PAGES - 1, MOST_PAGES]) {
            let len = edition.length(pages) + pages * 7 % PER_PAGE;
            same(edition.number, len, pages as u64);
        }
    }
}

/// 3 comes before 1 and 2.
#[test]
fn other_editions() {
    for edition in 0..=255 {
        for len in [0, 1, 4_263, 4_264, 4_335, 4_336, 49_496] {
            same(edition, len, len as u64 + 1);
        }
    }
    for edition in [0, 3, 4, 128, 129, 130, 255] {
        for len in [0, 4_336, 16_847_087, 16_847_088] {
            assert_eq!(
                proved(&mut vec![0xa5; len], edition),
                Err(3),
                "length {len}"
            );
        }
    }
}

#[test]
fn refusals_by_length() {
    let refusal = |edition: Edition, len| {
        let edition = danumrikal::Edition::from_number(edition.number).expect("an edition");
        let refused = Pool::new(&mut vec![0xa5; len]).format(edition);
        refused.unwrap_err().number()
    };
    for edition in EDITIONS {
        assert_eq!(refusal(edition, 0), 1);
        assert_eq!(refusal(edition, edition.shortest() - 1), 1);
        assert_eq!(refusal(edition, edition.longest() + 1), 2);
    }
}
