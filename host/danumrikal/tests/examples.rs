//! The example of SPEC 9.2, which is no theorem, offsets at a pool's end, and the
//! worked case, in both editions.

use danumrikal::{Edition, Offset, Pool, Refusal, PAGE};

const EDITIONS: [Edition; 2] = [Edition::One, Edition::Two];

/// A pool of so many pages, formatted.
fn bytes(edition: Edition, pages: usize) -> Vec<u8> {
    let mut bytes = vec![0; edition.length(pages)];
    assert_eq!(Pool::new(&mut bytes).format(edition), Ok(pages as u32));
    bytes
}

#[test]
fn a_page_of_class_8_has_504_chunks_for_callers() {
    for edition in EDITIONS {
        let mut bytes = bytes(edition, 1);
        let mut pool = Pool::new(&mut bytes);
        for chunk in 0..503 {
            assert_eq!(pool.alloc(8), Ok(Offset(64 + 8 * chunk)));
        }
        assert_eq!(pool.alloc(8), Ok(Offset(4_088)));
        assert_eq!(pool.alloc(8), Err(Refusal::NoRoom));
        assert_eq!(pool.check(), Ok(()));
    }
}

#[test]
fn offsets_at_the_end_of_the_pool() {
    for edition in EDITIONS {
        let mut bytes = bytes(edition, 12);
        let mut pool = Pool::new(&mut bytes);
        let end = 12 * PAGE as u32;
        assert_eq!(pool.free(Offset(end - 1)), Err(Refusal::NotTaken));
        assert_eq!(pool.free(Offset(end)), Err(Refusal::Outside));
    }
}

#[test]
fn the_whole_case() {
    for edition in EDITIONS {
        let mut bytes = bytes(edition, 12);
        let mut pool = Pool::new(&mut bytes);
        assert_eq!(pool.alloc(30), Ok(Offset(32)));
        assert_eq!(pool.alloc(64), Ok(Offset(4_096)));
        assert_eq!(pool.alloc(5_000), Ok(Offset(8_192)));
        assert_eq!(pool.free(Offset(32)), Ok(32));
        assert_eq!(pool.free(Offset(32)), Err(Refusal::NotTaken));
        assert_eq!(pool.alloc(0), Err(Refusal::NothingAsked));
        assert_eq!(pool.check(), Ok(()));
    }
}
