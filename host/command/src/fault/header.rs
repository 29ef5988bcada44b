//! Rule 1: edition, length and header.

use danumrikal::{Edition, MOST_PAGES};

use super::{fault, Fault, Place};
use crate::view::page_count;

/// Both shifts, as the header's second byte holds them.
const SHIFTS: u8 = 0x3c;

/// Rule 1.
pub fn wrong_header(bytes: &[u8]) -> Option<Fault> {
    let wrong = |what: String| fault(Place::Header, what);
    let Some(first) = bytes.first() else {
        return wrong("is missing: the file is empty".to_owned());
    };
    let Some(edition) = Edition::of(bytes) else {
        return wrong(format!("begins with {first}, which is no edition"));
    };
    let length = bytes.len();
    let Some(pages) = page_count(bytes) else {
        let least = edition.length(1);
        return wrong(format!(
            "says {edition}, where a page needs {least} bytes, and the file has {length}"
        ));
    };
    if pages > MOST_PAGES {
        let most = edition.length(MOST_PAGES + 1) - 1;
        return wrong(format!(
            "says {edition}, where a pool has at most {most} bytes, and the file has more"
        ));
    }
    if bytes[1] != SHIFTS {
        return wrong("has other shifts than 3 and 12".to_owned());
    }
    let told = u16::from_be_bytes([bytes[2], bytes[3]]);
    wrong(format!(
        "says {told} pages, and the file has room for {pages}"
    ))
}
