//! The rules of soundness one after another, as literally as they can be read
//! and with no thought for time or memory. It shares no code with the crate.

use crate::bits;
use support::{Edition, ONE, TWO};

pub const CHUNKS: [usize; 9] = [512, 256, 128, 64, 32, 16, 8, 4, 2];
pub const OWN: [usize; 9] = [8, 2, 1, 0, 0, 0, 0, 0, 0];
pub const NONE: usize = 65_535;

pub struct Page {
    map: u64,
    pub kind: usize,
    pub class: usize,
    pub run: usize,
    next: usize,
    previous: usize,
    zeros: usize,
    /// The chunks' marks, in a class page of one of the nine classes.
    pub marks: Vec<bool>,
}

impl Page {
    pub fn is_full(&self) -> bool {
        self.marks.iter().all(|mark| *mark)
    }

    /// Marked chunks other than the map's own.
    pub fn in_hands(&self) -> usize {
        self.marks.iter().filter(|mark| **mark).count() - OWN[self.class]
    }
}

fn read_page(bytes: &[u8], edition: Edition, pages: usize, page: usize) -> Page {
    let at = bits::page_record(edition, page);
    let field = |above, width| bits::get(bytes, at + above, width) as usize;
    let (kind, class) = (field(bits::KIND, 3), field(bits::CLASS, 4));
    let marks = if kind == 2 && class < 9 {
        let map = if class < 3 {
            8 * edition.page_at(pages, page)
        } else {
            at + bits::MAP
        };
        (0..CHUNKS[class])
            .map(|chunk| bits::get(bytes, map + chunk, 1) == 1)
            .collect()
    } else {
        Vec::new()
    };
    Page {
        map: bits::get(bytes, at + bits::MAP, 64),
        kind,
        class,
        run: field(bits::RUN, 16),
        next: field(bits::NEXT, 16),
        previous: field(bits::PREVIOUS, 16),
        zeros: field(bits::ZEROS, 9),
        marks,
    }
}

/// Edition and pages of a pool that obeys rule 1.
pub fn read(bytes: &[u8]) -> Option<(Edition, Vec<Page>)> {
    let (edition, shortest, too_long, head) = match bytes.first() {
        Some(1) => (ONE, 4_264, 16_847_016, 152),
        Some(2) => (TWO, 4_336, 16_847_088, 224),
        _ => return None,
    };
    if bytes.len() < shortest || bytes.len() >= too_long {
        return None;
    }
    let count = (bytes.len() - head) / 4_112;
    let header = |above, width| bits::get(bytes, above, width) as usize;
    if header(bits::MIN_SHIFT, 4) != 3
        || header(bits::PAGE_SHIFT, 4) != 12
        || header(bits::PAGES, 16) != count
    {
        return None;
    }
    let page = |page| read_page(bytes, edition, count, page);
    Some((edition, (0..count).map(page).collect()))
}

/// The first broken rule's number, or 0.
pub fn broken_rule(bytes: &[u8]) -> u8 {
    let Some((edition, pages)) = read(bytes) else {
        return 1;
    };
    let header = |above, width| bits::get(bytes, above, width) as usize;

    if !pages_divide(&pages) || !fields_are_as_described(&pages) || !links_are_as_described(&pages)
    {
        return 2;
    }

    let runs = |page: &Page| page.kind == 1;
    if !list_holds(&pages, header(bits::FIRST, 16), runs) {
        return 3;
    }

    let record = |class, above, width| {
        bits::get(bytes, bits::class_record(edition, class) + above, width) as usize
    };
    for class in 0..9 {
        let open = |page: &Page| page.kind == 2 && page.class == class && !page.is_full();
        if !list_holds(&pages, record(class, bits::CLASS_FIRST, 16), open) {
            return 4;
        }
    }
    let class_pages = || pages.iter().filter(|page| page.kind == 2);
    if class_pages().any(|page| page.is_full() && (page.next, page.previous) != (NONE, NONE)) {
        return 4;
    }

    if !class_pages_are_used(&pages) {
        return 5;
    }

    let free = pages.iter().filter(|page| page.kind < 2).count();
    if header(bits::FREE, 16) != free {
        return 6;
    }
    for (class, chunks) in CHUNKS.into_iter().enumerate() {
        let of_class = || class_pages().filter(|page| page.class == class);
        if record(class, bits::USED, 24) != of_class().map(Page::in_hands).sum::<usize>()
            || record(class, bits::TOTAL, 24) != of_class().count() * (chunks - OWN[class])
        {
            return 6;
        }
    }
    if edition == TWO {
        for class in 0..9 {
            if record(class, bits::PEAK, 24) < record(class, bits::USED, 24)
                || record(class, bits::PEAK_ZEROS, 40) != 0
            {
                return 6;
            }
        }
    }
    0
}

/// The target after a conversion, or the refusal's number.
pub fn converted(source: &[u8], target: &[u8]) -> Result<Vec<u8>, u8> {
    if source.first() != Some(&1) || broken_rule(source) != 0 {
        return Err(3);
    }
    let pages = (source.len() - 152) / 4_112;
    if target.len() < 224 || (target.len() - 224) / 4_112 != pages {
        return Err(12);
    }
    let mut bytes = vec![2];
    bytes.extend(&source[1..8]);
    for record in source[8..152].chunks(16) {
        bytes.extend(record);
        bytes.extend(&record[2..5]);
        bytes.extend([0; 5]);
    }
    bytes.extend(&source[152..152 + 4_112 * pages]);
    bytes.extend(&target[224 + 4_112 * pages..]);
    Ok(bytes)
}

/// Each class page has a chunk in a caller's hands.
pub fn class_pages_are_used(pages: &[Page]) -> bool {
    let mut class_pages = pages.iter().filter(|page| page.kind == 2);
    class_pages.all(|page| page.in_hands() > 0)
}

/// Every page lies in exactly one run or is a class page, and no two free runs
/// touch.
pub fn pages_divide(pages: &[Page]) -> bool {
    let mut holders = vec![0; pages.len()];
    for (first, page) in pages.iter().enumerate() {
        let (length, inside) = match page.kind {
            1 => (page.run, 0),
            2 => (1, 0),
            3 => (page.run, 4),
            _ => continue,
        };
        let end = first + length;
        if length == 0 || end > pages.len() {
            return false;
        }
        if pages[first + 1..end].iter().any(|page| page.kind != inside) {
            return false;
        }
        if page.kind == 1 && end < pages.len() && pages[end].kind == 1 {
            return false;
        }
        holders[first..end]
            .iter_mut()
            .for_each(|holder| *holder += 1);
    }
    holders.iter().all(|holder| *holder == 1)
}

/// Every field but links and zero bits, once the pages divide.
pub fn fields_are_as_described(pages: &[Page]) -> bool {
    pages.iter().all(|page| {
        let class = page.kind == 2 && page.class < 9 || page.class == 0;
        let run = matches!(page.kind, 1 | 3) || page.run == 0;
        let map = match page.kind {
            2 if page.class > 8 => false,
            2 if page.class > 2 => page.map.trailing_zeros() as usize >= 64 - CHUNKS[page.class],
            _ => page.map == 0,
        };
        let mut own = page
            .marks
            .iter()
            .zip(0..)
            .filter(|(_, chunk)| *chunk < OWN[page.class]);
        page.kind < 5 && class && run && map && own.all(|(mark, _)| *mark)
    })
}

/// Zero bits, and the links but those of kinds 1 and 2, once the pages divide.
fn links_are_as_described(pages: &[Page]) -> bool {
    let last_of_run = |number: usize| {
        let first = (0..number).rev().find(|first| pages[*first].kind == 1)?;
        (first + pages[first].run == number + 1).then_some(first)
    };
    pages.iter().enumerate().all(|(number, page)| {
        let back = match page.kind {
            0 => last_of_run(number).unwrap_or(NONE),
            _ => NONE,
        };
        let links = matches!(page.kind, 1 | 2) || (page.next, page.previous) == (NONE, back);
        page.zeros == 0 && links
    })
}

/// The list from `first` holds exactly the pages that belong, each once, ends,
/// and `previous` leads back.
fn list_holds(pages: &[Page], first: usize, belongs: impl Fn(&Page) -> bool) -> bool {
    let mut seen = vec![false; pages.len()];
    let mut before = NONE;
    let mut number = first;
    while number != NONE {
        if number >= pages.len() || seen[number] || pages[number].previous != before {
            return false;
        }
        seen[number] = true;
        before = number;
        number = pages[number].next;
    }
    pages
        .iter()
        .zip(seen)
        .all(|(page, seen)| belongs(page) == seen)
}
